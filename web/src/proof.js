// proof.js - the page Proof: whether the programs keep the rule of a lock on every schedule, as the command `prove` says it
import { $, make, say } from "./dom.js";
import { xinu } from "./engine.js";
import { page } from "./page.js";
import { show_fault } from "./panels.js";
import { Refused, images_of, program_name, source_of, stopped_words } from "./runs.js";
import { guarded } from "./stepper.js";
import { lines_of, utf8 } from "./text.js";

const PROVED = 0, NOT_PROVED = 10, NOT_FOLLOWED = 14;
const FIELDS = ["lock", "word", "rule"];

// What comments such as `#! lock 4 guards counter` and `#! counter = rounds` say, of all programs.
export function said_in(texts) {
	const said = {};
	for (const line of texts.flatMap(lines_of)) {
		const guards = /#!\s*lock\s+(\d+)\s+guards\s+(\w+)\s*$/.exec(line), rule = /#!\s*(\w+)\s*=\s*(.+?)\s*$/.exec(line);
		if (guards) [said.lock, said.word] = guards.slice(1);
		else if (rule && (said.word === undefined || said.word === rule[1])) said.rule = rule[2];
	}
	return said;
}
const texts = () => page.work.programs.flatMap(({ text }) => (text === undefined ? [] : [text]));
// The address of a word, which is a number or a label of one of the layouts.
export function address_of(word, layouts) {
	if (/^\d+$/.test(word)) return word;
	const label = layouts.flatMap((layout) => layout?.labels || []).find(({ name }) => name === word);
	if (!label) throw new Refused(`No program has a label “${word}”: name the word that the lock guards by its label or its address.`);
	return String(label.at);
}
// The fields are filled by the comments, where nothing was written into them.
export function fill_claim() {
	const said = said_in(texts());
	for (const field of FIELDS) if (!$(field).value && said[field]) $(field).value = said[field];
}
export function forget_claim() {
	for (const field of FIELDS) $(field).value = "";
	$("proof").replaceChildren();
}
// The place that the answer's first line names: which program, and which line of its text.
function place_in(text, layouts) {
	const [, number, address] = /(\d+)\.img, address (\d+),/.exec(text) || [], at = Number(address);
	if (!number) return null;
	const line = layouts[number - 1]?.lines.find((one) => one.at <= at && at < one.at + one.size)?.line || 0;
	return { key: `program ${number - 1}`, line };
}
const with_names = (text) => text.replace(/(\d+)\.img/g, (_, number) => program_name(page.work.programs[number - 1]));

async function prove_now() {
	const [lock, word, rule] = FIELDS.map((field) => $(field).value.trim()), images = await images_of(page.work);
	if (!lock || !word || !rule) throw new Refused("What is to be proved isn't said: a lock, its word and the rule, here or in comments of a program.");
	const files = Object.fromEntries(images.map((image, i) => [`${i + 1}.img`, image]));
	const layouts = (await Promise.all(page.work.programs.map((program) => source_of(program)))).map(({ layout }) => layout);
	const address = address_of(word, layouts);
	const answer = await xinu(["prove", "--lock", lock, "--word", address, "--rule", rule, ...Object.keys(files)], { files });
	if (answer.trap) throw new Refused(stopped_words(answer));
	if (![PROVED, NOT_PROVED, NOT_FOLLOWED].includes(answer.status)) throw new Refused(with_names(answer.err.trim()));
	return { status: answer.status, layouts, text: utf8(answer.out).trimEnd().replace(`the word at ${address}`, word === address ? "$&" : `${word} (at ${address})`) };
}
export async function prove_all() {
	const start = performance.now();
	fill_claim();
	show_fault(null);
	say("Proving ..");
	const answer = await guarded(prove_now);
	if (!answer) {
		$("proof").replaceChildren(make("p", { class: "fault-text" }, $("status").textContent));
		return;
	}
	const place = answer.status === PROVED ? null : place_in(answer.text, answer.layouts), where = place?.line ? `  (line ${place.line})` : "";
	const [first, ...rest] = lines_of(with_names(answer.text));
	const heads = { [PROVED]: "proved", [NOT_PROVED]: "refuted", [NOT_FOLLOWED]: "refuted" };
	$("proof").replaceChildren(make("p", { class: heads[answer.status] }, first + where), make("pre", { class: "text" }, rest.join("\n")));
	if (place) show_fault(new Refused(first, place.key, place.line));
	say(`${Math.round(performance.now() - start)} ms`);
}
