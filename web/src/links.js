// links.js - a run in a link: programs, schedule, disks and sources in the part of the address after the #, which no server gets
import { $, say } from "./dom.js";
import { page } from "./page.js";
import { bytes_of, count, from_base64, through, to_base64, utf8 } from "./text.js";

// how long an address may become by itself
const LONGEST = 100000;
const DISKS = ["disk0", "disk1"];

export const to_url = (text) => text.replace(/\+/g, "-").replace(/\//g, "_").replace(/=+$/, "");
export const from_url = (text) => text.replace(/-/g, "+").replace(/_/g, "/");

// What is written as it is kept: bytes in base64 (web/README.md).
export function plain_of(work, races) {
	const plain = { v: 1, about: work.about,
		programs: work.programs.map(({ name, bytes, text }) => (bytes ? { name, bytes: to_base64(bytes) } : { name, text })),
		schedule: work.schedule, races };
	for (const disk of DISKS) if (work[disk]) plain[disk] = to_base64(work[disk]);
	if (work.sources) plain.sources = work.sources;
	return plain;
}
// The reverse. It may be a stranger's: what isn't as it should be is refused.
export function work_of(plain) {
	const is_text = (one) => typeof one === "string";
	const is_right = plain?.v === 1 && is_text(plain.schedule) && Array.isArray(plain.programs) && plain.programs.length
		&& plain.programs.every((one) => is_text(one.name) && (is_text(one.text) || is_text(one.bytes)));
	if (!is_right) throw new TypeError("this is no run");
	const work = { about: is_text(plain.about) ? plain.about : "", schedule: plain.schedule, races: plain.races, sources: texts_given(plain.sources),
		programs: plain.programs.map(({ name, text, bytes }) => (is_text(bytes) ? { name, bytes: from_base64(bytes) } : { name, text })) };
	for (const disk of DISKS) if (is_text(plain[disk])) work[disk] = from_base64(plain[disk]);
	return work;
}
function texts_given(sources) {
	const texts = Object.entries(sources || {}).filter(([, text]) => typeof text === "string");
	return texts.length ? Object.fromEntries(texts) : undefined;
}
export async function fragment_of(plain) {
	return to_url(to_base64(await through(new CompressionStream("deflate-raw"), bytes_of(JSON.stringify(plain)))));
}
export async function work_of_fragment(fragment) {
	return work_of(JSON.parse(utf8(await through(new DecompressionStream("deflate-raw"), from_base64(from_url(fragment))))));
}

const races_given = () => [Number($("preemptions").value), Number($("within").value)];
export const link_of = () => fragment_of(plain_of(page.work, races_given()));
// Whether what is written is as it was given.
function is_given(one) {
	const { work } = page, is_same = ({ text, bytes }, i) => text === work.programs[i].text && bytes === work.programs[i].bytes;
	return one.schedule === work.schedule && one.about === work.about && DISKS.every((disk) => one[disk] === work[disk])
		&& one.programs.length === work.programs.length && one.programs.every(is_same);
}
// What was written stays in the address, if it isn't too long: it is there after a reload. The list of exercises says whose it is.
export async function keep() {
	const i = page.exercises.findIndex(is_given), own = page.given && is_given(page.given) ? "given" : "own";
	$("exercise").value = i >= 0 ? String(i) : own;
	const fragment = $("exercise").value === "own" ? await link_of() : "";
	if (fragment.length < LONGEST) history.replaceState(null, "", fragment ? `#w=${fragment}` : location.pathname + location.search);
}
export async function share() {
	history.replaceState(null, "", `#w=${await link_of()}`);
	try {
		await navigator.clipboard.writeText(location.href);
		say(`Link copied, ${count(location.href.length, "letter")}`);
	} catch {
		say("The link is in the address bar");
	}
}
