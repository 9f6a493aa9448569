// states.mjs - the states that the page reads, on drawn schedules, are those of which native gdb is told
import { dumped, events_of } from "../src/schedules.js";
import { hex_of } from "../src/text.js";
import { run_states } from "../src/worker.js";
import { inputs_of, native } from "./native.mjs";
import { counter, exercises, wasm_module } from "./page.mjs";

const wasm = wasm_module(), { check, end } = counter("states");
const SCHEDULES = 3, LINES = 30;

// A row of numbers that is the same each time.
function drawer(seed) {
	let state = seed;
	return (n) => {
		state = (Math.imul(state, 1103515245) + 12345) >>> 0;
		return (state >>> 16) % n;
	};
}
function drawn_schedule(draw) {
	const kinds = ["step", "step", "step", "step", "tick", "tx", "disk0", "type", "fail0", "dump"];
	return Array.from({ length: LINES }, () => {
		const kind = kinds[draw(kinds.length)];
		if (kind === "type") return `type ${Array.from({ length: 1 + draw(3) }, () => (97 + draw(26)).toString(16)).join(" ")}${draw(2) ? " 0a" : ""}`;
		return kind.startsWith("fail") || kind === "dump" ? kind : `${kind} ${1 + draw(kind === "step" ? 14 : 3)}`;
	}).join("\n") + "\n";
}
function packet(text) {
	const sum = Array.from(text).reduce((all, letter) => all + letter.charCodeAt(0), 0) & 255;
	return `$${text}#${sum.toString(16).padStart(2, "0")}`;
}
// The tables that native gdb prints after each of these events, without the names as texts that it puts after those in digits.
function native_tables({ files, args }, events) {
	const asked = events.map((event) => packet(`qRcmd,${hex_of(`goto ${event}`)}`) + packet(`qRcmd,${hex_of("tables")}`)).join("");
	const answer = native(["gdb", ...args], files, `${packet("QStartNoAckMode")}+${asked}${packet("D")}`).out.toString();
	const texts = [];
	let text = "";
	for (const [, reply] of answer.matchAll(/\$([^#]*)#../g)) {
		if (/^O([0-9a-f]{2})+$/.test(reply)) text += Buffer.from(reply.slice(1), "hex").toString("latin1");
		else if (reply === "OK") {
			if (text.includes("now ")) texts.push(text.slice(text.indexOf("now ")).replace(/^(proc .*?) ".*"$/gm, "$1").trimEnd());
			text = "";
		}
	}
	return texts;
}
function of_schedule(name, work) {
	const { files, args } = inputs_of(work), events = events_of(work.schedule), total = events.total;
	for (const after of [0, total >> 1]) {
		const answer = run_states({ module: wasm, args: ["run", ...args],
			files: { ...files, "schedule.txt": dumped(events.runs, after, total) } }, () => {});
		const numbers = Array.from(answer.at, (_, i) => after + i), wanted = native_tables({ files, args }, numbers);
		if (numbers.length !== wanted.length) check(false, `${name} after ${after}: ${numbers.length} states`, () => `natively ${wanted.length}`);
		numbers.forEach((event, i) => check(answer.tables[answer.at[i]] === wanted[i], `${name}, event ${event}`,
			() => `${answer.tables[answer.at[i]]}\nnatively\n${wanted[i]}\n${work.schedule}`));
	}
}

for (const [i, { name, programs }] of exercises.entries()) {
	const draw = drawer(1000 + i);
	for (let k = 0; k < SCHEDULES; k++) of_schedule(name, { programs, schedule: drawn_schedule(draw) });
}
end();
