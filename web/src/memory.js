// memory.js - registers, the data that labels name, and a map of RAM
import { make, table } from "./dom.js";
import { RAM } from "./elf.js";
import { NAMES, PC } from "./gdb.js";
import { last_running, state } from "./history.js";
import { page } from "./page.js";
import { colour_of, registers_at } from "./processes.js";
import { bytes_of_hex, count, decimal, hex } from "./text.js";
import { name_of } from "./told.js";

// how many labels are shown, and how many bytes of each
const LABELS = 10, BYTES = 32;

// The labels of the programs that name data, each { name, at, size, program }.
export function watched(run) {
	const labels = run.sources.flatMap((source, program) => (source.layout?.labels || []).filter((label) => label.is_data && label.size > 0)
		.map(({ name, at, size }) => ({ name, at, size: Math.min(size, BYTES), program })));
	return labels.slice(0, LABELS);
}

// In which order registers are shown, which of them always, and which as addresses.
const ORDER = [PC, 2, 1, 10, 11, 12, 13, 14, 15, 16, 17, 8, 9, 18, 19, 20, 21, 22, 23, 24, 25, 26, 27, 5, 6, 7, 28, 29, 30, 31, 3, 4];
const ALWAYS = [PC, 2, 1, 10, 11, 17, 8, 9, 5], ADDRESSES = [PC, 1, 2];
const value_words = (i, value) => (!ADDRESSES.includes(i) && (value < 4096 || value > 0xfffff000) ? String(value | 0) : `0x${hex(value)}`);

export function register_view() {
	const { ran, at, chosen } = page, look = ran.looks.get(at), t = state(ran, at);
	const number = [chosen, last_running(ran, at), look?.of.keys().next().value].find((one) => look?.of.has(one)), values = look?.of.get(number);
	if (!values) return make("div", { class: "half" }, make("h3", {}, "Registers"), make("p", { class: "none" }, look ? "no process is left" : ".."));
	const old = registers_at(at - 1, number);
	const cells = ORDER.filter((i) => values[i] || ALWAYS.includes(i))
		.map((i) => make("span", { class: `${values[i] ? "" : "zero"} ${old && old[i] !== values[i] ? "changed" : ""}`,
		title: `${NAMES[i]} = 0x${hex(values[i], 8)} = ${values[i] | 0}` }, make("b", {}, NAMES[i]), value_words(i, values[i])));
	const title = `Registers of ${name_of(ran, at, number)}${number === t.current ? "" : ", which doesn't run"}; the others are 0`;
	return make("div", { class: "half" }, make("h3", {}, title), make("div", { class: "registers" }, ...cells));
}

// The bytes at a label: as a text, a word, or bytes.
function data_words(text, size) {
	if (!text || text.startsWith("E")) return "?";
	const bytes = bytes_of_hex(text), end = bytes.indexOf(0), head = end < 0 ? bytes : bytes.subarray(0, end);
	const is_text = (byte) => byte >= 32 && byte < 127 || byte === 10;
	if (head.length > 1 && head.every(is_text)) return `“${String.fromCharCode(...head).replace(/\n/g, "\\n")}”`;
	if (size === 4) return String(new DataView(bytes.buffer).getInt32(0, true));
	return Array.from(bytes.subarray(0, 12), String).join(" ") + (size > 12 ? " .." : "");
}
export function data_view() {
	const { ran, at } = page, look = ran.looks.get(at), old = ran.looks.get(at - 1), labels = watched(ran);
	if (!labels.length || !look) return [];
	const rows = labels.map((label, i) => make("tr", {}, make("td", {}, make("code", {}, label.name)),
		make("td", { class: "num none" }, `0x${hex(label.at)}`),
		make("td", { class: `num ${old?.memory[i] && old.memory[i] !== look.memory[i] ? "changed" : ""}` }, data_words(look.memory[i], label.size))));
	return [make("div", { class: "half" }, table("Data of the programs", [], rows))];
}

// The parts of RAM by address, with what lies between them.
function parts_of_ram(run, n) {
	const t = state(run, n), parts = run.regions.map((region, i) => ({ from: region.from, to: region.to, kind: "code", name: run.names[i] }));
	parts.push(...t.free.map((one) => ({ from: one.at, to: one.at + one.size, kind: "free", name: "free" })));
	for (const { process, from, to } of run.stacks.filter((one) => one.since <= n && n < one.until))
		parts.push({ from, to, kind: `stack ${colour_of(process)}`, name: `stack of ${name_of(run, n, process)}` });
	parts.sort((a, b) => a.from - b.from);
	const all = [], heap = Math.max(...run.regions.map((region) => region.to)) + 7;
	let end = 0;
	for (const part of [...parts, { from: RAM, to: RAM }]) {
		if (part.from > end + 7) all.push({ from: end, to: part.from,
			...(part.from <= heap ? { kind: "free", name: "unused" } : { kind: "taken", name: "taken" }) });
		if (part.from < RAM) all.push(part);
		end = Math.max(end, part.to);
	}
	return all;
}
export function map_view() {
	const cells = parts_of_ram(page.ran, page.at)
		.map(({ from, to, kind, name }) => make("div",
		{ role: "listitem", class: kind, style: `flex:${Math.max(1.6, Math.log2(to - from) - 4).toFixed(2)} 1 0`,
		title: `${name}: 0x${hex(from)} to 0x${hex(to - 1)}, ${count(to - from, "byte")}` }, name, make("br"), decimal(to - from)));
	return make("div", {}, make("h3", {}, "Memory, from address 0 to 0xfffff (widths aren't to scale)"),
		make("div", { class: "map", role: "list" }, ...cells));
}
