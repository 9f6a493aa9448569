// processes.js - the tables of a state: processes, ready list, semaphores, sleepers, ports, pools and disks
import { button, make, table } from "./dom.js";
import { before, state } from "./history.js";
import { page } from "./page.js";
import { place_of, place_words } from "./places.js";
import { PC } from "./gdb.js";
import { call_at, name_of, waits_for } from "./told.js";
import { count } from "./text.js";

export const registers_at = (n, number) => page.ran.looks.get(n)?.of.get(number);
export const is_in_call = (number) => Boolean(call_at(page.ran, page.at, number));
// Where a process stands in its source.
export const place_at = (number) => place_of(page.ran, registers_at(page.at, number)?.[PC], is_in_call(number));
const bare_name = (number) => (number === 0 ? "null process" : name_of(page.ran, page.at, number).replace(/^\d+ /, ""));
export const colour_of = (number) => (number ? `p${(number - 1) % 8 + 1}` : "p0");

// The table of processes; a click on a name calls `choose` with its number.
export function process_table(choose) {
	const t = state(page.ran, page.at), heads = ["", "name", "state", "goes on at", "priority", "made by", "message"];
	return make("div", { class: "wide" }, table("Processes", heads, t.procs.map((process) => process_row(process, choose))));
}
function process_row(process, choose) {
	const { ran, at } = page, { number } = process, old = before(ran, at).procs.find((one) => one.number === number);
	const cell = (value, kind, key) => make("td", { class: `${kind} ${!old || key && old[key] !== process[key] ? "changed" : ""}` }, value);
	const label = number === 0
		? bare_name(0) : button(bare_name(number), () => choose(number),
		{ class: "plain", title: "Show its registers", "aria-pressed": page.chosen === number });
	const where = number === 0 ? "" : place_words(ran, registers_at(at, number)?.[PC], is_in_call(number)), is_same = old?.state === process.state;
	return make("tr", { class: process.state },
		cell(make("span", {}, make("span", { class: `swatch ${colour_of(number)}` }), String(number)), "num"), cell(label, "name"),
		make("td", { class: is_same ? "" : "changed" }, make("span", { class: `state ${process.state}` }, waits_for(ran, at, process))),
		make("td", { class: "num where", title: where }, where),
		cell(String(process.priority), "num", "priority"), cell(number === 0 ? "" : String(process.parent), "num"),
		cell(process.message === null ? "" : String(process.message), "num", "message"));
}

const queue = (title, is_same, ...kids) => make("div", { class: `queue ${is_same ? "" : "changed"}` }, make("h3", {}, title),
	...kids.filter(Boolean));
const none = (text) => make("span", { class: "none" }, text);
const chip = (number, kind, more = "") => make("span", { class: `chip ${kind}` },
	(number === 0 ? "null process" : name_of(page.ran, page.at, number)) + more);
const or_none = (nodes, text) => (nodes.length ? nodes : [none(text)]);

// The lists in which processes are, and what semaphores, ports, pools and disks have.
export function queue_view() {
	const { ran, at } = page, t = state(ran, at), old = before(ran, at);
	const is_same = (part) => JSON.stringify(part(t)) === JSON.stringify(part(old));
	const ready = queue("Ready list, first to last", is_same((x) => x.ready),
		...or_none(t.ready.map((one) => chip(one.process, "ready", ` (${one.key})`)), "nobody"));
	const sleepers = t.sleepers.length
		? [queue("Sleepers, by waking tick", is_same((x) => x.sleepers),
		...t.sleepers.map((one) => chip(one.process, "sleep", ` → ${one.wake}`)))] : [];
	const of_number = (list, number) => is_same((x) => x[list].find((one) => one.number === number));
	return make("div", { class: "queues" }, ready, ...t.sems.map((sem) => semaphore(sem, of_number("sems", sem.number))), ...sleepers,
		...t.ports.map((port) => port_queue(port, of_number("ports", port.number))),
		...t.pools.map((pool) => queue(`Pool ${pool.number}: buffers of ${pool.size} bytes`, of_number("pools", pool.number),
		`${pool.free} free, ${pool.held} taken`)),
		...devices(t, old));
}
// what the kernel's own semaphores are of (docs/KERNEL.md)
const OWNED = [", of console input", ", of console output", ", of the raw disk", ", of files"];
function semaphore(sem, is_same) {
	const taken = page.ran.takes.findLast((one) => one.sem === sem.number && one.event <= page.at);
	return queue(`Semaphore ${sem.number}${OWNED[sem.number] || ""}: count ${sem.count}`, is_same,
		...or_none(sem.waiters.map((process) => chip(process, "wait")), "nobody waits"),
		taken && make("div", { class: "none" }, `last taken by ${name_of(page.ran, page.at, taken.process)}`));
}
function port_queue(port, is_same) {
	const room = page.ran.rooms.findLast((one) => one.port === port.number && one.event <= page.at)?.room;
	const title = `Port ${port.number}: ${room === undefined ? count(port.messages.length, "message") : `${port.messages.length} of ${room}`}`;
	return queue(title, is_same, ...or_none(port.messages.map((message) => make("span", { class: "chip" }, String(message))), "empty"));
}
function devices(t, old) {
	const { ran } = page, list = [];
	ran.uses_disk ??= ran.states.tables.some((text) => /^disk0 [1-9]/m.test(text));
	if (ran.uses_disk) list.push(queue("Raw disk", t.disk0 === old.disk0, count(t.disk0, "request waits", "requests wait")));
	if (t.disk1 !== "clean" || t.files.length) list.push(queue("Disk with files", t.disk1 === old.disk1, t.disk1));
	for (const file of t.files) {
		const earlier = old.files.find((one) => one.device === file.device);
		list.push(queue(`Device ${file.device}`, JSON.stringify(file) === JSON.stringify(earlier),
			`a file of ${count(file.size, "byte")}, at ${file.position}`));
	}
	return list;
}

// For a narrow screen, on which the source is far away: its lines around the next one.
export function excerpt() {
	const { ran, at } = page, place = place_at(state(ran, at).current);
	const text = place && (place.file ? ran.texts[place.file] : ran.sources[place.program].lines?.join("\n"));
	if (!text) return make("div", { class: "excerpt" });
	const from = Math.max(0, place.line - 3), lines = text.split("\n").slice(from, place.line + 2);
	return make("div", { class: "excerpt", "aria-hidden": "true" },
		...lines.map((line, i) => make("div", { class: from + i + 1 === place.line ? "next" : "" }, `${String(from + i + 1).padStart(3)} ${line}`)));
}
