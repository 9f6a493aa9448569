// history.js - what the lines of a run say beside its tables: calls under way, who took a semaphore, stacks, and where nothing happens
import { RAM } from "./elf.js";
import { run_at } from "./schedules.js";
import { tables_of } from "./tables.js";
import { last_at_most } from "./text.js";
import { is_refusal } from "./words.js";

// A stretch of a run is { first, last, states, earlier, runs, parsed }: its states are those after the events first to last, as StateReader has
// them, `earlier` the lines that were printed before it.
export function state(run, n) {
	const i = run.states.at[n - run.first];
	if (!run.parsed.has(i)) run.parsed.set(i, tables_of(run.states.tables[i]));
	return run.parsed.get(i);
}
export const before = (run, n) => state(run, Math.max(run.first, n - 1));
export const lines_at = (run, n) => run.states.lines[n - run.first] || [];
// All lines with their events, those from before the stretch first.
function* all_lines(run) {
	for (const line of run.earlier) yield [run.first - 1, line];
	for (const [key, lines] of Object.entries(run.states.lines)) for (const line of lines) yield [run.first + Number(key), line];
}

// The process that is current in the state after an event.
export function current_at(run, n) {
	const i = run.states.at[n - run.first];
	run.currents[i] ??= Number(/^proc (\d+) current/m.exec(run.states.tables[i])?.[1] ?? 0);
	return run.currents[i];
}
// The process that runs, or ran last if the null process does.
export function last_running(run, n) {
	while (n > run.first && current_at(run, n) === 0) n--;
	return current_at(run, n);
}

// The calls, each under way from its event to that of its answer; who took which semaphore, how many messages a port has room for, and at which
// events a call was refused.
export function calls_of(run) {
	const calls = [], takes = [], rooms = [], refusals = new Set(), open = new Map();
	for (const [event, line] of all_lines(run)) {
		const w = line.split(" "), process = Number(w[1]);
		if (w[0] === "call") {
			const call = { process, name: w[2], args: w.slice(3), since: event, until: Infinity };
			open.set(process, call);
			calls.push(call);
		} else if (w[0] === "ret" && open.has(process)) {
			const call = open.get(process);
			call.until = event;
			open.delete(process);
			if (is_refusal(Number(w[2]), call.name)) refusals.add(event);
			if (call.name === "wait" && w[2] === "0") takes.push({ event, sem: Number(call.args[0]), process });
			if (call.name === "ptcreate" && Number(w[2]) >= 0) rooms.push({ event, port: Number(w[2]), room: Number(call.args[0]) });
		}
	}
	return { calls: calls.filter((call) => call.until > call.since), takes, rooms, refusals };
}
export function output_of(run) {
	const output = [];
	for (const [event, line] of all_lines(run)) if (line.startsWith("con ")) output.push({ event, byte: parseInt(line.slice(4), 16) });
	return output;
}

// Which stack is whose and when: those of the images lie at the top of RAM; a `create` takes what the heap has lost in its event.
export function stacks_of(run) {
	const stacks = run.first === 0 ? stacks_of_images(run) : [];
	for (const [key, lines] of Object.entries(run.states.lines)) {
		const n = run.first + Number(key);
		if (n === run.first) continue;
		if (lines.some((line) => / create /.test(line))) stacks.push(...stack_made(run, n, lines));
		if (!lines.some((line) => / exit$| kill |^trap /.test(line))) continue;
		const left = new Set(state(run, n).procs.map((one) => one.number));
		for (const stack of stacks) if (stack.until === Infinity && stack.since < n && !left.has(stack.process)) stack.until = n;
	}
	return stacks;
}
function stacks_of_images(run) {
	const stacks = [];
	let top = RAM;
	for (const [i, region] of run.regions.entries()) {
		const size = Math.max(400, region.stack + 7 & ~7);
		top -= size;
		stacks.push({ process: i + 1, from: top, to: top + size, since: 0, until: Infinity });
	}
	// the free list tells whether that is so
	const free = state(run, 0).free.at(-1);
	return free && free.at + free.size !== top ? [] : stacks;
}
function stack_made(run, n, lines) {
	const process = Number(lines.find((line) => line.startsWith("ret "))?.split(" ")[2]), free = before(run, n).free, after = state(run, n).free;
	const lost = free.find((one) => !after.some((two) => two.at === one.at && two.size === one.size));
	if (!(process > 0) || !lost) return [];
	const rest = after.find((two) => two.at === lost.at);
	return [{ process, from: lost.at + (rest ? rest.size : 0), to: lost.at + lost.size, since: n, until: Infinity }];
}

const is_plain = (kind) => kind === "step" || kind === "tx" || kind.startsWith("disk");
const is_same = (run, n) => !run.states.lines[n - run.first] && run.states.at[n - run.first] === run.states.at[n - run.first - 1];
// The events at which something happens: that printed, changed a table, or aren't a plain step or completion. The last one is always there.
export function stops_of(run) {
	const stops = [];
	for (let n = run.first; n <= run.last; n++)
		if (n === run.first || n === run.last || !is_same(run, n) || !is_plain(run_at(run.runs, n)?.kind || "step")) stops.push(n);
	return stops;
}
// The events without the inner ones of idle stretches, in which the null process runs and nothing happens.
export function folds_of(run) {
	const is_idle = (n) => {
		const kind = run_at(run.runs, n)?.kind || "step";
		return n > run.first && is_same(run, n) && is_plain(kind) && (kind !== "step" || current_at(run, n) === 0);
	};
	const folds = [];
	for (let n = run.first; n <= run.last; n++) if (n === run.last || !is_idle(n) || !is_idle(n + 1)) folds.push(n);
	return folds;
}
// The first event of the idle stretch that an event ends, if it is one of more.
export function idle_since(run, n) {
	const at = last_at_most(run.folds, n), earlier = run.folds[at - 1];
	return at > 0 && run.folds[at] === n && earlier < n - 1 ? earlier + 1 : n;
}
