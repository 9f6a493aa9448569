// schedules.js - schedules as texts and as events
import { last_at_most } from "./text.js";

const COUNTED = ["step", "tick", "tx", "disk0", "disk1", "round"];
const ALONE = ["fail0", "fail1", "dump"];
// what a round asks for, and how many events that is
const ROUND = [["step", 1000], ["tx", 64], ["disk1", 8], ["disk0", 8], ["tick", 1]];
const ROUND_EVENTS = 1081;

// The events of a schedule as { runs, total }: runs { kind, n, first, line, bytes } of equal events with the number of the first
// of them and their line in the text, and how many events there are. It is null if a line is wrong. Runs after `most` events aren't listed.
export function events_of(text, most = 1e9) {
	const events = { runs: [], total: 0, most };
	for (const [index, line] of text.split("\n").entries()) {
		const words = line.trim().split(/[ \t]+/).filter(Boolean);
		if (words.length && !words[0].startsWith("#") && !add_line(events, words, index + 1)) return null;
	}
	return events;
}
function add_run(events, kind, n, line, bytes) {
	if (events.total < events.most && n) events.runs.push({ kind, n, first: events.total + 1, line, bytes });
	events.total += n;
}
function add_line(events, [kind, ...rest], line) {
	if (kind === "type") {
		add_run(events, kind, rest.length, line, rest);
		return true;
	}
	if (ALONE.includes(kind) && !rest.length) {
		add_run(events, kind, 1, line);
		return true;
	}
	if (!COUNTED.includes(kind) || rest.length !== 1 || !/^\d{1,10}$/.test(rest[0]) || Number(rest[0]) < 1) return false;
	if (kind === "round") add_rounds(events, Number(rest[0]), line);
	else add_run(events, kind, Number(rest[0]), line);
	return true;
}
function add_rounds(events, n, line) {
	for (let k = 0; k < n; k++) {
		if (events.total >= events.most) {
			events.total += (n - k) * ROUND_EVENTS;
			return;
		}
		for (const [kind, m] of ROUND) add_run(events, kind, m, line);
	}
}

// The run that an event is of.
export function run_at(runs, event) {
	const run = runs[last_at_most(runs, event, (one) => one.first)];
	return run && event < run.first + run.n ? run : null;
}
// The line that asks for the first n events of a run.
export function line_of(run, n) {
	if (run.kind === "type") return `type ${run.bytes.slice(0, n).join(" ")}`;
	return ALONE.includes(run.kind) ? run.kind : `${run.kind} ${n}`;
}

// The schedule of the events up to `to`, with `dump` after each event from `after` on, and first of all if `after` is 0.
// A line `dump` of the schedule itself is an event that prints the tables once; before `after` it is left out, so that the first
// tables of the transcript are those after the event `after`.
export function dumped(runs, after, to) {
	const parts = after === 0 ? ["dump\n"] : [];
	let is_shown = after === 0;
	for (const run of runs) {
		if (run.first > to) break;
		const skipped = Math.max(0, Math.min(run.n, after - run.first + 1));
		if (skipped && run.kind !== "dump") parts.push(line_of(run, skipped) + "\n");
		if (run.first + skipped > after && !is_shown) {
			parts.push("dump\n");
			is_shown = true;
		}
		const n = Math.min(run.n, to - run.first + 1) - skipped;
		if (n > 0) parts.push(each_dumped(run, skipped, n));
	}
	return parts.join("");
}
// The schedule of the events up to one, in lines of their own.
export function schedule_to(runs, to) {
	return runs.filter((run) => run.first <= to).map((run) => line_of(run, Math.min(run.n, to - run.first + 1)) + "\n").join("");
}
function each_dumped(run, skipped, n) {
	if (run.kind === "dump") return "dump\n";
	if (run.kind === "type") return run.bytes.slice(skipped, skipped + n).map((byte) => `type ${byte}\ndump\n`).join("");
	return `${line_of(run, 1)}\ndump\n`.repeat(n);
}

// The text of the first n events: whole lines as they are, the last one in part.
export function cut_text(text, runs, n) {
	const run = run_at(runs, n), lines = text.split("\n");
	if (!run) return text;
	const of_line = runs.filter((one) => one.line === run.line), taken = of_line.filter((one) => one.first <= n);
	const is_whole = taken.length === of_line.length && run.first + run.n - 1 === n;
	const last = is_whole ? [lines[run.line - 1]] : taken.map((one) => line_of(one, Math.min(one.n, n - one.first + 1)));
	return [...lines.slice(0, run.line - 1), ...last].join("\n") + "\n";
}

// The schedule with the end of a quantum, two ticks, after each of these numbers of steps.
export function with_preemptions(runs, places) {
	const lines = [];
	let steps = 0;
	for (const run of runs) {
		if (run.kind !== "step") {
			lines.push(line_of(run, run.n));
			continue;
		}
		let from = 0;
		for (const k of places) {
			if (k < steps || k >= steps + run.n) continue;
			if (k - steps > from) lines.push(`step ${k - steps - from}`);
			lines.push("# the end of a quantum", "tick 2");
			from = k - steps;
		}
		lines.push(`step ${run.n - from}`);
		steps += run.n;
	}
	return lines.join("\n") + "\n";
}
// How many steps there are up to an event, and the first event up to which there are so many.
export function steps_before(runs, event) {
	let steps = 0;
	for (const run of runs) if (run.kind === "step" && run.first <= event) steps += Math.min(run.n, event - run.first + 1);
	return steps;
}
export function event_of_steps(runs, steps) {
	let done = 0;
	for (const run of runs) {
		if (run.kind !== "step") continue;
		if (done + run.n >= steps) return run.first + steps - done - 1;
		done += run.n;
	}
	return runs.length ? runs.at(-1).first + runs.at(-1).n - 1 : 0;
}
// The lines that type a text and let the console send it. It keeps 20 bytes of echo, so no line types more than 16.
export function typed_lines(bytes, text) {
	const lines = [`# ${text}`];
	for (let i = 0; i < bytes.length; i += 16)
		lines.push(`type ${Array.from(bytes.subarray(i, i + 16), (byte) => byte.toString(16).padStart(2, "0")).join(" ")}`, "tx 32");
	return [...lines, "step 200", "tx 64"].join("\n");
}
