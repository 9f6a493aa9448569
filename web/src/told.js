// told.js - what happens in a run, in words
import { before, idle_since, lines_at, state } from "./history.js";
import { instruction_words } from "./places.js";
import { run_at } from "./schedules.js";
import { effect_words } from "./steps.js";
import { count, decimal, letter } from "./text.js";
import { ANSWERS, KINDS, STATES, TRAPS, call_words, reply_words } from "./words.js";

// The name of a process: an image's is that of its program.
export function name_in(run, { number, name = "" }) {
	if (number === 0) return "the null process";
	const image = /^image(\d+)$/.exec(name), own = image ? run.names[image[1] - 1] || name : name;
	return own ? `${number} ${own}` : `process ${number}`;
}
export function name_of(run, n, number) {
	const here = state(run, n).procs.find((one) => one.number === number), earlier = before(run, n).procs.find((one) => one.number === number);
	return name_in(run, here || earlier || { number });
}
export const call_at = (run, n, number) => run.calls.findLast((one) => one.process === number && one.since <= n && n < one.until);

// The call in which a process goes on in the event n: one that waited has what is left of it in a step that carries out no instruction.
export function continued_call(run, n) {
	const { current } = before(run, n);
	return n > run.first && run_at(run.runs, n)?.kind === "step" && current !== 0 ? call_at(run, n - 1, current) : undefined;
}

// What the event n is.
export function event_words(run, n) {
	if (n === 0) return "The beginning: the programs are loaded";
	const since = idle_since(run, n);
	if (since < n) return `Events ${decimal(since)} to ${decimal(n)}: ${before(run, n).current === 0 ? "the null process idles, and " : ""}nothing happens`;
	const of = run_at(run.runs, n), t = state(run, n), old = before(run, n);
	return `Event ${decimal(n)}${of ? `: ${kind_words(run, n, of, t, old)}` : ""}`;
}
function kind_words(run, n, of, t, old) {
	switch (of.kind) {
	case "step": return step_words(run, n, old);
	case "type": return `somebody types ${letter(parseInt(of.bytes[n - of.first], 16))}`;
	case "tick": return `the clock ticks, now ${t.now}; the quantum has ${count(t.quantum, "tick")} left`;
	case "tx": return lines_at(run, n).length ? KINDS.tx : "the console has nothing to send";
	case "disk0": case "fail0": return old.disk0 ? KINDS[of.kind] : "the raw disk has no request";
	default: return KINDS[of.kind];
	}
}
function step_words(run, n, old) {
	const name = name_of(run, n, old.current), step = run.steps.get(n), call = continued_call(run, n);
	if (call) return `${name} goes on in its call ${call.name}`;
	return `${name} ${old.current === 0 ? "idles" : `executes ${step ? instruction_words(run, step) : "an instruction"}`}`;
}

// What the event n printed and changed, a sentence each.
export function happenings(run, n) {
	const said = line_words(run, n), step = run.steps.get(n), is_step = run_at(run.runs, n)?.kind === "step" && before(run, n).current !== 0;
	if (said.length || !step || !is_step || continued_call(run, n)) return said;
	return [step.effect ? effect_words(step.effect) : "no register has a new value"];
}
function line_words(run, n) {
	const out = [];
	let call = null;
	for (const line of lines_at(run, n)) {
		const w = line.split(" "), name = () => name_of(run, n, Number(w[1]));
		if (w[0] === "call") {
			call = { process: w[1], name: w[2], parts: [`${name()} ${call_words(w[2], w.slice(3))}`] };
			out.push(call.parts);
		} else if (w[0] === "ret" && call?.process === w[1] && !call.is_answered) {
			call.parts.push(reply_words(Number(w[2]), call.name));
			call.is_answered = true;
		} else out.push([other_words(w, name) || line]);
	}
	const is_left = call && state(run, n).procs.some((one) => one.number === Number(call.process));
	if (is_left && !call.is_answered && call.name !== "exit") call.parts.push("no answer yet");
	return out.map((parts) => parts.join(": "));
}
function other_words(w, name) {
	switch (w[0]) {
	case "ret": return `${name()} has its answer: ${ANSWERS[w[2]] || w[2]}`;
	case "run": return `now ${name()} runs`;
	case "con": return `the console sends ${letter(parseInt(w[1], 16))}`;
	case "trap": return `${name()} is ended by a trap: ${TRAPS[w[2]] || w[2]}`;
	case "file": {
		const whose = w[1] === "0" ? "a process that is gone" : name();
		return `the call on files of ${whose} ${w[2] === "turn" ? "has had a turn of the disk" : "takes effect"}`;
	}
	default: return null;
	}
}

// What comes after the event n.
export function next_words(run, n) {
	if (n === run.count) return { done: "The run is done: no process is left.", panic: "The kernel panicked." }[run.end] || "The schedule ends here.";
	const of = run_at(run.runs, n + 1), t = state(run, n), step = run.steps.get(n + 1);
	if (!of) return "";
	if (of.kind === "type") return `Next: ${letter(parseInt(of.bytes[n + 1 - of.first], 16))} is typed`;
	if (of.kind !== "step") return `Next: ${KINDS[of.kind]}`;
	if (t.current === 0) return "Next: the null process idles";
	const name = name_of(run, n, t.current), call = call_at(run, n, t.current);
	return `Next: ${name} ${call ? `goes on in its call ${call.name}` : `executes ${step ? instruction_words(run, step) : "an instruction"}`}`;
}

// What a process does or waits for in the state after the event n.
export function waits_for(run, n, process) {
	const t = state(run, n), wake = t.sleepers.find((one) => one.process === process.number)?.wake ?? "?";
	if (process.state === "sleep") return `sleeps until tick ${wake}`;
	if (process.state === "timed") return `waits for a message until tick ${wake}`;
	if (process.state !== "wait") return STATES[process.state] || process.state;
	const call = call_at(run, n, process.number), sem = t.sems.find((one) => one.waiters.includes(process.number));
	if (call && /^pt/.test(call.name)) return `waits for port ${call.args[0]}`;
	if (call?.name === "getbuf") return `waits for a buffer of pool ${call.args[0]}`;
	if (call && call.name !== "wait") return `waits for ${["the console", "", "the raw disk"][call.args[0]] || "files"}`;
	return sem ? `waits for semaphore ${sem.number}` : "waits for a device";
}
