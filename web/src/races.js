// races.js - the page Races: the outcomes of a program, each of which can be stepped through
import { $, button, make, say, table } from "./dom.js";
import { xinu } from "./engine.js";
import { page } from "./page.js";
import { set_schedule, show_fault } from "./panels.js";
import { Refused, images_of, inputs, stopped_words } from "./runs.js";
import { run } from "./running.js";
import { events_of, with_preemptions } from "./schedules.js";
import { guarded } from "./stepper.js";
import { count, decimal, lines_of, text_of_hex, utf8 } from "./text.js";
import { name_in } from "./told.js";
import { view } from "./views.js";
import { STATES, TRAPS } from "./words.js";

const numbers_in = (text) => (text.match(/\d+/g) || []).map(Number);
// The rows of the table that `races` prints, each { number, runs, places, events, lines }, and its last line.
export function outcomes_of(text) {
	const rows = [], lines = lines_of(text);
	for (const line of lines) {
		const head = /^outcome (\d+): (\d+) schedules?, first with preemptions after (none|[\d ]+)(?:, at events? ([\d ]+))?$/.exec(line);
		if (head) rows.push({ number: Number(head[1]), runs: Number(head[2]), places: numbers_in(head[3]), events: numbers_in(head[4] || ""), lines: [] });
		else if (line.startsWith("  ") && rows.length) rows.at(-1).lines.push(line.trim());
	}
	return { rows, sum: lines.at(-1) || "" };
}
// What an outcome's lines say: { sent, end, left }: what the console sent, how the run ended, and a sentence for each other line.
export function outcome_words(lines, run_shown) {
	const [, sent, end] = /^("(?:[^"\\]|\\.)*") (.*)$/.exec(lines[0]) || [null, '""', lines[0] || ""];
	const waits = new Map(lines.map((line) => line.split(" ")).filter((w) => w[0] === "wait").map((w) => [w[2], w[1]]));
	const left = lines.slice(1).flatMap((line) => {
		const w = line.split(" ");
		if (w[0] === "wait") return [];
		if (w[0] === "trap") return [`process ${w[1]} is ended by a trap: ${TRAPS[w[2]] || w[2]}`];
		if (w[0] !== "proc") return [line];
		const name = name_in(run_shown, { number: Number(w[1]), name: w[6] && w[6] !== "-" ? text_of_hex(w[6]) : "" });
		return [`${name} ${w[2] === "wait" && waits.has(w[1]) ? `waits for semaphore ${waits.get(w[1])}` : STATES[w[2]] || w[2]}`];
	});
	const ends = end.replace("end done", "no process is left").replace("end schedule", "the schedule ends").replace("stuck", "nobody can go on")
		.replace("end panic", "the kernel panics");
	return { sent: sent === '""' ? "" : sent, end: ends, left };
}

function tell_progress(text) {
	const [, tried, all] = /(\d+) of (\d+) schedules/.exec(text) || [];
	if (all) say(`${decimal(Number(tried))} of ${decimal(Number(all))} schedules ..`);
}
export async function try_all() {
	const start = performance.now(), base = page.base ?? page.work.schedule;
	show_fault(null);
	say("Trying ..");
	const told = await guarded(async () => {
		const { args, files } = inputs(page.work, await images_of(page.work), base);
		const asked = ["races", "--preemptions", $("preemptions").value, "--within", $("within").value, "--found", "found"];
		const answer = await xinu([...asked, ...args], { files }, tell_progress);
		if (answer.status !== 0) throw new Refused(answer.trap ? stopped_words(answer) : answer.err.trim());
		return answer;
	});
	if (!told) {
		$("outcomes").replaceChildren(make("p", { class: "fault-text" }, `No table: ${$("status").textContent}`));
		return;
	}
	show_outcomes(utf8(told.out), base, told.files.found && utf8(told.files.found));
	say(`${Math.round(performance.now() - start)} ms`);
}
// Shows the table; the schedule of the second row was written by the program, those of the others are put together here.
function show_outcomes(text, base, found) {
	const { rows, sum } = outcomes_of(text), runs = events_of(base).runs;
	const take = (row) => take_row(base, row.number === 2 && found ? found : row.places.length ? with_preemptions(runs, row.places) : base, row);
	const heads = ["", "what came out", "schedules", "first with a preemption after", ""];
	const said = rows.length === 1 ? "One outcome: on each of these schedules the run comes to the same."
		: `${count(rows.length, "outcome")}: the program depends on when it is preempted.`;
	$("outcomes").replaceChildren(table(sum, heads, rows.map((row) => outcome_row(row, () => take(row)))), make("p", { class: "after" }, said));
}
function outcome_row(row, take) {
	const { sent, end, left } = outcome_words(row.lines, { names: page.work.programs.map((program) => program.name.replace(/^\d+_|\.\w+$/g, "")) });
	const what = make("td", { title: row.lines.join("\n") }, make("div", {}, make("code", {}, sent), `${sent ? ": " : ""}${end}`),
		...left.map((line) => make("div", { class: "none" }, line)));
	return make("tr", {}, make("td", { class: "num" }, String(row.number)), what, make("td", { class: "num" }, decimal(row.runs)),
		make("td", { class: "num" }, row.places.length ? `step ${row.places.join(", ")}` : "no step"), make("td", {}, button("Step through", take)));
}
// Runs a row's schedule, and stands before its first preemption.
function take_row(base, schedule, row) {
	page.base = schedule === base ? null : base;
	$("base").hidden = page.base === null;
	$("tab-beside").hidden = page.base === null;
	set_schedule(schedule);
	view("step");
	return run(row.events[0] ?? 0);
}
export function back_to_base() {
	set_schedule(page.base);
	forget_base();
	return run();
}
export function forget_base() {
	Object.assign(page, { base: null, beside: null });
	$("base").hidden = true;
	$("tab-beside").hidden = true;
	if (page.view === "beside") view("step");
}
