// beside.js - the page Beside: the run on the schedule before, beside that which is stepped, with the first difference
import { $, button, make, table } from "./dom.js";
import { lines_at, state } from "./history.js";
import { page } from "./page.js";
import { set_schedule } from "./panels.js";
import { load_stretch, run_of } from "./runs.js";
import { run } from "./running.js";
import { event_of_steps, steps_before } from "./schedules.js";
import { fetch_steps, go } from "./stepper.js";
import { event_words, name_in, waits_for } from "./told.js";
import { decimal } from "./text.js";

// how many lines are shown before the first difference, and in all
const BEFORE = 12, MOST_ROWS = 300;

// The lines that a run printed, each { event, line }.
export const printed = (ran) => Object.keys(ran.states.lines)
	.flatMap((key) => ran.states.lines[key].map((line) => ({ event: ran.first + Number(key), line })));
// The index of the first line in which two lists differ, or -1.
export function first_difference(left, right) {
	const i = left.findIndex((one, k) => one.line !== right[k]?.line);
	return i < 0 && right.length > left.length ? left.length : i;
}

// Runs the schedule before, too.
export async function load_beside(mine) {
	const beside = await run_of({ ...page.work, schedule: page.base });
	await load_stretch(beside, 0, null);
	await fetch_steps(beside, 1);
	if (mine !== page.running) return;
	page.beside = beside;
	show_beside();
}
// The event of the run beside at which as many steps were taken as in the run that is shown.
export const event_beside = () => Math.min(page.beside.last, event_of_steps(page.beside.runs, steps_before(page.ran.runs, page.at)));

// Changes places: the other run is stepped, and this one is beside it.
function change_places(event) {
	const other = page.base;
	page.base = page.work.schedule;
	set_schedule(other);
	return run(event);
}
function show_beside() {
	const left = printed(page.beside), right = printed(page.ran), i = first_difference(left, right);
	const from = Math.max(0, i < 0 ? 0 : i - BEFORE), to = Math.min(Math.max(left.length, right.length), from + MOST_ROWS);
	const cells = (one, does) => {
		if (!one) return [make("td"), make("td")];
		const event = button(decimal(one.event), () => does(one.event), { class: "plain", title: `to event ${one.event}` });
		return [make("td", { class: "num" }, event), make("td", {}, make("code", {}, one.line))];
	};
	const kind = (k) => (k === i ? "first-difference" : i >= 0 && k > i ? "later" : "");
	const rows = Array.from({ length: to - from }, (_, k) => from + k)
		.map((k) => make("tr", { class: kind(k) }, ...cells(left[k], change_places), ...cells(right[k], go)));
	const said = i < 0 ? "Both print the same lines." : `They print the same ${decimal(i)} lines, and then differ: the first difference is marked.`;
	$("beside").replaceChildren(make("p", {}, said), make("div", { id: "beside-states" }),
		button("Step through the other run", () => change_places(0)),
		table(`What they print${from ? `, from line ${from + 1} on` : ""}`, ["event", "the schedule before", "event", "this schedule"], rows));
	mark_beside();
}
// The states of both after as many steps.
export function mark_beside() {
	if (!page.beside || !page.ran?.states || !$("beside-states")) return;
	const n = event_beside();
	$("beside-states").replaceChildren(state_of("The schedule before", page.beside, n), state_of("This schedule", page.ran, page.at));
	const rows = [...$("beside").querySelectorAll("tbody tr")].filter((row) => row.children.length === 4 && row.closest("#beside-states") === null);
	for (const row of rows) row.classList.toggle("here", lines_at(page.ran, page.at).length > 0 && row.children[2].textContent === decimal(page.at));
	if (page.view === "beside") $("beside").querySelector(".here")?.scrollIntoView({ block: "nearest" });
}
function state_of(title, ran, n) {
	const rows = state(ran, n).procs.map((one) => {
		const does = make("span", { class: `state ${one.state}` }, waits_for(ran, n, one));
		return make("tr", { class: one.state }, make("td", {}, name_in(ran, one)), make("td", {}, does));
	});
	return make("div", {}, make("p", { class: "event" }, event_words(ran, n)),
		table(`${title}, after event ${decimal(n)} of ${decimal(ran.count)}`, ["process", "state"], rows));
}
