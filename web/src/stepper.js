// stepper.js - where the run stands, the ways to go, and what is shown there
import { mark_beside } from "./beside.js";
import { draw_bar, place_of_click } from "./bar.js";
import { console_node, show_console } from "./console.js";
import { $, make, say } from "./dom.js";
import { Stopped, xinu } from "./engine.js";
import { PC, answers, questions } from "./gdb.js";
import { state } from "./history.js";
import { last_line, next_line } from "./lines.js";
import { data_view, map_view, register_view, watched } from "./memory.js";
import { page } from "./page.js";
import { choose_key } from "./panels.js";
import { place_of } from "./places.js";
import { excerpt, is_in_call, place_at, process_table, queue_view, registers_at } from "./processes.js";
import { LIMIT, load_stretch, stretch_of } from "./runs.js";
import { run_at, schedule_to } from "./schedules.js";
import { steps_of } from "./steps.js";
import { continued_call, event_words, happenings, name_of, next_words } from "./told.js";
import { bytes_of, count, decimal, last_at_most, utf8 } from "./text.js";

// of how many processes registers are fetched, how many events around one, and over how many steps are listed
const LIVING = 12, AROUND = 40, STOPS_AROUND = 15, LISTED = 1500;

// The events that the slider goes over.
export function slider_list() {
	const { ran } = page, by = $("by").value;
	return by === "all" ? Array.from({ length: ran.last - ran.first + 1 }, (_, i) => ran.first + i) : by === "stops" ? ran.stops : ran.folds;
}
export function set_slider() {
	const slider = $("slider"), list = slider_list();
	page.list = list;
	slider.max = list.length - 1;
	slider.value = Math.max(0, last_at_most(list, page.at));
	draw_bar(list);
}
export const redraw = () => page.ran?.states && page.list && draw_bar(page.list);

// Loads the stretch that an event is in, and tells its progress.
export async function load_states(n, mine = page.running) {
	const { ran } = page, first = stretch_of(n), to = Math.min(first + LIMIT, ran.count);
	await load_stretch(ran, first, (done) => mine === page.running && say(`State ${decimal(done)} of ${decimal(to - first)} ..`));
}
// Runs what may be stopped, and says what went wrong.
export async function guarded(does) {
	try {
		return await does();
	} catch (why) {
		if (!(why instanceof Stopped)) say(String(why.message || why), true);
		return null;
	}
}
export async function go(n, follows = true) {
	const { ran } = page;
	if (!ran?.states) return;
	const to = Math.max(0, Math.min(ran.count, n));
	if (to < ran.first || to > ran.last && ran.last < ran.count) {
		const mine = page.running;
		await guarded(() => load_states(to));
		if (mine !== page.running || to < ran.first || to > ran.last) return;
		page.at = to;
		set_slider();
		say(count(ran.count, "event"));
	}
	page.at = Math.max(ran.first, Math.min(ran.last, to));
	$("slider").value = Math.max(0, last_at_most(page.list, page.at));
	show(follows);
	look(page.at);
}

// The next event of an ascending list, or that before; outside the stretch the next event there.
const next_in = (list) => list[last_at_most(list, page.at) + 1] ?? Math.min(page.ran.last + 1, page.ran.count);
const last_in = (list) => {
	const i = last_at_most(list, page.at), here = list[i] === page.at ? i - 1 : i;
	return list[here] ?? Math.max(page.ran.first - 1, 0);
};
const steps = () => ($("by").value === "all" ? page.list : page.ran.folds);
const is_by_lines = () => $("by").value === "lines";
export const WAYS = {
	first: () => go(0),
	less: () => go(last_in(page.ran.stops)),
	back: () => go(is_by_lines() ? last_line(page.ran, page.at) : last_in(steps())),
	forth: () => go(is_by_lines() ? next_line(page.ran, page.at) : next_in(steps())),
	more: () => go(next_in(page.ran.stops)),
	last: () => go(page.ran.count),
};
export const go_to_place = (i) => go(page.list[i]);
export const go_to_click = (click) => page.ran?.states && go_to_place(place_of_click(click, page.list.length));

// Play goes on over the events of the slider until the end.
export function play(is_on) {
	clearInterval(page.timer);
	page.timer = is_on && page.ran?.states ? setInterval(play_on, 1000 / Number($("speed").value)) : null;
	$("play").textContent = page.timer ? "Pause" : "Play";
	$("play").setAttribute("aria-pressed", Boolean(page.timer));
	$("what").setAttribute("aria-live", page.timer ? "off" : "polite");
	if (page.timer && page.at === page.ran.count) go(0);
}
function play_on() {
	if (!page.ran?.states || page.at >= page.ran.count) play(false);
	else if (is_by_lines()) WAYS.forth();
	else go(next_in(page.list));
}

// Draws what is known of the state after the event `page.at`.
export function show(follows = true) {
	const { ran, at } = page, t = state(ran, at);
	const said = make("ul", {}, ...happenings(ran, at).map((text) => make("li", {}, text)));
	$("what").replaceChildren(make("p", { class: "event" }, event_words(ran, at)), said, make("p", { class: "next" }, next_words(ran, at)));
	$("place").textContent = `after event ${decimal(at)} of ${decimal(ran.count)} · tick ${t.now}`;
	$("slider").setAttribute("aria-valuetext", `after event ${at}, tick ${t.now}: ${name_of(ran, at, t.current)} runs`);
	for (const id of ["less", "back", "first"]) $(id).disabled = at === 0;
	for (const id of ["more", "forth", "last"]) $(id).disabled = at === ran.count;
	const choose = (number) => {
		page.chosen = page.chosen === number ? null : number;
		show(false);
	};
	const focused = document.activeElement?.closest("#see button")?.textContent;
	lay_around(console_node(), [excerpt(), process_table(choose), queue_view()], [register_view(), ...data_view(), map_view()]);
	// a button that was drawn anew keeps the focus
	if (focused) [...$("see").querySelectorAll("button")].find((one) => one.textContent === focused)?.focus();
	show_console();
	mark_lines(follows);
	if (page.view === "beside") mark_beside();
}
// Puts nodes before and after one that stays in its place.
function lay_around(node, earlier, later) {
	if (node.parentNode !== $("see")) $("see").replaceChildren(node);
	while (node.previousSibling) node.previousSibling.remove();
	while (node.nextSibling) node.nextSibling.remove();
	node.before(...earlier);
	node.after(...later);
}

// Marks in the texts the line that comes next, the one that was carried out, where each other process is, and the line of the schedule.
export function mark_lines(follows = false) {
	const { ran, at, editors } = page;
	if (!ran?.states || ran.is_stale) return;
	const t = state(ran, at), step = ran.steps.get(at + 1), done = run_at(ran.runs, at)?.kind === "step" && !continued_call(ran, at) && ran.steps.get(at);
	const pc = t.current === 0 ? undefined : registers_at(at, t.current)?.[PC] ?? (step?.process === t.current ? step.pc : undefined);
	const next = place_of(ran, pc, is_in_call(t.current)), last = done ? place_of(ran, done.pc) : null, tags = tags_of(t);
	if (follows && next && page.file < page.tabs.length - 1 && editors.has(next.key) && choose_key(next.key)) return;
	for (const [key, editor] of editors) {
		if (key === "schedule") continue;
		editor.mark({ done: last?.key === key ? last.line : 0, next: next?.key === key ? next.line : 0 }, true,
			tags.filter((tag) => tag.key === key));
	}
	const coming = run_at(ran.runs, at + 1), past = run_at(ran.runs, at);
	editors.get("schedule")?.mark({ next: coming?.line || 0, done: coming?.line === past?.line ? 0 : past?.line || 0 }, true);
}
function tags_of(t) {
	return t.procs.filter((one) => one.number && one.number !== t.current).flatMap((process) => {
		const place = place_at(process.number);
		return place ? [{ key: place.key, line: place.line, text: String(process.number), state: process.state,
			title: name_of(page.ran, page.at, process.number) }] : [];
	});
}

// The events around one to which the keys lead.
function near(n) {
	const { ran } = page, list = new Set([n]), i = last_at_most(ran.stops, n), f = last_at_most(ran.folds, n);
	for (let k = -AROUND; k <= AROUND; k++) list.add(n + k).add(ran.folds[f + k]);
	for (let k = -STOPS_AROUND; k <= STOPS_AROUND; k++) list.add(ran.stops[i + k]);
	return [...list].filter((one) => one >= ran.first && one <= ran.last).sort((a, b) => a - b);
}
const is_listed = (ran, n) => n >= ran.steps_from && n < ran.steps_to;
// Fetches registers and data of the events around one, and the steps of a stretch; then what is shown is drawn anew.
async function look(n) {
	const { ran } = page;
	if (page.is_looking || ran.looks.has(n) && is_listed(ran, n)) return;
	page.is_looking = true;
	const is_done = await guarded(async () => {
		await fetch_looks(ran, near(n).filter((one) => !ran.looks.has(one)));
		if (!is_listed(ran, n)) await fetch_steps(ran, n);
		return true;
	});
	page.is_looking = false;
	if (!is_done || !page.ran?.states) return;
	if (ran === page.ran) show(false);
	look(page.at);
}
async function fetch_looks(ran, events) {
	const labels = watched(ran),
		looks = events.map((event) =>
		({ event, processes: state(ran, event).procs.map((one) => one.number).filter((number) => number > 0).slice(0, LIVING) }));
	if (!looks.length) return;
	const answer = await xinu(["gdb", ...ran.args], { files: ran.files, stdin: bytes_of(questions(looks, labels)) });
	for (const [event, found] of answers(utf8(answer.out), looks, labels)) ran.looks.set(event, found);
}
// `explain` goes through all of its schedule, so it gets that of the events up to the last one that is listed.
export async function fetch_steps(ran, n) {
	const from = Math.max(1, n - LISTED), to = Math.min(ran.last, n + LISTED), files = { ...ran.files, "schedule.txt": schedule_to(ran.runs, to) };
	if (to >= from) ran.steps = steps_of(utf8((await xinu(["explain", "--steps", `${from}..${to}`, ...ran.args], { files })).out));
	Object.assign(ran, { steps_from: n - LISTED, steps_to: to === ran.last ? Infinity : to });
}
