// bar.js - the bar of a run under the slider: who runs, and where calls, refusals, traps, bytes sent and ticks are
import { $, make } from "./dom.js";
import { current_at, lines_at } from "./history.js";
import { page } from "./page.js";
import { colour_of } from "./processes.js";
import { run_at } from "./schedules.js";
import { decimal, last_at_most } from "./text.js";
import { name_of } from "./told.js";

// kinds of marks, the most telling first, with their variables of style.css
const MARKS = [["trap or failed disk", "--red"], ["a refused call", "--amber"], ["a call or an answer", "--blue"],
	["a byte sent or typed", "--green"], ["a tick", "--soft"]];
// the mark of accesses that race (judge.js), which goes over both rows
const RACING = ["an access that races", "--race"];
// the height of the row of those who run, of the gap, and of the marks; the slider's knob leaves so much at both ends
const RUNS = 8, GAP = 3, MARK = 15, INSET = 8;
// how many processes the legend names
const MOST_PROCESSES = 9;

// Which mark an event has: an index of MARKS, or -1.
function mark_of(run, n) {
	const lines = lines_at(run, n), kind = run_at(run.runs, n)?.kind || "";
	if (lines.some((line) => line.startsWith("trap")) || kind.startsWith("fail")) return 0;
	if (run.refusals.has(n)) return 1;
	if (lines.some((line) => /^(call|ret|file)/.test(line))) return 2;
	if (lines.some((line) => line.startsWith("con")) || kind === "type") return 3;
	return kind === "tick" ? 4 : -1;
}
// Stretches of the list in which one process is current: { process, from, to } in places of the list.
function stretches(run, list) {
	const all = [];
	for (const [i, n] of list.entries()) {
		const process = current_at(run, n);
		if (all.length && all.at(-1).process === process) all.at(-1).to = i + 1;
		else all.push({ process, from: i, to: i + 1, event: n });
	}
	return all;
}

// Draws the bar over the events of a list, as the slider goes over them.
export function draw_bar(list) {
	const canvas = $("bar"), scale = devicePixelRatio, width = canvas.clientWidth;
	if (!page.ran?.states || !width) return;
	canvas.width = width * scale;
	canvas.height = (RUNS + GAP + MARK) * scale;
	const pen = canvas.getContext("2d"), style = getComputedStyle(document.documentElement);
	const colour = (name) => style.getPropertyValue(name).trim(), x = (i) => INSET + (i / Math.max(1, list.length - 1)) * (width - 2 * INSET);
	const all = stretches(page.ran, list);
	pen.scale(scale, scale);
	for (const { process, from, to } of all) {
		pen.fillStyle = colour(`--${colour_of(process)}`);
		pen.fillRect(x(from), 0, Math.max(1, x(Math.min(to, list.length - 1)) - x(from)), RUNS);
	}
	// where many events share a column, the most telling mark is drawn last
	const marks = list.map((n, i) => [mark_of(page.ran, n), i]).filter(([kind]) => kind >= 0).sort((a, b) => b[0] - a[0]);
	for (const [kind, i] of marks) {
		pen.fillStyle = colour(MARKS[kind][1]);
		pen.fillRect(x(i) - .75, RUNS + GAP, 1.5, MARK);
	}
	const racing = [...page.ran.racing || []].filter((n) => list[0] <= n && n <= list.at(-1));
	pen.fillStyle = colour(RACING[1]);
	for (const n of racing) pen.fillRect(x(last_at_most(list, n)) - 1, 0, 2, RUNS + GAP + MARK);
	lay_legend(all, new Set(marks.map(([kind]) => kind)), racing.length > 0);
}
function lay_legend(all, kinds, is_racing) {
	const began = new Map();
	for (const { process, event } of all) if (!began.has(process)) began.set(process, event);
	const item = (name, kind, style = "") => make("li", {}, make("span", { class: `swatch ${kind}`, style }), name);
	const runs = [...began].sort((a, b) => a[0] - b[0]).slice(0, MOST_PROCESSES)
		.map(([process, event]) => item(`${name_of(page.ran, event, process)} runs`, colour_of(process)));
	const shown = [...(is_racing ? [RACING] : []), ...MARKS.filter((_, kind) => kinds.has(kind))];
	const marks = shown.map(([name, variable]) => item(name, "mark", `background:var(${variable})`));
	const { first, last, count } = page.ran;
	const part = last - first < count ? [make("li", {}, `events ${decimal(first)} to ${decimal(last)} of ${decimal(count)}`)] : [];
	$("legend").replaceChildren(...part, ...runs, ...marks);
}
// The place of the list at a point of the bar.
export function place_of_click(click, length) {
	const box = $("bar").getBoundingClientRect();
	return Math.round(Math.min(1, Math.max(0, (click.clientX - box.left - INSET) / (box.width - 2 * INSET))) * (length - 1));
}
