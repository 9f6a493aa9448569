// judge.js - the page Data races: what the command `judge` tells of the run, with a link to the event of each access
import { $, make, say, table } from "./dom.js";
import { xinu } from "./engine.js";
import { page } from "./page.js";
import { place_words } from "./places.js";
import { Refused, stopped_words } from "./runs.js";
import { guarded, redraw } from "./stepper.js";
import { decimal, hex, lines_of, utf8 } from "./text.js";
import { name_in } from "./told.js";
import { event_link } from "./transcripts.js";

const NONE = 0, SOME = 15;
const HEAD = /^Data race(?: on (.*),)? at 0x([0-9a-f]+):$/;
const ACCESS = /^  event (\d+): (\d+)(?: (\S+))? (loads|stores|dies)(?: \(in (\w+)\))?(?:, its stack is given back)?(?: at 0x([0-9a-f]+))?/;

// The reports that `judge` prints, each { owner, at, accesses, notes }, and its last line. An access is { event, process, does, call, place };
// `dies` has no place.
export function reports_of(text) {
	const reports = [], lines = lines_of(text);
	for (const line of lines) {
		const [, owner = "", at] = HEAD.exec(line) || [], access = ACCESS.exec(line);
		if (at) reports.push({ owner, at: parseInt(at, 16), accesses: [], notes: [] });
		else if (access && reports.length) {
			const [, event, number, name, does, call, place] = access;
			reports.at(-1).accesses.push({ event: Number(event), process: { number: Number(number), name }, does, call,
				place: place && parseInt(place, 16) });
		} else if (line.startsWith("  ") && reports.length) reports.at(-1).notes.push(line.trim());
	}
	return { reports, sum: lines.at(-1) || "" };
}
// The events at which a run's accesses race.
export const events_of_reports = (reports) => new Set(reports.flatMap(({ accesses }) => accesses.map(({ event }) => event)));

// The label of data that an address belongs to, and how far behind it the address is.
export function label_words(sources, at) {
	for (const { layout } of sources) {
		const label = layout?.labels.find((one) => one.is_data && one.at <= at && at < one.at + one.size);
		if (label) return at > label.at ? `${label.name}+${at - label.at}` : label.name;
	}
	return "";
}
// The names of processes in a text of `judge`, as the page tells them.
const with_programs = (run, text) => text.replace(/\b(\d+) (image\d+)\b/g, (_, number, name) => name_in(run, { number: Number(number), name }));

// Judges the run, unless it is already, and shows what was told.
export async function judge() {
	const { ran } = page;
	if (!ran || ran.is_judging || ran.judged) return;
	ran.is_judging = true;
	say("Judging ..");
	const start = performance.now(), told = await guarded(() => judged(ran));
	ran.is_judging = false;
	if (ran !== page.ran) return;
	if (!told) {
		$("reports").replaceChildren(make("p", { class: "fault-text" }, $("status").textContent));
		return;
	}
	ran.judged = told;
	ran.racing = events_of_reports(told.reports);
	show_reports(ran);
	redraw();
	say(`${Math.round(performance.now() - start)} ms`);
}
async function judged(run) {
	const answer = await xinu(["judge", ...run.args], { files: run.files });
	if (![NONE, SOME].includes(answer.status)) throw new Refused(answer.trap ? stopped_words(answer) : answer.err.trim());
	return reports_of(utf8(answer.out));
}
export const forget_reports = () => $("reports").replaceChildren();

function show_reports(run) {
	const { reports, sum } = run.judged, what = reports.length ? "refuted" : "proved";
	$("reports").replaceChildren(make("p", { class: what }, sum), ...reports.map((report) => report_node(run, report)));
}
function report_node(run, { owner, at, accesses, notes }) {
	const label = label_words(run.sources, at), words = with_programs(run, owner) || label || "a word of RAM";
	const rows = accesses.map((access) => access_row(run, access));
	return make("div", { class: "after" }, table(`${words}, at 0x${hex(at, 8)}`, ["", "process", "", "where"], rows),
		...notes.map((note) => make("p", { class: "none" }, with_programs(run, note))));
}
function access_row(run, { event, process, does, call, place }) {
	const where = place === undefined ? "its stack is given back" : place_words(run, place, false), does_so = `${does}${call ? ` (in ${call})` : ""}`;
	return make("tr", {}, make("td", { class: "num" }, event_link(event, `event ${decimal(event)}`)), make("td", {}, name_in(run, process)),
		make("td", {}, does_so), make("td", { class: "where" }, make("code", {}, where)));
}
