// transcripts.js - the pages Story and Transcript, whose events are links to the stepper
import { $, make } from "./dom.js";
import { page } from "./page.js";
import { show_at } from "./views.js";
import { count, lines_of } from "./text.js";

// how many lines are shown at most, and how many of them are the last
const MOST = 3000, LAST = 100;

// A link to an event.
export const event_link = (n, text) => make("a", { href: `#event-${n}`, title: `to event ${n}`, "data-event": n }, text);
export function take_click(click) {
	const of = click.target.closest("[data-event]");
	if (!of) return;
	click.preventDefault();
	show_at(Number(of.dataset.event));
}

// A text whose words `event N` are links.
function with_links(text) {
	const nodes = [];
	let from = 0;
	for (const found of text.matchAll(/\bevent (\d+)/g)) {
		const shown = event_link(Number(found[1]), found[0]);
		shown.className = "event";
		nodes.push(text.slice(from, found.index), shown);
		from = found.index + found[0].length;
	}
	return [...nodes, text.slice(from)];
}
export const tell_story = () => $("story").replaceChildren(...with_links(page.ran.story));

// The transcript; each event's lines are a link if all states are known and there aren't too many.
export function tell_transcript() {
	const { ran } = page, text = ran.transcript, lines = lines_of(text), is_long = lines.length > MOST;
	const keys = ran.first === 0 && ran.last === ran.count && !is_long ? Object.keys(ran.states.lines) : [],
		of_events = keys.map((key) => ran.states.lines[key].join("\n") + "\n");
	const told = of_events.join("");
	// a schedule's own `dump` prints tables between
	if (keys.length && text.startsWith(told)) $("transcript").replaceChildren(...keys.map((key, i) => event_link(key, of_events[i])),
		text.slice(told.length));
	else $("transcript").textContent = is_long ? [...lines.slice(0, MOST - LAST), "..", ...lines.slice(-LAST)].join("\n") : text;
	const said = is_long ? `; the first ${MOST - LAST} and the last ${LAST} are shown` : keys.length ? "; a click on one goes to its event" : "";
	$("long").textContent = count(lines.length, "line") + said;
}
// Marks the lines of the event at which the stepper stands, or of the last one before it that printed.
export function mark_transcript() {
	const links = [...$("transcript").children], here = links.findLast((one) => Number(one.dataset.event) <= page.at);
	for (const one of links) one.classList.toggle("here", one === here);
	here?.scrollIntoView({ block: "center" });
}
