// lines.js - where the next line of a source is, forward and back
import { place_of } from "./places.js";
import { last_at_most } from "./text.js";

// The line at which the next instruction after an event is, as a text; none if that isn't known.
function line_after(run, n) {
	const step = run.steps.get(n + 1), place = step && place_of(run, step.pc);
	return place ? `${place.key} ${place.line}` : null;
}
const is_stop = (run, n) => run.stops[last_at_most(run.stops, n)] === n;

// The first event after one at which another line is next, or something happens.
export function next_line(run, at) {
	const here = line_after(run, at);
	for (let n = at + 1; n < run.last; n++) {
		const line = line_after(run, n);
		if (is_stop(run, n) || line !== null && line !== here) return n;
	}
	return Math.max(run.last, at + 1);
}
// The event before one at which another line began, or something happened.
export function last_line(run, at) {
	const here = line_after(run, at);
	for (let n = at - 1; n > run.first; n--) {
		const line = line_after(run, n);
		if (is_stop(run, n)) return n;
		// of a line of more instructions the first one
		if (line !== null && line !== here && line_after(run, n - 1) !== line) return n;
	}
	return Math.min(run.first, at - 1);
}
