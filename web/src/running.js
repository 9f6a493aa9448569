// running.js - Run: from what is written to what is shown
import { load_beside } from "./beside.js";
import { $, say } from "./dom.js";
import { Stopped, is_busy, stop } from "./engine.js";
import { page } from "./page.js";
import { lay_made, show_fault } from "./panels.js";
import { forget_reports, judge } from "./judge.js";
import { draw } from "./picture.js";
import { keep } from "./links.js";
import { Refused, run_of } from "./runs.js";
import { go, load_states, play, set_slider } from "./stepper.js";
import { tell_story, tell_transcript } from "./transcripts.js";
import { count } from "./text.js";

// above so many events the slider goes over what happens
const MANY = 400;

// Runs the programs, and goes to an event: the first one, or "end".
export async function run(to = 0) {
	const mine = ++page.running;
	play(false);
	if (is_busy()) stop();
	show_fault(null);
	say("Running ..");
	$("run").disabled = true;
	try {
		await run_now(mine, to);
	} catch (why) {
		if (mine === page.running) tell_failure(why);
	}
	if (mine === page.running) $("run").disabled = false;
}
function tell_failure(why) {
	if (why instanceof Stopped) say("Stopped", true);
	else if (why instanceof Refused) {
		show_fault(why);
		say("Not run", true);
	} else say(String(why.message || why), true);
}
async function run_now(mine, to) {
	keep();
	const ran = await run_of(page.work);
	if (mine !== page.running) return;
	Object.assign(page, { ran, chosen: null, picture: null, list: null });
	$("view-step").classList.remove("stale");
	$("picture").replaceChildren();
	forget_reports();
	$("from").value = 1;
	lay_made();
	tell_story();
	const where = to === "end" ? ran.count : Math.min(to, ran.count);
	await load_states(where, mine);
	if (mine !== page.running) return;
	page.at = where;
	tell_transcript();
	$("by").value = ran.count > MANY && ran.folds.length > MANY ? "stops" : "folds";
	set_slider();
	go(where);
	say(`${count(ran.count, "event")}, ${Math.round(ran.ms)} ms`);
	if (page.view === "picture") draw();
	if (page.view === "judge") await judge();
	if (page.base !== null) await load_beside(mine);
}
export function stop_all() {
	page.running++;
	play(false);
	stop();
	$("run").disabled = false;
	say("Stopped", true);
}
