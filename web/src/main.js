// main.js - the beginning: the controls, the keys, and what is run first
import { $, keys_of_tabs, make, save, say } from "./dom.js";
import { load, xinu } from "./engine.js";
import { go, go_to_click, go_to_place, play, redraw, set_slider, WAYS } from "./stepper.js";
import { share, work_of, work_of_fragment } from "./links.js";
import { page } from "./page.js";
import { lay_panels, show_about } from "./panels.js";
import { draw, save_picture } from "./picture.js";
import { fill_claim, forget_claim, prove_all } from "./proof.js";
import { back_to_base, forget_base, try_all } from "./races.js";
import { run, stop_all } from "./running.js";
import { bytes_of } from "./text.js";
import { take_click } from "./transcripts.js";
import { view } from "./views.js";

// how wide a window is whose two sides stand above each other
const NARROW = 800;

// Begins with a work: an exercise, that of a link, or that of the page.
function take(what) {
	page.work = { ...what, programs: what.programs.map((program) => ({ ...program })) };
	[$("preemptions").value, $("within").value] = what.races || [1, 60];
	Object.assign(page, { ran: null, file: 0, chosen: null });
	forget_base();
	$("outcomes").replaceChildren();
	forget_claim();
	show_about();
	lay_panels();
	return run();
}
async function begin() {
	const fragment = /^#w=(.*)$/.exec(location.hash)?.[1];
	if (fragment) {
		try {
			return await take(await work_of_fragment(fragment));
		} catch {
			say("The link is damaged", true);
		}
	}
	return take(page.given || page.exercises[0]);
}

function lay_exercises() {
	page.exercises = JSON.parse($("exercises").textContent);
	const given = JSON.parse($("given").textContent), option = ({ title }, i) => make("option", { value: String(i) }, title);
	page.given = given && work_of(given);
	const groups = [["To begin with", (one) => !one.title.startsWith("Lab")], ["Beside the labs", (one) => one.title.startsWith("Lab")]];
	const nodes = groups.map(([label, is_of]) => make("optgroup", { label },
		...page.exercises.flatMap((one, i) => (is_of(one) ? [option(one, i)] : []))));
	$("exercise").append(...(given ? [make("option", { value: "given" }, given.title || "This run")] : []), ...nodes,
		make("option", { value: "own", hidden: true }, "Your own"));
	$("exercise").addEventListener("change", ({ target }) => {
		history.replaceState(null, "", location.pathname);
		take(target.value === "given" ? page.given : page.exercises[target.value]);
	});
}
// What the page is, and what may be believed of it.
const CLAIMS = [
	"The transcript, and so each table of a state, is what docs/THEOREM.md of the repository says of the program's output; registers and data"
		+ " are answers to gdb (docs/DEBUGGING.md). Story, Picture, Races, Data races and Proof are the output of commands. That Step shows what it was given,"
		+ " and its words for calls, is tested and not proved.",
	"Trusted besides what the program trusts: clang's back end for WebAssembly, wasm-ld and wasm-opt; the lines of the module that name the"
		+ " processor, which were changed; host.c and the page's own script; the browser.",
	"The page sends nothing: its head forbids the browser to ask for anything from anywhere. What is written stays here, and in links that"
		+ " you copy.",
];
function lay_foot() {
	const { version, is_proved, sum } = JSON.parse($("built").textContent);
	const what = is_proved ? "compiled from the module of the proved program"
		: "compiled from the sources that are proved, but unproved itself; each operation is tested as it runs";
	const claims = [`This is the program xinu_run of Xinu as a verified program, ${what}. Module ${sum}.`, ...CLAIMS];
	$("foot").replaceChildren(make("details", {},
		make("summary", {}, `xinu_run ${version}, ${is_proved ? "proved" : "unproved build"}: what is claimed`),
		...claims.map((claim) => make("p", {}, claim))));
}

function lay_controls() {
	for (const [id, does] of Object.entries(WAYS)) $(id).addEventListener("click", () => {
		play(false);
		if (page.ran?.states) does();
	});
	$("slider").addEventListener("input", () => {
		play(false);
		if (page.ran?.states) go_to_place(Number($("slider").value));
	});
	$("slider").addEventListener("keydown", (event) => event.shiftKey && /^Arrow/.test(event.key) && event.preventDefault());
	$("by").addEventListener("change", () => page.ran?.states && set_slider());
	$("bar").addEventListener("click", go_to_click);
	$("play").addEventListener("click", () => play(!page.timer));
	$("speed").addEventListener("change", () => page.timer && play(true));
	$("run").addEventListener("click", async () => {
		await run();
		if (!$("fault").hidden) $("fault").scrollIntoView({ block: "nearest" });
		else if (innerWidth <= NARROW) $("views").scrollIntoView();
	});
	const save_transcript = () => page.ran && save("transcript.txt", bytes_of(page.ran.transcript));
	const does = { stop: stop_all, share, draw, try: try_all, prove: prove_all, base: back_to_base, "save-picture": save_picture,
		"save-transcript": save_transcript, theme: change_theme };
	for (const [id, what] of Object.entries(does)) $(id).addEventListener("click", () => what());
	$("views").addEventListener("click", (event) => {
		const tab = event.target.closest("[role=tab]");
		if (tab) view(tab.id.slice("tab-".length));
		if (tab?.id === "tab-proof") fill_claim();
	});
	for (const id of ["story", "transcript", "reports"]) $(id).addEventListener("click", take_click);
	for (const id of ["views", "files"]) keys_of_tabs($(id));
	document.addEventListener("keydown", take_key);
	addEventListener("resize", redraw);
	addEventListener("hashchange", () => location.hash.startsWith("#w=") && begin());
}
function change_theme() {
	const root = document.documentElement, { theme } = root.dataset;
	const is_dark = theme ? theme === "dark" : matchMedia("(prefers-color-scheme: dark)").matches;
	root.dataset.theme = is_dark ? "light" : "dark";
	redraw();
}

const KEYS = { ArrowLeft: "back", ArrowRight: "forth", Home: "first", End: "last" }, SHIFTED = { ArrowLeft: "less", ArrowRight: "more" };
function take_key(event) {
	const { target, key } = event;
	if (key === "Enter" && (event.ctrlKey || event.metaKey)) {
		event.preventDefault();
		run();
		return;
	}
	const is_own = /^(TEXTAREA|SELECT|SUMMARY)$/.test(target.tagName) || target.tagName === "INPUT" && (target.id !== "slider" || !event.shiftKey)
		|| target.getAttribute?.("role") === "tab";
	const way = (event.shiftKey ? SHIFTED : KEYS)[key];
	if (!way || is_own || !page.ran?.states || !["step", "beside"].includes(page.view) || event.ctrlKey || event.metaKey || event.altKey) return;
	event.preventDefault();
	play(false);
	WAYS[way]();
}

// for tests: the page's state, and the command as the page runs it
globalThis.xinu_page = { page, take, run, go, command: (args, files) => xinu(args, { files }) };

lay_exercises();
lay_foot();
lay_controls();
load().then(begin).catch((why) => {
	$("refusal").hidden = false;
	$("refusal").textContent = why.message;
	$("main").hidden = true;
	say("");
});
