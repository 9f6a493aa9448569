// console.js - the console: what it has sent, what it holds, and a field to type into
import { $, button, make } from "./dom.js";
import { state } from "./history.js";
import { page } from "./page.js";
import { grow } from "./panels.js";
import { typed_lines } from "./schedules.js";
import { bytes_of, count } from "./text.js";

const LINE_FEED = 10, RETURN = 13, TAB = 9;
const is_shown = (byte) => byte >= 32 && byte < 127 || byte === LINE_FEED || byte === TAB;
const text_of = (sent) => sent.map(({ byte }) => (byte === RETURN ? "" : is_shown(byte) ? String.fromCharCode(byte) : "·")).join("");

// The node stays the same while the view is drawn anew, so that what is being typed isn't lost.
export function console_node() {
	if ($("console")) return $("console");
	const field = make("input", { type: "text", id: "typed", "aria-label": "Type a line on the console", placeholder: "type a line",
		maxLength: 200, onkeydown: (event) => {
		if (event.key === "Enter" && !event.ctrlKey) type(field);
		event.stopPropagation();
	} });
	return make("div", { class: "half", id: "console" }, make("h3", { id: "console-title" }),
		make("div", { class: "screen", id: "paper", role: "log", "aria-live": "off", tabIndex: 0, "aria-label": "What the console has sent" }),
		make("div", { class: "typing" }, field,
		button("Type", () => type(field), { title: "What is typed is added to the schedule, and the run goes on to its end" })));
}
function type(field) {
	const text = field.value;
	field.value = "";
	grow(typed_lines(bytes_of(text + "\n"), text));
}
export function show_console() {
	const { ran, at } = page, { console } = state(ran, at), paper = $("paper");
	const kept = [console.output && `${count(console.output, "byte")} to send`, console.echo && `${console.echo} of echo`,
		console.line && `${console.line} typed in this line`,
		console.committed && `${console.committed} for readers`].filter(Boolean).join(", ");
	$("console-title").textContent = `Console, ${console.mode}${kept ? `: ${kept}` : ""}`;
	paper.replaceChildren(text_of(ran.output.filter((one) => one.event < at)),
		make("span", { class: "new" }, text_of(ran.output.filter((one) => one.event === at))));
	paper.scrollTop = paper.scrollHeight;
}
