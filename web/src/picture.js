// picture.js - the page Picture: what `timeline` draws, whose columns lead to the stepper
import { $, make, save, say } from "./dom.js";
import { xinu } from "./engine.js";
import { page } from "./page.js";
import { guarded } from "./stepper.js";
import { show_at } from "./views.js";
import { utf8 } from "./text.js";

// below this width a picture is scrolled
const WIDTH = "680px";
// a picture holds names that a stranger's program chose: what could act is taken out
const ACTS = /^(script|foreignObject|a|image|use|iframe|object|embed|animate|set)$/i;
// classes of bands, which are wider than an event
const BANDS = ["C", "R", "M", "T", "S", "W", "U", "I"];

export async function draw() {
	const { ran } = page;
	if (!ran) return;
	const args = ["timeline", "--from", $("from").value || "1", "--events", $("events").value || "2000", ...ran.args];
	const answer = await guarded(() => xinu(args, { files: ran.files }));
	if (!answer || ran !== page.ran) return;
	if (answer.status !== 0) {
		say(answer.status === 2 ? "The numbers are from 1 to 1000000000, and from 1 to 2000" : answer.err.trim() || answer.trap, true);
		return;
	}
	page.picture = answer.out;
	$("picture").replaceChildren(holder_of(cleaned(utf8(answer.out))));
	mark_picture();
}
function cleaned(text) {
	const svg = document.importNode(new DOMParser().parseFromString(text, "image/svg+xml").documentElement, true);
	const acts = (node) => ACTS.test(node.localName) || [...node.attributes].some((one) => /^on|href$/i.test(one.name));
	for (const node of svg.querySelectorAll("*")) if (acts(node)) node.remove();
	svg.style.minWidth = WIDTH;
	svg.setAttribute("role", "img");
	svg.setAttribute("aria-label", "Who ran when; the page Story tells it in words");
	return svg;
}
// The picture in a root of its own: its style has rules that would change the page.
function holder_of(svg) {
	const holder = make("div"), root = holder.attachShadow({ mode: "open" });
	svg.style.cursor = "pointer";
	root.append(svg);
	root.addEventListener("click", (click) => {
		const n = event_of_click(svg, click);
		if (n !== null) show_at(n);
	});
	return holder;
}
export const save_picture = () => page.picture && save("run.svg", page.picture);

// The columns of a picture as { event, x, strip, top }, by the events of their heads.
function columns(svg) {
	return [...svg.querySelectorAll("text[data-event]")].map((head) => {
		const strip = head.parentNode.parentNode, top = Number(/translate\(0 (\d+)\)/.exec(strip.getAttribute("transform"))?.[1] || 0);
		return { event: Number(head.dataset.event), x: Number(head.getAttribute("x")) - 3, strip, top };
	});
}
// Shows where the stepper stands.
export function mark_picture() {
	const svg = $("picture").firstChild?.shadowRoot.querySelector("svg");
	if (!svg || !page.ran?.states) return;
	svg.querySelector(".here")?.remove();
	const column = columns(svg).findLast((one) => one.event <= page.at);
	if (!column) return;
	const line = document.createElementNS("http://www.w3.org/2000/svg", "rect"), box = column.strip.getBBox();
	const how = { class: "here", x: column.x - 1.5, y: box.y, width: 3, height: box.height, fill: "#d97706", opacity: ".75" };
	for (const [key, value] of Object.entries(how)) line.setAttribute(key, value);
	column.strip.append(line);
	line.scrollIntoView({ block: "nearest" });
}
// The event of a mark that was clicked; else that of the last column that begins left of the click, in its strip.
function event_of_click(svg, click) {
	const group = click.target.closest("g[data-event]");
	if (group && !BANDS.some((one) => click.target.classList.contains(one))) return Number(group.dataset.event);
	const point = new DOMPoint(click.clientX, click.clientY).matrixTransform(svg.getScreenCTM().inverse());
	let best = null, top = -1;
	for (const column of columns(svg)) {
		if (column.top > point.y) continue;
		if (column.top !== top) {
			top = column.top;
			best = column.event;
		}
		if (column.x - 1 <= point.x) best = column.event;
	}
	return best;
}
