// editors.js - the texts that are edited, with numbers of lines and marks
import { make } from "./dom.js";

// The height of a line and the room above the first one, as style.css has them.
const LINE = 20, ROOM = 8;

export class Editor {
	// `changed` is told each new text; without it the text can't be changed.
	constructor(label, text, changed = null) {
		this.numbers = make("div");
		this.bars = make("div", { "aria-hidden": "true" });
		this.area = make("textarea", { value: text, readOnly: !changed, spellcheck: false, wrap: "off", autocapitalize: "off", autocomplete: "off",
			"aria-label": label, "aria-describedby": "leave", onscroll: () => this.scroll(), onkeydown: (event) => this.take_key(event),
			oninput: () => {
				this.number();
				this.mark({});
				changed(this.area.value);
			} });
		const gutter = make("div", { class: "gutter", "aria-hidden": "true" }, this.numbers);
		this.node = make("div", { class: "editor" }, gutter, make("div", { class: "text" }, this.bars, this.area));
		this.number();
	}
	set text(text) {
		this.area.value = text;
		this.number();
	}
	// Tab writes a tab, but not after Escape: so the keyboard can leave.
	take_key(event) {
		if (event.key === "Tab" && !event.shiftKey && !event.ctrlKey && !this.is_left && !this.area.readOnly) {
			event.preventDefault();
			document.execCommand("insertText", false, "\t");
		}
		this.is_left = event.key === "Escape";
	}
	number() {
		const n = this.area.value.split("\n").length;
		if (n === this.lines) return;
		this.lines = n;
		this.numbers.textContent = Array.from({ length: n }, (_, i) => i + 1).join("\n");
	}
	scroll() {
		this.numbers.style.transform = this.bars.style.transform = `translateY(${-this.area.scrollTop}px)`;
	}
	// Marks lines, { next, done, fault }, and puts tags { line, text, state, title } beside others; the marked line is shown if `follows`.
	mark(marks, follows = false, tags = []) {
		const bars = Object.entries(marks).filter(([, line]) => line)
			.map(([kind, line]) => make("div", { class: `bar ${kind}`, style: `top:${ROOM + (line - 1) * LINE}px` }));
		this.bars.replaceChildren(...tag_nodes(tags), ...bars);
		const line = marks.fault || marks.next || marks.done, top = (line - 1) * LINE, view = this.area.clientHeight;
		const is_seen = top >= this.area.scrollTop && top <= this.area.scrollTop + view - 2 * LINE - ROOM;
		if (follows && line && !is_seen) this.area.scrollTop = Math.max(0, top - view / 3);
		this.scroll();
	}
}
function tag_nodes(tags) {
	const on_line = new Map();
	return tags.map(({ line, text, state, title }) => {
		const earlier = on_line.get(line) || 0;
		on_line.set(line, earlier + 1);
		const style = `top:${ROOM + 1 + (line - 1) * LINE}px;right:${18 + 22 * earlier}px`;
		return make("span", { class: `tag state ${state}`, title, style }, text);
	});
}
