// panels.js - the left side: a tab for each program and each source, what else belongs to a run, and the schedule
import { disk_panel } from "./disks.js";
import { $, button, choose_tab, make, save, say } from "./dom.js";
import { Editor } from "./editors.js";
import { is_elf } from "./elf.js";
import { page } from "./page.js";
import { run } from "./running.js";
import { plain_name, program_name } from "./runs.js";
import { cut_text } from "./schedules.js";
import { source_field } from "./sources.js";
import { mark_lines } from "./stepper.js";
import { bytes_of, count, utf8 } from "./text.js";

const PROGRAMS = 8;

// Lays out all tabs anew.
export function lay_panels() {
	const { work } = page, tabs = [...work.programs.map((program, i) => program_tab(program, i)), ...source_tabs(), more_tab()];
	page.tabs = tabs.map((tab) => tab.key);
	page.editors = new Map(tabs.filter((tab) => tab.editor).map((tab) => [tab.key, tab.editor]));
	$("files").replaceChildren(...tabs.map((tab, i) => button(tab.name, () => choose_file(i),
		{ role: "tab", id: `file-${i}`, "aria-controls": `panel-${i}` })));
	$("panels").replaceChildren(...tabs.map((tab, i) => make("div",
		{ role: "tabpanel", id: `panel-${i}`, "aria-labelledby": `file-${i}`, class: tab.editor ? "panel tight" : "panel" }, ...tab.nodes)));
	lay_schedule();
	choose_file(Math.min(page.file, tabs.length - 1));
}
export function choose_file(i) {
	page.file = i;
	choose_tab($("files"), $(`file-${i}`));
	mark_lines();
}
// Shows the tab of an editor; the answer is whether it was another one.
export function choose_key(key) {
	const i = page.tabs.indexOf(key);
	if (i < 0 || i === page.file) return false;
	choose_file(i);
	return true;
}

function program_tab(program, i) {
	const name = program_name(program);
	const editor = program.bytes ? null : new Editor(name, program.text, (text) => {
		program.text = text;
		stale();
	});
	const remove = () => {
		page.work.programs.splice(i, 1);
		page.file = 0;
		lay_panels();
		stale();
	};
	const image = () => save(`${plain_name(program)}.xim`, page.ran.images[i]);
	const foot = make("div", { class: "foot" }, page.work.programs.length > 1 ? button("Remove", remove) : null, button("Rename", () => rename(i)),
		program.bytes || !page.ran ? null : button("Save image", image));
	const said = program.bytes
		&& make("p", {}, `An ${is_elf(program.bytes) ? "ELF" : "image"} file of ${count(program.bytes.length, "byte")}, built elsewhere.`);
	return { key: `program ${i}`, name, editor, nodes: editor ? [editor.node, foot] : [said, source_field(program), foot] };
}
function source_tabs() {
	return Object.entries(page.work.sources || {}).map(([name, text]) => {
		const editor = new Editor(name, text);
		return { key: `source ${name}`, name, editor, nodes: [editor.node] };
	});
}
function rename(i) {
	const program = page.work.programs[i],
		field = make("input", { type: "text", value: program.name, "aria-label": "Name of the program", size: 12 });
	const done = () => {
		if (field.value.trim()) program.name = field.value.trim();
		lay_panels();
	};
	field.addEventListener("keydown", (event) => {
		if (event.key === "Enter") done();
		event.stopPropagation();
	});
	field.addEventListener("blur", done, { once: true });
	$(`file-${i}`).replaceChildren(field);
	field.focus();
	field.select();
}

export async function bytes_of_file(event) {
	const file = event.target.files[0];
	return file ? { name: file.name, bytes: new Uint8Array(await file.arrayBuffer()) } : null;
}
function more_tab() {
	const about = make("textarea", { value: page.work.about || "", oninput: (event) => {
		page.work.about = event.target.value;
		show_about();
	} });
	const node = make("div", { class: "files" }, program_adder(), disk_panel("disk0"), disk_panel("disk1"),
		make("div", {}, make("h3", {}, "Written by the last run"), make("ul", { id: "made" })),
		make("label", {}, make("h3", {}, "Text above the programs, which the link holds too"), about));
	return { key: "more", name: "More", editor: null, nodes: [node] };
}
function program_adder() {
	const add = (program) => {
		if (page.work.programs.length >= PROGRAMS) {
			say(`A run has at most ${PROGRAMS} programs.`, true);
			return;
		}
		page.work.programs.push(program);
		page.file = page.work.programs.length - 1;
		lay_panels();
		stale();
	};
	const field = make("input", { type: "file", onchange: async (event) => {
		const file = await bytes_of_file(event);
		if (file) add(/\.(s|asm|txt)$/i.test(file.name) ? { name: file.name, text: utf8(file.bytes) } : file);
	} });
	const own = () => add({ name: `program${page.work.programs.length + 1}.s`,
		text: `# a program\n        .place ${free_place()}\n        sys  getpid\n        sys  exit\n` });
	return make("div", {}, button("Add a program in assembler", own),
		make("label", {}, make("h3", {}, "Add a program built elsewhere: an ELF file, an image, or a text in assembler"), field));
}
// The next multiple of 4096 above all programs.
const free_place = () => (page.ran?.regions || []).reduce((most, region) => Math.max(most, region.to), 0) + 4095 & ~4095;

const ADDED = [["+1 step", "step 1", "an instruction"], ["+10", "step 10", "ten instructions"], ["+tick", "tick 1", "the clock"],
	["+quantum", "tick 2", "two ticks: the quantum ends"],
	["+send", "tx 64", "the console sends up to 64 bytes"], ["+disk", "disk0 1", "the raw disk has done a request"],
	["+disk fails", "fail0", "the raw disk fails a request"]];
function lay_schedule() {
	const editor = new Editor("Schedule", page.work.schedule, (text) => {
		page.work.schedule = text;
		stale();
	});
	page.editors.set("schedule", editor);
	const adders = ADDED.map(([label, lines, title]) => button(label, () => grow(lines), { title }));
	const cut = () => {
		if (!page.ran?.states) return;
		set_schedule(cut_text(page.work.schedule, page.ran.runs, page.at));
		run("end");
	};
	$("schedule").replaceChildren(make("h2", {}, "Schedule"), editor.node,
		make("div", { class: "foot", role: "group", "aria-label": "Add to the schedule and run" }, ...adders,
		button("Cut here", cut, { id: "cut", title: "Leaves out all events after the one that is shown" })));
}
export function set_schedule(text) {
	page.work.schedule = text;
	page.editors.get("schedule").text = text;
}
// Adds lines to the schedule, and runs to its end.
export function grow(lines) {
	const { schedule } = page.work;
	set_schedule(schedule.replace(/\n*$/, schedule.trim() ? "\n" : "") + lines + "\n");
	return run("end");
}

export function show_about() {
	$("about").textContent = page.work.about || "";
	$("about").hidden = !page.work.about;
}
// After a change the run that is shown is of before.
export function stale() {
	if (page.ran && !page.ran.is_stale) {
		page.ran.is_stale = true;
		say("Changed: press Run");
		$("view-step").classList.add("stale");
		for (const editor of page.editors.values()) editor.mark({});
	}
	show_fault(null);
}
// Shows why there is no run, and marks the line that it is of.
export function show_fault(why) {
	$("fault").hidden = !why;
	$("fault").textContent = why?.message || "";
	page.tabs.forEach((key, i) => $(`file-${i}`).classList.toggle("bad", Boolean(why) && key === why.key));
	if (!why) return;
	if (why.key) choose_key(why.key);
	if (why.line) page.editors.get(why.key)?.mark({ fault: why.line }, true);
}
// The files that the last run made.
export function lay_made() {
	const { ran, work } = page,
		link = (name, bytes) => make("li", {}, button(`Save ${name}`, () => save(name, bytes)), ` ${count(bytes.length, "byte")}`);
	const disks = [["out0", "disk0.img"], ["out1", "disk1.img"]].filter(([key]) => ran.disks[key]).map(([key, name]) => link(name, ran.disks[key]));
	const images = ran.images.flatMap((image, i) => (work.programs[i].bytes ? [] : [link(`${ran.names[i]}.xim`, image)]));
	$("made").replaceChildren(link("transcript.txt", bytes_of(ran.transcript)), ...disks, ...images);
}
