// sources.js - the sources in C of a program that was built elsewhere
import { line_rows_of } from "./dwarf.js";
import { make } from "./dom.js";
import { page } from "./page.js";
import { lay_panels } from "./panels.js";
import { texts_of } from "./runs.js";
import { utf8 } from "./text.js";

// The files that the lines of an ELF file are of.
export const files_of = (bytes) => [...new Set(line_rows_of(bytes).map((row) => row.file))].filter(Boolean);

// Says what is known of its lines, and takes the texts.
export function source_field(program) {
	const files = files_of(program.bytes);
	if (!files.length) return make("p", { class: "none" },
		"It has no lines of a source: places are functions and distances. Compile it with -g, and give it here once more, to step by lines of C.");
	const field = make("input", { type: "file", multiple: true, onchange: async (event) => {
		for (const file of event.target.files) add_source(file.name, utf8(new Uint8Array(await file.arrayBuffer())));
		lay_panels();
	} });
	return make("label", {}, make("h3", {}, `Its lines are of ${files.join(", ")}: give the texts to see them beside the run`), field);
}
export function add_source(name, text) {
	page.work.sources = { ...page.work.sources, [name.replace(/^.*[/\\]/, "")]: text };
	if (page.ran) page.ran.texts = texts_of(page.work.sources);
}
