// places.js - where in its source a process is: the line of assembler, that of C, or the function
import { instruction_of } from "./assembler.js";
import { hex, last_at_most } from "./text.js";

// where the first return of a process leads
const EXIT = 0xfffffffc;

const of_layout = (layout, pc) => layout.lines.find((one) => !one.is_data && pc >= one.at && pc < one.at + one.size);
// The place of an address as { key, program, line, text, at, size }, or null: the key names the editor that shows it, `at` and `size` are
// those of the line's instructions. A process in a call goes on behind it; in C it is shown at the line that makes the call.
export function place_of(run, pc, is_in_call = false) {
	if (pc === undefined) return null;
	for (const [i, source] of run.sources.entries()) {
		const found = source.layout && of_layout(source.layout, pc);
		if (found) return { key: `program ${i}`, program: i, line: found.line, text: instruction_of(source.lines[found.line - 1]), at: found.at,
			size: found.size };
		const row = source.rows && row_at(run, source.rows, is_in_call ? pc - 4 : pc);
		if (row) return place_in_c(run, i, row);
	}
	return null;
}
// The row of an address. What was put in place of a call, such as a function of xinu.h, is shown at the line of the call: at the last row
// before it, in the same function, that is of no header and whose text is given, if any is.
function row_at(run, rows, pc) {
	const begin = function_of(run, pc)?.at ?? pc, has_texts = Object.keys(run.texts).length > 0, i = last_at_most(rows, pc, (one) => one.at);
	const is_shown = ({ file }) => !file.endsWith(".h") && (!has_texts || file in run.texts);
	if (i < 0 || rows[i].is_end || !rows[i].line) return null;
	for (let k = i; k >= 0 && rows[k].at >= begin && !rows[k].is_end; k--) if (is_shown(rows[k])) return rows[k];
	return rows[i];
}
function place_in_c(run, program, row) {
	const text = run.texts[row.file]?.split("\n")[row.line - 1]?.trim();
	return { key: `source ${row.file}`, program, file: row.file, line: row.line, text: `${row.file}:${row.line}${text ? ` ${text}` : ""}`,
		at: row.at, size: 0 };
}
function function_of(run, pc) {
	const found = run.functions[last_at_most(run.functions, pc, (one) => one.at)];
	return found && pc < found.at + Math.max(4, found.size) ? found : null;
}
export function function_words(run, pc) {
	const found = function_of(run, pc);
	return found && `${found.name}${pc > found.at ? `+${pc - found.at}` : ""}`;
}
// Where a process goes on, in words.
export function place_words(run, pc, is_in_call) {
	if (pc === undefined) return "";
	const place = place_of(run, pc, is_in_call);
	if (place) return place.file ? place.text : `${place.line}: ${place.text}`;
	return pc === EXIT ? "exit" : function_words(run, pc) || `0x${hex(pc)}`;
}
// What a step carries out: the line of the source, and of a line of two instructions which; else what `explain` lists.
export function instruction_words(run, step) {
	const place = place_of(run, step.pc);
	if (!place) return step.place ? `${step.text} in ${step.place}` : step.text;
	if (place.file) return `${step.text} (${place.text})`;
	return place.size === 8 ? `${place.text}, ${place.at === step.pc ? "1st" : "2nd"} instruction: ${step.text}` : place.text;
}
