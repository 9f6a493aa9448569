// sources.mjs - what the page knows of texts: the calls of docs/CALLS.md, the lines of assembler, and those of C where the compiler is there
import fs from "node:fs";
import path from "node:path";
import { layout_of } from "../src/assembler.js";
import { line_rows_of } from "../src/dwarf.js";
import { region_of } from "../src/elf.js";
import { place_of } from "../src/places.js";
import { cut_text, events_of, with_preemptions } from "../src/schedules.js";
import { steps_of } from "../src/steps.js";
import { CALLS } from "../src/words.js";
import { TOP, compiled, has_compiler } from "./compiler.mjs";
import { assembled, inputs_of, listing_of, native } from "./native.mjs";
import { counter, exercises } from "./page.mjs";

const { check, end } = counter("sources");

function calls() {
	const named = [...fs.readFileSync(path.join(TOP, "docs/CALLS.md"), "utf8").matchAll(/`\w+ \*?(\w+)\([^)]*\)`(?:\*\*|\s)/g)].map((found) =>
		found[1]);
	check(named.length === 44 && named.sort().join() === Object.keys(CALLS).sort().join(), "the calls are those of docs/CALLS.md",
		() => named.join());
}

// Of which instructions each shorthand of the assembler is.
const SHORT = { li: ["lui", "addi"], la: ["lui", "addi"], mv: ["addi"], nop: ["addi"], j: ["jal"], ret: ["jalr"], sys: ["addi", "ecall"] };
// Each step of each exercise is shown at a line that has its instruction.
function assembler({ name, programs, schedule }) {
	const sources = programs.map(({ text }) => ({ layout: layout_of(text, listing_of(text)), lines: text.split("\n") }));
	for (const [i, program] of programs.entries()) check(sources[i].layout.end === region_of(assembled(program.text)).to,
		`${program.name} ends where its image does`);
	const { files, args } = inputs_of({ programs, schedule }), listed = native(["explain", "--steps", "1..5000", ...args], files).out.toString();
	const steps = [...steps_of(listed)].filter(([, step]) => step.process !== 0);
	check(steps.length > 3, `${name}: ${steps.length} steps`);
	for (const [event, step] of steps) {
		const place = place_of({ sources, texts: {}, functions: [] }, step.pc), word = place?.text.split(" ")[0];
		const is_right = step.pc === 0xfffffffc || place && (SHORT[word] || [word]).includes(step.text.split(" ")[0]);
		check(is_right, `${name}, event ${event}`, () => `${step.text} at ${place?.line}: ${place?.text}`);
	}
}
function schedules({ name, schedule }) {
	const { runs, total } = events_of(schedule);
	for (let n = 1; n <= total; n += 7) check(events_of(cut_text(schedule, runs, n)).total === n, `${name}: the schedule cut at ${n}`);
	const steps = runs.reduce((sum, run) => sum + (run.kind === "step" ? run.n : 0), 0);
	for (const places of [[1], [2, 5]]) check(steps <= 5 || events_of(with_preemptions(runs, places)).total === total + 2 * places.length,
		`${name}: with preemptions after ${places}`);
}

// The rows of .debug_line are those that objdump decodes.
function lines_of_c() {
	if (!has_compiler()) {
		console.log("sources: lines of C are skipped, there is no compiler");
		return;
	}
	for (const version of ["4", "5"]) for (const name of ["nowhere", "deadlock"]) {
		const { elf, told } = compiled(`examples/mistakes/${name}.c`, [`-gdwarf-${version}`]);
		const wanted = [...told.matchAll(/^(\S+\.[cSh]) +(\d+) +(0x[0-9a-f]+|0)\b/gm)].map(([, file, line, at]) =>
			`${file}:${line}:${Number(at)}`).sort();
		const got = line_rows_of(elf).filter((row) => !row.is_end).map(({ file, line, at }) => `${file}:${line}:${at}`).sort();
		const { files, args } = inputs_of({ programs: [{ bytes: elf }], schedule: "step 40\n" }),
			steps = steps_of(native(["explain", "--steps", "1..40", ...args], files).out.toString());
		check([...steps.values()].some(({ place }) => place === "main+0"), `${name}: its steps have places`);
		check(got.length > 50 && got.join() === wanted.join(), `${name}: lines of version ${version}`,
			() => `${got.length}, by objdump ${wanted.length}`);
	}
}

calls();
exercises.forEach(assembler);
exercises.forEach(schedules);
lines_of_c();
end();
