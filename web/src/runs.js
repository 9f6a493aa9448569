// runs.js - a run: what the commands make of the programs, the disks and the schedule, and the states after its events
import { fault_of, layout_of } from "./assembler.js";
import { line_rows_of } from "./dwarf.js";
import { functions_of, region_of } from "./elf.js";
import { xinu } from "./engine.js";
import { calls_of, folds_of, output_of, stacks_of, stops_of } from "./history.js";
import { dumped, events_of } from "./schedules.js";
import { utf8 } from "./text.js";

// how many events a stretch has whose states are kept
export const LIMIT = 30000;

// Why there is no run: the words, and which editor and line they are of.
export class Refused extends Error {
	constructor(words, key = null, line = 0) {
		super(words);
		Object.assign(this, { key, line });
	}
}

export const program_name = (program) => program.name.replace(/^\d+_/, "");
export const plain_name = (program) => program_name(program).replace(/\.\w+$/, "");

async function image_of(program, i) {
	if (program.bytes) return program.bytes;
	const answer = await xinu(["asm", "source.s", "--out", "image.xim"], { files: { "source.s": program.text } });
	if (answer.status === 0) return answer.files["image.xim"];
	const told = answer.trap ? answer : await xinu(["listing", "source.s"], { files: { "source.s": program.text } });
	const fault = told.trap ? { line: 0, words: stopped_words(told) } : fault_of(told.err, program.text);
	throw new Refused(`${program_name(program)}, ${fault.words}`, `program ${i}`, fault.line);
}
export async function images_of(work) {
	const images = [];
	for (const [i, program] of work.programs.entries()) images.push(await image_of(program, i));
	return images;
}
// The files and the arguments of a command on these programs.
export function inputs(work, images, schedule = work.schedule) {
	const files = { "schedule.txt": schedule }, args = ["--schedule", "schedule.txt"];
	for (const disk of ["disk0", "disk1"])
		if (work[disk]) {
			files[disk] = work[disk];
			args.push(`--${disk}`, disk);
		}
	for (const [i, image] of images.entries()) {
		files[`${i + 1}.img`] = image;
		args.push(`${i + 1}.img`);
	}
	return { files, args };
}

export const stopped_words = (answer) => `The program stopped in the browser: ${answer.trap}`;
const SCHEDULE_LINES = "Lines are step N, tick N, tx N, disk0 N, disk1 N, type HH .., fail0, fail1, dump, round N.";
// Why `run` was refused: its line says what it was, and what `explain` adds says it in words.
async function refusal(work, answer, { files, args }) {
	if (answer.status === -1) return new Refused(stopped_words(answer));
	const told = (await xinu(["explain", ...args], { files })).err.trim().split("\n").filter((line) => !line.startsWith("xinu: "));
	const line = /schedule line (\d+)/.exec(answer.err)?.[1], number = /image (\d+)/.exec(answer.err)?.[1];
	const quoted = line && work.schedule.split("\n")[line - 1]?.trim();
	if (line) return new Refused(`Schedule, line ${line}${quoted ? `, “${quoted}”` : ""}: there is no such line. ${SCHEDULE_LINES}`, "schedule",
		Number(line));
	const key = number ? `program ${number - 1}` : null, words = told.join("\n") || answer.err.trim();
	if (!/overlaps/.test(answer.err)) return new Refused(words, key);
	const name = program_name(work.programs[number - 1]), place = 4096 * (number - 1);
	return new Refused(`${name} lies in RAM where an earlier program does: give it a place of its own, for example .place ${place}.`, key);
}

// Runs the programs: the run, still without states.
export async function run_of(work) {
	const start = performance.now(), images = await images_of(work), { files, args } = inputs(work, images);
	const answer = await xinu(["run", ...args, "--out0", "out0", "--out1", "out1"], { files });
	if (answer.status !== 0) throw await refusal(work, answer, { files, args });
	const story = utf8((await xinu(["explain", ...args], { files })).out), events = events_of(work.schedule, LIMIT);
	const regions = images.map(region_of), transcript = utf8(answer.out);
	return {
		schedule: work.schedule, images, files, args, regions, transcript, story, disks: answer.files,
		names: work.programs.map(plain_name), texts: texts_of(work.sources),
		sources: await Promise.all(work.programs.map(source_of)),
		functions: images.flatMap(functions_of).sort((a, b) => a.at - b.at),
		count: Number(/after (\d+) event/.exec(story)?.[1] ?? events.total), end: /^end (\w+)$/m.exec(transcript.slice(-20))?.[1] || "",
		runs: events.runs, looks: new Map(), ms: performance.now() - start, is_stale: false,
	};
}
// Texts by their names, which a stranger may have chosen.
export const texts_of = (sources) => Object.assign(Object.create(null), sources);
export async function source_of(program) {
	if (program.bytes) return { rows: line_rows_of(program.bytes) };
	const answer = await xinu(["listing", "source.s"], { files: { "source.s": program.text } });
	return answer.status === 0 ? { layout: layout_of(program.text, utf8(answer.out)), lines: program.text.split("\n") } : {};
}

// The states of the stretch after the event `first`, up to LIMIT events, and what is read in them. A run of two million events is had a
// stretch at a time.
export async function load_stretch(run, first, told) {
	const to = Math.min(first + LIMIT, run.count), events = events_of(run.schedule, first + LIMIT);
	const states = await xinu(["run", ...run.args], { files: { ...run.files, "schedule.txt": dumped(events.runs, first, to) }, states: true }, told);
	if (states.status !== 0) throw new Refused(states.trap ? stopped_words(states) : states.err);
	const earlier = first ? states.lines[0] || [] : [];
	if (first) delete states.lines[0];
	Object.assign(run, { runs: events.runs, first, last: first + states.at.length - 1, states, earlier, parsed: new Map(), currents: [],
		steps: new Map(), steps_from: 0, steps_to: 0 });
	Object.assign(run, { stops: stops_of(run), folds: folds_of(run), stacks: stacks_of(run), output: output_of(run) }, calls_of(run));
}
// The first event before the stretch that an event is in.
export const stretch_of = (n) => Math.max(0, Math.floor((n - 1) / LIMIT) * LIMIT);
