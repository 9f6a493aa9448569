// commands.mjs - commands through the page's host in node, beside the native program: output, messages, status and files are the same
import fs from "node:fs";
import { questions } from "../src/gdb.js";
import { run_command } from "../src/worker.js";
import { inputs_of, native } from "./native.mjs";
import { counter, exercises, wasm_module } from "./page.mjs";

const wasm = wasm_module(), { check, end } = counter("commands");
const same = (a, b) => Buffer.from(a).equals(Buffer.from(b));

// Runs a command both ways: the files it made are handed on.
function both(what, args, files = {}, stdin = "") {
	const here = run_command({ module: wasm, args, files, stdin: new TextEncoder().encode(stdin) }), there = native(args, files, stdin);
	const made = Object.fromEntries(Object.entries(here.files).filter(([name, data]) => !(name in files) || !same(data, files[name])));
	const names = (one) => Object.keys(one).sort().join(" ");
	const differs = [here.trap, here.status !== there.status && `status ${here.status}, natively ${there.status}`,
		!same(here.out, there.out) && "the output differs", here.err !== there.err && `${here.err}natively ${there.err}`,
		names(made) !== names(there.files) && `wrote ${names(made)}, natively ${names(there.files)}`,
		...Object.keys(there.files).map((name) => made[name] && !same(made[name], there.files[name]) && `${name} differs`)].filter(Boolean);
	check(differs.length === 0, `${what}: ${args.join(" ")}`, () => differs.join("\n"));
	return here;
}
function of_exercise({ name, programs, schedule, races = [1, 20] }) {
	for (const program of programs) for (const more of [[], ["--elf"]]) both(name, ["asm", program.name, "--out", "image", ...more],
		{ [program.name]: program.text });
	const { files, args } = inputs_of({ programs, schedule });
	const transcript = both(name, ["run", ...args, "--out0", "out0", "--out1", "out1"], files).out;
	both(name, ["run", "--plain", ...args], files);
	const told = Buffer.from(both(name, ["explain", ...args], files).out).toString(),
		wanted = fs.readFileSync(new URL(`../examples/${name}/story.txt`, import.meta.url), "utf8");
	check(told === wanted, `${name}: the story is that of its folder`, () => told);
	both(name, ["explain", "--steps", "1..2000", ...args], files);
	both(name, ["timeline", ...args], files);
	both(name, ["timeline", "--from", "5", "--events", "20", "--title", name, ...args], files);
	both(name, ["check", "--trace", "trace", ...args], { ...files, trace: transcript });
	both(name, ["check", "--trace", "trace", ...args], { ...files, trace: transcript.slice(0, -1) });
	both(name, ["explain", "--trace", "trace", ...args], { ...files, trace: transcript.slice(0, -9) });
	both(name, ["races", "--preemptions", String(races[0]), "--within", String(races[1]), "--found", "found", ...args], files);
	both(name, ["judge", "--pairs", ...args], files);
	both(name, ["gdb", ...args], files, questions([0, 3, 1, 9].map((event) => ({ event, processes: [1, 2] })), [{ at: 0, size: 16 }]));
}
// Disks, refusals, and texts that are long.
function others() {
	const { files, args } = inputs_of(exercises[0]), disk = both("disk", ["disk", "mkfs", "64", "--out", "disk"]).files.disk;
	const put = both("disk", ["disk", "put", "disk", "a name", "source", "--out", "disk"], { disk, source: "text\n".repeat(1000) }).files.disk;
	for (const words of [["ls", "disk"], ["check", "disk"], ["get", "disk", "a name", "--out", "got"], ["get", "disk", "none", "--out", "got"],
		["repair", "disk", "--out", "mended"]]) both("disk", ["disk", ...words], { disk: put });
	both("a disk with a file", ["run", ...args, "--disk1", "disk", "--out1", "out1"], { ...files, disk: put });
	both("nothing", []);
	both("no such command", ["walk"]);
	both("no such file", ["run", "--schedule", "none", "1.img"]);
	both("a wrong schedule", ["explain", ...args], { ...files, "schedule.txt": "step 1\nwalk 2\n" });
	both("no image", ["explain", ...args], { ...files, "1.img": "text" });
	both("an image twice", ["explain", ...args, "1.img"], files);
	for (const line of ["add a0, a1", "walk", ".byte 256", "a: a: nop"]) both("a wrong line", ["asm", "source.s", "--out", "image"],
		{ "source.s": `        nop\n${line}\n` });
	both("a long text", ["asm", "source.s", "--out", "image"], { "source.s": "        addi s0, s0, 1  # one\n".repeat(30000) });
	both("a million steps", ["run", ...args], { ...files, "schedule.txt": "round 925\n" });
	both("soak", ["soak", "7"]);
}

// A search that takes seconds tells how far it is, and its messages are as those of the native program.
function progress() {
	const { files, args } = inputs_of(exercises.find(({ name }) => name.endsWith("producer"))), told = [];
	const answer = run_command({ module: wasm, args: ["races", "--preemptions", "3", "--within", "40", ...args], files,
		told: (text) => told.push(text) });
	check(answer.status === 0 && answer.err === "" && (answer.ms < 2000 || told.some((text) => / of 10701 schedules$/.test(text))),
		"how far a search is", () => told.join());
}

exercises.forEach(of_exercise);
others();
progress();
end();
