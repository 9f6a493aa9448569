// native.mjs - commands of the native program, $XINU_RUN
import { spawnSync } from "node:child_process";
import fs from "node:fs";
import os from "node:os";
import path from "node:path";

const MOST = 1 << 28;
// Runs a command over files in a folder of its own: { status, out, err, files } with the files that it wrote or changed, as worker.js answers.
export function native(args, files = {}, stdin = "", program = process.env.XINU_RUN) {
	const folder = fs.mkdtempSync(path.join(os.tmpdir(), "xinu-native-"));
	try {
		for (const [name, data] of Object.entries(files)) fs.writeFileSync(path.join(folder, name), data);
		const ran = spawnSync(program, args, { cwd: folder, input: stdin, maxBuffer: MOST });
		const made = {};
		for (const name of fs.readdirSync(folder)) {
			const data = fs.readFileSync(path.join(folder, name));
			if (!(name in files) || !data.equals(Buffer.from(files[name]))) made[name] = data;
		}
		return { status: ran.status, out: ran.stdout, err: ran.stderr.toString(), files: made };
	} finally {
		fs.rmSync(folder, { recursive: true, force: true });
	}
}
// The image of a text in assembler; with `--elf` as an ELF file.
export function assembled(text, ...more) {
	const answer = native(["asm", "source.s", "--out", "image", ...more], { "source.s": text });
	if (answer.status) throw new Error(answer.err);
	return answer.files.image;
}
// What `listing` prints of a text in assembler.
export const listing_of = (text) => native(["listing", "source.s"], { "source.s": text }).out.toString();
// The files and arguments of a run of programs in assembler.
export function inputs_of({ programs, schedule }) {
	const files = { "schedule.txt": schedule }, images = programs.map((program, i) => {
		files[`${i + 1}.img`] = program.bytes || assembled(program.text);
		return `${i + 1}.img`;
	});
	return { files, args: ["--schedule", "schedule.txt", ...images] };
}
export function story_of(work) {
	const { files, args } = inputs_of(work);
	return native(["explain", ...args], files).out.toString();
}
