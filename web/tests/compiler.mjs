// compiler.mjs - programs in C for tests, where riscv64-unknown-elf-gcc, or gcc after the prefix $CROSS, is there
import { spawnSync } from "node:child_process";
import fs from "node:fs";
import os from "node:os";
import path from "node:path";

const CROSS = process.env.CROSS || "riscv64-unknown-elf-";
export const TOP = new URL("../../", import.meta.url).pathname;
export const has_compiler = () => !spawnSync(`${CROSS}gcc`, ["--version"]).error;

// A program of the repository as sdk/xinu.mk compiles it, and what objdump says of its lines.
export function compiled(source, more) {
	const folder = fs.mkdtempSync(path.join(os.tmpdir(), "xinu-compiled-")),
		sources = ["sdk/start.S", source, "sdk/xinu.c"].map((name) => TOP + name);
	const words = ["-march=rv32i", "-mabi=ilp32", "-msmall-data-limit=0", "-std=gnu11", "-ffreestanding", "-fno-tree-loop-distribute-patterns",
		"-nostdlib", "-static", "-Og", `-I${TOP}sdk`, "-T", `${TOP}sdk/xinu.ld`, "-Wl,--defsym=PLACE=0", "-Wl,-z,max-page-size=4", ...more];
	try {
		const made = spawnSync(`${CROSS}gcc`, [...words, "-o", "program.elf", ...sources, "-lgcc"], { cwd: folder });
		if (made.status) throw new Error(made.stderr.toString());
		const told = spawnSync(`${CROSS}objdump`, ["--dwarf=decodedline", "program.elf"], { cwd: folder }).stdout.toString();
		return { elf: new Uint8Array(fs.readFileSync(path.join(folder, "program.elf"))), told, text: fs.readFileSync(TOP + source, "utf8") };
	} finally {
		fs.rmSync(folder, { recursive: true, force: true });
	}
}
