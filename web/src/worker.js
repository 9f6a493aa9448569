// worker.js - the host of xinu_run: runs a command in a fresh instance of the module, over files in memory
import { StateReader } from "./states.js";

// errno values that host.c hands on, and flags of open
const ENOENT = 2, EBADF = 9;
const O_ACCMODE = 3, O_CREAT = 0x40, O_TRUNC = 0x200;

function join(parts) {
	const all = new Uint8Array(parts.reduce((n, part) => n + part.length, 0));
	let at = 0;
	for (const part of parts) {
		all.set(part, at);
		at += part.length;
	}
	return all;
}
const as_bytes = (data) => (typeof data === "string" ? new TextEncoder().encode(data) : data);

// The six functions that host.c asks for, over `run`: { argv, disk, touched, out, open, next, input, sink, memory }. Pointers and sizes
// are BigInt. A view of the memory is void once it has grown, so each call makes its own.
function host_of(run) {
	const bytes = (p, n) => new Uint8Array(run.memory.buffer, Number(p), Number(n));
	return {
		...files_of_host(run),
		write(fd, p, n) {
			const file = fd === 1 || fd === 2 ? run.out[fd] : run.open.get(fd);
			if (!file) return BigInt(-EBADF);
			if (fd === 2) run.told?.(new TextDecoder().decode(bytes(p, n)));
			if (fd === 1 && run.sink) run.sink(bytes(p, n));
			else file.pieces.push(bytes(p, n).slice());
			return n;
		},
		read(fd, p, n) {
			const file = fd === 0 ? run.input : run.open.get(fd);
			if (!file) return BigInt(-EBADF);
			const part = file.data.subarray(file.at, file.at + Number(n));
			bytes(p, n).set(part);
			file.at += part.length;
			return BigInt(part.length);
		},
		arg(k, p, room) {
			const word = run.argv[Number(k)];
			if (!word) return -1n;
			if (word.length > Number(room)) return -2n;
			bytes(p, word.length).set(word);
			return BigInt(word.length);
		},
		now: () => Date.now(),
	};
}
function files_of_host(run) {
	const text = (p) => {
		const all = new Uint8Array(run.memory.buffer, Number(p));
		return new TextDecoder().decode(all.subarray(0, all.indexOf(0)));
	};
	return {
		open(p, flags) {
			const name = text(p);
			if (!run.disk.has(name) && !(flags & O_CREAT)) return -ENOENT;
			if (!run.disk.has(name) || flags & O_TRUNC) {
				run.disk.set(name, new Uint8Array(0));
				run.touched.add(name);
			}
			run.open.set(run.next, { name, data: run.disk.get(name), at: 0, pieces: [], is_written: (flags & O_ACCMODE) !== 0 });
			return run.next++;
		},
		close(fd) {
			const file = run.open.get(fd);
			if (!file) return -EBADF;
			if (file.is_written) run.disk.set(file.name, join([file.data, ...file.pieces]));
			run.open.delete(fd);
			return 0;
		},
	};
}

// what `races` writes on a terminal to tell how far it is, and how it takes that away
const PROGRESS = /\r(\d+ of \d+ schedules|\x1b\[K)/g;

// Runs { module, args, files, stdin, sink, told }: the answer is { status, trap, out, err, files, ms } with the files that were written.
// `sink(bytes)` takes standard output in place of a buffer, `told(text)` is told how far the command is.
// A program that stops is status -1, with why in `trap`.
export function run_command({ module, name = "xinu_run", args, files = {}, stdin = new Uint8Array(0), sink, told }) {
	const disk = new Map(Object.entries(files).map(([file, data]) => [file, as_bytes(data)]));
	const run = { argv: [name, ...args].map(as_bytes), disk, touched: new Set(), out: [null, { pieces: [] }, { pieces: [] }],
		open: new Map(), next: 3, input: { data: stdin, at: 0 }, sink, told };
	const start = performance.now();
	let status = -1, trap = "";
	try {
		const { exports } = new WebAssembly.Instance(module, { host: host_of(run) });
		run.memory = exports.memory;
		status = exports.main(0, 0n);
	} catch (why) {
		trap = String(why?.message || why);
	}
	const made = {};
	for (const file of run.touched) made[file] = run.disk.get(file);
	const err = new TextDecoder().decode(join(run.out[2].pieces)).replace(PROGRESS, "");
	return { status, trap, out: join(run.out[1].pieces), err, files: made,
		ms: performance.now() - start };
}

// Runs a command whose output is the transcript of states: the answer has what StateReader made of it.
export function run_states(command, told) {
	const reader = new StateReader(told);
	const answer = run_command({ ...command, sink: (bytes) => reader.take(bytes) });
	return { ...answer, ...reader.finish() };
}

// The first message is the compiled module, each other one a command with its number.
const kept = { module: null };
function serve({ data }) {
	const { id, states, module, ...command } = data;
	if (module) {
		kept.module = module;
		return;
	}
	const whole = { ...command, module: kept.module }, told = (done) => postMessage({ id, done });
	postMessage({ id, answer: states ? run_states(whole, told) : run_command({ ...whole, told }) });
}
if (typeof WorkerGlobalScope !== "undefined") self.onmessage = serve;
