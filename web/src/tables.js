// tables.js - the tables of a state, read in the lines that `dump` prints (docs/FORMATS.md)
import { text_of_hex } from "./text.js";

const is_none = (word) => word === undefined || word === "-";
const name_of_hex = (word) => (is_none(word) ? "" : text_of_hex(word));

// What each kind of line adds to the tables t; n are the words after the first as numbers.
const READ = {
	now: (t, w, n) => ([t.now, t.quantum] = n),
	proc: (t, w, n) => t.procs.push({ number: n[0], state: w[2], priority: n[2], parent: n[3], message: is_none(w[5]) ? null : n[4],
	name: name_of_hex(w[6]) }),
	ready: (t, w, n) => t.ready.push({ process: n[0], key: n[1] }),
	sem: (t, w, n) => t.sems.push({ number: n[0], count: n[1], waiters: [] }),
	wait: (t, w, n) => t.sems.find((sem) => sem.number === n[0])?.waiters.push(n[1]),
	sleep: (t, w, n) => t.sleepers.push({ process: n[0], wake: n[1] }),
	free: (t, w, n) => t.free.push({ at: n[0], size: n[1] }),
	pool: (t, w, n) => t.pools.push({ number: n[0], size: n[1], free: n[2], held: n[3] }),
	port: (t, w, n) => t.ports.push({ number: n[0], room: n[2], messages: [] }),
	node: (t, w, n) => t.ports.find((port) => port.number === n[0])?.messages.push(n[1]),
	console: (t, w, n) => (t.console = { mode: w[1], committed: n[1], line: n[2], output: n[3], echo: n[4], is_held: w[6] === "held" }),
	disk0: (t, w, n) => (t.disk0 = n[0]),
	lfile: (t, w, n) => t.files.push({ device: n[0], position: n[1], size: n[2] }),
	disk1: (t, w) => (t.disk1 = w[1]),
};

export function tables_of(text) {
	const t = { procs: [], ready: [], sems: [], sleepers: [], free: [], pools: [], ports: [], files: [] };
	for (const line of text.split("\n")) {
		const w = line.split(" ");
		READ[w[0]]?.(t, w, w.slice(1).map(Number));
	}
	t.current = t.procs.find((one) => one.state === "current")?.number ?? 0;
	return t;
}
