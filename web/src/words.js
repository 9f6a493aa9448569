// words.js - calls, answers, traps and states in words
import { letter } from "./text.js";

// What each of the 44 calls does: %0 to %5 are its arguments, %d the device of the first one, %c the byte of the second.
export const CALLS = {
	getpid: "asks for its own number", create: "makes a process of priority %2, suspended", resume: "resumes process %0",
		suspend: "suspends process %0",
	kill: "kills process %0", yield: "yields", chprio: "gives process %0 the priority %1", getprio: "asks for the priority of process %0",
	exit: "exits",
	getmem: "takes %0 bytes of the heap", freemem: "gives back %1 bytes of the heap", getstk: "takes a stack of %0 bytes",
	freestk: "gives back a stack of %1 bytes",
	semcreate: "makes a semaphore with the count %0", semdelete: "deletes semaphore %0", semreset: "resets semaphore %0 to %1",
	semcount: "asks for the count of semaphore %0", wait: "waits on semaphore %0", signal: "signals semaphore %0",
	signaln: "signals semaphore %0 %1 times",
	send: "sends process %0 the message %1", receive: "receives a message", recvclr: "takes its message, if there is one",
	recvtime: "receives a message within %0 ticks",
	sleep: "sleeps %0 seconds", sleepms: "sleeps %0 ticks", clktime: "asks for the time",
	mkbufpool: "makes a pool of %1 buffers of %0 bytes", getbuf: "takes a buffer of pool %0", freebuf: "gives back a buffer",
	ptcreate: "makes a port for %0 messages", ptdelete: "deletes port %0", ptreset: "resets port %0", ptsend: "sends %1 to port %0",
	ptrecv: "receives from port %0",
	open: "opens a file of %d", close: "closes %d", read: "reads from %d", write: "writes to %d", getc: "reads a byte of %d", putc: "puts %c on %d",
	seek: "goes to byte %1 of %d", control: "does function %1 of %d", mount: "mounts a prefix",
};
const DEVICES = ["the console", "the name space", "the raw disk", "the file system"];
export const device_words = (number) => DEVICES[number] || `device ${number}`;

export function call_words(name, args) {
	return (CALLS[name] || `makes the call ${name}`).replace(/%(\d|d|c)/g, (_, what) => {
		if (what === "d") return device_words(Number(args[0]));
		return what === "c" ? letter(Number(args[1]) & 255) : args[what] ?? "?";
	});
}
export const ANSWERS = { "-1": "-1 (SYSERR)", "-2": "-2 (EOF)", "-3": "-3 (TIMEOUT)" };
const MAKES = ["create", "semcreate", "ptcreate", "mkbufpool"];
// calls of which -1 may be an answer like another: their answer is a number, or a message
const ANY_NUMBER = ["semcount", "receive", "recvclr", "recvtime", "ptrecv"];
// Whether an answer of a call says that it was refused.
export const is_refusal = (value, name) => value === -1 && !ANY_NUMBER.includes(name);
export function reply_words(value, name) {
	if (is_refusal(value, name)) return "refused: -1 (SYSERR)";
	if (value === -2 && ["read", "getc"].includes(name) || value === -3 && name === "recvtime") return `the answer is ${ANSWERS[value]}`;
	return MAKES.includes(name) ? `its number is ${value}` : `the answer is ${value}`;
}

export const TRAPS = {
	fetch: "its pc is no place of an instruction", illegal: "that is no instruction", break: "it is at an ebreak",
		target: "it jumped to no multiple of 4",
	load: "it loaded where there is no RAM, or from no multiple of the width",
	store: "it stored where there is no RAM, or to no multiple of the width",
};
export const STATES = {
	current: "runs", ready: "ready", receive: "waits for a message", timed: "waits for a message", wait: "waits", sleep: "sleeps",
		suspend: "suspended",
};
export const KINDS = {
	step: "a step", tick: "a tick of the clock", tx: "the console sends", disk0: "the raw disk is done", disk1: "the file system's disk is done",
	fail0: "the raw disk fails", fail1: "the file system's disk fails", dump: "the tables are printed", type: "a character is typed",
};
