// gdb.js - what the page asks as gdb would, and the answers: registers and memory in the states after events
import { bytes_of_hex, hex, hex_of } from "./text.js";

function packet(text) {
	let sum = 0;
	for (const letter of text) sum += letter.charCodeAt(0);
	return `$${text}#${hex(sum & 255, 2)}`;
}

// The text that asks, after each of the events, for the registers of its processes and for the bytes at the labels.
export function questions(looks, labels) {
	const parts = [packet("QStartNoAckMode"), "+"];
	for (const { event, processes } of looks) {
		parts.push(packet("qRcmd," + hex_of(`goto ${event}`)));
		// gdb counts threads from 1, and process 0 has a number too
		for (const process of processes) parts.push(packet(`Hg${hex(process + 1)}`), packet("g"));
		for (const label of labels) parts.push(packet(`m${hex(label.at)},${hex(label.size)}`));
	}
	return parts.join("") + packet("D");
}

const is_answer_of_goto = (reply) => reply === "OK" || /^E\d\d$/.test(reply);
const word_at = (text, i) => {
	const [a, b, c, d] = bytes_of_hex(text.slice(8 * i, 8 * i + 8));
	return (a | b << 8 | c << 16 | d << 24) >>> 0;
};
const REGISTERS = 33;

// What the answers say: for each event { of, memory }, the 33 registers of each process, pc last, and the bytes of each label.
export function answers(text, looks, labels) {
	const replies = [...text.matchAll(/\$([^#]*)#../g)].map((found) => found[1]), found = new Map();
	let k = 1;
	for (const { event, processes } of looks) {
		// texts of the console may come before the answer to `goto`
		while (k < replies.length && !is_answer_of_goto(replies[k])) k++;
		k++;
		const of = new Map();
		for (const process of processes) {
			const words = replies[k] === "OK" ? replies[k + 1] || "" : "";
			k += 2;
			if (words.length >= 8 * REGISTERS) of.set(process, Array.from({ length: REGISTERS }, (_, i) => word_at(words, i)));
		}
		found.set(event, { of, memory: labels.map(() => replies[k++]) });
	}
	return found;
}

export const NAMES = "zero ra sp gp tp t0 t1 t2 s0 s1 a0 a1 a2 a3 a4 a5 a6 a7 s2 s3 s4 s5 s6 s7 s8 s9 s10 s11 t3 t4 t5 t6 pc".split(" ");
export const PC = 32;
