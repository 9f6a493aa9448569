// times.mjs - how long things take in the page, and natively: five rounds each, of which the middle is told
import { browser } from "./browser.mjs";
import { READY } from "./exercises.mjs";
import { assembled, native } from "./native.mjs";
import { text } from "./page.mjs";

const ROUNDS = 5, STEPS = 20000000;
const LOOP = "here:   addi s0, s0, 1\n        j    here\n";
// two processes that wait for each other's number, over and over
const PAIR = `        .entry main
word:   .word 0
name:   .ascii "other\\0"
        .zero 10
        .align
main:   li   a0, 0
        sys  semcreate
        mv   s0, a0
        li   a0, 1
        sys  semcreate
        mv   s1, a0
        la   a0, other
        li   a1, 400
        li   a2, 20
        la   a3, name
        mv   a4, s0
        mv   a5, s1
        sys  create
        sys  resume
put:    mv   a0, s1
        sys  wait
        la   t0, word
        lw   t1, 0(t0)
        addi t1, t1, 1
        sw   t1, 0(t0)
        mv   a0, s0
        sys  signal
        j    put
other:  mv   s0, a0
        mv   s1, a1
take:   mv   a0, s0
        sys  wait
        la   t0, word
        lw   t2, 0(t0)
        mv   a0, s1
        sys  signal
        j    take
`;
const middle = (list) => list.sort((a, b) => a - b)[list.length >> 1];
async function rounds(does) {
	const times = [];
	for (let k = 0; k < ROUNDS; k++) times.push(await does());
	return middle(times);
}
const tell = (what, ms) => console.log(`${what}: ${ms < 1000 ? `${Math.round(ms)} ms` : `${(ms / 1000).toFixed(2)} s`}`);
// Waits in the page itself, and answers how long that took there.
const until_ready = (begin) =>
	`(async () => { const start = ${begin}; while (!${READY}) await new Promise((resolve) => setTimeout(resolve, 1)); return performance.now() - start; })()`;

async function natively() {
	const files = { "schedule.txt": `step ${STEPS}\n`, image: assembled(LOOP) };
	const start = performance.now();
	native(["run", "--schedule", "schedule.txt", "image"], files);
	return performance.now() - start;
}
async function in_page(b, url) {
	await b.open("about:blank");
	await b.open(url);
	return b.ev(until_ready("0"));
}
async function jump(b, event) {
	await b.ev("xinu_page.go(0)");
	await b.until(READY);
	// nothing is left of an earlier jump
	await b.ev("(() => { const { ran } = xinu_page.page; ran.looks.clear(); ran.steps_from = ran.steps_to = 0; })()");
	const tables = await b.ev(`(async () => { const start = performance.now(); await xinu_page.go(${event}); return performance.now() - start; })()`);
	const start = performance.now();
	await b.ev(until_ready("performance.now()"));
	return { tables, registers: tables + performance.now() - start };
}

const b = await browser(), url = `file://${process.env.PAGE}`;
try {
	console.log(`the page: ${Math.round(text.length / 1000)} KB`);
	tell("from navigation to the first run, its states and registers", await rounds(() => in_page(b, url)));
	const image = Array.from(assembled(LOOP)),
		command = `xinu_page.command(["run", "--schedule", "s", "image"], { s: "step ${STEPS}\\n", image: new Uint8Array(${JSON.stringify(image)}) }).then(({ ms }) => ms)`;
	tell(`${STEPS} steps in the page`, await rounds(() => b.ev(command)));
	tell(`${STEPS} steps natively, with the start of the process`, await rounds(natively));
	await b.ev(`xinu_page.take(${JSON.stringify({ programs: [{ name: "pair.s", text: PAIR }], schedule: "round 926\n" })})`);
	await b.until(READY, 60000);
	for (const event of [10000, 500000]) {
		const jumps = [];
		for (let k = 0; k < ROUNDS; k++) jumps.push(await jump(b, event));
		tell(`a jump to event ${event} of ${await b.ev("xinu_page.page.ran.count")}: tables`, middle(jumps.map((one) => one.tables)));
		tell(`a jump to event ${event}: registers and instructions`, middle(jumps.map((one) => one.registers)));
	}
} finally {
	await b.close();
}
