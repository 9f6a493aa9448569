// strangers.mjs - a run from a stranger changes nothing but itself, and a program that stops is told
import fs from "node:fs";
import os from "node:os";
import path from "node:path";
import { READY } from "./exercises.mjs";
import { text } from "./page.mjs";
import zlib from "node:zlib";

// the name of a process has at most 15 letters, that of a program any
const NAME = "<img src=x>", PROGRAM = "<img src=x onerror=globalThis.was_here=1>.s";
const SOURCE = `        .entry main
name:   .ascii "${NAME}\\0"
        .zero 16
        .align
main:   la   a0, main
        li   a1, 400
        li   a2, 10
        la   a3, name
        sys  create
        sys  getpid
`;
// A module whose \`main\` stops at once: (module (memory (export "memory") 1) (func (export "main") (param i32 i64) (result i32) unreachable))
const STOPS = Buffer.from("0061736d010000000107016002" + "7f7e017f" + "03020100" + "0503010001" + "071102" + "066d656d6f72790200"
	+ "046d61696e0000" + "0a0501030000" + "0b", "hex");

async function with_module(b, bytes, until) {
	const folder = fs.mkdtempSync(path.join(os.tmpdir(), "xinu-page-")), file = path.join(folder, "page.html");
	fs.writeFileSync(file, text.replace(/(<script type="text\/plain" id="wasm">)[^]*?(<\/script>)/,
		(_, begin, end) => begin + zlib.gzipSync(bytes).toString("base64") + end));
	await b.open(`file://${file}`);
	await b.until(until).catch(() => {});
	fs.rmSync(folder, { recursive: true, force: true });
}
export async function strangers(b, check) {
	await b.ev(`xinu_page.take(${JSON.stringify({ about: "<b>about</b>", programs: [{ name: PROGRAM, text: SOURCE }], schedule: "step 12\n", sources: { "<i>.c": "<script>" } })})`);
	await b.until(READY);
	for (const view of ["story", "picture", "transcript", "races", "step"]) await b.ev(`document.getElementById('tab-${view}').click()`);
	await b.ev("document.getElementById('last').click(); document.getElementById('draw').click()");
	await b.until(READY);
	const alien = "[document, document.querySelector('#picture > div')?.shadowRoot].filter(Boolean).flatMap((root) => [...root.querySelectorAll('img, b:not(.registers b), i, image, foreignObject')]).length";
	check(await b.ev(alien) === 0 && !await b.ev("globalThis.was_here"), "names are texts");
	check((await b.ev("document.getElementById('see').innerText")).includes(NAME), "and are shown");
	await with_module(b, STOPS, "!document.getElementById('fault').hidden");
	check(/The program stopped in the browser: unreachable/.test(await b.ev("document.getElementById('fault').innerText")),
		"a program that stops is told as such", () => b.ev("document.body.innerText.slice(0, 500)"));
	await with_module(b, Buffer.from("no module"), "!document.getElementById('refusal').hidden");
	check(/This browser can't run the program/.test(await b.ev("document.getElementById('refusal').innerText")), "a browser that can't is told",
		() => b.ev("document.body.innerText.slice(0, 500)"));
}
