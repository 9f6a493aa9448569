// actions.mjs - what a person does on the page: types, clicks, uploads, plays, stops
import { spawnSync } from "node:child_process";
import fs from "node:fs";
import os from "node:os";
import path from "node:path";
import { sleep } from "./browser.mjs";
import { READY, open_exercise } from "./exercises.mjs";
import { TOP, compiled, has_compiler } from "./compiler.mjs";
import { assembled, native } from "./native.mjs";

const AT = "xinu_page.page.at", COUNT = "xinu_page.page.ran.count", SCHEDULE = "xinu_page.page.work.schedule";
const inner = (id) => `document.getElementById(${JSON.stringify(id)}).innerText`;
const press = (b, id) => b.ev(`document.getElementById(${JSON.stringify(id)}).click()`);
const named = async (b, name) => b.ev(`xinu_page.page.exercises.findIndex((one) => one.name.endsWith(${JSON.stringify(name)}))`);
const open = async (b, name) => open_exercise(b, await named(b, name));

// Puts a file into the field that a text beside it names.
export async function upload(b, beside, name, data) {
	const folder = fs.mkdtempSync(path.join(os.tmpdir(), "xinu-upload-")), file = path.join(folder, name);
	fs.writeFileSync(file, data);
	const { result } = await b.send("Runtime.evaluate",
		{ expression: `[...document.querySelectorAll("input[type=file]")].find((one) => one.closest("label").innerText.startsWith(${JSON.stringify(beside)}))` });
	await b.send("DOM.setFileInputFiles", { files: [file], objectId: result.objectId });
	await sleep(200);
	fs.rmSync(folder, { recursive: true, force: true });
}

async function typing(b, check) {
	await open(b, "typing");
	await b.ev("document.getElementById('typed').focus()");
	await b.send("Input.insertText", { text: "a line" });
	await b.key("Enter");
	await b.until(READY);
	await b.until(`${AT} === ${COUNT}`);
	check(/a line[^]*>a line/.test(await b.ev(inner("paper"))), "a line that is typed is answered", () => b.ev(inner("paper")));
	check((await b.ev(SCHEDULE)).includes("type 61 20 6c 69 6e 65 0a\n"), "what was typed is in the schedule");
}
async function schedule(b, check) {
	await open(b, "turns");
	for (let k = 0; k < 7; k++) await press(b, "forth");
	await b.until(READY);
	await press(b, "cut");
	await b.until(`${COUNT} === 7`);
	const press_added = (label) =>
		b.ev(`[...document.querySelectorAll("#schedule button")].find((one) => one.textContent === ${JSON.stringify(label)}).click()`);
	await press_added("+tick");
	await b.until(`${COUNT} === 8 && ${AT} === 8`);
	check((await b.ev(SCHEDULE)).endsWith("tick 1\n"), "the schedule is cut, and a tick added");
	check(await b.ev("document.getElementById('exercise').value") === "own", "it is one's own then");
	await b.ev("(() => { const one = document.querySelector('#schedule textarea'); one.value = 'step 1\\nwalk 2\\n'; one.dispatchEvent(new Event('input')); })()");
	await press(b, "run");
	await b.until("!document.getElementById('fault').hidden");
	check(/line 2, “walk 2”/.test(await b.ev(inner("fault"))), "a wrong line of the schedule is quoted", () => b.ev(inner("fault")));
	await b.ev("(() => { const one = document.querySelector('#panels textarea'); one.value = '  nop\\n  walk\\n'; one.dispatchEvent(new Event('input')); })()");
	await press(b, "run");
	await b.until("/line 2, .walk/.test(document.getElementById('fault').innerText)");
	check(true, "a wrong line of a program is quoted");
}
async function links(b, check, url) {
	await open(b, "lost_update");
	await b.ev("(() => { const one = document.querySelector('#schedule textarea'); one.value = 'step 21\\n'; one.dispatchEvent(new Event('input')); })()");
	await press(b, "run");
	await b.until(`${READY} && ${COUNT} === 21`);
	await press(b, "share");
	await sleep(200);
	const link = await b.ev("location.hash");
	check(link.startsWith("#w=") && link.length < 1500, `a link of ${link.length} letters`);
	await b.open("about:blank");
	await b.open(url + link);
	await b.until(`globalThis.xinu_page && ${READY} && ${COUNT} === 21`);
	check(await b.ev("document.getElementById('exercise').value") === "own" && await b.ev(SCHEDULE) === "step 21\n", "the link has the run");
	await b.open("about:blank");
	await b.open(`${url}#w=nothing`);
	await b.until(`globalThis.xinu_page && ${READY}`);
	check(await b.ev("xinu_page.page.work.programs[0].name") === "hello.s", "a damaged link is told, and the first exercise is there");
}
// What web/link writes: the end of a link, and a page.
async function written_links(b, check, url) {
	const folder = fs.mkdtempSync(path.join(os.tmpdir(), "xinu-link-")), program = "        sys  getpid\n        sys  exit\n# </script>\n";
	fs.writeFileSync(path.join(folder, "own.s"), program);
	fs.writeFileSync(path.join(folder, "s.txt"), "step 3\n");
	const words = ["--schedule", "s.txt", "--title", "Monday", "--page", process.env.PAGE];
	const link = (...more) => spawnSync(`${TOP}web/link`, [...words, ...more, "own.s"], { cwd: folder }).stdout.toString().trim();
	for (const place of [url + link("--fragment"), `file://${folder}/${link("--out", "own.html")}`]) {
		await b.open("about:blank");
		await b.open(place);
		await b.until(`${READY} && ${COUNT} === 3`);
		check(await b.ev("xinu_page.page.work.programs[0].text") === program, `web/link wrote ${place.slice(0, 60)}`);
	}
	check(await b.ev("document.getElementById('exercise').selectedOptions[0].text") === "Monday", "and its title");
	fs.rmSync(folder, { recursive: true, force: true });
}
async function races(b, check) {
	await open(b, "lost_update");
	await press(b, "tab-races");
	await press(b, "try");
	await b.until("document.querySelectorAll('#outcomes tbody tr').length === 2");
	await b.ev("document.querySelectorAll('#outcomes tbody button')[1].click()");
	await b.until(`${READY} && xinu_page.page.beside`);
	check(/end done/.test(await b.ev("xinu_page.page.ran.transcript")) && await b.ev("xinu_page.page.ran.transcript.includes('con 31')"),
		"the second outcome is stepped: it prints 1");
	const at = await b.ev(AT);
	await press(b, "forth");
	await b.until(READY);
	check(/the clock ticks/.test(await b.ev(inner("what"))) && at > 0, "it stands before the preemption", () => b.ev(inner("what")));
	await press(b, "tab-beside");
	const said = await b.ev(inner("beside"));
	check(/differ: the first difference is marked/.test(said) && await b.ev("document.querySelectorAll('.first-difference').length") === 1,
		"the run before is beside it", () => said.slice(0, 400));
	const rows = await b.ev("[...document.querySelectorAll('.first-difference td')].map((one) => one.innerText)");
	check(rows[1] !== rows[3], "the marked lines differ", () => rows.join(" | "));
	await press(b, "tab-races");
	await press(b, "base");
	await b.until(`${READY} && xinu_page.page.base === null && document.getElementById('tab-beside').hidden`);
	check(await b.ev("xinu_page.page.ran.transcript.includes('con 32')"), "and back to the schedule before");
	await press(b, "tab-step");
}
async function judging(b, check) {
	await open(b, "lost_update");
	await press(b, "tab-judge");
	await b.until("document.querySelectorAll('#reports tbody tr').length === 2");
	const told = await b.ev(inner("reports"));
	check(/^1 data race in \d+ events\./.test(told) && /word, at 0x/.test(told) && /sw\s+t0, 0\(s0\)/.test(told), "the data race is told with its label and lines",
		() => told);
	const event = await b.ev("Number(document.querySelector('#reports [data-event]').dataset.event)");
	await b.ev("document.querySelector('#reports [data-event]').click()");
	await b.until(READY);
	check(await b.ev("xinu_page.page.view") === "step" && await b.ev(AT) === event, `its first access is stepped to: event ${event}`);
	check(/an access that races/.test(await b.ev(inner("legend"))), "the bar marks it");
	await b.ev("(() => { const one = document.querySelector('#schedule textarea'); one.value = 'step 20\\n'; one.dispatchEvent(new Event('input')); })()");
	await press(b, "run");
	await b.until(`${READY} && ${COUNT} === 20`);
	check(await b.ev("document.getElementById('reports').childElementCount") === 0, "another run isn't judged yet");
	await press(b, "tab-judge");
	await b.until("/^No data race in 20 events/.test(document.getElementById('reports').innerText)");
	check(true, "a part of the run has none");
	await press(b, "tab-step");
}
async function proofs(b, check) {
	await open(b, "every_schedule");
	await press(b, "tab-proof");
	check(await b.ev("['lock', 'word', 'rule'].map((id) => document.getElementById(id).value).join()") === "4,counter,rounds",
		"the comments of a program say what is to be proved");
	const proved = async () => {
		await b.ev("document.getElementById('proof').replaceChildren()");
		await press(b, "prove");
		await b.until("document.getElementById('proof').childElementCount > 0");
		return b.ev(inner("proof"));
	};
	const right = await proved();
	check(/^proved: .*shared\.s first\.s second\.s/.test(right) && /first\.s 20-44/.test(right), "the programs are proved", () => right);
	await b.ev("(() => { const one = document.querySelectorAll('#panels textarea')[1]; one.value = one.value.replace('addi t0, t0, 1', 'addi t0, t0, 2'); one.dispatchEvent(new Event('input')); })()");
	const wrong = await proved();
	check(/^not proved: first\.s, address 44, with the lock: it gives back the lock while the word is rounds \+ 2 +\(line 10\)/.test(wrong), "a wrong one isn't, and its line is told",
		() => wrong);
	check(await b.ev("document.querySelectorAll('#panels .bar.fault').length") === 1, "and marked");
	await press(b, "tab-step");
}
async function pictures(b, check) {
	await open(b, "deadlock");
	await press(b, "tab-picture");
	await b.until("document.querySelector('#picture > div')?.shadowRoot.querySelector('svg')");
	const [x, y] = await b.ev("(() => { const box = [...document.querySelector('#picture > div').shadowRoot.querySelectorAll('g')].find((one) => /^event 23/.test(one.querySelector('title')?.textContent || ''))?.getBoundingClientRect(); return box ? [box.x + box.width / 2, box.y + box.height / 2] : [0, 0]; })()");
	await b.click(x, y);
	await b.until("xinu_page.page.view === 'step'", 3000).catch(() => {});
	check(await b.ev("xinu_page.page.view") === "step" && await b.ev(AT) > 0, "a click in the picture goes to its event",
		async () => `${x} ${y} ${await b.ev(AT)}`);
	await press(b, "tab-transcript");
	await b.ev("document.querySelectorAll('#transcript [data-event]')[3].click()");
	check(await b.ev("xinu_page.page.view") === "step"
		&& await b.ev(AT) === Number(await b.ev("document.querySelectorAll('#transcript [data-event]')[3].dataset.event")),
		"a click on a line goes to its event");
	await press(b, "tab-story");
	check(/wait in a circle/.test(await b.ev(inner("story"))), "the story tells of the circle");
	await press(b, "tab-step");
}
async function uploads(b, check) {
	await open(b, "hello");
	const elf = assembled(await b.ev("xinu_page.page.work.programs[0].text"), "--elf"), asked = await b.ev(`${COUNT}`);
	await b.ev("[...document.querySelectorAll('#files button')].at(-1).click()");
	await upload(b, "Add a program built elsewhere", "other.elf", elf);
	check(await b.ev("xinu_page.page.work.programs.length") === 2, "a program is added");
	await press(b, "run");
	await b.until("!document.getElementById('fault').hidden");
	check(/lies in RAM where an earlier program does/.test(await b.ev(inner("fault"))), "two programs at one place are refused in words");
	await b.ev("document.getElementById('file-0').click(); [...document.querySelectorAll('#panel-0 button')].find((one) => one.textContent === 'Remove').click()");
	await press(b, "run");
	await b.until(`${READY} && ${COUNT} === ${asked}`);
	check(/ELF file/.test(await b.ev(inner("panels"))), "an ELF file runs as its text did");
	await b.ev("[...document.querySelectorAll('#files button')].at(-1).click()");
	await upload(b, "Put a file on it", "note.txt", "kept\n");
	await b.until("xinu_page.page.work.disk1");
	await b.until("/Save note.txt 5 bytes/.test(document.getElementById('panels').innerText)");
	const disk = Buffer.from(await b.ev("Array.from(xinu_page.page.work.disk1)"));
	check(native(["disk", "get", "disk", "note.txt", "--out", "got"], { disk }).files.got.toString() === "kept\n", "a file is put on the disk");
}
// Two processes that wait in C are shown at the line that makes the call.
async function lines_of_c(b, check) {
	if (!has_compiler()) return;
	const { elf, text } = compiled("examples/mistakes/deadlock.c", ["-g"]),
		work = { about: "", programs: [{ name: "deadlock.elf" }], schedule: "round 8\n", sources: { "deadlock.c": text } };
	await b.ev(`(() => { const work = ${JSON.stringify(work)}; work.programs[0].bytes = Uint8Array.from(atob("${Buffer.from(elf).toString("base64")}"), (one) => one.charCodeAt(0)); return xinu_page.take(work); })()`);
	await b.until(READY);
	await press(b, "last");
	await b.until(READY);
	const places = await b.ev("[...document.querySelectorAll('td.where')].map((one) => one.innerText).filter(Boolean)"),
		line = text.split("\n").findIndex((one) => one.includes("wait(second)")) + 1;
	check(places.length === 2 && places.every((one) => one === `deadlock.c:${line} wait(second);`), "processes in C are shown at their calls",
		() => places.join("\n"));
	check(await b.ev("document.querySelectorAll('#panels .tag').length") === 2, "and in the text");
	await b.ev("document.getElementById('by').value = 'lines'");
	await press(b, "first");
	const marked = async () => {
		await b.until(READY);
		return b.ev("Math.round((parseFloat(document.querySelector('#panels .panel:not([hidden]) .bar.next')?.style.top) - 8) / 20) + 1");
	};
	for (let k = 0; k < 40 && (await marked()) !== line - 2; k++) await press(b, "forth");
	const lines = [await marked()];
	for (let k = 0; k < 2; k++) {
		await press(b, "forth");
		lines.push(await marked());
	}
	check(lines.includes(line - 1), "steps go over lines of C", () => lines.join());
	await b.ev("document.getElementById('by').value = 'folds'");
}
async function stopping(b, check) {
	await open(b, "turns");
	await b.ev("xinu_page.page.work.schedule = 'step 900000000\\n'; void xinu_page.run(); 0");
	await b.until("!document.getElementById('stop').disabled");
	await sleep(300);
	await press(b, "stop");
	await b.until("document.getElementById('status').innerText === 'Stopped' && !document.getElementById('run').disabled");
	check(true, "a long run is stopped");
	await b.ev("xinu_page.page.work.schedule = 'step 100000\\n'; void xinu_page.run(); 0");
	await b.until(`${READY} && ${COUNT} === 100000`);
	await press(b, "last");
	await b.until(`${READY} && ${AT} === 100000`);
	check(await b.ev("xinu_page.page.ran.first") === 90000, "a later stretch is fetched");
	await press(b, "first");
	await b.until(`${READY} && ${AT} === 0`);
	await b.ev("document.getElementById('speed').value = '40'");
	await press(b, "play");
	await sleep(700);
	await press(b, "play");
	const at = await b.ev(AT);
	check(at > 3, `Play goes on: to event ${at}`);
}
export async function actions(b, check, url) {
	for (const part of [typing, schedule, races, judging, proofs, pictures, uploads, lines_of_c, stopping]) await part(b, check);
	await links(b, check, url);
	await written_links(b, check, url);
}
