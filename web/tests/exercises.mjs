// exercises.mjs - each exercise in the page: walked forward and back it says the same, and its story is the native program's
import { sleep } from "./browser.mjs";
import { story_of } from "./native.mjs";

export const READY = "(() => { if (!globalThis.xinu_page) return false; const { ran, at, is_looking } = xinu_page.page; return Boolean(ran?.states && !is_looking && ran.looks.has(at) && at >= ran.steps_from && at < ran.steps_to && !document.getElementById('run').disabled); })()";
// What the stepper shows, as text.
const SHOWN = "document.getElementById('what').innerText + '\\n--\\n' + document.getElementById('see').innerText";

export async function open_exercise(b, i) {
	await b.ev(`xinu_page.take(xinu_page.page.exercises[${i}])`);
	await b.until(READY);
}
// All that the stepper shows from the beginning to the end, by the events.
async function walk(b, button) {
	const shown = new Map();
	for (;;) {
		await b.until(READY);
		shown.set(await b.ev("xinu_page.page.at"), await b.ev(SHOWN));
		if (await b.ev(`document.getElementById('${button}').disabled`)) return shown;
		await b.ev(`document.getElementById('${button}').click()`);
	}
}
export async function exercises(b, check) {
	const names = await b.ev("xinu_page.page.exercises.map((one) => one.name)");
	for (const [i, name] of names.entries()) {
		await open_exercise(b, i);
		const forth = await walk(b, "forth"), back = await walk(b, "back");
		const differ = [...forth].filter(([event, text]) => back.get(event) !== text);
		check(differ.length === 0 && forth.size === back.size && forth.size > 1, `${name}: ${forth.size} places, the same forward and back`,
			() => `${differ.length} differ, the first at event ${differ[0]?.[0]}:\n${differ[0]?.[1]}\nand back:\n${back.get(differ[0]?.[0])}`);
		const told = await b.ev("document.getElementById('story').textContent"),
			native = story_of(await b.ev("(({ programs, schedule }) => ({ programs, schedule }))(xinu_page.page.work)"));
		check(told === native, `${name}: the story is the native program's`, () => `${told}\nand natively\n${native}`);
	}
	await sleep(50);
}
