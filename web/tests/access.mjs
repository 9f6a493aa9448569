// access.mjs - the page by keyboard, its names, contrast and widths
import { sleep } from "./browser.mjs";
import { READY, open_exercise } from "./exercises.mjs";

const AT = "xinu_page.page.at", SHIFT = 8, CTRL = 2;
const VIEWS = ["step", "story", "picture", "transcript", "races", "judge", "proof"];
const CONTROLS = ["button", "textbox", "combobox", "slider", "tab", "spinbutton", "link", "searchbox"];

async function keys(b, check) {
	await open_exercise(b, 2);
	await b.ev("document.activeElement.blur()");
	const steps = [["ArrowRight", 0, 1], ["ArrowRight", 0, 2], ["ArrowLeft", 0, 1], ["End", 0, await b.ev("xinu_page.page.ran.count")],
		["Home", 0, 0], ["ArrowRight", SHIFT, await b.ev("xinu_page.page.ran.stops[1]")]];
	for (const [name, modifiers, wanted] of steps) {
		await b.key(name, modifiers);
		check(await b.ev(AT) === wanted, `key ${name} leads to ${wanted}`, () => b.ev(AT));
	}
	await b.ev("document.getElementById('tab-step').focus()");
	await b.key("ArrowRight");
	check(await b.ev("xinu_page.page.view") === "story" && await b.ev("document.activeElement.id") === "tab-story", "arrows go from tab to tab");
	await b.key("Home");
	await b.ev("document.querySelector('#panels textarea').focus()");
	const running = await b.ev("xinu_page.page.running");
	await b.key("Enter", CTRL);
	await b.until(`xinu_page.page.running > ${running} && ${READY}`);
	check(true, "Ctrl and Enter runs");
	await b.ev("document.querySelector('#panels textarea').focus()");
	await b.key("Escape");
	await b.key("Tab");
	check(await b.ev("document.activeElement.tagName") !== "TEXTAREA", "Escape and Tab leaves a text");
}
async function names(b, check) {
	const { nodes } = await b.send("Accessibility.getFullAXTree");
	const controls = nodes.filter((node) => !node.ignored && CONTROLS.includes(node.role?.value)),
		nameless = controls.filter((node) => !node.name?.value);
	check(controls.length > 20 && nameless.length === 0, `${controls.length} controls have names`, () => JSON.stringify(nameless.slice(0, 5)));
}
// The texts whose contrast is under 4.5, of those that are seen; in the page.
function too_pale() {
	const part = (value) => {
		const c = value / 255;
		return c <= 0.03928 ? c / 12.92 : ((c + 0.055) / 1.055) ** 2.4;
	};
	const light = ([r, g, b]) => 0.2126 * part(r) + 0.7152 * part(g) + 0.0722 * part(b);
	const numbers = (text) => (text.match(/[\d.]+/g) || []).map(Number);
	const ground = (node) => {
		for (; node; node = node.parentElement) {
			const colour = numbers(getComputedStyle(node).backgroundColor);
			if (colour.length === 3 || colour[3] > 0.5) return colour;
		}
		return matchMedia("(prefers-color-scheme: dark)").matches ? [13, 17, 23] : [255, 255, 255];
	};
	const pale = [], walker = document.createTreeWalker(document.body, NodeFilter.SHOW_TEXT);
	for (let text = walker.nextNode(); text; text = walker.nextNode()) {
		const node = text.parentElement, box = node.getBoundingClientRect();
		if (!text.data.trim() || !box.width || node.closest("[hidden], script, style, :disabled, .stale")) continue;
		const [a, b] = [light(numbers(getComputedStyle(node).color)), light(ground(node))],
			contrast = (Math.max(a, b) + 0.05) / (Math.min(a, b) + 0.05);
		if (contrast < 4.5) pale.push(`${contrast.toFixed(2)} ${node.className || node.tagName} ${text.data.slice(0, 30)}`);
	}
	return pale;
}
async function looks(b, check) {
	for (const dark of [false, true]) {
		await b.theme(dark);
		for (const view of VIEWS) {
			await b.ev(`document.getElementById('tab-${view}').click()`);
			await sleep(100);
			const pale = await b.ev(`(${too_pale})()`);
			check(pale.length === 0, `${view}, ${dark ? "dark" : "light"}: contrast is at least 4.5`, () => pale.slice(0, 8).join("\n"));
		}
	}
	await b.theme(false);
	for (const [width, height] of [[1280, 900], [400, 800]]) {
		await b.size(width, height);
		await sleep(150);
		for (const view of VIEWS) {
			await b.ev(`document.getElementById('tab-${view}').click()`);
			await sleep(50);
			check(await b.ev("document.scrollingElement.scrollWidth") <= width, `${view} isn't wider than ${width}`,
				() => b.ev("document.scrollingElement.scrollWidth"));
		}
	}
	await b.size(1280, 900);
}
export async function access(b, check) {
	await keys(b, check);
	for (const i of [2, 4, 7]) {
		await open_exercise(b, i);
		await b.ev("for (let k = 0; k < 12; k++) document.getElementById('forth').click()");
		await b.until(READY);
		await names(b, check);
		await looks(b, check);
		await b.ev("document.getElementById('tab-step').click()");
	}
}
