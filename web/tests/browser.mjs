// browser.mjs - a chromium for tests, over the DevTools protocol
import { spawn } from "node:child_process";
import fs from "node:fs";
import os from "node:os";
import path from "node:path";

const KEYS = { ArrowLeft: 37, ArrowRight: 39, Home: 36, End: 35, Enter: 13, Tab: 9, Escape: 27 };
export const sleep = (ms) => new Promise((resolve) => setTimeout(resolve, ms));

// The address at which a browser that was started listens.
function address_of(child) {
	return new Promise((resolve, reject) => {
		let text = "";
		child.stderr.on("data", (data) => {
			text += data;
			const found = /DevTools listening on (ws:\S+)/.exec(text);
			if (found) resolve(found[1]);
		});
		child.on("exit", () => reject(new Error(`chromium ended: ${text}`)));
	});
}
// Sends commands over a socket, and keeps what the page says on its console.
async function connected(url) {
	const socket = new WebSocket(url), waiting = new Map(), said = [], requests = [];
	await new Promise((resolve) => (socket.onopen = resolve));
	socket.onmessage = ({ data }) => {
		const message = JSON.parse(data), task = waiting.get(message.id);
		if (task) {
			waiting.delete(message.id);
			if (message.error) task.reject(new Error(JSON.stringify(message.error)));
			else task.resolve(message.result);
		} else if (["Runtime.consoleAPICalled", "Runtime.exceptionThrown",
			"Log.entryAdded"].includes(message.method)) said.push(JSON.stringify(message.params).slice(0, 600));
		else if (message.method === "Network.requestWillBeSent") requests.push(message.params.request.url.slice(0, 80));
	};
	socket.onclose = () => {
		for (const task of waiting.values()) task.reject(new Error("the browser has gone"));
		waiting.clear();
	};
	let id = 0;
	const send = (method, params = {}) => new Promise((resolve, reject) => {
		waiting.set(++id, { resolve, reject });
		socket.send(JSON.stringify({ id, method, params }));
	});
	return { send, said, requests };
}

// A browser with one page: `send` any command, `ev` evaluates a text there, `until` waits for one, `said` is what its console has.
export async function browser({ width = 1280, height = 900, dark = false } = {}) {
	const folder = fs.mkdtempSync(path.join(os.tmpdir(), "xinu-page-"));
	const child = spawn("chromium", ["--headless=new", "--no-sandbox", "--disable-gpu", "--remote-debugging-port=0", `--user-data-dir=${folder}`,
		"about:blank"], { stdio: ["ignore", "ignore", "pipe"] });
	const port = /:(\d+)\//.exec(await address_of(child))[1], list = await (await fetch(`http://127.0.0.1:${port}/json`)).json();
	const page = await connected(list.find((one) => one.type === "page").webSocketDebuggerUrl), { send } = page;
	for (const part of ["Runtime", "Log", "Page", "Network", "DOM", "Accessibility"]) await send(`${part}.enable`);
	const size = (w, h) => send("Emulation.setDeviceMetricsOverride", { width: w, height: h, deviceScaleFactor: 1, mobile: w < 800 });
	const theme = (is_dark) => send("Emulation.setEmulatedMedia",
		{ features: [{ name: "prefers-color-scheme", value: is_dark ? "dark" : "light" }, { name: "prefers-reduced-motion", value: "reduce" }] });
	await size(width, height);
	await theme(dark);
	const ev = async (text) => {
		const answer = await send("Runtime.evaluate", { expression: text, awaitPromise: true, returnByValue: true });
		if (answer.exceptionDetails) throw new Error(answer.exceptionDetails.exception?.description || answer.exceptionDetails.text);
		return answer.result.value;
	};
	// while a page is being opened there may be nothing to ask
	const until = async (text, ms = 30000) => {
		let last = "";
		for (const end = Date.now() + ms; Date.now() < end; await sleep(30)) {
			const is_so = await ev(text).catch((why) => {
				last = why.message;
				return false;
			});
			if (is_so) return;
		}
		throw new Error(`never: ${text} ${last}`);
	};
	const shot = async (name) => fs.writeFileSync(name, Buffer.from((await send("Page.captureScreenshot", { format: "png" })).data, "base64"));
	const key = async (name, modifiers = 0) => {
		for (const type of ["keyDown", "keyUp"])
			await send("Input.dispatchKeyEvent",
				{ type, key: name, code: name, windowsVirtualKeyCode: KEYS[name], modifiers,
				...(name === "Enter" && type === "keyDown" ? { text: "\r" } : {}) });
	};
	const click = async (x, y) => {
		for (const type of ["mousePressed", "mouseReleased"]) await send("Input.dispatchMouseEvent", { type, x, y, button: "left", clickCount: 1 });
	};
	const close = async () => {
		const ended = new Promise((resolve) => child.on("exit", resolve));
		await send("Browser.close").catch(() => {});
		await Promise.race([ended, sleep(3000)]);
		if (child.exitCode === null) child.kill();
		fs.rmSync(folder, { recursive: true, force: true });
	};
	return { ...page, ev, until, shot, key, click, size, theme, close, open: (url) => send("Page.navigate", { url }) };
}
