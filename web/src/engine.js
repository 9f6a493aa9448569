// engine.js - the program: its module, and the worker that runs its commands
import { $ } from "./dom.js";
import { from_base64, through } from "./text.js";

// tasks are the commands that are under way, by their numbers
const engine = { module: null, worker: null, tasks: new Map(), number: 0 };

export class Stopped extends Error {}

const TOO_OLD = "This browser is too old to run the program: it needs WebAssembly and DecompressionStream, which browsers have had since 2023.";
const NOT_WIDE = "This browser can't run the program: this page was built without wasm-opt, so it needs WebAssembly with a memory of 64"
	+ " bits, which Chrome and Edge have had since version 133, and Firefox since version 134.";

export async function load() {
	if (typeof WebAssembly !== "object" || typeof DecompressionStream !== "function" || typeof BigInt !== "function") throw new Error(TOO_OLD);
	const bytes = await through(new DecompressionStream("gzip"), from_base64($("wasm").textContent.trim()));
	if (!WebAssembly.validate(bytes)) throw new Error(NOT_WIDE);
	engine.module = await WebAssembly.compile(bytes);
	hire();
}
// The worker is made from a text, since a page that was opened as a file can't load a second one.
function hire() {
	const url = URL.createObjectURL(new Blob([$("worker").textContent], { type: "text/javascript" }));
	engine.worker = new Worker(url);
	URL.revokeObjectURL(url);
	engine.worker.onmessage = ({ data }) => {
		const task = engine.tasks.get(data.id);
		if (!task) return;
		if (data.done) {
			task.told?.(data.done);
			return;
		}
		engine.tasks.delete(data.id);
		show_busy();
		task.resolve(data.answer);
	};
	engine.worker.postMessage({ module: engine.module });
}
const show_busy = () => ($("stop").disabled = !is_busy());
export const is_busy = () => engine.tasks.size > 0;

// Runs a command: the answer is that of run_command in worker.js. `more` has files, input, and whether states are read.
export function xinu(args, more = {}, told = null) {
	const id = ++engine.number;
	return new Promise((resolve, reject) => {
		engine.tasks.set(id, { resolve, reject, told });
		show_busy();
		engine.worker.postMessage({ id, args, ...more });
	});
}
// Ends all commands that are under way.
export function stop() {
	const left = [...engine.tasks.values()];
	engine.worker.terminate();
	engine.tasks = new Map();
	hire();
	for (const task of left) task.reject(new Stopped("Stopped"));
	show_busy();
}
