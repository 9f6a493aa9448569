// page.mjs - the parts of the built page that tests take, $PAGE, and the count of what was right
import fs from "node:fs";
import zlib from "node:zlib";

export const text = fs.readFileSync(process.env.PAGE, "utf8");
const part = (id) => new RegExp(`<script [^>]*id="${id}">([^]*?)</script>`).exec(text)[1].trim();

export const exercises = JSON.parse(part("exercises"));
export function wasm_module() {
	const bytes = zlib.gunzipSync(Buffer.from(part("wasm"), "base64"));
	if (WebAssembly.validate(bytes)) return new WebAssembly.Module(bytes);
	console.log("the page was built without wasm-opt, and this node has no memories of 64 bits: apt-get install binaryen, and build it once more");
	return process.exit(1);
}

// `check(is_right, what, more)` counts, and tells what is wrong; `end` tells the count, and ends with its status.
export function counter(name) {
	const count = { right: 0, wrong: 0 };
	return {
		check(is_right, what, more = () => "") {
			count[is_right ? "right" : "wrong"]++;
			if (!is_right) Promise.resolve(more()).catch(String)
				.then((text) => console.log(`${name}: ${what}: NOT RIGHT\n${String(text).slice(0, 3000)}`));
		},
		end() {
			console.log(`${name}: ${count.right} right, ${count.wrong} wrong`);
			process.exitCode = count.wrong || !count.right ? 1 : 0;
		},
	};
}
