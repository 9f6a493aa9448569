// sessions.mjs - the program that plays the sessions, compiled as the page is, in node: WASM FOLDER [ARGUMENT ..]
import fs from "node:fs";
import path from "node:path";
import { run_command } from "../src/worker.js";
import { counter } from "./page.mjs";

const [wasm, folder, ...args] = process.argv.slice(2), { check, end } = counter("sessions");
const data = path.join(folder, "data"), files = {};
for (const name of fs.readdirSync(data)) files[`data/${name}`] = fs.readFileSync(path.join(data, name));
// as bench/program.py has it: names of files are seen from the crate's folder
const words = args.map((word) => (`data/${word}` in files ? `data/${word}` : word));
const answer = run_command({ module: new WebAssembly.Module(fs.readFileSync(wasm)), name: "sessions", args: words, files });
const printed = Buffer.from(answer.out).toString(), wanted = fs.readFileSync(path.join(folder, "stdout"), "utf8");
check(printed === wanted && answer.status === 0, "what the sessions print", () => `${printed}\n${answer.err}\n${answer.trap}`);
console.log(printed.trim());
end();
