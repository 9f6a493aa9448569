// disks.js - the two disks as a run finds them, and the files on the disk with files
import { button, make, save, say } from "./dom.js";
import { Stopped, xinu } from "./engine.js";
import { page } from "./page.js";
import { bytes_of_file, lay_panels, stale } from "./panels.js";
import { bytes_of_hex, count } from "./text.js";

const DISK_LABELS = { disk0: "The raw disk as it starts", disk1: "The disk with files as it starts" };
// how many blocks a new disk with files has
const BLOCKS = "256";

export function disk_panel(key) {
	const { work } = page, disk = work[key];
	const set = (bytes, name) => {
		work[key] = bytes;
		work[`${key}_name`] = name;
		lay_panels();
		stale();
	};
	const field = make("input", { type: "file", onchange: async (event) => {
		const file = await bytes_of_file(event);
		if (file) set(file.bytes, file.name);
	} });
	const said = disk ? make("p", {}, `${work[`${key}_name`] || key}, ${count(disk.length, "byte")} `,
		button("Take away", () => set(undefined, ""))) : make("p", { class: "none" }, "Without a file: an empty disk.");
	const panel = make("div", {}, make("label", {}, make("h3", {}, DISK_LABELS[key]), field), said);
	if (key === "disk1") panel.append(...files_panel(disk, set));
	return panel;
}

// The files of the disk with files as it starts, with a field that puts one there; and those after the last run.
function files_panel(disk, set) {
	const list = make("ul"), after = make("ul");
	const put = make("input", { type: "file", onchange: async (event) => {
		const file = await bytes_of_file(event);
		if (file) await put_file(disk, file, set);
	} });
	if (disk) list_files(list, disk, true);
	return [list, make("label", {}, make("h3", {}, "Put a file on it"), put), make("h3", {}, "Its files after the last run"), after,
		button("List them", () => {
		if (page.ran?.disks.out1) list_files(after, page.ran.disks.out1, false);
		else say("There is no run yet", true);
	})];
}
const name_of_bytes = (bytes) => {
	try {
		return new TextDecoder("utf-8", { fatal: true }).decode(bytes);
	} catch {
		return null;
	}
};
async function command(args, files) {
	try {
		const answer = await xinu(["disk", ...args], { files });
		if (answer.status !== 0) say(answer.err.trim() || answer.trap, true);
		return answer.status === 0 ? answer : null;
	} catch (why) {
		if (!(why instanceof Stopped)) throw why;
		return null;
	}
}
async function list_files(list, disk, is_start) {
	const answer = await command(["ls", "disk"], { disk });
	if (!answer) return;
	const files = [...new TextDecoder("latin1").decode(answer.out).matchAll(/^file (\d+) ([0-9a-f]+)$/gm)].map(([, size, name]) =>
		({ size: Number(size), name: name_of_bytes(bytes_of_hex(name)) }));
	const rows = files.map(({ name, size }) => make("li", {},
		name === null ? "a name that is no text" : button(`Save ${name}`, () => get_file(disk, name)), ` ${count(size, "byte")}`));
	list.replaceChildren(...(rows.length ? rows : [make("li", { class: "none" }, is_start ? "no files" : "no files are left")]));
}
async function get_file(disk, name) {
	const answer = await command(["get", "--out", "file", "--", "disk", name], { disk });
	if (answer) save(name, answer.files.file);
}
async function put_file(disk, file, set) {
	const start = disk || (await command(["mkfs", BLOCKS, "--out", "disk"], {}))?.files.disk;
	const answer = start && await command(["put", "--out", "disk", "--", "disk", file.name, "source"], { disk: start, source: file.bytes });
	if (answer) set(answer.files.disk, page.work.disk1_name || "disk1.img");
}
