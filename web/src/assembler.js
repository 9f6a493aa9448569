// assembler.js - where the lines of a program in assembler lie in RAM, and what is wrong with one, as `listing` says (docs/ASSEMBLER.md)

// A line without its comment.
export function without_comment(line) {
	let is_quoted = false;
	for (let i = 0; i < line.length; i++) {
		if (is_quoted && line[i] === "\\") i++;
		else if (line[i] === '"') is_quoted = !is_quoted;
		else if (line[i] === "#" && !is_quoted) return line.slice(0, i);
	}
	return line;
}
// The labels that begin a line, and the rest of it.
function parts_of(line) {
	const labels = [];
	let rest = without_comment(line).trim(), found;
	while ((found = /^([A-Za-z_]\w*):\s*/.exec(rest))) {
		labels.push(found[1]);
		rest = rest.slice(found[0].length);
	}
	return { labels, rest };
}
// What a line does, without labels and comment.
export const instruction_of = (line) => parts_of(line).rest.replace(/\s+/g, " ");

const IS_DATA = /^\.(word|byte|zero|ascii|align)\b/;

// A line of what `listing` prints.
function row_of(line) {
	const [number, at, ...content] = line.split(" ");
	return { line: Number(number), at: parseInt(at, 16), size: content.reduce((size, digits) => size + digits.length / 2, 0) };
}
// { lines, labels, end }: each line that has bytes, with its address and size, by what `listing` says of the text; each label, which is where the
// next line with bytes is; where the content ends.
export function layout_of(text, listing) {
	const source = text.split("\n").map(parts_of), rows = listing.split("\n").filter(Boolean).map(row_of), labels = [];
	const lines = rows.map((row) => ({ ...row, is_data: IS_DATA.test(source[row.line - 1].rest) }));
	const last = lines.at(-1), end = last ? last.at + last.size : 0;
	for (const [index, parts] of source.entries()) {
		const next = lines.find((one) => one.line > index);
		for (const name of parts.labels) labels.push({ name, at: next?.at ?? end, is_data: next?.is_data ?? false, size: 0, line: index + 1 });
	}
	for (const one of lines) {
		const owner = labels.findLast((label) => label.line <= one.line && label.is_data && one.is_data);
		if (owner && !/^\.align\b/.test(source[one.line - 1].rest)) owner.size += one.size;
	}
	return { lines, labels, end };
}

// What `listing` refused, as { line, words }: the words quote the line, and say what the command says of it.
export function fault_of(said, text) {
	const [, line] = /asm line (\d+) fault/.exec(said) || [], told = said.trim().split("\n")[1] || said.trim();
	if (line === undefined) return { line: 0, words: said.trim() };
	const quoted = instruction_of(text.split("\n")[line - 1] || ""), why = told.replace(/^line \d+: /, "");
	return { line: Number(line), words: line === "0" ? why : `line ${line}${quoted ? `, “${quoted}”` : ""}: ${why}` };
}
