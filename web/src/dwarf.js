// dwarf.js - the lines of C of an ELF file: its section .debug_line, of versions 2 to 5
import { is_elf, sections_of, text_at, view_of, whole } from "./elf.js";

// The rows { at, file, line, is_end } by address: from `at` on, up to the next row, the code is that of the line.
// A file is the last part of its name. There are none if the file wasn't compiled with -g.
export function line_rows_of(bytes) {
	if (!is_elf(bytes)) return [];
	return whole(() => {
		const sections = sections_of(bytes), lines = sections.find((one) => one.name === ".debug_line"), rows = [];
		if (!lines) return [];
		const texts = { line: sections.find((one) => one.name === ".debug_line_str")?.from,
			all: sections.find((one) => one.name === ".debug_str")?.from };
		for (let at = lines.from; at < lines.to;) {
			const reader = new Reader(bytes, at, texts), length = reader.word();
			add_program(rows, reader, at + 4 + length);
			at += 4 + length;
		}
		// at one address the end of a sequence comes first
		return rows.sort((a, b) => a.at - b.at || Number(b.is_end) - Number(a.is_end));
	}, []);
}

class Reader {
	constructor(bytes, at, texts) {
		Object.assign(this, { bytes, at, texts, view: view_of(bytes) });
	}
	byte() { return this.view.getUint8(this.at++); }
	signed_byte() { return this.view.getInt8(this.at++); }
	half() { this.at += 2; return this.view.getUint16(this.at - 2, true); }
	word() { this.at += 4; return this.view.getUint32(this.at - 4, true); }
	text() { const text = text_at(this.bytes, this.at); this.at = this.bytes.indexOf(0, this.at) + 1; return text; }
	// LEB128
	number() {
		let value = 0, shift = 0, byte;
		do {
			byte = this.byte();
			value += (byte & 127) * 2 ** shift;
			shift += 7;
		} while (byte & 128);
		return value;
	}
	signed() {
		let value = 0, shift = 0, byte;
		do {
			byte = this.byte();
			value += (byte & 127) * 2 ** shift;
			shift += 7;
		} while (byte & 128);
		return byte & 64 ? value - 2 ** shift : value;
	}
	// A value of a form: only names and numbers are wanted.
	form(form) {
		switch (form) {
		case 0x08: return this.text();
		case 0x1f: return text_at(this.bytes, this.texts.line + this.word());
		case 0x0e: return text_at(this.bytes, this.texts.all + this.word());
		case 0x0b: return this.byte();
		case 0x05: return this.half();
		case 0x06: return this.word();
		case 0x0f: return this.number();
		case 0x1e: this.at += 16; return null;
		case 0x09: this.at += this.number(); return null;
		default: throw new RangeError(`form ${form}`);
		}
	}
}

const base = (name) => name.replace(/^.*[/\\]/, "");
// The names of the files, at the numbers by which rows name them.
function files_5(reader) {
	const entries = () => {
		const forms = Array.from({ length: reader.byte() }, () => [reader.number(), reader.number()]), number = reader.number();
		return Array.from({ length: number }, () => {
			let name = "";
			for (const [what, form] of forms) {
				const value = reader.form(form);
				if (what === 1) name = value;
			}
			return name;
		});
	};
	entries();
	return entries().map(base);
}
function files_4(reader) {
	while (reader.text());
	const files = [""];
	for (let name = reader.text(); name; name = reader.text()) {
		files.push(base(name));
		for (let k = 0; k < 3; k++) reader.number();
	}
	return files;
}
function header(reader) {
	const version = reader.half();
	if (version < 2 || version > 5) throw new RangeError(`version ${version}`);
	if (version === 5) reader.half();
	const begin = reader.word() + reader.at, least = reader.byte();
	if (version >= 4) reader.byte();
	reader.byte();
	const line_base = reader.signed_byte(), line_range = reader.byte(), opcode_base = reader.byte();
	const operands = Array.from({ length: opcode_base - 1 }, () => reader.byte());
	const files = version === 5 ? files_5(reader) : files_4(reader);
	return { begin, least, line_base, line_range, opcode_base, operands, files };
}

// Carries out a line number program, and adds its rows.
function add_program(rows, reader, end) {
	const head = header(reader), begin = { at: 0, file: 1, line: 1 };
	let now = { ...begin }, sequence = [];
	const add = (is_end) => sequence.push({ at: now.at, file: head.files[now.file] || "", line: now.line, is_end });
	reader.at = head.begin;
	while (reader.at < end) {
		const opcode = reader.byte();
		if (opcode >= head.opcode_base) {
			const n = opcode - head.opcode_base;
			now.at += Math.floor(n / head.line_range) * head.least;
			now.line += head.line_base + (n % head.line_range);
			add(false);
		} else if (opcode === 0) {
			const length = reader.number(), next = reader.at + length, what = reader.byte();
			if (what === 1) {
				add(true);
				// a function that the linker left out lies at address 0
				if (sequence[0].at !== 0 || sequence.length > 2) rows.push(...sequence);
				sequence = [];
				now = { ...begin };
			} else if (what === 2) now.at = reader.word();
			reader.at = next;
		} else carry_out(opcode, reader, now, head, add);
	}
}
function carry_out(opcode, reader, now, head, add) {
	switch (opcode) {
	case 1: add(false); break;
	case 2: now.at += reader.number() * head.least; break;
	case 3: now.line += reader.signed(); break;
	case 4: now.file = reader.number(); break;
	case 8: now.at += Math.floor((255 - head.opcode_base) / head.line_range) * head.least; break;
	case 9: now.at += reader.half(); break;
	default: for (let k = 0; k < head.operands[opcode - 1]; k++) reader.number();
	}
}
