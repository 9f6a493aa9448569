// elf.js - what image files and ELF files say of where they lie in RAM, and of their functions

export const RAM = 1048576;
export const is_elf = (bytes) => bytes[0] === 0x7f && bytes[1] === 0x45;
const LOADED = 1, NOTE = 4, SYMBOLS = 2, FUNCTION = 2;
// what boot takes if an ELF file has no note
const STACK = 4096;

export const view_of = (bytes) => new DataView(bytes.buffer, bytes.byteOffset, bytes.length);
export function text_at(bytes, at) {
	const end = bytes.indexOf(0, at);
	return new TextDecoder().decode(bytes.subarray(at, end < 0 ? bytes.length : end));
}
// What a reader answers, or nothing if the file is cut short: a stranger's file may be anything.
export function whole(reader, nothing) {
	try {
		return reader();
	} catch (why) {
		if (why instanceof RangeError) return nothing;
		throw why;
	}
}

// { from, to, stack }: where an image lies, and the size of its stack.
export function region_of(bytes) {
	const view = view_of(bytes);
	if (!is_elf(bytes)) {
		const from = view.getUint32(8, true);
		return { from, to: from + view.getUint32(12, true), stack: view.getUint32(24, true) };
	}
	const region = { from: RAM, to: 0, stack: STACK }, headers = view.getUint32(28, true);
	for (let k = 0; k < view.getUint16(44, true); k++) {
		const at = headers + 32 * k, [kind, place, size, room] = [0, 8, 16, 20].map((field) => view.getUint32(at + field, true));
		if (kind === LOADED && room) {
			region.from = Math.min(region.from, place);
			region.to = Math.max(region.to, place + room);
		}
		if (kind === NOTE && size >= 28) region.stack = view.getUint32(view.getUint32(at + 4, true) + 24, true);
	}
	return region;
}

// The sections of an ELF file, each { name, kind, from, to, link }.
export function sections_of(bytes) {
	const view = view_of(bytes), table = view.getUint32(32, true), size = view.getUint16(46, true), number = view.getUint16(48, true);
	const sections = [];
	for (let k = 0; k < number; k++) {
		const at = table + size * k,
			[name, kind, , , from, length, link] = [0, 4, 8, 12, 16, 20, 24].map((field) => view.getUint32(at + field, true));
		sections.push({ name, kind, from, to: from + length, link });
	}
	const names = sections[view.getUint16(50, true)]?.from;
	return names === undefined ? [] : sections.map((one) => ({ ...one, name: text_at(bytes, names + one.name) }));
}

// The functions that the symbols name, each { name, at, size }, by address.
export function functions_of(bytes) {
	if (!is_elf(bytes)) return [];
	return whole(() => {
		const view = view_of(bytes), sections = sections_of(bytes), functions = [];
		for (const { from, to, link } of sections.filter((one) => one.kind === SYMBOLS))
			for (let at = from; at + 16 <= to; at += 16) {
				if ((view.getUint8(at + 12) & 15) !== FUNCTION) continue;
				functions.push({ name: text_at(bytes, sections[link].from + view.getUint32(at, true)), at: view.getUint32(at + 4, true),
					size: view.getUint32(at + 8, true) });
			}
		return functions.sort((a, b) => a.at - b.at);
	}, []);
}
