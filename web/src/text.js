// text.js - numbers, bytes and texts, each made of the other

export const hex = (n, width = 1) => n.toString(16).padStart(width, "0");
export const bytes_of_hex = (text) => Uint8Array.from(text.match(/../g) || [], (two) => parseInt(two, 16));
export const text_of_hex = (text) => String.fromCharCode(...bytes_of_hex(text));
export const hex_of = (text) => Array.from(text, (letter) => hex(letter.charCodeAt(0), 2)).join("");
export const utf8 = (bytes) => new TextDecoder().decode(bytes);
export const bytes_of = (text) => new TextEncoder().encode(text);
export const decimal = (n) => n.toLocaleString("en");
export const count = (n, one, more = one + "s") => `${decimal(n)} ${n === 1 ? one : more}`;
export const lines_of = (text) => (text.endsWith("\n") ? text.slice(0, -1) : text).split("\n");

export function to_base64(bytes) {
	let text = "";
	// a call takes some ten thousand arguments at most
	for (let i = 0; i < bytes.length; i += 8192) text += String.fromCharCode(...bytes.subarray(i, i + 8192));
	return btoa(text);
}
export const from_base64 = (text) => Uint8Array.from(atob(text), (letter) => letter.charCodeAt(0));

// The bytes that come out of a stream, such as one that compresses.
export async function through(stream, bytes) {
	return new Uint8Array(await new Response(new Blob([bytes]).stream().pipeThrough(stream)).arrayBuffer());
}

// The index of the last item of an ascending list for which `value(item)` is at most n; -1 if there is none.
export function last_at_most(list, n, value = (item) => item) {
	let low = -1, high = list.length - 1;
	while (low < high) {
		const mid = (low + high + 1) >> 1;
		if (value(list[mid]) <= n) low = mid;
		else high = mid - 1;
	}
	return low;
}

// A byte as it is told.
export function letter(byte) {
	if (byte === 10) return "a line feed";
	if (byte === 13) return "a carriage return";
	return byte >= 32 && byte < 127 ? `“${String.fromCharCode(byte)}”` : `the byte 0x${hex(byte, 2)}`;
}
