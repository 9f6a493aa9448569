// states.js - reads the transcript of a schedule that has `dump` first and after each event: the state after each event

// tables[at[i]] is the text of the tables after the event i of the stretch, lines[i] what that event printed. Tables that are
// equal are kept once, so a long run in which little changes takes little memory.
export class StateReader {
	constructor(told) {
		this.at = [];
		this.lines = {};
		this.tables = [];
		this.end = "";
		this.told = told;
		this.rest = "";
		this.printed = [];
		this.rows = null;
		this.places = new Map();
		this.decoder = new TextDecoder("latin1");
	}
	take(bytes) {
		const text = this.rest + this.decoder.decode(bytes);
		let from = 0, to;
		while ((to = text.indexOf("\n", from)) >= 0) {
			this.take_line(text.slice(from, to));
			from = to + 1;
		}
		this.rest = text.slice(from);
	}
	// The tables begin with the line `now` and end with the line `disk1`.
	take_line(line) {
		if (this.rows) {
			this.rows.push(line);
			if (line.startsWith("disk1 ")) this.take_tables(this.rows.join("\n"));
		} else if (line.startsWith("now ")) this.rows = [line];
		else if (line.startsWith("end ")) this.end = line.slice(4);
		else this.printed.push(line);
	}
	take_tables(text) {
		const i = this.at.length;
		if (!this.places.has(text)) this.places.set(text, this.tables.push(text) - 1);
		this.at.push(this.places.get(text));
		if (this.printed.length) this.lines[i] = this.printed;
		this.printed = [];
		this.rows = null;
		if (i && i % 5000 === 0) this.told(i);
	}
	finish() {
		// at the end of a schedule the tables come once more
		if (this.end === "schedule") this.at.pop();
		return { at: Int32Array.from(this.at), lines: this.lines, tables: this.tables, end: this.end };
	}
}
