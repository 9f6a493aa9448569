// steps.js - what `explain --steps` lists: which instruction each step carries out

const STEP = /^event (\d+): (\d+) (.*?),? pc 0x([0-9a-f]+)(?:,? ([^:]*))?: (.*)$/;

// The steps of a list by their events, each { process, pc, place, text, effect }: the place is a function and a distance, the effect the
// register or the word that has a new value. A line of another form, such as that of a step that carries out nothing, isn't one of them.
export function steps_of(listed) {
	const steps = new Map();
	for (const line of listed.split("\n")) {
		const found = STEP.exec(line);
		if (!found) continue;
		const [, event, process, , pc, place, whole] = found, [, text, effect] = /^(.*?)(?: \((.*)\))?$/.exec(whole);
		steps.set(Number(event),
			{ process: Number(process), pc: parseInt(pc, 16), place, text, effect: effect && effect.includes(" = ") ? effect : null });
	}
	return steps;
}
// An effect with its value as a number, too.
export function effect_words(effect) {
	return effect.replace(/= 0*([0-9a-f]+)$/, (_, digits) => {
		const value = parseInt(digits || "0", 16);
		return `= ${value | 0}${value > 9 ? ` (0x${digits})` : ""}`;
	});
}
