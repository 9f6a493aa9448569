// dom.js - nodes of the page; texts go in as texts, never as HTML

export const $ = (id) => document.getElementById(id);

// A node with attributes, properties and listeners (`onclick`), and what is in it; null is nothing.
export function make(tag, how = {}, ...kids) {
	const node = document.createElement(tag);
	for (const [key, value] of Object.entries(how)) {
		if (key === "class") node.className = value;
		else if (key.startsWith("on")) node.addEventListener(key.slice(2), value);
		else if (key in node && key !== "list" && key !== "style") node[key] = value;
		else node.setAttribute(key, value);
	}
	node.append(...kids.filter((kid) => kid !== null && kid !== undefined));
	return node;
}
export const button = (label, does, how = {}) => make("button", { type: "button", ...how, onclick: does }, label);

// A table with a caption and a head, whose rows are nodes.
export function table(caption, heads, rows) {
	const head = heads.length ? make("thead", {}, make("tr", {}, ...heads.map((text) => make("th", { scope: "col" }, text)))) : null;
	return make("table", {}, make("caption", {}, caption), head, make("tbody", {}, ...rows));
}

// Says how it stands, in the line at the top.
export function say(text, is_bad = false) {
	$("status").textContent = text;
	$("status").classList.toggle("bad", is_bad);
}
export function save(name, bytes) {
	const url = URL.createObjectURL(new Blob([bytes]));
	make("a", { href: url, download: name }).click();
	setTimeout(() => URL.revokeObjectURL(url), 1000);
}
// Shows the panel of one tab of a list.
export function choose_tab(list, chosen) {
	for (const tab of list.children) {
		const is_it = tab === chosen;
		tab.setAttribute("aria-selected", is_it);
		tab.tabIndex = is_it ? 0 : -1;
		$(tab.getAttribute("aria-controls")).hidden = !is_it;
	}
	// a list that is too long for its place is scrolled, and nothing else
	const is_seen = chosen.offsetLeft >= list.scrollLeft && chosen.offsetLeft + chosen.offsetWidth <= list.scrollLeft + list.clientWidth;
	if (!is_seen) list.scrollLeft = chosen.offsetLeft - chosen.offsetWidth;
}
// Arrows, Home and End go from tab to tab, as in a tab list of any system.
export function keys_of_tabs(list) {
	list.addEventListener("keydown", (event) => {
		const tabs = [...list.children].filter((tab) => !tab.hidden), i = tabs.indexOf(document.activeElement);
		const to = { ArrowRight: i + 1, ArrowLeft: i - 1, Home: 0, End: tabs.length - 1 }[event.key];
		if (i < 0 || to === undefined) return;
		event.preventDefault();
		event.stopPropagation();
		const id = tabs[(to + tabs.length) % tabs.length].id;
		$(id).click();
		// the click may have made the tabs anew
		$(id).focus();
	});
}
