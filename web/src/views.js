// views.js - the tabs of the right side
import { $, choose_tab } from "./dom.js";
import { page } from "./page.js";
import { draw, mark_picture } from "./picture.js";
import { go, redraw } from "./stepper.js";
import { mark_transcript } from "./transcripts.js";
import { mark_beside } from "./beside.js";
import { judge } from "./judge.js";

export function view(name) {
	page.view = name;
	choose_tab($("views"), $(`tab-${name}`));
	if (name === "step") redraw();
	if (!page.ran?.states) return;
	if (name === "picture") {
		if ($("picture").firstChild) mark_picture();
		else draw();
	}
	if (name === "transcript") mark_transcript();
	if (name === "judge") judge();
	if (name === "beside") mark_beside();
}
// Goes to an event in the stepper.
export function show_at(n) {
	view("step");
	go(n);
}
