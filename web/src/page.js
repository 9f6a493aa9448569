// page.js - the one object that changes: what the user writes, what came of the last run of it, and what is shown of that

export const page = {
	// the exercises, and the run that is in the page, if there is one
	exercises: [],
	given: null,
	// { about, programs, schedule, disk0, disk1, sources }: a program is { name, text } or { name, bytes }, sources are texts by name
	work: null,
	// the last run (runs.js), and the event after which its state is shown
	ran: null,
	at: 0,
	// the number of the run that is under way: an earlier one gives up
	running: 0,
	view: "step",
	// the events that the slider goes over
	list: null,
	// the tabs of the left side by their keys, which of them is chosen, and their editors
	tabs: [],
	file: 0,
	editors: new Map(),
	// the process whose registers were asked for
	chosen: null,
	// whether registers are being fetched, and the timer of `play`
	is_looking: false,
	timer: null,
	// the schedule before one of the table of races was taken, and the run beside the one that is stepped
	base: null,
	beside: null,
	// the picture that was drawn last
	picture: null,
};
