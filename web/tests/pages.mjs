// pages.mjs - the page in Debian's chromium, beside the native program
import http from "node:http";
import { access } from "./access.mjs";
import { actions } from "./actions.mjs";
import { browser } from "./browser.mjs";
import { READY, exercises } from "./exercises.mjs";
import { counter, text } from "./page.mjs";
import { strangers } from "./strangers.mjs";

const { check, end } = counter("browser"), url = `file://${process.env.PAGE}`;

// A part of the tests in a browser of its own, whose console has to stay empty.
async function part(name, does) {
	const b = await browser();
	try {
		await b.open(url);
		await b.until(READY);
		await does(b, (is_right, what, more) => check(is_right, `${name}: ${what}`, more), url);
		check(b.said.length === 0, `${name}: nothing is said on the console`, () => b.said.join("\n"));
	} catch (why) {
		check(false, `${name} was carried out`, () => why.stack);
	} finally {
		await b.close();
	}
}
// The page from a server asks for nothing further.
async function over_http(b, tell) {
	const server = http.createServer((request, response) => {
		response.setHeader("Content-Type", "text/html; charset=utf-8");
		response.end(text);
	});
	await new Promise((resolve) => server.listen(0, "127.0.0.1", resolve));
	b.requests.length = 0;
	await b.open(`http://127.0.0.1:${server.address().port}/`);
	await b.until(READY);
	const others = b.requests.filter((one) => !/^(http:\/\/127\.0\.0\.1:\d+\/$|blob:|data:)/.test(one));
	tell(others.length === 0, "asks for nothing but itself", () => others.join("\n"));
	const refused = await b.ev(`fetch("http://127.0.0.1:${server.address().port}/other").then(() => "answered", () => "refused")`);
	tell(refused === "refused", "may ask for nothing");
	// that was said on the console, as it should be
	b.said.length = 0;
	server.close();
}

await part("exercises", exercises);
await part("actions", actions);
await part("access", access);
await part("strangers", strangers);
await part("server", over_http);
end();
