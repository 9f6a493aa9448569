"""The command step: the page of this run, opened in a browser."""
import base64
import json
import os
import webbrowser

from .files import writable
from .home import SDK, TOP
from .refusal import Refusal
from .running import schedule_for
from .telling import say

# where the page is: in a release, and in a clone
PAGES = [os.path.join(TOP, "xinu.html"), os.path.join(TOP, "web", "out", "xinu.html")]
# what in the page holds a run (web/README.md)
PLACE = '<script type="application/json" id="given">'


def find_page():
    """The text of the page. Refused if it isn't there."""
    found = next((path for path in PAGES if os.path.exists(path)), None)
    if not found:
        build = os.path.join(TOP, "web", "build")
        raise Refusal(f"the page isn't built yet: {os.path.relpath(build)} --quick builds it in minutes" if os.path.exists(build)
                      else f"the page {os.path.relpath(PAGES[0])} isn't there")
    return text_of(found)


def text_of(path):
    """The text of a file."""
    with open(path, encoding="utf-8", errors="replace") as file:
        return file.read()


def bytes_of(path):
    """The bytes of a file as the page takes them."""
    with open(path, "rb") as file:
        return base64.b64encode(file.read()).decode()


def held(programs, inputs):
    """The run as the page takes it: sources in assembler as texts, others as files with the source beside them."""
    found = []
    for program in programs:
        name = os.path.basename(program.typed)
        stem, ending = os.path.splitext(name)
        found.append({"name": name, "text": text_of(program.typed)} if ending == ".s" else
                     {"name": stem + ".elf" if ending == ".c" else name, "bytes": bytes_of(program.image)})
    in_c = [program.typed for program in programs if program.typed.endswith(".c")]
    of_sdk = [os.path.join(SDK, name) for name in ("start.S", "xinu.c", "xinu.h")] if in_c else []
    sources = {os.path.basename(path): text_of(path) for path in of_sdk + in_c}
    disks = {name: bytes_of(path) for name, path in (("disk0", inputs.disk0), ("disk1", inputs.disk1)) if path}
    return {"v": 1, "about": "", "programs": found, "schedule": text_of(inputs.schedule), "races": [1, 60], "sources": sources, **disks}


def step(words, programs, folder):
    """Writes the page with this run in it, and opens it."""
    page = find_page()
    inputs, _ = schedule_for(words, programs, folder)
    out = writable(words.out or os.path.splitext(os.path.basename(words.program[0]))[0] + ".html", "--out")
    begin = page.index(PLACE) + len(PLACE)
    run = json.dumps(held(programs, inputs), ensure_ascii=False).replace("<", "\\u003c")
    with open(out, "w", encoding="utf-8") as file:
        file.write(page[:begin] + run + page[page.index("</script>", begin):])
    has_display = os.environ.get("DISPLAY") or os.environ.get("WAYLAND_DISPLAY")
    is_open = has_display and not words.no_open and webbrowser.open("file://" + os.path.abspath(out))
    say(f"The page of this run is {out}." + ("" if is_open else " Open it in a browser."))
    return 0
