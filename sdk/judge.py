"""Runs the images of a lab under limits, and judges the transcript by the lab's table: what sdk/lines, sdk/lab and sdk/grade share.

A line of a table is a row, and after ` # ` the words for what is wrong if the row doesn't hold:

    LINE            the transcript has this line below what the rows above have found; a word `*` is any word
    not LINE        no such line comes before the one that the next row LINE finds, or before the end
    text "TEXT"     the console shows TEXT next
    find "TEXT"     the console shows TEXT later on
    hide "TEXT"     the console doesn't show TEXT before what the next row `text` or `find` finds, or before the end
    calls P NAME N  process P, or any if P is `*`, makes at least N calls NAME in the whole run

TEXT is written as in JSON. What the console shows is the bytes of the `con` lines, one after another; the rows for it and those for lines
are looked for apart, each kind in its order. A row `console "TEXT"` is no demand: it says what the console shows all in all. Empty lines
and those that begin with `#` say nothing."""
import json
import os
import resource
import signal
import subprocess
import sys
import tempfile

from front.home import find_program

MOST_OUTPUT = 64 << 20  # bytes that a command may write
MOST_MEMORY = 2 << 30  # bytes of its addresses
ENDS = {"end done": "no process is left", "end schedule": "the schedule is over, and there are processes left",
        "end panic": "a panic: the ports together had room for no more messages"}
STATES = {"current": "is running", "ready": "is ready", "receive": "waits for a message", "timed": "waits for a message, or for a tick",
          "wait": "waits on semaphore", "sleep": "sleeps", "suspend": "is suspended"}
OF_KERNEL = {"0": "waits for console input", "1": "waits for room in the console's output", "2": "waits for the raw disk",
             "3": "waits for the disk with files"}  # on the kernel's own semaphores


class Row:
    """One row of a table."""

    def __init__(self, number, line):
        head, _, words = line.partition(" # ")
        self.kind, _, rest = head.strip().partition(" ")
        self.is_text = self.kind in ("text", "find", "hide", "console")
        self.is_refusal = self.kind in ("not", "hide")
        self.what = json.loads(rest) if self.is_text else rest if self.kind in ("not", "calls") else head.strip()
        state = "is there, and must not be" if self.is_refusal else "isn't there"
        self.words = words.strip() or f"line {number} of the table {state}: {self.what}"

    def place(self, whole, at):
        """Where what the row names begins and ends from `at` on, in the lines or in the text, or none."""
        if not self.is_text:
            found = next((k for k in range(at, len(whole)) if fits(self.what, whole[k])), None)
            return None if found is None else (found, found + 1)
        found = whole.find(self.what, at)
        return None if found < 0 or self.kind == "text" and found > at else (found, found + len(self.what))


class Cursor:
    """The lines or the text of a transcript, how far its rows have come, and which rows refuse what comes before the next."""

    def __init__(self, whole):
        self.whole, self.at, self.refusals = whole, 0, []

    def refused(self, end):
        """The refusals that what comes before `end` keeps, and the first one that it breaks, or none."""
        for count, row in enumerate(self.refusals):
            place = row.place(self.whole, self.at)
            if place and place[1] <= end:
                return count, row
        return len(self.refusals), None

    def take(self, row):
        """How many rows hold up to this one, and the first that doesn't, or none."""
        place = row.place(self.whole, self.at)
        held, wrong = self.refused(place[0] if place else len(self.whole))
        self.refusals = []
        if wrong or not place:
            return held, wrong or row
        self.at = place[1]
        return held + 1, None


def fits(pattern, line):
    """Whether a line has the words of the pattern."""
    wanted, words = pattern.split(), line.split()
    return len(wanted) == len(words) and all(want in ("*", word) for want, word in zip(wanted, words))


def calls_in(lines, wanted):
    """Whether there are the calls that a row `calls` asks for."""
    process, name, least = wanted.split()
    made = (line.split()[:3] for line in lines if line.startswith("call "))
    return sum(call == name and process in ("*", caller) for _, caller, call in made) >= int(least)


def shown(lines):
    """The text that the console sends in these lines, a character for each byte."""
    return bytes(int(line[4:6], 16) for line in lines if line.startswith("con ")).decode("latin-1")


def table_of(path):
    """The rows of a table, and the text that the console shows, if the table says it."""
    with open(path, encoding="utf-8") as file:
        rows = [Row(k, line) for k, line in enumerate(file, 1) if line.strip() and not line.startswith("#")]
    texts = [row.what for row in rows if row.kind == "console"]
    return [row for row in rows if row.kind != "console"], texts[0] if texts else None


def judged(rows, lines):
    """How many rows hold before the first that doesn't, and the words of that row, or none if all hold."""
    cursors = {False: Cursor(lines), True: Cursor(shown(lines))}
    total = 0
    for row in rows:
        if row.kind == "calls":
            if not calls_in(lines, row.what):
                return total, row.words
            total += 1
            continue
        cursor = cursors[row.is_text]
        if row.is_refusal:
            cursor.refusals.append(row)
            continue
        held, wrong = cursor.take(row)
        total += held
        if wrong:
            return total, wrong.words
    for cursor in cursors.values():
        held, wrong = cursor.refused(len(cursor.whole))
        total += held
        if wrong:
            return total, wrong.words
    return total, None


def left_over(lines):
    """The processes of the last tables but the null process, each in words."""
    start = max((k for k, line in enumerate(lines) if line.startswith("now ")), default=len(lines))
    table = [line.split() for line in lines[start:]]
    semaphores = {words[2]: words[1] for words in table if words[0] == "wait"}
    for words in table:
        if words[0] == "proc" and words[1] != "0":
            name = bytes.fromhex(words[6]).decode("latin-1") if words[6:] and words[6] != "-" else ""
            semaphore, doing = semaphores.get(words[1]), STATES.get(words[2], words[2])
            doing = doing if semaphore is None else OF_KERNEL.get(semaphore, f"{doing} {semaphore}")
            yield f"process {words[1]}, {json.dumps(name)}, {doing}"


def standstill(lines):
    """Words for a run of several processes that was over before any of them ended: they tell more than the row that it fails."""
    is_over = lines and lines[-1] == "end schedule" and not any(fits("call * exit", line) for line in lines)
    return "no process has ended, and " if is_over and len(list(left_over(lines))) > 1 else ""


def endings(lines):
    """How a run ended, in words: its last line, who was trapped, and who is left."""
    last = lines[-1] if lines else ""
    yield f"{ENDS.get(last, 'its output was cut')} ({last})"
    for line in [line for line in lines if line.startswith("trap ")][:4]:
        yield f"process {line.split()[1]} was trapped: {line.split()[2]}"
    yield from list(left_over(lines))[:8]


def limits(seconds):
    """Sets the limits of a command that is about to start."""
    resource.setrlimit(resource.RLIMIT_CPU, (seconds, seconds + 1))
    resource.setrlimit(resource.RLIMIT_FSIZE, (MOST_OUTPUT, MOST_OUTPUT))
    resource.setrlimit(resource.RLIMIT_AS, (MOST_MEMORY, MOST_MEMORY))
    resource.setrlimit(resource.RLIMIT_CORE, (0, 0))


def limited(words, folder, seconds):
    """Runs a command under limits: its status, none if the time was over, what it printed, and what it said on standard error."""
    places = dict(os.environ, TMPDIR=os.path.abspath(folder))
    with tempfile.TemporaryFile() as out, tempfile.TemporaryFile() as err:
        process = subprocess.Popen(words, cwd=folder, env=places, stdin=subprocess.DEVNULL, stdout=out, stderr=err,
                                   start_new_session=True, preexec_fn=lambda: limits(seconds))
        try:
            status = process.wait(timeout=3 * seconds)
        except subprocess.TimeoutExpired:
            os.killpg(process.pid, signal.SIGKILL)
            process.wait()
            status = None
        out.seek(0)
        err.seek(0)
        printed, said = (file.read(MOST_OUTPUT).decode("utf-8", "replace") for file in (out, err))
    return None if status in (-signal.SIGXCPU, -signal.SIGKILL) else status, printed, said


def program():
    """The path of the program that runs images: $XINU_RUN, the one that was built here, or the one in the PATH."""
    found = find_program()
    if not found:
        sys.exit("xinu_run isn't there: build it (docs/FIRST_PROGRAM.md), and put its folder into the PATH")
    return os.path.abspath(found)


def run(schedule, images, folder, seconds):
    """Runs images through a schedule: the lines of the transcript, and what kept it from its end, or none."""
    status, printed, said = limited([program(), "run", "--schedule", schedule, *images], folder, seconds)
    if status is None:
        return printed.splitlines(), f"it ran longer than {seconds} s"
    if status == -signal.SIGXFSZ:
        return printed.splitlines(), f"it printed more than {MOST_OUTPUT >> 20} MB"
    return printed.splitlines(), None if status == 0 else said.strip() or f"xinu_run ended with status {status}"
