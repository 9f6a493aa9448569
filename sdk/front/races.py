"""The command races: a program on every placement of preemptions, each outcome in words and with a schedule of its own."""
import json
import os
import re
import subprocess
import sys

from . import endings
from .files import writable
from .home import program
from .places import Places
from .refusal import Refusal
from .refused import refuse
from .runs import Tables, followed, inputs_of, lay, read_schedule, settled
from .schedules import events_of, preempted, runs_of
from .telling import say

# for each number of preemptions within how many steps they are placed if nobody says it: some thousand runs
WITHIN = {0: 1, 1: 1000, 2: 60, 3: 20}
MOST_EVENTS = 1000000
SLACK = 10  # rounds after those in which the program ended, for the runs that take longer
OUTCOME = re.compile(r"outcome (\d+): (\d+) schedules?, first with preemptions after (none|[\d ]+)(?:, at events? [\d ]+)?")


def start(words):
    """After how many steps preemptions are placed."""
    return getattr(words, "from") or 0


def base(words, programs, folder):
    """The inputs of the base, the lines of its schedule, and within how many steps preemptions are placed."""
    inputs = inputs_of(words, programs, folder)
    if words.schedule:
        lines = read_schedule(words.schedule)
        followed(inputs)
    else:
        made = settled(inputs, [], words.rounds)
        lines = [f"round {made.rounds + SLACK}"]
        lay(inputs.schedule, lines)
    events = sum(map(events_of, lines))
    if events > MOST_EVENTS:
        raise Refusal(f"the run has {events} events, and races takes at most {MOST_EVENTS}: name a shorter --schedule")
    steps = sum(count for kind, count in runs_of(lines) if kind == "step")
    if words.within and words.within > steps:
        raise Refusal(f"--within: the schedule has {steps} steps, and preemptions can't be placed within {words.within}")
    return inputs, lines, words.within or max(1, min(start(words) + WITHIN[words.preemptions], steps))


def outcomes(printed):
    """The rows of a table of races: how many schedules there are, the places of the first, and its lines."""
    rows = []
    for line in printed.splitlines():
        found = OUTCOME.fullmatch(line)
        if found:
            rows.append((int(found[2]), [] if found[3] == "none" else list(map(int, found[3].split())), []))
        elif line.startswith("  ") and rows:
            rows[-1][2].append(line.strip())
    return rows


def outcome_words(lines):
    """An outcome in words: what the console sent, how the run ended, the traps, and who is left."""
    text, _, end = lines[0].rpartition('" ')
    sent = json.loads(text + '"').replace("\r\n", "\n") if text.count("\\x") == 0 else text[1:]
    said = [f"The console sent {json.dumps(sent, ensure_ascii=False)}." if sent else "The console sent nothing."]
    said += [endings.trap_words(line.split()[1:]) for line in lines if line.startswith("trap ")]
    tables = Tables(["now 0 0", *(line for line in lines[1:] if line.startswith(("proc ", "wait ")))])
    left = f": {endings.left_words(tables)}" if tables.left() else ""
    ends = {"end done": "No process is left", "end panic": "The kernel panicked", "end schedule, stuck": "Nobody can go on",
            "end schedule": "The schedule is over"}
    return " ".join([*said, ends.get(end, end) + left + "."])


def place_line(inputs, places, path, event):
    """The event of a schedule after which a quantum ends, in words: the instruction with its function and line."""
    at = inputs._replace(schedule=path)
    words = [program(), "explain", "--steps", f"{event}..{event}", *at.words()]
    said = subprocess.run(words, capture_output=True, text=True, errors="replace", check=False).stdout.splitlines()
    found = [line for line in places.told(said) if line.startswith(f"event {event}: ")]
    return found[0].split(": ", 1)[1] if found else f"event {event}"


def tell(inputs, lines, rows, stem, places):
    """Tells each outcome, and keeps a schedule of it."""
    total = sum(count for count, _, _ in rows)
    for number, (count, at, said) in enumerate(rows, 1):
        path = f"{stem}.outcome{number}.schedule"
        schedule, events = preempted(lines, at)
        lay(path, schedule)
        print(f"Outcome {number}, {count} of {total} runs: {outcome_words(said)}")
        for steps, event in zip(at, events):
            print(f"  a quantum ends after {steps} steps, at event {event}: {place_line(inputs, places, path, event)}")
        print(f"  kept in {path}")


def races(words, programs, folder):
    """Runs the programs on every placement of preemptions, and tells the outcomes."""
    stem = os.path.join(words.into, os.path.splitext(os.path.basename(words.program[0]))[0])
    writable(f"{stem}.outcome1.schedule", "--into")
    inputs, lines, within = base(words, programs, folder)
    line = ["races", "--preemptions", str(words.preemptions), "--within", str(within), "--from", str(start(words)), *inputs.words()]
    ran = subprocess.run([program(), *line], stdout=subprocess.PIPE, stderr=None if sys.stderr.isatty() else subprocess.PIPE, check=False)
    if ran.returncode:
        refuse((ran.stderr or b"").decode("utf-8", "replace"), ran.returncode, inputs)
    rows = outcomes(ran.stdout.decode("utf-8", "replace"))
    tell(inputs, lines, rows, os.path.normpath(stem), Places(programs))
    placed = f"at most {words.preemptions} preemption{'s' * (words.preemptions != 1)} within {within} steps" + (f", after {start(words)}" if start(words) else "")
    say(f"{len(rows)} outcome{'s' * (len(rows) != 1)}, {placed}.")
    return 0
