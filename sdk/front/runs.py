"""Runs: what `xinu_run` is given, its transcript as it comes, and rounds until nobody can go on."""
import contextlib
import os
import subprocess
from typing import NamedTuple

from judge import OF_KERNEL

from . import schedules
from .files import read, writable
from .home import program
from .programs import Program, quoted_line
from .refusal import Refusal
from .refused import refuse

MOST_DISK = 33557504
CONSOLE_INPUT = "0"  # the kernel's semaphore on which readers of the console wait
WAITING = {"receive", "suspend", "wait"}  # states that only another process or a device ends


class Inputs(NamedTuple):
    """What a run is given."""
    programs: list[Program]
    schedule: str
    disk0: str | None
    disk1: str | None
    outs: tuple = ()

    def words(self):
        """The words for `xinu_run` after the name of a command."""
        named = [("--disk0", self.disk0), ("--disk1", self.disk1), *self.outs]
        options = [word for name, path in named if path for word in (name, path)]
        return ["--schedule", self.schedule, *options, "--", *(program.image for program in self.programs)]


def read_schedule(path):
    """The lines of a schedule. Refused if one is wrong, which is quoted."""
    lines = read(path, "the schedule", schedules.MOST_BYTES).decode("utf-8", "replace").split("\n")
    fault = schedules.fault_at(lines)
    if fault:
        raise Refusal(f"{quoted_line(path, lines, fault[0])}: {fault[1]}", 5)
    return lines


def inputs_of(words, programs, folder):
    """The inputs that a command names, each looked at. Without a schedule the file for one is named, and empty."""
    for name in ("disk0", "disk1"):
        if getattr(words, name):
            read(getattr(words, name), f"disk {name[-1]}", MOST_DISK)
    outs = tuple((f"--{name}", writable(getattr(words, name), f"--{name}")) for name in ("out0", "out1") if getattr(words, name, None))
    if words.schedule:
        read_schedule(words.schedule)
    return Inputs(programs, words.schedule or os.path.join(folder, "schedule.txt"), words.disk0, words.disk1, outs)


def lay(path, lines):
    """Writes the lines of a schedule."""
    with open(path, "w", encoding="utf-8") as file:
        file.write("".join(line + "\n" for line in lines))


class Tables:
    """The tables that a run prints, as lines of words."""

    def __init__(self, lines):
        self.rows = [line.split() for line in lines]

    def tick(self):
        """How many ticks there were."""
        return self.rows[0][1]

    def left(self):
        """Each process that is left but the null process, as its row of the tables."""
        return [row for row in self.rows if row[0] == "proc" and row[1] != "0"]

    def semaphores(self):
        """The semaphore that each waiter waits on."""
        return {row[2]: row[1] for row in self.rows if row[0] == "wait"}

    def is_sent(self):
        """Whether the console has nothing to send."""
        return all(row[4:6] == ["0", "0"] for row in self.rows if row[0] == "console")

    def waits_for_console(self):
        """Whether somebody waits for what is typed."""
        return CONSOLE_INPUT in self.semaphores().values()

    def is_stuck(self):
        """Whether nobody can go on unless something is typed: each process that is left waits for another one or for the console."""
        semaphores = self.semaphores()
        waits = all(row[2] in WAITING and semaphores.get(row[1]) not in set(OF_KERNEL) - {CONSOLE_INPUT} for row in self.left())
        return bool(self.left()) and waits and self.is_sent()


def transcript(inputs):
    """The lines of a run as they come. Refused as the program refuses its input."""
    words = [program(), "run", *inputs.words()]
    process = subprocess.Popen(words, stdin=subprocess.DEVNULL, stdout=subprocess.PIPE, stderr=subprocess.PIPE, text=True, errors="replace")
    try:
        yield from (line.rstrip("\n") for line in process.stdout)
        said = process.stderr.read()
        if process.wait():
            refuse(said, process.returncode, inputs)
    finally:
        with contextlib.suppress(ProcessLookupError):
            process.kill()
        process.stdout.close()
        process.stderr.close()
        process.wait()


class Run:
    """What came out of a run."""

    def __init__(self):
        self.console, self.traps, self.strange, self.tables, self.end = bytearray(), [], [], None, None
        self.looks, self.rounds = 0, 0  # how often the tables were printed, and how many rounds were added until nobody could go on

    def take(self, line):
        """Takes a line that is none of the tables."""
        word = line.split(" ", 1)[0]
        if word == "con":
            self.console.append(int(line[4:6], 16))
        elif word == "trap":
            self.traps.append(line.split()[1:])
        elif word == "end":
            self.end = line[4:]
        elif " unknown " in line and word == "call":
            self.strange.append(line.split()[1:])


def ignore(_):
    """Takes no notice."""


def followed(inputs, on_text=ignore, is_over=lambda run: False, on_line=ignore):
    """A run from its transcript: what the console sends is handed on as it comes, and the run is cut at the first tables at which it is over."""
    run, tables = Run(), None
    for line in transcript(inputs):
        on_line(line)
        if line.startswith("now "):
            tables = []
        if tables is None:
            run.take(line)
            if line.startswith("con "):
                on_text(run.console[-1:])
            continue
        tables.append(line)
        if line.startswith("disk1 "):
            run.tables, run.looks, tables = Tables(tables), run.looks + 1, None
            if is_over(run):
                break
    return run


def looks_within(most):
    """How many rounds there are between looks at the tables, ever more, so that a long run is looked at seldom."""
    done = 0
    while done < most:
        count = min(max(1, done // 4), most - done)
        yield count
        done += count


def settled(inputs, lines, most, on_text=ignore):
    """A run through some lines of a schedule, and rounds after them until it is done or nobody can go on, at most so many. The inputs' file of
    the schedule is left with the lines and those rounds."""
    counts = list(looks_within(most))
    lay(inputs.schedule, [*lines, *(line for count in counts for line in (f"round {count}", "dump"))])
    before = [line.split() for line in lines].count(["dump"])
    run = followed(inputs, on_text, lambda run: run.looks > before and run.tables.is_stuck())
    run.rounds = sum(counts[:max(0, run.looks - before)])
    lay(inputs.schedule, [*lines, *([f"round {run.rounds}"] if run.rounds else [])])
    return run
