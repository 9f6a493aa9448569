#!/usr/bin/env python3
"""Judges random programs by a second detector of data races, and compares what it tells with `xinu_run judge`.

usage: bench/detector.py [--programs N] [--schedules N] [--first N] [--rules] [--keep FOLDER]
       bench/detector.py --placed K

Each program (races/programs.py) is run on random schedules by a second machine of the kernel (races/), whose transcript has to be that
of `xinu_run run`. Its history is judged by the definition: edges by the rules, reachability over all of them, all pairs of accesses
(races/history.py). What `xinu_run judge --pairs` prints has to be the same reports, pairs of places and first accesses. --rules counts,
too, in how many runs the second detector would tell something else without each rule. --keep writes the program and the schedule of each
disagreement there. The last line counts; the status is 1 if there was a disagreement. No part of the gate. --placed prints schedule K of the
session judge, and runs nothing."""
import argparse
import collections
import os
import subprocess
import sys
import tempfile

sys.dont_write_bytecode = True
from program import built
from races.disk import Machine
from races.history import RULES, races
from races.programs import disk, placed, program, schedule
from races.told import compare


def run(words, statuses=(0,)):
    """What a command prints."""
    ran = subprocess.run(words, stdout=subprocess.PIPE, stderr=subprocess.PIPE, check=False)
    if ran.returncode not in statuses:
        raise RuntimeError(f"{' '.join(words)}: status {ran.returncode}: {ran.stderr.decode()}")
    return ran.stdout.decode("latin-1")


def text_of(rows):
    """A schedule as a text."""
    return "".join("fail0\n" if kind == "fail0" else f"{kind} {count}\n" for kind, count in rows)


def ran_by_second(image, rows):
    """The second machine after these events."""
    machine = Machine(image, disk())
    for kind, count in rows:
        for byte in [int(word, 16) for word in count.split()] if kind == "type" else [0] * count:
            if machine.is_over():
                return machine
            machine.event(kind, byte)
    return machine


def transcript(xinu, words):
    """The lines of a run's transcript before its tables."""
    lines = run([xinu, "run", *words]).splitlines()
    return lines[: next(k for k, line in enumerate(lines) if line.startswith("now "))]


class Counts:
    """What was compared."""

    def __init__(self):
        self.runs, self.racy, self.reports, self.told, self.all, self.differ = 0, 0, 0, 0, 0, 0
        self.edges, self.decided = collections.Counter(), collections.Counter()

    def add(self, machine, found, told, text):
        """A run that was judged twice."""
        self.runs += 1
        self.racy += bool(told)
        self.reports += text.count("Data race")
        self.told += len(told)
        self.all += len(found)
        self.edges.update(edge[0] for moment in machine.moments for edge in moment.edges)

    def add_rules(self, machine, told):
        """In which of these runs a rule decides something."""
        self.decided.update(rule for rule in RULES if races(machine.moments, (rule,))[1] != told)


def judged(xinu, folder, rows, is_by_rules, counts):
    """What is different in a run of the image in a folder; none if nothing is."""
    schedule_file, image_file, disk_file = (os.path.join(folder, name) for name in ("schedule.txt", "program.xim", "disk.img"))
    inputs = ["--schedule", schedule_file, "--disk0", disk_file, image_file]
    with open(disk_file, "wb") as file:
        file.write(disk())
    with open(schedule_file, "w", encoding="ascii") as file:
        file.write(text_of(rows))
    with open(image_file, "rb") as file:
        machine = ran_by_second(file.read(), rows)
    lines = transcript(xinu, inputs)
    if machine.lines != lines:
        at = next((k for k, (x, y) in enumerate(zip(machine.lines, lines)) if x != y), min(len(machine.lines), len(lines)))
        return [f"the transcripts differ at line {at + 1}: {lines[at : at + 2]}, the second machine's {machine.lines[at : at + 2]}"]
    found, told = races(machine.moments)
    text = run([xinu, "judge", "--pairs", *inputs], (0, 15))
    counts.add(machine, found, told, text)
    if is_by_rules:
        counts.add_rules(machine, told)
    return compare(machine, told, text)


def main():
    parser = argparse.ArgumentParser(usage=__doc__.split("usage: ")[1], add_help=False)
    parser.add_argument("--programs", type=int, default=50)
    parser.add_argument("--schedules", type=int, default=10)
    parser.add_argument("--first", type=int, default=1)
    parser.add_argument("--rules", action="store_true")
    parser.add_argument("--keep")
    parser.add_argument("--placed", type=int)
    words = parser.parse_args()
    if words.placed is not None:
        sys.stdout.write(text_of(placed(words.placed)))
        return
    xinu, counts = built("xinu_run"), Counts()
    with tempfile.TemporaryDirectory() as folder:
        source = os.path.join(folder, "program.s")
        for number in range(words.first, words.first + words.programs):
            with open(source, "w", encoding="ascii") as file:
                file.write(program(number))
            run([xinu, "asm", source, "--out", os.path.join(folder, "program.xim")])
            for other in range(1, words.schedules + 1):
                differ = judged(xinu, folder, schedule(number, other), words.rules, counts)
                if differ:
                    counts.differ += 1
                    print(f"program {number}, schedule {other}:", *differ, sep="\n  ")
                    if words.keep:
                        os.makedirs(words.keep, exist_ok=True)
                        for name, end in (("program.s", "s"), ("schedule.txt", "txt")):
                            with open(os.path.join(folder, name), "rb") as kept, \
                                    open(os.path.join(words.keep, f"{number}_{other}.{end}"), "wb") as file:
                                file.write(kept.read())
    edges = ", ".join(f"{rule} {counts.edges[rule]}" for rule in RULES)
    print(f"edges: {edges}")
    if words.rules:
        print("runs in which a rule decides: " + ", ".join(f"{rule} {counts.decided[rule]}" for rule in RULES))
    print(f"{words.programs} programs, {counts.runs} runs compared, {counts.racy} with races: {counts.all} pairs of accesses race, {counts.told} are "
          f"told, {counts.reports} reports; {counts.differ} disagreements")
    sys.exit(1 if counts.differ else 0)


if __name__ == "__main__":
    main()
