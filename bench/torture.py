#!/usr/bin/env python3
"""Runs the programs by which gcc's authors test gcc (c-torture/execute), on the machine and in qemu-riscv32, and compares how they end.

usage: bench/torture.py [--level O2] [--first N] [--jobs N] [ARCHIVE]

The archive is gcc's source, which Debian's package gcc-12-source has in /usr/src. Each program is compiled at -O2, or the level that is
given, with the options that it asks for, and linked twice (foreign.py). A program that prints nothing runs beside up to seven others, each
at its own place in RAM; one that prints, or hasn't ended, or hasn't ended as in qemu, runs alone with more stack and steps, and then what
it prints is compared too, but for addresses (0x..). A line says of each program that isn't counted as agreeing why; the last line counts.
No part of the gate."""
import argparse
import concurrent.futures
import glob
import os
import re
import subprocess
import sys
import tarfile
import tempfile

import foreign
from program import built

TOGETHER = 8
PLACES = 80 * 1024  # bytes from the place of a program to that of the next
ROUND = "step 20000\ntx 300\ndisk1 50\ntick 1\n"
STACK, STACK_ALONE = 40960, 400000
HEAP, HEAP_ALONE = 16384, 131072
ROUNDS, ROUNDS_ALONE = 40, 20000
LARGE = (4, 8)  # statuses of `run` for a program that isn't in RAM, or leaves no room for its stack
ADDRESS = re.compile(rb"0x[0-9a-f]+")
OPTION = re.compile(r"\{\s*dg-(?:additional-)?options\s+[\"{]\s*\"?([^\"}]*)\"?\s*[\"}]([^}]*)\}")


def extracted(archive, folder, first):
    """The paths of the programs of gcc's source."""
    inside = re.compile(r".*/gcc\.c-torture/execute/(?:ieee/)?[^/]*\.c$")
    with tarfile.open(archive) as file:
        for member in file:
            if inside.match(member.name) or "c-torture/execute" in member.name and member.name.endswith((".h", ".x")):
                file.extract(member, folder, filter="data")
    found = glob.glob(os.path.join(folder, "*", "gcc", "testsuite", "gcc.c-torture", "execute", "**", "*.c"), recursive=True)
    return sorted(path for path in found if inside.match(path))[:first]


def options_of(source):
    """The options that a program asks for, wherever it is compiled, in its text or in the file NAME.x beside it."""
    with open(source, encoding="latin-1") as file:
        asked = [option for option, where in OPTION.findall(file.read()) if "target" not in where]
    if os.path.exists(source[:-1] + "x"):
        with open(source[:-1] + "x", encoding="latin-1") as file:
            asked += re.findall(r'^lappend additional_flags "([^"]*)"', file.read(), re.M)
    ieee = ["-fno-inline"] if os.path.basename(os.path.dirname(source)) == "ieee" else []
    return ieee + [word for option in asked for word in option.split() if not word.startswith("-O")]


class Trial:
    """One program: how it ends in qemu and on the machine."""

    def __init__(self, number, source, place):
        self.source, self.name = source, os.path.relpath(source, place)
        self.path = os.path.join(place, f"{number}")
        self.place = number % TOGETHER * PLACES
        self.reason, self.wanted, self.printed = None, None, b""

    def prepare(self, level, small, linux):
        """Builds it for both, and runs it in qemu."""
        try:
            self.object = foreign.compiled(self.source, self.path + ".o", ["-" + level, *options_of(self.source)])
            foreign.linked([*small, self.object], self.path + ".elf", self.place, HEAP)
            foreign.linked_for_qemu([*linux, self.object], self.path + ".qemu", HEAP_ALONE)
        except RuntimeError as error:
            lines = [line for line in str(error).splitlines() if "error" in line or "undefined" in line]
            self.reason = "isn't built: " + (lines or ["?"])[0].split(": ", 1)[-1]
            return
        try:
            ran = foreign.run([foreign.QEMU, self.path + ".qemu"], timeout=120)
        except subprocess.TimeoutExpired:
            self.reason = "doesn't end in qemu"
            return
        self.wanted, self.printed = foreign.end_in_qemu(ran), ran.stdout + ran.stderr

    def run_alone(self, program, large):
        """Runs it alone; the reason says what is wrong, or none."""
        foreign.linked([*large, self.object], self.path + ".alone", 0, HEAP_ALONE)
        words = [program, "run", "--schedule", os.path.join(os.path.dirname(self.path), "alone"), self.path + ".alone"]
        ran = foreign.run(words)
        end = foreign.ends(ran.stdout.decode()).get("1")
        printed = foreign.run([*words[:2], "--plain", *words[2:]]).stdout.replace(b"\r\n", b"\n")
        if ran.returncode in LARGE:
            self.reason = "doesn't fit into RAM"
        elif end is None:
            self.reason = "doesn't end in its steps"
        elif end != self.wanted:
            self.reason = f"DIFFERS: {end}, in qemu {self.wanted}"
        elif ADDRESS.sub(b"", printed) != ADDRESS.sub(b"", self.printed):
            self.reason = "DIFFERS in what it prints"


def run_together(trials, program, schedule):
    """Runs up to eight programs; those that have to run alone."""
    ran = foreign.run([program, "run", "--schedule", schedule, *(it.path + ".elf" for it in trials)])
    transcript = ran.stdout.decode() if ran.returncode == 0 else ""
    ends = foreign.ends(transcript)
    printers = set(re.findall(r"^call (\d+) write ", transcript, re.M))
    numbered = [(str(k), it) for k, it in enumerate(trials, 1)]
    return [it for k, it in numbered if ends.get(k) != it.wanted or k in printers]


def groups(trials):
    """The programs in groups, in each of which every place is taken once."""
    rows = [[it for it in trials if it.place == k * PLACES] for k in range(TOGETHER)]
    while any(rows):
        yield [row.pop() for row in rows if row]


def main():
    parser = argparse.ArgumentParser(usage=__doc__.split("usage: ")[1], add_help=False)
    parser.add_argument("--level", default="O2")
    parser.add_argument("--first", type=int)
    parser.add_argument("--jobs", type=int, default=os.cpu_count())
    parser.add_argument("archive", nargs="?", default=(glob.glob("/usr/src/gcc-*/gcc-*.tar.xz") or ["gcc.tar.xz"])[0])
    words = parser.parse_args()
    program = built("xinu_run")
    with tempfile.TemporaryDirectory() as place, concurrent.futures.ThreadPoolExecutor(words.jobs) as pool:
        sources = extracted(words.archive, place, words.first)
        small, large = (foreign.glue(os.path.join(place, f"glue{stack}"), stack) for stack in (STACK, STACK_ALONE))
        linux = foreign.linux_glue(os.path.join(place, "linux"))
        for name, rounds in (("together", ROUNDS), ("alone", ROUNDS_ALONE)):
            with open(os.path.join(place, name), "w", encoding="ascii") as file:
                file.write(ROUND * rounds)
        trials = [Trial(number, source, place) for number, source in enumerate(sources)]
        list(pool.map(lambda it: it.prepare(words.level, small, linux), trials))
        alone = [it for it in trials if it.reason is None and it.printed]
        quiet = [it for it in trials if it.reason is None and not it.printed]
        for left in pool.map(lambda group: run_together(group, program, os.path.join(place, "together")), list(groups(quiet))):
            alone += left
        list(pool.map(lambda it: it.run_alone(program, large), alone))
    for it in trials:
        if it.reason:
            print(f"{os.path.basename(it.name)}: {it.reason}")
    differ = sum("DIFFERS" in (it.reason or "") for it in trials)
    agree = sum(it.reason is None for it in trials)
    print(f"{agree} of {len(trials)} programs end as in qemu-riscv32, {differ} don't, {len(trials) - agree - differ} can't be compared; "
          f"{len(alone)} ran alone")
    sys.exit(1 if differ else 0)


if __name__ == "__main__":
    main()
