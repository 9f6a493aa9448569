#!/usr/bin/env python3
"""Refuses each allocation of the built program in turn, and looks at what the program does then.

usage: bench/allocations.py [--each] [WORD]        (only the commands whose name has the word)

It takes the program that bench/program.py finds, and builds bench/refuse.c as a library that is loaded before the C library. It counts the
allocations of each command, and then runs the command once for each of them, which is refused. A run has to end with status 7, a part of
what the command prints and a part of each file that it writes, or as the command does. Of a command with thousands of allocations the first
thousand are refused, and of the others one in fifty, or each one with --each. Printed is how many allocations were refused, of how many, and
how many of these runs ended with status 7. No part of the gate."""
import os
import struct
import subprocess
import sys
import tempfile

from program import built, crate

BENCH = os.path.dirname(os.path.abspath(__file__))
FOUR_STEPS = os.path.join(crate("xinu_run"), "data", "four_steps.txt")
TWO_CALLS = os.path.join(crate("xinu_run"), "data", "getpid_and_exit.xim")
# how many allocations of a command are refused in any case, and which of the others
FIRST, STRIDE = 1000, 50

SOURCE = b"li a7, 1\necall\nsys exit\n"
# a process that makes a file of 8193 bytes
WRITER = b""".entry start
name: .ascii "big\\0"
mode: .ascii "rw\\0\\0"
start: li a0, 3
la a1, name
la a2, mode
sys open
li a1, 8192
li a2, 8193
sys write
li a0, 4
sys close
sys exit
"""
# a line of each kind
EACH_KIND = b"# a note\n\ntype 61 0d\r\nround 2\nfail0\nfail1\ndisk0 3\ndisk1 4\ntx 5\ntick 6\ndump\nstep 7"


def empty_disk_of_version_1():
    """A disk of version 1 of eight blocks, without files."""
    disk = bytearray(8 * 512)
    disk[0] = 2
    for index in range(7):
        struct.pack_into("<i", disk, 512 + 72 * index, index + 1 if index < 6 else -1)
    for block in range(2, 8):
        struct.pack_into("<i", disk, 512 * block, block + 1 if block < 7 else -1)
    return bytes(disk)


FILES = {
    "three.s": SOURCE,
    "writer.s": WRITER,
    "kinds": EACH_KIND,
    "rounds": b"round 200\n",
    "raw": bytes(8 * 512),
    "old": empty_disk_of_version_1(),
}
# what makes the other files
MAKES = [
    ["asm", "three.s", "--out", "elf", "--elf"],
    ["asm", "writer.s", "--out", "writer"],
    ["disk", "mkfs", "256", "--out", "empty"],
    ["disk", "put", "empty", "log", "three.s", "--out", "disk"],
]
STORED_RUN = ["run", "--schedule", FOUR_STEPS, TWO_CALLS]
# the commands, each with the files that it writes
COMMANDS = [
    ("the stored run", STORED_RUN, []),
    ("check of its transcript", ["check", "--schedule", FOUR_STEPS, "--trace", "transcript", TWO_CALLS], []),
    (
        "a run with four disks",
        ["run", "--schedule", FOUR_STEPS, "--disk0", "raw", "--disk1", "disk", "--out0", "out", "--out1", "out1", TWO_CALLS],
        ["out", "out1"],
    ),
    ("a run on a disk of version 1", ["run", "--schedule", FOUR_STEPS, "--disk1", "old", "--out1", "out", TWO_CALLS], ["out"]),
    ("a run of an ELF file through events of each kind", ["run", "--schedule", "kinds", "elf"], []),
    ("a run that makes a file", ["run", "--schedule", "rounds", "--out1", "out", "writer"], ["out"]),
    ("asm over a text of three lines", ["asm", "three.s", "--out", "out"], ["out"]),
    ("the same with --elf", ["asm", "three.s", "--out", "out", "--elf"], ["out"]),
    ("soak 0", ["soak", "0"], []),
    ("disk mkfs 256", ["disk", "mkfs", "256", "--out", "out"], ["out"]),
    ("disk check", ["disk", "check", "disk"], []),
    ("disk ls", ["disk", "ls", "disk"], []),
    ("disk get", ["disk", "get", "disk", "log", "--out", "out"], ["out"]),
    ("disk put of the text", ["disk", "put", "disk", "name", "three.s", "--out", "out"], ["out"]),
    ("disk repair", ["disk", "repair", "disk", "--out", "out"], ["out"]),
]


def content(path):
    """The bytes of a file, none if there is no such file."""
    try:
        with open(path, "rb") as file:
            return file.read()
    except FileNotFoundError:
        return b""


def ran(program, folder, args, written, library, refused):
    """The status of the program, whose allocation of this number is refused, what it prints and writes, and its standard error."""
    paths = [os.path.join(folder, name) for name in written]
    for path in paths:
        if os.path.exists(path):
            os.remove(path)
    env = {"LD_PRELOAD": library, "REFUSED": str(refused)}
    done = subprocess.run([program, *args], cwd=folder, env=env, capture_output=True, check=False)
    return done.returncode, [done.stdout, *map(content, paths)], done.stderr


def figures(program, folder, args, written, library, is_each):
    """How many allocations the command makes, how many of them were refused, and how many of these runs ended with status 7."""
    status, whole, told = ran(program, folder, args, written, library, 0)
    if status != 0:
        sys.exit(f"{args}: status {status}")
    count = int(told.split()[-1])
    ended, runs = 0, 0
    for number in range(1, count + 1):
        if number > FIRST and number % STRIDE != 0 and not is_each:
            continue
        got, sent, _ = ran(program, folder, args, written, library, number)
        runs += 1
        if got == 7 and all(all_of.startswith(part) for all_of, part in zip(whole, sent)):
            ended += 1
        elif (got, sent) != (status, whole):
            sys.exit(f"{args}: allocation {number} refused: status {got}")
    return count, runs, ended


def main():
    is_each = "--each" in sys.argv
    words = [word for word in sys.argv[1:] if word != "--each"]
    program = built("xinu_run")
    with tempfile.TemporaryDirectory() as folder:
        library = os.path.join(folder, "refuse.so")
        subprocess.run(["cc", "-shared", "-fPIC", "-O2", "-o", library, os.path.join(BENCH, "refuse.c")], check=True)
        for name, text in FILES.items():
            with open(os.path.join(folder, name), "wb") as file:
                file.write(text)
        for args in MAKES:
            subprocess.run([program, *args], cwd=folder, check=True)
        with open(os.path.join(folder, "transcript"), "wb") as transcript:
            subprocess.run([program, *STORED_RUN], cwd=folder, check=True, stdout=transcript)
        for name, args, written in COMMANDS:
            if all(word in name for word in words):
                count, runs, ended = figures(program, folder, args, written, library, is_each)
                print(f"{name}: {runs} of {count} allocations refused, {ended} runs ended with status 7", flush=True)


if __name__ == "__main__":
    main()
