#!/usr/bin/env python3
"""Plays 10,000 drawn calls on the file engine over disks of three sizes, and times calls on files of several sizes.

usage: bench/files.py

It takes the program `file_bench` that bench/program.py finds. The scripts come first: each call is made on the engine with its disk and on a
plain list of files, and the program stops at the first reply, byte or file that differs. The files are read back off the disk after each
completion and after each call, and at the end. The last script has calls of up to a mebibyte on the largest disk; there the files are read
back at one completion of a thousand and at one call of a hundred. For each script it prints how many calls were refused, how many
completions there were, and the seconds of processor time. The memory of a disk that is read back is kept for the next one, else most of the
time goes into fresh pages.

Then come the completions and the microseconds of processor time of single calls on a file at its end, the least of five runs, first for
several sizes of the file on the largest disk, and then for one size on several disks. It ends with status 1 if a script went wrong. No part
of the gate."""
import os
import subprocess
import sys

from program import built

# blocks, calls, seed, names, the most bytes at once, and how often the files are read back, by completions and by calls
SCRIPTS = (
    (14, 10000, 1, 9, 1600, 1, 1),
    (14, 10000, 2, 100, 600, 1, 1),
    (256, 10000, 3, 30, 20000, 1, 1),
    (256, 10000, 4, 100, 100000, 1, 1),
    (65542, 10000, 5, 100, 20000, 1, 1),
    (65542, 10000, 5, 100, 1048576, 1000, 100),
)
RUNS = 5
LARGEST = 65542
SIZES = (8192, 131072, 2097152, 32505856)
DISKS = (256, 4096, 65542)
SIZE = 65536


def output(words):
    """What the program prints with these words, and the seconds of its processor time."""
    kept = {"MALLOC_MMAP_THRESHOLD_": str(1 << 30), "MALLOC_TRIM_THRESHOLD_": str((1 << 32) - 1)}
    process = subprocess.Popen([built("file_bench"), *map(str, words)], stdout=subprocess.PIPE, env={**os.environ, **kept})
    printed = process.stdout.read().decode()
    _, status, usage = os.wait4(process.pid, 0)
    if status != 0:
        sys.exit(f"file_bench ended with status {status}")
    return printed, usage.ru_utime + usage.ru_stime


def timings(blocks, size):
    """The completions and the least microseconds of each kind of call."""
    least = {}
    for _ in range(RUNS):
        printed, _ = output(["time", blocks, size])
        for line in printed.splitlines():
            if "\t" not in line:
                sys.exit(line)
            name, times, completions, nanos = line.split("\t")
            micros = int(nanos) / int(times) / 1000
            least[name] = (int(completions) / int(times), min(micros, least.get(name, (0, micros))[1]))
    return least


def table(first, columns):
    """Prints a line for each kind of call, with its completions and microseconds in each column."""
    heads = [f"{first} {head}" for head, _ in columns]
    print("".join([f"{'':24}"] + [f"{head:>24}" for head in heads]))
    for name in columns[0][1]:
        cells = [f"{row[name][0]:.0f}, {row[name][1]:.1f} us" for _, row in columns]
        print("".join([f"{name:24}"] + [f"{cell:>24}" for cell in cells]))
    print()


def main():
    wrong = 0
    for script in SCRIPTS:
        counts, _ = output(["counts", *script[:5], 0, 0])
        printed, seconds = output(["script", *script])
        wrong += not printed.endswith("as the plain list\n")
        print(f"{script[0]:6} blocks, seed {script[2]}: {counts.strip()}, {printed.split(': ')[-1].strip()}, {seconds:.1f} s")
    print()
    table("size", [(size, timings(LARGEST, size)) for size in SIZES])
    table("blocks", [(blocks, timings(blocks, SIZE)) for blocks in DISKS])
    sys.exit(1 if wrong else 0)


if __name__ == "__main__":
    main()
