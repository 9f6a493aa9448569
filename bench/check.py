#!/usr/bin/env python3
"""Times `xinu_run check` on transcripts of up to a million lines: of a process that makes one call over and over, of two processes that write
and read files, of the first beside the greatest raw disk, and of a process that takes stacks and gives them back; and on a text of one line
of 60 MiB, beside which a process makes a million steps without a call.

usage: bench/check.py

It takes the program that bench/program.py finds, runs each system with `xinu_run run`, and hands the transcript to `check`. For each it
prints how many lines and bytes the transcript has, the seconds of processor time of the run and of the check, the greatest memory of the
check in bytes and as a multiple of text, RAM and disks, and what `check` says; then what it says of the same text with the last `ret` line
changed. Of the long line it prints how long `check` takes to say `no`. No part of the gate."""
import os
import subprocess
import sys
import tempfile
import time

from program import built

RAM = 1 << 20
RAW_BLOCKS = 65536
FILE_BLOCKS = 256
GETPID = "again: sys getpid\n j again\n"
STACKS = "again: li a0, 64\n sys getstk\n li a1, 64\n sys freestk\n j again\n"
# The first stack has nearly all of the heap, so that each search goes over its cells.
STACKS_BELOW = "li a0, 1000000\n sys getstk\n" + STACKS
LINE = 60 << 20
# Opens a file of its own, and then writes 64 bytes at its start and reads them back, over and over.
WRITER = """
        .place {place}
        .entry start
name:   .ascii "{name}\\0\\0\\0"
mode:   .ascii "rw\\0\\0"
start:  li a0, 3
        la a1, name
        la a2, mode
        sys open
        mv s0, a0
again:  mv a0, s0
        li a1, 8192
        li a2, 64
        sys write
        mv a0, s0
        li a1, 0
        sys seek
        mv a0, s0
        li a1, 8192
        li a2, 64
        sys read
        mv a0, s0
        li a1, 0
        sys seek
        j again
"""
# the processes, the schedule, and whether there is the greatest raw disk
SYSTEMS = {
    "getpid": ([GETPID], "step 1500000\n", False),
    "files": ([WRITER.format(place=0, name="a"), WRITER.format(place=4096, name="b")], "round 80000\n", False),
    "getpid, 32 MiB": ([GETPID], "step 1500000\n", True),
    "getstk and freestk": ([STACKS], "step 700000\n", False),
    "the same below a stack of 1000000 bytes": ([STACKS_BELOW], "step 70000\n", False),
}


def timed(words, out):
    """The exit status of a program, its processor seconds and its greatest memory in bytes."""
    with open(out, "wb") as sink:
        process = subprocess.Popen([built("xinu_run"), *words], stdout=sink)
        memory, ended = 0, 0
        while not ended:
            time.sleep(0.002)
            memory = max(memory, greatest_memory(process.pid))
            ended, status, usage = os.wait4(process.pid, os.WNOHANG)
    return os.waitstatus_to_exitcode(status), usage.ru_utime + usage.ru_stime, memory


def greatest_memory(pid):
    """The greatest memory in bytes that a program has had so far."""
    with open(f"/proc/{pid}/status", encoding="ascii") as status:
        lines = [line.split() for line in status if line.startswith("VmHWM")]
    return int(lines[0][1]) * 1024 if lines else 0


def assembled(folder, number, text):
    """The path of the image of a text."""
    source, image = os.path.join(folder, "source"), os.path.join(folder, f"{number}.xim")
    with open(source, "w", encoding="ascii") as file:
        file.write(text)
    subprocess.run([built("xinu_run"), "asm", source, "--out", image], check=True)
    return image


def judged(folder, words, text):
    """What `check` says of a text, its processor seconds and its greatest memory."""
    trace, said = os.path.join(folder, "trace"), os.path.join(folder, "said")
    with open(trace, "wb") as file:
        file.write(text)
    status, seconds, memory = timed(["check", "--trace", trace, *words], said)
    with open(said, encoding="ascii") as file:
        answer = file.read().strip()
    if (status, answer) not in ((0, "yes"), (10, "no")):
        sys.exit(f"check ended with status {status}")
    return answer, seconds, memory


def with_another_reply(text):
    """The text with another number in its last `ret` line."""
    at = text.rindex(b"\nret ")
    end = text.index(b"\n", at + 1)
    return text[:end] + b"0" + text[end:]


def report(folder, name, processes, schedule, has_raw_disk):
    """Times one system."""
    images = [assembled(folder, number, text) for number, text in enumerate(processes)]
    events = os.path.join(folder, "schedule")
    with open(events, "w", encoding="ascii") as file:
        file.write(schedule)
    words, disks = ["--schedule", events, *images], 64 + FILE_BLOCKS
    if has_raw_disk:
        disk = os.path.join(folder, "disk")
        with open(disk, "wb") as file:
            file.write(bytes(RAW_BLOCKS * 512))
        words, disks = ["--disk0", disk, *words], RAW_BLOCKS + FILE_BLOCKS
    transcript = os.path.join(folder, "transcript")
    status, run_seconds, _ = timed(["run", *words], transcript)
    if status:
        sys.exit(f"run ended with status {status}")
    with open(transcript, "rb") as file:
        text = file.read()
    answer, seconds, memory = judged(folder, words, text)
    other, _, _ = judged(folder, words, with_another_reply(text))
    least = len(text) + RAM + 512 * disks
    print(f"{name}: {text.count(10)} lines, {len(text)} bytes, run {run_seconds:.2f} s, check {seconds:.2f} s, "
          f"{memory} bytes, {memory / least:.2f} times text, RAM and disks: {answer}; with another reply: {other}")


def report_long_line(folder):
    """Times a process that makes a million steps without a call, beside a line of which no end is near."""
    image, events = assembled(folder, 0, "again: j again\n"), os.path.join(folder, "schedule")
    with open(events, "w", encoding="ascii") as file:
        file.write("step 1000000\n")
    answer, seconds, memory = judged(folder, ["--schedule", events, image], b"run 1\ncall " + bytes(LINE))
    print(f"a line of {LINE} bytes: 1000000 steps, check {seconds:.2f} s, {memory} bytes: {answer}")


def main():
    for name, (processes, schedule, has_raw_disk) in SYSTEMS.items():
        with tempfile.TemporaryDirectory() as folder:
            report(folder, name, processes, schedule, has_raw_disk)
    with tempfile.TemporaryDirectory() as folder:
        report_long_line(folder)


if __name__ == "__main__":
    main()
