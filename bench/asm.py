#!/usr/bin/env python3
"""Times `xinu_run asm` on sources of 1 MiB.

usage: bench/asm.py

It takes the program that bench/program.py finds, assembles each source, once to an image file and once to an ELF file, and prints the
seconds of processor time and the greatest memory. It ends with status 1 if one takes two seconds or more. No part of the gate."""
import os
import subprocess
import sys
import tempfile
import time

from program import built

MOST = 1_048_576
LIMIT = 2.0


def repeated(lines, end=""):
    """As many of these lines as there is room for, and then the end."""
    room, taken = MOST - len(end), []
    for line in lines:
        if len(line) > room:
            break
        taken.append(line)
        room -= len(line)
    return "".join(taken) + " " * room + end


# every source fits RAM: a line of code has at least four bytes
SOURCES = {
    "instructions": repeated(f"        addi a{k % 8}, s{k % 12}, {k % 2048}  # step {k}\n" for k in range(MOST)),
    "labels": repeated(f"l{k}: j l{k // 2 * 2}\n" for k in range(MOST)),
    "empty lines": repeated(("\n" for k in range(MOST)), "nop\n"),
    "labels alone": repeated((f"l{k}:\n" for k in range(MOST)), "nop\n"),
    "a comment": "nop #" + "#" * (MOST - 5),
    "a text": '.ascii "' + "x" * (MOST - 9) + '"',
    "a digit": "li a0, " + "0" * (MOST - 8) + "1",
    "a fault at the end": repeated((f"l{k}: nop\n" for k in range(MOST)), "foo\n"),
}


def timed(arguments, source):
    """The processor seconds of `asm`, its greatest memory in bytes and its status."""
    process = subprocess.Popen([built("xinu_run"), "asm", *arguments], stderr=subprocess.DEVNULL)
    memory, ended = 0, 0
    while not ended:
        time.sleep(0.002)
        memory = max(memory, greatest_memory(process.pid))
        ended, status, usage = os.wait4(process.pid, os.WNOHANG)
    expected = 9 if "fault" in source else 0
    if os.waitstatus_to_exitcode(status) != expected:
        sys.exit(f"{source}: asm ended with status {os.waitstatus_to_exitcode(status)}")
    return usage.ru_utime + usage.ru_stime, memory


def greatest_memory(pid):
    """The greatest memory in bytes that a program has had so far."""
    with open(f"/proc/{pid}/status") as status:
        lines = [line.split() for line in status if line.startswith("VmHWM")]
    return 1024 * int(lines[0][1]) if lines else 0


def main():
    slowest = 0.0
    with tempfile.TemporaryDirectory() as folder:
        path, out = os.path.join(folder, "source"), os.path.join(folder, "out")
        for name, text in SOURCES.items():
            with open(path, "w", encoding="ascii") as file:
                file.write(text)
            for kind in ([], ["--elf"]):
                seconds, memory = timed([path, "--out", out, *kind], name)
                slowest = max(slowest, seconds)
                print(f"{name:20} {' '.join(kind):6} {len(text):8} bytes  {seconds:6.3f} s  {memory:10} bytes of memory")
    print(f"the slowest took {slowest:.3f} s")
    sys.exit(0 if slowest < LIMIT else 1)


if __name__ == "__main__":
    main()
