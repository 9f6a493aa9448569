#!/usr/bin/env python3
"""Runs the built program where it refuses, and compares its exit status, standard output and standard error.

usage: bench/refusals.py

It takes the program that bench/program.py finds, and writes its files into a folder of its own. The last line says how many runs were as
they should be. The gate compares neither standard error nor more than one run of a program, so this is run by hand."""
import os
import struct
import subprocess
import sys
import tempfile

from program import built



def image(stack):
    """An image of the calls `getpid` and `exit`, with a stack of this size in bytes."""
    code = struct.pack("<4I", 0x0010_0893, 0x0000_0073, 0x0090_0893, 0x0000_0073)
    return b"XIMG" + struct.pack("<6I", 1, 0, len(code), 0, 20, stack) + code


FILES = {
    "four": b"step 4\n",
    "none": b"dump\nstep 0\n",
    "image": image(4096),
    "short": image(4096)[:27],
    "whole": image(1_048_576),
    "elf": b"\x7fELF" + bytes(48),
    "source": b"nop\nli a7, x\n",
    "large": bytes(8 * 512),
}
# A disk of this many blocks, without files, is made beside them. Seven blocks of it are left for data.
BLOCKS = "14"
# What the commands beside `run` say after that of a line of a schedule.
IN_WORDS = "line 2 of the schedule isn't one of its forms, or asks for too many events; a comment has a line of its own\n"
GDB_WORDS = "the words are --schedule FILE [--disk0 FILE] [--disk1 FILE] IMAGE ..\n"

# the arguments, the exit status, standard error, and standard output if something is printed there
ROWS = [
    ([], 2, "xinu: usage\n"),
    (["run", "--schedule", "four"], 2, "xinu: usage\n"),
    (["run", "--schedule", "no file", "image"], 3, "xinu: host fault\n"),
    (["run", "--schedule", "four", "no file"], 3, "xinu: host fault\n"),
    (["run", "--schedule", "four", "short"], 4, "xinu: image 1 fault 1\n"),
    (["run", "--schedule", "none", "image"], 5, "xinu: schedule line 2\n"),
    (["run", "--schedule", "none", "short"], 5, "xinu: schedule line 2\n"),
    (["run", "--schedule", "four", "whole"], 8, "xinu: no room for image 1\n"),
    (["run", "--schedule", "four", "elf"], 4, "xinu: image 1 fault 12\n"),
    (["run", "--schedule", "none", "--disk0", "short", "image"], 5, "xinu: schedule line 2\n"),
    (["run", "--schedule", "four", "--disk0", "short", "--disk1", "short", "short"], 6, "xinu: disk 0 block 0 rule 0\n"),
    (["run", "--schedule", "four", "--disk1", "short", "short"], 6, "xinu: disk 1 block 0 rule 0\n"),
    (["run", "--schedule", "four", "--disk0", "large", "--disk1", "disk", "short"], 4, "xinu: image 1 fault 1\n"),
    (["run", "--schedule", "four", "--disk0", "no file", "image"], 3, "xinu: host fault\n"),
    (["run", "--plain", "--schedule", "four", "--out0", "no folder/out", "image"], 3, "xinu: host fault\n"),
    (["run", "--plain", "--schedule", "four", "--out1", "no folder/out", "image"], 3, "xinu: host fault\n"),
    (["run", "--schedule", "four", "--out0", "", "image"], 2, "xinu: usage\n"),
    (["asm", "source"], 2, "xinu: usage\n"),
    (["asm", "no file", "--out", "out"], 3, "xinu: host fault\n"),
    (["asm", "source", "--out", "out"], 9, "xinu: asm line 2 fault 2\n"),
    (["asm", "source", "--out", "out", "--elf"], 9, "xinu: asm line 2 fault 2\n"),
    (["disk", "check", "short"], 6, "xinu: disk 1 block 0 rule 0\n"),
    (["disk", "put", "short", "name", "no file", "--out", "out"], 6, "xinu: disk 1 block 0 rule 0\n"),
    (["disk", "put", "disk", "name", "no file", "--out", "out"], 3, "xinu: host fault\n"),
    (["disk", "get", "disk", "name", "--out", "out"], 12, "xinu: no such file\n"),
    (["disk", "put", "disk", "name", "large", "--out", "out"], 13, "xinu: does not fit\n"),
    (["check", "--schedule", "four", "image"], 2, "xinu: usage\n"),
    (["check", "--schedule", "four", "--trace", "no file", "image"], 3, "xinu: host fault\n"),
    (["check", "--schedule", "four", "--trace", "four", "short"], 4, "xinu: image 1 fault 1\n"),
    (["check", "--schedule", "none", "--trace", "four", "image"], 5, "xinu: schedule line 2\n"),
    (["check", "--schedule", "four", "--disk0", "short", "--trace", "four", "image"], 6, "xinu: disk 0 block 0 rule 0\n"),
    (["check", "--schedule", "four", "--trace", "four", "whole"], 8, "xinu: no room for image 1\n"),
    (["check", "--schedule", "four", "--trace", "four", "image"], 10, "", b"no\n"),
    (["timeline", "--schedule", "none", "image"], 5, "xinu: schedule line 2\n" + IN_WORDS),
    (["races", "--preemptions", "1", "--within", "1", "--schedule", "none", "image"], 5, "xinu: schedule line 2\n" + IN_WORDS),
    (["gdb", "--schedule", "none", "image"], 5, "xinu: schedule line 2\n" + IN_WORDS),
    (["explain", "--schedule", "four", "short"], 4, "xinu: image 1 fault 1\nimage 1: the file is shorter than a header\n"),
    (["explain", "--schedule", "no file", "image"], 3, "xinu: host fault\nthe file no file can't be read: is its name right?\n"),
    (["explain", "--schedule", "four", "--trace", "no file", "image"], 3, "xinu: host fault\nthe file no file can't be read: is its name right?\n"),
    (["gdb", "--schedule", "four", "image", "--disk2", "large"], 2, "xinu: usage\nthere is no option --disk2\n" + GDB_WORDS),
    (["explained", "--schedule", "four", "short"], 2, "xinu: usage\n"),
]


def is_right(program, folder, args, status, error, printed=b"", out=subprocess.PIPE):
    """Whether the program ends with this status, and prints these texts."""
    ran = subprocess.run([program, *args], cwd=folder, stdin=subprocess.DEVNULL, stdout=out, stderr=subprocess.PIPE, check=False)
    if (ran.returncode, ran.stdout or b"", ran.stderr) == (status, printed, error.encode()):
        return True
    print(f"{args}: status {ran.returncode}, {ran.stdout!r}, {ran.stderr!r}; not {status}, {printed!r}, {error!r}")
    return False


def main():
    program = built("xinu_run")
    with tempfile.TemporaryDirectory() as folder:
        for name, content in FILES.items():
            with open(os.path.join(folder, name), "wb") as file:
                file.write(content)
        subprocess.run([program, "disk", "mkfs", BLOCKS, "--out", "disk"], cwd=folder, check=True)
        right = [is_right(program, folder, *row) for row in ROWS]
        with open("/dev/full", "wb") as full:
            right.append(is_right(program, folder, ["run", "--schedule", "four", "image"], 3, "xinu: host fault\n", out=full))
    print(f"{sum(right)} of {len(right)} runs were as they should be")
    sys.exit(0 if all(right) else 1)


if __name__ == "__main__":
    main()
