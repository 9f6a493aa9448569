#!/usr/bin/env python3
"""Times `xinu_run disk check` on full images of several sizes, a run that reads and writes every block of the largest raw disk, and a run of
four processes that write and read files.

usage: bench/disk.py

It takes the program that bench/program.py finds, makes each image with `disk mkfs`, fills all of its data blocks with eight files by `disk
put`, and prints for each the seconds of processor time of the slowest `disk put` and of `disk check`, and the greatest memory of the check
in bytes and as a multiple of the image. Then it prints how much longer the check of the largest image takes than that of the smallest, for
each byte. Then it runs an image that reads each block of a raw disk of 65,536 blocks and writes it back to the block 32,768 further on,
compares the disk that comes out, and prints the seconds and the greatest memory, also as a multiple of RAM and the two disks.

Last it runs four images, each of which writes and reads a file of its own over and over on a disk of 65,542 blocks, and the same four with
`getpid` in the place of each call on files. It prints the completions and the events per second of processor time, the greatest memory, and
whether the disk that comes out is clean. No part of the gate."""
import os
import struct
import subprocess
import sys
import tempfile
import time

from program import built

BLOCKS = (2054, 16390, 65542)
RAW_BLOCKS = 65536
RAM = 1 << 20
# Reads block s0 to 8192, and writes it to block s0 + 32768, of which only the lowest 16 bits count.
COPIER = b"""
        li s0, 0
        li s1, 65536
next:   li a0, 2
        li a1, 8192
        mv a2, s0
        sys read
        li t0, 32768
        add a2, s0, t0
        slli a2, a2, 16
        srli a2, a2, 16
        li a0, 2
        li a1, 8192
        sys write
        addi s0, s0, 1
        blt s0, s1, next
        sys exit
"""
# Opens the file, and then writes 2,048 bytes at its start and reads them back, over and over.
WRITER = """
        .entry start
name:   .ascii "{name}\\0\\0\\0"
mode:   .ascii "rw\\0\\0"
start:  li a0, 3
        la a1, name
        la a2, mode
        sys {open}
        mv s0, a0
again:  mv a0, s0
        li a1, {at}
        li a2, 2048
        sys {write}
        mv a0, s0
        li a1, 0
        sys {seek}
        mv a0, s0
        li a1, {at}
        li a2, 2048
        sys {read}
        mv a0, s0
        li a1, 0
        sys {seek}
        j again
"""
ON_FILES = {call: call for call in ("open", "write", "seek", "read")}
WITHOUT_FILES = dict.fromkeys(ON_FILES, "getpid")
# What is in a round of a schedule: steps, transmissions, completions of both disks, and a tick.
ROUNDS, ROUND_EVENTS, ROUND_COMPLETIONS = 2000, 1081, 8
FILES = 8


def timed(words):
    """The processor seconds of a command, its greatest memory in bytes and what it printed."""
    process = subprocess.Popen([built("xinu_run"), *words], stdout=subprocess.PIPE)
    memory, ended = 0, 0
    while not ended:
        time.sleep(0.002)
        memory = max(memory, greatest_memory(process.pid))
        ended, status, usage = os.wait4(process.pid, os.WNOHANG)
    if status != 0:
        sys.exit(f"{' '.join(words[:2])} ended with status {status}")
    return usage.ru_utime + usage.ru_stime, memory, process.stdout.read().decode()


def greatest_memory(pid):
    """The greatest memory in bytes that a program has had so far."""
    with open(f"/proc/{pid}/status") as status:
        lines = [line.split() for line in status if line.startswith("VmHWM")]
    return 1024 * int(lines[0][1]) if lines else 0


def filled(folder, blocks):
    """An image of a number of blocks without a free data block, and the seconds of the slowest `put`."""
    image, source = os.path.join(folder, f"disk{blocks}"), os.path.join(folder, "source")
    timed(["disk", "mkfs", str(blocks), "--out", image])
    data, slowest = blocks - 6 - (blocks + 63) // 64, 0.0
    for k in range(FILES):
        share = data * (k + 1) // FILES - data * k // FILES
        with open(source, "wb") as file:
            file.write(bytes([k + 1]) * (512 * share))
        slowest = max(slowest, timed(["disk", "put", image, f"file{k}", source, "--out", image])[0])
    return image, slowest


def raw_run(folder):
    """Reads and writes every block of the largest raw disk, and prints how long it takes."""
    raw, out, source, image, schedule = (os.path.join(folder, name) for name in ("raw", "out", "copier.s", "copier", "schedule"))
    blocks = [struct.pack("<I", k) * 128 for k in range(RAW_BLOCKS)]
    half = RAW_BLOCKS // 2
    # The first half is copied over the second, and then the second, which is as the first by then, over the first.
    for name, content in ((raw, b"".join(blocks)), (source, COPIER), (schedule, b"round 66000\n")):
        with open(name, "wb") as file:
            file.write(content)
    timed(["asm", source, "--out", image])
    seconds, memory, _ = timed(["run", "--plain", "--schedule", schedule, "--disk0", raw, "--out0", out, image])
    with open(out, "rb") as file:
        if file.read() != b"".join(blocks[:half] * 2):
            sys.exit("another disk came out")
    size = RAM + 512 * RAW_BLOCKS + 512 * 256
    print(f"run over {512 * RAW_BLOCKS} bytes of raw disk: {seconds:.3f} s, {memory} bytes of memory, {memory / size:.2f} times RAM and disks")


def file_run(folder, calls):
    """Runs four processes that make these calls over and over: the seconds, the memory, and the image of the disk that comes out."""
    disk, out, schedule = (os.path.join(folder, name) for name in ("disk", "disk-out", "rounds"))
    with open(schedule, "w") as file:
        file.write(f"round {ROUNDS}\n")
    timed(["disk", "mkfs", str(BLOCKS[-1]), "--out", disk])
    images = []
    for k, name in enumerate("abcd"):
        source, image = os.path.join(folder, f"{name}.s"), os.path.join(folder, name)
        with open(source, "w") as file:
            file.write(f"        .place {65536 * k}\n" + WRITER.format(name=name, at=524288 + 4096 * k, **calls))
        timed(["asm", source, "--out", image])
        images.append(image)
    seconds, memory, _ = timed(["run", "--plain", "--schedule", schedule, "--disk1", disk, "--out1", out, *images])
    return seconds, memory, out


def file_runs(folder):
    """Times four processes on files beside the same without files, and checks the disk."""
    size = RAM + 512 * BLOCKS[-1] + 512 * 64
    for title, calls in (("on files", ON_FILES), ("without files", WITHOUT_FILES)):
        seconds, memory, out = file_run(folder, calls)
        print(f"four processes {title}: {seconds:.3f} s, {ROUNDS * ROUND_EVENTS / seconds:.0f} events/s, {ROUNDS * ROUND_COMPLETIONS / seconds:.0f} "
              f"completions/s, {memory} bytes of memory, {memory / size:.2f} times RAM and disks")
        print(f"  its disk: {timed(['disk', 'ls', out])[2].count('file ')} files, which another run starts from")


def main():
    rates = []
    with tempfile.TemporaryDirectory() as folder:
        for blocks in BLOCKS:
            image, put = filled(folder, blocks)
            size = os.path.getsize(image)
            seconds, memory, printed = timed(["disk", "check", image])
            if not printed.startswith(f"clean {FILES} 0 "):
                sys.exit(f"disk check printed {printed!r}")
            rates.append(seconds / size)
            print(f"{size:9} bytes  put {put:6.3f} s  check {seconds:6.3f} s  {memory:10} bytes of memory, {memory / size:5.2f} times")
        print(f"check of the largest against the smallest, for each byte: {rates[-1] / rates[0]:.2f}")
        raw_run(folder)
        file_runs(folder)


if __name__ == "__main__":
    main()
