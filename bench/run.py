#!/usr/bin/env python3
"""Times `xinu_run run` and the plain C interpreter on two loops, side by side in one run, and then `xinu_run run` on loops of calls.

usage: bench/run.py [STEPS]        (200000000 steps if none are given)

It builds both programs (`xinu_run` as bench/program.py says), writes the images of bench/images.py and prints for each loop and program the
seconds of processor time, the steps per second and the greatest memory in use. The last line of each loop is the ratio of their speeds. A
loop of calls is assembled by `xinu_run asm` and takes a hundredth of the steps; beside its events per second are the bytes of its
transcript. Then come ticks beside one sleeper and beside sixty, then the eight texts of bench/system, which together use calls 1 to 35,
with the greatest memory of the program once it had begun to print and at the end, and last real code: the self tests of mbedTLS's SHA-256,
AES and SHA-512, in qemu-riscv32 too, if the source was fetched (bench/real.py) and there is a compiler for it. No part of the gate."""
import os
import shutil
import subprocess
import sys
import tempfile
import time

import foreign
import real
from program import built

BENCH = os.path.dirname(os.path.abspath(__file__))
SYSTEM = os.path.join(BENCH, "system")

YIELD = "loop: sys yield\n j loop\n"
# the images of each loop of calls, as texts
CALLS = {
    "yield": [YIELD, ".place 256\n" + YIELD],
    "heap": ["loop: li a0, 64\n sys getmem\n li a1, 64\n sys freemem\n j loop\n"],
    "wait": ["li a0, 1\n sys semcreate\n mv s0, a0\nloop: mv a0, s0\n sys wait\n mv a0, s0\n sys signal\n j loop\n"],
    "sleep": ["loop: li a0, 1\n sys sleepms\n j loop\n"],
}

# an image that makes this many processes, each of which sleeps 2000 seconds
SLEEPERS = """ li s1, {count}
loop: la a0, child
 li a1, 400
 li a2, 30
 la a3, name
 li a4, 0
 li a5, 0
 sys create
 sys resume
 addi s1, s1, -1
 bne s1, zero, loop
end: j end
child: li a0, 2000
 sys sleep
 j child
name: .ascii "sleeper"
 .zero 9
"""


def timed(words, stdin, stdout=os.devnull):
    """The processor seconds of a program, and its greatest memory in kilobytes, at the end and once it had begun to print."""
    with open(stdin, "rb") as source, open(stdout, "wb") as sink:
        process = subprocess.Popen(words, stdin=source, stdout=sink)
        memory, first, ended = 0, 0, 0
        while not ended:
            time.sleep(0.05)
            memory = max(memory, greatest_memory(process.pid))
            if not first and os.fstat(sink.fileno()).st_size:
                first = memory
            ended, status, usage = os.wait4(process.pid, os.WNOHANG)
    if status != 0:
        sys.exit(f"{words[0]} ended with status {status}")
    return usage.ru_utime + usage.ru_stime, memory, first


def greatest_memory(pid):
    """The greatest memory in kilobytes that a program has had so far."""
    with open(f"/proc/{pid}/status") as status:
        lines = [line.split() for line in status if line.startswith("VmHWM")]
    return int(lines[0][1]) if lines else 0


def assembled(folder, name, text):
    """The path of the image of a text."""
    source, image = os.path.join(folder, name + ".s"), os.path.join(folder, name + ".xim")
    with open(source, "w", encoding="ascii") as file:
        file.write(text)
    subprocess.run([built("xinu_run"), "asm", source, "--out", image], check=True)
    return image


def time_calls(folder, steps):
    """Prints the times of the loops of calls."""
    schedule, transcript = os.path.join(folder, "schedule"), os.path.join(folder, "transcript")
    for name, texts in CALLS.items():
        with open(schedule, "w", encoding="ascii") as file:
            file.write("step 6\ntick 1\n" * (steps // 7) if name == "sleep" else f"step {steps}\n")
        images = [assembled(folder, f"{name}{k}", text) for k, text in enumerate(texts)]
        seconds, memory, _ = timed([built("xinu_run"), "run", "--schedule", schedule, *images], schedule, transcript)
        written = os.path.getsize(transcript)
        print(f"{name:6} {seconds:17.2f} s {steps / seconds / 1e6:7.2f} million events/s {written:10} bytes {memory:7} KB")


def time_ticks(folder, ticks):
    """Prints the times of ticks beside one sleeper and beside sixty."""
    schedule, transcript = os.path.join(folder, "schedule"), os.path.join(folder, "transcript")
    with open(schedule, "w", encoding="ascii") as file:
        file.write(f"step 4000\ntick {ticks}\n")
    for count in (1, 60):
        image = assembled(folder, f"sleepers{count}", SLEEPERS.format(count=count))
        seconds, memory, _ = timed([built("xinu_run"), "run", "--schedule", schedule, image], schedule, transcript)
        print(f"tick   {count:2} asleep {seconds:7.2f} s {ticks / seconds / 1e6:7.2f} million ticks/s {memory:7} KB")


def time_system(folder, rounds):
    """Prints the time and the memory of eight images that together use calls 1 to 35, in rounds of 99 steps and a tick."""
    schedule, transcript = os.path.join(folder, "schedule"), os.path.join(folder, "transcript")
    with open(schedule, "w", encoding="ascii") as file:
        file.write("step 99\ntick 1\n" * rounds)
    images = []
    for name in sorted(os.listdir(SYSTEM)):
        with open(os.path.join(SYSTEM, name), encoding="ascii") as text:
            images.append(assembled(folder, name, text.read()))
    seconds, memory, first = timed([built("xinu_run"), "run", "--schedule", schedule, *images], schedule, transcript)
    written = os.path.getsize(transcript)
    print(f"system {seconds:17.2f} s {rounds / seconds / 1e4:7.2f} million events/s {written:10} bytes {first:7} KB, {memory:7} KB at the end")


def time_real(folder, plain):
    """Prints the times of real code on the machine, in the plain C interpreter and in qemu, if what it needs is here."""
    if not all(map(shutil.which, (foreign.COMPILER, foreign.QEMU))) or not os.path.isdir(real.folder_of("mbedtls")):
        print(f"real   skipped: it needs {foreign.COMPILER}, {foreign.QEMU} and the source that `bench/real.py --fetch mbedtls` gets")
        return
    schedule, printed = os.path.join(folder, "schedule"), os.path.join(folder, "printed")
    with open(schedule, "w", encoding="ascii") as file:
        file.write("step 1000000000\n")
    ours, theirs, image = real.self_tests(folder)
    rows = {
        "xinu_run": [real.built("xinu_run"), "run", "--schedule", schedule, ours],
        "plain C": [plain, "1000000000"],
        "qemu": [foreign.QEMU, theirs],
    }
    taken = {name: timed(words, image, printed + name)[:2] for name, words in rows.items()}
    with open(printed + "plain C", encoding="ascii") as file:
        steps = int(file.read().split()[1])
    for name, (seconds, memory) in taken.items():
        print(f"real   {name:9} {seconds:7.2f} s {steps / seconds / 1e6:7.1f} million steps/s {memory:7} KB, {steps} steps")
    print(f"real   ratio     {taken['plain C'][0] / taken['xinu_run'][0]:7.2f}")


def main():
    steps = int(sys.argv[1]) if len(sys.argv) > 1 else 200_000_000
    with tempfile.TemporaryDirectory() as folder:
        plain = os.path.join(folder, "interpreter")
        subprocess.run(["cc", "-O2", "-o", plain, os.path.join(BENCH, "interpreter.c")], check=True)
        subprocess.run([sys.executable, os.path.join(BENCH, "images.py"), folder], check=True)
        schedule = os.path.join(folder, "schedule")
        with open(schedule, "w") as file:
            file.write(f"step {steps}\n")
        for loop in ("jal", "mixed"):
            image = os.path.join(folder, loop + ".img")
            ours = [built("xinu_run"), "run", "--schedule", schedule, image]
            speeds = []
            for name, words in (("xinu_run", ours), ("plain C", [plain, str(steps)])):
                seconds, memory, _ = timed(words, image)
                speeds.append(steps / seconds)
                print(f"{loop:6} {name:9} {seconds:7.2f} s {steps / seconds / 1e6:7.1f} million steps/s {memory:7} KB")
            print(f"{loop:6} ratio     {speeds[0] / speeds[1]:7.2f}")
        time_calls(folder, max(steps // 100, 1))
        time_ticks(folder, 1_900_000)
        time_system(folder, 100_000)
        time_real(folder, plain)


if __name__ == "__main__":
    main()
