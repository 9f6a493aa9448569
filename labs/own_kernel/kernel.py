#!/usr/bin/env python3
"""A kernel to begin with: one process, the calls exit, getpid and putc, the clock, and the console's output.

usage: kernel.py SCHEDULE IMAGE

It prints the transcript of the run (docs/FORMATS.md), which `xinu_run check` judges. What it doesn't have yet stops it with status 1."""
import sys

from processor import SIZE, signed, step

INITRET = 0xFFFFFFFC  # where the first function of a process returns to
QUANTUM = 2
CALLS = 44  # numbers of calls: 1 to 44
OUTPUT = 64  # bytes that wait to be sent


class NotYet(Exception):
    """Something that the kernel doesn't have yet."""


class Process:
    """A process: its registers, and what the tables say of it."""

    def __init__(self, name, priority, parent, entry=0, top=0):
        self.name, self.priority, self.parent, self.message, self.state = name, priority, parent, None, "ready"
        self.x, self.pc = [0] * 32, entry
        self.x[1], self.x[2] = INITRET, top & ~15


class Kernel:
    """The machine and its tables."""

    def __init__(self, image):
        field = [int.from_bytes(image[k : k + 4], "little") for k in range(0, 28, 4)]
        place, entry, priority, stack = field[2], field[4], field[5], field[6]
        self.ram = bytearray(SIZE)
        self.ram[place : place + len(image) - 28] = image[28:]
        self.low = (place + len(image) - 28 + 7) // 8 * 8  # the heap: from here to the end of RAM
        self.stack = (max(stack, 400) + 7) // 8 * 8
        self.processes = {0: Process("prnull", 0, 0), 1: Process("image1", priority, 0, entry, SIZE - 4)}
        self.now, self.quantum, self.current, self.output = 0, QUANTUM, 0, []
        self.run(1)

    def run(self, number):
        """Another process becomes current."""
        if self.current in self.processes:
            self.processes[self.current].state = "ready"
        self.current, self.quantum = number, QUANTUM
        self.processes[number].state = "current"
        print(f"run {number}")

    def die(self):
        """The current process dies: its parent holds its number, and the next one runs."""
        dead = self.processes.pop(self.current)
        if dead.parent in self.processes and self.processes[dead.parent].message is None:
            self.processes[dead.parent].message = self.current
        self.run(0)

    def step(self):
        """A step of the current process; those of the null process do nothing."""
        p = self.processes[self.current]
        if self.current == 0:
            return
        if p.pc == INITRET:
            return self.call_exit()
        ended = step(p, self.ram)
        if ended == "ecall":
            self.call(p)
        elif ended:
            print(f"trap {self.current} {ended}")
            self.die()

    def call(self, p):
        """A call: its number is in a7, its arguments from a0 on, and the reply goes to a0."""
        number = p.x[17]
        p.pc = p.pc + 4 & 0xFFFFFFFF
        if not 1 <= number <= CALLS:
            print(f"call {self.current} unknown {signed(number)}")
            return self.reply(p, -1)
        calls = {1: self.call_getpid, 9: self.call_exit, 41: self.call_putc}
        if number not in calls:
            raise NotYet(f"call {number}")
        return calls[number]()

    def reply(self, p, value):
        """The current process gets the reply of its call."""
        print(f"ret {self.current} {value}")
        p.x[10] = value & 0xFFFFFFFF

    def call_getpid(self):
        """getpid: the caller's number."""
        print(f"call {self.current} getpid")
        self.reply(self.processes[self.current], self.current)

    def call_exit(self):
        """exit: the caller dies."""
        print(f"call {self.current} exit")
        self.die()

    def call_putc(self):
        """putc: a byte of the console's output; a return comes before a newline."""
        p = self.processes[self.current]
        print(f"call {self.current} putc {signed(p.x[10])} {signed(p.x[11])}")
        letter = p.x[11] & 255
        put = [13, 10] if letter == 10 else [letter]
        if p.x[10] != 0 or len(self.output) + len(put) > OUTPUT:
            raise NotYet("putc on another device, or without room")
        self.output += put
        self.reply(p, 0)

    def tick(self):
        """A tick of the clock: nobody sleeps, and nobody else is ready."""
        self.now += 1
        self.quantum -= 1
        if self.quantum == 0:
            self.quantum = QUANTUM

    def tx(self):
        """The console sends a byte."""
        if self.output:
            print(f"con {self.output.pop(0):02x}")

    def tables(self):
        """The tables."""
        print(f"now {self.now} {self.quantum}")
        for number, p in sorted(self.processes.items()):
            message = "-" if p.message is None else signed(p.message)
            print(f"proc {number} {p.state} {p.priority} {p.parent} {message} {p.name.encode().hex() or '-'}")
        if self.current != 0:
            print("ready 0 0")
        print(f"free {self.low} {SIZE - self.low - (self.stack if 1 in self.processes else 0)}")
        print(f"console cooked 0 0 {len(self.output)} 0 run\ndisk0 0\ndisk1 clean")


def events(text):
    """The events of a schedule, one by one."""
    for line in text.splitlines():
        word, *rest = line.split() or ["#"]
        if word.startswith("#"):
            continue
        if word == "dump":
            yield word
        elif word == "round":
            for _ in range(int(rest[0])):
                yield from ["step"] * 1000 + ["tx"] * 64 + ["disk"] * 16 + ["tick"]
        elif word in ("step", "tick", "tx", "disk0", "disk1"):
            yield from ["disk" if word.startswith("disk") else word] * int(rest[0])
        else:
            raise NotYet(f"the line {line}")


def main():
    with open(sys.argv[2], "rb") as file:
        kernel = Kernel(file.read())
    with open(sys.argv[1], encoding="ascii") as file:
        text = file.read()
    acts = {"step": kernel.step, "tick": kernel.tick, "tx": kernel.tx, "dump": kernel.tables, "disk": lambda: None}
    end = "end schedule"
    for event in events(text):
        acts[event]()
        if list(kernel.processes) == [0]:
            end = "end done"
            break
    kernel.tables()
    print(end)


if __name__ == "__main__":
    try:
        main()
    except NotYet as what:
        sys.exit(f"not yet: {what}")
