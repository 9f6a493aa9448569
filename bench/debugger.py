#!/usr/bin/env python3
"""Compares what `xinu_run gdb` answers with a second machine, over random runs, forward and backward.

usage: bench/debugger.py [--runs N] [--packets N] [--seed N]

A run has one to three programs of random instructions and calls, over 4 KiB each and a page of memory that all share, and a schedule of steps
and ticks. In each session packets are drawn that set points and watches, step and continue, forward and backward, by any thread. After each,
the stop, the registers of all processes and the shared memory are compared with those of the second machine (second.py), which keeps every
state of the run, so a stop there is looked up by what a stop is. A difference is told with the packets that lead to it. The last line counts;
the status is 1 if something differs."""
import argparse
import os
import random
import subprocess
import sys
import tempfile

sys.dont_write_bytecode = True
from program import built
from second import EXIT, GETPID, RECEIVE, RECVCLR, SEMCREATE, SEND, SIGNAL, SLEEPMS, WAIT, YIELD, Run

PAGE, SHARED, BYTES = 0x1000, 0x3000, 64
WORDS = 40  # instructions of a program
PIECE = 512  # bytes of memory that are asked for at once
SIGNALS = {"fetch": 11, "illegal": 4, "break": 5, "target": 10, "load": 11, "store": 11}


def i_type(opcode, funct, rd, r1, value):
    """The word of an instruction with a constant of 12 bits."""
    return (value & 0xFFF) << 20 | r1 << 15 | funct << 12 | rd << 7 | opcode


def branch(funct, r1, r2, offset):
    """The word of a branch."""
    return (offset >> 12 & 1) << 31 | (offset >> 5 & 63) << 25 | r2 << 20 | r1 << 15 | funct << 12 | (offset >> 1 & 15) << 8 | (offset >> 11 & 1) << 7 | 0x63


def jump(rd, offset):
    """The word of `jal`."""
    return (offset >> 20 & 1) << 31 | (offset >> 1 & 0x3FF) << 21 | (offset >> 11 & 1) << 20 | (offset >> 12 & 255) << 12 | rd << 7 | 0x6F


def a_call(draw):
    """The words of a call: its arguments, its number, `ecall`."""
    number = draw.choice([GETPID, YIELD, SEMCREATE, WAIT, WAIT, SIGNAL, SIGNAL, SEND, SEND, RECEIVE, RECVCLR, SLEEPMS, SLEEPMS] + [EXIT] * (draw.random() < 0.1))
    first = {SEMCREATE: draw.randint(-1, 2), WAIT: draw.randint(3, 6), SIGNAL: draw.randint(3, 6), SEND: draw.randint(1, 4), SLEEPMS: draw.randint(-1, 4)}.get(number, 0)
    return [i_type(0x13, 0, 10, 0, first), i_type(0x13, 0, 11, 0, draw.randint(-9, 9)), i_type(0x13, 0, 17, 0, number), 0x73]


def an_instruction(draw, place):
    """The word of an instruction at a place of a program, of its length in words."""
    one, two, three = draw.choice([5, 6, 7, 8, 9, 28]), draw.choice([0, 5, 6, 7, 8, 9, 28]), draw.choice([5, 6, 7, 8, 9])
    drawn = draw.random()
    if drawn < 0.3:
        funct = draw.choice([0, 0, 2, 3, 4, 6, 7])
        return i_type(0x13, funct, one, two, draw.randint(-2048, 2047))
    if drawn < 0.36:
        return i_type(0x13, draw.choice([1, 5]), one, two, draw.randint(0, 31))
    if drawn < 0.5:
        funct, high = draw.choice([(0, 0), (0, 32), (1, 0), (2, 0), (3, 0), (4, 0), (5, 0), (5, 32), (6, 0), (7, 0)])
        return high << 25 | three << 20 | two << 15 | funct << 12 | one << 7 | 0x33
    if drawn < 0.58:
        return draw.getrandbits(20) << 12 | one << 7 | draw.choice([0x37, 0x17])
    width = draw.choice([0, 1, 2])
    offset = draw.randrange(0, BYTES, 1 << width) + (draw.random() < 0.01)
    if drawn < 0.7:  # s1 is the shared page's address
        return i_type(0x03, width | draw.choice([0, 4]) * (width < 2), one, 18, offset)
    if drawn < 0.86:
        return (offset >> 5) << 25 | three << 20 | 18 << 15 | width << 12 | (offset & 31) << 7 | 0x23
    target = 4 * (draw.randint(place + 1, WORDS) - place)
    if drawn < 0.95:
        return branch(draw.choice([0, 1, 4, 5, 6, 7]), two, three, target)
    return jump(draw.choice([0, 1]), target) if drawn < 0.995 else draw.choice([0x100073, 0, i_type(0x67, 0, 1, 18, 2)])


def a_program(draw):
    """The words of a program, which goes round for ever unless it is trapped or exits."""
    words = [SHARED | 18 << 7 | 0x37]
    while len(words) < WORDS:
        words += a_call(draw) if draw.random() < 0.15 and len(words) + 4 <= WORDS else [an_instruction(draw, len(words))]
    return [*words, jump(0, -4 * (len(words) - 1))]


def a_schedule(draw):
    """Steps and ticks."""
    events = []
    while len(events) < 300:
        events += ["step"] * draw.choice([1, 2, 3, 5, 8, 13, 40]) + ["tick"] * draw.choice([0, 1, 1, 2])
    return events


class Session:
    """A session with `xinu_run gdb`."""

    def __init__(self, folder, programs, events):
        for number, words in enumerate(programs):
            with open(os.path.join(folder, f"{number}.s"), "w", encoding="utf-8") as file:
                file.write(f"        .place {PAGE * number}\n" + "".join(f"        .word {word}\n" for word in words))
            subprocess.run([built("xinu_run"), "asm", f"{number}.s", "--out", str(number)], cwd=folder, check=True)
        with open(os.path.join(folder, "schedule"), "w", encoding="utf-8") as file:
            file.writelines(f"{event} 1\n" for event in events)
        words = [built("xinu_run"), "gdb", "--schedule", "schedule", *map(str, range(len(programs)))]
        self.served = subprocess.Popen(words, cwd=folder, stdin=subprocess.PIPE, stdout=subprocess.PIPE)
        self.ask("QStartNoAckMode")

    def ask(self, text):
        """Sends a packet; the answer is what the answering packet says."""
        self.served.stdin.write(f"${text}#{sum(text.encode()) & 255:02x}".encode())
        self.served.stdin.flush()
        said = b""
        while not said.endswith(b"#"):
            said += self.served.stdout.read(1)
        self.served.stdout.read(2)
        return said[said.index(b"$") + 1 : -1].decode()

    def registers(self, process):
        """The registers and the pc of a process."""
        self.ask(f"Hg{process + 1:x}")
        text = bytes.fromhex(self.ask("g"))
        return [int.from_bytes(text[at : at + 4], "little") for at in range(0, len(text), 4)]

    def end(self):
        """Ends the session."""
        self.ask("D")
        self.served.stdin.close()
        self.served.wait()


class Second:
    """What a debugger is to be shown of a run."""

    def __init__(self, run):
        self.run, self.place, self.points, self.watches, self.told = run, 0, set(), [], None
        self.look = self.go = self.state().shown()

    def state(self, place=None):
        """The state after so many events, or where the run stands."""
        return self.run.states[self.place if place is None else place]

    def changed(self, place):
        """The address of the first watched bytes that the event before a place changed."""
        before, after = self.state(place - 1).ram, self.state(place).ram
        return next((at for at, count in self.watches if before[at : at + count] != after[at : at + count]), None)

    def is_at_point(self, place, process):
        """Whether a process is at a point."""
        return process in self.state(place).processes and self.state(place).processes[process].pc in self.points

    def forward(self, kind, process):
        """Goes on: `one` instruction of a process, of `any`, to a `point`, or to a point of this process `alone`."""
        while self.place < len(self.run.events):
            acts = self.run.actor(self.place)
            mine = acts == process or kind != "alone"
            if acts and mine and kind in ("point", "alone") and self.is_at_point(self.place, acts):
                return self.stand("", acts)
            if acts and mine and self.run.traps[self.place] and self.told != self.place:
                self.told = self.place
                return self.stand(self.run.traps[self.place], acts)
            self.place += 1
            teller = process if kind == "alone" else acts or self.state().shown()
            if self.changed(self.place) is not None:
                return self.stand(self.changed(self.place), teller)
            is_there = {"one": acts == process, "any": True, "point": False}.get(kind, acts == process and (self.is_at_point(self.place, acts) or acts not in self.state().processes))
            if acts and is_there:
                return self.stand("", acts)
        return self.stand("end", self.state().shown())

    def back(self, kind, process):
        """Goes back: to ahead of `one` instruction of a process, of `any`, or to a `point` or ahead of a change."""
        self.told = None
        for place in reversed(range(self.place)):
            acts = self.run.actor(place)
            is_there = {"one": acts == process, "any": True, "point": self.is_at_point(place, acts)}[kind]
            at = self.changed(place + 1)
            if at is not None or (acts and is_there):
                teller = acts or self.state(place).shown()
                self.place = place
                return self.stand("" if at is None else at, teller)
        self.place = 0
        return self.stand("begin", self.state().shown())

    def stand(self, why, process):
        """The text of a stop: a signal, why, and the thread."""
        self.look = self.go = process
        told = f"watch:{why:08x};" if isinstance(why, int) else f"replaylog:{why};" if why in ("begin", "end") else ""
        return f"T{SIGNALS.get(why, 5):02x}{told}thread:{process + 1:02x};"


def one_of(process):
    """The goal of a step of a process; the null process makes none."""
    return ("one", process) if process else ("any", 0)


def a_packet(draw, second, programs):
    """A packet, and what the second machine does at it, which answers what is to be answered."""
    drawn, living = draw.random(), sorted(second.state().processes) or [0]
    process = draw.choice(living)
    at = PAGE * draw.randrange(len(programs)) + 4 * draw.randrange(WORDS + 1)
    if drawn < 0.12:
        return f"Z0,{at:x},4", lambda: second.points.add(at) or "OK"
    if drawn < 0.2:
        return f"z0,{at:x},4", lambda: second.points.discard(at) or "OK"
    if drawn < 0.32:
        watch = SHARED + draw.randrange(BYTES), draw.choice([1, 2, 4, 8])
        kept = [it for it in second.watches if it != watch]
        is_set = drawn < 0.26
        return f"{'Z' if is_set else 'z'}2,{watch[0]:x},{watch[1]:x}", lambda: setattr(second, "watches", kept + [watch] * is_set) or "OK"
    moves = [("s", lambda: second.forward(*one_of(second.go))), ("c", lambda: second.forward("point", 0)), ("bs", lambda: second.back(*one_of(second.go))),
             ("bc", lambda: second.back("point", 0)), (f"vCont;s:{process + 1:x}", lambda: second.forward(*one_of(process))),
             (f"vCont;c:{process + 1:x}", lambda: second.forward("alone", process))]
    if drawn < 0.38:
        return f"Hc{process + 1:x}", lambda: setattr(second, "go", process) or "OK"
    return draw.choice(moves)


def differences(session, second):
    """What differs of the registers and of the shared memory."""
    for number, process in second.state().processes.items():
        if session.registers(number) != [*process.regs, process.pc]:
            yield f"registers of process {number}"
    if bytes.fromhex(session.ask(f"m{SHARED:x},{BYTES + 8:x}")) != second.state().ram[SHARED : SHARED + BYTES + 8]:
        yield "memory"


def pages_differ(session, second, end):
    """Whether RAM differs up to an address."""
    pieces = (session.ask(f"m{at:x},{PIECE:x}") for at in range(0, end, PIECE))
    return bytes.fromhex("".join(pieces)) != second.state().ram[:end]


def play(draw, folder, packets):
    """Plays a session over a random run: how many packets were compared, and the first difference, if there is one."""
    programs = [a_program(draw) for _ in range(draw.randint(1, 3))]
    ram = bytearray(1 << 20)
    for number, words in enumerate(programs):
        for place, word in enumerate(words):
            ram[PAGE * number + 4 * place : PAGE * number + 4 * place + 4] = word.to_bytes(4, "little")
    run = Run(ram, [PAGE * number for number in range(len(programs))], a_schedule(draw))
    session, second, sent = Session(folder, programs, run.events), Second(run), []
    for _ in range(packets):
        packet, moved = a_packet(draw, second, programs)
        sent.append(packet)
        wanted, said = moved(), session.ask(packet)
        found = [f"{said}, not {wanted}"] if said != wanted else list(differences(session, second))
        session.ask(f"Hg{second.look + 1:x}")
        if found:
            return len(sent), f"after {' '.join(sent)}: {'; '.join(found)}"
    is_other = pages_differ(session, second, SHARED + PAGE)
    session.end()
    return len(sent), "at the end: RAM" if is_other else None


def main():
    words = argparse.ArgumentParser(usage=__doc__.split("usage: ")[1].split("\n\n")[0])
    words.add_argument("--runs", type=int, default=100)
    words.add_argument("--packets", type=int, default=60)
    words.add_argument("--seed", type=int, default=1)
    words = words.parse_args()
    count = 0
    for number in range(words.runs):
        with tempfile.TemporaryDirectory() as folder:
            played, found = play(random.Random(f"{words.seed} {number}"), folder, words.packets)
        count += played
        if found:
            sys.exit(f"run {number} of seed {words.seed}, {found}")
    print(f"{count} packets over {words.runs} runs: no difference")


if __name__ == "__main__":
    main()
