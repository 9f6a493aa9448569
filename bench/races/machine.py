"""A second machine of the kernel by docs/KERNEL.md, for programs of one image without devices but the console. It takes events, prints
the transcript, and writes down of each event what docs and crates/data_races say of memory and of order (history.py). The instructions are
those of bench/second.py."""
import struct

import second
from races.history import Moment
from second import INITRET, RAM, Trap, signed

REFUSED = -1
ARGUMENTS = {1: 0, 2: 6, 3: 1, 4: 1, 5: 1, 6: 0, 7: 2, 8: 1, 9: 0, 10: 1, 11: 2, 12: 1, 13: 2, 14: 1, 15: 1, 16: 2, 17: 1, 18: 1, 19: 1,
             20: 2, 21: 2, 22: 0, 23: 0, 24: 1, 26: 1, 28: 2, 29: 1, 30: 1, 31: 1, 32: 2, 33: 2, 34: 2, 35: 1, 38: 3, 39: 3, 41: 2}


class Heap:
    """Cells of eight bytes, each free (1) or taken (0)."""

    def __init__(self, low):
        self.low, self.cells = low, bytearray(b"\1" * ((RAM - low) // 8))

    def take(self, count, highest):
        """The lowest address of so many bytes of the lowest free cells in a row, or the highest; none if there are none."""
        size = (count + 7) // 8
        if not 0 < size <= len(self.cells):
            return None
        at = (self.cells.rfind if highest else self.cells.find)(b"\1" * size)
        if at < 0:
            return None
        self.cells[at : at + size] = bytes(size)
        return self.low + 8 * at

    def free(self, address, count):
        """Gives bytes back. Whether the heap takes them."""
        size, at = (count + 7) // 8, (address - self.low) // 8
        if not count or address % 8 or at < 0 or at + size > len(self.cells) or any(self.cells[at : at + size]):
            return False
        self.cells[at : at + size] = b"\1" * size
        return True


class Process:
    """A process. `rest` is what is left of its call, `called` its last one, `putters` are the parts that put its message."""

    def __init__(self, number, entry, priority, parent, name, low, size):
        self.number, self.pc, self.priority, self.parent, self.name, self.low, self.size = number, entry, priority, parent, name, low, size
        self.state, self.message, self.putters, self.rest, self.called = "suspended", None, [], None, None
        top = low + size - 4
        self.regs = [0, INITRET, top - top % 16] + [0] * 29


class Core(second.State):
    """The kernel's processes: who runs, and how they begin and die."""

    def __init__(self, image):
        place, length, entry, priority, size = struct.unpack("<5I", image[8:28])
        self.ram = bytearray(RAM)
        self.ram[place : place + length] = image[28:]
        self.heap = Heap(-(-(place + length) // 8) * 8)
        self.processes = {0: Process(0, 0, 0, 0, "prnull", 0, 8)}
        self.processes[0].state = "current"
        self.ready, self.sleepers, self.current, self.quantum, self.ticks, self.last = [], [], 0, 2, 0, 0
        self.lines, self.moments, self.moment, self.now, self.at, self.asks = [], [], None, 0, 0, False
        self.deaths, self.lives, self.blocks, self.calls = {}, [], [], {}
        self.begin(entry, priority, 0, "image1", size)
        self.make_ready(1)
        self.resched()
        self.lines.append("run 1")

    def is_over(self):
        """Whether only the null process is left."""
        return len(self.processes) == 1

    def event(self, kind, byte=0):
        """Takes an event: `step`, `tick`, `tx`, or `type` of a byte."""
        self.now += 1
        before = self.current
        if kind != "step":
            self.moment = None
            self.interrupt(kind, byte)
        elif self.current:
            self.moment = Moment(self.now, self.current)
            self.moments.append(self.moment)
            self.step()
        if self.current != before:
            self.lines.append(f"run {self.current}")

    def interrupt(self, kind, _):
        """An event that is no step; `tx` and `type` are the console's."""
        if kind != "tick":
            raise NotImplementedError(kind)
        self.tick()

    def step(self):
        """A step of a process: what is left of its call, or an instruction."""
        process, self.asks = self.processes[self.current], False
        if process.rest:
            self.at, rest, process.rest = process.pc - 4, process.rest, None
            self.calls[self.now] = process.called
            self.answer(process, rest())
        elif process.pc == INITRET:
            self.at = INITRET
            self.lines.append(f"call {process.number} exit")
            self.die(process.number)
        else:
            self.obey(process)
        if self.asks or self.current not in self.processes or process.state != "current":
            self.resched()

    def obey(self, process):
        """An instruction; if it traps the process dies."""
        self.at, before = process.pc, list(process.regs)
        try:
            self.instruction(process)
        except Trap as trap:
            process.regs, process.pc = before, self.at
            self.lines.append(f"trap {process.number} {trap.args[0]}")
            self.die(process.number)

    def place(self, address, width, cause):
        """The address of a load or a store, which is noted."""
        address = second.State.place(address, width, cause)
        self.moment.touch(cause == "store", self.current, self.at, address, width)
        return address

    def answer(self, process, value):
        """A process gets the reply of its call, if there is one."""
        if value is not None:
            process.regs[10] = value & 0xFFFFFFFF
            self.lines.append(f"ret {process.number} {signed(value)}")

    def block(self, process, state, rest):
        """The process that steps waits, with this left of its call; that is no answer."""
        process.state, process.rest = state, rest

    def make_ready(self, number):
        """A process enters the ready list after its equals."""
        process = self.processes[number]
        process.state = "ready"
        at = sum(self.processes[other].priority >= process.priority for other in self.ready)
        self.ready.insert(at, number)

    def release(self, number, value=0):
        """A process goes on; one that has nothing left to do of its call is answered."""
        process = self.processes[number]
        self.sleepers = [it for it in self.sleepers if it[1] != number]
        self.make_ready(number)
        if process.rest is None and value is not None:
            self.answer(process, value)
        if self.moment:
            self.moment.lead("wake", number)
        self.asks = True

    def resched(self):
        """The first of the ready list runs, unless the current process has a higher priority."""
        process = self.processes.get(self.current)
        runs = process is not None and process.state == "current"
        if not self.ready or runs and self.processes[self.ready[0]].priority < process.priority:
            return
        if runs:
            self.make_ready(self.current)
        self.current, self.quantum = self.ready.pop(0), 2
        self.processes[self.current].state = "current"

    def tick(self):
        """A tick: sleepers wake, and the quantum falls."""
        self.ticks += 1
        due = [number for wake, number in self.sleepers if wake == self.ticks]
        for number in due:
            self.release(number)
        if due:
            self.resched()
        self.quantum -= 1
        if self.quantum == 0:
            self.quantum = 2
            self.resched()

    def begin(self, entry, priority, parent, name, size):
        """A process is made, if there is a number and a stack for it: its number."""
        number = next((k for k in [*range(self.last + 1, 64), *range(self.last + 1)] if k not in self.processes), None)
        size = 8 * ((max(400, size) + 7) // 8)
        low = None if number is None else self.heap.take(size, True)
        if low is None:
            return None
        self.processes[number] = Process(number, entry, priority, parent, name, low, size)
        self.last = number
        self.lives.append({"number": number, "name": name, "born": self.now, "died": float("inf"), "low": low, "end": low + size})
        if self.moment:
            self.moment.lead("birth", number)
            self.moment.give(low, size)
        return number

    def die(self, number):
        """A process dies: its parent is sent its number, and the heap takes its stack back, which stores to it."""
        process, me = self.processes[number], self.moment.stepper
        self.deliver(process.parent, number, [(self.now, me), (self.now, number)])
        self.leave(number)
        del self.processes[number]
        if self.heap.free(process.low, process.size):
            self.moment.touch(True, number, self.at if number == me else process.pc, process.low, process.size)
        self.moment.dead.append(number)
        if number != me:
            self.moment.learn("death", (self.now, number))
        self.deaths[number] = self.now, number
        next(life for life in reversed(self.lives) if life["number"] == number)["died"] = self.now

    def leave(self, number):
        """A process leaves the list in which it is."""
        self.ready = [it for it in self.ready if it != number]
        self.sleepers = [it for it in self.sleepers if it[1] != number]

    def deliver(self, to, message, putters):
        """A message comes to a process, if there is one that holds none. Whether it came."""
        process = self.processes.get(to)
        if process is None or process.message is not None:
            return False
        process.message, process.putters = message, putters
        if process.state in ("receive", "timed"):
            self.release(to)
        return True
