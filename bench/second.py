"""A second machine for bench/debugger.py: RV32I by the manual, and a few calls of the kernel by docs/KERNEL.md and docs/CALLS.md. It keeps the
state after each event of a run, so whoever compares with it looks up what was, and goes nowhere."""
import copy

RAM = 1 << 20
INITRET = 0xFFFFFFFC
STACK = 4096
SYSERR = 0xFFFFFFFF
GETPID, YIELD, EXIT, SEMCREATE, WAIT, SIGNAL, SEND, RECEIVE, RECVCLR, SLEEPMS = 1, 6, 9, 14, 18, 19, 21, 22, 23, 26


class Trap(Exception):
    """An instruction that ends its process; the cause is the first argument."""


def signed(value, bits=32):
    """The number that so many bits are in two's complement."""
    value &= (1 << bits) - 1
    return value - (1 << bits) if value >> (bits - 1) else value


class Process:
    """A process: its registers, and what it does."""

    def __init__(self, number, entry):
        self.pc, self.state, self.message, self.receives = entry, "ready", None, False
        top = RAM - STACK * (number - 1) - 4
        self.regs = [0, INITRET, top - top % 16] + [0] * 29


class State:
    """The state between two events."""

    def __init__(self, ram, entries):
        self.ram = ram
        self.processes = {number: Process(number, entry) for number, entry in enumerate(entries, 1)}
        self.ready, self.current, self.quantum, self.ticks = list(self.processes), 0, 2, 0
        self.semaphores, self.sleepers, self.asks = {}, [], False
        self.null_message = None
        self.resched()

    def actor(self):
        """The process whose instruction the next step carries out, 0 if none does."""
        return 0 if self.current == 0 or self.processes[self.current].receives else self.current

    def shown(self):
        """The process that a debugger looks at first."""
        return self.current or min(self.processes, default=0)

    def resched(self):
        """The first of the ready list runs, unless nobody else is ready."""
        runs = self.current in self.processes and self.processes[self.current].state == "current"
        if runs and not self.ready:
            return
        if runs:
            self.release(self.current)
        self.current, self.quantum = (self.ready.pop(0) if self.ready else 0), 2
        if self.current:
            self.processes[self.current].state = "current"

    def release(self, number):
        """A process becomes ready, behind those that are."""
        self.processes[number].state = "ready"
        self.ready.append(number)

    def tick(self):
        """A tick: sleepers wake, and the quantum falls."""
        self.ticks += 1
        due = [number for wake, number in self.sleepers if wake <= self.ticks]
        self.sleepers = [it for it in self.sleepers if it[0] > self.ticks]
        for number in due:
            self.processes[number].regs[10] = 0
            self.release(number)
        if due:
            self.resched()
        self.quantum -= 1
        if self.quantum == 0:
            self.quantum = 2
            self.resched()

    def step(self):
        """A step of the current process. The answer is the cause of its trap, if it is one."""
        if self.current == 0:
            return None
        process, self.asks, cause = self.processes[self.current], False, None
        if process.receives:
            process.regs[10], process.message, process.receives = process.message, None, False
        else:
            before = copy.copy(process.regs), process.pc
            try:
                self.instruction(process)
            except Trap as trap:
                process.regs, process.pc = before
                cause = trap.args[0]
                self.die(self.current)
        if self.asks or self.current not in self.processes or process.state != "current":
            self.resched()
        return cause

    def die(self, number):
        """A process ends; its number is sent to the null process, which made it."""
        del self.processes[number]
        if self.null_message is None:
            self.null_message = number

    def instruction(self, process):
        """An instruction, as the manual has it."""
        if process.pc == INITRET:
            return self.die(self.current)
        if process.pc % 4 or process.pc + 4 > RAM:
            raise Trap("fetch")
        word = int.from_bytes(self.ram[process.pc : process.pc + 4], "little")
        opcode, rd, funct, r1, r2, high = word & 127, word >> 7 & 31, word >> 12 & 7, word >> 15 & 31, word >> 20 & 31, word >> 25
        x, y, after, value = process.regs[r1], process.regs[r2], process.pc + 4, None
        imm_i = signed(word >> 20, 12)
        if opcode == 0x37:
            value = word & 0xFFFFF000
        elif opcode == 0x17:
            value = process.pc + (word & 0xFFFFF000)
        elif opcode == 0x6F:
            target = process.pc + signed((word >> 31 << 20) | (word >> 12 & 255) << 12 | (word >> 20 & 1) << 11 | (word >> 21 & 1023) << 1, 21)
            value, after = after, self.target(target)
        elif opcode == 0x67 and funct == 0:
            value, after = after, self.target(x + imm_i & ~1)
        elif opcode == 0x63 and funct not in (2, 3):
            less, other = (x < y, False) if funct >= 6 else (signed(x) < signed(y), False)
            taken = {0: x == y, 1: x != y}.get(funct, less != bool(funct & 1))
            if taken:
                after = self.target(process.pc + signed((word >> 31 << 12) | (word >> 7 & 1) << 11 | (word >> 25 & 63) << 5 | (word >> 8 & 15) << 1, 13))
            rd = 0
        elif opcode == 0x03 and funct in (0, 1, 2, 4, 5):
            width = 1 << (funct & 3)
            at = self.place(x + imm_i, width, "load")
            value = int.from_bytes(self.ram[at : at + width], "little")
            value = signed(value, 8 * width) if funct < 4 else value
        elif opcode == 0x23 and funct in (0, 1, 2):
            width = 1 << funct
            at = self.place(x + signed(high << 5 | rd, 12), width, "store")
            self.ram[at : at + width] = (y & (1 << 8 * width) - 1).to_bytes(width, "little")
            rd = 0
        elif opcode == 0x13 and (funct not in (1, 5) or high == 0 or (high == 32 and funct == 5)):
            value = self.computed(funct, x, imm_i & 0xFFFFFFFF, funct == 5 and high == 32, r2)
        elif opcode == 0x33 and (high == 0 or (high == 32 and funct in (0, 5))):
            value = x - y if funct == 0 and high else self.computed(funct, x, y, bool(high), y & 31)
        elif opcode == 0x0F and funct == 0:
            rd = 0
        elif word == 0x73:
            process.pc = after
            return self.call(process, process.regs[17], process.regs[10:16])
        elif word == 0x100073:
            raise Trap("break")
        else:
            raise Trap("illegal")
        process.pc = after & 0xFFFFFFFF
        if rd and value is not None:
            process.regs[rd] = value & 0xFFFFFFFF
        return None

    @staticmethod
    def computed(funct, x, y, is_arithmetic, shift):
        """The value of an instruction on registers or on a register and a constant, but for `sub`."""
        return {0: x + y, 1: x << shift, 2: int(signed(x) < signed(y)), 3: int(x < y), 4: x ^ y,
                5: signed(x) >> shift if is_arithmetic else x >> shift, 6: x | y, 7: x & y}[funct]

    @staticmethod
    def target(address):
        """The target of a jump."""
        if address % 4:
            raise Trap("target")
        return address & 0xFFFFFFFF

    @staticmethod
    def place(address, width, cause):
        """The address of a load or a store."""
        address &= 0xFFFFFFFF
        if address % width or address + width > RAM:
            raise Trap(cause)
        return address

    def call(self, process, number, args):
        """A call of the kernel; one that isn't here is refused."""
        answer, me = 0, self.current
        if number == GETPID:
            answer = me
        elif number == YIELD:
            self.asks = True
        elif number == EXIT:
            return self.die(me)
        elif number == SEMCREATE:
            answer = self.made(args[0])
        elif number in (WAIT, SIGNAL):
            answer = self.on_semaphore(process, number, args[0])
        elif number == SEND:
            answer = self.sent(args[0], args[1])
        elif number == RECVCLR or (number == RECEIVE and process.message is not None):
            answer, process.message = process.message or 0, None
        elif number == RECEIVE:
            process.state, answer = "receive", None
        elif number == SLEEPMS and signed(args[0]) > 0:
            wake = self.ticks + args[0]
            place = sum(other <= wake for other, _ in self.sleepers)
            self.sleepers.insert(place, (wake, me))
            process.state, answer = "sleep", None
        elif number == SLEEPMS and args[0] == 0:
            self.asks = True
        else:
            answer = SYSERR
        if answer is not None:
            process.regs[10] = answer
        return None

    def made(self, count):
        """A semaphore is made: its number."""
        if signed(count) < 0 or len(self.semaphores) == 124:
            return SYSERR
        number = 4 + len(self.semaphores)
        self.semaphores[number] = [count, []]
        return number

    def on_semaphore(self, process, number, name):
        """`wait` and `signal`: the answer, none if the caller waits."""
        if name not in self.semaphores:
            return SYSERR
        semaphore = self.semaphores[name]
        if number == WAIT and semaphore[0] == 0:
            semaphore[1].append(self.current)
            process.state = "wait"
            return None
        if number == WAIT:
            semaphore[0] -= 1
        elif semaphore[1]:
            first = semaphore[1].pop(0)
            self.processes[first].regs[10] = 0
            self.release(first)
            self.asks = True
        else:
            semaphore[0] += 1
        return 0

    def sent(self, to, message):
        """`send`: its answer. The null process holds a message too, and never takes it."""
        if to == 0 and self.null_message is None:
            self.null_message = message
            return 0
        other = self.processes.get(to)
        if other is None or other.message is not None:
            return SYSERR
        other.message = message
        if other.state == "receive":
            other.receives = True
            self.release(to)
            self.asks = True
        return 0


class Run:
    """The states of a run after each of its events, and the traps of those that are steps."""

    def __init__(self, ram, entries, events):
        self.states, self.traps, self.events = [State(bytearray(ram), entries)], [], []
        for event in events:
            if not self.states[-1].processes:
                break
            state = copy.deepcopy(self.states[-1])
            self.events.append(event)
            self.traps.append(state.step() if event == "step" else state.tick())
            self.states.append(state)

    def actor(self, place):
        """The process whose instruction the event after so many carries out, 0 if none does."""
        return self.states[place].actor() if place < len(self.events) and self.events[place] == "step" else 0
