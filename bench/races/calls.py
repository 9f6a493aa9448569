"""The calls of the second machine (machine.py), by docs/CALLS.md: all of 1 to 35 but `sleep` and `clktime`. Those of the console are in
console.py."""
from races.machine import ARGUMENTS, REFUSED, Core
from second import RAM, signed

NAMES = {1: "getpid", 2: "create", 3: "resume", 4: "suspend", 5: "kill", 6: "yield", 7: "chprio", 8: "getprio", 9: "exit", 10: "getmem",
         11: "freemem", 12: "getstk", 13: "freestk", 14: "semcreate", 15: "semdelete", 16: "semreset", 17: "semcount", 18: "wait", 19:
         "signal", 20: "signaln", 21: "send", 22: "receive", 23: "recvclr", 24: "recvtime", 26: "sleepms", 28: "mkbufpool", 29: "getbuf",
         30: "freebuf", 31: "ptcreate", 32: "ptdelete", 33: "ptreset", 34: "ptsend", 35: "ptrecv", 38: "read", 39: "write", 41: "putc"}
LOOKS_UP = (3, 4, 5, 7, 8, 21)  # what tells by a refusal that a number is free


class Semaphore:
    """A semaphore: the parts that gave its tokens, who waits, and whether the tokens order processes."""

    def __init__(self, tokens, orders, named):
        self.tokens, self.orders, self.named, self.waiters = tokens, orders, named, []


class Pool:
    """A buffer pool: its free buffers, the one that was freed last first, and who freed or made each."""

    def __init__(self, base, size, count, semaphore, maker):
        self.base, self.size, self.semaphore, self.made = base, size, semaphore, maker[0]
        self.buffers = [base + 4 + k * (size + 4) for k in range(count)]
        self.free, self.givers = list(self.buffers), dict.fromkeys(self.buffers, maker)


class Port:
    """A port: its room and its messages, each with who put it."""

    def __init__(self, room, send, receive):
        self.room, self.send, self.receive, self.messages = room, send, receive, []


class Kernel(Core):
    """The machine with its calls."""

    def __init__(self, image):
        self.semaphores, self.last_semaphore = {number: None for number in range(4)}, 3
        self.pools, self.ports, self.sequence, self.next_port = [], {}, [0] * 30, 0
        super().__init__(image)

    @property
    def here(self):
        """The part that steps."""
        return self.now, self.current

    def call(self, process, number, args):
        """A call of the process that steps."""
        count, process.called = ARGUMENTS[number], NAMES[number]
        self.calls[self.now] = process.called
        self.lines.append(" ".join(["call", str(process.number), NAMES[number], *(str(signed(a)) for a in args[:count])]))
        if number in LOOKS_UP and args[0] not in self.processes and args[0] in self.deaths:
            self.moment.learn("absence", self.deaths[args[0]])
        self.answer(process, getattr(self, "call_" + NAMES[number])(process, *args[:count]))

    def call_getpid(self, process):
        return process.number

    def call_create(self, process, entry, size, priority, name, x, y):
        priority = signed(priority, 16)
        if priority < 1 or name + 16 > RAM:
            return REFUSED
        text = bytes(self.ram[name : name + 15]).split(b"\0")[0]
        here = len(self.moment.deeds)
        number = self.begin(entry, priority, process.number, text.decode("latin-1"), size)
        if number is None:
            return REFUSED
        self.processes[number].regs[10:12] = x, y
        self.moment.deeds.insert(here, (False, process.number, self.at, name, min(15, len(text) + 1)))
        return number

    def call_resume(self, _, p):
        if p not in self.processes or self.processes[p].state != "suspended":
            return REFUSED
        self.release(p, None)
        return self.processes[p].priority

    def call_suspend(self, process, p):
        other = self.processes.get(p)
        if p and other and other.state == "ready":
            self.leave(p)
            other.state = "suspended"
            return other.priority
        if p != process.number:
            return REFUSED
        return self.block(process, "suspended", lambda: process.priority)

    def call_kill(self, process, p):
        if p == 0 or p not in self.processes:
            return REFUSED
        self.die(p)
        return None if p == process.number else 0

    def call_yield(self, _):
        self.asks = True
        return 0

    def call_chprio(self, _, p, priority):
        if p not in self.processes:
            return REFUSED
        other = self.processes[p]
        before, other.priority = other.priority, signed(priority, 16)
        if other.state == "ready":
            self.leave(p)
            self.make_ready(p)
        self.asks = other.state in ("ready", "current")
        return before

    def call_getprio(self, _, p):
        return self.processes[p].priority if p in self.processes else REFUSED

    def call_exit(self, process):
        self.die(process.number)

    def call_getmem(self, process, count):
        address = self.granted(process, "getmem", count)
        return REFUSED if address is None else address

    def call_getstk(self, process, count):
        address = self.granted(process, "getstk", count)
        return REFUSED if address is None else address + (count + 7) // 8 * 8 - 4

    def granted(self, process, call, count):
        """The lowest address of the memory that a process gets, or none."""
        address, size = self.heap.take(count, call == "getstk"), (count + 7) // 8 * 8
        if address is not None:
            self.moment.give(address, size)
            self.blocks.append({"low": address, "end": address + size, "process": process.number, "event": self.now, "freed": float("inf"),
                                "call": call})
        return address

    def call_freestk(self, process, top, count):
        low = top + 4 - (count + 7) // 8 * 8
        return REFUSED if low < 0 else self.call_freemem(process, low, count)

    def call_freemem(self, process, address, count):
        if not self.heap.free(address, count):
            return REFUSED
        size = (count + 7) // 8 * 8
        self.moment.touch(True, process.number, self.at, address, size)
        for block in self.blocks:
            if block["freed"] > self.now and block["low"] < address + size and address < block["end"]:
                block["freed"] = self.now
        return 0

    def new_semaphore(self, count, orders, named):
        """The number of a new semaphore, whose tokens are given now."""
        number = next(k for k in [*range(self.last_semaphore + 1, 128), *range(self.last_semaphore + 1)] if k not in self.semaphores)
        self.semaphores[number] = Semaphore([self.here] * count, orders, named)
        self.last_semaphore = number
        return number

    def named(self, number):
        """The semaphore of a number, if processes may name it."""
        semaphore = self.semaphores.get(number)
        return semaphore if semaphore and semaphore.named else None

    def awaited(self, process, number, rest, then):
        """A process takes a token and goes on, or waits for one."""
        semaphore = self.semaphores[number]
        if not semaphore.tokens:
            semaphore.waiters.append(process.number)
            return self.block(process, "wait", rest)
        giver = semaphore.tokens.pop(0)
        if semaphore.orders:
            self.moment.learn("token", giver)
        return then()

    def signalled(self, number):
        """A signal: the first waiter is released, or there is a token more."""
        semaphore = self.semaphores[number]
        if semaphore.waiters:
            self.release(semaphore.waiters.pop(0))
        else:
            semaphore.tokens.append(self.here)

    def emptied(self, number, value=0):
        """All who wait are released."""
        semaphore = self.semaphores[number]
        while semaphore.waiters:
            self.release(semaphore.waiters.pop(0), value)

    def leave(self, number):
        super().leave(number)
        for semaphore in self.semaphores.values():
            if semaphore and number in semaphore.waiters:
                semaphore.waiters.remove(number)

    def call_semcreate(self, _, count):
        return REFUSED if signed(count) < 0 else self.new_semaphore(count, True, True)

    def call_semdelete(self, _, number):
        if not self.named(number):
            return REFUSED
        self.emptied(number, REFUSED)
        del self.semaphores[number]
        return 0

    def call_semreset(self, _, number, count):
        if not self.named(number) or signed(count) < 0:
            return REFUSED
        self.emptied(number)
        self.semaphores[number].tokens = [self.here] * count
        return 0

    def call_semcount(self, _, number):
        semaphore = self.named(number)
        return len(semaphore.tokens) - len(semaphore.waiters) if semaphore else REFUSED

    def call_wait(self, process, number):
        return self.awaited(process, number, None, lambda: 0) if self.named(number) else REFUSED

    def call_signal(self, process, number):
        return self.call_signaln(process, number, 1)

    def call_signaln(self, _, number, count):
        if not self.named(number) or signed(count) < 0:
            return REFUSED
        for _ in range(count):
            self.signalled(number)
        return 0

    def take_message(self, process, otherwise):
        """The message of a process is taken; if it holds none it goes another way."""
        if process.message is None:
            return otherwise()
        message, process.message = process.message, None
        for part in process.putters:
            self.moment.learn("message", part)
        return message

    def call_send(self, _, p, message):
        return 0 if self.deliver(p, message, [self.here]) else REFUSED

    def call_receive(self, process):
        return self.take_message(process, lambda: self.block(process, "receive", lambda: self.take_message(process, lambda: -3)))

    def call_recvclr(self, process):
        return self.take_message(process, lambda: 0)

    def call_recvtime(self, process, ticks):
        if signed(ticks) < 0:
            return REFUSED
        return self.take_message(process, lambda: self.sleep(process, max(1, ticks), "timed", lambda: self.take_message(process, lambda: -3)))

    def sleep(self, process, ticks, state, rest):
        """A process waits so many ticks at most."""
        wake = self.ticks + ticks
        self.sleepers.insert(sum(other <= wake for other, _ in self.sleepers), (wake, process.number))
        return self.block(process, state, rest)

    def call_sleepms(self, process, ticks):
        if signed(ticks) < 0:
            return REFUSED
        return self.sleep(process, ticks, "sleep", None) if ticks else self.call_yield(process)

    def call_mkbufpool(self, _, size, count):
        if not (8 <= size <= 8192 and 1 <= count <= 2048 and len(self.pools) < 20):
            return REFUSED
        size = (size + 3) // 4 * 4
        base = self.heap.take(count * (size + 4), False)
        if base is None:
            return REFUSED
        self.pools.append(Pool(base, size, count, self.new_semaphore(count, False, False), self.here))
        self.moment.give(base, count * (size + 4))
        return len(self.pools) - 1

    def call_getbuf(self, process, i):
        if i >= len(self.pools):
            return REFUSED
        take = lambda: self.take_buffer(process, i)
        return self.awaited(process, self.pools[i].semaphore, take, take)

    def take_buffer(self, process, i):
        """A process takes the first free buffer; the pool's number is stored in front of it."""
        pool = self.pools[i]
        address = pool.free.pop(0)
        self.moment.learn("buffer", pool.givers[address])
        self.moment.give(address - 4, pool.size + 4)
        self.moment.touch(True, process.number, self.at, address - 4, 4)
        self.ram[address - 4 : address] = i.to_bytes(4, "little")
        return address

    def call_freebuf(self, process, address):
        return 0 if self.freed(process, address) else REFUSED

    def freed(self, process, address):
        """A buffer is given back, if it is one that is held. Whether it is."""
        pool = next((it for it in self.pools if address in it.buffers and address not in it.free), None)
        if pool is None:
            return False
        self.moment.touch(True, process.number, self.at, address, pool.size)
        pool.free.insert(0, address)
        pool.givers[address] = self.here
        self.signalled(pool.semaphore)
        return True

    def call_ptcreate(self, _, room):
        if signed(room) < 0:
            return REFUSED
        q = next(k for k in [*range(self.next_port, 30), *range(self.next_port)] if k not in self.ports)
        send = self.new_semaphore(room, True, False)
        self.ports[q] = Port(room, send, self.new_semaphore(0, False, False))
        self.sequence[q] += 1
        self.next_port = (q + 1) % 30
        return q

    def cleared(self, process, q, how):
        """The messages of a port are taken, and given back as buffers if that is asked; all who wait go on, the senders first."""
        port = self.ports[q]
        for message, part in port.messages:
            self.moment.learn("port", part)
            if how == 1:
                self.freed(process, message)
        port.messages = []
        self.emptied(port.send)
        self.emptied(port.receive)
        self.sequence[q] += 1

    def call_ptdelete(self, process, q, how):
        if q not in self.ports or how > 1:
            return REFUSED
        self.cleared(process, q, how)
        port = self.ports.pop(q)
        del self.semaphores[port.send], self.semaphores[port.receive]
        self.next_port = q
        return 0

    def call_ptreset(self, process, q, how):
        if q not in self.ports or how > 1:
            return REFUSED
        self.cleared(process, q, how)
        port = self.ports[q]
        self.semaphores[port.send].tokens, self.semaphores[port.receive].tokens = [self.here] * port.room, []
        return 0

    def call_ptsend(self, process, q, message):
        if q not in self.ports:
            return REFUSED
        ticket = self.sequence[q]
        put = lambda: self.put(q, ticket, message)
        return self.awaited(process, self.ports[q].send, put, put)

    def put(self, q, ticket, message):
        """A message is put, unless the port changed since the call began."""
        if q not in self.ports or self.sequence[q] != ticket:
            return REFUSED
        self.ports[q].messages.append((message, self.here))
        self.signalled(self.ports[q].receive)
        return 0

    def call_ptrecv(self, process, q):
        if q not in self.ports:
            return REFUSED
        ticket = self.sequence[q]
        get = lambda: self.get(q, ticket)
        return self.awaited(process, self.ports[q].receive, get, get)

    def get(self, q, ticket):
        """The first message of a port is taken, unless the port changed since the call began."""
        if q not in self.ports or self.sequence[q] != ticket:
            return REFUSED
        message, part = self.ports[q].messages.pop(0)
        self.moment.learn("port", part)
        self.signalled(self.ports[q].send)
        return message
