"""Small programs for the second detector, and schedules: each is made by its number alone. Two or three processes beside the first one use shared
words, semaphores with counts 0 to 2, messages and each other's stacks, and now and then a pool, a port, a block of the heap, the console or the
raw disk; they make, resume, suspend and kill each other. Nobody cares whether that makes sense."""
import random

WORDS = 8  # shared words
BLOCK, STACK = 4 * WORDS, 4 * WORDS + 4  # where the addresses of the block and of a word of the first stack are kept
TEXTS = '''shared: .zero {size}
block:  .zero 512
name:   .ascii "a\\0"
        .zero 2
longer: .ascii "worker_of_many\\0"
        .zero 1'''


class Maker:
    """Makes the text of one program."""

    def __init__(self, number):
        self.rng = random.Random(f"program {number}")
        self.workers = self.rng.choice((2, 2, 3))
        self.semaphores = [4 + k for k in range(self.rng.randint(1, 3))]
        self.has_pool, self.has_port, self.has_block, self.has_console, self.has_disk = (
            self.rng.random() < chance for chance in (0.6, 0.6, 0.5, 0.4, 0.2))
        self.labels, self.lines = 0, []
        # what there is to do, and how often it is done
        self.deeds = [(self.load, 8), (self.store, 6), (self.add, 6), (self.wait, 4), (self.signal, 7), (self.locked, 6), (self.send, 5),
                      (self.receive, 3), (self.rest, 2), (self.suspend, 1), (self.resume, 5), (self.look, 2), (self.kill, 1), (self.renew, 1),
                      (self.child, 1), (self.first_stack, 2), (self.own_stack, 2), (self.narrow, 3), (self.hand_over, 12),
                      (self.take_over, 14)]
        self.deeds += [(self.buffer, 8), (self.borrowed, 12)] * self.has_pool + [(self.port, 12)] * self.has_port
        self.deeds += [(self.block, 8), (self.stray, 2)] * self.has_block
        self.deeds += [(self.write, 8), (self.read, 4), (self.newline, 3)] * self.has_console
        self.deeds += [(self.disk, 8), (self.in_block, 8)] * self.has_disk

    def put(self, *lines):
        self.lines += ["        " + line for line in lines]

    def call(self, name, *args):
        """A call: an argument is a number, a register, or `=` and a label."""
        for k, arg in enumerate(args):
            arg = str(arg)
            word = "la" if arg.startswith("=") else "li" if arg.lstrip("-").isdigit() else "mv"
            if arg != f"a{k}":
                self.put(f"{word:4} a{k}, {arg.lstrip('=')}")
        self.put(f"sys  {name}")

    def word(self):
        return 4 * self.rng.randrange(WORDS)

    def load(self):
        self.put(f"lw   t0, {self.word()}(s0)")

    def store(self):
        self.put(f"sw   t0, {self.word()}(s0)")

    def add(self):
        at = self.word()
        self.put(f"lw   t0, {at}(s0)", "addi t0, t0, 1", f"sw   t0, {at}(s0)")

    def narrow(self):
        at, word = self.word(), self.rng.choice(("lb", "lbu", "sb", "lh", "lhu", "sh"))
        self.put(f"{word:4} t0, {at + self.rng.randrange(4) // (2 if 'h' in word else 1) * (2 if 'h' in word else 1)}(s0)")

    def semaphore(self):
        return self.rng.choice(self.semaphores)

    def wait(self):
        self.call("wait", self.semaphore())

    def signal(self):
        if self.rng.random() < 0.2:
            self.call("signaln", self.semaphore(), self.rng.randint(0, 3))
        else:
            self.call("signal", self.semaphore())

    def locked(self):
        number = self.semaphore()
        self.call("wait", number)
        self.rng.choice((self.add, self.load, self.store))()
        self.call("signal", number)

    def hand_over(self):
        """An access, and then what may order it before another process's."""
        self.rng.choice((self.store, self.add))()
        ways = [self.signal, self.signal, self.send, self.send, self.resume, self.unborn]
        ways += [self.port_send] * 2 * self.has_port + [self.free_buffer] * 3 * self.has_pool
        self.rng.choice(ways)()

    def take_over(self):
        """What may order another process's accesses before this one's, and then some."""
        ways = [self.wait, self.wait, self.receive, self.receive, self.kill, self.asleep, self.look]
        ways += [self.port_receive] * 2 * self.has_port + [self.take_buffer] * 3 * self.has_pool
        self.rng.choice(ways)()
        for _ in range(self.rng.randint(1, 4)):
            self.rng.choice((self.load, self.load, self.store))()

    def unborn(self):
        self.made("=small")

    def asleep(self):
        self.call("getpid")
        self.call("suspend", "a0")

    def other(self):
        return self.rng.randint(1, self.workers + 2)

    def send(self):
        self.call("send", self.other(), self.rng.randint(1, 9))

    def receive(self):
        name = self.rng.choice(("receive", "receive", "recvclr", "recvtime"))
        self.call(name, *([self.rng.randint(0, 6)] if name == "recvtime" else []))

    def rest(self):
        if self.rng.random() < 0.5:
            self.call("yield")
        else:
            self.call("sleepms", self.rng.randint(0, 5))

    def suspend(self):
        if self.rng.random() < 0.5:
            self.asleep()
        else:
            self.call("suspend", self.other())

    def resume(self):
        self.call("resume", self.other())

    def look(self):
        name = self.rng.choice(("getprio", "chprio", "semcount"))
        self.call(name, *{"getprio": [self.other()], "chprio": [self.other(), self.rng.choice((20, 20, 25))],
                          "semcount": [self.semaphore()]}[name])

    def kill(self):
        self.call("kill", self.other())

    def renew(self):
        if self.rng.random() < 0.3:
            self.call("semdelete", self.semaphore())
            self.call("semcreate", self.rng.randint(0, 2))
        else:
            self.call("semreset", self.semaphore(), self.rng.randint(0, 2))

    def child(self):
        self.made(f"={self.rng.choice(['small', 'small', 'work1'])}")
        self.put("sys  resume")

    def first_stack(self):
        self.put(f"lw   t1, {STACK}(s0)", self.rng.choice(("lw   t0, 0(t1)", "sw   t0, 0(t1)")))

    def own_stack(self):
        self.put(self.rng.choice(("lw   t0, -8(sp)", "sw   t0, -8(sp)", "sb   t0, -5(sp)")))
        if self.rng.random() < 0.3:
            self.put("addi t0, sp, -8", f"sw   t0, {STACK}(s0)")

    def write(self):
        self.put(f"addi a1, s0, {self.word()}", "li   a0, 0", f"li   a2, {self.rng.randint(0, 28)}", "sys  write")

    def read(self):
        self.put(f"addi a1, s0, {self.word()}", "li   a0, 0", f"li   a2, {self.rng.randint(0, 6)}", "sys  read")

    def disk(self):
        self.put("la   a1, block", "li   a0, 2", f"li   a2, {self.rng.choice((0, 1, 2, 8))}", self.rng.choice(("sys  read", "sys  write")))

    def in_block(self):
        self.put("la   t1, block", f"{self.rng.choice(('lw', 'sw'))}   t0, {4 * self.rng.choice((0, 60, 127))}(t1)")

    def newline(self):
        self.put("addi t0, zero, 10", f"sb   t0, {self.word() + self.rng.randrange(4)}(s0)")

    def buffer(self):
        self.rng.choice((self.take_buffer, self.use_buffer, self.use_buffer, self.free_buffer))()

    def borrowed(self):
        self.take_buffer()
        self.rng.choice((self.add, self.load, self.store))()
        self.free_buffer()

    def take_buffer(self):
        self.call("getbuf", 0)
        self.put("mv   s1, a0", "addi s3, zero, 1")

    def use_buffer(self):
        label = self.label()
        self.put(f"beq  s3, zero, {label}", self.rng.choice(("sw   t0, 0(s1)", "lw   t0, 4(s1)", "lw   t0, -4(s1)", "sb   t0, 5(s1)")))
        self.lines.append(label + ":")

    def free_buffer(self):
        self.call("freebuf", "s1")
        if self.rng.random() < 0.8:
            self.put("addi s3, zero, 0")

    def port(self):
        kind = self.rng.random()
        if kind < 0.45:
            self.port_send()
        elif kind < 0.9:
            self.port_receive()
        else:
            self.call(self.rng.choice(("ptreset", "ptreset", "ptdelete")), 0, self.rng.randint(0, 1))

    def port_send(self):
        self.call("ptsend", 0, self.rng.choice(("s1", "7")) if self.has_pool else 7)

    def port_receive(self):
        self.call("ptrecv", 0)
        if self.has_pool and self.rng.random() < 0.3:
            self.call("freebuf", "a0")

    def block(self):
        kind = self.rng.random()
        if kind < 0.4:
            self.put(f"lw   t1, {BLOCK}(s0)", self.rng.choice(("lw   t0, 0(t1)", "sw   t0, 4(t1)", "sh   t0, 6(t1)")))
        elif kind < 0.7:
            self.call(self.rng.choice(("getmem", "getstk")), self.rng.choice((8, 12, 16)))
            self.put(f"sw   a0, {BLOCK}(s0)")
        else:
            self.put(f"lw   a0, {BLOCK}(s0)", "li   a1, 16", self.rng.choice(("sys  freemem", "sys  freestk")))

    def stray(self):
        """A part of a stack or of a pool is given back, and may be got again."""
        self.put(self.rng.choice(("addi a0, sp, -64", f"lw   a0, {STACK}(s0)", "mv   a0, s1")), "li   a1, 8", "sys  freemem")

    def label(self):
        self.labels += 1
        return f"l{self.labels}"

    def body(self, count):
        """So many things to do; now and then some of them are done twice."""
        deeds, weights = zip(*self.deeds)
        while count > 0:
            here = min(count, self.rng.randint(1, 4))
            label = self.label() if self.rng.random() < 0.3 else None
            if label:
                self.put(f"li   s2, {self.rng.randint(2, 3)}")
                self.lines.append(label + ":")
            for deed in self.rng.choices(deeds, weights, k=here):
                deed()
            if label:
                self.put("addi s2, s2, -1", f"bne  s2, zero, {label}")
            count -= here
        self.put(self.rng.choice(("sys  exit", "sys  exit", "ret", "ebreak")))

    def made(self, entry):
        self.call("create", entry, 400, self.rng.choice((20, 20, 20, 25)), self.rng.choice(("=name", "=longer")), 0, 0)

    def text(self):
        """The program."""
        self.lines = [".place 4096", f".priority {self.rng.choice((20, 30))}"]
        self.put("la   s0, shared", "addi t0, sp, -16", f"sw   t0, {STACK}(s0)")
        for _ in self.semaphores:
            self.call("semcreate", self.rng.choice((0, 1, 1, 2)))
        if self.has_pool:
            self.call("mkbufpool", self.rng.choice((8, 10)), self.rng.randint(1, 2))
        if self.has_port:
            self.call("ptcreate", self.rng.randint(0, 2))
        if self.has_block:
            self.call("getmem", 16)
            self.put(f"sw   a0, {BLOCK}(s0)")
        for k in range(1, self.workers + 1):
            self.made(f"=work{k}")
            if self.rng.random() < 0.85:
                self.put("sys  resume")
        self.body(self.rng.randint(2, 8))
        for k in range(1, self.workers + 1):
            self.lines.append(f"work{k}:")
            self.put("la   s0, shared")
            self.body(self.rng.randint(4, 12))
        self.lines.append("small:")
        self.put("la   s0, shared", *(f"lw   t0, {4 * k}(s0)" for k in range(WORDS)), f"sw   t0, {self.word()}(s0)", "sys  exit")
        return "\n".join([*self.lines, TEXTS.format(size=4 * WORDS + 8)]) + "\n"


def program(number):
    """The text of a program, in assembler."""
    return Maker(number).text()


def schedule(number, other):
    """A schedule, as a list of (event, how many); of what is typed, its bytes."""
    rng = random.Random(f"schedule {number} {other}")
    longest, rows, steps = rng.choice((2, 4, 9, 20)), [], 0
    while steps < 500:
        count = rng.randint(1, longest)
        rows += [("step", count), ("tick", rng.choice((1, 1, 2, 3)))]
        if rng.random() < 0.2:
            rows.append(rng.choice((("tx", rng.randint(1, 9)), ("type", rng.choice(("61", "62 63 0a", "0a"))), ("disk0", 1), ("disk0", 2),
                                    ("fail0", 1))))
        steps += count
    return rows


def placed(number):
    """A schedule with two ends of a quantum after 30 to 110 steps, as those of the session judge: a list of (event, how many)."""
    rng, rows, done = random.Random(number), [], 0
    for place in sorted(rng.sample(range(30, 111), 2)):
        rows += [("step", place - done), ("tick", 2)]
        done = place
    return [*rows, ("step", 300 - done)]


def disk():
    """A raw disk of eight blocks."""
    return b"".join(bytes([48 + k]) * 512 for k in range(8))
