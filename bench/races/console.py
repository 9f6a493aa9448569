"""The console of the second machine, by docs/KERNEL.md, in cooked mode: what is typed, what is sent, and the calls `read`, `write` and `putc`. Each
byte of a call is loaded or stored in the event in which it is put or taken."""
from races.calls import Kernel, Semaphore
from races.machine import REFUSED
from second import RAM, signed

INPUT, OUTPUT = 0, 1  # semaphores of the kernel's: items that can be taken, and bytes that can be put
ROOM, ECHO = 64, 20
NEWLINE, RETURN = 10, 13


class Console(Kernel):
    """The machine with its console."""

    def __init__(self, image):
        self.line, self.items, self.output, self.echo = [], [], [], []
        super().__init__(image)
        self.semaphores[INPUT], self.semaphores[OUTPUT] = Semaphore([], False, False), Semaphore([None] * ROOM, False, False)

    def interrupt(self, kind, byte):
        self.asks = False
        if kind == "tx":
            self.transmit()
        elif kind == "type":
            self.received(byte)
        else:
            return super().interrupt(kind, byte)
        if self.asks:
            self.resched()
        return None

    def transmit(self):
        """The first byte of the echo or, if there is none, of the output is sent."""
        if self.echo:
            self.lines.append(f"con {self.echo.pop(0):02x}")
        elif self.output:
            self.lines.append(f"con {self.output.pop(0):02x}")
            self.signalled(OUTPUT)

    def received(self, byte):
        """A letter or a newline is typed, which commits the line."""
        self.line.append(byte)
        for shown in (RETURN, NEWLINE) if byte == NEWLINE else (byte,):
            if len(self.echo) < ECHO:
                self.echo.append(shown)
        if byte == NEWLINE:
            line, self.line = self.line, []
            self.items += line
            for _ in line:
                self.signalled(INPUT)

    def call_write(self, process, device, address, count):
        if device or signed(count) < 0 or address + count > RAM:
            return REFUSED
        return self.puts(process, address, 0, count)

    def puts(self, process, address, done, want):
        """A process puts what is left of a write."""
        if done == want:
            return want
        put = lambda: self.put_byte(process, address, done, want)
        return self.awaited(process, OUTPUT, put, put)

    def put_byte(self, process, address, done, want):
        """With its token: a byte, or the carriage return before a newline, which waits for a token of its own."""
        self.moment.touch(False, process.number, self.at, address + done, 1)
        byte = self.ram[address + done]
        if byte != NEWLINE:
            return self.put_last(process, address, done, want, byte)
        self.output.append(RETURN)
        put = lambda: self.put_last(process, address, done, want, NEWLINE)
        return self.awaited(process, OUTPUT, put, put)

    def put_last(self, process, address, done, want, byte):
        """A byte of a write is put, and then the rest."""
        self.output.append(byte)
        return self.puts(process, address, done + 1, want)

    def call_putc(self, process, device, byte):
        if device:
            return REFUSED
        put = lambda: self.put_char(process, byte & 255)
        return self.awaited(process, OUTPUT, put, put)

    def put_char(self, process, byte):
        """With its token: the byte of a `putc`, or the carriage return before it."""
        if byte != NEWLINE:
            return self.output.append(byte) or 0
        self.output.append(RETURN)
        put = lambda: self.output.append(NEWLINE) or 0
        return self.awaited(process, OUTPUT, put, put)

    def call_read(self, process, device, address, count):
        if device or signed(count) < 0 or count and address + count > RAM:
            return REFUSED
        return self.takes(process, address, 0, count)

    def takes(self, process, address, done, want):
        """A process takes what is left of a read."""
        if done == want:
            return want
        take = lambda: self.take_item(process, address, done, want)
        return self.awaited(process, INPUT, take, take)

    def take_item(self, process, address, done, want):
        """With its token: an item, which ends the read if it is a newline."""
        byte = self.items.pop(0)
        self.moment.touch(True, process.number, self.at, address + done, 1)
        self.ram[address + done] = byte
        return done + 1 if byte == NEWLINE else self.takes(process, address, done + 1, want)
