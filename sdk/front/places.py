"""Where an address lies: the function, the file and the line, for programs in C by addr2line and for those in assembler by their listing."""
import bisect
import os
import re
import subprocess

from . import assembler, elf
from .tools import CROSS, is_program

ADDRESS = re.compile(r"(?:\bpc|\b(?:loads|stores)(?: \(in \w+\))? at|^Data race at) 0x([0-9a-f]{8})")
PLACE = re.compile(r"([A-Za-z_.$][\w.$]*)\+(\d+)")
RETURN = re.compile(r"returns? to|may return")
HEADER = re.compile(r"\b(xinu|xcalls)\.h:")
ADDR2LINE = CROSS + "addr2line"


def shown_path(path):
    """A path as seen from here, if it lies below, and else the path."""
    below = os.path.relpath(path)
    return path if below.startswith("..") and not os.path.abspath(path).startswith(os.path.dirname(os.getcwd()) + os.sep) else below


class Listing:
    """The lines of a source in assembler. It has none if what they put isn't as long as the program."""

    def __init__(self, path, end):
        with open(path, encoding="utf-8", errors="replace") as file:
            text = file.read()
        self.path, (self.rows, last), self.labels = path, assembler.listing(text), assembler.labels_of(text)
        self.rows = self.rows if last == end else []

    def lines(self, addresses):
        """The label, the file and the line of addresses, for those that have them."""
        found = {}
        for address in addresses:
            at = bisect.bisect_right(self.rows, (address, 1 << 31)) - 1
            label = bisect.bisect_right(self.labels, (address, "\x7f")) - 1
            if at >= 0:
                name = self.labels[label][1] if label >= 0 else None
                found[address] = (name, f"{self.path}:{self.rows[at][1]}")
        return found


class Symbols:
    """The names and lines of an ELF file."""

    def __init__(self, path, content):
        self.path, self.functions = path, {function.name: function.address for function in elf.functions(content)}

    def lines(self, addresses):
        """The function, the file and the line of addresses, for those that have them."""
        if not addresses or not is_program(ADDR2LINE)():
            return {}
        words = [ADDR2LINE, "-a", "-i", "-f", "-e", self.path, *map(hex, addresses)]
        said = subprocess.run(words, capture_output=True, text=True, check=False).stdout
        frames = [block.splitlines() for block in re.split(r"^0x", said, flags=re.M)[1:]]
        found = {address: frame_in(rest[::2], rest[1::2]) for address, (_, *rest) in zip(addresses, frames)}
        return {address: frame for address, frame in found.items() if frame}


def frame_in(names, places):
    """Of the functions that are inlined into each other at an address the innermost that isn't a call's own in a header of the sdk, with its
    file and line, or none."""
    frames = []
    for name, place in zip(names, places):
        path, _, line = place.split(" (")[0].rpartition(":")
        if line.isdigit() and line != "0":
            frames.append((None if name == "??" else name, f"{shown_path(path)}:{line}"))
    own = [frame for frame in frames if not HEADER.search(frame[1])]
    return (own or frames or [None])[0]


class Places:
    """The names and lines of all programs of a run."""

    def __init__(self, programs):
        self.known = []
        for program in programs:
            with open(program.debug or program.image, "rb") as file:
                content = file.read()
            ranges = [(part.address, part.address + part.length) for part in elf.loaded_parts(content)]
            if program.debug:
                self.known.append((ranges, Symbols(program.debug, content)))
            elif program.source:
                self.known.append((ranges, Listing(program.source, elf.end_of(content))))

    def addresses_in(self, line):
        """The addresses that a line of a story names, each as it is looked up: that of a return is the call before it."""
        before = 4 if RETURN.search(line) else 0
        found = [int(word, 16) - before for word in ADDRESS.findall(line)]
        if not found:
            starts = {name: at for _, names in self.known if isinstance(names, Symbols) for name, at in names.functions.items()}
            found = [starts[name] + int(far) - before for name, far in PLACE.findall(line) if name in starts]
        return found

    def lines(self, addresses):
        """The function, the file and the line of addresses, for those that have them."""
        found = {}
        for ranges, names in self.known:
            inside = sorted({at for at in addresses if any(low <= at < high for low, high in ranges)})
            found |= names.lines(inside)
        return found

    def told(self, lines):
        """The lines of a story, each with the places of its addresses behind it."""
        named = [self.addresses_in(line) for line in lines]
        found = self.lines({address for addresses in named for address in addresses})
        for line, addresses in zip(lines, named):
            words = [place_words(*found[address], line) for address in addresses if address in found]
            yield line + ("  (" + "; ".join(words) + ")" if words else "")


def place_words(name, place, line):
    """A place in words, without the function if the line names it."""
    return place if name is None or f"{name}+" in line else f"{name}, {place}"
