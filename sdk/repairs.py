"""Programs with a mistake that students repair: what labs 10 and 11 and sdk/grade share.

A line of a lab's table `programs.txt` is a program's name, the text that its console shows once it is repaired, in JSON with one `\\n` for a
return and a newline, and then words with a number each:

    preemptions P, steps S  `races` finds one outcome with at most P preemptions in the first S steps
    farther S               and in so many steps, which sdk/grade looks at alone
    main N                  the priority of the image; 20 if it isn't said
    refused 0               no call is refused
    CALL N                  there are at least N such calls; of those on time and priorities (TIMED) at most N, or none if it isn't said

A process that the program creates has the priority 20. No repair is one that changes when processes run, or that prints the text as it is."""
import functools
import json
import os
import re
import struct

from judge import limited, program as xinu_run, shown

PRIORITY = 20  # of an image that says none, and of the processes that the programs create
TIMED = ("sleep", "sleepms", "recvtime", "chprio")
NOTE = struct.pack("<III8s", 5, 8, 1, b"XINU")  # before an image's priority (xinu.h)


class Program:
    """A line of the table."""

    def __init__(self, line):
        self.name, _, rest = line.partition(" ")
        self.text, end = json.JSONDecoder().raw_decode(rest)
        words = rest[end:].split()
        self.calls = {word: int(number) for word, number in zip(words[::2], words[1::2])}
        self.bound = self.calls.pop("preemptions", 0), self.calls.pop("steps", 0)
        self.farther = self.calls.pop("farther", 0)
        self.main = self.calls.pop("main", PRIORITY)
        self.may_be_refused = self.calls.pop("refused", None) is None
        self.seen = {}  # what `races` found in so many steps of an image: many hand in the same one

    def outcomes(self, schedule, folder, seconds, steps):
        """How many runs `races` made, none if the time was over, and what each outcome shows and how it ends."""
        with open(os.path.join(folder, f"{self.name}.elf"), "rb") as file:
            key = loaded(file.read()), steps
        found = self.seen.get(key) or self.raced(schedule, folder, seconds, steps)
        if found[0] is not None:
            self.seen[key] = found
        return found

    def raced(self, schedule, folder, seconds, steps):
        """What `races` finds, as `outcomes` says it."""
        words = ["--preemptions", str(self.bound[0]), "--within", str(steps), "--schedule", schedule, f"{self.name}.elf"]
        status, table, _ = limited([xinu_run(), "races", *words], folder, seconds)
        runs = sum(map(int, re.findall(r"^outcome \d+: (\d+) ", table, re.M)))
        return None if status is None else runs, re.findall(r"^outcome .*\n  (.*)$", table, re.M)

    def is_only(self, found):
        """Whether an outcome is the only one, and the one that is wanted."""
        return found == [json.dumps(self.text.replace("\n", "\r\n")) + " end done"]

    def fault(self, lines, image):
        """What is wrong in a transcript of the program, whose image has these bytes, or none."""
        if shown(lines).replace("\r\n", "\n") != self.text:
            return "the console shows something else"
        if lines[-1] != "end done" or any(line.startswith("trap ") for line in lines):
            return "a process is trapped or left"
        call = None if self.may_be_refused else refused(lines)
        if call:
            return f"process {call[1]} calls {call[2]}, which is refused"
        if cells(lines, "getmem") != cells(lines, "freemem"):
            return "not as much memory is given back as was taken"
        return self.counted(lines) or self.ranked(lines, image) or self.copied(image)

    def counted(self, lines):
        """Which calls are missing, or too many, or none."""
        made = [line.split()[2] for line in lines if line.startswith("call ")]
        for name in TIMED:
            if made.count(name) > self.calls.get(name, 0):
                return f"it calls {name}, which only changes when a process runs"
        missing = next((name for name, least in self.calls.items() if name not in TIMED and made.count(name) < least), None)
        return missing and f"there are {made.count(missing)} calls {missing}, and {self.calls[missing]} are needed"

    def ranked(self, lines, image):
        """Which priority is another one than that of the program as it was given, or none."""
        at = image.find(NOTE) + len(NOTE)
        main = struct.unpack_from("<I", image, at)[0] if NOTE in image else PRIORITY
        others = {int(line.split()[5]) for line in lines if line.startswith("call ") and line.split()[2] == "create"} - {PRIORITY}
        if main == self.main and not others:
            return None
        return f"a process has the priority {main if main != self.main else min(others)}, and had another one"

    def copied(self, image):
        """Whether the program has the last line of its text as it is, though there is something to work out."""
        line = self.text.rstrip("\n").rpartition("\n")[2]
        return f'it has the text "{line}" as it is' if re.search(r"\d", line) and line.encode() in image else None


def loaded(image):
    """What is loaded of the bytes of an ELF file, with its notes: two files in which that is equal run equally."""
    entry, at = struct.unpack_from("<II", image, 24)
    heads = [struct.unpack_from("<6I", image, at + 32 * k) for k in range(*struct.unpack_from("<H", image, 44))]
    return entry, tuple((kind, place, size, image[start:start + length]) for kind, start, place, _, length, size in heads if kind in (1, 4))


def refused(lines):
    """The first call of a transcript that is refused, or none."""
    calls = {}
    for words in [line.split() for line in lines]:
        if words[0] == "call":
            calls[words[1]] = words
        if words[0] == "ret" and words[2] == "-1":
            return calls.get(words[1])
    return None


def cells(lines, call):
    """How many cells of the heap the calls of this name ask for, whose last argument is a number of bytes."""
    return sum(-(-int(line.split()[-1]) // 8) for line in lines if line.startswith("call ") and line.split()[2] == call)


@functools.lru_cache(maxsize=None)
def programs_of(path):
    """The programs of a table: the same ones each time."""
    with open(path, encoding="utf-8") as file:
        return [Program(line) for line in file if line.strip() and not line.startswith("#")]
