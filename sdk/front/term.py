"""The command term: one types at the running program. At each line the schedule grows, and the run is made again from its beginning."""
import os
import sys

from . import endings
from .files import free_name, writable
from .runs import inputs_of, lay, read_schedule, settled
from .telling import close_line, put, say
from .typed import END_OF_INPUT, LINE_ROOM, RETURN, typed


class Terminal:
    """A session: the lines of the schedule so far, the run through it, and how much of its console was shown."""

    def __init__(self, words, inputs, folder):
        self.inputs, self.most = inputs._replace(schedule=os.path.join(folder, "typed.txt")), words.rounds
        self.lines = [line for line in read_schedule(words.schedule) if line.strip()] if words.schedule else []
        self.run, self.shown = None, 0

    def go_on(self, echo=b""):
        """Makes the run again, and shows what is new, but not the echo of a line that the terminal has shown already."""
        self.run = settled(self.inputs, self.lines, self.most)
        self.lines += [f"round {self.run.rounds}"] if self.run.rounds else []
        put(self.run.console[self.shown:].removeprefix(echo))
        self.shown = len(self.run.console)

    def is_over(self):
        """Whether nothing that is typed can change the run."""
        return self.run.end in ("done", "panic")

    def type(self, text, echo=b""):
        """Types bytes, and lets the program go on."""
        self.lines += typed(text)
        self.go_on(echo)


def typed_lines():
    """The lines that a person types, up to the end of the input; one that is too long for the console isn't taken."""
    for line in sys.stdin.buffer:
        text = line.rstrip(b"\r\n")
        if len(text) <= LINE_ROOM:
            yield text
        else:
            say(f"That line has {len(text)} characters, and the console edits at most {LINE_ROOM}: it wasn't typed.")


def keep(session, path, words):
    """Keeps the schedule, and says its name."""
    lay(path, session.lines)
    line = " ".join([*(["--libc"] if words.libc else []), "--schedule", path, *words.program])
    say(f"What was typed is kept in {path}.", f"xinu run {line}  makes this run again")


def term(words, programs, folder):
    """Types at a program what a person types, line by line."""
    stem = os.path.splitext(os.path.basename(words.program[0]))[0]
    path = writable(words.keep or free_name(stem, ".schedule"), "--keep")
    session, is_terminal = Terminal(words, inputs_of(words, programs, folder), folder), sys.stdin.isatty()
    session.go_on()
    lines = typed_lines()
    try:
        while not session.is_over():
            text = next(lines, None)
            if text is None:
                session.type(bytes([END_OF_INPUT]))
                break
            session.type(text + bytes([RETURN]), text + b"\r\n" if is_terminal else b"")
    except KeyboardInterrupt:
        say("")
    close_line(session.run.console)
    sentence, next_step = endings.ending(session.run, None)
    say(sentence if next_step != "rounds" else sentence.replace(f"After {session.run.rounds} rounds it", "It"))
    keep(session, path, words)
    return 0
