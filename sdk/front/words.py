"""The words of `xinu`: its commands with examples, their options, and what is said of wrong words."""
import argparse
import re

from .disks import ARGUMENTS, WRITERS
from .refusal import Refusal

ROUNDS = 10000
# the commands, in the order in which a newcomer needs them: what each is for, and how it is typed
COMMANDS = {
    "new": ("makes a folder with a program, and says what to type next", ["new first", "new --asm second"]),
    "run": ("shows what a program prints, and says how its run ended",
            ["run hello.c", "run sender.c receiver.c", "run --schedule schedule.txt hello.s"]),
    "why": ("tells a run in words, with the lines of the source", ["why deadlock.c", "why --steps 1..40 hello.s"]),
    "term": ("types at the running program", ["term shell.c", "term --keep typed.txt shell.c"]),
    "gdb": ("starts gdb on the run, forward and backward", ["gdb crash.c"]),
    "judge": ("tells the data races of a run, with the lines of the source", ["judge counter.c", "judge --atomic ready wakeup.c"]),
    "races": ("tries a preemption at every place, and tells the outcomes", ["races counter.c", "races --preemptions 2 --within 45 order.c"]),
    "prove": ("proves that programs keep the rule of a lock on every schedule",
              ["prove first.s second.s", "prove --lock 4 --word counter --rule rounds first.s"]),
    "picture": ("draws the run: who ran when, who waited for what", ["picture hello.c", "picture --out run.svg hello.c"]),
    "step": ("opens the page of this run in a browser, to step through it", ["step hello.s"]),
    "check": ("says whether a text is the transcript of a run", ["check --trace mine.txt --schedule schedule.txt hello.s"]),
    "asm": ("assembles a program", ["asm hello.s", "asm hello.s --elf --out hello.elf"]),
    "disk": ("makes disks with files, and looks into them", ["disk mkfs 256 --out disk", "disk put disk motd notes.txt", "disk ls disk"]),
    "help": ("shows examples of a command", ["help races"]),
}
# those that run programs
RUNNERS = ("run", "why", "term", "gdb", "judge", "races", "picture", "step", "check")
PROGRAM = f"""PROGRAM is a program in C (.c) or assembler (.s), or a file that was built: an ELF file, as make
leaves it, or an image file. Up to eight run together. A program in C is compiled as sdk/xinu.mk does
it, with $CFLAGS; a second one is put behind the first. Without --schedule there are rounds (1000
steps, 64 transmissions, 8 completions of each disk, a tick) until the run is done or nobody can go
on, at most {ROUNDS}."""


def plain(prog):
    """The form of a help: lines as they are written, and room for options."""
    return argparse.RawDescriptionHelpFormatter(prog, max_help_position=26, width=100)


# what argparse says of wrong words, and the words for it
MESSAGES = [
    (r"^the following arguments are required: (.*)$", r"`PROG` needs \1"),
    (r"^argument (\S+): expected one argument$", r"`\1` needs a value"),
    (r"^argument (\S+): invalid choice: '(.*)' \(choose from (.*)\)$", r"\1: `\2` isn't one of \3"),
    (r"^argument ", ""),
    (r"'(\w+)'(?=,|$)", r"\1"),
]


class Parser(argparse.ArgumentParser):
    """A parser whose help begins with examples, and whose refusals are like the others."""
    examples = ""

    def format_help(self):
        """The help, examples first."""
        return self.examples + super().format_help()

    def error(self, message):
        """Refuses words, and says how to see what there is."""
        for pattern, words in MESSAGES:
            message = re.sub(pattern, words.replace("PROG", self.prog), message)
        raise Refusal(f"{message} ({' '.join(['xinu help', *self.prog.split()[1:2]])} has examples)")


def number_between(least, most):
    """The function that reads a number from least to most."""
    def read(text):
        if not text.isdecimal() or not least <= int(text) <= most:
            raise argparse.ArgumentTypeError(f"`{text}` isn't a number from {least} to {most}")
        return int(text)
    return read


def steps(text):
    """Events that are listed, as A..B."""
    first, dots, last = text.partition("..")
    if not (dots and first.isdecimal() and last.isdecimal() and 1 <= int(first) <= int(last) <= 10**9):
        raise argparse.ArgumentTypeError(f"`{text}` isn't A..B, two numbers of events from 1 on, the second not below the first")
    if int(last) - int(first) >= 10000:
        raise argparse.ArgumentTypeError(f"`{text}` has {int(last) - int(first) + 1} events, and 10000 are listed at most")
    return text


def title(text):
    """The heading of a picture."""
    if not 1 <= len(text.encode()) <= 90:
        raise argparse.ArgumentTypeError(f"it has {len(text.encode())} bytes, and a heading 1 to 90")
    return text


def add_run(parser, level):
    """Adds the options of a command that runs programs, which are compiled at a level if no other is named."""
    parser.add_argument("program", nargs="+", metavar="PROGRAM", help="a program to run; up to eight")
    parser.add_argument("--schedule", metavar="FILE", help="the events of the run (docs/FORMATS.md), in place of rounds")
    parser.add_argument("--rounds", type=number_between(1, 900000), default=ROUNDS, metavar="N", help=f"at most N rounds ({ROUNDS})")
    parser.add_argument("--disk0", metavar="FILE", help="the raw disk as it starts, in place of 64 blocks of zeros")
    parser.add_argument("--disk1", metavar="FILE", help="the disk with files as it starts, in place of an empty one")
    parser.add_argument("--libc", action="store_true", help="programs in C have a C library (sdk/libc)")
    parser.add_argument("--opt", choices=["0", "1", "2", "3", "s", "g"], default=level, metavar="LEVEL",
                        help=f"how the compiler optimizes: 0, 1, 2, 3, s or g ({level})")


def add_of_run(commands):
    """Adds what the commands that run programs have beside that."""
    parsers = {name: commands[name] for name in RUNNERS}
    for name, parser in parsers.items():
        add_run(parser, "g" if name == "gdb" else "2")
    parsers["run"].add_argument("--transcript", action="store_true", help="show the lines of the transcript, not the console's text")
    parsers["run"].add_argument("--out0", metavar="FILE", help="write the raw disk at the end")
    parsers["run"].add_argument("--out1", metavar="FILE", help="write the disk with files at the end")
    parsers["why"].add_argument("--steps", type=steps, metavar="A..B", help="list the events from A to B first")
    parsers["why"].add_argument("--refused", action="store_true", help="tell each call that is refused, not each kind once")
    parsers["term"].add_argument("--keep", metavar="FILE", help="keep the schedule in this file, not in PROGRAM.schedule")
    parsers["gdb"].add_argument("--ex", dest="gdb", action="append", default=[], metavar="COMMAND", help="let gdb carry out a command, and end")
    parsers["judge"].add_argument("--atomic", metavar="NAME,..", help="leave out these variables")
    parsers["judge"].add_argument("--pairs", action="store_true", help="tell each pair of places")
    parsers["races"].add_argument("--preemptions", type=number_between(0, 3), default=1, metavar="P", help="at most P preemptions in a run (1)")
    parsers["races"].add_argument("--within", type=number_between(1, 1000000), metavar="N",
                                  help="within the first N steps (1000 for one preemption, 60 for two, 20 for three)")
    parsers["races"].add_argument("--from", type=number_between(0, 1000000), metavar="M", help="after the first M steps (0)")
    parsers["races"].add_argument("--into", default=".", metavar="FOLDER", help="where the schedules are kept (here)")
    parsers["picture"].add_argument("--out", metavar="FILE", help="the file that is written (PROGRAM.svg)")
    parsers["picture"].add_argument("--from", type=number_between(1, 10**9), metavar="N", help="leave out the events before event N")
    parsers["picture"].add_argument("--events", type=number_between(1, 2000), metavar="M", help="draw at most M events (2000)")
    parsers["picture"].add_argument("--title", type=title, metavar="TEXT", help="the heading")
    parsers["step"].add_argument("--out", metavar="FILE", help="the file that is written (PROGRAM.html)")
    parsers["step"].add_argument("--no-open", action="store_true", help="only write it")
    parsers["check"].add_argument("--trace", required=True, metavar="FILE", help="the text")


def add_prove(parser):
    """Adds what `prove` has: programs, and what is to be proved of them."""
    parser.add_argument("program", nargs="+", metavar="PROGRAM", help="a program in assembler, an image or an ELF file; up to eight")
    parser.add_argument("--lock", type=number_between(4, 127), metavar="N", help="the semaphore that is the lock")
    parser.add_argument("--word", metavar="LABEL", help="the word that it guards, by its label or its address")
    parser.add_argument("--rule", metavar="RULE", help="what the word is by how often the lock was given back: rounds, 3 * rounds, 100 - rounds")
    parser.set_defaults(libc=False, opt="2", schedule=None, rounds=ROUNDS, disk0=None, disk1=None)


def add_makers(commands):
    """Adds what the commands have that make files."""
    commands["new"].add_argument("name", metavar="NAME")
    commands["new"].add_argument("--asm", action="store_true", help="a program in assembler")
    commands["asm"].add_argument("source", metavar="SOURCE")
    commands["asm"].add_argument("--out", metavar="FILE", help="the file that is written (SOURCE.xim)")
    commands["asm"].add_argument("--elf", action="store_true", help="write an ELF file")
    commands["help"].add_argument("command", nargs="?", metavar="COMMAND")
    add_actions(commands["disk"].add_subparsers(dest="action", metavar="ACTION", required=True, parser_class=Parser))


def add_actions(actions):
    """Adds the actions on a disk."""
    purposes = {"mkfs": "makes a disk without files", "ls": "lists the files", "get": "copies a file off the disk",
                "put": "copies a file onto the disk", "check": "says whether a disk is clean", "repair": "makes a disk of what can be kept"}
    for name, purpose in purposes.items():
        action = actions.add_parser(name, help=purpose, prog=f"xinu disk {name}", formatter_class=plain, allow_abbrev=False)
        action.examples = f"{purpose[0].upper()}{purpose[1:]}.\n\n"
        for word in ARGUMENTS[name]:
            action.add_argument(word, metavar=word.upper())
        if name in WRITERS:
            action.add_argument("--out", metavar="FILE", help="the file that is written")


def examples(purpose, lines):
    """What a command is for, and examples, as its help begins with them."""
    return f"{purpose[0].upper()}{purpose[1:]}.\n\n" + "".join(f"    xinu {line}\n" for line in lines) + "\n"


def parser():
    """The parser of all words, and those of the commands."""
    whole = Parser(prog="xinu", add_help=False, allow_abbrev=False)
    whole.add_argument("--help", "-h", action="store_true")
    whole.add_argument("--version", action="store_true")
    commands = whole.add_subparsers(dest="what", metavar="COMMAND", parser_class=Parser)
    made = {}
    for name, (purpose, lines) in COMMANDS.items():
        epilog = PROGRAM if name in RUNNERS else None
        made[name] = commands.add_parser(name, prog=f"xinu {name}", epilog=epilog, formatter_class=plain, allow_abbrev=False)
        made[name].examples = examples(purpose, lines)
    add_of_run(made)
    add_prove(made["prove"])
    add_makers(made)
    return whole, made
