"""The command `xinu`: it reads the words, and carries them out."""
import os
import re
import sys
import tempfile

from . import debugging, disks, judging, making, proving, races, running, step, term
from .home import find_program, is_proved, version
from .paint import RED, painted
from .programs import built
from .refusal import Refusal
from .schedules import like
from .words import COMMANDS, parser

RUNNERS = {"run": running.run, "why": running.why, "term": term.term, "gdb": debugging.gdb, "judge": judging.judge, "races": races.races,
           "prove": proving.prove, "picture": running.picture, "step": step.step, "check": running.check}
MAKERS = {"new": making.new, "asm": making.asm, "disk": disks.disk}


def overview():
    """What `xinu help` shows."""
    first = ["new first", "run examples/hello/hello.c", "why examples/mistakes/deadlock.c", "term examples/shell/shell.c"]
    lines = ["Runs programs on Xinu, and tells of it.", "", *(f"    xinu {line}" for line in first), "", "Commands:", ""]
    lines += [f"    {name:<9} {purpose}" for name, (purpose, _) in COMMANDS.items()]
    return "\n".join([*lines, "", "xinu help COMMAND shows its examples and options. sdk/XINU_COMMAND.md is the page."])


def show_help(name, commands):
    """Shows examples and options of a command, or all commands."""
    if name is None:
        print(overview())
    elif name in commands:
        commands[name].print_help()
    else:
        raise Refusal(f"there is no command `{name}`{like(name, COMMANDS)} (xinu help lists them)")
    return 0


def tell_version():
    """Says which version this is, and what its program is."""
    found = find_program()
    kind = "not built" if not found else "proved" if is_proved(found) else "unproved"
    print(f"xinu {version()}; xinu_run: {kind}")
    return 0


def carry_out(words, commands):
    """Carries out a command: its status."""
    if words.version:
        return tell_version()
    if words.help or words.what in (None, "help"):
        return show_help(getattr(words, "command", None), commands)
    if words.what in MAKERS:
        return MAKERS[words.what](words)
    with tempfile.TemporaryDirectory(prefix="xinu-") as folder:
        return RUNNERS[words.what](words, built(words.program, folder, words), folder)


def read_words(arguments):
    """The words of a command, and the parsers of all of them. Refused if a word isn't known."""
    whole, commands = parser()
    first = next((word for word in arguments if not word.startswith("-")), None)
    if first is not None and first not in COMMANDS:
        raise Refusal(f"there is no command `{first}`{like(first, COMMANDS)} (xinu help lists them)" if "." not in first else
                      f"`{first}` is no command: did you mean xinu run {first}?")
    words, rest = whole.parse_known_args(arguments)
    if rest:
        options = commands[words.what].format_usage() if words.what else "--version --help"
        near = like(rest[0].partition("=")[0], re.findall(r"--\w+", options))
        of = f" {words.what}" if words.what else ""
        raise Refusal(f"`xinu{of}` has no `{rest[0]}`{near} (xinu help{of} has its options)")
    return words, commands


def main(arguments):
    """Carries out what the arguments say. The answer is the status."""
    try:
        status = carry_out(*read_words(arguments))
        sys.stdout.flush()
        return status
    except Refusal as refusal:
        sys.stdout.flush()
        print(f"{refusal.before}{painted('xinu:', RED, sys.stderr)} {refusal.words}", file=sys.stderr)
        return refusal.status
    except KeyboardInterrupt:
        sys.stderr.write("\n")
        return 130
    except OSError as fault:
        # what is left of the output can't be written either
        os.dup2(os.open(os.devnull, os.O_WRONLY), sys.stdout.fileno())
        if not isinstance(fault, BrokenPipeError):
            print(f"xinu: {fault.filename or 'the output'}: {fault.strerror}", file=sys.stderr)
        return 3

