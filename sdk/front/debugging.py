"""The command gdb: an ordinary gdb on the run, at the trap if there is one."""
import shlex
import subprocess
import sys

from .home import program
from .refusal import Refusal
from .running import schedule_for
from .runs import followed
from .telling import say
from .tools import GDB, GDB_TOOL, missing


def gdb(words, programs, folder):
    """Starts gdb on the run."""
    if not GDB_TOOL.is_there():
        raise Refusal(missing(GDB_TOOL))
    inputs, made = schedule_for(words, programs, folder)
    made = made or followed(inputs)
    debug = [program.debug for program in programs if program.debug]
    served = shlex.join([program(), "gdb", *inputs.words()])
    start = ["set remotetimeout 60", "set confirm off", *(f"add-symbol-file {path}" for path in debug[1:]), f"target remote | {served}"]
    if made.traps:
        start, said = [*start, "continue"], "gdb stops at the trap; reverse-step goes back from it."
    elif debug:
        start += ["tbreak main", "continue"]
        said = "No process is trapped: gdb stops at main. `continue` goes to the end, `reverse-continue` back."
    else:
        said = "gdb stops at the first instruction, and knows no names; stepi and reverse-stepi go on and back."
    say(said)
    quiet = ["-q", "-nx", "-batch", "-ex", "set width 0"] if words.gdb else ["-q"]
    sys.stdout.flush()
    line = [GDB, *quiet, *(word for command in start + words.gdb for word in ("-ex", command)), *debug[:1]]
    return subprocess.run(line, check=False).returncode
