"""The programs of a run: sources are compiled or assembled into a folder, files are taken as they are."""
import os
import re
import shlex
import subprocess
import sys
from typing import NamedTuple

from . import assembler, elf
from .files import read
from .home import SDK, program
from .refusal import Refusal
from .tools import COMPILER, COMPILER_TOOL, CROSS, LIBRARY, lacks

MOST_PROGRAMS, MOST_BYTES, RAM = 8, 1048576, 0x100000
GAP = 4096  # a program in C without a place begins at a multiple of this, above the programs before it


class Program(NamedTuple):
    """A program of a run: what was typed, the file that `xinu_run` takes, and the files that have its names and lines, or none."""
    typed: str
    image: str
    debug: str | None
    source: str | None


def quoted_line(path, lines, number):
    """A line of a file, as a refusal names it."""
    line = " ".join(lines[number - 1].split()) if 1 <= number <= len(lines) else ""
    return f"{path}, line {number}, `{line if len(line) <= 60 else line[:57] + '...'}`" if number else path


def assembled(path, out, is_elf=False):
    """Assembles a source into a file. Refused if a line is wrong, which is quoted."""
    lines = read(path, "the source", MOST_BYTES).decode("utf-8", "replace").splitlines()
    words = [program(), "asm", path, "--out", out] + ["--elf"] * is_elf
    ran = subprocess.run(words, stderr=subprocess.PIPE, text=True, check=False)
    found = re.fullmatch(r"xinu: asm line (\d+) fault (\d+)\n.*", ran.stderr, re.S)
    if found:
        number, fault = map(int, found.groups())
        raise Refusal(f"{quoted_line(path, lines, number)}: {assembler.fault_words(lines, number, fault)}", 9)
    if ran.returncode:
        raise Refusal(f"{path} wasn't assembled: {ran.stderr.strip()}", ran.returncode)


def variables(path, given):
    """The function that answers the text of a variable of a Makefile of the sdk, as it sets them but for those that are given."""
    with open(path, encoding="utf-8") as file:
        text = file.read().replace("\\\n", " ")
    found = dict(re.findall(r"^(\w+) [?:]?= (.*)$", text, re.M)) | given

    def value(name):
        """The text of a variable, in which others are replaced by theirs."""
        return re.sub(r"\$\((\w+)\)", lambda word: value(word[1]), found.get(name, ""))
    return value


def compiler_words(path, place, libc, options):
    """The words that compile a program in C, as its Makefile would: those of xinu.mk or of libc.mk."""
    given = {"SDK": SDK + "/", "LIBC": SDK + "/libc/", "PLACE": str(place), "CFLAGS": os.environ.get("CFLAGS", ""), **options}
    if libc:
        stem = os.path.basename(path)[:-2]
        value = variables(os.path.join(SDK, "libc", "libc.mk"), {"ARGS": f'"{stem}"', **given})
        words = [value("XFLAGS"), value("XSTART"), value("XLINK"), shlex.quote(path), value("XPARTS"), "-lm"]
    else:
        value = variables(os.path.join(SDK, "xinu.mk"), given)
        parts = [os.path.join(SDK, name) for name in ("start.S", "xinu.c")]
        words = [value("XFLAGS"), value("XLINK"), shlex.quote(path), *map(shlex.quote, parts), "-lgcc"]
    return shlex.split(" ".join(words))


def compiled(path, out, place, words):
    """Compiles a program in C into a file. Refused if it doesn't compile: the compiler has said why."""
    read(path, "the source")
    lack = lacks([COMPILER_TOOL] + [LIBRARY] * words.libc)
    if lack:
        raise Refusal(f"{path} can't be compiled: {'; '.join(lack)}")
    options = {"OPT": f"-O{words.opt}"} if words.libc else {}
    line = [COMPILER, *compiler_words(path, place, words.libc, options), *([] if words.libc else [f"-O{words.opt}"]), "-o", out]
    ran = subprocess.run(line, stderr=subprocess.PIPE, text=True, check=False)
    if ran.returncode:
        raise Refusal(f"{path} doesn't compile: the compiler says why above{of_library(path, ran.stderr, words.libc)}", 1, ran.stderr)
    print(ran.stderr, end="", file=sys.stderr)


def of_library(path, said, libc):
    """What helps if a program in C asks for what the sdk has in its C library alone."""
    wants = re.search(r"fatal error: (stdio|stdlib|string|math|errno|unistd|xcalls)\.h|undefined reference to `(malloc|free|fopen|strdup)'", said)
    return f"; with --libc it has a C library (xinu run --libc {path})" if wants and not libc else ""


def stripped(path, folder, number):
    """A file that `xinu_run` takes: the file itself, or a copy without what only a debugger reads if it is too large."""
    if os.path.getsize(path) <= MOST_BYTES:
        return path
    copy = os.path.join(folder, f"stripped{number}.elf")
    ran = subprocess.run([CROSS + "strip", "-g", "-o", copy, path], capture_output=True, check=False) if COMPILER_TOOL.is_there() else None
    return copy if ran and ran.returncode == 0 else path


def built(paths, folder, words):
    """The programs of a run, in order, each built in the folder if it is a source."""
    if not 1 <= len(paths) <= MOST_PROGRAMS:
        raise Refusal(f"{len(paths)} programs are named, and a run has 1 to {MOST_PROGRAMS}")
    found, end = [], 0
    for number, path in enumerate(paths, 1):
        place = -(-end // GAP) * GAP
        found.append(one_built(path, os.path.join(folder, f"{number}-{os.path.basename(path)}"), place, words))
        with open(found[-1].image, "rb") as file:
            end = max(end, elf.end_of(file.read()))
    return found


def one_built(path, out, place, words):
    """A program of a run: its kind is the ending of its name, or of any other file its first bytes."""
    ending = os.path.splitext(path)[1]
    if ending == ".s":
        assembled(path, out + ".xim")
        return Program(path, out + ".xim", None, path)
    if ending == ".c":
        compiled(path, out + ".elf", place, words)
        return Program(path, stripped(out + ".elf", os.path.dirname(out), place), out + ".elf", path)
    content = read(path, "the program")
    kept = re.sub(r"\.elf$", ".debug", path)
    debug = kept if kept != path and os.path.exists(kept) else path
    return Program(path, stripped(path, os.path.dirname(out), place), debug if elf.is_elf(content) else None, None)
