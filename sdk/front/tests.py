"""Tests of the front door beside its pages, which sdk/check plays: that what a debugger reads changes no program, that sources are built as
by their Makefiles, that listings have the assembler's addresses, that the page of a run holds it, and that kept schedules have their outcomes.

usage: python3 -m front.tests        (in the folder sdk of a copy, into which they write)"""
import argparse
import glob
import json
import os
import re
import subprocess

from . import assembler, elf, programs, step
from .home import TOP, program
from .races import outcomes
from .schedules import preempted
from .tools import COMPILER_TOOL, LIBRARY, MAKE, lacks

# folders of programs in C, each with its Makefile
C_FOLDERS = ["examples/hello", "examples/shell", "examples/buffers", "examples/libc"]
SOURCES = ["examples/*/*.s", "crates/sessions/data/*.s", "labs/*/*/*.s"]
# programs that are wrong on some placements, with preemptions and steps
RACES = [("counter", 2, 58), ("order", 1, 120), ("wakeup", 1, 120), ("dropped", 2, 52), ("buffer", 1, 120)]


def loaded(path):
    """What is loaded of a file."""
    with open(path, "rb") as file:
        return elf.loaded_parts(file.read())


def made(folder, place, flags):
    """The programs of a folder as its Makefile makes them in a copy, with flags for the compiler: what is loaded of each."""
    copy = os.path.join(TOP, os.path.dirname(folder), place)
    subprocess.run(["cp", "-r", os.path.join(TOP, folder), copy], check=True)
    subprocess.run(["make", "-s", "-B", "all", *flags], cwd=copy, check=True)
    found = {os.path.basename(path): loaded(path) for path in sorted(glob.glob(os.path.join(copy, "*.elf")))}
    subprocess.run(["rm", "-r", copy], check=True)
    return found


def debugging_changes_nothing(folder, place):
    """The parts that are loaded are the same with and without what a debugger reads."""
    return made(folder, place, []) == made(folder, place, ["CFLAGS=-g0"]) != {}


def large_programs_fit(_, place):
    """A program that is too large with what a debugger reads has that in a file of its own, and is loaded as it would be without it."""
    folder = os.path.join(TOP, place)
    os.mkdir(folder)
    with open(os.path.join(folder, "large.c"), "w", encoding="utf-8") as file:
        file.write("#include <xinu.h>\nchar bytes[1040000] = { 1 };\nprocess main(void) { return bytes[0]; }\n")
    made_parts = []
    for flags in ("", "-g0"):
        subprocess.run(["make", "-s", "-B", "-f", os.path.join(TOP, "sdk", "xinu.mk"), "PROGRAMS=large", f"CFLAGS={flags}"], cwd=folder, check=True)
        made_parts.append((loaded(os.path.join(folder, "large.elf")), os.path.exists(os.path.join(folder, "large.debug")),
                           os.path.getsize(os.path.join(folder, "large.elf")) <= programs.MOST_BYTES))
    subprocess.run(["rm", "-r", folder], check=True)
    return made_parts[0][0] == made_parts[1][0] and [rest for _, *rest in made_parts] == [[True, True], [False, True]]


def sources_are_built_as_made(folder, place):
    """A source that `xinu` builds is what its Makefile makes of it, if that is the only program."""
    path = glob.glob(os.path.join(TOP, folder, "*.c"))[0]
    words = argparse.Namespace(libc="libc" in folder, opt="2")
    out = os.path.join(TOP, place + ".elf")
    programs.compiled(path, out, 0, words)
    wanted = made(folder, place, [])[os.path.basename(path)[:-2] + ".elf"]
    is_same = loaded(out) == wanted
    os.remove(out)
    return is_same


def listing_has_addresses(path, place):
    """The labels of a listing have the addresses that the assembler gives them, and the last line ends where the program does."""
    with open(path, encoding="utf-8") as file:
        text = file.read()
    labels = assembler.labels_of(text)
    _, end = assembler.listing(text)
    source, out = os.path.join(TOP, place + ".s"), os.path.join(TOP, place + ".xim")
    with open(source, "w", encoding="utf-8") as file:
        # the assembler tells a label's address by a word after the program
        file.write(text + "\n.align\n" + "".join(f".word {name}\n" for _, name in labels))
    programs.assembled(source, out)
    part = loaded(out)[0]
    words = part.content[len(part.content) - 4 * len(labels):]
    for made_file in (source, out):
        os.remove(made_file)
    told = [int.from_bytes(words[at:at + 4], "little") for at in range(0, len(words), 4)]
    return told == [at for at, _ in labels] and -(-end // 4) * 4 == part.address + part.length - 4 * len(labels)


def kept_schedules_have_their_outcomes(row, place):
    """The schedule that is kept of an outcome has that outcome alone, and the second one's is that of `--found`, event by event."""
    name, most, within = row
    data = os.path.join(TOP, "crates", "sessions", "data")
    image, schedule, found = (os.path.join(TOP, place + ending) for ending in (".xim", ".schedule", ".found"))
    programs.assembled(os.path.join(data, name + ".s"), image)
    base = os.path.join(data, "base.txt")

    def table(preemptions, steps, path, more=()):
        words = [program(), "races", "--preemptions", str(preemptions), "--within", str(steps), *more, "--schedule", path, image]
        return outcomes(subprocess.run(words, capture_output=True, text=True, check=True).stdout)

    def transcript(path):
        return subprocess.run([program(), "run", "--schedule", path, image], capture_output=True, check=True).stdout
    with open(base, encoding="utf-8") as file:
        lines = file.read().splitlines()
    rows, is_right = table(most, within, base, ["--found", found]), True
    for number, (_, places, said) in enumerate(rows, 1):
        with open(schedule, "w", encoding="utf-8") as file:
            file.write("\n".join(preempted(lines, places)[0]))
        is_right &= [kept for _, _, kept in table(0, 1, schedule)] == [said] and (number != 2 or transcript(schedule) == transcript(found))
    for path in (image, schedule, found):
        os.remove(path)
    return is_right and len(rows) > 1


def page_holds_the_run(source, place):
    """The page that `step` writes has the source and the schedule of the run where the page looks for them, and is else as it was."""
    page, out = f"<p>{step.PLACE}null</script></p>", os.path.join(TOP, place + ".html")
    os.makedirs(os.path.dirname(step.PAGES[1]), exist_ok=True)
    with open(step.PAGES[1], "w", encoding="utf-8") as file:
        file.write(page)
    subprocess.run([os.path.join(TOP, "sdk", "xinu"), "step", "--no-open", "--out", out, source], check=True, capture_output=True)
    before, held, after = re.fullmatch(r"(<p>.*?>)(.*)(</script></p>)", step.text_of(out), re.S).groups()
    for path in (out, step.PAGES[1]):
        os.remove(path)
    run = json.loads(held)
    is_whole = before + "null" + after == page and "<" not in held
    return is_whole and run["programs"] == [{"name": "hello.s", "text": step.text_of(source)}] and run["schedule"] == "round 2\n"


def cases():
    """The tests: a name, the tools that it needs, and the function with its argument."""
    for folder in C_FOLDERS:
        needs = [MAKE, COMPILER_TOOL] + [LIBRARY] * ("libc" in folder)
        yield f"{folder}: what a debugger reads changes nothing", needs, debugging_changes_nothing, folder
        yield f"{folder}: built as by its Makefile", needs, sources_are_built_as_made, folder
    yield "a large program fits with what a debugger reads", [MAKE, COMPILER_TOOL], large_programs_fit, None
    for path in sorted(path for pattern in SOURCES for path in glob.glob(os.path.join(TOP, pattern))):
        yield f"{os.path.relpath(path, TOP)}: addresses of its lines", [], listing_has_addresses, path
    yield "the page of a run", [], page_holds_the_run, os.path.join(TOP, "examples", "hello", "hello.s")
    for row in RACES:
        yield f"{row[0]}: schedules of its outcomes", [], kept_schedules_have_their_outcomes, row


def main():
    """Plays the tests. A line for each says how it came out: a word, its name, and what is missing if it wasn't played."""
    for number, (name, needs, test, argument) in enumerate(cases()):
        lack = lacks(needs)
        came_out = "lacks" if lack else "passed" if test(argument, f"test{number}") else "failed"
        print(came_out, name, *lack, sep="\t", flush=True)


if __name__ == "__main__":
    main()
