"""Labs of programs with a mistake each: a student hands in the repaired ones, and in lab 11 which lines were wrong. Lab 10 has a row beside its
programs: no run has a data race."""
import os
import shutil

from judge import limited, program as xinu_run, run
from repairs import programs_of

from .places import LABS, has
from .programs import built, trapped
from .results import Result, Row
from .taking import take_files

NAMED = "wrong.txt"  # of the student: a program and a line; of the teacher, in solved/: a program, and the lines that may be named


def named_lines(path):
    """The words of each line of a text, under the first of them."""
    if not os.path.exists(path):
        return {}
    with open(path, encoding="utf-8", errors="replace") as file:
        found = [line.replace(":", " ").replace(".c ", " ").split() for line in file]
    return {words[0]: words[1:] for words in found if words}


def is_wrong_line(number, ranges):
    """Whether a line is in one of the ranges A-B, or is one of the lines A."""
    bounds = [(word.partition("-")[0], word.rpartition("-")[2]) for word in ranges]
    return number.isdecimal() and len(number) < 7 and any(int(first) <= int(number) <= int(last) for first, last in bounds)


def naming_fault(name, named, right):
    """What is wrong with the line that a student names, or none."""
    if not named.get(name):
        return f"{name}: {NAMED} doesn't name its line that is wrong"
    number = named[name][0]
    return None if is_wrong_line(number, right[name]) else f"{name}: line {ascii(number)[1:-1][:20]} isn't the one that is wrong"


def races_fault(program, place, seconds, steps):
    """What `races` finds wrong in so many steps, or none."""
    runs, found = program.outcomes("schedule.txt", place, seconds, steps)
    if runs is None:
        return f"races takes more than {seconds} s"
    return None if program.is_only(found) else f"{runs} runs, preempted in the first {steps} steps, have {len(found)} outcomes"


def data_race(program, place, seconds):
    """What `judge` tells of a program's run: the first data race, or none."""
    words = ["judge", "--schedule", "schedule.txt", f"{program.name}.elf"]
    status, told, _ = limited([xinu_run(), *words], place, seconds)
    if status == 0:
        return None
    head = told.partition("\n")[0].rstrip(":")
    return head[:1].lower() + head[1:] if status == 15 else f"judge takes more than {seconds} s" if status is None else "there is no run to judge"


def no_race_row(programs, place, seconds):
    """The row of a lab on races that no run of its programs has a data race."""
    found = next((f"{program.name}: {race}" for program in programs if (race := data_race(program, place, seconds))), None)
    return Row(found or "no data race", not found, int(not found), 0, 1)


def program_fault(program, place, seconds):
    """What is wrong with a program that is to be repaired, or none."""
    if not os.path.exists(os.path.join(place, f"{program.name}.c")):
        return f"there is no {program.name}.c that can be taken"
    fault = built(place, seconds, f"{program.name}.elf")
    if fault:
        return f"doesn't compile: {fault}"
    lines, trouble = run("schedule.txt", [f"{program.name}.elf"], place, seconds)
    if trouble:
        return trouble
    with open(os.path.join(place, f"{program.name}.elf"), "rb") as file:
        said = program.fault(lines, file.read())
    return said + trapped(lines) if said else program.bound[1] and races_fault(program, place, seconds, program.bound[1]) or None


def rows_of(program, place, seconds, named, right):
    """What a program gives: whether its wrong line is named, whether it is repaired, and whether `races` finds no more farther on."""
    fault = program_fault(program, place, seconds)
    words = f"{program.name}: {fault or 'it is not repaired'}"
    if not program.bound[1]:
        naming = naming_fault(program.name, named, right)
        yield Row(naming or f"{program.name}: another line is named", not naming, 0, 0, 1)
        yield Row(words, not fault, 0, 0, 1)
        return
    farther = None if fault else races_fault(program, place, seconds, program.farther)
    yield Row(f"{program.name}: {farther}" if farther else words, not fault, int(not fault and not farther), 0, 1)


def with_points(rows, has_further):
    """The rows with their points: all together give 100, and if there is a farther look that is half of a row's."""
    for row in rows:
        row.of = 100 / len(rows)
        row.points = row.of * (row.held + row.further) / 2 if has_further else row.of * row.held
    return rows


def grade_repairs(lab, folder, place, words):
    """Builds the programs of a student, and judges each by the lab's table."""
    take_files(folder, place, ("*.c", "*.h", NAMED))
    for name in ("Makefile", "schedule.txt"):
        shutil.copyfile(os.path.join(LABS, lab, name), os.path.join(place, name))
    right = named_lines(os.path.join(LABS, lab, "solved", NAMED))
    named = named_lines(os.path.join(place, NAMED))
    programs = programs_of(os.path.join(LABS, lab, "programs.txt"))
    has_further = any(program.bound[1] for program in programs)
    rows = [row for program in programs for row in rows_of(program, place, words.limit, named, right)]
    if has_further:
        rows.append(no_race_row(programs, place, words.limit))
    with_points(rows, has_further)
    wrong = [row.words for row in rows if row.points < row.of]
    further = f"{sum(row.further for row in rows)}/{len(rows)}" if has_further else "-"
    points = int(sum(row.points for row in rows) + 1e-6)
    return Result(f"{sum(row.held for row in rows)}/{len(rows)}", further, points, wrong[0] if wrong else None, 0 if wrong else None, rows)


def needs_of_repairs(lab):
    """Why such a lab can't be graded, a reason a line."""
    lines = os.path.join("solved", NAMED)
    if has(lab, NAMED) and not has(lab, lines):
        yield f"no {os.path.join(LABS, lab, lines)}: grade in the teacher's clone"
