"""A lab that is a program: it is built, run through the lab's schedule and further ones, and judged by the lab's table."""
import os
import shutil

from judge import MOST_OUTPUT, judged, limited, run, standstill, table_of

from .draws import schedules_of
from .places import LABS
from .results import Result, Row, nothing
from .taking import take_files

GIVEN, FURTHER = 50, 50  # points for all rows under the lab's schedule, and under all further ones


def trapped(lines):
    """Who was trapped first, in words."""
    traps = [line.split() for line in lines if line.startswith("trap ")]
    return f" (process {traps[0][1]} was trapped: {traps[0][2]})" if traps else ""


def built(place, seconds, *what):
    """Builds a student's program, or what is named of several: what is wrong with it, or none."""
    status, _, said = limited(["make", "-s", *what], place, seconds)
    if status == 0:
        return None
    if status is None or "CPU time limit" in said:
        return f"it takes more than {seconds} s"
    if "File size limit" in said:
        return f"it makes a file of more than {MOST_OUTPUT >> 20} MB"
    return next((line.strip()[:100] for line in said.splitlines() if "error" in line.lower()), "the compiler was stopped")


def run_through(rows, schedule, place, seconds):
    """Runs a program through a schedule: how many rows hold before the first that doesn't, and what is wrong, or none."""
    with open(os.path.join(place, "schedule"), "w", encoding="utf-8") as file:
        file.write(schedule)
    lines, trouble = run("schedule", ["lab.elf"], place, seconds)
    if trouble:
        return 0, trouble
    count, said = judged(rows, lines)
    return count, said and standstill(lines) + said + trapped(lines)


def row_results(rows, held):
    """What each row gave, where so many hold under each schedule, of which the first is the lab's own."""
    first, others = held[0], held[1:]
    halves = (GIVEN, FURTHER) if others else (GIVEN + FURTHER, 0)
    for place, row in enumerate(rows):
        further = sum(place < count for count in others)
        points = halves[0] * (place < first) + (halves[1] * further / len(others) if others else 0)
        yield Row(row.words, place < first, further, round(points / len(rows), 2), round(sum(halves) / len(rows), 2))


def result_of(rows, runs):
    """The result of the runs of a program, each with how many rows hold and what is wrong."""
    held = [count for count, _ in runs]
    full = sum(count == len(rows) for count in held[1:])
    halves = [held[:1], held[1:] or held[:1]]  # the given schedule counts as much as all further ones
    points = sum(100 * sum(half) // (2 * len(rows) * len(half)) for half in halves)
    failed = next((k for k, (_, said) in enumerate(runs) if said), None)
    wrong = None if failed is None else runs[failed][1] if failed == 0 else f"further schedule {failed}: {runs[failed][1]}"
    return Result(f"{held[0]}/{len(rows)}", f"{full}/{len(runs) - 1}", points, wrong, failed, list(row_results(rows, held)))


def grade_program(lab, folder, place, words):
    """Builds and runs a student's program."""
    take_files(folder, place, ("*.c", "*.h"))
    if not os.path.exists(os.path.join(place, "lab.c")):
        return nothing("there is no lab.c that can be taken")
    shutil.copyfile(os.path.join(LABS, lab, "Makefile"), os.path.join(place, "Makefile"))
    fault = built(place, words.limit)
    if fault:
        return nothing(f"doesn't compile: {fault}")
    rows, _ = table_of(os.path.join(LABS, lab, "lines.txt"))
    return result_of(rows, [run_through(rows, schedule, place, words.limit) for schedule in schedules_of(lab, words.number, words.further)])
