"""An exercise of the page: a student hands in the page's link, and its programs are run through the schedule by which they are graded."""
import base64
import binascii
import glob
import json
import os
import re
import zlib

from judge import judged, limited, program, run, standstill, table_of

from .places import folder_of, has
from .programs import result_of, trapped
from .results import Row, nothing
from .taking import MOST_BYTES, take_files

LINK = re.compile(r"#w=([A-Za-z0-9_-]+)")
MOST_PROGRAMS = 8


class NoRun(Exception):
    """What a student handed in has no run that can be graded: its words say why."""


def run_in(text):
    """The run in a link, which may lie among other words; the last one counts."""
    links = LINK.findall(text)
    if not links:
        raise NoRun("there is no link of the page (Copy link)")
    try:
        packed = base64.urlsafe_b64decode(links[-1] + "=" * (-len(links[-1]) % 4))
        unpacker = zlib.decompressobj(-15)
        found = json.loads(unpacker.decompress(packed, MOST_BYTES))
    except (ValueError, binascii.Error, zlib.error, RecursionError):
        raise NoRun("the link is cut, or was changed") from None
    if not isinstance(found, dict):
        raise NoRun("the link holds no run")
    return found


def sources_in(run_given):
    """The texts of the run's programs, which are in assembler."""
    programs = run_given.get("programs")
    if not isinstance(programs, list) or not 1 <= len(programs) <= MOST_PROGRAMS:
        raise NoRun("the link holds no programs")
    texts = [one.get("text") if isinstance(one, dict) else None for one in programs]
    if not all(isinstance(text, str) for text in texts):
        raise NoRun("a program isn't in assembler")
    return texts


def assembled(texts, place, seconds):
    """The images of the programs, by the names of their files."""
    for number, text in enumerate(texts, 1):
        source, image = f"{number}.s", f"{number}.xim"
        with open(os.path.join(place, source), "w", encoding="utf-8", errors="replace") as file:
            file.write(text)
        status, _, said = limited([program(), "asm", source, "--out", image], place, seconds)
        if status != 0:
            raise NoRun(f"program {number} doesn't assemble: {' '.join(said.split()) or 'it takes too long'}")
        yield image


def races_row(lab, images, place, seconds):
    """The row of an exercise in which `races` has to find one outcome; the words say how many it found."""
    with open(os.path.join(folder_of(lab), "races.txt"), encoding="utf-8") as file:
        most, within = file.read().split()
    words = ["--preemptions", most, "--within", within, "--schedule", os.path.join(folder_of(lab), "schedule.txt"), *images]
    status, table, _ = limited([program(), "races", *words], place, seconds)
    count = len(re.findall(r"^outcome ", table, re.M))
    return status == 0 and count == 1, f"races takes more than {seconds} s" if status is None else f"races finds {count} outcomes"


def with_races(result, is_one, words):
    """The result with one row more, which counts as much as each other one."""
    rows = result.rows + [Row(words, is_one, 0, 0, 0)]
    for row in rows:
        row.of = round(100 / len(rows), 2)
        row.points = row.of if row.held else 0
    held = sum(row.held for row in rows)
    result.rows, result.given, result.points = rows, f"{held}/{len(rows)}", 100 * held // len(rows)
    if not is_one and not result.wrong:
        result.wrong, result.schedule = words, 0
    return result


def grade_exercise(lab, folder, place, words):
    """Runs the programs in a student's link."""
    take_files(folder, place, ("*.txt",))
    texts = []
    for path in sorted(glob.glob(os.path.join(place, "*.txt"))):
        with open(path, encoding="utf-8", errors="replace") as file:
            texts.append(file.read())
    try:
        images = list(assembled(sources_in(run_in("\n".join(texts))), place, words.limit))
    except NoRun as why:
        return nothing(str(why))
    rows, _ = table_of(os.path.join(folder_of(lab), "lines.txt"))
    lines, trouble = run(os.path.join(folder_of(lab), "schedule.txt"), images, place, words.limit)
    count, said = (0, trouble) if trouble else judged(rows, lines)
    has_end = any(row.what == "end done" for row in rows)  # else its processes go on for ever, which is no fault
    result = result_of(rows, [(count, said and (standstill(lines) if has_end else "") + said + trapped(lines))])
    result.further = "-"
    return with_races(result, *races_row(lab, images, place, words.limit)) if has(lab, "races.txt") else result
