"""The lab of transcripts: the texts that a student mended are judged by `check`."""
import glob
import os

from judge import limited, program

from .places import LABS
from .results import Result, Row
from .taking import take_files


def file_lines(path):
    """The lines of a transcript that say when calls on files took effect: the kernel's own choice, which is left as it is."""
    if not os.path.exists(path):
        return None
    with open(path, encoding="utf-8", errors="replace") as file:
        return [line.split() for line in file if line.startswith("file ")]


def assembled(lab, place, seconds):
    """The images of the lab's programs."""
    for source in sorted(glob.glob(os.path.join(LABS, lab, "programs", "*.s"))):
        image = os.path.basename(source)[:-2] + ".xim"
        limited([program(), "asm", source, "--out", image], place, seconds)
        yield image


def grade_texts(lab, folder, place, words):
    """Judges the transcripts that a student mended."""
    take_files(folder, place, ("kernel_?.txt",))
    names = sorted(os.path.basename(path) for path in glob.glob(os.path.join(LABS, lab, "kernel_?.txt")))
    images = list(assembled(lab, place, words.limit))
    judge = [program(), "check", "--schedule", os.path.join(LABS, lab, "schedule.txt"), "--trace"]
    refused = [name for name in names if limited([*judge, name, *images], place, words.limit)[0] != 0]
    others = [name for name in names if file_lines(os.path.join(place, name)) != file_lines(os.path.join(LABS, lab, name))]
    replaced = [name for name in others if name not in refused]
    right = len(names) - len(refused) - len(replaced)
    wrong = [f"no run prints {', '.join(refused)}"] if refused else []
    wrong += [f"other `file` lines than that kernel's in {', '.join(replaced)}"] if replaced else []
    share = round(100 / len(names), 2)
    are_wrong = [name in refused + replaced for name in names]
    rows = [Row(f"no run prints {name}, or its `file` lines are others", not is_wrong, 0, 0 if is_wrong else share, share)
            for name, is_wrong in zip(names, are_wrong)]
    return Result(f"{right}/{len(names)}", "-", 100 * right // len(names), "; ".join(wrong) or None, 0 if wrong else None, rows)
