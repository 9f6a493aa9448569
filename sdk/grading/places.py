"""Where the labs are, and which of them are graded."""
import glob
import os

SDK = os.path.dirname(os.path.dirname(os.path.realpath(__file__)))
LABS = os.path.join(os.path.dirname(SDK), "labs")
EXERCISES = os.path.join(LABS, "exercises")
# what a lab is judged by: a table of lines, texts of kernels, a table of programs, what a proved program prints, or what is to be proved
KINDS = LINES, TEXTS, PROGRAMS, LAYER, PROOFS = "lines.txt", "kernel_a.txt", "programs.txt", "wanted.txt", "proofs.txt"
EXERCISE = "exercise"  # and the kind of an exercise of the page


def folder_of(lab):
    """The folder of a lab, or of an exercise of the page."""
    exercise = os.path.join(EXERCISES, lab)
    return exercise if os.path.isdir(exercise) else os.path.join(LABS, lab)


def has(lab, name):
    """Whether a lab has a file."""
    return os.path.exists(os.path.join(folder_of(lab), name))


def kind_of(lab):
    """Which file of a lab says how it is graded, or none; or that it is an exercise of the page."""
    if os.path.dirname(folder_of(lab)) == EXERCISES:
        return EXERCISE
    return next((name for name in KINDS if has(lab, name)), None)


def graded_labs():
    """The labs that are graded, in their order, and then the exercises of the page."""
    for place in (LABS, EXERCISES):
        names = [os.path.basename(path) for path in glob.glob(os.path.join(place, "[0-9]*_*"))]
        yield from sorted(filter(kind_of, names), key=lambda name: int(name.partition("_")[0]))


def submissions(folder, labs, lab=None):
    """Those labs of a student's folder that are graded, or one of them, each with the folder of its files."""
    places = [(name, os.path.join(folder, name)) for name in labs]
    found = [(name, place) for name, place in places if os.path.isdir(place) and not os.path.islink(place)]
    return found or [(lab, folder)]
