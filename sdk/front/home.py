"""Where things are: the clone or the unpacked release, the program `xinu_run`, and what it is."""
import hashlib
import os
import re
import shutil

from .refusal import Refusal

SDK = os.path.dirname(os.path.dirname(os.path.abspath(__file__)))
TOP = os.path.dirname(SDK)
# where the program is looked for, in this order, after $XINU_RUN and before the PATH: in a release, and in a clone
PLACES = [os.path.join(TOP, "bin", "xinu_run"), os.path.join(TOP, "crates", "xinu_run", "out", "xinu_run")]


def find_program():
    """The path of `xinu_run`, or none."""
    given = os.environ.get("XINU_RUN")
    if given:
        return shutil.which(given)
    return next((place for place in PLACES if os.access(place, os.X_OK)), None) or shutil.which("xinu_run")


def program():
    """The path of `xinu_run`. Refused if it isn't there."""
    found = find_program()
    if found:
        return os.path.abspath(found)
    if "XINU_RUN" in os.environ:
        raise Refusal(f"$XINU_RUN is {os.environ['XINU_RUN']}, and there is no such program")
    build = os.path.relpath(os.path.join(SDK, "build"))
    raise Refusal(f"there is no xinu_run yet: {build} --quick builds it in minutes, with the toolchain of Rattle")


def is_proved(path):
    """Whether a program is one that `rt run` proved: its sum ends the text of the stamp beside it."""
    if not os.path.exists(path + ".stamp"):
        return False
    with open(path, "rb") as file, open(path + ".stamp", encoding="utf-8") as stamp:
        return stamp.read().endswith(hashlib.sha256(file.read()).hexdigest())


def version():
    """The version, as the page of changes begins with it."""
    with open(os.path.join(TOP, "CHANGELOG.md"), encoding="utf-8") as file:
        return re.search(r"^## (\S+)", file.read(), re.M)[1]


def typed_name(folder="."):
    """How `xinu` is typed in a folder: by its name if the PATH leads to it."""
    here, found = os.path.join(SDK, "xinu"), shutil.which("xinu")
    if found and os.path.samefile(found, here):
        return "xinu"
    is_inside = os.path.commonpath([TOP, os.path.abspath(folder)]) == TOP
    return os.path.relpath(here, folder) if is_inside else here
