"""Files that a person names: why one can't be read, in words."""
import difflib
import os

from .refusal import Refusal


def why_not(path):
    """Why a file can't be read, or none."""
    folder, name = os.path.split(path)
    if not os.path.isdir(folder or "."):
        return f"there is no folder {folder}"
    if not os.path.exists(path):
        near = difflib.get_close_matches(name, os.listdir(folder or "."), 1, 0.75)
        return "there is no such file" + (f"; did you mean {os.path.join(folder, near[0])}?" if near else "")
    if os.path.isdir(path):
        return f"it is a folder: name a file, such as {os.path.join(path, 'NAME')}"
    return None if os.access(path, os.R_OK) else "you may not read it (ls -l shows who may)"


def read(path, what, most=None):
    """The bytes of a file that stands for something such as `the schedule`. Refused if it can't be read or has more bytes than at most."""
    reason = why_not(path)
    if reason:
        raise Refusal(f"{what} {path}: {reason}")
    size = os.path.getsize(path)
    if most is not None and size > most:
        raise Refusal(f"{what} {path}: it has {size} bytes, and may have at most {most}")
    try:
        with open(path, "rb") as file:
            return file.read()
    except OSError as fault:
        raise Refusal(f"{what} {path}: it can't be read ({fault.strerror})") from fault


def writable(path, what):
    """A path that can be written. Refused if it can't."""
    folder = os.path.dirname(path) or "."
    if os.path.isdir(path):
        raise Refusal(f"{what} {path}: it is a folder")
    if not os.path.isdir(folder):
        raise Refusal(f"{what} {path}: there is no folder {folder} (mkdir {folder})")
    if not os.access(path if os.path.exists(path) else folder, os.W_OK):
        raise Refusal(f"{what} {path}: you may not write it (ls -l shows who may)")
    return path


def free_name(stem, ending):
    """A name for a new file: stem and ending, with a number between them if there is such a file already."""
    path, number = stem + ending, 2
    while os.path.exists(path):
        path, number = f"{stem}-{number}{ending}", number + 1
    return path
