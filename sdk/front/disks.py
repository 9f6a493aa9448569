"""The command disk: actions on a disk with files, with their refusals in words."""
import os
import subprocess

from .files import free_name, read, writable
from .home import program
from .refusal import Refusal
from .refused import FULL, NO_MEMORY, disk_words

MOST_DISK = 33557504
# the arguments of each action, and those actions that write a disk or a file
ARGUMENTS = {"mkfs": ["blocks"], "ls": ["image"], "get": ["image", "name"], "put": ["image", "name", "file"], "check": ["image"], "repair": ["image"]}
WRITERS = ("mkfs", "get", "put", "repair")


def disk_refusal(words, status, said):
    """The words for what an action on a disk was refused for."""
    if status == 6:
        block, rule = map(int, said.split()[4::2])
        return disk_words(1, words.image, block, rule)
    if status == 12:
        return f"disk {words.image} has no file `{words.name}` (xinu disk ls {words.image} names its files)"
    if status == 13:
        size = os.path.getsize(words.file)
        return f"disk {words.image} has no room for {words.file}, which has {size} bytes (xinu disk mkfs makes a larger one)"
    return {7: NO_MEMORY, 3: FULL}.get(status, said.strip())


def look_at(words):
    """Refuses words of an action on a disk that can't be meant."""
    if words.action == "mkfs" and not (words.blocks.isdecimal() and 14 <= int(words.blocks) <= 65542 and len(words.blocks) <= 5):
        raise Refusal(f"`{words.blocks}` isn't 14 to 65542, the blocks that a disk with files may have")
    name = getattr(words, "name", None)
    if name is not None and not 1 <= len(name.encode()) <= 27:
        raise Refusal(f"`{name}` has {len(name.encode())} bytes, and the name of a file 1 to 27")
    if words.action != "mkfs":
        read(words.image, "the disk", MOST_DISK)
    if words.action == "put":
        read(words.file, "the file")


def file_lines(printed):
    """The lines of `ls` with the names as texts."""
    for line in printed.splitlines():
        _, size, name = line.split()
        yield f"{int(size):>9}  {bytes.fromhex(name).decode('utf-8', 'backslashreplace')}"


def disk(words):
    """Does an action on a disk with files."""
    look_at(words)
    out = ["--out", writable(words.out or default_out(words), "--out")] if words.action in WRITERS else []
    # what follows `--` is no option, whatever it begins with
    line = [program(), "disk", words.action, *out, "--", *(getattr(words, name) for name in ARGUMENTS[words.action])]
    ran = subprocess.run(line, capture_output=True, text=True, check=False)
    if ran.returncode:
        raise Refusal(disk_refusal(words, ran.returncode, ran.stderr), ran.returncode)
    lines = list(file_lines(ran.stdout)) or ["no file"] if words.action == "ls" else ran.stdout.splitlines()
    print("".join(f"{line}\n" for line in lines), end="")
    return 0


def default_out(words):
    """The file that an action writes if none is named: for `put` the disk itself, for `get` a new file of the name."""
    if words.action == "put":
        return words.image
    if words.action == "get" and os.sep not in words.name:
        return free_name(words.name, "")
    raise Refusal(f"`xinu disk {words.action}` needs --out FILE, the file that is made")
