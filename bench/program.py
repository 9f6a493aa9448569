"""Finds the programs that the scripts of bench/ and sdk/ run.

`built("xinu_run")` is $XINU_RUN if that is set, and else crates/xinu_run/out/xinu_run, which `sdk/build` leaves there proved and
`sdk/build --quick` unproved. If it isn't there, or one of its sources is newer, it is built first, without proofs. A line on standard error
says which program it is. Other programs are found likewise, as file_bench by $FILE_BENCH."""
import functools
import glob
import hashlib
import os
import subprocess
import sys

TOP = os.path.dirname(os.path.dirname(os.path.abspath(__file__)))


def crate(name):
    """The folder of a crate."""
    return os.path.join(TOP, "crates", name)


def place(name):
    """Where a program lies once it is built."""
    return os.path.join(crate(name), "out", name)


def stamp(name):
    """The file that `rt run` writes beside a program that it proved. Its text ends with the program's sum."""
    return place(name) + ".stamp"


def is_proved(name):
    """Whether the program that lies there is one that `rt run` proved."""
    if not (os.path.exists(stamp(name)) and os.path.exists(place(name))):
        return False
    with open(place(name), "rb") as program, open(stamp(name), encoding="utf-8") as text:
        return text.read().endswith(hashlib.sha256(program.read()).hexdigest())


def stored(name, file):
    """The text of a file of a crate, empty if there is none."""
    path = os.path.join(crate(name), file)
    if not os.path.exists(path):
        return ""
    with open(path, encoding="utf-8") as text:
        return text.read()


def arguments(name):
    """The stored arguments of a program, in which names of files are seen from its crate's folder."""
    words = stored(name, "args").splitlines()
    return [f"data/{word}" if os.path.exists(os.path.join(crate(name), "data", word)) else word for word in words]


def stored_run(name, words):
    """What these words and the stored arguments of a program print from its stored input, and whether that is as it is stored."""
    typed = stored(name, "stdin").encode()
    ran = subprocess.run([*words, *arguments(name)], cwd=crate(name), input=typed, stdout=subprocess.PIPE, check=False)
    printed = ran.stdout.decode("utf-8", "replace")
    return printed, ran.returncode == 0 and printed == stored(name, "stdout")


def kind(name):
    """Says where a program lies and whether it is proved."""
    what = "proved" if is_proved(name) else "UNPROVED, nothing of it is proved"
    return f"{os.path.relpath(place(name), TOP)}: {what}"


def libraries():
    """The libraries that each crate of crates.txt names."""
    with open(os.path.join(TOP, "crates.txt"), encoding="utf-8") as file:
        rows = [line.partition("#")[0].partition(":") for line in file]
    return {head.split()[0]: tail.split() for head, _, tail in rows if head.strip()}


def crates_below(name):
    """A crate, and the crates of the repository that it is built on."""
    uses, found = libraries(), [name]
    for at in found:
        found += [below for below in uses[at] if below in uses and below not in found]
    return found


def is_older(path, name):
    """Whether a file isn't there, or is older than one of the sources of a crate."""
    if not os.path.exists(path):
        return True
    sources = [path for at in crates_below(name) for path in glob.glob(os.path.join(crate(at), "src", "**", "*.rt"), recursive=True)]
    return max(map(os.path.getmtime, sources)) > os.path.getmtime(path)


def is_missing(name):
    """Whether a program isn't there, or one of its sources is newer."""
    return is_older(place(name), name)


@functools.lru_cache(maxsize=None)
def archive(name):
    """The path of a static library, which is proved and built if it is missing."""
    path = os.path.join(crate(name), "out", f"lib{name}.a")
    if is_older(path, name):
        print(f"{name}: rt lib", file=sys.stderr, flush=True)
        if subprocess.run(["rt", "lib"], cwd=crate(name), stdout=subprocess.DEVNULL, stderr=subprocess.DEVNULL, check=False).returncode:
            sys.exit(f"{name} wasn't built")
    return path


@functools.lru_cache(maxsize=None)
def built(name):
    """The path of a program, which is built without proofs if it is missing."""
    given = os.environ.get(name.upper())
    if given:
        return os.path.abspath(given)
    if is_missing(name):
        build = [os.path.join(TOP, "sdk", "build"), "--quick", name]
        if subprocess.run(build, stdout=sys.stderr, check=False).returncode:
            sys.exit(f"{name} wasn't built")
    else:
        print(kind(name), file=sys.stderr, flush=True)
    return place(name)
