"""The lab in Rattle: `rt` proves a student's `pool.rt` over the layer, and has to refuse wrong bodies below the same contracts."""
import fcntl
import functools
import glob
import hashlib
import itertools
import os
import re
import shutil
import subprocess

from .places import LABS
from .results import Result, Row, nothing
from .taking import take_files

SECONDS = 1200  # for a check; the first one proves the layer too, for minutes
WRONG_BODIES = {"give": "        false", "number_of": "    None"}
ENSURES = re.compile(r"^ +ensures (\w+) \{.*\}$", re.M)
PROVED = re.compile(r"^fn pool::pool::(?:Pool::)?(\w+): proved$", re.M)


class Repository:
    """A repository that `make start` of the lab makes, in which the layer is proved once. It is kept beside other caches, and one process at a
    time has it; each sum of the layer's sources and of the toolchain has its own."""

    def __init__(self, lab):
        self.lab = os.path.join(LABS, lab)
        kept = os.path.join(os.environ.get("XDG_CACHE_HOME") or os.path.expanduser("~/.cache"), "xinu", f"{lab}-{sum_of(self.lab)}")
        os.makedirs(kept, exist_ok=True)
        for number in itertools.count():
            self.place = os.path.join(kept, str(number))
            self.lock = open(self.place + ".lock", "w", encoding="utf-8")  # held until this process ends
            try:
                fcntl.flock(self.lock, fcntl.LOCK_EX | fcntl.LOCK_NB)
                break
            except OSError:
                self.lock.close()
        if not os.path.exists(self.place):
            made = self.place + ".made"
            shutil.rmtree(made, ignore_errors=True)
            subprocess.run(["make", "-s", "-C", self.lab, "start", f"PLACE={made}"], check=True, stdout=subprocess.DEVNULL)
            os.rename(made, self.place)

    def rt(self, verb, source):
        """What `rt` says of a source; none if the time was over."""
        pool = os.path.join(self.place, "crates", "pool")
        with open(os.path.join(pool, "src", "pool.rt"), "w", encoding="utf-8") as file:
            file.write(source)
        try:
            return subprocess.run(["rt", verb], cwd=pool, timeout=SECONDS, capture_output=True, encoding="utf-8", errors="replace")
        except subprocess.TimeoutExpired:
            return None

    def run(self, source):
        """Whether a source is proved, and what its program then prints; none if the time was over."""
        ran = self.rt("run", source)
        return (None, "") if ran is None else (ran.returncode == 0, ran.stdout)

    def proved(self, source):
        """The functions of a source that are proved; none if the time was over."""
        ran = self.rt("check", source)
        return None if ran is None else PROVED.findall(ran.stdout)


def sum_of(lab):
    """A sum of what the lab's repository is made of, and of the toolchain that proves it."""
    crates = os.path.join(os.path.dirname(LABS), "crates")
    made_of = [os.path.join(lab, "Makefile"), *glob.glob(os.path.join(lab, "start", "*"))]
    for crate in ("xinu_base", "queue_table"):
        made_of += [path for part in ("src", "specs", "proofs") for path in glob.glob(os.path.join(crates, crate, part, "**"), recursive=True)]
    whole = hashlib.sha256(subprocess.run(["rt", "version"], stdout=subprocess.PIPE, check=True).stdout)
    for path in sorted(filter(os.path.isfile, made_of)):
        with open(path, "rb") as file:
            whole.update(path.encode() + hashlib.sha256(file.read()).digest())
    return whole.hexdigest()[:16]


def needs_of_layer():
    """Why such a lab can't be graded, a reason a line."""
    layer = os.path.join(os.path.dirname(LABS), "crates", "queue_table")
    if not os.path.isdir(layer):
        yield f"no {layer}: grade in a clone"


@functools.lru_cache(maxsize=None)
def repository(lab):
    """The repository of a lab for this process, made when it is first asked for."""
    return Repository(lab)


def text_of(path):
    """The text of a file, empty if there is none."""
    if not os.path.exists(path):
        return ""
    with open(path, encoding="utf-8", errors="replace") as file:
        return file.read()


def contract(text, name):
    """The signature and the clauses of a function, a line each, or none if it isn't there."""
    found = re.search(rf"^( *)(?:pub\(crate\) )?fn {name}\(.*?^\1\{{$", text, re.M | re.S)
    return found and [line.strip() for line in found[0].splitlines()[:-1]]


def with_bodies(text, bodies):
    """The text with other bodies of some functions."""
    for name, body in bodies.items():
        whole = re.compile(rf"(^( *)(?:pub\(crate\) )?fn {name}\(.*?^\2\{{\n).*?(^\2\}}$)", re.M | re.S)
        text = whole.sub(lambda found: f"{found[1]}{body}\n{found[3]}", text, count=1)
    return text


def changed_contracts(given, text):
    """The functions whose signature or given clauses aren't there as they were, or that demand more of a caller."""
    for name in ("new", "take", "give", "number_of"):
        lines = contract(text, name) or []
        is_more = any(not ENSURES.match(" " + line) for line in lines if line not in contract(given, name))
        if is_more or not set(contract(given, name)) <= set(lines):
            yield name


def judged(given, text, wanted, place):
    """Whether each part of the lab is done, with words for what is wrong; what isn't proved isn't run, nor changed."""
    changed = list(changed_contracts(given, text))
    yield not changed, f"the contract of {', '.join(changed) or 'a function'} isn't the given one with further clauses, each on a line"
    if changed:
        return
    proved, printed = place.run(text)
    yield bool(proved), "it isn't proved" if proved is not None else f"rt takes more than {SECONDS} s"
    yield bool(proved) and printed == wanted, "the program prints another text than wanted.txt"
    # no wrong body calls another, so one check tries all
    still = place.proved(with_bodies(text, WRONG_BODIES)) if proved else None
    for name, body in WRONG_BODIES.items():
        refused = still is not None and name not in still
        yield refused, f"a wrong body of {name} ({body.strip()}) isn't refused by its contract"


def grade_layer(lab, folder, place, _words):
    """Proves a student's pool, and tries wrong bodies below its contracts."""
    take_files(folder, place, ("pool.rt",))
    text = text_of(os.path.join(place, "pool.rt"))
    if not text:
        return nothing("there is no pool.rt that can be taken")
    given, wanted = (text_of(os.path.join(LABS, lab, name)) for name in ("start/pool.rt.txt", "wanted.txt"))
    total = 3 + len(WRONG_BODIES)
    rows = [Row(words, held, 0, 100 / total * held, 100 / total) for held, words in judged(given, text, wanted, repository(lab))]
    held = sum(row.held for row in rows)
    wrong = next((row.words for row in rows if not row.held), None)
    return Result(f"{held}/{total}", "-", 100 * held // total, wrong, 0 if wrong else None, rows)
