"""The command prove: what lock guards which word is said by comments of a source or by options, and lines of sources stand behind addresses."""
import re
import subprocess

from . import assembler
from .files import read
from .home import program
from .places import Places
from .refusal import Refusal
from .refused import refuse
from .runs import inputs_of

# the comments: `#! lock 4 guards counter` and `#! counter = 3 * rounds`
GUARDS = re.compile(r"#!\s*lock\s+(\d+)\s+guards\s+(\w+)\s*$")
RULE = re.compile(r"#!\s*(\w+)\s*=\s*(.+?)\s*$")
PROVED, NOT_PROVED, NOT_FOLLOWED = 0, 10, 14
FAULT = re.compile(r"(not proved|cannot follow): (\S+), address (\d+),")


def said_in(paths):
    """What the comments of sources say: the lock, the name of its word, and the rule, or none of each."""
    lock = word = rule = None
    for path in paths:
        for line in read(path, "the source").decode("utf-8", "replace").splitlines():
            if found := GUARDS.search(line):
                lock, word = found.groups()
            elif (found := RULE.search(line)) and found[1] in (word, None):
                rule = found[2]
    return lock, word, rule


def address_of(word, sources):
    """The address of a word, which is a number or a label of a source."""
    if word.isdecimal():
        return word
    labels = {label: at for source in sources for at, label in assembler.labels_of(read(source, "the source").decode("utf-8", "replace"))}
    if word not in labels:
        raise Refusal(f"no source has a label `{word}`: name the word that the lock guards by its label or its address")
    return str(labels[word])


def claim(words, sources):
    """The lock, the word as it was named, its address, and the rule. Refused if one of them isn't said."""
    lock, word, rule = said_in(sources)
    lock, word, rule = words.lock or lock, words.word or word, words.rule or rule
    for what, option, form in ((lock, "--lock N", "#! lock 4 guards counter"), (word, "--word LABEL", "#! lock 4 guards counter"),
                               (rule, "--rule RULE", "#! counter = rounds")):
        if what is None:
            raise Refusal(f"what is to be proved isn't said: write `{form}` into a source, or name {option}")
    return lock, word, address_of(word, sources), rule


def told(text, programs, word, address):
    """The answer with the names that were typed, and the line of the source behind the address of a fault."""
    for one in programs:
        text = text.replace(one.image, one.typed)
    if word != address:
        text = text.replace(f"the word at {address}", f"{word} (at {address})")
    places = Places(programs)
    for line in text.splitlines():
        found = FAULT.match(line)
        at = places.lines([int(found[3])]) if found else {}
        yield line + "".join(f"  ({place})" for _, place in at.values())


def prove(words, programs, folder):
    """Proves that programs keep the rule of a lock on every schedule, or says where that can't be shown."""
    sources = [one.source for one in programs if one.source and one.source.endswith(".s")]
    lock, word, address, rule = claim(words, sources)
    line = ["--lock", str(lock), "--word", address, "--rule", rule, *(one.image for one in programs)]
    ran = subprocess.run([program(), "prove", *line], capture_output=True, text=True, errors="replace", check=False)
    if ran.returncode == 2:
        raise Refusal(f"--lock {lock}, --word {word} or --rule {rule} isn't one that can be proved: a semaphore from 4 to 127, and a rule such as "
                      "rounds, 3 * rounds or 100 - rounds")
    if ran.returncode not in (PROVED, NOT_PROVED, NOT_FOLLOWED):
        refuse(ran.stderr, ran.returncode, inputs_of(words, programs, folder))
    print("\n".join(told(ran.stdout, programs, word, address)))
    return ran.returncode
