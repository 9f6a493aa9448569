"""Programs that are to be proved for every schedule: what lab 13 and sdk/grade share.

A line of a lab's table `proofs.txt` is a name and, after a colon, the programs that are proved together: the first one is the lab's, which
says the lock, its word and the rule, and the others are the student's. It holds if `xinu prove` says `proved`, and each of the student's
programs has the lock somewhere: one that never touches the word is proved too, and does nothing."""
import os
import re

from front.proving import address_of, said_in
from judge import limited

XINU = os.path.join(os.path.dirname(os.path.realpath(__file__)), "xinu")
HAVE = re.compile(r"^  with the lock: (.*)$", re.M)


class Claim:
    """A line of the table."""

    def __init__(self, line):
        self.name, _, rest = line.partition(":")
        self.given, *self.handed_in = rest.split()

    def asked(self, folder):
        """The options that say what is to be proved as the lab's own program says it, whatever the student's comments say."""
        given = os.path.join(folder, self.given)
        lock, word, rule = said_in([given])
        return "--lock", lock, "--word", address_of(word, [given]), "--rule", rule

    def fault(self, folder, seconds):
        """What is wrong with the programs in a folder, or none."""
        missing = [name for name in self.handed_in if not os.path.exists(os.path.join(folder, name))]
        if missing:
            return f"there is no {missing[0]}"
        status, printed, said = limited([XINU, "prove", *self.asked(folder), self.given, *self.handed_in], folder, seconds)
        if status is None:
            return f"it takes more than {seconds} s"
        if status != 0:
            return next(iter((printed or said).splitlines()), "it isn't proved")
        idle = [name for name in self.handed_in if f"{name} never" in HAVE.search(printed)[1]]
        return f"{idle[0]} never has the lock" if idle else None


def claims_of(path):
    """The lines of a table."""
    with open(path, encoding="utf-8") as file:
        return [Claim(line) for line in file if line.strip() and not line.startswith("#")]
