"""Further schedules, drawn from a lab's text `further.txt` and a number: the same each time."""
import hashlib
import os

from .places import LABS


class Draw:
    """Numbers that are drawn from words: the same each time."""

    def __init__(self, *words):
        self.seed, self.count = "/".join(map(str, words)), 0

    def between(self, least, most):
        """A number from least to most."""
        self.count += 1
        digest = hashlib.sha256(f"{self.seed}/{self.count}".encode()).digest()
        return least + int.from_bytes(digest, "big") % (most - least + 1)


def number_of(word, draw):
    """A word of a line in which A..B is a number from A to B."""
    least, dots, most = word.partition("..")
    return str(draw.between(int(least), int(most))) if dots else word


def line_of(item, draw):
    """A line of the schedule: after `either` one of those between bars is drawn."""
    if item.startswith("either "):
        choices = item[7:].split("|")
        item = choices[draw.between(0, len(choices) - 1)]
    return " ".join(number_of(word, draw) for word in item.split())


def drawn(text, draw):
    """A schedule drawn from a text; after `repeat N:` the lines between commas are drawn N times."""
    lines = []
    for line in text.splitlines():
        if not line.strip() or line.startswith("#"):
            continue
        head, colon, items = line.partition(":")
        times = int(line_of(head, draw).split()[1]) if colon else 1
        for _ in range(times):
            lines += [line_of(item.strip(), draw) for item in (items if colon else line).split(",")]
    return "\n".join(lines) + "\n"


def schedules_of(lab, number, further):
    """The schedule of a lab, and so many further ones that a number gives."""
    with open(os.path.join(LABS, lab, "schedule.txt"), encoding="utf-8") as file:
        yield file.read()
    with open(os.path.join(LABS, lab, "further.txt"), encoding="utf-8") as file:
        text = file.read()
    for k in range(further):
        yield drawn(text, Draw(number, lab, k))
