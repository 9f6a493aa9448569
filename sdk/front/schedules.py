"""Schedules: what is wrong with a line, the lines that type, and schedules with preemptions put in."""
import difflib
import re

MOST_BYTES, MOST_EVENTS = 4194304, 1000000000
COUNTED, ALONE = ("step", "tick", "tx", "disk0", "disk1", "round"), ("fail0", "fail1", "dump")
EVENTS_OF_ROUND = {"step": 1000, "tx": 64, "disk1": 8, "disk0": 8, "tick": 1}
FORMS = "step, tick, tx, disk0, disk1 and round with a number; type with bytes; fail0, fail1 and dump alone"


def like(word, words):
    """Words that ask whether another one was meant."""
    close = difflib.get_close_matches(word, words, 1)
    return f"; did you mean `{close[0]}`?" if close else ""


def number_fault(word, number):
    """What is wrong with the number of an event, or none."""
    if not re.fullmatch("[0-9]{1,10}", number):
        return f"`{number}` is no number of one to ten decimal digits"
    if not 1 <= int(number) <= MOST_EVENTS:
        return f"`{number}` isn't 1 to {MOST_EVENTS}, the numbers that `{word}` takes"
    return None


def surplus_fault(rest):
    """What is wrong with the words after a whole event, or none."""
    if rest and rest[0].startswith("#"):
        return f"a comment has a line of its own: put `{' '.join(rest)}` on another line"
    return f"`{rest[0]}` is one word too many" if rest else None


def typed_fault(tokens):
    """What is wrong with the bytes of a line `type`, or none."""
    if not tokens:
        return "`type` takes the bytes that are typed, as in `type 68 69 0d`"
    wrong = [token for token in tokens if not re.fullmatch("[0-9a-fA-F]{2}", token)]
    if wrong:
        return f"`{wrong[0]}` is no byte of two hexadecimal digits (sdk/type makes such lines of a text)"
    return f"it types {len(tokens)} bytes, and a line at most 64: go on with `type` on another line" if len(tokens) > 64 else None


def line_fault(line):
    """What is wrong with a line by itself, or none."""
    words = line.split()
    if not words or words[0].startswith("#"):
        return None
    word, rest = words[0], words[1:]
    if word == "type":
        return typed_fault(rest)
    if word in ALONE:
        return surplus_fault(rest)
    if word not in COUNTED:
        known = like(word, [*COUNTED, *ALONE, "type"])
        return f"there is no event `{word}`" + (known or f": there are {FORMS}")
    if not rest:
        return f"`{word}` takes a number, as in `{word} 10`"
    return number_fault(word, rest[0]) or surplus_fault(rest[1:])


def events_of(line):
    """How many events a good line asks for."""
    words = line.split()
    if not words or words[0].startswith("#"):
        return 0
    if words[0] == "round":
        return int(words[1]) * sum(EVENTS_OF_ROUND.values())
    return len(words) - 1 if words[0] == "type" else int(words[1]) if words[0] in COUNTED else 1


def fault_at(lines):
    """The number of the first line that is wrong, and what is wrong with it, or none."""
    total = 0
    for number, line in enumerate(lines, 1):
        fault = line_fault(line)
        if fault:
            return number, fault
        total += events_of(line)
        if total > MOST_EVENTS:
            return number, f"with this line there are {total} events, and a schedule has at most {MOST_EVENTS}"
    return None


def runs_of(lines):
    """A schedule's events as pairs of a kind and how many follow each other; of a line `type` the kind is the line."""
    for line in lines:
        words = line.split()
        if not words or words[0].startswith("#"):
            continue
        if words[0] == "round":
            for _ in range(int(words[1])):
                yield from EVENTS_OF_ROUND.items()
        else:
            yield (words[0], int(words[1])) if words[0] in COUNTED else (" ".join(words), max(1, len(words) - 1))


def preempted(lines, places):
    """The lines of a schedule in which a quantum ends (`tick 2`) ahead of the step that follows so many steps, for each place; and for
    each place how many events were taken ahead of the ticks there."""
    found, events, steps, taken, left = [], [], 0, 0, list(places)
    for kind, count in runs_of(lines):
        while kind == "step" and left and steps + count > left[0]:
            ahead = left.pop(0) - steps
            found += [f"step {ahead}"] * (ahead > 0) + ["tick 2"]
            events.append(taken + ahead)
            steps, taken, count = steps + ahead, taken + ahead + 2, count - ahead
        found.append(f"{kind} {count}" if kind in COUNTED else kind)
        steps, taken = steps + count * (kind == "step"), taken + count
    return found, events
