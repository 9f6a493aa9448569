"""How a run ended, in sentences."""
from judge import OF_KERNEL, STATES

TRAPS = {"fetch": "it went on outside RAM", "illegal": "an instruction that there isn't", "break": "ebreak", "target": "a jump to no multiple of 4",
         "load": "a load from outside RAM, or not from a multiple of its width", "store": "a store outside RAM, or not at a multiple of its width"}


def name_of(row):
    """The name of a process, from its row of the tables."""
    name = row[6] if row[6:] else "-"
    return "" if name == "-" else " " + bytes.fromhex(name).decode("utf-8", "replace")


def doing(row, semaphores):
    """What a process does, in words."""
    semaphore = semaphores.get(row[1])
    if semaphore in OF_KERNEL:
        return OF_KERNEL[semaphore]
    return STATES.get(row[2], row[2]).replace("waits on", "waits for") + (f" {semaphore}" if semaphore else "")


def left_words(tables):
    """The processes that are left, in words: eight of them, and how many more there are."""
    rows, semaphores = tables.left(), tables.semaphores()
    said = [f"{row[1]}{name_of(row)} {doing(row, semaphores)}" for row in rows[:8]]
    return "; ".join(said + ([f"{len(rows) - 8} more"] if len(rows) > 8 else []))


def trap_words(trap):
    """A trap in a sentence."""
    return f"Process {trap[0]} was trapped: {TRAPS.get(trap[1], trap[1])}."


def strange_words(call):
    """A call of a number that the kernel doesn't have, in a sentence: so the C library tells with which status a program exits."""
    process, number = call[0], int(call[2])
    if 1000 < number < 1256:
        return f"Process {process} exited with status {number - 1000}."
    return f"Process {process} made call {number}, which there isn't: 1 to 44 are calls (docs/CALLS.md)."


def ending(run, has_schedule):
    """How a run ended, in a sentence, and what to do next in another if there is something to do."""
    at = f"at tick {run.tables.tick()}" if run.tables else ""
    if run.end == "done":
        return f"The run is done {at}: no process is left.", None
    if run.end == "panic":
        return f"The kernel panicked {at}: the ports together had room for no more messages.", "why"
    left = left_words(run.tables)
    if run.tables.is_stuck():
        return f"Nobody can go on {at}: {left}.", "term" if run.tables.waits_for_console() else "why"
    if has_schedule:
        return f"The schedule is over {at}: {left}.", "why"
    return f"After {run.rounds} rounds it still runs: {left}.", "rounds"


def advice(next_step, words):
    """What to type next, or none."""
    line = " ".join(words)
    return {"why": f"xinu why {line}  says more", "term": f"xinu term {line}  types to it",
            "rounds": f"xinu run --rounds N {line}  gives it more rounds; xinu why {line}  says where it is"}.get(next_step)
