"""What `xinu_run judge --pairs` prints of a run, against the races that the second detector finds in it: the same owners of bytes in the same
order, each with the same pairs of places, and of each the pair of accesses that comes first."""
import re

ACCESS = re.compile(r"  event ")


def life_of(machine, number, event):
    """The process that had a number as an event came."""
    return next((it for it in machine.lives if it["number"] == number and it["born"] < event <= it["died"]), None)


def who(life):
    """A process, as it is told."""
    return f"{life['number']} {life['name']}".strip()


def last(found):
    """The last of these, or none."""
    found = list(found)
    return found[-1] if found else None


def owner_of(machine, byte, event):
    """The owner of a byte as an event came, as (key, words): a stack, a block, a buffer; else what it belonged to before, or its word."""
    lives = [it for it in machine.lives if it["low"] <= byte < it["end"] and it["born"] <= event]
    blocks = [it for it in machine.blocks if it["low"] <= byte < it["end"] and it["event"] <= event]
    life = last(it for it in lives if it["born"] < event <= it["died"])
    block = last(it for it in blocks if it["event"] < event <= it["freed"])
    pool = next((it for it in machine.pools if it.made <= event and it.base <= byte < it.base + len(it.buffers) * (it.size + 4)), None)
    if not life and not block and pool:
        return ("buffer", (byte - pool.base) // (pool.size + 4), pool.base), f" on a buffer of pool {machine.pools.index(pool)},"
    if life or not block and lives:
        life = life or lives[-1]
        below = life["end"] - byte
        return ("stack", life["low"], life["born"]), f" on the stack of {who(life)}, {below} byte{'' if below == 1 else 's'} below its top,"
    if block or blocks:
        block = block or blocks[-1]
        holder = who(life_of(machine, block["process"], block["event"]))
        return ("block", block["event"]), f" on memory that {holder} got by {block['call']} in event {block['event']},"
    return ("word", byte // 4), ""


def access_line(machine, access):
    """An access, as it is told."""
    life = life_of(machine, access.process, access.event)
    if access.stores and life["died"] == access.event and life["low"] <= access.byte < life["end"]:
        return f"  event {access.event}: {who(life)} dies, its stack is given back"
    call = machine.calls.get(access.event)
    in_call = f" (in {call})" if call else ""
    return f"  event {access.event}: {who(life)} {'stores' if access.stores else 'loads'}{in_call} at 0x{access.place:08x}"


def expected(machine, told):
    """The reports that these pairs make: of each owner its head, and groups of pairs that are told as one access is made. A group says of each
    pair of places which two lines tell it: those of any pair of accesses of that group at these places."""
    reports = {}
    for x, y in told:
        key, words = owner_of(machine, y.byte, y.event)
        head, groups, places = reports.setdefault(key, (f"Data race{words} at 0x{y.byte:08x}:", {}, {}))
        spot = min(x.place, y.place), max(x.place, y.place)
        if places.setdefault(spot, y.turn) == y.turn:
            groups.setdefault(y.turn, {}).setdefault(spot, set()).add((access_line(machine, x), access_line(machine, y)))
    return [(head, list(groups.values())) for head, groups, _ in reports.values()]


def printed(text):
    """The reports of a text that `judge --pairs` prints, as (head, pairs of lines), and its last line."""
    *lines, end = text.splitlines()
    reports = []
    for line in lines:
        if line.startswith("Data race"):
            reports.append((line, []))
        elif ACCESS.match(line):
            reports[-1][1].append(line)
    return [(head, list(zip(pairs[::2], pairs[1::2]))) for head, pairs in reports], end


def fits(groups, pairs):
    """Whether the pairs that are printed are those of the groups, one after another, each pair of places once."""
    at = 0
    for group in groups:
        taken, at = pairs[at : at + len(group)], at + len(group)
        if len(taken) < len(group) or not all(any(pair in lines for pair in taken) for lines in group.values()):
            return False
    return at == len(pairs)


def compare(machine, told, text):
    """What is different, as a list of lines; none if nothing is."""
    wanted, (found, end) = expected(machine, told), printed(text)
    count = "No data race" if not wanted else "1 data race" if len(wanted) == 1 else f"{len(wanted)} data races"
    last_line = f"{count} in {machine.now} event{'' if machine.now == 1 else 's'}."
    differ = [] if end == last_line else [f"last line: {end!r}, wanted {last_line!r}"]
    for k in range(max(len(wanted), len(found))):
        head, groups = wanted[k] if k < len(wanted) else ("nothing", [])
        other, pairs = found[k] if k < len(found) else ("nothing", [])
        if head != other:
            differ.append(f"report {k + 1}: {other!r}, wanted {head!r}")
        elif not fits(groups, pairs):
            differ.append(f"{head} told {pairs}, wanted {[sorted(map(sorted, group.values())) for group in groups]}")
    return differ

