"""What a run does with memory and what orders its processes, event by event, as crates/data_races/specs defines it; and its data races by
reachability over all pairs of accesses. There are no clocks here: a part knows each part from which it can be reached."""
import collections

# an access; its part is a number of Parts
Access = collections.namedtuple("Access", "turn event process stores place byte part")
RULES = ("wake", "birth", "death", "message", "token", "port", "buffer", "absence")


class Moment:
    """One event: who steps, its edges, as (rule, event, source, target), who dies, and its deeds in their order: (whether it stores, process,
    place, address, bytes), with none for the first three if the bytes are given. A part is (event, process)."""

    def __init__(self, number, stepper):
        self.number, self.stepper, self.edges, self.dead, self.deeds = number, stepper, [], [], []

    def lead(self, rule, target):
        """What the stepper did comes before what the target does next."""
        if target != self.stepper:
            self.edges.append((rule, self.number, self.stepper, target))

    def learn(self, rule, part):
        """What this part did comes before what the stepper does."""
        self.edges.append((rule, *part, self.stepper))

    def touch(self, stores, process, place, address, count):
        """A process loads or stores bytes."""
        self.deeds.append((stores, process, place, address, count))

    def give(self, address, count):
        """Bytes get a new owner."""
        self.deeds.append((None, None, None, address, count))


class Parts:
    """The parts of a run in the order of its events, and of each the set of parts that come before it, as the bits of a number."""

    def __init__(self, moments, without=()):
        self.numbers, self.before, self.last, self.pending = {}, [], {}, collections.defaultdict(list)
        for moment in moments:
            edges = [edge for edge in moment.edges if edge[0] not in without]
            others = [*moment.dead, *(process for _, process, *_ in moment.deeds if process)]
            for other in dict.fromkeys(others):
                if other != moment.stepper:
                    self.add(moment.number, other, [])
            if moment.stepper:
                self.add(moment.number, moment.stepper, [edge[1:3] for edge in edges if edge[3] == moment.stepper])
            for _, event, source, target in edges:
                if target != moment.stepper:
                    self.pending[target].append((event, source))

    def add(self, event, process, sources):
        """A part more: after its process's last one, after the edges that were to come to its process, and after these sources."""
        before = 0
        for source in [*sources, *self.pending.pop(process, []), *([self.last[process]] if process in self.last else [])]:
            number = self.numbers[source]
            before |= self.before[number] | 1 << number
        self.last[process] = event, process
        self.numbers[event, process] = len(self.before)
        self.before.append(before)

    def orders(self, x, y):
        """Whether part x comes before part y."""
        return self.before[y] >> x & 1 == 1


def races(moments, without=()):
    """All races (x, y) of a run, and of them those in which x is the last load, or the last store, of its process before y. Both in the order
    of y."""
    parts, owners, found, told, turn = Parts(moments, without), collections.defaultdict(list), [], [], 0
    for moment in moments:
        for stores, process, place, address, count in moment.deeds:
            for byte in range(address, address + count):
                turn += 1
                if stores is None:
                    owners.pop(byte, None)
                    continue
                y = Access(turn, moment.number, process, stores, place, byte, parts.numbers[moment.number, process])
                seen, last = owners[byte], {}
                for x in seen:
                    last[x.process, x.stores] = x
                racing = [x for x in seen if x.process != process and (x.stores or stores) and not parts.orders(x.part, y.part)]
                for x in racing:
                    latest = max((z for z in (last.get((x.process, True)), last.get((x.process, False)) if stores else None) if z),
                                 key=lambda z: z.turn)
                    if latest not in racing:
                        raise AssertionError(f"the last access {latest} that conflicts with {y} is ordered before it, but {x} isn't")
                found += [(x, y) for x in racing]
                told += [(x, y) for x in racing if last[x.process, x.stores] is x]
                seen.append(y)
    return found, told
