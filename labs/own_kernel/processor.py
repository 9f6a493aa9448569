"""The processor: the forty instructions of RV32I, on a bytearray as RAM.

`step` takes one instruction of a process, whose registers are `x` and whose address is `pc`. It answers None, `ecall`, or the cause of a
trap, which changes nothing (docs/FORMATS.md, Instructions)."""

SIZE = 0x100000


def signed(word):
    """A word of 32 bits as a signed number."""
    return word - (1 << 32) if word >> 31 else word


def extended(value, bits):
    """A value of so many bits, with its sign, as a word."""
    return (value ^ (1 << (bits - 1))) - (1 << (bits - 1)) & 0xFFFFFFFF


def branch_of(word):
    """The immediate of a branch."""
    return extended((word >> 31) << 12 | (word >> 7 & 1) << 11 | (word >> 25 & 63) << 5 | (word >> 8 & 15) << 1, 13)


def jump_of(word):
    """The immediate of `jal`."""
    return extended((word >> 31) << 20 | (word >> 12 & 255) << 12 | (word >> 20 & 1) << 11 | (word >> 21 & 1023) << 1, 21)


def alu(function, a, b, is_other):
    """An operation on words; the other one is `sub` for `add`, `sra` for `srl`."""
    results = (
        a - b if is_other else a + b, a << (b & 31), signed(a) < signed(b), a < b,
        a ^ b, (signed(a) if is_other else a) >> (b & 31), a | b, a & b,
    )
    return int(results[function]) & 0xFFFFFFFF


def is_taken(function, a, b):
    """Whether a branch is taken, or none if there is no such branch."""
    tests = {0: a == b, 1: a != b, 4: signed(a) < signed(b), 5: signed(a) >= signed(b), 6: a < b, 7: a >= b}
    return tests.get(function)


def reach(ram, address, width):
    """Whether a load or a store may have these addresses."""
    return address % width == 0 and address + width <= len(ram)


def load(p, ram, word, function, rd):
    """A load."""
    width = {0: 1, 1: 2, 2: 4, 4: 1, 5: 2}.get(function)
    if width is None:
        return "illegal"
    address = p.x[word >> 15 & 31] + extended(word >> 20, 12) & 0xFFFFFFFF
    if not reach(ram, address, width):
        return "load"
    value = int.from_bytes(ram[address : address + width], "little")
    return put(p, rd, extended(value, 8 * width) if function < 4 else value)


def store(p, ram, word, function):
    """A store."""
    if function > 2:
        return "illegal"
    width = 1 << function
    address = p.x[word >> 15 & 31] + extended((word >> 25) << 5 | word >> 7 & 31, 12) & 0xFFFFFFFF
    if not reach(ram, address, width):
        return "store"
    ram[address : address + width] = (p.x[word >> 20 & 31] & (1 << 8 * width) - 1).to_bytes(width, "little")
    return put(p, 0, 0)


def go(p, rd, target):
    """A jump: rd gets the address behind it."""
    if target % 4:
        return "target"
    value = p.pc + 4 & 0xFFFFFFFF
    p.pc = target - 4 & 0xFFFFFFFF
    return put(p, rd, value)


def put(p, rd, value):
    """An instruction ends: rd has a value, unless it is x0, and the next instruction follows."""
    if rd:
        p.x[rd] = value & 0xFFFFFFFF
    p.pc = p.pc + 4 & 0xFFFFFFFF


def compute(p, word, function, rd):
    """An operation on registers, or on a register and an immediate."""
    a, b, seven = p.x[word >> 15 & 31], p.x[word >> 20 & 31], word >> 25
    if word & 0x7F == 0x33:
        if seven not in (0, 32) or seven == 32 and function not in (0, 5):
            return "illegal"
        return put(p, rd, alu(function, a, b, seven == 32))
    if function in (1, 5):
        if seven not in (0, 32) or seven == 32 and function == 1:
            return "illegal"
        return put(p, rd, alu(function, a, word >> 20 & 31, seven == 32))
    return put(p, rd, alu(function, a, extended(word >> 20, 12), False))


def step(p, ram):
    """Takes one instruction."""
    if p.pc % 4 or p.pc + 4 > len(ram):
        return "fetch"
    word = int.from_bytes(ram[p.pc : p.pc + 4], "little")
    code, rd, function = word & 0x7F, word >> 7 & 31, word >> 12 & 7
    if word in (0x73, 0x100073):
        return "ecall" if word == 0x73 else "break"
    if code in (0x37, 0x17):
        return put(p, rd, (word & 0xFFFFF000) + (p.pc if code == 0x17 else 0))
    if code == 0x6F:
        return go(p, rd, p.pc + jump_of(word) & 0xFFFFFFFF)
    if code == 0x67 and function == 0:
        return go(p, rd, p.x[word >> 15 & 31] + extended(word >> 20, 12) & 0xFFFFFFFE)
    if code == 0x63:
        taken = is_taken(function, p.x[word >> 15 & 31], p.x[word >> 20 & 31])
        if taken is None:
            return "illegal"
        return go(p, 0, p.pc + branch_of(word) & 0xFFFFFFFF) if taken else put(p, 0, 0)
    if code == 0x03:
        return load(p, ram, word, function, rd)
    if code == 0x23:
        return store(p, ram, word, function)
    if code in (0x13, 0x33):
        return compute(p, word, function, rd)
    return put(p, 0, 0) if code == 0x0F and function == 0 else "illegal"
