"""Sources in assembler: what is wrong with a line that `asm` refused, in words, and at which address each line lies."""
import functools
import os
import re

from .home import SDK
from .schedules import like

# the faults of `asm`
BAD_LINE, UNKNOWN_NAME, OUT_OF_RANGE, DOUBLE_LABEL = 1, 2, 3, 4
REGISTERS = {f"x{k}" for k in range(32)} | {"zero", "ra", "sp", "gp", "tp"} | {f"t{k}" for k in range(7)} | {
    f"s{k}" for k in range(12)} | {f"a{k}" for k in range(8)}
WORD = (-2147483648, 4294967295)
SMALL = (-2048, 2047)
# the operands of each word, and the range of its number
FORMS = {
    **dict.fromkeys("add sub sll slt sltu xor srl sra or and".split(), ("rd, rs1, rs2", None)),
    **dict.fromkeys("addi slti sltiu xori ori andi".split(), ("rd, rs1, n", SMALL)),
    **dict.fromkeys("slli srli srai".split(), ("rd, rs1, n", (0, 31))),
    **dict.fromkeys("lb lh lw lbu lhu jalr".split(), ("rd, n(rs1)", SMALL)),
    **dict.fromkeys("sb sh sw".split(), ("rs2, n(rs1)", SMALL)),
    **dict.fromkeys("beq bne blt bge bltu bgeu".split(), ("rs1, rs2, label", None)),
    **dict.fromkeys("fence ecall ebreak nop ret .align".split(), ("", None)),
    **dict.fromkeys("lui auipc".split(), ("rd, n", (0, 1048575))),
    "jal": ("rd, label", None), "j": ("label", None), "la": ("rd, label", None), "li": ("rd, n", WORD), "mv": ("rd, rs", None),
    "sys": ("NAME", None), ".word": ("n", WORD), ".byte": ("n", (-128, 255)), ".zero": ("n", (0, 1048576)), ".ascii": ('"text"', None),
    ".place": ("n", (0, 1048572)), ".entry": ("label", None), ".priority": ("n", (1, 32767)), ".stack": ("n", (0, 4294967295)),
}
NAME, NUMBER = r"[A-Za-z_][A-Za-z0-9_]*", r"-?[0-9]+|0x[0-9a-fA-F]+"
QUOTED = re.compile(r'"(?:\\.|[^"\\])*"')


@functools.lru_cache(maxsize=None)
def calls():
    """The names of the kernel's calls, as xinu.h has them."""
    with open(os.path.join(SDK, "xinu.h"), encoding="utf-8") as file:
        return re.findall(r"^static inline .*?[ *](\w+)\([^()]*\)\n\t\{", file.read(), re.M)


def parts_of(line):
    """The labels of a line, its word, and its operands; a comment is none of it."""
    texts = [found.span() for found in QUOTED.finditer(line)]
    end = next((at for at, sign in enumerate(line) if sign == "#" and not any(low <= at < high for low, high in texts)), len(line))
    rest, labels = line[:end].strip(), []
    while found := re.match(rf"({NAME}):\s*", rest):
        labels.append(found[1])
        rest = rest[found.end():]
    word, operands = (rest.split(None, 1) + ["", ""])[:2]
    split = [operands] if operands.startswith('"') else operands.split(",")
    return labels, word, [operand.strip() for operand in split] if operands else []


def value_of(number):
    """The value of a number as it is written."""
    return int(number, 16 if number.startswith("0x") else 10)


def operand_fault(kind, operand, span, labels):
    """What is wrong with an operand that stands for a kind such as `rd`, as a fault and words, or none."""
    if kind in ("rd", "rs", "rs1", "rs2"):
        if operand in REGISTERS:
            return None
        is_name = re.fullmatch(NAME, operand)
        return (UNKNOWN_NAME, f"there is no register `{operand}`") if is_name else (BAD_LINE, f"`{operand}` stands where a register has to be")
    if kind == "NAME":
        return None if operand in calls() else (UNKNOWN_NAME, f"there is no call `{operand}`{like(operand, calls())}")
    if kind == "label" or kind == "n" and span == WORD and re.fullmatch(NAME, operand) and labels is not None:
        return None if operand in labels else (UNKNOWN_NAME, f"there is no label `{operand}`{like(operand, labels)}")
    if kind == "n":
        if not re.fullmatch(NUMBER, operand):
            is_name = re.fullmatch(NAME, operand)
            return (UNKNOWN_NAME if is_name else BAD_LINE), f"`{operand}` stands where a number has to be"
        return None if span[0] <= value_of(operand) <= span[1] else (OUT_OF_RANGE, f"`{operand}` isn't {span[0]} to {span[1]}")
    if kind == '"text"':
        return None if QUOTED.fullmatch(operand) else (BAD_LINE, f"`{operand}` stands where a text between quotes has to be")
    inner = re.fullmatch(r"(.*)\((.*)\)", operand)
    if not inner:
        return BAD_LINE, f"`{operand}` stands where `n(register)` has to be, as in `0(a0)`"
    return operand_fault("n", inner[1], span, labels) or operand_fault("rs1", inner[2], span, labels)


def word_fault(word, operands, labels):
    """What is wrong with a word and its operands, as a fault and words, or none."""
    if word not in FORMS and word.endswith(":"):
        return BAD_LINE, f"`{word[:-1]}` is no label: a letter or `_` comes first, and then letters, digits and `_`"
    if word not in FORMS:
        kind = "directive" if word.startswith(".") else "instruction"
        return (UNKNOWN_NAME if re.fullmatch(rf"\.?{NAME}", word) else BAD_LINE), f"there is no {kind} `{word}`{like(word, FORMS)}"
    form, span = FORMS[word]
    kinds = form.split(", ") if form else []
    if len(kinds) != len(operands):
        count = f"{len(operands)} operand{'s are' if len(operands) != 1 else ' is'} written"
        return BAD_LINE, f"`{word}` takes " + (f"`{form}`, and {count}" if form else f"no operand, and {count}")
    named = labels if word == ".word" else None
    faults = [operand_fault(kind, operand, span, labels if kind == "label" else named) for kind, operand in zip(kinds, operands)]
    return next((fault for fault in faults if fault), None)


def fault_words(lines, number, fault):
    """The words for a fault that `asm` found in a line, by its number and its fault's."""
    if number == 0:
        return "it is too long for RAM, or has more than 1048576 bytes" if fault == OUT_OF_RANGE else "it has no instruction to begin with"
    labels, word, operands = parts_of(lines[number - 1])
    known = {label: at for at, line in reversed(list(enumerate(lines, 1))) for label in parts_of(line)[0]}
    if fault == DOUBLE_LABEL:
        twice = next((label for label in labels if known[label] < number or labels.count(label) > 1), "")
        return f"the label `{twice}` is on line {known.get(twice, number)} already"
    found = word_fault(word, operands, known) if word else None
    if found and found[0] == fault:
        return found[1]
    if fault == OUT_OF_RANGE and operands and FORMS.get(word, ("",))[0].endswith("label"):
        return f"`{operands[-1]}` is too far away, or an odd number of bytes: {'4 KiB' if word.startswith('b') else '1 MiB'} each way at most"
    if fault == OUT_OF_RANGE:
        return "it isn't at a multiple of 4 (write `.align` before it), or doesn't fit RAM"
    return directive_words(lines, number, word)


def directive_words(lines, number, word):
    """The words for a line that is bad although its operands are good: a directive that is here already, or too late."""
    before = [at for at, line in enumerate(lines[:number - 1], 1) if parts_of(line)[1] == word]
    if before and word in (".place", ".entry", ".priority", ".stack"):
        return f"`{word}` is on line {before[0]} already, and may be written once"
    if word == ".place":
        return "`.place` comes before all labels, instructions and content"
    return "it isn't written as one of the forms of docs/ASSEMBLER.md"


def size_of(word, operands, at):
    """How many bytes a line of a good source puts at an address."""
    if word in ("li", "la", "sys"):
        return 8
    if word == ".ascii":
        return len(re.sub(r"\\.", "x", operands[0])) - 2
    if word in (".entry", ".priority", ".stack", ".place", ""):
        return 0
    return {".byte": 1, ".zero": value_of(operands[0]) if word == ".zero" else 0, ".align": -at % 4}.get(word, 4)


def listing(text):
    """The address of each line of a good source that puts bytes, as pairs with its number, and the first address after them."""
    found, at = [], 0
    for number, line in enumerate(text.splitlines(), 1):
        _, word, operands = parts_of(line)
        if word == ".place":
            at = value_of(operands[0])
        size = size_of(word, operands, at)
        found += [(at, number)] if size else []
        at += size
    return found, at


def labels_of(text):
    """The labels of a good source with their addresses, ascending."""
    found, at = [], 0
    for line in text.splitlines():
        labels, word, operands = parts_of(line)
        found += [(at, label) for label in labels]
        at = value_of(operands[0]) if word == ".place" else at + size_of(word, operands, at)
    return found
