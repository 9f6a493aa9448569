"""What `xinu_run` refuses, in words: the file, the reason, and what to do."""
import re

from . import elf
from .refusal import Refusal

BUILD = "build it by xinu.mk, or name its source"
IMAGE_FAULTS = {
    0: "it has more than 1048576 bytes, the most that is taken: make it smaller, or take what a debugger reads out of it (strip -g)",
    1: "it is neither an ELF program nor an image file, but shorter than either's header: name a .c, .s or .elf file",
    2: "it is neither an ELF program nor an image file: name a .c, .s or .elf file",
    3: "it is an image file of another version than 1: assemble it again",
    4: "it is an image file that was cut, or has bytes after its end: assemble it again",
    5: "it is an image file whose content doesn't end in RAM, or whose place isn't a multiple of 4: give it another `.place`",
    6: "it is an image file whose entry isn't a multiple of 4 inside its content: give it another `.entry`",
    7: "it is an image file whose priority isn't 1 to 32767: give it another `.priority`",
    11: f"it is an ELF file that was cut inside its header: {BUILD}",
    12: f"it is an ELF file, but not one of 32 bits, the lowest byte first: is it a program for this computer? {BUILD}",
    13: f"it is an ELF file, but no program for RISC-V: is it for another computer, or an object file (.o)? {BUILD}",
    14: f"it is an ELF file whose headers of segments aren't all there: {BUILD}",
    15: f"it is an ELF file that asks for another program to load it: {BUILD}, which links statically",
    16: "it doesn't end in RAM, which has 1048576 bytes, or was cut: make its variables smaller, take memory by getmem, or lower its PLACE",
    17: f"it is an ELF file with more than eight parts to load: {BUILD}",
    18: f"it is an ELF file of which two parts share an address: {BUILD}",
    19: "its entry isn't a multiple of 4 inside it: make its PLACE a multiple of 4",
    20: "its priority isn't 1 to 32767: change its XINU_IMAGE",
}
DISK_RULES = {
    1: "a name is too long, or is there twice", 2: "the number of files isn't that of the entries, or a byte that is fixed is another",
    3: "a file is larger than the disk", 4: "a number of a block names no block, or one too many", 5: "an index block hasn't the place that it says",
    6: "a block is in use twice", 7: "a block is neither in use nor free",
}
NO_MEMORY, FULL = "memory ran out on this computer", "the output couldn't be written: is the disk full?"
WHOLE = {0: "it isn't 8 to 65536 whole blocks of 512 bytes", 1: "it isn't whole blocks of 512 bytes, or not as many as a disk has"}


def shared(parts, others):
    """The first address that two programs share, or none."""
    starts = [max(part.address, other.address) for part in parts for other in others
              if max(part.address, other.address) < min(part.address + part.length, other.address + other.length)]
    return min(starts, default=None)


def overlap(programs, number):
    """Which earlier program a program overlaps, and what to do."""
    contents = [open_bytes(program.image) for program in programs[:number]]
    parts = [elf.loaded_parts(content) for content in contents]
    for program, others, content in zip(programs, parts[:-1], contents):
        at = shared(parts[-1], others)
        if at is not None:
            return (f"it shares address 0x{at:08x} with {program.typed}, which ends at 0x{elf.end_of(content):08x}: "
                    "give it another place (PLACE in its Makefile, `.place` in assembler)")
    return "it shares an address with an earlier program: give it another place"


def open_bytes(path):
    """The bytes of a file that was read already."""
    with open(path, "rb") as file:
        return file.read()


def disk_words(number, path, block, rule):
    """What is wrong with a disk."""
    if rule == 0:
        cure = f" (xinu disk mkfs 64 --out {path} makes one of files)" if number == 1 else ""
        return f"disk {number}, {path}: {WHOLE[number]}{cure}"
    cure = f"rule {rule} of docs/DISK.md; xinu disk repair {path} --out FILE keeps what can be kept"
    return f"disk {number}, {path}, block {block}: {DISK_RULES[rule]} ({cure})"


def words_for(said, status, inputs):
    """The words for a refusal that was said of the inputs of a run."""
    first = said.splitlines()[0] if said else ""
    found = re.search(r"\d+", first)
    number = int(found[0]) if found else 0
    if image := re.fullmatch(r"xinu: image (\d+) fault (\d+)", first):
        return f"{inputs.programs[number - 1].typed}: {IMAGE_FAULTS[int(image[2])]}"
    if re.fullmatch(r"xinu: image \d+ overlaps", first):
        return f"{inputs.programs[number - 1].typed}: {overlap(inputs.programs, number)}"
    if first.startswith("xinu: no room for image"):
        said = "RAM has no room for its stack above the programs: make them, the gaps between them or the stack smaller"
        return f"{inputs.programs[number - 1].typed}: {said}"
    if disk := re.fullmatch(r"xinu: disk (\d+) block (\d+) rule (\d+)", first):
        return disk_words(number, (inputs.disk0, inputs.disk1)[number], *map(int, disk.groups()[1:]))
    if first == "xinu: no memory":
        return NO_MEMORY
    if first == "xinu: host fault":
        return FULL
    if status < 0:
        return f"xinu_run was stopped by signal {-status}; tell its authors"
    return first.removeprefix("xinu: ") or f"xinu_run ended with status {status}"


def refuse(said, status, inputs):
    """Refuses what `xinu_run` refused."""
    raise Refusal(words_for(said, status, inputs), status if status > 0 else 1)
