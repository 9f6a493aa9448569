"""What a program's file says: where it is loaded, its functions, its entry. Files that `xinu_run` would refuse are left to it."""
import struct
from typing import NamedTuple

LOADED, FUNCTION, SYMBOLS = 1, 2, 2  # types: of a segment, of a symbol, of a section


class Part(NamedTuple):
    """Bytes that are loaded at an address, with zeros up to a length."""
    address: int
    content: bytes
    length: int


class Function(NamedTuple):
    """A function of a program."""
    address: int
    size: int
    name: str


def is_elf(content):
    """Whether a file is an ELF file of 32 bits, the lowest byte first."""
    return content[:6] == b"\x7fELF\x01\x01" and len(content) >= 52


def is_image(content):
    """Whether a file is an image file."""
    return content[:4] == b"XIMG" and len(content) >= 28


def text_at(content, at):
    """The text at a place, up to its zero byte."""
    return content[at:content.index(0, at)].decode("utf-8", "replace")


def loaded_parts(content):
    """The parts of a program that are loaded, by address; those of an image file too."""
    if is_image(content):
        place, length = struct.unpack_from("<2I", content, 8)
        return [Part(place, content[28:28 + length], length)]
    if not is_elf(content):
        return []
    start, size, count = *struct.unpack_from("<I", content, 28), *struct.unpack_from("<2H", content, 42)
    segments = [struct.unpack_from("<8I", content, start + size * k) for k in range(count)]
    return sorted(Part(at, content[offset:offset + in_file], in_ram)
                  for kind, offset, at, _, in_file, in_ram, _, _ in segments if kind == LOADED and in_ram)


def functions(content):
    """The functions that an ELF file names, by address."""
    if not is_elf(content):
        return []
    start, size, count = *struct.unpack_from("<I", content, 32), *struct.unpack_from("<2H", content, 46)
    sections = [struct.unpack_from("<10I", content, start + size * k) for k in range(count)]
    found = []
    for _, kind, _, _, offset, length, link, *_ in sections:
        if kind == SYMBOLS:
            names = sections[link][4]
            rows = struct.iter_unpack("<3I2BH", content[offset:offset + length])
            found += [Function(value, extent, text_at(content, names + name)) for name, value, extent, info, _, _ in rows if info & 15 == FUNCTION]
    return sorted(found)


def end_of(content):
    """The first address above what is loaded, 0 if nothing is."""
    return max((part.address + part.length for part in loaded_parts(content)), default=0)
