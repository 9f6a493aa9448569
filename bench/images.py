#!/usr/bin/env python3
"""Writes the images of the two loops that the steps are timed on: jal.img and mixed.img, into a folder.

usage: images.py FOLDER

jal.img jumps to itself by two words, `jal x0, 4` and `jal x0, -4`. mixed.img goes round a loop of 16 words with sums, shifts,
comparisons, loads, stores and branches, one taken and one not."""
import struct
import sys


def i_form(opcode, funct3, rd, rs1, imm):
    return (imm & 0xFFF) << 20 | rs1 << 15 | funct3 << 12 | rd << 7 | opcode


def r_form(funct3, funct7, rd, rs1, rs2):
    return funct7 << 25 | rs2 << 20 | rs1 << 15 | funct3 << 12 | rd << 7 | 0x33


def s_form(funct3, rs1, rs2, imm):
    return (imm >> 5 & 0x7F) << 25 | rs2 << 20 | rs1 << 15 | funct3 << 12 | (imm & 31) << 7 | 0x23


def b_form(funct3, rs1, rs2, imm):
    high = (imm >> 12 & 1) << 31 | (imm >> 5 & 0x3F) << 25
    low = (imm >> 1 & 15) << 8 | (imm >> 11 & 1) << 7
    return high | rs2 << 20 | rs1 << 15 | funct3 << 12 | low | 0x63


def jal(rd, imm):
    high = (imm >> 20 & 1) << 31 | (imm >> 1 & 0x3FF) << 21
    return high | (imm >> 11 & 1) << 20 | (imm >> 12 & 0xFF) << 12 | rd << 7 | 0x6F


def image(words):
    content = b"".join(struct.pack("<I", word) for word in words)
    return struct.pack("<4sIIIIII", b"XIMG", 1, 0, len(content), 0, 20, 1024) + content


JUMPS = [jal(0, 4), jal(0, -4)]

A0, A1, A2, A3, A4, A5 = 10, 11, 12, 13, 14, 15
MIXED = [
    i_form(0x13, 0, A5, 0, 0x400),  # a5 = 1024, the table
    # the loop
    i_form(0x13, 0, A0, A0, 1),  # a0 += 1
    i_form(0x13, 1, A2, A0, 2),  # a2 = a0 << 2
    i_form(0x13, 7, A2, A2, 0xFC),  # a2 &= 252
    r_form(0, 0, A2, A2, A5),  # a2 += a5
    i_form(0x03, 2, A3, A2, 0),  # a3 = the word at a2
    r_form(0, 0, A3, A3, A0),  # a3 += a0
    r_form(4, 0, A1, A1, A3),  # a1 ^= a3
    s_form(2, A2, A3, 0),  # the word at a2 = a3
    i_form(0x13, 5, A4, A3, 0x403),  # a4 = a3 >> 3, signed
    s_form(0, A2, A4, 256),  # the byte at a2 + 256 = a4
    i_form(0x03, 4, A4, A2, 256),  # a4 = that byte
    r_form(3, 0, A4, A4, A3),  # a4 = a4 < a3
    r_form(0, 0x20, A1, A1, A4),  # a1 -= a4
    b_form(0, A0, 0, 8),  # not taken
    b_form(1, A5, 0, -14 * 4),  # taken, to the loop
]

if __name__ == "__main__":
    for name, words in (("jal", JUMPS), ("mixed", MIXED)):
        with open(f"{sys.argv[1]}/{name}.img", "wb") as file:
            file.write(image(words))
