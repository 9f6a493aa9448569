#!/usr/bin/env python3
"""Measures the archives for C: their code, the symbols that they need, and the stack and memory of a call.

usage: bench/archives.py

It takes the archives as `rt lib` left them, and proves and builds those that are missing. Each is linked with archives.c, which calls it on a
stack that is painted before, with a heap that counts. A row is a line of the table in docs/LAYERS.md. Sizes are in bytes. A call of an export
has a list of 1000 calls, on files those of a disk of 20 blocks, or judges three files on such a disk. It needs cc, size and nm."""
import argparse
import os
import subprocess
import sys
import tempfile

HERE = os.path.dirname(os.path.abspath(__file__))
TOP = os.path.dirname(HERE)
sys.dont_write_bytecode = True
sys.path.insert(0, HERE)
from program import archive

# each export: its crate, its name, and a call of it
EXPORTS = [
    ("heap_c", "heap_answers", """
static uint32_t call(void)
{
    static struct heap_call calls[CALLS];
    static uint32_t answers[CALLS];
    for (uint32_t k = 0; k < CALLS; k++)
        calls[k] = (struct heap_call){k % 2 ? GETSTK : GETMEM, 0, 8 * (k % 20 + 1)};
    return heap_answers(0, 1 << 20, calls, CALLS, answers, CALLS);
}
"""),
    ("lists_c", "list_answers", """
static uint32_t call(void)
{
    static struct list_call calls[CALLS];
    static int64_t answers[CALLS];
    for (uint32_t k = 0; k < CALLS; k++)
        calls[k] = (struct list_call){k % 10, k % 40, k % 20};
    return list_answers(calls, CALLS, answers, CALLS);
}
"""),
    ("console_c", "console_answers", """
static uint32_t call(void)
{
    static struct console_call calls[CALLS];
    static int64_t answers[CALLS];
    for (uint32_t k = 0; k < CALLS; k++)
        calls[k] = (struct console_call){k % 4, (uint8_t)(k % 128)};
    return console_answers(calls, CALLS, answers, CALLS);
}
"""),
    ("files_c", "file_answers", """
static uint32_t call(void)
{
    static struct files_call calls[CALLS];
    static int64_t answers[CALLS];
    static uint8_t bytes[CALLS] = {'a'};
    calls[0] = (struct files_call){OPEN, 0, 0, 1};
    for (uint32_t k = 1; k < CALLS; k++)
        calls[k] = (struct files_call){k % 3 ? WRITE : SEEK, 4, 0, k % 3 ? 500 : 0};
    return file_answers(20, calls, CALLS, bytes, CALLS, answers, CALLS);
}
"""),
    ("files_c", "disk_answers", """
static uint32_t call(void)
{
    static uint8_t disk[20 * 512];
    static struct file_at_rest files[3] = {{0, 1, 0, 0, 0}, {1, 1, 0, 0, 0}, {2, 1, 0, 0, 0}};
    uint32_t answers[3];
    for (int d = 0; d < 6; d++)
        disk[512 * d + 492] = 2;
    return disk_answers(disk, sizeof disk, files, 3, (const uint8_t *)"abc", 3, answers, 3);
}
"""),
]


def printed(*words):
    """What a command prints."""
    return subprocess.run(words, stdout=subprocess.PIPE, check=True, text=True).stdout


def measured(crate, text):
    """The stack and the most memory of a call, how often it allocates, and what it doesn't give back."""
    with tempfile.TemporaryDirectory() as folder:
        called, program = os.path.join(folder, "called.h"), os.path.join(folder, "program")
        header = os.path.join(TOP, "examples", f"{crate[:-2]}_in_c", f"{crate}.h")
        with open(called, "w", encoding="utf-8") as file:
            file.write(f'#include "{header}"\n{text}')
        printed("cc", "-O1", "-static", f'-DCALLED="{called}"', "-o", program, os.path.join(HERE, "archives.c"), archive(crate), "-pthread")
        return printed(program).split()


def row(crate, export, text):
    """The line of an export."""
    code = printed("size", "-t", archive(crate)).splitlines()[-1].split()[0]
    names = [line.split() for line in printed("nm", archive(crate)).splitlines() if line]
    defined = {words[-1] for words in names if len(words) == 3}
    needed = sorted({words[1] for words in names if len(words) == 2 and words[0] == "U"} - defined)
    stack, most, allocations, left = measured(crate, text)
    if left != "0":
        sys.exit(f"{export} doesn't give {left} bytes back")
    return f"| `{export}` | {code} | {' '.join(f'`{name}`' for name in needed)} | {stack} | {most}, in {allocations} |"


def main():
    argparse.ArgumentParser(usage=__doc__.split("usage: ")[1].split("\n\n")[0]).parse_args()
    print("| Export | Code | Symbols that it needs | Stack | Memory, in how many allocations |\n|---|---|---|---|---|")
    for export in EXPORTS:
        print(row(*export))


if __name__ == "__main__":
    main()
