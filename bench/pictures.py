#!/usr/bin/env python3
"""Draws the pictures of docs/pictures anew, from sessions in crates/sessions/data, and stores those that the sessions compare.

usage: bench/pictures.py

The session of a picture has a schedule of its name. It takes the program that bench/program.py finds. No part of the gate."""
import os
import re
import shutil
import subprocess
import tempfile

from program import built

ROOT = os.path.join(os.path.dirname(os.path.abspath(__file__)), "..")
DATA = os.path.join(ROOT, "crates", "sessions", "data")
TEXTS = ["pictures.md", "stories.md"]
PICTURES = os.path.join(ROOT, "docs", "pictures")
# the pictures, each with its arguments for the part that is drawn
PARTS = {
    "round_robin": [],
    "preemption": [],
    "semaphore_with_a_kill": [],
    "three_sleepers_and_a_kill": [],
    "ports": [],
    "panic": ["--from", "690"],
    "console_session": [],
    "deadlock": [],
}
# those that the sessions compare
COMPARED = ["semaphore_with_a_kill", "three_sleepers_and_a_kill"]


def sessions():
    """The sessions of the texts: the commands of each, with its words and the lines below it."""
    for name in TEXTS:
        with open(os.path.join(DATA, name), encoding="utf-8") as text:
            for session in re.split(r"^#.*$", text.read(), flags=re.M):
                lines = [line[4:] for line in session.splitlines() if line.startswith("    ")]
                starts = [at for at, line in enumerate(lines) if line.startswith("$ ")]
                yield [(lines[at].split()[1:], lines[at + 1:end]) for at, end in zip(starts, [*starts[1:], len(lines)])]


def assembler(kind, lines):
    """The text of assembler of a process, by its text or its calls."""
    if kind == "program":
        return lines
    calls = [line.split() for line in lines]
    texts = [[f"li a{at}, {word}" for at, word in enumerate(call[1:])] + [f"sys {call[0]}"] for call in calls]
    return [*sum(texts, []), "end: j end"]


def draw(session, folder):
    """Draws the picture of a session, if it has one."""
    images, name = [], None
    for words, lines in session:
        if words[0] == "file" and words[1] in PARTS:
            name, schedule = words[1], os.path.join(folder, words[1])
            with open(schedule, "w", encoding="utf-8") as text:
                text.write("\n".join(lines) + "\n")
        elif words[0] in ("program", "calls"):
            source, image = os.path.join(folder, "source"), os.path.join(folder, str(len(images)))
            with open(source, "w", encoding="utf-8") as text:
                text.write("\n".join([f".place {4096 * len(images)}", f".priority {words[1]}", *assembler(words[0], lines)]) + "\n")
            subprocess.run([built("xinu_run"), "asm", source, "--out", image], check=True)
            images.append(image)
    if name:
        with open(os.path.join(PICTURES, name + ".svg"), "wb") as picture:
            subprocess.run([built("xinu_run"), "timeline", "--schedule", schedule, *PARTS[name], *images], check=True, stdout=picture)


with tempfile.TemporaryDirectory() as folder:
    for session in sessions():
        draw(session, folder)
for name in COMPARED:
    shutil.copy(os.path.join(PICTURES, name + ".svg"), DATA)
