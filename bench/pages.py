#!/usr/bin/env python3
"""Looks up what the pages name: each link, each heading that a link leads to, each path, and each name in code font.

usage: bench/pages.py

A page is a file of Markdown, but for those that the program `sessions` plays. A link leads to a file of the repository, or to a heading of
a page. A path in code font is a file or a folder, seen from the top, from the page, or from the folder of a crate. A name in code font, a
word with `_` or `::` in it or with a capital after a small letter, is a word of the sources, of a definition or of a script. A number of crates
or of wrong bodies is the number of folders of crates/ or of files of must-fail/, and the lines of definitions that THEOREM gives are those that
its statement rests on. It prints a line for each thing that isn't found, and how many words README and docs/ have; it ends with status 1 if
something isn't found. The commands of the pages are played by sdk/check and by the sessions. No part of the gate."""
import glob
import os
import re
import sys

TOP = os.path.dirname(os.path.dirname(os.path.abspath(__file__)))
SOURCES = ("crates/*/src/**/*.rt", "crates/*/specs/**/*.antt", "crates/*/proofs/**/*.antt", "bench/*", "bench/system/*", "sdk/*", "sdk/*/*",
           "web/*", "web/*/*", "examples/*/*", "labs/*/*", "labs/*/*/*", "crates.txt", "crates/*/must-fail/*", "crates/*/data/*", "crates/sessions/args", "changes/*")
WORD = re.compile(r"[A-Za-z_][A-Za-z0-9_]*")
NAME = re.compile(r"[A-Za-z][A-Za-z0-9]*_[A-Za-z0-9_]+|[a-z0-9]+[A-Z]\w*|[A-Z][a-z0-9]+[A-Z]\w*|\w+(?:::\w+)+")
PATH = re.compile(r"[\w.-]+(?:/[\w.*-]+)+/?|[\w-]+\.(?:rt|antt|md|py|txt|s|c|h|ld|mk|svg|edit)")
# Names and files of the book's Xinu, names that DECISIONS says are other elsewhere, and what is built or is written by the reader.
BOOK = re.compile(r"\w+\.[ch]|PR_\w+|resched_cntl")
ELSEWHERE = {"send_begin", "recv_begin", "send_end", "recv_end", "Sent", "OutOfNodes", "sems_of", "begin_io", "go_on_io", "device_wait",
             "device_signal", "FileName", "0X1"}
MADE = {"out/xinu_run", "web/out/xinu.html", "sum.s", "steps.txt", "check.txt", "lab12/crates/pool/src/pool.rt"}


def pages():
    """The paths of the pages, from the top."""
    found = ["README.md", "CHANGELOG.md", "crates/README.md", "crates/XINU.md"]
    for folder in ("docs", "sdk", "examples", "labs", "web", "bench", "changes"):
        found += sorted(glob.glob(os.path.join(folder, "**", "*.md"), recursive=True))
    return found


def words_of_sources():
    """Every word of the sources."""
    found = set(ELSEWHERE)
    for pattern in SOURCES:
        for path in glob.glob(pattern, recursive=True):
            if os.path.isfile(path):
                with open(path, encoding="utf-8", errors="replace") as file:
                    found.update(WORD.findall(file.read()))
                found.update(WORD.findall(path))
    return found


def anchor(heading):
    """The anchor of a heading, as it is made where pages are shown."""
    kept = re.sub(r"[^\w\- ]", "", heading.strip().lower())
    return kept.replace(" ", "-")


def anchors(path):
    """The anchors of a page."""
    with open(path, encoding="utf-8") as file:
        return {anchor(line.lstrip("#")) for line in file if line.startswith("#")}


def link_is_found(page, target):
    """Whether a link of a page leads to something."""
    if re.match(r"[a-z]+:", target):
        return True
    path, _, heading = target.partition("#")
    full = os.path.normpath(os.path.join(os.path.dirname(page), path)) if path else page
    if not os.path.exists(full):
        return False
    return not heading or heading in anchors(full)


def path_is_found(page, path):
    """Whether a path in code font is there: from the top, from the page, or from a crate; a definition's file without its ending."""
    starts = [".", os.path.dirname(page) or ".", "docs", "sdk", "labs/*", "examples/*", "crates", "crates/*", "crates/*/src",
              "crates/*/specs", "crates/*/src/*", "crates/*/specs/*", "crates/*/proofs", "crates/*/must-fail"]
    return any(glob.glob(os.path.join(start, path + end)) for start in starts for end in ("", ".antt"))


def findings(page, words):
    """What a page names that isn't found, each with its line."""
    with open(page, encoding="utf-8") as file:
        lines = file.read().splitlines()
    for number, line in enumerate(lines, 1):
        for target in re.findall(r"\]\(([^)\s]+)\)", line):
            if not link_is_found(page, target):
                yield number, "link", target
        if line.startswith("    "):
            continue
        for span in re.findall(r"`([^`]+)`", line):
            whole = PATH.fullmatch(span)
            if whole and not span.startswith("--"):
                if span not in MADE and not BOOK.fullmatch(span) and not path_is_found(page, span):
                    yield number, "path", span
                continue
            for name in NAME.findall(span):
                missing = [word for word in name.split("::") if word not in words]
                if missing and not BOOK.fullmatch(name):
                    yield number, "name", span
                    break


def definitions():
    """The definitions that the theorem's statement names, directly or through others: by crate the lines, without imports and blank ones, and
    the number of files. What a source declares isn't counted."""
    lines, left, seen = {}, [("xinu_commands", "Theorem")], set()
    while left:
        crate, module = left.pop()
        path = f"crates/{crate}/specs/{module.replace('.', '/')}.antt"
        if path in seen or not os.path.isfile(path):
            continue
        seen.add(path)
        with open(path, encoding="utf-8") as file:
            text = file.read()
        counted = [line for line in text.splitlines() if line.strip() and not line.startswith("use ")]
        lines[crate] = lines.get(crate, 0) + len(counted)
        left += [(found[0], found[1].rstrip(".")) for found in re.findall(r"Rattle\.(\w+)\.specs\.([\w.]+)", text)]
    return lines, len(seen)


def counts():
    """The counts that README and THEOREM give, and what they are."""
    with open("README.md", encoding="utf-8") as file:
        text = file.read()
    crates = len([path for path in glob.glob("crates/*") if os.path.isdir(path)])
    edits = len(glob.glob("crates/*/must-fail/*.edit"))
    said = re.search(r"(\d+)\s+crates\s+and\s+(\d+)\s+wrong\s+bodies", text)
    if said and (int(said[1]), int(said[2])) != (crates, edits):
        yield f"README.md: {said[0]}, but there are {crates} and {edits}"
    lines, files = definitions()
    with open("docs/THEOREM.md", encoding="utf-8") as file:
        text = " ".join(file.read().split())
    due = f"{sum(lines.values())} lines in {files} files, without imports and blank lines: "
    due += ", ".join(f"{crate} {number}" for crate, number in sorted(lines.items(), key=lambda it: -it[1])) + "."
    if due not in text:
        yield f"docs/THEOREM.md: the definitions are {due}"


def main():
    os.chdir(TOP)
    words = words_of_sources()
    wrong, total = 0, 0
    for page in pages():
        with open(page, encoding="utf-8") as file:
            text = file.read()
        if page == "README.md" or page.startswith("docs/"):
            total += len([word for word in text.split() if re.search("[A-Za-z0-9]", word)])
        for number, kind, what in findings(page, words):
            print(f"{page}:{number}: {kind} {what}")
            wrong += 1
    for line in counts():
        print(line)
        wrong += 1
    print(f"{total} words in README and docs; {len(pages())} pages; {wrong} not found")
    sys.exit(1 if wrong else 0)


if __name__ == "__main__":
    main()
