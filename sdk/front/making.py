"""The commands that begin a program: new, asm."""
import os

from .files import writable
from .home import SDK, TOP, typed_name
from .programs import assembled
from .refusal import Refusal
from .telling import say

C_SOURCE = """/* {name}.c - main, greeter */

#include <xinu.h>

process greeter(sid32 printed)
{{
	printf("hello from process %d\\n", getpid());
	signal(printed);
	return OK;
}}

process main(void)
{{
	sid32 printed = semcreate(0);

	resume(create(greeter, 1024, 20, "greeter", printed, 0));
	wait(printed);
	sleepms(10);			/* the run ends with its last process: let the console send */
	return OK;
}}
"""
ASM_SOURCE = """# {name}.s - writes a line on the console

        .entry main
line:   .ascii "hello\\n"
        .align
main:   li   a0, 0              # the console
        la   a1, line
        li   a2, 6
        sys  write
        li   a0, 10             # the run ends with its last process:
        sys  sleepms            #   let the console send
        sys  exit
"""
MAKEFILE = "{kind} = {name}\n\ninclude {sdk}/xinu.mk\n"
NEXT = """{folder} has a program, {name}{ending}, and a Makefile. Type next:

    cd {folder}
    {xinu} run {name}{ending}
    {xinu} why {name}{ending}
"""


def new(words):
    """Makes a folder with a program and a Makefile, and says what to type next."""
    folder, name = words.name, os.path.basename(words.name)
    if not name.isidentifier():
        raise Refusal(f"`{name}` is no name for a program: letters, digits and `_`, no digit first")
    if os.path.exists(folder):
        raise Refusal(f"{folder} is there already: take another name, or go on in it (cd {folder})")
    if not os.path.isdir(os.path.dirname(folder) or "."):
        raise Refusal(f"{folder}: there is no folder {os.path.dirname(folder)} (mkdir {os.path.dirname(folder)})")
    ending, source, kind = (".s", ASM_SOURCE, "ASSEMBLED") if words.asm else (".c", C_SOURCE, "PROGRAMS")
    os.mkdir(folder)
    is_inside = os.path.commonpath([TOP, os.path.abspath(folder)]) == TOP
    sdk = os.path.relpath(SDK, folder) if is_inside else SDK
    for path, text in ((name + ending, source.format(name=name)), ("Makefile", MAKEFILE.format(kind=kind, name=name, sdk=sdk))):
        with open(os.path.join(folder, path), "w", encoding="utf-8") as file:
            file.write(text)
    print(NEXT.format(folder=folder, name=name, ending=ending, xinu=typed_name(folder)), end="")
    return 0


def asm(words):
    """Assembles a source."""
    out = writable(words.out or os.path.splitext(words.source)[0] + (".elf" if words.elf else ".xim"), "--out")
    if os.path.abspath(out) == os.path.abspath(words.source):
        raise Refusal(f"{out} is the source: name another file with --out")
    assembled(words.source, out, words.elf)
    say(f"{words.source} is assembled: {out}")
    return 0
