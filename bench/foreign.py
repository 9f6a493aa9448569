"""Builds C programs over the C library of sdk/libc, once for the machine and once for qemu-riscv32, and runs them.

Both have the same objects and the same C library; for the machine the system calls are those of sdk/libc, and for qemu those of linux.c."""
import os
import subprocess

BENCH = os.path.dirname(os.path.abspath(__file__))
SDK = os.path.join(BENCH, "..", "sdk")
LIBC = os.path.join(SDK, "libc")
COMPILER = os.environ.get("CROSS", "riscv64-unknown-elf-") + "gcc"
BASE = [COMPILER, "--specs=picolibc.specs", "--picolibc-buildtype=release", "-march=rv32i", "-mabi=ilp32", "-msmall-data-limit=0",
        "-fno-asynchronous-unwind-tables", "-ffunction-sections", "-fdata-sections"]
PARTS = ["start.S", "main.c", "files.c", "spawn.c"]
QEMU = "qemu-riscv32"
QEMU_PLACE = 0x100000  # Linux gives a program no address near 0


def run(words, **more):
    """Runs a command; what it printed and its status are kept."""
    return subprocess.run(words, check=False, stdin=subprocess.DEVNULL, stdout=subprocess.PIPE, stderr=subprocess.PIPE, **more)


def make(words):
    """Runs a command that has to do its work."""
    made = run(words)
    if made.returncode:
        raise RuntimeError(f"{' '.join(words)}\n{made.stderr.decode()}")


def compiled(source, path, options=()):
    """The path of an object that is made of a source."""
    make([*BASE, "-O2", "-w", *options, "-c", "-o", path, source])
    return path


def glue(folder, stack, arguments=("program",), echo=0):
    """The objects between a program and the kernel, for a stack of so many bytes."""
    words = ", ".join(f'"{word}"' for word in arguments)
    options = ["-I" + LIBC, "-I" + SDK, f"-DSTACK={stack}", "-DPRIORITY=20", f"-DECHO={echo}", f"-DARGS={words}"]
    os.makedirs(folder, exist_ok=True)
    return [compiled(os.path.join(LIBC, name), os.path.join(folder, name + ".o"), options) for name in PARTS]


def linked(objects, path, place, heap, page=4, script=os.path.join(LIBC, "libc.ld")):
    """The path of a program that is made of objects."""
    symbols = f"-Wl,--defsym=PLACE={place},--defsym=HEAP={heap},--defsym=PAGE={page}"
    make([*BASE, "-nostartfiles", "-static", "-DPICOLIBC_DOUBLE_PRINTF_SCANF", "-T", script, symbols, "-s",
          f"-Wl,--gc-sections,--build-id=none,-z,max-page-size={page}", "-o", path, *objects, "-lm"])
    return path


def linux_glue(folder):
    """The object between a program and Linux."""
    os.makedirs(folder, exist_ok=True)
    return [compiled(os.path.join(BENCH, "linux.c"), os.path.join(folder, "linux.o"))]


def linked_for_qemu(objects, path, heap):
    """The path of a program for qemu, whose stack may hold code, as nested functions need it."""
    with open(os.path.join(LIBC, "libc.ld"), encoding="utf-8") as file:
        text = file.read().replace("note PT_NOTE FLAGS(4);", "note PT_NOTE FLAGS(4);\n\tstack PT_GNU_STACK FLAGS(7);")
    with open(path + ".ld", "w", encoding="utf-8") as file:
        file.write(text)
    return linked(objects, path, QEMU_PLACE, heap, 4096, path + ".ld")


def ends(transcript):
    """How each process of a run ended, by its number: `exit N`, or what trapped it."""
    found, last = {}, {}
    for line in transcript.splitlines():
        words = line.split()
        if words[:1] == ["call"] and words[2] in ("unknown", "exit"):
            if words[2] == "exit":
                found[words[1]] = f"exit {last.get(words[1], 0)}"
            elif 1000 < int(words[3]) < 1256:
                last[words[1]] = int(words[3]) - 1000
        elif words[:1] == ["trap"]:
            found[words[1]] = "abort" if words[2] == "break" else "fault"
    return found


def end_in_qemu(ran):
    """How a program ended in qemu, in the same words."""
    status = -ran.returncode if ran.returncode < 0 else ran.returncode - 128 if ran.returncode > 128 else None
    return f"exit {ran.returncode}" if status is None else "abort" if status == 6 else "fault"
