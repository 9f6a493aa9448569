"""What the programs of sdk/ need of the machine: what each thing is for, whether it is there, and what brings it."""
import functools
import os
import shutil
import subprocess
from typing import Callable, NamedTuple

CROSS = os.environ.get("CROSS", "riscv64-unknown-elf-")
COMPILER = CROSS + "gcc"
GDB = "gdb-multiarch"


def is_program(name):
    """The function that tells whether a program is in the PATH."""
    return lambda: shutil.which(name) is not None


@functools.lru_cache(maxsize=None)
def has_library():
    """Whether the compiler has picolibc."""
    words = [COMPILER, "--specs=picolibc.specs", "-E", "-x", "c", os.devnull]
    return is_program(COMPILER)() and subprocess.run(words, check=False, capture_output=True).returncode == 0


class Tool(NamedTuple):
    """A thing that isn't in the repository."""
    name: str
    purpose: str
    package: str | None  # that of Debian, if one has it
    is_there: Callable[[], bool]
    cure: str | None = None  # what brings it, if no package does


PYTHON = Tool("python3", "runs the programs of sdk/", "python3", is_program("python3"))
MAKE = Tool("make", "builds examples and labs", "make", is_program("make"))
COMPILER_TOOL = Tool(COMPILER, "compiles programs in C", "gcc-riscv64-unknown-elf", is_program(COMPILER))
LIBRARY = Tool("picolibc", "the C library of sdk/libc", "picolibc-riscv64-unknown-elf", has_library)
GDB_TOOL = Tool(GDB, "debugs a run, forward and backward", "gdb-multiarch", is_program(GDB))
PATCH = Tool("patch", "makes the solution of lab 9, and the programs that try the grader", "patch", is_program("patch"))
HOST_COMPILER = Tool("cc", "compiles programs for this computer: examples/heap_in_c and the like, labs/own_kernel", "gcc", is_program("cc"))
TOOLCHAIN = Tool("rt", "Rattle's toolchain: builds xinu_run, and proves it", None, is_program("rt"), "install the toolchain of Rattle")

ALL = [TOOLCHAIN, PYTHON, MAKE, COMPILER_TOOL, LIBRARY, GDB_TOOL, PATCH, HOST_COMPILER]


def install(tools):
    """The line that installs the packages of tools."""
    return "apt-get install -y " + " ".join(dict.fromkeys(tool.package for tool in tools if tool.package))


def missing(tool):
    """Why something that needs a tool can't be done, and what mends it."""
    return f"no {tool.name} ({tool.cure or install([tool])})"


def lacks(tools):
    """Those of some tools that aren't there, each as a reason."""
    return [missing(tool) for tool in dict.fromkeys(tools) if not tool.is_there()]
