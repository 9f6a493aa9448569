"""What grading needs, looked at before the first submission: else everybody would have no points."""
import os

from front.tools import COMPILER_TOOL, MAKE, TOOLCHAIN, missing
from judge import find_program

from .layer import needs_of_layer
from .places import LABS, LAYER, LINES, PROGRAMS, has, kind_of
from .repairs import needs_of_repairs


def lacking(labs, further):
    """Why these labs can't be graded, a reason a line."""
    if not find_program():
        yield "no xinu_run: build it (sdk/build --quick), and put its folder into the PATH or its path into $XINU_RUN"
    if not labs:
        yield f"no lab in {LABS}"
    kinds = set(map(kind_of, labs))
    for lab in labs:
        if kind_of(lab) == LINES and further and not has(lab, "further.txt"):
            yield f"no {os.path.join(LABS, lab, 'further.txt')}: grade in the teacher's clone, or with --further 0"
        if kind_of(lab) == PROGRAMS:
            yield from needs_of_repairs(lab)
        if kind_of(lab) == LAYER:
            yield from needs_of_layer()
    for tool, needed_by in ((MAKE, {LINES, PROGRAMS, LAYER}), (COMPILER_TOOL, {LINES, PROGRAMS}), (TOOLCHAIN, {LAYER})):
        if kinds & needed_by and not tool.is_there():
            yield missing(tool)


def without_layer(labs):
    """The labs that can be graded here, and for each that only Rattle's toolchain grades why it can't."""
    left = [lab for lab in labs if kind_of(lab) != LAYER or TOOLCHAIN.is_there()]
    return left, [f"{lab} isn't graded: {missing(TOOLCHAIN)}" for lab in labs if lab not in left]
