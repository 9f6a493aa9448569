"""Colours, at a terminal alone, and not under NO_COLOR."""
import os

RED, BOLD, DIM = "31;1", "1", "2"


def painted(text, colour, stream):
    """A text in a colour, if it is written to a terminal."""
    if not stream.isatty() or os.environ.get("NO_COLOR") or os.environ.get("TERM") == "dumb":
        return text
    return f"\033[{colour}m{text}\033[0m"
