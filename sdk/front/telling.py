"""What is said while a command works: text on standard output, words for people on standard error."""
import sys

from .paint import BOLD, DIM, painted


def put(text):
    """Writes bytes of the console as they come."""
    sys.stdout.buffer.write(text)
    sys.stdout.buffer.flush()


def say(text, next_words=None):
    """Says a sentence, and what to type next on a line of its own."""
    sys.stdout.flush()
    print(painted(text, BOLD, sys.stderr), file=sys.stderr)
    if next_words:
        print(painted(next_words, DIM, sys.stderr), file=sys.stderr)
    sys.stderr.flush()


def close_line(text):
    """Ends a line of the console's text that isn't ended."""
    if text and not text.endswith(b"\n"):
        put(b"\n")
