"""The commands that run programs and tell of it: run, why, picture, check."""
import os
import subprocess

from . import endings
from .files import read, writable
from .home import program
from .places import Places
from .refused import refuse
from .runs import followed, ignore, inputs_of, settled
from .telling import close_line, put, say

MOST_TRACE = 64 << 20


def typed_again(words):
    """The words of a command that name its run, to be typed again."""
    options = [word for name in ("schedule", "disk0", "disk1") if getattr(words, name) for word in (f"--{name}", getattr(words, name))]
    return [*(["--libc"] if words.libc else []), *options, *words.program]


def run(words, programs, folder):
    """Shows what the console sends as it comes, and says how the run ended."""
    inputs = inputs_of(words, programs, folder)
    on_text, on_line = (ignore, print) if words.transcript else (put, ignore)
    if words.schedule:
        made = followed(inputs, on_text, on_line=on_line)
    else:
        made = settled(inputs, [], words.rounds, on_text)
        if words.transcript or inputs.outs:
            # the run until nobody could go on was cut there, and has looks at the tables in its transcript: once more without them
            followed(inputs, on_line=on_line)
    if not words.transcript:
        close_line(made.console)
    for trap in made.traps[:4]:
        say(endings.trap_words(trap))
    for call in made.strange[:4]:
        say(endings.strange_words(call))
    sentence, next_step = endings.ending(made, words.schedule)
    say(sentence, endings.advice("why" if made.traps else next_step, typed_again(words)))
    return 0


def schedule_for(words, programs, folder):
    """The inputs of a run, and how it went if no schedule was named: then they have the rounds after which nobody could go on."""
    inputs = inputs_of(words, programs, folder)
    return inputs, None if words.schedule else settled(inputs, [], words.rounds)


def explained(inputs, more=()):
    """The lines of the story of a run."""
    ran = subprocess.run([program(), "explain", *more, *inputs.words()], capture_output=True, check=False)
    if ran.returncode:
        refuse(ran.stderr.decode("utf-8", "replace"), ran.returncode, inputs)
    return ran.stdout.decode("utf-8", "replace").splitlines()


def why(words, programs, folder):
    """Tells the run in words, each address with its function, file and line."""
    inputs, _ = schedule_for(words, programs, folder)
    more = ["--steps", words.steps] if words.steps else []
    more += ["--refused"] if words.refused else []
    for line in Places(programs).told(explained(inputs, more)):
        print(line)
    return 0


def picture(words, programs, folder):
    """Draws the run into a file."""
    inputs, _ = schedule_for(words, programs, folder)
    out = writable(words.out or os.path.splitext(os.path.basename(words.program[0]))[0] + ".svg", "--out")
    more = [word for name in ("from", "events", "title") if getattr(words, name) for word in (f"--{name}", str(getattr(words, name)))]
    ran = subprocess.run([program(), "timeline", *more, *inputs.words()], capture_output=True, check=False)
    if ran.returncode:
        refuse(ran.stderr.decode("utf-8", "replace"), ran.returncode, inputs)
    with open(out, "wb") as file:
        file.write(ran.stdout)
    say(f"The picture is in {out}.")
    return 0


def check(words, programs, folder):
    """Says whether a text is the transcript of a run, and if not, where it goes wrong."""
    read(words.trace, "the text", MOST_TRACE)
    inputs, _ = schedule_for(words, programs, folder)
    judged = subprocess.run([program(), "check", "--trace", words.trace, *inputs.words()], capture_output=True, text=True, check=False)
    if judged.returncode not in (0, 10):
        refuse(judged.stderr, judged.returncode, inputs)
    print(judged.stdout, end="", flush=True)
    if judged.returncode == 10:
        told = subprocess.run([program(), "explain", "--trace", words.trace, *inputs.words()], capture_output=True, text=True, check=False)
        say(f"{words.trace}, {told.stdout.strip() or told.stderr.strip()}")
    return judged.returncode
