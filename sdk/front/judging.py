"""The command judge: the data races of a run, each access with its line."""
import subprocess

from .home import program
from .places import Places
from .refused import refuse
from .running import schedule_for

RACES = 15  # the status if the run has a data race


def judge(words, programs, folder):
    """Tells the data races of a run, each address with its function, file and line."""
    inputs, _ = schedule_for(words, programs, folder)
    more = [*(["--pairs"] if words.pairs else []), *(["--atomic", words.atomic] if words.atomic else [])]
    judged = subprocess.run([program(), "judge", *more, *inputs.words()], capture_output=True, check=False)
    if judged.returncode not in (0, RACES):
        refuse(judged.stderr.decode("utf-8", "replace"), judged.returncode, inputs)
    for line in Places(programs).told(judged.stdout.decode("utf-8", "replace").splitlines()):
        print(line)
    return judged.returncode
