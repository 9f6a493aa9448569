"""What is taken of a submission: whole files of its folder, no links, so many and so long at most."""
import glob
import os
import shutil
import stat

MOST_FILES, MOST_BYTES = 30, 1 << 20  # of a submission, and of a file


def is_taken(path):
    """Whether a file is one of the folder itself, and not too long."""
    found = os.lstat(path)
    return stat.S_ISREG(found.st_mode) and found.st_size <= MOST_BYTES


def take_files(folder, place, patterns):
    """Copies those of a student's files whose names fit one of some patterns."""
    paths = sorted(path for pattern in patterns for path in glob.glob(os.path.join(glob.escape(folder), pattern)))
    for path in list(filter(is_taken, paths))[:MOST_FILES]:
        shutil.copyfile(path, os.path.join(place, os.path.basename(path)))
