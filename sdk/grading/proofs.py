"""The lab of programs that are proved for every schedule: each line of its table is a row."""
import os
import shutil

from proofs import claims_of

from .places import LABS, PROOFS
from .results import Result, Row
from .taking import take_files


def grade_proofs(lab, folder, place, words):
    """Proves a student's programs together with the lab's own."""
    take_files(folder, place, ("*.s",))
    claims = claims_of(os.path.join(LABS, lab, PROOFS))
    for claim in claims:
        shutil.copyfile(os.path.join(LABS, lab, claim.given), os.path.join(place, claim.given))
    faults = [claim.fault(place, words.limit) for claim in claims]
    share = 100 / len(claims)
    rows = [Row(f"{claim.name}: {fault or 'it is not proved'}", not fault, 0, 0 if fault else share, share) for claim, fault in zip(claims, faults)]
    held = sum(row.held for row in rows)
    wrong = next((row.words for row in rows if not row.held), None)
    return Result(f"{held}/{len(rows)}", "-", 100 * held // len(rows), wrong, 0 if wrong else None, rows)
