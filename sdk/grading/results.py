"""What grading a submission gives."""
from dataclasses import dataclass, field


@dataclass
class Row:
    """A row of a lab's table, or a part of a lab that is judged by itself."""
    words: str  # what is wrong if it doesn't hold
    held: bool  # under the lab's own schedule
    further: int  # under how many of the further schedules
    points: float
    of: float  # the most points that it gives


@dataclass
class Result:
    """A graded submission."""
    given: str = "-"  # how many rows hold under the lab's own schedule
    further: str = "-"  # under how many further schedules all rows hold
    points: int = 0
    wrong: str | None = None  # what is wrong in the first run that fails
    schedule: int | None = None  # the number of that run's schedule; 0 is the lab's own
    rows: list[Row] = field(default_factory=list)


def nothing(wrong):
    """The result of a submission that can't be run."""
    return Result(wrong=wrong)
