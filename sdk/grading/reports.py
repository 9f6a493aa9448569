"""The reports: a table to be read, objects in JSON, lines in CSV, and the file that Gradescope takes."""
import csv
import dataclasses
import json
import sys

FORM = "{:<{width}} {:<15} {:>6} {:>8} {:>7}  {}"
COLUMNS = ("student", "lab", "given", "further", "points", "what is wrong")


def columns_of(student, lab, result):
    """The columns of a submission."""
    return student, lab or "-", result.given, result.further, result.points, result.wrong or "done"


class Report:
    """What every report is told: each submission, as soon as it is graded, and that there is no further one."""

    def add(self, student, lab, result):
        """Adds a submission."""
        raise NotImplementedError

    def end(self):
        """Nothing comes after the last submission."""


class Table(Report):
    """A line for each submission."""

    def __init__(self, words, names):
        self.width = max(map(len, [*names, COLUMNS[0]]))
        print(f"number {words.number}, {words.further} further schedules for each program")
        print(FORM.format(*COLUMNS, width=self.width), flush=True)

    def add(self, student, lab, result):
        """Adds a submission."""
        print(FORM.format(*columns_of(student, lab, result), width=self.width), flush=True)


class Json(Report):
    """An object on a line for each submission."""

    def __init__(self, words, _names):
        self.number, self.further = words.number, words.further

    def add(self, student, lab, result):
        """Adds a submission."""
        told = {"student": student, "lab": lab, "number": self.number, "schedules": self.further, **dataclasses.asdict(result)}
        print(json.dumps(told), flush=True)


class Csv(Report):
    """A line of values for each submission, below one of their names."""

    def __init__(self, _words, _names):
        self.out = csv.writer(sys.stdout, lineterminator="\n")
        self.out.writerow(COLUMNS)

    def add(self, student, lab, result):
        """Adds a submission."""
        self.out.writerow(columns_of(student, lab, result))
        sys.stdout.flush()


class Gradescope(Report):
    """The object that Gradescope reads from `results.json`: the labs of one student, each row as a test."""

    def __init__(self, words, _names):
        self.tests, self.said = [], [f"number {words.number}"]

    def add(self, student, lab, result):
        """Adds a submission."""
        self.said.append(f"{lab or student}: {result.wrong or 'done'}")
        rows = result.rows or [None]
        for row in rows:
            self.tests.append({"name": f"{lab or student}: {row.words if row else 'it can be run'}", "score": row.points if row else 0,
                               "max_score": row.of if row else 100, "status": "passed" if row and row.points == row.of else "failed"})

    def end(self):
        """Writes the object."""
        print(json.dumps({"output": "\n".join(self.said), "tests": self.tests}, indent=1))


REPORTS = {"table": Table, "json": Json, "csv": Csv, "gradescope": Gradescope}
