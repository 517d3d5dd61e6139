"""Points by thresholds, which a file has.

A line is `POINTS cost THRESHOLD` or `POINTS bound THRESHOLD`: so many points for a cost that is at
most, or a bound that is at least, the threshold. That is a number, the name of a column of the
table, or a share of one, as `105% optimum`. A module has the most points of the lines on cost that
are met, and the most of those on the bound. What stands behind a # is for the reader.
"""

import re
from dataclasses import dataclass

NUMBER = r"(\d+(?:\.\d+)?)"
COLUMN = rf"(?:{NUMBER}%\s+)?([a-z0-9 ]*[a-z])"
LINE = re.compile(rf"{NUMBER}\s+(cost|bound)\s+(?:{COLUMN}|(\d+))")


class NoPoints(Exception):
    """Why a file has no points."""


@dataclass
class Threshold:
    points: float
    what: str  # "cost" or "bound"
    share: float  # of the column
    column: str | None
    number: int | None

    def is_met(self, row):
        """Whether a row of the table meets it."""
        mine, most = row[self.what], self.number
        if self.column:
            most = row["best" if self.column == "optimum" else self.column]
        if mine is None or most is None:
            return False
        most *= self.share
        return mine <= most if self.what == "cost" else mine >= most


def read(text, columns):
    """The thresholds of a text, which may name these columns."""
    found = []
    for number, line in enumerate(text.splitlines(), 1):
        line = line.partition("#")[0].strip()
        if not line:
            continue
        parts = LINE.fullmatch(line)
        if not parts or parts[4] and parts[4] not in columns:
            known = f"a number, or one of {', '.join(columns)}, or a share as 102% {columns[0]}"
            raise NoPoints(f"{number}: `POINTS cost|bound THRESHOLD` is wanted: {known}")
        share = float(parts[3]) / 100 if parts[3] else 1.0
        number = int(parts[5]) if parts[5] else None
        found.append(Threshold(float(parts[1]), parts[2], share, parts[4], number))
    return found


def points_of(thresholds, row):
    """What a row of an admitted certificate has."""
    total = 0.0
    for what in ("cost", "bound"):
        met = (it.points for it in thresholds if it.what == what and it.is_met(row))
        total += max(met, default=0.0)
    return int(total) if total == int(total) else total
