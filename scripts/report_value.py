"""The lines of a call of the compiler as one JSON value.

A report's procedures, rounds, sums and ending have the names that they have in their lines; a line
that refuses is `refused`, with what it tells as numbers beside it.
"""

import re

LINES = (
    ("procedure", r"procedure (?P<number>\d+) (?P<name>[A-Za-z]\w*)(?: frame (?P<frame>\d+))?"),
    ("checked", r"procedure (?P<number>\d+) cost (?P<cost>\d+) bound (?P<bound>\d+)"),
    ("round", r"round (?P<round>\d+) cost (?P<cost>\d+) bound (?P<bound>\d+)"),
    ("routes", r"routes cost (?P<cost>\d+) bound (?P<bound>\d+)"),
    ("total", r"total cost (?P<cost>\d+) bound (?P<bound>\d+)(?: code (?P<code>\d+))?"),
    ("generated", r"generated seed (?P<seed>\d+) size (?P<size>\d+) bytes (?P<bytes>\d+)"),
    ("output", r"output bytes (?P<bytes>\d+)"),
    ("holds", r"certificate holds"),
    (
        "ending",
        r"(?P<how>ended|going|trap|machine|stuck)(?: (?P<kind>\w+))?"
        r"(?: procedure (?P<procedure>\d+) block (?P<block>\d+) instruction (?P<instruction>\d+))?"
        r" (?:steps (?P<steps>\d+)|units (?P<units>\d+)) reads (?P<reads>\d+)",
    ),
    ("refused", r"(?P<line>(?:fault|limit) .+)"),
)
# What a line that refuses tells behind its first words.
PARTS = re.compile(r"\b(rule|token|at|count|maximum|line|procedure) (\d+)")


def numbers(found):
    """The named parts of a line, numbers as such."""
    parts = {key: value for key, value in found.groupdict().items() if value is not None}
    return {key: int(it) if it.isdecimal() else it for key, it in parts.items()}


def refusal(line):
    """What a line that refuses tells."""
    kind, name = line.split()[:2]
    told = {key: int(number) for key, number in PARTS.findall(line) if key not in ("line",)}
    return {"line": line, "kind": kind, "name": name, **told}


class Value:
    """The value of a call, line by line."""

    def __init__(self, mode):
        self.value = {"mode": mode}

    def take(self, line):
        """Takes a line; whether it is one of a report."""
        for kind, pattern in LINES:
            if found := re.fullmatch(pattern, line):
                self.add(kind, numbers(found), line)
                return True
        return False

    def add(self, kind, it, line):
        known = self.value
        if kind in ("procedure", "checked"):
            known.setdefault("procedures", []).append(it)
        elif kind == "round":
            known["procedures"][-1].setdefault("rounds", []).append(it)
        elif kind == "routes":
            known["procedures"][-1].update(it)
        elif kind == "holds":
            known["holds"] = True
        elif kind == "refused":
            known["refused"] = refusal(line)
        else:
            known[kind] = it


def value_of(mode, status, lines):
    """The value of a call, and the lines that are none of a report."""
    made, others = Value(mode), []
    for line in lines:
        if not made.take(line):
            others.append(line)
    return {**made.value, "status": status}, others
