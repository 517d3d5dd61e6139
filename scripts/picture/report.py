"""What the compiler reports of a module, and the names that its source has for what is shown."""

import re
from dataclasses import dataclass

import places
from checker import given
from pranet import code_file

PROCEDURE = re.compile(r"procedure (\d+) (\S+) frame (\d+)")
ROUND = re.compile(r"round (\d+) cost (\d+) bound (\d+)")
TOTAL = re.compile(r"total cost (\d+) bound (\d+) code (\d+)")


class NoReport(Exception):
    """Why a text is no report."""


@dataclass
class Reported:
    name: str
    frame: int  # bytes
    rounds: list  # cost and bound after each round, from round 0 on


@dataclass
class Report:
    procedures: list
    cost: int
    bound: int
    code: int  # bytes
    ending: str  # how the run ended, if there was one


def read(text):
    """The report in a text, and the line behind it."""
    procedures, lines = [], iter(text.splitlines())
    for line in lines:
        if found := PROCEDURE.fullmatch(line):
            procedures.append(Reported(found[2], int(found[3]), []))
        elif (found := ROUND.fullmatch(line)) and procedures:
            procedures[-1].rounds.append((int(found[2]), int(found[3])))
        elif found := TOTAL.fullmatch(line):
            return Report(procedures, *map(int, found.groups()), next(lines, ""))
    raise NoReport("there is no report")


# ---- names of the source


@dataclass
class Heading:
    name: str
    line: int  # of the source, from 1
    parameters: list  # a name and whether it is VAR


def sections(words):
    """Names and whether they are VAR, of the parameters in the words behind a heading's name."""
    if not words or words[0] != "(":
        return []
    found, depth, in_names, by_var = [], 0, True, False
    for word in words:
        if word in ("(", "["):
            depth += 1
        elif word in (")", "]"):
            depth -= 1
            if depth == 0:
                break
        elif word == ";" and depth == 1:
            in_names, by_var = True, False
        elif word == ":" and depth == 1:
            in_names = False
        elif in_names and word == "VAR":
            by_var = True
        elif in_names and word != ",":
            found.append((word, by_var))
    return found


def headings(source):
    """The heading of each procedure, in the order of their numbers; that of the module is first."""
    spans = list(places.tokens(source))
    words = [source[start:end].decode("latin-1") for start, end in spans]
    found = []
    for at, word in enumerate(words):
        if word in ("MODULE", "PROCEDURE"):
            line = source.count(b"\n", 0, spans[at][0]) + 1
            limit = at + 2 if word == "MODULE" else at + 200
            found.append(Heading(words[at + 1], line, sections(words[at + 2 : limit])))
    return found


def headings_of(name, source):
    """The same of what a file of this name holds, a module or a code file, which may be Broken."""
    if not code_file.is_code(source):
        return headings(source)
    return [Heading(it, None, []) for it in given.code_of(name, source).names]
