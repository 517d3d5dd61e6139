#!/usr/bin/env python3
"""Measures ten rounds on modules as people write them, beside ones that a generator makes.

    real.py [--optima SECONDS] [--seeds N] [--compiler PROGRAM] [SET ..]

The sets are `programs`, which are the modules of bench/programs/, `branches`, those of N seeds (2)
by scripts/branches.py, and `generated`, as many by `gen`; all three where none is named. Of each
set and by both words of cost a line of a table goes to standard output, with commas and a date: how
many procedures cost anything, by how many per cent their costs after 10 rounds are above the best
bound that is known, in the mean, how many of them by more than 5 per cent, and for how many cost
and bound are equal after 10 rounds. Known is the bound after 200 rounds.

A line to standard error tells of each procedure whose cost is not that bound. With --optima the
solver gets so many seconds of the clock for each of these, twice, and the least cost takes the
place of the bound where the solver proves it.
"""

import csv
import datetime
import glob
import os
import sys
import tempfile
from dataclasses import dataclass

TOP = os.path.dirname(os.path.dirname(os.path.realpath(__file__)))
sys.path.insert(0, f"{TOP}/scripts")

import branches  # noqa: E402
import stopped  # noqa: E402
from picture import report  # noqa: E402
from pranet.compiler import Compiler  # noqa: E402
from pranet.network import Network  # noqa: E402
from pranet.solver import OPEN, solve  # noqa: E402
from pranet.words import WEIGHTS, NoWords, read_words, status_of  # noqa: E402

USAGE = "usage: real.py [--optima SECONDS] [--seeds N] [SET ..]"
OPTIONS = {"--optima": 0, "--seeds": 2}
SETS = ("programs", "branches", "generated")
TAKEN, ALL = 10, 200  # rounds
FAR = 5  # per cent
BRANCHING, GENERATED = 4, 10  # procedures of a module
HEAD = ("date", "set", "cost", "procedures", "percent above", f"above {FAR} percent", "closed")


@dataclass
class Found:
    """What rounds find of a procedure: cost and bound after some, and the best bound known."""

    name: str
    cost: int
    bound: int
    least: int

    def is_closed(self):
        return self.cost == self.bound

    def percent(self):
        """By how many per cent the cost is above the least that is known."""
        return 100 * (self.cost - self.least) / max(self.least, 1)


def found(name, rounds):
    """The same of the costs and bounds of rounds, which end early where these are equal."""
    cost, bound = rounds[: TAKEN + 1][-1]
    return Found(name, cost, bound, rounds[-1][1])


def files_of(name, seeds, room, compiler):
    """The files of a set's modules, made in a folder where they are not there."""
    if name == "programs":
        return sorted(glob.glob(f"{TOP}/bench/programs/*.ob"))
    files = [f"{room}/{name}{seed}.ob" for seed in range(1, seeds + 1)]
    for seed, file in enumerate(files, 1):
        if name == "branches":
            with open(file, "w", encoding="ascii") as out:
                out.write(branches.module(seed, BRANCHING))
        else:
            words = ("--seed", str(seed), "--size", str(GENERATED), "--rounds", "0")
            compiler.call("gen", file, *words, "--image", f"{room}/out.pri", good=(0, 1, 2))
    return files


def find_optima(compiler, file, cost, seconds, procedures):
    """Has the solver look for the least costs of those procedures whose cost is above the bound."""
    known = compiler.certificate(file, cost, ALL)
    for it, code in zip(procedures, known.procedures, strict=True):
        if it.cost > it.least:
            solved = solve(Network(code), known.cost, seconds)
            it.least = code.bound if solved.ending == OPEN else code.total


def measure(compiler, file, cost, seconds, room):
    """What rounds find of the procedures of a module that cost anything."""
    words = ("--cost", cost, "--rounds", str(ALL), "--image", f"{room}/out.pri")
    told = report.read(compiler.call("compile", file, *words)[0].decode())
    module = os.path.basename(file).removesuffix(".ob")
    procedures = [found(f"{module} {it.name} {cost}", it.rounds) for it in told.procedures]
    if seconds and any(it.cost > it.least for it in procedures):
        find_optima(compiler, file, cost, seconds, procedures)
    return [it for it in procedures if it.cost > 0]


def row(name, cost, procedures):
    """The figures of a set."""
    date = datetime.date.today().isoformat()
    mean = sum(it.percent() for it in procedures) / max(len(procedures), 1)
    far = sum(it.percent() > FAR for it in procedures)
    closed = sum(it.is_closed() for it in procedures)
    return date, name, cost, len(procedures), f"{mean:.2f}", far, closed


def call(words):
    names, values = read_words(words, OPTIONS)
    if not set(names) <= set(SETS):
        raise NoWords
    compiler, table = Compiler(values["--compiler"]), csv.writer(sys.stdout, lineterminator="\n")
    table.writerow(HEAD)
    with tempfile.TemporaryDirectory(prefix="real-") as room:
        for name in names or SETS:
            files = files_of(name, values["--seeds"], room, compiler)
            for cost in WEIGHTS:
                procedures = []
                for file in files:
                    procedures += measure(compiler, file, cost, values["--optima"], room)
                for it in procedures:
                    if it.cost > it.least:
                        print(f"{it.name}: {it.cost}, at least {it.least}", file=sys.stderr)
                table.writerow(row(name, cost, procedures))
                sys.stdout.flush()
    return 0


if __name__ == "__main__":
    sys.exit(stopped.status_of(lambda: status_of(lambda: call(sys.argv[1:]), USAGE)))
