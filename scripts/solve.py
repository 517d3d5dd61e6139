#!/usr/bin/env python3
"""Finds the best allocation of a module by the solver CBC, and a proof of how good it is.

    solve.py FILE [--cost size|speed] [--seconds N] [--compiler PROGRAM]

FILE is a module or a code file, of which the beginning are 200 rounds, or a certificate, of which
code, cost word, routes and prices are taken; --cost goes before its cost word, and where it has no
routes all variables are at home. A certificate is written to standard output, which `check` takes:
its prices come of the duals of the relaxation, and its routes are those of the rounds where that
proves them to be the best, and else those that CBC finds, in at most N seconds of the clock for
each of the two, and for each procedure (60). A line for each procedure, and one for all, goes to
standard error.
"""

import sys

import stopped
from picture.report import headings_of
from pranet import certificate
from pranet.cbc import MISSING, NoSolver, is_there
from pranet.code_file import begins_with_brace
from pranet.compiler import Compiler
from pranet.network import Network
from pranet.solver import BY_CBC, OPEN, PROVED, solve
from pranet.words import NoWords, read_words, status_of

USAGE = "usage: pra solve FILE [--cost size|speed] [--seconds N]"
OPTIONS = {"--cost": None, "--seconds": 60}
ROUNDS = 200


def line_of(solved, name):
    """What is told of a procedure."""
    it = solved.procedure
    head = f"procedure {it.number} {name}".rstrip()
    if solved.ending == OPEN:
        return f"{head} cost {it.total} bound {it.bound} gap {it.total - it.bound}"
    return f"{head} optimum {it.total} bound {it.bound}"


def summary_of(all_solved):
    """What is told of the module."""
    total = sum(it.procedure.total for it in all_solved)
    bound = sum(it.procedure.bound for it in all_solved)
    proved = sum(it.ending == PROVED for it in all_solved)
    told = f"total cost {total} bound {bound}: {proved} of {len(all_solved)} optimal and proved"
    for ending, words in ((BY_CBC, "optimal by CBC alone"), (OPEN, "open")):
        count = sum(it.ending == ending for it in all_solved)
        told += f", {count} {words}" if count else ""
    return told


def names_of(file, is_module, count):
    """The names of procedures that a module or code has, where it is one."""
    if not is_module:
        return [""] * count
    with open(file, "rb") as source:
        return [it.name for it in headings_of(file, source.read())]


def call(words):
    files, values = read_words(words, OPTIONS)
    if len(files) != 1:
        raise NoWords
    with open(files[0], "rb") as source:
        is_text = begins_with_brace(source.read(1 << 10))
    if not is_there() and not is_text:  # of which what breaks a rule is told first
        raise NoSolver(MISSING)
    known, is_module = Compiler(values["--compiler"]).problem(files[0], values["--cost"], ROUNDS)
    names = names_of(files[0], is_module, len(known.procedures))
    all_solved = []
    for procedure, name in zip(known.procedures, names, strict=True):
        all_solved.append(solve(Network(procedure), known.cost, values["--seconds"]))
        print(line_of(all_solved[-1], name), file=sys.stderr, flush=True)
    print(certificate.write(known), end="")
    print(summary_of(all_solved), file=sys.stderr)
    return 0


def main(words):
    return status_of(lambda: call(words), USAGE, words[0] if words else "")


if __name__ == "__main__":
    sys.exit(stopped.status_of(lambda: main(sys.argv[1:])))
