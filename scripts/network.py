#!/usr/bin/env python3
"""Prints what the allocation of a module asks, as JSON.

    network.py FILE [--cost size|speed] [--compiler PROGRAM]

FILE is a module, a code file, or a certificate, of which code and cost word are taken and nothing
else; --cost goes before its cost word. Code that breaks a rule is refused, with the rule. The
networks of its procedures are printed as one value, which docs/NETWORK.md explains.
"""

import json
import sys

import stopped
from pranet.problem import problem_of_all
from pranet.words import read_problem, status_of

USAGE = "usage: pra network FILE [--cost size|speed]"


def call(words):
    print(json.dumps(problem_of_all(read_problem(words)), separators=(",", ":")))
    return 0


def main(words):
    return status_of(lambda: call(words), USAGE, words[0] if words else "")


if __name__ == "__main__":
    sys.exit(stopped.status_of(lambda: main(sys.argv[1:])))
