#!/usr/bin/env python3
"""Prints what the allocation of a module asks, as an integer program.

    lp.py FILE [--cost size|speed] [--compiler PROGRAM]

FILE is a module, a code file, or a certificate, of which code and cost word are taken and nothing
else; --cost goes before its cost word. Code that breaks a rule is refused, with the rule. The text
is in the LP format, that any solver reads; its least value is what the cheapest allocation costs.
docs/NETWORK.md says what rows and variables mean.
"""

import sys

import stopped
from pranet.network import Network
from pranet.program import program_of_all
from pranet.words import read_problem, status_of

USAGE = "usage: pra lp FILE [--cost size|speed]"


def call(words):
    known = read_problem(words)
    networks = [Network(it) for it in known.procedures]
    print(*program_of_all(networks, known.cost).text(), sep="\n")
    return 0


def main(words):
    return status_of(lambda: call(words), USAGE, words[0] if words else "")


if __name__ == "__main__":
    sys.exit(stopped.status_of(lambda: main(sys.argv[1:])))
