#!/usr/bin/env python3
"""Makes the ladder of examples/course/ anew, and says which of its files were other ones.

    ladder.py [--write] [--compiler PROGRAM]

A rung is a module NAME.ob, or a certificate by-hand.cert, the example of docs/NETWORK.md. Of each
there are NAME.json, its network by size; NAME.home.cert, where all variables are at home; and
NAME.cert, the optimum with prices that prove it. With --write the files become what is made now. The
status is 0 where nothing differs, and else 1.
"""

import json
import os
import sys
from dataclasses import replace

import stopped
import writing
from pranet import certificate
from pranet.compiler import TOP, Compiler
from pranet.home import home_routes
from pranet.network import Network
from pranet.problem import problem_of_all
from pranet.solver import cost_of
from pranet.words import NoWords, read_words, status_of

USAGE = "usage: ladder.py [--write] [--compiler PROGRAM]"
FOLDER = f"{TOP}/examples/course"
BY_HAND = "by-hand"
MODULES = ("pair", "call", "division", "loop", "two")
ROUNDS = 200


def at_home(known):
    """A certificate of the same code where all variables are at home, without prices."""
    procedures = []
    for it in known.procedures:
        routes = home_routes(Network(it))
        total, prices = cost_of(Network(it), routes, known.cost), certificate.Prices()
        procedures.append(replace(it, routes=routes, total=total, bound=0, prices=prices))
    return certificate.Certificate(known.cost, procedures)


def files_of(name, known):
    """The files of a rung, whose optimum is known, by their names."""
    network = json.dumps(problem_of_all(known), separators=(",", ":"))
    return {
        f"{name}.json": f"{network}\n",
        f"{name}.home.cert": certificate.write(at_home(known)),
        f"{name}.cert": certificate.write(known),
    }


def held(name):
    """The text of a file of the ladder, or nothing."""
    try:
        with open(f"{FOLDER}/{name}", encoding="utf-8") as text:
            return text.read()
    except FileNotFoundError:
        return ""


def rungs(compiler):
    """The name of each rung, and the certificate of its optimum."""
    yield BY_HAND, certificate.read(held(f"{BY_HAND}.cert"))
    for name in MODULES:
        known = compiler.certificate(f"{FOLDER}/{name}.ob", "size", ROUNDS)
        if any(it.total != it.bound for it in known.procedures):
            raise certificate.NoCertificate(f"{name}: {ROUNDS} rounds do not prove the optimum")
        yield name, known


def call(words):
    is_write, words = "--write" in words, [it for it in words if it != "--write"]
    files, values = read_words(words, {})
    if files:
        raise NoWords
    differs = False
    for name, known in rungs(Compiler(values["--compiler"])):
        for file, text in files_of(name, known).items():
            if held(file) != text:
                differs = True
                print(f"{os.path.relpath(FOLDER, TOP)}/{file} differs")
                if is_write:
                    writing.write(f"{FOLDER}/{file}", text.encode())
    return 1 if differs else 0


def main(words):
    return status_of(lambda: call(words), USAGE)


if __name__ == "__main__":
    sys.exit(stopped.status_of(lambda: main(sys.argv[1:])))
