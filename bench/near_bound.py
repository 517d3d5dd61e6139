#!/usr/bin/env python3
"""Counts how many procedures are allocated how near to their bounds, and has it drawn.

    near_bound.py [--compiler PROGRAM] [--modules N] [--rounds N] [FILE..]
    near_bound.py --draw

Of the modules in FILEs, or of those of examples/ and bench/programs/, and of N generated ones of 20
procedures (the seeds from 1 on), each procedure has by size and by speed its cost after each round,
what linear scan, linear scan with holes and colouring come to (scripts/picture/others.py), and
where `llc` is installed what the four allocators of LLVM come to (beside_llvm.py). A cost is
compared with the bound of the last round, below which no allocation of the same code costs: within
P per cent are the procedures whose cost is at most that share above it. near_bound.csv gets a line
for each weight and allocator, with the number of procedures, the sums of costs and bounds, and how
many are within 0, 1, 2, 5 and 10 per cent; docs/near_bound.svg is the picture of it. Where an
allocator finds no routes for a procedure it is within no share, and the sum has the cost of round 0
in their place. With --draw the picture is drawn anew of the csv alone.
"""

import csv
import glob
import os
import sys
import tempfile

import beside_llvm
import near_picture
from beside_llvm import TOP, WEIGHTS
from near_picture import SHARES

from picture.module import reported
from picture.others import others
from pranet.compiler import Compiler
from pranet.network import Network
from pranet.words import NoWords, read_words, status_of

HERE = os.path.dirname(os.path.realpath(__file__))
TABLE, PICTURE = f"{HERE}/near_bound.csv", f"{TOP}/docs/near_bound.svg"
OPTIONS = {"--modules": 48, "--rounds": 10}
SIZE = "20"  # procedures of a generated module, besides its body
RAN = (0, 1, 2)  # statuses with which a generated module was written
USAGE = "usage: near_bound.py [--compiler PROGRAM] [--modules N] [--rounds N] [FILE..]"
HEADS = ["weights", "allocator", "procedures", "cost", "bound"]
HEADS += [f"within {it}%" for it in SHARES]


class Row:
    """What an allocator comes to in all, by one of the weights."""

    def __init__(self):
        self.count = self.cost = self.bound = 0
        self.within = [0] * len(SHARES)

    def take(self, cost, bound, instead):
        """Takes a procedure; its cost is None where there are no routes."""
        self.count += 1
        self.bound += bound
        self.cost += instead if cost is None else cost
        for at, share in enumerate(SHARES):
            self.within[at] += cost is not None and 100 * (cost - bound) <= share * bound

    def cells(self):
        return [self.count, self.cost, self.bound, *self.within]


def llvms(procedures):
    """What LLVM's allocators come to, by name and weights, a list for a module's procedures."""
    if not beside_llvm.is_there():
        return {}
    found = {it: beside_llvm.allocated(procedures, it) for it in beside_llvm.ALLOCATORS}
    return {
        (name, cost): [it[cost] for it in them] for name, them in found.items() for cost in WEIGHTS
    }


def after_rounds(lines, rounds):
    """The cost after each number of rounds; rounds stop where cost and bound are one."""
    return {f"round {k}": lines[min(k, len(lines) - 1)][0] for k in range(rounds + 1)}


def take_module(rows, compiler, file, rounds, room):
    """Adds the procedures of a module to the rows of all allocators."""
    known = compiler.certificate(file, "size", 0).procedures  # the code is one by both weights
    networks, theirs = [Network(it) for it in known], llvms(known)
    for cost in WEIGHTS:
        options = ("--rounds", str(rounds), "--cost", cost)
        told = reported(compiler, file, options, f"{room}/out.pri").procedures
        for at, (network, it) in enumerate(zip(networks, told, strict=True)):
            found = after_rounds(it.rounds, rounds) | others(network, cost)
            found |= {name: them[at] for (name, by), them in theirs.items() if by == cost}
            for name, total in found.items():
                row = rows.setdefault((cost, name), Row())
                row.take(total, it.rounds[-1][1], it.rounds[0][0])


def modules(files, count, compiler, room):
    """The files of all modules; those that are generated are made below a folder."""
    known = [f"{TOP}/examples/*.ob", f"{TOP}/bench/programs/*.ob"]
    yield from files or sorted(it for pattern in known for it in glob.glob(pattern))
    for seed in range(1, count + 1):
        file = f"{room}/{seed}.ob"
        words = ("--seed", str(seed), "--size", SIZE, "--rounds", "0")
        compiler.call("gen", file, *words, "--image", f"{room}/out.pri", good=RAN)
        yield file


def measure(files, values):
    """Writes the csv."""
    compiler, rows = Compiler(values["--compiler"]), {}
    if not beside_llvm.is_there():
        print("llc is not installed (Debian: llvm): LLVM's allocators are left out")
    with tempfile.TemporaryDirectory(prefix="pra-near-") as room:
        for file in modules(files, values["--modules"], compiler, room):
            take_module(rows, compiler, file, values["--rounds"], room)
            count = next(iter(rows.values())).count
            print(f"{os.path.basename(file)}: {count} procedures so far", flush=True)
    with open(TABLE, "w", encoding="utf-8", newline="") as out:
        table = csv.writer(out, lineterminator="\n")
        table.writerow(HEADS)
        for cost in WEIGHTS:
            table.writerows([*key, *row.cells()] for key, row in rows.items() if key[0] == cost)


def draw():
    """Draws the picture of the csv."""
    with open(TABLE, encoding="utf-8", newline="") as text:
        rows = list(csv.DictReader(text))
    with open(PICTURE, "w", encoding="utf-8") as out:
        out.write(near_picture.picture(rows))
    print(os.path.relpath(PICTURE))


def call(words):
    is_drawn = words == ["--draw"]
    files, values = read_words([] if is_drawn else words, OPTIONS)
    if not is_drawn:
        measure(files, values)
    draw()
    return 0


if __name__ == "__main__":
    sys.exit(status_of(lambda: call(sys.argv[1:]), USAGE))
