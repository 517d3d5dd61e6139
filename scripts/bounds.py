#!/usr/bin/env python3
"""Tells where bounds of generated modules are lower, or costs higher, than they were.

    bounds.py [--write] [--compiler PROGRAM]

bounds.txt beside this file has a line for each module: its seed, and after 1 and after 10 rounds,
by size and by speed, what its bounds add up to at least, and then what its costs add up to at most.
A module has as many procedures as the file's first line says. The last line printed tells of how
many modules this does not hold. With --write the table is written anew: a bound becomes 98 per cent
of what it is now, so that a rule that chooses otherwise passes, and one that raises nothing does
not; a cost is what it is now. A line tells the sums that were and are. The status is 1 where a
bound is lower or a cost higher.
"""

import sys
import tempfile

import stopped
from picture import report
from pranet.compiler import TOP, Compiler
from pranet.words import WEIGHTS, read_words, status_of

FILE = f"{TOP}/scripts/bounds.txt"
USAGE = "usage: bounds.py [--write] [--compiler PROGRAM]"
ROUNDS = (1, 10)
SHARE = 98  # per cent
HEAD = "# seed; least bounds, by size after 1 and 10 rounds, by speed the same; most costs; size"


def read():
    """How many procedures a module has, and of each seed the least bounds and the most costs."""
    with open(FILE, encoding="utf-8") as text:
        head, *lines = text.read().splitlines()
    rows = (list(map(int, line.split())) for line in lines)
    half = 2 * len(ROUNDS)
    return int(head.split()[-1]), {seed: (it[:half], it[half:]) for seed, *it in rows}


def found_of(compiler, room, seed, size):
    """The sums of a module's bounds and those of its costs, in the order of the file."""
    file, image = f"{room}/module.ob", ("--image", f"{room}/out.pri")
    words = ("--seed", str(seed), "--size", str(size), "--rounds", "0")
    compiler.call("gen", file, *words, *image, good=(0, 1, 2))
    bounds, costs = [], []
    for weights in WEIGHTS:
        options = ("--cost", weights, "--rounds", str(max(ROUNDS)))
        text, _ = compiler.call("compile", file, *options, *image)
        procedures = report.read(text.decode()).procedures
        for at in ROUNDS:
            # (rounds end where cost and bound meet)
            lasts = [it.rounds[: at + 1][-1] for it in procedures]
            costs.append(sum(cost for cost, _ in lasts))
            bounds.append(sum(bound for _, bound in lasts))
    return bounds, costs


def write(size, found):
    """Writes the table of what was found."""
    rows = [
        [seed, *(it * SHARE // 100 for it in bounds), *costs]
        for seed, (bounds, costs) in found.items()
    ]
    with open(FILE, "w", encoding="utf-8") as text:
        print(f"{HEAD} {size}", *(" ".join(map(str, it)) for it in rows), sep="\n", file=text)


def sums(table):
    """The sum of all bounds, and that of all costs."""
    return [sum(sum(it[part]) for it in table.values()) for part in (0, 1)]


def worse(found, known):
    """What is worse than it was, in words."""
    (bounds, costs), (least, most) = found, known
    if any(it < wanted for it, wanted in zip(bounds, least, strict=True)):
        yield f"bounds {bounds}, at least {least}"
    if any(it > wanted for it, wanted in zip(costs, most, strict=True)):
        yield f"costs {costs}, at most {most}"


def main(words):
    is_write = "--write" in words
    _, values = read_words([it for it in words if it != "--write"], {})
    size, known = read()
    with tempfile.TemporaryDirectory(prefix="bounds-") as room:
        compiler = Compiler(values["--compiler"])
        found = {seed: found_of(compiler, room, seed, size) for seed in known}
    if is_write:
        write(size, found)
        (least, most), (bounds, costs) = sums(known), sums(read()[1])
        print(f"bounds at least {least} -> {bounds}, costs at most {most} -> {costs}")
        return 0
    wrong = 0
    for seed, it in found.items():
        told = list(worse(it, known[seed]))
        wrong += bool(told)
        for line in told:
            print(f"gen --seed {seed} --size {size}: {line}")
    print(f"{len(known)} modules, {wrong} of them with a lower bound or a higher cost")
    return int(wrong > 0)


if __name__ == "__main__":
    sys.exit(stopped.status_of(lambda: status_of(lambda: main(sys.argv[1:]), USAGE)))
