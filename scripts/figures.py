#!/usr/bin/env python3
"""Has the solutions of the course's exercises allocate, and compares with the figures of its page.

    figures.py [--exercise N] [--modules M] [--write] [--compiler PROGRAM]

A figure of docs/COURSE.md is what the exercise's solution comes to: the sum over generated modules 1
to 5 of three procedures, by size and by speed; of exercise 8 the bound. Each certificate is tested
by `check`, and a figure more than 2 per cent off is told. With --exercise one alone is computed (0:
all), with --modules the first M, which are not compared but printed. With --write the page gets what
is computed. All take some minutes of a processor. The status is 0 where all agree, and else 1.
"""

import json
import re
import sys
import tempfile

import stopped
import writing
from grading.entries import entry_of_command
from pranet import certificate
from pranet.compiler import TOP, Compiler
from pranet.problem import problem_of_all
from pranet.words import WEIGHTS, NoWords, read_words, status_of

USAGE = "usage: figures.py [--exercise N] [--modules M] [--write]"
PAGE = f"{TOP}/docs/COURSE.md"
SOLUTIONS = f"{TOP}/examples/course/solutions"
COMMANDS = (  # of exercises 1 to 8
    f"{SOLUTIONS}/home.py",
    f"{TOP}/examples/allocator/allocate.py",
    f"{SOLUTIONS}/linear_scan.py",
    f"{SOLUTIONS}/linear_scan.py --holes",
    f"{SOLUTIONS}/colouring.py",
    f"{SOLUTIONS}/split.py",
    f"{SOLUTIONS}/negotiate.py",
    f"{SOLUTIONS}/proof.py",
)
PROOF = 8  # the exercise whose figure is a bound
MODULES, SIZE = 5, 3  # and how many procedures each has
PATIENCE = 3600  # seconds for a module
OFF = 0.02  # of a figure
ROW = re.compile(r"^(\| (\d) \| [^|]+ \|) ([\d,]+) \| ([\d,]+) \|", re.M)


class Wrong(Exception):
    """Why a solution is none."""


def figures(page):
    """The figures of the page by exercise: by size and by speed."""
    return {
        int(found[2]): tuple(int(found[at].replace(",", "")) for at in (3, 4))
        for found in ROW.finditer(page)
    }


def written(page, exercise, computed):
    """The page with other figures of an exercise."""

    def row(found):
        cells = " | ".join(f"{it:,}" for it in computed)
        return f"{found[1]} {cells} |" if int(found[2]) == exercise else found[0]

    return ROW.sub(row, page)


def is_near(computed, told):
    return abs(computed - told) <= OFF * told


def figure(compiler, exercise, file, cost):
    """What the solution of an exercise comes to on a module."""
    problem = json.dumps(problem_of_all(compiler.problem(file, cost)[0]))
    entry = entry_of_command(f"{sys.executable} {COMMANDS[exercise - 1]}", problem, PATIENCE)
    status, said = compiler.check(entry.text)
    if entry.fault or status:
        raise Wrong(f"exercise {exercise} by {cost}: {entry.reason or said.strip()}")
    procedures = certificate.read(entry.text).procedures
    return sum(it.bound if exercise == PROOF else it.total for it in procedures)


def module_of(compiler, seed, room):
    file = f"{room}/g{seed}.ob"
    options = ("--seed", str(seed), "--size", str(SIZE), "--rounds", "0")
    compiler.call("gen", file, *options, "--image", f"{file}.pri", good=(0, 1, 2))
    return file


def computed_of(compiler, exercise, modules):
    """What an exercise comes to on the first modules, by size and by speed."""
    with tempfile.TemporaryDirectory(prefix="pra-figures-") as room:
        files = [module_of(compiler, seed, room) for seed in range(1, modules + 1)]
        return tuple(sum(figure(compiler, exercise, it, cost) for it in files) for cost in WEIGHTS)


def call(words):
    is_write, words = "--write" in words, [it for it in words if it != "--write"]
    files, values = read_words(words, {"--exercise": 0, "--modules": MODULES})
    if files or values["--exercise"] > len(COMMANDS):
        raise NoWords
    with open(PAGE, encoding="utf-8") as text:
        page = text.read()
    told, compiler, differs = figures(page), Compiler(values["--compiler"]), False
    exercises = [values["--exercise"]] if values["--exercise"] else range(1, len(COMMANDS) + 1)
    for exercise in exercises:
        computed = computed_of(compiler, exercise, values["--modules"])
        print(f"exercise {exercise}: {computed[0]} by size, {computed[1]} by speed", flush=True)
        if values["--modules"] == MODULES and not all(map(is_near, computed, told[exercise])):
            print(f"exercise {exercise}: the page has {told[exercise][0]} and {told[exercise][1]}")
            differs = True
        if values["--modules"] == MODULES and is_write:
            page = written(page, exercise, computed)
    if is_write:
        writing.write(PAGE, page.encode())
    return 1 if differs else 0


def main(words):
    try:
        return status_of(lambda: call(words), USAGE)
    except Wrong as wrong:
        print(wrong, file=sys.stderr)
        return 1


if __name__ == "__main__":
    sys.exit(stopped.status_of(lambda: main(sys.argv[1:])))
