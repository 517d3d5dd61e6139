#!/usr/bin/env python3
"""Grades allocators: what certificates of a list of modules cost beside what others come to.

    grade.py FILE.. | --secret SEED   --command COMMAND | --folder FOLDER | both
        [--cost size|speed] [--seconds N] [--points NAME] [--csv NAME] [--solve N]
        [--compiler PROGRAM]

A FILE is a module, a code file or a certificate, whose code is taken. COMMAND is called once for
each: it has the network's JSON as its standard input and prints a certificate (docs/NETWORK.md). Or
FOLDER has for each FILE a certificate NAME.cert, where NAME.ob, NAME.code or NAME.cert is the name
of FILE. With both COMMAND is called in FOLDER. Where FOLDER has folders each of them is a student,
and the best stand first in a table of all. A COMMAND that has not ended after N seconds (60) is
ended, with all that it began. --secret SEED makes five modules that nobody has seen, the same ones
for the same SEED, in place of FILEs or besides.

A line for each module has the verdict, cost and bound, and beside them the optimum, and what 10
rounds, home, linear scan without and with holes, and colouring cost. Below stand the reasons of
those that are not admitted, and a note where a certificate is byte for byte that of `cert` or
`solve`. The optimum is the one that bench/optima.txt knows, that is proved, or that `solve` finds
in N seconds for each step (--solve; without it it is not asked), or is marked by `<=` as the best
that is known here. --points names a file of thresholds (grading/points.py has its form). With --csv
all is written to the file NAME, as comma-separated values. The status is 0 where all are admitted,
3 where one is not.
"""

import hashlib
import json
import os
import shlex
import sys
import tempfile

import stopped
import writing
from checker.given import Broken
from grading import points, tables
from grading.entries import certificate_name, entry_of_command, entry_of_folder, students_of
from grading.entries import module_name
from grading.references import OPTIMA, OTHERS, reference_of
from grading.verdicts import ADMITTED, copied_from, judge
from pranet.compiler import Compiler
from pranet.problem import problem_of_all
from pranet.words import NoWords, read_words, status_of

USAGE = "usage: pra grade FILE.. | --secret SEED  --command COMMAND | --folder FOLDER | both"
USAGE += "\n  [--cost W] [--seconds N] [--points NAME] [--csv NAME] [--solve N]"
OPTIONS = dict.fromkeys(("--command", "--folder", "--csv", "--points", "--secret"))
OPTIONS |= {"--cost": None, "--seconds": 60, "--solve": 0}
SECRETS, SECRET_SIZE = 5, 3  # modules that nobody has seen, and their procedures


def secret_modules(compiler, secret, room):
    """Makes modules that only who knows the secret can make."""
    for number in range(1, SECRETS + 1):
        digest = hashlib.sha256(f"{secret} {number}".encode()).digest()
        seed, file = int.from_bytes(digest[:4]) >> 1, f"{room}/secret{number}.ob"
        options = ("--seed", str(seed), "--size", str(SECRET_SIZE), "--rounds", "0")
        compiler.call("gen", file, *options, "--image", f"{file}.pri", good=(0, 1, 2))
        yield file


def entry_of(student, reference, values):
    """What a student hands in for a module."""
    if not values["--command"]:
        return entry_of_folder(student.folder, reference.file)
    problem = json.dumps(problem_of_all(reference.wanted))
    return entry_of_command(values["--command"], problem, values["--seconds"], student.folder)


def row_of(compiler, student, reference, values, thresholds):
    """The cells of a module by column: words for the verdict, and numbers, None where unknown."""
    entry = entry_of(student, reference, values)
    verdict = judge(compiler, entry, reference.wanted)
    row = {"module": module_name(reference.file), "optimum": reference.optimum, **reference.costs}
    row |= {"verdict": verdict.word, "reason": verdict.reason}
    row |= {"cost": verdict.cost, "bound": verdict.bound, "best": reference.optimum}
    if row["best"] is None:
        row["best"] = min(it for it in map(row.get, ("cost", *OTHERS)) if it is not None)
    if verdict.is_admitted:
        row["reason"] = copied_from(compiler, entry.text, reference.file, reference.wanted.cost)
    if thresholds is not None:
        row["points"] = points.points_of(thresholds, row)
    return row


def graded(compiler, students, references, values, thresholds):
    """The rows of each student, that of all behind them."""
    for student in students:
        rows = [row_of(compiler, student, it, values, thresholds) for it in references]
        yield student.name, [*rows, tables.sum_of(rows, thresholds is not None)]


def files_read(files, students, values):
    """The names of the files that a call reads, and of those that its command may read."""
    read = [OPTIMA, *files, *([values["--points"]] if values["--points"] else [])]
    if values["--command"]:
        return [*read, *shlex.split(values["--command"])]
    return [*read, *(certificate_name(it.folder, file) for it in students for file in files)]


def thresholds_of(name):
    """The thresholds that a file of points has; None where there is none."""
    if not name:
        return None
    with open(name, encoding="utf-8") as text:
        try:
            return points.read(text.read(), tables.NUMBERS[2:])
        except points.NoPoints as error:
            raise Broken([f"{name}:{error}"]) from error


def call(words):
    files, values = read_words(words, OPTIONS)
    if not (files or values["--secret"]) or not (values["--command"] or values["--folder"]):
        raise NoWords
    students, thresholds = students_of(values["--folder"]), thresholds_of(values["--points"])
    read = files_read(files, students, values)
    if values["--csv"]:
        writing.check(values["--csv"], read)
    compiler = Compiler(values["--compiler"])
    with tempfile.TemporaryDirectory(prefix="pra-grade-") as room:
        if values["--secret"]:
            files += secret_modules(compiler, values["--secret"], room)
        cost, seconds = values["--cost"], values["--solve"]
        references = [reference_of(compiler, it, cost, seconds) for it in files]
        all_rows = list(graded(compiler, students, references, values, thresholds))
    if len(all_rows) == 1:
        tables.print_table(all_rows[0][1])
    else:
        tables.print_best(all_rows)
    if values["--csv"]:
        writing.write(values["--csv"], tables.text_of(all_rows).encode(), read)
    verdicts = [it["verdict"] for _, rows in all_rows for it in rows[:-1]]
    return 0 if all(it == ADMITTED for it in verdicts) else 3


def main(words):
    return status_of(lambda: call(words), USAGE)


if __name__ == "__main__":
    sys.exit(stopped.status_of(lambda: main(sys.argv[1:])))
