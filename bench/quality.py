#!/usr/bin/env python3
"""Prints how far the code that rounds find is from the best there is.

    quality.py PRA ROUNDS [--csv NAME] FILE..    PRA is the compiler, built: crates/pra/out/pra

For each procedure of the modules in the files, and by both lists of weights, a line of a table: the
optimum, the cost after 0, 1, 5, 10, 20, 50, .. of so many rounds and by how many per cent it is
above the optimum from round 1 on, and the bound so and how many per cent of the optimum it is. All
this is what the report of a compilation tells. Below stand the sums for each module, with the
processor time of ten rounds, and the sums of all, and how many procedures are closed: their cost is
their bound, so that it is known to be the least.

The optimum of a procedure is the least value of its network as an integer program. It is read from
optima.txt beside this file, which names modules by the sums of their text: it holds for the code and
the networks of the day when it was found, and a cost below it, which is told, shows that they have
changed since. Where it is not known the cells hold a dash. With --csv the file NAME gets a row for
each procedure: weights, module, number, optimum, and cost and bound after so many rounds.
"""

import csv
import hashlib
import os
import re
import resource
import subprocess
import sys
import tempfile

TOLD = (0, 1, 5, 10, 20, 50, 100, 200, 500, 1000)
TIMED = 10  # the rounds whose time is printed
OPTIMA = os.path.join(os.path.dirname(os.path.abspath(__file__)), "optima.txt")


class Row:
    """A procedure, a module or all: its optimum, and cost and bound by rounds."""

    def __init__(self, name, optimum, cost, bound, time=None):
        self.name = name
        self.optimum = optimum
        self.cost = cost
        self.bound = bound
        self.time = time


def known_optima():
    """The optimum by module, weights and number of the procedure."""
    known = {}
    with open(OPTIMA, encoding="utf-8") as file:
        for line in file:
            if line.strip() and not line.startswith("#"):
                module, weights, procedure, value = line.split()[:4]
                known[module, weights, int(procedure)] = int(value)
    return known


def sum_of_text(path):
    with open(path, "rb") as file:
        return hashlib.sha256(file.read()).hexdigest()[:16]


def report(pra, path, weights, rounds):
    """The lines of a compilation's report, and its processor time in milliseconds."""
    with tempfile.TemporaryDirectory() as folder:
        image = os.path.join(folder, "out.pri")
        words = [pra, "compile", path, "--rounds", str(rounds), "--cost", weights, "--image", image]
        begun = resource.getrusage(resource.RUSAGE_CHILDREN)
        done = subprocess.run(words, capture_output=True, check=True, text=True)
        ended = resource.getrusage(resource.RUSAGE_CHILDREN)
    time = ended.ru_utime - begun.ru_utime + ended.ru_stime - begun.ru_stime
    return done.stdout.splitlines(), 1000 * time


def lines_of(pra, path, weights, rounds):
    """For each procedure its lines of rounds, as pairs of cost and bound."""
    procedures = []
    for line in report(pra, path, weights, rounds)[0]:
        if line.startswith("procedure"):
            procedures.append([])
        found = re.match(r"round \d+ cost (\d+) bound (\d+)$", line)
        if found:
            procedures[-1].append((int(found.group(1)), int(found.group(2))))
    return procedures


def rows_of(pra, path, weights, rounds, known):
    """A row for each procedure of a module, and one for the module with the time of rounds."""
    module = os.path.basename(path).removesuffix(".ob")
    key = sum_of_text(path)
    told = [at for at in TOLD if at <= rounds]
    rows = []
    for number, lines in enumerate(lines_of(pra, path, weights, rounds)):
        # rounds end where cost and bound are equal
        at = {k: lines[min(k, len(lines) - 1)] for k in told}
        cost, bound = ({k: pair[i] for k, pair in at.items()} for i in (0, 1))
        rows.append(Row(f"{module} {number}", known.get((key, weights, number)), cost, bound))
    time = report(pra, path, weights, TIMED)[1] - report(pra, path, weights, 0)[1]
    return rows, total(module, rows, told, f"{max(time, 0):.0f}")


def total(name, rows, told, time=None):
    optima = [row.optimum for row in rows]
    optimum = None if None in optima else sum(optima)
    cost, bound = ({k: sum(getattr(row, part)[k] for row in rows) for k in told}
                   for part in ("cost", "bound"))
    return Row(name, optimum, cost, bound, time)


def above(row, at):
    """By how many per cent the cost is above the optimum."""
    if row.optimum is None:
        return "-"
    return f"{100 * (row.cost[at] - row.optimum) / row.optimum:.1f}" if row.optimum else "0.0"


def part(row, at):
    """What part of the optimum the bound is, in per cent."""
    if row.optimum is None:
        return "-"
    return f"{100 * row.bound[at] / row.optimum:.1f}" if row.optimum else "100.0"


def print_table(told, rows, what):
    is_timed = any(row.time is not None for row in rows)
    print(f"| {what} | optimum | cost | % above it | bound | % of it |{' ms |' * is_timed}")
    print(f"|---|--:|---|---|---|---|{'--:|' * is_timed}")
    for row in rows:
        cells = [row.name, "-" if row.optimum is None else row.optimum]
        cells.append(" ".join(str(row.cost[at]) for at in told))
        cells.append(" ".join(above(row, at) for at in told[1:]))
        cells.append(" ".join(str(row.bound[at]) for at in told))
        cells.append(" ".join(part(row, at) for at in told[1:]))
        if is_timed:
            cells.append("-" if row.time is None else row.time)
        print("| " + " | ".join(str(cell) for cell in cells) + " |")
        if row.optimum is not None and min(row.cost.values()) < row.optimum:
            print(f"{row.name}: a cost is below the optimum in optima.txt", file=sys.stderr)
    print(flush=True)


def write_csv(name, told, rows):
    """Writes the rows of procedures, each with its weights."""
    with open(name, "w", encoding="utf-8", newline="") as file:
        out = csv.writer(file, lineterminator="\n")
        parts = [f"{part} {at}" for part in ("cost", "bound") for at in told]
        out.writerow(["weights", "module", "procedure", "optimum", *parts])
        for weights, row in rows:
            module, number = row.name.rsplit(" ", 1)
            values = [part[at] for part in (row.cost, row.bound) for at in told]
            out.writerow([weights, module, number, row.optimum, *values])


def main():
    pra, rounds, files = sys.argv[1], int(sys.argv[2]), sys.argv[3:]
    table = None
    if files[:1] == ["--csv"]:
        table, files = files[1], files[2:]
    known = known_optima()
    told = [at for at in TOLD if at <= rounds]
    written = []
    for weights in ("size", "speed"):
        print(f"By {weights}, at rounds {', '.join(str(at) for at in told)}; % from round 1 on; "
              f"ms are those of {TIMED} rounds:\n")
        all_rows, modules = [], []
        for path in files:
            rows, module = rows_of(pra, path, weights, rounds, known)
            all_rows += rows
            written += [(weights, it) for it in rows]
            modules.append(module)
        print_table(told, all_rows, "Procedure")
        modules.append(total("all", all_rows, told))
        print_table(told, modules, "Module")
        closed = (sum(row.cost[at] == row.bound[at] for row in all_rows) for at in told)
        print(f"Closed, of {len(all_rows)}: {', '.join(map(str, closed))}\n", flush=True)
    if table:
        write_csv(table, told, written)


main()
