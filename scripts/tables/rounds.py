"""Rounds of the codes that tests_price has in tables, by the tool.

At most twenty are granted, and they end where the cost is the bound. The least cost of all routes
(`least`) is between bound and cost, and is the cost where it is `reached`. Costs `fall` where rounds
end below the home routes, and bounds `rise` where round 1 raises the bound.
"""

import glob
import re

from calls.reader import FILE
from pranet.certificate import Block, Procedure
from processor.tables import tables
from tables import rows, sketches, tool

SOURCES = f"{rows.FOLDER}/../crates/tests_price/src/rows/*.rt"
MOST = 20
ROUND = re.compile(r"round (\d+) cost (\d+) bound (\d+)")


def codes():
    """Of each row its name, code and weights, and what is said of rounds."""
    for name in sorted(glob.glob(SOURCES)):
        with open(name, encoding="utf-8") as file:
            for table in tables(file.read()).values():
                for row in re.split(r"^# ", table, flags=re.M)[1:]:
                    head, *lines = row.split("\n@")[0].splitlines()
                    said = dict(it.split(" ", 1) for it in lines)
                    for cost in {"both": ("size", "speed")}.get(said["weights"], [said["weights"]]):
                        yield head, cost, said


def module_of(code):
    """The procedures of a code file in which code stands behind an empty body, and each procedure
    that it calls behind it, with as many arguments as are pushed."""
    sketch = sketches.Sketch()
    for line in code.split("; "):
        sketch.take(line)
    (own,), called = sketch.procedures, {}
    own.number = 1
    for block in own.blocks:
        pushed = 0
        for ins in block.code:
            if ins[0] == "push":
                pushed += 1
            elif ins[0] == "call":
                ins[1] = called.setdefault((ins[1], pushed), 2 + len(called))
                pushed = 0
    empty = [Procedure(0, 0, 0, [], [Block(0, [], ["return"])], [], 0, 0)]
    counts = [(number, args) for (_, args), number in called.items()]
    others = [Procedure(*it, 0, [], [Block(0, [], ["return"])], [], 0, 0) for it in counts]
    return [*empty, own, *others]


def rounds_of(text, cost):
    """Cost and bound of each round of procedure 1."""
    words = ["compile", FILE, tool.FROM, f"--rounds={MOST}", f"--cost={cost}"]
    report = tool.call(words, {FILE: text}).out.decode()
    own = re.split(r"^procedure .*\n", report, flags=re.M)[2]
    return [(int(it[2]), int(it[3])) for it in ROUND.finditer(own)]


def differences(_name, cost, said):
    """What rounds are not, as a row says it."""
    found = rounds_of(tool.code_text(module_of(said["code"]), 0), cost)
    (first, begun), (last, bound) = found[0], found[-1]
    if len(found) <= MOST and last != bound:
        yield f"rounds end early: {found}"
    if said.get("costs") == "fall" and last >= first:
        yield f"costs do not fall: {found}"
    if said.get("bounds") == "rise" and (len(found) == 1 or found[1][1] <= begun):
        yield f"bounds do not rise: {found}"
    least, _, is_reached = said.get("least", f"{last}").partition(" ")
    if not bound <= int(least) <= last or is_reached and last != int(least):
        yield f"the least cost is {least}: {found}"
