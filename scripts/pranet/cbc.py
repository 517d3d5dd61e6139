"""The solver CBC (of COIN-OR), called as a program with a text in the LP format."""

import os
import shutil
import subprocess
import tempfile
import time
from dataclasses import dataclass

import stopped

PROGRAM = "cbc"
MISSING = "the solver cbc is not installed (Debian: apt-get install coinor-cbc)"
GRACE = 30  # seconds more than it was given, until it is ended
LEFT = 0.1  # of its time: what has to be left where it says that there is nothing
RELAXED = ("-presolve", "more", "-dualSimplex")


class NoSolver(Exception):
    """Why there is no answer of the solver."""


@dataclass
class Answer:
    ended: str  # in CBC's words, as "Optimal" or "Stopped on time"
    values: dict  # of variables that are not 0, by name
    duals: dict  # of rows, by name
    had_time: bool = True  # whether time was left when it ended

    @property
    def is_optimal(self):
        return self.ended.startswith("Optimal")

    @property
    def is_settled(self):
        """Whether these values are the best, or there are none below what was asked for. Where time
        runs out CBC may say that there are none although it has not looked everywhere."""
        return self.is_optimal or (self.had_time and "infeasible" in self.ended.lower())


def is_there():
    return shutil.which(PROGRAM) is not None


def read(text, variables):
    """The answer in a text as CBC writes it: how it ended, then a line each for rows and variables:
    number, name, value and dual, with two stars before the number where a rule is broken."""
    lines = text.splitlines()
    answer = Answer(lines[0].split(" - ")[0].strip(), {}, {})
    for line in lines[1:]:
        name, value, dual = line.replace("**", " ").split()[1:4]
        if name not in variables:
            answer.duals[name] = float(dual)
        elif float(value):
            answer.values[name] = float(value)
    return answer


def solve(program, seconds, is_relaxed=False, below=None):
    """The answer to a program, or to its relaxation, within so many seconds. Where they run out the
    values are the best that were found, or none. With a cost, only values below that are wanted."""
    if not is_there():
        raise NoSolver(MISSING)
    with tempfile.TemporaryDirectory(prefix="pra-cbc-") as room:
        model, found = f"{room}/model.lp", f"{room}/found.txt"
        with open(model, "w", encoding="ascii") as out:
            out.writelines(f"{line}\n" for line in program.text())
        words = [PROGRAM, model, "-timeMode", "elapsed", "-seconds", str(seconds)]
        if below is not None:
            words += ["-cutoff", str(below - 0.5)]
        words += [*(RELAXED if is_relaxed else ("-solve",)), "-printingOptions", "all"]
        words += ["-solution", found]
        how = {"stdin": subprocess.DEVNULL, "capture_output": True, "timeout": seconds + GRACE}
        how["preexec_fn"] = stopped.ends_with_parent()
        begun = time.monotonic()
        try:
            said = subprocess.run(words, **how).stdout.decode(errors="replace")
        except subprocess.TimeoutExpired:
            return Answer("Stopped on time", {}, {})
        taken = time.monotonic() - begun
        if not os.path.exists(found):
            raise NoSolver(f"{PROGRAM} gave no answer: {said[-200:].strip()}")
        with open(found, encoding="ascii") as text:
            answer = read(text.read(), set(program.variables()))
        answer.had_time = taken <= (1 - LEFT) * seconds
        return answer
