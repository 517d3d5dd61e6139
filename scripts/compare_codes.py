#!/usr/bin/env python3
"""Runs code files by all that runs them, and says where they differ.

    compare_codes.py [--codes A-B] [--programs A-B] [--part N] [--native N] [--compiler PROGRAM]

The code files are those of random_codes.py for the seeds A to B (1-200), and those of the programs
of examples/frontend/: its own, and random ones (1-100). Each is run by the machine of selected code
in Python, by `interp`, and as the image of `compile` by `exec`, with 0 or 1 rounds, each tenth with
10, and by one word of cost or the other; a program by Python itself too, and each Nth image (10th)
on the processor, none where N is 0.

`interp` has to tell what the machine in Python tells, to the step. An image has to come to the same
end with the same output and as many numbers read; where the code is stuck it has to have come as
far. Each difference is a line that says what makes it again. After N files (50) a line tells the
counts so far, and the last line tells all. The status is 1 where there is a difference.

While the compiler does not know --from code, Python is compared with the machine in Python alone,
and a line says so.
"""

import argparse
import collections
import contextlib
import glob
import os
import re
import sys
import tempfile
from dataclasses import dataclass

import random_codes
from processor.build import Builder
from processor.compare import Outcome, outcome_of, without_steps
from processor.image import Refused, image_of
from selected import file as code_file
from selected import machine

TOP = os.path.dirname(os.path.dirname(os.path.realpath(__file__)))
FRONTEND = f"{TOP}/examples/frontend"
sys.path.insert(0, FRONTEND)

import meaning  # noqa: E402
import random_programs  # noqa: E402
import subset  # noqa: E402

COMPILER = os.environ.get("PRA", f"{TOP}/pra")
COSTS = "size", "speed"
MOST_STEPS = 300000  # of the meaning
STEPS_OF_ONE = 100  # steps of the machine that one of the meaning takes at most, but for `clear`
STEPS_OF_WORD = 4  # and that it takes to clear a word
MOST_STEPS_OF_IMAGE = 200000000
FRAME = re.compile(r"^procedure \d+ \w+ frame (\d+)$", re.M)
LINE = re.compile(r"^(ended|going|trap \w+|machine \w+|stuck .*?) steps (\d+) reads (\d+)$")
STATUSES = {"ended": 0, "going": 2}
LEAST = [{"args": 0, "aggregates": 0, "vars": [], "blocks": [[0, [], ["return"]]], "name": "P0"}]
UNKNOWN = "the compiler does not know --from code: Python and the machine in Python alone"


def knows_code(compiler):
    """Whether a compiler takes code files, tried on the least one."""
    with tempfile.NamedTemporaryFile(suffix=".code") as file:
        file.write(code_file.text_of(code_file.value_of(0, LEAST)).encode())
        file.flush()
        told = outcome_of([compiler, "interp", "--from", "code", file.name], "")
    return told.line.startswith("ended ")


@dataclass
class Case:
    """A code file to be run on numbers."""

    name: str  # what makes it again
    text: str
    numbers: list
    program: str = None  # what it was compiled from


def random_code(seed):
    code = random_codes.Code(seed)
    return Case(f"random_codes.py {seed}", code.text, code.numbers)


def random_program(seed):
    text = random_programs.Program(seed).text
    numbers = [int(it) for it in text.splitlines()[0].partition(":")[2].split()]
    code = subset.compiled(text, f"seed{seed}") + "\n"
    return Case(f"random_programs.py {seed}", code, numbers, text)


def own_program(file):
    with open(file, encoding="utf-8") as source:
        text = source.read()
    numbers = []
    if os.path.exists(file.removesuffix(".py") + ".in"):
        with open(file.removesuffix(".py") + ".in", encoding="ascii") as given:
            numbers = [int(it) for it in given.read().split()]
    name = os.path.basename(file).removesuffix(".py")
    return Case(f"programs/{name}.py", subset.compiled(text, name) + "\n", numbers, text)


def rounds_of(number):
    """The rounds with which the case of this number is compiled."""
    return 10 if number % 10 == 0 else number % 2


class Comparison:
    """The compiler, where there is one that takes code files, and what was found so far."""

    def __init__(self, compiler, builder, room, native):
        self.compiler, self.builder, self.room, self.native = compiler, builder, room, native
        self.counts, self.differences = collections.Counter(), []

    def differs(self, case, words):
        self.differences.append(f"{case.name}: {words}")
        print(self.differences[-1], flush=True)

    def compare(self, number, case):
        """Compares all runs of a case."""
        self.counts["files"] += 1
        try:
            file = code_file.read(case.text.encode())
        except code_file.NoCode as error:
            self.differs(case, f"it breaks a rule: {error.lines[0]}")
            return
        words = ["--rounds", str(rounds_of(number)), "--cost", COSTS[number // 2 % 2]]
        frames = self.frames(case, words) if self.compiler else None
        if self.compiler and frames is None:
            return
        meant = machine.run(file, case.numbers, frames, MOST_STEPS)
        self.counts[" ".join(meant.ending.split()[:2])] += 1
        self.counts["steps"] += meant.steps
        if case.program:
            self.by_python(case, meant)
        if self.compiler:
            self.by_interp(case, words, meant)
            self.by_image(number, case, words, meant)

    def by_python(self, case, meant):
        """What Python itself comes to. Frames are no matter of Python's."""
        run = meaning.Run(case.program, case.numbers)
        out = "".join(run.out)
        self.counts["runs by Python"] += 1
        if meant.ending in ("trap Stack", "going"):
            is_same = out.startswith(meant.out)
        else:
            is_same = (run.ending, run.taken, out) == (meant.ending, meant.taken, meant.out)
        if not is_same:
            self.differs(case, f"Python {run.line()!r}, its code {meant.line()!r}, or other output")

    # ---- the compiler

    def call(self, mode, case, *words):
        """Calls the compiler on the code file."""
        name = f"{self.room}/it.code"
        with open(name, "w", encoding="ascii") as file:
            file.write(case.text)
        text = " ".join(map(str, case.numbers))
        return outcome_of([self.compiler, mode, "--from", "code", name, *words], text)

    def frames(self, case, words):
        """The frames that the compiler tells, or None."""
        told = self.call("compile", case, *words, "--image", f"{self.room}/it.pri")
        if told.status != 0:
            self.differs(case, f"{' '.join(words)}: compile says {told.line!r}")
            return None
        return [int(it) for it in FRAME.findall(told.out.decode())]

    def by_interp(self, case, words, meant):
        told = self.call("interp", case, *words, "--steps", str(MOST_STEPS))
        self.counts["runs by interp"] += 1
        status = STATUSES.get(meant.ending, 1)
        if told != Outcome(status, meant.out.encode(), meant.line()):
            said = f"interp {told.line!r}, the machine in Python {meant.line()!r}"
            self.differs(case, f"{' '.join(words)}: {said}, or other output")

    def by_image(self, number, case, words, meant):
        steps = meant.steps  # of a run that goes on, which need not come as far
        if meant.ending != "going":
            steps = STEPS_OF_ONE * meant.steps + STEPS_OF_WORD * meant.cleared
        steps = min(steps, MOST_STEPS_OF_IMAGE)
        image, text = f"{self.room}/it.pri", " ".join(map(str, case.numbers))
        told = outcome_of([self.compiler, "exec", image, "--steps", str(steps)], text)
        self.counts["runs of images"] += 1
        found = LINE.match(told.line)
        if not found or not self.is_as_meant(told.out.decode(), found, meant):
            said = f"exec {told.line!r}, meant is {meant.line()!r}"
            self.differs(case, f"{' '.join(words)}: {said}, or other output")
        elif self.builder and number % self.native == 0 and found[1] == meant.ending:
            self.by_processor(case, words, told, image)

    @staticmethod
    def is_as_meant(out, found, meant):
        """Whether an image did what is meant: all of it, or as much as is."""
        ending, reads = found[1], int(found[3])
        if meant.ending == "going":
            return out.startswith(meant.out) or meant.out.startswith(out)
        if meant.ending.startswith("stuck"):
            return out.startswith(meant.out) and reads >= meant.taken
        return (ending, reads, out) == (meant.ending, meant.taken, meant.out)

    def by_processor(self, case, words, told, image_file):
        """The image on the processor, which counts no steps."""
        with open(image_file, "rb") as file:
            self.builder.fill(image_of(file.read()), f"{self.room}/it")
        found = outcome_of([f"{self.room}/it"], " ".join(map(str, case.numbers)))
        self.counts["runs on the processor"] += 1
        if found != without_steps(told):
            said = f"native {found.line!r}, exec {told.line!r}"
            self.differs(case, f"{' '.join(words)}: {said}, or other output")

    def told(self):
        parts = [f"{count} {what}" for what, count in self.counts.items()]
        return f"{', '.join(parts)}: {len(self.differences)} differences"


def numbers(text):
    """The numbers from A to B of A-B; none of 0-0."""
    first, _, last = text.partition("-")
    return range(int(first), int(last or first) + 1) if int(last or first) else range(0)


def words_read(words):
    read = argparse.ArgumentParser(prog="compare_codes.py")
    read.add_argument("--codes", type=numbers, default=numbers("1-200"))
    read.add_argument("--programs", type=numbers, default=numbers("1-100"))
    read.add_argument("--part", type=int, default=50)
    read.add_argument("--native", type=int, default=10)
    read.add_argument("--compiler", default=COMPILER)
    return read.parse_args(words)


def cases(options):
    for file in sorted(glob.glob(f"{FRONTEND}/programs/*.py")):
        yield own_program(file)
    yield from map(random_program, options.programs)
    yield from map(random_code, options.codes)


def run_all(options, builder, room):
    compiler = options.compiler if knows_code(options.compiler) else None
    if not compiler:
        print(UNKNOWN, flush=True)
    comparison = Comparison(compiler, builder, room, options.native)
    for number, case in enumerate(cases(options), 1):
        comparison.compare(number, case)
        if number % options.part == 0:
            print(comparison.told(), flush=True)
    return comparison


def builder_in(stack, native):
    """What makes native programs, or None where none are wanted or can be made."""
    try:
        return stack.enter_context(Builder()) if native else None
    except Refused as refused:
        print(f"nothing runs on the processor: {refused}", flush=True)
        return None


def main(words):
    options = words_read(words)
    with contextlib.ExitStack() as stack:
        room = stack.enter_context(tempfile.TemporaryDirectory(prefix="codes-"))
        comparison = run_all(options, builder_in(stack, options.native), room)
    print(comparison.told())
    return int(bool(comparison.differences))


if __name__ == "__main__":
    sys.exit(main(sys.argv[1:]))
