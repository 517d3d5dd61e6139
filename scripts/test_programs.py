"""Tests of bench/real.py and of the modules that it measures: bench/programs/ and branches.py's."""

import contextlib
import glob
import io
import os
import subprocess
import sys
import tempfile
import unittest
from unittest import mock

import branches

TOP = os.path.dirname(os.path.dirname(os.path.realpath(__file__)))
sys.path.insert(0, f"{TOP}/bench")

import real  # noqa: E402

PROGRAMS = sorted(glob.glob(f"{TOP}/bench/programs/*.ob"))
COSTS = ("size", "speed")
ENDED = "ended steps "


def run(file, cost, rounds):
    """What a module writes, and the line that tells how its run ended."""
    words = [os.environ["PRA"], "run", file, "--cost", cost, "--rounds", str(rounds)]
    told = subprocess.run(words, stdin=subprocess.DEVNULL, capture_output=True, text=True)
    return told.stdout, told.stderr.splitlines()[-1]


@unittest.skipUnless("PRA" in os.environ, "no compiler: PRA names none")
class Programs(unittest.TestCase):
    def test_they_write_what_gcc_s_code_writes(self):
        self.assertGreaterEqual(len(PROGRAMS), 14)
        for file in PROGRAMS:
            with open(file.removesuffix(".ob") + ".out", encoding="ascii") as wanted:
                wanted = wanted.read()
            for cost in COSTS:
                with self.subTest(file=os.path.basename(file), cost=cost):
                    out, end = run(file, cost, 1)
                    self.assertEqual(out, wanted)
                    self.assertTrue(end.startswith(ENDED), end)


class Branches(unittest.TestCase):
    def test_the_same_words_write_the_same_module(self):
        self.assertEqual(branches.module(3, 2), branches.module(3, 2))
        self.assertNotEqual(branches.module(3, 2), branches.module(4, 2))

    def test_seeds_make_what_the_page_says(self):
        text = "".join(branches.module(seed, 8) for seed in range(6))
        loops = "REPEAT\n", "UNTIL done", "UNTIL i", "WHILE ~done", "WHILE i"
        for word in ("ELSE\n", "ELSIF ", ") OR (", ") & (", *loops):
            self.assertIn(word, text)

    @unittest.skipUnless("PRA" in os.environ, "no compiler: PRA names none")
    def test_modules_are_right_and_end(self):
        for seed in range(4):
            with self.subTest(seed=seed), tempfile.TemporaryDirectory() as folder:
                file = f"{folder}/m.ob"
                with open(file, "w", encoding="ascii") as out:
                    out.write(branches.module(seed, 4))
                words = [os.environ["PRA"], "interp", file]
                how = {"stdin": subprocess.DEVNULL, "capture_output": True, "text": True}
                meant = subprocess.run(words, **how)
                out, end = run(file, "size", 0)
                self.assertEqual(out, meant.stdout)
                self.assertTrue(end.startswith(ENDED), end)


def reported(*procedures):
    """The report of procedures, each of costs and bounds after rounds."""
    lines = []
    for number, rounds in enumerate(procedures):
        lines.append(f"procedure {number} P{number} frame 0")
        lines += [f"round {at} cost {cost} bound {low}" for at, (cost, low) in enumerate(rounds)]
    return "\n".join([*lines, "total cost 1 bound 1 code 1", ""])


class Reports:
    """In the place of a compiler: each module has one report."""

    text = ""

    def __init__(self, _):
        pass

    def call(self, *_):
        return self.text.encode(), b""


class Measured(unittest.TestCase):
    def test_the_round_that_is_taken_and_the_last_bound(self):
        rounds = [(50 - at, 20 + at // 2) for at in range(21)]
        self.assertEqual(real.found("P", rounds), real.Found("P", 40, 25, 30))
        self.assertEqual(real.found("P", [(9, 3), (7, 7)]), real.Found("P", 7, 7, 7))

    def test_figures(self):
        procedures = [real.Found("P", *them) for them in ((7, 7, 7), (104, 90, 100), (6, 5, 5))]
        self.assertEqual(real.row("all", "size", procedures)[1:], ("all", "size", 3, "8.00", 1, 1))
        self.assertEqual(real.row("all", "size", [])[3:], (0, "0.00", 0, 0))

    def test_what_costs_nothing_is_left_out_and_what_is_open_is_told(self):
        open_one = [(30, 2)] * 10 + [(22, 18), (20, 20)]
        Reports.text = reported([(0, 0)], open_one, [(5, 4), (5, 5)])
        out, notes = io.StringIO(), io.StringIO()
        with mock.patch.object(real, "Compiler", Reports), contextlib.redirect_stdout(out):
            with mock.patch.object(real, "files_of", lambda *_: ["m.ob"]):
                with contextlib.redirect_stderr(notes):
                    self.assertEqual(real.call(["programs"]), 0)
        rows = [line.split(",")[1:] for line in out.getvalue().splitlines()[1:]]
        wanted = [["programs", cost, "2", "5.00", "1", "1"] for cost in COSTS]
        self.assertEqual(rows, wanted)
        self.assertEqual(notes.getvalue().splitlines()[0], "m P1 size: 22, at least 20")

    def test_sets_have_their_modules(self):
        with tempfile.TemporaryDirectory() as room:
            self.assertEqual(real.files_of("programs", 1, room, None), PROGRAMS)
            for file in real.files_of("branches", 2, room, None):
                with open(file, encoding="ascii") as text:
                    self.assertEqual(text.read().count("END P"), real.BRANCHING)
        with self.assertRaises(real.NoWords):
            real.call(["nothing"])
