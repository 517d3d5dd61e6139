"""Tests of generated modules: their bounds, and what both checkers say of their certificates."""

import os
import subprocess
import sys
import tempfile
import unittest
from unittest import mock

import bounds
from checker import generated
from pranet.compiler import TOP

PROGRAM = os.environ.get("PRA", f"{TOP}/crates/pra/out/pra")


def called(script, *words):
    """The status of a script that is given the compiler, and the last line that it prints."""
    command = [sys.executable, *script, *words, "--compiler", PROGRAM]
    ran = subprocess.run(command, cwd=f"{TOP}/scripts", capture_output=True, text=True, check=False)
    return ran.returncode, (ran.stdout + ran.stderr).splitlines()[-1]


@unittest.skipUnless(os.access(PROGRAM, os.X_OK), "no compiler was built, and PRA names none")
class Generated(unittest.TestCase):
    def test_bounds_stand_as_high_as_they_did_and_costs_as_low(self):
        rows = len(bounds.read()[1])
        wanted = (0, f"{rows} modules, 0 of them with a lower bound or a higher cost")
        self.assertEqual(called(["bounds.py"]), wanted)

    def test_both_checkers_hold_certificates_and_refuse_changed_ones(self):
        status, told = called(["-m", "checker.generated"], "--seeds", "4")
        self.assertEqual((status, told.rpartition(": ")[2]), (0, "0 differences"))
        self.assertTrue(told.startswith("4 modules, 8 certificates, "), told)


class Worse(unittest.TestCase):
    def status(self, found):
        """The status where this is found of each module."""
        with mock.patch.object(bounds, "found_of", lambda *it: found[it[2]]):
            with mock.patch("builtins.print"):
                return bounds.main([])

    def test_a_bound_that_is_not_raised_is_told(self):
        """Bounds of rounds that raise nothing stand at half of what they are wanted to be."""
        size, known = bounds.read()
        for share, status in ((1, 0), (2, 1)):
            found = {seed: ([it // share for it in it[0]], it[1]) for seed, it in known.items()}
            self.assertEqual(self.status(found), status)
        self.assertEqual((size, len(known)), (3, 20))

    def test_a_cost_that_rises_by_one_is_told(self):
        known = bounds.read()[1]
        for at in range(4):
            found = dict(known)
            least, most = found[7]
            found[7] = least, [it + (number == at) for number, it in enumerate(most)]
            self.assertEqual(self.status(found), 1)
        found[7] = least, [it - 1 for it in most]
        self.assertEqual(self.status(found), 0)

    def test_a_table_that_is_written_is_read(self):
        found = {3: ([100, 200, 50, 1], [7, 8, 9, 10]), 4: ([0] * 4, [1] * 4)}
        with tempfile.NamedTemporaryFile() as file:
            with mock.patch.object(bounds, "FILE", file.name):
                bounds.write(5, found)
                size, known = bounds.read()
        self.assertEqual((size, known[3]), (5, ([98, 196, 49, 0], found[3][1])))
        self.assertEqual((bounds.sums(known), list(bounds.worse(found[4], known[4]))),
                         ([343, 38], []))


class Changed(unittest.TestCase):
    def test_one_number_is_another_one(self):
        value = {"procs": [{"total": 4, "caps": [], "ties": [[7, 9]]}]}
        chance = generated.random.Random(1)
        self.assertIn(generated.changed(value, "total", chance), texts({"total": (3, 5)}, value))
        self.assertIsNone(generated.changed(value, "caps", chance))
        self.assertNotEqual(generated.changed(value, "ties", chance), texts({}, value)[0])


def texts(parts, value):
    """The texts of a value that has one of some numbers in the place of another."""
    found = [generated.vectors.text_of(value)]
    for key, numbers in parts.items():
        for it in numbers:
            found.append(generated.vectors.text_of({"procs": [{**value["procs"][0], key: it}]}))
    return found


if __name__ == "__main__":
    unittest.main()
