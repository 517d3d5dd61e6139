"""Tests of the compiler by the tables of tests/."""

import concurrent.futures
import os
import unittest

import needs
from tables import bare, expressions, meant, modules, placing, rounds, rows, sweeps, tool

DRAWN = 300  # expressions of each kind
SEED = 1


def complaints(differences, row):
    """What is wrong with a row, also where a call ends otherwise than it should."""
    try:
        return list(differences(*row))
    except tool.Refused as refused:
        return [str(refused)]


class Tables(unittest.TestCase):
    def check(self, differences, cases, named=str):
        """No case has a difference."""
        cases = list(cases)
        with concurrent.futures.ThreadPoolExecutor(len(os.sched_getaffinity(0))) as pool:
            found = pool.map(lambda it: complaints(differences, it), cases)
            for case, wrong in zip(cases, found, strict=True):
                with self.subTest(named(case)):
                    self.assertEqual(wrong, [])

    def check_rows(self, differences, found):
        self.check(differences, found, lambda it: it[0].name)

    @needs.compiler
    def test_code_that_is_placed_by_routes(self):
        for name in ("placed", "forced", "near", "far"):
            self.check_rows(placing.differences, rows.rows_of(name))

    @needs.compiler
    def test_what_code_means(self):
        self.check_rows(meant.differences, rows.rows_of("meant"))

    @needs.compiler
    def test_programs_for_the_bare_machine(self):
        self.check(bare.differences, [(it,) for it in bare.programs()], lambda it: it[0].name)

    @needs.compiler
    def test_each_choice_of_places(self):
        self.check_rows(sweeps.differences, rows.rows_of("choices"))

    @needs.compiler
    def test_rounds(self):
        self.check(rounds.differences, rounds.codes(), lambda it: it[0])

    @needs.compiler
    def test_modules_by_image_and_meaning(self):
        self.check_rows(modules.differences, modules.modules_of("hand"))

    @needs.compiler
    def test_images_without_rounds(self):
        self.check_rows(modules.differences_at_home, modules.modules_of("at_home"))

    @needs.compiler
    def test_expressions(self):
        self.check(expressions.differences, expressions.tables())

    @needs.compiler
    def test_operators_of_extreme_numbers(self):
        self.check(expressions.differences, expressions.pairs())

    @needs.compiler
    def test_expressions_that_are_drawn(self):
        self.check(expressions.differences, expressions.Draft(SEED).rows(DRAWN))
