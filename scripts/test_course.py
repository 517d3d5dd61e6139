"""Tests of the course: its ladder of small instances, the solutions, and the page's figures."""

import io
import json
import os
import re
import runpy
import sys
import unittest
from contextlib import redirect_stderr, redirect_stdout
from unittest import mock

import figures
import ladder
import needs
from checker import verdict
from pranet import certificate
from pranet.compiler import TOP, Compiler
from pranet.network import Network
from pranet.problem import problem_of_all
from pranet.tests import worked

RUNGS = (ladder.BY_HAND, *ladder.MODULES)
FRAME = f"{TOP}/examples/allocator/frame.py"


def optimum(name):
    return certificate.read(ladder.held(f"{name}.cert"))


class Ladder(unittest.TestCase):
    def test_optima_hold_and_their_prices_prove_them(self):
        for name in RUNGS:
            text = ladder.held(f"{name}.cert")
            self.assertEqual(verdict.answer(text.encode()), "certificate holds", name)
            for it in certificate.read(text).procedures:
                self.assertEqual(it.total, it.bound, name)

    def test_routes_of_home_hold_and_cost_more(self):
        for name in RUNGS:
            text = ladder.held(f"{name}.home.cert")
            self.assertEqual(verdict.answer(text.encode()), "certificate holds", name)
            home, best = (
                sum(it.total for it in known.procedures)
                for known in (certificate.read(text), optimum(name))
            )
            self.assertGreater(home, best, name)

    def test_networks_are_those_of_the_code(self):
        for name in RUNGS:
            network = json.loads(ladder.held(f"{name}.json"))
            self.assertEqual(network, json.loads(json.dumps(problem_of_all(optimum(name)))), name)
            strands = max(len(it["strands"]) for it in network["procs"])
            self.assertLessEqual(strands, 12, name)

    def test_the_page_has_a_row_for_each(self):
        with open(figures.PAGE, encoding="utf-8") as text:
            rows = re.findall(r"^\| ([a-z-]+) \| (\d+) \| (\d+) \| (\d+) \|", text.read(), re.M)
        for name, *cells in rows:
            home, best = certificate.read(ladder.held(f"{name}.home.cert")), optimum(name)
            strands = sum(len(it.routes) for it in best.procedures)
            costs = [sum(it.total for it in known.procedures) for known in (home, best)]
            self.assertEqual(list(map(int, cells)), [strands, *costs], name)
        self.assertEqual([it[0] for it in rows], list(RUNGS))

    def test_the_first_rung_is_the_example_of_the_page(self):
        self.assertEqual(ladder.held(f"{ladder.BY_HAND}.cert"), worked())

    def test_each_rung_has_what_it_is_called_by(self):
        codes = {
            name: {
                ins[0]
                for it in optimum(name).procedures
                for block in it.blocks
                for ins in block.code
            }
            for name in ("division", "call")
        }
        self.assertIn("divmod", codes["division"])
        self.assertIn("call", codes["call"])
        loop = optimum("loop").procedures[1]
        self.assertEqual(max(block.depth for block in loop.blocks), 1)
        self.assertEqual(len(list(Network(optimum("pair").procedures[1]).pairs())), 1)
        self.assertEqual(len(optimum("two").procedures), 3)

    @needs.compiler
    def test_modules_have_this_code(self):
        compiler = Compiler(needs.program())
        for name in ladder.MODULES:
            made = compiler.certificate(f"{ladder.FOLDER}/{name}.ob", "size", 0)
            code, held = (
                [certificate.code_value(it) for it in known.procedures]
                for known in (made, optimum(name))
            )
            self.assertEqual(code, held, f"{name}: scripts/ladder.py --write makes it anew")


def allocated(command, network):
    """What a program of Python writes for a network, to output and notes, run in this process."""
    file, *words = command.split()
    out, notes = io.StringIO(), io.StringIO()
    streams = mock.patch.multiple(sys, stdin=io.StringIO(network), argv=[file, *words])
    paths = mock.patch.object(sys, "path", [figures.SOLUTIONS, os.path.dirname(FRAME), *sys.path])
    with streams, paths, redirect_stdout(out), redirect_stderr(notes):
        runpy.run_path(file, run_name="__main__")
    return out.getvalue(), notes.getvalue()


class Solutions(unittest.TestCase):
    def totals(self, command, name):
        text, said = allocated(command, ladder.held(f"{name}.json"))
        told = verdict.answer(text.encode()), said
        self.assertEqual(told, ("certificate holds", ""), (command, name))
        procedures = certificate.read(text).procedures
        return sum(it.total for it in procedures), sum(it.bound for it in procedures)

    def test_each_holds_on_each_rung_and_costs_no_more_than_home(self):
        for name in RUNGS:
            home = certificate.read(ladder.held(f"{name}.home.cert")).procedures
            most = sum(it.total for it in home)
            least = sum(it.total for it in optimum(name).procedures)
            for command in figures.COMMANDS:
                total, bound = self.totals(command, name)
                self.assertTrue(bound <= least <= total <= most, (command, name, total))

    def test_those_that_split_find_the_optima_of_the_ladder(self):
        for name in RUNGS:
            least = sum(it.total for it in optimum(name).procedures)
            self.assertEqual(self.totals(figures.COMMANDS[6], name)[0], least, name)

    def test_the_frame_says_what_is_to_be_written(self):
        with self.assertRaisesRegex(NotImplementedError, "exercise 1: put all variables at home"):
            allocated(FRAME, ladder.held("pair.json"))

    def test_the_frame_tells_which_rule_is_broken(self):
        value = json.loads(ladder.held("by-hand.json"))["procs"][0]
        problem = runpy.run_path(FRAME)["Problem"](value)
        for routes, words in (
            ([[0, 1, 1, 1], [0, 0], [1, 1, 1, 0], [0, 0]], []),
            ([[0, 7, 7, 1], [0, 0], [1, 1, 1, 0], [0, 0]], ["rule 1: strand 0 is at 7 at step 1"]),
            ([[0, 1, 2, 1], [0, 0], [1, 1, 1, 0], [0, 0]], ["rule 2: strand 0 moves across an"]),
            ([[0, 0, 0, 1], [0, 0], [1, 1, 1, 0], [0, 0]], ["rule 3: strands 0 and 1 are in 0"]),
            ([[0, 1, 1, 6], [0, 6], [6, 6, 6, 0], [6, 6]], ["rule 4: strands 2 and 3 are both"]),
            ([[0, 1, 1, 1], [0, 0], [2, 1, 1, 0], [0, 0]], ["rule 4: strands 0 and 2 are tied"]),
            ([[0, 1, 1, 1], [0, 0], [1, 1, 1, 0]], ["there are 3 routes for 4 strands"]),
            ([[0, 1, 1], [0, 0], [1, 1, 1, 0], [0, 0]], ["strand 0 has 3 places, not one for"]),
        ):
            first = list(problem.faults(routes))[:1]
            self.assertEqual(len(first), len(words))
            self.assertTrue(all(words[0] in it for it in first), first)


class Figures(unittest.TestCase):
    def page(self):
        with open(figures.PAGE, encoding="utf-8") as text:
            return text.read()

    def test_the_page_has_a_figure_for_each_exercise(self):
        self.assertEqual(sorted(figures.figures(self.page())), list(range(1, 9)))

    def test_figures_are_written_into_their_row_alone(self):
        page = self.page()
        other = figures.written(page, 3, (1234, 7))
        told = figures.figures(page)
        self.assertEqual(figures.figures(other), told | {3: (1234, 7)})
        self.assertEqual(figures.written(other, 3, told[3]), page)

    def test_the_words_have_the_numbers_that_its_solution_of_negotiating_has(self):
        words = " ".join(self.page().split("7. **Negotiating.**")[1].split("8. **")[0].split())
        with mock.patch.object(sys, "path", [figures.SOLUTIONS, *sys.path]):
            solution = runpy.run_path(f"{figures.SOLUTIONS}/negotiate.py")
        self.assertIn("of half a unit in the deepest loop", words)
        self.assertIn("grows by 40 per cent", words)
        self.assertEqual((solution["BEGIN"], solution["GROWTH"]), (0.5, 1.4))
        self.assertIn("Do that twice", words)
        self.assertEqual(solution["TRIES"], 2)

    def test_what_is_near(self):
        self.assertTrue(figures.is_near(102, 100) and figures.is_near(98, 100))
        self.assertFalse(figures.is_near(103, 100) or figures.is_near(97, 100))

    @needs.compiler
    def test_solutions_come_to_the_figures_of_the_page(self):
        """Those that take seconds, on all modules; scripts/figures.py has all."""
        told, compiler = figures.figures(self.page()), Compiler(needs.program())
        for exercise in (1, 2, 6):
            computed = figures.computed_of(compiler, exercise, figures.MODULES)
            is_near = all(map(figures.is_near, computed, told[exercise]))
            self.assertTrue(is_near, (exercise, computed))


if __name__ == "__main__":
    unittest.main()
