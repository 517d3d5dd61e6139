"""Tests of gate.py, and of how edits.py groups edits."""

import collections
import types
import unittest

import edits
import gate

RATTLE = "/kit/bin/rattle"


class Kinds(unittest.TestCase):
    def test_commands_of_a_gate(self):
        for words, folder, kind in (
            ("build --crate-name ob_lex src/lib.rt", "/r/crates/ob_lex", ("ob_lex", "proof")),
            ("check --crate-name pra src/main.rt", "/r/crates/pra", ("pra", "proof")),
            ("build --crate-name tests_low --test", "/r/crates/tests_low", ("tests_low", "tests")),
            ("build --crate-name pra --crate-checked c", "/r/crates/pra", ("pra", "programs")),
            ("check --crate-name a --incremental /t/seed", "/t/rt-edit-7-x", ("a", "seed")),
            ("check --crate-name a --incremental /t/0", "/t/rt-edit-7-x", ("a", "edits")),
            ("check --crate-name a", "/t/rt-edit-7-x", ("a", "edits")),
            ("fmt --check src/lib.rt", "/r/crates/a", ("a", "other")),
        ):
            self.assertEqual(gate.kind_of([RATTLE, *words.split()], folder), kind, words)

    def test_tools_and_runs(self):
        for words, kind in (
            ("/kit/bin/rattle-test --seconds 60 /t/rt-run-7-x/bin/tests_low_tests",
             ("tests_low", "tests")),
            ("sh -c true /t/rt-run-7-x/bin/pra", None),
            ("/t/rt-run-7-x/bin/pra", ("pra", "programs")),
            ("/kit/bin/rattle-link -o out/pra", ("a", "programs")),
            ("/usr/bin/python3 -ISc exec", None),
        ):
            self.assertEqual(gate.kind_of(words.split(), "/r/crates/a"), kind, words)
        self.assertIsNone(gate.kind_of([], "/"))


class Tables(unittest.TestCase):
    def test_minutes_by_crate_and_kind(self):
        minutes = {
            "low": collections.Counter(proof=2, tests=3, programs=0.5),
            "high": collections.Counter(proof=1, seed=1, edits=4),
            "small": collections.Counter(proof=0.1),
        }
        lines = gate.table(minutes, collections.Counter({("high", "edits"): 90}), 20).split("\n")
        self.assertEqual(lines[2], "| high | 1.0 |  | 1.0 | 4.0 |  |  | 6.0 | 1.0 |")
        self.assertEqual(lines[3], "| low | 2.0 | 3.0 |  |  | 0.5 |  | 5.5 | 2.0 |")
        self.assertEqual(lines[4], "| all | 3.1 | 3.0 | 1.0 | 4.0 | 0.5 |  | 11.6 | 3.0 |")
        self.assertEqual(lines[6], "alone: high, edits: 1.5 minutes by the clock")
        self.assertEqual(lines[7], "seen: 11.6 of 20.0 minutes of a processor")

    def test_time_of_all_that_a_command_started(self):
        one, two, three = (types.SimpleNamespace(number=n, seconds=s) for n, s in
                           ((1, 5), (2, 7), (3, 11)))
        below = collections.defaultdict(list, {1: [two], 2: [three]})
        self.assertEqual(gate.seconds_of(one, below), 23)
        self.assertEqual(gate.seconds_of(three, below), 11)


def edit(function, test=None, file="src/lib.rt"):
    made = edits.Edit.__new__(edits.Edit)
    made.file, made.function, made.test = file, function, test
    return made


class Groups(unittest.TestCase):
    def test_each_function_once(self):
        first, again, other, none = edit("a"), edit("a"), edit("b"), edit(None)
        self.assertEqual(edits.rounds([first, again, other, none]),
                         [[first, other], [again], [none]])

    def test_an_edit_for_a_test_stands_alone(self):
        one, by_test, two = edit("a"), edit("b", test="t"), edit("c")
        self.assertEqual(edits.rounds([one, by_test, two]), [[one, two], [by_test]])


if __name__ == "__main__":
    unittest.main()
