"""Tests of grades: verdicts, commands, points, tables, and calls where there is a compiler."""

import io
import json
import os
import sys
import tempfile
import unittest
from contextlib import redirect_stderr, redirect_stdout
from unittest import mock

import grade
import needs
from grading import entries, points, tables, verdicts
from pranet import certificate
from pranet.compiler import ANY_BYTES, TOP, Compiler
from pranet.tests import worked

ALLOCATOR = f"{TOP}/examples/allocator/allocate.py"
PYTHON = sys.executable


class AnyCompiler:
    """One that takes each certificate, or none."""

    def __init__(self, status=0, said=""):
        self.answer = status, said

    def check(self, _):
        return self.answer


class Verdicts(unittest.TestCase):
    wanted = certificate.read(worked())

    def verdict(self, text, compiler=AnyCompiler()):
        return verdicts.judge(compiler, entries.Entry(text), self.wanted)

    def test_what_holds_of_the_code_is_admitted_at_its_cost_and_bound(self):
        self.assertEqual(self.verdict(worked()), verdicts.Verdict("admitted", "", 4, 4))

    def test_what_the_compiler_refuses_has_a_reason_in_words(self):
        refusing = AnyCompiler(3, "fault certificate procedure 0 routes\n")
        both = worked().replace("[0,1,1,1]", "[0,0,1,1]")
        found = self.verdict(both, refusing)
        self.assertEqual((found.word, found.cost, found.bound), ("refused", None, None))
        self.assertRegex(found.reason, r"\Aprocedure 0, routes: strand 0 .*\(rule \d, ")
        found = self.verdict("{", refusing)
        self.assertRegex(found.reason, r"\A1:2: this is no JSON: ")
        # what the second checker does not see is told as the compiler says it
        reason = "fault certificate procedure 0 routes"
        self.assertEqual(self.verdict(worked(), refusing), verdicts.Verdict("refused", reason))

    def test_certificates_of_other_code_are_not_admitted(self):
        value = json.loads(worked())
        easier = value | {"procs": [value["procs"][0] | {"vars": [["plain"]] * 3}]}
        for text, word, reason in (
            (json.dumps(easier), "other code", "procedure 0: it has 3 variables, and 2 are in the"),
            (json.dumps(value | {"procs": value["procs"] * 2}), "other code", "2 procedures, and"),
            (json.dumps(value | {"cost": "speed"}), "other cost", "its costs are by speed, and"),
        ):
            found = self.verdict(text)
            self.assertEqual((found.word, found.cost), (word, None))
            self.assertIn(reason, found.reason)


class Commands(unittest.TestCase):
    def called(self, text, seconds=60, folder=None):
        with tempfile.TemporaryDirectory(prefix="pra-grade-") as room:
            with open(f"{room}/it.py", "w", encoding="utf-8") as file:
                file.write(text)
            return entries.entry_of_command(f"{PYTHON} {room}/it.py", "x", seconds, folder)

    def test_commands_that_fail_hand_in_nothing(self):
        found = self.called("raise SystemExit('not yet')")
        self.assertEqual((found.text, found.fault), ("", "no answer"))
        self.assertEqual(found.reason, "status 1 not yet")
        found = entries.entry_of_command("/nowhere/at/all", "", 60)
        self.assertEqual(found.reason, "/nowhere/at/all: No such file or directory")

    def test_what_is_written_is_handed_in(self):
        self.assertEqual(entries.entry_of_command("cat", "x", 60).text, "x")
        no_text = entries.entry_of_command("printf '\\377'", "", 60).text
        self.assertEqual(no_text.encode(errors=ANY_BYTES), b"\xff")

    def test_a_command_is_called_in_the_folder_of_its_student(self):
        with tempfile.TemporaryDirectory(prefix="pra-grade-") as room:
            found = self.called("import os; print(os.getcwd())", folder=room)
            self.assertEqual(found.text.strip(), os.path.realpath(room))

    def test_a_command_that_hangs_is_ended_with_all_that_it_began(self):
        with tempfile.TemporaryDirectory(prefix="pra-grade-") as room:
            child = "import os, time; open('pid', 'w').write(str(os.getpid())); time.sleep(600)"
            text = f"import subprocess, sys; subprocess.run([sys.executable, '-c', {child!r}])"
            found = self.called(text, 3, room)
            self.assertEqual(found.fault, "too slow")
            self.assertEqual(found.reason, "no answer in 3 seconds")
            self.assertTrue(needs.has_ended(needs.process_in(f"{room}/pid")))

    def test_a_command_writes_no_endless_file(self):
        text = "import sys\nwhile True: sys.stdout.write('x' * 4096)"
        with mock.patch.object(entries, "MOST_WRITTEN", 1 << 16):
            self.assertEqual(self.called(text).fault, "no answer")

    def test_a_certificate_that_is_not_there_is_missing(self):
        missing = entries.entry_of_folder("/nowhere", "m.ob")
        self.assertEqual(missing.fault, "missing")
        self.assertEqual(missing.reason, "m.cert: No such file or directory")


class Points(unittest.TestCase):
    text = "# of a module\n1 cost home\n2.5 cost 120% optimum  # near\n4 cost 100\n"
    text += "3 bound 90% optimum\n"
    columns = ("optimum", "home", "linear scan")

    def points(self, **row):
        known = {"cost": None, "bound": None, "best": 100, "home": 300} | row
        return points.points_of(points.read(self.text, self.columns), known)

    def test_the_most_of_the_lines_that_are_met(self):
        for cost, bound, wanted in (
            (None, None, 0),
            (301, 0, 0),
            (300, 89, 1),
            (120, 89, 2.5),
            (120, 90, 5.5),
            (100, 100, 7),
        ):
            self.assertEqual(self.points(cost=cost, bound=bound), wanted)

    def test_lines_that_are_none_are_told(self):
        for text in ("x cost home", "1 price home", "1 cost colouring", "1 cost 5 %", "1 cost"):
            with self.assertRaisesRegex(points.NoPoints, "2: `POINTS cost"):
                points.read(f"\n{text}\n", self.columns)
        self.assertEqual(points.read("2 bound 50% linear scan", self.columns)[0].share, 0.5)


class Tables(unittest.TestCase):
    def rows(self, **cells):
        row = dict.fromkeys((*tables.COLUMNS, "best"), 3) | {"verdict": "admitted", "reason": ""}
        return [row | cells]

    def test_sums_stand_where_each_module_has_a_number(self):
        rows = self.rows() + self.rows(cost=None, verdict="none", optimum=None, best=2)
        total = tables.sum_of(rows, False)
        self.assertEqual((total["verdict"], total["cost"], total["home"]), ("1 of 2", None, 6))
        self.assertEqual(tables.cells_of(total, tables.COLUMNS)[2:5], ["-", "6", "<= 5"])

    def test_the_best_stand_first(self):
        students = []
        for name, cost, given in (("ada", 9, 2), ("bob", None, 2), ("cyd", 8, 2), ("dan", 9, 7)):
            word, reason = ("admitted", "") if cost else ("refused", f"why {name} fails")
            rows = self.rows(cost=cost, points=given, verdict=word, reason=reason, module="m")
            students.append((name, [*rows, tables.sum_of(rows, True)]))
        out = io.StringIO()
        with redirect_stdout(out):
            tables.print_best(students)
        lines = out.getvalue().splitlines()
        self.assertEqual([it.split()[1] for it in lines[1:5]], ["dan", "cyd", "ada", "bob"])
        self.assertTrue(lines[5].startswith("beside: optimum 3, 10 rounds 3, home 3"))
        self.assertEqual(lines[6], "bob m refused: why bob fails")
        values = tables.text_of(students).splitlines()
        self.assertTrue(values[0].startswith("student,module,verdict,points,cost,bound,optimum,"))
        self.assertEqual(len(values), 9)

    def test_reasons_are_broken_into_lines(self):
        rows = self.rows(reason="word " * 60, module="m") * 2
        out = io.StringIO()
        with redirect_stdout(out):
            tables.print_table(rows)
        self.assertLessEqual(max(map(len, out.getvalue().splitlines())), 100)


class Calls(unittest.TestCase):
    """Whole calls of the compiler."""

    def graded(self, *words):
        out, notes = io.StringIO(), io.StringIO()
        with redirect_stdout(out), redirect_stderr(notes):
            status = grade.main([*words, "--compiler", needs.program()])
        return status, out.getvalue(), notes.getvalue()

    @needs.compiler
    def test_the_example_and_a_folder_are_graded(self):
        file = f"{TOP}/examples/sums.ob"
        with tempfile.TemporaryDirectory(prefix="pra-grade-") as room:
            known = Compiler(needs.program()).certificate(file, "size", 10)
            with open(f"{room}/sums.cert", "w", encoding="utf-8") as text:
                text.write(certificate.write(known))
            words = ["--folder", room, file, "--csv", f"{room}/t.csv"]
            self.assertEqual(self.graded(*words)[0], 0)
            with open(f"{room}/t.csv", encoding="utf-8") as text:
                rows = [it.split(",") for it in text.read().splitlines()]
        status, out, _ = self.graded("--command", f"{PYTHON} {ALLOCATOR}", file)
        self.assertEqual((status, "1 of 1" in out), (0, True))
        self.assertEqual(rows[0], [*tables.COLUMNS, "reason"])
        self.assertEqual(rows[1][:8], ["sums", "admitted", *["10"] * 4, "27", "10"])
        self.assertEqual(rows[1][-1], "byte for byte what `cert --rounds 1` prints")

    @needs.compiler
    def test_many_students_of_whom_one_is_right_one_wrong_and_one_hangs(self):
        wrong = f"import json, subprocess\nran = subprocess.run(['{PYTHON}', '{ALLOCATOR}'],"
        wrong += " capture_output=True)\nvalue = json.loads(ran.stdout)\n"
        wrong += "value['procs'][0]['routes'][0][0] = 13\nprint(json.dumps(value))\n"
        right = f"import os\nos.execv('{PYTHON}', ['{PYTHON}', '{ALLOCATOR}'])\n"
        with tempfile.TemporaryDirectory(prefix="pra-grade-") as room:
            for name, text in (("ada", right), ("bob", wrong), ("cyd", "while True: pass\n")):
                os.mkdir(f"{room}/{name}")
                with open(f"{room}/{name}/mine.py", "w", encoding="utf-8") as file:
                    file.write(text)
            words = ["--folder", room, "--command", f"{PYTHON} mine.py", "--seconds", "5"]
            status, out, _ = self.graded(*words, f"{TOP}/examples/ackermann.ob")
        self.assertEqual(status, 3)
        students = [it.split()[1:5] for it in out.splitlines()[1:4]]
        self.assertEqual(students[0][:4], ["ada", "1", "of", "1"])
        self.assertEqual([it[0] for it in students], ["ada", "bob", "cyd"])
        self.assertRegex(out, r"\nbob ackermann refused: procedure 0, routes: strand 0 ")
        self.assertIn("\ncyd ackermann too slow: no answer in 5 seconds\n", out)

    @needs.compiler
    def test_a_secret_makes_the_same_modules_again(self):
        command = ["--command", f"{PYTHON} {ALLOCATOR}", "--secret"]
        first, second, other = (self.graded(*command, it)[1] for it in ("a b", "a b", "a c"))
        self.assertEqual(first, second)
        self.assertNotEqual(first, other)
        names = [it.split()[0] for it in first.splitlines()[1:]]
        self.assertEqual(names, [*(f"secret{it}" for it in range(1, 6)), "all"])

    @needs.compiler
    def test_a_certificate_stands_for_its_module(self):
        with tempfile.NamedTemporaryFile("w", suffix=".cert") as file:
            file.write(worked())
            file.flush()
            status, out, _ = self.graded("--command", f"{PYTHON} {ALLOCATOR}", file.name)
        self.assertEqual((status, out.splitlines()[1].split()[2]), (0, "7"))

    @needs.compiler
    def test_that_nothing_was_proved_is_said_once_and_is_no_verdict(self):
        with tempfile.TemporaryDirectory(prefix="pra-grade-") as room:
            with open(f"{room}/pra", "w", encoding="utf-8") as file:
                line = "echo 'pra: the compiler is not built' >&2"
                file.write(f'#!/bin/sh\n{line}\nexec {needs.program()} "$@"\n')
            os.chmod(f"{room}/pra", 0o755)
            words = ["--compiler", f"{room}/pra", "--command", f"{PYTHON} {ALLOCATOR}"]
            out, notes = io.StringIO(), io.StringIO()
            with redirect_stdout(out), redirect_stderr(notes):
                with mock.patch.object(Compiler, "said", set()):
                    status = grade.main([*words, f"{TOP}/examples/sums.ob"])
        self.assertEqual((status, notes.getvalue()), (0, "pra: the compiler is not built\n"))
        self.assertNotIn("pra:", out.getvalue())

    def test_words_that_are_none_end_with_the_usage(self):
        for words in (
            ["m.ob"],
            ["--command", "a"],
            ["m.ob", "--command", "a", "--seconds", "x"],
            ["m.ob", "--command", "a", "--cost", "both"],
        ):
            notes = io.StringIO()
            with redirect_stderr(notes):
                self.assertEqual(grade.main(words), 6, words)
            self.assertRegex(notes.getvalue(), r"\Afault words\nusage: pra ")

    def test_a_file_of_points_that_is_none_is_told(self):
        with tempfile.NamedTemporaryFile("w") as file:
            file.write("1 cost nothing\n")
            file.flush()
            notes = io.StringIO()
            with redirect_stderr(notes):
                words = ["m.ob", "--command", "a", "--points", file.name]
                self.assertEqual(grade.main(words), 3)
        line = f"{file.name}:1: `POINTS cost|bound THRESHOLD` is wanted: a number"
        self.assertTrue(notes.getvalue().startswith(line), notes.getvalue())


if __name__ == "__main__":
    unittest.main()
