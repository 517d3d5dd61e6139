"""Tests of what a person is told of a module."""

import io
import os
import shutil
import tempfile
import unittest
from contextlib import redirect_stdout
from unittest import mock

import explain
import grammar
import needs
import offences
import reasons
import traps
from checker import beside
from pranet.certificate import code_of
from pranet.compiler import Compiler

SOURCE = b"""MODULE A;
  CONST N = 5;
  TYPE T = RECORD x, y: INTEGER END;
  VAR i, j: INTEGER; t: T; q: ARRAY N OF INTEGER;
  PROCEDURE Put(a: INTEGER; VAR b: T);
    VAR k: INTEGER;
    PROCEDURE Inner;
    BEGIN
      WHILE k < 10 DO WriteInt(a) END
    END Inner;
  BEGIN
    REPEAT k := t.z UNTIL k # 0; Iner
  END Putt;
BEGIN
  N := q[7]; Later := 2
END B.
"""


class Offences(unittest.TestCase):
    def told(self, number, text, nth=0):
        at = -1
        for _ in range(nth + 1):
            at = SOURCE.index(text, at + 1)
        return offences.offence(number, SOURCE, at)

    def test_each_rule_has_a_sentence(self):
        self.assertEqual(sorted(offences.OFFENCES), list(range(1, 25)))
        for number in offences.OFFENCES:
            self.assertTrue(self.told(number, b"k < 10"))

    def test_names_are_named(self):
        for number, text, wanted in (
            (1, b"B.", "`B` stands behind this END, and the module is called `A`"),
            (2, b"Putt", "`Putt` stands behind this END, and the procedure is called `Put`"),
            (5, b"WriteInt", "`WriteInt` is declared nowhere; did you mean `Write`?"),
            (5, b"Iner", "`Iner` is declared nowhere; did you mean `Inner`?"),
            (12, b"z ", "the record has no field `z`"),
        ):
            self.assertEqual(self.told(number, text), wanted)

    def test_what_a_name_is_is_told(self):
        told = self.told(10, b"N := q")
        self.assertEqual(told, "`N` is a constant, of line 2, and nothing can be assigned to it")
        self.assertIn("belongs to `Put`", self.told(6, b"k < 10"))


class Expected(unittest.TestCase):
    def expected(self, text):
        return grammar.in_words(*grammar.behind(text.split()))

    def test_tokens_and_phrases(self):
        for text, wanted in (
            ("", "MODULE"),
            ("MODULE", "a name"),
            ("MODULE M", "`;`"),
            ("MODULE M ; TYPE T =", "a type"),
            ("MODULE M ; BEGIN x := 3", "an operator, `;` or END"),
            ("MODULE M ; BEGIN IF x < 3", "an operator, THEN"),
            ("MODULE M ; END M", "`.`"),
            ("MODULE M ; END M .", ""),
        ):
            if text.endswith("< 3"):
                self.assertIn("THEN", self.expected(text))
            else:
                self.assertEqual(self.expected(text), wanted)

    def test_a_long_text_is_read_in_a_moment(self):
        text = "MODULE M ; BEGIN " + "x := 3 + ( x * 2 ) ; " * 300
        self.assertIn("END", self.expected(text))


class Notes(unittest.TestCase):
    def told(self, text, notes):
        with tempfile.TemporaryDirectory(prefix="pra-explain-") as room:
            with open(f"{room}/a.ob", "wb") as file:
                file.write(text)
            told = "\n".join(explain.told(notes, f"{room}/a.ob"))
            return told.replace(f"{room}/", "")

    def test_what_was_expected_stands_with_what_was_found(self):
        told = self.told(b"module A; END A.", "fault grammar token 0 at 0\n")
        self.assertIn("a.ob:1:1: `module` can't stand here, at the begin of a module", told)
        self.assertIn("expected: MODULE", told)
        self.assertIn("`module`: reserved words are in capitals, MODULE", told)

    def test_a_sign_of_assignment_is_told(self):
        source = b"MODULE A; VAR x: INTEGER; BEGIN x = 3 END A."
        told = self.told(source, "fault grammar token 9 at 34")
        self.assertIn("a value is assigned by `:=`", told)

    def test_the_end_of_a_text_is_a_place(self):
        told = self.told(b"MODULE A; BEGIN", "fault grammar token 4 at 15")
        self.assertIn("the module does not end here; expected: a statement", told)

    def test_other_files(self):
        self.assertIn("PRAI", self.told(b"x", "fault image Magic at 0\n"))
        self.assertIn("a.ob:1:1: the first line", self.told(b"x\n", "fault line 1\n"))
        text = b"data 0\n00000000 foo eax\n"
        self.assertIn("a.ob:2:1: no instruction has the name foo", self.told(text, "fault line 2\n"))
        self.assertIn("no JSON", self.told(b"{", "fault json\n"))

    def test_an_image_may_come_to_a_fault_or_to_a_trap(self):
        told = self.told(b"PRAI", "machine divide steps 3 reads 0\n")
        self.assertIn("fault of the machine: the instruction pointer stands at an IDIV by 0", told)
        told = self.told(b"PRAI", "trap Divide steps 3 reads 0\n")
        self.assertEqual(told, "a.ob: trap Divide: the right side of DIV or MOD is 0 or less")


def certified(room):
    """The file of a module in a folder, and the text of its certificate, where all is at home."""
    text = "MODULE A; PROCEDURE P(depth: INTEGER); VAR k: INTEGER;\nBEGIN k := 5;"
    text += " WHILE depth < k DO k := k - depth END; Write(k) END P;\nBEGIN P(1) END A.\n"
    file = f"{room}/a.ob"
    with open(file, "w", encoding="utf-8") as out:
        out.write(text)
    text, _ = Compiler(needs.program()).call("cert", file, "--rounds", "0")
    return file, text.decode()


class Applied(unittest.TestCase):
    def told(self, notes, certificate):
        with tempfile.TemporaryDirectory(prefix="pra-explain-") as room:
            with open(f"{room}/a.ob", "wb") as file:
                file.write(b"MODULE A; END A.")
            given = f"{room}/a.cert" if certificate is not None else None
            if given:
                with open(given, "wb") as file:
                    file.write(certificate)
            told = "\n".join(explain.told(notes, f"{room}/a.ob", given, "apply"))
            return told.replace(f"{room}/", "")

    def test_what_is_wrong_is_the_input(self):
        self.assertIn("a.cert:1:2: this is no JSON", self.told("fault json\n", b"{x"))
        told = self.told("fault certificate procedure 2 module\n", b"{}")
        self.assertIn("a.cert, procedure 2: ", told)
        self.assertEqual(self.told("fault json\n", None), "the certificate: this is no JSON")
        told = self.told("fault certificate form\n", b"{}")
        self.assertIn("a.cert:1:1: the whole: the key procs is missing", told)
        self.assertIn("an entry for each", self.told("fault certificate module\n", None))

    @needs.compiler
    def test_where_the_code_is_another_one_is_told(self):
        with tempfile.TemporaryDirectory(prefix="pra-explain-") as room:
            file, text = certified(room)
            other = text.replace('["set",1,5]', '["set",1,6]')
            with open(f"{room}/b.cert", "w", encoding="utf-8") as out:
                out.write(other)
            notes = "fault certificate procedure 1 module\n"
            with mock.patch.dict(os.environ, {"PRA": needs.program()}):
                told = explain.told(notes, file, f"{room}/b.cert", "apply")
        where = "instruction 0 of block 0 is `v1 := 6`, and the module's is `v1 := 5`"
        self.assertEqual(told[1], f"{room}/b.cert, procedure 1, module: {where}")

    def test_or_it_is_the_module(self):
        self.assertIn("a.ob:1:1: ", self.told("fault grammar token 0 at 0\n", b"{}"))


class OfModules(unittest.TestCase):
    """Certificates whose module is at hand."""

    def told(self, words):
        out = io.StringIO()
        with mock.patch.dict(os.environ, {"PRA": needs.program()}), redirect_stdout(out):
            return explain.main(words), out.getvalue()

    @needs.compiler
    def test_arguments_have_their_names_and_other_code_is_told(self):
        with tempfile.TemporaryDirectory(prefix="pra-explain-") as room:
            file, text = certified(room)
            for name, old, new in (
                ("a", '"routes":[[6', '"routes":[[0'),
                ("b", '["set",1,5]', '["set",1,6]'),
                ("c", "", ""),
            ):
                with open(f"{room}/{name}.cert", "w", encoding="utf-8") as out:
                    out.write(text.replace(old, new))
            named = self.told([f"{room}/a.cert"])
            told = self.told([f"{room}/b.cert", "--module", file])
            right = self.told([f"{room}/c.cert", "--module", file])
        self.assertEqual((named[0], told[0], right[0]), (3, 3, 0))
        self.assertIn("strand 0 of variable 0 (`depth`, argument 0) in block 0", named[1])
        where = "procedure 1, module: instruction 0 of block 0 is `v1 := 6`, and the module's is"
        self.assertIn(where, told[1])
        self.assertIn(f"its code is that of {file}; ./pra check proves it", right[1])

    @needs.compiler
    def test_locals_have_their_names(self):
        """But `hi`, which is one variable with the argument `n`."""
        with tempfile.TemporaryDirectory(prefix="pra-explain-") as room:
            file = f"{room}/samples.ob"
            shutil.copy(f"{needs.TOP}/examples/samples.ob", file)
            known = Compiler(needs.program()).certificate(file, "size", 1)
            reasons.Module(file).name_variables(known.procedures)
        called = [set(it.called.values()) for it in known.procedures]
        self.assertLessEqual({"x", "y"}, called[1])
        self.assertLessEqual({"w", "x", "y"}, called[2])
        self.assertLessEqual({"lo", "m", "n"}, called[3])

    def test_each_part_of_code_that_differs_is_told(self):
        value = {"args": 1, "aggregates": 0, "vars": [["param", 0], ["constant", 3]]}
        value["blocks"] = [[1, [["cmp", 0, 1]], ["branch", 4, 1, 1]], [0, [], ["return"]]]
        wanted = code_of(value)
        self.assertIsNone(beside.difference(code_of(value), wanted))
        for key, part, words in (
            ("args", 2, "it has 2 arguments, and 1 are in the module"),
            ("vars", [["param", 0], ["constant", 4]], "the number 4, and the module's is the numb"),
            ("vars", [["param", 0], ["plain"]], "neither argument nor number, and the module's is"),
            ("vars", [["param", 0]], "it has 1 variable, and 2 are in the module"),
            ("blocks", value["blocks"][:1], "it has 1 block, and 2 are in the module"),
            ("blocks", [[1, [], ["return"]]], "instruction 0 of block 0 is missing, and the modul"),
            ("blocks", [[2, *value["blocks"][0][1:]]], "block 0 has 2 loops round it, and 1 in"),
            ("blocks", [[1, value["blocks"][0][1], ["jump", 1]]], "the end of block 0 is `go on"),
        ):
            self.assertIn(words, beside.difference(code_of(value | {key: part}), wanted))


class Traps(unittest.TestCase):
    def test_marks_stand_before_statements_and_behind_turns(self):
        source = b"MODULE M; BEGIN WHILE x < 1 DO x := 2 END END M."
        marks = list(traps.marks(source))
        self.assertEqual([source[at : at + 3] for at, _ in marks], [b"WHI", b"x :", b"END"])
        self.assertEqual(marks[2][1], marks[0][1])

    def test_the_last_mark_is_that_of_the_trap(self):
        self.assertEqual(traps.last_mark(b" 7 -2000000005 -3 -2000000012 8"), 12)
        self.assertIsNone(traps.last_mark(b" 7"))

    @needs.compiler
    def test_a_trap_is_found_in_its_statement(self):
        source = b"MODULE M;\nVAR x: INTEGER;\nBEGIN\n  x := 1;\n  x := x DIV (x - 1)\nEND M.\n"
        with tempfile.TemporaryDirectory(prefix="pra-traps-") as room:
            with open(f"{room}/a.ob", "wb") as file:
                file.write(source)
            name = f"{room}/a.ob"
            told = traps.told(name, source, "trap Divide units 1 reads 0", needs.program(), None)
        self.assertEqual(told[0].removeprefix(f"{room}/").split(" ")[0], "a.ob:5:3:")


class Bytes(unittest.TestCase):
    def test_what_was_meant_by_a_byte_is_told(self):
        for text, meant in ((b'x := "5"', "no strings"), (b"x / y", "DIV divides"), (b"a_b", "names")):
            at = next(at for at, it in enumerate(text) if chr(it) in explain.MEANT)
            self.assertIn(meant, explain.lexical("a.ob", text, "bad-byte", at)[0])
        self.assertTrue(explain.lexical("a.ob", b"x $", "bad-byte", 2)[0].endswith("no token"))


if __name__ == "__main__":
    unittest.main()
