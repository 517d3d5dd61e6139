"""Tests of what is mended in declarations, so that what is wrong behind them is told too."""

import re
import unittest
from unittest import mock

import declarations
import explain
import further
import grammar
import needs
import repairs

RULES = b"""MODULE Rules;
CONST n = 5; m = k + 1;
  t = TRUE + 1;
TYPE T = ARRAY m OF INTEGR;
  R = RECORD a, b: INTEGER; b: BOOLEAN END;
VAR x: INTEGER; y: n;
  z: T;
  x: BOOLEAN;
PROCEDURE P(v: INTEGER);
BEGIN
  v := TRUE
END Q;
BEGIN
  z[0] := TRUE;
  y := TRUE
END Rules.
"""
GRAMMAR = b"""MODULE Grammar;
CONST n := 5;
  k = 7
TYPE T = ARRAY n INTEGER;
VAR x: INTEGER typ: BOOLEAN;
  z = INTEGER;
  i: POINTER TO INTEGER;
  j: INTEGER
PROCEDURE P(procedures INTEGER);
BEGIN
  i := x
END P;
BEGIN
  x := * 3
END Grammar.
"""


def mended(source, word, line, nth=0):
    """A module without the error that a line tells of a word."""
    at = [it.start() for it in re.finditer(rf"\b{re.escape(word)}".encode(), source)][nth]
    text = further.Text(source)
    edit = text.edit(line, at)
    return edit and text.edited(edit).source.decode()


class Items(unittest.TestCase):
    def kinds(self, source):
        words = further.Text(source).words
        return list(zip(words, (it.kind if it else "body" for it in declarations.Items(words).of)))

    def test_each_token_is_of_a_declaration_or_of_a_body(self):
        kinds = self.kinds(
            b"MODULE M; CONST n = (1); VAR r: RECORD f: INTEGER END;"
            b" PROCEDURE P(a: ARRAY (2) OF T); VAR v: T; BEGIN IF a THEN v := 1 END END P;"
            b" BEGIN x := 1 END M."
        )
        told = {word: kind for word, kind in kinds if word in ("n", "r", "f", "a", "v", "x", "M")}
        wanted = {"n": "CONST", "r": "VAR", "f": "field", "x": "body", "M": "end"}
        self.assertEqual(told, wanted | {"a": "body", "v": "body"})
        self.assertIn(("v", "VAR"), kinds)
        self.assertIn(("a", "parameter"), kinds)
        self.assertEqual([kind for word, kind in kinds if word == "P"], ["heading", "end"])

    def test_names_that_are_declared_by_one_in_doubt_are_too(self):
        words = further.Text(
            b"MODULE M; CONST c = 1; TYPE T = ARRAY c OF U; VAR x, y: T; z: INTEGER;"
            b" PROCEDURE P(p: T); BEGIN END P; END M."
        ).words
        self.assertEqual(declarations.with_doubt(words, {"T"}), {"T", "x", "y", "p", "P"})


class Edits(unittest.TestCase):
    def test_rules(self):
        for word, rule, wanted in (
            ("k", 5, "m = 1;"),
            ("INTEGR", 5, "OF INTEGER;"),
            ("n;\n", 8, "y: INTEGER;"),
            ("b: BOOLEAN", 4, "other1: BOOLEAN END"),
            ("x: BOOLEAN", 3, "other1: BOOLEAN;"),
            ("Q", 2, "END P;"),
        ):
            self.assertIn(wanted, mended(RULES, word, f"fault rule {rule} token 0 at 0"), word)
        twice = b"MODULE M; PROCEDURE P; BEGIN END P; PROCEDURE P; BEGIN END P; END M."
        told = mended(twice, "P;", "fault rule 3 token 0 at 0", 2)
        self.assertIn("PROCEDURE P; BEGIN END P; PROCEDURE other1; BEGIN END other1; END", told)
        value = b"MODULE M; PROCEDURE P(a: INTEGER; r: R); BEGIN END P; END M."
        self.assertIn("; VAR r: R)", mended(value, "R)", "fault rule 21 token 0 at 0"))
        large = b"MODULE M; CONST n = 99999999999; END M."
        self.assertIn("n = 1;", mended(large, "99", "fault number-too-large at 0"))

    def test_the_grammar(self):
        line = "fault grammar token 0 at 0"
        for word, nth, wanted in (
            ("TYPE", 0, "k = 7 ; \nTYPE"),
            ("typ", 0, "INTEGER ;  typ: BOOLEAN"),
            ("PROCEDURE", 0, "j: INTEGER ; \nPROCEDURE"),
        ):
            self.assertIn(wanted, mended(GRAMMAR, word, line, nth))
        for source, word, wanted in (
            (b"MODULE M; CONST n 5; BEGIN END M.", "5", "n =  5;"),
            (b"MODULE M; PROCEDURE P(a: T, b: U); END P; END M.", ", b", "T; b"),
            (b"MODULE M; CONST n = 5 5; END M.", "5;", "n = 5 ;"),
            (b"MODULE M; VAR x, : INTEGER; BEGIN END M.", ": INTEGER", "x, other1 : INTEGER;"),
            (b"MODULE M; VAR x: ; BEGIN END M.", "; BEGIN", "x: INTEGER ; BEGIN"),
            (b"MODULE M; VAR x: POINTER TO T; y: T; END M.", "TO", "VAR  y: T;"),
            (b"MODULE M; PROCEDURE P(a: T; BEGIN END P; END M.", "BEGIN", None),
            (b"MODULE M; PROCEDURE P; BEGIN END; BEGIN END M.", "; BEGIN END M", None),
        ):
            at = source.index(word.encode())
            text = further.Text(source)
            edit = text.edit(line, at)
            told = edit and text.edited(edit).source.decode()
            self.assertTrue(told is None if wanted is None else wanted in told, (told, wanted))

    def test_each_line_keeps_its_number(self):
        source = b"MODULE M;\nVAR x\n  : POINTER\n TO T;\n  y: T;\nEND M."
        self.assertEqual(mended(source, "TO", "fault grammar token 0 at 0").count("\n"), 5)


class Proposals(unittest.TestCase):
    def meant(self, source, word):
        told = explain.unexpected("m.ob", source, source.index(word))
        return told[3] if len(told) > 3 else ""

    def test_what_is_missing_in_a_declaration(self):
        for source, word, wanted in (
            (GRAMMAR, b":= 5", "  a constant is declared by `=`"),
            (GRAMMAR, b"TYPE", "  a `;` is missing behind `7`"),
            (b"MODULE M; VAR x: INTEGER typ: BOOLEAN; END M.", b"typ", "  a `;` is missing behind"),
            (b"MODULE M; VAR procedures INTEGER; END M.", b"INT", "  a `:` is missing behind"),
            (b"MODULE M; VAR x = INTEGER; END M.", b"=", "  `:` stands before a type"),
            (b"MODULE M; VAR x x: INTEGER; END M.", b"x:", "  `x` stands here twice"),
            (b"MODULE M; CONST n = 4 4; END M.", b"4;", "  `4` stands here twice"),
            (b"MODULE M; PROCEDURE P(a: T, b: U); END P; END M.", b", b", "  `;` stands here, and"),
            (b"MODULE M; TYPE T = ARRAY 3 INTEGER; END M.", b"INT", "  a `OF` is missing behind"),
        ):
            self.assertTrue(self.meant(source, word).startswith(wanted), self.meant(source, word))

    def test_a_reserved_word_is_proposed_where_it_leads_on(self):
        body = b"; BEGIN x := 1 END Foo; BEGIN END M."
        for source, word, wanted in (
            (b"MODULE M; VAR x: INTEGER; PROCEDUR Foo" + body, b"Foo", "PROCEDURE"),
            (b"MODULE M; BEGIN Whle x DO x := 1 END END M.", b"x DO", "WHILE"),
        ):
            self.assertIn(f"did you mean `{wanted}`?", self.meant(source, word))
        for source, word in (
            (b"MODULE M; VAR types INTEGER; END M.", b"INT"),
            (b"MODULE M; BEGIN begins 3 END M.", b"3"),
            (b"MODULE M; VAR x: INTEGER typ; END M.", b"typ"),
        ):
            self.assertNotIn("did you mean", self.meant(source, word))


class Repairs(unittest.TestCase):
    def best(self, text, number):
        return repairs.best(text.split(), number)

    def test_what_reads_on_farthest(self):
        for text, number, wanted in (
            ("MODULE M ; VAR x INTEGER ; y : T ; END M .", 5, repairs.Repair('":"', True)),
            ("MODULE M ; VAR x : T ; ; y : T ; END M .", 8, repairs.Repair(None, False)),
            ("MODULE M ; CONST n := 3 ; END M .", 5, repairs.Repair('"="', False)),
            ("MODULE M ; PROCEDURE P ( a : T ; BEGIN END P ; END M .", 10, None),
            ("MODULE M ; var x : T ; END M .", 3, repairs.Repair('"VAR"', False)),
            ("MODULE M", 2, None),
        ):
            self.assertEqual(self.best(text, number), wanted, text)

    def test_tokens_are_read_once(self):
        words = ("MODULE M ; VAR " + "x : T ; " * 50).split()
        repairs.Reading(words, len(words))
        with mock.patch.object(grammar.Reader, "read", return_value=True) as read:
            repairs.Reading(words[:-1] + ["y"], len(words) - 1)
            read.assert_not_called()
            repairs.Reading(words[:-4] + ["y"], len(words) - 3)
            self.assertEqual(read.call_count, 1)


@needs.compiler
class Errors(unittest.TestCase):
    def told(self, source):
        """The places of all errors that are told."""
        line = further.refused(needs.program(), source)
        lines = explain.explained(line, "m.ob", source, None)
        lines += further.told(needs.program(), "m.ob", source, line, explain.explained)
        return [":".join(it.split(":")[1:3]) for it in lines if it.startswith("m.ob:")]

    def test_rules_that_declarations_break(self):
        wanted = ["2:18", "3:7", "4:21", "5:29", "6:20", "8:3", "11:8", "12:5"]
        self.assertEqual(self.told(RULES), wanted)

    def test_declarations_that_are_none_of_the_grammar(self):
        wanted = ["2:9", "4:1", "5:16", "6:5", "7:14", "9:1", "14:8"]
        self.assertEqual(self.told(GRAMMAR), wanted)

    def test_what_follows_of_an_error_alone_is_not_told(self):
        for declared in (
            b"VAR x: INTEGR;",  # x might be BOOLEAN
            b"VAR x: POINTER TO INTEGER;",
            b"VAR : BOOLEAN;",
            b"CONST x = TRUE + 1;",
            b"VAR x BOOLEAN;",
            b"VAR x x: BOOLEAN;",
            b"TYPE T = BOOLEN; VAR x: T;",
            b"VAR y: INTEGER; y: INTEGER; x: BOOLEAN;",
        ):
            source = b"MODULE M;\n" + declared + b"\nBEGIN\n  IF x THEN WriteLn END\nEND M.\n"
            self.assertEqual(len(self.told(source)), 1, declared)
        body = b"MODULE M;\nVAR x: INTEGER;\nBEGIN\n  %s\nEND M.\n"
        for statements in (
            b"WHILE x < 3 DO x := x + 1 : ; Write(x)",
            b"REPEAT x := x + 1\n  x > 3; Write(x)",
            b"IF x > 3 THEN x := := 2 EDN",
        ):
            self.assertEqual(len(self.told(body % statements)), 1, statements)
        called = b"MODULE M;\nPROCEDURE P;\nEND Q;\nBEGIN\n  Q\nEND M.\n"
        self.assertEqual(self.told(called), ["3:5"])


if __name__ == "__main__":
    unittest.main()
