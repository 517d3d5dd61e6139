"""Tests of what else is told of a module behind its first error, and of traps of every input."""

import re
import tempfile
import unittest

import explain
import further
import grammar
import needs

MANY = b"""MODULE Many;
CONST n = 5;
VAR x, y: INTEGER; b: BOOLEAN;
PROCEDURE P(a: INTEGER);
BEGIN
  a := b;
  x := 1
  Write(x);
  IF x THEN y := 1 END;
  WHILE x < n DO
    undeclared := x + 1;
    x := x + TRUE
  END
END P;
BEGIN
  x := ;
  undeclared := 0;
  REPEAT x := x + 1 UNTIL x; y := b;
  P(1, 2)
END Many.
"""


def edited(source, word, nth=0, line="fault grammar token 0 at 0"):
    """What is replaced of a source for an error at a word, and by what."""
    at = [it.start() for it in re.finditer(re.escape(word), source)][nth]
    edit = further.Text(source).edit(line, at)
    if edit is None:
        return None
    (start, stop, by), = edit.parts
    return source[start:stop], by


class Edits(unittest.TestCase):
    def body(self, statements):
        return b"MODULE M; VAR x: INTEGER; BEGIN " + statements + b" END M."

    def test_a_semicolon_is_put_in_where_it_is_missing(self):
        for text, word in ((b"x := 1 Write(x)", b"Write"), (b"Read(x) WHILE x", b"WHILE")):
            self.assertEqual(edited(self.body(text), word), (b"", b";"))
        self.assertIsNone(edited(self.body(b"IF x > 1 THEN x := 2 END") + b" y", b"M", 2))

    def test_a_statement_is_left_out_and_a_condition_replaced(self):
        text = self.body(b"x := 1; x := TRUE + 1; IF x THEN x := 2 END; REPEAT x := 1 UNTIL x")
        self.assertEqual(edited(text, b"TRUE", 0, "fault rule 15"), (b"x := TRUE + 1", b""))
        self.assertEqual(edited(text, b"x THEN", 0, "fault rule 19"), (b"x", b"0=0"))
        self.assertEqual(edited(text, b"x END M", 0, "fault rule 19"), (b"x", b"0=0"))

    def test_what_closes_is_left_alone(self):
        self.assertIsNone(edited(self.body(b"x := 1; IF x ; x := 2"), b"; x := 2"))
        self.assertIsNone(edited(b"MODULE M; BEGIN x := 1 M.", b"M."))


class Proposals(unittest.TestCase):
    reserved = grammar.read().reserved

    def near(self, word, before=()):
        return further.nearest_reserved(word, list(before), self.reserved)

    def test_names_of_the_language_and_short_ones_are_not_taken_for_reserved_words(self):
        for word in ("Write", "i", "do", "Read", "x1"):
            self.assertEqual(self.near(word), "", word)
        self.assertEqual(self.near("Whle"), "WHILE")
        self.assertEqual(self.near("whle", ["whle", ":=", "whle"]), "")

    def test_a_semicolon_is_proposed_and_nothing_else(self):
        source = b"MODULE M; VAR x: INTEGER; BEGIN Read(x) Write(x) END M."
        lines = explain.unexpected("m.ob", source, source.index(b"Write"))
        self.assertEqual(lines[-1], "  a `;` is missing behind `)`")
        source = b"MODULE M; VAR x: INTEGER; BEGIN i x END M."
        lines = explain.unexpected("m.ob", source, source.index(b"x END"))
        self.assertNotIn("did you mean", "\n".join(lines))


@needs.compiler
class Errors(unittest.TestCase):
    def told(self, source):
        line = further.refused(needs.program(), source)
        return further.told(needs.program(), "m.ob", source, line, explain.explained)

    def test_errors_that_are_apart_are_told_in_their_order(self):
        told = [it for it in self.told(MANY) if it.startswith("m.ob:")]
        places = [":".join(it.split(":")[1:3]) for it in told]
        self.assertEqual(places, ["6:8", "9:6", "11:5", "12:14", "16:8", "18:27", "19:9"])
        self.assertEqual(self.told(MANY)[1], "    a := b;")

    def test_one_error_is_told_alone(self):
        one = MANY
        for old, new in (
            (b"undeclared", b"y"),
            (b"x + TRUE", b"x"),
            (b"x := ;", b"x := 2;"),
            (b"UNTIL x; y := b", b"UNTIL b"),
            (b"a := b", b"a := n"),
            (b"IF x", b"IF b"),
            (b"P(1, 2)", b"P(1)"),
        ):
            one = one.replace(old, new)
        self.assertEqual(self.told(one), [])


@needs.compiler
class Always(unittest.TestCase):
    def line(self, statements):
        with tempfile.NamedTemporaryFile(suffix=".ob") as file:
            text = f"MODULE M; VAR x: INTEGER; BEGIN {statements} END M."
            file.write(text.encode())
            file.flush()
            return further.always_traps(needs.program(), file.name)

    def test_a_trap_before_any_number_is_read_is_one_of_every_input(self):
        self.assertEqual(self.line("x := 1 DIV x"), "trap Divide units 1 reads 0")
        self.assertIsNone(self.line("Read(x)"))
        self.assertIsNone(self.line("Read(x); x := 1 DIV 0"))
        self.assertIsNone(self.line("x := 1"))


if __name__ == "__main__":
    unittest.main()
