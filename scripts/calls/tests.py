"""Tests of whole calls: each row of tests/, and what reads and runs rows.

    [PRA=PROGRAM] python3 -m unittest calls.tests
"""

import collections
import os
import unittest
from unittest import mock

import needs
from calls import laws, reader, run, running, texts
from calls.reader import FILE

SAMPLE = rb"""What the file has.

$ run M.ob

# two calls
    MODULE M; \
    END M.
image 50 52
< 1 2
= 0 out.pri 79 a
>  7
>  8\
! ...
! ended steps .. reads 0
left
fails out notes
$ exec M.ob ''
= 5

# more at once
bytes 00 \{2*ff}
$ gen
$ list M.ob
change \xff|a
change \0|\n
= 0 G.ob
    MODULE G;
< a\
< b
<
= 1
! x\{3*yz}
left b
"""


def row_named(file, name):
    """The first call of a row."""
    return next(it for it in reader.files()[file] if it.name == name).calls[0]


@needs.compiler
class Rows(unittest.TestCase):
    def test_each_call_leaves_what_its_row_says(self):
        for file, name, line, wrong in run.run(needs.program(), list(run.calls())):
            with self.subTest(file=file, row=name, words=line):
                self.fail("\n".join(wrong))

    def test_first_rounds_are_the_same_in_one_and_in_twenty(self):
        name = "more values than registers, in no round, in one and in twenty"
        files, found = running.source_of(row_named("rounds.rows", name)), []
        for count in (1, 20):
            words = ["run", FILE, "--rounds", str(count)]
            left = running.left_by(needs.program(), words, files)
            found.append(laws.procedures_of(left.notes.decode().splitlines())[0])
        one, twenty = found
        self.assertEqual([it[:2] for it in one], [it[:2] for it in twenty])
        self.assertLess(twenty[1][-1][0], twenty[1][0][0])

    def test_a_listing_tells_the_words_of_data(self):
        call = row_named("modules.rows", "all forms of statement")
        made = running.left_by(needs.program(), ["compile", FILE], running.source_of(call))
        listed = running.left_by(needs.program(), ["list", FILE], {FILE: made.files["out.pri"]})
        self.assertTrue(listed.out.startswith(b"data 21\n00000000 call "), listed.out[:80])


class Reader(unittest.TestCase):
    def test_calls_of_a_row(self):
        first, second = reader.rows_of(SAMPLE)[0].calls
        self.assertEqual((first.words, first.given), (["run", "M.ob"], b"1 2"))
        self.assertEqual(first.source, b"MODULE M; END M.")
        self.assertEqual((first.status, first.files), (0, {"out.pri": 79, "a": None}))
        self.assertEqual((first.out, first.rest, first.image), (b" 7\n 8", b"1 2", b"PR"))
        self.assertEqual(first.notes, b"...\nended steps .. reads 0\n")
        self.assertEqual((second.words, second.given), (["exec", "M.ob", ""], b"1 2"))
        self.assertEqual((second.fails, second.status, second.rest), (["out", "notes"], 5, b""))

    def test_more_words_inputs_and_changes_are_calls_each(self):
        calls = reader.rows_of(SAMPLE)[1].calls
        sources = b"\0a\xff", b"\n\xff\xff"
        self.assertEqual([(it.words[0], it.source) for it in calls[:4]],
                         [(word, it) for word in ("gen", "list") for it in sources])
        self.assertEqual({it.text for it in calls[:4]}, {b"MODULE G;\n"})
        self.assertEqual([(it.given, it.source) for it in calls[4:6]],
                         [(b"ab", b"\0\xff\xff"), (b"", b"\0\xff\xff")])
        self.assertEqual((calls[4].notes, calls[4].rest), (b"xyzyzyz\n", b"b"))
        self.assertEqual(len(calls), 8)

    def test_lines_that_are_none_of_a_row(self):
        for line in (b"fail out", b"= none", b"change b|c\n= 0", b"> \\q\n= 0\n> \\q\n= 0"):
            with self.assertRaises(reader.NoRow):
                reader.rows_of(b"$ run M.ob\n# a\n    a\n" + line)

    def test_lines_end_at_column_100(self):
        for path in os.listdir(reader.FOLDER):
            with open(f"{reader.FOLDER}/{path}", encoding="utf-8") as file:
                for line in file:
                    self.assertLessEqual(len(line.rstrip("\n")), 100, f"{path}: {line}")


class Patterns(unittest.TestCase):
    def test_what_fits(self):
        for pattern, text in (
            (b"a.b\n", b"a.b\n"),
            (b"steps .. reads 0\n", b"steps 12 reads 0\n"),
            (b"~\nended\n", b"round 0 cost 5 bound 5\ntotal cost 5\nended\n"),
            (b"~\nended\n", b"ended\n"),
            (b"a\n...\nb\n", b"a\nb\n"),
            (b"...\nb\n", b"x\nb\nb\n"),
        ):
            self.assertTrue(texts.fits(pattern, text), (pattern, text))

    def test_what_does_not_fit(self):
        for pattern, text in (
            (b"a.b\n", b"acb\n"),
            (b"a\n", b"a"),
            (b"steps .. reads 0\n", b"steps  reads 0\n"),
            (b"steps .. reads 0\n", b"steps 1 reads 0\nmore\n"),
            (b"~\nended\n", b"procedure 0\nended\n"),
            (b"...\nb\n", b"x b\n"),
        ):
            self.assertFalse(texts.fits(pattern, text), (pattern, text))


class Complaints(unittest.TestCase):
    def complaints(self, **changed):
        """What is told of a call that leaves what the sample says, but for what is changed."""
        call = reader.rows_of(SAMPLE)[0].calls[0]
        files = {"out.pri": b"PR".ljust(79), "a": b""}
        left = {"status": 0, "out": b" 7\n 8", "notes": b"ended steps 1 reads 0\n", "rest": b"1 2",
                "files": files, **changed}
        call.image = files["out.pri"]
        return list(running.complaints(call, running.Left(**left)))

    def test_what_is_left_as_the_row_says(self):
        self.assertEqual(self.complaints(), [])

    def test_what_is_left_otherwise(self):
        image = b"PR".ljust(79)
        for key, value, told in (
            ("status", 1, "status 1, and not 0"),
            ("out", b" 7\n 8\n", "out: wanted"),
            ("notes", b"going steps 1 reads 0\n", "notes: wanted"),
            ("rest", b"2", "left: wanted"),
            ("files", {"out.pri": image}, "a is missing"),
            ("files", {"out.pri": image, "a": b"", "b": b""}, "b is left"),
            ("files", {"out.pri": image[1:], "a": b""}, "out.pri has 78 bytes, and not 79"),
            ("files", {"out.pri": image[::-1], "a": b""}, f"image {image[::-1].hex()}"),
        ):
            found = self.complaints(**{key: value})
            self.assertTrue(found and found[0].startswith(told), (key, found))


def other(part, old, new):
    """A change of a part of what a call left."""
    return lambda left: setattr(left, part, getattr(left, part).replace(old, new))


def other_image(left):
    """A change of the last byte of the code."""
    left.files["out.pri"] = left.files["out.pri"][:-1] + b"\x90"


@needs.compiler
class Laws(unittest.TestCase):
    def told(self, mode, number, change):
        """What is told of a call where the call of this number in a mode leaves something else."""
        made, count = running.left_by, collections.Counter()

        def left_by(program, words, *given):
            left = made(program, words, *given)
            count[words[0]] += 1
            if (words[0], count[words[0]]) == (mode, number):
                change(left)
            return left

        with mock.patch.object(running, "left_by", left_by):
            with mock.patch.object(laws, "left_by", left_by):
                call = row_named("modules.rows", "an argument that is used after a call")
                return run.faults(needs.program(), call)

    def test_a_law_that_does_not_hold_is_told(self):
        for mode, number, change, told in (
            ("run", 1, other("notes", b"bound 6\n", b"bound 7\n"), "notes: wanted"),
            ("run", 2, other("out", b"5", b"6"), "another call leaves something else"),
            ("interp", 1, other("out", b"5", b"6"), "meaning: "),
            ("interp", 1, other("notes", b"frame 24", b"frame 28"), "procedures by meaning: "),
            ("exec", 1, other("notes", b"steps 48", b"steps 47"), "exec: "),
            ("asm", 1, other_image, "listing: "),
            ("cert", 1, other("out", b'"total":6', b'"total":7'), "certificate: status 3"),
            ("check", 1, other("out", b"bound 6", b"bound 5"), "certificate: status 0"),
        ):
            with self.subTest(mode=mode, told=told):
                found = self.told(mode, number, change)
                self.assertTrue(found and found[0].startswith(told), found)
        self.assertEqual(self.told("list", 9, other_image), [])


REPORT = """procedure 0 M frame 20
round 0 cost 9 bound 5
round 1 cost 7 bound 7
procedure 1 P frame 24
round 0 cost 4 bound 2
round 1 cost 4 bound 3
total cost 11 bound 10 code 63
ended steps 18 reads 0
"""


class Reports(unittest.TestCase):
    def check(self, old="", new="", words=("--rounds", "1")):
        return laws.check_report(list(words), REPORT.replace(old, new, 1).encode(), bytes(79))

    def test_a_report_of_rounds_that_stop_by_their_rule(self):
        self.assertEqual(self.check(), [(7, 7), (4, 3)])
        self.assertEqual(self.check(words=["--rounds=10", "--gap=1"]), [(7, 7), (4, 3)])

    def test_reports_that_no_rounds_give(self):
        for old, new in (
            ("round 1 cost 7 bound 7", "round 1 cost 10 bound 7"),  # a cost that rises
            ("round 1 cost 7 bound 7", "round 1 cost 7 bound 4"),  # a bound that falls
            ("cost 9 bound 5", "cost 9 bound 10"),  # a cost below its bound
            ("cost 9 bound 5", "cost 9 bound 9"),  # a round behind the end
            ("round 1 cost 4 bound 3\n", ""),  # a round too few
            ("total", "round 2 cost 4 bound 3\ntotal"),  # a round too many
            ("round 1 cost 4", "round 2 cost 4"),  # a number left out
            ("procedure 1", "procedure 2"),
            ("total cost 11", "total cost 12"),
            ("bound 10 code", "bound 11 code"),
            ("code 63", "code 64"),
            ("round 0 cost 4 bound 2\nround 1 cost 4 bound 3\n", ""),
            ("total cost 11 bound 10 code 63\n", ""),
        ):
            with self.subTest(old=old, new=new), self.assertRaises(laws.Broken):
                self.check(old, new)


if __name__ == "__main__":
    unittest.main()
