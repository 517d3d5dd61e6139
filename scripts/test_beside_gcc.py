"""Tests of bench/beside_gcc.py and bench/in_c.py: modules as C, and figures that are counted."""

import contextlib
import os
import shutil
import sys
import tempfile
import unittest

TOP = os.path.dirname(os.path.dirname(os.path.realpath(__file__)))
sys.path.insert(0, f"{TOP}/bench")

import beside_gcc  # noqa: E402
import in_c  # noqa: E402

CALLS = """MODULE Calls;
CONST half = -7 DIV 2; length = 2 * 2;
TYPE Pair = RECORD left, right: INTEGER END;
VAR list: ARRAY length OF Pair; int, at: INTEGER; is: BOOLEAN;
PROCEDURE Outer(VAR to: Pair; int: INTEGER);
  PROCEDURE Inner(VAR sum: INTEGER);
  BEGIN IF sum > 0 THEN sum := sum - 1; Inner(sum); Outer(list[0], 0) END
  END Inner;
BEGIN to.left := to.left + int; Inner(int)
END Outer;
BEGIN
  Read(at); Outer(list[at], 3); Write(list[at].left); Write(half);
  is := (at # 1) OR ~(7 MOD 4 = 3); WHILE ~is DO is := TRUE; Write(9) END;
  Write((-7) MOD 4); Write((-7) DIV 4); Write(7 DIV (at - 1)); Write(-7 MOD (at + 2));
  WriteLn
END Calls.
"""


def gcc_works():
    """Whether gcc makes objects for IA-32, and the kernel runs their programs."""
    if shutil.which("gcc") is None:
        return False
    problems = beside_gcc.Refused, OSError, LookupError, ValueError
    with tempfile.TemporaryDirectory() as folder, contextlib.suppress(*problems):
        told = beside_gcc.Gcc(folder).figures(in_c.in_c(b"MODULE M; END M."), "-O0", "")
        return told[2] == (b"", 0)
    return False


GCC_WORKS = gcc_works()


class Translated(unittest.TestCase):
    def lines(self, statements):
        text = f"MODULE M; CONST four = 4; VAR x, y: INTEGER; BEGIN {statements} END M."
        return [it.strip() for it in in_c.in_c(text.encode()).splitlines()[-9:]]

    def test_a_power_of_two_is_a_shift_and_an_and(self):
        told = self.lines("x := x DIV four; y := (x - 1) MOD 8")
        self.assertIn("x_1 = (x_1 >> 2);", told)
        self.assertIn("y_2 = (((x_1 - 1)) & 7);", told)

    def test_other_divisors_are_tested(self):
        told = self.lines("x := x DIV 7; y := 1 MOD y; x := x DIV 0")
        self.assertIn("x_1 = quotient(x_1, 7);", told)
        self.assertIn("y_2 = remainder_of(1, y_2);", told)
        self.assertIn("x_1 = quotient(x_1, 0);", told)

    def test_numbers_that_are_known(self):
        known = in_c.Translator(b"-7 DIV 2 + 2147483647 * 2 ").expression()
        self.assertEqual(known.number, -5)
        self.assertEqual(in_c.literal(in_c.wrapped(2**31)), "(-2147483647 - 1)")

    def test_the_least_number(self):
        self.assertEqual(in_c.wrapped(-(2**31) - 1), 2**31 - 1)


class Figures(unittest.TestCase):
    def test_code_sections_alone_count(self):
        told = "section size addr\n.text 18 0\n.text.unlikely 5 0\n.data 4 0\n.comment 9 0\n"
        self.assertEqual(beside_gcc.code_bytes(told), 23)
        self.assertEqual(beside_gcc.code_bytes(f"{told}.rodata 16 0\n"), 39)

    def test_endings(self):
        self.assertEqual(beside_gcc.ending("ended steps 32 reads 0"), (0, 32))
        self.assertEqual(beside_gcc.ending("trap Index steps 7 reads 1"), (11, 7))
        for it in ("going steps 1 reads 0", "fault words", "trap Stack steps 9 reads 0"):
            with self.assertRaises(beside_gcc.Refused):
                beside_gcc.ending(it)

    def test_sums_stand_below(self):
        rows = [("generated 1", [(1, 10)]), ("generated 7", [(2, 20)]), ("sort", [(5, 50)])]
        told = list(beside_gcc.table("Bytes", ["a"], rows, 1))
        names = "| generated 1 | 10 |", "| generated 7 | 20 |", "| sort | 50 |"
        self.assertEqual(told[2:], [*names, "| all generated | 30 |"])


class Repeated(unittest.TestCase):
    def test_a_body_is_run_so_often(self):
        source = b"MODULE M; VAR Once0: INTEGER; BEGIN Write(Once0) END M."
        told = in_c.repeated(source, 3).decode()
        self.assertIn("PROCEDURE Once1;\nBEGIN Write(Once0) \nEND Once1;", told)
        self.assertIn("left0 := 3;", told)
        self.assertTrue(told.endswith("BEGIN Again0 END M.\n"))

    def test_a_module_without_a_body_is_not(self):
        for source in (b"MODULE M; END M.", b"MODULE M; PROCEDURE P; BEGIN END P; END M."):
            self.assertIsNone(in_c.repeated(source, 3))


@unittest.skipUnless(GCC_WORKS, "no programs for IA-32 are made and run here")
class Running(unittest.TestCase):
    def figures(self, source, level, given):
        with tempfile.TemporaryDirectory() as folder:
            return beside_gcc.Gcc(folder).figures(in_c.in_c(source.encode()), level, given)

    def test_a_module_does_what_it_means(self):
        for level in beside_gcc.LEVELS:
            told = self.figures(CALLS, level, "2")[2]
            self.assertEqual(told, (b" 3 -3 1 -2 7 -3\n", 0), level)

    def test_traps(self):
        for given, status in (("4", 11), ("-1", 11), ("1", 12), ("", 13)):
            self.assertEqual(self.figures(CALLS, "-O2", given)[2][1], status, given)

    def test_a_repeated_module_writes_again(self):
        source = "MODULE M; VAR n: INTEGER; BEGIN n := n + 1; Write(n) END M."
        again = in_c.repeated(source.encode(), 3).decode()
        self.assertEqual(self.figures(again, "-O1", "")[2], (b" 1 2 3", 0))

    def test_at_O0_a_test_is_no_call_with_parameters(self):
        plain = "MODULE M; VAR i: INTEGER; a: ARRAY 4 OF INTEGER; BEGIN Write({}) END M."
        tested, known = (self.figures(plain.format(it), "-O0", "")[1] for it in ("a[i]", "i"))
        self.assertLessEqual(tested - known, 7)

    def test_the_steps_of_the_module_alone_count(self):
        """The numbers that are written are in the same steps, whatever they are."""
        loop = "MODULE M; VAR n: INTEGER; BEGIN Read(n); Write(n) END M."
        small, large = (self.figures(loop, "-O2", it) for it in ("1", "1000000000"))
        self.assertEqual(small[:2], large[:2])


if __name__ == "__main__":
    unittest.main()
