"""Tests of the refusal of allocations."""

import contextlib
import io
import shutil
import unittest

import needs
import refused


class Numbers(unittest.TestCase):
    def test_each_number_or_so_many_with_both_ends(self):
        self.assertEqual(list(refused.numbers(4, 9)), [1, 2, 3, 4])
        self.assertEqual(refused.numbers(100, 3), [1, 50, 100])


@needs.compiler
@unittest.skipUnless(shutil.which("gcc"), "gcc is not here")
class Calls(unittest.TestCase):
    def test_a_refused_allocation_leaves_nothing_written(self):
        told = io.StringIO()
        modes = ["compile", "run", "interp", "cert", "check", "list", "asm"]
        with contextlib.redirect_stdout(told):
            status = refused.main(["--compiler", needs.program(), "--most", "4", *modes])
        self.assertEqual(status, 0, told.getvalue())
        self.assertEqual(told.getvalue().count(", 0 otherwise\n"), len(modes))


if __name__ == "__main__":
    unittest.main()
