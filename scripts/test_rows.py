"""Tests of rows.py and cited.py."""

import unittest

import cited
import rows

TABLE = r'''
// a comment with "one quote
const ROWS: &str = "\
# a row
set v0 5
= ..##
";
const JOINED: &str = "one|\
    two\nthree";
fn quote() -> char { '"' }
#[test]
fn a_test() {
    for (a, b) in [
        (1, 2),
        (3, "(4),"),
    ] {
        assert_eq!(rt; a, b, "no table");
        assert!(rt; a < b);
    }
}
'''


class Rows(unittest.TestCase):
    def test_lines_of_tables(self):
        self.assertEqual(rows.lines_of(TABLE),
                         ["# a row", "set v0 5", "..##", "one|two", "three"])

    def test_counts_by_crate(self):
        counts, lines = rows.counted({"crates/tests_a/src/x/y.rt": TABLE,
                                      "crates/b/src/tests.rt": TABLE})
        for crate in ("tests_a", "b"):
            self.assertEqual(dict(counts[crate]),
                             {"tests": 1, "lines": 5, "tuples": 2, "assertions": 2})
        self.assertEqual(lines["..##"], 2)

    def test_files_of_tests(self):
        self.assertEqual(rows.crate_of("crates/tests_low/src/a/lists.rt"), "tests_low")
        self.assertEqual(rows.crate_of("crates/pra_list/src/tests.rt"), "pra_list")
        self.assertEqual(rows.crate_of("tests/words.rows"), "tests/words.rows")
        self.assertEqual(rows.crate_of("tests/near.table"), "tests/near.table")
        self.assertIsNone(rows.crate_of("crates/pra_list/src/seq.rt"))
        self.assertIsNone(rows.crate_of("crates/tests_low/specs/Lib.antt"))

    def test_lines_of_a_file(self):
        file = "What it has.\n\n# a row\nset v0 \\\n    5\n= 7 ended 0\n"
        counts, lines = rows.counted({"tests/a.table": file})
        self.assertEqual(counts["tests/a.table"], {"lines": 3})
        self.assertEqual(list(lines), ["# a row", "set v0 5", "7 ended 0"])

    def test_calls_of_rows(self):
        both = "A file.\n\n# a row\n    MODULE M;\n$ run M.ob\n$ list M.ob\n= 3\n! fault\n"
        counts, calls = rows.counted({"tests/a.rows": both, "tests/b.rows": both})
        self.assertEqual(counts["tests/a.rows"], {"calls": 2})
        self.assertEqual(sum(calls.values()), 4)
        for changed in (both.replace("M;", "N;"), both.replace("= 3", "= 4")):
            _, other = rows.counted({"tests/a.rows": changed})
            self.assertEqual(len(calls - other), 2)
        lost = calls - rows.counted({"tests/c.rows": both.replace("$ list M.ob\n", "")})[1]
        self.assertEqual([it.rpartition(" (")[0] for it in lost if "list" in it],
                         ["a row: list M.ob"])


class Cited(unittest.TestCase):
    def test_what_no_file_names(self):
        self.assertEqual(cited.uncited(["low", "net", "std"], {"low", "nets", "use"}),
                         ["net", "std"])


if __name__ == "__main__":
    unittest.main()
