"""Tests of the names of local variables that are found again by the text.

    python3 -m picture.names_tests
"""

import unittest

import needs
from picture import local_names
from pranet.compiler import Compiler

MATRIX = f"{needs.TOP}/examples/matrix.ob"
MODULE = b"""MODULE M;
CONST size = 3;
TYPE List = ARRAY size OF INTEGER; Number = INTEGER;
VAR at: INTEGER; all: List;
PROCEDURE P(VAR to: INTEGER; by: INTEGER);
  CONST two = 2;
  VAR row: Number; list: List; pair: RECORD a, b: INTEGER END; sum, rest: INTEGER;
  PROCEDURE Inner;
    VAR inner: BOOLEAN;
  BEGIN inner := at < 3
  END Inner;
BEGIN
  row := two; sum := all[row] + by * 5; rest := sum MOD by;
  IF (rest < row) & (sum # 0) THEN to := rest; P(to, sum) ELSE Write(-row) END
END P;
BEGIN Read(at); P(at, 1)
END M.
"""


class Text(unittest.TestCase):
    named = local_names.Named(MODULE)

    def test_scalar_locals_are_found_in_each_procedure(self):
        self.assertEqual(self.named.locals, [[], ["row", "sum", "rest"], ["inner"]])

    def test_statements_become_instructions_with_names(self):
        found = [(it[0], it[1]) for it in self.named.found[1]]
        self.assertEqual(
            found,
            [
                ("set", {0: "row"}),
                ("check", {0: "row"}),
                ("load", {}),
                ("mul", {}),
                ("add", {0: "sum"}),
                ("divmod", {3: "by", 1: "rest"}),
                ("cmp", {0: "rest", 1: "row"}),
                ("cmp", {0: "sum"}),
                ("store", {1: "rest"}),
                ("addr", {}),
                ("push", {}),
                ("push", {0: "sum"}),
                ("call 1", {}),
                ("neg", {}),
                ("write", {}),
            ],
        )
        body = [it[0] for it in self.named.found[0]]
        self.assertEqual(body, ["read", "store", "addr", "push", "push", "call 1"])


@needs.compiler
class Found(unittest.TestCase):
    def test_all_locals_of_a_product_of_matrices_are_found(self):
        with open(MATRIX, "rb") as file:
            named = local_names.Named(file.read())
        known = Compiler(needs.program()).certificate(MATRIX, "size", 0)
        multiply = known.procedures[1]
        names = local_names.names_of(named, 1, multiply)
        self.assertEqual(set(names.values()), {"row", "column", "at", "sum"})
        by_name = {name: v for v, name in names.items()}
        first = [block.code[0] for block in multiply.blocks[:2]]
        self.assertEqual(first[0][:2], ["set", by_name["row"]])
        self.assertEqual(first[1][:2], ["set", by_name["column"]])


if __name__ == "__main__":
    unittest.main()
