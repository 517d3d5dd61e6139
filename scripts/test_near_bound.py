"""Tests of bench/beside_llvm.py, near_bound.py and near_picture.py: our code by LLVM's allocators,
and how near costs are to bounds.
"""

import csv
import os
import sys
import unittest

from pranet.certificate import code_of

TOP = os.path.dirname(os.path.dirname(os.path.realpath(__file__)))
sys.path.insert(0, f"{TOP}/bench")

import beside_llvm  # noqa: E402
import near_bound  # noqa: E402
import near_picture  # noqa: E402

LOOP = [
    [0, [["read", 0], ["set", 1, 5]], ["jump", 1]],
    [1, [["add", 1, 0], ["mul", 1, 2], ["cmp", 1, 3]], ["branch", 12, 1, 2]],
    [0, [["write", 1]], ["return"]],
]


def procedure(blocks, variables, args=0):
    value = {"args": args, "aggregates": 0, "vars": variables, "blocks": blocks}
    return code_of(value)


def loop():
    variables = [["plain"], ["plain"], ["constant", 300], ["constant", 7]]
    return procedure(LOOP, variables)


class Written(unittest.TestCase):
    def test_a_loop_is_left_one_turn_in_eight(self):
        text, own = beside_llvm.Writer(loop()).function(0)
        self.assertIn("successors: %bb.1(0x70000000), %bb.2(0x10000000)", text)
        self.assertIn("%1:gr32_nosp = IMUL32rri %1, 300, implicit-def dead $eflags", text)
        self.assertIn("CMP32ri8 %1, 7, implicit-def $eflags", text)
        self.assertEqual([it.depth for it in own], [0, 1, 0])
        # a short immediate of the comparison, a long one of the product
        self.assertEqual(dict(own[1].immediates), {10: 1, 12: 1})
        self.assertEqual((own[0].sets, own[0].copies), (1, 0))

    def test_an_argument_is_read_from_its_cell(self):
        blocks = [[0, [["write", 0], ["copy", 1, 0], ["write", 1]], ["return"]]]
        text, own = beside_llvm.Writer(procedure(blocks, [["param", 1], ["plain"]], 2)).function(3)
        self.assertIn("name:            p3\n", text)
        self.assertIn("= MOV32rm %fixed-stack.1, 1, $noreg, 0, $noreg", text)
        self.assertRegex(text, r"id: 1, .* offset: 0, .* isImmutable: true, isAliased: false")
        self.assertRegex(text, r"id: 0, .* offset: 4, .* isImmutable: false, isAliased: true")
        self.assertEqual(own[0].copies, 1)


class Counted(unittest.TestCase):
    def test_each_instruction_has_its_events(self):
        cells = {"%stack.1", "%fixed-stack.0"}
        for line, events in (
            ("$eax = COPY $ecx", [0]),
            ("$eax = COPY $eax", []),
            ("$eax = MOV32rm %stack.1, 1, $noreg, 0, $noreg :: (load (s32))", [1]),
            ("MOV32mr %stack.1, 1, $noreg, 0, $noreg, $eax", [2]),
            ("$eax = MOV32rm %stack.0, 1, $noreg, 0, $noreg", []),
            ("$eax = ADD32rm $eax, %fixed-stack.0, 1, $noreg, 0, $noreg", [6]),
            ("PUSH32rmm %stack.1, 1, $noreg, 0, $noreg", [8]),
            ("MOV32mi %stack.1, 1, $noreg, 0, $noreg, 7", [8, 5]),
            ("$eax = MOV32ri 7", [5]),
        ):
            self.assertEqual(beside_llvm.events_of(line, cells, True), events, line)
        far = beside_llvm.events_of("MOV32mr %stack.1, 1, $noreg, 0, $noreg, $eax", cells, False)
        self.assertEqual(far, [4])

    @unittest.skipUnless(beside_llvm.is_there(), "llc, of Debian's package llvm, is not here")
    def test_llvm_allocates_our_code(self):
        """What is read leaves eax by a move, and the loop has immediates of 1 and 3 bytes."""
        for name in ("basic", "greedy", "pbqp"):
            (costs,) = beside_llvm.allocated([loop()], name)
            self.assertEqual(costs, {"size": 2 + 1 + 3, "speed": 1}, name)
        (costs,) = beside_llvm.allocated([loop()], "fast")
        self.assertGreater(costs["speed"], 8)


class Near(unittest.TestCase):
    def test_shares_are_of_the_bound(self):
        row = near_bound.Row()
        for cost, bound in ((100, 100), (101, 100), (106, 100), (None, 100), (0, 0)):
            row.take(cost, bound, 500)
        self.assertEqual(row.cells(), [5, 100 + 101 + 106 + 500, 400, 2, 3, 3, 3, 4])

    def test_the_picture_is_of_the_table(self):
        with open(near_bound.TABLE, encoding="utf-8", newline="") as text:
            rows = list(csv.DictReader(text))
        with open(near_bound.PICTURE, encoding="utf-8") as text:
            self.assertEqual(text.read(), near_picture.picture(rows))
        names = {it["allocator"] for it in rows}
        self.assertTrue(names.issuperset(near_picture.LLVM))
        self.assertGreaterEqual(min(int(it["procedures"]) for it in rows), 1000)

    def test_each_row_has_a_bar_of_all_shares(self):
        shares = {f"within {it}%": 1 + at for at, it in enumerate(near_picture.SHARES)}
        one = {"weights": "size", "procedures": 10} | shares
        text = near_picture.picture([one | {"allocator": it} for it in ("round 0", "basic")])
        self.assertEqual(text.count("<rect x="), 2 * 6 + 6)
        self.assertIn("round 0: 5 of 10 within 10% of the bound", text)


if __name__ == "__main__":
    unittest.main()
