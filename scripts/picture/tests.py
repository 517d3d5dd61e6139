"""Tests of networks, of costs, of other allocators, of listings and of headings.

    [PRA=PROGRAM] python3 -m unittest picture.tests

What other allocators come to is compared with bench/others.csv where the compiler was built, or
where PROGRAM is one, and the compiler's checker is asked whether their routes are admitted and
cost that.
"""

import csv
import json
import os
import tempfile
import unittest
from types import SimpleNamespace
from unittest import mock

from picture import listing, page, report
from picture.others import ALLOCATORS, best_routes, others
from picture.webs import Webs
from pranet import certificate
from pranet.compiler import Compiler
from pranet.network import Network
from pranet.operands import BOTHS, K, M, REGS

TOP = os.path.dirname(os.path.dirname(os.path.dirname(os.path.realpath(__file__))))
PROGRAM = os.environ.get("PRA", f"{TOP}/crates/pra/out/pra")

EAX, ECX, MEM, CONST, EAX_M, ECX_M = 0, 1, 6, 7, 8, 9


def code(variables, *blocks, args=0):
    """A procedure; each block is its depth, instructions and end."""
    value = {"args": args, "aggregates": 0, "vars": variables, "blocks": blocks}
    return certificate.code_of(value)


SUM = code(
    [["plain"], ["constant", 4]],
    [0, [["set", 0, 3], ["add", 0, 1], ["write", 0]], ["return"]],
)


class Strands(unittest.TestCase):
    def test_a_sum(self):
        number, constant = Network(SUM).strands
        self.assertEqual((number.first, number.last, constant.first, constant.last), (2, 5, 3, 3))
        self.assertEqual(number.masks, [REGS | M, REGS | M, REGS | M, 1 | 1 << EAX_M])
        self.assertEqual(constant.masks, [REGS | K])

    def test_a_parameter_comes_in_memory_and_a_call_destroys_registers(self):
        network = Network(
            code([["param", 0]], [0, [["call", 0], ["write", 0]], ["return"]], args=1)
        )
        kept = (REGS & ~0b111) | (BOTHS & ~(0b111 << 8)) | M
        self.assertEqual(network.strands[0].masks, [M, kept, kept, 1 | 1 << EAX_M])

    def test_a_loop_ties_its_entry_to_its_exit(self):
        again = [1, [["cmp", 0, 1]], ["branch", 5, 1, 2]]
        network = Network(
            code(
                [["param", 0], ["constant", 0]],
                [0, [], ["jump", 1]],
                again,
                [0, [["write", 0]], ["return"]],
                args=1,
            )
        )
        self.assertEqual(list(network.ties()), [(0, 1), (1, 1), (1, 3)])
        self.assertEqual(list(network.pairs()), [(1, 1, 2, 1)])


class Costs(unittest.TestCase):
    def test_each_row_of_the_table_of_moves(self):
        network = Network(SUM)
        rows = {
            (EAX, ECX): [0],
            (EAX, MEM): [2],
            (EAX, EAX_M): [2],
            (EAX, ECX_M): [0, 2],
            (MEM, EAX): [1],
            (MEM, EAX_M): [1],
            (EAX_M, EAX): [],
            (EAX_M, MEM): [],
            (EAX_M, ECX): [0],
            (EAX_M, ECX_M): [0],
            (CONST, EAX): [5],
            (EAX, CONST): [],
            (MEM, MEM): [],
        }
        for (origin, to), events in rows.items():
            self.assertEqual(network.crossing(origin, to), events, (origin, to))

    def test_memory_and_immediates_are_paid_where_they_are_met(self):
        routes = [[MEM, MEM, MEM, EAX], [CONST]]
        paid = {8: (1, 2), 6: (1, 1), 10: (1, 1), 1: (1, 3)}
        self.assertEqual(Network(SUM).paid(routes, "size"), paid)
        self.assertEqual(Network(SUM).paid([[EAX] * 4, [EAX]], "size"), {5: (1, 5)})

    def test_loops_count_eight_times_by_speed(self):
        block = [2, [["set", 0, 3], ["write", 0]], ["return"]]
        paid = Network(code([["plain"]], block)).paid([[MEM, EAX]], "speed")
        self.assertEqual(paid, {1: (1, 3 * 64), 8: (1, 2 * 64)})


class Admitted(unittest.TestCase):
    two = code(
        [["plain"], ["plain"]],
        [0, [["set", 0, 1], ["set", 1, 2], ["cmp", 0, 1]], ["branch", 4, 1, 1]],
        [0, [["write", 0]], ["return"]],
    )

    def test_each_rule_refuses_what_breaks_it_alone(self):
        self.assertTrue(Network(SUM).admits([[EAX] * 4, [ECX]]))
        for routes in (
            [[EAX, EAX, EAX, MEM], [CONST]],  # not in its mask: what is written is in eax
            [[EAX, EAX, ECX, EAX], [CONST]],  # moved across the sum
            [[EAX] * 4, [EAX]],  # two in one register
        ):
            self.assertFalse(Network(SUM).admits(routes), routes)

    def test_memory_pairs_and_ties_are_kept(self):
        network = Network(self.two)
        routes = [[MEM] * 6, [ECX] * 2, [MEM, EAX]]
        self.assertEqual([len(it.masks) for it in network.strands], [6, 2, 2])
        self.assertTrue(network.admits(routes))
        self.assertFalse(network.admits([routes[0], [ECX, MEM], routes[2]]), "moved across")
        self.assertFalse(network.admits([routes[0], [MEM] * 2, routes[2]]), "both in memory")
        self.assertFalse(network.admits([*routes[:2], [EAX, EAX]]), "tied to memory")


class Others(unittest.TestCase):
    def test_a_hole_is_of_use_to_all_but_whole_intervals(self):
        """Variable 0 is needed in blocks 0 and 2 alone, and block 1 fills six registers."""
        there, seven, some = ["frame", 0, 0, None], 6, range(1, 6)
        fill = [["addr", it, there] for it in some]
        fill += [["store", ["via", it, 0, None], seven] for it in some]
        network = Network(
            code(
                [["plain"]] * 6 + [["constant", 7]],
                [0, [["addr", 0, there], ["cmp", 0, seven]], ["branch", 5, 1, 2]],
                [0, fill, ["jump", 3]],
                [0, [["store", ["via", 0, 0, None], seven]], ["jump", 3]],
                [0, [], ["return"]],
            )
        )
        # a short immediate, a constant in a register, a long immediate; in memory variable 0 costs
        # a store, an operand and a load
        best, at_home = 1 + 5 + 4, 3 + 1 + 3
        wanted = {"linear scan": best + at_home, "with holes": best, "colouring": best}
        self.assertEqual(others(network, "size"), wanted)

    def test_what_was_only_read_is_not_stored_again(self):
        """A parameter that is brought in for an address stays in memory too."""
        load = ["load", 1, ["via", 0, 0, None]]
        block = [0, [load, ["call", 0], ["write", 1], load, ["write", 1]], ["return"]]
        webs = Webs(Network(code([["param", 0], ["plain"]], block, args=1)), "size")
        parameter = [it for it in webs.stops if it.web == 0]
        wanted = [ECX if it.layers[0] in (1, 7) else None for it in parameter]
        path = webs.path(0, *wanted)
        self.assertEqual(path, [MEM, ECX_M, ECX_M, MEM, MEM, MEM, MEM, ECX])

    def test_routes_that_are_not_admitted_are_none(self):
        webs = Webs(Network(SUM), "size")
        self.assertIsNone(webs.routes([EAX] * len(webs.stops)))
        self.assertIsNone(webs.routes([None] * len(webs.stops)))


@unittest.skipUnless(os.access(PROGRAM, os.X_OK), "no compiler was built, and PRA names none")
class BesideOthers(unittest.TestCase):
    """The table bench/others.csv, row by row."""

    def rows(self):
        """The weights of a row, its module, layers, home and what each comes to."""
        with open(f"{TOP}/bench/others.csv", encoding="utf-8", newline="") as table:
            for row in csv.DictReader(table):
                figures = [int(row[it]) for it in ("layers", "home", *ALLOCATORS)]
                yield row["weights"], row["module"], figures

    def found(self, compiler, name, cost, room):
        """The same of a module. The compiler has to say yes to the routes of each."""
        file = f"{TOP}/examples/{name}.ob"
        image = ("--rounds", "0", "--image", f"{room}/out.pri")
        if name.startswith("generated "):
            file, seed = f"{room}/module.ob", name.removeprefix("generated ")
            words = ("gen", file, "--seed", seed, "--size", "3", *image)
            compiler.call(*words, good=(0, 1, 2))
        text, _ = compiler.call("cert", file, "--cost", cost, *image)
        networks = [Network(it) for it in certificate.read(text.decode()).procedures]
        layers = sum(len(it.masks) for network in networks for it in network.strands)
        sums = [layers, sum(it.code.total for it in networks)]
        best = [dict(best_routes(it, cost)) for it in networks]
        for allocator in ALLOCATORS:
            value, them = json.loads(text), [it[allocator] for it in best]
            for procedure, (total, routes) in zip(value["procs"], them, strict=True):
                procedure["total"], procedure["routes"] = total, routes
            with open(f"{room}/cert.json", "w", encoding="utf-8") as out:
                json.dump(value, out)
            compiler.call("check", f"{room}/cert.json")
            sums.append(sum(total for total, _ in them))
        return sums

    def test_all_modules_come_to_what_the_tables_tell(self):
        compiler, sums, count = Compiler(PROGRAM), [0] * (2 + len(ALLOCATORS)), 0
        with tempfile.TemporaryDirectory(prefix="pra-others-") as room:
            for cost, name, wanted in self.rows():
                with self.subTest(cost=cost, module=name):
                    if name.startswith("all "):
                        self.assertEqual(sums, wanted)
                        sums = [0] * len(wanted)
                        continue
                    found = self.found(compiler, name, cost, room)
                    self.assertEqual(found, wanted)
                    sums = [one + other for one, other in zip(sums, found, strict=True)]
                    count += 1
        self.assertEqual(count, 36)


HEAD = """data 0
00000000 call 0000001c
0000001c push.r ebp
0000001d mov.mr ebp, esp
0000001f cmp.mi ebp, 134218764
00000025 jb 00000015
0000002b push.r ebx
0000002c push.r esi
0000002d push.r edi
0000002e int 35
00000030 mov.mr ecx, eax
00000032 int 35
00000034 xchg ecx, eax
00000036 int 33
00000038 mov.mr eax, ecx
0000003a int 33
0000003c lea esp, [ebp+d8:-12]
0000003f pop edi
00000040 pop esi
00000041 pop ebx
00000042 pop ebp
00000043 ret
"""


class Listings(unittest.TestCase):
    # two numbers that change places
    swap = code(
        [["plain"], ["plain"]],
        [0, [["read", 0], ["read", 1], ["write", 0], ["write", 1]], ["return"]],
    )
    routes = [[EAX, ECX, ECX, EAX], [EAX, ECX, ECX, EAX]]

    def align(self, text):
        return listing.Reader(listing.read(text)).procedure(Network(self.swap), self.routes)

    def test_moves_stand_before_the_instruction_that_wants_them(self):
        block = self.align(HEAD).blocks[0]
        moved = {layer: [text for _, text in it] for layer, it in block.moves.items() if it}
        wanted = {3: ["mov.mr ecx, eax"], 5: ["xchg ecx, eax"], 7: ["mov.mr eax, ecx"]}
        self.assertEqual(moved, wanted)
        self.assertEqual([it[0][1] for it in block.code], ["int 35", "int 35", "int 33", "int 33"])

    def test_a_listing_of_other_code_is_refused(self):
        with self.assertRaises(listing.NotOfThisCode):
            self.align(HEAD.replace("xchg ecx, eax", "mov.mr ecx, eax"))


class Headings(unittest.TestCase):
    def test_parameters_have_names_and_say_whether_they_are_var(self):
        heading = b"PROCEDURE P(a, b: INTEGER; VAR c: ARRAY (2) OF INTEGER);"
        source = b"MODULE M;\n" + heading + b"\nEND P;\nEND M."
        module, procedure = report.headings(source)
        self.assertEqual((module.line, module.parameters), (1, []))
        self.assertEqual(procedure.parameters, [("a", False), ("b", False), ("c", True)])


class Page(unittest.TestCase):
    def test_where_many_procedures_stand_the_open_one_is_named(self):
        for count, words in ((12, ""), (13, 'Open is <a href="#p3">P3</a>. ')):
            names = [SimpleNamespace(name=f"P{it}") for it in range(count)]
            module = SimpleNamespace(
                drawn=names,
                certificate=SimpleNamespace(cost="size"),
                reports={"size": SimpleNamespace(procedures=names)},
            )
            with mock.patch("picture.page.first_open", return_value=3):
                self.assertEqual(page.opened(module), words)


if __name__ == "__main__":
    unittest.main()
