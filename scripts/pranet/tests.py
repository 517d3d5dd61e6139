"""Tests of certificates, problems, prices, integer programs and the solver.

    [PRA=PROGRAM] python3 -m unittest pranet.tests

What needs the solver CBC is left out where it is not installed, and what needs the compiler where
it was not built and PRA names none.
"""

import io
import json
import os
import re
import signal
import subprocess
import sys
import tempfile
import unittest
from contextlib import contextmanager, redirect_stderr, redirect_stdout
from unittest import mock

import lp as lp_script
import needs
import network as network_script
import solve as solve_script
from pranet import cbc, certificate
from pranet.certificate import Certificate, Prices
from pranet.compiler import TOP, Compiler, Refused
from pranet.dual import Dual, in_range, tie_index, whole
from pranet.home import home_routes
from pranet.network import Network, bits
from pranet.problem import problem_of, problem_of_all
from pranet.program import classes_of, program_of, program_of_all, relaxation_of, routes_of
from pranet.solver import PROVED, solve

PROGRAM = os.environ.get("PRA", f"{TOP}/crates/pra/out/pra")
ALLOCATOR = f"{TOP}/examples/allocator/allocate.py"
EAX, ECX, MEM, CONST, EAX_M = 0, 1, 6, 7, 8
needs_compiler = unittest.skipUnless(
    os.access(PROGRAM, os.X_OK), "no compiler was built, and PRA names none"
)
needs_solver = unittest.skipUnless(cbc.is_there(), cbc.MISSING)


@contextmanager
def solver_that_says(word):
    """A program in place of cbc that takes 0.3 seconds to say how it ended."""
    with tempfile.TemporaryDirectory() as folder:
        with open(f"{folder}/cbc", "w", encoding="ascii") as file:
            file.write("#!/bin/sh\nsleep 0.3\nfor last; do :; done\n")
            file.write(f'echo "{word} - objective value 0" >"$last"\n')
        os.chmod(f"{folder}/cbc", 0o755)
        with mock.patch.dict(os.environ, PATH=f"{folder}:{os.environ['PATH']}"):
            yield


def code(variables, *blocks, args=0):
    """A procedure; each block is its depth, instructions and end."""
    value = {"args": args, "aggregates": 0, "vars": variables, "blocks": blocks}
    return certificate.code_of(value)


def page():
    with open(f"{TOP}/docs/NETWORK.md", encoding="utf-8") as text:
        return text.read()


def worked():
    """The text of the certificate that the page works out."""
    lines = re.search(r'^    \{"cost".*?^$', page(), re.M | re.S)[0].splitlines()
    return "".join(it.removeprefix("    ") for it in lines) + "\n"


def loop():
    """A sum of what is read, a call in a loop, constants and a division."""
    turn = [["read", 1], ["divmod", 2, 3, 1, 0], ["add", 4, 3], ["push", 4], ["call", 0]]
    turn += [["sub", 5, 6], ["cmp", 5, 7]]
    return code(
        [["param", 0], *([["plain"]] * 5), ["constant", 1], ["constant", 300]],
        [0, [["set", 4, 0], ["set", 5, 9]], ["jump", 1]],
        [1, turn, ["branch", 5, 1, 2]],
        [0, [["write", 4]], ["return"]],
        args=1,
    )


def allocated(procedure, cost="size"):
    """The procedure that the example's allocator makes of a problem."""
    problem = problem_of_all(Certificate(cost, [procedure]))
    command = [sys.executable, ALLOCATOR]
    ran = subprocess.run(command, input=json.dumps(problem), capture_output=True, text=True)
    return certificate.read(ran.stdout).procedures[0]


def called(main, words, text):
    """Status, output and notes of a call with a file that holds a text."""
    out, notes = io.StringIO(), io.StringIO()
    with tempfile.NamedTemporaryFile("w", suffix=".cert") as file:
        file.write(text)
        file.flush()
        with redirect_stdout(out), redirect_stderr(notes):
            return main([file.name, *words]), out.getvalue(), notes.getvalue()


class Pages(unittest.TestCase):
    """The example of docs/NETWORK.md, as it is followed there by hand."""

    def setUp(self):
        self.known = certificate.read(worked())
        self.procedure = self.known.procedures[0]
        self.network = Network(self.procedure)

    def test_the_text_is_what_is_written(self):
        self.assertEqual(certificate.write(self.known), worked())

    def test_the_table_of_strands(self):
        rows = re.findall(r"^\| (\d) \| v(\d) \| (\d) \| (\d) to (\d) \|", page(), re.M)
        strands = [
            tuple(map(str, (number, it.var, it.block, it.first, it.last)))
            for number, it in enumerate(self.network.strands)
        ]
        self.assertEqual(rows, strands)
        anywhere, place = 0b11111101111111, 0b1111111
        masks = [[1] + [anywhere] * 3, [1, anywhere], [anywhere, place, place, 257], [anywhere] * 2]
        self.assertEqual([it.masks for it in self.network.strands], masks)

    def test_pairs_ties_and_extras(self):
        problem = problem_of(self.network, "size")
        self.assertEqual(problem["pairs"], [[2, 1, 3, 1]])
        self.assertEqual(problem["ties"], [[0, 2], [1, 3]])
        self.assertEqual(problem["extras"], [[2, 1, MEM, 1], [3, 1, MEM, 1]])

    def test_the_routes_cost_two_moves(self):
        told = re.findall(r"^\| (\d) \| ((?:\d ){2,})\| ?(\d?)", page(), re.M)
        self.assertEqual([list(map(int, it[1].split())) for it in told], self.procedure.routes)
        moves = [(it.strand, it.layer) for it in self.network.moves(self.procedure.routes)]
        self.assertEqual(moves, [(int(it[0]), 3) for it in told if it[2]])
        self.assertTrue(self.network.admits(self.procedure.routes))
        self.assertEqual(self.network.paid(self.procedure.routes, "size"), {0: (2, 4)})

    def test_the_prices_give_what_the_table_tells(self):
        dual = Dual(self.network, "size")
        least = [dual.least(number, self.procedure.prices)[0] for number in range(4)]
        told = re.findall(r"^\| \d \| (\d) \| (?:eax|the|from|\|)", page(), re.M)
        self.assertEqual([int(it) * 1024 for it in told], least)
        self.assertEqual(dual.value(self.procedure.prices), 4 * 1024)
        self.assertEqual(dual.value(Prices(caps={24: 4096})), 2 * 1024)
        self.assertEqual(dual.value(Prices()), 0)

    @needs_compiler
    def test_the_compiler_takes_it(self):
        said = "procedure 0 cost 4 bound 4\ncertificate holds\n"
        self.assertEqual(Compiler(PROGRAM).check(worked()), (0, said))


class Problems(unittest.TestCase):
    def test_a_loop_counts_eight_times_by_speed(self):
        blocks = problem_of(Network(loop()), "speed")["blocks"]
        self.assertEqual([it["turns"] for it in blocks], [1, 8, 1])
        self.assertEqual([it["layer"] for it in blocks], [0, 6, 22])
        self.assertEqual([it["leads"] for it in blocks], [[1], [1, 2], []])

    def test_costs_add_up_to_what_routes_cost(self):
        """By the rule of the page alone, of the routes that the example finds."""
        for cost in ("size", "speed"):
            procedure = allocated(loop(), cost)
            problem, network = problem_of(Network(loop()), cost), Network(loop())
            extras = {tuple(it[:3]): it[3] for it in problem["extras"]}
            total = 0
            for number, (strand, route) in enumerate(zip(network.strands, procedure.routes)):
                turns = problem["blocks"][strand.block]["turns"]
                is_constant = problem["code"]["vars"][strand.var][0] == "constant"
                if is_constant and route[0] != CONST:
                    total += turns * problem["begin"]
                for step, place in enumerate(route):
                    layer = strand.first + step
                    total += turns * extras.get((number, layer, place), 0)
                    if step and layer % 2 == 1:
                        total += turns * problem["moves"][route[step - 1]][place]
            self.assertEqual(total, procedure.total)
            paid = network.paid(procedure.routes, cost)
            self.assertEqual(total, sum(it for _, it in paid.values()))


class Values(unittest.TestCase):
    def test_no_prices_prove_more_than_routes_cost(self):
        """Steps along the gradient raise the value, and keep below what the routes cost."""
        procedure = allocated(loop())
        dual = Dual(Network(loop()), "size")
        first = dual.value(Prices())
        prices, value = dual.raised(Prices(), procedure.total * 1024, 60)
        self.assertEqual(dual.value(prices), value)
        self.assertLess(first, value)
        self.assertLessEqual(whole(value), procedure.total)

    def test_paths_through_a_place_cost_no_less_than_the_least(self):
        network = Network(loop())
        dual = Dual(network, "speed")
        prices = dual.raised(Prices(), 1024 * 1024, 10)[0]
        for number in range(len(network.strands)):
            least, path = dual.least(number, prices)
            for place, costs in zip(path, dual.through(number, prices), strict=True):
                self.assertEqual((min(costs.values()), costs[place]), (least, least))

    def test_places_of_routes_that_cost_no_more_are_kept(self):
        """Through edx in place of ecx the worked example costs as much; through memory more."""
        procedure = certificate.read(worked()).procedures[0]
        dual = Dual(Network(procedure), "size")
        kept = dual.within(procedure.prices, 4 * 1024)
        for number, (strand, route) in enumerate(zip(dual.network.strands, procedure.routes)):
            for layers in strand.stops():
                self.assertIn(route[layers[0] - strand.first], kept[number, layers[0]])
        self.assertEqual(kept[2, 3], [EAX])
        self.assertEqual(kept[0, 3], list(range(6)))
        self.assertNotIn(MEM, kept[2, 1])

    def test_a_value_is_rounded_up(self):
        self.assertEqual([whole(it) for it in (-5, 0, 1, 1024, 1025)], [0, 0, 1, 1, 2])

    def test_prices_are_kept_in_their_ranges(self):
        found = in_range(Prices({1: -3, 2: 1 << 50}, {0: -1}, {4: -(1 << 50), 5: 7}))
        wanted = Prices({1: 0, 2: 1 << 40}, {0: 0}, {4: -(1 << 40), 5: 7})
        self.assertEqual(found, wanted)

    def test_ties_have_a_number_for_each_place_but_that_of_constants(self):
        places = [it for it in range(14) if it != CONST]
        self.assertEqual([tie_index(1, it) for it in places], list(range(13, 26)))


def assignment(program, network, routes):
    """The values of a program's variables that routes are."""
    values, names = {}, set(program.variables())
    for number, (strand, route) in enumerate(zip(network.strands, routes, strict=True)):
        stops = list(strand.stops())
        for layers in stops:
            values[f"at_{number}_{layers[0]}_{route[layers[0] - strand.first]}"] = 1
        for layers in stops[:-1]:
            layer = layers[-1]
            origin, to = route[layer - strand.first : layer - strand.first + 2]
            name, hub = f"go_{number}_{layer}", "r" if origin < MEM else "b"
            ways = [f"{name}_{origin}_{to}"]
            if ways[0] not in names:
                ways = [f"{name}_{origin}_{hub}", f"{name}_{hub}_{to}"]
            values.update(dict.fromkeys(ways, 1))
    return values


def broken_rows(program, values):
    """The rows that values break, by the first word of their names."""
    for name, terms, relation, value in program.rows:
        total = sum(by * values.get(it, 0) for by, it in terms)
        if total > value or relation == "=" and total < value:
            yield name.split("_")[0]


class Programs(unittest.TestCase):
    def test_admitted_routes_keep_all_rows_and_cost_the_same(self):
        for procedure in (allocated(loop()), certificate.read(worked()).procedures[0]):
            network = Network(procedure)
            program = program_of(network, "size")
            values = assignment(program, network, procedure.routes)
            self.assertEqual(list(broken_rows(program, values)), [])
            cost = sum(by * values.get(name, 0) for name, by in program.costs.items())
            self.assertEqual(cost, procedure.total)
            self.assertEqual(routes_of(network, values), procedure.routes)

    def test_what_breaks_a_rule_breaks_its_row(self):
        network = Network(certificate.read(worked()).procedures[0])
        program = program_of(network, "size")
        for row, routes in {
            "cap": [[0, 0, 0, 1], [0, 0], [1, 1, 1, 0], [0, 0]],
            "mem": [[0, 1, 1, 6], [0, 6], [6, 6, 6, 0], [6, 6]],
            "tie": [[0, 1, 1, 1], [0, 0], [2, 1, 1, 0], [0, 0]],
        }.items():
            self.assertFalse(network.admits(routes))
            self.assertEqual(set(broken_rows(program, assignment(program, network, routes))), {row})

    def test_of_places_that_are_given_there_are_no_others(self):
        procedure = certificate.read(worked()).procedures[0]
        network = Network(procedure)
        places = Dual(network, "size").within(procedure.prices, 4 * 1024)
        program = program_of(network, "size", places)
        self.assertEqual(len(program.binaries), sum(map(len, places.values())))
        values = assignment(program, network, procedure.routes)
        self.assertEqual(list(broken_rows(program, values)), [])

    def test_the_text_has_each_row_and_no_long_lines(self):
        networks = [Network(loop()), Network(code([], [0, [], ["return"]]))]
        program = program_of_all(networks, "size")
        lines = list(program.text())
        self.assertLessEqual(max(map(len, lines)), 100)
        heads = [it.split(":")[0].strip() for it in lines if ":" in it]
        self.assertEqual(heads, ["cost", *(it[0] for it in program.rows)])
        self.assertEqual(lines[-1], "End")

    def test_where_nothing_is_to_be_placed_the_text_says_so(self):
        program = program_of(Network(code([], [0, [], ["return"]])), "size")
        wanted = ["Minimize", " cost: 0 none", "Subject To", " nothing: none = 0", "End"]
        self.assertEqual(list(program.text()), wanted)

    def test_registers_that_no_instruction_tells_apart_are_a_class(self):
        self.assertEqual(classes_of(Network(loop())), [[0], [1], [2], [3, 4, 5]])
        network = Network(certificate.read(worked()).procedures[0])
        self.assertEqual(classes_of(network), [[0], [1, 2, 3, 4, 5]])

    def test_answers_of_the_solver_are_read(self):
        text = "Optimal - objective value 4.00000000\n"
        text += "      0 cap_1_0  1  -2\n**    3 at_0_1_0  1  0\n"
        answer = cbc.read(text, {"at_0_1_0"})
        self.assertEqual((answer.is_optimal, answer.values), (True, {"at_0_1_0": 1.0}))
        self.assertEqual(answer.duals, {"cap_1_0": -2.0})
        self.assertFalse(cbc.read("Stopped on time - objective value 9\n", ()).is_settled)
        self.assertTrue(cbc.read("Infeasible - objective value 0\n", ()).is_settled)

    def test_nothing_settles_where_time_ran_out_but_the_best(self):
        for said, seconds, is_settled in (
            ("Infeasible", 60, True),
            ("Infeasible", 0.2, False),
            ("Optimal", 0.2, True),
        ):
            with self.subTest(said=said, seconds=seconds), solver_that_says(said):
                answer = cbc.solve(program_of(Network(loop()), "size"), seconds)
                self.assertEqual((answer.ended, answer.is_settled), (said, is_settled))


class Homes(unittest.TestCase):
    def test_all_are_at_home_where_the_network_admits_it(self):
        for procedure in (loop(), certificate.read(worked()).procedures[0]):
            network = Network(procedure)
            routes = home_routes(network)
            self.assertTrue(network.admits(routes))
            away = [it for route in routes for it in route if it not in (MEM, CONST)]
            self.assertLess(len(away), sum(map(len, routes)) / 2)

    def test_what_strands_pay_is_what_all_pay(self):
        network = Network(loop())
        routes = home_routes(network)
        total = sum(it for _, it in network.paid(routes, "speed").values())
        self.assertEqual(sum(network.paid_by_strand(routes, "speed")), total)


class Optima(unittest.TestCase):
    @needs_solver
    def test_the_worked_example_is_solved_from_home(self):
        procedure = allocated(certificate.read(worked()).procedures[0])
        self.assertGreater(procedure.total, 4)
        solved = solve(Network(procedure), "size", 60)
        self.assertEqual((solved.ending, procedure.total, procedure.bound), (PROVED, 4, 4))
        self.assertTrue(Network(procedure).admits(procedure.routes))

    @needs_solver
    def test_a_class_of_registers_gives_the_value_of_each(self):
        network = Network(loop())
        values = [
            sum(by * answer.values.get(name, 0) for name, by in program.costs.items())
            for program in (program_of(network, "speed"), relaxation_of(network, "speed"))
            for answer in [cbc.solve(program, 60, is_relaxed=True)]
        ]
        self.assertAlmostEqual(values[0], values[1], 4)

    @needs_solver
    @needs_compiler
    def test_a_module_is_solved_and_the_compiler_takes_it(self):
        out, notes = io.StringIO(), io.StringIO()
        words = [f"{TOP}/examples/ackermann.ob", "--compiler", PROGRAM]
        with redirect_stdout(out), redirect_stderr(notes):
            self.assertEqual(solve_script.main(words), 0)
        told = [it.strip() for it in page().splitlines()]
        for line in notes.getvalue().splitlines():
            self.assertIn(line, told)
        self.assertEqual(Compiler(PROGRAM).check(out.getvalue())[0], 0)


LASTING = """#!/bin/sh
echo $$ >"$(dirname "$0")/lasting"
exec sleep 60
"""


class Stops(unittest.TestCase):
    """A call of `solve` that is stopped while its solver is at work."""

    def test_the_solver_ends_with_it_however_it_ends(self):
        with tempfile.TemporaryDirectory(prefix="pra-solve-") as room:
            known = certificate.read(worked())
            known.procedures[0].prices = Prices()
            for name, text in (("cbc", LASTING), ("it.cert", certificate.write(known))):
                with open(f"{room}/{name}", "w", encoding="utf-8") as file:
                    file.write(text)
            os.chmod(f"{room}/cbc", 0o755)
            how = {"env": {**os.environ, "PATH": f"{room}:{os.environ['PATH']}", "TMPDIR": room}}
            how.update(stdout=subprocess.PIPE, stderr=subprocess.STDOUT, stdin=subprocess.DEVNULL)
            command = [sys.executable, f"{TOP}/scripts/solve.py", f"{room}/it.cert"]
            for number in (signal.SIGHUP, signal.SIGTERM, signal.SIGINT, signal.SIGKILL):
                with subprocess.Popen(command, **how) as it:
                    solver = needs.process_in(f"{room}/lasting")
                    it.send_signal(number)
                    said = it.communicate(timeout=60)[0].decode()
                self.assertEqual(said, "")
                wanted = -number if number == signal.SIGKILL else 128 + number
                self.assertEqual(it.returncode, wanted)
                self.assertTrue(needs.has_ended(solver), number)
                left = [it for it in os.listdir(room) if it.startswith("pra-cbc-")]
                self.assertEqual(len(left), number == signal.SIGKILL)


class Allocators(unittest.TestCase):
    def test_the_example_finds_routes_that_are_admitted_and_cost_less_than_home(self):
        for cost in ("size", "speed"):
            procedure = allocated(loop(), cost)
            self.assertTrue(Network(procedure).admits(procedure.routes))
        at_home = sum(it in (MEM, CONST) for route in procedure.routes for it in route)
        self.assertLess(at_home, sum(map(len, procedure.routes)) / 2)


class Words(unittest.TestCase):
    def test_words_that_are_none_end_with_the_usage(self):
        for main, words in (
            (network_script.main, []),
            (lp_script.main, ["a", "b"]),
            (network_script.main, ["a", "--cost", "both"]),
            (network_script.main, ["a", "--cots", "size"]),
            (solve_script.main, ["a", "b"]),
        ):
            notes = io.StringIO()
            with redirect_stderr(notes):
                self.assertEqual(main(words), 6, words)
            self.assertRegex(notes.getvalue(), r"\Afault words\nusage: pra ")

    def test_code_that_is_not_valid_is_told(self):
        """By all who take a certificate in the place of a module, with the rule."""
        for old, new, words in (
            ('"add",0,1', '"add",0,7', "names variable 7, of 2 \\(rule 2\\)"),
            ('"add",0,1', '"rol",0,1', "the name of an instruction is wanted"),
            ('"add",0,1', '"cmpset",10,0,1,1', "a condition is wanted"),
            ('"jump",1', '"jump",0', "leads to block 0, the entry, .*\\(rule 1\\)"),
            ('["read",1]', '["line"]', "variable 1 may be read before .*\\(rule 6\\)"),
            ('"total":4,', "", "the key total is missing"),
            ('"total":4,', '"total":4', "this is no JSON"),
        ):
            for main in (network_script.main, lp_script.main, solve_script.main):
                status, _, said = called(main, [], worked().replace(old, new))
                self.assertEqual(status, 3, new)
                self.assertRegex(said, words)

    def test_the_cost_of_a_call_goes_before_that_of_a_certificate(self):
        for words, cost, move in (
            ([], "size", 2),
            (["--cost", "size"], "size", 2),
            (["--cost", "speed"], "speed", 1),
        ):
            problem = json.loads(called(network_script.main, words, worked())[1])
            self.assertEqual((problem["cost"], problem["procs"][0]["moves"][0][1]), (cost, move))
        text = called(lp_script.main, ["--cost", "speed"], worked())[1]
        self.assertIn(" p0_go_0_2_r_1 ", text.partition("Subject To")[0])
        self.assertNotIn("2 p0_go_0_2", text.partition("Subject To")[0])

    @needs_solver
    def test_a_certificate_without_routes_is_solved(self):
        value = json.loads(worked())
        value["procs"][0] |= {"routes": [], "caps": [], "ties": [], "bound": 0, "total": 0}
        for words, cost in (([], 4), (["--cost", "speed"], 2)):
            status, out, _ = called(solve_script.main, words, json.dumps(value))
            procedure = certificate.read(out).procedures[0]
            self.assertEqual((status, procedure.total, procedure.bound), (0, cost, cost))
        status, out, _ = called(network_script.main, [], json.dumps(value))
        self.assertEqual(json.loads(out), json.loads(called(network_script.main, [], worked())[1]))

    def test_routes_that_are_not_admitted_are_told(self):
        text = worked().replace("[0,0],[1,1,1,0]", "[0,0],[2,1,1,0]")
        status, _, said = called(solve_script.main, [], text)
        self.assertEqual(status, 3)
        self.assertIn("enters its block at 2 (edx) (rule 4, ties)", said)

    def test_a_certificate_stands_for_its_module(self):
        status, out, _ = called(network_script.main, [], worked())
        self.assertEqual(status, 0)
        problem = json.loads(out)["procs"][0]
        masks = [list(map(list, map(bits, it["masks"]))) for it in problem["strands"]]
        self.assertEqual(masks[2][3], [EAX, EAX_M])


if __name__ == "__main__":
    unittest.main()
