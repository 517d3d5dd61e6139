"""Tests of front ends that write code files, of the machine in Python, and of what is drawn."""

import contextlib
import glob
import io
import json
import os
import re
import subprocess
import sys
import tempfile
import unittest
from unittest import mock

import compare_codes
import needs
import random_codes
from checker import code, form
from pranet import certificate
from pranet.home import home_routes
from pranet.network import Network
from processor.image import image_of
from selected import file as code_file
from selected import interp, machine

sys.path.insert(0, compare_codes.FRONTEND)

import meaning  # noqa: E402
import random_programs  # noqa: E402
import subset  # noqa: E402

FRONTEND = compare_codes.FRONTEND
PROGRAMS = sorted(glob.glob(f"{FRONTEND}/programs/*.py"))
UNKNOWN = "the compiler does not know --from code, or there is none: ./pra build, or PRA=PROGRAM"
SUM_OF_SQUARES = """n = read
total = 0
while n > 0:
    total = total + n * n
    n = n - 1
print(total)
"""


def from_code(test):
    """Leaves a test out while there is no compiler that takes code files."""
    is_known = needs.program() and compare_codes.knows_code(needs.program())
    return unittest.skipUnless(is_known, UNKNOWN)(test)


def text_of(name):
    with open(name, encoding="utf-8") as text:
        return text.read()


def code_of(*instructions, kinds=(["plain"],) * 4, data_words=2, **others):
    """The value of a code file of one procedure of one block."""
    blocks = [[0, list(instructions), ["return"]]]
    procedure = {"args": 0, "aggregates": 0, "vars": list(kinds), "blocks": blocks, "name": "P"}
    return code_file.value_of(data_words, [procedure | others])


def run(value, numbers=(), is_checked=True, frames=None):
    """What a code file's value comes to; the rules are not asked of one that is not checked."""
    if is_checked:
        return machine.run(code_file.file_of(value), numbers, frames)
    procedures = [certificate.code_of(it, at) for at, it in enumerate(value["procs"])]
    names = [it["name"] for it in value["procs"]]
    return machine.run(code_file.CodeFile(value["data_words"], names, procedures), numbers)


class Tiny(unittest.TestCase):
    def compile(self, text):
        command = [sys.executable, f"{FRONTEND}/tiny.py"]
        return subprocess.run(command, input=text, capture_output=True, text=True, check=False)

    def test_a_sum(self):
        made = self.compile(SUM_OF_SQUARES).stdout
        file = code_file.read(made.encode())
        self.assertEqual(made, code_file.text_of(json.loads(made)))
        came_to = machine.run(file, [100])
        self.assertEqual((came_to.out, came_to.ending), (" 338350\n", "ended"))

    def test_a_name_without_a_value_is_0_and_may_be_given_its_own(self):
        text = "x = x\nwhile x < 2:\n    y = 7\n    x = x + 1\nprint(y - 3 * (x - 5))\n"
        made = code_file.read(self.compile(text).stdout.encode())
        self.assertEqual(machine.run(made).out, " 16\n")

    def test_errors(self):
        for text, words in (
            ("x = 1\ny = x / 2\n", "line 2: this is no sum"),
            ("if x < 1:\n    y = 2\n", "line 1: this is no statement"),
            ("x = 2147483648\n", "line 1: this is no sum"),
        ):
            self.assertEqual(self.compile(text).stderr.strip(), words)

    def test_it_is_short(self):
        self.assertLessEqual(len(text_of(f"{FRONTEND}/tiny.py").splitlines()), 80)


ERRORS = (
    ('x = "a"', 1, "no number"),
    ("import os", 1, "not in the subset"),
    ("x = 1\nprint(x, y)", 2, "`y` may have no value"),
    ("if int(input()):\n    z = 1\nprint(z)", 3, "`z` may have no value"),
    ("for i in range(3):\n    z = i\nprint(z)", 3, "`z` may have no value"),
    ("def f(n):\n    if n:\n        return 1\nprint(f(0))", 1, "may end without a value"),
    ("def f(n):\n    if n:\n        return\n    return 1\nf(0)", 3, "may end without a value"),
    ("def f(n):\n    print(n)\nx = f(1)", 3, "no number"),
    ("def f(n):\n    return n\nf()", 3, "takes other arguments"),
    ("def f(a: list):\n    a[0] = 1\nf(3)", 3, "`3` may have no value here, or is no list"),
    ("def f(*a):\n    pass", 1, "parameters are names alone"),
    ("def f():\n    pass\ndef f():\n    pass", 3, "before this one"),
    ("def print(n):\n    pass", 1, "before this one"),
    ("a = [1, 2]\nb = a", 2, "no number"),
    ("a = [1, 2]\na = [1]", 2, "one length"),
    ("a = [0] * int(input())", 1, "one length"),
    ("N = 5\nN = 6", 2, "a constant"),
    ("N = 5\nfor N in range(2):\n    pass", 2, "`N` is a function or a constant"),
    ("N = 5\ndef f(N):\n    pass", 2, "`N` is a function or a constant"),
    ("x = 1 < 2 < 3", 1, "two numbers are compared"),
    ("x = 1 / 2", 1, "not in the subset"),
    ("x = int(input()) and 6", 1, "not in the subset"),
    ("for i in range(1, 2, 0):\n    pass", 1, "is known and not 0"),
    ("for i in [1, 2]:\n    pass", 1, "not in the subset"),
    ("while 1:\n    pass\nelse:\n    pass", 1, "not in the subset"),
    ("print(1, end='')", 1, "not in the subset"),
    ("def f():\n    a = [0] * 70000\nf()", 1, "70000 words of its own"),
    ("a = [0] * 5000000", 1, "5000001 words of data"),
)


class Subset(unittest.TestCase):
    def test_programs_write_what_python_writes(self):
        self.assertEqual(len(PROGRAMS), 10)
        for name in PROGRAMS:
            with self.subTest(name=os.path.basename(name)):
                case = compare_codes.own_program(name)
                wanted = text_of(name.removesuffix(".py") + ".out")
                by_python = meaning.Run(case.program, case.numbers)
                self.assertEqual(("".join(by_python.out), by_python.ending), (wanted, "ended"))
                came_to = machine.run(code_file.read(case.text.encode()), case.numbers)
                self.assertEqual((came_to.out, came_to.ending), (wanted, "ended"))
                self.assertEqual(came_to.taken, by_python.taken)

    def test_errors(self):
        for text, line, words in ERRORS:
            with self.subTest(text=text), tempfile.TemporaryDirectory() as room:
                with open(f"{room}/it.py", "w", encoding="utf-8") as file:
                    file.write(text)
                told = subset.main([f"{room}/it.py"])
                self.assertTrue(told.startswith(f"{room}/it.py:{line}: "), told)
                self.assertIn(words, told)

    def test_what_is_no_python(self):
        with tempfile.NamedTemporaryFile("w", suffix=".py") as file:
            file.write("x = 1\nreturn x\n")
            file.flush()
            told = subset.main([file.name])
        self.assertEqual(told, f"{file.name}:2: 'return' outside function")

    def both(self, text, numbers=()):
        """What a program writes and how it ends, by Python and by its code."""
        by_python = meaning.Run(text, numbers)
        came_to = machine.run(code_file.read(subset.compiled(text, "it").encode()), numbers)
        found = came_to.out, came_to.ending, came_to.taken
        self.assertEqual(("".join(by_python.out), by_python.ending, by_python.taken), found)
        return found[:2]

    def test_division_is_python_s(self):
        edges = (-(2**31), -(2**31) + 1, -7, -1, 0, 1, 2, 7, 2**31 - 1)
        text = "a = int(input())\nb = int(input())\nprint(a // b, a % b)\n"
        for a in edges:
            for b in edges:
                self.both(text, [a, b])
        text = "".join(f"print(x // {b}, x % {b})\n" for b in edges if b)
        for a in edges:
            self.both(f"x = int(input())\n{text}", [a])

    def test_traps(self):
        for text, numbers, ending in (
            ("a = [1, 2]\nprint(a[int(input())])", [2], "trap Index"),
            ("a = [1, 2]\nprint(a[int(input())])", [-1], "trap Index"),
            ("def f(a: list, i):\n    a[i] = 1\nb = [1, 2]\nf(b, int(input()))", [2], "trap Index"),
            ("def f(a: list, i):\n    a[i] = 1\nb = [1, 2]\nf(b, int(input()))", [1], "ended"),
            ("a = [1, 2]\na[5] = 1", [], "trap Index"),
            ("print(1 // int(input()))", [0], "trap Divide"),
            ("print(1 % int(input()))", [0], "trap Divide"),
            ("print(int(input()))", [], "trap Input"),
            ("def f(n):\n    return f(n + 1)\nprint(f(0))", [], "trap Stack"),
        ):
            with self.subTest(text=text):
                self.assertEqual(self.both(text, numbers)[1], ending)

    def test_ranges_go_as_far_as_numbers(self):
        for bounds in (
            "2147483640, 2147483647, 3",
            "-2147483640, -2147483648, -7",
            "0, 2147483647, 1073741824",
            "0, -2147483648, -2147483648",
            "5, 5",
            "3",
            "-2",
            "9, -1, -4",
        ):
            self.both(f"for i in range({bounds}):\n    print(i)\n")

    def test_the_same_seed_draws_the_same_program(self):
        one, other = random_programs.Program(5), random_programs.Program(5)
        self.assertEqual(one.text, other.text)
        self.assertNotEqual(one.text, random_programs.Program(6).text)

    def test_random_programs_are_in_the_subset_and_do_what_python_does(self):
        comparison = compare_codes.Comparison(None, None, None, 0)
        with contextlib.redirect_stdout(io.StringIO()):
            for seed in range(1, 13):
                comparison.compare(seed, compare_codes.random_program(seed))
        self.assertEqual(comparison.differences, [])
        self.assertEqual(comparison.counts["runs by Python"], 12)

    def test_it_is_short(self):
        self.assertLessEqual(len(text_of(f"{FRONTEND}/subset.py").splitlines()), 300)

    def test_a_node_that_is_refused_has_words(self):
        with self.assertRaises(SyntaxError):
            subset.compiled("lambda: 1", "it")


FORMS = (
    ({"data_words": 4194305}, "data_words"),
    ({"kind": "pra-certificate"}, "kind"),
    ({"version": 2}, "version"),
    ({"procs": []}, "procs"),
    ({"more": 1}, "more"),
    ({"procs": [code_of()["procs"][0] | {"name": "1a"}]}, "procedure 0, name"),
    ({"procs": [code_of()["procs"][0] | {"name": "a" * 256}]}, "procedure 0, name"),
    ({"procs": [code_of()["procs"][0] | {"name": "a_b"}]}, "procedure 0, name"),
    ({"procs": [code_of()["procs"][0] | {"args": 1}]}, "procedure 0"),
    ({"procs": [code_of()["procs"][0] | {"routes": []}]}, "routes"),
)


class Files(unittest.TestCase):
    def test_what_is_no_code_file(self):
        for change, words in FORMS:
            with self.assertRaises(code_file.NoCode) as told:
                code_file.file_of(code_of() | change)
            self.assertIn(words, str(told.exception))
        with self.assertRaises(code_file.NoCode):
            code_file.read(b"{")

    def test_rules_are_asked(self):
        for instructions, rule in (
            ((["write", 0],), "rule 6"),
            ((["set", 0, 1], ["push", 0]), "rule 7"),
            ((["set", 9, 1],), "rule 2"),
            ((["clear"],), "rule 8"),
            ((["set", 0, 1], ["copy", 0, 0]), "rule 4"),
        ):
            with self.assertRaises(code_file.NoCode) as told:
                code_file.file_of(code_of(*instructions))
            self.assertIn(rule, str(told.exception))

    def test_a_name_has_up_to_255_letters_and_digits(self):
        value = code_of(name="a" + "7" * 254)
        self.assertEqual(code_file.file_of(value).names, ["a" + "7" * 254])

    def test_the_one_text(self):
        text = code_file.text_of(code_of(["set", 0, 1]))
        wanted = '{"data_words":2,"kind":"pra-code","procs":[{"aggregates":0,"args":0,"blocks":[[0,'
        self.assertTrue(text.startswith(wanted) and text.endswith('"version":1}\n'), text)


AT = ["addr", 0, ["global", 0, 0, None]]
ONE = ["set", 1, 1]
# What is stuck, by its last instruction, and why.
STUCK = (
    ("address", AT, ONE, ["add", 0, 1]),
    ("address", AT, ONE, ["mul", 1, 0]),
    ("address", AT, ["neg", 0]),
    ("address", AT, ["shl", 0, 1]),
    ("address", AT, ["write", 0]),
    ("address", AT, ["check", 0, 5]),
    ("address", AT, ["checkpos", 0]),
    ("address", AT, ONE, ["cmpset", 4, 2, 0, 1]),
    ("address", AT, ["load", 1, ["global", 0, 0, 0]]),
    ("address", AT, ["store", ["global", 0, 0, None], 0]),
    ("address", AT, ONE, ["divmod", 2, 3, 1, 0]),
    ("address", AT, ["set", 1, 0], ["divmod", 2, 3, 0, 1]),
    ("access", ONE, ["load", 0, ["via", 1, 0, None]]),
    ("access", ONE, ["addr", 0, ["via", 1, 0, None]]),
    ("access", AT, ONE, ["load", 2, ["via", 1, 0, 0]]),
    ("access", ["load", 0, ["global", 2, 0, None]]),
    ("access", ["load", 0, ["global", 0, -4, None]]),
    ("access", ["load", 0, ["global", 0, 2, None]]),
    ("access", ["load", 0, ["frame", 0, 0, None]]),
    ("access", ONE, ["store", ["global", 1, 4, None], 1]),
    ("access", ONE, ["store", ["global", 0, 1, None], 1]),
    ("divide", ONE, ["set", 0, 0], ["divmod", 2, 3, 1, 0]),
    ("divide", ONE, ["set", 0, -1], ["divmod", 2, 3, 1, 0]),
)
# What a valid code never comes to: it is tried without its rules.
NOTHING = (
    (["write", 0],),
    (AT, ["add", 0, 1]),
    (ONE, ["load", 2, ["via", 1, 0, 3]]),
    (["copy", 0, 1],),
)
# Instructions behind which variable 0 is written, and what that is.
VALUES = (
    ((["set", 0, -(2**31)], ["neg", 0]), -(2**31)),
    ((["set", 0, -3], ["shl", 0, 30]), 2**30),
    ((["set", 0, -9], ["shr", 0, 1]), 2**31 - 5),
    ((["set", 0, -9], ["sar", 0, 1]), -5),
    ((["set", 0, -1], ["sar", 0, 31]), -1),
    ((["set", 0, -1], ["shr", 0, 31]), 1),
    ((["set", 0, 2**31 - 1], ["set", 1, 1], ["add", 0, 1]), -(2**31)),
    ((["set", 0, -(2**31)], ["set", 1, 1], ["sub", 0, 1]), 2**31 - 1),
    ((["set", 0, 65537], ["mul", 0, 0]), 131073),
    ((["set", 0, 12], ["set", 1, 10], ["and", 0, 1]), 8),
    ((["set", 0, 12], ["set", 1, 10], ["or", 0, 1]), 14),
    ((["set", 0, 12], ["set", 1, 10], ["xor", 0, 1]), 6),
    ((["set", 1, -7], ["set", 2, 2], ["divmod", 0, 3, 1, 2]), -3),
    ((["set", 1, -7], ["set", 2, 2], ["divmod", 3, 0, 1, 2]), -1),
    ((["set", 1, 7], ["store", ["global", 1, 0, None], 1], ["load", 0, ["global", 0, 4, None]]), 7),
    ((["set", 1, 2**30], ["load", 0, ["global", 0, 0, 1]]), 0),  # the fourfold wraps
    ((["addr", 1, ["global", 0, 400, None]], ["load", 0, ["via", 1, -400, None]]), 0),
    ((["load", 0, ["global", 2**31, 0, None]],), 0),
)
SIGNS = {2: 0, 3: 1, 4: 0, 5: 1, 6: 0, 7: 1, 8: 1, 9: 0, 12: 1, 13: 0, 14: 1, 15: 0}


class Meaning(unittest.TestCase):
    def test_what_is_stuck(self):
        for kind, *instructions in STUCK:
            with self.subTest(instructions=instructions):
                at, steps = len(instructions) - 1, len(instructions)
                wanted = f"stuck {kind} procedure 0 block 0 instruction {at} steps {steps} reads 0"
                self.assertEqual(run(code_of(*instructions)).line(), wanted)

    def test_what_reads_nothing_keeps_no_rules(self):
        for instructions in NOTHING:
            with self.assertRaises(code_file.NoCode):
                code_file.file_of(code_of(*instructions))
            ending = run(code_of(*instructions), is_checked=False).ending
            at = len(instructions) - 1
            self.assertEqual(ending, f"stuck nothing procedure 0 block 0 instruction {at}")

    def test_values(self):
        for instructions, number in VALUES:
            with self.subTest(instructions=instructions):
                came_to = run(code_of(*instructions, ["write", 0]))
                self.assertEqual((came_to.out, came_to.ending), (f" {number}", "ended"))

    def test_conditions(self):
        """-1 beside 1: without a sign it is above, and with one less."""
        for condition, holds in SIGNS.items():
            compared = ["cmpset", condition, 2, 0, 1]
            value = code_of(["set", 0, -1], ["set", 1, 1], compared, ["write", 2])
            self.assertEqual(run(value).out, f" {holds}")

    def test_traps(self):
        for kind, *instructions in (
            ("Index", ["set", 0, 3], ["check", 0, 3]),
            ("Index", ["set", 0, -1], ["check", 0, 3]),
            ("Divide", ["set", 0, 0], ["checkpos", 0]),
            ("Input", ["read", 0]),
        ):
            wanted = f"trap {kind} steps {len(instructions)} reads 0"
            self.assertEqual(run(code_of(*instructions)).line(), wanted)

    def test_a_call_whose_frame_does_not_fit_traps(self):
        value = code_of(["call", 1])
        again = code_of(["call", 1], name="Q")["procs"][0]
        value["procs"].append(again)
        came_to = run(value, frames=[576, 524000])
        self.assertEqual(came_to.line(), "trap Stack steps 3 reads 0")
        self.assertEqual(run(value, frames=[577, 524000]).line(), "trap Stack steps 2 reads 0")

    def test_arguments_and_their_cells(self):
        kinds = [["param", 1], ["plain"]]
        callee = code_of(
            *(["write", 0], ["load", 1, ["cell", 0, 0, None]], ["write", 1]),
            *(["set", 1, 9], ["store", ["cell", 0, 0, None], 1]),
            *(["load", 1, ["cell", 0, 0, None]], ["write", 1]),
            kinds=kinds,
            args=2,
        )["procs"][0]
        value = code_of(["set", 0, 5], ["set", 1, 6], ["push", 0], ["push", 1], ["call", 1])
        value["procs"].append(callee)
        self.assertEqual(run(value).out, " 6 5 9")
        loaded = code_of(["load", 1, ["cell", 0, 0, None]], kinds=kinds, args=2)["procs"][0]
        value = code_of(AT, ["push", 0], ["push", 0], ["call", 1])
        value["procs"].append(loaded)
        wanted = "stuck address procedure 1 block 0 instruction 0 steps 5 reads 0"
        self.assertEqual(run(value).line(), wanted)

    def test_aggregates_are_0_in_each_call(self):
        word = ["frame", 1, 0, None]
        callee = code_of(
            *(["clear"], ["load", 0, word], ["write", 0], ["set", 0, 7], ["store", word, 0]),
            aggregates=2,
        )["procs"][0]
        value = code_of(["call", 1], ["call", 1])
        value["procs"].append(callee)
        self.assertEqual(run(value).out, " 0 0")

    def test_the_command(self):
        with tempfile.NamedTemporaryFile("w", suffix=".code") as file:
            file.write(code_file.text_of(code_of(["read", 0], ["write", 0], ["line"])))
            file.flush()
            command = [sys.executable, "-m", "selected.interp", file.name]
            how = {"capture_output": True, "text": True, "cwd": os.path.dirname(__file__)}
            ran = subprocess.run(command, input="7\n", check=False, **how)
            self.assertEqual((ran.stdout, ran.stderr), (" 7\n", "ended steps 4 reads 1\n"))
            with contextlib.redirect_stderr(io.StringIO()):
                file.write("x")
                file.flush()
                self.assertEqual(interp.main([file.name]), 3)


class Random(unittest.TestCase):
    def test_the_same_seed_draws_the_same_code(self):
        self.assertEqual(random_codes.Code(3).text, random_codes.Code(3).text)
        self.assertNotEqual(random_codes.Code(3).text, random_codes.Code(4).text)

    def test_codes_keep_all_rules_and_come_to_each_end(self):
        ends = set()
        for seed in range(90):
            drawn = random_codes.Code(seed)
            came_to = machine.run(code_file.read(drawn.text.encode()), drawn.numbers, None, 20000)
            ends.add(" ".join(came_to.ending.split()[:2]))
        stuck = {f"stuck {it}" for it in ("address", "access", "divide")}
        traps = {f"trap {it}" for it in ("Index", "Divide", "Input", "Stack")}
        self.assertLessEqual(stuck | traps | {"ended"}, ends)

    @needs.compiler
    def test_the_compiler_finds_their_rules_kept_too(self):
        """As the code of a certificate with all variables at home."""
        for seed in range(6):
            file = code_file.read(random_codes.Code(seed).text.encode())
            for procedure in file.procedures:
                network = Network(procedure)
                procedure.routes = home_routes(network)
                paid = network.paid(procedure.routes, "size").values()
                procedure.total = sum(total for _, total in paid)
            with tempfile.NamedTemporaryFile("w", suffix=".cert") as text:
                text.write(certificate.write(certificate.Certificate("size", file.procedures)))
                text.flush()
                command = [needs.program(), "check", text.name]
                told = subprocess.run(command, capture_output=True, text=True, check=False).stdout
            self.assertEqual(told.splitlines()[-1], "certificate holds", f"seed {seed}")

    @needs.compiler
    def test_the_machine_does_with_code_of_modules_what_their_images_do(self):
        for name, text in (("sort", "3 1 2 5 4 9 8 7 6 0"), ("magic", "3"), ("matrix", "")):
            file = f"{compare_codes.TOP}/examples/{name}.ob"
            with tempfile.TemporaryDirectory() as room:
                words = ["--rounds", "1", "--image", f"{room}/it.pri"]
                command = [needs.program(), "run", file, *words]
                how = {"capture_output": True, "text": True, "check": False}
                ran = subprocess.run(command, input=text, **how)
                with open(f"{room}/it.pri", "rb") as made:
                    data_words = image_of(made.read()).data_words
            command = [needs.program(), "cert", file, "--rounds", "0"]
            held = subprocess.run(command, **how).stdout
            names, frames = zip(*re.findall(r"procedure \d+ (\w+) frame (\d+)", ran.stderr))
            file = code_file.CodeFile(data_words, names, certificate.read(held).procedures)
            came_to = machine.run(file, map(int, text.split()), [*map(int, frames)])
            ending = re.sub(" steps .* reads", " reads", ran.stderr.splitlines()[-1])
            self.assertEqual(came_to.out, ran.stdout)
            self.assertEqual(f"{came_to.ending} reads {came_to.taken}", ending)


class Compared(unittest.TestCase):
    """What the compiler does with code files, beside the machine in Python."""

    def compared(self, cases, native=0):
        said = io.StringIO()
        with tempfile.TemporaryDirectory() as room, contextlib.redirect_stdout(said):
            with compare_codes.Builder() if native else contextlib.nullcontext() as builder:
                it = compare_codes.Comparison(needs.program(), builder, room, native)
                for number, case in enumerate(cases):
                    it.compare(number, case)
        self.assertEqual(it.differences, [])
        return it.counts

    @from_code
    def test_programs(self):
        counts = self.compared(map(compare_codes.own_program, PROGRAMS))
        self.assertEqual(counts["runs of images"], 10)

    @from_code
    def test_random_codes(self):
        counts = self.compared(map(compare_codes.random_code, range(20)))
        self.assertEqual(counts["runs by interp"], 20)

    @from_code
    @needs.gcc_32
    def test_on_the_processor(self):
        counts = self.compared(map(compare_codes.random_code, range(6)), native=1)
        self.assertGreater(counts["runs on the processor"], 2)

    def by_stand_in(self, *seeds, **answers):
        """The comparison with a function in the place of a compiler; some of its answers are
        given. What it runs is the machine in Python."""

        def call(command, text):
            mode, name = command[1], command[2].replace("it.pri", "it.code")
            with open(name if mode == "exec" else command[4], "rb") as held:
                file = code_file.read(held.read())
            frames = file.least_frames()
            if mode == "compile":
                lines = [f"procedure 0 {name} frame {it}" for name, it in zip(file.names, frames)]
                return answers.get(mode, compare_codes.Outcome(0, "\n".join(lines).encode(), ""))
            came_to = machine.run(file, map(int, text.split()), frames, 300000)
            status = {"ended": 0, "going": 2}.get(came_to.ending, 1)
            told = compare_codes.Outcome(status, came_to.out.encode(), came_to.line())
            return told._replace(**answers.get(mode, {}))

        with tempfile.TemporaryDirectory() as room, contextlib.redirect_stdout(io.StringIO()):
            with mock.patch.object(compare_codes, "outcome_of", call):
                self.assertTrue(compare_codes.knows_code("pra"))
                it = compare_codes.Comparison("pra", None, room, 0)
                for seed in seeds:
                    it.compare(seed, compare_codes.random_code(seed))
        return it

    def test_the_comparison_itself(self):
        same = self.by_stand_in(0, 1, 2)
        self.assertEqual((same.differences, same.counts["runs of images"]), ([], 3))
        frames = "\n".join(["procedure 0 P frame 700000"] * 10).encode()
        for answers, words in (
            ({"exec": {"out": b" 7"}}, "or other output"),
            ({"exec": {"line": "machine access steps 1 reads 0"}}, "exec 'machine access"),
            ({"interp": {"status": 70}}, "interp "),
            ({"compile": compare_codes.Outcome(0, frames, "")}, "trap Stack"),
            ({"compile": compare_codes.Outcome(3, b"", "fault code")}, "compile says 'fault code'"),
        ):
            found = self.by_stand_in(2, **answers)
            self.assertIn(words, str(found.differences), answers)

    def test_differences_are_told(self):
        case = compare_codes.random_program(1)
        case.text = case.text.replace('["add",', '["sub",')
        said = io.StringIO()
        with contextlib.redirect_stdout(said):
            it = compare_codes.Comparison(None, None, None, 0)
            it.compare(0, case)
            it.compare(0, compare_codes.Case("broken", "{}", []))
        self.assertEqual(len(it.differences), 2)
        self.assertIn("random_programs.py 1: Python ", said.getvalue())

    def test_what_an_image_has_to_come_to(self):
        is_as_meant = compare_codes.Comparison.is_as_meant
        for line, out, meant, wanted in (
            ("ended steps 9 reads 1", " 1 2", ("ended", " 1 2", 5, 1), True),
            ("ended steps 9 reads 1", " 1 3", ("ended", " 1 2", 5, 1), False),
            ("ended steps 9 reads 2", " 1 2", ("ended", " 1 2", 5, 1), False),
            ("trap Index steps 9 reads 1", " 1", ("trap Divide", " 1", 5, 1), False),
            ("machine access steps 9 reads 1", " 1 2", ("stuck access ..", " 1", 5, 1), True),
            ("machine access steps 9 reads 0", " 1 2", ("stuck access ..", " 1", 5, 1), False),
            ("ended steps 9 reads 1", " 2", ("stuck access ..", " 1", 5, 1), False),
            ("going steps 9 reads 1", " 1", ("going", " 1 2", 5, 1), True),
        ):
            found = compare_codes.LINE.match(line)
            self.assertEqual(is_as_meant(out, found, machine.Outcome(*meant)), wanted, line)


if __name__ == "__main__":
    unittest.main()
