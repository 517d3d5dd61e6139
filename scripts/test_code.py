"""Tests of code files: their text, their rules, and the words that take them.

    [PRA=PROGRAM] python3 -m unittest test_code

What a program has to do with a code file is left out where it does not know --from.
"""

import contextlib
import glob
import io
import json
import os
import random
import subprocess
import sys
import tempfile
import unittest
from unittest import mock

import code_files
import explain
import grade
import lp
import modules_as_code
import native
import needs
import network
import reasons
import report_value
import show
import solve
import stuck
from checker import form, given, vectors
from picture import facts
from pranet import certificate, code_file, code_reader, code_text, compiler
from pranet.compiler import with_source
from pranet.network import Network
from processor.image import Image

HAND = """; sums what is read up to 0
data words 2

procedure 0 Main
variables n, sum
block 0
  [data 1] := 0  ; what was summed
  go on with block 1
block 1, 1 loop
  n := read
  compare n, 0
  if = go on with block 3, else with block 2
block 2, 1 loop
  sum := [data 1]
  sum := sum + n
  [data 1] := sum
  go on with block 1
block 3
  n := [data 1]
  push n
  push -7
  call procedure 1
  return

procedure 1 Out, 2 arguments, 3 aggregate words
variables x = argument 0, y, four = 4, z, rest
block 0
  clear the frame
  y := [argument 1]
  [frame 2 - 4] := x
  check 0 <= y < 5
  check x > 0
  y := y - -1
  y := -y
  y := y sar 3
  z := x >= 4
  z := x ae y
  z, rest := y divided by x
  z := address frame 0 + 4*x + 8
  y := [z + 4*x]
  write y
  write a line
  return
"""
CODE = {
    "data_words": 2,
    "kind": "pra-code",
    "procs": [
        {
            "aggregates": 0,
            "args": 0,
            "blocks": [
                [0, [["store", ["global", 1, 0, None], 2]], ["jump", 1]],
                [1, [["read", 0], ["cmp", 0, 2]], ["branch", 4, 3, 2]],
                [
                    1,
                    [
                        ["load", 1, ["global", 1, 0, None]],
                        ["add", 1, 0],
                        ["store", ["global", 1, 0, None], 1],
                    ],
                    ["jump", 1],
                ],
                [
                    0,
                    [["load", 0, ["global", 1, 0, None]], ["push", 0], ["push", 3], ["call", 1]],
                    ["return"],
                ],
            ],
            "name": "Main",
            "vars": [["plain"], ["plain"], ["constant", 0], ["constant", -7]],
        },
        {
            "aggregates": 3,
            "args": 2,
            "blocks": [
                [
                    0,
                    [
                        ["clear"],
                        ["load", 1, ["cell", 1, 0, None]],
                        ["store", ["frame", 2, -4, None], 0],
                        ["check", 1, 5],
                        ["checkpos", 0],
                        ["sub", 1, 5],
                        ["neg", 1],
                        ["sar", 1, 3],
                        ["cmpset", 13, 3, 0, 2],
                        ["cmpset", 3, 3, 0, 1],
                        ["divmod", 3, 4, 1, 0],
                        ["addr", 3, ["frame", 0, 8, 0]],
                        ["load", 1, ["via", 3, 0, 0]],
                        ["write", 1],
                        ["line"],
                    ],
                    ["return"],
                ]
            ],
            "name": "Out",
            "vars": [["param", 0], ["plain"], ["constant", 4], ["plain"], ["plain"]]
            + [["constant", -1]],
        },
    ],
    "version": 1,
}
LOOP = "if = go on with block 0, else with block 1"
NUMBERS = (0, 1, -1, 7, 7, 127, 128, -129, 2147483647, -2147483648)


def text_of(value):
    """The text of a value, as code files are written."""
    return vectors.text_of(value).decode()


def code_of(value):
    """The code file of a value, tested."""
    return given.code_of("x", vectors.text_of(value))


def plain(*code, variables=(), **others):
    """A code file of one procedure with one block."""
    procedure = {"args": 0, "aggregates": 0, "name": "M", "vars": [list(it) for it in variables]}
    procedure |= {"blocks": [[0, list(code), ["return"]]]} | others
    return {"data_words": 0, "kind": "pra-code", "procs": [procedure], "version": 1}


def of_certificate(value):
    """The same of a certificate's value, with names."""
    procedures = [
        {key: it[key] for key in form.CODE_KEYS} | {"name": "P"} for it in value["procs"]
    ]
    return {"data_words": 0, "kind": "pra-code", "procs": procedures, "version": 1}


# ---- random code that keeps all rules


class Chance:
    """Makes one procedure of code that keeps all rules, by chance."""

    def __init__(self, chance, args, counts):
        self.chance, self.args, self.counts = chance, args, counts
        arguments = [it for it in range(args) if chance.random() < 0.7]
        kinds = [["param", it] for it in arguments] + [["plain"]] * chance.randint(3, 9)
        kinds += [["constant", chance.choice(NUMBERS)] for _ in range(chance.randint(1, 12))]
        chance.shuffle(kinds)
        self.kinds = kinds
        plain_ones = [v for v, it in enumerate(kinds) if it[0] == "plain"]
        self.dividend, *self.plain = plain_ones  # nothing but divisions reads the first one
        self.set = self.plain + [v for v, it in enumerate(kinds) if it[0] == "param"]
        self.any = [v for v in range(len(kinds)) if v != self.dividend]
        self.cells = [it for it in range(args) if it not in arguments]

    def address(self):
        bases = ["global", "frame", "via"] + ["cell"] * bool(self.cells)
        base = self.chance.choice(bases)
        number = self.chance.randint(0, 9)
        number = self.chance.choice(self.cells) if base == "cell" else number
        number = self.chance.choice(self.any) if base == "via" else number
        index = self.chance.choice([None, self.chance.choice(self.any)])
        return [base, number, self.chance.choice((0, 4, -8, 1 << 30, -(1 << 31))), index]

    def target(self, *read):
        """A variable that may be written where these are read, or None."""
        free = [v for v in self.set if v not in read]
        return self.chance.choice(free) if free else None

    def instructions(self):
        """One instruction, or a few that belong together."""
        choice, any_of = self.chance.choice, lambda: self.chance.choice(self.any)
        a, b, v = any_of(), any_of(), choice(self.set)
        kind = choice(list(form.INSTRUCTIONS))
        if kind in ("set", "check"):
            return [[kind, v, choice(NUMBERS) if kind == "set" else choice((0, 5, 2147483647))]]
        if kind in ("add", "sub", "and", "or", "xor", "mul"):
            return [[kind, v, a]]
        if kind in ("shl", "shr", "sar"):
            return [[kind, v, choice((1, 2, 7, 31))]]
        if kind in ("neg", "read"):
            return [[kind, v]]
        if kind in ("checkpos", "write"):
            return [[kind, a]]
        if kind in ("cmp", "line"):
            return [[kind, a, b]] if kind == "cmp" else [[kind]]
        if kind == "store":
            return [[kind, self.address(), a]]
        if kind in ("push", "call"):
            callee = self.chance.randrange(len(self.counts))
            return [["push", any_of()] for _ in range(self.counts[callee])] + [["call", callee]]
        return self.with_target(kind, a, b)

    def with_target(self, kind, a, b):
        """One that writes what it does not read."""
        if kind in ("load", "addr"):
            it = self.address()
            target = self.target(it[3], *(it[1:2] if it[0] == "via" else []))
            return [[kind, target, it]] if target is not None else []
        if kind == "copy":
            target, source = self.target(), self.chance.choice(self.set)
            return [[kind, target, source]] if target != source else []
        if kind == "cmpset":
            target = self.target(a, b)
            condition = self.chance.choice(form.CONDITIONS)
            return [[kind, condition, target, a, b]] if target is not None else []
        if kind == "divmod":
            quotient = self.target(a)
            rest = self.target(a, quotient)
            fresh = ["set", self.dividend, self.chance.choice(NUMBERS)]
            return [fresh, [kind, quotient, rest, self.dividend, a]] if rest is not None else []
        return []

    def procedure(self, name):
        chance, count = self.chance, self.chance.randint(1, 6)
        aggregates = chance.choice((0, 0, 5))
        blocks = []
        for number in range(count):
            code = [] if number else [["set", v, chance.choice(NUMBERS)] for v in self.plain]
            code = [["clear"]] * (not number and aggregates > 0) + code
            for _ in range(chance.randint(0, 12)):
                code += self.instructions()
            end, to = ["return"], lambda: chance.randrange(1, count)
            if number < count - 1:
                end = chance.choice((["jump", to()], ["branch", 12, to(), to()]))
                end[1] = chance.choice(form.CONDITIONS) if end[0] == "branch" else end[1]
            if end[0] == "branch":
                code.append(["cmp", chance.choice(self.any), chance.choice(self.any)])
            blocks.append([chance.randint(0, 5), code, end])
        value = {"args": self.args, "aggregates": aggregates, "vars": self.kinds}
        return value | {"blocks": blocks, "name": name}


def random_code(seed):
    chance = random.Random(seed)
    counts = [0] + [chance.randint(0, 5) for _ in range(chance.randint(0, 3))]
    procedures = [
        Chance(chance, args, counts).procedure(f"P{number}x") for number, args in enumerate(counts)
    ]
    words = chance.choice((0, 7, code_file.MOST_DATA))
    return {"data_words": words, "kind": "pra-code", "procs": procedures, "version": 1}


def numbers_in(value, path=()):
    """The paths of all whole numbers in a value."""
    if isinstance(value, int):
        yield path
    elif isinstance(value, (list, dict)):
        for key, part in value.items() if isinstance(value, dict) else enumerate(value):
            yield from numbers_in(part, (*path, key))


# ---- texts


class Texts(unittest.TestCase):
    def both_ways(self, value):
        """That a code file comes back from its text, and the text from the code file."""
        text = text_of(value)
        made = code_of(value)
        self.assertEqual(code_file.write(made), text)
        written = code_text.text_of(made)
        back = code_reader.read("x", written.encode())
        self.assertEqual(code_file.write(back), text, written)
        self.assertEqual(code_text.text_of(back), written)
        self.assertLess(max(map(len, written.splitlines())), 100)

    def test_code_that_was_written_by_hand(self):
        made = code_reader.read("x", HAND.encode())
        self.assertEqual(code_file.write(made), text_of(CODE))
        self.both_ways(CODE)
        crooked = HAND.replace("\n", "  \r\n").replace(" + ", "+").replace(" := ", ":=")
        self.assertEqual(code_file.write(code_reader.read("x", crooked.encode())), text_of(CODE))

    def test_random_code_comes_back(self):
        kinds = set()
        for seed in range(60):
            value = random_code(seed)
            self.both_ways(value)
            kinds |= {
                ins[0] for it in value["procs"] for block in it["blocks"] for ins in block[1]
            }
        self.assertEqual(kinds, set(form.INSTRUCTIONS))

    def test_code_with_another_number_comes_back_or_is_refused(self):
        chance, refused = random.Random(1), 0
        for seed in range(80):
            value = random_code(seed)
            path = chance.choice(list(numbers_in(value["procs"])))
            number = chance.choice((0, 1, 2, 3, 9, -1, 6, 1 << 31, 1 << 32))
            value = vectors.edited(value, {("procs", *path): number})
            try:
                code_of(value)
            except given.Broken as broken:
                refused += 1
                self.assertTrue(all(it.startswith("x") for it in broken.lines))
                continue
            self.both_ways(value)
        self.assertGreater(refused, 25)
        self.assertLess(refused, 75)

    def test_a_number_stands_for_the_next_variable_that_has_it(self):
        kinds = [["plain"], ["constant", 1], ["constant", 1], ["constant", 1]]
        code = [["set", 0, 1], ["add", 0, 2], ["add", 0, 1], ["add", 0, 1], ["add", 0, 3]]
        value = plain(*code, ["sub", 0, 3], variables=kinds)
        told = [it.split()[-1] for it in code_text.text_of(code_of(value)).splitlines()[5:-1]]
        self.assertEqual(told, ["1", "v2", "1", "v1", "1", "1"])
        self.both_ways(value)

    @needs.compiler
    def test_examples_and_generated_modules_come_back(self):
        with tempfile.TemporaryDirectory(prefix="pra-code-") as room:
            for seed in (1, 2):
                words = ["--seed", str(seed), "--size", "5", "--rounds", "0"]
                command = [needs.program(), "gen", f"{room}/{seed}.ob", *words]
                command += ["--image", f"{room}/{seed}.pri"]
                subprocess.run(command, capture_output=True, check=False)
            for file in sorted(glob.glob(f"{needs.TOP}/examples/*.ob") + glob.glob(f"{room}/*.ob")):
                with self.subTest(file=os.path.basename(file)):
                    words = ["cert", file, "--rounds", "0"]
                    ran = subprocess.run([needs.program(), *words], capture_output=True, check=True)
                    self.both_ways(of_certificate(json.loads(ran.stdout)))


class Lines(unittest.TestCase):
    """What is wrong with a text, by its lines."""

    def wrong(self, *lines, head=("data words 0", "procedure 0 M", "variables a, b, c, d, n = 5")):
        """The line and the words of each thing that is wrong with a text."""
        with self.assertRaises(given.Broken) as caught:
            code_reader.read("x", "\n".join([*head, *lines]).encode())
        found = [it.split(": ", 1) for it in caught.exception.lines]
        return [(int(place.removeprefix("x:")), words) for place, words in found]

    def told(self, line):
        """What is told of one line of a block."""
        ((at, words),) = self.wrong("block 0", "a := 1", "b := 1", line, "return")
        self.assertEqual(at, 7)
        return words

    def test_what_is_no_instruction(self):
        for line, words in (
            ("x := 1", "`x` is no variable of this procedure"),
            ("a := e", "`e` is no variable of this procedure"),
            ("a := b + a", "a result takes the place of its first operand"),
            ("a := -b", "a negative takes the place of its operand"),
            ("a := b shl 3", "a shift takes the place of its operand"),
            ("a := a shl -3", "-3 is no number from 0 to 4294967295"),
            ("a := b ? c", "'?' stands in no line of code"),
            ("a := b ge c", "behind := stand"),
            ("a := b -5", "behind := stand"),
            ("a := 2147483648", "2147483648 is no number from -2147483648 to 2147483647"),
            ("a := [heap 0]", "an address is `data NUMBER`"),
            ("a := [data 4294967296]", "4294967296 is no number from 0 to 4294967295"),
            ("a := [b + 8*c]", "an address is "),
            ("check a", "a line with `check` is `check 0 <= OPERAND < NUMBER` or"),
            ("check 1 <= a < 5", "a line with `check` is "),
            ("call procedure -1", "-1 is no number from 0 to 4294967295"),
            ("call M", "a line with `call` is `call procedure NUMBER`"),
            ("if < go on with block 1", "a line with `if` is "),
            ("wirte a", "no line of code begins with `wirte`; did you mean write?"),
            ("variables e", "variables stand before the first block"),
            ("data words 3", "`data words NUMBER` stands once"),
            ("block x", "a line with `block` is `block NUMBER, NUMBER loops`"),
        ):
            with self.subTest(line=line):
                self.assertTrue(self.told(line).startswith(words), self.told(line))

    def test_what_does_not_stand_where_it_has_to(self):
        for lines, at, words in (
            ([], 3, "procedure 0, code: it has no block"),
            (["a := 1"], 4, "an instruction stands in a block"),
            (["variables a", "block 0", "return"], 4, "`a` is a variable already"),
            (["variables read", "block 0", "return"], 4, "`read` means something else here"),
            (["variables e = f", "block 0", "return"], 4, "a variable is `NAME`"),
            (["block 1", "return"], 4, "this is block 0"),
            (["block 0", "return", "write 1"], 6, "block 0 ends with line 5"),
            (["block 0", "a := 1"], 4, "block 0 has no end"),
            (["block 0", "return", "procedure 0 P", "block 0", "return"], 6, "this is procedure 1"),
            (["block 0", "return", "procedure x"], 6, "a line with `procedure` is "),
        ):
            with self.subTest(lines=lines):
                found = self.wrong(*lines)
                self.assertEqual(found[0][0], at if lines else 2)
                self.assertTrue(found[0][1].startswith(words), found)
        missing = 1, "`data words NUMBER` is missing, the first line of all"
        self.assertIn(missing, self.wrong(head=()))
        self.assertIn((2, "there is no procedure"), self.wrong("", head=("data words 0",)))
        head = "data words 0", f"procedure 0 {'a' * 256}"
        ((_, words),) = self.wrong("block 0", "return", head=head)
        self.assertIn("a name has 255 letters and digits at most", words)

    def test_what_breaks_a_rule_is_told_with_its_line(self):
        for lines, at, rule in (
            (["block 0", "a := 1", "write b", "return"], 3, "variable 1 (`b`) may be read"),
            (["block 0", "compare 1, 2", LOOP, "block 1", "return"], 6, "leads to block 0, the en"),
            (["block 0", "clear the frame", "return"], 4, "block 0 begins with clear"),
            (["block 0", "a := 1", "n := 2", "return"], 6, "writes variable 4"),
            (["block 0", "push 1", "", "; here", "call procedure 0", "return"], 8, "has 1 pushes"),
            (["block 0", "go on with block 1", "block 1, 6 loops", "return"], 6, "6 loops round"),
        ):
            with self.subTest(lines=lines):
                ((line, words),) = self.wrong(*lines)
                self.assertEqual(line, at)
                self.assertIn(rule, words)
                self.assertTrue(words.startswith("procedure 0, code: "))

    def test_all_that_is_wrong_is_told_at_once_but_not_too_much(self):
        found = self.wrong("block 0", "x := 1", "y := 2", "return")
        self.assertEqual([at for at, _ in found], [5, 6])
        with self.assertRaises(given.Broken) as caught:
            code_reader.read("x", b"what\n" * 100)
        self.assertEqual(len(caught.exception.lines), given.MOST_TOLD + 1)


# ---- form and rules


class Rules(unittest.TestCase):
    def refused(self, data):
        with self.assertRaises(given.Broken) as caught:
            given.code_of("x", data if isinstance(data, bytes) else vectors.text_of(data))
        return caught.exception

    def test_the_form_is_told_by_place_and_by_what_was_wanted(self):
        first = ("procs", 0)
        for edits, words in (
            ({("data_words",): 4194305}, "data_words: a whole number from 0 to 4194304"),
            ({("data_words",): -1}, "data_words: a whole number"),
            ({("data_words",): vectors.GONE}, "the whole: the key data_words is missing"),
            ({("cost",): "size"}, 'cost: no key "cost" may stand here'),
            ({("version",): 2}, "version: the version 1 is wanted"),
            ({("procs",): []}, "procs: one procedure at least is wanted"),
            ({(*first, "name"): vectors.GONE}, "procedure 0: the key name is missing"),
            ({(*first, "routes"): []}, 'procedure 0, routes: no key "routes" may stand here'),
            ({(*first, "name"): ""}, "procedure 0, name: a name is wanted"),
            ({(*first, "name"): "a_b"}, "procedure 0, name: a name is wanted"),
            ({(*first, "name"): "1a"}, "procedure 0, name: a name is wanted"),
            ({(*first, "name"): "\u00e9"}, "procedure 0, name: a name is wanted"),
            ({(*first, "name"): "a" * 256}, "procedure 0, name: a name is wanted"),
            ({(*first, "name"): 5}, "procedure 0, name: a name is wanted"),
            ({(*first, "vars", 0): ["plain", 1]}, "procedure 0, variable 0: [plain] is wanted"),
        ):
            with self.subTest(words=words):
                broken = self.refused(vectors.edited(CODE, edits))
                self.assertEqual((broken.status, len(broken.lines)), (3, 1))
                self.assertRegex(broken.lines[0], r"^x:1:\d+: ")
                self.assertIn(words, broken.lines[0])
        longest = vectors.edited(CODE, {(*first, "name"): "Z9" * 127 + "a"})
        self.assertEqual(len(code_of(longest).names[0]), 255)
        self.assertIn("this is no JSON", self.refused(b'{"kind":"pra-code"').lines[0])

    def test_a_run_begins_without_arguments(self):
        broken = self.refused(vectors.edited(CODE, {("procs", 0, "args"): 1}))
        words = "a run begins here, which gives it no argument, and it takes 1"
        self.assertEqual(broken.lines, [f"x, procedure 0, code: {words}"])

    def test_too_much_is_over_a_limit(self):
        one = plain()["procs"][0]
        text = "data words 0\n" + "".join(
            f"procedure {it} P\nblock 0\nreturn\n" for it in range(31)
        )
        self.assertEqual((code_file.MOST_PROCEDURES, code_file.MOST_BYTES), (65536, 16777216))
        with mock.patch.object(code_file, "MOST_PROCEDURES", 30):
            self.assertEqual(len(code_of(CODE | {"procs": [one] * 30}).names), 30)
            broken = self.refused(CODE | {"procs": [one] * 31})
            told = "x: it has 31 procedures, and at most 30 may be"
            self.assertEqual((broken.status, str(broken)), (4, told))
            with self.assertRaises(given.TooMuch):
                code_reader.read("x", text.encode())
        with mock.patch.object(code_file, "MOST_BYTES", 3000):
            broken = self.refused(vectors.text_of(CODE) + b" " * 3000)
        self.assertEqual(broken.status, 4)
        self.assertIn("bytes, and at most 3000 may be", str(broken))

    def test_each_rule_of_code_is_told_and_no_network_is_made(self):
        with mock.patch.object(Network, "add_strands", side_effect=AssertionError):
            for name, value in vectors.bad_code():
                broken = self.refused(of_certificate(value))
                self.assertTrue(any(f"(rule {name[0]})" in it for it in broken.lines), name)
                with self.assertRaises(given.Broken):
                    given.known_of("x", vectors.text_of(value))
            for seed in range(20):
                code_of(random_code(seed))

    def test_few_of_many_are_told(self):
        bad = plain(*[["write", 9]] * 30)["procs"]
        broken = self.refused(CODE | {"procs": bad * 30})
        self.assertEqual(len(broken.lines), given.MOST_TOLD * (given.MOST_TOLD + 1) + 1)
        self.assertEqual(broken.lines[-1], "x: and 20 more procedures break a rule")


class Kinds(unittest.TestCase):
    def test_what_a_text_is_its_first_byte_and_its_kind_tell(self):
        for text, wanted in (
            (b'{"kind":"pra-code"}', True),
            (b' \n{"kind" : "pra-code", "x": 1}', True),
            (b'{"kind":"pra-code",', True),  # no JSON, but it looks like one
            (b'{"kind":"pra-certificate","kind":"pra-code"}', True),
            (b'{"kind":"pra-code","kind":"pra-certificate"}', False),
            (b'{"kind":"pra-certificate"}', False),
            (b'{"kind":["pra-code"]}', False),
            (b'["pra-code"]', False),
            (b"{", False),
            (b"", False),
            (b"MODULE M;", False),
        ):
            self.assertEqual(code_file.is_code(text), wanted, text)

    def test_calls_say_that_a_file_is_code(self):
        with tempfile.TemporaryDirectory(prefix="pra-code-") as room:
            for name, text in (("c", vectors.text_of(CODE)), ("m", b"MODULE M; END M.")):
                with open(f"{room}/{name}", "wb") as file:
                    file.write(b" " * 2000 + text)
            for mode, name, wanted in (
                ("cert", "c", ["--from", "code"]),
                ("interp", "c", ["--from", "code"]),
                ("check", "c", []),
                ("cert", "m", []),
                ("cert", "none", []),
            ):
                words = [mode, f"{room}/{name}", "--rounds", "0"]
                with mock.patch("pranet.compiler.takes_code", return_value=True):
                    self.assertEqual(with_source(words), [*words[:2], *wanted, *words[2:]])
                with mock.patch("pranet.compiler.takes_code", return_value=False):
                    if wanted:
                        self.assertRaises(compiler.Refused, with_source, words)
                    else:
                        self.assertEqual(with_source(words), words)

    def test_the_data_words_of_a_certificate_are_the_least(self):
        kinds = [["plain"], ["constant", 5]]
        for address, words, may_more in (
            (["global", 4, 0, None], 5, False),
            (["global", 4, 8, None], 7, False),
            (["global", 4, -16, None], 1, False),
            (["global", 4, 2, None], 6, False),
            (["global", 4, 0, 1], 5, True),
            (["global", 0, -400, 1], 0, True),
            (["global", 4294967295, 0, None], 4194304, False),
            (["frame", 4, 0, None], 0, False),
        ):
            made = code_of(plain(["load", 0, address], variables=kinds))
            self.assertEqual(code_file.least_data(made.procedures), words, address)
            self.assertEqual(code_file.may_need_more(made.procedures), may_more, address)
        kept = code_of(plain(["addr", 0, ["global", 4, 0, None]], variables=kinds))
        self.assertTrue(code_file.may_need_more(kept.procedures))

    def test_what_a_run_is_stuck_at_is_told(self):
        data = vectors.text_of(CODE)
        line = "stuck access procedure 1 block 0 instruction 12 steps 40 reads 3"
        where = "procedure 1 (Out), instruction 12 of block 0, `v1 := [v3 + 4*v0]`"
        (told,) = stuck.told("x", data, line)
        self.assertTrue(told.startswith(f"x, {where}, stuck: there is no whole word"), told)
        line = "stuck nothing procedure 0 block 1 instruction 2 steps 40 reads 3"
        (told,) = stuck.told("x", data, line)
        self.assertIn("the end of block 1, `if = go on with block 3, else with block 2`", told)
        self.assertEqual(
            stuck.told("x", data, "stuck divide procedure 9 block 0 instruction 0 steps 1 reads 0"),
            ["x: stuck: the divisor is 0 or less"],
        )
        self.assertIn("trap Input", stuck.told("x", data, "trap Input steps 7 reads 0")[0])
        self.assertIsNone(stuck.told("x", data, "ended steps 7 reads 0"))
        value, _ = report_value.value_of("interp", 1, [line])
        ending = {"how": "stuck", "kind": "nothing", "procedure": 0, "block": 1, "instruction": 2}
        self.assertEqual(value["ending"], ending | {"steps": 40, "reads": 3})


# ---- words


class InAFolder(unittest.TestCase):
    def setUp(self):
        room = tempfile.TemporaryDirectory(prefix="pra-code-")
        self.addCleanup(room.cleanup)
        self.room = room.name

    def file(self, name, data):
        with open(f"{self.room}/{name}", "wb") as file:
            file.write(data if isinstance(data, bytes) else data.encode())
        return f"{self.room}/{name}"

    def call(self, main, *words):
        """The status of a call, what it writes, and its notes."""
        out, notes = io.StringIO(), io.StringIO()
        with contextlib.redirect_stdout(out), contextlib.redirect_stderr(notes):
            with mock.patch.dict(os.environ, {"PRA": needs.program() or "/bin/false"}):
                status = main(list(words))
        return status, out.getvalue(), notes.getvalue()


class Words(InAFolder):
    def test_code_as_text_and_back(self):
        text = self.file("x.txt", HAND)
        status, out, notes = self.call(code_files.main, "--read", text)
        self.assertEqual((status, out, notes), (0, text_of(CODE), ""))
        made = self.file("x.code", out)
        self.assertEqual(self.call(code_files.main, made), (0, out, ""))
        status, written, _ = self.call(code_files.main, "--text", made)
        self.assertEqual(status, 0)
        again = self.file("y.txt", written)
        self.assertEqual(self.call(code_files.main, again, "--read"), (0, out, ""))
        self.assertEqual(self.call(code_files.main, text, "--read", "--text"), (0, written, ""))

    def test_a_text_that_is_wrong_is_told_by_lines(self):
        text = self.file("x.txt", HAND.replace("n := read", "m := read"))
        words = "`m` is no variable of this procedure\n"
        self.assertEqual(self.call(code_files.main, "--read", text), (3, "", f"{text}:10: {words}"))
        status, _, notes = self.call(code_files.main, "--read", self.file("x.code", text_of(CODE)))
        self.assertEqual((status, "x.code:1: this is JSON" in notes), (3, True))

    def test_code_of_a_certificate(self):
        value = certificate_of(plain(["load", 0, ["global", 6, 0, 0]], ["write", 0]))
        value["procs"][0]["blocks"][0][1].insert(0, ["set", 1, 3])
        value["procs"][0]["blocks"][0][1][1][2][3] = 1
        value["procs"][0]["vars"] = [["plain"], ["plain"]]
        file = self.file("x.cert", vectors.text_of(value))
        status, out, notes = self.call(code_files.main, file)
        made = given.code_of("x", out.encode())
        self.assertEqual((status, made.data_words, made.names), (0, 7, ["P0"]))
        self.assertIn("pra: 7 data words are the least", notes)
        status, out, notes = self.call(code_files.main, file, "--data-words", "40")
        self.assertEqual((status, json.loads(out)["data_words"], notes), (0, 40, ""))
        value["procs"][0]["args"] = 1
        file = self.file("x.cert", vectors.text_of(value))
        status, out, notes = self.call(code_files.main, file)
        self.assertEqual((status, out), (3, ""))
        self.assertIn("procedure 0, code: a run begins here", notes)

    def test_words_that_are_none(self):
        made, text = self.file("x.code", text_of(CODE)), self.file("x.txt", HAND)
        for words, line in (
            ([], "fault words"),
            ([made, made], "fault words"),
            ([made, "--what"], "fault words"),
            ([made, "--text=yes"], "fault words"),
            ([made, "--data-words", "4"], "fault words"),
            ([text, "--read", "--data-words", "4"], "fault words"),
            ([made, "--data-words", "4194305"], "fault value --data-words"),
            ([made, "--data-words", "-4"], "fault value --data-words"),
        ):
            status, out, notes = self.call(code_files.main, *words)
            self.assertEqual((status, out, notes.splitlines()[0]), (6, "", line), words)
            self.assertIn("\nusage: pra code FILE", notes)
        status, _, notes = self.call(code_files.main, f"{self.room}/none")
        self.assertEqual((status, notes.splitlines()[0]), (5, "fault read file"))

    def test_all_refuse_code_that_breaks_a_rule_with_the_rule(self):
        """None asks the compiler for anything, nor makes a network."""
        code = self.file("x.code", text_of(plain(["write", 0], variables=[["plain"]])))
        words = f"{code}, procedure 0, code: variable 0 may be read before it is written (rule 6)\n"
        self.file("x.pri", Image(b"\xc3", 0).to_bytes())
        with mock.patch.object(Network, "add_strands", side_effect=AssertionError):
            for main, *call in (
                (code_files.main, code),
                (network.main, code),
                (lp.main, code),
                (solve.main, code),
                (show.main, code),
                (grade.main, code, "--command", "true"),
                (native.main, f"{self.room}/x.pri", "--assembly", "--module", code),
            ):
                more = ["--compiler", "/bin/false"] if main is not native.main else []
                found = self.call(main, *call, *more)
                self.assertEqual(found, (3, "", words), main.__module__)
            self.assertEqual(self.call(explain.main, code), (3, words, ""))
        self.assertEqual(sorted(os.listdir(self.room)), ["x.code", "x.pri"])

    def test_all_refuse_a_certificate_that_breaks_a_rule_with_the_rule(self):
        value = certificate_of(plain(["write", 0], variables=[["plain"]]))
        file = self.file("x.cert", vectors.text_of(value))
        words = f"{file}, procedure 0, code: variable 0 may be read before it is written (rule 6)\n"
        for main in (code_files.main, network.main, lp.main, solve.main):
            self.assertEqual(self.call(main, file), (3, "", words), main.__module__)
        self.assertEqual(self.call(explain.main, file)[:2], (3, words))

    @needs.compiler
    def test_a_page_of_such_a_certificate_is_refused_with_the_rule(self):
        value = certificate_of(plain(["write", 0], variables=[["plain"]]))
        file = self.file("x.cert", vectors.text_of(value))
        ran = subprocess.run(
            [sys.executable, show.__file__, file, "--compiler", needs.program()],
            capture_output=True,
            check=False,
        )
        told = ran.stderr.decode().splitlines()
        self.assertEqual((ran.returncode, told[0]), (3, "fault certificate procedure 0 code"))
        rule = "procedure 0, code: variable 0 may be read before it is written (rule 6)"
        self.assertEqual(told[1:], [f"pra: no page: {rule}"])

    def test_names_of_procedures_come_from_a_code_file(self):
        code = self.file("x.code", text_of(CODE))
        self.assertEqual([it.name for it in reasons.Module(code).headings], ["Main", "Out"])
        self.assertEqual(solve.names_of(code, True, 2), ["Main", "Out"])

    def test_what_is_told_where_code_is_not_said_to_be_code(self):
        code = self.file("x.code", text_of(CODE))
        (told,) = explain.all_told("fault bad-byte at 0\n", code)
        self.assertEqual(told, f"{code}: this is a code file, and is read as one with --from code")
        bad = self.file("y.code", text_of(CODE).replace('"Main"', '"1"'))
        for line in ("fault json", "fault code form", "limit code count 5 maximum 4"):
            (told,) = explain.all_told(f"{line}\n", bad)
            self.assertIn("procedure 0, name: a name is wanted", told)

    @needs.compiler
    def test_the_code_file_of_a_module(self):
        for name, words in (("sort", 11), ("samples", 21), ("first", 0)):
            file = f"{needs.TOP}/examples/{name}.ob"
            status, out, notes = self.call(code_files.main, file)
            made = given.code_of("x", out.encode())
            self.assertEqual((status, made.data_words, notes), (0, words, ""))
        self.assertEqual(made.names, ["M"])
        file = self.file("m.ob", f"MODULE M; PROCEDURE {'p' * 300}; END {'p' * 300}; END M.")
        _, out, _ = self.call(code_files.main, file)
        self.assertEqual(json.loads(out)["procs"][1]["name"], "p" * 255)
        ran = subprocess.run(
            [sys.executable, code_files.__file__, self.file("n.ob", "MODULE M; END N.")],
            env={**os.environ, "PRA": needs.program()},
            capture_output=True,
            check=False,
        )
        self.assertEqual((ran.returncode, ran.stdout), (3, b""))
        self.assertTrue(ran.stderr.startswith(b"fault rule 1 "), ran.stderr)


def certificate_of(value):
    """A certificate without routes that has the code of a code file's value."""
    procedures = [{key: it[key] for key in form.CODE_KEYS} for it in value["procs"]]
    others = {"routes": [], "caps": [], "mems": [], "ties": [], "total": 0, "bound": 0}
    head = {"cost": "size", "kind": "pra-certificate", "version": 1}
    return head | {"procs": [it | others for it in procedures]}


# ---- a program that takes code


@needs.from_code
class Taken(InAFolder):
    """A module and its code file come to the same."""

    def setUp(self):
        super().setUp()
        with open(f"{needs.TOP}/examples/sort.ob", encoding="utf-8") as text:
            self.module = self.file("x.ob", text.read())
        _, out, _ = self.call(code_files.main, self.module)
        self.code = self.file("x.code", out)

    def same(self, main, *words):
        of_module = self.call(main, self.module, *words)
        self.assertEqual(self.call(main, self.code, *words), of_module)
        self.assertEqual(of_module[0], 0)

    def test_network_and_program(self):
        for cost in ("size", "speed"):
            self.same(network.main, "--cost", cost)
            self.same(lp.main, "--cost", cost)

    @needs.cbc
    def test_the_solver(self):
        self.same(solve.main)

    def test_pages(self):
        for file in (self.module, self.code):
            self.assertEqual(self.call(show.main, file, "--rounds", "2")[0], 0)
        with open(f"{self.code}.html", encoding="utf-8") as page:
            text = page.read()
        with open(f"{self.module}.html", encoding="utf-8") as page:
            wanted = facts.value_of(page.read())
        for one, other in zip(facts.value_of(text)["procedures"], wanted["procedures"]):
            self.assertEqual(one["states"], other["states"])
            self.assertEqual((one["total"], one["bound"]), (other["total"], other["bound"]))
        self.assertIn("The allocation of the code Sort.", text)
        self.assertIn("procedure 1 Insert, 2 arguments", text)

    def compiled(self):
        """The image of the code file, and the report on it."""
        image, report = f"{self.room}/x.pri", f"{self.room}/x.txt"
        command = [needs.program(), "compile", self.code, "--from", "code", "--image", image]
        with open(report, "wb") as file:
            subprocess.run(command, stdout=file, check=True)
        return image, report

    def test_functions_for_c(self):
        image, report = self.compiled()
        words = image, "--assembly", "-o", f"{self.room}/x.s", "--report", report
        words = *words, "--module", self.code
        self.assertEqual(self.call(native.main, *words), (0, "", ""))
        with open(f"{self.room}/x.h", encoding="utf-8") as header:
            self.assertIn("\nvoid Sort_Insert(int argument_0, int argument_1);\n", header.read())

    @needs.gcc_32
    def test_a_native_program(self):
        image, report = self.compiled()
        words = image, "-o", f"{self.room}/x", "--report", report
        self.assertEqual(self.call(native.main, *words), (0, "", ""))
        how = {"input": b"3 1 2 5 4 9 8 7 6 0", "capture_output": True, "check": False}
        ran = subprocess.run([f"{self.room}/x"], **how)
        wanted = subprocess.run([needs.program(), "exec", image], **how)
        self.assertEqual((ran.returncode, ran.stdout), (wanted.returncode, wanted.stdout))
        self.assertEqual(ran.returncode, 0)

    def test_grades(self):
        allocator = f"{needs.TOP}/examples/allocator/allocate.py"
        words = "--command", f"{sys.executable} {allocator}"
        self.same(grade.main, *words)

    def test_reasons(self):
        nothing = f"{self.code}: nothing is wrong\n"
        self.assertEqual(self.call(explain.main, self.code)[:2], (0, nothing))
        status, out, _ = self.call(explain.main, self.code, "--module", self.module)
        self.assertEqual((status, out.endswith(f"it is that of {self.module}\n")), (0, True))
        trapped = self.call(explain.main, self.code, "--input", self.file("in", "1 2"))
        self.assertEqual(trapped[0], 1)
        self.assertIn("trap Input: Read finds no further number", trapped[1])
        with open(self.code, encoding="utf-8") as text:
            other = self.file("y.code", text.read().replace('"check",3,10', '"check",3,9'))
        status, out, _ = self.call(explain.main, other, "--module", self.code)
        self.assertEqual(status, 3)
        self.assertIn("is `check 0 <= v3 < 9`, and the module's is `check 0 <= v3 < 10`", out)


@needs.from_code
class SameImages(InAFolder):
    """One image for a module and for its code file; modules_as_code.py tries more of them."""

    def test_a_few_modules(self):
        examples = [f"{needs.TOP}/examples/{it}.ob" for it in ("samples", "eight", "overflow")]
        made = [modules_as_code.generated(needs.program(), it, "3", self.room) for it in (1, 2)]
        for file in examples + made:
            found = modules_as_code.differences(needs.program(), file, modules_as_code.ALL)
            self.assertEqual(list(found), [], file)

    def test_a_difference_is_told(self):
        module, other = self.file("x.ob", "MODULE M; BEGIN Write(7) END M."), code_of(plain())
        with mock.patch.object(code_files, "of_module", return_value=other):
            found = modules_as_code.differences(needs.program(), module, [(0, "size")])
            told = "x.ob --rounds 0 --cost size: another {} as a code file"
            self.assertEqual(list(found), [told.format("image"), told.format("report")])


def behind_a_body(value):
    """The same code as procedures that nothing calls from outside, behind a body of nothing."""
    body = plain()["procs"]
    calls = {
        ("procs", number, "blocks", at, 1, place, 1): ins[1] + 1
        for number, it in enumerate(value["procs"])
        for at, block in enumerate(it["blocks"])
        for place, ins in enumerate(block[1])
        if ins[0] == "call"
    }
    return value | {"procs": body + vectors.edited(value, calls)["procs"]}


@needs.from_code
class Refused(InAFolder):
    """What the compiler says of code that breaks a rule."""

    def refused(self, value, line):
        file = self.file("x.code", text_of(value))
        for mode in compiler.TAKE_CODE:
            command = [needs.program(), mode, file, "--from", "code"]
            how = {"stdin": subprocess.DEVNULL, "capture_output": True, "check": False}
            ran = subprocess.run(command, cwd=self.room, **how)
            found = ran.returncode, ran.stdout, ran.stderr.decode()
            self.assertEqual(found, (3, b"", f"{line}\n"), mode)

    def test_each_rule_of_code(self):
        for name, value in vectors.bad_code():
            with self.subTest(name=name):
                value = of_certificate(value)
                has_arguments = value["procs"][0]["args"] > 0
                line = "fault code form" if has_arguments else "fault code procedure 0"
                self.refused(value, line)
                self.refused(behind_a_body(value), "fault code procedure 1")
        self.assertEqual(sorted(os.listdir(self.room)), ["x.code"])


@needs.from_code
class Stuck(InAFolder):
    def test_where_code_is_stuck_is_told(self):
        text = "data words 1\nprocedure 0 M\nvariables a, b\nblock 0\n{}\n"
        text += "b := [a]\nwrite b\nreturn\n"
        for first, words, options in (
            ("a := 4", "with every input", ()),
            ("a := read", "", ("--input", self.file("in", "4"))),
        ):
            code = code_reader.read("x", text.format(first).encode())
            file = self.file("x.code", code_file.write(code))
            status, out, _ = self.call(explain.main, file, *options)
            where = f"{file}, procedure 0 (M), instruction 1 of block 0, `v1 := [v0]`, stuck: "
            self.assertEqual((status, out.startswith(where), words in out), (1, True, True), out)


if __name__ == "__main__":
    unittest.main()
