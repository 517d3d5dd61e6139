"""Tests of the second checker: its answers, its words, and the form's schema.

    [PRA=PROGRAM] python3 -m unittest checker.tests

The vectors of docs/vectors are given to `check` too where the compiler was built, or where PROGRAM
is one.
"""

import contextlib
import io
import json
import os
import re
import subprocess
import tempfile
import unittest

import reasons
from checker import form, given, images, json_text, vectors, verdict
from checker.instructions import NoInstruction, decode, encode

PROGRAM = os.environ.get("PRA", f"{vectors.TOP}/crates/pra/out/pra")
SCHEMA = f"{vectors.TOP}/docs/certificate.schema.json"
TYPES = {"object": dict, "array": list, "null": type(None)}


def answers():
    """Each vector's bytes and answer, by name."""
    with open(f"{vectors.FOLDER}/answers.txt", encoding="utf-8") as text:
        rows = [line.rstrip("\n").split(" ", 1) for line in text]
    for name, answer in rows:
        with open(f"{vectors.FOLDER}/{name}", "rb") as file:
            yield name, file.read(), answer


class Vectors(unittest.TestCase):
    def test_the_folder_holds_what_is_made(self):
        self.assertEqual(list(answers()), list(vectors.vectors()))
        self.assertEqual(len(os.listdir(vectors.FOLDER)), len(list(answers())) + 1)

    def test_this_checker_answers_them(self):
        for name, data, answer in answers():
            self.assertEqual(verdict.answer(data), answer, name)

    def test_each_refused_vector_is_told_in_words(self):
        for name, data, answer in answers():
            status, lines = reasons.certificate(name, data)
            self.assertEqual(status == 0, answer == vectors.HOLDS, name)
            self.assertTrue(all(it.startswith(name) for it in lines), name)

    @unittest.skipUnless(os.access(PROGRAM, os.X_OK), "no compiler was built, and PRA names none")
    def test_check_answers_them(self):
        for name, _, answer in answers():
            words = [PROGRAM, "check", f"{vectors.FOLDER}/{name}"]
            ran = subprocess.run(words, capture_output=True, check=False, text=True)
            told = (ran.stdout + ran.stderr).splitlines()[-1]
            self.assertEqual((told, ran.returncode), (answer, 0 if told == vectors.HOLDS else 3))


class Validator:
    """Whether values are as a schema says, as far as that of certificates goes."""

    def __init__(self, schema):
        self.schema = schema

    def is_valid(self, value, schema=None):
        schema = self.schema if schema is None else schema
        if schema in (True, False):
            return schema
        if "$ref" in schema:
            return self.is_valid(value, self.schema["$defs"][schema["$ref"].rpartition("/")[2]])
        if "anyOf" in schema:
            return any(self.is_valid(value, it) for it in schema["anyOf"])
        if "enum" in schema or "const" in schema:
            wanted = schema.get("enum", [schema.get("const")])
            return not isinstance(value, bool) and value in wanted
        if schema["type"] == "integer":
            is_whole = type(value) in (int, float) and value == int(value)
            return is_whole and schema["minimum"] <= value <= schema["maximum"]
        return isinstance(value, TYPES[schema["type"]]) and self.has_parts(value, schema)

    def has_parts(self, value, schema):
        if isinstance(value, dict):
            known = schema["properties"]
            return set(value) == set(schema["required"]) == set(known) and all(
                self.is_valid(part, known[key]) for key, part in value.items()
            )
        if isinstance(value, list):
            first = schema.get("prefixItems", [])
            return len(value) >= schema.get("minItems", 0) and all(
                self.is_valid(part, first[at] if at < len(first) else schema["items"])
                for at, part in enumerate(value)
            )
        return True


class Schema(unittest.TestCase):
    # a schema does not tell how a number is written
    written = {f"form-{it}.cert" for it in ("version-with-a-point", "exponent", "minus-zero")}

    def test_it_takes_what_has_the_form_alone(self):
        with open(SCHEMA, encoding="utf-8") as text:
            schema = Validator(json.load(text))
        for name, data, answer in answers():
            if answer != vectors.NO_JSON:
                _, value = json_text.read(data)
                is_taken = answer != vectors.NO_FORM or name in self.written
                self.assertEqual(schema.is_valid(value), is_taken, name)

    def test_its_instructions_are_those_that_are_read(self):
        with open(SCHEMA, encoding="utf-8") as text:
            rows = json.load(text)["$defs"]["instruction"]["anyOf"]
        sizes = {}
        for row in rows:
            first, *rest = row["prefixItems"]
            sizes |= dict.fromkeys(first.get("enum", [first.get("const")]), len(rest))
        self.assertEqual(sizes, {name: len(it.split()) for name, it in form.INSTRUCTIONS.items()})


class Words(unittest.TestCase):
    """What is told where one thing is wrong."""

    def told(self, name):
        with open(f"{vectors.FOLDER}/{name}.cert", "rb") as file:
            _, lines = reasons.certificate("x", file.read())
        return lines

    def test_routes_are_told_by_strand_layer_and_instruction(self):
        one = "strand 3 of variable 0 (argument 0) in block 1, layers 0 to 3"
        other = "strand 4 of variable 1 (argument 1) in block 1, layers 0 to 3"
        where = "instruction 0 of block 1, `compare v0, v1`, which has one operand there at most"
        where += " (rule 4, pairs)"
        both = f"x, procedure 1, routes: {one}, and {other}, are both in memory in {where}"
        self.assertEqual(self.told("routes-two-operands-in-memory"), [both])
        one = "strand 5 of variable 3 in block 1, layers 0 to 3, leaves its block at 2 (edx)"
        other = "strand 14 of variable 3 in block 3, layers 0 to 1, enters its block at 0 (eax)"
        wanted = f"x, procedure 1, routes: {one}, and {other} (rule 4, ties)"
        self.assertEqual(self.told("routes-tie"), [wanted])
        rule = "across an instruction"
        across = "across instruction 1 of block 2, `v2 := v2 * v1`"
        one = "strand 9 of variable 2 in block 2, layers 2 to 5"
        moved = f"x, procedure 1, routes: {one}, goes from 1 (ecx) to 3 (ebx) {across}"
        moved += f" (rule 2, {rule})"
        self.assertEqual(self.told("routes-across-an-instruction"), [moved])

    def test_two_in_one_register_are_told_once(self):
        (line,) = self.told("routes-register-of-two")
        where = "layer 2, right after instruction 0 of block 2, `v2 := v0`, and at 3 more layers"
        wanted = f"are both in eax at {where} (rule 3, one strand a register)"
        self.assertTrue(line.endswith(wanted), line)

    def test_a_place_is_told_with_those_that_are_allowed(self):
        strand = "strand 0 of variable 0 (argument 0) in block 0, layers 0 to 3"
        where = "is at 0 (eax) at layer 0, the entry of block 0, and may be at 6 (memory)"
        where += " (rule 1, masks)"
        self.assertEqual(
            self.told("routes-not-in-its-mask"), [f"x, procedure 1, routes: {strand}, {where}"]
        )

    def test_total_and_bound_are_told_as_claimed_and_as_found(self):
        cost = "its routes cost 4 by size, and its total says 5: 1 x long immediate = 4"
        strands = "costs by strand: 2 costs 4; all others nothing"
        wanted = [f"x, procedure 0, total: {it}" for it in (cost, strands)]
        self.assertEqual(self.told("total-one-more"), wanted)
        value = "its prices give the value 4984/1024, which shows a bound of 5 by size"
        first, least, less = self.told("bound-one-more")
        self.assertEqual(first, f"x, procedure 1, bound: {value}, and its bound says 6")
        costs = [int(it) for it in re.findall(r" costs (-?\d+)", least)]
        self.assertTrue(less.endswith(f"the prices of registers and pairs, {sum(costs) - 4984}"))

    def test_all_procedures_and_all_reasons_are_told(self):
        lines = self.told("order-first-procedure")
        self.assertEqual(
            list(dict.fromkeys(it.split(":")[0] for it in lines)),
            ["x, procedure 0, total", "x, procedure 1, bound"],
        )
        lines = self.told("order-routes-before-bound")
        reasons_told = list(dict.fromkeys(it.split(":")[0][16:] for it in lines))
        self.assertEqual(reasons_told, ["routes", "bound"])

    def test_an_index_of_a_price_is_told_by_what_it_stands_for(self):
        (line,) = self.told("prices-zero")
        self.assertIn("the price of eax at layer 0, the entry of block 0, is 0", line)
        (line,) = self.told("prices-number-too-small")
        self.assertIn("the price of the tie of strands 0 and 3, at eax, is -1099511627777", line)

    def test_the_form_is_told_by_place_and_by_what_was_wanted(self):
        wanted = "a whole number from 0 to 4294967295, without point, exponent or needless sign"
        self.assertEqual(
            self.told("form-minus-zero"),
            [f"x:1:73: procedure 0, args: {wanted} is wanted, and here is -0"],
        )
        self.assertEqual(
            self.told("form-operand-too-few"),
            ["x:1:89: procedure 0, block 0, instruction 0: [write s] is wanted, "
             'and here is ["write"]'],
        )

    def test_of_equal_keys_the_last_is_shown(self):
        text = b'{"cost":"size","kind":"pra-certificate",\n"procs":[],"version":1,"version":2}'
        _, lines = reasons.certificate("x", text)
        self.assertEqual(lines[0], "x:2:34: version: the version 1 is wanted, and here is 2")

    def test_strands_that_are_many_are_counted_and_not_made(self):
        variables, blocks = range(1000), 300
        first = [0, [["set", v, 0] for v in variables], ["jump", 1]]
        last = [0, [["write", v] for v in variables], ["return"]]
        between = [[0, [], ["jump", b + 1]] for b in range(1, blocks - 1)]
        value = vectors.certificate([["plain"]] * 1000, [first, *between, last], [], 0)
        _, lines = reasons.certificate("x", vectors.text_of(value))
        # each variable is there once in each block
        wanted = "x, procedure 0, routes: 0 lists are there for 300000 strands"
        self.assertEqual(lines, [wanted])

    def test_few_of_many_are_told(self):
        text = vectors.text_of(vectors.edited(vectors.NUMBER, {("procs",): [{}] * 30}))
        _, lines = reasons.certificate("x", text)
        self.assertEqual(len(lines), given.MOST_TOLD + 1)
        self.assertEqual(lines[-1], "and 290 more of this kind")


class Instructions(unittest.TestCase):
    # bytes and text, at place 0
    rows = {
        "89e5": "mov.mr ebp, esp",
        "8b848d00010000": "mov.rm eax, [ebp+ecx*4+d32:256]",
        "8b0424": "mov.rm eax, [esp+d0:0]",
        "8b0500000004": "mov.rm eax, [d32:67108864]",
        "b8ffffffff": "mov.ri eax, -1",
        "c745f003000000": "mov.mi [ebp+d8:-16], 3",
        "81fd0c040008": "cmp.mi ebp, 134218764",
        "83e901": "sub.mb ecx, 1",
        "6bc903": "imul.b ecx, ecx, 3",
        "f7fb": "idiv ebx",
        "c1e003": "shl.r eax, 3",
        "c16df01f": "shr.r [ebp+d8:-16], 31",
        "c1fbff": "sar.r ebx, 255",
        "8d65f4": "lea esp, [ebp+d8:-12]",
        "ff75f0": "push.m [ebp+d8:-16]",
        "e817000000": "call 0000001c",
        "0f82eaffffff": "jb fffffff0",
        "0f94c3": "sete bl",
        "0fb6c1": "movzx eax, cl",
        "87ca": "xchg edx, ecx",
        "c20800": "ret.i 8",
        "cd21": "int 33",
        "99": "cdq",
    }

    def test_bytes_and_text_come_back(self):
        for digits, text in self.rows.items():
            code = bytes.fromhex(digits)
            self.assertEqual(decode(code, 0), (text, len(code)))
            self.assertEqual(encode(text, 0), code, text)

    def test_what_is_no_instruction_is_told(self):
        for digits in ("90", "8b0423", "f7c001000000", "cd25", "0f9cc6", "5c", "8b84", "0f05"):
            with self.assertRaises(NoInstruction, msg=digits):
                decode(bytes.fromhex(digits), 0)
        for text in ("pop esp", "lea eax, ecx", "add.mb eax, 128", "neg [ebp+d0:0]", "nop"):
            with self.assertRaises(NoInstruction, msg=text):
                encode(text, 0)


class Images(unittest.TestCase):
    head = b"PRAI" + bytes([1, 0, 0, 0, 2, 0, 0, 0, 0, 0, 0, 0])

    def test_each_field_of_the_head_is_told(self):
        for data, words in (
            (self.head[:15], "x, byte 0: an image has a head of 16 bytes, and the file has 15"),
            (b"prai" + self.head[4:], "x, byte 0: an image begins with the bytes PRAI, and here"),
            (b"PRAI\2" + self.head[5:], "x, byte 4: the version is 2, and 1 is known"),
            (self.head + b"\x99", "x, byte 8: the code is told to have 2 bytes, and 1 are there"),
        ):
            (line,) = images.image_lines("x", data)
            self.assertTrue(line.startswith(words), line)
        self.assertEqual(images.image_lines("x", self.head + b"\x99\x99"), [])

    def test_the_first_place_without_an_instruction_is_told(self):
        (line,) = images.image_lines("x", self.head + b"\x99\x90")
        where = "x, byte 1 of the code, 17 of the file, behind `cdq`"
        words = "no instruction begins with 90: no instruction has the opcode 90"
        self.assertEqual(line, f"{where}: {words}")

    def test_the_first_line_that_is_none_is_told(self):
        right = "data 0\n00000000 cdq\n00000001 int 32\n"
        self.assertEqual(images.listing_lines("x", right.encode()), [])
        for edit, words in (
            (("data 0", "data 00"), "x:1:1: the first line is `data N`"),
            (("00000001", "00000002"), "x:3:1: this instruction stands at 00000001"),
            (("int 32", "int 99"), "x:3:1: int has a service from 32 to 36, not 99"),
            (("int 32", "int +32"), "x:3:1: +32 stands where a number is wanted"),
            (("int 32", "int 032"), "x:3:1: this instruction is written `int 32`"),
            (("int 32\n", "int 32"), "x:3:1: the last line has no end"),
            (("cdq\n", "cdq\r\n"), "x:2:1: no instruction has the name cdq\\x0d"),
        ):
            lines = images.listing_lines("x", right.replace(*edit).encode())
            self.assertTrue(lines[0].startswith(words), lines)
        self.assertEqual(
            images.listing_lines("x", b"data 0\n"), ["x:1:1: no instruction follows the first line"]
        )


class Files(unittest.TestCase):
    def test_what_a_file_is_by_its_name_or_its_first_bytes(self):
        for name, data, reader in (
            ("x.cert", b"", reasons.certificate),
            ("x", b' \n{"cost":', reasons.certificate),
            ("x.pri", b"MODULE", reasons.image),
            ("x", b"PRAI", reasons.image),
            ("x", b"data 0\n", reasons.listing),
            ("x.lst", b"", reasons.listing),
            ("x.ob", b"MODULE M; END M.", None),
            ("x", b"(* data *) MODULE", None),
            ("x", b"", None),
        ):
            self.assertIs(reasons.reader_of(name, data), reader, (name, data))

    def test_status_and_words_of_a_call(self):
        with tempfile.TemporaryDirectory() as room:
            for data, status, words in (
                (vectors.text_of(vectors.NUMBER), 0, "nothing is wrong with this certificate"),
                (b"{", 3, "this is no JSON"),
                (b"MODULE", reasons.MODULE, ""),
            ):
                with open(f"{room}/file", "wb") as out:
                    out.write(data)
                told = io.StringIO()
                with contextlib.redirect_stdout(told):
                    self.assertEqual(reasons.main(f"{room}/file"), status)
                self.assertIn(words, told.getvalue())
            self.assertEqual(reasons.main(f"{room}/absent"), reasons.MODULE)


if __name__ == "__main__":
    unittest.main()
