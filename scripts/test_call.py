"""Tests of what stands around a call of ./pra: options of any word, FILE from standard input."""

import json
import os
import shutil
import stat
import subprocess
import sys
import tempfile
import unittest

import call as front
import completion
import manual
import needs
import report_value
import words

GOOD = b"MODULE M; VAR x: INTEGER; BEGIN Read(x); Write(x) END M."
BAD = b"MODULE M;\nBEGIN\n  x := 1\nEND M.\n"
FAKE = '#!/bin/sh\necho "called $*"\n'


def call(line, given=b"", **more):
    """A call with options of its own, which has its standard input as stream 3."""
    command = ["bash", "-c", 'exec 3<&0; exec "$@" </dev/null', "-", sys.executable]
    how = {"input": given, "capture_output": True, "check": False, **more}
    how["env"] = {**os.environ, "PRA": needs.program() or ""}
    ran = subprocess.run([*command, f"{words.HERE}/call.py", *line], **how)
    return ran.returncode, ran.stdout, ran.stderr.decode()


class Values(unittest.TestCase):
    def test_a_report_is_one_value(self):
        lines = [
            "procedure 0 M frame 20",
            "round 0 cost 5 bound 2",
            "round 1 cost 2 bound 2",
            "total cost 2 bound 2 code 60",
            "trap Index steps 7 reads 1",
            "pra: nothing was proved",
        ]
        value, others = report_value.value_of("run", 1, lines)
        self.assertEqual(others, lines[-1:])
        (procedure,) = value["procedures"]
        self.assertEqual(procedure["rounds"][1], {"round": 1, "cost": 2, "bound": 2})
        self.assertEqual(value["total"], {"cost": 2, "bound": 2, "code": 60})
        ending = {"how": "trap", "kind": "Index", "steps": 7, "reads": 1}
        self.assertEqual(value["ending"], ending)
        self.assertEqual(value["status"], 1)

    def test_a_refusal_is_told_with_its_numbers(self):
        for line, told in (
            ("fault rule 5 token 28 at 96", {"rule": 5, "token": 28, "at": 96}),
            ("limit nodes count 9 maximum 8", {"count": 9, "maximum": 8}),
            ("fault words", {}),
        ):
            value, _ = report_value.value_of("compile", 3, [line])
            kind, name = line.split()[:2]
            wanted = {"line": line, "kind": kind, "name": name, **told}
            self.assertEqual(value["refused"], wanted)


@needs.compiler
class Calls(unittest.TestCase):
    def test_errors_have_the_form_that_editors_read(self):
        with tempfile.TemporaryDirectory(prefix="pra-call-") as room:
            with open(f"{room}/m.ob", "wb") as file:
                file.write(BAD)
            status, out, notes = call(["--explain", "compile", "m.ob"], cwd=room)
        lines = notes.splitlines()
        self.assertEqual((status, out, lines[0]), (3, b"", "fault rule 5 token 4 at 18"))
        self.assertRegex(lines[1], r"^m\.ob:3:3: error: `x` is declared nowhere")
        self.assertEqual(lines[2:4], ["    x := 1", "    ^"])

    def test_errors_of_certificates_stand_where_their_procedure_begins(self):
        with open(f"{needs.TOP}/examples/course/by-hand.cert", encoding="utf-8") as file:
            text = file.read().replace('"total":4', '"total":3')
        with tempfile.TemporaryDirectory(prefix="pra-call-") as room:
            with open(f"{room}/a.cert", "w", encoding="utf-8") as file:
                file.write(text)
            status, _, notes = call(["--explain", "check", "a.cert"], cwd=room)
        column = text.index('"procs":[') + len('"procs":[') + 1
        line = f"a.cert:1:{column}: error: procedure 0, total: its routes cost 4"
        first, second, *_ = notes.splitlines()
        self.assertEqual((status, first), (3, "fault certificate procedure 0 total"))
        self.assertTrue(second.startswith(line), notes)
        for line, wanted in (
            ("no.cert, procedure 0, total: w", "no.cert, procedure 0, total: error: w"),
            ("a.pri, byte 3: w", "a.pri, byte 3: error: w"),
            ("w", "pra: error: w"),
        ):
            self.assertEqual(front.as_error(line), wanted)

    def test_a_file_that_is_missing_is_told_in_one_way(self):
        for line in (["--explain", "cert", "no.ob"], ["network", "no.ob"], ["show", "no.ob"]):
            status, _, notes = call(line)
            self.assertEqual((status, notes.splitlines()[0]), (5, "fault read file"), line)
            self.assertTrue(notes.endswith("can't be read: No such file or directory\n"), line)

    def test_standard_input_is_read_in_place_of_a_file(self):
        with tempfile.TemporaryDirectory(prefix="pra-call-") as room:
            status, out, _ = call(["compile", "-"], GOOD, cwd=room)
            self.assertEqual(status, 0)
            self.assertTrue(out.startswith(b"procedure 0 M frame "))
            self.assertEqual(os.listdir(room), ["out.pri"])
            status, out, _ = call(["cert", "-", "--rounds", "0"], GOOD, cwd=room)
            self.assertEqual(json.loads(out)["kind"], "pra-certificate")
            status, _, notes = call(["--explain", "cert", "-"], BAD, cwd=room)
            self.assertIn("<stdin>:3:3: error: ", notes)
            status, out, _ = call(["explain", "-"], BAD, cwd=room)
            self.assertEqual((status, out[:12]), (3, b"<stdin>:3:3:"))
            status, out, _ = call(["show", "-", "--rounds", "1"], GOOD, cwd=room)
            self.assertTrue(out.startswith(b"<!DOCTYPE html>"))
            self.assertEqual(call(["run", "-"], GOOD, cwd=room)[::2], (5, "fault read file\n"))
            status, out, _ = call(["code", "-"], GOOD, cwd=room)
            self.assertEqual((status, json.loads(out)["kind"]), (0, "pra-code"))
            status, _, notes = call(["code", "--read", "-"], b"data words 0\n", cwd=room)
            self.assertEqual((status, notes), (3, "<stdin>:2: there is no procedure\n"))

    def test_a_value_stands_where_the_report_would(self):
        with tempfile.TemporaryDirectory(prefix="pra-call-") as room:
            for name, text in (("good.ob", GOOD), ("bad.ob", BAD)):
                with open(f"{room}/{name}", "wb") as file:
                    file.write(text)
            status, out, notes = call(["compile", "good.ob", "--json"], cwd=room)
            self.assertEqual((status, notes), (0, ""))
            self.assertIn("code", json.loads(out)["total"])
            status, out, notes = call(["--json", "run", "good.ob"], b"7", cwd=room)
            self.assertEqual((status, out), (0, b" 7"))
            self.assertEqual(json.loads(notes)["ending"]["reads"], 1)
            status, out, notes = call(["--json", "--explain", "compile", "bad.ob"], cwd=room)
            value = json.loads(out)
            self.assertEqual((status, notes, value["refused"]["rule"]), (3, "", 5))
            self.assertTrue(value["reasons"][0].startswith("bad.ob:3:3: error: "))
            self.assertEqual(call(["--json", "list", "good.ob"], cwd=room)[0], 6)


class Screens(unittest.TestCase):
    def test_each_word_has_help_and_the_version_is_told(self):
        status, out, _ = call(["native", "--help"])
        self.assertEqual(status, 0)
        self.assertIn(b"--assembly", out)
        status, out, _ = call(["--version"])
        self.assertEqual(status, 0)
        self.assertRegex(out, rb"^pra, sources [0-9a-f]{16}")

    def test_help_and_manual_name_every_option_that_scripts_take(self):
        told = "\n".join(words.screen())
        page = "".join(manual.page())
        taken = ["show --input", "facts --moves", "facts --others", "native --report"]
        taken += ["native --object", "native --assembly", "grade --csv", "solve --seconds"]
        taken += ["code --text", "code --read", "code --data-words"]
        for it in taken:
            word, option = it.split()
            self.assertIn(option, words.table()[0][word].names)
            self.assertIn(option, told)
            self.assertIn(option.replace("-", "\\-"), page)

    def test_the_manual_is_read_by_man(self):
        if not shutil.which("man"):
            self.skipTest("man is not here")
        text = "".join(manual.page()).encode()
        how = {"input": text, "capture_output": True, "check": False}
        ran = subprocess.run(["man", "--warnings", "-l", "-"], **how)
        self.assertEqual((ran.returncode, ran.stderr), (0, b""))
        self.assertIn(b"pra completion", ran.stdout)

    def completed(self, *line):
        command = 'eval "$1"; shift; COMP_WORDS=("$@"); COMP_CWORD=$(($# - 1)); _pra; '
        command += 'echo "${COMPREPLY[@]}"'
        ran = subprocess.run(
            ["bash", "-c", command, "-", completion.text(), *line], capture_output=True, check=True
        )
        return ran.stdout.decode().split()

    def test_bash_completes_words_options_and_values(self):
        self.assertEqual(self.completed("pra", "com"), ["compile", "completion"])
        options = ["--moves", "--others", *words.EVERYWHERE]
        self.assertEqual(self.completed("pra", "facts", "--"), options)
        self.assertEqual(self.completed("pra", "run", "--cost", "sp"), ["speed"])
        self.assertEqual(self.completed("pra", "run", "--rounds", ""), [])


class Checkout(unittest.TestCase):
    """A checkout of its own, whose compiler is a shell script that tells its words."""

    def setUp(self):
        room = tempfile.TemporaryDirectory(prefix="pra-checkout-")
        self.addCleanup(room.cleanup)
        self.top = room.name
        top = os.path.dirname(words.HERE)
        ignored = shutil.ignore_patterns("__pycache__")
        shutil.copytree(words.HERE, f"{self.top}/scripts", ignore=ignored)
        for name in ("pra", "crates.txt"):
            shutil.copy(f"{top}/{name}", self.top)
        os.makedirs(f"{self.top}/crates/pra/out")

    def build(self):
        program = f"{self.top}/crates/pra/out/pra"
        for name, text in ((program, FAKE), (f"{program}.sources", "sum\n")):
            with open(name, "w", encoding="utf-8") as file:
                file.write(text)
        os.chmod(program, stat.S_IRWXU)

    def call(self, *line):
        how = {"capture_output": True, "check": False, "stdin": subprocess.DEVNULL}
        ran = subprocess.run([f"{self.top}/pra", *line], cwd=self.top, **how)
        return ran.returncode, ran.stdout.decode(), ran.stderr.decode()

    def test_an_option_that_means_nothing_is_told(self):
        self.build()
        wanted = (0, "called list a --rounds 3 --gap=1\n")
        status, out, notes = self.call("list", "a", "--rounds", "3", "--gap=1")
        self.assertEqual((status, out), wanted)
        told = ["pra: --rounds means nothing to list", "pra: --gap means nothing to list"]
        self.assertEqual(notes.splitlines(), told)
        self.assertEqual(self.call("run", "a", "--rounds", "3")[2], "")
        self.assertEqual(self.call("run", "a", "--what")[2], "")

    def test_a_missing_file_is_told_before_a_build(self):
        self.assertEqual(self.call("run", "no.ob"), (5, "", "fault read file\n"))


class GoesOn(unittest.TestCase):
    def test_a_build_says_that_it_goes_on_where_nobody_has_a_clock(self):
        code = "import time, unproved; unproved.EACH = 0.05\n"
        code += "with unproved.told_to_go_on(): time.sleep(0.3)"
        for clock, wanted in ((None, True), ("yes", False)):
            env = {**os.environ, "PRA_NOTES": "stderr", "PRA_CLOCK": clock or ""}
            how = {"capture_output": True, "check": True, "cwd": words.HERE, "env": env}
            ran = subprocess.run([sys.executable, "-c", code], **how)
            told = b"building the sources unproved, 0 min 0 s so far" in ran.stderr
            self.assertEqual(told, wanted)


if __name__ == "__main__":
    unittest.main()
