"""Tests that what a check asks of memory is linear in the text, however large its network would be,
and that the worst inputs are what they are said to be.

What is counted are bytes that allocations ask for, all of them together, so that a busy machine
changes nothing.
"""

import json
import os
import resource
import shutil
import subprocess
import sys
import tempfile
import unittest
from unittest import mock

import needs
import refused

sys.path.insert(0, f"{refused.TOP}/bench")
import worst_inputs  # noqa: E402

MOST = 200  # bytes asked for, for each byte of a text
STACK = 640 << 10  # bytes that calls take at most, however deep phrases nest


@needs.compiler
@unittest.skipUnless(shutil.which("gcc"), "gcc is not here")
class Hostile(unittest.TestCase):
    def setUp(self):
        room = tempfile.TemporaryDirectory(prefix="pra-hostile-")
        self.addCleanup(room.cleanup)
        self.room, self.shim = room.name, f"{room.name}/refuse.so"
        gcc = ["gcc", "-shared", "-fPIC", "-O1", "-o", self.shim, refused.SHIM, "-ldl"]
        subprocess.run(gcc, check=True)

    def checked(self, text):
        """The answer of `check`, and how many bytes were asked for, for each byte of the text."""
        with open(f"{self.room}/X.cert", "w", encoding="ascii") as file:
            file.write(text)
        env = {**os.environ, "LD_PRELOAD": self.shim, "REFUSE_COUNT": f"{self.room}/count"}
        command = [needs.program(), "check", f"{self.room}/X.cert"]
        ran = subprocess.run(command, env=env, capture_output=True, text=True, check=False)
        with open(f"{self.room}/count", encoding="ascii") as file:
            told = (ran.stdout + ran.stderr).strip()
            return told, int(file.read().split()[1]) / len(text)

    def test_a_small_text_about_a_large_network_is_refused_in_its_own_size(self):
        made = worst_inputs
        for code, name in (
            (made.everywhere(400), "all variables live in 400 blocks"),
            (made.everywhere(4090), "all variables live in 4,090 blocks"),
            (made.leaps(), "each variable comes to all blocks on its own way"),
            (made.long_block(8300), "all variables live in one long block"),
        ):
            for routes in [], [[6]] * 3:
                told, each = self.checked(made.certificate(code, routes))
                with self.subTest(name=name, routes=len(routes)):
                    self.assertEqual(told, "fault certificate procedure 0 routes")
                    self.assertLess(each, MOST)

    def test_what_holds_takes_its_network(self):
        text = worst_inputs.certificate(
            worst_inputs.backwards(), [[6, 6]] * (worst_inputs.BLOCKS - 2), 4
        )
        told, each = self.checked(text)
        self.assertTrue(told.endswith("certificate holds"), told)
        self.assertLess(each, MOST)


@needs.compiler
class Inputs(unittest.TestCase):
    """The files that `bench/worst_inputs.py` writes."""

    def setUp(self):
        room = tempfile.TemporaryDirectory(prefix="pra-hostile-")
        self.addCleanup(room.cleanup)
        self.room = room.name

    def ran(self, mode, name, text, *words, stack=None):
        """A call on a file of this text, with so many bytes of stack."""
        with open(f"{self.room}/{name}", "w", encoding="ascii") as file:
            file.write(text)

        def confine():
            resource.setrlimit(resource.RLIMIT_CORE, (0, 0))
            if stack:
                resource.setrlimit(resource.RLIMIT_STACK, (stack, stack))

        command = [needs.program(), mode, f"{self.room}/{name}", *words]
        return subprocess.run(
            command,
            capture_output=True,
            text=True,
            stdin=subprocess.DEVNULL,
            preexec_fn=confine,
            check=False,
        )

    def test_each_kind_of_module_keeps_all_limits(self):
        texts = worst_inputs.all_texts().items()
        modules = {name: text for name, text in texts if name.endswith(".ob")}
        for name, text in modules.items():
            many = name.removesuffix(".ob").rpartition("_")[2].isdigit()
            with self.subTest(name=name):
                if many:
                    # Of a module of many procedures its text alone is looked at.
                    self.assertLessEqual(len(text), 1 << 20)
                else:
                    told = self.ran("compile", name, text, "--rounds", "0")
                    self.assertEqual((told.returncode, told.stderr), (0, ""), told.stdout)

    def test_the_deepest_phrases_need_little_stack(self):
        for name, text in worst_inputs.all_texts().items():
            if name.startswith("deep_"):
                for mode in "compile", "run", "interp", "cert":
                    told = self.ran(mode, name, text, stack=STACK)
                    with self.subTest(name=name, mode=mode):
                        self.assertGreaterEqual(told.returncode, 0)

    def test_a_unit_of_the_longest_test_is_one_test(self):
        text = worst_inputs.long_turns()
        told = self.ran("interp", "long_turns.ob", text, "--steps", "100")
        self.assertEqual(told.stderr.splitlines()[-1], "going units 100 reads 0")

    def test_large_certificates_are_json_and_refused(self):
        for name, text in worst_inputs.large().items():
            self.assertLessEqual(len(text), worst_inputs.MAX_BYTES, name)
            self.assertGreater(len(text), worst_inputs.MAX_BYTES - 1000, name)
        with mock.patch.object(worst_inputs, "MAX_BYTES", 4000):
            for name, text in worst_inputs.large().items():
                with self.subTest(name=name):
                    json.loads(text)
                    told = self.ran("check", name, text)
                    self.assertEqual(told.returncode, 3)
                    self.assertRegex(told.stderr, "^fault certificate (form|procedure 0 .*)\n$")

    @needs.from_code
    def test_code_files_are_what_they_are_said_to_be(self):
        for name, text in {**worst_inputs.codes(), **worst_inputs.refused_codes()}.items():
            self.assertLessEqual(len(text), worst_inputs.MAX_BYTES, name)
        with (
            mock.patch.object(worst_inputs, "MAX_BYTES", 400000),
            mock.patch.object(worst_inputs, "PROCEDURES", 300),
        ):
            for name, text in {**worst_inputs.codes(), **worst_inputs.refused_codes()}.items():
                told = self.ran("cert", name, text, "--from", "code", "--rounds", "0")
                with self.subTest(name=name):
                    if name.startswith("refused_") and "procedures" not in name:
                        number = 299 if "last" in name else 0
                        self.assertEqual(told.stderr, f"fault code procedure {number}\n")
                    else:
                        self.assertEqual((told.returncode, told.stderr), (0, ""))


if __name__ == "__main__":
    unittest.main()
