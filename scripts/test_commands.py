"""Tests of the script that runs the commands of pages, and of what the pages show."""

import contextlib
import io
import os
import subprocess
import tempfile
import unittest
from unittest import mock

import commands

PROGRAM = os.environ.get("PRA", "")
TEXT = """# A tour

    $ echo one; \\
        echo two
    one
    two

Words.

    $ ./pra run FILE
    what it wrote
    $ exit 3
    status 3
"""


class Pages(unittest.TestCase):
    def test_a_command_and_what_it_writes(self):
        lines = TEXT.split("\n")
        found = [(command, first, last) for _, command, first, last in commands.steps(lines)]
        wanted = [("echo one; echo two", 4, 6), ("./pra run FILE", 10, 11), ("exit 3", 12, 13)]
        self.assertEqual(found, wanted)

    def call(self, text, *words):
        """The status for a page, what is said, and the page afterwards."""
        with tempfile.TemporaryDirectory(prefix="pra-tour-") as room:
            page = f"{room}/TOUR.md"
            for name, script in ((page, text), (f"{room}/it", "#!/bin/sh\necho what it wrote\n")):
                with open(name, "w", encoding="utf-8") as file:
                    file.write(script)
            os.chmod(f"{room}/it", 0o755)
            out = io.StringIO()
            with contextlib.redirect_stdout(out):
                status = commands.main([*words, "--compiler", f"{room}/it", page])
            with open(page, encoding="utf-8") as file:
                return status, out.getvalue(), file.read()

    def test_a_page_that_holds(self):
        status, said, _ = self.call(TEXT)
        self.assertEqual((status, said.splitlines()[-1]), (0, "nothing differs"))

    def test_a_difference_is_told_and_written_on_demand(self):
        other = TEXT.replace("    two\n", "    three\n")
        status, said, left = self.call(other)
        self.assertEqual((status, left), (1, other))
        self.assertIn("-    three\n+    two", said)
        self.assertEqual(self.call(other, "--write")[2], TEXT)

    def test_two_points_stand_for_what_varies(self):
        for shown, now, wanted in (
            (["a .. c"], ["a b c"], True),
            (["a .. c"], ["a b d"], False),
            (["one", "..", "four"], ["one", "two", "three", "four"], True),
            (["one", "..", "four"], ["one", "four"], True),
            (["one", ".."], ["two"], False),
            (["a.b"], ["axb"], False),
        ):
            self.assertEqual(commands.is_shown(shown, now), wanted, shown)

    def test_what_asks_for_a_missing_program_is_left_out_to_the_next_heading(self):
        text = "# A\n\n    $ gdb x\n    y\n    $ echo a\n    b\n\n# B\n\n    $ echo c\n    c\n"
        with mock.patch.object(commands, "is_there", lambda need: need != "gdb"):
            status, said, _ = self.call(text)
        self.assertEqual(status, 0)
        self.assertIn("left out, for want of gdb: gdb x", said)
        self.assertNotIn("$ echo a", said)
        self.assertIn("$ echo c", said)

    def test_words_of_scripts_are_done_by_scripts(self):
        with tempfile.TemporaryDirectory(prefix="pra-tour-") as room:
            commands.make_pra(f"{room}/pra", "/bin/echo")
            cases = ((["help", "run"], "usage: pra run FILE"), (["run", "x"], "run x"))
            for words, wanted in cases:
                ran = subprocess.run([f"{room}/pra", *words], capture_output=True, text=True)
                self.assertIn(wanted, ran.stdout)


@unittest.skipUnless(os.access(PROGRAM, os.X_OK), "no compiler was built, and PRA names none")
class Shown(unittest.TestCase):
    """What README and docs/ show is what their commands write."""

    def test_pages(self):
        left_out = []
        for page in commands.pages_with_commands():
            with self.subTest(page=os.path.basename(page)):
                said = []
                self.assertTrue(commands.check(page, PROGRAM, say=said.append), "\n".join(said))
                left_out += [it for it in said if "for want of" in it and "proofs" not in it]
        if left_out:
            self.skipTest(f"some commands of pages are {left_out[0].partition(':')[0]}")


if __name__ == "__main__":
    unittest.main()
