"""Tests of the build, with a stand-in for the kit's command."""

import glob
import os
import signal
import stat
import subprocess
import sys
import tempfile
import unittest

import needs

# As lib it leaves a library, as run the program's usage; it fails or lasts in a crate that says so.
KIT = """#!/bin/sh
name=$(basename "$PWD")
echo "$1 $name"
if grep -q fails src/*.rt; then exit 1; fi
if grep -q lasts src/*.rt; then echo $$ >"$ROOM/lasting"; exec sleep 60; fi
if [ "$1" = run ]; then echo "usage: $name"; exit 6; fi
for it in $(sed -n "s/^$name://p" ../../crates.txt); do
    [ -f "../$it/out/rlib/stamp" ] || { echo "no $it"; exit 1; }
done
mkdir -p out/rlib && echo made >out/rlib/stamp
"""
# (a shell has what it begins in the background ignore the interrupt)
CALL = """import signal, sys
signal.signal(signal.SIGINT, signal.default_int_handler)
sys.path.insert(0, sys.argv[1])
import build
build.TOP = sys.argv[2]
sys.exit(build.main(sys.argv[3:]))
"""
SECONDS = 60  # that a build may take here


class Builds(unittest.TestCase):
    """A checkout of three libraries and a program, in a folder of its own."""

    def setUp(self):
        room = tempfile.TemporaryDirectory(prefix="pra-build-")
        self.addCleanup(room.cleanup)
        self.top = room.name
        self.write("crates.txt", "# all\nlow:\nmiddle: low\nhigh: low middle\nprogram: high\n")
        self.write("HANDLES", "")
        for name in ("low", "middle", "high"):
            self.write(f"crates/{name}/src/lib.rt", "// a library\n")
        self.write("crates/program/src/main.rt", "// a program\n")
        os.chmod(self.write("kit/rt", KIT), stat.S_IRWXU)

    def write(self, name, text):
        path = f"{self.top}/{name}"
        os.makedirs(os.path.dirname(path), exist_ok=True)
        with open(path, "w", encoding="utf-8") as file:
            file.write(text)
        return path

    def begin(self, *words):
        path = f"{self.top}/kit:{os.environ['PATH']}"
        how = {"env": {**os.environ, "PATH": path, "ROOM": self.top}, "text": True}
        how.update(stdout=subprocess.PIPE, stderr=subprocess.STDOUT, stdin=subprocess.DEVNULL)
        command = [sys.executable, "-c", CALL, os.path.dirname(os.path.realpath(__file__))]
        return subprocess.Popen([*command, self.top, *words], **how)

    def call(self, *words):
        with self.begin(*words) as it:
            said, _ = it.communicate(timeout=SECONDS)
        return it.returncode, said

    def left(self):
        """What is there of copies of the sources."""
        return glob.glob(f"{self.top}/crates/*/out/copies-*")

    def test_libraries_come_before_what_stands_on_them(self):
        status, said = self.call("program")
        self.assertEqual(status, 0, said)
        at = [said.index(f"proving {it},") for it in ("low", "middle", "high", "program")]
        self.assertEqual(at, sorted(at))
        for it in ("low", "middle", "high"):
            self.assertTrue(os.path.isfile(f"{self.top}/crates/{it}/out/rlib/stamp"), it)
        self.assertEqual(self.left(), [])
        with open(f"{self.top}/crates/program/out/program.sources", encoding="utf-8") as file:
            self.assertEqual((0, file.read()), self.call("--sum", "program"))

    def test_another_source_has_another_sum(self):
        before = self.call("--sum", "program")
        self.write("crates/low/src/lib.rt", "// another library\n")
        self.assertNotEqual(before, self.call("--sum", "program"))

    def test_what_is_no_program_is_refused_and_leaves_nothing(self):
        for words in (("--help",), ("low",), ("none",), ("program", "program")):
            status, said = self.call(*words)
            self.assertEqual((status, said.split("\n")[0][:11]), (6, "fault words"), words)
        self.assertEqual(glob.glob(f"{self.top}/crates/*/out"), [])

    def test_a_crate_without_proof_is_told(self):
        self.write("crates/middle/src/lib.rt", "// it fails\n")
        status, said = self.call("program")
        self.assertEqual((status, self.left()), (70, []))
        self.assertIn("middle was not built", said)
        self.assertNotIn("proving high", said)

    def test_a_signal_ends_all_that_was_begun(self):
        self.write("crates/high/src/lib.rt", "// it lasts\n")
        for number in (signal.SIGINT, signal.SIGTERM, signal.SIGHUP, signal.SIGKILL):
            with self.begin("program") as it:
                kit = needs.process_in(f"{self.top}/lasting")
                it.send_signal(number)
                said, _ = it.communicate(timeout=SECONDS)
            wanted = -number if number == signal.SIGKILL else 128 + number
            self.assertEqual(it.returncode, wanted, said)
            self.assertEqual(len(self.left()), number == signal.SIGKILL)
            self.assertNotIn("Traceback", said)
            self.assertTrue(needs.has_ended(kit), "it goes on")
        self.assertTrue(os.path.isfile(f"{self.top}/crates/middle/out/rlib/stamp"), "that stays")
        self.write("crates/high/src/lib.rt", "// it is proved\n")
        self.assertEqual((self.call("program")[0], self.left()), (0, []))

    def test_builds_at_once_come_one_after_the_other(self):
        calls = [self.begin("program") for _ in range(2)]
        said = [it.communicate(timeout=SECONDS)[0] for it in calls]
        self.assertEqual([it.returncode for it in calls], [0, 0], said)
        self.assertEqual("".join(said).count("another build goes on"), 1, said)


if __name__ == "__main__":
    unittest.main()
