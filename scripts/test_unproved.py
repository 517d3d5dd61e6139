"""Tests of the unproved programs that are kept, without the kit."""

import os
import stat
import subprocess
import sys
import tempfile
import threading
import unittest
from unittest import mock

import build
import kept
import needs
import translation
import unproved

SAYS = "#!/bin/sh\necho out; echo notes >&2; cat; exit 3\n"
STOPS = "#!/bin/sh\nexit 70\n"


class Kept(unittest.TestCase):
    """A checkout in a folder of its own, whose program is a shell script."""

    def setUp(self):
        room = tempfile.TemporaryDirectory(prefix="pra-unproved-")
        self.addCleanup(room.cleanup)
        self.top, self.kit = room.name, f"{room.name}/rt"
        os.makedirs(f"{self.top}/crates/pra/src")
        for name in ("crates.txt", "crates/pra/src/main.rt"):
            self.write(name, "pra: pra_base\n")
        self.write("rt", "")
        for module, name, value in (
            (build, "TOP", self.top),
            (kept, "KEPT", f"{self.top}/.unproved"),
            (translation, "kit", lambda: self.kit),
            (kept, "sum_of", lambda _: self.sum),
        ):
            patch = mock.patch.object(module, name, value)
            patch.start()
            self.addCleanup(patch.stop)
        self.sum = "a" * 64
        os.makedirs(kept.KEPT)

    def write(self, name, text):
        with open(f"{self.top}/{name}", "w", encoding="utf-8") as file:
            file.write(text)
        return f"{self.top}/{name}"

    def hand_in(self, text=SAYS):
        """Keeps a program, as a build does."""
        with tempfile.TemporaryDirectory(dir=kept.KEPT) as room:
            with open(f"{room}/pra", "w", encoding="utf-8") as file:
                file.write(text)
            os.chmod(f"{room}/pra", stat.S_IRWXU)
            return kept.hand_in(f"{room}/pra", "pra", self.sum, room)

    def kept(self):
        return kept.program("pra")

    def test_nothing_is_kept_at_first(self):
        self.assertIsNone(self.kept())

    def test_what_was_handed_in_is_kept(self):
        name = self.hand_in()
        self.assertEqual(self.kept(), name)

    def test_a_source_that_was_touched_alone_asks_for_no_build(self):
        name = self.hand_in()
        later = os.stat(f"{kept.KEPT}/pra.sum").st_mtime + 10
        os.utime(f"{self.top}/crates/pra/src/main.rt", (later, later))
        self.assertEqual(self.kept(), name)

    def test_another_sum_asks_for_a_build(self):
        self.hand_in()
        later = os.stat(f"{kept.KEPT}/pra.sum").st_mtime + 10
        os.utime(f"{self.top}/crates/pra/src/main.rt", (later, later))
        self.sum = "b" * 64
        self.assertIsNone(self.kept())

    def test_a_new_program_takes_the_place_of_the_old_one(self):
        old = self.hand_in()
        self.sum = "b" * 64
        new = self.hand_in()
        self.assertFalse(os.path.exists(old))
        self.assertEqual(self.kept(), new)

    def test_builds_at_once_leave_one_whole_program(self):
        threads = [threading.Thread(target=self.hand_in) for _ in range(8)]
        for it in threads:
            it.start()
        for it in threads:
            it.join()
        self.assertEqual(self.kept(), f"{kept.KEPT}/pra-{self.sum[:16]}")
        self.assertEqual(sorted(os.listdir(kept.KEPT)), [f"pra-{self.sum[:16]}", "pra.sum"])


class Runs(unittest.TestCase):
    """unproved.run in a process of its own, with a shell script as the program."""

    def call(self, text, words=()):
        with tempfile.TemporaryDirectory(prefix="pra-unproved-") as room:
            program = f"{room}/program"
            with open(program, "w", encoding="utf-8") as file:
                file.write(text)
            os.chmod(program, stat.S_IRWXU)
            code = (
                "import os, sys; sys.path.insert(0, sys.argv[1]); import unproved\n"
                "os.dup2(0, 3)\n"
                "words = [os.fsencode(it) for it in sys.argv[3:]]\n"
                "sys.exit(unproved.run(sys.argv[2], words))\n"
            )
            command = [sys.executable, "-c", code, os.path.dirname(unproved.__file__), program]
            how = {"input": b"given", "capture_output": True, "check": False}
            return subprocess.run([*command, *words], **how)

    def test_streams_and_status_are_the_programs(self):
        ran = self.call(SAYS)
        self.assertEqual((ran.returncode, ran.stdout), (3, b"out\ngiven"))
        self.assertEqual(ran.stderr, b"notes\n")

    def test_words_are_handed_on_to_the_byte(self):
        ran = self.call('#!/bin/sh\nprintf "%s|" "$@"\n', ["a b", "--x=", "\udcff"])
        self.assertEqual(ran.stdout, b"a b|--x=|\xff|")

    def test_a_check_that_stops_it_is_no_answer(self):
        self.assertIn(b"NoAnswer", self.call(STOPS).stderr)
        self.assertIn(b"NoAnswer", self.call("#!/bin/sh\nkill -ILL $$\n").stderr)


TRANSLATION = b"""\
target triple = "x86_64-unknown-linux-gnu"
@static.0 = private unnamed_addr constant [1 x i8] c"\\15", align 1
declare void @"write"(ptr)
define internal noundef i32 @"pra::main"(ptr noundef %a0) #0 {
  call void @"rattle-llvm-checks::index"(ptr %a0)
  %x = call i32 @"pra::words"(ptr %a0)
  ret i32 %x
}
define internal i32 @"pra::words"(ptr %a0) #0 {
  ret i32 1
}
define internal void @never() #0 {
  call void @"pra::words"(ptr null)
  ret void
}
define i32 @main() #1 {
  %x = call i32 @"pra::main"(ptr @static.0)
  ret i32 %x
}
attributes #0 = { nounwind sanitize_address "frame-pointer"="all" }
attributes #1 = { "probe-stack"="inline-asm" sanitize_address }
!llvm.ident = !{!0}
"""


class Parts(unittest.TestCase):
    """What a translation is compiled in."""

    def parts(self, count):
        lines = translation.without_watch(TRANSLATION.splitlines(keepends=True))
        with tempfile.TemporaryDirectory(prefix="pra-unproved-") as room:
            names = translation.write_parts(lines, count, room)
            self.assertEqual(len(names), count)
            texts = []
            for name in names:
                with open(f"{room}/{name}.ll", encoding="utf-8") as text:
                    texts.append(text.read())
        return texts

    def test_each_function_is_defined_once_and_known_everywhere(self):
        for count in 1, 2, 3, 5:
            texts = self.parts(count)
            for name in '@"pra::main"(', '@"pra::words"(', "@main(":
                heads = [
                    [line for line in text.splitlines() if name in line and line[0] == "d"]
                    for text in texts
                ]
                self.assertEqual([len(it) for it in heads], [1] * count)
                defined = [it for it, in heads if it.startswith("define ")]
                self.assertEqual(len(defined), 1)
                self.assertEqual([it for it, in heads if "internal" in it], [])

    def test_what_is_never_called_is_left_out(self):
        self.assertNotIn("@never", "".join(self.parts(3)))

    def test_each_part_has_constants_and_attributes(self):
        for text in self.parts(2):
            lines = text.splitlines()
            self.assertEqual(len([it for it in lines if it.startswith("@static.0 = private")]), 1)
            self.assertIn('declare void @"write"(ptr)', lines)
            self.assertEqual(len([it for it in lines if it.startswith("attributes #")]), 2)

    def test_nothing_is_left_of_the_watch(self):
        text = "".join(self.parts(2))
        for word in "rattle-llvm-checks", "sanitize_address", "frame-pointer", "probe-stack":
            self.assertNotIn(word, text)


class Reasons(unittest.TestCase):
    def test_what_rt_try_says_is_told(self):
        said = b"warning\nchecked: no-answer: the kit lacks a linker\nrun=none proved=no\n"
        self.assertIn("the kit lacks a linker", translation.why_not(said))
        self.assertIn("error: x", translation.why_not(b"error: x\n"))


if __name__ == "__main__":
    unittest.main()
