"""Tests of whole calls of the compiler, with files and streams of the system."""

import os
import re
import shutil
import subprocess
import tempfile
import unittest

import needs

MODULE = b"MODULE M; VAR x: INTEGER; BEGIN Read(x); Write(x) END M."


def call(room, words, given):
    """The status of a call in a folder, what it wrote, and its notes."""
    with open(given, "rb") as stream:
        how = {"stdin": stream, "capture_output": True, "check": False, "cwd": room}
        it = subprocess.run([needs.program(), *words], **how)
    return it.returncode, it.stdout, it.stderr.decode()


def copy_program(program, room):
    """Copies a program below a folder, as pra, with the libraries that it is linked with."""
    shutil.copy(program, f"{room}/pra")
    listed = subprocess.run(["ldd", program], capture_output=True, text=True, check=False).stdout
    for library in re.findall(r"(/\S+) \(0x", listed):
        os.makedirs(f"{room}{os.path.dirname(library)}", exist_ok=True)
        shutil.copy(library, f"{room}{library}")


class Input(unittest.TestCase):
    @needs.compiler
    def test_the_file_behind_the_input_is_never_written_over(self):
        with tempfile.TemporaryDirectory(prefix="pra-calls-") as room:
            given = f"{room}/given"
            with open(f"{room}/m.ob", "wb") as file:
                file.write(MODULE)
            os.symlink(given, f"{room}/link")
            _, certificate, _ = call(room, ["cert", "m.ob"], os.devnull)
            for mode, text in (("run", b"1 2"), ("apply", certificate)):
                for name in ("given", "./given", "link"):
                    with open(given, "wb") as file:
                        file.write(text)
                    status, out, notes = call(room, [mode, "m.ob", "--image", name], given)
                    self.assertEqual((status, out, notes), (5, b"", "fault write file\n"))
                    with open(given, "rb") as file:
                        self.assertEqual(file.read(), text)

    @needs.compiler
    @needs.other_root
    def test_without_proc_no_file_that_is_there_is_written_over(self):
        with tempfile.TemporaryDirectory(prefix="pra-calls-") as room:
            copy_program(needs.program(), room)
            for name, text in (("m.ob", MODULE), ("given", b"1 2"), ("old", b"")):
                with open(f"{room}/{name}", "wb") as file:
                    file.write(text)
            for name in ("given", "old", "new"):
                with open(f"{room}/given", "rb") as stream:
                    command = [*needs.OTHER_ROOT, room, "/pra", "run", "m.ob", "--image", name]
                    ran = subprocess.run(command, stdin=stream, capture_output=True, check=False)
                if name == "new":
                    self.assertEqual((ran.returncode, ran.stdout), (0, b" 1"))
                else:
                    self.assertEqual((ran.returncode, ran.stderr), (5, b"fault write file\n"))
            for name, text in (("given", b"1 2"), ("old", b"")):
                with open(f"{room}/{name}", "rb") as file:
                    self.assertEqual(file.read(), text)

    @needs.compiler
    def test_an_image_is_made_beside_and_renamed(self):
        with tempfile.TemporaryDirectory(prefix="pra-calls-") as room:
            with open(f"{room}/m.ob", "wb") as file:
                file.write(MODULE)
            for name, text in (("first.pri", b"old"), ("out.pri.part0", b"left")):
                with open(f"{room}/{name}", "wb") as file:
                    file.write(text)
            os.link(f"{room}/first.pri", f"{room}/held.pri")
            os.symlink("first.pri", f"{room}/out.pri")
            self.assertEqual(call(room, ["compile", "m.ob"], os.devnull)[0], 0)
            names = ["first.pri", "held.pri", "m.ob", "out.pri", "out.pri.part0"]
            self.assertEqual(sorted(os.listdir(room)), names)
            for name, text in (("held.pri", b"old"), ("out.pri.part0", b"left")):
                with open(f"{room}/{name}", "rb") as file:
                    self.assertEqual(file.read(), text)
            self.assertTrue(os.path.islink(f"{room}/out.pri"))
            self.assertEqual(call(room, ["list", "first.pri"], os.devnull)[0], 0)

    @needs.compiler
    def test_calls_at_once_leave_a_whole_image(self):
        with tempfile.TemporaryDirectory(prefix="pra-calls-") as room:
            for name in "abcdefgh":
                body = "Write(x); " * (90 * (1 + "abcdefgh".index(name)))
                text = MODULE.replace(b"Write(x)", body.encode() + b"Write(x)")
                with open(f"{room}/{name}.ob", "wb") as file:
                    file.write(text)
            how = {"cwd": room, "stdin": subprocess.DEVNULL, "stdout": subprocess.DEVNULL}
            how["stderr"] = subprocess.DEVNULL
            words = ["--rounds", "0", "--image", "it.pri"]
            os.symlink("held.pri", f"{room}/it.pri")
            for _ in range(5):
                calls = [
                    subprocess.Popen([needs.program(), "compile", f"{it}.ob", *words], **how)
                    for it in "abcdefgh"
                ]
                self.assertEqual({it.wait() for it in calls}, {0})
                self.assertEqual(call(room, ["list", "it.pri"], os.devnull)[0], 0)
            self.assertEqual(len(os.listdir(room)), 10)

    @needs.compiler
    def test_a_certificate_that_was_printed_is_applied_and_runs(self):
        with tempfile.TemporaryDirectory(prefix="pra-calls-") as room:
            with open(f"{room}/m.ob", "wb") as file:
                file.write(MODULE)
            with open(f"{room}/m.cert", "wb") as file:
                file.write(call(room, ["cert", "m.ob"], os.devnull)[1])
            with open(f"{room}/numbers", "wb") as file:
                file.write(b"-5")
            status, told, _ = call(room, ["apply", "m.ob"], f"{room}/m.cert")
            self.assertEqual(status, 0)
            self.assertRegex(told, rb"^procedure 0 M frame \d+\nroutes cost \d+ bound \d+\ntotal ")
            ran = call(room, ["exec", "out.pri"], f"{room}/numbers")
            self.assertEqual(ran[:2], (0, b" -5"))
            self.assertRegex(ran[2], r"^ended steps \d+ reads 1\n$")


if __name__ == "__main__":
    unittest.main()
