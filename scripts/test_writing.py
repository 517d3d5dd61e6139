"""Tests of how scripts write files and output."""

import os
import stat
import subprocess
import sys
import tempfile
import threading
import unittest
from unittest import mock

import writing
from processor.image import Image

HERE = os.path.dirname(os.path.realpath(__file__))
SCRIPT = """import sys; sys.path.insert(0, sys.argv[1]); import stopped
def call():
    print("answer\\n" * int(sys.argv[2]), end="")
    print("note", file=sys.stderr)
    return 3
sys.exit(stopped.status_of(call))
"""
MANY = 100000  # lines that no pipe holds
FAULT = "fault write file\n"


def held(name):
    with open(name, "rb") as file:
        return file.read()


class InAFolder(unittest.TestCase):
    def setUp(self):
        room = tempfile.TemporaryDirectory(prefix="pra-writing-")
        self.addCleanup(room.cleanup)
        self.room = room.name

    def path(self, name):
        return f"{self.room}/{name}"

    def file(self, name, data=b"old"):
        with open(self.path(name), "wb") as file:
            file.write(data)
        return self.path(name)

    def names(self):
        return sorted(os.listdir(self.room))


class Files(InAFolder):
    def refused(self, name, read=()):
        with self.assertRaises(writing.WriteFault) as caught:
            writing.write(name, b"new", read)
        self.assertTrue(str(caught.exception).startswith(FAULT))
        with self.assertRaises(writing.WriteFault):
            writing.check(name, read)

    def test_a_new_file_is_made_and_an_old_one_keeps_what_it_may_be_used_for(self):
        self.addCleanup(os.umask, os.umask(0o022))
        for name, is_program, mode in (("new", False, 0o644), ("program", True, 0o755)):
            writing.write(self.path(name), b"new", is_program=is_program)
            self.assertEqual(held(self.path(name)), b"new")
            self.assertEqual(stat.S_IMODE(os.stat(self.path(name)).st_mode), mode)
        os.chmod(self.file("old"), 0o600)
        writing.write(self.path("old"), b"newer")
        self.assertEqual(held(self.path("old")), b"newer")
        self.assertEqual(stat.S_IMODE(os.stat(self.path("old")).st_mode), 0o600)
        self.assertEqual(self.names(), ["new", "old", "program"])

    def test_what_was_read_is_never_written_over(self):
        source = self.file("a.ob")
        os.symlink("a.ob", self.path("link"))
        os.link(source, self.path("hard"))
        for name in (source, f"{self.room}/./a.ob", self.path("link"), self.path("hard")):
            for read in ([source], ["no such file", self.path("link")], [self.path("hard")]):
                self.refused(name, read)
        self.assertEqual(held(source), b"old")
        self.assertEqual(self.names(), ["a.ob", "hard", "link"])

    def test_a_folder_is_no_file(self):
        os.mkdir(self.path("folder"))
        for name in ("folder", "folder/", "new/", "", ".", "folder/.."):
            self.refused(self.path(name) if name else name)
        self.assertEqual(os.listdir(self.path("folder")), [])
        self.assertEqual(self.names(), ["folder"])

    def test_a_link_stays_one_and_its_file_is_replaced(self):
        self.file("target")
        os.symlink("target", self.path("link"))
        os.symlink("later", self.path("ahead"))
        writing.write(self.path("link"), b"new")
        writing.write(self.path("ahead"), b"new")
        for name, target in (("link", "target"), ("ahead", "later")):
            self.assertEqual(os.readlink(self.path(name)), target)
            self.assertEqual(held(self.path(target)), b"new")

    def test_the_old_file_stays_whole_where_the_new_one_is_not(self):
        name = self.file("old")
        for failing in ("rename", "fchmod"):
            with mock.patch.object(os, failing, side_effect=OSError(28, "no room")):
                with self.assertRaises(writing.WriteFault):
                    writing.write(name, b"new")
        with mock.patch.object(os, "rename", side_effect=KeyboardInterrupt):
            with self.assertRaises(KeyboardInterrupt):
                writing.write(name, b"new")
        self.assertEqual((held(name), self.names()), (b"old", ["old"]))

    def test_calls_at_once_and_what_a_killed_one_left_do_no_harm(self):
        self.file(f".pra-{'0' * 16}.part", b"left")
        texts = [bytes([it]) * 1000000 for it in b"abcdefgh"]
        calls = [
            threading.Thread(target=writing.write, args=(self.path("out"), it)) for it in texts
        ]
        for it in calls:
            it.start()
        for it in calls:
            it.join()
        self.assertIn(held(self.path("out")), texts)
        self.assertEqual(len(self.names()), 2)

    def test_devices_are_written_to_and_faults_are_told(self):
        writing.write(os.devnull, b"new")
        self.assertTrue(stat.S_ISCHR(os.stat(os.devnull).st_mode))
        if os.path.exists("/dev/full"):
            with self.assertRaises(writing.WriteFault):
                writing.write("/dev/full", b"new")
        with self.assertRaises(writing.WriteFault):
            writing.write(self.path("none/new"), b"new")


class Output(unittest.TestCase):
    def call(self, redirection, lines=1):
        """The status of a script whose streams a shell changes, and what it wrote."""
        command = [sys.executable, "-c", SCRIPT, HERE, str(lines)]
        shell = ["bash", "-c", f'"$@" {redirection}', "bash", *command]
        ran = subprocess.run(shell, stdin=subprocess.DEVNULL, capture_output=True, text=True)
        return ran.returncode, ran.stdout, ran.stderr

    def test_it_goes_out_with_the_status(self):
        self.assertEqual(self.call(""), (3, "answer\n", "note\n"))

    def test_where_it_is_closed_full_or_ends_that_is_a_fault(self):
        fault = "fault write out\n"
        for redirection, notes in ((">&-", "note\n"), (">/dev/full", "note\n")):
            self.assertEqual(self.call(redirection), (5, "", notes + fault))
            self.assertEqual(self.call(redirection, MANY), (5, "", fault))
        piped = self.call("| head -1; exit ${PIPESTATUS[0]}", MANY)
        self.assertEqual(piped, (5, "answer\n", fault))

    def test_notes_that_can_not_be_written_are_left_out(self):
        for redirection in ("2>&-", "2>/dev/full"):
            self.assertEqual(self.call(redirection), (3, "answer\n", ""))
            self.assertEqual(self.call(f"{redirection} >&-"), (5, "", ""))


class Scripts(InAFolder):
    """Calls whose file would be one that they read, or a folder. No compiler is asked."""

    def call(self, script, *words):
        command = [sys.executable, f"{HERE}/{script}", *words]
        how = {"cwd": self.room, "stdin": subprocess.DEVNULL, "capture_output": True}
        ran = subprocess.run(command, **how)
        return ran.returncode, ran.stdout, ran.stderr.decode()

    def refused(self, script, *words):
        before = {it: held(self.path(it)) for it in self.names() if os.path.isfile(self.path(it))}
        status, out, notes = self.call(script, *words)
        self.assertEqual((status, out, notes[: len(FAULT)]), (5, b"", FAULT), words)
        self.assertNotIn("Traceback", notes)
        for name, data in before.items():
            self.assertEqual(held(self.path(name)), data)

    def test_grade_writes_its_table_over_nothing_that_it_reads(self):
        self.file("a.ob")
        self.file("b.ob")
        self.file("solver")
        os.mkdir(self.path("sol"))
        self.file("sol/a.cert")
        none = ("--compiler", "/bin/false")
        for name in ("b.ob", "./a.ob", "sol/a.cert", "sol"):
            self.refused("grade.py", "a.ob", "b.ob", "--folder", "sol", "--csv", name, *none)
        self.refused("grade.py", "a.ob", "--command", "./solver x", "--csv", "solver", *none)

    def test_show_writes_its_page_over_nothing_that_it_reads(self):
        self.file("a.ob")
        none = ("--compiler", "/bin/false")
        self.file("a.ob.html")
        self.refused("show.py", "a.ob", "--input", "a.ob.html", *none)
        self.refused("show.py", "a.ob", "a.ob.html", *none)
        os.remove(self.path("a.ob.html"))
        os.symlink("a.ob", self.path("a.ob.html"))
        self.refused("show.py", "a.ob", *none)
        os.remove(self.path("a.ob.html"))
        os.mkdir(self.path("a.ob.html"))
        self.refused("show.py", "a.ob", *none)

    def test_native_writes_its_program_over_no_folder(self):
        self.file("x.pri", Image(b"\xc3", 0).to_bytes())
        os.makedirs(self.path("x/program"))
        self.refused("native.py", "x.pri")
        self.refused("native.py", "x.pri", "-o", "x/")
        self.assertEqual(os.listdir(self.path("x")), ["program"])


if __name__ == "__main__":
    unittest.main()
