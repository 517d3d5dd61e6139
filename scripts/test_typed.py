"""Tests of what a person is shown at a terminal while a call runs."""

import os
import pty
import sys
import threading
import time
import unittest
from unittest import mock

import terminal

ECHO = "import sys; text = sys.stdin.read(); print(text, file=sys.stderr)"


class Recorder:
    """A clock that keeps what it was asked for."""

    def __init__(self):
        self.asked = []

    def show(self):
        self.asked.append("show")

    def restart(self):
        self.asked.append("restart")

    def clear(self):
        pass


class Typed(unittest.TestCase):
    """A command that reads what a person types on a terminal."""

    def test_the_clock_is_shown_and_counts_from_where_typing_ends(self):
        master, typed = pty.openpty()
        self.addCleanup(lambda: [os.close(it) for it in (master, typed)])
        clock, while_typed = Recorder(), []

        def person():
            os.write(master, b"1 2\n")
            time.sleep(2.5)
            while_typed.extend(clock.asked)
            os.write(master, b"\x04")

        hand = threading.Thread(target=person)
        hand.start()
        with mock.patch.object(terminal, "write_all", not_to_standard_streams()):
            status, notes = terminal.watched([sys.executable, "-c", ECHO], clock, typed)
        hand.join()
        self.assertEqual((status, notes), (0, b"1 2\n\n"))
        self.assertEqual(while_typed, [])
        self.assertEqual(clock.asked[0], "restart")

    def test_a_clock_that_begins_anew_counts_from_there(self):
        clock = terminal.Clock(2, "pra run")
        clock.begun -= 1000
        clock.restart()
        self.assertLess(time.monotonic() - clock.begun, 500)

    def test_what_waits_for_input_says_so(self):
        master, typed = pty.openpty()
        said = []
        with mock.patch.object(terminal, "INPUT", typed):
            with mock.patch.object(terminal, "write_all", lambda stream, data: said.append(data)):
                self.assertEqual(terminal.typed_for("run"), typed)
                self.assertIsNone(terminal.typed_for("compile"))
        self.assertIn(b"run waits for the program's numbers: type, and end with Ctrl-D", said[0])
        os.close(master)
        os.close(typed)
        with mock.patch.object(terminal, "INPUT", typed):
            self.assertIsNone(terminal.typed_for("run"))


def not_to_standard_streams():
    """Writes to output and notes are left out, so that tests are quiet."""
    plain = terminal.write_all
    return lambda to, data: None if to in (1, 2) else plain(to, data)


if __name__ == "__main__":
    unittest.main()
