"""Tests of calls at a terminal, with a stand-in for ./pra."""

import os
import pty
import signal
import stat
import subprocess
import sys
import tempfile
import unittest

import needs

CALL = """import sys
sys.path.insert(0, sys.argv[1])
import stopped, terminal
terminal.TOP = sys.argv[2]
stopped.by_signals()
sys.exit(terminal.main(["run", "a.ob"]))
"""
LASTING = """#!/bin/sh
echo $$ >"${0%/*}/new" && mv "${0%/*}/new" "${0%/*}/lasting"
exec sleep 600
"""
TELLING = """#!/bin/sh
trap '' PIPE
while echo line; do :; done 2>/dev/null
exit 9
"""


class Calls(unittest.TestCase):
    def setUp(self):
        room = tempfile.TemporaryDirectory(prefix="pra-terminal-")
        self.addCleanup(room.cleanup)
        self.room = room.name

    def begin(self, text, **how):
        with open(f"{self.room}/pra", "w", encoding="utf-8") as file:
            file.write(text)
        os.chmod(f"{self.room}/pra", stat.S_IRWXU)
        command = [sys.executable, "-c", CALL, os.path.dirname(os.path.realpath(__file__))]
        how = {"stdin": subprocess.DEVNULL, "stderr": subprocess.PIPE, **how}
        return subprocess.Popen([*command, self.room], **how)

    def test_a_call_that_ends_ends_its_program(self):
        for number in (signal.SIGHUP, signal.SIGTERM, signal.SIGKILL):
            with self.begin(LASTING, stdout=subprocess.PIPE) as it:
                program = needs.process_in(f"{self.room}/lasting")
                it.send_signal(number)
                it.communicate(timeout=60)
            self.assertTrue(needs.has_ended(program), number)

    def test_a_terminal_that_is_gone_leaves_no_traceback(self):
        reader, writer = pty.openpty()
        with self.begin(TELLING, stdout=writer) as it:
            os.close(writer)
            os.read(reader, 4)
            os.close(reader)
            _, notes = it.communicate(timeout=60)
        self.assertEqual((it.returncode, notes), (9, b""))


if __name__ == "__main__":
    unittest.main()
