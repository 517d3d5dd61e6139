"""The compiler, called as a program."""

import functools
import os
import signal
import subprocess
import sys
import tempfile
import threading

import stopped
from checker import given as checked
from pranet import certificate, code_file

TOP = os.path.dirname(os.path.dirname(os.path.dirname(os.path.realpath(__file__))))
ANY_BYTES = "surrogateescape"  # how bytes that are no text go through one
DEFAULT = f"{TOP}/pra"  # which runs unproved before it was built
TAKE_CODE = ("run", "compile", "interp", "cert", "apply")  # the modes that have --from


class Refused(Exception):
    """A call of the compiler that did not end well: what it was, its status and what it said."""

    def __init__(self, call, status, said):
        super().__init__(f"{call} answers status {status}")
        self.status, self.said = status, said


def default_program():
    """The program that the environment names, or ./pra."""
    return os.environ.get("PRA", DEFAULT)


@functools.cache
def takes_code(program):
    """Whether the program's line of usage has the option that says what FILE is."""
    how = {"stdin": subprocess.DEVNULL, "capture_output": True, "check": False}
    return b"--from" in subprocess.run([program], **how).stderr


def with_source(words, program=None):
    """The words of a call, which say so where FILE is a code file. That is decided here alone, by
    what the file holds. A program that takes no code files is not called."""
    if len(words) < 2 or words[0] not in TAKE_CODE or not code_file.holds_code(words[1]):
        return list(words)
    if not takes_code(program or default_program()):
        raise Refused(f"pra {words[0]}", 70, b"pra: the compiler takes no code files\n")
    return [*words[:2], "--from", "code", *words[2:]]


class Compiler:
    """The compiler, called as a program. A clock, if there is one, says at a terminal which call
    takes how long. What ./pra says of itself, as that nothing was proved, is said once for all
    calls, and at once."""

    said = set()  # the lines of ./pra on itself that were said

    def __init__(self, program, clock=None):
        self.program, self.clock = program, clock

    def call(self, *words, given=subprocess.DEVNULL, good=(0,)):
        """What a call writes to standard output and to standard error."""
        status, out, notes = self.ran(*words, given=given)
        if status not in good:
            raise Refused(f"pra {words[0]}", status, notes)
        return out, notes

    def ran(self, *words, given=subprocess.DEVNULL):
        """The status of a call, and what it writes to standard output and to standard error."""
        how = {"stdin": given, "stdout": subprocess.PIPE, "stderr": subprocess.PIPE}
        how["env"] = {**os.environ, "PRA_NOTES": "stderr"}
        how["preexec_fn"] = stopped.ends_with_parent(signal.SIGTERM)
        notes = []
        with subprocess.Popen([self.program, *with_source(words, self.program)], **how) as it:
            stream, it.stderr = it.stderr, None
            hearing = threading.Thread(target=self.hear, args=(stream, notes))
            hearing.start()
            out = self.output(it, words[0])
            hearing.join()
        return it.returncode, out, b"".join(notes)

    def hear(self, stream, notes):
        """Takes the lines of a stream as notes, but for those of ./pra on itself."""
        with stream:
            for line in stream:
                if not line.startswith(b"pra: "):
                    notes.append(line)
                elif line not in self.said:
                    self.said.add(line)
                    print(line.decode(errors="replace"), end="", file=sys.stderr, flush=True)

    def output(self, process, mode):
        """What a process writes to standard output, once it has ended."""
        try:
            while self.clock:
                try:
                    return process.communicate(timeout=1)[0]
                except subprocess.TimeoutExpired:
                    self.clock.name = f"pra show, at {mode}"
                    self.clock.show()
            return process.communicate()[0]
        finally:
            process.terminate()
            if self.clock:
                self.clock.clear()

    def certificate(self, file, cost, rounds):
        """The certificate of a module after so many rounds."""
        text, _ = self.call("cert", file, "--cost", cost, "--rounds", str(rounds))
        return certificate.read(text.decode())

    def problem(self, file, cost, rounds=0):
        """The certificate that a file holds, or that of the module or the code which it holds, and
        whether it is one of these two. No module begins with the brace that the others begin with.
        The cost is what all are to be paid by; without one that of the certificate, or `size`."""
        with open(file, "rb") as source:
            held = source.read()
        if code_file.is_code(held):
            checked.code_of(file, held)  # so that what breaks a rule is told in words
        elif code_file.begins_with_brace(held):
            known = checked.known_of(file, held)
            known.cost = cost or known.cost
            return known, False
        return self.certificate(file, cost or "size", rounds), True

    def check(self, text):
        """The status of `check` for a certificate's text, and what it says."""
        with tempfile.NamedTemporaryFile(suffix=".cert") as file:
            file.write(text.encode(errors=ANY_BYTES))
            file.flush()
            status, out, notes = self.ran("check", file.name)
        return status, (out + notes).decode(errors="replace")
