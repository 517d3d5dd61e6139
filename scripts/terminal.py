#!/usr/bin/env python3
"""Runs ./pra for a person at a terminal.

    terminal.py WORD .. 3<INPUT

Output and status are those of the call ./pra WORD .. <INPUT. A call that lasts says how long it has
been going, in a line that goes again; one that waits for what is typed says so first, and counts
from where that ends; a refusal ends with what it means.
"""

import os
import selectors
import signal
import subprocess
import sys
import time

import explain
import stopped
import words as known_words

TOP = os.path.dirname(os.path.dirname(os.path.realpath(__file__)))
INPUT = 3  # the stream that is the program's standard input, closed where that is
PATIENCE = 2  # seconds that a call may take before it is told how long it has been going
PIECE = 1 << 16  # bytes that are handed on at once
REFUSED = range(3, 8)  # statuses of refusals that have a line
NO_WORDS = 6
CLEAR = b"\r\x1b[K"
READ_INPUT = {"apply": "a certificate"}  # what a mode reads from standard input
READ_INPUT |= dict.fromkeys(("run", "interp", "exec"), "the program's numbers")


class Clock:
    """A line that says how long a call has been going, on a stream that is a terminal."""

    def __init__(self, stream, name):
        self.stream, self.name = stream, name
        self.begun, self.is_shown = time.monotonic(), False

    def restart(self):
        self.begun = time.monotonic()

    def show(self):
        seconds = int(time.monotonic() - self.begun)
        if seconds >= PATIENCE:
            told = f"pra: {self.name}, {seconds // 60} min {seconds % 60} s"
            write_all(self.stream, CLEAR + told.encode(errors="replace"))
            self.is_shown = True

    def clear(self):
        if self.is_shown:
            write_all(self.stream, CLEAR)
            self.is_shown = False


def write_all(stream, data):
    while data:
        data = data[os.write(stream, data) :]


class Watch:
    """A command that runs, whose output and notes go to the terminal with the clock below them, and
    which gets what is typed until that ends. Without a clock nothing is counted."""

    def __init__(self, process, clock, typed):
        self.process, self.clock, self.typed = process, clock, typed
        self.notes, self.streams = bytearray(), {}
        self.ready = selectors.DefaultSelector()
        for pipe, stream in ((process.stdout, 1), (process.stderr, 2)):
            if pipe:
                self.streams[pipe] = stream
                self.ready.register(pipe, selectors.EVENT_READ)
        if typed is not None:
            self.ready.register(typed, selectors.EVENT_READ)

    def hand_in(self):
        """Gives the command what was typed, or its end, from which on the clock counts."""
        data = os.read(self.typed, PIECE)
        try:
            write_all(self.process.stdin.fileno(), data)
        except BrokenPipeError:
            data = b""
        if not data:
            self.ready.unregister(self.typed)
            self.process.stdin.close()
            self.typed = None
            if self.clock:
                self.clock.restart()

    def tell(self, pipe):
        data = os.read(pipe.fileno(), PIECE)
        if self.clock:
            self.clock.clear()
        if not data:
            self.ready.unregister(pipe)
            del self.streams[pipe]
            return
        if pipe is self.process.stderr:
            self.notes += data
        try:
            write_all(self.streams[pipe], data)
        except OSError:  # the terminal is gone, and so is this stream for the call
            self.ready.unregister(pipe)
            del self.streams[pipe]
            pipe.close()

    def run(self):
        with self.ready:
            while self.streams:
                for key, _ in self.ready.select(1):
                    if key.fileobj == self.typed:
                        self.hand_in()
                    else:
                        self.tell(key.fileobj)
                if self.clock and self.typed is None:
                    self.clock.show()
        self.process.wait()


def watched(command, clock, typed=None, **how):
    """Runs a command for a person, who may type what it reads. Gives its status, below 0 for a
    signal, and its notes."""
    how.setdefault("stdin", subprocess.DEVNULL)
    how["stderr"] = subprocess.PIPE
    if os.isatty(1):
        how["stdout"] = subprocess.PIPE
    if typed is not None:
        how["stdin"] = subprocess.PIPE
    with subprocess.Popen(command, env={**os.environ, "PRA_CLOCK": "yes"}, **how) as it:
        watch = Watch(it, clock, typed)
        try:
            watch.run()
        except KeyboardInterrupt:
            it.wait()  # it has had the same signal
        finally:
            if clock:
                clock.clear()
            it.terminate()
    return it.returncode, bytes(watch.notes)


def typed_for(mode):
    """The stream on which a person types what a mode reads, if it is a terminal; that is said."""
    if mode not in READ_INPUT or not is_open(INPUT) or not os.isatty(INPUT):
        return None
    told = f"pra: {mode} waits for {READ_INPUT[mode]}: type, and end with Ctrl-D\n"
    write_all(2, told.encode())
    return INPUT


def input_name():
    """The file that is standard input, if it is one."""
    try:
        name = os.readlink(f"/proc/self/fd/{INPUT}")
    except OSError:
        return None
    return name if os.path.isfile(name) else None


def mode_and_file(words):
    """The first two of the words that are no option and no option's value."""
    plain, _, _ = known_words.parted(words, known_words.table()[1])
    return [*plain, "", ""][:2]


def meaning(words, status, notes):
    """What a refusal or a trap means, line by line."""
    if not words:
        return list(known_words.screen())
    if status == NO_WORDS:
        return [f"pra: {it}" for it in known_words.wrong(words)]
    if status == 1 or status in REFUSED:
        mode, name = mode_and_file(words)
        return explain.all_told(notes.decode(errors="replace"), name, input_name(), mode)
    return []


def is_open(stream):
    try:
        os.fstat(stream)
    except OSError:
        return False
    return True


def ready_child(has_input):
    """What a call does before its program begins."""
    ends_with_parent = stopped.ends_with_parent(signal.SIGTERM)

    def prepare():
        ends_with_parent()
        if not has_input:
            os.close(0)

    return prepare


def given():
    """How a call gets its standard input, and ends with this one."""
    has_input = is_open(INPUT)
    how = {"stdin": INPUT} if has_input else {}
    return {**how, "preexec_fn": ready_child(has_input)}


def main(words):
    clock, typed = Clock(2, " ".join(["pra", *words[:1]])), typed_for(mode_and_file(words)[0])
    status, notes = watched([f"{TOP}/pra", *words], clock, typed, **given())
    if status < 0:
        return 128 - status
    for line in meaning(words, status, notes):
        print(line, file=sys.stderr)
    return status


if __name__ == "__main__":
    stopped.by_signals()
    sys.exit(main(sys.argv[1:]))
