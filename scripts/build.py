#!/usr/bin/env python3
"""Proves and builds a program and the libraries that it stands on, several side by side.

    build.py [NAME]        builds the program crates/NAME, or the compiler
    build.py --sum NAME    prints a sum of the sources that it is built of

In one checkout the kit works on one crate at a time. So each worker has a copy of the sources,
proves one library there, and hands on what was made to this checkout, where the program itself is
then built. The library on which most work still waits is taken first. A line to standard error
tells of each crate as its proof begins, and at a terminal one that goes again of all that are being
proved, and for how long. The status is 0 where all is built, 6 where NAME is no program, and else
70. Beside the program stands the sum of its sources, as NAME.sources.
"""

import contextlib
import glob
import hashlib
import os
import re
import shutil
import signal
import subprocess
import sys
import tempfile
import threading
import time

import stopped

TOP = os.path.dirname(os.path.dirname(os.path.realpath(__file__)))
MEMORY_OF_ONE = 4 << 20  # kilobytes that the proof of one crate may take
COMPILER = "pra"  # the program that is built where none is named
COPIES = "copies-"  # how the folders of copies begin
NO_WORDS = 6  # the status where the words are none of these
NOT_BUILT = 70  # the status where the program was not built
FROM_NOTHING = "two to four hours of processor time"  # README.md says the same


def crates():
    """Each crate of the repository, with all that its line names."""
    named = {}
    with open(f"{TOP}/crates.txt", encoding="utf-8") as lines:
        for line in lines:
            name, colon, rest = line.partition(":")
            if colon and not line.startswith("#"):
                named[name.split()[0]] = rest.split()
    return named


def of_the_repository(named):
    """Each crate, with the crates of the repository that its line names."""
    return {it: [below for below in named[it] if below in named] for it in named}


def below(name, stands_on):
    """The crates below one, each once."""
    found = []
    for it in stands_on[name]:
        found += [low for low in [*below(it, stands_on), it] if low not in found]
    return found


def sources(name):
    """The files of a crate that its proof reads."""
    found = []
    for part in ("src", "specs", "proofs"):
        for folder, _, files in os.walk(f"{TOP}/crates/{name}/{part}"):
            found += [f"{folder}/{it}" for it in files]
    return sorted(found)


def sum_of_sources(name):
    named = crates()
    total = hashlib.sha256()
    for crate in sorted([name, *below(name, of_the_repository(named))]):
        total.update(f"{crate}: {named[crate]}\n".encode())
        for file in sources(crate):
            with open(file, "rb") as text:
                total.update(f"{os.path.relpath(file, TOP)}\n".encode())
                total.update(hashlib.sha256(text.read()).digest())
    return total.hexdigest()


def weight(name):
    """The lines of a crate's code: its proof takes the longer the more there are."""
    lines = 0
    for file in sources(name):
        if file.endswith(".rt"):
            with open(file, "rb") as text:
                lines += text.read().count(b"\n")
    return lines


def copies_at_once():
    """A processor and some memory for each copy."""
    free = MEMORY_OF_ONE
    if os.path.exists("/proc/meminfo"):
        with open("/proc/meminfo", encoding="utf-8") as lines:
            free = int(re.search(r"MemAvailable: *(\d+)", lines.read())[1])
    return max(1, min(len(os.sched_getaffinity(0)), free // MEMORY_OF_ONE))


def is_program(name):
    """Whether a crate is there that is a program."""
    return name in crates() and os.path.isfile(f"{TOP}/crates/{name}/src/main.rt")


def say(line):
    begin = "\r\x1b[K" if sys.stderr.isatty() else ""  # over the line that goes again
    print(f"{begin}pra: {line}", file=sys.stderr, flush=True)


class Commands:
    """The commands that are running, so that all of them can be ended."""

    def __init__(self):
        self.running, self.is_ended, self.turn = [], False, threading.Lock()

    def ran(self, command, folder, at_first_line=lambda: None, limit=None, **how):
        """The status of a command, and what it said; calls at_first_line once it says any. After so
        many seconds it is ended."""
        given = {"cwd": folder, "stdin": subprocess.DEVNULL, "stdout": subprocess.PIPE}
        given.update({"stderr": subprocess.STDOUT, **how})
        said = []
        with contextlib.ExitStack() as call:
            with self.turn:
                if self.is_ended:
                    return NOT_BUILT, ""
                # (so that what it has started ends with it, and with this process)
                it = call.enter_context(stopped.session(command, **given))
                self.running.append(it)
            clock = threading.Timer(limit or 0, stopped.end_session, (it, signal.SIGKILL))
            if limit:
                clock.start()
            for line in it.stdout:
                if not said:
                    at_first_line()
                said.append(line)
            it.wait()
            clock.cancel()
            with self.turn:
                self.running.remove(it)
        return it.returncode, b"".join(said).decode(errors="replace")

    def end(self):
        """Ends what is running, and lets nothing begin."""
        with self.turn:
            self.is_ended = True
            for it in self.running:
                stopped.end_session(it)


class Build:
    """What is still to be built, and by whom."""

    def __init__(self, name, room):
        self.name = name
        self.stands_on = of_the_repository(crates())
        self.waiting = below(name, self.stands_on)
        self.all = len(self.waiting) + 1
        self.built, self.failed, self.at_work = set(), None, []
        self.commands = Commands()
        self.turn = threading.Condition()
        self.begun = time.time()
        self.copies = [f"{room}/{number}" for number in range(copies_at_once())]
        self.behind = self.work_behind()

    def work_behind(self):
        """Of each crate how much has to be done from its begin on, at least."""
        behind = {}
        for it in reversed(self.waiting):
            above = [behind[high] for high in self.waiting if it in self.stands_on[high]]
            behind[it] = weight(it) + max(above, default=0)
        return behind

    def take(self):
        """The next crate to build and a share of the processors, or None where nothing is left."""
        with self.turn:
            while self.waiting and not self.failed:
                ready = [it for it in self.waiting if self.built.issuperset(self.stands_on[it])]
                if ready:
                    name = max(ready, key=self.behind.get)
                    self.waiting.remove(name)
                    self.at_work.append(name)
                    return name, len(self.copies) // max(len(self.at_work), len(ready))
                self.turn.wait()
            return None

    def time(self):
        minutes, seconds = divmod(int(time.time() - self.begun), 60)
        return f"{minutes} min {seconds} s"

    def tell(self, name):
        say(f"proving {name}, {len(self.built)} of {self.all} crates done, {self.time()} so far")

    def work(self, copy):
        """Builds one crate after the other in a copy."""
        shutil.copytree(f"{TOP}/crates", f"{copy}/crates", ignore=shutil.ignore_patterns("out"))
        for it in ("crates.txt", "HANDLES"):
            shutil.copy(f"{TOP}/{it}", copy)
        while taken := self.take():
            name, jobs = taken
            self.receive(name, copy)
            command = ["rt", "lib", "--jobs", str(max(jobs, 1))]
            folder = f"{copy}/crates/{name}"
            status, said = self.commands.ran(command, folder, lambda it=name: self.tell(it))
            with self.turn:
                self.at_work.remove(name)
                if status:
                    self.failed = self.failed or (name, said)
                else:
                    self.hand_in(name, copy)
                    self.built.add(name)
                self.turn.notify_all()

    def receive(self, name, copy):
        """Gives a copy the libraries below a crate, and what an earlier build left of its own."""
        for it in [*below(name, self.stands_on), name]:
            if os.path.isdir(f"{TOP}/crates/{it}/out"):
                self.link(f"{TOP}/crates/{it}/out", f"{copy}/crates/{it}/out")

    def hand_in(self, name, copy):
        """Leaves in this checkout what was made of a crate."""
        self.link(f"{copy}/crates/{name}/out", f"{TOP}/crates/{name}/out")

    @staticmethod
    def link(old, new):
        """Has the same files in a second folder, unless it has them."""
        stamps = [f"{it}/rlib/stamp" for it in (old, new)]
        if all(map(os.path.exists, stamps)) and os.path.samefile(*stamps):
            return
        shutil.rmtree(new, ignore_errors=True)
        subprocess.run(["cp", "-al", old, new], check=True)

    def libraries(self):
        workers = [threading.Thread(target=self.work, args=(copy,)) for copy in self.copies]
        for it in workers:
            it.start()
        try:
            for it in workers:
                while it.is_alive():
                    it.join(1)
                    self.show()
        except BaseException:
            self.end()
            for it in workers:
                it.join()
            raise

    def show(self):
        """Says at a terminal, in a line that goes again, what is going on."""
        if sys.stderr.isatty():
            at_work = ", ".join(self.at_work)
            told = f"{self.time()}: {len(self.built)} of {self.all} crates done, at {at_work}"
            print(f"\r\x1b[Kpra: {told[:70]}\r", end="", file=sys.stderr, flush=True)

    def end(self):
        """Stops all that is going on."""
        with self.turn:
            self.waiting.clear()
            self.failed = self.failed or (self.name, "")
            self.turn.notify_all()
        self.commands.end()

    def program(self):
        """Builds the program, and runs it without words, which it refuses with its usage."""
        folder = f"{TOP}/crates/{self.name}"
        try:
            _, said = self.commands.ran(["rt", "run"], folder, lambda: self.tell(self.name))
        except BaseException:
            self.commands.end()
            raise
        if f"usage: {self.name}" not in said:
            self.failed = (self.name, said)

    def run(self):
        self.libraries()
        if not self.failed:
            self.program()
        if self.failed:
            name, said = self.failed
            print(said, file=sys.stderr)
            say(f"{name} was not built")
            return NOT_BUILT
        say(f"built in {self.time()}")
        return 0


def build(name):
    # beside what is made, so that files can be handed on as links
    out = f"{TOP}/crates/{name}/out"
    os.makedirs(out, exist_ok=True)
    say(f"proving and building what is not built; from nothing that is {FROM_NOTHING},")
    say("a share of it for each processor; Ctrl-C ends it, and what is proved by then stays")
    total, lock = sum_of_sources(name), f"{TOP}/crates/{COMPILER}/out/lock"
    os.makedirs(os.path.dirname(lock), exist_ok=True)
    with stopped.turn(lock, lambda: say("another build goes on; this one waits for it")):
        for it in glob.glob(f"{TOP}/crates/*/out/{COPIES}*"):  # of builds that were killed
            shutil.rmtree(it, ignore_errors=True)
        with tempfile.TemporaryDirectory(prefix=COPIES, dir=out) as room:
            status = Build(name, room).run()
        if not status:
            with open(f"{out}/{name}.sources", "w", encoding="utf-8") as file:
                print(total, file=file)
    return status


def main(words):
    name = words[-1] if words else COMPILER
    is_sum = len(words) == 2 and words[0] == "--sum"
    if not is_program(name) or (len(words) > 1 and not is_sum):
        told = "" if is_program(name) else f": {name} is no program of this repository"
        print(f"fault words{told}\nusage: pra build", file=sys.stderr)
        return NO_WORDS
    if is_sum:
        print(sum_of_sources(name))
        return 0
    stopped.by_signals()
    try:
        return build(name)
    except KeyboardInterrupt:
        say("ended; what was proved stays, and ./pra build goes on from there")
        return 128 + signal.SIGINT
    except OSError as error:
        say(f"nothing can be built: {error}")
        return NOT_BUILT


if __name__ == "__main__":
    sys.exit(main(sys.argv[1:]))
