#!/usr/bin/env python3
"""Tries all that can be tried without a proof: the test of minutes.

    testing.py [WORD]

The tests of all crates, and the programs that have a wanted output, are made of sources of which
nothing is proved (translation.py), and run; so are the tests of the scripts, with the compiler that
was made with them, and the worst inputs, against what they may take; these only where they have not
kept to that with the same program before. All that is side by side, a processor each, and what
takes longest comes first. What was made is kept in .unproved/ until its
sources or the kit change. With WORD those alone are tried whose names have it.

A line tells of each, and the last one is `N passed, N failed`. The status is 0 where none failed,
1 where one did or there is none, 6 where the words are none of these, and 70 where nothing can be
tried.
"""

import contextlib
import hashlib
import heapq
import itertools
import os
import re
import shutil
import subprocess
import sys
import tempfile
import threading
import time
from dataclasses import dataclass, field

import build
import kept
import stopped
import tests
import translation

USAGE = "usage: pra test [WORD]"
BEFORE_TESTS = 1000  # seconds that a program to be made counts for, more than a test
NOTHING = "nothing is proved by this, and what runs is unproved; rt ci proves and runs all"
FAILED, NO_WORDS, NO_ANSWER = 1, 6, 70  # statuses
PATIENCE = 600  # seconds that a test may take at most
WORST = "worst inputs"
WORST_PATIENCE = 3600  # seconds for all of these
GRACE = 5  # seconds for what is stopped to end
SLOWER = 3  # times as long as the proved program an unproved one may take
HELD = f"{kept.KEPT}/worst"  # the sum of a compiler and of the worst inputs, and their number
TIMES = f"{kept.KEPT}/seconds"  # a line for each job that was run: the seconds and its name
TEST = re.compile(r"#\[test\]\s*(?:#\[[^\]]*\]\s*)*fn (\w+)")
NAMED = re.compile(r"^ *(class|def) (\w+)", re.M)
MEASURED = re.compile(r"^(.+?) +\d+ bytes +([\d.]+) s of ([\d.]+) +(\d+) MB of (\d+)\b", re.M)


@dataclass
class Suite:
    """A crate whose tests are run, or which is a program that is run itself."""

    crate: str
    tests: list = field(default_factory=list)  # their names; none of a program

    @property
    def is_program(self):
        return not self.tests

    def weight(self):
        """The lines that it is made of."""
        low = build.below(self.crate, build.of_the_repository(build.crates()))
        return sum(map(build.weight, [self.crate, *low]))

    def words(self):
        """Those with which its program is made."""
        if self.crate == build.COMPILER:
            return kept.LASTING
        return ("--", *lines_of(self.crate, "args")) if self.is_program else ("--test",)


@dataclass
class Job:
    """Something to run; `judge` has its status and what it said, and tells how many passed, how
    many failed, and what to say of these."""

    name: str
    command: list
    judge: object
    limit: float = PATIENCE
    how: dict = field(default_factory=dict)
    crate: str = ""  # whose folder data/ lies where it runs


def lines_of(crate, name):
    """The lines of a file beside a crate's sources, if it is there."""
    with contextlib.suppress(OSError), open(f"{build.TOP}/crates/{crate}/{name}") as text:
        return text.read().splitlines()
    return []


def tests_of(crate):
    """The names of a crate's tests, as its program knows them."""
    for file in build.sources(crate):
        if file.endswith(".rt"):
            module = os.path.relpath(file, f"{build.TOP}/crates/{crate}/src")[: -len(".rt")]
            module = "" if module in ("lib", "main") else module.replace("/", "::") + "::"
            with open(file, encoding="utf-8") as text:
                yield from (f"{module}{name}" for name in TEST.findall(text.read()))


def script_tests(word):
    """The modules of scripts' tests that have the word in the name of a test."""
    for module in tests.names_of_modules():
        with open(f"{tests.HERE}/{module.replace('.', '/')}.py", encoding="utf-8") as text:
            last, names = "", [module]
            for kind, name in NAMED.findall(text.read()):
                last = name if kind == "class" else last
                names.append(f"{module}.{last}.{name}")
        if any(word in it for it in names):
            yield module


def suites(word):
    """What is made: the tests with that word in their names, the programs, and the compiler, where
    it is asked."""
    is_asked = word in WORST or any(script_tests(word))
    for crate in build.crates():
        found = [it for it in tests_of(crate) if word in f"{crate}::{it}"]
        if found:
            yield Suite(crate, found)
        is_tried = os.path.isfile(f"{build.TOP}/crates/{crate}/stdout") and word in crate
        if build.is_program(crate) and (is_tried or (crate == build.COMPILER and is_asked)):
            yield Suite(crate)


# ---- how a run is judged


def by_status(status, said):
    return (1, 0, "") if status == 0 else (0, 1, f"status {status}\n{said}")


def by_output(crate):
    """A judge of a program's run by the files beside its sources."""
    wanted = int((lines_of(crate, "status") or ["0"])[0])
    with open(f"{build.TOP}/crates/{crate}/stdout", "rb") as text:
        out = text.read().decode(errors="replace")

    def judge(status, said):
        if (status, said) == (wanted, out):
            return 1, 0, ""
        told = "another output" if said != out else "the wanted output"
        return 0, 1, f"status {status} and {told}\n{said}"

    return judge


def by_last_line(status, said):
    """Of scripts' tests, whose last line has the sums."""
    found = re.search(r"^(\d+) passed, (\d+) failed\Z", said.rstrip(), re.M)
    if not found:
        return 0, 1, f"status {status}\n{said}"
    passed, failed = map(int, found.groups())
    return passed, failed, said if failed or status else ""


def by_measures(status, said):
    """Of the worst inputs, each of which has a line with what it took and may take."""
    over, found = [], list(MEASURED.finditer(said))
    for it in found:
        seconds, most_seconds, megabytes, most = map(float, it.groups()[1:])
        is_killed = "killed by signal" in said[it.end() :].split("\n")[0]
        if seconds > SLOWER * most_seconds or megabytes > most or is_killed:
            over.append(it[0])
    if status or not found:
        return 0, 1, f"status {status}\n{said}"
    return len(found) - len(over), len(over), "\n".join(over)


# ---- what is run


def test_jobs(suite, program, word):
    """The runs of a suite that was made."""
    if not suite.is_program:
        for name in suite.tests:
            yield Job(f"{suite.crate}::{name}", [program, name], by_status, crate=suite.crate)
    elif os.path.isfile(f"{build.TOP}/crates/{suite.crate}/stdout") and word in suite.crate:
        how = {"stderr": subprocess.DEVNULL}
        command = [program, *lines_of(suite.crate, "args")]
        yield Job(suite.crate, command, by_output(suite.crate), PATIENCE, how, suite.crate)


def script_jobs(word, compiler):
    """The tests of the scripts, a module each."""
    how = {"env": {**os.environ, "PRA": compiler}}
    for module in script_tests(word):
        words = ["--module", module, *filter(None, [word])]
        command = [sys.executable, f"{tests.HERE}/tests.py", *words]
        yield Job(module, command, by_last_line, PATIENCE, how)


def worst_job(compiler, when_held):
    """The worst inputs; calls when_held where each kept its limits."""

    def judge(status, said):
        passed, failed, told = by_measures(status, said)
        if not failed:
            when_held(compiler, passed)
        return passed, failed, told

    command = [f"{build.TOP}/bench/worst.sh", "--compiler", compiler]
    return Job(WORST, command, judge, WORST_PATIENCE)


def sum_of_worst(compiler):
    """A sum of a compiler and of the worst inputs."""
    total = hashlib.sha256()
    for name in (compiler, f"{build.TOP}/bench/worst.sh", f"{build.TOP}/bench/worst_inputs.py"):
        with open(name, "rb") as file:
            total.update(hashlib.sha256(file.read()).digest())
    return total.hexdigest()


class Work:
    """Things to be done side by side, which may add further ones; what lasts longest goes first."""

    def __init__(self):
        self.waiting, self.at_work, self.errors = [], 0, []
        self.turn, self.numbers = threading.Condition(), itertools.count()

    def add(self, seconds, call):
        with self.turn:
            heapq.heappush(self.waiting, (-seconds, next(self.numbers), call))
            self.turn.notify()

    def next(self):
        """The next thing, or None where nothing is left and nothing can come."""
        with self.turn:
            while not self.waiting and self.at_work:
                self.turn.wait()
            if not self.waiting or self.errors:
                return None
            self.at_work += 1
            return heapq.heappop(self.waiting)[-1]

    def be_busy(self):
        while call := self.next():
            try:
                call()
            except BaseException as error:
                self.errors.append(error)
            with self.turn:
                self.at_work -= 1
                self.turn.notify_all()

    def do(self, count, end):
        """Does it all, so many at once; calls end where this is stopped."""
        workers = [threading.Thread(target=self.be_busy, daemon=True) for _ in range(count)]
        for it in workers:
            it.start()
        try:
            for it in workers:
                it.join()
        except BaseException as error:
            self.errors.append(error)
            end()
            for it in workers:
                it.join(GRACE)
            raise
        if self.errors:
            raise self.errors[0]


class Run:
    """A run of all, with what has passed and failed so far."""

    def __init__(self, word):
        self.word, self.passed, self.failed = word, 0, []
        self.makes = 0  # how many programs are to be made
        self.commands, self.work = build.Commands(), Work()
        self.turn, self.begun = threading.Lock(), time.time()
        self.times = self.known_times()

    @staticmethod
    def known_times():
        known = {}
        with contextlib.suppress(OSError, ValueError), open(TIMES, encoding="utf-8") as text:
            for line in text:
                seconds, name = line.rstrip("\n").split(" ", 1)
                known[name] = float(seconds)
        return known

    @staticmethod
    def hold(compiler, count):
        """Notes that so many worst inputs have kept their limits with this compiler."""
        with open(HELD, "w", encoding="utf-8") as text:
            print(sum_of_worst(compiler), count, file=text)

    def held(self, compiler):
        """Whether these worst inputs have kept their limits with this very compiler, which is said
        then: they take minutes, and would take the same."""
        with contextlib.suppress(OSError, ValueError), open(HELD, encoding="utf-8") as text:
            total, count = text.read().split()
            if total == sum_of_worst(compiler):
                told = f"{WORST}: {count} passed with this program in an earlier run"
                self.say(f"{told}; ./pra test worst runs them again")
                self.passed += int(count)
                return True
        return False

    def keep_times(self):
        with contextlib.suppress(OSError), open(TIMES, "w", encoding="utf-8") as text:
            text.writelines(f"{it:.1f} {name}\n" for name, it in sorted(self.times.items()))

    def say(self, line):
        seconds = int(time.time() - self.begun)
        print(f"{seconds // 60:2}:{seconds % 60:02} {line}", flush=True)

    def count(self, name, passed, failed, told):
        """Counts what a job came to, and tells it."""
        with self.turn:
            self.passed += passed
            self.failed += [name] * failed
            if failed:
                self.say(f"{name}: FAILED\n{told.rstrip()}")
            elif passed:
                self.say(f"{name}: {passed} passed")

    def made(self, suite):
        """The program of a suite, which is made where it is not kept; or None."""
        name = kept_name(suite)
        if not (found := kept.program(name)):
            parts = max(1, kept.processors() // max(1, self.makes))
            command = [sys.executable, f"{build.TOP}/scripts/kept.py", name, str(parts)]
            status, said = self.commands.ran([*command, suite.crate, *suite.words()], build.TOP)
            found = kept.program(name)
            if status or not found:
                self.count(f"{name}: made", 0, 1, said)
                return None
            self.say(f"{name}: made")
        return found

    def take(self, suite):
        """Has a suite made, and what it is to run done later; of the compiler also what asks it."""
        if not (program := self.made(suite)):
            return
        jobs = list(test_jobs(suite, program, self.word))
        if kept_name(suite) == build.COMPILER:
            jobs += script_jobs(self.word, program)
            if self.word in WORST and not (self.word == "" and self.held(program)):
                jobs.append(worst_job(program, self.hold))
        for it in jobs:
            seconds = it.limit if it.name == WORST else self.times.get(it.name, it.limit)
            self.work.add(seconds, lambda job=it: self.run(job))

    def run(self, job):
        """Runs a job in a folder of its own."""
        with tempfile.TemporaryDirectory(prefix="pra-test-") as room:
            folder, data = f"{room}/run", f"{build.TOP}/crates/{job.crate}/data"
            if job.crate and os.path.isdir(data):
                shutil.copytree(data, folder)
            else:
                os.mkdir(folder)
            begun = time.time()
            ran = self.commands.ran(job.command, folder, limit=job.limit, **job.how)
            self.times[job.name] = time.time() - begun
        self.count(job.name, *job.judge(*ran))

    def all(self):
        all_suites = sorted(suites(self.word), key=Suite.weight)
        with contextlib.ExitStack() as held:
            if not all(kept.program(kept_name(it)) for it in all_suites):
                held.enter_context(kept.one_build(lambda: self.say("another call builds; waiting")))
            self.makes = sum(not kept.program(kept_name(it)) for it in all_suites)
            if self.makes:
                self.say(f"{self.makes} of {len(all_suites)} programs are made, some minutes")
            for number, suite in enumerate(all_suites):
                self.work.add(BEFORE_TESTS + number, lambda it=suite: self.take(it))
            self.work.do(kept.processors(), self.commands.end)
        self.keep_times()


def kept_name(suite):
    """The name under which a suite is kept."""
    return suite.crate if suite.is_program else f"{suite.crate}.tests"


def main(words):
    if len(words) > 1 or any(it.startswith("-") or not it for it in words):
        print(f"fault words\n{USAGE}", file=sys.stderr)
        return NO_WORDS
    run = Run(words[0] if words else "")
    print(f"pra: {NOTHING}", flush=True)
    try:
        run.all()
    except (translation.NoAnswer, OSError, subprocess.CalledProcessError) as reason:
        print(f"pra: nothing can be tried: {reason}", file=sys.stderr)
        return NO_ANSWER
    if not run.passed and not run.failed:
        print("pra: there is no such test", file=sys.stderr)
    for name in sorted(set(run.failed)):
        print(f"failed: {name}")
    run.say(NOTHING)
    print(f"{run.passed} passed, {len(run.failed)} failed")
    return 0 if run.passed and not run.failed else FAILED


if __name__ == "__main__":
    sys.exit(stopped.status_of(lambda: main(sys.argv[1:])))
