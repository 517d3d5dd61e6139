#!/usr/bin/env python3
"""Counts the rows of all tests, and tells what was lost since a commit.

    rows.py [COMMIT]    COMMIT is one before, or else the last one

Tests are the crates tests_*, the files tests.rt of others, and the files of rows and the tables in
tests/. Of each a line tells how many test functions, lines of text tables, tuples, assertions and
calls it has. A text table is a string of more than one line, or a file of tests/; a tuple stands on
lines of its own in a list of cases; calls are those of rows. Below the sums stands each line of a
table and each call that was there and is no more, whichever crate or file has it now: `= ` before a
line counts for nothing. The status is 1 where there is such a line or call.
"""

import collections
import dataclasses
import hashlib
import os
import pickle
import re
import subprocess
import sys

from calls import reader

TOP = os.path.dirname(os.path.dirname(os.path.realpath(__file__)))
TESTS = re.compile(
    r"crates/(tests_\w+)/src/.*\.rt$|crates/(\w+)/src/tests\.rt$|(tests/\w+\.(?:rows|table))$"
)
TOKEN = re.compile(r"""//[^\n]*|"((?:[^"\\]|\\.)*)"|'(?:\\.|[^'\\])'""", re.S)
TEST = re.compile(r"#\[test\]")
TUPLE = re.compile(r"^ *\(.*\),$", re.M)
ASSERTION = re.compile(r"\bassert(?:_eq|_ne)?!")
KINDS = ("tests", "lines", "tuples", "assertions", "calls")


def git(*words):
    return subprocess.run(
        ["git", *words], cwd=TOP, check=True, capture_output=True, text=True
    ).stdout


def lines_of_text(text):
    """The lines of a text table, without what joins two of them."""
    text = re.sub(r"\\\n\s*", "", text).replace("\\n", "\n")
    found = (line.strip().removeprefix("= ") for line in text.split("\n"))
    return [line for line in found if line]


def lines_of(source):
    """The lines of the text tables of a file."""
    found = []
    for it in TOKEN.finditer(source):
        if it[1] and "\n" in it[1]:
            found += lines_of_text(it[1])
    return found


def calls_of(source):
    """Of each call in a file of rows its row and its words, and a sum of all that is said of it."""
    for row in reader.rows_of(source.encode()):
        for call in row.calls:
            said = hashlib.sha256(pickle.dumps(dataclasses.astuple(call))).hexdigest()
            yield f"{row.name}: {' '.join(call.words)} ({said[:8]})"


def counted(sources):
    """The counts by crate or file of rows, and how often each line of a table and each call is
    there, of files by path."""
    counts, lines = collections.defaultdict(collections.Counter), collections.Counter()
    for path, source in sources.items():
        if path.endswith(".rows"):
            own = list(calls_of(source))
            lines.update(own)
            counts[crate_of(path)]["calls"] += len(own)
            continue
        if path.endswith(".table"):
            own = lines_of_text(source.partition("\n\n")[2])
            lines.update(own)
            counts[crate_of(path)]["lines"] += len(own)
            continue
        own = lines_of(source)
        lines.update(own)
        bare = TOKEN.sub(lambda it: '""' if it[1] is not None else "", source)
        counts[crate_of(path)].update(
            tests=len(TEST.findall(bare)),
            lines=len(own),
            tuples=len(TUPLE.findall(bare)),
            assertions=len(ASSERTION.findall(bare)),
        )
    return counts, lines


def crate_of(path):
    found = TESTS.match(path)
    return found and found[found.lastindex]


def now():
    sources = {}
    for top in ("crates", "tests"):
        for folder, _, files in os.walk(f"{TOP}/{top}"):
            for name in files:
                path = os.path.relpath(f"{folder}/{name}", TOP)
                if crate_of(path):
                    with open(f"{TOP}/{path}", encoding="utf-8") as text:
                        sources[path] = text.read()
    return sources


def before(commit):
    paths = git("ls-tree", "-r", "--name-only", commit, "crates", "tests").split("\n")
    return {path: git("show", f"{commit}:{path}") for path in paths if crate_of(path)}


def main(words):
    old, old_lines = counted(before(words[0] if words else "HEAD"))
    new, new_lines = counted(now())
    for crate in [*sorted({*old, *new}), "all"]:
        was, is_now = (
            sum(of.values(), collections.Counter()) if crate == "all" else of[crate]
            for of in (old, new)
        )
        told = (f"{was[it]} -> {is_now[it]} {it}" for it in KINDS if was[it] or is_now[it])
        print(f"{crate}: " + ", ".join(told))
    lost = old_lines - new_lines
    for line, times in lost.items():
        print(f"lost {times}: {line}")
    return 1 if lost else 0


if __name__ == "__main__":
    sys.exit(main(sys.argv[1:]))
