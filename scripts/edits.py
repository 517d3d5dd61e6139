#!/usr/bin/env python3
"""Tries wrong bodies of functions, which the prover must refuse, many at once.

    edits.py [NAME ..]    all edits of these crates, or of all; CRATE/EDIT names one

An edit stands in the folder must-fail/ of its crate, which the gate tries too, or in edits/, which
is tried here alone. It is a file with a line `file: src/lib.rt` and pairs of lines `old: TEXT` and
`new: TEXT`; each TEXT stands once in that file. Of a crate as many edits as change different
functions are made in one copy, and one check of it has a verdict for each function. An edit of what
is no function, or whose function is proved all the same, is checked by itself: a constant is
refused where it is compared. What clauses allow, a test may refuse: an edit with a line
`test: CRATE NAME` is tried by that test, unproved. A line tells of each edit. The status is 0 where
all were refused.
"""

import glob
import os
import re
import shutil
import subprocess
import sys
import tempfile

from build import TOP, Build, below, crates, of_the_repository

PAIR = re.compile(r"^old: (.*)\nnew: (.*)$", re.M)
TEST = re.compile(r"^test: (\S+) (\S+)$", re.M)
FUNCTION = re.compile(r"^ *(?:pub(?:\([a-z]+\))? )?(?:const )?fn (\w+)", re.M)
VERDICT = re.compile(r"^fn (\S+): (proved$|.*)", re.M)
NOTE = re.compile(r"^note: (src/.*)", re.M)


class BadEdit(Exception):
    """Why an edit can't be made."""


class Edit:
    """A change of one file of a crate."""

    def __init__(self, path):
        self.label = os.path.relpath(path, f"{TOP}/crates")
        self.crate = self.label.split("/", 1)[0]
        with open(path, encoding="utf-8") as text:
            said = text.read()
        self.file = re.search(r"^file: (.*)$", said, re.M)[1]
        self.pairs = PAIR.findall(said)
        self.test = TEST.search(said)
        self.function = self.function_changed()

    def function_changed(self):
        """The function in which the first change stands, if it stands in one."""
        with open(f"{TOP}/crates/{self.crate}/{self.file}", encoding="utf-8") as text:
            source = text.read()
        before = source[: max(source.find(self.pairs[0][0]), 0)]
        begun = list(FUNCTION.finditer(before))
        if not begun or before.rfind("\n}\n") > begun[-1].start():
            return None
        return begun[-1][1]

    def is_apart(self, other):
        """Whether one check can refuse both, each in a function of its own."""
        if not self.function or self.test or other.test:
            return False
        return (self.file, self.function) != (other.file, other.function)

    def make(self, folder):
        path = f"{folder}/{self.file}"
        with open(path, encoding="utf-8") as text:
            source = text.read()
        for old, new in self.pairs:
            if source.count(old) != 1:
                raise BadEdit(f"{old!r} stands {source.count(old)} times in {self.file}")
            source = source.replace(old, new)
        with open(path, "w", encoding="utf-8") as text:
            text.write(source)

    def is_refused(self, said):
        """Whether a check refuses the function that was changed, and no other of its name."""
        module = re.sub(r"/mod$|^lib$", "", self.file[len("src/") : -len(".rt")]).replace("/", "::")
        own = f"{self.crate}::{module}".rstrip(":") + "::"
        verdicts = [
            verdict
            for name, verdict in VERDICT.findall(said)
            if name.startswith(own) and name.split("::")[-1] == self.function
        ]
        return bool(verdicts) and "proved" not in verdicts


def edits_of(names):
    """The edits that the names ask for, crate by crate."""
    found = {}
    for name in names or sorted(crates()):
        crate, _, one = name.partition("/")
        paths = [
            path
            for folder in ("must-fail", "edits")
            for path in sorted(glob.glob(f"{TOP}/crates/{crate}/{folder}/*.edit"))
            if not one or one.removesuffix(".edit") in path
        ]
        found.setdefault(crate, []).extend(map(Edit, paths))
    return {crate: edits for crate, edits in found.items() if edits}


def rounds(edits):
    """The edits in groups, of which each changes a function once."""
    groups = []
    for it in edits:
        group = next((group for group in groups if all(it.is_apart(o) for o in group)), None)
        if group is None:
            groups.append([it])
        else:
            group.append(it)
    return groups


def with_edits(edits, room):
    """A copy of the crates in which the edits of one of them are made."""
    crate = edits[0].crate
    copy = f"{room}/copy"
    shutil.rmtree(copy, ignore_errors=True)
    others = shutil.ignore_patterns("out", "edits", "must-fail")
    shutil.copytree(f"{TOP}/crates", f"{copy}/crates", ignore=others)
    for it in ("crates.txt", "HANDLES"):
        shutil.copy(f"{TOP}/{it}", copy)
    for it in [*below(crate, of_the_repository(crates())), crate]:
        if os.path.isdir(f"{TOP}/crates/{it}/out"):
            Build.link(f"{TOP}/crates/{it}/out", f"{copy}/crates/{it}/out")
    for it in edits:
        it.make(f"{copy}/crates/{crate}")
    return f"{copy}/crates"


def said_by(command, folder):
    how = {"cwd": folder, "stdin": subprocess.DEVNULL, "errors": "replace", "check": False}
    return subprocess.run(
        command, stdout=subprocess.PIPE, stderr=subprocess.STDOUT, **how
    ).stdout


def check(edits, room):
    """What a check says of a copy of the edits' crate with the edits made."""
    return said_by(["rt", "check", "--jobs", "1"], f"{with_edits(edits, room)}/{edits[0].crate}")


def by_test(edit, room):
    """Whether the test that the edit names fails with it, and what is told of it."""
    crate, name = edit.test.groups()
    try:
        said = said_by(["rt", "try", "--test"], f"{with_edits([edit], room)}/{crate}")
    except BadEdit as why:
        return False, f"BAD EDIT: {why}"
    answer = re.search(rf"^test {re.escape(name)} \.\.\. (\w+)", said, re.M)
    if not answer:
        return False, f"BAD EDIT: {name} of {crate} was not run:\n{said}"
    return answer[1] != "ok", f"{'NOT REFUSED' if answer[1] == 'ok' else 'refused'}: by test {name}"


def alone(edit, room):
    """Whether the edit is refused by itself, and what is told of it."""
    if edit.test:
        return by_test(edit, room)
    try:
        said = check([edit], room)
    except BadEdit as why:
        return False, f"BAD EDIT: {why}"
    if re.search(r"^logic=not-proved", said, re.M):
        note = NOTE.search(said)
        return True, f"refused: {note[1] if note else 'by a law or a proof file'}"
    if re.search(r"^logic=proved", said, re.M):
        return False, "NOT REFUSED"
    return False, f"BAD EDIT: no verdict:\n{said}"


def together(edits, room):
    """The edits that one check refuses, each in its own function."""
    if len(edits) < 2:
        return []
    try:
        said = check(edits, room)
    except BadEdit:
        return []
    return [it for it in edits if it.is_refused(said)]


def main(names):
    failed = 0
    with tempfile.TemporaryDirectory(prefix="pra-edits-") as room:
        for edits in edits_of(names).values():
            for group in rounds(edits):
                refused = together(group, room)
                for it in group:
                    if it in refused:
                        is_well, told = True, f"refused: {it.function} of {it.file}"
                    else:
                        is_well, told = alone(it, room)
                    failed += not is_well
                    print(f"{it.label}: {told}", flush=True)
    return 1 if failed else 0


if __name__ == "__main__":
    sys.exit(main(sys.argv[1:]))
