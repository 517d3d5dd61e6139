#!/usr/bin/env python3
"""Tells which entries of crates.txt their crates do not cite.

    cited.py [NAME ..]    of these crates, or of all

A crate cites a library where its sources, definitions or proofs name it: `name::` in Rust, or
`Rattle.name.` in clauses and proofs. A line tells of each crate what it lists for nothing. A proof
may read definitions of a library that nothing names, when its terms are spelled out: so an entry is
removed by hand, and the crate checked. The status is 1 where there is such an entry.
"""

import re
import sys

from build import TOP, crates, sources

WORD = re.compile(r"\w+")


def words_of(name):
    """All words in the files that a crate's proof reads."""
    found = set()
    for path in sources(name):
        with open(path, encoding="utf-8") as text:
            found.update(WORD.findall(text.read()))
    return found


def uncited(listed, words):
    return [it for it in listed if it not in words]


def main(names):
    status = 0
    for name, listed in crates().items():
        if names and name not in names:
            continue
        lost = uncited(listed, words_of(name))
        if lost:
            print(f"{name}: {' '.join(lost)}")
            status = 1
    return status


if __name__ == "__main__":
    sys.exit(main(sys.argv[1:]))
