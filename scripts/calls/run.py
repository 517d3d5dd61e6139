#!/usr/bin/env python3
"""Runs the rows of tests/ and tells which calls leave something else.

    [PRA=PROGRAM] python3 -m calls.run [WORD ..]    in scripts/

With words, only rows whose file or name has one of them. The last line tells how many calls were
made. The status is 1 where one of them left something else.
"""

import concurrent.futures
import os
import sys
import time

import needs
import stopped
from calls import laws, reader, running


def faults(program, call):
    """What is wrong with what a call leaves."""
    left = running.made(program, call)
    if found := list(running.complaints(call, left)):
        return found
    try:
        laws.check(program, call, left)
    except laws.Broken as broken:
        return [str(broken)]
    return []


def calls(words=()):
    """Each call of the rows, with its file and the row's name."""
    for file, rows in reader.files().items():
        for row in rows:
            if not words or any(it in f"{file} {row.name}" for it in words):
                yield from ((file, row.name, call) for call in row.calls)


def run(program, chosen):
    """The file, row, words and faults of each call that leaves something else."""
    ordered = sorted(chosen, key=lambda it: "gen" not in it[2].words)  # (the longest ones first)
    with concurrent.futures.ThreadPoolExecutor(len(os.sched_getaffinity(0))) as pool:
        found = pool.map(lambda it: faults(program, it[2]), ordered)
        for (file, name, call), wrong in zip(ordered, found, strict=True):
            if wrong:
                yield file, name, " ".join(call.words), wrong


def main(words):
    begun, chosen, count = time.monotonic(), list(calls(words)), 0
    program = needs.program()
    if not program:
        print("there is no compiler: ./pra build, or PRA=PROGRAM", file=sys.stderr)
        return 1
    for file, name, line, wrong in run(program, chosen):
        count += 1
        print(f"{file}: {name}: {line}", *wrong, sep="\n")
    print(f"{len(chosen)} calls, {count} wrong, {time.monotonic() - begun:.1f} s")
    return int(count > 0)


if __name__ == "__main__":
    sys.exit(stopped.status_of(lambda: main(sys.argv[1:])))
