#!/usr/bin/env python3
"""Refuses each allocation of memory of calls of the compiler in turn, and tells what is left.

    refused.py [--compiler PROGRAM] [--most N] [MODE ..]

A call of each mode on a small module is made once to count its allocations, and then once for each
of them (or for N at most, evenly spaced), which is refused. The exit status has to be 8, and
nothing is written: neither output nor notes, and the image file has what it had before. By `gen`
the module's file may hold its text. Some allocations can be done without (the room of a sort, the
name beside which a file is written); then all has to be as in the first call. It prints a line for
each mode and for each call that does anything else, and ends with status 1 where there is one. It
needs gcc.
"""

import argparse
import os
import subprocess
import sys
import tempfile

TOP = os.path.dirname(os.path.dirname(os.path.realpath(__file__)))
SHIM = f"{TOP}/scripts/refusing/refuse.c"
MODULE = b"""MODULE Small;
VAR n, k: INTEGER; a: ARRAY 8 OF INTEGER;
PROCEDURE Sum(VAR s: INTEGER; m: INTEGER);
  VAR i: INTEGER;
BEGIN i := 0; s := 0; WHILE i < m DO s := s + a[i] * (m - i); i := i + 1 END
END Sum;
BEGIN
  Read(n); k := 0;
  WHILE k < 8 DO a[k] := n DIV (k + 1) + k MOD 3; k := k + 1 END;
  Sum(k, 8); Write(k); WriteLn
END Small.
"""
INPUT = b"12345 "
BEFORE = b"what stood there before"
NO_MEMORY = 8  # the exit status where memory was wanting
WRITES = "compile", "run", "asm", "apply", "gen"  # the modes that write an image


class Call:
    """A call of a mode: its words, and what it gets on standard input."""

    def __init__(self, mode, words=(), given=b""):
        self.mode, self.given = mode, given
        file = {"asm": "M.text", "list": "M.pri", "check": "M.cert", "exec": "M.pri"}
        self.words = [mode, file.get(mode, "G.ob" if mode == "gen" else "M.ob"), *words]


def calls(certificate):
    """A call of each mode; the certificate is the one that `apply` is given."""
    rounds = "--rounds", "2"
    return [
        Call("compile", rounds),
        Call("run", rounds, INPUT),
        Call("interp", rounds, INPUT),
        Call("cert", rounds),
        Call("check"),
        Call("list"),
        Call("asm"),
        Call("exec", given=INPUT),
        Call("apply", given=certificate),
        Call("gen", ("--size", "1", *rounds)),
    ]


class Bench:
    """A folder with the files that the calls read, and the library that refuses."""

    def __init__(self, room, compiler):
        self.room, self.compiler = room, compiler
        self.shim = f"{room}/refuse.so"
        gcc = ["gcc", "-shared", "-fPIC", "-O1", "-o", self.shim, SHIM, "-ldl"]
        subprocess.run(gcc, check=True)
        self.store("M.ob", MODULE)
        self.make("compile", "M.ob", "--image", "M.pri")
        self.store("M.text", self.make("list", "M.pri"))
        self.store("M.cert", self.make("cert", "M.ob"))

    def store(self, name, data):
        with open(f"{self.room}/{name}", "wb") as file:
            file.write(data)

    def load(self, name):
        with open(f"{self.room}/{name}", "rb") as file:
            return file.read()

    def make(self, *words):
        """What the compiler puts out for these words."""
        made = subprocess.run([self.compiler, *words], cwd=self.room, capture_output=True)
        if made.returncode:
            raise SystemExit(f"refused.py: {' '.join(words)} ends with {made.returncode}")
        return made.stdout

    def ran(self, call, at=0):
        """The status, output, notes and image file of a call whose allocation at is refused."""
        self.store("out.pri", BEFORE)
        env = {**os.environ, "LD_PRELOAD": self.shim, "REFUSE_AT": str(at)}
        env["REFUSE_COUNT"] = f"{self.room}/count"
        how = {"cwd": self.room, "env": env, "input": call.given, "capture_output": True}
        ran = subprocess.run([self.compiler, *call.words], **how)
        return ran.returncode, ran.stdout, ran.stderr, self.load("out.pri")

    def allocations(self, call):
        """What a call leaves that is done, and how many allocations it makes; or None."""
        left = self.ran(call)
        status, _, notes, image = left
        if status or (image == BEFORE) == (call.mode in WRITES):
            print(f"{call.mode}: status {status} {notes.decode(errors='replace')[:60].strip()}")
            return None
        return left, int(self.load("count").split()[0])


def numbers(count, most):
    """The numbers from 1 to a count, or so many of them at most, evenly spaced."""
    if count <= most:
        return range(1, count + 1)
    return sorted({1 + k * (count - 1) // (most - 1) for k in range(most)})


def try_call(bench, call, most):
    """Refuses the allocations of a call in turn, and returns how often it left something else."""
    first = bench.allocations(call)
    if first is None:
        return 1
    done, count = first
    without, wrong, tried = 0, 0, numbers(count, most)
    for at in tried:
        left = bench.ran(call, at)
        parts = [it for it in os.listdir(bench.room) if it.endswith(".part")]
        if left == done and not parts:
            without += 1
        elif left != (NO_MEMORY, b"", b"", BEFORE) or parts:
            wrong += 1
            told = " ".join([f"status {left[0]}", *parts])
            print(f"{call.mode}: allocation {at} of {count} refused: {told}")
        for name in parts:
            os.remove(f"{bench.room}/{name}")
    told = f"{without} done without, {wrong} otherwise"
    print(f"{call.mode}: {count} allocations, {len(tried)} refused in turn, {told}")
    return wrong


def main(words):
    parser = argparse.ArgumentParser(description=__doc__.split("\n", maxsplit=1)[0])
    parser.add_argument("--compiler", default=f"{TOP}/pra")
    parser.add_argument("--most", type=int, default=1 << 30)
    parser.add_argument("modes", nargs="*")
    asked = parser.parse_args(words)
    compiler = os.path.realpath(asked.compiler)
    with tempfile.TemporaryDirectory() as room:
        bench = Bench(room, compiler)
        chosen = calls(bench.load("M.cert"))
        chosen = [it for it in chosen if not asked.modes or it.mode in asked.modes]
        wrong = sum([try_call(bench, it, asked.most) for it in chosen])
    return 1 if wrong else 0


if __name__ == "__main__":
    sys.exit(main(sys.argv[1:]))
