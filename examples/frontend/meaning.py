#!/usr/bin/env python3
"""Runs a program of the subset by Python itself, with numbers that wrap at 32 bits.

    meaning.py FILE.py <NUMBERS

It writes what the compiled program writes, and tells on standard error how it ended: `ended reads
R`, or a trap in place of an exception of Python. What is another thing than in Python: numbers are
of a class that wraps, truth values are such numbers, and an index below 0 is in no list.
"""

import ast
import sys
import threading

STACK = 512 << 20  # bytes, for programs that call deeply
MOST_CALLS = 100000
TRAPS = {
    IndexError: "trap Index",
    ZeroDivisionError: "trap Divide",
    EOFError: "trap Input",
    RecursionError: "trap Stack",
}


class Number(int):
    """A number of 32 bits with its sign."""

    def __new__(cls, n):
        return super().__new__(cls, (int(n) + (1 << 31)) % (1 << 32) - (1 << 31))


def wrapping(name):
    """What a method of int gives, as a Number."""
    plain = getattr(int, name)
    return lambda *its: Number(plain(*map(int, its)))


for each in ("add", "sub", "mul", "floordiv", "mod", "and", "or", "xor"):
    setattr(Number, f"__{each}__", wrapping(f"__{each}__"))
    setattr(Number, f"__r{each}__", wrapping(f"__r{each}__"))
for each in ("neg", "abs"):
    setattr(Number, f"__{each}__", wrapping(f"__{each}__"))


class Numbers(list):
    """A list that has no index below 0."""

    def __getitem__(self, index):
        return super().__getitem__(self.checked(index))

    def __setitem__(self, index, value):
        super().__setitem__(self.checked(index), value)

    def __mul__(self, times):
        return Numbers(super().__mul__(times))

    @staticmethod
    def checked(index):
        if index < 0:
            raise IndexError
        return index


class Rewriter(ast.NodeTransformer):
    """Makes numbers of constants, comparisons and `not`, lists of displays, and counts turns."""

    @staticmethod
    def call(name, *args):
        return ast.Call(ast.Name(name, ast.Load()), [*args], [])

    def visit_Constant(self, node):
        return self.call("Number", node) if isinstance(node.value, int) else node

    def visit_Compare(self, node):
        return self.call("Number", self.generic_visit(node))

    def visit_UnaryOp(self, node):
        node = self.generic_visit(node)
        return self.call("Number", node) if isinstance(node.op, ast.Not) else node

    def visit_List(self, node):
        return self.call("Numbers", self.generic_visit(node))

    def visit_While(self, node):
        node = self.generic_visit(node)
        node.test = self.call("turn", node.test)
        return node


class Going(Exception):
    """The run makes more turns of loops than are granted."""


class Run:
    """A run of a program, and what it came to."""

    def __init__(self, text, numbers, most_turns=1000000):
        self.numbers, self.taken, self.out = list(numbers), 0, []
        self.turns, self.most_turns = 0, most_turns
        tree = ast.fix_missing_locations(Rewriter().visit(ast.parse(text)))
        self.code = compile(tree, "program", "exec")
        self.ending = ""
        threading.stack_size(STACK)
        thread = threading.Thread(target=self.execute)
        thread.start()
        thread.join()
        threading.stack_size(0)

    def execute(self):
        names = {"Number": Number, "Numbers": Numbers, "int": Number, "turn": self.turn}
        names |= {"print": self.print, "input": self.input, "range": self.range, "len": self.length}
        before = sys.getrecursionlimit()
        sys.setrecursionlimit(MOST_CALLS)
        try:
            exec(self.code, names)
            self.ending = "ended"
        except tuple(TRAPS) as error:
            self.ending = TRAPS[type(error)]
        except Going:
            self.ending = "going"
        finally:
            sys.setrecursionlimit(before)

    def turn(self, test=True):
        self.turns += 1
        if self.turns > self.most_turns:
            raise Going
        return test

    def print(self, *numbers, end="\n"):
        self.out += [f" {int(it)}" for it in numbers]
        self.out += ["\n"] if end == "\n" else []

    def input(self):
        if self.taken == len(self.numbers):
            raise EOFError
        self.taken += 1
        return self.numbers[self.taken - 1]

    def range(self, *bounds):
        for it in range(*map(int, bounds)):
            self.turn()
            yield Number(it)

    @staticmethod
    def length(items):
        return Number(len(items))

    def line(self):
        return f"{self.ending} reads {self.taken}"


def main(words):
    (file,) = words
    with open(file, encoding="utf-8") as text:
        run = Run(text.read(), map(int, sys.stdin.read().split()))
    sys.stdout.write("".join(run.out))
    sys.stdout.flush()
    print(run.line(), file=sys.stderr)
    return int(run.ending != "ended")


if __name__ == "__main__":
    sys.exit(main(sys.argv[1:]))
