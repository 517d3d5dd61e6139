#!/usr/bin/env python3
"""Writes a module of procedures that are full of branches.

    branches.py SEED [PROCEDURES]    8 procedures where their number is not given

The tool's own `gen` makes straight code in loops. Here are IF with and without ELSE, chains of
ELSIF, conditions of several parts, loops in each other that end by a flag, and REPEAT, over few
variables or many. The same words write the same module. It reads no input, ends, meets no trap, and
writes a sum at the end of each procedure.
"""

import re
import sys

PROCEDURES = 8
RELATIONS = ("=", "#", "<", "<=", ">", ">=")
SIZES = (80, 150, 300, 600, 1200)  # nodes, about, of the 2048 that a procedure may have
MOST_DEPTH = 3  # loops in each other
NAMES = "abcdefghklmnopqr"


class Draws:
    """Random numbers: a linear congruence of 48 bits (that of drand48), of which the upper are
    taken."""

    def __init__(self, seed):
        self.state = (seed << 16) + 0x330E
        for _ in range(4):
            self.below(2)

    def below(self, most):
        self.state = (self.state * 0x5DEECE66D + 11) % 2**48
        return (self.state >> 17) % most

    def of(self, things):
        return things[self.below(len(things))]

    def chance(self, percent):
        return self.below(100) < percent


class Procedure:
    """The statements of a procedure, drawn one after the other."""

    def __init__(self, draws, number):
        self.draws = draws
        self.name = f"P{number}"
        self.names = NAMES[: draws.of((3, 4, 5, 6, 8, 8, 10, 12, 16))]
        self.counters, self.flags = [], []
        self.nodes, self.most_nodes = 0, draws.of(SIZES)
        self.lines = []

    def say(self, indent, text):
        self.lines.append("  " * indent + text)
        self.nodes += len(re.findall(r"\w+|:=|[-+*=#<>&~]", text))

    # ---- expressions

    def atom(self):
        if self.draws.chance(25):
            return str(self.draws.below(100))
        return self.draws.of(self.names)

    def value(self):
        one, other = self.draws.of(self.names), self.atom()
        form = self.draws.below(12)
        if form == 0:
            return f"{one} * {other} + {self.atom()}"
        if form == 1:
            return f"({one} + {other}) MOD {2 ** self.draws.below(12) * 2}"
        if form == 2:
            return f"{one} DIV {self.draws.below(9) + 2}"
        if form == 3:
            return other
        if form < 7:
            return f"{one} - {other}"
        return f"{one} + {other}"

    def relation(self):
        return f"{self.draws.of(self.names)} {self.draws.of(RELATIONS)} {self.atom()}"

    def condition(self):
        form = self.draws.below(8)
        if form == 0:
            return f"({self.relation()}) & ({self.relation()})"
        if form == 1:
            return f"({self.relation()}) OR ({self.relation()})"
        if form == 2:
            return f"{self.draws.of(self.names)} MOD {self.draws.below(3) + 2} = 0"
        return self.relation()

    # ---- statements

    def assignments(self, indent, most):
        for _ in range(self.draws.below(most) + 1):
            self.say(indent, f"{self.draws.of(self.names)} := {self.value()};")

    def is_full(self):
        return self.nodes >= self.most_nodes

    def some(self, indent, depth, most):
        self.statement(indent, depth)
        for _ in range(self.draws.below(most)):
            if not self.is_full():
                self.statement(indent, depth)

    def choice(self, indent, depth):
        self.say(indent, f"IF {self.condition()} THEN")
        self.some(indent + 1, depth + 1, 2)
        for _ in range(self.draws.of((0, 0, 0, 0, 1, 1, 2, 4))):
            self.say(indent, f"ELSIF {self.condition()} THEN")
            self.some(indent + 1, depth + 1, 2)
        if self.draws.chance(40):
            self.say(indent, "ELSE")
            self.some(indent + 1, depth + 1, 2)
        self.say(indent, "END;")

    def loop(self, indent, depth):
        """Some turns of a loop, which may end earlier by a flag."""
        counter = f"i{len(self.counters)}"
        self.counters.append(counter)
        turns = self.draws.below(9) + 2
        flag = None
        if self.draws.chance(50):
            flag = f"done{len(self.flags)}"
            self.flags.append(flag)
            self.say(indent, f"{flag} := FALSE;")
        self.say(indent, f"{counter} := 0;")
        repeats = self.draws.chance(25)
        goes_on = f"{counter} < {turns}"
        if repeats:
            self.say(indent, "REPEAT")
        else:
            self.say(indent, f"WHILE {f'~{flag} & ({goes_on})' if flag else goes_on} DO")
        self.some(indent + 1, depth + 1, 4)
        if flag:
            self.say(indent + 1, f"IF {self.condition()} THEN {flag} := TRUE END;")
        self.say(indent + 1, f"{self.draws.of(self.names)} := {self.value()} + {counter};")
        self.say(indent + 1, f"{counter} := {counter} + 1;")
        stops = f"{counter} >= {turns}"
        end = f"UNTIL {f'{flag} OR ({stops})' if flag else stops}" if repeats else "END"
        self.say(indent, f"{end};")

    def statement(self, indent, depth):
        loops = indent - 1 - depth
        drawn = self.draws.below(10)
        if depth > 4 or self.is_full() or drawn < 5:
            self.assignments(indent, 2)
        elif drawn < 9 or loops >= MOST_DEPTH:
            self.choice(indent, depth)
        else:
            self.loop(indent, depth)

    def body(self):
        for at, name in enumerate(self.names):
            self.say(1, f"{name} := {self.draws.below(50)} + {'x' if at % 2 else 'y'};")
        kind = self.draws.below(3)
        while not self.is_full():
            if kind == 0:
                self.choice(1, 4 if self.draws.chance(80) else 2)
            elif kind == 1:
                self.loop(1, 0)
            else:
                self.some(1, 0, 6)
                self.loop(1, 1)
        self.say(1, f"Write({' + '.join(self.names)})")

    def text(self):
        self.body()
        lines = [f"PROCEDURE {self.name}(x, y: INTEGER);"]
        whole = [*self.names, *self.counters]
        lines.append(f"VAR {', '.join(whole)}: INTEGER;")
        if self.flags:
            lines.append(f"  {', '.join(self.flags)}: BOOLEAN;")
        return "\n".join([*lines, "BEGIN", *self.lines, f"END {self.name};\n"])


def module(seed, procedures=PROCEDURES):
    """The text of the module of a seed."""
    draws = Draws(seed)
    made = [Procedure(draws, number) for number in range(1, procedures + 1)]
    texts = "\n".join(it.text() for it in made)
    calls = "\n".join(f"  {it.name}({draws.below(20)}, {draws.below(20)});" for it in made)
    return f"MODULE Branches;\n\n{texts}\nBEGIN\n{calls}\n  WriteLn\nEND Branches.\n"


def main(words):
    if not 1 <= len(words) <= 2 or not all(it.isdecimal() for it in words):
        print(__doc__.split("\n\n")[1].strip(), file=sys.stderr)
        return 2
    print(module(*map(int, words)), end="")
    return 0


if __name__ == "__main__":
    sys.exit(main(sys.argv[1:]))
