#!/usr/bin/env python3
"""Writes a program of the subset that a seed stands for.

    random_programs.py SEED

The same seed writes the same program. Its first line has the numbers that it is to be run on. Most
programs end, after some thousand turns at most; some meet a trap on their way: an index, a
division, an input.
"""

import random
import sys

EDGES = (0, 1, -1, 2, 7, 10, 100, 255, 4096, 65535, 65536, 46341, 2**30, 2**31 - 1, -(2**31))
OPERATORS = ("+", "+", "-", "-", "*", "&", "|", "^")
RELATIONS = ("==", "!=", "<", "<=", ">", ">=")
MOST_WORK = 6000  # statements that a function may come to run, about
NAMES = "abcdefgh"


class Draws:
    """Random numbers, of that method of Random alone which is the same in each version."""

    def __init__(self, seed):
        self.source = random.Random(seed)

    def below(self, most):
        return int(self.source.random() * most)

    def of(self, things):
        return things[self.below(len(things))]

    def chance(self, percent):
        return self.below(100) < percent

    def number(self):
        return self.of(EDGES) if self.chance(20) else self.below(200) - 60


class Callee:
    """What a program knows of a function that it has."""

    def __init__(self, name, lists, gives, work):
        self.name, self.lists, self.gives, self.work = name, lists, gives, work


class Body:
    """The statements of a function, or of the program outside of all."""

    def __init__(self, program, name, lists=(), numbers=(), is_main=False):
        self.program, self.draws, self.name, self.is_main = program, program.draws, name, is_main
        self.lines, self.work, self.turns, self.made = [], 0, 1, 0
        self.lists = {**program.lists, **dict.fromkeys(lists)}  # with the length that is known
        self.numbers, self.counters = [*numbers], []  # names that have a value here
        self.gives = False

    def say(self, depth, text):
        self.lines.append("    " * depth + text)
        self.work += self.turns

    def new(self, letter):
        self.made += 1
        return f"{letter}{self.made}"

    # ---- expressions

    def atom(self):
        if self.numbers and self.draws.chance(70):
            return self.draws.of(self.numbers + self.counters)
        number = self.draws.number()
        return str(number) if number >= 0 else f"({number})"

    def index(self, name):
        """Mostly one that is in the list."""
        length = self.lists[name]
        if length and self.draws.chance(40):
            return str(self.draws.below(length))
        if self.draws.chance(3):
            return self.atom()
        return f"{self.atom()} % {length or f'len({name})'}"

    def element(self):
        name = self.draws.of([*self.lists])
        return f"{name}[{self.index(name)}]"

    def divisor(self):
        drawn = self.draws.below(20)
        if drawn == 0:
            return self.atom()
        if drawn < 8:
            return f"({self.atom()} % {self.draws.below(9) + 1} + 1)"
        if drawn < 11:
            return f"(-{self.draws.below(9) + 1} - {self.atom()} % 5)"
        return str(self.draws.of((1, 2, 3, 7, 8, 10, 1000, 65536, 2**31 - 1)))

    def value(self, depth=0):
        drawn = self.draws.below(24)
        if depth > 2 or drawn < 5:
            return self.atom()
        if drawn < 12:
            return f"{self.value(depth + 1)} {self.draws.of(OPERATORS)} {self.operand(depth)}"
        if drawn < 15:
            return f"{self.operand(depth)} {self.draws.of(('//', '%'))} {self.divisor()}"
        if drawn < 18 and self.lists:
            return self.element()
        if drawn == 18:
            return f"-{self.operand(depth)}"
        if drawn == 19:
            return f"({self.value(depth + 1)} if {self.test(1)} else {self.value(depth + 1)})"
        if drawn == 20:
            return f"({self.relation()})"
        if drawn == 21:
            name = self.draws.of(("abs", "min", "max"))
            more = "" if name == "abs" else f", {self.value(depth + 1)}"
            return f"{name}({self.value(depth + 1)}{more})"
        return self.call(True) or self.atom()

    def operand(self, depth):
        value = self.value(depth + 1)
        return value if value.isidentifier() or value.isdecimal() else f"({value})"

    def relation(self):
        return f"{self.value(2)} {self.draws.of(RELATIONS)} {self.atom()}"

    def test(self, depth=0):
        drawn = self.draws.below(8)
        if depth < 2 and drawn < 2:
            return f"({self.test(depth + 1)} {self.draws.of(('and', 'or'))} {self.test(depth + 1)})"
        if depth < 2 and drawn == 2:
            return f"not {self.test(2)}" if self.draws.chance(50) else f"not ({self.test(1)})"
        return self.atom() if drawn == 3 else self.relation()

    def call(self, is_value):
        """A call of a function for which there is time, or None."""
        its = [it for it in self.program.functions if it.gives or not is_value]
        if not its:
            return None
        it = self.draws.of(its)
        takes_long = self.work + self.turns * it.work > MOST_WORK
        if takes_long or (True in it.lists and not self.lists):
            return None
        self.work += self.turns * it.work
        args = [self.draws.of([*self.lists]) if is_list else self.atom() for is_list in it.lists]
        return f"{it.name}({', '.join(args)})"

    # ---- statements

    def statements(self, depth, count, loops=0):
        """Some statements; names that get their first value there are known no longer behind."""
        known = [*self.numbers], [*self.counters], {**self.lists}
        for _ in range(count):
            if self.work < MOST_WORK:
                self.statement(depth, loops)
        self.say(depth, "pass" if not count else self.assignment())
        self.numbers, self.counters, self.lists = known

    def assignment(self):
        if self.lists and self.draws.chance(30):
            target, mark = self.element(), self.draws.of(("=", "+=", "-=", "*=", "^="))
        elif self.numbers:
            target, mark = self.draws.of(self.numbers), self.draws.of(("=", "=", "=", "+=", "//="))
        else:
            return "pass"
        if mark == "//=":
            return f"{target} {mark} {self.divisor()}"
        return f"{target} {mark} {self.value()}"

    def statement(self, depth, loops):
        drawn = self.draws.below(20)
        if drawn < 6 or depth > 5:
            self.say(depth, self.assignment())
        elif drawn < 8:
            name = self.new("n")
            self.say(depth, f"{name} = {self.value()}")
            self.numbers.append(name)
        elif drawn == 8 and len(self.numbers) > 1:
            one, other = self.draws.of(self.numbers), self.draws.of(self.numbers)
            if one != other:
                self.say(depth, f"{one}, {other} = {self.value(1)}, {self.value(1)}")
        elif drawn == 9:
            self.display(depth)
        elif drawn < 13:
            self.choice(depth, loops)
        elif drawn < 16 and loops < 3:
            self.loop(depth, loops)
        elif drawn == 16:
            call = self.call(False)
            if call:
                self.say(depth, call)
        elif drawn == 17 and loops:
            self.say(depth, f"if {self.test()}:")
            self.say(depth + 1, self.draws.of(("break", "continue")))
        elif drawn == 18 and not self.is_main and depth > 1:
            self.say(depth, f"if {self.test()}:")
            self.say(depth + 1, f"return {self.value()}" if self.gives else "return")
        else:
            self.write(depth)

    def display(self, depth):
        """A new list."""
        name, length = self.new("list"), self.draws.below(6) + 1
        if self.draws.chance(50):
            self.say(depth, f"{name} = [{self.atom()}] * {length}")
        else:
            self.say(depth, f"{name} = [{', '.join(self.value(2) for _ in range(length))}]")
        self.lists[name] = length

    def write(self, depth):
        values = ", ".join(self.value(1) for _ in range(self.draws.below(3) + 1))
        end = ', end=" "' if self.draws.chance(30) else ""
        self.say(depth, f"print({values}{end})")

    def choice(self, depth, loops):
        self.say(depth, f"if {self.test()}:")
        self.statements(depth + 1, self.draws.below(3), loops)
        for _ in range(self.draws.of((0, 0, 0, 1, 2))):
            self.say(depth, f"elif {self.test()}:")
            self.statements(depth + 1, self.draws.below(2), loops)
        if self.draws.chance(50):
            self.say(depth, "else:")
            self.statements(depth + 1, self.draws.below(3), loops)

    def loop(self, depth, loops):
        turns = self.draws.below(7) + 1
        counter = self.new("i")
        before, self.turns = self.turns, self.turns * turns
        if self.draws.chance(60):
            self.say(depth, f"for {counter} in range({self.bounds(turns)}):")
            self.counters.append(counter)
            self.statements(depth + 1, self.draws.below(4), loops + 1)
            self.counters.remove(counter)
        else:
            self.say(depth, f"{counter} = 0")
            self.say(depth, f"while {counter} < {turns}:")
            self.say(depth + 1, f"{counter} += 1")
            self.counters.append(counter)
            self.statements(depth + 1, self.draws.below(4), loops + 1)
        self.turns = before

    def bounds(self, turns):
        """Bounds of a range of so many turns."""
        drawn, step = self.draws.below(8), self.draws.of((1, 2, 3, 1000, -1, -2, -7, -(2**29)))
        if drawn < 3:
            return str(turns)
        if drawn == 3 and self.lists and self.turns < 200:
            return f"len({self.draws.of([*self.lists])})"
        if drawn == 4:
            return f"{self.atom()} % 3, {turns}"
        first = self.draws.of((0, 5, -5, 2147483640 if step > 0 else -2147483640))
        last = first + step * turns
        if -(2**31) <= last < 2**31:
            return f"{first}, {last}, {step}"
        return f"{first}, {2147483647 if step > 0 else -2147483648}, {step * 3}"


class Program:
    def __init__(self, seed):
        self.draws, self.lists, self.functions = Draws(seed), {}, []
        self.shared = ["total", "count"]
        heads = [f"SIZE = {self.draws.below(9) + 2}"]
        for at in range(self.draws.below(3)):
            self.lists[f"data{at}"] = self.draws.below(8) + 1
            heads.append(f"data{at} = [{self.draws.number()}] * {self.lists[f'data{at}']}")
        if self.draws.chance(50):
            self.lists["sized"] = None
            heads.append("sized = [0] * (SIZE * 2 + 1)")
        heads += [f"{name} = {self.draws.number()}" for name in self.shared]
        texts = [self.function(at) for at in range(self.draws.below(6))]
        wanted = self.draws.below(5)
        numbers = [self.draws.number() for _ in range(wanted - self.draws.chance(5))]
        main = Body(self, "main", is_main=True, numbers=self.shared)
        for at in range(wanted):
            main.say(0, f"{NAMES[at]} = int(input())")
            main.numbers.append(NAMES[at])
        main.statements(0, self.draws.below(14) + 4)
        main.say(0, f"print({', '.join(main.numbers)})")
        input_line = f"# input: {' '.join(map(str, numbers))}".rstrip()
        parts = ["\n".join(heads), *texts, "\n".join(main.lines)]
        self.text = "\n\n".join([input_line, *parts]) + "\n"

    def function(self, at):
        draws = self.draws
        kinds = [draws.chance(35) for _ in range(draws.below(5))]
        kinds += [False] * (12 * draws.chance(4))
        name = f"f{at}" if draws.chance(80) else f"do_{at}"
        names = [f"p{n}" for n in range(len(kinds))]
        lists = [it for it, is_list in zip(names, kinds) if is_list]
        numbers = [it for it, is_list in zip(names, kinds) if not is_list]
        body = Body(self, name, lists, numbers)
        body.gives = draws.chance(75)
        words = [f"{it}: list" if is_list else it for it, is_list in zip(names, kinds)]
        body.lines.append(f"def {name}({', '.join(words)}):")
        if draws.chance(40):
            shared = draws.of(self.shared)
            body.say(1, f"global {shared}")
            body.numbers.append(shared)
        body.say(1, f"n = {body.value()}")
        body.numbers.append("n")
        depth = self.recursion(body, names, kinds) if numbers and draws.chance(35) else 1
        body.statements(1, draws.below(7) + 1)
        if body.gives:
            body.say(1, f"return {body.value()}")
        self.functions.append(Callee(name, kinds, body.gives, body.work * depth + 2))
        return "\n".join(body.lines)

    def recursion(self, body, names, kinds):
        """A call of itself with a smaller argument, if that is not too great; how many there are."""
        deepest = self.draws.below(8) + 2
        down = next(it for it, is_list in zip(names, kinds) if not is_list)
        args = [f"{it} - 1" if it == down else it for it in names]
        call = f"{body.name}({', '.join(args)})"
        body.say(1, f"if {down} > 0 and {down} <= {deepest}:")
        body.say(2, f"{body.numbers[-1]} = {call}" if body.gives else call)
        return deepest + 1


def main(words):
    if len(words) != 1 or not words[0].isdecimal():
        print(__doc__.split("\n\n")[1].strip(), file=sys.stderr)
        return 2
    print(Program(int(words[0])).text, end="")
    return 0


if __name__ == "__main__":
    sys.exit(main(sys.argv[1:]))
