"""For front ends in Python: the code of a procedure as it grows, and code files (docs/CODE.md)."""

import json
import re

MOST = {"instructions": 8321, "blocks": 4098, "variables": 16383, "words of arguments": 32}
MOST |= {"words of its own": 65536, "words of data": 4194304}


class TooLarge(Exception):
    """There is more of something than may be."""


class Block:
    """A basic block. Its end names blocks themselves, and not their numbers."""

    def __init__(self, unknown=()):
        self.depth, self.code, self.end = 0, [], ()
        self.unknown = {*unknown}  # names that may have no value here, and "" if control comes here


class Code:
    """The code of a procedure. Instructions go to the block that was opened last. A value is the
    variable that holds it; there may be thousands, as it is the back end that finds registers."""

    def __init__(self, unknown=()):
        self.vars, self.words, self.loops, self.exit = [], 0, [], Block()
        self.block = Block({"", *unknown})
        self.blocks, self.unknown = [self.block], self.block.unknown

    def variable(self, *kind):
        self.vars.append(kind or ("plain",))
        return len(self.vars) - 1

    def constant(self, number):  # a variable that always holds it
        return self.variable("constant", (number + (1 << 31)) % (1 << 32) - (1 << 31))

    def number_in(self, value):  # the number that a variable always holds, or None
        return self.vars[value][1] if self.vars[value][0] == "constant" else None

    def emit(self, name, *operands):
        if name == "copy" and (number := self.number_in(operands[1])) is not None:
            name, operands = "set", (operands[0], number)  # no copy is of a constant,
        if name != "copy" or operands[0] != operands[1]:  # nor of a variable to itself
            self.block.code.append((name, *operands))

    def new(self, name, *operands, by=()):  # a new variable, which an instruction writes
        self.emit(name, *by, variable := self.variable(), *operands)
        return variable

    def go(self, *to, by=("jump",)):  # ends the block, if it has no end
        self.block.end = self.block.end or (*by, *to)
        for it in to:
            it.unknown |= self.unknown
        self.unknown = set()

    def open(self, block):  # to which control goes on, if the block before has no end
        self.go(*[] if self.block.end else [block])
        self.block, self.unknown, block.depth = block, block.unknown, min(len(self.loops), 5)
        self.blocks.append(block)

    def choose(self, test, do, one, other):  # does it with one of two, by a test of the front end
        yes, no, behind = Block(), Block(), Block()
        self.test(test, yes, no)
        self.open(yes)
        do(one)
        self.go(behind)
        self.open(no)
        do(other)
        self.open(behind)

    def finished(self, name, args=0, data_words=0):
        """The procedure as it stands in a code file."""
        self.go(self.exit)
        self.exit.end = ("return",)
        self.blocks[0].code[:0] = [["clear"]] if self.words else []
        blocks = [*filter(lambda it: it.unknown, self.blocks), self.exit]
        counts = [sum(len(it.code) for it in blocks), len(blocks), len(self.vars), args]
        for count, (what, most) in zip([*counts, self.words, data_words], MOST.items()):
            if count > most:
                raise TooLarge(f"this has {count} {what}, and at most {most} may be")
        numbers = {block: number for number, block in enumerate(blocks)}
        blocks = [(it.depth, it.code, [numbers.get(to, to) for to in it.end]) for it in blocks]
        name = re.sub("^[^A-Za-z]+|[^A-Za-z0-9]", "", name)[:255] or "P"
        words = {"name": name, "args": args, "aggregates": self.words, "vars": self.vars}
        return words | {"blocks": blocks}


def text_of(procedures, data_words=0):
    """The text of a code file."""
    file = {"kind": "pra-code", "version": 1, "data_words": data_words, "procs": procedures}
    return json.dumps(file, sort_keys=True, separators=(",", ":"))
