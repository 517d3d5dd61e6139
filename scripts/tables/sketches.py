"""Selected code as text, an instruction a line, as `load v1 frame 2 8 v3`.

A procedure begins with a line `proc`, how many arguments and aggregate words it has, and its
variables, each `plain`, `param` with a number, or the number of a constant. A line `loops` with a
number says in how many loops the block stands whose instructions follow. An address has its base,
an offset in bytes, and a variable that counts words.
"""

import re

from pranet.certificate import CONDITIONS, FIRST_BOTH, REGISTERS, Block, Procedure, Variable

NUMBER_OF = {name: number for number, name in CONDITIONS.items()}
PLACES = {name: number for number, name in enumerate((*REGISTERS, "mem", "const"))} | {
    f"{name}m": FIRST_BOTH + number for number, name in enumerate(REGISTERS)
}
SHAPES = {  # of operands: variables, numbers, a condition, an address
    **dict.fromkeys(("copy", "add", "sub", "and", "or", "xor", "mul", "cmp"), "vv"),
    **dict.fromkeys(("neg", "checkpos", "push", "read", "write"), "v"),
    **dict.fromkeys(("set", "check", "shl", "shr", "sar"), "vn"),
    **dict.fromkeys(("load", "store", "addr"), "va"),
    **dict.fromkeys(("line", "clear"), ""),
    "cmpset": "cvvv",
    "divmod": "vvvv",
    "call": "n",
}


class NoSketch(Exception):
    """Why a line is none of code."""


def variable(word):
    """The number of a variable, as `v3`."""
    return int(re.fullmatch(r"v(\d+)", word)[1])


def address(words):
    """Base, number, offset and index of an address."""
    base, number, *others = words
    offset, index = 0, None
    for word in others:
        if word.startswith("v"):
            index = variable(word)
        else:
            offset += int(word)
    return [base, variable(number) if base == "via" else int(number), offset, index]


def instruction(line):
    """The JSON value of an instruction."""
    name, *words = line.split(" ")
    shape, operands = SHAPES[name], []
    for at, kind in enumerate(shape):
        if kind == "a":
            operands.append(address(words[at:]))
        else:
            operands.append({"v": variable, "n": int, "c": NUMBER_OF.get}[kind](words[at]))
    return [name, *(operands[::-1] if name == "store" else operands)]


def end(line):
    """The JSON value of a block's end, or None."""
    name, *words = line.split(" ")
    if name == "branch":
        return [name, NUMBER_OF[words[0]], *map(int, words[1:])]
    return [name, *map(int, words)] if name in ("jump", "return") else None


def kinds(words):
    """The variables of a procedure."""
    words = iter(words)
    for word in words:
        if word == "plain":
            yield Variable("plain", None)
        elif word == "param":
            yield Variable("param", int(next(words)))
        else:
            yield Variable("constant", int(word))


class Sketch:
    """The procedures that lines of code are."""

    def __init__(self):
        self.procedures, self.code, self.depth = [], [], 0

    def take(self, line):
        """Takes a line."""
        try:
            self.take_words(line)
        except (KeyError, ValueError, TypeError, IndexError, StopIteration) as error:
            raise NoSketch(line) from error

    def take_words(self, line):
        name, *words = line.split(" ")
        if name == "proc":
            args, aggregates, *others = words
            counts = len(self.procedures), int(args), int(aggregates)
            self.procedures.append(Procedure(*counts, list(kinds(others)), [], [], 0, 0))
        elif name == "loops":
            self.depth = int(words[0])
        elif (found := end(line)) is not None:
            self.procedures[-1].blocks.append(Block(self.depth, self.code, found))
            self.code, self.depth = [], 0
        else:
            self.code.append(instruction(line))


def path(line):
    """The places of a line, or None where a word names no place."""
    found = [PLACES.get(word) for word in line.split(" ")]
    return None if None in found else found
