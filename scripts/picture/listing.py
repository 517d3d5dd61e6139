"""The machine instructions of a listing, beside the selected code that they came from.

A listing has a line for each instruction of an image, one procedure behind the other. How many
machine instructions one of selected code becomes is fixed. How many moves stand in front of it is
not: they are taken until each variable is where the routes want it.
"""

import re
from dataclasses import dataclass, field

from pranet.certificate import CONST, REGISTERS, has_memory, register_of

FIRST_PROCEDURE = 28  # the place in the code where procedure 0 begins

# What each instruction of selected code becomes: patterns of the names of machine instructions.
ALU = r"(add|sub|and|or|xor)\.(mr|rm|mi|mb)"
BECOMES = {
    "set": [r"mov\.[rm]i"],
    "copy": [r"mov\.(mr|rm)"],
    **dict.fromkeys(("add", "sub", "and", "or", "xor"), [ALU]),
    "mul": [r"imul\.(rm|i|b)"],
    "neg": ["neg"],
    **{name: [rf"{name}\.r"] for name in ("shl", "shr", "sar")},
    "cmp": [r"cmp\.(mr|rm|mi|mb)"],
    "cmpset": [r"cmp\.(mr|rm|mi|mb)", "set[a-z]+", "movzx"],
    "divmod": ["cdq", "idiv"],
    "check": [r"cmp\.(mi|mb)", "jae"],
    "checkpos": [r"cmp\.mb", "jle"],
    "load": [r"mov\.rm"],
    "store": [r"mov\.m[ri]"],
    "addr": ["lea"],
    "push": [r"push\.[rmi]"],
    "call": ["call"],
    "read": ["int"],
    "write": ["int"],
    "line": ["int"],
    "clear": [r"mov\.ri", r"mov\.mi", r"sub\.mb", "jne"],
}
PROLOGUE = [r"push\.r", r"mov\.mr", r"cmp\.mi", "jb", *[r"push\.r"] * 3]
EPILOGUE = ["lea", *["pop"] * 4, r"ret(\.i)?"]
IN_FRAME = re.compile(r"\[ebp\+d(?:8|32):(-?\d+)\]")


class NotOfThisCode(Exception):
    """Why a listing is not of the code that a certificate holds."""


@dataclass
class Lines:
    """The machine instructions of a block, each a place and a text."""

    moves: dict = field(default_factory=dict)  # those that come before a layer
    code: list = field(default_factory=list)  # those of each instruction
    end: list = field(default_factory=list)


@dataclass
class Machine:
    """The machine instructions of a procedure."""

    prologue: list
    blocks: list


def read(text):
    """The instructions of a listing, each a place and a text."""
    lines = text.splitlines()
    if not lines or not lines[0].startswith("data "):
        raise NotOfThisCode("it is no listing")
    return [(int(line[:8], 16), line[9:]) for line in lines[1:]]


def cells(network, routes):
    """How far from EBP each variable is in memory, if it may be there."""
    code, found = network.code, {}
    for v, it in enumerate(code.variables):
        if it.kind == "param":
            found[v] = 8 + 4 * (code.args - 1 - it.value)
    in_memory = {
        strand.var
        for strand, places in zip(network.strands, routes, strict=True)
        if any(map(has_memory, places))
    }
    plain = (v for v in sorted(in_memory) if code.variables[v].kind == "plain")
    return found | {v: -16 - 4 * slot for slot, v in enumerate(plain)}


class State:
    """What is in registers and cells of the frame while moves are made."""

    def __init__(self):
        self.held = {}

    def put(self, cell, value):
        self.held[cell] = value

    def cell(self, operand):
        found = IN_FRAME.fullmatch(operand)
        return int(found[1]) if found else operand

    def make(self, text):
        """Does a move. Whether it is one is told."""
        name, _, rest = text.partition(" ")
        to, _, source = rest.partition(", ")
        to, held = self.cell(to), self.held
        if name == "mov.ri":
            held[to] = ("number", int(source))
        elif name in ("mov.mr", "mov.rm"):
            held[to] = held.get(self.cell(source))
        elif name == "xchg":
            held[to], held[source] = held.get(source), held.get(to)
        else:
            return False
        return True


class Reader:
    """Goes through a listing, procedure by procedure."""

    def __init__(self, instructions):
        self.instructions = instructions
        places = [place for place, _ in instructions]
        self.at = places.index(FIRST_PROCEDURE) if FIRST_PROCEDURE in places else len(places)

    def take(self, pattern):
        if self.at == len(self.instructions):
            raise NotOfThisCode("the listing ends too early")
        line = self.instructions[self.at]
        if not re.fullmatch(pattern, line[1].partition(" ")[0]):
            raise NotOfThisCode(f"{line[1]} stands at {line[0]:08x}, where {pattern} was wanted")
        self.at += 1
        return line

    def take_all(self, patterns):
        return [self.take(it) for it in patterns]

    def procedure(self, network, routes):
        """The machine instructions of the next procedure."""
        aligned = Alignment(self, network, routes)
        return aligned.procedure()


class Alignment:
    """One procedure's code beside the instructions that a reader takes."""

    def __init__(self, reader, network, routes):
        self.reader, self.network, self.routes = reader, network, routes
        self.code = network.code
        self.cells = cells(network, routes)
        self.begins = []  # where each block begins
        self.jumps = []  # the places that jumps name, and the block that each is to be
        self.changes = {}  # the strands that may move before a layer, by block and layer
        for number, strand in enumerate(network.strands):
            for layer in range(strand.first, strand.last + 1):
                if layer % 2 == 1:
                    self.changes.setdefault((strand.block, layer), []).append(number)

    def procedure(self):
        slots = sum(offset < 0 for offset in self.cells.values())
        prologue = self.reader.take_all(PROLOGUE)
        if self.code.aggregates + slots:
            prologue.append(self.reader.take(r"sub\.mi"))
        blocks = [self.block(number) for number in range(len(self.code.blocks))]
        for target, number in self.jumps:
            if target != self.begins[number]:
                raise NotOfThisCode(f"a jump goes to {target:08x} and not to block {number}")
        return Machine(prologue, blocks)

    def block(self, number):
        block, lines = self.code.blocks[number], Lines()
        at = self.reader.at
        here = self.reader.instructions[at][0] if at < len(self.reader.instructions) else None
        self.begins.append(here)
        for i, ins in enumerate(block.code):
            lines.moves[2 * i + 1] = self.moves(number, 2 * i + 1)
            lines.code.append(self.reader.take_all(BECOMES[ins[0]]))
        lines.moves[block.exit] = self.moves(number, block.exit)
        lines.end = self.end(number, block.end)
        return lines

    def end(self, number, end):
        if end[0] == "return":
            return self.reader.take_all(EPILOGUE)
        taken = []
        if end[0] == "branch":
            taken.append(self.jump(r"j(?!mp)[a-z]+", end[2]))
        if end[-1] != number + 1:
            taken.append(self.jump("jmp", end[-1]))
        return taken

    def jump(self, pattern, to):
        line = self.reader.take(pattern)
        self.jumps.append((int(line[1].split()[1], 16), to))
        return line

    def moves(self, number, layer):
        """The moves that stand before a layer."""
        state, wanted = State(), {}
        for strand in self.changes.get((number, layer), ()):
            v, places = self.network.strands[strand].var, self.routes[strand]
            variable = self.code.variables[v]
            value = ("number", variable.value) if variable.kind == "constant" else v
            step = layer - self.network.strands[strand].first
            origin = places[step - 1] if step else CONST
            for cell in self.cells_of(v, origin):
                state.put(cell, value)
            wanted |= dict.fromkeys(self.cells_of(v, places[step]), value)
        taken = []
        while any(state.held.get(cell) != value for cell, value in wanted.items()):
            line = self.reader.take(r"mov\.(mr|rm|ri)|xchg")
            state.make(line[1])
            taken.append(line)
        return taken

    def cells_of(self, v, place):
        """The register and the cell of the frame that a place is."""
        register = register_of(place)
        found = [] if register is None else [REGISTERS[register]]
        return found + ([self.cells[v]] if has_memory(place) else [])
