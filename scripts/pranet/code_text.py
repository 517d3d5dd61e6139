"""Code files as text for people, one instruction a line, from which the file can be made again.

    data words 11

    procedure 0 Sort
    variables v0 = 0, v1, v2 = 10
    block 0
      [data 10] := 0
      go on with block 1
    block 1, 1 loop
      v1 := [data 10]
      compare v1, 10
      if >= go on with block 3, else with block 2

Behind the name of a procedure may stand `, 2 arguments` and `, 3 aggregate words`. Variables are
numbered as they stand behind `variables`: `v0 = 0` is the number 0, `v1 = argument 0` an argument's
variable, and `v1` alone neither. Instructions and ends are written as pages write them. There a
number stands for the first variable of that number which nothing before it in the procedure has
named, or, where all are named, for the last one. `code_reader` reads such a text. To it a number
without a variable is one more variable behind all others, names may be any, and from `;` to the end
of a line is a comment.
"""

from dataclasses import dataclass

from checker.beside import counted
from pranet.certificate import end_text, instruction_text

WIDTH = 96  # columns of a line
INDENT = "  "


class Numbers:
    """Which variables the numbers of a procedure's text stand for, as it is gone through."""

    def __init__(self):
        self.all, self.waiting = {}, {}  # by number: its variables, and how many nothing has named
        self.named = set()

    def add(self, v, number):
        self.all.setdefault(number, []).append(v)

    def next(self, number):
        """The variable that a number stands for here, or None where it has none."""
        known, at = self.all.get(number, []), self.waiting.get(number, 0)
        while at < len(known) and known[at] in self.named:
            at += 1
        self.waiting[number] = at
        return known[min(at, len(known) - 1)] if known else None

    def name(self, v):
        """Notes that the text names a variable."""
        self.named.add(v)


@dataclass
class Line:
    """A line of a text, and of which procedure or block it is the head."""

    text: str
    procedure: int | None = None
    block: int | None = None


class Writer:
    """Writes the lines of one procedure."""

    def __init__(self, procedure, name):
        self.code, self.called, self.numbers = procedure, name, Numbers()
        for v, it in enumerate(procedure.variables):
            if it.kind == "constant":
                self.numbers.add(v, it.value)

    def name(self, v):
        """What an instruction calls a variable, where it stands next."""
        it = self.code.variables[v]
        if it.kind != "constant":
            return f"v{v}"
        is_told = self.numbers.next(it.value) == v
        self.numbers.name(v)
        return str(it.value) if is_told else f"v{v}"

    def head(self):
        it, parts = self.code, [f"procedure {self.code.number} {self.called}"]
        parts += [counted(it.args, "arguments")] if it.args else []
        parts += [counted(it.aggregates, "aggregate words")] if it.aggregates else []
        return ", ".join(parts)

    def variables(self):
        """The lines that declare variables."""
        line = ""
        for v, it in enumerate(self.code.variables):
            kinds = {"constant": f" = {it.value}", "param": f" = argument {it.value}", "plain": ""}
            more = f"v{v}{kinds[it.kind]}"
            if line and len(line) + len(more) + 2 > WIDTH:
                yield line
                line = ""
            line = f"{line}, {more}" if line else f"variables {more}"
        if line:
            yield line

    def lines(self):
        yield Line(self.head(), self.code.number)
        yield from map(Line, self.variables())
        for number, block in enumerate(self.code.blocks):
            loops = f", {counted(block.depth, 'loops')}" if block.depth else ""
            yield Line(f"block {number}{loops}", self.code.number, number)
            yield from (Line(INDENT + instruction_text(it, self.name)) for it in block.code)
            yield Line(INDENT + end_text(block.end))


def lines_of(code):
    """The lines of a code file's text."""
    yield Line(f"data words {code.data_words}")
    for procedure, name in zip(code.procedures, code.names, strict=True):
        yield Line("")
        yield from Writer(procedure, name).lines()


def text_of(code):
    return "".join(f"{it.text}\n" for it in lines_of(code))
