"""The rows of a table.

A table begins with a page on what it has, up to the first empty line. A row begins with its name
behind `#`, and then has, a line for each, what is given and what must come out behind `=`: what is
written, `/` for the end of a line, the ending, and how many words of the input were taken. A line
that ends with a backslash goes on in the next one. What else a line may have each table says.
"""

import dataclasses
import os
import re

from tables import sketches

FOLDER = f"{os.path.dirname(os.path.dirname(os.path.dirname(os.path.realpath(__file__))))}/tests"
GIVEN = {"steps", "data", "takes"}  # lines of one number
JOINED = re.compile(r"\\\n\s*")
REPEATED = re.compile(r"(\S+)\*(\d+)")


def lines_of(name):
    """The lines of a table behind its page."""
    with open(f"{FOLDER}/{name}.table", encoding="utf-8") as file:
        _, _, text = file.read().partition("\n\n")
    return JOINED.sub("", text).splitlines()


def repeated(line):
    """A line in which each word that has a count behind `*` stands so often."""
    return REPEATED.sub(lambda it: " ".join([it[1]] * int(it[2])), line)


@dataclasses.dataclass
class Row:
    """A row as far as it was read."""

    name: str
    sketch: sketches.Sketch = dataclasses.field(default_factory=sketches.Sketch)
    paths: list = dataclasses.field(default_factory=list)  # of each procedure, those that are given
    numbers: dict = dataclasses.field(default_factory=dict)
    input: str = ""
    frames: list = dataclasses.field(default_factory=list)
    image: str = ""
    placed: list = dataclasses.field(default_factory=list)  # lines of the body's placed code
    site: tuple = (0, 0, 0)  # the procedure, block and instruction with the `*`

    def number(self, key, default):
        return self.numbers.get(key, default)

    def take(self, line):
        """Takes a line."""
        key, _, rest = line.partition(" ")
        if line.startswith(("block ", "  ")):
            self.placed.append(line)
        elif key in GIVEN:
            self.numbers[key] = int(rest)
        elif key == "input":
            self.input = rest
        elif key == "frames":
            self.frames = [int(it) for it in rest.split(" ")]
        elif key == "image":
            self.image += rest
        elif line != "home":
            self.take_code(line.removeprefix("at "))

    def take_code(self, line):
        """Takes places of a strand, or a line of code."""
        line = repeated(line)
        if (path := sketches.path(line)) is not None:
            self.paths[-1].append(path)
            return
        procedures = self.sketch.procedures
        if line.startswith("*"):
            blocks = procedures[-1].blocks
            self.site = len(procedures) - 1, len(blocks), len(self.sketch.code)
        self.sketch.take(line.removeprefix("*"))
        if len(self.paths) < len(procedures):
            self.paths.append([])


def rows_of(name):
    """Each row of a table of code, with what must come out."""
    row = None
    for line in lines_of(name):
        if line.startswith("# "):
            row = Row(line[2:])
        elif line.startswith("="):
            yield row, line[1:]
        else:
            for part in [line] if line.startswith("  ") else line.split("; "):
                row.take(part)
