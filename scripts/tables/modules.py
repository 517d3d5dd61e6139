"""Modules, by their image and by their meaning.

In what comes of a row `1*3` is a 1 that is written three times. `left 1 4` says that procedure 1
has 4 instructions when it is tidy, `code 1` that it then is the sketch that follows, with `;`
between two lines, and `depths` how many loops stand around each block of the body, in the order of
the text. `home` says how many procedures and words of data an image without rounds has.
"""

import dataclasses
import itertools
import re
import struct

from calls.reader import FILE
from pranet import certificate
from tables import rows, sketches, tool

STEPS = 10000000
EVENT = re.compile(r" -?\d+(?=[ /]|$)|/")
KEYS = ("input", "steps", "left", "code", "depths", "image")


@dataclasses.dataclass
class Module:
    """A row as far as it was read."""

    name: str
    lines: list = dataclasses.field(default_factory=list)
    said: dict = dataclasses.field(default_factory=dict)

    def take(self, line):
        """Takes a line."""
        key, _, rest = line.partition(" ")
        if key in KEYS:
            self.said.setdefault(key, []).append(rest)
        else:
            self.lines.append(line)

    def one(self, key, default):
        return self.said.get(key, [default])[0]


def modules_of(name):
    """Each row of a table of modules, with what must come out. Of two without a name in front the
    second one begins behind what comes of the first."""
    row = Module("")
    for line in rows.lines_of(name):
        if line.startswith("# "):
            row = Module(line[2:])
        elif line.startswith("="):
            yield row, line[1:]
            row = Module("")
        else:
            row.take(line)


def counted(text):
    """What a run came to, where what is written again and again stands once with its times."""
    head, *ending = re.fullmatch(r"((?: -?\d+|/)*)( [a-z].*)", text).groups()
    found = ""
    for event, run in itertools.groupby(EVENT.findall(head)):
        times = len(list(run))
        found += event + (f"*{times}" if times > 1 else "")
    return found + ending[0]


def comes_to(text, given, steps=STEPS):
    """What the image of a module comes to, and what the module means."""
    source, words = {FILE: text.encode()}, [FILE, f"--steps={steps}"]
    for mode in (["run", "--rounds=0"], ["interp"]):
        left = tool.call([mode[0], *words, *mode[1:]], source, given.encode(), (0, 1, 2))
        yield counted(tool.outcome(left)[0])


def differences(row, expected):
    """What is not as the row says."""
    text = "".join(f"{it}\n" for it in row.lines)
    for way, found in zip(("image", "meaning"), comes_to(
        text, row.one("input", ""), int(row.one("steps", STEPS))
    )):
        if found != expected:
            yield f"{way}: {found}"
    if row.said.keys() & {"left", "code", "depths"}:
        made = tool.call(["cert", FILE, "--rounds=0"], {FILE: text.encode()})
        yield from tidied_otherwise(row, certificate.read(made.out.decode()).procedures)


def sketched(text):
    """The variables and blocks of a procedure that lines of a sketch are."""
    sketch = sketches.Sketch()
    for line in text.split("; "):
        sketch.take(line)
    (procedure,) = sketch.procedures
    return procedure.args, procedure.aggregates, procedure.variables, procedure.blocks


def tidied_otherwise(row, procedures):
    """What the tidy code of a module is not."""
    for said in row.said.get("left", ()):
        number, count = map(int, said.split(" "))
        found = sum(len(block.code) for block in procedures[number].blocks)
        if found != count:
            yield f"procedure {number} has {found} instructions"
    for said in row.said.get("code", ()):
        number, _, text = said.partition(" ")
        it = procedures[int(number)]
        found = it.args, it.aggregates, it.variables, it.blocks
        if found != sketched(text):
            yield f"procedure {number} is {found}"
    if "depths" in row.said:
        depths = " ".join(str(block.depth) for block in procedures[0].blocks)
        if depths != row.one("depths", ""):
            yield f"depths: {depths}"


def differences_at_home(row, expected):
    """What the image of a module without rounds is not: how many procedures and words of data it
    has, and its bytes where the row says them."""
    text = "".join(f"{it}\n" for it in row.lines)
    left = tool.call(["compile", FILE, "--rounds=0"], {FILE: text.encode()})
    image = left.files["out.pri"]
    found = f" {len(tool.FRAME.findall(left.out))} {struct.unpack_from('<I', image, 12)[0]}"
    if found != expected:
        yield f"procedures and words: {found}"
    if "image" in row.said and image.hex() != "".join(row.said["image"]):
        yield f"image: {image.hex()}"
