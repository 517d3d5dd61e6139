"""Code that is placed by routes of its row, and run.

Behind a procedure stand the places of its strands, a line each; if none do, it goes by home routes.
Behind `frames` stand the bytes that the frames have, lines of placed code are what the body
becomes, `image` has the bytes of the image, and `takes` is how many steps that makes.
"""

import re

from calls.reader import FILE
from picture.listing import BECOMES, EPILOGUE, PROLOGUE
from tables import tool

STEPS = 1000  # of the code, where a row does not say it
MOVES = {  # names of machine instructions, and what their operands are
    "Copy": ("mov.mr", "{0}, {1}"),
    "Swap": ("xchg", "{0}, {1}"),
    "Load": ("mov.rm", "{0}, \\[.*\\]"),
    "Store": ("mov.mr", "\\[.*\\], {1}"),
    "Set": ("mov.ri", "{0}, {1}"),
}
MOVE = re.compile(r"  (\w+)\((?:VarId\(\d+\)|(\w+)), (?:VarId\(\d+\)|(-?\w+))\)")


def differences(row, expected):
    """What a row's code is not, as the row says it."""
    procedures, data = row.sketch.procedures, row.number("data", 0)
    text = tool.code_text(procedures, data)
    homes = tool.home_routes(text)
    routes = [own or home for own, home in zip(row.paths, homes, strict=True)]
    certified = tool.certificate_text(procedures, routes)
    try:
        image, frames = tool.applied(text, certified)
    except tool.Refused as refused:
        if expected != " not placed" or not str(refused).endswith("certificate procedure 0 routes"):
            yield str(refused)
        return
    found, steps = tool.executed(image, row.input)
    if found != expected:
        yield f"image: {found}"
    if steps != row.number("takes", steps):
        yield f"image: {steps} steps"
    if row.frames and frames != row.frames:
        yield f"frames: {frames}"
    if row.image and image.hex() != row.image:
        yield f"image: {image.hex()}"
    found, _ = tool.meant(text, row.input, row.number("steps", STEPS))
    if found != expected:
        yield f"meaning: {found}"
    yield from placed_otherwise(row, image)


# ---- placed code beside the listing of its image


def patterns_of(placed):
    """A pattern for each machine instruction that lines of placed code become, but for ends."""
    for line in placed:
        move, name = MOVE.fullmatch(line), re.match(r"  (\w+)", line)
        if move and move[1] in MOVES:
            op, operands = MOVES[move[1]]
            names = (str(it).lower() for it in move.groups()[1:])
            yield f"{re.escape(op)} {operands.format(*names)}"
        elif name and name[1].lower() in BECOMES:
            yield from (f"{it}( .*)?" for it in BECOMES[name[1].lower()])
        elif name and name[1] == "Branch":
            yield r"j[a-z]+ .*"
        elif name and name[1] == "Return":
            yield from (f"{it}( .*)?" for it in EPILOGUE)


def placed_otherwise(row, image):
    """Where the listing of an image is not of the row's placed code, if that has any."""
    if not row.placed:
        return
    listed = tool.call(["list", FILE], {FILE: image}).out.decode().splitlines()
    lines = [it[9:] for it in listed[1:] if int(it[:8], 16) >= 28]
    frame = r"sub\.m[bi] esp, .*"
    wanted = [*(f"{it}( .*)?" for it in PROLOGUE), *patterns_of(row.placed)]
    found = [it for it in lines if not re.fullmatch(rf"jmp .*|{frame}", it)]
    for pattern, line in zip(wanted, found):
        if not re.fullmatch(pattern, line):
            yield f"placed: {line} in the place of {pattern}"
            return
    if len(found) < len(wanted):
        yield "placed: the listing ends too early"
