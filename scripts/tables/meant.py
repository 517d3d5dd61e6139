"""Selected code, and what it means: by `interp` of the compiler, and by the machine in Python.

What comes of a row is what is written, `/` for the end of a line, the ending, how many steps were
made, and how many words of the input were taken; a number with `*` and a count is written so often.
Of code that is stuck the kind stands there, and the procedure, the block and the instruction. Of
code that breaks a rule it is `refused` and the procedure. Behind `frames` stand the bytes that the
frames have.
"""

import re

from calls.reader import FILE
from selected import file as code_file
from selected import machine
from tables import rows, tool

STEPS = 10000  # of a row that does not say it
REFUSED = re.compile(r".* fault code procedure (\d+)")
WORDS = re.compile(r"procedure|block|instruction|steps|reads")


def told(out, line):
    """What a run came to, of its output and its last line."""
    return " ".join(f"{out} {WORDS.sub('', line)}".replace("\n", " / ").split())


def meant(text, row, steps):
    """What code comes to by `interp`, and the frames that it tells."""
    words = ["interp", FILE, tool.FROM, "--rounds=0", f"--steps={steps}"]
    try:
        left = tool.call(words, {FILE: text}, row.input.encode(), (0, 1, 2))
    except tool.Refused as refused:
        if found := REFUSED.fullmatch(str(refused)):
            return f"refused {found[1]}", []
        raise
    line = left.notes.decode().splitlines()[-1]
    return told(left.out.decode(), line), [int(it) for it in tool.FRAME.findall(left.notes)]


def anew(text, row, frames, steps):
    """What the machine in Python makes of it."""
    try:
        code = code_file.read(text)
    except code_file.NoCode:
        return "refused"
    came_to = machine.run(code, map(int, row.input.split()), frames, steps)
    return told(came_to.out, came_to.line())


def differences(row, expected):
    """What a row's code does not mean, as the row says it."""
    wanted = " ".join(rows.repeated(expected).split())
    text = tool.code_text(row.sketch.procedures, row.number("data", 0))
    steps = row.number("steps", STEPS)
    found, frames = meant(text, row, steps)
    if found != wanted:
        yield f"meaning: {found}"
    if row.frames and frames != row.frames:
        yield f"frames: {frames}"
    found = anew(text, row, frames, steps)
    if found != re.sub(r"(refused) \d+", r"\1", wanted):
        yield f"machine in Python: {found}"
