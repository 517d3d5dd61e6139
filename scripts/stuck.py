"""What a line means that ends a run of a code file: a trap, or where the run is stuck.

Code of any front end may come to where nothing is said of what an instruction does. The mode interp
tells the instruction then; a run of the image may do anything from there on.
"""

import re

import traps
from checker.given import Broken, code_of
from checker.words import Names

LINE = re.compile(r"stuck (\w+) procedure (\d+) block (\d+) instruction (\d+) steps \d+ reads \d+")
KINDS = {
    "address": "an address stands where a number is wanted",
    "nothing": "what is read holds nothing",
    "access": "there is no whole word of data, of a frame or of an argument at this address",
    "divide": "the divisor is 0 or less",
}


def where(code, procedure, block, instruction):
    """An instruction of a code file, or the end of a block, in words."""
    it = code.procedures[procedure]
    names, count = Names(it), len(it.blocks[block].code)
    place = names.instruction(block, instruction) if instruction < count else names.end(block)
    return f"procedure {procedure} ({code.names[procedure]}), {place}"


def told(name, source, line):
    """What a line means that ends a run of a code file, or None of any other."""
    if found := traps.STEPS.fullmatch(line):
        return [f"{name}: trap {found[1]}: {traps.KINDS[found[1]]}"]
    if found := LINE.fullmatch(line):
        words = f"stuck: {KINDS.get(found[1], found[1])}"
        try:
            place = where(code_of(name, source), *map(int, found.groups()[1:]))
        except (Broken, IndexError):  # it is none of this code
            return [f"{name}: {words}"]
        return [f"{name}, {place}, {words}"]
    return None
