"""Where a procedure's code is not the module's, and what a source calls its variables."""

from itertools import zip_longest

from checker.parts import end_text, instruction_text
from checker.words import Names


def counted(number, words):
    return f"{number} {words[:-1] if number == 1 else words}"


def kind_words(it):
    return {"param": f"argument {it.value}", "constant": f"the number {it.value}"}.get(
        it.kind, "neither argument nor number"
    )


def of_variables(mine, wanted):
    for v, (one, other) in enumerate(zip(mine.variables, wanted.variables)):
        if (one.kind, one.value) != (other.kind, other.value):
            return f"variable {v} is {kind_words(one)}, and the module's is {kind_words(other)}"
    return None


def of_instructions(number, mine, wanted):
    """The first instruction of a block that is another one, or its end."""
    one, other = Names(mine), Names(wanted)
    block, beside = mine.blocks[number], wanted.blocks[number]
    for i, (ins, its) in enumerate(zip_longest(block.code, beside.code)):
        if ins != its:
            here = f"`{instruction_text(ins, one.short)}`" if ins else "missing"
            there = f"`{instruction_text(its, other.short)}`" if its else "none"
            return f"instruction {i} of block {number} is {here}, and the module's is {there}"
    if block.end != beside.end:
        ends = f"`{end_text(block.end)}`, and the module's is `{end_text(beside.end)}`"
        return f"the end of block {number} is {ends}"
    if block.depth != beside.depth:
        loops = f"has {counted(block.depth, 'loops')} round it"
        return f"block {number} {loops}, and {beside.depth} in the module"
    return None


def difference(mine, wanted):
    """The first thing in which a procedure's code differs from the module's, in words, or None."""
    counts = (
        (mine.args, wanted.args, "arguments"),
        (mine.aggregates, wanted.aggregates, "aggregate words"),
        (len(mine.variables), len(wanted.variables), "variables"),
        (len(mine.blocks), len(wanted.blocks), "blocks"),
    )
    for number in range(min(len(mine.blocks), len(wanted.blocks))):
        if words := of_instructions(number, mine, wanted):
            return words
    if words := of_variables(mine, wanted):
        return words
    for one, other, words in counts:
        if one != other:
            return f"it has {counted(one, words)}, and {other} are in the module"
    return None


def differences(mine, wanted):
    """The first difference of each procedure of two certificates that has one, by its number."""
    for one, other in zip(mine.procedures, wanted.procedures):
        if words := difference(one, other):
            yield one.number, words


def name_arguments(procedures, headings):
    """Gives variables of arguments the names that the headings of a source have for these."""
    if len(procedures) != len(headings):
        return
    for procedure, heading in zip(procedures, headings, strict=True):
        for v, it in enumerate(procedure.variables):
            if it.kind == "param" and it.value < len(heading.parameters):
                procedure.called[v] = heading.parameters[it.value][0]
