"""The reason `code`: what speaks against a procedure's code, rule by rule, in words.

The rules and their numbers are those of docs/CODE.md. Of code that names what is not there,
or is larger than a procedure may be, the other rules are not asked. A network is made of code that
keeps them all, and of no other.
"""

from checker.parts import DEEPEST, Network, bits, row_of
from checker.words import Names

MOST_BLOCKS, MOST_INSTRUCTIONS, MOST_VARIABLES = 4098, 8321, 16383
MOST_ARGUMENTS, MOST_AGGREGATES = 32, 65536
IN_PLACE = ("add", "sub", "and", "or", "xor", "mul", "neg", "shl", "shr", "sar")
SHIFTS, MOST_SHIFTED = ("shl", "shr", "sar"), 31
MANY = 1 << 18  # strands of which a network is made only where routes are as many


def instructions(procedure):
    """Each instruction with its block and its place there."""
    for b, block in enumerate(procedure.blocks):
        for i, ins in enumerate(block.code):
            yield b, i, ins


def read_by(ins):
    return [it.var for it in row_of(ins).reads]


def written_by(ins):
    return [it.var for it in row_of(ins).writes]


def address_of(ins):
    """The address among its operands, or None."""
    return next((it for it in ins[1:] if isinstance(it, list)), None)


# ---- rules 2 and 9: what is named, and how much there is


def sizes(procedure):
    counted = (
        ("blocks", len(procedure.blocks), MOST_BLOCKS),
        ("instructions", sum(len(it.code) for it in procedure.blocks), MOST_INSTRUCTIONS),
        ("variables", len(procedure.variables), MOST_VARIABLES),
        ("arguments", procedure.args, MOST_ARGUMENTS),
        ("aggregate words", procedure.aggregates, MOST_AGGREGATES),
    )
    for name, count, most in counted:
        if count > most:
            yield f"it has {count} {name}, and at most {most} may be (rule 9)"
    for b, block in enumerate(procedure.blocks):
        if block.depth > DEEPEST:
            loops = f"{block.depth} loops round it, and at most {DEEPEST}"
            yield f"block {b} has {loops} may be (rule 9)"


def absent(procedure, names):
    """What is named and is not there."""
    variables, blocks = len(procedure.variables), len(procedure.blocks)
    for v, it in enumerate(procedure.variables):
        if it.kind == "param" and it.value >= procedure.args:
            yield f"variable {v} is of argument {it.value}, of {procedure.args} (rule 2)"
    for b, i, ins in instructions(procedure):
        for v in dict.fromkeys([*read_by(ins), *written_by(ins)]):
            if v >= variables:
                where = names.instruction(b, i)
                yield f"{where}, names variable {v}, of {variables} (rule 2)"
        address = address_of(ins)
        if address and address[0] == "cell" and address[1] >= procedure.args:
            where = names.instruction(b, i)
            yield f"{where}, names argument {address[1]}, of {procedure.args} (rule 2)"
    for b, block in enumerate(procedure.blocks):
        for to in block.successors():
            if to >= blocks:
                yield f"{names.end(b)}, leads to block {to}, of {blocks} (rule 2)"


# ---- rules 1 and 3: blocks


def ends(procedure, names):
    last = len(procedure.blocks) - 1
    if last < 0:
        yield "it has no block (rule 1)"
    for b, block in enumerate(procedure.blocks):
        if 0 in block.successors():
            yield f"{names.end(b)}, leads to block 0, the entry, where no end may lead (rule 1)"
        if block.end[0] == "return" and b != last:
            yield f"block {b} returns, which the last one alone may, block {last} (rule 1)"
        if block.end[0] != "return" and b == last:
            yield f"block {b} is the last one and has to return (rule 1)"
        if block.end[0] == "branch" and not (block.code and block.code[-1][0] == "cmp"):
            yield f"block {b} ends in a branch, and its last instruction is no cmp (rule 3)"


# ---- rules 4, 5 and 8: single instructions


def operands(procedure, names):
    kinds = procedure.variables
    of_cells = {it.value: v for v, it in enumerate(kinds) if it.kind == "param"}
    for b, i, ins in instructions(procedure):
        where, written, read = names.instruction(b, i), written_by(ins), read_by(ins)
        both = [ins[1]] if ins[0] in IN_PLACE else []
        for v in dict.fromkeys(written):
            if v in read and v not in both:
                yield f"{where}, reads variable {v}, which it writes (rule 4)"
            if kinds[v].kind == "constant":
                yield f"{where}, writes {names.variable(v)} (rule 5)"
        if ins[0] == "copy" and kinds[ins[2]].kind == "constant":
            yield f"{where}, copies {names.variable(ins[2])} (rule 5)"
        address = address_of(ins)
        if address and address[0] == "cell" and address[1] in of_cells:
            of = f"argument {address[1]}, of which variable {of_cells[address[1]]} is"
            yield f"{where}, names the cell of {of} (rule 5)"
        if ins[0] == "check" and ins[2] < 0:
            yield f"{where}, has a negative number (rule 8)"
        if ins[0] in SHIFTS and not 1 <= ins[2] <= MOST_SHIFTED:
            yield f"{where}, shifts by {ins[2]} bits, and 1 to {MOST_SHIFTED} are allowed (rule 8)"


def parameters(procedure):
    first = {}
    for v, it in enumerate(procedure.variables):
        if it.kind == "param":
            other = first.setdefault(it.value, v)
            if other != v:
                yield f"variables {other} and {v} are both of argument {it.value} (rule 5)"


def clears(procedure, names):
    for b, i, ins in instructions(procedure):
        if ins[0] == "clear" and (b, i) != (0, 0):
            yield f"{names.instruction(b, i)}, may stand first in block 0 alone (rule 8)"
    code = procedure.blocks[0].code if procedure.blocks else []
    is_first = bool(code) and code[0][0] == "clear"
    if is_first and procedure.aggregates == 0:
        yield "block 0 begins with clear, and there are no aggregate words (rule 8)"
    if not is_first and procedure.aggregates:
        words = f"there are {procedure.aggregates} aggregate words"
        yield f"{words}, and block 0 does not begin with clear (rule 8)"


# ---- rule 7: calls


def calls(procedure, counts, names):
    """counts has for each procedure of the certificate how many arguments it takes."""
    for b, block in enumerate(procedure.blocks):
        pushed = 0
        for i, ins in enumerate(block.code):
            if ins[0] == "push":
                pushed += 1
                continue
            where = names.instruction(b, i)
            if ins[0] != "call":
                if pushed:
                    yield f"{where}, stands between a push and its call (rule 7)"
            elif ins[1] >= len(counts):
                yield f"{where}, calls a procedure that is not there, of {len(counts)} (rule 2)"
            elif pushed != counts[ins[1]]:
                taken = f"the procedure takes {counts[ins[1]]}"
                yield f"{where}, has {pushed} pushes before it, and {taken} (rule 7)"
            pushed = 0
        if pushed:
            yield f"block {b} ends behind a push without its call (rule 7)"


# ---- rules 4 and 6: what is live


def divisions(procedure, network, names):
    for b, i, ins in instructions(procedure):
        if ins[0] != "divmod":
            continue
        where, (quotient, remainder, dividend, divisor) = names.instruction(b, i), ins[1:]
        if quotient == remainder or dividend == divisor:
            yield f"{where}, has to have four variables (rule 4)"
        is_written = dividend in (quotient, remainder)
        if not is_written and network.present(b)[2 * i + 2] >> dividend & 1:
            yield f"{where}, divides variable {dividend}, which is needed after it (rule 4)"


def entry(procedure, network, names):
    for v in bits(network.entries[0] if network.entries else 0):
        if procedure.variables[v].kind != "param":
            yield f"{names.variable(v)} may be read before it is written (rule 6)"


class Outline(Network):
    """A network that has counted its strands, and made none."""

    def __init__(self, procedure):
        self.count = 0
        super().__init__(procedure)

    def add_strands(self, number):
        before = 0
        for present in self.present(number):
            self.count += (present & ~before).bit_count()
            before = present


def reasons_and_outline(procedure, counts):
    """What speaks against the code of a procedure, and its outline where nothing does, else None.
    counts has for each procedure beside it, by number, how many arguments it takes."""
    names = Names(procedure)
    found = [*sizes(procedure), *absent(procedure, names)]
    if found:
        return found, None
    outline = Outline(procedure)
    found = [
        *ends(procedure, names),
        *operands(procedure, names),
        *parameters(procedure),
        *clears(procedure, names),
        *calls(procedure, counts, names),
        *divisions(procedure, outline, names),
        *entry(procedure, outline, names),
    ]
    return found, None if found else outline


def reasons(procedure, counts):
    """The same with the network of the procedure, or its outline where it has many strands and its
    routes are another number: so a short text takes no long time."""
    found, outline = reasons_and_outline(procedure, counts)
    if outline is None or (outline.count > MANY and outline.count != len(procedure.routes)):
        return found, outline
    return found, Network(procedure)
