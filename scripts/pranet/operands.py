"""What instructions ask of the places of their operands, and what each event costs."""

from dataclasses import dataclass, field

from pranet.certificate import CONST, MEM

REGS = 0b111111  # masks of places: bit n stands for place n
M, K = 1 << MEM, 1 << CONST
BOTHS = REGS << 8
EAX, ECX, EDX = 1, 2, 4
BYTE_REGS = 0b1111  # eax, ecx, edx and ebx

EVENTS = (
    "register to another register",
    "memory to register, near",
    "register to memory, near",
    "memory to register, far",
    "register to memory, far",
    "constant to register",
    "memory operand, near",
    "memory operand, far",
    "memory operand of a set or push, near",
    "memory operand of a set or push, far",
    "short immediate",
    "long immediate",
    "long immediate of a product",
)
BASE = {
    "size": (2, 3, 3, 6, 6, 5, 1, 4, 2, 5, 1, 4, 3),
    "speed": (1, 3, 3, 3, 3, 1, 2, 2, 2, 2, 0, 0, 0),
}
TURNS = {"size": 1, "speed": 8}  # how often a loop's body counts
DEEPEST = 5


def weight(cost, event, depth):
    """What an event costs in a block with so many loops around it."""
    return BASE[cost][event] * TURNS[cost] ** min(depth, DEEPEST)


@dataclass
class Role:
    """A variable as an operand: where it may be, and whether it shares the one memory operand."""

    var: int
    mask: int
    shares: bool = False


@dataclass
class Row:
    reads: list = field(default_factory=list)
    writes: list = field(default_factory=list)
    clobbers: int = 0


def address_roles(addr):
    """The variables of an address, which must be in registers."""
    base, number, _, index = addr
    roles = [Role(number, REGS)] if base == "via" else []
    return roles + ([Role(index, REGS)] if index is not None else [])


def two_operands(left, right):
    return [Role(left, REGS | M, True), Role(right, REGS | M | K, True)]


def raw_row(ins):
    """The roles as the table of operands has them, without places in register and memory both."""
    op, *xs = ins
    match op:
        case "set":
            return Row([], [Role(xs[0], REGS | M)])
        case "copy":
            return Row([Role(xs[1], REGS | M, True)], [Role(xs[0], REGS | M, True)])
        case "add" | "sub" | "and" | "or" | "xor":
            return Row(two_operands(*xs), [Role(xs[0], REGS | M)])
        case "mul":
            return Row([Role(xs[0], REGS), Role(xs[1], REGS | M | K)], [Role(xs[0], REGS)])
        case "neg" | "shl" | "shr" | "sar":
            return Row([Role(xs[0], REGS | M)], [Role(xs[0], REGS | M)])
        case "cmp":
            return Row(two_operands(*xs))
        case "cmpset":
            return Row(two_operands(*xs[2:]), [Role(xs[1], BYTE_REGS)])
        case "divmod":
            divisor = (REGS | M) & ~(EAX | EDX)
            return Row(
                [Role(xs[2], EAX), Role(xs[3], divisor)], [Role(xs[0], EAX), Role(xs[1], EDX)]
            )
        case "check" | "checkpos":
            return Row([Role(xs[0], REGS | M)])
        case "load" | "addr":
            return Row(address_roles(xs[1]), [Role(xs[0], REGS)])
        case "store":
            return Row([*address_roles(xs[0]), Role(xs[1], REGS | K)])
        case "push":
            return Row([Role(xs[0], REGS | M | K)])
        case "call":
            return Row(clobbers=EAX | ECX | EDX)
        case "read":
            return Row([], [Role(xs[0], EAX)])
        case "write":
            return Row([Role(xs[0], EAX)])
        case "clear":
            return Row(clobbers=ECX)
    return Row()


def row_of(ins):
    """The roles of an instruction. What is only read may be in memory besides its register; one
    variable twice beside the memory operand is in a register; what is written in place has one mask
    in both roles."""
    row = raw_row(ins)
    written = {it.var for it in row.writes}
    sharing = [it.var for it in row.reads if it.shares]
    for role in row.reads:
        if role.var not in written:
            role.mask |= (role.mask & REGS) << 8
        if role.shares and sharing.count(role.var) > 1:
            role.mask &= ~M
    for role in row.writes:
        reads = [it.mask for it in row.reads if it.var == role.var]
        for mask in reads:
            role.mask &= mask
    return row


WITH_IMMEDIATE = ("add", "sub", "and", "or", "xor", "cmp", "cmpset")
SHIFTS = ("shl", "shr", "sar")
WITH_MEMORY = (*WITH_IMMEDIATE, *SHIFTS, "copy", "mul", "neg", "divmod", "check", "checkpos")


def memory_event(ins, near):
    """What it costs to have an operand in memory."""
    if ins[0] in ("set", "push"):
        return 8 if near else 9
    if ins[0] in WITH_MEMORY:
        return 6 if near else 7
    return None


def constant_event(ins, number):
    """What it costs to have an operand as an immediate."""
    short = -128 <= number <= 127
    if ins[0] in WITH_IMMEDIATE:
        return 10 if short else 11
    if ins[0] == "mul":
        return None if short else 12
    return 11 if ins[0] in ("store", "push") else None
