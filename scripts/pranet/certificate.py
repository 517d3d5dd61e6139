"""Certificates: the selected code of each procedure, the routes that it takes, cost and bound.

A certificate is the JSON text that the mode `cert` writes. It is read here as it stands; whether it
holds is the mode `check`'s to say, and nothing here is asked of a certificate that it refuses.
"""

import json
from dataclasses import dataclass, field

REGISTERS = ("eax", "ecx", "edx", "ebx", "esi", "edi")
MEM, CONST, FIRST_BOTH = 6, 7, 8  # places; 0 to 5 are the registers, 8 to 13 each with memory
PLACES = 14
KIND, VERSION = "pra-certificate", 1

# The Intel manual's condition codes, and what they mean where numbers with signs are compared.
CONDITIONS = {2: "b", 3: "ae", 4: "e", 5: "ne", 6: "be", 7: "a", 8: "s", 9: "ns"} | {
    12: "l",
    13: "ge",
    14: "le",
    15: "g",
}
RELATIONS = {4: "=", 5: "#", 12: "<", 13: ">=", 14: "<=", 15: ">"}


class NoCertificate(Exception):
    """Why a text can't be read as a certificate."""


def register_of(place):
    """The register that a place is or has, by number, or None."""
    if place < MEM:
        return place
    return place - FIRST_BOTH if place >= FIRST_BOTH else None


def has_memory(place):
    """Whether a value that is there is in memory, maybe in a register too."""
    return place == MEM or place >= FIRST_BOTH


def place_name(place):
    if place == MEM:
        return "memory"
    if place == CONST:
        return "constant"
    if place >= FIRST_BOTH:
        return f"{REGISTERS[place - FIRST_BOTH]} and memory"
    return REGISTERS[place]


@dataclass
class Variable:
    kind: str  # "param", "plain" or "constant"
    value: int | None  # which argument, or what number


@dataclass
class Block:
    depth: int  # how many loops are around it, at most 5
    code: list  # the instructions: a name and operands
    end: list  # what it leads to: a name and operands

    @property
    def exit(self):
        """The number of its last layer."""
        return 2 * len(self.code) + 1

    def successors(self):
        """Where it leads to, each block once."""
        if self.end[0] == "jump":
            return [self.end[1]]
        if self.end[0] == "branch":
            return list(dict.fromkeys(self.end[2:]))
        return []


@dataclass
class Prices:
    """Prices by their index, in units of 1/1024 of a weight; those that are not here are 0."""

    caps: dict = field(default_factory=dict)  # of a register at a layer
    mems: dict = field(default_factory=dict)  # of a memory pair
    ties: dict = field(default_factory=dict)  # of a tie at a place


@dataclass
class Procedure:
    number: int
    args: int
    aggregates: int  # words
    variables: list
    blocks: list
    routes: list  # for each strand its places, by number
    total: int
    bound: int
    prices: Prices = field(default_factory=Prices)
    called: dict = field(default_factory=dict)  # what a source calls variables, where that is known

    @property
    def is_near(self):
        """Whether slots and argument cells are reached by displacements of 8 bits."""
        return self.args <= 30 and sum(it.kind == "plain" for it in self.variables) <= 29


@dataclass
class Certificate:
    cost: str  # "size" or "speed"
    procedures: list


PRICES = ("caps", "mems", "ties")


def code_of(value, number=0, routes=(), total=0, bound=0):
    """A procedure, of the JSON value of its code, and of its prices if it has any."""
    kinds = [Variable(it[0], it[1] if len(it) > 1 else None) for it in value["vars"]]
    blocks = [Block(*it) for it in value["blocks"]]
    counts = value["args"], value["aggregates"]
    prices = Prices(*(dict(map(tuple, value.get(key, ()))) for key in PRICES))
    return Procedure(number, *counts, kinds, blocks, list(routes), total, bound, prices)


def read(text):
    """The certificate of a text."""
    try:
        value = json.loads(text)
        if value["kind"] != KIND or value["version"] != VERSION:
            raise NoCertificate("it is of another kind or version")
        procedures = [
            code_of(it, number, it["routes"], it["total"], it["bound"])
            for number, it in enumerate(value["procs"])
        ]
        return Certificate(value["cost"], procedures)
    except (KeyError, TypeError, ValueError, IndexError, RecursionError) as error:
        raise NoCertificate(f"it is no certificate: {error}") from error


def code_value(procedure):
    """The JSON value of a procedure's code, which code_of reads."""
    kinds = [[it.kind] if it.value is None else [it.kind, it.value] for it in procedure.variables]
    return {
        "args": procedure.args,
        "aggregates": procedure.aggregates,
        "vars": kinds,
        "blocks": [[it.depth, it.code, it.end] for it in procedure.blocks],
    }


def procedure_value(procedure):
    """The JSON value of a procedure, with its routes and prices."""
    priced = {
        key: sorted([index, price] for index, price in prices.items() if price)
        for key, prices in vars(procedure.prices).items()
    }
    routed = {"routes": procedure.routes, "total": procedure.total, "bound": procedure.bound}
    return code_value(procedure) | routed | priced


def write(known):
    """The text of a certificate, as the compiler writes it: one line, with sorted keys."""
    procedures = [procedure_value(it) for it in known.procedures]
    value = {"cost": known.cost, "kind": KIND, "procs": procedures, "version": VERSION}
    return json.dumps(value, sort_keys=True, separators=(",", ":")) + "\n"


# ---- selected code as text


def address_text(addr, name):
    base, number, offset, index = addr
    parts = {"global": f"data {number}", "frame": f"frame {number}", "cell": f"argument {number}"}
    text = name(number) if base == "via" else parts[base]
    text += f" + 4*{name(index)}" if index is not None else ""
    text += f" + {offset}" if offset > 0 else f" - {-offset}" if offset < 0 else ""
    return f"[{text}]"


ARITHMETIC = {"add": "+", "sub": "-", "and": "&", "or": "|", "xor": "^", "mul": "*"}


def instruction_text(ins, name):
    """An instruction in words of a person; name says what a variable is called."""
    op, *xs = ins
    if op in ARITHMETIC:
        return f"{name(xs[0])} := {name(xs[0])} {ARITHMETIC[op]} {name(xs[1])}"
    match op:
        case "set":
            return f"{name(xs[0])} := {xs[1]}"
        case "copy":
            return f"{name(xs[0])} := {name(xs[1])}"
        case "neg":
            return f"{name(xs[0])} := -{name(xs[0])}"
        case "shl" | "shr" | "sar":
            return f"{name(xs[0])} := {name(xs[0])} {op} {xs[1]}"
        case "cmp":
            return f"compare {name(xs[0])}, {name(xs[1])}"
        case "cmpset":
            relation = RELATIONS.get(xs[0], CONDITIONS[xs[0]])
            return f"{name(xs[1])} := {name(xs[2])} {relation} {name(xs[3])}"
        case "divmod":
            return f"{name(xs[0])}, {name(xs[1])} := {name(xs[2])} divided by {name(xs[3])}"
        case "check":
            return f"check 0 <= {name(xs[0])} < {xs[1]}"
        case "checkpos":
            return f"check {name(xs[0])} > 0"
        case "load":
            return f"{name(xs[0])} := {address_text(xs[1], name)}"
        case "store":
            return f"{address_text(xs[0], name)} := {name(xs[1])}"
        case "addr":
            return f"{name(xs[0])} := address {address_text(xs[1], name)[1:-1]}"
        case "push" | "write":
            return f"{op} {name(xs[0])}"
        case "call":
            return f"call procedure {xs[0]}"
        case "read":
            return f"{name(xs[0])} := read"
        case "line":
            return "write a line"
    return "clear the frame"


def end_text(end):
    if end[0] == "jump":
        return f"go on with block {end[1]}"
    if end[0] == "branch":
        relation = RELATIONS.get(end[1], CONDITIONS[end[1]])
        return f"if {relation} go on with block {end[2]}, else with block {end[3]}"
    return "return"
