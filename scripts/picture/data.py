"""What the page's script draws: a JSON value for each procedure."""

from dataclasses import dataclass, field

from picture.prices import Prices
from pranet.certificate import end_text, instruction_text
from pranet.network import Network
from pranet.operands import EVENTS, weight


def names_of(procedure, heading, known):
    """What the variables of a procedure are called, and what each is, in words. Known are the names
    of some locals, by variable."""
    names, words, used = [], [], set()
    for v, it in enumerate(procedure.variables):
        if it.kind == "constant":
            names.append(str(it.value))
            words.append(f"the constant {it.value}")
            continue
        is_told = it.kind == "param" and it.value < len(heading.parameters)
        name, by_var = heading.parameters[it.value] if is_told else (known.get(v, f"v{v}"), False)
        names.append(name if name not in used else f"{name}.{v}")
        used.add(name)
        if it.kind == "param":
            holds = f"the address of {name}, which is VAR" if by_var else f"the parameter {name}"
            words.append(f"{holds}: argument {it.value}")
        else:
            told = f"the local variable {name}" if v in known else None
            words.append(told or "a local variable or an intermediate value")
    return names, words


@dataclass
class State:
    """Routes of a procedure that a page shows: those after some rounds, or of a certificate."""

    rounds: int | None
    routes: list
    cost: int
    bound: int
    name: str = ""  # of the certificate
    reasons: list = field(default_factory=list)  # why that is refused
    wrong: list = field(default_factory=list)  # block, variable, layer of a cell, and why


def lines_of(lines):
    return [[f"{place:08x}", text] for place, text in lines]


class Drawn:
    """One procedure as the page has it."""

    def __init__(self, cost, procedure, heading, known=None):
        self.cost, self.code = cost, procedure
        self.network = Network(procedure)
        self.names, self.words = names_of(procedure, heading, known or {})
        self.machine = None  # its machine instructions, where they are known
        self.lines = []  # of each block the lines of the source that it came from
        self.states = []  # those that were kept
        self.total = procedure.total
        self.paid = self.network.paid(procedure.routes, cost)

    def name(self, v):
        return self.names[v]

    def block(self, number, before):
        block = self.code.blocks[number]
        value = {
            "depth": block.depth,
            "from": before[number],
            "to": block.successors(),
            "end": end_text(block.end),
            "code": [instruction_text(ins, self.name) for ins in block.code],
            "lines": self.lines[number] if self.lines else [],
            "strands": [],
            "pairs": {},
        }
        if self.machine:
            lines = self.machine.blocks[number]
            value["machine"] = [lines_of(it) for it in lines.code]
            value["moved"] = {layer: lines_of(it) for layer, it in lines.moves.items() if it}
            value["ended"] = lines_of(lines.end)
        return value

    def blocks(self):
        before = [[] for _ in self.code.blocks]
        for number, block in enumerate(self.code.blocks):
            for to in block.successors():
                before[to].append(number)
        return [self.block(number, before) for number in range(len(self.code.blocks))]

    def drawn_routes(self, routes):
        """Of each block the paths of its strands, its moves and its extras."""
        strands = self.network.strands
        found = [{"paths": [], "moves": [], "extras": []} for _ in self.code.blocks]
        for strand, places in zip(strands, routes, strict=True):
            found[strand.block]["paths"].append("".join(f"{it:x}" for it in places))
        for it in self.network.moves(routes):
            price = sum(self.weight(event, it.block) for event in it.events)
            row = [it.layer, strands[it.strand].var, it.origin, it.to, it.events, price]
            found[it.block]["moves"].append(row)
        for it in self.network.met(routes):
            row = [it.layer, strands[it.strand].var, it.event, self.weight(it.event, it.block)]
            found[it.block]["extras"].append(row)
        return found

    def kept_states(self):
        """The states, each with those blocks alone in which routes differ from the state before."""
        kept, last = [], {}
        for state in self.states:
            now = dict(enumerate(self.drawn_routes(state.routes)))
            changed = {at: it for at, it in now.items() if it != last.get(at)}
            kept.append({"rounds": state.rounds, "cost": state.cost, "bound": state.bound})
            kept[-1]["blocks"] = changed
            if state.name:
                kept[-1] |= {"name": state.name, "reasons": state.reasons, "wrong": state.wrong}
            last = now
        return kept

    def costs_of(self, routes):
        """What moves and operands cost, by block and variable."""
        costs = {}
        for it in [*self.network.moves(routes), *self.network.met(routes)]:
            events = it.events if hasattr(it, "events") else [it.event]
            key = it.block, self.network.strands[it.strand].var
            costs[key] = costs.get(key, 0) + sum(self.weight(e, it.block) for e in events)
        return costs

    def differences(self):
        """Where states differ from the first one: state, block, variable, and what that costs in
        the first and in it."""
        first, found = self.states[0], []
        costs = self.costs_of(first.routes)
        for number, state in enumerate(self.states[1:], 1):
            others = self.costs_of(state.routes)
            strands = zip(self.network.strands, first.routes, state.routes, strict=True)
            keys = {(it.block, it.var) for it, one, two in strands if one != two}
            for key in sorted(keys):
                found.append([number, *key, costs.get(key, 0), others.get(key, 0)])
        return found

    def value(self, reported, others, masks):
        """The whole of it; reported has the rounds by each weight, others what other allocators
        come to by each, and masks those of the page."""
        blocks, prices = self.blocks(), Prices(self.network, self.cost)
        strands = self.network.strands
        for strand, tolls in zip(strands, prices.tolls(), strict=True):
            row = [strand.var, strand.first, masks.text(strand.masks), tolls]
            blocks[strand.block]["strands"].append(row)
        for left, layer, right, _ in self.network.pairs():
            at = (layer - 1) // 2
            blocks[strands[left].block]["pairs"][at] = [strands[left].var, strands[right].var]
        for block, caps, mems in zip(blocks, prices.caps(), prices.mems(), strict=True):
            block["caps"], block["mems"] = caps, mems
        return {
            "number": self.code.number,
            "name": next(iter(reported.values())).name,
            "total": self.total,
            "bound": self.code.bound,
            "value": prices.value,
            "ways": prices.ways(),
            "rounds": {cost: it.rounds for cost, it in reported.items()},
            "others": others,
            "names": self.names,
            "words": self.words,
            "kinds": [it.kind[:2] for it in self.code.variables],
            "prologue": lines_of(self.machine.prologue) if self.machine else [],
            "blocks": blocks,
            "states": self.kept_states(),
            "differs": self.differences() if self.states[0].name else [],
            "paid": [[event, *counts] for event, counts in self.paid.items()],
        }

    def weight(self, event, block):
        return weight(self.cost, event, self.code.blocks[block].depth)


def module_paid(drawn):
    """How often each event comes in the whole module, and what it costs."""
    paid = {}
    for it in drawn:
        for event, (count, total) in it.paid.items():
            known = paid.get(event, (0, 0))
            paid[event] = known[0] + count, known[1] + total
    return [(event, EVENTS[event], *paid[event]) for event in sorted(paid)]
