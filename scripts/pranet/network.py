"""The network of selected code, and what routes through it cost, event by event.

A block with n instructions has the layers 0 (its entry), 2i + 1 and 2i + 2 (before and after its
instruction i) and 2n + 1 (its exit). A strand is a variable over the layers of one block at which
it is present without a gap. Between instructions a strand may change its place, and pays for it.
"""

from dataclasses import dataclass
from functools import cached_property
from itertools import accumulate

from pranet.certificate import CONST, MEM, has_memory, register_of
from pranet.operands import BOTHS, K, M, REGS, constant_event, memory_event, row_of, weight

BEGUN = 5  # the event by which a constant comes into a register


@dataclass
class Strand:
    var: int
    block: int
    first: int  # layers
    masks: list

    @property
    def last(self):
        return self.first + len(self.masks) - 1

    def stops(self):
        """Its layers in groups: the two beside an instruction, across which it has one place, or
        one alone."""
        at = self.first
        while at <= self.last:
            end = at + 1 if at % 2 == 1 and at < self.last else at
            yield range(at, end + 1)
            at = end + 1

    def mask_over(self, layers):
        """The places that it may have at all of these layers."""
        mask = -1
        for layer in layers:
            mask &= self.masks[layer - self.first]
        return mask


@dataclass
class Move:
    """A change of place between two instructions."""

    strand: int
    block: int
    layer: int  # behind it
    origin: int  # places
    to: int
    events: list


@dataclass
class Met:
    """An extra that the routes pay."""

    strand: int
    block: int
    layer: int
    event: int


def bits(mask):
    """The numbers whose bits are set, rising."""
    while mask:
        low = mask & -mask
        yield low.bit_length() - 1
        mask ^= low


def mask_of(roles):
    """The variables of roles, as bits."""
    found = 0
    for role in roles:
        found |= 1 << role.var
    return found


class Network:
    """Strands, extras, pairs and ties of a procedure's code."""

    def __init__(self, procedure):
        self.code = procedure
        self.near = procedure.is_near
        self.rows = [[row_of(ins) for ins in block.code] for block in procedure.blocks]
        self.constants = sum(
            1 << v for v, it in enumerate(procedure.variables) if it.kind == "constant"
        )
        self.flows = [self.flow_of(rows) for rows in self.rows]
        self.entries = self.live_entries()
        self.strands = []
        self.at = {}  # the strand of a variable at a layer, by block, layer and variable
        layers = accumulate((block.exit + 1 for block in procedure.blocks), initial=0)
        self.numbers = list(layers)  # of each block's entry, where layers are numbered through
        for block in range(len(procedure.blocks)):
            self.add_strands(block)

    # ---- liveness

    def flow_of(self, rows):
        """What a block reads before it writes it, and what it writes; no constants."""
        needs = written = 0
        for row in rows:
            needs |= mask_of(row.reads) & ~written
            written |= mask_of(row.writes)
        return needs & ~self.constants, written

    def live_entries(self):
        """The variables that are live at the entry of each block."""
        blocks = self.code.blocks
        entries = [needs for needs, _ in self.flows]
        before = [[] for _ in blocks]
        for number, block in enumerate(blocks):
            for to in block.successors():
                before[to].append(number)
        waiting = list(range(len(blocks)))
        while waiting:
            number = waiting.pop()
            needs, written = self.flows[number]
            live = needs | (self.live_exit(number, entries) & ~written)
            if live != entries[number]:
                entries[number] = live
                waiting.extend(before[number])
        return entries

    def live_exit(self, number, entries):
        live = 0
        for to in self.code.blocks[number].successors():
            live |= entries[to]
        return live

    def present(self, number):
        """The variables that are present at each layer of a block."""
        rows = self.rows[number]
        layers = [0] * (2 * len(rows) + 2)
        live = self.live_exit(number, self.entries)
        layers[-1] = live
        for i in range(len(rows) - 1, -1, -1):
            written = mask_of(rows[i].writes)
            layers[2 * i + 2] = live | written
            live = (live & ~written) | (mask_of(rows[i].reads) & ~self.constants)
            layers[2 * i + 1] = live
        layers[0] = live
        spans = {}
        for i, row in enumerate(rows):
            for v in bits(mask_of(row.reads) & self.constants):
                spans[v] = spans.get(v, (i,))[0], i
        for v, (first, last) in spans.items():
            for layer in range(2 * first + 1, 2 * last + 2):
                layers[layer] |= 1 << v
        return layers

    # ---- strands

    def add_strands(self, number):
        layers = self.present(number)
        before, open_strands = 0, {}
        for layer, present in enumerate(layers):
            for v in bits(present & ~before):
                open_strands[v] = len(self.strands)
                self.strands.append(Strand(v, number, layer, []))
            for v in bits(present):
                strand = open_strands[v]
                self.at[number, layer, v] = strand
                self.strands[strand].masks.append(self.mask_at(layers, number, layer, v))
            before = present

    def beside(self, number, layer):
        """The instruction beside a layer, which the entry and the exit have not, or None."""
        i = (layer - 1) // 2
        return i if 0 < layer and i < len(self.rows[number]) else None

    def mask_at(self, layers, number, layer, v):
        """Where a variable may be at a layer."""
        variable = self.code.variables[v]
        if variable.kind == "param" and number == 0 and layer == 0:
            return M
        mask = REGS | K if variable.kind == "constant" else REGS | BOTHS | M
        i = self.beside(number, layer)
        if i is None:
            return mask
        row = self.rows[number][i]
        is_before = layer % 2 == 1
        for role in row.reads if is_before else row.writes:
            if role.var == v:
                mask &= role.mask
        other = layers[layer + 1 if is_before else layer - 1]
        if other >> v & 1:
            mask &= ~(row.clobbers | row.clobbers << 8)
        return mask

    # ---- what else a network has

    def event_at(self, strand, layer, place):
        """The event of an extra of a strand at a layer and place, or None."""
        i = self.beside(strand.block, layer)
        if i is None or place not in (MEM, CONST):
            return None
        row = self.rows[strand.block][i]
        ins = self.code.blocks[strand.block].code[i]
        read = any(it.var == strand.var for it in row.reads)
        written = any(it.var == strand.var for it in row.writes)
        plays = read if layer % 2 == 1 else written and not read
        if not plays or not strand.masks[layer - strand.first] >> place & 1:
            return None
        if place == MEM:
            return memory_event(ins, self.near)
        return constant_event(ins, self.code.variables[strand.var].value)

    @cached_property
    def extras(self):
        """Strand, layer, place and event of each extra."""
        found = []
        for number, strand in enumerate(self.strands):
            for layer in range(strand.first, strand.last + 1):
                for place in (MEM, CONST):
                    event = self.event_at(strand, layer, place)
                    if event is not None:
                        found.append((number, layer, place, event))
        return found

    def pairs(self):
        """The two strands and layers of each instruction that may have one operand in memory."""
        for block, rows in enumerate(self.rows):
            for i, row in enumerate(rows):
                ends = [(it.var, 2 * i + 1) for it in row.reads if it.shares]
                ends += [(it.var, 2 * i + 2) for it in row.writes if it.shares]
                if len(ends) == 2 and ends[0][0] != ends[1][0]:
                    (v, left), (w, right) = ends
                    yield self.at[block, left, v], left, self.at[block, right, w], right

    def ties(self):
        """The strands that reach the exit of a block, with those that go on from it."""
        for number, strand in enumerate(self.strands):
            block = self.code.blocks[strand.block]
            if strand.last == block.exit:
                goes_on = (self.at.get((to, 0, strand.var)) for to in block.successors())
                yield from sorted((number, to) for to in goes_on if to is not None)

    # ---- which routes it admits

    def are_places(self, routes):
        """Whether each place is in its mask, no strand moves across an instruction, and no register
        is taken twice at one layer."""
        taken = set()
        for strand, places in zip(self.strands, routes, strict=True):
            for step, (mask, place) in enumerate(zip(strand.masks, places, strict=True)):
                layer, register = strand.first + step, register_of(place)
                at = strand.block, layer, register
                is_across = step > 0 and layer % 2 == 0
                if not mask >> place & 1 or at in taken or is_across and places[step - 1] != place:
                    return False
                if register is not None:
                    taken.add(at)
        return True

    def admits(self, routes):
        """Whether routes keep all rules: of places, of memory pairs and of ties."""
        return (
            self.are_places(routes)
            and not any(
                routes[left][one - self.strands[left].first] == MEM
                and routes[right][two - self.strands[right].first] == MEM
                for left, one, right, two in self.pairs()
            )
            and all(routes[one][-1] == routes[to][0] for one, to in self.ties())
        )

    # ---- what routes cost

    def crossing(self, origin, to):
        """The events of a change of place between two instructions."""
        load, store = (1, 2) if self.near else (3, 4)
        if origin == to:
            return []
        if origin == CONST:
            return [BEGUN]
        if to == CONST:
            return []
        if origin == MEM:
            return [load]
        events = []
        if register_of(to) not in (None, register_of(origin)):
            events.append(0)
        if has_memory(to) and not has_memory(origin):
            events.append(store)
        return events

    def moves(self, routes):
        """Each change of place, and each constant that comes into a register at once."""
        for number, (strand, places) in enumerate(zip(self.strands, routes, strict=True)):
            if register_of(places[0]) is not None and self.constants >> strand.var & 1:
                yield Move(number, strand.block, strand.first, CONST, places[0], [BEGUN])
            for step in range(1, len(places)):
                layer = strand.first + step
                if layer % 2 == 1 and places[step - 1] != places[step]:
                    events = self.crossing(places[step - 1], places[step])
                    yield Move(
                        number, strand.block, layer, places[step - 1], places[step], events
                    )

    def met(self, routes):
        """Each extra whose place is met."""
        for number, layer, place, event in self.extras:
            strand = self.strands[number]
            if routes[number][layer - strand.first] == place:
                yield Met(number, strand.block, layer, event)

    def paid_by_strand(self, routes, cost):
        """What each strand pays."""
        paid = [0] * len(self.strands)
        for it in [*self.moves(routes), *self.met(routes)]:
            depth = self.code.blocks[it.block].depth
            for event in it.events if isinstance(it, Move) else [it.event]:
                paid[it.strand] += weight(cost, event, depth)
        return paid

    def paid(self, routes, cost):
        """How often each event comes, and what it costs in all."""
        paid = {}
        for it in [*self.moves(routes), *self.met(routes)]:
            depth = self.code.blocks[it.block].depth
            for event in it.events if isinstance(it, Move) else [it.event]:
                count, total = paid.get(event, (0, 0))
                paid[event] = count + 1, total + weight(cost, event, depth)
        return dict(sorted(paid.items()))
