"""The reasons `prices` and `bound`: prices out of order, and the value that prices give.

Prices are in units of 1/1024 of a weight. The value is found by a pass over the layers of each
strand, from the first to the last: for each place of a layer the least that a path to it costs.
"""

from checker.parts import CONST, MEM, PLACES, REGISTERS, place_name, register_of, weight
from checker.routes import by_strand
from checker.words import Names

MOST = 1 << 40  # that a price is, and that a number of a tie is on both sides of 0
UNITS = 1024  # of a weight
TIED = [place for place in range(PLACES) if place != CONST]  # the places that a tie has numbers for


class Rooms:
    """The lists of prices of a network: how long each is, and what an index stands for."""

    def __init__(self, network):
        self.network, self.names = network, Names(network.code)
        self.layers = [0]  # how many layers are before each block
        for block in network.code.blocks:
            self.layers.append(self.layers[-1] + block.exit + 1)
        self.pairs, self.ties = list(network.pairs()), list(network.ties())

    def counts(self):
        return {
            "caps": len(REGISTERS) * self.layers[-1],
            "mems": len(self.pairs),
            "ties": len(TIED) * len(self.ties),
        }

    def meaning(self, key, index):
        if key == "mems":
            left, layer, _, _ = self.pairs[index]
            block = self.network.strands[left].block
            return f"the memory pair of {self.names.instruction(block, (layer - 1) // 2)}"
        if key == "ties":
            one, to = self.ties[index // len(TIED)]
            place = place_name(TIED[index % len(TIED)])
            return f"the tie of strands {one} and {to}, at {place}"
        layer, register = divmod(index, len(REGISTERS))
        block = next(b for b in range(len(self.layers)) if layer < self.layers[b + 1])
        return f"{REGISTERS[register]} at {self.names.layer(block, layer - self.layers[block])}"


def entry_reason(rooms, key, index, price, before):
    """What is wrong with one entry behind another of index `before`, or None."""
    count = rooms.counts()[key]
    if index >= count:
        return f"no index {index} is there; {count} are, by the network"
    if index <= before:
        return f"the index {index} does not rise above {before}"
    of = rooms.meaning(key, index)
    if price == 0:
        return f"the price of {of}, is 0, and such an index is to be left out"
    least = -MOST if key == "ties" else 0
    if not least <= price <= MOST:
        return f"the price of {of}, is {price}, and {least} to {MOST} are allowed"
    return None


def reasons(rooms, claim):
    """What is wrong with the lists of prices."""
    found = []
    for key in ("caps", "mems", "ties"):
        before = -1
        for at, (index, price) in enumerate(getattr(claim, key)):
            wrong = entry_reason(rooms, key, index, price, before)
            if wrong:
                found.append(f"entry {at} of {key}, [{index},{price}]: {wrong}")
            before = index
    return found


class Priced:
    """What places cost on a network by prices, in units of 1/1024."""

    def __init__(self, rooms, claim, cost):
        self.network, self.cost, self.rooms = rooms.network, cost, rooms
        self.caps, self.ties = dict(map(tuple, claim.caps)), dict(map(tuple, claim.ties))
        mems = dict(map(tuple, claim.mems))
        self.tolls = {}  # by strand, layer and place: extras, pairs and ties
        for strand, layer, place, event in self.network.extras:
            self.add(strand, layer, place, UNITS * self.weight(strand, event))
        for number, (left, one, right, two) in enumerate(rooms.pairs):
            if number in mems:
                self.add(left, one, MEM, mems[number])
                self.add(right, two, MEM, mems[number])
        for number, (one, to) in enumerate(rooms.ties):
            for at, place in enumerate(TIED):
                price = self.ties.get(len(TIED) * number + at, 0)
                if price:
                    self.add(one, self.network.strands[one].last, place, price)
                    self.add(to, self.network.strands[to].first, place, -price)
        self.ways = {}  # what it costs to go from place to place, by depth

    def weight(self, strand, event):
        depth = self.network.code.blocks[self.network.strands[strand].block].depth
        return weight(self.cost, event, depth)

    def add(self, strand, layer, place, price):
        at = strand, layer, place
        self.tolls[at] = self.tolls.get(at, 0) + price

    def way(self, strand, origin, to):
        depth = self.network.code.blocks[self.network.strands[strand].block].depth
        at = depth, origin, to
        if at not in self.ways:
            events = self.network.crossing(origin, to)
            self.ways[at] = UNITS * sum(weight(self.cost, it, depth) for it in events)
        return self.ways[at]

    def toll(self, number, strand, layer, place):
        found = self.tolls.get((number, layer, place), 0)
        register = register_of(place)
        if register is not None and self.caps:
            at = self.rooms.layers[strand.block] + layer
            found += self.caps.get(len(REGISTERS) * at + register, 0)
        return found

    def least(self, number, strand):
        """What a path of a strand costs at least."""
        row = {}
        for step, mask in enumerate(strand.masks):
            layer, before = strand.first + step, row
            row = {}
            for place in range(PLACES):
                if not mask >> place & 1:
                    continue
                if step == 0:
                    is_constant = self.network.code.variables[strand.var].kind == "constant"
                    come = self.way(number, CONST, place) if is_constant else 0
                elif layer % 2 == 0:
                    come = before.get(place)
                else:
                    come = min(
                        (it + self.way(number, origin, place) for origin, it in before.items()),
                        default=None,
                    )
                if come is not None:
                    row[place] = come + self.toll(number, strand, layer, place)
        return min(row.values(), default=0)

    def all_least(self):
        """What a path of each strand costs at least."""
        return [self.least(number, it) for number, it in enumerate(self.network.strands)]


def shared(claim):
    """What is handed out once: the prices of registers and pairs."""
    return sum(price for key in (claim.caps, claim.mems) for _, price in key)


def value(rooms, claim, cost):
    """The value that the prices give, in units of 1/1024."""
    return sum(Priced(rooms, claim, cost).all_least()) - shared(claim)


def bound_reasons(rooms, claim, cost):
    """Whether the prices show the bound, and what they show."""
    bound = claim.procedure.bound
    if bound == 0:
        return []
    least = Priced(rooms, claim, cost).all_least()
    found = sum(least) - shared(claim)
    if UNITS * bound - (UNITS - 1) <= found:
        return []
    shown = max(0, -(-found // UNITS))
    told = f"its prices give the value {found}/{UNITS}, which shows a bound of {shown} by {cost}"
    return [
        f"{told}, and its bound says {bound}",
        f"least priced costs by strand, in units of 1/{UNITS}: {by_strand(least)}",
        f"less the prices of registers and pairs, {shared(claim)}",
    ]
