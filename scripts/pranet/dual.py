"""The value that prices give, which no admitted flow costs less than, and steps that raise it.

Registers, memory pairs and ties join the strands of a network. With a price on each of them in
place of the rule, each strand goes its own least way; the sum of what that costs, less the prices
that are handed out once, is the Lagrange value of these prices. It is at most what any admitted
flow costs, as that pays each price at most once (Geoffrion, Lagrangean relaxation for integer
programming, 1974). All is in whole units of 1/1024 of a weight, and exact.
"""

from pranet.certificate import CONST, MEM, PLACES, Prices, register_of
from pranet.network import BEGUN, bits
from pranet.operands import weight

UNIT = 1024  # units of a weight
GREATEST = 1 << 40  # the greatest price; of ties the least is its negative
REGISTERS = 6
TIE_PLACES = 13  # all but the number of a constant, since no constant is tied


def tie_index(tie, place):
    """The index of the price of a tie at a place."""
    return TIE_PLACES * tie + (place if place <= MEM else place - 1)


def cap_index(layer, register):
    """The index of the price of a register at a layer, by its number over all blocks."""
    return REGISTERS * layer + register


def whole(value):
    """A value in units as a bound in weights: rounded up, and nothing below 0."""
    return max(0, -(-value // UNIT))


def in_range(prices):
    """The prices with each brought into its range."""

    def kept(by_index, least):
        return {index: min(max(it, least), GREATEST) for index, it in by_index.items()}

    return Prices(kept(prices.caps, 0), kept(prices.mems, 0), kept(prices.ties, -GREATEST))


class Stop:
    """The layers of a strand between two gaps: what it costs by place, without prices."""

    def __init__(self, network, number, layers):
        strand = network.strands[number]
        self.layers = [network.numbers[strand.block] + layer for layer in layers]
        self.places = list(bits(strand.mask_over(layers)))
        self.costs = dict.fromkeys(self.places, 0)
        self.pairs, self.leaves, self.arrives = [], [], []  # by number


class Dual:
    """The strands of a network as chains of stops, each with what prices are asked there."""

    def __init__(self, network, cost):
        self.network, self.cost = network, cost
        self.chains = []
        at = {}  # the stop of a strand at a layer
        for number, strand in enumerate(network.strands):
            chain = []
            for layers in strand.stops():
                chain.append(Stop(network, number, layers))
                at.update(((number, layer), chain[-1]) for layer in layers)
            self.chains.append(chain)
        self.add_costs(at)
        for pair, (left, one, right, two) in enumerate(network.pairs()):
            at[left, one].pairs.append(pair)
            at[right, two].pairs.append(pair)
        for tie, (one, to) in enumerate(network.ties()):
            self.chains[one][-1].leaves.append(tie)
            self.chains[to][0].arrives.append(tie)
        self.crossings = {}

    def add_costs(self, at):
        for number, layer, place, event in self.network.extras:
            costs = at[number, layer].costs
            if place in costs:
                costs[place] += UNIT * self.weight(event, number)
        for number, strand in enumerate(self.network.strands):
            if self.network.constants >> strand.var & 1:
                costs = self.chains[number][0].costs
                for place in costs:
                    if place != CONST:
                        costs[place] += UNIT * self.weight(BEGUN, number)

    def weight(self, event, strand):
        """What an event costs where a strand is."""
        block = self.network.code.blocks[self.network.strands[strand].block]
        return weight(self.cost, event, block.depth)

    def crossing(self, depth):
        """What it costs to go from place to place between two instructions, so deep in loops."""
        if depth not in self.crossings:
            costs = [
                [self.crossing_cost(origin, to, depth) for to in range(PLACES)]
                for origin in range(PLACES)
            ]
            self.crossings[depth] = costs
        return self.crossings[depth]

    def crossing_cost(self, origin, to, depth):
        events = self.network.crossing(origin, to)
        return UNIT * sum(weight(self.cost, event, depth) for event in events)

    def priced(self, stop, prices):
        """What each place of a stop costs at prices."""
        found = dict(stop.costs)
        for place in found:
            register = register_of(place)
            if register is not None:
                for layer in stop.layers:
                    found[place] += prices.caps.get(cap_index(layer, register), 0)
            for tie in stop.leaves:
                found[place] += prices.ties.get(tie_index(tie, place), 0)
            for tie in stop.arrives:
                found[place] -= prices.ties.get(tie_index(tie, place), 0)
        if MEM in found:
            found[MEM] += sum(prices.mems.get(pair, 0) for pair in stop.pairs)
        return found

    def least(self, number, prices):
        """The least priced cost of a path of a strand, and the place of each stop on one."""
        depth = self.network.code.blocks[self.network.strands[number].block].depth
        crossing, chain = self.crossing(depth), self.chains[number]
        row, before = self.priced(chain[0], prices), []
        for stop in chain[1:]:
            here, came, costs = {}, {}, self.priced(stop, prices)
            for place, own in costs.items():
                value, origin = min((it + crossing[p][place], p) for p, it in row.items())
                here[place], came[place] = value + own, origin
            row = here
            before.append(came)
        value, place = min((it, p) for p, it in row.items())
        path = [place]
        for came in reversed(before):
            path.append(came[path[-1]])
        return value, path[::-1]

    def through(self, number, prices):
        """Of each stop of a strand, by place, the least priced cost of a path through there."""
        depth = self.network.code.blocks[self.network.strands[number].block].depth
        crossing, chain = self.crossing(depth), self.chains[number]
        costs = [self.priced(stop, prices) for stop in chain]
        before, behind = [costs[0]], [dict.fromkeys(costs[-1], 0)]
        for own in costs[1:]:
            row = before[-1]
            before.append(
                {to: it + min(row[p] + crossing[p][to] for p in row) for to, it in own.items()}
            )
        for own, origins in zip(costs[:0:-1], costs[-2::-1]):
            row = {p: it + behind[-1][p] for p, it in own.items()}
            behind.append({p: min(row[to] + crossing[p][to] for to in row) for p in origins})
        return [
            {place: it + rest[place] for place, it in row.items()}
            for row, rest in zip(before, reversed(behind), strict=True)
        ]

    def within(self, prices, most):
        """The places, by strand and first layer of a stop, of flows that cost at most so many
        units: a flow through any other costs more, by what its strand pays above its least."""
        slack = most - self.value(prices)
        kept = {}
        for number, strand in enumerate(self.network.strands):
            for layers, costs in zip(strand.stops(), self.through(number, prices), strict=True):
                least = min(costs.values())
                kept[number, layers[0]] = [p for p, it in costs.items() if it - least <= slack]
        return kept

    def relaxed(self, prices):
        """The Lagrange value of prices in range, in units, and a least path of each strand."""
        value, paths = -sum(prices.caps.values()) - sum(prices.mems.values()), []
        for number in range(len(self.chains)):
            least, path = self.least(number, prices)
            value += least
            paths.append(path)
        return value, paths

    def value(self, prices):
        return self.relaxed(prices)[0]

    def breaches(self, paths):
        """By how much paths break each rule: the steepest way up from prices that gave them."""
        caps, mems, ties = {}, {}, {}
        for chain, path in zip(self.chains, paths, strict=True):
            for stop, place in zip(chain, path, strict=True):
                register = register_of(place)
                if register is not None:
                    for layer in stop.layers:
                        index = cap_index(layer, register)
                        caps[index] = caps.get(index, -1) + 1
                if place == MEM:
                    for pair in stop.pairs:
                        mems[pair] = mems.get(pair, -1) + 1
                for sign, its in ((1, stop.leaves), (-1, stop.arrives)):
                    for tie in its:
                        index = tie_index(tie, place)
                        ties[index] = ties.get(index, 0) + sign
        return Prices(caps, mems, {index: by for index, by in ties.items() if by})

    def raised(self, prices, target, steps):
        """Prices of the greatest value found by so many subgradient steps towards a target in
        units (Polyak 1969), which get shorter where nothing is gained; and the value."""
        best = prices, self.value(prices)
        now, share = prices, 1.0
        for _ in range(steps):
            value, paths = self.relaxed(now)
            if value > best[1]:
                best = now, value
            elif share > 0.01:
                share *= 0.9
            if best[1] >= target:
                break
            breaches = self.breaches(paths)
            now = stepped(now, breaches, share * (target - value))
        return best


def stepped(prices, breaches, gain):
    """Prices a step further along breaches, so long that a flat value would gain as much."""
    found, moves = Prices(dict(prices.caps), dict(prices.mems), dict(prices.ties)), []
    for key, held in vars(found).items():
        by = dict(vars(breaches)[key])
        if key != "ties":  # a price that nobody pays falls
            by |= {index: -1 for index, price in held.items() if price and index not in by}
        moves += [(held, index, it) for index, it in by.items()]
    norm = sum(it * it for _, _, it in moves)
    for held, index, it in moves:
        held[index] = held.get(index, 0) + round(gain * it / norm)
    return in_range(found)
