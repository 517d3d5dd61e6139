"""A network as allocators of the literature see it: stops, webs, and what these cost.

Across an instruction nothing moves, so a strand has one place for the layer before it and the layer
behind it: a stop. Strands that ties join are one web, what is live under one name. A web is in one
register all its life, or at home: in memory, or nowhere where it is a constant. From home it visits
a register for an instruction that asks for one.
"""

from dataclasses import dataclass, field
from operator import itemgetter
from typing import NamedTuple

from pranet.certificate import CONST, FIRST_BOTH, MEM, PLACES
from pranet.network import BEGUN
from pranet.operands import BOTHS, K, M, REGS, weight

# What a stop is to an allocator, where some webs are at home.
HOME = 0  # at home
FIXED = 1  # in the one register that its operand asks for
VISIT = 2  # in a register, of a web that is at home elsewhere
OPERAND = 3  # of a web in a register, whose operand asks for some of them
PIECE = 4  # of a web in a register, that passes or is used as it is

NOBODY = -1  # no web


class Rates(NamedTuple):
    """What moves cost: to another register, a load, a store, and a constant that is made."""

    change: int
    load: int
    store: int
    made: int


@dataclass(slots=True, eq=False)
class Stop:
    number: int
    web: int
    layers: range  # over all blocks
    mask: int
    home: int  # the place, as a mask
    rates: Rates
    is_first: bool  # of its strand
    is_last: bool
    group: int | None = None  # ends of strands with one number are tied
    memory: int = 0  # what its instruction costs more with it in memory
    immediate: int = 0  # or as an immediate
    pair: "Stop | None" = None  # of the two one at most is in memory
    rival: int = NOBODY  # the web that, if it is at home, keeps this one from being so
    registers: int = 0  # of the mask
    has_home: bool = False
    parts: tuple = ()  # what it is where its web has a register, is at home, or yields

    def __post_init__(self):
        self.registers = self.mask & REGS
        self.has_home = self.mask & self.home != 0

    def visit_cost(self):
        """What a stay in a register costs a web at home. What is read alone stays in memory too."""
        if self.home == K:
            return self.rates.made
        is_kept = self.mask & BOTHS or self.is_last
        return (0 if self.is_first else self.rates.load) + (0 if is_kept else self.rates.store)

    def home_cost(self):
        if not self.has_home:
            return self.visit_cost()
        return self.immediate if self.home == K else self.memory

    def yields(self):
        """Whether the other operand stays in memory, if both webs are at home: the cheaper way, and
        of equal ones the first operand stays."""
        if self.home != M or self.pair is None or not self.pair.mask & M:
            return False
        mine = self.visit_cost() + self.pair.memory
        other = self.memory + self.pair.visit_cost()
        return (mine, self.pair.number) < (other, self.number)

    def is_touched(self):
        """Whether an operand asks for something here, and the web does not just pass."""
        if self.home == K:
            return not self.has_home or self.immediate > 0 or self.is_first
        return not self.has_home or self.memory > 0

    def settle(self):
        """What it is to an allocator, once all is known of its instruction."""
        if self.has_home and self.yields():
            self.rival = self.pair.web
        is_one = self.registers.bit_count() == 1
        in_register = FIXED if is_one else OPERAND
        if self.registers == REGS or not self.is_touched():
            in_register = PIECE
        visit = FIXED if is_one else VISIT
        self.parts = (in_register, HOME if self.has_home else visit, visit)
        if not self.registers:
            self.parts = (HOME, HOME, HOME)


@dataclass(slots=True, eq=False)
class Web:
    stops: list = field(default_factory=list)
    home: int = 0  # what it costs at home
    register: int = 0  # and in a register
    is_short: bool = True  # whether it is in a register at each stop, so nothing is won at home

    @property
    def spilled(self):
        """What it costs more at home."""
        return max(0, self.home - self.register)


def classes(count, pairs):
    """Of each number the least that pairs join it with, or itself."""
    above = list(range(count))

    def find(number):
        while above[number] != number:
            above[number] = above[above[number]]
            number = above[number]
        return number

    for pair in pairs:
        low, high = sorted(map(find, pair))
        above[high] = low
    return [find(number) for number in range(count)]


class Webs:
    """The stops and webs of a network, paid by the weights of a cost."""

    def __init__(self, network, cost):
        self.network, self.cost = network, cost
        self.stops = []
        self.starts = []  # the first stop of each strand, and how many there are
        self.layers = 0
        self.ways = {it: self.ways_at(it) for it in {it.depth for it in network.code.blocks}}
        self.add_stops()
        self.add_operands()
        self.add_groups()
        self.webs = self.worth()
        self.paths = {}  # those that were asked for

    def weight(self, event, depth):
        return weight(self.cost, event, depth)

    def ways_at(self, depth):
        """What it costs to go from a place to another."""
        ends = ((one, to) for one in range(PLACES) for to in range(PLACES))
        crossing = self.network.crossing
        return {it: sum(self.weight(event, depth) for event in crossing(*it)) for it in ends}

    def rates(self, depth):
        load, store = (1, 2) if self.network.near else (3, 4)
        return Rates(*(self.weight(event, depth) for event in (0, load, store, BEGUN)))

    def add_stops(self):
        network, bases = self.network, []
        for rows in network.rows:
            bases.append(self.layers)
            self.layers += 2 * len(rows) + 2
        leaders = classes(len(network.strands), network.ties())
        numbers = {it: number for number, it in enumerate(sorted(set(leaders)))}
        rates = [self.rates(block.depth) for block in network.code.blocks]
        for at, strand in enumerate(network.strands):
            self.starts.append(len(self.stops))
            home = K if network.constants >> strand.var & 1 else M
            known = numbers[leaders[at]], home, rates[strand.block], bases[strand.block]
            self.add_strand(strand, *known)
        self.starts.append(len(self.stops))

    def add_strand(self, strand, web, home, rates, base):
        layer = strand.first
        while layer <= strand.last:
            end = min(layer + layer % 2, strand.last) + 1
            mask = strand.masks[layer - strand.first]
            if end - layer == 2:
                mask &= strand.masks[layer + 1 - strand.first]
            known = web, range(base + layer, base + end), mask, home, rates
            ends = layer == strand.first, end > strand.last
            self.stops.append(Stop(len(self.stops), *known, *ends))
            layer = end

    def stop_at(self, strand, layer):
        first = self.network.strands[strand].first
        return self.stops[self.starts[strand] + (layer + 1) // 2 - (first + 1) // 2]

    def add_operands(self):
        network = self.network
        for strand, layer, place, event in network.extras:
            stop = self.stop_at(strand, layer)
            more = self.weight(event, network.code.blocks[network.strands[strand].block].depth)
            if place == MEM:
                stop.memory += more
            else:
                stop.immediate += more
        for left, left_layer, right, right_layer in network.pairs():
            one, other = self.stop_at(left, left_layer), self.stop_at(right, right_layer)
            one.pair, other.pair = other, one
        for stop in self.stops:
            stop.settle()

    def add_groups(self):
        """Ends of strands that ties join: the last stop of a strand and the first of the next."""
        ends = [(self.starts[one + 1] - 1, self.starts[to]) for one, to in self.network.ties()]
        leaders = classes(len(self.stops), ends)
        for number in {it for pair in ends for it in pair}:
            self.stops[number].group = leaders[number]

    def worth(self):
        webs = [Web() for _ in range(1 + max((it.web for it in self.stops), default=-1))]
        for stop in self.stops:
            web = webs[stop.web]
            web.stops.append(stop)
            web.home += stop.home_cost()
            web.register += 0 if stop.registers else stop.rates.load
            web.register += stop.rates.made if stop.is_first and stop.home == K else 0
            web.is_short &= not stop.has_home
        return webs

    def begin(self):
        """Which webs are at home from the beginning: those that are no cheaper in a register."""
        return [it.home <= it.register for it in self.webs]

    def parts(self, at_home):
        """What each stop is where these webs are at home."""
        at_home = [*at_home, False]  # the last is no web's
        return [it.parts[at_home[it.web] * (1 + at_home[it.rival])] for it in self.stops]

    # ---- from registers and homes to routes

    def routes(self, wanted):
        """Routes where each stop is in the register that is wanted, or at home where that is None.
        None where the network does not admit them."""
        found = []
        for at in range(len(self.network.strands)):
            key = at, *wanted[self.starts[at] : self.starts[at + 1]]
            if key not in self.paths:
                self.paths[key] = self.path(*key)
            found.append(self.paths[key])
        return found if None not in found and self.network.admits(found) else None

    def options(self, stop, wanted):
        """The place that is wanted, and the same with memory."""
        if wanted is None:
            places = (CONST if stop.home == K else MEM,)
        else:
            places = (wanted,) if stop.group is not None else (wanted, wanted + FIRST_BOTH)
        return [it for it in places if stop.mask >> it & 1]

    def path(self, at, *wanted):
        """The cheapest places of a strand where its stops are where they are wanted, or None."""
        strand = self.network.strands[at]
        ways = self.ways[self.network.code.blocks[strand.block].depth]
        is_constant = self.network.constants >> strand.var & 1
        paid, steps = {CONST: (0, None)} if is_constant else {}, []
        stops = self.stops[self.starts[at] : self.starts[at + 1]]
        for stop, want in zip(stops, wanted, strict=True):
            now = {}
            for to in self.options(stop, want):
                costs = [(cost + ways[origin, to], origin) for origin, (cost, _) in paid.items()]
                now[to] = min(costs, key=itemgetter(0), default=(0, None))
            if not now:
                return None
            steps.append(now)
            paid = now
        place, path = min(paid, key=lambda it: paid[it][0]), []
        for stop, step in zip(reversed(stops), reversed(steps), strict=True):
            path += [place] * len(stop.layers)
            place = step[place][1]
        return path[::-1]
