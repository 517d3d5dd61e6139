"""Graph colouring: Chaitin, Register Allocation and Spilling via Graph Coloring (1982).

Nodes with fewer neighbours than there are registers are put aside, those first that no move joins.
Then nodes that a move joins become one, where that surely does not make the graph harder, as George
and Appel have it (Iterated Register Coalescing, TOPLAS 1996); then the moves of a node with few
neighbours are given up; at last a node is put aside that may find no register, as Briggs, Cooper
and Torczon have it (Improvements to Graph Coloring Register Allocation, TOPLAS 1994). Taken back in
turn, a node gets the register that most of its moves want among those that its neighbours left. A
web that finds none goes home everywhere, and the graph is built and coloured again.

Nodes are numbered, the registers first; sets of nodes are numbers with their bits.
"""

from picture.webs import FIXED, HOME, PIECE, VISIT, classes
from pranet.network import bits
from pranet.operands import REGS

COLOURS = 6
NEVER = 1 << 40  # what a node costs that no other web can make room for

# By what the cost of a node is divided, of its degree and its layers, each weighed by its depth:
# Chaitin's measure, and two of Bernstein and others (PLDI 1989).
MEASURES = (
    lambda degree, area: degree,
    lambda degree, area: degree * degree,
    lambda degree, area: degree * area,
)


class Graph:
    """The interference graph where some webs are at home.

    A web at home has a node for each stay in a register. Another web has a node for each operand
    that can't be in every register, and one for each piece of the rest, joined through instructions
    and ties. An operand that asks for one register is the node of that register.
    """

    def __init__(self, webs, at_home):
        self.web, self.mask = [None] * COLOURS, [1 << it for it in range(COLOURS)]
        self.is_visit, self.area = [False] * COLOURS, [0] * COLOURS
        self.parts = webs.parts(at_home)
        self.node_of = [None] * len(webs.stops)
        leaders = classes(len(webs.stops), self.joined(webs.stops))
        for stop, part in zip(webs.stops, self.parts, strict=True):
            if part == FIXED:
                self.node_of[stop.number] = stop.registers.bit_length() - 1
            elif part != HOME:
                self.add(stop, part, leaders[stop.number])
        self.meets = [0] * len(self.web)
        self.add_edges(webs)
        self.moves = [*self.joints(webs.stops)]

    def joined(self, stops):
        """Stops that are of one node."""
        mask, first_of = 0, {}
        for stop, part in zip(stops, self.parts, strict=True):
            follows = not stop.is_first and self.parts[stop.number - 1] == part
            if part == VISIT:
                goes_on = follows and mask & stop.registers
                mask = stop.registers & (mask if goes_on else REGS)
                if goes_on:
                    yield stop.number - 1, stop.number
            elif part == PIECE:
                if follows:
                    yield stop.number - 1, stop.number
                if stop.group is not None:
                    yield first_of.setdefault(stop.group, stop.number), stop.number

    def add(self, stop, part, leader):
        """A stop as part of the node that its class has."""
        if leader == stop.number:
            self.node_of[stop.number] = len(self.web)
            self.web.append(stop.web)
            self.mask.append(REGS)
            self.is_visit.append(part == VISIT)
            self.area.append(0)
        node = self.node_of[stop.number] = self.node_of[leader]
        self.mask[node] &= stop.registers
        self.area[node] += len(stop.layers) * max(1, stop.rates.load)

    def join(self, one, others):
        """A node and others interfere."""
        self.meets[one] |= others
        for other in bits(others):
            self.meets[other] |= 1 << one

    def add_edges(self, webs):
        """Nodes that are there at one layer interfere, and each with registers it can't take."""
        there = [0] * webs.layers
        for stop in webs.stops:
            node = self.node_of[stop.number]
            for layer in stop.layers if node is not None else ():
                there[layer] |= 1 << node
        for nodes in there:
            for node in bits(nodes):
                self.meets[node] |= nodes
        for node, mask in enumerate(self.mask):
            self.join(node, REGS & ~mask)
            self.meets[node] &= ~(1 << node)

    def joints(self, stops):
        """Two nodes that a strand goes through, one after the other, and what a move costs."""
        for stop in stops:
            one, other = self.node_of[stop.number - 1], self.node_of[stop.number]
            if not stop.is_first and None not in (one, other) and one != other:
                yield one, other, stop.rates.change


class Colours:
    """A register for each node that finds one, by a measure of who may find none."""

    def __init__(self, webs, graph, measure):
        self.graph, self.measure = graph, measure
        self.meets, self.mask, self.area = graph.meets, list(graph.mask), list(graph.area)
        count = len(graph.web)
        self.costs = [0] * COLOURS + [
            NEVER if graph.is_visit[it] or webs.webs[web].is_short else webs.webs[web].spilled
            for it, web in enumerate(graph.web[COLOURS:], COLOURS)
        ]
        self.alive = (1 << count) - 1
        self.degree = [it.bit_count() for it in self.meets]
        self.low = sum(1 << it for it in range(COLOURS, count) if self.degree[it] < COLOURS)
        self.alias = list(range(count))
        self.open_at = [set() for _ in range(count)]  # of each node the moves that may save
        for number, (one, other, _) in enumerate(graph.moves):
            if not self.meets[one] >> other & 1:
                self.open_at[one].add(number)
                self.open_at[other].add(number)
        self.moved = sum(1 << node for node, it in enumerate(self.open_at) if it)
        self.by_weight = sorted(range(len(graph.moves)), key=lambda it: -graph.moves[it][2])
        self.aside = []
        self.register = [*range(COLOURS)] + [None] * (count - COLOURS)
        while self.simplify() or self.coalesce() or self.freeze() or self.risk():
            pass
        self.votes = self.all_votes()
        for node in reversed(self.aside):
            self.take(node)

    def find(self, node):
        """The node that a node became part of."""
        while self.alias[node] != node:
            node = self.alias[node]
        return node

    def ends(self, move):
        one, other, _ = self.graph.moves[move]
        return sorted((self.find(one), self.find(other)))

    def close(self, move):
        """A move will save nothing."""
        for node in self.ends(move):
            self.open_at[node].discard(move)
            if not self.open_at[node]:
                self.moved &= ~(1 << node)

    def close_all(self, node):
        for move in list(self.open_at[node]):
            self.close(move)

    def remove(self, node):
        self.alive &= ~(1 << node)
        self.low &= ~(1 << node)
        for it in bits(self.meets[node] & self.alive):
            self.degree[it] -= 1
            if it >= COLOURS and self.degree[it] < COLOURS:
                self.low |= 1 << it

    def put_aside(self, node):
        self.close_all(node)
        self.remove(node)
        self.aside.append(node)

    def simplify(self):
        """Puts aside nodes of low degree that no move joins."""
        free = self.low & ~self.moved
        if free:
            self.put_aside((free & -free).bit_length() - 1)
        return free

    # ---- coalescing

    def is_safe_by_neighbours(self, one, other):
        """George's test: each neighbour of the other is of low degree, or also of the one."""
        return not self.meets[other] & self.alive & ~self.meets[one] & ~self.low

    def is_safe_by_degree(self, one, other):
        """Briggs's test: as one node they have few neighbours of high degree."""
        high = (self.meets[one] | self.meets[other]) & self.alive & ~self.low
        shared = self.meets[one] & self.meets[other] & high
        lower = (it for it in bits(shared) if it >= COLOURS and self.degree[it] == COLOURS)
        return high.bit_count() - sum(1 for _ in lower) < COLOURS

    def is_safe(self, one, other):
        if one < COLOURS:
            return self.is_safe_by_neighbours(one, other)
        return (
            self.is_safe_by_degree(one, other)
            or self.is_safe_by_neighbours(one, other)
            or self.is_safe_by_neighbours(other, one)
        )

    def coalesce(self):
        """Joins two nodes of the move that saves most."""
        for move in self.by_weight:
            one, other = self.ends(move)
            if move in self.open_at[one] and self.is_safe(one, other):
                self.merge(one, other)
                return True
        return False

    def merge(self, one, other):
        """The second node becomes part of the first."""
        self.remove(other)
        self.alias[other] = one
        new = self.meets[other] & ~self.meets[one]
        for it in bits(new & self.alive):
            self.degree[it] += 1
            if self.degree[it] == COLOURS:
                self.low &= ~(1 << it)
        self.graph.join(one, new)
        self.degree[one] = (self.meets[one] & self.alive).bit_count()
        if one >= COLOURS and self.degree[one] >= COLOURS:
            self.low &= ~(1 << one)
        self.mask[one] &= self.mask[other]
        self.area[one] += self.area[other]
        self.costs[one] = min(self.costs[one], self.costs[other])
        self.open_at[one] |= self.open_at[other]
        self.open_at[other] = set()
        self.moved &= ~(1 << other)
        for move in list(self.open_at[one]):
            low, high = self.ends(move)
            if low == high or self.meets[low] >> high & 1:
                self.close(move)

    def freeze(self):
        """Gives up the moves of the node of low degree whose moves save least."""
        if not self.low:
            return False
        moves = self.graph.moves
        self.close_all(
            min(bits(self.low), key=lambda node: sum(moves[it][2] for it in self.open_at[node]))
        )
        return True

    def risk(self):
        """Puts a node aside that may find no register: the cheapest by the measure."""
        best = None
        for node in bits(self.alive >> COLOURS << COLOURS):
            size = max(1, self.measure(self.degree[node], self.area[node]))
            if best is None or self.costs[node] * best[1] < best[0] * size:
                best = self.costs[node], size, node
        if best is not None:
            self.put_aside(best[2])
        return best is not None

    # ---- taking nodes back

    def all_votes(self):
        """Of each node the nodes that moves join it with, and what each saves."""
        votes = [[] for _ in self.alias]
        for move, (*_, weight) in enumerate(self.graph.moves):
            one, other = self.ends(move)
            votes[one].append((other, weight))
            votes[other].append((one, weight))
        return votes

    def take(self, node):
        free = self.mask[node]
        for it in bits(self.meets[node]):
            if self.register[it] is not None:
                free &= ~(1 << self.register[it])
        wanted = [0] * COLOURS
        for other, weight in self.votes[node]:
            if self.register[other] is not None:
                wanted[self.register[other]] += weight
        self.register[node] = max(bits(free), key=wanted.__getitem__, default=None)

    # ---- spilling

    def cheapest_neighbour(self, webs, at_home, node):
        """The cheapest web of the neighbours of a node that may go home."""
        near = (self.graph.web[it] for it in bits(self.meets[node] >> COLOURS << COLOURS))
        may = (it for it in near if not at_home[it] and not webs.webs[it].is_short)
        return min(may, key=lambda it: webs.webs[it].spilled, default=None)

    def send_home(self, webs, at_home):
        """Sends home what found no register. It says how many nodes found none, and whether a web
        was sent."""
        missing, is_sent = 0, False
        for node in range(COLOURS, len(self.alias)):
            if self.alias[node] == node and self.register[node] is None:
                missing += 1
                web = self.graph.web[node]
                if at_home[web] or webs.webs[web].is_short:
                    other = self.cheapest_neighbour(webs, at_home, node)
                    web = web if other is None else other
                is_sent |= not at_home[web]
                at_home[web] = True
        return missing, is_sent


def colour(webs, measure):
    """Where each stop is: a register, or None at home. None where nodes that can't be spilled find
    no register."""
    at_home, is_sent = webs.begin(), True
    while is_sent:
        colours = Colours(webs, Graph(webs, at_home), measure)
        missing, is_sent = colours.send_home(webs, at_home)
        if not missing:
            nodes = colours.graph.node_of
            return [None if it is None else colours.register[colours.find(it)] for it in nodes]
    return None
