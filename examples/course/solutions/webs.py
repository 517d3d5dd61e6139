"""For exercises 3 to 5: webs, each in one register all its life or at home, and their costs.

A web is a variable over all strands that ties join. While it has a register it leaves that only for
an operand that asks for another one by name. At home it visits a register where an operand asks
for one; a visit is as short as an instruction and can't be sent home.
"""

from dataclasses import dataclass, field

from paths import BOTH, FAR, MEM, PLACES, REGISTERS, Paths

FREE = 63  # all registers, as bits


def bits(mask):
    return [it for it in range(mask.bit_length()) if mask >> it & 1]


@dataclass(eq=False)
class Node:
    """What wants one register: a web, or a visit of one that is at home."""

    web: int
    is_visit: bool
    layers: int = 0  # as bits
    mask: int = FREE
    stops: list = field(default_factory=list)  # strand and number of the stop
    wishes: list = field(default_factory=lambda: [0] * 6)  # what each register saves

    @property
    def first(self):
        return (self.layers & -self.layers).bit_length() - 1

    @property
    def last(self):
        return self.layers.bit_length() - 1


class Webs:
    def __init__(self, problem):
        self.problem, self.paths = problem, Paths(problem)
        self.web_of = list(range(len(problem.strands)))
        for one, other in problem.ties:
            old, new = self.web_of[other], self.web_of[one]
            self.web_of = [new if it == old else it for it in self.web_of]
        self.webs = {}
        for number, web in enumerate(self.web_of):
            self.webs.setdefault(web, []).append(number)
        self.tied = {(one, -1) for one, _ in problem.ties} | {(to, 0) for _, to in problem.ties}
        self.spill_cost = {web: self.saved(its) for web, its in self.webs.items()}

    def registers(self, number, at):
        """The registers that a strand may be in at a stop, as bits."""
        return sum(1 << it for it in REGISTERS if self.paths.rows[number][at][it] < FAR)

    # ---- what a web costs

    def visit_cost(self, number, at):
        """What a stay in a register costs a web at home: the way there, and home where the value
        was not left in memory and is still wanted."""
        row, ways = self.paths.rows[number][at], self.paths.ways[number]
        if self.problem.is_constant(number):
            return ways.made
        is_left = min(row[BOTH:]) < FAR or at == len(self.paths.rows[number]) - 1
        return (ways.load if at else 0) + (0 if is_left else ways.store)

    def saved(self, web):
        """What a web costs more at home than in a register: each visit is paid by itself, and a
        register costs what it takes to come there first."""
        saved = 0
        for number in web:
            for at, row in enumerate(self.paths.rows[number]):
                home = self.problem.home(number)
                saved += row[home] if row[home] < FAR else self.visit_cost(number, at)
                if not self.registers(number, at):
                    saved -= self.paths.ways[number].load
            if self.problem.is_constant(number):
                saved -= self.paths.ways[number].made
        return saved

    # ---- what wants a register

    def yields(self, number, at, at_home):
        """Whether the other operand of a pair stays in memory, where both are at home: the one
        whose visit is cheaper yields."""
        here, other = (number, at), self.paths.partner.get((number, at))
        if other is None or self.web_of[other[0]] not in at_home:
            return False
        rows = self.paths.rows[number][at], self.paths.rows[other[0]][other[1]]
        if FAR in (rows[0][MEM], rows[1][MEM]):
            return False
        mine, its = self.visit_cost(*here) + rows[1][MEM], self.visit_cost(*other) + rows[0][MEM]
        return (mine, other) < (its, here)

    def nodes(self, at_home):
        """The nodes where some webs are at home, and which registers operands ask for by name: of
        each register the layers, and of each stop the register."""
        named, asked, nodes = [0] * 6, {}, []
        for web, strands in self.webs.items():
            node = Node(web, False)
            for number in strands:
                visit = None
                for at, layers in enumerate(self.paths.layers[number]):
                    mask, is_home = self.registers(number, at), web in at_home
                    has_home = self.paths.rows[number][at][self.problem.home(number)] < FAR
                    stays = is_home and has_home and not self.yields(number, at, at_home)
                    if stays or not mask:
                        visit = None
                    elif mask.bit_count() == 1:
                        register = mask.bit_length() - 1
                        named[register] |= sum(1 << it for it in layers)
                        asked[number, at] = register
                        node.wishes[register] += self.paths.ways[number].move
                        visit = None
                    else:
                        if is_home and (visit is None or not visit.mask & mask):
                            visit = Node(web, True)
                            nodes.append(visit)
                        it = visit if is_home else node
                        it.mask &= mask
                        it.layers |= sum(1 << it for it in layers)
                        it.stops.append((number, at))
            if node.stops:
                nodes.append(node)
        for node in nodes:
            node.mask &= ~sum(1 << it for it in REGISTERS if named[it] & node.layers)
        return nodes, asked

    # ---- from registers to routes

    def routes(self, wanted):
        """The cheapest routes where each stop is in its register, alone or with memory, and at home
        where it has none."""
        routes = []
        for number, rows in enumerate(self.paths.rows):
            few, last = [], len(rows) - 1
            for at, row in enumerate(rows):
                register = wanted.get((number, at))
                places = [self.problem.home(number)] if register is None else [register]
                is_tied = (at == 0 and (number, 0) in self.tied) or (
                    at == last and (number, -1) in self.tied
                )
                if register is not None and not is_tied:
                    places.append(register + BOTH)
                few.append([row[it] if it in places else FAR for it in PLACES])
            routes.append(self.paths.route(number, self.paths.ways[number].least(few)[1]))
        return routes

    def best(self, allocators):
        """The cheapest routes of several allocators, each of which has the webs that begin at home
        and answers with a register for each stop."""
        begin = {web for web, saved in self.spill_cost.items() if saved <= 0}
        found = [self.routes(it(self, set(begin))) for it in allocators]

        def cost(routes):
            return sum(map(self.problem.cost, range(len(routes)), routes))

        return min(found, key=cost)
