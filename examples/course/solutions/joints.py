"""For exercises 6 and 7: a web's routes, found anew while all others stay.

Ends of strands that ties join are a joint: they have one place. Between two joints a strand goes
its least way. So a web is routed by a place for each of its joints; these are chosen one by one,
again and again, until none gets cheaper.
"""

from paths import BOTH, CONST, FAR, MEM, PLACES, REGISTERS, Paths


class Router:
    """Routes of a problem, who is in which register at which layer, and who in memory of a pair."""

    def __init__(self, problem, routes, penalty=FAR):
        self.problem, self.paths = problem, Paths(problem)
        self.penalty = penalty  # for a register that somebody has
        self.joint, self.webs = {}, []
        self.join()
        self.stays = [[route[stop[0]] for stop in stops] for route, stops in self.each(routes)]
        self.holders = {}  # how many strands have a register at a layer
        self.tolls = {}  # what a register at a layer costs besides
        for number in range(len(self.stays)):
            self.take(number, 1)

    def each(self, routes):
        return zip(routes, self.problem.stops, strict=True)

    def join(self):
        """The joint of each end of a strand that has one, and the strands of each web."""
        joint, web = {}, list(range(len(self.problem.strands)))
        for one, to in self.problem.ties:
            ends = joint.get((one, 1), {(one, 1)}) | joint.get((to, 0), {(to, 0)})
            joint.update(dict.fromkeys(ends, ends))
            old, new = web[to], web[one]
            web = [new if it == old else it for it in web]
        self.joint = {end: min(ends) for end, ends in joint.items()}
        self.webs = [[n for n, it in enumerate(web) if it == of] for of in sorted(set(web))]

    def take(self, number, by):
        """A strand takes its registers, or gives them back."""
        for layers, place in zip(self.paths.layers[number], self.stays[number], strict=True):
            if place not in (MEM, CONST):
                for layer in layers:
                    cell = layer, place % BOTH
                    self.holders[cell] = self.holders.get(cell, 0) + by

    # ---- a web

    def row(self, number, at):
        """What the places of a stop cost while all other webs stay."""
        row, toll = self.paths.rows[number][at], [0] * len(REGISTERS)
        for layer in self.paths.layers[number][at]:
            for register in REGISTERS:
                cell = layer, register
                others = self.penalty * self.holders.get(cell, 0)
                toll[register] += others + self.tolls.get(cell, 0)
        other = self.paths.partner.get((number, at))
        in_memory = other and self.stays[other[0]][other[1]] == MEM
        return [
            min(FAR, it + more)
            for it, more in zip(row, [*toll, FAR if in_memory else 0, 0, *toll], strict=True)
        ]

    def ends(self, number):
        """The joints of a strand's two ends, or None."""
        return self.joint.get((number, 0)), self.joint.get((number, 1))

    def costs(self, number, rows):
        """By its first place and its last one what a strand costs."""
        ways, table = self.paths.ways[number], {}
        for first in PLACES:
            if rows[0][first] < FAR:
                begin = [it if place == first else FAR for place, it in enumerate(rows[0])]
                for last, cost in enumerate(ways.forward([begin, *rows[1:]])[-1]):
                    if cost < FAR:
                        table[first, last] = cost
        return table

    def least(self, number, table, places):
        """The least cost of a strand with the places of its joints."""
        first, last = (places.get(it) for it in self.ends(number))
        if first is not None and last is not None:
            return table.get((first, last), FAR)
        return min(
            (
                cost
                for (one, to), cost in table.items()
                if first in (None, one) and last in (None, to)
            ),
            default=FAR,
        )

    def route(self, web):
        """Routes a web anew. Whether that is cheaper than it was."""
        for number in web:
            self.take(number, -1)
        rows = {it: [self.row(it, at) for at in range(len(self.stays[it]))] for it in web}
        tables = {it: self.costs(it, rows[it]) for it in web}
        joints = sorted({it for number in web for it in self.ends(number) if it is not None})
        beside = {it: [n for n in web if it in self.ends(n)] for it in joints}
        now = {}
        for number in web:
            for joint, at in zip(self.ends(number), (0, -1), strict=True):
                if joint is not None:
                    now[joint] = self.stays[number][at]
        before = sum(self.least(it, tables[it], now) for it in web)
        begins = [now, *(dict.fromkeys(joints, place) for place in (*REGISTERS, MEM))]
        best = min((self.settle(it, beside, tables) for it in begins), key=lambda it: it[0])
        for number in web:
            self.stays[number] = self.path(number, rows[number], best[1])
            self.take(number, 1)
        return best[0] < before

    def settle(self, places, beside, tables):
        """Chooses the place of each joint until none gets cheaper; what the web costs then."""

        def around(joint, place):
            chosen = places | {joint: place}
            return sum(self.least(it, tables[it], chosen) for it in beside[joint])

        for _ in range(8):
            before = dict(places)
            for joint in beside:
                places[joint] = min(PLACES, key=lambda it: (around(joint, it), it != places[joint]))
            if places == before:
                break
        return sum(self.least(it, table, places) for it, table in tables.items()), places

    def path(self, number, rows, places):
        """The least way of a strand between the places of its joints."""
        rows = list(rows)
        for at, joint in zip((0, -1), self.ends(number), strict=True):
            if joint is not None:
                kept = places[joint]
                rows[at] = [it if place == kept else FAR for place, it in enumerate(rows[at])]
        return self.paths.ways[number].least(rows)[1]

    # ---- all

    def cost(self):
        """What the routes cost, without what besides."""
        return sum(map(self.problem.cost, range(len(self.stays)), self.routes()))

    def routes(self):
        return [self.paths.route(number, path) for number, path in enumerate(self.stays)]

    def shared(self):
        """The registers at layers that more than one strand has."""
        return [cell for cell, count in self.holders.items() if count > 1]
