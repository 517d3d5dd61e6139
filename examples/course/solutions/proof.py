#!/usr/bin/env python3
"""Exercise 8: prices that prove a bound, by subgradient steps with a memory of those before."""

from paths import BOTH, CONST, FAR, MEM, PLACES, REGISTERS, Paths, answer

UNIT = 1024  # units of a weight
STEPS = 60
KEPT = 0.8  # of the direction of the step before
SHORTER = 0.97  # of a step, where nothing was gained


class Prices:
    """Prices of registers at layers, of pairs and of ties at places, in units."""

    def __init__(self, problem):
        self.problem, self.paths = problem, Paths(problem)
        layers = sum(it["layers"] for it in problem.blocks)
        self.sizes = len(REGISTERS) * layers, len(problem.pairs), len(PLACES) * len(problem.ties)
        self.rows = [
            [[it * UNIT if it < FAR else FAR for it in row] for row in rows]
            for rows in self.paths.rows
        ]
        self.pairs, self.ties = {}, {}  # by strand and stop: a pair; a tie and its sign
        for pair, (left, one, right, two) in enumerate(problem.pairs):
            for end in (self.paths.stop_at(left, one), self.paths.stop_at(right, two)):
                self.pairs.setdefault(end, []).append(pair)
        for tie, (one, to) in enumerate(problem.ties):
            self.ties.setdefault((one, len(problem.stops[one]) - 1), []).append((tie, 1))
            self.ties.setdefault((to, 0), []).append((tie, -1))
        self.ways, self.now = self.paths.ways_of(UNIT), self.nothing()

    def nothing(self):
        return [[0] * size for size in self.sizes]

    def row(self, number, at):
        """What the places of a stop cost at these prices."""
        row, (caps, mems, ties) = self.rows[number][at], self.now
        tolls = [0] * len(REGISTERS)
        for layer in self.paths.layers[number][at]:
            first = len(REGISTERS) * layer
            tolls = [it + price for it, price in zip(tolls, caps[first : first + 6])]
        memory = sum(mems[pair] for pair in self.pairs.get((number, at), ()))
        row = [it + toll for it, toll in zip(row, [*tolls, memory, 0, *tolls])]
        for tie, sign in self.ties.get((number, at), ()):
            prices = ties[len(PLACES) * tie : len(PLACES) * (tie + 1)]
            row = [it + sign * price for it, price in zip(row, prices)]
        return row

    def relaxed(self):
        """What no allocation costs less than, in units, and by how much the least paths of all
        strands break each rule."""
        caps, mems, ties = over = [-1] * self.sizes[0], [-1] * self.sizes[1], [0] * self.sizes[2]
        value = -sum(self.now[0]) - sum(self.now[1])
        for number, rows in enumerate(self.rows):
            priced = [self.row(number, at) for at in range(len(rows))]
            cost, path = self.ways[number].least(priced)
            value += cost
            for at, place in enumerate(path):
                if place not in (MEM, CONST):
                    for layer in self.paths.layers[number][at]:
                        caps[len(REGISTERS) * layer + place % BOTH] += 1
                elif place == MEM:
                    for pair in self.pairs.get((number, at), ()):
                        mems[pair] += 1
                for tie, sign in self.ties.get((number, at), ()):
                    ties[len(PLACES) * tie + place] += sign
        return value, over

    def step(self, over, before, length):
        """Goes along what is broken, and what was before; prices of what is free stay nothing."""
        along = []
        for kind, (broken, old, prices) in enumerate(zip(over, before, self.now)):
            is_tie = kind == 2
            along.append(
                [
                    it + KEPT * was if is_tie or price or it + KEPT * was > 0 else 0
                    for it, was, price in zip(broken, old, prices)
                ]
            )
        norm = sum(it * it for its in along for it in its) or 1
        for kind, (prices, its) in enumerate(zip(self.now, along)):
            for at, it in enumerate(its):
                if it:
                    price = prices[at] + round(length * it / norm)
                    prices[at] = price if kind == 2 else max(0, price)
        return along

    def climb(self, target, steps=STEPS):
        """Goes up from no prices, towards a target, and keeps the best prices. The bound."""
        best, found, before, share = 0, self.nothing(), self.nothing(), 1.0
        for _ in range(steps):
            value, over = self.relaxed()
            if value > best:
                best, found = value, [list(it) for it in self.now]
            else:
                share *= SHORTER
            if best > (target - 1) * UNIT:
                break
            before = self.step(over, before, share * (target * UNIT - value))
        self.now = found
        return -(-best // UNIT)

    def lists(self):
        """The prices as a certificate has them."""
        caps, mems, ties = self.now
        numbers = {place: place - (place > CONST) for place in PLACES if place != CONST}
        tied = [
            [13 * (at // 14) + numbers[at % 14], it]
            for at, it in enumerate(ties)
            if it and at % 14 != CONST
        ]
        lists = ([[at, it] for at, it in enumerate(its) if it] for its in (caps, mems))
        return dict(zip(("caps", "mems", "ties"), (*lists, tied), strict=True))


def prices_of(problem, routes):
    """Prices and the bound that they prove, which is sought up to what routes cost."""
    prices = Prices(problem)
    bound = prices.climb(sum(problem.cost(it, route) for it, route in enumerate(routes)))
    return {**prices.lists(), "bound": bound}


if __name__ == "__main__":
    from split import routes_of

    answer(routes_of, prices_of)
