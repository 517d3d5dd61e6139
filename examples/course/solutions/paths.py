"""What the solutions share: the frame of examples/allocator, and least paths through a strand."""

import os
import sys

sys.path.insert(0, f"{os.path.dirname(os.path.realpath(__file__))}/../../allocator")

from allocate import home, one_register  # noqa: E402
from frame import BOTH, CONST, MEM, REGISTERS, Problem, answer, register_of  # noqa: E402

__all__ = [
    "BOTH",
    "CONST",
    "FAR",
    "MEM",
    "PLACES",
    "REGISTERS",
    "Paths",
    "Problem",
    "answer",
    "home",
    "one_register",
    "register_of",
]

PLACES = range(14)
FAR = 1 << 60  # what a place costs that can't be had


class Ways:
    """What it costs to go from place to place, and rows of costs by place that follow each other.

    `moves` has few different numbers: a move, a load, a store, and a constant that is made.
    """

    def __init__(self, moves):
        self.columns = list(zip(*moves))
        self.move, self.store = moves[0][1], moves[0][MEM]
        self.load, self.made = moves[MEM][0], moves[CONST][0]

    def over(self, paid):
        """What each place costs behind a gap, where a row has what each costs before it."""
        inside, both, memory, constant = min(paid[:6]), min(paid[BOTH:]), paid[MEM], paid[CONST]
        moved = min(inside, both) + self.move
        to_register = min(moved, memory + self.load, constant + self.made)
        to_both = min(both + self.move, inside + self.move + self.store, memory + self.load)
        registers = [min(it, beside, to_register) for it, beside in zip(paid, paid[BOTH:])]
        stored = [
            min(it + self.store, beside, to_both) for it, beside in zip(paid[:6], paid[BOTH:])
        ]
        return [*registers, min(memory, inside + self.store, both), min(constant, inside), *stored]

    def forward(self, rows):
        """Of each row what a path costs that has come so far, by its place there."""
        paid, found = rows[0], [rows[0]]
        for row in rows[1:]:
            paid = [it + own for it, own in zip(self.over(paid), row)]
            found.append(paid)
        return found

    def back(self, found, place):
        """The places of a least path that ends at a place, of what forward has found."""
        path = [place]
        for paid in found[-2::-1]:
            costs = [it + way for it, way in zip(paid, self.columns[path[-1]])]
            path.append(costs.index(min(costs)))
        return path[::-1]

    def least(self, rows):
        """The least cost of a path, and its places."""
        found = self.forward(rows)
        place = min(PLACES, key=found[-1].__getitem__)
        return found[-1][place], self.back(found, place)


class Paths:
    """The strands of a problem as rows: what each place of each stop costs alone."""

    def __init__(self, problem):
        self.problem = problem
        self.ways = self.ways_of(1)
        self.rows = [
            [self.row(number, stop) for stop in stops] for number, stops in enumerate(problem.stops)
        ]
        self.layers = [
            [[problem.layer(number, step) for step in stop] for stop in stops]
            for number, stops in enumerate(problem.stops)
        ]
        self.partner = {}  # the two stops of a pair
        for left, one, right, two in problem.pairs:
            ends = [self.stop_at(left, one), self.stop_at(right, two)]
            self.partner.update([ends, ends[::-1]])

    def ways_of(self, units):
        """The ways of each strand, in so many units."""
        turns = [self.problem.turns(it) * units for it in range(len(self.problem.strands))]
        moves = self.problem.moves
        known = {it: Ways([[cost * it for cost in row] for row in moves]) for it in turns}
        return [known[it] for it in turns]

    def row(self, number, stop):
        row = [FAR] * len(PLACES)
        for place in self.problem.places(number, stop):
            row[place] = self.problem.stop_cost(number, stop, place)
        return row

    def stop_at(self, number, layer):
        """The stop of a strand at a layer of its block."""
        step = layer - self.problem.strands[number]["first"]
        stops = self.problem.stops[number]
        return number, next(at for at, stop in enumerate(stops) if step in stop)

    def route(self, number, path):
        """The place of each layer, of those of the stops."""
        stops = self.problem.stops[number]
        return [place for stop, place in zip(stops, path, strict=True) for _ in stop]
