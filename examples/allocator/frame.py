#!/usr/bin/env python3
"""The frame of an allocator: it reads networks, has each allocated, checks that and writes it.

    allocate.py <NETWORK.json >NAME.cert

Copy this file, and fill the gap: `routes_of`. The rest is what all allocators need: the reader,
what routes cost, which rule they break, and the writer. docs/NETWORK.md has the fields of the JSON,
and docs/COURSE.md the exercises. allocate.py beside this file fills the gap for the first two.
"""

import json
import sys

MEM, CONST, BOTH = 6, 7, 8  # places; 0 to 5 are registers, 8 to 13 the same with memory
REGISTERS = range(6)


def register_of(place):
    """The register that a place is or has, or None."""
    return None if place in (MEM, CONST) else place % BOTH


class Problem:
    """What the allocation of one procedure asks. A step is a layer of a strand, counted from the
    strand's first one; a stop is the steps across which the strand can't move, one or two."""

    def __init__(self, value):
        self.value = value
        self.strands, self.blocks = value["strands"], value["blocks"]
        self.moves, self.pairs, self.ties = value["moves"], value["pairs"], value["ties"]
        self.extras = {(s, layer, place): cost for s, layer, place, cost in value["extras"]}
        self.stops = [list(self.stops_of(strand)) for strand in self.strands]

    @staticmethod
    def stops_of(strand):
        step, count = 0, len(strand["masks"])
        while step < count:
            is_before = (strand["first"] + step) % 2 == 1  # an instruction
            end = min(step + 1 + is_before, count)
            yield range(step, end)
            step = end

    def is_constant(self, number):
        return self.value["code"]["vars"][self.strands[number]["variable"]][0] == "constant"

    def home(self, number):
        """Where a strand is at home: in memory, or a constant nowhere but in the code."""
        return CONST if self.is_constant(number) else MEM

    def turns(self, number):
        """By what the costs of a strand are multiplied."""
        return self.blocks[self.strands[number]["block"]]["turns"]

    def places(self, number, stop):
        """The places that a strand may have for a whole stop."""
        masks = self.strands[number]["masks"]
        mask = masks[stop[0]] & masks[stop[-1]]
        return [place for place in range(14) if mask >> place & 1]

    def layer(self, number, step):
        """The number of a layer over all blocks, as prices count them."""
        strand = self.strands[number]
        return self.blocks[strand["block"]]["layer"] + strand["first"] + step

    # ---- what routes cost

    def stop_cost(self, number, stop, place):
        """What a strand pays for a place at a stop, without the move that brings it there."""
        first = self.strands[number]["first"]
        cost = sum(self.extras.get((number, first + step, place), 0) for step in stop)
        if stop[0] == 0 and self.is_constant(number) and place != CONST:
            cost += self.value["begin"]
        return cost * self.turns(number)

    def cost(self, number, route):
        """What the route of a strand costs."""
        moves = sum(self.moves[one][to] for one, to in zip(route, route[1:]))
        stops = sum(self.stop_cost(number, it, route[it[0]]) for it in self.stops[number])
        return moves * self.turns(number) + stops

    # ---- which rules they keep

    def faults(self, routes):
        """A line for each rule of docs/NETWORK.md that routes break."""
        taken = {}
        for number, route in enumerate(routes):
            if len(route) != len(self.strands[number]["masks"]):
                yield f"strand {number} has {len(route)} places, not one for each layer"
                continue
            for stop in self.stops[number]:
                if len({route[step] for step in stop}) > 1:
                    yield f"rule 2: strand {number} moves across an instruction, at step {stop[0]}"
                elif route[stop[0]] not in self.places(number, stop):
                    yield f"rule 1: strand {number} is at {route[stop[0]]} at step {stop[0]}"
            for step, place in enumerate(route):
                cell = self.layer(number, step), register_of(place)
                other = taken.setdefault(cell, number)
                if cell[1] is not None and other != number:
                    both = f"strands {other} and {number}"
                    yield f"rule 3: {both} are in {cell[1]} at layer {cell[0]}"
        if len(routes) != len(self.strands):
            yield f"there are {len(routes)} routes for {len(self.strands)} strands"
        else:
            yield from self.broken_joints(routes)

    def broken_joints(self, routes):
        for left, one, right, two in self.pairs:
            ends = (left, one), (right, two)
            if all(routes[s][layer - self.strands[s]["first"]] == MEM for s, layer in ends):
                yield f"rule 4: strands {left} and {right} are both in memory, and are a pair"
        for one, other in self.ties:
            if routes[one][-1] != routes[other][0]:
                yield f"rule 4: strands {one} and {other} are tied, and not at one place"


def answer(routes_of, prices_of=None):
    """Reads networks, and writes the certificate of the routes that a function has for each; with a
    second one also prices, as "caps", "mems", "ties" and "bound"."""
    network, procedures = json.load(sys.stdin), []
    for number, value in enumerate(network["procs"]):
        problem = Problem(value)
        routes = routes_of(problem)
        for fault in problem.faults(routes):
            print(f"procedure {number}: {fault}", file=sys.stderr)
        total = sum(problem.cost(it, route) for it, route in enumerate(routes))
        prices = {"caps": [], "mems": [], "ties": [], "bound": 0}
        prices |= prices_of(problem, routes) if prices_of else {}
        procedures.append({**value["code"], **prices, "routes": routes, "total": total})
    head = {"kind": "pra-certificate", "version": 1, "cost": network["cost"]}
    print(json.dumps({**head, "procs": procedures}))


def routes_of(problem):
    """A list for each strand, of its place at each layer."""
    raise NotImplementedError("exercise 1: put all variables at home here")


if __name__ == "__main__":
    answer(routes_of)
