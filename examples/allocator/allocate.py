#!/usr/bin/env python3
"""An allocator with frame.py's gap filled: exercises 1 and 2 of docs/COURSE.md.

    allocate.py <NETWORK.json >NAME.cert

First all variables are at home: in memory, and constants nowhere. Where an instruction does not
allow that, a variable visits a register, and so does the second of two operands of which one alone
may be in memory. Then each variable in turn moves into the register in which it saves most, for all
its life, where nobody else is.
"""

from frame import BOTH, MEM, REGISTERS, Problem, answer, register_of


class Allocation:
    """Routes of a problem, and who is in which register at which layer."""

    def __init__(self, problem: Problem):
        self.problem, self.strands = problem, range(len(problem.strands))
        self.routes = [[None] * len(it["masks"]) for it in problem.strands]
        self.taken = {}  # the strand that has a register at a layer
        self.go_home()

    def cells(self, number, step, place):
        """The register at a layer that a strand takes with a place, if there is one."""
        register = None if place is None else register_of(place)
        return [] if register is None else [(self.problem.layer(number, step), register)]

    def is_free(self, number, stop, place):
        cells = [cell for step in stop for cell in self.cells(number, step, place)]
        return all(self.taken.get(cell, number) == number for cell in cells)

    def put(self, number, stop, place):
        for step in stop:
            for cell in self.cells(number, step, self.routes[number][step]):
                del self.taken[cell]
            self.routes[number][step] = place
            for cell in self.cells(number, step, place):
                self.taken[cell] = number

    # ---- exercise 1: home

    def go_home(self):
        is_constant, waits = self.problem.is_constant, {}
        second = {
            (right, two)
            for left, _, right, two in self.problem.pairs
            if not is_constant(left) and not is_constant(right)
        }
        for number in self.strands:
            first, home = self.problem.strands[number]["first"], self.problem.home(number)
            for stop in self.problem.stops[number]:
                is_second = any((number, first + step) in second for step in stop)
                if home in self.problem.places(number, stop) and not is_second:
                    self.put(number, stop, home)
                else:  # by the gap before the instruction that it visits a register for
                    gap = (self.problem.layer(number, stop[0]) + 1) // 2
                    waits.setdefault(gap, []).append((number, stop))
        for _, visits in sorted(waits.items()):
            visits.sort(key=lambda it: len(self.problem.places(*it)))
            assert self.place_visits(visits), "where all are at home there is room"

    def place_visits(self, visits):
        """Gives each visit of an instruction a register that is free, or none of them."""
        if not visits:
            return True
        (number, stop), *others = visits
        places = self.problem.places(number, stop)
        before = self.routes[number][stop[0] - 1] if stop[0] > 0 else None
        in_memory = before is not None and before >= MEM
        for register in sorted(REGISTERS, key=lambda it: before not in (it, it + BOTH)):
            # with memory, where that holds the value: then the way home costs nothing
            both = register + BOTH
            place = both if both in places and in_memory else register
            if place in places and self.is_free(number, stop, place):
                self.put(number, stop, place)
                if self.place_visits(others):
                    return True
                self.put(number, stop, None)
        return False

    # ---- exercise 2: one register for life

    def webs(self):
        """Strands in groups: those that ties join are in one."""
        group = list(self.strands)
        for one, other in self.problem.ties:
            old, new = group[other], group[one]
            group = [new if it == old else it for it in group]
        return [[n for n, it in enumerate(group) if it == web] for web in sorted(set(group))]

    def cost(self, web):
        return sum(self.problem.cost(number, self.routes[number]) for number in web)

    def move(self, web, register):
        """Moves a web into a register, but for the stops where it can't be there. What it saves,
        and how it was before; or None where another strand is there."""
        before, old = [(number, list(self.routes[number])) for number in web], self.cost(web)
        for number in web:
            for stop in self.problem.stops[number]:
                if register in self.problem.places(number, stop):
                    if not self.is_free(number, stop, register):
                        return self.undo(before)
                    self.put(number, stop, register)
        return old - self.cost(web), before

    def undo(self, before):
        for number, route in before:
            for step, place in enumerate(route):
                self.put(number, [step], place)

    def improve(self):
        """Moves the webs, the dearest first."""
        for web in sorted(self.webs(), key=lambda it: -self.cost(it)):
            most, best = 0, None
            for register in REGISTERS:
                if moved := self.move(web, register):
                    self.undo(moved[1])
                    most, best = max((most, best), (moved[0], register), key=lambda it: it[0])
            if best is not None:
                self.move(web, best)


def home(problem):
    """Exercise 1."""
    return Allocation(problem).routes


def one_register(problem):
    """Exercise 2."""
    allocation = Allocation(problem)
    allocation.improve()
    return allocation.routes


if __name__ == "__main__":
    answer(one_register)
