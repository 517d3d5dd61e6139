#!/usr/bin/env python3
"""Exercise 5: graph colouring, with spilling by cost over degree and optimistic choice."""

from paths import REGISTERS, answer
from webs import Webs

# By what the cost of a web is divided, where one has to be put aside that may find no register.
MEASURES = (
    lambda degree, area: degree,
    lambda degree, area: degree * degree,
    lambda degree, area: degree * area,
)


class Graph:
    """Webs and visits as nodes; those that are there at one layer are neighbours."""

    def __init__(self, webs, at_home):
        self.webs = webs
        self.nodes, self.asked = webs.nodes(at_home)
        self.near = {
            it: {other for other in self.nodes if other is not it and other.layers & it.layers}
            for it in self.nodes
        }
        self.room = {it: it.mask.bit_count() for it in self.nodes}

    def order(self, measure):
        """Nodes in the order in which they are put aside: those that surely find a register first,
        and where there are none, who is cheap to send home for how many it is in the way."""
        left, order = list(self.nodes), []
        degree = {it: len(self.near[it]) for it in left}
        while left:
            sure = [it for it in left if degree[it] < self.room[it]]
            node = min(sure or left, key=lambda it: self.price(it, degree[it], measure, bool(sure)))
            left.remove(node)
            order.append(node)
            for it in self.near[node]:
                degree[it] -= 1
        return order

    def price(self, node, degree, measure, is_sure):
        place = node.first, node.is_visit
        if is_sure:
            return 0, *place
        if node.is_visit:
            return 1e18, *place
        size = max(1, measure(degree, node.layers.bit_count()))
        return self.webs.spill_cost[node.web] / size, *place

    def colours(self, measure):
        """The register of each node that finds one, taken back last first, and who finds none."""
        held, missing = {}, []
        for node in reversed(self.order(measure)):
            used = {held[it] for it in self.near[node] if it in held}
            free = [it for it in REGISTERS if node.mask >> it & 1 and it not in used]
            if free:  # where the operands of its moves are
                held[node] = max(free, key=lambda it: node.wishes[it])
            else:
                missing.append(node)
        return held, missing


def colour(measure):
    def allocator(webs, at_home):
        while True:
            graph = Graph(webs, at_home)
            held, missing = graph.colours(measure)
            if not missing:
                stops = {stop: held[it] for it in held for stop in it.stops}
                return {**graph.asked, **stops}
            for node in missing:
                if node.is_visit:  # who is in its way goes home
                    others = [it for it in graph.near[node] if not it.is_visit]
                    node = min(others, key=lambda it: (webs.spill_cost[it.web], it.web))
                at_home.add(node.web)

    return allocator


def routes_of(problem):
    return Webs(problem).best([colour(it) for it in MEASURES])


if __name__ == "__main__":
    answer(routes_of)
