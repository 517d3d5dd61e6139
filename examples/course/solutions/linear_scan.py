#!/usr/bin/env python3
"""Exercises 3 and 4: linear scan, and with `--holes` the same with lifetime holes."""

import sys

from paths import REGISTERS, answer
from webs import Webs

# What it is worth that a node keeps its register, by what its web costs more at home.
MEASURES = (
    lambda saved, node: 1e9 - node.last,  # who ends last goes home
    lambda saved, node: saved,
    lambda saved, node: saved / (node.last - node.first + 1),
)
NEVER = 1e18  # a visit can't go home


def meet(one, other, with_holes):
    """Whether two nodes, of which the first one began earlier, can't share a register."""
    return one.layers & other.layers != 0 if with_holes else one.last >= other.first


def scan(webs, at_home, measure, with_holes):
    """One pass in the order of beginnings; webs that lose their register are sent home."""
    nodes, asked = webs.nodes(at_home)
    worth = {
        node: NEVER if node.is_visit else measure(webs.spill_cost[node.web], node) for node in nodes
    }
    held = {}  # the register of each node that has one
    for node in sorted(nodes, key=lambda it: (it.first, it.last)):
        choices = []
        for register in REGISTERS:
            if node.mask >> register & 1:
                others = [it for it in held if held[it] == register and meet(it, node, with_holes)]
                lost = sum(worth[it] for it in others)
                choices.append((lost, -node.wishes[register], register, others))
        lost, _, register, others = min(choices, default=(NEVER, 0, 0, []))
        if others and lost >= worth[node] or not choices:
            at_home.add(node.web)
            continue
        for it in others:
            at_home.add(it.web)
            del held[it]
        held[node] = register
    return {**asked, **{stop: held[it] for it in held for stop in it.stops}}


def linear_scan(measure, with_holes):
    def allocator(webs, at_home):
        before = None
        while before != at_home:  # who went home needs registers for its visits
            before = set(at_home)
            wanted = scan(webs, at_home, measure, with_holes)
        return wanted

    return allocator


def routes_of(with_holes):
    return lambda problem: Webs(problem).best([linear_scan(it, with_holes) for it in MEASURES])


if __name__ == "__main__":
    answer(routes_of("--holes" in sys.argv[1:]))
