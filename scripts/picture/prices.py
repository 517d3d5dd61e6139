"""The prices of a certificate as a page has them: what its script needs to find the least priced
path of a strand, and what the prices of each block are.

A price is in units of 1/1024 of a weight. What a path pays at a place, besides its moves, is its
toll: the extra that is met there and the price of the pair and of the ties, but not the price of
the register, which all strands share.
"""

from types import SimpleNamespace

from checker.prices import Priced, Rooms, value
from pranet.certificate import PLACES
from pranet.operands import TURNS

UNITS = 1024  # of a weight
FIRST_LETTER = 48  # a mask is written as a character, from this one on


class Masks:
    """The masks of a page, each written as one character."""

    def __init__(self):
        self.numbers = {}

    def text(self, masks):
        return "".join(
            chr(FIRST_LETTER + self.numbers.setdefault(it, len(self.numbers))) for it in masks
        )

    def table(self):
        return list(self.numbers)


class Prices:
    """The prices of one procedure."""

    def __init__(self, network, cost):
        code = network.code
        claim = SimpleNamespace(**{key: them.items() for key, them in vars(code.prices).items()})
        self.network, self.code = network, code
        self.rooms = Rooms(network)
        self.priced = Priced(self.rooms, claim, cost)
        self.value = value(self.rooms, claim, cost)  # what the prices show, which is no less
        self.turns = TURNS[cost]

    def caps(self):
        """Of each block layer, register and price of each register that has one."""
        found = [[] for _ in self.code.blocks]
        starts = self.rooms.layers
        block = 0
        for index, price in sorted(self.code.prices.caps.items()):
            layer, register = divmod(index, 6)
            while layer >= starts[block + 1]:
                block += 1
            found[block].append([layer - starts[block], register, price])
        return found

    def mems(self):
        """Of each block the instruction of each memory pair that has a price, and the price."""
        found = [[] for _ in self.code.blocks]
        for index, price in self.code.prices.mems.items():
            left, layer, _, _ = self.rooms.pairs[index]
            found[self.network.strands[left].block].append([(layer - 1) // 2, price])
        return found

    def tolls(self):
        """Of each strand layer, place and toll, where there is one."""
        found = [[] for _ in self.network.strands]
        for (strand, layer, place), price in sorted(self.priced.tolls.items()):
            if price:
                found[strand].append([layer, place, price])
        return found

    def ways(self):
        """What it costs to go from each place to each, outside of loops, in weights."""
        shallow = [
            self.priced.way(0, origin, to) if self.network.strands else 0
            for origin in range(PLACES)
            for to in range(PLACES)
        ]
        strands = self.network.strands
        depth = self.code.blocks[strands[0].block].depth if strands else 0
        return [it // UNITS // self.turns**depth for it in shallow]
