"""Routes with which all variables are at home: in memory, or a constant nowhere but in the code.

Where an instruction does not allow that a strand visits a register for it, alone or, where it is
read only, with memory as well. Of a pair the second strand visits one. There is always room, since
an instruction has at most three variables and six registers.
"""

from pranet.certificate import CONST, FIRST_BOTH, MEM
from pranet.network import bits
from pranet.operands import BOTHS, REGS


class Visits:
    """The stops of strands that wait for a register, by block and instruction."""

    def __init__(self, network):
        self.strands = network.strands
        self.constants = network.constants
        second = {(strand, layer) for _, _, strand, layer in network.pairs()}
        self.waits, self.routes = {}, []
        for number, strand in enumerate(self.strands):
            home = CONST if self.constants >> strand.var & 1 else MEM
            route = []
            for layers in strand.stops():
                is_second = any((number, layer) in second for layer in layers)
                if strand.mask_over(layers) >> home & 1 and not is_second:
                    route += [home] * len(layers)
                else:
                    at = strand.block, (layers[0] + 1) // 2
                    self.waits.setdefault(at, []).append((number, layers))
                    route += [None] * len(layers)
            self.routes.append(route)

    def place(self):
        """Gives each a register."""
        for visits in self.waits.values():
            visits.sort(key=lambda it: (self.mask(*it) & REGS).bit_count())
            found = self.registers(visits, {})
            for (number, layers), register in zip(visits, found, strict=True):
                both = register + FIRST_BOTH
                place = both if self.mask(number, layers) >> both & 1 else register
                first = self.strands[number].first
                for layer in layers:
                    self.routes[number][layer - first] = place
        return self.routes

    def mask(self, number, layers):
        return self.strands[number].mask_over(layers)

    def registers(self, visits, taken):
        """A register for each visit; taken has who is in one at a layer."""
        if not visits:
            return []
        (number, layers), *others = visits
        mask = self.mask(number, layers)
        for register in bits((mask | (mask & BOTHS) >> FIRST_BOTH) & REGS):
            cells = {(layer, register) for layer in layers}
            if not cells & taken.keys():
                rest = self.registers(others, taken | dict.fromkeys(cells, number))
                if rest is not None:
                    return [register, *rest]
        return None


def home_routes(network):
    """For each strand its places where all are at home."""
    return Visits(network).place()
