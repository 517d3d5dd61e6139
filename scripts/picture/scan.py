"""Linear scan: Poletto and Sarkar, Linear Scan Register Allocation (TOPLAS 1999).

Intervals are taken by where they begin, and each gets a register that no earlier one still has.
Where there is none, one of those goes home that could make room, the current one among them. With
lifetime holes (as Mössenböck and Pfeiffer, Linear Scan Register Allocation in the Context of SSA
Form and Register Constraints, CC 2002) an interval has its register at those layers alone at which
its web is there. A web that goes home needs registers for its stays, so the scan is made again
until no web goes. Operands that ask for one register have no interval: a web in another one is
moved there and back, and nobody else may be in that register at that layer.
"""

from dataclasses import dataclass, field

from picture.webs import FIXED, HOME, VISIT
from pranet.network import bits
from pranet.operands import REGS

KEPT = 1 << 100  # what a stay in a register is worth: more than all else
FINE = 10**6  # by which costs are multiplied, to be divided by lengths


@dataclass(slots=True, eq=False)
class Interval:
    web: int
    first: int  # layers, over all blocks
    last: int
    mask: int = REGS
    is_visit: bool = False
    wishes: list = field(default_factory=lambda: [0] * 6)  # how much it wants each register
    stops: list = field(default_factory=list)


# What it is worth that an interval keeps its register, by its spill cost and where it lies.
RULES = (
    lambda cost, it: (1 << 64) - 1 - it.last,
    lambda cost, it: FINE * cost,
    lambda cost, it: FINE * cost // (it.last - it.first + 1),
)


def register_number(mask):
    return mask.bit_length() - 1


class Intervals:
    """The intervals where some webs are at home, in the order of a scan."""

    def __init__(self, webs, at_home):
        self.parts = webs.parts(at_home)
        self.asked = [0] * webs.layers  # the registers that operands ask for, and no other
        for stop, part in zip(webs.stops, self.parts, strict=True):
            if part == FIXED:
                for layer in stop.layers:
                    self.asked[layer] |= stop.registers
        whole, visits = [None] * len(webs.webs), []
        for stop, part in zip(webs.stops, self.parts, strict=True):
            if part == VISIT:
                self.add_visit(visits, stop)
            elif part != HOME and not at_home[stop.web]:
                if whole[stop.web] is None:
                    whole[stop.web] = Interval(stop.web, stop.layers[0], 0)
                self.widen(whole[stop.web], stop, part)
        self.order = [it for it in whole if it] + visits
        self.order.sort(key=lambda it: (it.first, it.last))

    def open(self, stop):
        """The registers that a stop may be in and that no operand asks for."""
        mask = stop.registers
        for layer in stop.layers:
            mask &= ~self.asked[layer]
        return mask

    def add_visit(self, visits, stop):
        """A stay in a register, which may go on from the one before."""
        mask = self.open(stop)
        last = visits[-1] if visits else None
        follows = last and last.stops[-1].number == stop.number - 1 and not stop.is_first
        if follows and last.mask & mask:
            last.last, last.mask = stop.layers[-1], last.mask & mask
        else:
            last = Interval(stop.web, stop.layers[0], stop.layers[-1], mask, True)
            visits.append(last)
        last.stops.append(stop)

    def widen(self, interval, stop, part):
        interval.first = min(interval.first, stop.layers[0])
        interval.last = max(interval.last, stop.layers[-1])
        interval.stops.append(stop)
        if part == FIXED:
            interval.wishes[register_number(stop.registers)] += stop.rates.change
        else:
            interval.mask &= self.open(stop)

    def meets(self, with_holes):
        """Of each interval which ones it meets, as bits; without holes earlier ones alone."""
        found = [0] * len(self.order)
        if with_holes:
            there = {}
            for number, interval in enumerate(self.order):
                for layer in (it for stop in interval.stops for it in stop.layers):
                    there[layer] = there.get(layer, 0) | 1 << number
            for number, interval in enumerate(self.order):
                for layer in (it for stop in interval.stops for it in stop.layers):
                    found[number] |= there[layer]
            return found
        active = []
        for number, interval in enumerate(self.order):
            active = [it for it in active if self.order[it].last >= interval.first]
            found[number] = sum(1 << it for it in active)
            active.append(number)
        return found


def scan(webs, at_home, rule, with_holes):
    """Where each stop is: a register, or None at home. None where a stay finds no register. Webs
    that find none are sent home."""
    intervals = Intervals(webs, at_home)
    order, meets = intervals.order, intervals.meets(with_holes)
    worth = [KEPT if it.is_visit else rule(webs.webs[it.web].spilled, it) for it in order]
    holders = [0] * 6  # the intervals that have each register, as bits
    for number, interval in enumerate(order):
        sums = [sum(max(1, worth[it]) for it in bits(held & meets[number])) for held in holders]
        best = min(
            (it for it in range(6) if interval.mask >> it & 1),
            key=lambda it: (sums[it], -interval.wishes[it]),
            default=None,
        )
        if best is None or 0 < sums[best] >= worth[number]:
            at_home[interval.web] = True
            if interval.is_visit:
                return None
            continue
        for it in bits(holders[best] & meets[number]):
            at_home[order[it].web] = True
            holders[best] &= ~(1 << it)
        holders[best] |= 1 << number
    wanted = [
        register_number(stop.registers) if part == FIXED else None
        for stop, part in zip(webs.stops, intervals.parts, strict=True)
    ]
    for register, held in enumerate(holders):
        for stop in (stop for it in bits(held) for stop in order[it].stops):
            if stop.registers >> register & 1:
                wanted[stop.number] = register
    return wanted


def linear_scan(webs, rule, with_holes):
    """Where each stop is, or None where stays of webs at home find no register."""
    at_home, wanted, before = webs.begin(), None, None
    while before != at_home:
        before = list(at_home)
        wanted = scan(webs, at_home, rule, with_holes)
        if wanted is None:
            return None
    return wanted
