"""The reasons `routes` and `total`: what is not admitted of routes, and what they cost."""

from checker.parts import CONST, EVENTS, MEM, REGISTERS, has_memory, register_of
from checker.words import Names, place_words, places_words

# The rules that routes keep, by the numbers that docs/NETWORK.md gives them.
MASK = "rule 1, masks"
ACROSS = "rule 2, across an instruction"
REGISTER = "rule 3, one strand a register"
PAIR = "rule 4, pairs"
TIE = "rule 4, ties"
MOST_STRANDS = 400  # of which a line tells the costs


def counted(strands, routes):
    return f"{len(routes)} lists are there for {strands} strands"


def shapes(network, names):
    """Where routes have not one place for each strand and layer."""
    strands, routes = network.strands, network.code.routes
    for number, (strand, places) in enumerate(zip(strands, routes)):
        if len(strand.masks) != len(places):
            wanted = f"{names.strand(number, strand)}, has {len(strand.masks)}"
            yield f"list {number} of routes has {len(places)} places, and {wanted}"
            return
    counts = counted(len(strands), routes)
    if len(strands) > len(routes):
        first = names.strand(len(routes), strands[len(routes)])
        yield f"{counts}; the first without is {first}"
    elif len(strands) < len(routes):
        yield counts


def masks(network, names):
    """Places that are not in their mask."""
    for number, (strand, places) in enumerate(zip(network.strands, network.code.routes)):
        for step, (mask, place) in enumerate(zip(strand.masks, places)):
            if not mask >> place & 1:
                where = names.layer(strand.block, strand.first + step)
                allowed = f"may be at {places_words(mask)}{why(network, strand, place)}"
                at = f"{names.strand(number, strand)}, is at {place_words(place)}"
                yield f"{at} at {where}, and {allowed} ({MASK})"


def why(network, strand, place):
    """Of a place that no strand of this kind has."""
    is_constant = network.code.variables[strand.var].kind == "constant"
    if is_constant and has_memory(place):
        return "; a constant has no memory"
    return "; it is no constant" if not is_constant and place == CONST else ""


def crossings(network, names):
    """Strands that move across an instruction."""
    for number, (strand, places) in enumerate(zip(network.strands, network.code.routes)):
        for step in range(1, len(places)):
            layer = strand.first + step
            if layer % 2 == 0 and places[step - 1] != places[step]:
                way = f"{place_words(places[step - 1])} to {place_words(places[step])}"
                across = names.instruction(strand.block, layer // 2 - 1)
                yield f"{names.strand(number, strand)}, goes from {way} across {across} ({ACROSS})"


def sharings(network, names):
    """Registers that two strands have at one layer: for each two strands the first such layer, and
    at how many they do."""
    taken, shared = {}, {}
    for number, (strand, places) in enumerate(zip(network.strands, network.code.routes)):
        for step, place in enumerate(places):
            register = register_of(place)
            if register is not None:
                layer = strand.first + step
                other = taken.setdefault((strand.block, layer, register), number)
                if other != number:
                    shared.setdefault((other, number, register), []).append(layer)
    for (other, number, register), layers in shared.items():
        first, second = (names.strand(it, network.strands[it]) for it in (other, number))
        where = names.layer(network.strands[number].block, layers[0])
        more = f", and at {len(layers) - 1} more layers" if len(layers) > 1 else ""
        both = f"{first}, and {second}, are both in {REGISTERS[register]}"
        yield f"{both} at {where}{more} ({REGISTER})"


def pairs(network, names):
    """Instructions with both operands in memory."""
    strands, routes = network.strands, network.code.routes
    for left, one, right, two in network.pairs():
        ends = (left, one), (right, two)
        if all(routes[it][layer - strands[it].first] == MEM for it, layer in ends):
            first, second = (names.strand(it, strands[it]) for it, _ in ends)
            where = names.instruction(strands[left].block, (one - 1) // 2)
            both = f"{first}, and {second}, are both in memory in {where}"
            yield f"{both}, which has one operand there at most ({PAIR})"


def ties(network, names):
    """Strands that come into a block elsewhere than they left the one before."""
    strands, routes = network.strands, network.code.routes
    for one, to in network.ties():
        left, came = routes[one][-1], routes[to][0]
        if left != came:
            leaving = f"{names.strand(one, strands[one])}, leaves its block at {place_words(left)}"
            entering = f"{names.strand(to, strands[to])}, enters its block at {place_words(came)}"
            yield f"{leaving}, and {entering} ({TIE})"


def reasons(network):
    """What is not admitted of a procedure's routes."""
    names = Names(network.code)
    found = list(shapes(network, names))
    if not found:
        for rule in (masks, crossings, sharings, pairs, ties):
            found += rule(network, names)
    return found


def total_reasons(network, cost):
    """Of admitted routes whether they cost the total, and what they pay for."""
    paid, claimed = network.paid(network.code.routes, cost), network.code.total
    found = sum(total for _, total in paid.values())
    if found == claimed:
        return []
    parts = [f"{count} x {EVENTS[event]} = {total}" for event, (count, total) in paid.items()]
    told = f": {'; '.join(parts)}" if parts else ""
    costs = network.paid_by_strand(network.code.routes, cost)
    return [
        f"its routes cost {found} by {cost}, and its total says {claimed}{told}",
        f"costs by strand: {by_strand(costs)}",
    ]


def by_strand(costs):
    """The costs of strands, which are given by their numbers, in words."""
    told = [f"{number} costs {it}" for number, it in enumerate(costs) if it]
    more = f", and {len(told) - MOST_STRANDS} more" if len(told) > MOST_STRANDS else ""
    if not told:
        return "none costs anything"
    rest = "; all others nothing" if len(told) < len(costs) else ""
    return ", ".join(told[:MOST_STRANDS]) + more + rest
