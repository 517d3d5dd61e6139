"""The network of each procedure as a JSON value, for allocators in any language.

docs/NETWORK.md says what the fields mean, with an example to be followed by hand.
"""

from pranet.certificate import PLACES, code_value, place_name
from pranet.network import BEGUN, Network
from pranet.operands import weight

KIND, VERSION = "pra-network", 1


def blocks_of(network, cost):
    """The blocks: depth, how often each counts, the number of the first layer, how many there are,
    and where it leads to."""
    for number, block in zip(network.numbers, network.code.blocks):
        yield {
            "depth": block.depth,
            "turns": weight(cost, 0, block.depth) // weight(cost, 0, 0),
            "layer": number,
            "layers": block.exit + 1,
            "leads": block.successors(),
        }


def problem_of(network, cost):
    """The value of one procedure. All costs are those of a block outside of loops."""
    crossings = [
        [
            sum(weight(cost, event, 0) for event in network.crossing(origin, to))
            for to in range(PLACES)
        ]
        for origin in range(PLACES)
    ]
    return {
        "code": code_value(network.code),
        "blocks": list(blocks_of(network, cost)),
        "strands": [
            {"variable": it.var, "block": it.block, "first": it.first, "masks": it.masks}
            for it in network.strands
        ],
        "moves": crossings,
        "begin": weight(cost, BEGUN, 0),
        "extras": [
            [strand, layer, place, weight(cost, event, 0)]
            for strand, layer, place, event in network.extras
        ],
        "pairs": [list(it) for it in network.pairs()],
        "ties": [list(it) for it in network.ties()],
    }


def problem_of_all(known):
    """The value of a certificate's procedures."""
    return {
        "kind": KIND,
        "version": VERSION,
        "cost": known.cost,
        "places": [place_name(place) for place in range(PLACES)],
        "procs": [problem_of(Network(it), known.cost) for it in known.procedures],
    }
