"""What allocators of the literature come to on a network, paid by the same weights.

    python3 -m picture.others CERTIFICATE

prints of each procedure of a certificate, and of all, what linear scan, linear scan with lifetime
holes and graph colouring cost beside it. Each is tried by three measures of whom to spill, and the
cheapest of the routes that the network admits counts. Nothing of this is proved.
"""

import sys

from picture.colouring import MEASURES, colour
from picture.scan import RULES, linear_scan
from picture.webs import Webs
from pranet import certificate
from pranet.network import Network

MOST = 40_000  # layers of strands on a page that they are computed for: seconds by each cost
ALLOCATORS = {
    "linear scan": [lambda webs, it=it: linear_scan(webs, it, False) for it in RULES],
    "with holes": [lambda webs, it=it: linear_scan(webs, it, True) for it in RULES],
    "colouring": [lambda webs, it=it: colour(webs, it) for it in MEASURES],
}


def priced(webs, wanted):
    """What routes cost on which each stop is where it is wanted, and the routes; or None."""
    routes = webs.routes(wanted)
    if routes is None:
        return None
    return sum(total for _, total in webs.network.paid(routes, webs.cost).values()), routes


def best_routes(network, cost):
    """What the cheapest routes cost that each allocator finds, and the routes, by its name; or
    None."""
    webs, known = Webs(network, cost), {}
    for name, variants in ALLOCATORS.items():
        found = []
        for wanted in (variant(webs) for variant in variants):
            if wanted is not None:
                key = tuple(wanted)
                if key not in known:
                    known[key] = priced(webs, wanted)
                found.append(known[key])
        yield name, min((it for it in found if it), key=lambda it: it[0], default=None)


def others(network, cost):
    """What each allocator comes to, by its name; None where it found no routes."""
    return {name: best and best[0] for name, best in best_routes(network, cost)}


def others_of_all(networks, costs):
    """What they come to on each network by each cost, or nothing where that would make it more than
    MOST layers in all."""
    found, layers = [], 0
    for network in networks:
        more = sum(len(it.masks) for it in network.strands)
        is_done = layers + more <= MOST
        layers += more if is_done else 0
        found.append({cost: others(network, cost) for cost in costs} if is_done else {})
    return found


def main(name):
    with open(name, encoding="utf-8") as text:
        known = certificate.read(text.read())
    sums = dict.fromkeys(ALLOCATORS, 0)
    for procedure in known.procedures:
        found = others(Network(procedure), known.cost)
        told = ", ".join(f"{it} {cost}" for it, cost in found.items())
        print(f"procedure {procedure.number} cost {procedure.total}: {told}")
        sums = {it: sums[it] + (cost or 0) for it, cost in found.items()}
    print("all: " + ", ".join(f"{it} {cost}" for it, cost in sums.items()))


if __name__ == "__main__":
    main(sys.argv[1])
