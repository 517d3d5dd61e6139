"""One instruction of a row, the one with the `*`, with each choice of places for what is beside it.

All else is at home, so that what comes to the operands and goes from them is moved too. Behind `=`
stand how many choices the network admits, and what each of them comes to. All that are admitted
stand in one image, each a copy of the row's procedures, which another procedure calls in turn.
"""

import copy
import itertools
import re

from pranet.certificate import PLACES, Block, Procedure
from pranet.network import Network
from tables import tool

REFUSED = 12  # choices that are not admitted, of each row, of which the tool is asked


def layers_beside(strand, site):
    """The layers of a strand beside the instruction."""
    before = 2 * site[2] + 1
    if strand.block != site[1]:
        return []
    return [it for it in (before, before + 1) if strand.first <= it <= strand.last]


def choices(network, home, site):
    """All routes that differ from home routes beside the instruction, in the order of places."""
    beside = [layers_beside(it, site) for it in network.strands]
    places = [
        [place for place in range(PLACES) if strand.mask_over(layers) >> place & 1]
        if layers
        else [None]
        for strand, layers in zip(network.strands, beside, strict=True)
    ]
    for chosen in itertools.product(*places):
        routes = [list(it) for it in home]
        for own, strand, layers, place in zip(routes, network.strands, beside, chosen, strict=True):
            for layer in layers:
                own[layer - strand.first] = place
        yield routes


def copied(procedures, by):
    """Procedures whose numbers are so much higher."""
    copies = copy.deepcopy(procedures)
    for it in copies:
        it.number += by
        for block in it.blocks:
            for ins in block.code:
                if ins[0] == "call":
                    ins[1] += by
    return copies


def in_turn(procedures, routes):
    """Procedures and routes of copies, and of a procedure in front that calls each of them."""
    calls = [["call", 1 + at * len(procedures)] for at in range(len(routes))]
    all_of = [Procedure(0, 0, 0, [], [Block(0, calls, ["return"])], [], 0, 0)]
    for at in range(len(routes)):
        all_of += copied(procedures, 1 + at * len(procedures))
    return all_of, [[], *itertools.chain.from_iterable(routes)]


def differences(row, expected):
    """What is not as the row says."""
    procedures, data = row.sketch.procedures, row.number("data", 0)
    homes = tool.home_routes(tool.code_text(procedures, data))
    swept = row.site[0]
    network = Network(procedures[swept])
    admitted, refused = [], []
    for own in choices(network, homes[swept], row.site):
        routes = [*homes[:swept], own, *homes[swept + 1 :]]
        (admitted if network.admits(own) else refused).append(routes)
    count, rest = re.fullmatch(r"(\d+)(.*)", expected).groups()
    if len(admitted) != int(count):
        yield f"{len(admitted)} are admitted"
    yield from run_otherwise(procedures, data, row.input, admitted, rest)
    text = tool.code_text(procedures, data)
    for routes in refused[:: max(1, len(refused) // REFUSED)]:
        try:
            tool.applied(text, tool.certificate_text(procedures, routes))
            yield f"{routes[swept]} is admitted"
        except tool.Refused as found:
            if not str(found).endswith(f"certificate procedure {swept} routes"):
                yield str(found)


def run_otherwise(procedures, data, given, admitted, expected):
    """Complains of what admitted routes come to: all in one image where the run ends and leaves
    nothing behind, or else one by one."""
    out, _, ending = expected.rpartition(" ended ")
    if ending == "0" and not data:
        many, routes = in_turn(procedures, admitted)
        image, _ = tool.applied(tool.code_text(many, data), tool.certificate_text(many, routes))
        found, _ = tool.executed(image, given)
        if found != out * len(admitted) + " ended 0":
            yield f"all in turn: {found[:400]}"
        return
    text = tool.code_text(procedures, data)
    for routes in admitted:
        image, _ = tool.applied(text, tool.certificate_text(procedures, routes))
        found, _ = tool.executed(image, given)
        if found != expected:
            yield f"{routes}: {found}"
