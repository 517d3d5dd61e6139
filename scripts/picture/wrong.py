"""What is wrong with the routes of a certificate, place by place.

A page marks it where it stands. The reasons in words are those of the checker in Python, of which
nothing is proved; that the certificate is refused the compiler's `check` has said.
"""

from checker import form, json_text, verdict
from pranet.certificate import CONST, MEM, Prices, place_name, register_of


class NoPicture(Exception):
    """Why nothing of a refused certificate can be drawn."""


def reasons(data):
    """What speaks against a certificate: the reasons and their words, by procedure."""
    try:
        _, value = json_text.read(data)
    except json_text.NoJson as error:
        raise NoPicture("it is no JSON") from error
    if form.complaints(value):
        raise NoPicture("it has not the form of a certificate")
    found = {}
    for it in verdict.verdict(*form.claims(value)):
        found.setdefault(it.procedure, []).append((it.reason, it.words))
    return found


def can_be_drawn(network, routes):
    """Whether there is one place for each strand and layer."""
    shapes = [len(it.masks) for it in network.strands]
    return shapes == [len(it) for it in routes]


def without_prices(procedure):
    """A procedure whose prices are none of its network's, without them."""
    procedure.prices = Prices()


class Marks:
    """The cells of a procedure's routes that break a rule: block, variable, layer and why."""

    def __init__(self, network, routes, name):
        self.network, self.routes, self.name = network, routes, name
        self.found = []

    def mark(self, strand, layer, words):
        it = self.network.strands[strand]
        self.found.append([it.block, it.var, layer, words])

    def masks(self):
        for number, (strand, places) in enumerate(zip(self.network.strands, self.routes)):
            for step, (mask, place) in enumerate(zip(strand.masks, places)):
                if not mask >> place & 1:
                    self.mark(number, strand.first + step, f"it may not be at {named(place)} here")

    def crossings(self):
        for number, (strand, places) in enumerate(zip(self.network.strands, self.routes)):
            for step in range(1, len(places)):
                layer = strand.first + step
                if layer % 2 == 0 and places[step - 1] != places[step]:
                    self.mark(number, layer, "it moves across an instruction")

    def sharings(self):
        taken = {}
        for number, (strand, places) in enumerate(zip(self.network.strands, self.routes)):
            for step, place in enumerate(places):
                register, layer = register_of(place), strand.first + step
                if register is None:
                    continue
                other = taken.setdefault((strand.block, layer, register), number)
                if other != number:
                    for one, two in ((number, other), (other, number)):
                        variable = self.name(self.network.strands[two].var)
                        self.mark(one, layer, f"{variable} is in the same register")

    def pairs(self):
        strands = self.network.strands
        for left, one, right, two in self.network.pairs():
            ends = ((left, one), (right, two))
            if all(self.routes[it][layer - strands[it].first] == MEM for it, layer in ends):
                for it, layer in ends:
                    self.mark(it, layer, "two operands of one instruction are in memory")

    def ties(self):
        strands = self.network.strands
        for one, to in self.network.ties():
            left, came = self.routes[one][-1], self.routes[to][0]
            if left != came:
                begins, ends = strands[to].block, strands[one].block
                self.mark(one, strands[one].last, f"block {begins} begins with {named(came)}")
                self.mark(to, 0, f"block {ends} ends with {named(left)}")

    def all(self):
        for rule in (self.masks, self.crossings, self.sharings, self.pairs, self.ties):
            rule()
        return self.found


def named(place):
    return "a constant" if place == CONST else place_name(place)
