"""The network of a procedure as an integer program, and as a text in the LP format.

A strand is a unit of flow through its stops, the groups of layers across which it has one place:

- `at_S_L_P` is 1 where strand S is at place P from its layer L on, to the end of that stop.
- `go_S_L_P_Q` is 1 where it goes from P to Q in the gap behind its layer L. P or Q may be a hub,
  for what has the same cost from many places to many: `r` from any register, `b` from any register
  and memory, to any register, or register and memory.

Rows say that flow is kept (`start`, `out`, `in`, `hub`), that a register has one strand at a layer
(`cap_N_R`, N a layer's number over all blocks), that of a memory pair one is in memory (`mem_M`),
and that the ends of a tie are at one place (`tie_T_P`). Where the first kind are whole the rest is
too, so only they are binary. As each strand alone is a path, the relaxation has the greatest of all
Lagrange values as its value, and the duals of the last three kinds of rows are the prices of that.
"""

from dataclasses import dataclass, field

from pranet.certificate import CONST, FIRST_BOTH, MEM, PLACES, Prices, register_of
from pranet.dual import REGISTERS, UNIT, cap_index, in_range, tie_index
from pranet.network import BEGUN, bits
from pranet.operands import K, M, weight

WIDTH = 96  # columns of a text
NO_ROW = "nothing", [(1, "none")], "=", 0  # of a program without rows, which no text may lack
HUBS = {"r": range(MEM), "b": range(FIRST_BOTH, PLACES)}  # and the places that lead to each


@dataclass
class Program:
    """Minimize the sum of costs; a row is its name, its terms, and what they are to come to."""

    costs: dict = field(default_factory=dict)  # by variable, without zeros
    rows: list = field(default_factory=list)
    binaries: list = field(default_factory=list)

    def add(self, name, terms, relation, value):
        self.rows.append((name, terms, relation, value))

    def variables(self):
        """The names of all variables, some of them twice."""
        return (name for _, terms, _, _ in self.rows for _, name in terms)

    def text(self):
        """The lines of the program in the LP format."""
        rows = self.rows or [NO_ROW]
        costs = [(cost, name) for name, cost in self.costs.items()] or [(0, rows[0][1][0][1])]
        yield "Minimize"
        yield from wrapped("cost", terms_of(costs), "")
        yield "Subject To"
        for name, terms, relation, value in rows:
            yield from wrapped(name, terms_of(terms), f" {relation} {value}")
        if self.binaries:
            yield "Binaries"
            yield from broken(self.binaries)
        yield "End"


def terms_of(terms):
    """Terms as words: of each coefficient and variable."""
    for number, (by, name) in enumerate(terms):
        sign = "-" if by < 0 else "+" if number else ""
        size = "" if abs(by) == 1 else f"{abs(by)} "
        yield f"{sign} {size}{name}" if sign else f"{size}{name}"


def broken(words):
    """Words as indented lines."""
    line = ""
    for word in words:
        if line and len(line) + len(word) >= WIDTH:
            yield line
            line = ""
        line += f" {word}"
    yield line


def wrapped(name, words, ending):
    """A row of the text, on as many lines as it needs."""
    *lines, last = broken([f"{name}:", *words])
    yield from lines
    yield last + ending


def classes_of(network):
    """The registers in lists of those that no mask tells from each other. In the relaxation one of
    each list stands for all, as what is at one of them may as well be at all of them in parts."""
    columns = [[] for _ in range(REGISTERS)]
    for strand in network.strands:
        for layers in strand.stops():
            mask = strand.mask_over(layers)
            for register, column in enumerate(columns):
                column.append(mask >> register & (1 | 1 << FIRST_BOTH))
    found = {}
    for register, column in enumerate(columns):
        found.setdefault(tuple(column), []).append(register)
    return list(found.values())


EACH = [[register] for register in range(REGISTERS)]


class Builder:
    """Adds the variables and rows of one network to a program; names begin with the prefix. The
    first register of each class stands for all of it. Where places are given, by strand and first
    layer of a stop, there are no others."""

    def __init__(self, network, cost, program, prefix="", classes=EACH, places=None):
        self.network, self.cost = network, cost
        self.program, self.prefix = program, prefix
        self.room = {its[0]: len(its) for its in classes}  # how many strands have room there
        kept = list(bits(M | K | sum(1 << it | 1 << FIRST_BOTH + it for it in self.room)))
        self.stops = {}  # of a strand and a layer the first layer of its stop, and its places there
        for number, strand in enumerate(network.strands):
            for layers in strand.stops():
                some = kept if places is None else places[number, layers[0]]
                stop = layers[0], [it for it in bits(strand.mask_over(layers)) if it in some]
                self.stops.update(((number, layer), stop) for layer in layers)

    def build(self):
        for number, strand in enumerate(self.network.strands):
            self.add_strand(number, strand)
        for number, layer, place, event in self.network.extras:
            if place in self.places(number, layer):
                self.pay(self.at(number, layer, place), self.weight(event, number))
        self.add_caps()
        self.add_pairs()
        self.add_ties()

    def at(self, number, layer, place):
        return f"{self.prefix}at_{number}_{self.stops[number, layer][0]}_{place}"

    def places(self, number, layer):
        return self.stops[number, layer][1]

    def weight(self, event, number):
        block = self.network.code.blocks[self.network.strands[number].block]
        return weight(self.cost, event, block.depth)

    def pay(self, name, cost):
        if cost:
            self.program.costs[name] = self.program.costs.get(name, 0) + cost

    # ---- the flow of a strand

    def add_strand(self, number, strand):
        ends = []  # the last layer of each stop
        for layers in strand.stops():
            names = [self.at(number, layers[0], it) for it in self.places(number, layers[0])]
            self.program.binaries += names
            ends.append(layers[-1])
        first = self.places(number, strand.first)
        names = [self.at(number, strand.first, it) for it in first]
        self.program.add(f"{self.prefix}start_{number}", [(1, it) for it in names], "=", 1)
        if self.network.constants >> strand.var & 1:
            for place, name in zip(first, names, strict=True):
                if place != CONST:
                    self.pay(name, self.weight(BEGUN, number))
        for layer in ends[:-1]:
            self.add_gap(number, layer)

    def add_gap(self, number, layer):
        """What a strand does in the gap behind a layer."""
        places, following = self.places(number, layer), self.places(number, layer + 1)
        out, into = {}, {}
        for origin, to, events in self.ways(places, following):
            name = f"{self.prefix}go_{number}_{layer}_{origin}_{to}"
            self.pay(name, sum(self.weight(it, number) for it in events))
            out.setdefault(origin, []).append(name)
            into.setdefault(to, []).append(name)
        end = f"{number}_{layer}"
        for place in places:
            self.keep(f"out_{end}_{place}", [self.at(number, layer, place)], out.get(place, []))
        for place in following:
            name = self.at(number, layer + 1, place)
            self.keep(f"in_{end}_{place}", into.get(place, []), [name])
        for hub in HUBS:
            if hub in out:
                self.keep(f"hub_{end}_{hub}", into[hub], out[hub])

    def keep(self, name, come, go):
        """As much comes as goes."""
        terms = [(1, it) for it in come] + [(-1, it) for it in go]
        self.program.add(self.prefix + name, terms, "=", 0)

    def ways(self, places, following):
        """The ways from places to the following ones: origin, end and events. To another register
        it goes by a hub, and is paid on the way out."""
        for origin in places:
            register = register_of(origin)
            for to in following:
                if register is None or register_of(to) in (None, register):
                    yield origin, to, self.network.crossing(origin, to)
        for hub, its in HUBS.items():
            origins = [it for it in places if it in its]
            ends = [it for it in following if register_of(it) is not None]
            if origins and ends:
                yield from ((origin, hub, []) for origin in origins)
                for to in ends:
                    other = next(it for it in its if register_of(it) != register_of(to))
                    yield hub, to, self.network.crossing(other, to)

    # ---- what strands share

    def add_caps(self):
        """A register has one strand at a layer, which is a row where there may be more. Where all
        that may be there at one of the two layers beside an instruction may be at the other too,
        the other's row says it."""
        present = {}  # who may be in a register, by block, layer and register
        for number, strand in enumerate(self.network.strands):
            for layer in range(strand.first, strand.last + 1):
                for place in self.places(number, layer):
                    if (register := register_of(place)) is not None:
                        terms = present.setdefault((strand.block, layer, register), [])
                        terms.append((1, self.at(number, layer, place)))
        for (block, layer, register), terms in present.items():
            here = set(terms)
            beside = present.get((block, layer + 1 if layer % 2 == 1 else layer - 1, register), ())
            is_said = here < set(beside) or layer % 2 == 0 and here == set(beside)
            strands = {name.rsplit("_", 1)[0] for _, name in terms}
            if len(strands) > self.room[register] and not is_said:
                name = f"{self.prefix}cap_{self.network.numbers[block] + layer}_{register}"
                self.program.add(name, terms, "<=", self.room[register])

    def add_pairs(self):
        for pair, (left, one, right, two) in enumerate(self.network.pairs()):
            if MEM in self.places(left, one) and MEM in self.places(right, two):
                terms = [(1, self.at(left, one, MEM)), (1, self.at(right, two, MEM))]
                self.program.add(f"{self.prefix}mem_{pair}", terms, "<=", 1)

    def add_ties(self):
        strands = self.network.strands
        for tie, (one, to) in enumerate(self.network.ties()):
            last, first = strands[one].last, strands[to].first
            leaves, arrives = self.places(one, last), self.places(to, first)
            for place in sorted({*leaves, *arrives}):
                terms = [(1, self.at(one, last, place))] if place in leaves else []
                terms += [(-1, self.at(to, first, place))] if place in arrives else []
                self.program.add(f"{self.prefix}tie_{tie}_{place}", terms, "=", 0)


def program_of(network, cost, places=None):
    """The integer program of one network, with these places alone if some are given."""
    program = Program()
    Builder(network, cost, program, places=places).build()
    return program


def program_of_all(networks, cost):
    """The program of all networks together; the names of each begin with p and its number."""
    program = Program()
    for number, network in enumerate(networks):
        Builder(network, cost, program, f"p{number}_").build()
    return program


def relaxation_of(network, cost):
    """The program of which the relaxation has the value of that of program_of, and fewer rows."""
    program = Program()
    Builder(network, cost, program, classes=classes_of(network)).build()
    return program


def prices_of(network, duals):
    """The prices that the duals of rows are, by the rows' names, in whole units: a row's dual is
    what the cost grows by where there is room for one more, and a price what one pays to be there.
    They hold for each register of a class."""
    prices = Prices()
    alike = {its[0]: its for its in classes_of(network)}
    for name, dual in duals.items():
        kind, *numbers = name.split("_")
        price = -round(dual * UNIT)
        if not price or kind not in ("cap", "mem", "tie"):
            continue
        if kind == "mem":
            prices.mems[int(numbers[0])] = price
            continue
        number, place = map(int, numbers)
        for register in alike.get(register_of(place), [MEM]):
            at = register if place <= MEM else FIRST_BOTH + register
            if kind == "cap":
                prices.caps[cap_index(number, at)] = price
            else:
                prices.ties[tie_index(number, at)] = price
    return in_range(prices)


def routes_of(network, values):
    """The routes that the values of the variables say."""
    routes = []
    for number, strand in enumerate(network.strands):
        routes.append([])
        for layers in strand.stops():
            found = {
                place: values.get(f"at_{number}_{layers[0]}_{place}", 0)
                for place in bits(strand.mask_over(layers))
            }
            routes[-1] += [max(found, key=found.get)] * len(layers)
    return routes
