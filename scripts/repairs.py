"""What one token more, another one or one less makes of a text that is none of the grammar.

Where a module goes wrong each token that could stand there is tried, before the one that can't, in
its place, and none; whichever lets a reader go on farthest was meant. Of those that go as far a
semicolon comes first, and then other signs.
"""

from dataclasses import dataclass

import grammar

AHEAD = 60  # tokens that are read on
LEAST = 3  # of them that have to be read, or all that are left
SIGNS = ('":="', '"="', '":"', '";"', '","', '"."')  # of which one stands for another by mistake
PARTS = ('":"', '"OF"', '","', '")"', '"("')  # that may be missing
DECLARING = ('"CONST"', '"TYPE"', '";"')  # what may stand before a name that `=` follows
BETWEEN = ("integer", "ident")  # the same, with what it is not known


@dataclass(frozen=True)
class Repair:
    """A token that is put before another one, or takes its place; or None, which takes it away."""

    token: str | None
    is_put: bool

    @property
    def is_guess(self):
        """Whether another token than a sign that always stands there might have been meant."""
        return self.token in ('","', '"("')

    @property
    def sign(self):
        """The token as a text has it, if it is one alone."""
        return self.token.strip('"') if self.token and self.token.startswith('"') else ""


class Last:
    """The tokens that were read last, and where a reader is behind each number of them: who reads
    the same ones again, or a copy with an edit, begins where both part."""

    words, sets = [], []


class Reading:
    """A reader behind the first tokens of a text."""

    def __init__(self, words, number):
        self.grammar = grammar.read()
        self.reader = grammar.Reader(self.grammar)
        self.go_on(words[:number])
        self.count = len(self.reader.sets)
        self.symbols = self.reader.expected()
        self.expected = self.symbols - set(self.grammar.rules)
        self.rest = [self.kind(it) for it in words[number : number + AHEAD]]
        self.capitals = f'"{words[number].upper()}"' if number < len(words) else ""
        self.is_twice = words[number - 1 : number] == words[number : number + 1]
        self.is_name = number > 1 and self.kind(words[number - 2]) in DECLARING

    def go_on(self, words):
        """Reads the tokens of a text, and goes over those that can't stand."""
        same = (at for at, (one, two) in enumerate(zip(Last.words, words)) if one != two)
        at = next(same, min(len(Last.words), len(words)))
        self.reader.sets[:] = Last.sets[: at + 1] or self.reader.sets
        for it in words[at:]:
            if not self.reader.read(self.kind(it)):
                self.reader.sets.append(self.reader.sets[-1])
        Last.words, Last.sets = words, self.reader.sets[:]

    def kind(self, word):
        return grammar.kind_of(word, self.grammar.reserved)

    def reach(self, kinds):
        """How many of some tokens can be read on."""
        del self.reader.sets[self.count :]
        return next((at for at, it in enumerate(kinds) if not self.reader.read(it)), len(kinds))

    def reach_with(self, repair):
        """The same of the tokens of the text."""
        if repair.token is None:
            return self.reach(self.rest[1:]) + 1
        if repair.is_put:
            return self.reach([repair.token, *self.rest]) - 1
        return self.reach([repair.token, *self.rest[1:]])

    def repairs(self):
        """What is tried, in the order of what is likely."""
        if '";"' in self.expected:
            yield Repair('";"', True)
        if self.capitals in self.expected:
            yield Repair(self.capitals, False)
        if self.rest and self.rest[0] in SIGNS:
            yield from (Repair(it, False) for it in SIGNS if it in self.expected)
        if self.is_twice and self.rest and self.rest[0] in BETWEEN:
            yield Repair(None, False)
        if self.is_name and '"="' in self.expected:
            yield Repair('"="', True)
        yield from (Repair(it, True) for it in (*PARTS, *BETWEEN) if it in self.expected)
        yield Repair(None, False)

    def best(self):
        """The repair with which most can be read, and how much; or None and 0."""
        reached = [(self.reach_with(it), it) for it in self.repairs()]
        most = max((it[0] for it in reached), default=0)
        if most < min(LEAST, len(self.rest)):
            return None, 0
        return next(it for it in reached if it[0] == most)[::-1]


def best(words, number):
    """What mends a text at the first token that can't stand where it is, or None."""
    return Reading(words, number).best()[0] if number < len(words) else None


def could_be(words, number, at, word):
    """Whether another word could stand in the place of a name at or before the first token that
    can't stand, and lets a reader go on farther than what else mends the text; or as far, where the
    name is in capitals as well."""
    reading = Reading([*words[:at], word, *words[at + 1 :]], at)
    reached = reading.reach(reading.rest) - (number - at)
    others = Reading(words, number).best()[1]
    return reached > others or words[at].isupper() and reached == others > 0
