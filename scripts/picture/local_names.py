"""What the local variables of a procedure are called in its source, found again by the text.

The compiler keeps no names behind its tree. But what a statement becomes has an order that the text
tells too (source_events.py), with the names that stand for operands. Laid beside the instructions
of the code, by long common stretches, each such name is told of a variable. A local is the variable
of which its name is told most often; one of which nothing is told stays without a name.
"""

from collections import Counter
from difflib import SequenceMatcher

import places
from picture import report
from picture.source_events import Statements

PLACES = {  # where the operands stand that the text may name, by instruction
    **dict.fromkeys(("add", "sub", "mul", "cmp", "copy"), (0, 1)),
    **dict.fromkeys(("load", "addr", "set", "check", "neg", "read", "write", "push"), (0,)),
    **dict.fromkeys(("shl", "shr", "sar"), (0,)),
    "divmod": (0, 1, 3),
    "store": (1,),
    "line": (),
}
IN_PLACE = ("add", "sub", "mul", "and", "or", "xor", "neg", "shl", "shr", "sar")
SURE = 2 / 3  # of what is told of a variable the share that its name has to have


class Named:
    """The scalar locals of each procedure of a module, and what its statements become."""

    def __init__(self, source):
        spans = list(places.tokens(source))
        self.words = [places.shown(source[start:end]) for start, end in spans]
        self.headings = report.headings(source)
        known = enumerate(self.headings)
        self.procedures = {
            it.name: (number, [by_var for _, by_var in it.parameters]) for number, it in known
        }
        self.aggregates, self.constants = self.declared()
        self.locals, self.found = [], []
        heads = [at for at, it in enumerate(self.words) if it in ("MODULE", "PROCEDURE")]
        for number, at in enumerate(heads):
            self.locals.append([] if number == 0 else self.section(at + 1))
            self.found.append(self.statements(number, at))

    def word(self, at):
        return self.words[at] if 0 <= at < len(self.words) else ""

    def is_name(self, at):
        return self.word(at)[:1].isalpha() and not (self.word(at).isupper() and self.is_section(at))

    def is_section(self, at):
        return self.word(at) in ("BEGIN", "PROCEDURE", "VAR", "TYPE", "CONST", "END", "")

    def declared(self):
        """The names of types of arrays and records, and of constants."""
        aggregates, constants, section = set(), {"TRUE", "FALSE"}, ""
        for at, word in enumerate(self.words):
            section = word if self.is_section(at) else section
            if word == "=" and section == "TYPE" and self.word(at + 1) in ("ARRAY", "RECORD"):
                aggregates.add(self.word(at - 1))
            if word == "=" and section == "CONST":
                constants.add(self.word(at - 1))
        return aggregates, constants

    def section(self, at):
        """The scalar locals behind a heading."""
        found, depth = [], 0
        while depth or not self.is_section(at) or self.word(at - 1) == "(":
            depth += {"(": 1, ")": -1}.get(self.word(at), 0)
            at += 1
        while self.word(at) in ("CONST", "TYPE"):
            at = self.behind_section(at + 1)
        at += self.word(at) == "VAR"
        names = []
        while self.is_name(at) and not self.is_section(at):
            names.append(self.words[at])
            if self.word(at + 1) == ",":
                at += 2
                continue
            kind = self.word(at + 2)
            found += names if kind not in ("ARRAY", "RECORD", *self.aggregates) else []
            names, at = [], self.behind_type(at + 2)
        return found

    def behind_section(self, at):
        while not self.is_section(at) or self.word(at) == "END":
            at += 1
        return at

    def behind_type(self, at):
        """Behind the semicolon that ends a declaration."""
        depth = 0
        while self.word(at) and (self.word(at) != ";" or depth):
            depth += {"RECORD": 1, "END": -1}.get(self.word(at), 0)
            at += 1
        return at + 1

    def body(self, at):
        """Behind the BEGIN of the procedure whose heading begins at a word, or None."""
        depth = 1
        while depth and self.word(at):
            at += 1
            if self.word(at) == "PROCEDURE":
                at = self.behind(at)
            elif self.word(at) == "BEGIN":
                return at + 1
        return None

    def behind(self, at):
        """The END of a procedure that begins at a word."""
        name = self.word(at + 1)
        while self.word(at) and not (self.word(at) == "END" and self.word(at + 1) == name):
            at += 1
        return at

    def statements(self, number, at):
        """What the statements of a procedure become."""
        begin = self.body(at)
        if begin is None:
            return []
        value = {name for name, by_var in self.headings[number].parameters if not by_var}
        variables = value | set(self.locals[number])
        it = Statements(self.words, begin, variables, self.constants, self.procedures)
        it.sequence()
        return it.found


def operands(block):
    """The kind of each instruction of a block, and its variables by their places. A copy is left out
    on which an operation is done at once, since of that the text tells the operation alone."""
    for (op, *xs), (behind, *ys) in zip(block.code, [*block.code[1:], [""]]):
        if op == "copy" and behind in IN_PLACE and ys[0] == xs[0]:
            continue
        if op == "call":
            yield f"call {xs[0]}", {}
        elif op == "cmpset":
            yield "cmp", {0: xs[2], 1: xs[3]}
        elif op in PLACES:
            yield op, {place: xs[place] for place in PLACES[op]}


def votes(there, blocks):
    """Of each variable how often each name stands for it."""
    here = [it for block in blocks for it in operands(block)]
    pair = SequenceMatcher(None, [it[0] for it in here], [it[0] for it in there], False)
    found = {}
    for one, other, size in pair.get_matching_blocks():
        for step in range(size):
            for place, v in here[one + step][1].items():
                if name := there[other + step][1].get(place):
                    found.setdefault(v, Counter())[name] += 1
    return found


def names_of(source, number, procedure):
    """The names of the locals of a procedure, by variable: of each name the variable for which it
    is told most often, if no other name is told of that as often."""
    names, claims = source.locals[number], {}
    for v, told in votes(source.found[number], procedure.blocks).items():
        name, count = told.most_common(1)[0]
        is_sure = count >= SURE * sum(told.values())
        if is_sure and name in names and procedure.variables[v].kind == "plain":
            claims.setdefault(name, []).append((count, -v))
    return {-max(them)[1]: name for name, them in claims.items()}
