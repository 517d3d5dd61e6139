"""What is edited in the declarations of a module so that an error of theirs does not come again.

Where nobody can know what was meant, as behind a type that is declared nowhere, another one is put
there, and the names that are declared by that are in doubt: what a copy says of lines with them is
not told.
"""

from dataclasses import dataclass, field

import offences
import repairs

SECTIONS = ("CONST", "TYPE", "VAR")
PARAMETER, FIELD, HEADING, END, WORD = "parameter", "field", "heading", "end", "word"
OPENS = ("IF", "WHILE")  # what has an END of its own in a body
ENDS = (*SECTIONS, "PROCEDURE", "BEGIN", "END", "MODULE")  # where a declaration that is open ends
TYPE, VALUE = b"INTEGER", b"1"  # what is put where something else is none
EXPRESSIONS = {5, 6, 7, 9, 13, 14, 15, 16, 17, 24}  # rules that may be broken in a constant
BEFORE_TYPE = "`:` stands before a type"
SIGN_WORDS = {
    "CONST": "a constant is declared by `=`",
    "TYPE": "a type is declared by `=`",
    "VAR": BEFORE_TYPE,
    PARAMETER: BEFORE_TYPE,
    FIELD: BEFORE_TYPE,
}


@dataclass
class Item:
    """A declaration: of a section, a parameter section, a list of fields, or a heading."""

    kind: str
    first: int  # its first token
    procedure: str  # the procedure whose parameter it is, or nothing


@dataclass
class Edit:
    """Stretches of bytes that are replaced, and by what; the names that are in doubt then, and
    whether one that is meant may stand nowhere."""

    parts: list
    doubtful: set = field(default_factory=set)
    is_nameless: bool = False


class Items:
    """The declaration of each token, or None in bodies, of words that a reader can go over. The
    words of sections, and BEGIN, are one by themselves."""

    def __init__(self, words):
        self.words, self.of = words, []
        self.stack, self.now = [], Item(HEADING, 0, "")
        self.depth = 0  # of what has an END of its own in a body, or 0 outside of one
        for at, word in enumerate(words):
            self.read(at, word)

    def read(self, at, word):
        if self.depth:
            self.depth += word in OPENS
            self.depth -= word == "END"
            self.of.append(None)
            self.now = Item(END, at + 1, "") if not self.depth else self.now
        elif word == "BEGIN":
            self.depth = 1
            self.of.append(Item(WORD, at, ""))
        else:
            self.declared(at, word)

    def declared(self, at, word):
        kind = self.now.kind
        if word in ("PROCEDURE", "MODULE"):
            self.now = Item(HEADING, at, "")
        elif word in SECTIONS and kind not in (PARAMETER, FIELD):
            self.of.append(Item(WORD, at, ""))
            self.now = Item(word, at + 1, "")
            return
        elif word == "END" and kind not in (FIELD, PARAMETER):
            self.now = Item(END, at + 1, "")
        self.of.append(self.now)
        if word in ("RECORD", "("):
            self.stack.append(self.now)
            if word == "RECORD":
                self.now = Item(FIELD, at + 1, self.now.procedure)
            elif kind == HEADING:
                self.now = Item(PARAMETER, at + 1, self.words[at - 1])
        elif self.stack and (word == ")" or word == "END" and kind == FIELD):
            self.now = self.stack.pop()
        elif word == ";":
            following = HEADING if kind in (HEADING, END) else kind
            self.now = Item(following, at + 1, self.now.procedure)

    def names(self, item, end):
        """The names that an item declares, up to a token: those of its list, and a procedure whose
        parameters they are."""
        found, at = set(), item.first + (self.words[item.first : item.first + 1] == ["VAR"])
        while at < end and self.words[at][:1].isalpha():
            found.add(self.words[at])
            if self.words[at + 1 : at + 2] != [","]:
                break
            at += 2
        return found | ({item.procedure} if item.procedure else set())

    def stretches(self):
        """Each item with the token behind its last one, but for headings and ends."""
        for at, it in enumerate(self.of):
            if it and it.first == at and it.kind not in (HEADING, END):
                yield it, self.end(it)

    def end(self, item):
        """The token behind the last one of an item: its semicolon, or where else it ends."""
        depth = 0
        for at in range(item.first, len(self.words)):
            word = self.words[at]
            if depth == 0 and (word == ";" or word == ")" and item.kind == PARAMETER):
                return at
            if word in ENDS and not (word == "END" and depth):
                if not (word == "VAR" and at == item.first):
                    return at
            depth += word == "RECORD"
            depth -= word == "END"
        return len(self.words)


def with_doubt(words, doubtful):
    """Names in doubt, with those that are declared by them."""
    items = Items(words)
    them = [(items.names(it, end), set(words[it.first : end])) for it, end in items.stretches()]
    found, before = set(doubtful), None
    while found != before:
        before = set(found)
        for names, mentioned in them:
            found |= names if mentioned & found else set()
    return found


class Editor:
    """Edits of the declarations of a text, which has spans, words and a source."""

    def __init__(self, text):
        self.text, self.words = text, text.words
        self.items = Items(text.words)

    def span(self, first, end):
        return self.text.spans[first][0], self.text.spans[end - 1][1]

    def edit(self, line, number):
        """What is edited for a line of the compiler at a token, or None."""
        item = self.items.of[number]
        if item is None or not number:
            return None
        if line.startswith("fault number-too-large"):
            return Edit([(*self.span(number, number + 1), VALUE)])
        if line.startswith("fault grammar"):
            return self.of_grammar(number, item)
        if line.startswith("fault rule "):
            return self.of_rule(int(line.split()[2]), number, item)
        return None

    # ---- the grammar

    def of_grammar(self, number, item):
        repair = repairs.best(self.words, number)
        if repair is None:
            return self.left_out(number, item)
        names, (start, end) = self.items.names(item, number), self.span(number, number + 1)
        if repair.token is None:
            is_twice = self.words[number - 1] == self.words[number]
            return Edit([(start, end, b"")], *([] if is_twice else [names, True]))
        if not repair.is_put:
            return Edit([(start, end, repair.sign.encode())])
        if repair.sign:
            behind = self.text.spans[number - 1][1]
            put = behind, behind, f" {repair.sign} ".encode()
            return Edit([put], *([names, True] if repair.is_guess else []))
        put = VALUE if repair.token == "integer" else self.name_for(number)
        return Edit([(start, start, put + b" ")], names, put not in (TYPE, VALUE))

    def name_for(self, number):
        """What is put before a token where a name is missing."""
        return TYPE if self.words[number - 1] in (":", "OF", "=") else self.fresh()

    def around(self, number):
        """The name of the procedure or module that a token ends."""
        scopes = offences.Names(self.text.source).scopes[number]
        return scopes[-1].encode() if scopes else b""

    def left_out(self, number, item):
        """Leaves a declaration of a section out, where what follows can be read then."""
        end = self.items.end(item)
        if item.kind not in SECTIONS or number > end or self.words[end : end + 1] != [";"]:
            return None
        rest = [*self.words[: item.first], *self.words[end + 1 :]]
        reading = repairs.Reading(rest, item.first)
        if reading.reach(reading.rest) < min(repairs.LEAST, len(reading.rest)):
            return None
        names = self.items.names(item, number)
        return Edit([(*self.span(item.first, end + 1), b"")], names, True)

    def fresh(self):
        """A name that stands nowhere."""
        known, count = set(self.words), 1
        while f"other{count}" in known:
            count += 1
        return f"other{count}".encode()

    # ---- rules

    def of_rule(self, rule, number, item):
        here, names = self.span(number, number + 1), self.items.names(item, self.items.end(item))
        if rule in (1, 2):
            right = self.around(number)
            return Edit([(*here, right)], {self.words[number]}) if right else None
        if rule in (3, 4):
            return self.renamed(number)
        if rule == 21 and item.kind == PARAMETER:
            start = self.text.spans[item.first][0]
            return Edit([(start, start, b"VAR ")], {item.procedure})
        expression = self.expression(number, item)
        if expression and rule in EXPRESSIONS:
            is_length = self.words[expression[0] - 1] == "ARRAY"
            return Edit([(*self.span(*expression), VALUE)], set() if is_length else names)
        if rule in (5, 8) and not expression:
            return Edit([(*here, TYPE)], names)
        return None

    def renamed(self, number):
        """A name that is declared a second time gets another one; a procedure also behind END."""
        parts, name, other = [], self.words[number], self.fresh()
        parts.append((*self.span(number, number + 1), other))
        if self.words[number - 1] == "PROCEDURE" and (end := self.end_of_procedure(number)):
            parts.append((*self.span(end, end + 1), other))
        return Edit(parts, {name})

    def end_of_procedure(self, number):
        """The name behind the END of the procedure whose name is at a token."""
        depth = 1
        for at in range(number, len(self.words) - 1):
            depth += self.words[at] == "PROCEDURE"
            if self.words[at] == "END" and self.words[at + 1][:1].isalpha():
                is_name = self.words[at + 2 : at + 3] in ([";"], ["."])
                depth -= is_name and self.words[at + 1] not in repairs.grammar.read().reserved
                if depth == 0:
                    return at + 1
        return None

    def expression(self, number, item):
        """The first token of the constant or the length that a token is in, and the one behind its
        last, or None."""
        for at in range(number, item.first - 1, -1):
            if self.words[at] == "OF":
                return None
            if self.words[at] == "ARRAY":
                end = next((it for it in range(at, len(self.words)) if self.words[it] == "OF"), 0)
                return (at + 1, end) if number < end else None
        is_constant = item.kind == "CONST" and self.words[item.first + 1 : item.first + 2] == ["="]
        if is_constant and number > item.first + 1:
            return item.first + 2, self.items.end(item)
        return None


def meant(text, number):
    """What was meant where a declaration goes wrong, if one token mends it, or nothing."""
    items, words = Items(text.words), text.words
    item = items.of[number] if 0 < number < len(words) else None
    if item is None or text.is_statement(number):
        return ""
    repair = repairs.best(words, number)
    if repair and repair.token is None and words[number] == words[number - 1]:
        return f"`{words[number]}` stands here twice"
    if repair is None or not repair.sign:
        return ""
    if repair.is_put:
        return f"a `{repair.sign}` is missing behind `{words[number - 1]}`"
    declares = SIGN_WORDS.get(item.kind, "") if repair.sign in ("=", ":") else ""
    return declares or f"`{repair.sign}` stands here, and not `{words[number]}`"
