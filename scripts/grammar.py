"""What the grammar of docs/LANGUAGE.md lets follow some tokens.

The productions are read from that page, in its own notation (EBNF), and worked on by Earley's
algorithm (An efficient context-free parsing algorithm, 1970): of each number of tokens it knows all
places in productions at which a reader may be.
"""

import functools
import os
import re

TOP = os.path.dirname(os.path.dirname(os.path.realpath(__file__)))
LANGUAGE = f"{TOP}/docs/LANGUAGE.md"
START = "module"
SYMBOL = re.compile(r'"([^"]+)"|(\w+)|([{}\[\]()|.=])')

# Phrases that are told by their names, where they may begin.
PHRASES = {
    "expression": "an expression",
    "statement": "a statement",
    "type": "a type",
    "FPSection": "a parameter",
}
OPERATORS = {"*", "DIV", "MOD", "&", "+", "-", "OR", "=", "#", "<", "<=", ">", ">="}
WORDS = {"ident": "a name", "integer": "a number"}


class Grammar:
    """Productions: of each phrase its alternatives, lists of phrases and of tokens in quotes."""

    def __init__(self, text):
        self.rules, self.made = {}, 0
        for production in re.split(r"\.\s*\n", text):
            if "=" in production:
                name, _, right = production.partition("=")
                self.symbols = [it.group() for it in SYMBOL.finditer(right)]
                self.rules[name.strip()] = self.alternatives()
        self.reserved = {it[1:-1] for rows in self.rules.values() for row in rows for it in row}
        self.reserved = {it for it in self.reserved if it.isalpha() and it.isupper()}

    def alternatives(self):
        """Reads alternatives up to a closing bracket or the end."""
        rows = [[]]
        while self.symbols and self.symbols[0] not in ("}", "]", ")"):
            symbol = self.symbols.pop(0)
            if symbol == "|":
                rows.append([])
            elif symbol in ("{", "[", "("):
                rows[-1].append(self.bracket(symbol))
            else:
                rows[-1].append(symbol)
        return rows

    def bracket(self, kind):
        """A new phrase for what brackets hold."""
        self.made += 1
        name = f"{kind}{self.made}"
        rows = self.alternatives()
        self.symbols.pop(0)
        if kind == "{":
            rows = [[], *([name, *row] for row in rows)]
        self.rules[name] = [[], *rows] if kind == "[" else rows
        return name

    def empty(self):
        """The phrases that may have no token."""
        found, before = set(), None
        while before != len(found):
            before = len(found)
            rows = ((name, row) for name, them in self.rules.items() for row in them)
            found |= {name for name, row in rows if found.issuperset(row)}
        return found

    def first(self, name):
        """The tokens with which a phrase may begin."""
        empty, reached, todo = self.empty(), set(), [name]
        while todo:
            it = todo.pop()
            if it not in reached:
                reached.add(it)
                for row in self.rules.get(it, ()):
                    read = (at for at, symbol in enumerate(row) if symbol not in empty)
                    todo += row[: next(read, len(row)) + 1]
        return {it for it in reached if it not in self.rules}


@functools.cache
def read():
    """The grammar of the page on the language."""
    with open(LANGUAGE, encoding="utf-8") as text:
        section = text.read().split("## Grammar")[1].split("\n## ")[0]
    lines = [line[4:] for line in section.splitlines() if line.startswith("    ")]
    return Grammar("\n".join(lines) + "\n")


def kind_of(token, reserved):
    """What a token is to the grammar: a name, a number, or itself in quotes."""
    if token in reserved or not token[:1].isalnum():
        return f'"{token}"'
    return "integer" if token[0].isdigit() else "ident"


class Reader:
    """Where a reader may be behind some tokens: items of a phrase, one of its alternatives, the
    number of symbols read of it, and the number of tokens before it. Behind each number of tokens
    they stand by the symbol that they wait for."""

    def __init__(self, grammar):
        self.rules, self.empty = grammar.rules, grammar.empty()
        self.sets = []
        self.close([("", (START,), 0, 0)])

    def close(self, items):
        """Adds the items behind one more token, with those that they lead to without another."""
        at, waiting, known, todo = len(self.sets), {}, set(items), list(items)
        self.sets.append(waiting)
        while todo:
            phrase, row, dot, begun = todo.pop()
            if dot == len(row):
                new = [(*it[:2], it[2] + 1, it[3]) for it in self.sets[begun].get(phrase, ())]
            else:
                symbol = row[dot]
                waiting.setdefault(symbol, []).append((phrase, row, dot, begun))
                new = [(symbol, tuple(it), 0, at) for it in self.rules.get(symbol, ())]
                if symbol in self.empty:
                    new.append((phrase, row, dot + 1, begun))
            todo += [it for it in new if it not in known]
            known.update(new)

    def read(self, kind):
        """Goes over a token. False where it can't stand here."""
        moved = [(*it[:2], it[2] + 1, it[3]) for it in self.sets[-1].get(kind, ())]
        if moved:
            self.close(moved)
        return bool(moved)

    def expected(self):
        """The symbols that may follow: tokens, and the phrases in which they stand."""
        return set(self.sets[-1])


def behind(tokens):
    """The grammar, and what may follow these tokens, or follows the first ones of them that a
    module may begin with."""
    grammar = read()
    reader = Reader(grammar)
    for it in tokens:
        if not reader.read(kind_of(it, grammar.reserved)):
            break
    return grammar, reader.expected()


def in_words(grammar, expected):
    """What may follow, as a person says it."""
    left = {it for it in expected if it not in grammar.rules}
    told = []
    for phrase, words in PHRASES.items():
        if phrase in expected and (first := grammar.first(phrase)) & left:
            told.append(words)
            left -= first
    if OPERATORS <= {it.strip('"') for it in left}:
        told.append("an operator")
        left -= {f'"{it}"' for it in OPERATORS}
    told += [words for kind, words in WORDS.items() if kind in left]
    signs = sorted(it.strip('"') for it in left if it not in WORDS)
    told += [f"`{it}`" for it in signs if not it.isalpha()] + [it for it in signs if it.isalpha()]
    return " or ".join([", ".join(told[:-1]), told[-1]]) if len(told) > 1 else "".join(told)
