"""What breaks a rule of the language at a token, in one sentence with the names of the source.

A module that breaks a rule is one of the grammar, so what its names stand for can be read off its
tokens. Only names are followed here, no types of expressions: which rule is broken, and where, the
compiler has said.
"""

import difflib
from dataclasses import dataclass

from places import shown, tokens

PREDECLARED = {
    "INTEGER": "a type",
    "BOOLEAN": "a type",
    "TRUE": "a constant",
    "FALSE": "a constant",
    "Read": "a procedure",
    "Write": "a procedure",
    "WriteLn": "a procedure",
}
OPENS = ("BEGIN", "IF", "WHILE", "RECORD")
SECTIONS = {"CONST": "a constant", "TYPE": "a type", "VAR": "a variable"}


@dataclass
class Name:
    kind: str  # what it stands for, in words
    line: int  # where it is declared, or 0 of one that is there from the beginning
    scope: tuple  # the names of the module and the procedures around
    type: str = ""  # of a variable or parameter, its type's tokens


class Names:
    """What is declared in a module, in the order of the text, as far as one looks."""

    def __init__(self, source):
        spans = list(tokens(source))
        self.texts = [shown(source[start:end]) for start, end in spans]
        self.starts = [start for start, _ in spans]
        self.lines, line, last = [], 1, 0
        for start in self.starts:
            line, last = line + source.count(b"\n", last, start), start
            self.lines.append(line)
        self.declared, self.scopes = {}, []  # by their texts, and around each token
        self.fields = {}  # names of fields, with their lines
        self.read()

    def declare(self, at, kind, scope, type_text=""):
        it = Name(kind, self.lines[at], scope, type_text)
        self.declared.setdefault(self.texts[at], []).append(it)

    def read(self):
        """Goes over the tokens with the scopes that are open at each."""
        scope, section, at, texts = (), None, 0, self.texts
        while at < len(texts):
            text = texts[at]
            self.scopes.append(scope)
            if text in ("MODULE", "PROCEDURE") and at + 1 < len(texts):
                kind = "the module" if text == "MODULE" else "a procedure"
                self.declare(at + 1, kind, scope)
                scope, section = (*scope, texts[at + 1]), None
                self.scopes.append(scope)
                at += 2
                if texts[at : at + 1] == ["("]:
                    at = self.parameters(at, scope)
                continue
            if text in SECTIONS:
                section = text
            elif text == "BEGIN" or (text == "END" and section is None):
                section = None
                at = self.block(at, scope)
                scope = scope[:-1]
                continue
            elif text == "RECORD" and section:
                at = self.record(at, scope)
                continue
            elif section and text[:1].isalpha() and texts[at - 1] in (section, ";", ","):
                at = self.declaration(at, section, scope)
                continue
            if text == "END":
                scope = scope[:-1]
            at += 1
        self.scopes += [scope] * (len(texts) - len(self.scopes))

    def declaration(self, at, section, scope):
        """Declares a name of a section, and goes behind it."""
        if self.texts[at + 1 : at + 2] and self.texts[at + 1] in ("=", ":", ","):
            self.declare(at, SECTIONS[section], scope, self.type_behind(at))
        return at + 1

    def type_behind(self, at):
        """The type behind the colon that follows a list of names, as text."""
        colon = next((i for i in range(at, len(self.texts)) if self.texts[i] in ":=;"), None)
        if colon is None or self.texts[colon] != ":":
            return ""
        end = next((i for i in range(colon, len(self.texts)) if self.texts[i] in ";)"), colon)
        return " ".join(self.texts[colon + 1 : end])

    def parameters(self, at, scope):
        """Declares the parameters in parentheses, and goes behind them."""
        is_name = True
        while at < len(self.texts) and self.texts[at] != ")":
            self.scopes.append(scope)
            text = self.texts[at]
            if text in ("(", ";"):
                is_name = True
            elif text == ":":
                is_name = False
            elif is_name and text not in (",", "VAR"):
                self.declare(at, "a parameter", scope, self.type_behind(at))
            at += 1
        return at

    def record(self, at, scope):
        """Takes the fields of a record, and goes behind its END."""
        depth = 0
        while at < len(self.texts):
            self.scopes.append(scope)
            depth += {"RECORD": 1, "END": -1}.get(self.texts[at], 0)
            if self.texts[at - 1] in ("RECORD", ";", ",") and self.texts[at][:1].isalpha():
                self.fields.setdefault(self.texts[at], self.lines[at])
            at += 1
            if depth == 0:
                break
        return at

    def block(self, at, scope):
        """Goes behind the END of a block and the name that follows it."""
        depth = 0 if self.texts[at] == "BEGIN" else 1
        while at < len(self.texts):
            self.scopes.append(scope)
            text = self.texts[at]
            depth += text in OPENS
            depth -= text == "END"
            at += 1
            if depth == 0:
                break
        if at < len(self.texts):
            self.scopes.append(scope)
        return at + 1

    def seen(self, at):
        """What the name at a token stands for there, or None."""
        scope, line = self.scopes[at], self.lines[at]
        near = [
            it
            for it in self.declared.get(self.texts[at], ())
            if scope[: len(it.scope)] == it.scope and it.line <= line
        ]
        if near:
            return max(near, key=lambda it: len(it.scope))
        kind = PREDECLARED.get(self.texts[at])
        return Name(kind, 0, ()) if kind else None

    def known(self, at):
        """The names that are seen at a token."""
        scope = self.scopes[at]
        inside = (
            name
            for name, them in self.declared.items()
            if any(scope[: len(it.scope)] == it.scope for it in them)
        )
        return [*PREDECLARED, *inside]


def near(name, known):
    """The known name that is nearest to one, as a question."""
    others = [it for it in known if it != name]
    found = difflib.get_close_matches(name, others, 1, 0.6)
    lower = {it.lower(): it for it in others}
    begins = [it for it in others if len(it) > 3 and name.lower().startswith(it.lower())]
    best = lower.get(name.lower()) or next(iter(begins or found), None)
    return f"; did you mean `{best}`?" if best else ""


def what(names, at):
    """What the name at a token is, in words."""
    it = names.seen(at)
    if not it:
        return "is none"
    typed = f" of type {it.type}" if it.type else ""
    return f"is {it.kind}{typed}" + (f", of line {it.line}" if it.line else "")


def declared_nowhere(names, at):
    name = names.texts[at]
    elsewhere = names.declared.get(name)
    if not elsewhere:
        return f"`{name}` is declared nowhere{near(name, names.known(at))}"
    it = elsewhere[0]
    if it.line >= names.lines[at] and names.scopes[at][: len(it.scope)] == it.scope:
        return f"`{name}` is declared in line {it.line} only, behind its use"
    return f"`{name}` of line {it.line} is seen in `{it.scope[-1]}` alone, and not here"


def again(names, at):
    name = names.texts[at]
    first = next((it for it in names.declared.get(name, ()) if it.line <= names.lines[at]), None)
    where = f": first in line {first.line}" if first else ""
    return f"`{name}` is declared a second time in one scope{where}"


def no_field(names, at):
    name = names.texts[at]
    return f"the record has no field `{name}`{near(name, names.fields)}"


def out_of_reach(names, at):
    it, name = names.seen(at), names.texts[at]
    owner = f"`{it.scope[-1]}`" if it and it.scope else "the procedure around this one"
    return (
        f"`{name}` belongs to {owner}, and an inner procedure may use only its own names and the"
        " module's: hand it on as a parameter"
    )


def end_name(names, at):
    """The name that should stand behind an END: that of the module or procedure around."""
    around = names.scopes[at]
    kind = "module" if len(around) == 1 else "procedure"
    wanted = f"the {kind} is called `{around[-1]}`" if around else f"the {kind} has another name"
    return f"`{names.texts[at]}` stands behind this END, and {wanted}"


def named(words):
    """A sentence on the name at a token and on what it is."""

    def tell(names, at):
        name, is_kind = names.texts[at], what(names, at)
        return f"`{name}` {is_kind}, {words}" if is_kind != "is none" else f"`{name}` {words[4:]}"

    return tell


def plain(words):
    """A sentence in which {} is the token."""
    return lambda names, at: words.format(f"`{names.texts[at]}`")


OFFENCES = {
    1: end_name,
    2: end_name,
    3: again,
    4: plain("two fields of this record are called {}"),
    5: declared_nowhere,
    6: out_of_reach,
    7: named("and has no value that an expression could use"),
    8: named("and no type"),
    9: named("and can't be called, since it is no procedure"),
    10: named("and nothing can be assigned to it"),
    11: plain("what stands before the period is no record, so it has no field {}"),
    12: no_field,
    13: plain("what stands before these brackets is no array"),
    14: plain("the index that ends at {} is no INTEGER"),
    15: plain("what ends at {} is no INTEGER, and arithmetic and `<` take nothing else"),
    16: plain("what ends at {} is no BOOLEAN, and `&`, OR and `~` take nothing else"),
    17: plain("the comparison that ends at {} has two sides that are not both INTEGER or BOOLEAN"),
    18: plain("the assignment that ends at {} has sides that are not both INTEGER or BOOLEAN"),
    19: plain("the condition that ends at {} is no BOOLEAN"),
    20: plain("the call that ends at {} has more or fewer arguments than there are parameters"),
    21: named("and only INTEGER and BOOLEAN can be parameters without VAR"),
    22: plain("the argument that ends at {} has another type than its parameter"),
    23: plain("the argument that ends at {} has to be a variable of the parameter's own type"),
    24: plain("what ends at {} can't be worked out before the run, or is a length below 1"),
}


def offence(number, source, start):
    """What breaks a rule at the token that begins at a byte, or None."""
    names = Names(source)
    if start not in names.starts or number not in OFFENCES:
        return None
    return OFFENCES[number](names, names.starts.index(start))


def capitals(token, reserved):
    """That a name would be a reserved word in capitals, or None."""
    if token not in reserved and token.upper() in reserved:
        return f"`{token}`: reserved words are in capitals, {token.upper()}"
    return None
