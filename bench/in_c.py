#!/usr/bin/env python3
"""Writes a module as C that does what the module does, with its checks.

    in_c.py FILE    FILE is an Oberon-0 module that breaks no rule

Each procedure is a function that is compiled by itself (noipa), as ours are, and the body is
module_body. DIV and MOD are rounded down and an index is tested, with calls of trap; sums wrap
where gcc is told -fwrapv. DIV and MOD by a power of two are a shift and an And: from the general
form gcc makes more. A test stands where it is needed, as a macro, so that -O0 passes nothing to
functions for it. A full stack is not tested, and arguments are evaluated in gcc's order, which
shows only in which of two traps is met. What gcc is to link are read_number, write_number,
write_line and trap.
"""

import os
import sys
from dataclasses import dataclass, field

TOP = os.path.dirname(os.path.dirname(os.path.realpath(__file__)))
sys.path.insert(0, f"{TOP}/scripts")

from places import tokens  # noqa: E402

HEAD = """\
typedef int number;
number read_number(void);
void write_number(number value);
void write_line(void);
__attribute__((noreturn)) void trap(int kind);

#define element(index, length) \\
    ({ number at_ = (index); \\
       if ((unsigned)at_ >= (unsigned)(length)) trap(1); \\
       at_; })
#define quotient(x, y) \\
    ({ number x_ = (x), y_ = (y); \\
       if (y_ <= 0) trap(2); \\
       x_ / y_ - (x_ % y_ < 0); })
#define remainder_of(x, y) \\
    ({ number x_ = (x), y_ = (y); \\
       if (y_ <= 0) trap(2); \\
       number rest_ = x_ % y_; \\
       rest_ < 0 ? rest_ + y_ : rest_; })
"""
SIMPLE = {"+": "+", "-": "-", "*": "*", "&": "&&", "OR": "||"}
RELATIONS = {"=": "==", "#": "!=", "<": "<", "<=": "<=", ">": ">", ">=": ">="}
STOPS = ("PROCEDURE", "BEGIN", "END")  # what may follow all variables of a block
ADDING, MULTIPLYING = ("+", "-", "OR"), ("*", "DIV", "MOD", "&")
WORKED_OUT = {
    "+": lambda x, y: x + y,
    "-": lambda x, y: x - y,
    "*": lambda x, y: x * y,
    "DIV": lambda x, y: x // y if y > 0 else None,
    "MOD": lambda x, y: x % y if y > 0 else None,
    "&": lambda x, y: int(x and y),
    "OR": lambda x, y: int(x or y),
    "=": lambda x, y: int(x == y),
    "#": lambda x, y: int(x != y),
    "<": lambda x, y: int(x < y),
    "<=": lambda x, y: int(x <= y),
    ">": lambda x, y: int(x > y),
    ">=": lambda x, y: int(x >= y),
}


@dataclass
class Type:
    text: str  # what C calls it
    element: "Type" = None  # of an array
    length: int = 0
    fields: dict = field(default_factory=dict)  # of a record


@dataclass
class Name:
    kind: str
    text: str = ""  # in C
    type: Type = None
    number: int = None  # of a constant
    parameters: list = ()  # of a procedure, whether each is VAR


@dataclass
class Value:
    text: str
    type: Type = None
    number: int = None  # where it is known


NUMBER = Type("number")
AROUND = {
    "INTEGER": Name("type", type=NUMBER),
    "BOOLEAN": Name("type", type=NUMBER),
    "TRUE": Name("constant", number=1),
    "FALSE": Name("constant", number=0),
}


def wrapped(value):
    """The number of 32 bits that has a number's lowest ones."""
    return (value + 2**31) % 2**32 - 2**31


def literal(value):
    return str(value) if value > -(2**31) else "(-2147483647 - 1)"


def operation(sign, left, right):
    """Two values and what is done with them; known where both are."""
    number = None
    if left.number is not None and right.number is not None:
        number = WORKED_OUT[sign](left.number, right.number)
        number = None if number is None else wrapped(number)
    power = right.number or 0
    is_power = power > 0 and power & (power - 1) == 0
    if sign == "DIV" and is_power:
        text = f"({left.text} >> {power.bit_length() - 1})"
    elif sign == "MOD" and is_power:
        text = f"({left.text} & {power - 1})"
    elif sign in ("DIV", "MOD"):
        text = f"{'quotient' if sign == 'DIV' else 'remainder_of'}({left.text}, {right.text})"
    else:
        text = f"({left.text} {(SIMPLE | RELATIONS)[sign]} {right.text})"
    return Value(text, NUMBER, number)


class Translator:
    """Reads a module once, from its first token to its last, and writes C as it goes."""

    def __init__(self, source):
        self.tokens = [source[begin:end].decode() for begin, end in tokens(source)] + [""]
        self.at, self.count = 0, 0
        self.scopes = [AROUND]
        self.lines = [HEAD]
        self.depth = 0

    # ---- tokens, names and lines

    def take(self):
        self.at += 1
        return self.tokens[self.at - 1]

    def next_is(self, *wanted):
        return self.tokens[self.at] in wanted

    def skip(self, wanted):
        if not self.next_is(wanted):
            raise ValueError(f"{wanted} is wanted before {self.tokens[self.at]!r}")
        self.at += 1

    def skipped(self, wanted):
        """Goes over a token, if it is that one."""
        is_there = self.next_is(wanted)
        self.at += is_there
        return is_there

    def say(self, line):
        self.lines.append("    " * self.depth + line)

    def find(self, name):
        return next(it[name] for it in reversed(self.scopes) if name in it)

    def unique(self, name):
        self.count += 1
        return f"{name}_{self.count}"

    # ---- declarations

    def module(self):
        """The whole module as C."""
        self.skip("MODULE")
        self.take()
        self.skip(";")
        self.scopes.append({})
        self.constants_and_types()
        for it in self.variables():
            self.say(f"static {it};")
        self.procedures()
        self.block("void module_body(void)", [])
        return "\n".join(self.lines) + "\n"

    def constants_and_types(self):
        for section, stops in (("CONST", ("TYPE", "VAR", *STOPS)), ("TYPE", ("VAR", *STOPS))):
            if self.skipped(section):
                while not self.next_is(*stops):
                    name = self.take()
                    self.skip("=")
                    if section == "CONST":
                        it = Name("constant", number=self.expression().number)
                    else:
                        it = Name("type", type=self.type())
                    self.scopes[-1][name] = it
                    self.skip(";")

    def variables(self):
        """Takes the variables of a block; what comes back declares them in C."""
        found = []
        if self.skipped("VAR"):
            while not self.next_is(*STOPS):
                names, kind = self.list()
                self.skip(";")
                for name in names:
                    text = self.unique(name)
                    self.scopes[-1][name] = Name("variable", text, kind)
                    found.append(f"{kind.text} {text}")
        return found

    def procedures(self):
        while self.skipped("PROCEDURE"):
            self.procedure()
            self.skip(";")

    def list(self):
        """Names, a colon and their type."""
        names = [self.take()]
        while self.skipped(","):
            names.append(self.take())
        self.skip(":")
        return names, self.type()

    def type(self):
        if self.skipped("ARRAY"):
            length = self.expression().number
            self.skip("OF")
            it = Type(self.unique("array"), self.type(), length)
            self.say(f"typedef {it.element.text} {it.text}[{length}];")
            return it
        if self.skipped("RECORD"):
            it = Type(self.unique("record"))
            while not self.skipped("END"):
                if not self.skipped(";"):
                    names, kind = self.list()
                    it.fields |= {name: kind for name in names}
            fields = " ".join(f"{kind.text} {name}_;" for name, kind in it.fields.items())
            self.say(f"typedef struct {{ {fields} }} {it.text};")
            return it
        return self.find(self.take()).type

    def procedure(self):
        name = self.take()
        it = Name("procedure", self.unique(name))
        scope, words, it.parameters = {}, [], []
        if self.skipped("("):
            while not self.skipped(")"):
                is_lent = self.skipped("VAR")
                names, kind = self.list()
                for one in names:
                    text = self.unique(one)
                    scope[one] = Name("variable", f"(*{text})" if is_lent else text, kind)
                    words.append(f"{kind.text} {'*' if is_lent else ''}{text}")
                    it.parameters.append(is_lent)
                self.skipped(";")
        heading = f"void {it.text}({', '.join(words) or 'void'})"
        self.say(f"{heading};")
        self.scopes[-1][name] = it
        self.scopes.append(scope)
        self.skip(";")
        self.constants_and_types()
        variables = self.variables()
        self.procedures()
        self.block(heading, variables)

    def block(self, heading, variables):
        """The function of a procedure or of the module, whose scope ends here."""
        self.say(f"__attribute__((noipa)) {heading}\n{{")
        self.depth = 1
        for it in variables:
            self.say(f"{it} = {'0' if it.startswith('number ') else '{0}'};")
        if self.skipped("BEGIN"):
            self.statements()
        self.skip("END")
        self.take()
        self.depth = 0
        self.say("}")
        self.scopes.pop()

    # ---- statements

    def statements(self):
        self.statement()
        while self.skipped(";"):
            self.statement()

    def inner(self):
        self.depth += 1
        self.statements()
        self.depth -= 1

    def statement(self):
        if self.skipped("IF"):
            self.choice()
        elif self.skipped("WHILE"):
            self.say(f"while ({self.expression().text}) {{")
            self.skip("DO")
            self.inner()
            self.skip("END")
            self.say("}")
        elif self.skipped("REPEAT"):
            self.say("do {")
            self.inner()
            self.skip("UNTIL")
            self.say(f"}} while (!{self.expression().text});")
        elif not self.next_is("END", "ELSE", "ELSIF", "UNTIL", ";"):
            self.assignment_or_call()

    def choice(self):
        self.say(f"if ({self.expression().text}) {{")
        self.skip("THEN")
        self.inner()
        while self.skipped("ELSIF"):
            self.say(f"}} else if ({self.expression().text}) {{")
            self.skip("THEN")
            self.inner()
        if self.skipped("ELSE"):
            self.say("} else {")
            self.inner()
        self.skip("END")
        self.say("}")

    def assignment_or_call(self):
        if not any(self.tokens[self.at] in it for it in self.scopes):
            self.service()
        elif self.find(self.tokens[self.at]).kind == "procedure":
            it = self.find(self.take())
            given = self.arguments()
            words = [f"{'&' * lent}{one.text}" for lent, one in zip(it.parameters, given)]
            self.say(f"{it.text}({', '.join(words)});")
        else:
            target = self.designator()
            self.skip(":=")
            self.say(f"{target.text} = {self.expression().text};")

    def service(self):
        """Read, Write or WriteLn."""
        name, given = self.take(), self.arguments()
        if name == "Read":
            self.say(f"{given[0].text} = read_number();")
        elif name == "Write":
            self.say(f"write_number({given[0].text});")
        else:
            self.say("write_line();")

    def arguments(self):
        found = []
        if self.skipped("("):
            while not self.skipped(")"):
                found.append(self.expression())
                self.skipped(",")
        return found

    # ---- expressions

    def designator(self):
        """A variable or a part of one, or a constant."""
        it = self.find(self.take())
        if it.kind == "constant":
            return Value(literal(it.number), NUMBER, it.number)
        value = Value(it.text, it.type)
        while self.next_is(".", "["):
            if self.take() == ".":
                name = self.take()
                value = Value(f"{value.text}.{name}_", value.type.fields[name])
            else:
                text = f"{value.text}[element({self.expression().text}, {value.type.length})]"
                value = Value(text, value.type.element)
                self.skip("]")
        return value

    def expression(self):
        left = self.simple()
        if self.next_is(*RELATIONS):
            left = operation(self.take(), left, self.simple())
        return left

    def simple(self):
        sign = self.take() if self.next_is("+", "-") else ""
        left = self.term()
        if sign == "-":
            number = None if left.number is None else wrapped(-left.number)
            left = Value(f"(-{left.text})", NUMBER, number)
        while self.next_is(*ADDING):
            left = operation(self.take(), left, self.term())
        return left

    def term(self):
        left = self.factor()
        while self.next_is(*MULTIPLYING):
            left = operation(self.take(), left, self.factor())
        return left

    def factor(self):
        if self.skipped("~"):
            it = self.factor()
            return Value(f"(!{it.text})", NUMBER, None if it.number is None else 1 - it.number)
        if self.skipped("("):
            it = self.expression()
            self.skip(")")
            return Value(f"({it.text})", it.type, it.number)
        if self.tokens[self.at][:1].isdigit():
            text = str(int(self.take()))
            return Value(text, NUMBER, int(text))
        return self.designator()


def in_c(source):
    """The text in C of a module's bytes."""
    return Translator(source).module()


def unused(name, words):
    """A name that is none of these words."""
    names = (f"{name}{number}" for number in range(len(words) + 1))
    return next(it for it in names if it not in words)


def repeated(source, times):
    """The module with its body run so often, one run behind the other; None where it has none."""
    at = list(tokens(source))
    words = [source[begin:end].decode() for begin, end in at]
    is_behind_procedure = words[-6:-5] == ["END"] and words[-5].isalnum() and words[-4] == ";"
    if "BEGIN" not in words or is_behind_procedure:
        return None
    begin = max(number for number, word in enumerate(words) if word == "BEGIN")
    once, again, left = (unused(it, words) for it in ("Once", "Again", "left"))
    body = source[at[begin][0] : at[-3][0]].decode()
    front, name = source[: at[begin][0]].decode(), words[-2]
    return (
        f"{front}PROCEDURE {once};\n{body}\nEND {once};\nPROCEDURE {again};\n"
        f"VAR {left}: INTEGER;\nBEGIN {left} := {times};\n"
        f"WHILE {left} > 0 DO {once}; {left} := {left} - 1 END\nEND {again};\n"
        f"BEGIN {again} END {name}.\n"
    ).encode()


def main(words):
    if len(words) != 1:
        print(__doc__, file=sys.stderr)
        return 2
    with open(words[0], "rb") as file:
        print(in_c(file.read()), end="")
    return 0


if __name__ == "__main__":
    sys.exit(main(sys.argv[1:]))
