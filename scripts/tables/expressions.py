"""Expressions, variables and conditions, each as a statement of a procedure that has all kinds of
variables; operators on extreme numbers; and expressions that are drawn.

Between the expressions of a row stands `|`, and behind `->` what they come to.
"""

import operator
import random

from tables import modules, rows

# P is called by C, whose local is lent to it beside an element, an array in an array and a field.
# Behind the row P lends a parameter and a local of its own, so that these have addresses.
BEFORE = """MODULE M;
CONST least = -2147483647 - 1; greatest = 2147483647; minus = -1; seven = -7;
TYPE Row = ARRAY 3 OF INTEGER; Rec = RECORD x: INTEGER; t: BOOLEAN; a: Row END;
VAR x, y, h: INTEGER; b: BOOLEAN; a: Row; r: Rec; g: ARRAY 2 OF Row; k: ARRAY 3 OF Rec;
PROCEDURE Lend(VAR v: INTEGER); BEGIN END Lend;
PROCEDURE P(n, c: INTEGER; q: BOOLEAN; VAR v: INTEGER; VAR w: Row; VAR e: Rec; VAR f: BOOLEAN);
VAR i, d: INTEGER; s: BOOLEAN; u: Row; z: Rec;
BEGIN
  i := 1; d := 50; u[0] := 51; u[1] := 52; u[2] := 53;
  z.x := 54; z.t := TRUE; z.a[0] := 56; z.a[1] := 57; z.a[2] := 58;
"""
BEHIND = """  Lend(c); Lend(d)
END P;
PROCEDURE C; VAR l: INTEGER; BEGIN l := 60; P(2, 40, TRUE, l, g[1], k[2], r.t); Lend(l) END C;
BEGIN
  x := 7; y := -7; h := 3; b := TRUE; a[0] := 1; a[1] := 2;
  r.x := greatest; r.a[0] := 108; r.a[1] := 109; r.a[2] := 110;
  g[0][0] := 111; g[0][1] := 112; g[0][2] := 113; g[1][0] := 114; g[1][1] := 115; g[1][2] := 116;
  k[0].x := 117; k[0].t := TRUE; k[0].a[0] := 119; k[0].a[1] := 120; k[0].a[2] := 121;
  k[1].x := least; k[1].a[1] := 1; k[1].a[2] := minus;
  k[2].x := 127; k[2].t := TRUE; k[2].a[0] := 129; k[2].a[1] := 130; k[2].a[2] := 131;
  C
END M.
"""
FORMS = {  # of a table: how its expressions stand in a statement, and what is told behind values
    "VALUES": [("  Write(@); WriteLn", " ended 0")],
    "VARIABLES": [("  Write(@); WriteLn; Read(@); Write(@)", " 5 ended 1")],
    "CONDITIONS": [
        ("  IF @ THEN Write(1) ELSE Write(0) END; WriteLn", " ended 0"),
        ("  s := @; IF s THEN Write(1) ELSE Write(0) END; WriteLn", " ended 0"),
    ],
}
GIVEN = "5"


def tables():
    """Each row of each table, with the table's name."""
    name = ""
    for line in rows.lines_of("expressions"):
        if line.startswith("# "):
            name = line[2:]
        else:
            yield name, line


def told(values, behind):
    """What the module of a row comes to: a trap, or its values, a line each."""
    if values.startswith("trap"):
        return f" {values} 0"
    return "".join(f" {it}/" for it in values.split(" ")) + behind


def differences(name, line):
    """What is not as a row says; of one without values, where image and meaning differ."""
    row, _, values = line.partition(" -> ")
    for statement, behind in FORMS[name]:
        lines = [statement.replace("@", it) + ";\n" for it in row.split("|")]
        found = list(modules.comes_to(BEFORE + "".join(lines) + BEHIND, GIVEN))
        wanted = modules.counted(told(values, behind)) if values else found[1]
        if found != [wanted, wanted]:
            yield f"{statement}: {found}"


# ---- operators

LEAST, GREATEST = -(1 << 31), (1 << 31) - 1
OPERANDS = {  # as constants, and as variables
    **{"0": 0, "1": 1, "minus": -1, "least": LEAST, "greatest": GREATEST, "3": 3, "seven": -7},
    **{"k[1].a[0]": 0, "i": 1, "k[1].a[n]": -1, "k[i].x": LEAST, "r.x": GREATEST, "h": 3, "y": -7},
}
OPERATORS = {
    "VALUES": {
        "*": operator.mul,
        "DIV": operator.floordiv,
        "MOD": operator.mod,
        "+": operator.add,
        "-": operator.sub,
    },
    "CONDITIONS": {
        "=": operator.eq,
        "#": operator.ne,
        "<": operator.lt,
        "<=": operator.le,
        ">": operator.gt,
        ">=": operator.ge,
    },
}


def wrapped(number):
    """A number as a word of 32 bits with a sign."""
    return (int(number) - LEAST) % (1 << 32) + LEAST


def pairs():
    """Rows of each operator between an operand and each, in one where it has a value, and one for
    each trap."""
    for table, operators in OPERATORS.items():
        for name, of in operators.items():
            for left, x in OPERANDS.items():
                texts, values = [], []
                for right, y in OPERANDS.items():
                    if name in ("DIV", "MOD") and y <= 0:
                        yield table, f"{left} {name} {right} -> trap Divide"
                    else:
                        texts.append(f"{left} {name} {right}")
                        values.append(str(wrapped(of(x, y))))
                yield table, f"{'|'.join(texts)} -> {' '.join(values)}"


# ---- expressions that are drawn

NUMBERS = "0 1 2 3 minus least greatest x y n c i d v a[0] a[n] w[i] e.x z.a[i] u[n] r.a[1] k[i].x \
g[i][n]".split()
TRUTHS = "TRUE FALSE b s q f r.t k[i].t e.t z.t".split()
SUMS, COMPARISONS, JUNCTIONS = "+ - * DIV MOD", "= # < <= > >=", "& OR = #"
AROUND = {4: "a[@ MOD 3]", 5: "w[@]", 6: "(-@)"}


class Draft:
    """Expressions that were made and wait for an operator."""

    def __init__(self, seed):
        self.random = random.Random(seed)
        self.waiting = {"VALUES": [], "CONDITIONS": []}

    def taken(self, table):
        """The expression that was made last, or a new one."""
        waiting, words = self.waiting[table], NUMBERS if table == "VALUES" else TRUTHS
        return waiting.pop() if waiting else self.random.choice(words)

    def joined(self, table, operators):
        right, left = self.taken(table), self.taken(table)
        return f"({left} {self.random.choice(operators.split())} {right})"

    def add(self):
        """Makes one more."""
        way = self.random.randrange(11)
        if way < 2:
            self.waiting["VALUES"].append(self.random.choice(NUMBERS))
        elif way < 4:
            self.waiting["VALUES"].append(self.joined("VALUES", SUMS))
        elif way < 7:
            self.waiting["VALUES"].append(AROUND[way].replace("@", self.taken("VALUES")))
        elif way < 9:
            self.waiting["CONDITIONS"].append(self.joined("VALUES", COMPARISONS))
        elif way < 10:
            self.waiting["CONDITIONS"].append(f"~{self.taken('CONDITIONS')}")
        else:
            self.waiting["CONDITIONS"].append(self.joined("CONDITIONS", JUNCTIONS))

    def rows(self, count):
        """Rows of values, and of conditions, without what comes of them."""
        for _ in range(count):
            for table in self.waiting:
                for _ in range(12):
                    self.add()
                yield table, self.taken(table)
