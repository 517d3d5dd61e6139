"""Reads the text of a code file, as `code_text` writes it or as somebody wrote it by hand.

What no line of such a text is, is told with its line, all of it at once. Of a text whose every line
is one the rules of code are asked, and what breaks one is told with its line too.
"""

import difflib
import re

from checker import given
from pranet import code_file
from pranet.certificate import ARITHMETIC, CONDITIONS, RELATIONS, code_of
from pranet.code_text import Numbers

COMMENT = ";"
NATURAL = 0, (1 << 32) - 1
INTEGER = -(1 << 31), (1 << 31) - 1
DATA = 0, code_file.MOST_DATA
# A sign is the number's where nothing that could be an operand stands right before it.
TOKEN = re.compile(
    r"[A-Za-z][A-Za-z0-9]*|(?:(?<![A-Za-z0-9\]])-)?[0-9]+|:=|<=|>=|[-+*&|^<>=#,\[\]]"
)
SIGNS = {sign: name for name, sign in ARITHMETIC.items()}
SHIFTS = ("shl", "shr", "sar")
CONDITION_OF = {words: number for number, words in (CONDITIONS | RELATIONS).items()}
BASES = {"data": "global", "frame": "frame", "argument": "cell"}
OPERAND = r"(-?[0-9]+|[A-Za-z][A-Za-z0-9]*)"
# What words in capitals stand for in a form.
KINDS = {
    "VARIABLE": r"([A-Za-z][A-Za-z0-9]*)",
    "OPERAND": OPERAND,
    "NUMBER": r"(-?[0-9]+)",
    "ADDRESS": r"([^\[\]:]+)",
    "SIGN": f"({'|'.join(map(re.escape, SIGNS))})",
    "SHIFT": f"({'|'.join(SHIFTS)})",
    "RELATION": f"({'|'.join(map(re.escape, CONDITION_OF))})",
}
ADDRESS = re.compile(
    rf"(?:(data|frame|argument) ([0-9]+)|{OPERAND})(?: \+ 4 \* {OPERAND})?(?: ([+-]) ([0-9]+))?"
)
# What each instruction and each end is written like. A line has the first form that fits.
FORMS = (
    ("set", "VARIABLE := NUMBER"),
    ("read", "VARIABLE := read"),
    ("addr", "VARIABLE := address ADDRESS"),
    ("load", "VARIABLE := [ ADDRESS ]"),
    ("neg", "VARIABLE := - VARIABLE"),
    ("shift", "VARIABLE := VARIABLE SHIFT NUMBER"),
    ("copy", "VARIABLE := VARIABLE"),
    ("arithmetic", "VARIABLE := OPERAND SIGN OPERAND"),
    ("cmpset", "VARIABLE := OPERAND RELATION OPERAND"),
    ("divmod", "VARIABLE , VARIABLE := OPERAND divided by OPERAND"),
    ("store", "[ ADDRESS ] := OPERAND"),
    ("cmp", "compare OPERAND , OPERAND"),
    ("check", "check 0 <= OPERAND < NUMBER"),
    ("checkpos", "check OPERAND > 0"),
    ("push", "push OPERAND"),
    ("call", "call procedure NUMBER"),
    ("write", "write OPERAND"),
    ("line", "write a line"),
    ("clear", "clear the frame"),
    ("jump", "go on with block NUMBER"),
    ("branch", "if RELATION go on with block NUMBER , else with block NUMBER"),
    ("return", "return"),
)
ENDS = ("jump", "branch", "return")
HEADS = {
    "data": (r"data words ([0-9]+)", "data words NUMBER"),
    "procedure": (
        r"procedure ([0-9]+) ([A-Za-z][A-Za-z0-9]*)"
        r"(?: , ([0-9]+) arguments?)?(?: , ([0-9]+) aggregate words?)?",
        "procedure NUMBER NAME, NUMBER arguments, NUMBER aggregate words",
    ),
    "block": (r"block ([0-9]+)(?: , ([0-9]+) loops?)?", "block NUMBER, NUMBER loops"),
}
ASSIGNED = (
    "behind := stand a number, a variable, `-` and a variable, `read`, an address in brackets,"
    " `address` and one, two operands with one of + - & | ^ * = # < <= > >= between, or a variable,"
    " one of shl shr sar, and a number"
)


def compiled(form):
    """What matches a line that has a form, whose tokens have a blank between each two."""
    return re.compile(" ".join(KINDS.get(it) or re.escape(it) for it in form.split()))


def by_first_word():
    """The forms by their first word, or by nothing where that is an operand or a bracket: what
    matches each, the kinds of its parts, its name, and the form."""
    found = {}
    for name, form in FORMS:
        first = form.split()[0] if form[0].islower() else ""
        kinds = [it for it in form.split() if it in KINDS]
        found.setdefault(first, []).append((compiled(form), kinds, name, form))
    return found


BY_FIRST = by_first_word()
RESERVED = {*BY_FIRST, *HEADS, *BASES, "variables", "read", "address"}


class Wrong(Exception):
    """What is wrong with a line."""


def tokens_of(line):
    """The tokens of a line without its comment."""
    found, at, line = [], 0, line.partition(COMMENT)[0].rstrip()
    while at < len(line):
        if line[at].isspace():
            at += 1
            continue
        token = TOKEN.match(line, at)
        if not token:
            raise Wrong(f"{line[at]!r} stands in no line of code")
        found.append(token[0])
        at = token.end()
    return found


def number_of(text, between=NATURAL):
    """The number that digits are, with a sign or without."""
    least, most = between
    if len(text) > 20 or not least <= int(text) <= most:
        raise Wrong(f"{text[:20]} is no number from {least} to {most}")
    return int(text)


def near(word, known):
    found = difflib.get_close_matches(word, known, 1, 0.6)
    return f"; did you mean {found[0]}?" if found else ""


class Draft:
    """A procedure as far as it was read."""

    def __init__(self, number, name, args, aggregates, line):
        self.number, self.name, self.line = number, name, line
        self.args, self.aggregates = args, aggregates
        self.variables, self.blocks, self.numbers = [], [], Numbers()
        self.known, self.called = {}, {}  # variables by what the text calls them, and back
        self.lines = {}  # of variables, blocks, instructions and ends

    # ---- variables

    def declare(self, name, kind, line):
        if name in RESERVED:
            raise Wrong(f"`{name}` means something else here, and is no name of a variable")
        if name in self.known:
            raise Wrong(f"`{name}` is a variable already")
        self.known[name] = self.add(kind, line)
        if name != f"v{self.known[name]}":
            self.called[self.known[name]] = name

    def add(self, kind, line):
        v = len(self.variables)
        self.variables.append(kind)
        self.lines["variable", v] = line
        if kind[0] == "constant":
            self.numbers.add(v, kind[1])
        return v

    def variable(self, name):
        if name not in self.known:
            raise Wrong(f"`{name}` is no variable of this procedure{near(name, self.known)}")
        self.numbers.name(self.known[name])
        return self.known[name]

    def operand(self, text, line):
        """A variable by its name, or that of a number, which is made where there is none."""
        if text[0].isalpha():
            return self.variable(text)
        number = number_of(text, INTEGER)
        v = self.numbers.next(number)
        v = self.add(["constant", number], line) if v is None else v
        self.numbers.name(v)
        return v

    # ---- instructions

    def address(self, text, line):
        found = ADDRESS.fullmatch(text)
        if not found:
            said = "`data NUMBER`, `frame NUMBER`, `argument NUMBER` or a variable"
            raise Wrong(f"an address is {said}, then maybe `+ 4*INDEX` and `+ OFFSET`")
        base, number, via, index, sign, offset = found.groups()
        first = [BASES[base], number_of(number)] if base else ["via", self.operand(via, line)]
        index = self.operand(index, line) if index else None
        sign = "-" if sign == "-" else ""
        return [*first, number_of(f"{sign}{offset or 0}", INTEGER), index]

    def part(self, kind, text, line, name):
        if kind == "VARIABLE":
            return self.variable(text)
        if kind == "OPERAND":
            return self.operand(text, line)
        if kind == "NUMBER":
            return number_of(text, INTEGER if name in ("set", "check") else NATURAL)
        if kind == "ADDRESS":
            return self.address(text, line)
        if kind == "SHIFT":
            return text
        return SIGNS[text] if kind == "SIGN" else CONDITION_OF[text]

    def instruction(self, tokens, line):
        """The instruction, or the end, that a line is."""
        first = tokens[0] if tokens[0] in BY_FIRST else ""
        text = " ".join(tokens)
        for matches, kinds, name, _ in BY_FIRST[first]:
            if found := matches.fullmatch(text):
                parts = zip(kinds, found.groups(), strict=True)
                return ordered(name, [self.part(*it, line, name) for it in parts])
        if first:
            forms = " or ".join(f"`{form}`" for *_, form in BY_FIRST[first])
            raise Wrong(f"a line with `{first}` is {forms.replace(' ,', ',')}")
        if ":=" in tokens:
            raise Wrong(ASSIGNED)
        words = [it for it in (*BY_FIRST, *HEADS, "variables") if it]
        raise Wrong(f"no line of code begins with `{tokens[0]}`{near(tokens[0], words)}")

    def open_block(self):
        """The block that was begun and has no end yet, or None."""
        return self.blocks[-1] if self.blocks and self.blocks[-1][2] is None else None

    def take(self, tokens, line):
        """Takes a line as one of the block that was begun."""
        if not self.blocks:
            raise Wrong("an instruction stands in a block, and here none was begun")
        ins, number = self.instruction(tokens, line), len(self.blocks) - 1
        block = self.open_block()
        if block is None:
            ended = self.lines["end", number]
            raise Wrong(f"block {number} ends with line {ended}, and nothing of it stands behind")
        if ins[0] in ENDS:
            block[2], self.lines["end", number] = ins, line
        else:
            self.lines[number, len(block[1])] = line
            block[1].append(ins)

    def procedure(self):
        value = {"args": self.args, "aggregates": self.aggregates, "vars": self.variables}
        made = code_of(value | {"blocks": self.blocks}, self.number)
        made.called = self.called
        return made

    def line_of(self, words):
        """The line that the words of a rule are about."""
        if found := re.search(r"\binstruction (\d+) of block (\d+)", words):
            return self.lines[int(found[2]), int(found[1])]
        for key, pattern in (
            ("end", r"\bthe end of block (\d+)"),
            ("block", r"\bblock (\d+)"),
            ("variable", r"\bvariables? (\d+)"),
        ):
            if (found := re.search(pattern, words)) and (key, int(found[1])) in self.lines:
                return self.lines[key, int(found[1])]
        return self.line


def ordered(name, parts):
    """An instruction of the parts of a line, which stand there in another order."""
    if name == "arithmetic":
        target, left, sign, right = parts
        if target != left:
            raise Wrong("a result takes the place of its first operand, as in `v0 := v0 + v1`")
        return [sign, target, right]
    if name == "neg":
        if parts[0] != parts[1]:
            raise Wrong("a negative takes the place of its operand, as in `v0 := -v0`")
        return [name, parts[0]]
    if name == "shift":
        target, shifted, sign, count = parts
        if target != shifted:
            raise Wrong("a shift takes the place of its operand, as in `v0 := v0 shl 3`")
        return [sign, target, count]
    if name == "cmpset":
        target, left, condition, right = parts
        return [name, condition, target, left, right]
    return [name, *parts]


class Reader:
    """Goes through the lines of a text, and keeps what is wrong with them."""

    def __init__(self, name):
        self.name, self.wrong = name, []  # lines with words
        self.data_words, self.drafts = None, []

    def read(self, text):
        number = 0
        for number, line in enumerate(text.split("\n"), 1):
            try:
                if tokens := tokens_of(line):
                    self.take(tokens, number)
            except Wrong as wrong:
                self.wrong.append((number, str(wrong)))
        self.close_block()
        if self.data_words is None:
            self.wrong.append((1, "`data words NUMBER` is missing, the first line of all"))
        if not self.drafts:
            self.wrong.append((number, "there is no procedure"))
        self.tell()

    def tell(self):
        """Broken where something is wrong."""
        lines = [f"{self.name}:{line}: {words}" for line, words in sorted(self.wrong)]
        if lines:
            raise given.Broken(given.told(lines, "lines"))

    def take(self, tokens, line):
        match tokens[0]:
            case "data" | "procedure" | "block":
                getattr(self, tokens[0])(self.parts(tokens), line)
            case "variables":
                self.variables(tokens[1:], line)
            case _:
                self.draft("an instruction").take(tokens, line)

    def parts(self, tokens):
        """The parts of the head of a procedure or of a block, or of the first line."""
        pattern, form = HEADS[tokens[0]]
        found = re.fullmatch(pattern, " ".join(tokens))
        if not found:
            raise Wrong(f"a line with `{tokens[0]}` is `{form}`")
        return found.groups()

    def draft(self, what):
        """The procedure that was begun."""
        if not self.drafts:
            raise Wrong(f"{what} stands in a procedure, and here none was begun")
        return self.drafts[-1]

    def close_block(self):
        """Notes where the block that was begun has no end."""
        draft = self.drafts[-1] if self.drafts else None
        if draft and draft.open_block() is not None:
            number = len(draft.blocks) - 1
            words = f"block {number} has no end: its last line is `go on ..`, `if ..` or `return`"
            self.wrong.append((draft.lines["block", number], words))

    # ---- heads

    def data(self, parts, _):
        if self.data_words is not None or self.drafts:
            raise Wrong("`data words NUMBER` stands once, before all procedures")
        self.data_words = 0  # in place of a number that is none
        self.data_words = number_of(parts[0], DATA)

    def procedure(self, parts, line):
        self.close_block()
        number, name, args, aggregates = parts
        draft = Draft(len(self.drafts), name, 0, 0, line)
        self.drafts.append(draft)
        draft.args, draft.aggregates = number_of(args or "0"), number_of(aggregates or "0")
        if number_of(number) != draft.number:
            raise Wrong(f"this is procedure {draft.number}, by those before it")
        if len(name) > code_file.MOST_NAME:
            raise Wrong(f"a name has {code_file.MOST_NAME} letters and digits at most")

    def block(self, parts, line):
        draft = self.draft("a block")
        self.close_block()
        block = [0, [], None]
        draft.lines["block", len(draft.blocks)] = line
        draft.blocks.append(block)
        block[0] = number_of(parts[1] or "0")
        if number_of(parts[0]) != len(draft.blocks) - 1:
            raise Wrong(f"this is block {len(draft.blocks) - 1}, by those before it")

    def variables(self, tokens, line):
        draft = self.draft("a variable")
        if draft.blocks:
            raise Wrong("variables stand before the first block of their procedure")
        for text in " ".join(tokens).split(" , "):
            found = re.fullmatch(
                r"([A-Za-z][A-Za-z0-9]*)(?: = (?:(-?[0-9]+)|argument ([0-9]+)))?", text
            )
            if not found:
                raise Wrong("a variable is `NAME`, `NAME = argument NUMBER` or `NAME = NUMBER`")
            name, number, argument = found.groups()
            kind = ["plain"]
            kind = ["constant", number_of(number, INTEGER)] if number else kind
            kind = ["param", number_of(argument)] if argument else kind
            draft.declare(name, kind, line)

    # ---- the whole

    def code(self):
        """The code file of a text whose every line is one; Broken where it breaks a rule."""
        procedures = [it.procedure() for it in self.drafts]
        if len(procedures) > code_file.MOST_PROCEDURES:
            most = code_file.MOST_PROCEDURES
            raise given.over_a_limit(self.name, len(procedures), most, "procedures")
        for number, words in given.against_code_file(procedures):
            draft = self.drafts[number]
            head = f"procedure {number}, code"
            self.wrong += [(draft.line_of(it), f"{head}: {it}") for it in words]
        self.tell()
        return code_file.CodeFile(self.data_words, [it.name for it in self.drafts], procedures)


def read(name, data):
    """The code file of a text, which is that of the file of this name."""
    reader = Reader(name)
    reader.read(data.decode("utf-8", errors="replace"))
    return reader.code()
