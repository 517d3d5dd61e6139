"""The form of certificates and code files: which JSON values are one, and what stands in place of
what was to be.

A complaint is a path of keys and numbers into the value, and words: what was to stand there, and
what does.
"""

import json
from dataclasses import dataclass

from checker.parts import MOST_DATA, MOST_NAME, NAME, PLACES, Certificate, code_of

CONDITIONS = (2, 3, 4, 5, 6, 7, 8, 9, 12, 13, 14, 15)
NATURAL = 0, (1 << 32) - 1  # the least and the greatest of each type of number
INTEGER = -(1 << 31), (1 << 31) - 1
LONG_NATURAL = 0, (1 << 64) - 1
LONG_INTEGER = -(1 << 63), (1 << 63) - 1
PLACE = 0, PLACES - 1

# What stands behind the name of an instruction: the letters of docs/CODE.md.
INSTRUCTIONS = {
    "set": "v c",
    "copy": "v s",
    **dict.fromkeys(("add", "sub", "and", "or", "xor", "mul"), "v s"),
    "neg": "v",
    **dict.fromkeys(("shl", "shr", "sar"), "v k"),
    "cmp": "a b",
    "cmpset": "condition v a b",
    "divmod": "q r a d",
    "check": "i n",
    "checkpos": "d",
    "load": "v address",
    "store": "address s",
    "addr": "v address",
    "push": "s",
    "call": "p",
    "read": "v",
    "write": "s",
    "line": "",
    "clear": "",
}
VARIABLES = {"param": "i", "plain": "", "constant": "c"}
ENDS = {"jump": "b", "branch": "condition b b", "return": ""}
BASES = ("global", "frame", "cell", "via")
CODE_KEYS = ("aggregates", "args", "blocks", "vars")
PROCEDURE_KEYS = (*CODE_KEYS, "bound", "caps", "mems", "routes", "ties", "total")
KEYS = ("cost", "kind", "procs", "version")
CODE_FILE_KEYS = ("data_words", "kind", "procs", "version")

NOTHING = object()  # in the place of a value, where a complaint is of none


@dataclass
class Complaint:
    path: tuple
    wanted: str
    found: object = NOTHING

    def words(self, spelled):
        """In words; spelled is the token of the text that stands there."""
        if self.found is NOTHING:
            return self.wanted
        # of a number that is no integer what was read is not what is written
        value = spelled if isinstance(self.found, float) else shown(self.found)
        return f"{self.wanted}, and here is {value}"


def shown(value, most=60):
    """A value as JSON, cut off where it is long."""
    text = json.dumps(value, separators=(",", ":"))
    return text if len(text) <= most else f"{text[: most - 3]}..."


class Reader:
    """Goes through a value, and keeps what is not as it has to be."""

    def __init__(self):
        self.complaints = []

    def complain(self, path, wanted, found):
        self.complaints.append(Complaint(path, wanted, found))

    def number(self, path, value, between, name="a whole number"):
        """An integer of a type; true and false are none, nor is what has a point."""
        least, most = between
        if type(value) is not int or not least <= value <= most:
            bare = ", without point, exponent or needless sign" if type(value) is float else ""
            self.complain(path, f"{name} from {least} to {most}{bare} is wanted", value)

    def items(self, path, value, words):
        """The items of a list."""
        if isinstance(value, list):
            return value
        self.complain(path, f"a list of {words} is wanted", value)
        return []

    def keys(self, path, value, wanted):
        """Whether a value is an object with these keys alone."""
        if not isinstance(value, dict):
            self.complain(path, "an object is wanted", value)
            return False
        for it in wanted:
            if it not in value:
                self.complaints.append(Complaint(path, f"the key {it} is missing"))
        for it in value:
            if it not in wanted:
                words = f"no key {shown(it)} may stand here"
                self.complaints.append(Complaint((*path, it), words))
        return True

    # ---- parts of code

    def named(self, path, value, table, words):
        """A list of a name of a table and what stands behind it by the table."""
        if not isinstance(value, list) or not value or not isinstance(value[0], str):
            wanted = f"{words} is wanted, a list that begins with its name"
            return self.complain(path, wanted, value)
        if value[0] not in table:
            wanted = f"the name of {words} is wanted, one of {', '.join(table)}"
            return self.complain((*path, 0), wanted, value[0])
        letters = table[value[0]].split()
        if len(letters) != len(value) - 1:
            form = shown([value[0], *letters]).replace('"', "").replace(",", " ")
            return self.complain(path, f"{form} is wanted", value)
        for at, letter in enumerate(letters, 1):
            self.operand((*path, at), value[at], letter)
        return None

    def operand(self, path, value, letter):
        if letter == "condition":
            if type(value) is not int or value not in CONDITIONS:
                numbers = ", ".join(map(str, CONDITIONS))
                self.complain(path, f"a condition is wanted, one of {numbers}", value)
        elif letter == "address":
            self.address(path, value)
        elif letter in ("c", "n"):
            self.number(path, value, INTEGER)
        elif letter == "k":
            self.number(path, value, NATURAL, "a count of bits")
        else:
            of = {"p": "a procedure", "b": "a block"}.get(letter, "a variable")
            self.number(path, value, NATURAL, f"the number of {of}")

    def address(self, path, value):
        if not isinstance(value, list) or len(value) != 4:
            return self.complain(path, "an address is wanted, [base number offset index]", value)
        base, number, offset, index = value
        if not isinstance(base, str) or base not in BASES:
            self.complain((*path, 0), f"a base is wanted, one of {', '.join(BASES)}", base)
        self.number((*path, 1), number, NATURAL)
        self.number((*path, 2), offset, INTEGER, "an offset")
        if index is not None:
            self.number((*path, 3), index, NATURAL, "an index, null or the number of a variable")
        return None

    def variable(self, path, value):
        self.named(path, value, VARIABLES, "a variable")

    def block(self, path, value):
        if not isinstance(value, list) or len(value) != 3:
            return self.complain(path, "a block is wanted, [depth instructions end]", value)
        self.number((*path, 0), value[0], NATURAL, "a depth")
        for at, item in enumerate(self.items((*path, 1), value[1], "instructions")):
            self.named((*path, 1, at), item, INSTRUCTIONS, "an instruction")
        return self.named((*path, 2), value[2], ENDS, "an end")

    # ---- a procedure, and the whole

    def entries(self, path, value, between):
        """A list of prices."""
        for at, item in enumerate(self.items(path, value, "prices")):
            if not isinstance(item, list) or len(item) != 2:
                self.complain((*path, at), "a price is wanted, [index value]", item)
                continue
            self.number((*path, at, 0), item[0], NATURAL, "an index")
            self.number((*path, at, 1), item[1], between, "a price")

    def routes(self, path, value):
        for strand, places in enumerate(self.items(path, value, "lists of places")):
            for step, place in enumerate(self.items((*path, strand), places, "places")):
                self.number((*path, strand, step), place, PLACE, "a place")

    def parts(self, path, value, keys, others):
        """A procedure with these keys; others has the readers of those that are not its code's."""
        if not self.keys(path, value, keys):
            return
        readers = {
            **dict.fromkeys(("args", "aggregates"), lambda *it: self.number(*it, NATURAL)),
            **others,
            "vars": lambda *it: self.list_of(*it, "variables", self.variable),
            "blocks": lambda *it: self.list_of(*it, "blocks", self.block),
        }
        for key, reader in readers.items():
            if key in value:
                reader((*path, key), value[key])

    def procedure(self, path, value):
        others = {
            **dict.fromkeys(("total", "bound"), lambda *it: self.number(*it, LONG_NATURAL)),
            **dict.fromkeys(("caps", "mems"), lambda *it: self.entries(*it, LONG_NATURAL)),
            "ties": lambda *it: self.entries(*it, LONG_INTEGER),
            "routes": self.routes,
        }
        self.parts(path, value, PROCEDURE_KEYS, others)

    def named_procedure(self, path, value):
        self.parts(path, value, (*CODE_KEYS, "name"), {"name": self.name})

    def name(self, path, value):
        if not isinstance(value, str) or not NAME.fullmatch(value) or len(value) > MOST_NAME:
            wanted = f"a name is wanted, a letter and then letters and digits, {MOST_NAME} at most"
            self.complain(path, wanted, value)

    def list_of(self, path, value, words, reader):
        for at, item in enumerate(self.items(path, value, words)):
            reader((*path, at), item)

    def one_of(self, value, key, wanted):
        if key in value and not (isinstance(value[key], str) and value[key] in wanted):
            self.complain((key,), " or ".join(map(shown, wanted)) + " is wanted", value[key])

    def whole(self, value, kind, reader):
        """What a value of a kind has beside its own keys."""
        self.one_of(value, "kind", (kind,))
        if "version" in value and (type(value["version"]) is not int or value["version"] != 1):
            self.complain(("version",), "the version 1 is wanted", value["version"])
        if "procs" in value:
            if value["procs"] == []:
                self.complain(("procs",), "one procedure at least is wanted", [])
            self.list_of(("procs",), value["procs"], "procedures", reader)

    def certificate(self, value):
        if self.keys((), value, KEYS):
            self.one_of(value, "cost", ("size", "speed"))
            self.whole(value, "pra-certificate", self.procedure)

    def code_file(self, value):
        if self.keys((), value, CODE_FILE_KEYS):
            if "data_words" in value:
                self.number(("data_words",), value["data_words"], (0, MOST_DATA))
            self.whole(value, "pra-code", self.named_procedure)


def complaints(value):
    """What is wrong with the form of a value as a certificate, in the order of its parts."""
    reader = Reader()
    reader.certificate(value)
    return reader.complaints


def complaints_of_code(value):
    """The same as a code file."""
    reader = Reader()
    reader.code_file(value)
    return reader.complaints


@dataclass
class Claim:
    """A procedure of a certificate, and its prices."""

    procedure: object
    caps: list  # of index and price
    mems: list
    ties: list


def claims(value):
    """The certificate of a value against whose form nothing speaks, and what it claims of each
    procedure."""
    claimed = [
        Claim(
            code_of(it, number, it["routes"], it["total"], it["bound"]),
            it["caps"],
            it["mems"],
            it["ties"],
        )
        for number, it in enumerate(value["procs"])
    ]
    return Certificate(value["cost"], [it.procedure for it in claimed]), claimed


STEPS = {
    "procs": "procedure",
    "vars": "variable",
    "blocks": "block",
    "routes": "strand",
    **dict.fromkeys(("caps", "mems", "ties"), "entry"),
}


def place_words(path):
    """A path in words, as `procedure 0, block 2, instruction 3`."""
    words, rest = [], list(path)
    while rest:
        key = rest.pop(0)
        if key in STEPS and rest:
            of = f" of {key}" if STEPS[key] == "entry" else ""
            words.append(f"{STEPS[key]} {rest.pop(0)}{of}")
            if key == "blocks" and rest:
                part = rest.pop(0)
                words += [f"instruction {rest.pop(0)}"] if part == 1 and rest else []
                words += {0: ["depth"], 2: ["end"]}.get(part, [])
        else:
            words.append(f"item {key}" if isinstance(key, int) else key)
    return ", ".join(words) or "the whole"
