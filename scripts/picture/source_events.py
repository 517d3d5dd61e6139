"""What a module's statements become, as its text tells: instructions in their order, with the names
that stand for their operands.

This is no second compiler: copies, constants and branches are left out, and what is merged or
dropped later is not known. It is as much as is needed to lay the text beside the code.
"""

RELATIONS = ("=", "#", "<", "<=", ">", ">=")
SUMS = {"+": "add", "-": "sub", "OR": ""}
PRODUCTS = {"*": "mul", "DIV": "divmod", "MOD": "divmod", "&": ""}
CLOSES = ("END", "ELSE", "ELSIF", "UNTIL", "")
CONST, TEMP = ("constant", None), ("value", None)  # what an expression comes to, or ("name", it)


class Statements:
    """Reads the statements of one procedure. Variables are the names that are variables of the
    code; constants have no place; procedures give their number and which parameters are VAR."""

    def __init__(self, words, at, variables, constants, procedures):
        self.words, self.at = words, at
        self.variables, self.constants, self.procedures = variables, constants, procedures
        self.found = []  # a kind, and the names of operands by their place

    def word(self, more=0):
        return self.words[self.at + more] if self.at + more < len(self.words) else ""

    def skip(self, *wanted):
        """Goes over a word; whether it is one of these."""
        is_there = self.word() in wanted
        self.at += is_there
        return is_there

    def tell(self, kind, **names):
        self.found.append((kind, {int(key[1:]): it for key, it in names.items() if it}))

    # ---- expressions; each gives what it comes to

    def expression(self):
        left = self.simple()
        if self.word() in RELATIONS:
            self.at += 1
            right = self.simple()
            self.tell("cmp", o0=left[1], o1=right[1])
            return TEMP
        return left

    def simple(self):
        is_negative = self.skip("-")
        self.skip("+")
        left = self.term()
        if is_negative and left != CONST:
            self.tell("neg")
            left = TEMP
        return self.operators(left, SUMS, self.term)

    def term(self):
        return self.operators(self.factor(), PRODUCTS, self.factor)

    def operators(self, left, known, operand):
        while self.word() in known:
            sign = self.word()
            self.at += 1
            right = operand()
            if left == right == CONST:
                continue
            if known[sign]:
                self.tell(known[sign], **{"o1" if known[sign] != "divmod" else "o3": right[1]})
                self.found[-1] += (sign,)
            left = TEMP
        return left

    def factor(self):
        if self.skip("("):
            inner = self.expression()
            self.skip(")")
            return inner
        if self.skip("~"):
            self.factor()
            return TEMP
        name = self.word()
        if not name[:1].isalpha() or name in self.constants:
            self.at += 1
            return CONST
        is_plain = self.designator()
        if is_plain:
            return ("name", name)
        self.tell("load")
        return TEMP

    def designator(self):
        """Goes over a variable with its selectors; whether it is a variable of the code."""
        is_plain = self.word() in self.variables and self.word(1) not in ("[", ".")
        self.at += 1
        while self.word() in ("[", "."):
            if self.skip("."):
                self.at += 1
                continue
            self.at += 1
            index = self.expression()
            if index != CONST:
                self.tell("check", o0=index[1])
            self.skip("]")
        return is_plain

    # ---- statements

    def sequence(self):
        while self.word() not in CLOSES:
            self.statement()
            self.skip(";")

    def statement(self):
        word = self.word()
        if word in ("IF", "WHILE"):
            self.conditional()
        elif self.skip("REPEAT"):
            self.sequence()
            self.skip("UNTIL")
            self.expression()
        elif word in ("Read", "Write", "WriteLn"):
            self.host_call(word)
        elif word in self.procedures:
            self.call(*self.procedures[word])
        elif word[:1].isalpha():
            self.assignment(word)
        else:
            self.at += 1

    def conditional(self):
        while self.word() in ("IF", "WHILE", "ELSIF"):
            is_loop, begin = self.word() == "WHILE", len(self.found)
            self.at += 1
            self.expression()
            middle = len(self.found)
            self.skip("THEN", "DO")
            self.sequence()
            if is_loop:  # its test stands behind its statements
                self.found[begin:] = self.found[middle:] + self.found[begin:middle]
        if self.skip("ELSE"):
            self.sequence()
        self.skip("END")

    def host_call(self, word):
        self.at += 1
        if word == "WriteLn":
            self.tell("line")
            return
        self.skip("(")
        if word == "Write":
            self.tell("write", o0=self.expression()[1])
        else:
            name = self.word()
            is_plain = self.designator()
            self.tell("read", o0=name if is_plain else None)
            if not is_plain:
                self.tell("store")
        self.skip(")")

    def call(self, number, by_var):
        self.at += 1
        given = []
        if self.skip("("):
            for is_var in by_var:
                if is_var:
                    self.designator()
                    self.tell("addr")
                    given.append(None)
                else:
                    given.append(self.expression()[1])
                self.skip(",")
            self.skip(")")
        for name in given:
            self.tell("push", o0=name)
        self.tell(f"call {number}")

    def assignment(self, name):
        is_plain = self.designator()
        if not self.skip(":="):
            self.at += 1
            return
        before = len(self.found)
        value = self.expression()
        if not is_plain:
            self.tell("store", o1=value[1])
        elif value == CONST:
            self.tell("set", o0=name)
        elif value[0] == "name":
            self.tell("copy", o0=name, o1=value[1])
        elif len(self.found) > before:
            kind, names, *sign = self.found[-1]
            place = 1 if sign == ["MOD"] else 0
            if kind != "cmp":
                self.found[-1] = (kind, {**names, place: name})
