"""The machine of selected code, told anew in Python after the definitions of vc_code.

A value is a number, an int from 0 to 2^32 - 1, or an address, an `At`; None is nothing.
"""

from dataclasses import dataclass

WORD = 1 << 32
STACK_LIMIT = 1048576  # bytes that the frames of all live calls may have together
DATA = ("data",)  # the object of the module's data


@dataclass(frozen=True)
class At:
    """An address: an object, and an offset in bytes. An object is DATA, the aggregates of a call,
    ("aggregates", calls below, bytes of frames), or an argument's cell, ("cell", calls below, bytes
    of the frames below, argument)."""

    object: tuple
    offset: int


class Trap(Exception):
    """A trap: Index, Divide, Input or Stack."""


class Stuck(Exception):
    """The next step means nothing: address, nothing, access or divide."""


def word(number):
    return number % WORD


def signed(a):
    return a - WORD if a >> 31 else a


CONDITIONS = {
    2: lambda a, b: a < b,
    3: lambda a, b: a >= b,
    4: lambda a, b: a == b,
    5: lambda a, b: a != b,
    6: lambda a, b: a <= b,
    7: lambda a, b: a > b,
    8: lambda a, b: (a - b) % WORD >> 31 == 1,
    9: lambda a, b: (a - b) % WORD >> 31 == 0,
    12: lambda a, b: signed(a) < signed(b),
    13: lambda a, b: signed(a) >= signed(b),
    14: lambda a, b: signed(a) <= signed(b),
    15: lambda a, b: signed(a) > signed(b),
}
ARITHMETIC = {
    "add": lambda a, b: a + b,
    "sub": lambda a, b: a - b,
    "mul": lambda a, b: a * b,
    "and": lambda a, b: a & b,
    "or": lambda a, b: a | b,
    "xor": lambda a, b: a ^ b,
}
SHIFTS = {
    "shl": lambda a, n: a << n,
    "shr": lambda a, n: a >> n,
    "sar": lambda a, n: signed(a) >> n,
}


def truncated(a, d):
    """Quotient and remainder of signed numbers, the quotient rounded to 0."""
    quotient = abs(a) // abs(d)
    quotient = -quotient if (a < 0) != (d < 0) else quotient
    return quotient, a - quotient * d


def number(value):
    """The number that a value is."""
    if isinstance(value, At):
        raise Stuck("address")
    return value


class Call:
    """A live call: where it stands, and what its variables, aggregates and arguments hold."""

    def __init__(self, number_of_procedure, code, args):
        self.procedure, self.code, self.args = number_of_procedure, code, args
        self.aggregates = [None] * code.aggregates
        self.block, self.index = 0, 0
        self.held = [self.first(it) for it in code.variables]
        self.homes = {it.value for it in code.variables if it.kind == "param"}

    def first(self, variable):
        """What a variable holds where the call begins."""
        if variable.kind == "constant":
            return word(variable.value)
        return self.args[variable.value] if variable.kind == "param" else None


@dataclass
class Outcome:
    ending: str  # `ended`, `trap KIND`, `stuck KIND procedure P block B instruction I`, `going`
    out: str
    steps: int
    taken: int
    cleared: int = 0  # words of frames, by `clear`

    def line(self):
        return f"{self.ending} steps {self.steps} reads {self.taken}"


class Machine:
    """A run of a code file, with the bytes of each procedure's frame, on some numbers."""

    def __init__(self, file, frames, numbers=()):
        self.procedures, self.frames = file.procedures, frames
        self.data = [0] * file.data_words
        self.numbers, self.taken = [word(it) for it in numbers], 0
        self.calls, self.sums = [], []  # of each live call the bytes of its frame and those below
        self.pushed, self.compared = [], None
        self.out, self.steps, self.cleared = [], 0, 0
        self.begin(0, [])

    def begin(self, p, args):
        below = self.sums[-1] if self.sums else 0
        self.calls.append(Call(p, self.procedures[p], args))
        self.sums.append(below + self.frames[p])

    def run(self, steps):
        """So many steps, fewer where the run ends before."""
        while self.steps < steps:
            self.steps += 1
            try:
                self.step()
            except Trap as trap:
                return self.outcome(f"trap {trap}")
            except Stuck as stuck:
                top = self.calls[-1]
                where = f"procedure {top.procedure} block {top.block} instruction {top.index}"
                return self.outcome(f"stuck {stuck} {where}")
            if not self.calls:
                return self.outcome("ended")
        return self.outcome("going")

    def outcome(self, ending):
        return Outcome(ending, "".join(self.out), self.steps, self.taken, self.cleared)

    # ---- a step

    def step(self):
        top = self.calls[-1]
        block = top.code.blocks[top.block]
        if top.index == len(block.code):
            self.leave(top, block.end)
            return
        op, *operands = block.code[top.index]
        compared, self.compared = self.compared, None  # only cmp leaves what it compared
        try:
            if op in ARITHMETIC:
                self.compute(op, *operands)
            elif op in SHIFTS:
                self.shift(op, *operands)
            else:
                getattr(self, f"do_{op}")(*operands)
        except (Trap, Stuck):
            self.compared = compared
            raise
        top.index += 1

    def leave(self, top, end):
        if end[0] == "return":
            self.calls.pop()
            self.sums.pop()
        elif end[0] == "jump":
            top.block, top.index = end[1], 0
        else:
            _, condition, yes, no = end
            holds = CONDITIONS[condition](*self.compared)
            top.block, top.index = yes if holds else no, 0
        self.compared = None

    # ---- operands

    def read(self, *variables):
        """What variables hold, which has to be something."""
        held = [self.calls[-1].held[v] for v in variables]
        if None in held:
            raise Stuck("nothing")
        return held

    def numbers_in(self, *variables):
        return [number(it) for it in self.read(*variables)]

    def write(self, v, value):
        self.calls[-1].held[v] = value

    def address(self, address, *behind):
        """The object and the offset that an address means, and what variables behind it hold."""
        base, n, offset, index = address
        variables = ([n] if base == "via" else []) + ([] if index is None else [index])
        held = self.read(*variables, *behind)
        top, calls = self.sums[-1], len(self.calls) - 1
        if base == "via":
            at = held.pop(0)
            if not isinstance(at, At):
                raise Stuck("access")
        elif base == "global":
            at = At(DATA, 4 * n)
        elif base == "frame":
            at = At(("aggregates", calls, top), 4 * n)
        else:
            at = At(("cell", calls, self.sums[-2] if calls else 0, n), 0)
        words = number(held.pop(0)) if index is not None else 0
        return At(at.object, word(at.offset + word(offset) + 4 * words)), held

    # ---- objects

    def words_of(self, it):
        """The words of an object, none where no live call has it, and the index of the first."""
        if it == DATA:
            return self.data, 0, len(self.data)
        kind, calls, frames, *argument = it
        if calls >= len(self.calls):
            return [], 0, 0
        call = self.calls[calls]
        if kind == "aggregates":
            count = len(call.aggregates) if self.sums[calls] == frames else 0
            return call.aggregates, 0, count
        below = self.sums[calls - 1] if calls else 0
        is_there = below == frames and argument[0] not in call.homes
        return call.args, argument[0], int(is_there and argument[0] < len(call.args))

    def place(self, at):
        """A list, and the index in it of the word at an address."""
        words, first, count = self.words_of(at.object)
        if at.offset % 4 or at.offset // 4 >= count:
            raise Stuck("access")
        return words, first + at.offset // 4

    # ---- instructions

    def do_set(self, v, n):
        self.write(v, word(n))

    def do_copy(self, v, s):
        self.write(v, *self.read(s))

    def compute(self, op, v, s):
        self.write(v, word(ARITHMETIC[op](*self.numbers_in(v, s))))

    def do_neg(self, v):
        (a,) = self.numbers_in(v)
        self.write(v, word(-a))

    def shift(self, op, v, n):
        (a,) = self.numbers_in(v)
        self.write(v, word(SHIFTS[op](a, n % 32)))

    def do_cmp(self, a, b):
        self.compared = self.numbers_in(a, b)

    def do_cmpset(self, condition, v, a, b):
        self.write(v, int(CONDITIONS[condition](*self.numbers_in(a, b))))

    def do_divmod(self, q, r, a, d):
        a, d = map(signed, self.numbers_in(a, d))
        if d <= 0:
            raise Stuck("divide")
        quotient, remainder = truncated(a, d)
        self.write(q, word(quotient))
        self.write(r, word(remainder))

    def do_check(self, i, n):
        (i,) = self.numbers_in(i)
        if not 0 <= signed(i) < n:
            raise Trap("Index")

    def do_checkpos(self, d):
        (d,) = self.numbers_in(d)
        if signed(d) <= 0:
            raise Trap("Divide")

    def do_load(self, v, address):
        at, _ = self.address(address)
        words, index = self.place(at)
        if words[index] is None:
            raise Stuck("nothing")
        self.write(v, number(words[index]))

    def do_store(self, address, s):
        at, (value,) = self.address(address, s)
        value = number(value)
        words, index = self.place(at)
        words[index] = value

    def do_addr(self, v, address):
        at, _ = self.address(address)
        self.write(v, at)

    def do_push(self, s):
        self.pushed += self.read(s)

    def do_call(self, p):
        if self.sums[-1] + self.frames[p] > STACK_LIMIT:
            raise Trap("Stack")
        args, self.pushed = self.pushed, []
        self.begin(p, args)

    def do_read(self, v):
        if self.taken == len(self.numbers):
            raise Trap("Input")
        self.write(v, self.numbers[self.taken])
        self.taken += 1

    def do_write(self, s):
        (a,) = self.numbers_in(s)
        self.out.append(f" {signed(a)}")

    def do_line(self):
        self.out.append("\n")

    def do_clear(self):
        words = self.calls[-1].aggregates
        words[:] = [0] * len(words)
        self.cleared += len(words)


def run(file, numbers=(), frames=None, steps=10000000):
    """What the run of a code file comes to, by the frames that are given, or the least ones."""
    return Machine(file, frames or file.least_frames(), numbers).run(steps)
