#!/usr/bin/env python3
"""Writes a code file that no module gives, and that keeps all rules.

    random_codes.py SEED            the code file
    random_codes.py SEED --input    the numbers that it is to be run on

There are calls with up to 32 arguments and calls of itself, addresses that are passed about, words
of data, of frames and of arguments' cells, few variables or hundreds, loops in each other and
blocks that lead anywhere, so that loops have many entries. The same seed writes the same file. Some
runs meet a trap, and some are stuck, by each cause that code which keeps the rules may have.
"""

import sys

from branches import Draws
from selected.file import text_of, value_of

EDGES = (0, 1, -1, 2, 3, 4, 255, 4096, 65536, 46341, 2**30, 2**31 - 1, -(2**31), -(2**31) + 1)
ARITHMETIC = ("add", "sub", "and", "or", "xor", "mul")
SHIFTS = ("shl", "shr", "sar")
CONDITIONS = (2, 3, 4, 5, 6, 7, 8, 9, 12, 13, 14, 15)
GREATER, AT_MOST = 15, 14
NUMBER, ADDRESS = "number", "address"
DATA_WORDS = (0, 1, 2, 5, 16, 16, 16, 100, 100, 4000)
AGGREGATES = (0, 0, 1, 3, 8, 16, 40, 300)
NUMBERS = (2, 3, 4, 6, 8, 8, 12, 20, 40, 150)  # variables that hold numbers
ARGUMENTS = (0, 1, 1, 2, 2, 3, 4, 6, 10, 31, 32)
MOST_WORK, MOST_OF_CALLEE = 9000, 500  # steps that procedure 0 and any other may take, about
HUGE = 20000  # words of a frame with which few calls fill the stack

# What makes a run end otherwise: traps, and causes for which it is stuck.
HAZARDS = ("Index", "Divide", "Input", "Stack", "address", "access", "divide")


class Shape:
    """What callers know of a procedure: what its arguments are, how many words those have that are
    addresses, and about how many steps a call takes."""

    def __init__(self, draws, number):
        count = draws.of(ARGUMENTS) if number else 0
        self.number, self.work = number, 0
        self.kinds = [ADDRESS if draws.chance(25) else NUMBER for _ in range(count)]
        self.room = draws.of((1, 1, 2, 4, 8))
        self.is_recursive = bool(count) and draws.chance(30)
        if self.is_recursive:
            self.kinds[0] = NUMBER  # how many times it calls itself at most


class Block:
    """A block, of which the end names blocks themselves."""

    def __init__(self, depth):
        self.depth, self.code, self.end = depth, [], None


def ended(end, numbers):
    """The end of a block with numbers for the blocks that it names."""
    return [numbers.get(id(it), it) for it in end]


class Procedure:
    """A procedure that grows by instructions at the end of its last block."""

    def __init__(self, draws, shape, callees, data_words, hazards):
        self.draws, self.shape, self.callees, self.hazards = draws, shape, callees, hazards
        self.data_words = data_words
        self.aggregates = HUGE if "Stack" in hazards else self.own_words()
        self.vars, self.constants, self.fuel = [], {}, None
        self.numbers, self.cells = [], []  # variables of numbers; arguments without a variable
        self.rooms = {}  # of a variable that holds addresses how many words are behind them
        self.known = set()  # the variables that have a value here
        self.blocks, self.turns, self.loops, self.work = [], 1, 0, 0
        self.most_work = MOST_OF_CALLEE if shape.number else MOST_WORK
        for argument, kind in enumerate(shape.kinds):
            self.parameter(argument, kind)
        for _ in range(draws.of(NUMBERS)):
            self.numbers.append(self.variable("plain"))
        self.open(Block(0))
        if self.aggregates:
            self.emit("clear")
        for _ in range(draws.below(4)):
            self.add_address()

    def own_words(self):
        """Aggregate words, mostly so many that there is an address for each callee."""
        rooms = [it.room for it in self.callees if ADDRESS in it.kinds]
        return max([self.draws.of(AGGREGATES), *(rooms if self.draws.chance(80) else [])])

    # ---- variables

    def variable(self, *kind):
        self.vars.append(list(kind))
        return len(self.vars) - 1

    def parameter(self, argument, kind):
        """An argument has a variable, or stays in its cell."""
        if self.shape.is_recursive and argument == 0:
            self.fuel = self.variable("param", argument)
            self.known.add(self.fuel)
        elif self.draws.chance(70):
            v = self.variable("param", argument)
            self.known.add(v)
            if kind == NUMBER:
                self.numbers.append(v)
            else:
                self.rooms[v] = self.shape.room
        else:
            self.cells.append((argument, kind))

    def constant(self, n):
        if n not in self.constants or self.draws.chance(10):
            self.constants[n] = self.variable("constant", n)
        return self.constants[n]

    def drawn_number(self):
        if self.draws.chance(25):
            return self.draws.of(EDGES)
        return self.draws.below(300) - 100

    def number(self, *others, constants=True):
        """A variable that holds a number, none of these others."""
        its = [v for v in self.numbers if v in self.known and v not in others]
        if self.fuel is not None and self.fuel not in others:
            its.append(self.fuel)
        if its and (not constants or self.draws.chance(75)):
            return self.draws.of(its)
        return self.constant(self.drawn_number()) if constants else None

    def target(self, *others):
        """A variable to which a number may be written, none of these others."""
        its = [v for v in self.numbers if v not in others]
        v = self.draws.of(its) if its else self.variable("plain")
        self.known.add(v)
        return v

    def old_target(self):
        """One that holds a number before it is written to."""
        its = [v for v in self.numbers if v in self.known]
        return self.draws.of(its) if its else None

    def fresh(self, value):
        """The number of a variable in a new one."""
        v = self.variable("plain")
        kind, *n = self.vars[value]
        self.emit(*(("set", v, n[0]) if kind == "constant" else ("copy", v, value)))
        return v

    # ---- blocks

    def emit(self, *instruction):
        self.block.code.append(list(instruction))
        self.work += self.turns

    def open(self, block):
        self.block = block
        self.blocks.append(block)

    def new_block(self):
        return Block(min(self.loops, 5))

    def leave(self, *end):
        self.block.end = list(end)
        self.work += self.turns

    # ---- addresses

    def objects(self):
        """What addresses may begin with: a base, its number, and how many words are there."""
        found = [("global", 0, self.data_words)] if self.data_words else []
        if self.aggregates:
            found.append(("frame", 0, self.aggregates))
        found += [("cell", argument, 1) for argument, kind in self.cells if kind == NUMBER]
        return found + [("via", v, room) for v, room in self.rooms.items() if v in self.known]

    def address(self, words, *others):
        """An address with so many words of an object behind it, or None; others are no variables
        of it."""
        its = [it for it in self.objects() if it[2] >= words]
        its = [it for it in its if it[0] != "via" or it[1] not in others]
        if not its:
            return None
        base, number, count = self.draws.of(its)
        word = self.draws.below(count - words + 1)
        index, moved = self.index(count - words - word)
        origin = 0
        if base in ("global", "frame"):
            origin = self.draws.below(count) if self.draws.chance(30) else word
            number += origin
        offset = 4 * (word - origin - moved)
        return [base, number, offset, index]

    def index(self, spare):
        """An index, and how far it is from 0 at least; it may go so many words further."""
        drawn = self.draws.below(10)
        if drawn < 5:
            return None, 0
        if drawn < 7:
            n = self.draws.of((0, 1, 2, 5, -1, -3, 1000))
            return self.constant(n), n
        mask = (1 << self.draws.below(5)) - 1
        value = self.number(constants=False)
        if value is None or mask > spare:
            return None, 0
        masked = self.fresh(value)
        self.emit("and", masked, self.constant(mask))
        return masked, 0

    def add_address(self):
        """A variable for addresses, with an address in it."""
        room = self.draws.of((1, 1, 2, 4, 8, 16))
        address = self.address(room)
        if address:
            v = self.variable("plain")
            self.emit("addr", v, address)
            self.rooms[v] = room
            self.known.add(v)

    # ---- instructions

    def instruction(self):
        """Some instruction, where what it asks for is there."""
        kinds = (
            ("set", 4),
            ("copy", 6),
            ("arithmetic", 24),
            ("neg", 3),
            ("shift", 5),
            ("cmpset", 6),
            ("divmod", 5),
            ("check", 3),
            ("checkpos", 2),
            ("load", 12),
            ("store", 12),
            ("addr", 5),
            ("call", 8),
            ("read", 1),
            ("write", 6),
            ("line", 1),
        )
        drawn = self.draws.below(sum(weight for _, weight in kinds))
        for kind, weight in kinds:
            drawn -= weight
            if drawn < 0:
                getattr(self, f"do_{kind}")()
                return

    def do_set(self):
        self.emit("set", self.target(), self.drawn_number())

    def do_copy(self):
        source = self.number(constants=False)
        if source is not None:
            self.emit("copy", self.target(source), source)

    def do_arithmetic(self):
        v = self.old_target()
        if v is not None:
            self.emit(self.draws.of(ARITHMETIC), v, self.number())

    def do_neg(self):
        v = self.old_target()
        if v is not None:
            self.emit("neg", v)

    def do_shift(self):
        v = self.old_target()
        if v is not None:
            count = self.draws.of((1, 2, 31)) if self.draws.chance(50) else self.draws.below(31) + 1
            self.emit(self.draws.of(SHIFTS), v, count)

    def do_cmpset(self):
        a, b = self.number(), self.number()
        self.emit("cmpset", self.draws.of(CONDITIONS), self.target(a, b), a, b)

    def do_divmod(self, divisor=None):
        """By a number above 0: a constant, or one that was made so."""
        if divisor is None:
            divisor = self.constant(self.draws.of((1, 2, 3, 7, 10, 256, 1000, 2**31 - 1)))
            if self.draws.chance(40):
                divisor = self.fresh(self.number())
                self.emit("and", divisor, self.constant(self.draws.of((7, 255, 2**31 - 1))))
                self.emit("add", divisor, self.constant(1))
                self.emit("and", divisor, self.constant(2**31 - 1))
                self.emit("or", divisor, self.constant(1))
                if self.draws.chance(30):
                    self.emit("checkpos", divisor)
        given = self.old_target()
        if given is None or given == divisor or self.draws.chance(50):
            dividend = self.fresh(self.number())
        else:
            dividend, self.known = given, self.known - {given}  # it is not needed after it
        quotient = self.target(dividend, divisor)
        remainder = self.target(dividend, divisor, quotient)
        self.emit("divmod", quotient, remainder, dividend, divisor)
        if dividend == given:
            self.emit("set", given, self.drawn_number())
            self.known.add(given)

    def do_check(self):
        index, room = self.fresh(self.number()), self.draws.of((1, 8, 64, 2**20))
        self.emit("and", index, self.constant(room - 1))
        self.emit("check", index, self.draws.of((room, room + 1, 2**31 - 1)))

    def do_checkpos(self):
        value = self.fresh(self.number())
        self.emit("and", value, self.constant(self.draws.of((15, 2**31 - 1))))
        self.emit("or", value, self.constant(self.draws.of((1, 16))))
        self.emit("checkpos", value)

    def do_load(self):
        address = self.address(1)
        if address:
            index = [] if address[3] is None else [address[3]]
            self.emit("load", self.target(*index), address)

    def do_store(self):
        address = self.address(1)
        if address:
            self.emit("store", address, self.number())

    def do_addr(self):
        its = [*self.rooms]
        if not its or self.draws.chance(20):
            self.add_address()
            return
        v = self.draws.of(its)
        address = self.address(self.rooms[v], v)
        other = self.draws.of([*self.rooms])
        if other != v and other in self.known and self.rooms[other] >= self.rooms[v]:
            self.emit("copy", v, other)
        elif address:
            self.emit("addr", v, address)
        else:
            return
        self.known.add(v)

    def do_read(self):
        self.emit("read", self.target())

    def do_write(self):
        self.emit("write", self.number())

    def do_line(self):
        self.emit("line")

    # ---- calls

    def do_call(self):
        if self.callees:
            self.call_once(self.draws.of(self.callees))

    def call_once(self, callee):
        """A call, if there is time for it."""
        if self.work + self.turns * callee.work < self.most_work:
            fuel = self.constant(self.draws.below(5)) if callee.is_recursive else None
            self.call(callee, fuel)

    def call(self, callee, fuel):
        """A call, with that as the first argument if it is there, where all others are there."""
        values = []
        for argument, kind in enumerate(callee.kinds):
            if argument == 0 and fuel is not None:
                values.append(fuel)
            elif kind == NUMBER:
                values.append(self.number())
            else:
                values.append(self.passed(callee.room))
        if None not in values:
            for value in values:
                self.emit("push", value)
            self.emit("call", callee.number)
            self.work += self.turns * callee.work

    def passed(self, room):
        """A variable with an address that has so much room, or None."""
        its = [v for v, it in self.rooms.items() if it >= room and v in self.known]
        if its and self.draws.chance(70):
            return self.draws.of(its)
        address = self.address(room)
        if not address:
            return None
        v = self.variable("plain")
        self.emit("addr", v, address)
        return v

    def recur(self):
        """A call of itself, where the first argument is above 0."""
        yes, behind = self.new_block(), self.new_block()
        self.compare(self.fuel, self.constant(0))
        self.leave("branch", GREATER, yes, behind)
        self.open(yes)
        less = self.fresh(self.fuel)
        self.emit("sub", less, self.constant(1))
        self.call(self.shape, less)
        self.leave("jump", behind)
        self.open(behind)

    # ---- hazards

    def hazard(self, kind):
        meet = {
            "Index": self.meet_index,
            "Divide": self.meet_divide,
            "Input": self.meet_input,
            "Stack": self.meet_stack,
            "address": self.meet_address,
            "access": self.meet_access,
            "divide": self.meet_zero,
        }
        meet[kind]()

    def meet_index(self):
        self.emit("check", self.number(), self.draws.of((0, 1, 10)))

    def meet_divide(self):
        self.emit("checkpos", self.number())

    def meet_input(self):
        for _ in range(self.draws.below(40)):
            self.emit("read", self.target())

    def meet_stack(self):
        """A call of itself on each way; its frame is huge."""
        self.call(self.shape, self.constant(5) if self.shape.is_recursive else None)

    def meet_zero(self):
        self.do_divmod(self.constant(self.draws.of((0, -1, -7, -(2**31)))))

    def meet_address(self):
        """What computes with an address."""
        its = [argument for argument, kind in self.cells if kind == ADDRESS]
        if its and self.draws.chance(60):
            self.emit("load", self.target(), ["cell", self.draws.of(its), 0, None])
            return
        address = self.address(1)
        if not address:
            return
        v, number, kind = self.variable("plain"), self.number(), self.draws.below(11)
        self.emit("addr", v, address)
        if kind == 0:
            self.emit(self.draws.of(ARITHMETIC), v, number)
        elif kind == 1:
            self.emit("neg", v)
        elif kind == 2:
            self.emit("cmpset", 4, self.target(number), *self.draws.of(((v, number), (number, v))))
        elif kind == 3:
            self.emit("check", v, 5)
        elif kind == 4:
            self.emit("checkpos", v)
        elif kind == 5:
            self.emit("write", v)
        elif kind == 6:
            self.emit("load", self.target(), [*address[:3], v])
        elif kind == 7:
            quotient, remainder = self.variable("plain"), self.variable("plain")
            self.emit("divmod", quotient, remainder, v, self.constant(3))
        elif kind == 8:
            self.emit("store", address, v)
        elif kind == 9:
            self.emit(self.draws.of(SHIFTS), v, self.draws.below(31) + 1)
        else:
            self.emit("cmp", v, number)

    def meet_access(self):
        """A word that is not there, or no whole one. Of some numbers the fourfold is 0 again."""
        number, words = self.number(), self.data_words
        far = self.draws.of((words, words + 3, 2**30, 2**31, 2**32 - 1))
        address = self.draws.of(
            (
                ["via", number, 0, None],
                ["global", far, 0, None],
                ["global", 0, self.draws.of((1, 2, 3, -1, 6)), None],
                ["global", 0, 4 * words - 2, None],
                ["frame", self.aggregates, 0, None],
                ["frame", self.draws.of((0, 2**30)), -4, None],
            )
        )
        if self.draws.chance(50):
            self.emit("load", self.target(number), address)
        else:
            self.emit("store", address, self.number())

    # ---- statements

    def compare(self, a, b):
        self.emit("cmp", a, b)

    def some(self, count, depth):
        """Some statements. What has its first value there has none behind."""
        known = set(self.known)
        for _ in range(count):
            if self.work < self.most_work:
                self.statement(depth)
        self.known &= known

    def statement(self, depth):
        if self.hazards and self.draws.chance(20):
            self.hazard(self.hazards.pop())
        drawn = self.draws.below(12)
        if depth < 5 and drawn < 2:
            self.choice(depth)
        elif depth < 5 and self.loops < 4 and drawn == 2:
            self.loop(depth)
        else:
            for _ in range(self.draws.below(5) + 1):
                self.instruction()

    def choice(self, depth):
        """A branch of two ways, of one, or of two that are one."""
        yes, no, behind = self.new_block(), self.new_block(), self.new_block()
        self.compare(self.number(), self.number())
        condition = self.draws.of(CONDITIONS)
        drawn = self.draws.below(10)
        if drawn == 0:
            self.leave("branch", condition, behind, behind)
        elif drawn < 5:
            self.leave("branch", condition, *self.draws.of(((yes, behind), (behind, yes))))
            self.way(yes, behind, depth)
        else:
            self.leave("branch", condition, yes, no)
            self.way(yes, behind, depth)
            self.way(no, behind, depth)
        self.open(behind)

    def way(self, block, behind, depth):
        self.open(block)
        self.some(self.draws.below(3), depth + 1)
        self.leave("jump", behind)

    def loop(self, depth):
        """Some turns, with the test where a turn begins or where it ends."""
        turns, outer, behind = self.draws.below(6) + 1, self.turns, self.new_block()
        counter = self.fresh(self.constant(turns))
        self.turns, self.loops = outer * turns, self.loops + 1
        head, body = self.new_block(), self.new_block()
        self.leave("jump", head)
        self.open(head)
        is_tested_first = self.draws.chance(50)
        if is_tested_first:
            self.compare(counter, self.constant(0))
            self.leave("branch", GREATER, body, behind)
            self.open(body)
        self.some(self.draws.below(3) + 1, depth + 1)
        self.emit("sub", counter, self.constant(1))
        if is_tested_first:
            self.leave("jump", head)
        else:
            self.compare(counter, self.constant(0))
            self.leave("branch", AT_MOST, behind, head)
        self.turns, self.loops = outer, self.loops - 1
        self.open(behind)

    def tangle(self):
        """Blocks that lead anywhere. Ways back lead over gates, which let pass so many times."""
        for v in self.numbers:  # wherever control goes, each has a value
            if v not in self.known:
                self.emit("set", v, self.drawn_number())
                self.known.add(v)
        turns, count, outer = self.draws.below(20) + 1, self.draws.below(10) + 2, self.turns
        fuel, behind, gates = self.fresh(self.constant(turns)), self.new_block(), []
        blocks = [Block(self.draws.below(6)) for _ in range(count)]
        self.leave("jump", self.draws.of(blocks))
        self.turns = outer * turns
        for at, block in enumerate(blocks):
            known = set(self.known)
            self.open(block)
            for _ in range(self.draws.below(6) if self.work < self.most_work else 0):
                self.instruction()
            ways = [self.exit_of(at, blocks, behind, gates) for _ in range(2)]
            if self.draws.chance(60):
                self.compare(self.number(), self.number())
                self.leave("branch", self.draws.of(CONDITIONS), *ways)
            else:
                self.leave("jump", ways[0])
            self.known = known
        for gate, block in gates:
            self.open(gate)
            self.emit("sub", fuel, self.constant(1))
            self.compare(fuel, self.constant(0))
            self.leave("branch", GREATER, block, behind)
        self.turns = outer
        self.open(behind)

    def exit_of(self, at, blocks, behind, gates):
        """Where block `at` may lead."""
        to = self.draws.below(len(blocks) + 1)
        if to == len(blocks):
            return behind
        if to > at:
            return blocks[to]
        gates.append((Block(self.draws.below(6)), blocks[to]))
        return gates[-1][0]

    # ---- the whole

    def fill(self):
        """Statements, calls, and what is still to be met."""
        draws = self.draws
        self.some_at_top(draws.below(6) + 1)
        if self.shape.is_recursive:
            self.recur()
        for callee in self.callees:
            if draws.chance(40 if self.shape.number else 90):
                self.call_once(callee)
        if draws.chance(50):
            self.tangle()
        self.some_at_top(draws.below(4))
        while self.hazards:
            self.hazard(self.hazards.pop())
        self.emit("write", self.number())
        self.shape.work = self.work * (5 if self.shape.is_recursive else 1) + 2

    def some_at_top(self, count):
        for _ in range(count):
            if self.work < self.most_work:
                self.statement(0)

    def value(self, name):
        """The procedure as a code file has it, with its blocks in some order."""
        draws, last = self.draws, self.block
        if last is not self.blocks[0] and draws.chance(20):
            self.open(self.new_block())  # no end leads here
            self.some_at_top(1)
            self.leave("jump", last)
        last.end = ["return"]
        first, *others = self.blocks
        others = [it for it in others if it is not last]
        if draws.chance(50):
            for at in range(len(others) - 1, 0, -1):
                other = draws.below(at + 1)
                others[at], others[other] = others[other], others[at]
        blocks = [first, *others, *([last] if last is not first else [])]
        numbers = {id(it): number for number, it in enumerate(blocks)}
        return {
            "aggregates": self.aggregates,
            "args": len(self.shape.kinds),
            "blocks": [[it.depth, it.code, ended(it.end, numbers)] for it in blocks],
            "name": name,
            "vars": self.vars,
        }


class Code:
    """The code file of a seed: its value, and the numbers that it is to be run on."""

    def __init__(self, seed):
        draws = Draws(seed)
        data_words = draws.of(DATA_WORDS)
        shapes = [Shape(draws, number) for number in range(draws.of((1, 1, 2, 3, 4, 6, 9)))]
        self.hazard = draws.of(HAZARDS) if draws.chance(45) else None
        victim, procedures = draws.of(shapes), []
        for shape in reversed(shapes):
            hazards = [self.hazard] if self.hazard and shape is victim else []
            made = Procedure(draws, shape, shapes[shape.number + 1 :], data_words, hazards)
            made.fill()
            procedures.insert(0, made.value(self.name(draws, shape.number)))
        self.value = value_of(data_words, procedures)
        self.text = text_of(self.value)
        count = draws.of((0, 3, 40, 40, 100))
        self.numbers = [made.drawn_number() for _ in range(count)]

    @staticmethod
    def name(draws, number):
        long = "".join(chr(ord("a") + draws.below(26)) for _ in range(draws.of((1, 4, 254))))
        return draws.of((f"P{number}", f"P{number}", f"x{long}"))


def main(words):
    if not words or not words[0].isdecimal() or words[1:] not in ([], ["--input"]):
        print(__doc__.split("\n\n")[1], file=sys.stderr)
        return 2
    code = Code(int(words[0]))
    print(*code.numbers) if words[1:] else print(code.text, end="")
    return 0


if __name__ == "__main__":
    sys.exit(main(sys.argv[1:]))
