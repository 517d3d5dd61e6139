"""The machine's step table, told anew in Python after the definitions of ia_code and ia_step.

The processor is held against it step by step. That it is the machine of the compiler is tested on
the rows of programs that the machine itself is tested on.
"""

CODE_BASE, DATA_BASE, STACK_BASE, STACK_TOP = 0x01000000, 0x04000000, 0x08000000, 0x08100400
EAX, ECX, EDX, EBX, ESP, EBP, ESI, EDI = range(8)
FLAGS = ("cf", "zf", "sf", "of")
TRAPS = {1: "Index", 2: "Divide", 3: "Input", 4: "Stack"}
WORD = 1 << 32


class Ending(Exception):
    """How a run ended: `ended`, `trap KIND` or `machine KIND`."""


def fault(kind):
    return Ending(f"machine {kind}")


def signed(number, bits=32):
    return number - (1 << bits) if number >> bits - 1 & 1 else number


class Register:
    """An operand in a register."""

    def __init__(self, number):
        self.number = number


class Memory:
    """An operand in memory, at an address."""

    def __init__(self, address):
        self.address = address % WORD


class Reader:
    """Takes an instruction apart, by registers that tell the addresses of its operands."""

    def __init__(self, code, at, registers):
        self.code, self.at, self.registers = code, at, registers

    def number(self, size):
        part = self.code[self.at : self.at + size]
        if len(part) < size:
            raise fault("decode")
        self.at += size
        return int.from_bytes(part, "little")

    def signed(self, size):
        return signed(self.number(size), 8 * size)

    def operand(self):
        """The number in the reg field of a ModRM byte, and the operand."""
        byte = self.number(1)
        mode, reg, low = byte >> 6, byte >> 3 & 7, byte & 7
        if mode == 3:
            return reg, Register(low)
        return reg, Memory(self.address(mode, low))

    def address(self, mode, base):
        scaled = 0
        if base == ESP:
            byte = self.number(1)
            scale, index, base = byte >> 6, byte >> 3 & 7, byte & 7
            if index != ESP:
                scaled = self.registers[index] << scale
            elif base != ESP or scale != 0:
                raise fault("decode")
        if base == EBP and mode == 0:
            return scaled + self.signed(4)
        size = (0, 1, 4)[mode]
        return self.registers[base] + scaled + (self.signed(size) if size else 0)

    def memory(self):
        reg, it = self.operand()
        if isinstance(it, Register):
            raise fault("decode")
        return reg, it

    def register(self):
        reg, it = self.operand()
        if isinstance(it, Memory):
            raise fault("decode")
        return reg, it.number


def by_result(value):
    return {"zf": value == 0, "sf": bool(value >> 31)}


def fits(number):
    return -(1 << 31) <= number < 1 << 31


def sum_flags(a, b):
    unfit = not fits(signed(a) + signed(b))
    return {"cf": a + b >= WORD, "of": unfit, **by_result((a + b) % WORD)}


def difference_flags(a, b):
    unfit = not fits(signed(a) - signed(b))
    return {"cf": a < b, "of": unfit, **by_result((a - b) % WORD)}


def bit_flags(value):
    return {"cf": False, "of": False, **by_result(value)}


# ADD, OR, AND, SUB, XOR and CMP by their numbers: the result and the flags.
OPERATIONS = {
    0: lambda a, b: ((a + b) % WORD, sum_flags(a, b)),
    1: lambda a, b: (a | b, bit_flags(a | b)),
    4: lambda a, b: (a & b, bit_flags(a & b)),
    5: lambda a, b: ((a - b) % WORD, difference_flags(a, b)),
    6: lambda a, b: (a ^ b, bit_flags(a ^ b)),
    7: lambda a, b: ((a - b) % WORD, difference_flags(a, b)),
}
CMP = 7
# SHL, SHR and SAR by theirs.
SHIFTS = {
    4: lambda a, n: a << n,
    5: lambda a, n: a >> n,
    7: lambda a, n: signed(a) >> n,
}

# Of each condition with an even number the flags that it names, and its formula; the odd number
# behind it is its negation.
CONDITIONS = {
    2: ("cf",),
    4: ("zf",),
    6: ("cf", "zf"),
    8: ("sf",),
    12: ("sf", "of"),
    14: ("zf", "sf", "of"),
}
FORMULAS = {
    2: lambda cf: cf,
    4: lambda zf: zf,
    6: lambda cf, zf: cf or zf,
    8: lambda sf: sf,
    12: lambda sf, of: sf != of,
    14: lambda zf, sf, of: zf or sf != of,
}


class Machine:
    """A machine with an image, and what it has read and written."""

    def __init__(self, image, numbers=()):
        self.code = image.code
        self.registers = [0] * 8
        self.registers[ESP] = STACK_TOP
        self.flags = dict.fromkeys(FLAGS)
        self.eip = CODE_BASE
        self.data = bytearray(4 * image.data_words)
        self.stack = bytearray(STACK_TOP - STACK_BASE)
        self.numbers, self.taken = list(numbers), 0
        self.out, self.steps = [], 0

    # ---- memory and operands

    def place(self, address):
        for base, region in ((DATA_BASE, self.data), (STACK_BASE, self.stack)):
            if base <= address and address + 4 <= base + len(region):
                return region, address - base
        raise fault("access")

    def load(self, address):
        region, at = self.place(address)
        return int.from_bytes(region[at : at + 4], "little")

    def store(self, address, value):
        region, at = self.place(address)
        region[at : at + 4] = (value % WORD).to_bytes(4, "little")

    def read(self, it):
        return self.registers[it.number] if isinstance(it, Register) else self.load(it.address)

    def write(self, it, value):
        if isinstance(it, Register):
            self.registers[it.number] = value % WORD
        else:
            self.store(it.address, value)

    def push(self, value):
        address = (self.registers[ESP] - 4) % WORD
        self.store(address, value)
        self.registers[ESP] = address

    def pop(self):
        value = self.load(self.registers[ESP])
        self.registers[ESP] = (self.registers[ESP] + 4) % WORD
        return value

    def holds(self, number):
        names = CONDITIONS.get(number & ~1)
        if names is None:
            raise fault("decode")
        values = [self.flags[it] for it in names]
        if None in values:
            raise fault("flag")
        return FORMULAS[number & ~1](*values) != bool(number & 1)

    # ---- what instructions do, in the order of the table

    def operate(self, number, to, value):
        """ADD and its family; CMP leaves its operand."""
        result, flags = OPERATIONS[number](self.read(to), value)
        if number != CMP:
            self.write(to, result)
        self.flags = flags

    def multiply(self, to, a, b):
        self.registers[to] = signed(a) * signed(b) % WORD
        unfit = not fits(signed(a) * signed(b))
        self.flags = {"cf": unfit, "of": unfit, "zf": None, "sf": None}

    def negate(self, it):
        value = self.read(it)
        self.write(it, -value)
        self.flags = difference_flags(0, value)

    def shift(self, number, it, count):
        """SHL, SHR and SAR; of the count the low five bits count. By 0 no flag changes."""
        result = SHIFTS[number](self.read(it), count % 32) % WORD
        self.write(it, result)
        if count % 32:
            self.flags = {"cf": None, "of": None, **by_result(result)}

    def divide(self, it):
        by = signed(self.read(it))
        value = signed(self.registers[EDX] << 32 | self.registers[EAX], 64)
        quotient = abs(value) // abs(by) if by else WORD
        quotient = -quotient if (value < 0) != (by < 0) else quotient
        if not fits(quotient):
            raise fault("divide")
        self.registers[EAX] = quotient % WORD
        self.registers[EDX] = (value - quotient * by) % WORD
        self.flags = dict.fromkeys(FLAGS)

    def serve(self, number):
        eax = self.registers[EAX]
        if number == 0x20:
            raise Ending("ended")
        if number == 0x21:
            self.out.append(f" {signed(eax)}")
        elif number == 0x22:
            self.out.append("\n")
        elif number == 0x23:
            if not self.numbers:
                raise Ending("trap Input")
            self.registers[EAX] = self.numbers.pop(0) % WORD
            self.taken += 1
        elif number == 0x24:
            raise Ending(f"trap {TRAPS[eax]}") if eax in TRAPS else fault("service")
        else:
            raise fault("decode")

    # ---- instructions by their first bytes

    def with_operand(self, opcode, code):
        """What has a ModRM byte behind one byte of opcode. Whether the opcode is one of them."""
        if opcode < 0x40 and opcode & 5 == 1 and opcode >> 3 in OPERATIONS:
            reg, it = code.operand()
            to, value = (Register(reg), self.read(it)) if opcode & 2 else (it, self.registers[reg])
            self.operate(opcode >> 3, to, value)
        elif opcode in (0x89, 0x8B):
            reg, it = code.operand()
            if opcode == 0x89:
                self.write(it, self.registers[reg])
            else:
                self.registers[reg] = self.read(it)
        elif opcode in (0x81, 0x83, 0xC7):
            reg, it = code.operand()
            value = code.signed(1 if opcode == 0x83 else 4) % WORD
            self.with_number(opcode, reg, it, value)
        elif opcode in (0x69, 0x6B):
            reg, it = code.operand()
            value = code.signed(4 if opcode == 0x69 else 1) % WORD
            self.multiply(reg, self.read(it), value)
        elif opcode == 0xF7:
            reg, it = code.operand()
            if reg not in (3, 7):
                raise fault("decode")
            (self.negate if reg == 3 else self.divide)(it)
        elif opcode == 0xC1:
            reg, it = code.operand()
            if reg not in SHIFTS:
                raise fault("decode")
            self.shift(reg, it, code.number(1))
        else:
            return False
        return True

    def with_number(self, opcode, reg, it, value):
        if opcode == 0xC7 and reg == 0:
            self.write(it, value)
        elif opcode != 0xC7 and reg in OPERATIONS:
            self.operate(reg, it, value)
        else:
            raise fault("decode")

    def with_special_operand(self, opcode, code):
        """What has an operand that must be a register, or must be in memory."""
        if opcode == 0x8D:
            reg, it = code.memory()
            self.registers[reg] = it.address
        elif opcode == 0xFF:
            reg, it = code.memory()
            if reg != 6:
                raise fault("decode")
            self.push(self.load(it.address))
        elif opcode == 0x87:
            reg, other = code.register()
            known = self.registers
            known[other], known[reg] = known[reg], known[other]
        elif opcode == 0x85:
            reg, other = code.register()
            self.flags = bit_flags(self.registers[reg] & self.registers[other])
        else:
            return False
        return True

    def extended(self, code):
        """What begins with 0F. Where it goes on."""
        opcode = code.number(1)
        if opcode == 0xAF:
            reg, it = code.operand()
            self.multiply(reg, self.registers[reg], self.read(it))
        elif opcode == 0xB6:
            reg, low = self.low_byte(code)
            self.registers[reg] = self.registers[low] & 255
        elif opcode >> 4 == 8:
            distance = code.signed(4)
            return code.at + (distance if self.holds(opcode & 15) else 0)
        elif opcode >> 4 == 9:
            reg, low = self.low_byte(code)
            if reg:
                raise fault("decode")
            holds = self.holds(opcode & 15)
            self.registers[low] = self.registers[low] & ~255 | holds
        else:
            raise fault("decode")
        return code.at

    @staticmethod
    def low_byte(code):
        reg, low = code.register()
        if low > EBX:
            raise fault("decode")
        return reg, low

    def short(self, opcode, code):
        """What has no ModRM byte. Where it goes on."""
        number = opcode & 7
        if opcode == 0x99:
            self.registers[EDX] = WORD - 1 if self.registers[EAX] >> 31 else 0
        elif opcode >> 3 == 0xB8 >> 3:
            self.registers[number] = code.number(4)
        elif opcode >> 3 == 0x50 >> 3 and number != ESP:
            self.push(self.registers[number])
        elif opcode >> 3 == 0x58 >> 3 and number != ESP:
            self.registers[number] = self.pop()
        elif opcode == 0x68:
            self.push(code.number(4))
        elif opcode == 0xE9:
            distance = code.signed(4)
            return code.at + distance
        elif opcode == 0xE8:
            distance = code.signed(4)
            self.push(CODE_BASE + code.at)
            return code.at + distance
        elif opcode in (0xC2, 0xC3):
            more = code.number(2) if opcode == 0xC2 else 0
            to = self.pop() - CODE_BASE
            self.registers[ESP] = (self.registers[ESP] + more) % WORD
            return to
        elif opcode == 0xCD:
            self.serve(code.number(1))
        else:
            raise fault("decode")
        return code.at

    def step(self):
        """Makes a step; Ending says how the run ended in it, if it did."""
        self.steps += 1
        at = self.eip - CODE_BASE
        if not 0 <= at < len(self.code):
            raise fault("fetch")
        code = Reader(self.code, at, list(self.registers))
        opcode = code.number(1)
        if opcode == 0x0F:
            to = self.extended(code)
        elif self.with_operand(opcode, code) or self.with_special_operand(opcode, code):
            to = code.at
        else:
            to = self.short(opcode, code)
        self.eip = (CODE_BASE + to) % WORD

    def run(self, most):
        """The ending after at most so many steps."""
        try:
            while self.steps < most:
                self.step()
        except Ending as ending:
            return str(ending)
        return "going"
