"""Bare programs with every form of every instruction, each on numbers of chance.

A program is a list of cases. A case sets the flags, a doubleword of memory and the eight registers,
and then has one instruction; no case ends the program.
"""

import re

from processor.image import Image
from processor.machine import CODE_BASE, DATA_BASE, EBP, EBX, ESP, STACK_TOP, WORD, Ending, Machine

DATA_WORDS = 64
EDGES = (0, 1, 2, 7, 0x7FFFFFFF, 0x80000000, 0x80000001, 0xFFFFFFFF, 0xFFFFFFFE, 0x12345678)
CONDITIONS = (2, 3, 4, 5, 6, 7, 8, 9, 12, 13, 14, 15)
LOW_BYTES = range(EBX + 1)
OPERATIONS = (0, 1, 4, 5, 6, 7)
MOST_TRIES = 1000
SETTING_STEPS = 11  # of a setting with a doubleword of memory
BLANK = b"\x99"  # CDQ, to be passed over


def number(value, size=4):
    return (value % (1 << 8 * size)).to_bytes(size, "little")


def fields(high, middle, low):
    return bytes([high << 6 | middle << 3 | low])


# The forms with an operand: a name, the bytes before the ModRM byte, the number in its reg field or
# None where that is a register, and the bytes of the number behind the operand.
WITH_OPERAND = (
    ("MOV r/m32, r32", b"\x89", None, 0),
    ("MOV r32, r/m32", b"\x8b", None, 0),
    ("MOV r/m32, imm32", b"\xc7", 0, 4),
    *((f"op {n} r/m32, r32", bytes([8 * n + 1]), None, 0) for n in OPERATIONS),
    *((f"op {n} r32, r/m32", bytes([8 * n + 3]), None, 0) for n in OPERATIONS),
    *((f"op {n} r/m32, imm32", b"\x81", n, 4) for n in OPERATIONS),
    *((f"op {n} r/m32, imm8", b"\x83", n, 1) for n in OPERATIONS),
    ("IMUL r32, r/m32", b"\x0f\xaf", None, 0),
    ("IMUL r32, r/m32, imm32", b"\x69", None, 4),
    ("IMUL r32, r/m32, imm8", b"\x6b", None, 1),
    ("NEG r/m32", b"\xf7", 3, 0),
    ("SHL r/m32, imm8", b"\xc1", 4, 1),
    ("SHR r/m32, imm8", b"\xc1", 5, 1),
    ("SAR r/m32, imm8", b"\xc1", 7, 1),
    ("IDIV r/m32", b"\xf7", 7, 0),
    ("LEA r32, m", b"\x8d", None, 0),
    ("PUSH m32", b"\xff", 6, 0),
)
IN_MEMORY_ALONE = (b"\x8d", b"\xff")


def addresses():
    """Each form of an address: base or None, index or None, scale, bytes of displacement."""
    scaled = [(None, 0)] + [(i, s) for i in range(8) if i != ESP for s in range(4)]
    for index, scale in scaled:
        yield None, index, scale, 4
        for base in range(8):
            for size in (0, 1, 4):
                if size or base != EBP:
                    yield base, index, scale, size


def address_bytes(reg, form, disp):
    """An address behind an opcode, under the number in its reg field."""
    base, index, scale, size = form
    mode = {0: 0, 1: 1, 4: 2}[size] if base is not None else 0
    low = EBP if base is None else base
    if index is None and low != ESP:
        return fields(mode, reg, low) + number(disp, size)[:size]
    middle = ESP if index is None else index
    return fields(mode, reg, ESP) + fields(scale, middle, low) + number(disp, size)[:size]


class Cases:
    """Makes cases by a source of chance."""

    def __init__(self, chance):
        self.chance = chance

    def word(self):
        if self.chance.random() < 0.5:
            return self.chance.choice(EDGES)
        return self.chance.getrandbits(self.chance.choice((4, 8, 16, 32)))

    def registers(self):
        known = [self.word() for _ in range(8)]
        known[ESP] = STACK_TOP - self.chance.randrange(256, 512)
        return known

    def setting(self, registers, target=None):
        """Code that sets flags, maybe a doubleword of memory, and the registers."""
        code = b"\xb8" + number(self.word()) + b"\x81\xf8" + number(self.word())
        if target is not None:
            code += b"\xc7\x05" + number(target) + number(self.word())
        for it, value in enumerate(registers):
            code += bytes([0xB8 + it]) + number(value)
        return code

    def in_memory(self, form, head, reg, number_size):
        """An instruction with an operand in memory, which lies in the data where that can be."""
        base, index, scale, size = form
        registers = self.registers()
        target = DATA_BASE + self.chance.randrange(32, 4 * DATA_WORDS - 32)
        disp = self.chance.randrange(-128, 128) if self.chance.random() < 0.7 else self.word()
        disp = disp if size else 0
        if size == 1:
            disp = self.chance.randrange(-128, 128)
        scaled = registers[index] << scale if index is not None else 0
        if base is None:
            disp = target - scaled
        elif base == index:
            registers[base] = (target - disp) % WORD // (1 + (1 << scale))
        else:
            registers[base] = (target - disp - scaled) % WORD
        operand = address_bytes(reg, form, disp)
        return self.setting(registers, target) + head + operand + number(self.word(), number_size)

    def in_register(self, head, reg, it, number_size):
        operand = fields(3, reg, it)
        return self.setting(self.registers()) + head + operand + number(self.word(), number_size)

    def goes_on(self, make):
        """A case that no fault ends, after some tries; None if there is none."""
        for _ in range(MOST_TRIES):
            code = make()
            machine = Machine(Image(code, DATA_WORDS), [5])
            try:
                while machine.eip < CODE_BASE + len(code):
                    machine.step()
            except Ending:
                continue
            return code
        return None


def with_operand(cases, head, reg, number_size):
    """The cases of a form: with each register and each form of an address."""
    regs = range(8) if reg is None else (reg,)
    if head not in IN_MEMORY_ALONE:
        for field in regs:
            for it in range(8):
                yield lambda f=field, i=it: cases.in_register(head, f, i, number_size)
    for form in addresses():
        # the value of the reg field is by chance, so that each form comes once
        yield lambda f=form: cases.in_memory(f, head, cases.chance.choice(regs), number_size)


def without_operand(cases):
    """The cases of all other instructions, but those that end a program."""

    def case(code):
        return lambda: cases.setting(cases.registers()) + code

    for it in range(8):
        yield case(bytes([0xB8 + it]) + number(cases.word()))
        for other in range(8):
            yield case(b"\x87" + fields(3, it, other))
            yield case(b"\x85" + fields(3, it, other))
        for low in LOW_BYTES:
            yield case(b"\x0f\xb6" + fields(3, it, low))
        if it != ESP:
            yield case(bytes([0x50 + it]))
            yield case(bytes([0x50 + it, 0x58 + (it + 1) % 4]))
            yield case(b"\x68" + number(cases.word()) + bytes([0x58 + it]))
    for _ in range(10):
        yield case(b"\x99")
        yield case(b"\x68" + number(cases.word()))
        yield case(b"\xcd\x21")
        yield case(b"\xcd\x22")
    yield from jumps(case)
    for condition in CONDITIONS:
        for low in LOW_BYTES:
            for _ in range(8):
                yield case(bytes([0x0F, 0x90 + condition]) + fields(3, 0, low))


def jumps(case):
    """Jumps forwards and back, calls and returns."""
    over = b"\xe9" + number(5)  # past the next jump
    yield case(over + over + b"\xe9" + number(-10))
    for more in (0, 4, 128, 200):
        ret = b"\xc3" if not more else b"\xc2" + number(more, 2)
        yield case(b"\xe8" + number(5) + b"\xe9" + number(len(ret)) + ret)
    for condition in CONDITIONS:
        jump = bytes([0x0F, 0x80 + condition])
        for _ in range(12):
            yield case(jump + number(1) + BLANK)
            yield case(over + b"\xe9" + number(6) + jump + number(-11))


def programs(chance):
    """A name and an image for each form with an operand, and one of all other instructions."""
    cases = Cases(chance)
    parts = [(it[0], with_operand(cases, *it[1:])) for it in WITH_OPERAND]
    for name, makers in [*parts, ("no operand in memory", without_operand(cases))]:
        made = [code for code in map(cases.goes_on, makers) if code is not None]
        yield name, len(made), Image(b"".join(made) + b"\xcd\x20", DATA_WORDS)


# How a row of the manual prints what lies in memory.
PRINTED = re.compile(
    r"base: (?:None|Some\((\w+)\)), index: (?:None|Some\(\((\w+), (\d)\)\)), disp: (-?\d+)"
)
NAMES = ("Eax", "Ecx", "Edx", "Ebx", "Esp", "Ebp", "Esi", "Edi")


def row(cases, code, printed):
    """A program that sets the state and has a row's instruction, with its operand in the data where
    its base can be set for that; and how many steps this is."""
    registers = cases.registers()
    target = DATA_BASE + cases.chance.randrange(32, 4 * DATA_WORDS - 32)
    found = PRINTED.search(printed)
    if found and found[1]:
        base, disp = NAMES.index(found[1]), int(found[4])
        index = NAMES.index(found[2]) if found[2] else None
        scaled = registers[index] * int(found[3]) if found[2] else 0
        if base == index:
            registers[base] = (target - disp) % WORD // (1 + int(found[3]))
        else:
            registers[base] = (target - disp - scaled) % WORD
    setting = cases.setting(registers, target)
    return Image(setting + code, DATA_WORDS), SETTING_STEPS + 1
