"""The instructions of an image: their bytes, and their text in a listing.

A table has a row for each, with the Intel manual's opcode. The letters of a row's operands are: rm
a register or memory, m memory, rr a register in the place of one, low its low byte, r the register
of the ModRM byte's middle field, o the register of the opcode's low bits, to the place that a jump
goes to, and numbers of so many bits, with a sign (n8, n32) or without one (u8, u16).
"""

import re
from dataclasses import dataclass

from checker.parts import CONDITIONS

REGISTERS = ("eax", "ecx", "edx", "ebx", "esp", "ebp", "esi", "edi")
LOW_BYTES = ("al", "cl", "dl", "bl")
ALU = {"add": 0, "or": 1, "and": 4, "sub": 5, "xor": 6, "cmp": 7}
SHIFTS = {"shl": 4, "shr": 5, "sar": 7}
SERVICES = range(0x20, 0x25)
NUMBERS = {"n8": (1, True), "n32": (4, True), "u8": (1, False), "u16": (2, False)}
MODRM = ("rm", "m", "rr", "low")  # the operands that the ModRM byte's last field is of
MEMORY = re.compile(r"\[(?:(e[a-z]{2})\+)?(?:(e[a-z]{2})\*([1248])\+)?d(0|8|32):(-?\d+)\]")
DISPLACEMENTS = {"0": 0, "8": 1, "32": 2}  # by their bits the mod field


class NoInstruction(Exception):
    """Why bytes, or a text, are none of the table."""


@dataclass
class Row:
    name: str
    opcode: bytes  # without a register in its low bits
    operands: list  # letters, in the order of the text
    digit: int | None = None  # the ModRM byte's middle field, where it tells instructions apart


def row(name, opcode, operands="", digit=None):
    return Row(name, bytes.fromhex(opcode), operands.split(), digit)


def alu_rows(name, number):
    return [
        row(f"{name}.mr", f"{8 * number + 1:02x}", "rm r"),
        row(f"{name}.rm", f"{8 * number + 3:02x}", "r rm"),
        row(f"{name}.mi", "81", "rm n32", number),
        row(f"{name}.mb", "83", "rm n8", number),
    ]


ROWS = [
    row("mov.mr", "89", "rm r"),
    row("mov.rm", "8b", "r rm"),
    row("mov.ri", "b8", "o n32"),
    row("mov.mi", "c7", "rm n32", 0),
    *[it for name, number in ALU.items() for it in alu_rows(name, number)],
    row("imul.rm", "0faf", "r rm"),
    row("imul.i", "69", "r rm n32"),
    row("imul.b", "6b", "r rm n8"),
    row("neg", "f7", "rm", 3),
    *[row(f"{name}.r", "c1", "rm u8", number) for name, number in SHIFTS.items()],
    row("idiv", "f7", "rm", 7),
    row("cdq", "99"),
    row("lea", "8d", "r m"),
    row("push.r", "50", "o"),
    row("pop", "58", "o"),
    row("push.m", "ff", "m", 6),
    row("push.i", "68", "n32"),
    row("call", "e8", "to"),
    row("ret", "c3"),
    row("ret.i", "c2", "u16"),
    row("jmp", "e9", "to"),
    *[row(f"j{name}", f"0f{0x80 + it:02x}", "to") for it, name in CONDITIONS.items()],
    *[row(f"set{name}", f"0f{0x90 + it:02x}", "low", 0) for it, name in CONDITIONS.items()],
    row("movzx", "0fb6", "r low"),
    row("xchg", "87", "rr r"),
    row("test", "85", "rr r"),
    row("int", "cd", "u8"),
]
BY_NAME = {it.name: it for it in ROWS}


def rows_of(opcode):
    """The rows of an opcode, with or without a register in its low bits."""
    plain = opcode[:-1] + bytes([opcode[-1] & 0xF8])
    return [it for it in ROWS if it.opcode == (plain if "o" in it.operands else opcode)]


# ---- bytes to text


class Bytes:
    """Takes bytes of code from a place on."""

    def __init__(self, code, at):
        self.code, self.at = code, at

    def take(self, count=1):
        taken = self.code[self.at : self.at + count]
        if len(taken) < count:
            raise NoInstruction("the code ends within an instruction")
        self.at += count
        return taken

    def number(self, size, signed):
        return int.from_bytes(self.take(size), "little", signed=signed)


def index_of(sib):
    """The index and its scale of a SIB byte, as text, or None."""
    number, scale, base = sib >> 3 & 7, 1 << (sib >> 6), sib & 7
    if number != 4:
        return f"{REGISTERS[number]}*{scale}"
    if base != 4 or scale != 1:
        raise NoInstruction("a SIB byte without an index has base esp and scale 1")
    return None


def memory(code, mod, low):
    """The text of an operand in memory, of a ModRM byte's mod and last field."""
    base, index = REGISTERS[low], None
    if low == 4:
        sib = code.take()[0]
        base, index = REGISTERS[sib & 7], index_of(sib)
    bits = (0, 8, 32)[mod]
    if mod == 0 and base == "ebp":
        base, bits = None, 32
    number = code.number(bits // 8, True) if bits else 0
    return "[" + "+".join(it for it in (base, index, f"d{bits}:{number}") if it) + "]"


def last_field(code, mod, low, letter):
    """The text of the operand that a ModRM byte's mod and last field are of."""
    if mod < 3:
        if letter in ("rr", "low"):
            raise NoInstruction("its operand is a register, and here it is memory")
        return memory(code, mod, low)
    if letter == "m":
        raise NoInstruction("its operand is memory, and here it is a register")
    if letter != "low":
        return REGISTERS[low]
    if low >= len(LOW_BYTES):
        raise NoInstruction("its operand is al, cl, dl or bl, and here it is another byte")
    return LOW_BYTES[low]


def by_digit(rows, digit):
    for it in rows:
        if it.digit in (None, digit):
            return it
    wanted = ", ".join(f"{it.digit} ({it.name})" for it in rows)
    raise NoInstruction(f"behind this opcode the middle field of ModRM is {wanted}, not {digit}")


def checked(name, letter, value):
    """What an operand may not be, though its bytes could say so."""
    if letter == "o" and value == "esp" and name != "mov.ri":
        raise NoInstruction(f"{name} takes any register but esp")
    if name == "int" and letter == "u8" and value not in SERVICES:
        raise NoInstruction(f"int has a service from 32 to 36, not {value}")
    return value


def decode(code, at):
    """The text of the instruction that begins at a place of the code, and how long it is."""
    it = Bytes(code, at)
    opcode = it.take()
    opcode += it.take() if opcode == b"\x0f" else b""
    rows = rows_of(opcode)
    if not rows:
        raise NoInstruction(f"no instruction has the opcode {opcode.hex(' ')}")
    found, fields = rows[0], {"o": REGISTERS[opcode[-1] & 7]}
    if any(letter in MODRM for letter in rows[0].operands):
        modrm = it.take()[0]
        found = by_digit(rows, modrm >> 3 & 7)
        letter = next(letter for letter in found.operands if letter in MODRM)
        fields["r"] = REGISTERS[modrm >> 3 & 7]
        fields[letter] = last_field(it, modrm >> 6, modrm & 7, letter)
    for letter in found.operands:
        if letter in NUMBERS:
            fields[letter] = it.number(*NUMBERS[letter])
        elif letter == "to":
            fields[letter] = f"{it.number(4, True) + it.at & 0xFFFFFFFF:08x}"
        checked(found.name, letter, fields[letter])
    operands = ", ".join(str(fields[letter]) for letter in found.operands)
    return f"{found.name} {operands}".rstrip(), it.at - at


# ---- text to bytes


def modrm(mod, middle, last):
    return bytes([mod << 6 | middle << 3 | last])


def memory_bytes(word, middle):
    """The bytes of an operand in memory, with the middle field of its ModRM byte."""
    base, index, scale, bits, number = MEMORY.fullmatch(word).groups()
    for register in (base, index):
        if register is not None and register not in REGISTERS:
            raise NoInstruction(f"{register} is no register")
    if index == "esp":
        raise NoInstruction("esp is no index")
    if base is None and bits != "32" or base == "ebp" and bits == "0":
        raise NoInstruction(f"{word} has a displacement that this base does not go with")
    size = int(bits) // 8
    if size == 0 and int(number) != 0:
        raise NoInstruction(f"{word} has a displacement of no bits that is not 0")
    displacement = number_bytes(number, size, True) if size else b""
    mod = DISPLACEMENTS[bits] if base else 0
    last = REGISTERS.index(base) if base else 5
    if index is None and base != "esp":
        return modrm(mod, middle, last) + displacement
    middle_of_sib = REGISTERS.index(index) if index else 4
    sib = modrm("1248".index(scale or "1"), middle_of_sib, last)
    return modrm(mod, middle, 4) + sib + displacement


def number_bytes(word, size, signed):
    if not re.fullmatch(r"-?\d+", word) or len(word) > 11:
        raise NoInstruction(f"{word} stands where a number is wanted")
    try:
        return int(word).to_bytes(size, "little", signed=signed)
    except OverflowError as error:
        raise NoInstruction(f"{word} is no number of {8 * size} bits") from error


def register(word):
    if word not in REGISTERS:
        raise NoInstruction(f"{word} stands where a register is wanted")
    return REGISTERS.index(word)


def last_bytes(letter, word, middle):
    """The ModRM byte of an operand, and what follows it."""
    if letter == "low":
        if word not in LOW_BYTES:
            raise NoInstruction(f"{word} stands where al, cl, dl or bl is wanted")
        return modrm(3, middle, LOW_BYTES.index(word))
    if letter in ("rm", "m") and MEMORY.fullmatch(word):
        return memory_bytes(word, middle)
    if letter == "m":
        raise NoInstruction(f"{word} stands where memory is wanted, as [ebp+d8:-12]")
    if letter == "rm" and word.startswith("["):
        raise NoInstruction(f"{word} is no memory operand, as [ebp+d8:-12] is one")
    return modrm(3, middle, register(word))


def encode(text, place):
    """The bytes of an instruction of a listing that stands at a place."""
    name, _, rest = text.partition(" ")
    if name not in BY_NAME:
        raise NoInstruction(f"no instruction has the name {name}")
    found, words = BY_NAME[name], rest.split(", ") if rest else []
    if len(words) != len(found.operands):
        raise NoInstruction(f"{name} takes {len(found.operands)} operands, and has {len(words)}")
    operands = dict(zip(found.operands, words))
    opcode = bytearray(found.opcode)
    if "o" in operands:
        opcode[-1] |= register(checked(name, "o", operands["o"]))
    code = bytes(opcode)
    middle = register(operands["r"]) if "r" in operands else found.digit
    for letter, word in operands.items():
        if letter in MODRM:
            code += last_bytes(letter, word, middle)
    for letter, word in operands.items():
        if letter in NUMBERS:
            code += number_bytes(word, *NUMBERS[letter])
            checked(name, letter, int(word))
        elif letter == "to":
            if not re.fullmatch(r"[0-9a-f]{8}", word):
                raise NoInstruction(f"{word} is no place of eight hexadecimal digits")
            away = int(word, 16) - (place + len(code) + 4)
            code += (away & 0xFFFFFFFF).to_bytes(4, "little")
    return code
