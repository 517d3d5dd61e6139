#!/usr/bin/env python3
"""Prints what the register allocators of LLVM come to on our code, in our weights.

    beside_llvm.py [--compiler PROGRAM] FILE..

FILE is a module or a certificate. Its selected code, as the certificate has it, is written as
LLVM's machine IR (IA-32, EBP reserved, a loop is left one turn in eight), and `llc` allocates it by
each of its four allocators, with the scheduler off. Counted in what comes back are moves, loads,
stores, operands in memory and numbers, by the weights of our events; those that the code has by
itself, its copies and sets, are taken off. So a copy that LLVM drops counts below 0, and a variable
that is set once to a number may be made anew: neither is in our networks, and a cost may lie below
our bound. A line is told for each procedure and one for all: cost by size and by speed of ours
after 10 rounds, and of each allocator. Needed is `llc` (Debian: llvm).
"""

import os
import re
import shutil
import subprocess
import sys
import tempfile
from collections import Counter
from dataclasses import dataclass, field

TOP = os.path.dirname(os.path.dirname(os.path.realpath(__file__)))
sys.path.insert(0, f"{TOP}/scripts")

from pranet.compiler import Compiler, default_program  # noqa: E402
from pranet.operands import constant_event, raw_row, weight  # noqa: E402

ALLOCATORS = ("fast", "basic", "pbqp", "greedy")
WEIGHTS = ("size", "speed")
TRIPLE = "i686-unknown-linux-gnu"
OPTIMIZED = ["-start-before=simple-register-coalescing", "-enable-misched=false"]
OPTIMIZED += ["-stop-after=virtregrewriter"]
PASSES = {"fast": ["-O0", "-start-before=regallocfast", "-stop-after=regallocfast"]}
DATA = 0x4000000  # where data words stand, so that their addresses are long
LEFT = 1 / 8  # of the turns of a loop the share that leaves it
WHOLE = 1 << 31  # the probability of what is certain
ALU = {"add": "ADD32", "sub": "SUB32", "and": "AND32", "or": "OR32", "xor": "XOR32"}
DEAD = "implicit-def dead $eflags"
FLAGS = "implicit-def $eflags"
CLASS = "gr32_nosp"  # every general register but ESP
MOVE, CONSTANT = 0, 5  # events
HEAD = """--- |
  target triple = "{triple}"
{functions}  attributes #0 = {{ nounwind "frame-pointer"="all" "target-cpu"="i686" }}
...
"""
FUNCTION = """---
name:            p{number}
tracksRegLiveness: true
frameInfo:
  hasCalls: true
fixedStack:{cells}
stack:
  - {{ id: 0, type: default, offset: 0, size: {frame}, alignment: 4 }}
body: |
{blocks}...
"""
CELL = (
    "\n  - {{ id: {id}, type: default, offset: {offset}, size: 4, alignment: 4,"
    " isImmutable: {own}, isAliased: {shared} }}"
)


class NoLlvm(Exception):
    """Why LLVM allocates nothing here."""


# ---- machine IR


@dataclass
class Own:
    """What a block of the code has by itself, whoever allocates it."""

    depth: int
    sets: int = 0
    copies: int = 0
    immediates: Counter = field(default_factory=Counter)  # events


def is_short(number):
    return -128 <= number <= 127


def signed(number):
    return (number + WHOLE) % (2 * WHOLE) - WHOLE


class Writer:
    """Writes the code of a procedure as machine IR, with what each block has by itself."""

    def __init__(self, procedure):
        self.code = procedure
        self.constants = {
            v: it.value for v, it in enumerate(procedure.variables) if it.kind == "constant"
        }
        rows = (raw_row(ins) for block in procedure.blocks for ins in block.code)
        self.read = {role.var for row in rows for role in row.reads}
        self.registers = len(procedure.variables)  # virtual ones, so far
        self.lines, self.own = [], None

    def new(self):
        self.registers += 1
        return self.registers - 1

    def define(self, v):
        return f"%{v}:{CLASS}"

    def value(self, v):
        """A virtual register that holds a variable, or a number that is set for it."""
        if v not in self.constants:
            return f"%{v}"
        name = self.new()
        self.lines.append(f"{self.define(name)} = MOV32ri {self.constants[v]}")
        return f"%{name}"

    def address(self, addr):
        base, number, offset, index = addr
        by = f"%{index}" if index is not None else "$noreg"
        scale = 4 if index is not None else 1
        if base == "global":
            return f"$noreg, {scale}, {by}, {signed(DATA + 4 * number + offset)}, $noreg"
        if base == "frame":
            return f"%stack.0, {scale}, {by}, {4 * number + offset}, $noreg"
        if base == "cell":
            return f"%fixed-stack.{number}, {scale}, {by}, {offset}, $noreg"
        return f"%{number}, {scale}, {by}, {offset}, $noreg"

    def immediate(self, ins, v):
        """Counts a number that stands in an instruction."""
        event = constant_event(ins, self.constants[v])
        if event is not None:
            self.own.immediates[event] += 1

    def two_operands(self, ins, name, begin, left, right):
        """An instruction whose right operand may be a number, with its flags behind."""
        flags = FLAGS if name == "CMP32" else DEAD
        if right in self.constants:
            self.immediate(ins, right)
            number = self.constants[right]
            short = "8" if is_short(number) else ""
            form = "rri" if name == "IMUL32" else "ri"
            self.lines.append(f"{begin}{name}{form}{short} {left}, {number}, {flags}")
        else:
            self.lines.append(f"{begin}{name}rr {left}, %{right}, {flags}")

    def compare(self, ins, left, right):
        self.two_operands(ins, "CMP32", "", self.value(left), right)

    def division(self, quotient, rest, left, right):
        divisor = self.value(right)
        self.lines += [
            f"$eax = COPY {self.value(left)}",
            "CDQ implicit-def $eax, implicit-def $edx, implicit $eax",
            f"IDIV32r {divisor}, implicit-def $eax, implicit-def $edx, {DEAD}, implicit $eax,"
            " implicit $edx",
        ]
        for v, register in ((quotient, "eax"), (rest, "edx")):
            if v in self.read:
                self.lines.append(f"{self.define(v)} = COPY ${register}")

    def numbers(self, ins):
        """Instructions that work out a number; whether it is one."""
        op, *xs = ins
        match op:
            case "set":
                self.own.sets += 1
                self.lines.append(f"{self.define(xs[0])} = MOV32ri {xs[1]}")
            case "copy":
                self.own.copies += 1
                self.lines.append(f"{self.define(xs[0])} = COPY {self.value(xs[1])}")
            case "add" | "sub" | "and" | "or" | "xor":
                self.two_operands(ins, ALU[op], f"{self.define(xs[0])} = ", f"%{xs[0]}", xs[1])
            case "mul":
                self.two_operands(ins, "IMUL32", f"{self.define(xs[0])} = ", f"%{xs[0]}", xs[1])
            case "neg":
                self.lines.append(f"{self.define(xs[0])} = NEG32r %{xs[0]}, {DEAD}")
            case "shl" | "shr" | "sar":
                form = f"{op.upper()}32ri"
                self.lines.append(f"{self.define(xs[0])} = {form} %{xs[0]}, {xs[1]}, {DEAD}")
            case "cmp":
                self.compare(ins, *xs)
            case "cmpset":
                self.compare(ins, *xs[2:])
                byte = self.new()
                self.lines.append(f"%{byte}:gr8_abcd_l = SETCCr {xs[0]}, implicit $eflags")
                self.lines.append(f"{self.define(xs[1])} = MOVZX32rr8 %{byte}")
            case "divmod":
                self.division(*xs)
            case _:
                return False
        return True

    def other(self, ins):
        """The instructions that are left."""
        op, *xs = ins
        match op:
            case "check" | "checkpos":
                most = xs[1] if op == "check" else 0
                form = "CMP32ri8" if is_short(most) else "CMP32ri"
                self.lines.append(f"{form} {self.value(xs[0])}, {most}, {DEAD}")
            case "load":
                self.lines.append(
                    f"{self.define(xs[0])} = MOV32rm {self.address(xs[1])} :: (load (s32))"
                )
            case "addr":
                self.lines.append(f"{self.define(xs[0])} = LEA32r {self.address(xs[1])}")
            case "store":
                self.store(ins, *xs)
            case "push":
                self.push(ins, xs[0])
            case "call":
                line = f"CALLpcrel32 &p{xs[0]}, csr_32, implicit $esp, implicit-def $esp"
                self.lines.append(line)
            case "read":
                self.lines.append("INT 35, implicit-def $eax")
                self.lines.append(f"{self.define(xs[0])} = COPY $eax")
            case "write":
                self.lines.append(f"$eax = COPY {self.value(xs[0])}")
                self.lines.append("INT 33, implicit $eax")
            case "line":
                self.lines.append("INT 34")
            case "clear":
                self.lines.append("$ecx = IMPLICIT_DEF")

    def store(self, ins, addr, v):
        if v in self.constants:
            self.immediate(ins, v)
            name, value = "MOV32mi", self.constants[v]
        else:
            name, value = "MOV32mr", f"%{v}"
        self.lines.append(f"{name} {self.address(addr)}, {value} :: (store (s32))")

    def push(self, ins, v):
        if v in self.constants:
            self.immediate(ins, v)
            word = f"PUSHi32 {self.constants[v]}"
        else:
            word = f"PUSH32r %{v}"
        self.lines.append(f"{word}, implicit-def $esp, implicit $esp")

    def parameters(self):
        for v, it in enumerate(self.code.variables):
            if it.kind == "param" and v in self.read:
                cell = f"%fixed-stack.{it.value}"
                self.lines.append(
                    f"{self.define(v)} = MOV32rm {cell}, 1, $noreg, 0, $noreg"
                    f" :: (load (s32) from {cell})"
                )

    def taken(self, depth, yes, no):
        """How probable it is that a branch goes to the first of its blocks."""
        deep = self.code.blocks[yes].depth, self.code.blocks[no].depth
        if deep[0] < depth <= deep[1]:
            return LEFT
        return 1 - LEFT if deep[1] < depth <= deep[0] else 0.5

    def end(self, block):
        """Writes where a block leads to, and tells it with how probable each way is."""
        kind, *xs = block.end
        if kind == "return":
            self.lines.append("RET32")
            return []
        if kind == "jump" or xs[1] == xs[2]:
            self.lines.append(f"JMP_1 %bb.{xs[-1]}")
            return [(xs[-1], WHOLE)]
        condition, yes, no = xs
        self.lines.append(f"JCC_1 %bb.{yes}, {condition}, implicit $eflags")
        self.lines.append(f"JMP_1 %bb.{no}")
        share = int(self.taken(block.depth, yes, no) * WHOLE)
        return [(yes, share), (no, WHOLE - share)]

    def block(self, number, block):
        """The text of a block, and what it has by itself."""
        self.lines, self.own = [], Own(block.depth)
        if number == 0:
            self.parameters()
        for ins in block.code:
            if not self.numbers(ins):
                self.other(ins)
        ways = ", ".join(f"%bb.{to}(0x{share:08x})" for to, share in self.end(block))
        head = f"  bb.{number}:\n" + (f"    successors: {ways}\n" if ways else "")
        return head + "".join(f"    {it}\n" for it in ["", *self.lines]) + "\n", self.own

    def function(self, number):
        """The text of the procedure, and what each of its blocks has by itself."""
        written = [self.block(*it) for it in enumerate(self.code.blocks)]
        own = {it.value for it in self.code.variables if it.kind == "param"}
        words = {True: "true", False: "false"}
        cells = "".join(
            CELL.format(
                id=it,
                offset=4 * (self.code.args - 1 - it),
                own=words[it in own],
                shared=words[it not in own],
            )
            for it in range(self.code.args)
        )
        frame, blocks = max(4, 4 * self.code.aggregates), "".join(text for text, _ in written)
        text = FUNCTION.format(number=number, cells=cells or " []", frame=frame, blocks=blocks)
        return text, [own for _, own in written]


# ---- what comes back


def spilled(text):
    """The slots of a function that LLVM has made, and the cells of arguments that are variables."""
    slots = re.findall(r"- \{ id: (\d+), (?:name: '', )?type: spill-slot", text)
    cells = re.findall(r"- \{ id: (\d+), type: default, offset: [^}]*?isAliased: false", text)
    return {f"%stack.{it}" for it in slots} | {f"%fixed-stack.{it}" for it in cells}


def events_of(line, cells, is_near):
    """The events of a machine instruction."""
    load, store, operand, set_there = (1, 2, 6, 8) if is_near else (3, 4, 7, 9)
    if found := re.match(r"\$(\w+) = COPY \$(\w+)", line):
        return [MOVE] if found[1] != found[2] else []
    if "MOV32ri " in line:
        return [CONSTANT]
    if " XCHG" in line:
        return [MOVE, MOVE]
    if cells.isdisjoint(re.findall(r"%(?:fixed-)?stack\.\d+", line.split("::")[0])):
        return []
    if re.search(r"= (MOV32rm|MOV8rm) ", line):
        return [load]
    if line.startswith(("MOV32mr ", "MOV8mr ")):
        return [store]
    if line.startswith("MOV32mi "):
        return [set_there, CONSTANT]
    return [set_there if line.startswith("PUSH32rmm") else operand]


def plain(line):
    """A line without what is marked at its registers."""
    return re.sub(r"\b(renamable|killed|dead|undef) ", "", line.strip())


def counted(text, owned, is_near):
    """The events of a function by block, less those that its code has by itself."""
    cells = spilled(text)
    parts = re.split(r"\n  bb\.(\d+)[^\n]*:\n", "\n" + text.split("body:")[1])
    found = []
    for number, block in zip(map(int, parts[1::2]), parts[2::2], strict=True):
        own, events = owned[number], Counter()
        for line in map(plain, block.splitlines()):
            if line and not line.startswith(("successors", "liveins", ";")):
                events.update(events_of(line, cells, is_near))
        events.subtract({MOVE: own.copies, CONSTANT: own.sets})
        events.update(own.immediates)
        found.append((own.depth, events))
    return found


def costs_of(blocks):
    """What events come to, by each of the weights."""
    return {
        cost: sum(
            count * weight(cost, event, depth)
            for depth, events in blocks
            for event, count in events.items()
        )
        for cost in WEIGHTS
    }


def allocated(procedures, allocator):
    """The costs of each procedure by an allocator of LLVM."""
    written = [Writer(it).function(number) for number, it in enumerate(procedures)]
    names = range(len(procedures))
    functions = "".join(f"  define void @p{it}() #0 {{ unreachable }}\n" for it in names)
    with tempfile.TemporaryDirectory(prefix="pra-llvm-") as room:
        with open(f"{room}/code.mir", "w", encoding="ascii") as out:
            out.write(HEAD.format(triple=TRIPLE, functions=functions))
            out.writelines(text for text, _ in written)
        command = ["llc", f"-mtriple={TRIPLE}", *PASSES.get(allocator, OPTIMIZED)]
        command += [f"-regalloc={allocator}", f"{room}/code.mir", "-o", f"{room}/out.mir"]
        ran = subprocess.run(command, capture_output=True, check=False)
        if ran.returncode:
            said = ran.stderr.decode(errors="replace").strip().splitlines()
            raise NoLlvm(f"llc by {allocator}: {said[0] if said else ran.returncode}")
        with open(f"{room}/out.mir", encoding="utf-8") as text:
            parts = text.read().split("\n---\nname:")[1:]
    return [
        costs_of(counted(part, owned, it.is_near))
        for part, (_, owned), it in zip(parts, written, procedures, strict=True)
    ]


def is_there():
    return shutil.which("llc") is not None


def main(words):
    program = default_program()
    if words[:1] == ["--compiler"]:
        program, words = words[1], words[2:]
    if not words or not is_there():
        print("usage: beside_llvm.py [--compiler PROGRAM] FILE..; and llc is needed")
        return 6
    compiler, sums = Compiler(program), Counter()
    for file in words:
        ours = [compiler.problem(file, cost, 10)[0].procedures for cost in WEIGHTS]
        theirs = {it: allocated(ours[0], it) for it in ALLOCATORS}
        for number, pair in enumerate(zip(*ours, strict=True)):
            row = {("ours", cost): it.total for cost, it in zip(WEIGHTS, pair, strict=True)}
            for name, found in theirs.items():
                row |= {(name, cost): found[number][cost] for cost in WEIGHTS}
            sums.update(row)
            print(f"{os.path.basename(file)} {number}: {told(row)}", flush=True)
    print(f"all: {told(sums)}")
    return 0


def told(row):
    names = ("ours", *ALLOCATORS)
    return ", ".join(f"{it} {row[it, 'size']} / {row[it, 'speed']}" for it in names)


if __name__ == "__main__":
    sys.exit(main(sys.argv[1:]))
