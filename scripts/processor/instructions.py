"""Runs each instruction of the table on the processor, and compares the state behind each step.

    instructions.py [--chance N]

Compared with the step table (machine.py) are the registers, the flags that the table defines and
the place behind each step, and data and stack at the end. There are three parts: the rows of
instructions that tests_layers has, each on a state of chance; each form of each instruction
(forms.py); and the rows of tests/bare.table, held to what is written there as well.
Then a table says what the processor left in flags that the step table calls unknown. N is where the
numbers of chance begin. The status is 1 where there is a difference.
"""

import argparse
import collections
import os
import random
import struct
import subprocess
import sys
import tempfile

from processor import forms, tables
from processor.build import Builder
from processor.image import Refused
from processor.machine import CODE_BASE, EAX, FLAGS, Ending, Machine
from tables import bare

TOP = os.path.dirname(os.path.dirname(os.path.dirname(os.path.realpath(__file__))))
SOURCES = f"{TOP}/crates/tests_layers/src"
BITS = {"cf": 0, "zf": 6, "sf": 7, "of": 11}  # of EFLAGS
RECORD = struct.Struct("<11I")  # EDI to EAX, EIP, EFLAGS, the flags that are known
TRACED_STACK = 1024
MOST_STEPS = 200000000
SECONDS = 300


def leaves_unknown(code, at):
    """The instruction at a place and the register of its result, where it leaves flags unknown."""
    first, second, third = code[at : at + 3].ljust(3, b"\0")
    if first in (0x69, 0x6B):
        return "IMUL", second >> 3 & 7
    if (first, second) == (0x0F, 0xAF):
        return "IMUL", third >> 3 & 7
    if first == 0xC1 and second >> 6 == 3 and third & 31:
        return "SHL, SHR, SAR", second & 7
    return ("IDIV", EAX) if first == 0xF7 and second >> 3 & 7 == 7 else None


def rules_held(flag, found, before, result):
    """In words what a flag that is unknown was found to be."""
    by_result = {"sf": bool(result >> 31), "zf": result == 0}
    yield "set" if found else "clear"
    if found == before:
        yield "as before"
    if found == by_result.get(flag):
        yield "by the result"


class Instructions:
    """What was compared, and what was found."""

    def __init__(self, builder, room):
        self.builder, self.room = builder, room
        self.sums = collections.Counter()
        self.differences = []
        # Of an instruction and a flag that it leaves unknown: in how many cases each rule held.
        self.unknown = collections.defaultdict(collections.Counter)

    def run(self, image, numbers, most):
        """The records behind each step, memory at the end, output and last line."""
        program, trace = f"{self.room}/program", f"{self.room}/trace"
        self.builder.fill(image, program)
        command = ["sh", "-c", 'exec "$0" --steps "$1" 3>"$2"', program, str(most), trace]
        text = " ".join(map(str, numbers)).encode()
        how = {"input": text, "capture_output": True, "timeout": SECONDS, "check": False}
        done = subprocess.run(command, **how)
        with open(trace, "rb") as file:
            traced = file.read()
        size = 4 * image.data_words + TRACED_STACK
        if len(traced) < size or (len(traced) - size) % RECORD.size:
            return [], b"", "", f"no trace: {done.stderr.decode(errors='replace').strip()}"
        records = list(RECORD.iter_unpack(traced[: len(traced) - size]))
        return records, traced[len(traced) - size :], done.stdout.decode(), done.stderr.decode()

    def compare(self, name, image, numbers, most=MOST_STEPS):
        """Compares a program. The ending by the step table, or None where there is a difference."""
        records, memory, out, line = self.run(image, numbers, most)
        machine, before = Machine(image, numbers), 0x202
        for record in records:
            at = machine.eip - CODE_BASE
            try:
                machine.step()
            except Ending as ending:
                return self.differs(name, f"step {machine.steps} at {at:08x} ends: {ending}")
            told = self.state_differs(machine, record)
            if told:
                return self.differs(name, f"step {machine.steps} at {at:08x}: {told}")
            self.note_unknown(leaves_unknown(image.code, at), machine, before, record[9])
            before = record[9]
        ending = machine.run(most)
        wanted = f"{ending} steps {machine.steps} reads {machine.taken}\n"
        if (out, line) != ("".join(machine.out), wanted):
            return self.differs(name, f"it ends as {line!r}, by the table as {wanted!r}")
        if memory != bytes(machine.data + machine.stack[-TRACED_STACK:]):
            return self.differs(name, "memory at the end")
        self.sums["steps"] += machine.steps
        return ending

    def differs(self, name, said):
        self.differences.append(f"{name}: {said}")

    @staticmethod
    def state_differs(machine, record):
        """What is not as the step table has it, or None."""
        registers, (eip, eflags, known) = list(record[7::-1]), record[8:]
        if registers != machine.registers:
            return f"registers {registers}, by the table {machine.registers}"
        if eip != machine.eip:
            return f"EIP {eip:08x}, by the table {machine.eip:08x}"
        for flag, value in machine.flags.items():
            if (value is None) == bool(known >> BITS[flag] & 1):
                return f"whether {flag} is known"
            if value is not None and value != bool(eflags >> BITS[flag] & 1):
                return f"{flag} is {not value}, by the table {value}"
        return None

    def note_unknown(self, instruction, machine, before, after):
        """Notes what the processor left in the flags that the table leaves open."""
        if instruction is None:
            return
        name, register = instruction
        for flag in (it for it in FLAGS if machine.flags[it] is None):
            found, old = (bool(it >> BITS[flag] & 1) for it in (after, before))
            count = self.unknown[name, flag]
            count["cases"] += 1
            count.update(rules_held(flag, found, old, machine.registers[register]))

    # ---- the parts

    def rows(self, chance):
        with open(f"{SOURCES}/instructions.rt", encoding="utf-8") as file:
            rows = tables.instructions(file.read())
        cases = forms.Cases(chance)
        for code, printed in rows:
            image, most = forms.row(cases, code, printed)
            self.compare(f"row {code.hex()} {printed}", image, [5], most)
            self.sums["rows"] += 1

    def forms(self, chance):
        for name, count, image in forms.programs(chance):
            self.compare(name, image, [])
            self.sums["forms"] += 1
            self.sums["cases"] += count

    def programs(self):
        for program in bare.programs():
            for this, image in program.images():
                for most, outcome in program.outcomes:
                    name = f"program {program.name!r} for {this}, {most} steps"
                    if self.compare(name, image, program.numbers, most) != outcome.ending:
                        self.differs(name, f"not {outcome.line()!r}, as the row has it")
                    self.sums["programs"] += 1

    def told(self):
        parts = [f"{count} {what}" for what, count in self.sums.items()]
        return f"{', '.join(parts)}: {len(self.differences)} differences"


def main(words):
    read = argparse.ArgumentParser(prog="instructions.py")
    read.add_argument("--chance", type=int, default=1)
    chance = random.Random(read.parse_args(words).chance)
    try:
        with Builder("-DTRACE") as builder, tempfile.TemporaryDirectory() as room:
            it = Instructions(builder, room)
            it.rows(chance)
            it.programs()
            it.forms(chance)
    except Refused as refused:
        print(refused, file=sys.stderr)
        return refused.status
    print(*it.differences, it.told(), sep="\n")
    for (name, flag), count in sorted(it.unknown.items()):
        held = ", ".join(f"{rule} {times}" for rule, times in count.items())
        print(f"unknown {flag.upper()} behind {name}: {held}")
    return int(bool(it.differences))


if __name__ == "__main__":
    sys.exit(main(sys.argv[1:]))
