"""Programs for the bare machine, and what they come to by `exec`.

A row has the bytes of its code in hexadecimal, on lines `code`. There `#7` stands for the four
bytes of a number, `#@` for those of each number of the line `for` in turn, and `conditions` for
code that writes EAX and a number in EBX: which conditions are met, a bit each, the first one
highest. `data` says how many words of data there are, and `input` what is read. Behind `run M =`
stands what at most M steps come to: what is written, `/` for the end of a line, the ending, how
many words were taken, and how many steps were made.
"""

import re

from calls.reader import FILE
from processor.image import Image
from tables import rows, tool

# For each condition, from B to G: SETcc DL, MOVZX EDX, DL, and LEA EBX, [EDX+EBX*2], which leave
# the flags. Then INT 21h, XCHG EAX, EBX, INT 21h and INT 20h.
SET = "".join(f"0f9{it}c20fb6d28d1c5a" for it in "23456789cdef")
CONDITIONS = f"{SET}cd2187d8cd21cd20"
FORM = re.compile(r"((?: -?\d+|/)*) (ended|going|(?:trap|fault) \w+) (\d+) steps (\d+)")


class Outcome:
    """Output, ending in the words of the tool, numbers taken and steps made."""

    def __init__(self, text):
        out, ending, reads, steps = FORM.fullmatch(text).groups()
        kind, _, name = ending.partition(" ")
        self.out = out.replace("/", "\n")
        self.ending = f"machine {name.lower()}" if kind == "fault" else ending
        self.reads, self.steps = int(reads), int(steps)

    def line(self):
        return f"{self.ending} steps {self.steps} reads {self.reads}"


class Program:
    """A row as far as it was read; outcomes are how many steps at most, and what they come to."""

    def __init__(self, name):
        self.name, self.words, self.data_words = name, [], 0
        self.numbers, self.each, self.outcomes = [], ["0"], []

    def take(self, line):
        """Takes a line."""
        key, _, rest = line.partition(" ")
        if key == "code":
            self.words += rest.split()
        elif key == "data":
            self.data_words = int(rest)
        elif key == "input":
            self.numbers = [int(it) for it in rest.split()]
        elif key == "for":
            self.each = rest.split()
        else:
            steps, _, outcome = rest.partition(" =")
            self.outcomes.append((int(steps), Outcome(outcome)))

    def images(self):
        """An image for each number of the row, with that number."""
        for this in self.each:
            code = b""
            for word in self.words:
                if word.startswith("#"):
                    number = int(this if word == "#@" else word[1:])
                    code += (number % (1 << 32)).to_bytes(4, "little")
                else:
                    code += bytes.fromhex(CONDITIONS if word == "conditions" else word)
            yield this, Image(code, self.data_words)


def programs():
    """The rows of bare programs."""
    found = []
    for line in rows.lines_of("bare"):
        if line.startswith("# "):
            found.append(Program(line[2:]))
        else:
            found[-1].take(line)
    return found


def differences(program):
    """What a program comes to otherwise than its row says."""
    given = " ".join(map(str, program.numbers)).encode()
    for this, image in program.images():
        for most, outcome in program.outcomes:
            words = ["exec", FILE, f"--steps={most}"]
            left = tool.call(words, {FILE: image.to_bytes()}, given, (0, 1, 2))
            found = left.out.decode(), left.notes.decode()
            if found != (outcome.out, f"{outcome.line()}\n"):
                yield f"for {this}, {most} steps: {found}"
