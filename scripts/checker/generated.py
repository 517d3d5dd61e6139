"""Has both checkers test certificates of generated modules.

    python3 -m checker.generated [--seeds N] [--size Z] [--rounds K] [--compiler PROGRAM]

Of each seed from 1 to N (20) a module of Z procedures (3) is certified by both words of cost, after
K rounds (10), twice: both texts are to be the same to the byte, and so are report and image of two
compilations. `check` and the checker of this package are to hold the text, with the costs and bounds
of the report. Then some of its numbers are changed, one at a time and always the same ones, and both
are to give one answer. Each difference is a line, and the last line has the sums. The status is 1
where there is a difference. The compiler is the one that PRA names, ./pra, or PROGRAM.
"""

import collections
import json
import random
import subprocess
import sys
import tempfile

import stopped
from checker import vectors, verdict
from picture import report
from pranet.compiler import Compiler
from pranet.words import WEIGHTS, read_words, status_of

USAGE = "usage: checker.generated [--seeds N] [--size Z] [--rounds K] [--compiler PROGRAM]"
OPTIONS = {"--seeds": 20, "--size": 3, "--rounds": 10}
CHANGED = ("routes", "caps", "mems", "ties", "total", "bound")  # each once in a certificate
COUNTED = ("modules", "certificates", "procedures", "bytes", "cost", "bound", "changed", "refused")


def last_line(ran):
    lines = (ran.stdout + ran.stderr).decode(errors="replace").splitlines()
    return lines[-1] if lines else ""


def numbers_in(value, path=()):
    """The paths of all whole numbers in a value."""
    if isinstance(value, int):
        yield path
    elif isinstance(value, list):
        for at, part in enumerate(value):
            yield from numbers_in(part, (*path, at))


def changed(value, key, chance):
    """The text of a certificate one of whose numbers below a key is another one, or None."""
    procedure = chance.randrange(len(value["procs"]))
    paths = list(numbers_in(value["procs"][procedure][key]))
    if not paths:
        return None
    path = ("procs", procedure, key, *chance.choice(paths))
    old = value
    for part in path:
        old = old[part]
    return vectors.text_of(vectors.edited(value, {path: max(0, old + chance.choice((-1, 1)))}))


class Comparison:
    """What was compared of all modules, and what differs."""

    def __init__(self, program, room):
        self.compiler, self.program, self.room = Compiler(program), program, room
        self.sums, self.differences = collections.Counter(dict.fromkeys(COUNTED, 0)), []

    def differs(self, name, said):
        self.differences.append(f"{name}: {said}")

    def answers(self, text):
        """What `check` says of a text, line by line, and the answer of this package."""
        with open(f"{self.room}/out.cert", "wb") as file:
            file.write(text)
        words = [self.program, "check", f"{self.room}/out.cert"]
        ran = subprocess.run(words, stdin=subprocess.DEVNULL, capture_output=True, check=False)
        lines = ran.stdout.decode(errors="replace").splitlines()
        return last_line(ran), verdict.answer(text), lines

    def compiled(self, file, options):
        """The report and the image of a module."""
        image = f"{self.room}/out.pri"
        text, _ = self.compiler.call("compile", file, *options, "--image", image)
        with open(image, "rb") as held:
            return text.decode(), held.read()

    def module(self, seed, size, rounds):
        file = f"{self.room}/module.ob"
        words = ("--seed", str(seed), "--size", str(size), "--rounds", "0")
        self.compiler.call("gen", file, *words, "--image", f"{file}.pri", good=(0, 1, 2))
        self.sums["modules"] += 1
        for cost in WEIGHTS:
            options = ("--cost", cost, "--rounds", str(rounds))
            name = f"gen --seed {seed} --size {size} {' '.join(options)}"
            self.certified(name, file, options, random.Random(f"{seed} {cost}"))

    def certified(self, name, file, options, chance):
        """Compares what is said of one module by one word of cost."""
        texts = [self.compiler.call("cert", file, *options)[0] for _ in range(2)]
        compiled = [self.compiled(file, options) for _ in range(2)]
        if texts[0] != texts[1] or compiled[0] != compiled[1]:
            self.differs(name, "two calls give other bytes")
        last = [it.rounds[-1] for it in report.read(compiled[0][0]).procedures]
        wanted = [f"procedure {at} cost {c} bound {b}" for at, (c, b) in enumerate(last)]
        by_compiler, by_reader, lines = self.answers(texts[0])
        if by_compiler != vectors.HOLDS or by_reader != vectors.HOLDS:
            self.differs(name, f"check says {by_compiler!r}, the second checker {by_reader!r}")
        if lines[:-1] != wanted:
            self.differs(name, "check tells other costs and bounds than the report")
        self.sums.update(certificates=1, procedures=len(last), bytes=len(texts[0]))
        self.sums.update(cost=sum(it[0] for it in last), bound=sum(it[1] for it in last))
        self.each_changed(name, json.loads(texts[0]), chance)

    def each_changed(self, name, value, chance):
        for key in CHANGED:
            text = changed(value, key, chance)
            if text is None:
                continue
            by_compiler, by_reader, _ = self.answers(text)
            self.sums.update(changed=1, refused=int(by_compiler != vectors.HOLDS))
            if by_compiler != by_reader:
                said = f"check says {by_compiler!r}, the second checker {by_reader!r}"
                self.differs(f"{name}, {key} changed", said)

    def told(self):
        parts = [f"{count} {what}" for what, count in self.sums.items()]
        return f"{', '.join(parts)}: {len(self.differences)} differences"


def main(words):
    files, values = read_words(words, OPTIONS)
    with tempfile.TemporaryDirectory(prefix="generated-") as room:
        comparison = Comparison(values["--compiler"], room)
        for seed in range(1, values["--seeds"] + 1):
            comparison.module(seed, values["--size"], values["--rounds"])
    print(*comparison.differences, comparison.told(), sep="\n")
    return int(bool(comparison.differences))


if __name__ == "__main__":
    sys.exit(stopped.status_of(lambda: status_of(lambda: main(sys.argv[1:]), USAGE)))
