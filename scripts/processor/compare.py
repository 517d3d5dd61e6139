"""Runs modules on the processor and on the machine, and compares what they come to.

    compare.py [--seeds A-B] [--sizes Z,Z] [--files FILE,FILE] [--compiler PROGRAM] [--jobs N]

Compared are output, status, ending and how many numbers were read; in short runs, whose steps the
trap flag counts, the steps too. The modules are those of examples/, those of modules.py, and a
generated one for each seed and each size (seeds 1-20, sizes 1,4,10); each is compiled with 0, 1 and
10 rounds, by both words of cost. Each difference is a line that says what makes it again, and the
last line has the sums, also where Ctrl-C ends it. The status is 1 where there is a difference.
"""

import argparse
import collections
import concurrent.futures
import errno
import glob
import os
import re
import subprocess
import sys
import tempfile
import threading

from processor import modules
from processor.build import Builder
from processor.image import Refused, image_of

TOP = os.path.dirname(os.path.dirname(os.path.dirname(os.path.realpath(__file__))))
COMPILER = os.environ.get("PRA", f"{TOP}/pra")
WAYS = [(rounds, cost) for rounds in (0, 1, 10) for cost in ("size", "speed")]
# What the modules of examples/ are run on.
INPUTS = ("", "5", "25 7", "3 1 2", "10 9 8 7 6 5 4 3 2 1", "-2147483648 2147483647 0")
SECONDS = 600  # that a program may take, by the clock, on a machine that has other work
MOST_STEPS = 10000000
COUNTED_STEPS = 2000  # runs of at most so many steps are made once more, with the trap flag
TOLD_FIRST = ("modules", "images", "runs", "comparisons", "steps", "steps of the trap flag")
ENDING = re.compile(r"^(ended|going|trap \w+|machine \w+)( steps \d+)? reads (\d+)$")

# What a run came to: its status, its output, and its last line.
Outcome = collections.namedtuple("Outcome", "status out line")


def outcome_of(command, text):
    """Calls a command on an input."""
    how = {"input": text.encode(), "capture_output": True, "timeout": SECONDS, "check": False}
    done = None
    while done is None:
        try:
            done = subprocess.run(command, **how)
        except subprocess.TimeoutExpired:
            return Outcome(None, b"", f"no end in {SECONDS} s")
        except OSError as error:
            # A worker's new process has the files that others write open, until it begins.
            if error.errno != errno.ETXTBSY:
                raise
    lines = done.stderr.decode(errors="replace").splitlines()
    return Outcome(done.returncode, done.stdout, lines[-1] if lines else "")


def without_steps(it):
    """The same of a run whose steps nobody counted."""
    return it._replace(line=re.sub(r" steps \d+", "", it.line))


def steps_in(line):
    found = re.search(r" steps (\d+)", line)
    return int(found[1]) if found else 0


def shown(it):
    return f"status {it.status}, {len(it.out)} bytes of output, {it.line!r}"


class Comparison:
    """The compiler, the builder of programs, and sums of what was compared."""

    def __init__(self, compiler, builder, room):
        self.compiler, self.builder, self.room = compiler, builder, room
        self.sums, self.turn = collections.Counter(dict.fromkeys(TOLD_FIRST, 0)), threading.Lock()
        self.differences = []

    def count(self, **sums):
        with self.turn:
            self.sums.update({name.replace("_", " "): count for name, count in sums.items()})

    def module(self, name, file, inputs):
        """Compares one module, compiled in each way, on each input."""
        images = {}
        for number, (rounds, cost) in enumerate(WAYS):
            way = ["--rounds", str(rounds), "--cost", cost]
            image_file = f"{file}.{number}.pri"
            options = [*way, "--image", image_file, "--steps", str(MOST_STEPS)]
            for text in inputs:
                command = [self.compiler, "run", file, *options]
                wanted = outcome_of(command, text)
                if not ENDING.match(wanted.line):
                    self.differs(name, way, text, f"the compiler says {wanted.line!r}")
                    return
                program = self.program(image_file, images)
                self.compare(name, (file, way, text), wanted, program)
        bytes_of_code = sum(len(code) for code, _ in images)
        self.count(modules=1, images=len(images), bytes_of_code=bytes_of_code)

    def program(self, image_file, images):
        """The native program of an image; the same images have one."""
        with open(image_file, "rb") as file:
            image = image_of(file.read())
        key = (image.code, image.data_words)
        if key not in images:
            images[key] = f"{image_file}.program"
            self.builder.fill(image, images[key])
        return images[key]

    def compare(self, name, run, wanted, program):
        """Compares a run of the machine with the same on the processor."""
        file, way, text = run
        ending = ENDING.match(wanted.line)[1]
        self.count(runs=1, steps=steps_in(wanted.line), **{ending: 1})
        if wanted.status == 2:  # it does not end: both go so many steps
            few = ["--steps", str(COUNTED_STEPS)]
            command = [self.compiler, "run", file, *way, *few, "--image", f"{program}.pri"]
            wanted = outcome_of(command, text)
        else:
            self.expect(name, way, text, without_steps(wanted), outcome_of([program], text))
        if steps_in(wanted.line) <= COUNTED_STEPS:
            self.count(steps_of_the_trap_flag=steps_in(wanted.line))
            found = outcome_of([program, "--steps", str(COUNTED_STEPS)], text)
            self.expect(name, way, text, wanted, found)

    def expect(self, name, way, text, wanted, found):
        self.count(comparisons=1)
        if wanted != found:
            said = f"run: {shown(wanted)}; native: {shown(found)}"
            self.differs(name, way, text, said)

    def differs(self, name, way, text, said):
        self.differences.append(f"{name} {' '.join(way)}, on {text!r}: {said}")

    # ---- modules

    def write(self, name, text):
        file = f"{self.room}/{name}.ob"
        with open(file, "w", encoding="ascii") as module:
            module.write(text)
        return file

    def report_of(self, text):
        file = self.write("report", text)
        command = [self.compiler, "compile", file, "--image", f"{file}.pri"]
        return subprocess.run(command, capture_output=True, text=True, check=False).stdout

    def stated(self):
        """The modules of modules.py: name, file and inputs."""
        for name, text, inputs in modules.ENDINGS:
            yield name, self.write(name, text), inputs
        words, levels = modules.deepest(self.report_of)
        for more in (-1, 0, 1):
            name = f"deep_{words + more}_{levels}"
            yield name, self.write(name, modules.deep(words + more, levels)), ("",)

    def generated(self, seed, size):
        file = f"{self.room}/generated_{seed}_{size}.ob"
        command = [self.compiler, "gen", file, "--seed", str(seed), "--size", str(size)]
        made = outcome_of([*command, "--image", f"{file}.pri"], "")
        name = f"gen --seed {seed} --size {size}"
        if made.status in (0, 1, 2):
            self.module(name, file, ("",))
        else:
            self.differs(name, [], "", f"the compiler says {made.line!r}")

    def copied(self, file):
        with open(file, encoding="ascii") as module:
            return file, self.write(os.path.basename(file), module.read()), INPUTS

    def told(self):
        parts = [f"{count} {what}" for what, count in self.sums.items()]
        return f"{', '.join(parts)}: {len(self.differences)} differences"


def numbers(text):
    """The numbers of A-B or of A,B,C."""
    found = []
    for part in text.split(","):
        first, is_range, last = part.partition("-")
        found += range(int(first), int(last if is_range else first) + 1)
    return found


def words_read(words):
    read = argparse.ArgumentParser(prog="processor.sh")
    read.add_argument("--seeds", type=numbers, default=numbers("1-20"))
    read.add_argument("--sizes", type=numbers, default=numbers("1,4,10"))
    read.add_argument("--files", help="modules in place of all others; commas part them")
    read.add_argument("--compiler", default=COMPILER)
    read.add_argument("--jobs", type=int, default=os.cpu_count())
    return read.parse_args(words)


def compare(options, builder, room):
    """The comparison of all modules that the words name, some side by side."""
    comparison = Comparison(options.compiler, builder, room)
    files = sorted(glob.glob(f"{TOP}/examples/*.ob"))
    tasks = []
    if options.files is None:
        tasks += [(comparison.module, it) for it in comparison.stated()]
        tasks += [(comparison.generated, (s, z)) for s in options.seeds for z in options.sizes]
    else:
        files = options.files.split(",")
    tasks += [(comparison.module, comparison.copied(file)) for file in files]
    with concurrent.futures.ThreadPoolExecutor(options.jobs) as workers:
        waiting = [workers.submit(work, *given) for work, given in tasks]
        try:
            for done in waiting:
                done.result()
        except KeyboardInterrupt:  # what was compared so far is told
            workers.shutdown(cancel_futures=True)
    return comparison


def main(words):
    options = words_read(words)
    try:
        with Builder() as builder, tempfile.TemporaryDirectory(prefix="processor-") as room:
            comparison = compare(options, builder, room)
    except Refused as refused:
        print(refused, file=sys.stderr)
        return refused.status
    print(*comparison.differences, comparison.told(), sep="\n")
    return int(bool(comparison.differences))


if __name__ == "__main__":
    sys.exit(main(sys.argv[1:]))
