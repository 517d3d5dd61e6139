#!/usr/bin/env python3
"""Compiles modules and their code files, and says where image or report differ.

    modules_as_code.py [--generated A-B] [--size Z] [--all] [--compiler PROGRAM]

The modules are the examples and those that `gen` makes of the seeds A to B (1-9) with Z procedures
(3). The code file of each is what `./pra code` prints. With 0 and 1 rounds and by `size`, with
--all with 0, 1 and 10 rounds and by both words of cost, module and code file have to come to the
same bytes and the same lines. Each difference is a line, and the last line tells how many modules
and pairs there were. The status is 1 where there is a difference.
"""

import argparse
import glob
import os
import subprocess
import sys
import tempfile

import code_files
import stopped
from compare_codes import numbers
from pranet import code_file
from pranet.compiler import TOP, Compiler, default_program

FEW = [(0, "size"), (1, "size")]
ALL = [(rounds, cost) for rounds in (0, 1, 10) for cost in ("size", "speed")]


def words_read(words):
    read = argparse.ArgumentParser(prog="modules_as_code.py")
    read.add_argument("--generated", type=numbers, default=numbers("1-9"))
    read.add_argument("--size", default="3")
    read.add_argument("--all", action="store_true")
    read.add_argument("--compiler", default=default_program())
    return read.parse_args(words)


def generated(compiler, seed, size, room):
    """The file of a module that is made of a seed."""
    file = f"{room}/seed{seed}.ob"
    command = [compiler, "gen", file, "--seed", str(seed), "--size", size, "--rounds", "0"]
    command += ["--steps", "0", "--image", f"{room}/it.pri"]
    subprocess.run(command, capture_output=True, check=False)
    return file


def compiled(compiler, file, rounds, cost):
    """The image of a file, and the lines on it."""
    with tempfile.TemporaryDirectory(prefix="pra-code-") as room:
        image = f"{room}/it.pri"
        words = ["--rounds", str(rounds), "--cost", cost, "--image", image]
        told, _ = compiler.call("compile", file, *words)
        with open(image, "rb") as made:
            return made.read(), told


def differences(program, file, ways):
    """A line for each way in which a module is compiled otherwise than its code file."""
    compiler = Compiler(program)
    with tempfile.NamedTemporaryFile("w", suffix=".code") as code:
        code.write(code_file.write(code_files.of_module(compiler, file)))
        code.flush()
        for rounds, cost in ways:
            images, lines = zip(*(compiled(compiler, it, rounds, cost) for it in (file, code.name)))
            for what, (module, own) in (("image", images), ("report", lines)):
                if module != own:
                    name = os.path.basename(file)
                    yield f"{name} --rounds {rounds} --cost {cost}: another {what} as a code file"


def main(words):
    options = words_read(words)
    ways, found, count = ALL if options.all else FEW, 0, 0
    with tempfile.TemporaryDirectory(prefix="pra-code-") as room:
        made = (generated(options.compiler, it, options.size, room) for it in options.generated)
        for file in [*sorted(glob.glob(f"{TOP}/examples/*.ob")), *made]:
            count += 1
            for line in differences(options.compiler, file, ways):
                found += 1
                print(line, flush=True)
    print(f"{count} modules, {count * len(ways)} pairs: {found} differences")
    return int(found > 0)


if __name__ == "__main__":
    sys.exit(stopped.status_of(lambda: main(sys.argv[1:])))
