#!/usr/bin/env python3
"""Writes the selected code of modules as lines that the plain copy reads (rounds/src/code.rs).

    code.py PRA FOLDER FILE..    PRA is the compiler; FOLDER gets NAME.code for each module NAME.ob

The code is that of the certificates that `cert` writes without rounds.
"""

import json
import os
import subprocess
import sys

BASES = {"global": 0, "frame": 1, "cell": 2, "via": 3}


def numbers(operand):
    """The numbers of an operand: itself, or base, number, offset and index of an address."""
    if isinstance(operand, list):
        base, number, offset, index = operand
        return [BASES[base], number, offset, -1 if index is None else index]
    return [operand]


def line(words):
    name, *operands = words
    return " ".join([name, *(str(it) for operand in operands for it in numbers(operand))])


def lines(certificate):
    """The lines of all procedures."""
    for procedure in certificate["procs"]:
        yield f"procedure {procedure['args']} {procedure['aggregates']}"
        yield from map(line, procedure["vars"])
        for depth, code, end in procedure["blocks"]:
            yield f"block {depth}"
            yield from map(line, code)
            yield line(end)
        yield "done"


def main():
    pra, folder, *files = sys.argv[1:]
    for path in files:
        done = subprocess.run([pra, "cert", path, "--rounds", "0"], capture_output=True, check=True)
        name = os.path.basename(path).removesuffix(".ob")
        with open(f"{folder}/{name}.code", "w", encoding="utf-8") as out:
            out.writelines(f"{it}\n" for it in lines(json.loads(done.stdout)))


main()
