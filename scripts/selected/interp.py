"""Runs a code file by the meaning of its code, on the numbers of standard input.

    python3 -m selected.interp FILE [--steps M] [--frames F,F]

The frames are the bytes that each procedure takes of the stack, as `compile` tells them; without
them those of an image in which no variable is ever in memory. What is written goes to standard
output, and the ending to standard error. The status is 0 where the run ended, 1 where it trapped or
is stuck, 2 where it goes on after M steps (10000000), and 3 where FILE is no code file.
"""

import argparse
import sys

from selected import file as code_file
from selected import machine

STATUSES = {"ended": 0, "going": 2}


def words_read(words):
    read = argparse.ArgumentParser(prog="selected.interp")
    read.add_argument("file")
    read.add_argument("--steps", type=int, default=10000000)
    read.add_argument("--frames", type=lambda text: [int(it) for it in text.split(",")])
    return read.parse_args(words)


def main(words):
    options = words_read(words)
    try:
        with open(options.file, "rb") as text:
            file = code_file.read(text.read())
    except code_file.NoCode as error:
        print(error, file=sys.stderr)
        return 3
    numbers = [int(it) for it in sys.stdin.read().split()]
    came_to = machine.run(file, numbers, options.frames, options.steps)
    sys.stdout.write(came_to.out)
    sys.stdout.flush()
    print(came_to.line(), file=sys.stderr)
    return STATUSES.get(came_to.ending, 1)


if __name__ == "__main__":
    sys.exit(main(sys.argv[1:]))
