#!/usr/bin/env python3
"""Makes a program for Linux on i386 of an image, or an object that C programs call.

    native.py IMAGE [-o NAME] [--steps M] [--report REPORT]
    native.py IMAGE --object | --assembly [-o NAME] [--report REPORT] [--module MODULE]

The program is written to NAME, or to IMAGE's name without its ending .pri. It reads and writes what
`run` does, and has its statuses. It runs without end, or, with --steps here or among its own words,
makes at most M steps and counts them. Each procedure is a symbol for a debugger, with its name
where REPORT is what `compile` wrote of this image.

With --assembly NAME, or IMAGE's name with the ending .s, gets a text for the GNU assembler, and
with --object one with the ending .o the object that gcc makes of it. Beside it stands a header for
C, which ends in .h: each procedure is a function there, Sort_Insert of the module Sort, whose
parameters have their names where MODULE is the text that was compiled; where it is a code file the
procedures have its names. gcc is asked with -m32. The status is 0, or that of the line on standard
error: 3 and 4 where IMAGE is no image, as `list` says it, or MODULE breaks a rule of code, 5 where
a file can't be read or written, 6 where the words are none of these, 70 where gcc can't do it, or
where the image was not compiled.
"""

import os
import sys

import explain
import reading
import stopped
import writing
from checker.given import Broken
from picture import report
from processor import assembly
from processor.build import NO_LIMIT, Builder, assembled
from processor.image import MAX_FILE_BYTES, Refused, image_of, names_in

USAGE = "usage: pra native IMAGE [-o NAME] [--report REPORT] [--steps M]"
USAGE += "\n       pra native IMAGE --object|--assembly [-o NAME] [--report REPORT] [--module FILE]"
OPTIONS = ("-o", "--steps", "--report", "--module")
ENDINGS = {"--object": ".o", "--assembly": ".s"}  # of what is made in place of a program
MOST_STEPS = 200000000
ENDING = ".pri"
WORDS = 6  # the status


def read_words(words):
    """IMAGE and the values of the options; Refused where the words are none of these."""
    plain, values, words = [], {}, iter(words)
    for word in words:
        name, is_joined, value = word.partition("=")
        if word in ENDINGS and not values.keys() & ENDINGS.keys():
            values[word] = ENDINGS[word]
        elif name in OPTIONS and name not in values:
            values[name] = value if is_joined else next(words, "")
        else:
            plain.append(word)
    is_good = len(plain) == 1 and not plain[0].startswith("-") and all([plain[0], *values.values()])
    is_object = bool(values.keys() & ENDINGS.keys())
    if not is_good or ("--steps" if is_object else "--module") in values:
        raise Refused(WORDS, f"fault words\n{USAGE}")
    return plain[0], values


def steps_of(values):
    """The steps that the program makes at most."""
    word = values.get("--steps")
    if word is None:
        return NO_LIMIT
    if not (word.isascii() and word.isdecimal() and int(word) <= MOST_STEPS):
        raise Refused(WORDS, f"fault value --steps\n{USAGE}")
    return int(word)


def made_name(image, values):
    """The name of what is made."""
    stem = os.path.basename(image)
    stem = stem.removesuffix(ENDING) if stem != ENDING else stem
    return values.get("-o", stem + "".join(ENDINGS[it] for it in values if it in ENDINGS))


def read(name, most=-1):
    try:
        with open(name, "rb") as file:
            return file.read(most)
    except OSError as error:
        told = f"{reading.LINE}\n{reading.reason(name, error)}"
        raise Refused(reading.FAULT, told) from error


def make_program(image, name, names, steps, sources):
    with Builder() as builder:
        made = f"{builder.room.name}/made"
        try:
            builder.build(image, made, names, steps)
        except OSError as error:
            raise Refused(writing.FAULT, "fault write file") from error
        writing.write(name, read(made), sources, is_program=True)


def make_object(image, name, texts, values, sources):
    """Writes the object, or its text, and the header beside it."""
    head = os.path.splitext(name)[0] + ".h"
    if head == name:
        raise Refused(WORDS, f"fault value -o\n{USAGE}")
    writing.check(head, sources)
    names = names_in(texts["--report"].decode(errors="replace"))
    headings = report.headings_of(values.get("--module", ""), texts["--module"])
    made = assembly.object_of(image, names, headings)
    text = assembly.assembly(made)
    data = text.encode() if "--assembly" in values else assembled(text)
    writing.write(name, data, sources)
    writing.write(head, assembly.header(made).encode(), sources)


def make(words):
    image_name, values = read_words(words)
    name, steps = made_name(image_name, values), steps_of(values)
    image = image_of(read(image_name, MAX_FILE_BYTES + 1))
    texts = {it: read(values[it]) if it in values else b"" for it in ("--report", "--module")}
    sources = [image_name, *(values[it] for it in texts if it in values)]
    writing.check(name, sources)
    if values.keys() & ENDINGS.keys():
        make_object(image, name, texts, values, sources)
    else:
        names = names_in(texts["--report"].decode(errors="replace"))
        make_program(image, name, names, steps, sources)


def main(words):
    try:
        make(words)
    except Broken as broken:
        print(broken, file=sys.stderr)
        return broken.status
    except Refused as refused:
        print(refused, file=sys.stderr)
        if refused.status in (3, 4) and sys.stderr.isatty():
            print(*explain.told(str(refused), read_words(words)[0]), sep="\n", file=sys.stderr)
        return refused.status
    return 0


if __name__ == "__main__":
    sys.exit(stopped.status_of(lambda: main(sys.argv[1:])))
