#!/usr/bin/env python3
"""Prints the screens of help as a page of the manual: ./pra man | man -l -"""

import sys

import stopped
import words as known_words

HEAD = """.TH PRA 1
.SH NAME
pra \\- a compiler from Oberon\\-0 to IA\\-32 with a progressive register allocator
.SH SYNOPSIS
.B pra
.I WORD FILE
[options]
.SH DESCRIPTION
The register allocator works for as many rounds as are granted, and a cost and a lower bound on the
cost of every allocation are told after each. What the compiler promises is proved; where it was not
built its sources run unproved, and a line says so.
"""
ENDINGS = known_words.STATUS.removeprefix("status: ").split(", ")


def plain(text):
    """A text in which nothing is a command of the manual's."""
    told = text.replace("\\", "\\e").replace("-", "\\-")
    return f"\\&{told}" if told[:1] in (".", "'") else told


def entry(term, text):
    return f".TP\n.B {plain(term)}\n{plain(text)}\n"


def word_entry(it, options):
    taken = ", ".join(options[name].call for name in it.names)
    does = f"{it.does[0].upper()}{it.does[1:]}."
    return entry(it.call, f"{does} Options: {taken}." if taken else does)


def option_entry(it):
    return entry(it.call, known_words.option_words(it))


def page():
    """The page, piece by piece."""
    known, options = known_words.table()
    yield HEAD
    yield ".SH WORDS\n"
    for it in known.values():
        yield word_entry(it, options)
    yield ".SH OPTIONS\n"
    for it in options.values():
        yield option_entry(it)
    yield entry("-", "For FILE: standard input, where that is not the program's input.")
    yield ".SH EXIT STATUS\n"
    for it in ENDINGS:
        number, _, means = it.partition(" ")
        yield entry(number, means)
    yield ".SH EXAMPLE\n.EX\necho 25 7 | pra run examples/samples.ob\n.EE\n"


def main(words):
    if words:
        print("fault words\nusage: pra man", file=sys.stderr)
        return known_words.NO_WORDS
    print("".join(page()), end="")
    return 0


if __name__ == "__main__":
    sys.exit(stopped.status_of(lambda: main(sys.argv[1:])))
