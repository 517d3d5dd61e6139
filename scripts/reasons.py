#!/usr/bin/env python3
"""Tells a person what is wrong with a certificate, a code file, an image or a listing.

    reasons.py FILE

Of a certificate it tells, for each procedure, all that speaks against it: by a second checker, of
which nothing is proved (`./pra check` decides). Where the module stands beside it under the same
name, with the ending .ob, arguments have the names of its source, and locals have them where these
are found again by the text (picture/local_names.py). What FILE is, its name's ending or its first
bytes tell. The status is that of `./pra check`, `list` or `asm`: 0 where
nothing is wrong, 3 where something is, 4 where FILE is too long; and 100, without a word, where it
is none of these or is not to be read.
"""

import os
import re
import sys

from checker import beside, form, given, images
from picture import local_names, report
from pranet import code_file
from pranet.compiler import Compiler, default_program

MODULE = 100  # the status where FILE is none of these
MOST_CERTIFICATE = 16777216  # bytes
BLANKS = b" \t\n\r"


# ---- certificates


class Module:
    """A module, or a code file, that a certificate may be of, by the name of its file."""

    def __init__(self, name):
        self.name = name
        with open(name, "rb") as file:
            source = file.read()
        self.headings = report.headings_of(name, source)
        self.named = None if code_file.is_code(source) else local_names.Named(source)

    def name_variables(self, procedures):
        """Gives variables the names that the source has for them, if it has as many procedures."""
        beside.name_arguments(procedures, self.headings)
        if self.named and len(procedures) == len(self.headings):
            for number, it in enumerate(procedures):
                for v, name in local_names.names_of(self.named, number, it).items():
                    it.called.setdefault(v, name)

    def lines(self, name, data):
        """Where the code of a certificate is not the module's, a line for each procedure."""
        try:
            known, _ = form.claims(given.value_of(name, data))
        except given.Broken:
            return []
        return self.differences(name, known, known.cost)

    def differences(self, name, known, cost="size"):
        """The same of what has procedures."""
        wanted, _ = Compiler(default_program()).problem(self.name, cost)
        self.name_variables(known.procedures)
        self.name_variables(wanted.procedures)
        if len(known.procedures) != len(wanted.procedures):
            counts = f"{len(known.procedures)} procedures, and {self.name} {len(wanted.procedures)}"
            return [f"{name}: it has {counts} with its body"]
        return [
            f"{name}, procedure {number}, module: {words}"
            for number, words in beside.differences(known, wanted)
        ]


def module_beside(name):
    """The module whose file stands beside a certificate under the same name, if one does."""
    try:
        return Module(f"{os.path.splitext(name)[0]}.ob")
    except OSError:
        return None


def certificate(name, data, module=None):
    """The status of a certificate, and what to print. A module is asked whether this is its code,
    and one that stands beside it for the names of its arguments alone."""
    if len(data) > MOST_CERTIFICATE:
        return 4, [f"{name}: it has more than {MOST_CERTIFICATE} bytes"]
    at_hand = module or module_beside(name)
    lines = given.lines_of(name, data, *([at_hand.name_variables] if at_hand else []))
    lines += module.lines(name, data) if module else []
    if not lines:
        of = f", and its code is that of {module.name}" if module else ""
        return 0, [f"{name}: nothing is wrong with this certificate{of}; ./pra check proves it"]
    return 3, lines


def code(name, data, module=None):
    """The same of a code file; a module is asked whether this is its code."""
    try:
        known = given.code_of(name, data)
    except given.Broken as broken:
        return broken.status, broken.lines
    if lines := module.differences(name, known) if module else []:
        return 3, lines
    of = f", and it is that of {module.name}" if module else ""
    return 0, [f"{name}: nothing is wrong with this code{of}"]


# ---- images and listings


def lines_of(name, data, most, reader, what):
    """The status of an image or of a listing, and what to print."""
    if len(data) > most:
        return 4, [f"{name}: it has more than {most} bytes"]
    lines = reader(name, data)
    return (3, lines) if lines else (0, [f"{name}: nothing is wrong with this {what}"])


def image(name, data):
    return lines_of(name, data, images.MOST_IMAGE, images.image_lines, "image")


def listing(name, data):
    return lines_of(name, data, images.MOST_LISTING, images.listing_lines, "text of an image")


# ---- what a file is

ENDINGS = {".cert": certificate, ".json": certificate, ".pri": image, ".lst": listing}


def reader_of(name, data):
    """Who reads a file, by the ending of its name or by its first bytes; None for a module."""
    if code_file.is_code(data):
        return code
    for ending, reader in ENDINGS.items():
        if name.endswith(ending):
            return reader
    if data.lstrip(BLANKS)[:1] in (b"{", b"["):
        return certificate
    if data.startswith(images.MAGIC) or b"\0" in data:
        return image
    return listing if re.match(rb"data [0-9]|[0-9a-f]{8} ", data) else None


def main(name, module_name=None):
    """The status of a file, whose findings are printed. Of a certificate and of code also the
    difference from the code of the module of that name, if one is given."""
    try:
        with open(name, "rb") as file:
            data = file.read()
    except OSError:
        return MODULE  # which says so itself
    reader = reader_of(name, data)
    if reader is None:
        return MODULE
    has_code = reader in (certificate, code)
    known = [Module(module_name)] if module_name and has_code else []
    status, lines = reader(name, data, *known)
    print("\n".join(lines))
    return status


if __name__ == "__main__":
    if len(sys.argv) != 2:
        print(__doc__, file=sys.stderr)
        sys.exit(6)
    sys.exit(main(sys.argv[1]))
