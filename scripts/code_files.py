#!/usr/bin/env python3
"""Prints the code of a module by itself, as front ends of others hand it to the compiler.

    code_files.py FILE [--data-words N] [--text] [--compiler PROGRAM]
    code_files.py --read FILE [--text]

A code file is one line of JSON: the number of data words, and of each procedure its name, and its
code as certificates have it. FILE is a module, whose tidy code is printed, with its words of
variables and the names of its procedures (cut off behind 255 letters); or a certificate, whose
procedures are called P0, P1 and so on; or a code file. How many data words there are a certificate
does not say: they are N, or else so many that each address of data lies in them without what its
index adds. That is too few where the last variable is an array, and a line on standard error says
that it may be. With --text the code is printed for people, one instruction a line, and with --read
FILE is such a text: pranet/code_text.py has an example. Numbers need not be declared there, and
variables may have other names. Code that breaks a rule is refused, with the rule. The status is 3
where FILE is wrong, 4 where it has too much, 5 where it can't be read, 6 where the words are none
of these, and that of the compiler where it refuses the module.
"""

import sys
import tempfile

import stopped
from checker import given
from picture import report
from pranet import code_file, code_reader, code_text
from pranet.compiler import Compiler
from pranet.words import NoWords, read_words, status_of
from processor.image import image_of

USAGE = "usage: pra code FILE [--data-words N] [--text]\n       pra code --read FILE [--text]"
OPTIONS = {"--text": False, "--read": False, "--data-words": None}


def data_words_of(value):
    """The data words that an option gives, or None."""
    if value is None:
        return None
    is_number = value.isascii() and value.isdecimal() and len(value) <= 10
    if not is_number or int(value) > code_file.MOST_DATA:
        raise NoWords("fault value --data-words")
    return int(value)


def of_module(compiler, file):
    """The code file of a module."""
    known = compiler.certificate(file, "size", 0)
    with tempfile.TemporaryDirectory(prefix="pra-code-") as room:
        image = f"{room}/out.pri"
        told, _ = compiler.call("compile", file, "--rounds", "0", "--image", image)
        with open(image, "rb") as made:
            words = image_of(made.read()).data_words
    names = [it.name[: code_file.MOST_NAME] for it in report.read(told.decode()).procedures]
    return code_file.CodeFile(words, names, known.procedures)


def of_certificate(file, held, data_words):
    """The code file of a certificate, with so many data words or with the least."""
    procedures = given.known_of(file, held).procedures
    given.test_code_file(file, procedures)
    made = code_file.of_procedures(procedures, data_words)
    if data_words is None and code_file.may_need_more(procedures):
        told = f"{made.data_words} data words are the least that its addresses name"
        print(f"pra: {told}, and an index may reach further: --data-words N", file=sys.stderr)
    return made


def code_of(file, values):
    """The code file that a file holds, or that of what it holds."""
    with open(file, "rb") as source:
        held = source.read()
    data_words = data_words_of(values["--data-words"])
    is_certificate = code_file.begins_with_brace(held) and not code_file.is_code(held)
    if data_words is not None and (values["--read"] or not is_certificate):
        raise NoWords("fault words\npra: --data-words is for a certificate, which has none")
    if values["--read"] and code_file.begins_with_brace(held):
        raise given.Broken([f"{file}:1: this is JSON and no text of code, which --read asks for"])
    if values["--read"]:
        return code_reader.read(file, held)
    if is_certificate:
        return of_certificate(file, held, data_words)
    if code_file.is_code(held):
        return given.code_of(file, held)
    return of_module(Compiler(values["--compiler"]), file)


def call(words):
    files, values = read_words(words, OPTIONS)
    if len(files) != 1:
        raise NoWords
    code = code_of(files[0], values)
    text = code_file.write(code)
    if len(text) > code_file.MOST_BYTES:
        raise given.over_a_limit(files[0], len(text), code_file.MOST_BYTES, "bytes as a code file")
    print(code_text.text_of(code) if values["--text"] else text, end="")
    return 0


def main(words):
    plain = [it for it in words if not it.startswith("-")]
    return status_of(lambda: call(words), USAGE, plain[0] if plain else "")


if __name__ == "__main__":
    sys.exit(stopped.status_of(lambda: main(sys.argv[1:])))
