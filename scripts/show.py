#!/usr/bin/env python3
"""Shows how a module was allocated, as a page for a browser.

    show.py FILE .. [--rounds N] [--cost size|speed] [--input NAME] [--compiler PROGRAM]

FILE.html is written, which needs no network and nothing else. It shows the source; for each
procedure cost and bound round by round, beside what linear scan and graph colouring come to, its
blocks and loops, where each variable is before and after each instruction and after which rounds,
what moves and operands cost, what prices show the bound, and the machine instructions that it all
became. With --input the module is run too, on the numbers that the file NAME holds. Options that
are left out are the compiler's: 10 rounds, and size.

FILE may be a code file too (./pra code), whose page has its text as source, or a certificate, that
is any other text that begins with a brace; its page has what a certificate has. Where it is refused
the page marks what is wrong, and the status is that of the refusal; where its code breaks a rule
there is no page. Several certificates of one module share a page, on which is marked place by place
what differs from the first one, and what that costs; two other files have their pages side by side.
The compiler is the one that PRA names, ./pra, or PROGRAM; it is asked for its report, the listing
and the certificates. The status is that of the call that was refused, 5 where a file can't be read
or written, 6 where the words are none of these, and 70 where the parts do not fit.
"""

import os
import subprocess
import sys

import reading
import stopped
import terminal
import version
import writing
from checker.given import Broken
from picture.listing import NotOfThisCode
from picture.module import WEIGHTS, Module, NotOneModule, OfCertificates
from picture.page import page_of, side_by_side
from picture.report import NoReport
from pranet import code_file
from pranet.certificate import NoCertificate
from pranet.compiler import Compiler, Refused, default_program
from pranet.words import NoWords

TOP = os.path.dirname(os.path.dirname(os.path.realpath(__file__)))
USAGE = "usage: pra show FILE .. [--rounds N] [--cost size|speed] [--input NAME]"
MOST_BESIDE = 2  # pages that stand side by side
OPTIONS = {"--rounds": "10", "--cost": "size", "--input": None, "--compiler": default_program()}


def read_words(words):
    """The files and the values of the options, or None."""
    files, values, words = [], dict(OPTIONS), iter(words)
    for word in words:
        name, is_joined, value = word.partition("=")
        if name in OPTIONS:
            values[name] = value if is_joined else next(words, "")
        else:
            files.append(word)
    is_good = files and not any(it.startswith("-") for it in files)
    is_good = is_good and values["--cost"] in WEIGHTS and values["--rounds"].isdecimal()
    return (files, values) if is_good and values["--input"] != "" else None


def is_certificate(file):
    """Whether a file's text begins with a brace, as no module does, and is no code file."""
    with open(file, "rb") as text:
        held = text.read()
    return code_file.begins_with_brace(held) and not code_file.is_code(held)


def shown(file, compiler, values):
    """What is shown of a file."""
    if is_certificate(file):
        return OfCertificates(compiler, [file])
    return Module(compiler, file, values["--rounds"], values["--cost"], values["--input"])


def shown_of_all(files, compiler, values):
    """What is shown of all files: of certificates of one module one page, else a page each."""
    is_certified = all(map(is_certificate, files))
    if len(files) > MOST_BESIDE and not is_certified:
        raise NoWords
    if len(files) > 1 and is_certified:
        try:
            return [OfCertificates(compiler, files)]
        except NotOneModule:
            if len(files) > MOST_BESIDE:
                raise
    return [shown(it, compiler, values) for it in files]


def tell(file, said):
    """Says what the compiler said, and on a terminal what that means."""
    sys.stderr.buffer.write(said)
    sys.stderr.flush()
    if sys.stderr.isatty():
        command = [sys.executable, f"{TOP}/scripts/explain.py", "--notes", file]
        subprocess.run(command, input=said, stdout=sys.stderr, check=False)


def make(files, values):
    """Writes the page of files, and gives the status."""
    name, read = f"{files[0]}.html", [*files, *filter(None, [values["--input"]])]
    writing.check(name, read)
    clock = terminal.Clock(2, "pra show") if sys.stderr.isatty() else None
    compiler = Compiler(values["--compiler"], clock)
    warned, parts = version.not_proved(compiler.program), shown_of_all(files, compiler, values)
    pages = [page_of(it, warned) for it in parts]
    text = pages[0] if len(pages) == 1 else side_by_side(files, pages)
    writing.write(name, text.encode(), read)
    print(name)
    refused = next((it.refused for it in parts if it.refused), None)
    if refused:
        tell(files[0], refused.said)
    return refused.status if refused else 0


def main(words):
    known = read_words(words)
    try:
        if known is None:
            raise NoWords
        return make(*known)
    except NoWords:
        print(f"fault words\n{USAGE}", file=sys.stderr)
        return 6
    except Refused as refused:
        tell(known[0][0], refused.said)
        if refused.__cause__:
            print(f"pra: no page: {refused.__cause__}", file=sys.stderr)
        return refused.status
    except Broken as broken:
        print(broken, file=sys.stderr)
        return broken.status
    except (OSError, UnicodeDecodeError) as error:
        return reading.tell(error, known[0][0])
    except (NoCertificate, NoReport, NotOfThisCode, NotOneModule) as error:
        print(f"pra: no page: {error}", file=sys.stderr)
        return 70


if __name__ == "__main__":
    sys.exit(stopped.status_of(lambda: main(sys.argv[1:])))
