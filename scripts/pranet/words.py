"""The words of a call: files and options with values, and how a call that can't be done ends."""

import subprocess
import sys

import reading
from checker.given import Broken
from pranet.cbc import NoSolver
from pranet.certificate import NoCertificate
from pranet.compiler import TOP, Compiler, Refused, default_program

WEIGHTS = ("size", "speed")
NO_ANSWER = 70  # the status of what the compiler does not know


class NoWords(Exception):
    """The words are none that a program takes. Its text is what is told before the usage."""

    def __init__(self, told="fault words"):
        super().__init__(told)


def read_words(words, options):
    """The files, and the value of each option: of those given their default. An option that has a
    number takes numbers alone, and one that has False takes no value."""
    files, values, words = [], {"--compiler": default_program(), **options}, iter(words)
    for word in words:
        name, is_joined, value = word.partition("=")
        if options.get(word) is False:
            values[word] = True
        elif name in values and not isinstance(values[name], bool):
            value = value if is_joined else next(words, "")
            if isinstance(values[name], int) and not (value.isdecimal() and value.isascii()):
                raise NoWords
            values[name] = int(value) if isinstance(values[name], int) else value
        elif word.startswith("-"):
            raise NoWords
        else:
            files.append(word)
    if values.get("--cost") not in (None, *WEIGHTS) or "" in values.values():
        raise NoWords
    return files, values


def read_problem(words):
    """The certificate that the words of a call name, or that of the module or code which they
    name."""
    files, values = read_words(words, {"--cost": None})
    if len(files) != 1:
        raise NoWords
    return Compiler(values["--compiler"]).problem(files[0], values["--cost"])[0]


def tell(file, said):
    """Says what the compiler said, and on a terminal what that means."""
    sys.stderr.buffer.write(said)
    sys.stderr.flush()
    if sys.stderr.isatty():
        command = [sys.executable, f"{TOP}/scripts/explain.py", file]
        subprocess.run(command, input=said, stdout=sys.stderr, check=False)


def status_of(call, usage, file=""):
    """The exit status of a call, which returns one or raises what can't be done, that is told."""
    try:
        return call()
    except NoWords as error:
        print(f"{error}\n{usage}", file=sys.stderr)
        return 6
    except Refused as refused:
        tell(file, refused.said)
        return refused.status
    except OSError as error:
        return reading.tell(error, file)
    except Broken as broken:
        print(broken, file=sys.stderr)
        return broken.status
    except (NoCertificate, NoSolver) as error:
        print(f"pra: {error}", file=sys.stderr)
        return NO_ANSWER
