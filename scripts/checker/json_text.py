"""JSON as a certificate is read: RFC 8259, and less than Python's reader takes.

The text is UTF-8 without a byte order mark. It has no NaN and no Infinity, no number that is too
large for a double, no half of a surrogate pair, and no more than 127 lists and objects in each
other. Of equal keys in one object the last counts. A number with a point or an exponent, -0 and an
integer outside -2^63 to 2^64 - 1 are read as doubles, so they are no integers of a certificate.
"""

import json
import math
import re

MOST_NESTED = 127
TOO_DEEP = f"more than {MOST_NESTED} lists and objects in each other"
LEAST, MOST = -(1 << 63), (1 << 64) - 1  # integers that are no doubles
TOKEN = re.compile(r'"(?:[^"\\]|\\.)*"|[\[\]{}:,]|[^\s\[\]{}:,"]+')
NESTING = re.compile(r'"(?:[^"\\]|\\.)*"|[\[\]{}]')
ESCAPE = re.compile(r"\\(?:u([0-9a-fA-F]{4})|.)")


class NoJson(Exception):
    """Why a text is no JSON, and behind how many characters."""

    def __init__(self, words, at=0):
        super().__init__(words)
        self.words, self.at = words, at


def integer(digits):
    """An integer, or a double where it is none of 64 bits."""
    if digits == "-0" or len(digits) > 20:
        return double(digits)
    value = int(digits)
    return value if LEAST <= value <= MOST else double(digits)


def double(digits):
    value = float(digits)
    if math.isinf(value):
        raise NoJson(f"{shortened(digits)} is too large for a double")
    return value


def no_constant(word):
    raise NoJson(f"{word} is no number")


def shortened(word, most=40):
    return word if len(word) <= most else f"{word[: most - 3]}..."


def refuse_halves(text):
    """Each half of a surrogate pair has its other half beside it."""
    high = None
    for found in ESCAPE.finditer(text):
        unit = int(found[1], 16) if found[1] else 0
        if high is not None and (found.start() != high + 6 or not 0xDC00 <= unit < 0xE000):
            raise NoJson("half a surrogate pair", high)
        if high is None and 0xDC00 <= unit < 0xE000:
            raise NoJson("half a surrogate pair", found.start())
        high = found.start() if 0xD800 <= unit < 0xDC00 else None
    if high is not None:
        raise NoJson("half a surrogate pair", high)


def refuse_deep(text):
    depth = 0
    for found in NESTING.finditer(text):
        if found[0] in ("[", "{"):
            depth += 1
            if depth > MOST_NESTED:
                raise NoJson(TOO_DEEP, found.start())
        elif found[0] in ("]", "}"):
            depth -= 1


def place_of_number(text, words):
    """Where the number that a complaint begins with stands, whatever it is."""
    begin = words.partition(" ")[0].removesuffix("...")
    for found in TOKEN.finditer(text):
        if found[0].startswith(begin):
            return found.start()
    return 0


def read(data):
    """The text of some bytes, and its value."""
    try:
        text = data.decode()
    except UnicodeDecodeError as error:
        before = data[: error.start].decode()
        raise NoJson(f"the byte {data[error.start]:02x} is no UTF-8", len(before)) from error
    if text.startswith("\ufeff"):
        raise NoJson("it begins with a byte order mark")
    try:
        value = json.loads(
            text, parse_int=integer, parse_float=double, parse_constant=no_constant
        )
    except json.JSONDecodeError as error:
        words = error.msg[:1].lower() + error.msg[1:]
        raise NoJson(words, error.pos) from error
    except RecursionError as error:
        raise NoJson(TOO_DEEP) from error
    except NoJson as error:
        raise NoJson(error.words, place_of_number(text, error.words)) from error
    refuse_deep(text)
    if "\\u" in text:
        refuse_halves(text)
    return text, value


# ---- where a value stands


def skip(tokens):
    """Passes over a value whose first token comes next; that token is told."""
    first = token = next(tokens)
    depth = 0
    while True:
        depth += (token[0] in ("[", "{")) - (token[0] in ("]", "}"))
        if depth == 0:
            return first
        token = next(tokens)


def child(text, at, key):
    """Behind how many characters the value of a key or of a number begins, of the object or list
    that begins at such a place; or None. Of equal keys it is the last."""
    tokens, found = TOKEN.finditer(text, at), None
    if next(tokens)[0] == "{":
        for token in tokens:
            if token[0] == "}":
                break
            if token[0] != ",":
                next(tokens)  # the colon
                value = skip(tokens)
                found = value.start() if json.loads(token[0]) == key else found
        return found
    for _ in range(key):
        skip(tokens)
        next(tokens)  # the comma
    return next(tokens).start()


def position(text, path):
    """Behind how many characters the value at a path of keys and numbers begins, or the innermost
    on the way to it that is there."""
    at = next(TOKEN.finditer(text)).start()
    for key in path:
        inner = child(text, at, key)
        if inner is None:
            break
        at = inner
    return at


def spelled(text, at):
    """The token that begins there."""
    return TOKEN.match(text, at)[0]


def line_and_column(text, at):
    """Both from 1."""
    return text.count("\n", 0, at) + 1, at - text.rfind("\n", 0, at)
