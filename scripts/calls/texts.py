"""How rows write texts, and whether a text is as a row says.

In a line `\\n`, `\\t`, `\\r`, `\\0`, `\\\\` and `\\xNN` are bytes, and `\\{2048*;}` is `;` so
often. A line that ends with a single `\\` goes on in the next one, or ends the text without a
line's end. In what is compared `..` is any number, a line `~` any lines of rounds and totals, and
a line `...` any lines.
"""

import re

ESCAPE = re.compile(rb"\\(?:\{(\d+)\*((?:[^}\\]|\\.)*)\}|x([0-9a-f]{2})|(.))")
NAMED = {b"n": b"\n", b"t": b"\t", b"r": b"\r", b"0": b"\0", b"\\": b"\\"}
OPEN = re.compile(rb"(?<!\\)(?:\\\\)*\\$")  # a line that ends with a single backslash
PARTS = (  # what stands in a pattern for more than itself
    (rb"^\.\.\.\n", rb"(?:[^\n]*\n)*?"),
    (rb"^~\n", rb"(?:(?:round|total) [^\n]*\n)*"),
    (rb"\.\.", rb"[0-9]+"),
)
PART = re.compile(b"|".join(b"(" + it + b")" for it, _ in PARTS), re.M)


def bytes_of(found):
    """The bytes that an escape stands for."""
    count, part, digits, name = found.groups()
    if count:
        return expanded(part) * int(count)
    return bytes.fromhex(digits.decode()) if digits else NAMED[name]


def expanded(line):
    """The bytes of a line, or of a part of it."""
    return ESCAPE.sub(bytes_of, line) if b"\\" in line else line


def is_open(line):
    """Whether a line goes on in the next one."""
    return bool(OPEN.search(line))


def told(lines):
    """The text that lines of a row are, each with its end."""
    ended = (expanded(it[:-1]) if is_open(it) else expanded(it) + b"\n" for it in lines)
    return b"".join(ended)


def given(lines):
    """The same without the end of the last line."""
    return told([*lines[:-1], lines[-1] + b"\\"]) if lines else b""


def octets(lines):
    """The bytes that lines write in hexadecimal, with blanks between any of them."""
    return bytes.fromhex(expanded(b" ".join(lines)).decode())


def fits(pattern, text):
    """Whether a text is as a pattern says."""
    if pattern == text:
        return True
    parts, at = [], 0
    for found in PART.finditer(pattern):
        parts += [re.escape(pattern[at : found.start()]), PARTS[found.lastindex - 1][1]]
        at = found.end()
    parts.append(re.escape(pattern[at:]))
    return len(parts) > 1 and bool(re.fullmatch(b"".join(parts), text, re.S))
