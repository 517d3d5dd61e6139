"""Where in its source a module traps.

The module is run once more by its meaning (the mode interp), with a call of Write before each
statement that writes a number of its own. The last of these numbers is that of the statement that
trapped. Nothing is told where the module has no room for these calls, declares Write itself, or
ends otherwise with them.
"""

import os
import re
import subprocess
import tempfile

from places import Place, shown, token_end, tokens

FIRST_MARK = 2000000000  # a mark is below 0 by this and by the first byte of its statement
BEHIND = ("BEGIN", "THEN", "ELSE", "DO", "REPEAT", ";")  # where a statement begins
EMPTY = (";", "END", "ELSE", "ELSIF", "UNTIL")  # what stands there where none does
TAIL = 1 << 16  # bytes of output in which the last mark is looked for
PATIENCE = 60  # seconds for that run
KINDS = {
    "Index": "an index is below 0 or not below the array's length",
    "Divide": "the right side of DIV or MOD is 0 or less",
    "Input": "Read finds no further number",
    "Stack": "the frames of all calls together would be more than 1048576 bytes",
}
STEPS = re.compile(r"trap (\w+) (?:steps|units) (\d+) reads (\d+)")


def marks(source):
    """Where marks are to be put in a source, each with the first byte that it stands for."""
    spans = list(tokens(source))
    texts = [shown(source[start:end]) for start, end in spans]
    depth, loops = 0, []  # of blocks and statements that an END closes; and where each begins
    for at, text in enumerate(texts):
        start = spans[at][0]
        if depth and texts[at - 1] in BEHIND and text not in EMPTY:
            yield start, start
        if text == "BEGIN" or (depth and text in ("IF", "WHILE")):
            depth += 1
            loops.append(start if text == "WHILE" else None)
        elif depth and text == "UNTIL":
            yield start, start
        elif depth and text == "END":
            depth -= 1
            begun = loops.pop()
            if begun is not None:
                yield start, begun


def marked(source):
    """The source with the marks, each behind a semicolon of its own if it needs one."""
    parts, last = [], 0
    for at, stands_for in marks(source):
        before = source[last:at]
        closes = source[at : token_end(source, at)] in (b"END", b"UNTIL")
        mark = f"Write(-{FIRST_MARK + stands_for})".encode()
        parts += [before, b";" + mark + b" " if closes else mark + b"; "]
        last = at
    return b"".join([*parts, source[last:]])


def last_mark(out):
    """The first byte of the statement whose mark stands last in an output, or None."""
    found = [int(it) - FIRST_MARK for it in re.findall(rb" -(2\d{9})\b", out[-TAIL:])]
    return found[-1] if found else None


def rerun(compiler, source, words, given):
    """The kind of trap of a marked run, and its last mark, or None."""
    with tempfile.TemporaryDirectory(prefix="pra-trap-") as room:
        with open(f"{room}/marked.ob", "wb") as file:
            file.write(marked(source))
        command = [compiler, "interp", f"{room}/marked.ob", "--steps", "200000000", *words]
        how = {"stdin": given, "capture_output": True, "timeout": PATIENCE, "check": False}
        try:
            ran = subprocess.run(command, **how, start_new_session=True)
        except (OSError, subprocess.TimeoutExpired):
            return None
    kind = STEPS.search(ran.stderr.decode(errors="replace"))
    return (kind[1], last_mark(ran.stdout)) if kind else None


def told(name, source, line, compiler, given):
    """What a line on a trap means: the statement of the source at which it happened, if it can be
    found. The file that standard input was is given, or None where it can't be read again."""
    kind, _, reads = STEPS.search(line).groups()
    words = f"trap {kind}: {KINDS[kind]}"
    if given is None and reads != "0":
        return [f"{name}: {words} (give the input as a file, <NAME, to be told in which statement)"]
    with open(given or os.devnull, "rb") as stream:
        found = rerun(compiler, source, [], stream)
    if not found or found[0] != kind or found[1] is None:
        return [f"{name}: {words}"]
    at = found[1]
    return Place(name, source, at, token_end(source, at)).tell(f"{words}, in this statement")
