"""What else is wrong with a module, behind its first error; and whether it always traps.

The compiler tells the first error of a module. Where that is in a statement the statement is left
out of a copy, or its condition is replaced, or a semicolon that is missing is put in, and the
compiler is asked again; where it is in a declaration that is mended (declarations.py). No other
line of the module changes by that, so what it says of another line of the copy is wrong in the
module too, unless it has a name whose declaration was mended by a guess. Errors that share a line
with one before are not told, nor is twice that a name is declared nowhere, nor how statements nest
behind another error.
"""

import difflib
import re
import subprocess
import tempfile

import declarations
import grammar
import offences
import repairs
from places import Place, shown, tokens
from pranet.compiler import with_source

MOST = 8  # errors that are told in all
TRIES = 20  # copies of a module that are compiled
FAULT = re.compile(
    r"fault (?:grammar token \d+|rule \d+ token \d+|bad-byte|number-too-large) at (\d+)"
)
RULE = re.compile(r"fault rule (\d+) ")
NAMES_ALONE = (1, 2, 3, 4)  # rules that ask nothing of what names stand for
OF_NAMES = (1, 2, 5)  # rules that a name breaks which is declared nowhere, or ends nothing
UNDECLARED = "fault rule 5 "  # a name that is so in one line is so in others
BEHIND = ("BEGIN", "THEN", "ELSE", "DO", "REPEAT", ";")  # where a statement begins
STOPS = (";", "END", "ELSE", "ELSIF", "UNTIL", "THEN", "DO")  # where it, or its condition, ends
OPENS = ("IF", "WHILE", "REPEAT")
CONDITIONS = ("IF", "WHILE", "ELSIF", "UNTIL")  # what a condition follows
DECLARES = ("MODULE", "PROCEDURE", "CONST", "TYPE", "VAR", "RECORD")
ALWAYS = b"0=0"  # a condition that is true
SHORTEST, ALIKE = 3, 0.75  # of a name that is taken for a reserved word
STEPS = "1000000"  # of the meaning, in which a module is tried
ALWAYS_SO = re.compile(r"(?:trap (?!Input)|stuck ).+ (?:units|steps) \d+ reads 0")


class Text:
    """A module's bytes and tokens."""

    def __init__(self, source):
        self.source = source
        self.spans = list(tokens(source))
        self.words = [shown(source[start:end]) for start, end in self.spans]

    def number(self, at):
        """The number of the token that begins at a byte, or None."""
        return next((n for n, (start, _) in enumerate(self.spans) if start == at), None)

    def word(self, number):
        return self.words[number] if 0 <= number < len(self.words) else ""

    def is_statement(self, number):
        """Whether a token is in a statement, and not in a declaration or behind a procedure."""
        for at in range(number - 1, -1, -1):
            word = self.words[at]
            if word in DECLARES:
                return False
            if word in BEHIND and word != ";" or word in (*OPENS, "ELSIF", "UNTIL"):
                return True
            if word == "END":
                return not self.word(at + 1)[:1].isalpha()
        return False

    def statement(self, number):
        """The first token of the statement, or of the part of it, that a token is in, and the one
        behind its last."""
        first = number
        if self.words[number] in STOPS and self.word(number - 1) not in BEHIND:
            first = number - 1
        while self.words[first] not in CONDITIONS and self.word(first - 1) not in BEHIND:
            first -= 1
        end = number
        while end < len(self.words) and self.words[end] not in STOPS:
            if self.words[end] in DECLARES:
                return first, number
            end += 1
        return first, end

    def replaced(self, start, stop, by=b""):
        """The module with other bytes in the place of some; each line keeps its number."""
        lines = b"\n" * self.source.count(b"\n", start, stop)
        return self.source[:start] + by + lines + self.source[stop:]

    def edited(self, edit):
        """The module with an edit."""
        copy = self
        for part in sorted(edit.parts, reverse=True):
            copy = Text(copy.replaced(*part))
        return copy

    def mentioned(self, start, stop):
        """The words of a stretch."""
        spans = zip(self.words, self.spans)
        return {word for word, (first, end) in spans if first < stop and start < end}

    def rows(self, start, stop):
        """The lines, from 0, of a stretch."""
        first = self.source.count(b"\n", 0, start)
        return set(range(first, first + self.source.count(b"\n", start, stop) + 1))

    def lacks_semicolon(self, number):
        """Whether a token looks like the first one of a statement that a semicolon has to part from
        the one before it."""
        word, before, behind = map(self.word, (number, number - 1, number + 1))
        is_end = before in (")", "]", "END") or before[:1].isalnum() and before not in reserved()
        if not is_end:
            return False
        if word in OPENS:
            return True
        start, end = self.spans[number - 1][1], self.spans[number][0]
        is_apart = b"\n" in self.source[start:end] and behind != "."
        is_name = word[:1].isalpha() and word not in reserved()
        if before == "END":  # behind which the name of a procedure may stand
            return is_name and behind in (":=", "(", "[")
        is_field = behind == "." and self.word(number + 2)[:1].isalpha()
        return is_name and (is_apart or is_field or behind in (":=", "(", ";", "["))

    def edit(self, line, at):
        """What is to be replaced so that a line of the compiler does not come again, or None."""
        number = self.number(at)
        if line.startswith("fault bad-byte"):
            return declarations.Edit([(at, at + 1, b" ")])
        if number is None:
            return None
        if not self.is_statement(number):
            return declarations.Editor(self).edit(line, number)
        part = self.edit_of_statement(line, number)
        return declarations.Edit([part]) if part else None

    def edit_of_statement(self, line, number):
        """Where what is replaced of a statement begins and ends, and by what; or None."""
        if line.startswith("fault grammar") and self.lacks_semicolon(number):
            end = self.spans[number - 1][1]
            return end, end, b";"
        first, end = self.statement(number)
        if first >= end or end == len(self.words) or "END" in self.words[first:end]:
            return None
        head, inner = self.words[first], self.words[first + 1 : end]
        is_before_part = self.word(end) in ("THEN", "DO")
        if any(it in (*OPENS, *CONDITIONS) for it in inner):
            return None
        start, stop = self.spans[first][0], self.spans[end - 1][1]
        if head in CONDITIONS:
            is_whole = inner and (head == "UNTIL" or is_before_part)
            return (self.spans[first + 1][0], stop, ALWAYS) if is_whole else None
        return None if head in OPENS or is_before_part else (start, stop, b"")


def reserved():
    """The reserved words of the language."""
    return grammar.read().reserved


def nearest_reserved(word, before, known):
    """The reserved word that was meant by a name, or nothing: of one that is long enough to be told
    from others, stands in the module once and is none that the language has."""
    is_name = word.isalpha() and word not in known and word not in offences.PREDECLARED
    if not is_name or len(word) < SHORTEST or before.count(word) > 1:
        return ""
    return next(iter(difflib.get_close_matches(word.upper(), known, 1, ALIKE)), "")


def reserved_near(words, number, at, known):
    """The same as a question, of the name at a token, where a text goes wrong at it or right behind
    it; it has to be what lets a reader go on farthest."""
    meant = nearest_reserved(words[at], words[:number], known)
    if meant and repairs.could_be(words, number, at, meant):
        return f"; did you mean `{meant}`?"
    return ""


# ---- errors


def refused(compiler, source):
    """The line with which the compiler refuses a module, or nothing."""
    with tempfile.TemporaryDirectory(prefix="pra-further-") as room:
        with open(f"{room}/copy.ob", "wb") as file:
            file.write(source)
        command = [compiler, "compile", f"{room}/copy.ob", "--rounds", "0"]
        how = {"stdin": subprocess.DEVNULL, "capture_output": True, "check": False}
        ran = subprocess.run([*command, "--image", f"{room}/image"], **how)
    lines = ran.stderr.decode(errors="replace").splitlines()
    return next((it for it in reversed(lines) if it.startswith(("fault ", "limit "))), "")


def row_of(source, at):
    return source.count(b"\n", 0, at)


class Doubt:
    """What is not known of a copy since its declarations were mended by a guess."""

    def __init__(self):
        self.names, self.is_nameless = set(), False

    def add(self, copy, edit):
        """What an edit leaves in doubt of the copy that has it."""
        self.names = declarations.with_doubt(copy.words, self.names | edit.doubtful)
        self.is_nameless = self.is_nameless or edit.is_nameless

    def is_of(self, copy, line, edit):
        """Whether a line tells of a rule that would not be broken if something else was meant."""
        found = RULE.match(line)
        rule, at = int(found[1]) if found else 0, int(FAULT.fullmatch(line)[1])
        if rule in OF_NAMES and self.is_nameless:
            return True
        if not rule or rule in NAMES_ALONE or not self.names:
            return False
        parts = edit.parts if edit else [(0, len(copy.source), b"")]
        return any(
            self.names & copy.mentioned(min(at, start), max(at + 1, stop))
            for start, stop, _ in parts
        )


def lines_behind(compiler, source, line):
    """The lines with which the compiler refuses copies of a module without what it refused before,
    where they are apart from the first line and each other; with the copy that each is of."""
    found, copy, doubt = FAULT.fullmatch(line), Text(source), Doubt()
    seen, put = set(), set()  # lines that were edited, and those where a semicolon was put in
    for _ in range(TRIES):
        if not found:
            return
        at = int(found[1])
        edit = copy.edit(line, at)
        name = (line.startswith(UNDECLARED), copy.word(copy.number(at) or 0))
        is_left = edit is None or row_of(copy.source, at) in put
        if line.startswith("fault grammar") and seen and is_left:
            return  # what was put in was not what is missing, or statements nest otherwise
        is_new = copy.source is not source and not seen & {row_of(copy.source, at), name}
        if is_new and not doubt.is_of(copy, line, edit):
            yield line, copy.source
        seen |= {name} if name[0] else set()
        if edit is None:
            return
        seen.add(row_of(copy.source, at))
        for start, stop, by in edit.parts:
            seen |= copy.rows(start, stop)
            put |= {row_of(copy.source, at)} if by == b";" else set()
        copy = copy.edited(edit)
        doubt.add(copy, edit)
        line = refused(compiler, copy.source)
        found = FAULT.fullmatch(line)


def line_of(name, source, row):
    """A line of a module as it is shown."""
    start = sum(len(it) + 1 for it in source.split(b"\n")[:row])
    return Place(name, source, start, start + 1).marked()[0]


def told(compiler, name, source, line, explained):
    """What else is wrong with a module that was refused with a line, error by error in the order of
    the text; explained gives the lines of one error of a copy."""
    errors = []
    for other, text in lines_behind(compiler, source, line):
        row = row_of(text, int(FAULT.fullmatch(other)[1]))
        lines = explained(other, name, text, None)
        lines[1:2] = [line_of(name, source, row)] if lines[1:] else []
        errors.append((row, lines))
        if len(errors) + 1 == MOST:
            break
    return [line for _, lines in sorted(errors) for line in lines]


# ---- traps


def always_traps(compiler, name):
    """The line of a trap that a module comes to before it reads a number, or where code is stuck
    before that, or None: it does so whatever its input is."""
    command = [compiler, *with_source(["interp", name, "--steps", STEPS], compiler)]
    how = {"stdin": subprocess.DEVNULL, "stdout": subprocess.DEVNULL, "stderr": subprocess.PIPE}
    ran = subprocess.run(command, check=False, **how)
    lines = ran.stderr.decode(errors="replace").splitlines()
    is_trap = lines and ALWAYS_SO.fullmatch(lines[-1])
    return lines[-1] if is_trap else None
