"""Rows of tests/: calls of the compiler, and what each of them must leave.

A file of rows begins with a page on what it has. A row begins with its name behind `#`, and then
has, a line for each, what is given and what must come out:

    # one number
        MODULE M; BEGIN Write(7); WriteLn END M.
    $ run M.ob --rounds 0
    < 1 2
    = 0 out.pri 79
    >  7
    ! procedure 0 M frame 20
    ! ~
    ! ended steps 18 reads 0

    indented    the text of the file M.ob; behind `=` the text of the first file that is left
    bytes HEX   the bytes of M.ob
    $ WORDS     the words of a call, `''` for an empty one; those in front of the first row are for
                all rows that have none
    < TEXT      the input
    change A|B  in M.ob B stands in the place of A, for the next calls alone
    fails WHAT  reads or writes of `input`, `out`, `notes` or a file fail, for the next calls alone
    = STATUS    the exit status, and each file that is left beside M.ob, with its size if known
    > TEXT      what is written to standard output
    ! TEXT      what is written to standard error
    left TEXT   what is left of the input, or all of it; without this line nothing is left
    image HEX   the image that is written, in all further calls of the row

Calls go on with words and input of the call before them. Where there are more words, inputs or
changes in front of one `=`, each of them is a call. What TEXT may have, texts.py says.
"""

import dataclasses
import functools
import glob
import itertools
import os

from calls import texts

TOP = os.path.dirname(os.path.dirname(os.path.dirname(os.path.realpath(__file__))))
FOLDER = f"{TOP}/tests"
FILE = "M.ob"
INDENT = b"    "
ASKED = b"$", b"<", b"change", b"fails"  # what a call is, and what it gets
LEFT = b"=", b">", b"!", b"left"  # what it leaves


class NoRow(Exception):
    """Why a line is none of a row."""


@dataclasses.dataclass
class File:
    """How the bytes of M.ob are written; they are made where they are asked for."""

    lines: list
    octets: list
    change: bytes  # None where nothing is changed

    def held(self):
        """The bytes."""
        held = texts.octets(self.octets) if self.octets else texts.given(self.lines)
        if self.change is None:
            return held
        old, _, new = self.change.partition(b"|")
        if texts.expanded(old) not in held:
            raise NoRow(f"{old.decode()} stands nowhere")
        return held.replace(texts.expanded(old), texts.expanded(new), 1)


@dataclasses.dataclass
class Call:
    """A call, and what it must leave."""

    words: list
    file: File
    input: bytes  # as it is written
    fails: list
    status: int
    files: dict  # the size of each file that is left, or None for any
    out: bytes
    notes: bytes
    left: list  # of the input, as it is written
    image: bytes  # None where it is not told
    text: bytes  # of the first file that is left, None where it is not told

    @property
    def source(self):
        return self.file.held()

    @property
    def given(self):
        return texts.expanded(self.input)

    @property
    def rest(self):
        return self.given if self.left == [b""] else texts.given(self.left)


class Row:
    """A row as far as it was read."""

    def __init__(self, name, words):
        self.name, self.calls, self.image = name, [], []
        self.lines, self.octets = [], []  # of the file
        self.asked = {b"$": words, b"<": [], b"change": [], b"fails": []}
        self.left = {}
        self.begun = set()  # what has been said of the next call

    def take(self, key, rest):
        """Takes a line of the row."""
        if key in ASKED:
            self.end_call()
            said = self.asked[key] if key in self.begun else []
            self.begun.add(key)
            if said and texts.is_open(said[-1]):
                rest = said.pop()[:-1] + rest
            self.asked[key] = [*said, rest]
        elif key in LEFT:
            if key == b"=":
                self.end_call()
                self.left = {it: [] for it in (*LEFT, INDENT)}
            self.left[key].append(rest)
        elif key == b"bytes":
            self.octets.append(rest)
        elif key == b"image":
            self.end_call()
            self.image.append(rest)
        elif key == INDENT:
            (self.left[INDENT] if self.left else self.lines).append(rest)
        else:
            raise NoRow(f"{key.decode()} begins no line")

    def end_call(self):
        """The calls whose outcome was read are complete."""
        if not self.left:
            return
        status, files = files_of(self.left[b"="][0])
        for words, change, given in itertools.product(
            self.asked[b"$"], self.asked[b"change"] or [None], self.asked[b"<"] or [b""]
        ):
            file = File(self.lines, self.octets, change)
            if change is not None:
                file.held()  # (or the row is none)
            self.calls.append(Call(
                words=[it.replace("''", "") for it in words.decode().split(" ") if it],
                file=file,
                input=given,
                fails=b" ".join(self.asked[b"fails"]).decode().split(),
                status=status,
                files=files,
                out=texts.told(self.left[b">"]),
                notes=texts.told(self.left[b"!"]),
                left=self.left[b"left"],
                image=texts.octets(self.image) if self.image else None,
                text=texts.told(self.left[INDENT]) if self.left[INDENT] else None,
            ))
        self.asked.update({b"change": [], b"fails": []})
        self.left, self.begun = {}, set()


def files_of(line):
    """The status, and the size of each file, in a line of them."""
    status, *parts = line.decode().split()
    files = {}
    for it in parts:
        if files and it.isdigit():
            files[name] = int(it)
        else:
            name = it
            files[name] = None
    return int(status), files


def parts_of(line):
    """The key of a line, and what stands behind it."""
    if line.startswith(INDENT):
        return INDENT, line[len(INDENT) :]
    key, _, rest = line.partition(b" ")
    return key, rest


def rows_of(text):
    """The rows in the text of a file."""
    words, rows = [], []
    for number, line in enumerate([*text.split(b"\n"), b"#"], 1):
        key, rest = parts_of(line)
        try:
            if key == b"#":
                if rows:
                    rows[-1].end_call()
                rows.append(Row(rest.decode(), words))
            elif rows and line:
                rows[-1].take(key, rest)
            elif key == b"$":
                words = [rest]
        except (NoRow, KeyError, ValueError) as reason:
            raise NoRow(f"line {number}: {reason}") from reason
    return rows[:-1]


@functools.cache
def files():
    """The rows of each file, by the file's name."""
    found = {}
    for path in sorted(glob.glob(f"{FOLDER}/*.rows")):
        with open(path, "rb") as file:
            try:
                found[os.path.basename(path)] = rows_of(file.read())
            except NoRow as reason:
                raise NoRow(f"{path}: {reason}") from reason
    return found
