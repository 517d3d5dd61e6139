#!/usr/bin/env python3
"""A call of ./pra with what stands around it: options of any word, and FILE from standard input.

    call.py WORD .. 3<INPUT

`--explain` tells behind a refusal what it means, as editors and builds read it; `--json` gives the
report as one value; `--help` tells what WORD does and takes; `--version` which sources these are.
Where FILE is `-` and the word reads no numbers, FILE is what standard input holds, told as <stdin>.
All else is the call without these: its output, notes, files and status.
"""

import contextlib
import json
import os
import re
import shutil
import subprocess
import sys
import tempfile

import explain
import reading
import report_value
import stopped
import terminal
import version
import words as known_words
from checker import json_text
from pranet.compiler import default_program

STDIN = "<stdin>"  # what FILE is called where it is standard input
OF_PROCEDURE = re.compile(r"(.+), (procedure (\d+))(.*)")  # what a line is about
OWN = ("--explain", "--json", "--help", "-h", "--version")
TO_OUTPUT = ("compile", "gen", "apply", "check")  # the modes whose report is their output
REPORTS = (*TO_OUTPUT, "run", "interp", "exec")
NAME_THEIR_FILE = ("explain", "show", "code", "network", "lp")  # the words that tell FILE's name
WITHOUT_FILE = ("gen", "grade", "help", "build", "test", "man", "completion")


class Words:
    """The words of a call: its own options apart, and where FILE is."""

    def __init__(self, words):
        end = words.index("--") if "--" in words else len(words)
        self.own = {it for it in words[:end] if it in OWN}
        self.words = [it for at, it in enumerate(words) if at >= end or it not in OWN]
        known, options = known_words.table()
        self.plain, _, _ = known_words.parted(self.words, options)
        self.mode = self.plain[0] if self.plain else ""
        self.is_known = self.mode in known

        self.script = known[self.mode].script if self.is_known else ""
        self.is_compilers = self.script == known_words.COMPILER

    @property
    def file(self):
        return self.plain[1] if len(self.plain) > 1 else ""

    def takes_input(self):
        """Whether FILE is to be what standard input holds."""
        is_file = self.is_known and self.mode not in (*terminal.READ_INPUT, *WITHOUT_FILE)
        return is_file and self.file == "-"

    def with_file(self, name):
        """The words with a name for FILE. A `-` anywhere else is a file that is called so."""
        words = ["./-" if it == "-" else it for it in self.words]
        if self.takes_input():
            words[self.words.index("-")] = name
        return words


# ---- the call


def command_of(it, words):
    """The command of a call without options of its own."""
    if it.is_compilers or words[:1] != [it.mode] or not it.is_known:
        return [default_program(), *words]
    return [sys.executable, f"{known_words.HERE}/{it.script}", *words[1:]]


def reasons(it, status, notes, name):
    """What a refusal or a trap means, line by line."""
    if status == known_words.NO_WORDS:
        return [f"pra: {line}" for line in known_words.wrong(it.words)] if it.is_compilers else []
    is_told = not it.is_compilers and reading.LINE.encode() in notes  # by the script itself
    if is_told or (status != 1 and status not in terminal.REFUSED):
        return []
    given = None if it.takes_input() else terminal.input_name()
    told = explain.all_told(notes.decode(errors="replace"), name, given, it.mode)
    return [line.replace(name, STDIN) for line in told] if it.takes_input() else told


def as_errors(lines):
    """Lines in the form that editors and builds read: FILE:LINE:COLUMN: error: .."""
    return [line if line.startswith("  ") else as_error(line) for line in lines]


def as_error(line):
    place, colon, words = line.partition(": ")
    if colon and (found := OF_PROCEDURE.fullmatch(place)) and (line := placed(*found.groups())):
        return f"{line}: error: {found[2]}{found[4]}: {words}"
    return f"{place}: error: {words}" if colon else f"pra: error: {line}"


def placed(file, _, number, __):
    """Where a procedure begins in the text of a certificate or of code, or None where that can't be
    read again."""
    try:
        with open(file, encoding="utf-8") as text:
            held = text.read()
        at = json_text.position(held, ["procs", int(number)])
    except (OSError, ValueError, StopIteration):
        return None
    return ":".join(map(str, (file, *json_text.line_and_column(held, at))))


# ---- the value of a report


def as_value(it, words, name, how):
    """Prints the value of a call in place of its report."""
    to_output = it.mode in TO_OUTPUT
    how = {**how, "stderr": subprocess.PIPE}
    if to_output:
        how["stdout"] = subprocess.PIPE
    ran = subprocess.run(command_of(it, words), check=False, **how)
    status = 128 - ran.returncode if ran.returncode < 0 else ran.returncode
    lines = ((ran.stdout or b"") + ran.stderr).decode(errors="replace").splitlines()
    value, others = report_value.value_of(it.mode, status, lines)
    if "--explain" in it.own:
        value["reasons"] = as_errors(reasons(it, status, ran.stderr, name))
    for line in others:
        print(line, file=sys.stderr)
    print(json.dumps(value), file=sys.stdout if to_output else sys.stderr)
    return status


# ---- words


@contextlib.contextmanager
def words_of(it):
    """The words of the call, the name that FILE has in it, and how it gets its input."""
    if not it.takes_input():
        yield it.with_file(""), it.file, terminal.given()
        return
    with tempfile.TemporaryDirectory(prefix="pra-stdin-") as room:
        name = f"{room}/stdin"
        with open(name, "wb") as file, open(terminal.INPUT, "rb", closefd=False) as text:
            shutil.copyfileobj(text, file)
        yield it.with_file(name), name, {"stdin": subprocess.DEVNULL}


def watched(it, words, name, how):
    """The status of a call whose output and notes are told as they come, and the notes."""
    if not (it.takes_input() and it.mode in NAME_THEIR_FILE):
        clock = terminal.Clock(2, f"pra {it.mode}") if os.isatty(2) else None
        typed = terminal.typed_for(it.mode) if clock else None
        return terminal.watched(command_of(it, words), clock, typed, **how)
    ran = subprocess.run(command_of(it, words), check=False, capture_output=True, **how)
    sys.stderr.buffer.write(ran.stderr.replace(name.encode(), STDIN.encode()))
    out = ran.stdout
    if it.mode == "show" and not ran.returncode:
        with open(f"{name}.html", "rb") as page:
            out = page.read()
    sys.stdout.buffer.write(out.replace(name.encode(), STDIN.encode()))
    return ran.returncode, ran.stderr


def call(it):
    with words_of(it) as (words, name, how):
        if "--json" in it.own:
            return as_value(it, words, name, how)
        status, notes = watched(it, words, name, how)
        if status < 0:
            return 128 - status
        told = reasons(it, status, notes, name) if "--explain" in it.own or os.isatty(2) else []
        for line in as_errors(told) if "--explain" in it.own else told:
            print(line, file=sys.stderr)
        return status


def main(words):
    it = Words(words)
    if "--version" in it.own:
        return version.main()
    if it.own & {"--help", "-h"}:
        return known_words.main(it.plain[:1] if it.mode != "help" else it.plain[1:2])
    if "--json" in it.own and it.mode not in REPORTS:
        print(f"fault words\npra: --json is for {', '.join(REPORTS)}", file=sys.stderr)
        return known_words.NO_WORDS
    return call(it)


if __name__ == "__main__":
    sys.exit(stopped.status_of(lambda: main(sys.argv[1:])))
