#!/usr/bin/env python3
"""Runs the commands that pages show, and says where they write something else than stands there.

    commands.py [--write] [--compiler PROGRAM] [PAGE ..]    of these pages, or of README and docs/

A command is a line of a page that begins with four blanks and `$ `; what it writes are the lines of
four blanks behind it. There `..` within a line stands for any text, and a line `..` for any lines.
The commands of a page run one after the other in one folder, which has ./pra, scripts, crates, and
copies of examples/. Where a program is missing that a command asks for, it is left out, with all
that stand behind it under one heading; so are proofs (`rt`), since they take long. With --write the
page gets what they write now, but where `..` stands. The compiler is ./pra, or PROGRAM, which the
words that scripts do are given too. The status is 0 where nothing differs, and else 1.
"""

import difflib
import functools
import glob
import os
import re
import shlex
import shutil
import subprocess
import sys
import tempfile

import stopped
import words as known_words

TOP = os.path.dirname(os.path.dirname(os.path.realpath(__file__)))
INDENT = "    "
PROMPT = f"{INDENT}$ "
ANY = ".."  # stands for what varies
# What commands ask for: a pattern of the command, and the programs.
NEEDS = (
    (r"\brt (check|try|test|ci|fmt)\b", ("proofs",)),
    (r"\bgcc\b|\./pra native|\bgdb\b", ("gcc",)),
    (r"\bgdb\b", ("gdb",)),
    (r"\./pra solve\b", ("cbc",)),
)
PROGRAM_IN_C = b"#include <stdio.h>\nint main(void) { return puts(\"\") < 0; }\n"


def steps(lines):
    """Where each command stands, the command, and where what it writes begins and ends."""
    at = 0
    while at < len(lines):
        if not lines[at].startswith(PROMPT):
            at += 1
            continue
        begin, command = at, lines[at].removeprefix(PROMPT)
        at += 1
        while command.endswith("\\"):
            command = command[:-1] + lines[at].strip()
            at += 1
        first = at
        while at < len(lines) and lines[at].startswith(INDENT) and lines[at][:6] != PROMPT:
            at += 1
        yield begin, command, first, at


def heading_of(lines, at):
    """The number of the last heading before a line."""
    return max((it for it in range(at) if lines[it].startswith("#")), default=0)


@functools.cache
def is_there(need):
    """Whether a program is there that commands ask for; gcc has to make programs of 32 bits."""
    if need == "proofs" or shutil.which(need) is None:
        return False
    if need != "gcc":
        return True
    with tempfile.TemporaryDirectory(prefix="pra-gcc-") as room:
        make = ["gcc", "-m32", "-x", "c", "-", "-o", f"{room}/it"]
        made = subprocess.run(make, input=PROGRAM_IN_C, capture_output=True)
        if made.returncode:
            return False
        return subprocess.run([f"{room}/it"], capture_output=True).returncode == 0


def missing(command):
    """What a command asks for and is not there."""
    asked = (need for pattern, needs in NEEDS if re.search(pattern, command) for need in needs)
    return [need for need in asked if not is_there(need)]


def written_by(command, room):
    """What a command writes, line by line."""
    how = {"stdin": subprocess.DEVNULL, "stdout": subprocess.PIPE, "stderr": subprocess.STDOUT}
    ran = subprocess.run(["bash", "-c", command], cwd=room, **how)
    lines = ran.stdout.decode(errors="replace").splitlines()
    return lines + ([f"status {ran.returncode}"] if ran.returncode else [])


def is_shown(shown, now):
    """Whether lines are those that a page shows."""
    parts = []
    for line in shown:
        line = line.strip()
        is_any = line == ANY
        parts.append("(?:.*\n)*" if is_any else ".*".join(map(re.escape, line.split(ANY))) + "\n")
    text = "".join(f"{it.strip()}\n" for it in now)
    return re.fullmatch("".join(parts), text) is not None


def make_pra(name, compiler):
    """Writes a program that does what ./pra does, by a compiler."""
    table, _ = known_words.table()
    lines = ["#!/bin/sh", f"export PRA={shlex.quote(compiler)}", 'case "$1" in']
    for it in table.values():
        if it.script != "-":
            script = shlex.quote(f"{TOP}/scripts/{it.script}")
            lines.append(f'{it.name}) shift; exec python3 {script} "$@" ;;')
    lines += ["esac", 'exec "$PRA" "$@"']
    with open(name, "w", encoding="utf-8") as program:
        print(*lines, sep="\n", file=program)
    os.chmod(name, 0o755)


def furnish(room, compiler):
    """Puts into a folder what commands find there."""
    shutil.copytree(f"{TOP}/examples", f"{room}/examples")
    for name in ("crates", "scripts"):
        os.symlink(f"{TOP}/{name}", f"{room}/{name}")
    if compiler:
        make_pra(f"{room}/pra", os.path.abspath(compiler))
    else:
        os.symlink(f"{TOP}/pra", f"{room}/pra")


def run_page(name, lines, room, say):
    """Runs a page's commands. The lines as they are to be now, and whether something differs."""
    told, end, differs, left_out = [], 0, False, None
    for begin, command, first, last in steps(lines):
        heading = heading_of(lines, begin)
        if left_out == heading or (lack := missing(command)):
            if left_out != heading:
                say(f"left out, for want of {' and '.join(lack)}: {command}")
            left_out = heading
            continue
        say(f"$ {command}")
        shown = [it.strip() for it in lines[first:last]]
        now = written_by(command, room)
        if is_shown(shown, now):
            continue
        differs = True
        now = [f"{INDENT}{it}".rstrip() for it in now]
        names = f"{name}, line {begin + 1}", "now"
        say("\n".join(difflib.unified_diff(lines[first:last], now, *names, lineterm="")))
        told += lines[end:first] + (lines[first:last] if any(ANY in it for it in shown) else now)
        end = last
    return told + lines[end:], differs


def pages_with_commands():
    for page in [f"{TOP}/README.md", *sorted(glob.glob(f"{TOP}/docs/*.md"))]:
        with open(page, encoding="utf-8") as text:
            if f"\n{PROMPT}" in text.read():
                yield page


def check(page, compiler, is_write=False, say=print):
    """Whether the commands of a page write what it shows."""
    with open(page, encoding="utf-8") as text:
        lines = text.read().splitlines()
    with tempfile.TemporaryDirectory(prefix="pra-page-") as room:
        furnish(room, compiler)
        told, differs = run_page(os.path.basename(page), lines, room, say)
    if is_write and differs:
        with open(page, "w", encoding="utf-8") as text:
            text.write("\n".join(told) + "\n")
    return not differs


def main(words):
    words = list(words)
    is_write = "--write" in words
    if is_write:
        words.remove("--write")
    compiler = None
    if "--compiler" in words:
        at = words.index("--compiler")
        compiler = words[at + 1]
        del words[at : at + 2]
    held = [check(it, compiler, is_write) for it in words or pages_with_commands()]
    print("nothing differs" if all(held) else "something differs")
    return 0 if all(held) else 1


if __name__ == "__main__":
    sys.exit(stopped.status_of(lambda: main(sys.argv[1:])))
