"""Which sources these are, and whether the compiler was proved of them: ./pra --version."""

import os
import subprocess

import build

PROGRAM = f"{build.TOP}/crates/{build.COMPILER}/out/{build.COMPILER}"
PROVED = "proved and built of these sources"
FORMATS = "images of version 1, certificates of version 1"


def said(command):
    """The first line that a command writes, or nothing where it can't be called."""
    try:
        ran = subprocess.run(command, capture_output=True, cwd=build.TOP, check=False)
    except OSError:
        return ""
    told = ran.stdout.decode(errors="replace").strip().partition("\n")[0]
    return told if not ran.returncode else ""


def commit():
    """The commit of the checkout and its day, where it is one of git."""
    if not os.path.exists(f"{build.TOP}/.git"):
        return ""
    return said(["git", "log", "-1", "--format=commit %h of %cs"])


def state(total):
    """Whether the program that runs was proved."""
    try:
        with open(f"{PROGRAM}.sources", encoding="utf-8") as file:
            built = file.read().strip()
    except OSError:
        built = ""
    if not built or not os.access(PROGRAM, os.X_OK):
        return "not built: calls run unproved (./pra build proves)"
    if built != total:
        return "sources have changed since the compiler was built: calls run unproved"
    return PROVED


def not_proved(program):
    """Why what a program says was not proved, in a sentence, or nothing where it was."""
    if os.path.realpath(program) == f"{build.TOP}/pra" or is_same(program, PROGRAM):
        told = state(build.sum_of_sources(build.COMPILER))
        if told == PROVED:
            return ""
        why = told.partition(":")[0]
        return f"What made this page was not proved ({why}): it claims nothing."
    if os.path.basename(os.path.dirname(os.path.realpath(program))) == ".unproved":
        return "What made this page was not proved (an unproved build): it claims nothing."
    return "Whether the program that made this page was proved is not known here."


def is_same(one, other):
    return os.path.exists(one) and os.path.exists(other) and os.path.samefile(one, other)


def lines():
    total = build.sum_of_sources(build.COMPILER)
    yield f"pra, sources {total[:16]}" + (f", {told}" if (told := commit()) else "")
    yield state(total)
    yield FORMATS
    if kit := said(["rt", "version"]):
        yield kit


def main():
    print("\n".join(lines()))
    return 0
