#!/usr/bin/env python3
"""Tells a person what is wrong with a module, and where in its source.

    explain.py FILE [--input NAME]    compiles FILE, and with --input runs it on that file
    explain.py FILE [--module NAME]   tells what is wrong with a certificate or a code file, and
                                      with --module where its code is not that of the module
    explain.py --notes FILE [--input NAME] < NOTES    tells what notes of another call mean

NOTES is what the compiler wrote to standard error. Its last line that refuses, such as
`fault rule 19 token 6 at 29`, becomes the place as FILE:LINE:COLUMN, what breaks the rule or the
limit, the rule or limit in words, the line of the source, and a mark below the token; of a line on
a trap the statement is found, and of one on a run of a code file that is stuck the instruction. The
words of rules and limits are those of docs/LANGUAGE.md. The status is that of the call of the
compiler, and with --notes 0 where something was explained, and else 1.
"""

import json
import os
import re
import subprocess
import sys
import tempfile

import declarations
import further
import grammar
import offences
import reading
import reasons
import repairs
import stopped
import stuck
import traps
from checker import images
from checker.given import Broken
from places import Place, shown, token_end, tokens, word_end
from pranet import code_file
from pranet.certificate import NoCertificate
from pranet.compiler import Refused, default_program, with_source

TOP = os.path.dirname(os.path.dirname(os.path.realpath(__file__)))
LANGUAGE = f"{TOP}/docs/LANGUAGE.md"
USAGE = "usage: pra explain FILE [--input NAME] [--module NAME]"
NO_WORDS = 6  # the status where the words are none of these
SOME = 8  # what may follow is told where it is no more than that


# ---- the words of rules and limits


def table(heading):
    """The rows of the table below a heading of the document on the language."""
    with open(LANGUAGE, encoding="utf-8") as text:
        lines = text.read().splitlines()
    rows, inside = [], False
    for line in lines:
        if line.startswith("## "):
            inside = line[3:].strip() == heading
        elif inside and line.startswith("|"):
            rows.append([cell.strip() for cell in line.strip("|").split("|")])
    return rows[2:]  # without the names of the columns and the rule below them


def rule_words(number):
    """What a rule demands, by its number."""
    for row in table("Rules"):
        if row[0] == number:
            return row[-1].replace("`", "")
    return "a rule of the language is broken"


def limit_words(name):
    """What a limit counts, by its name."""
    for row in table("Limits"):
        if row[0].strip("`") == name:
            return row[-1].replace("`", "")
    return name.replace("-", " ")


# ---- what each line means


# What a byte that begins no token means elsewhere.
MEANT = {
    '"': "; there are no strings here",
    "'": "; there are no strings here",
    "{": "; a comment stands between (* and *)",
    "/": "; DIV divides, and a comment stands between (* and *)",
    "%": "; MOD gives the remainder",
    "!": "; # says not equal, and ~ is not",
    "_": "; names have letters and digits alone",
}


def spelled(byte):
    return f"'{chr(byte)}'" if 33 <= byte < 127 else f"of value {byte}"


def lexical(name, source, kind, at):
    if kind == "bad-byte":
        words = f"the byte {spelled(source[at])} begins no token{MEANT.get(chr(source[at]), '')}"
        return Place(name, source, at, at + 1).tell(words)
    if kind == "open-comment":
        words = "this comment is opened and never closed"
        return Place(name, source, at, at + 2).tell(words)
    words = "this number is above 2147483647"
    return Place(name, source, at, token_end(source, at)).tell(words)


def at_token(name, source, at, words):
    """Of a token that is there, or of the end of the source."""
    if at < len(source):
        return Place(name, source, at, token_end(source, at)).tell(words)
    read = list(tokens(source))
    if not read:
        return [f"{name}:1:1: {words}"]
    start, end = read[-1]
    return Place(name, source, end - 1, end).tell(words)


def reserved_meant(words, number, reserved):
    """The reserved word that was meant by the token that can't stand, or by the one before it."""
    near = [number, number - 1][: number + 1]
    for at in near:
        if told := offences.capitals(words[at], reserved):
            return told
    for at in near:
        if told := further.reserved_near(words, number, at, reserved):
            return f"`{words[at]}`{told}"
    return ""


SIGNS = {
    (":=", "="): "`:=` assigns, and `=` compares",
    ("=", ":="): "a value is assigned by `:=`",
}


def wanted_sign(token, expected):
    """The sign that stands for another one by mistake."""
    other = {"=": ":=", ":=": "="}.get(token)
    return other if other and f'"{other}"' in expected else ""


def unexpected(name, source, at):
    """What can't stand at a byte, what was read before it, and what was expected there."""
    before = [shown(source[start:end]) for start, end in tokens(source[:at])]
    text, number = further.Text(source), len(before)
    reading = repairs.Reading(text.words, number)
    rules, expected = reading.grammar, reading.symbols
    wanted = grammar.in_words(rules, expected)
    wanted = f"; expected: {wanted}" if wanted else "; nothing may follow the last period"
    if at >= len(source):
        if not before:
            return at_token(name, source, at, "there is no token; a module begins with MODULE")
        return at_token(name, source, at, f"the module does not end here{wanted}")
    token = shown(source[at : token_end(source, at)])
    last = f"behind `{before[-1]}`" if before else "at the begin of a module"
    told = at_token(name, source, at, f"`{token}` can't stand here, {last}{wanted}")
    if '";"' in expected and text.is_statement(number) and text.lacks_semicolon(number):
        meant = f"a `;` is missing behind `{before[-1]}`"
    else:
        meant = reserved_meant(text.words, number, rules.reserved)
        meant = meant or declarations.meant(text, number)
        meant = meant or SIGNS.get((token, wanted_sign(token, expected)), "")
    return [*told, f"  {meant}"] if meant else told


def broken(name, source, number, at):
    """What breaks a rule at a byte, and the rule."""
    told = offences.offence(int(number), source, at)
    words = f"rule {number}: {rule_words(number)}"
    return at_token(name, source, at, f"{told} ({words})" if told else words)


def limit(name, source, kind, count, most):
    words = limit_words(kind)
    where = "the input" if kind == "input" else name
    return [f"{where}: limit {kind}: {count} where at most {most} may be: {words}"]


def input_word(given, at):
    words = "this is no number from -2147483648 to 2147483647"
    if given is None or at >= len(given):
        return [f"the input, byte {at}: {words}"]
    return Place("the input", given, at, word_end(given, at)).tell(words)


# ---- images, their texts, and certificates

IMAGE_FIELDS = {
    "Length": "an image has a head of 16 bytes",
    "Magic": "an image begins with the bytes PRAI",
    "Version": "the version of an image is 1",
    "CodeLength": "the length in the head is that of the code behind it, up to 41943040",
    "DataWords": "an image has at most 4194304 data words",
}

REASONS = {
    "code": "its code is not valid, or calls a procedure that the certificate does not have",
    "routes": "its routes are not admitted in the network of its code",
    "prices": "a price is out of range, 0, or not in the order of its index",
    "total": "its routes cost another total",
    "bound": "its prices do not show this bound",
    "module": "its code is not the tidy code of the module, which `./pra cert` prints",
}


def image_field(name, field, at):
    return [f"{name}, byte {at}: this is no image: {IMAGE_FIELDS[field]}"]


def text_line(name, source, number):
    """A line of a text that is to be assembled; behind the last one there is nothing to mark."""
    lines = source.split(b"\n")
    words = "this is no line of an image's text"
    if number > len(lines):
        return [f"{name}:{number}:1: {words}"]
    start = sum(len(line) + 1 for line in lines[: number - 1])
    if start >= len(source):
        return [f"{name}:{number}:1: {words}"]
    return Place(name, source, start, start + len(lines[number - 1])).tell(words)


def no_json(name, source):
    """Where a reader of JSON stops; another one may stop a little before or behind."""
    try:
        json.loads(source.decode(errors="replace"))
    except json.JSONDecodeError as stopped:
        at = len(source.decode(errors="replace")[: stopped.pos].encode())
        words = f"this is no JSON: {stopped.msg[:1].lower()}{stopped.msg[1:]}"
        if at < len(source):
            return Place(name, source, at, at + 1).tell(words)
        return [f"{name}, byte {at}: {words}"]
    except RecursionError:
        pass
    return [f"{name}: this is no JSON"]


# Who reads a file once more, where the line on it tells no more than where it is wrong.
READERS = {
    "fault code ": reasons.image,
    "fault line ": reasons.listing,
    "fault certificate ": reasons.certificate,
}


def by_reader(line, name, source):
    """What a second reader finds in a file that is refused with a line, if it finds something. It
    knows no module, and reads nothing where the file can't be read again."""
    if not source or line.endswith(" module"):
        return None
    for begin, reader in READERS.items():
        if line.startswith(begin):
            status, lines = reader(name, source)
            return lines if status == 3 else None
    return None


def machine_fault(name, kind):
    """What a fault of the machine means, to which an image may come that was not compiled."""
    for row in table("Other files"):
        if row[0] == f"`{kind}`":
            where = row[1].replace("`", "")
            return [f"{name}: fault of the machine: the instruction pointer stands {where}"]
    return None


def of_other_files(line, name, source):
    """The same of a line on an image, its text or a certificate."""
    if lines := by_reader(line, name, source):
        return lines
    if found := re.fullmatch(r"fault image ([A-Za-z]+) at (\d+)", line):
        return image_field(name, found[1], found[2])
    if found := re.fullmatch(r"fault code at (\d+)", line):
        at = int(found[1])
        return [f"{name}, byte {at} of the code, {at + 16} of the file: no instruction begins here"]
    if found := re.fullmatch(r"fault line (\d+)", line):
        return text_line(name, source, int(found[1]))
    if line == "fault empty":
        return [f"{name}:1:1: no instruction follows the first line"]
    if line == "fault json":
        return no_json(name, source)
    if line == "fault certificate form":
        return [f"{name}: this is JSON, but no certificate: a key is missing or too many, or a value"
                " is none that stands there (docs/CERTIFICATES.md)"]
    if line == "fault certificate module":
        return [f"{name}: it does not have an entry for each procedure of the module and its body"]
    if found := re.fullmatch(r"fault certificate procedure (\d+) ([a-z]+)", line):
        return [f"{name}, procedure {found[1]}: the certificate does not hold: {REASONS[found[2]]}"]
    if found := re.fullmatch(r"machine ([a-z]+) steps \d+ reads \d+", line):
        return machine_fault(name, found[1])
    return None


FILES = {
    "read input": "the input can't be read",
    "write file": "a file can't be written (the image, or the module of gen)",
    "write out": "the output can't be written",
}


def explained(line, name, source, given):
    """What a line of the notes means to a person, or None where it refuses nothing."""
    if found := re.fullmatch(r"fault (bad-byte|open-comment|number-too-large) at (\d+)", line):
        return lexical(name, source, found[1], int(found[2]))
    if found := re.fullmatch(r"fault grammar token \d+ at (\d+)", line):
        return unexpected(name, source, int(found[1]))
    if found := re.fullmatch(r"fault rule (\d+) token \d+ at (\d+)", line):
        return broken(name, source, found[1], int(found[2]))
    if found := re.fullmatch(r"limit depth token \d+ at (\d+)", line):
        words = f"limit depth: {limit_words('depth')}"
        return at_token(name, source, int(found[1]), words)
    if found := re.fullmatch(r"limit ([a-z-]+) count (\d+) maximum (\d+)", line):
        return limit(name, source, found[1], int(found[2]), int(found[3]))
    if found := re.fullmatch(r"fault input at (\d+)", line):
        return input_word(given, int(found[1]))
    if line == reading.LINE:
        return [reading.why(name) or f"{name}: can't be read"]
    if found := re.fullmatch(r"fault (read input|write file|write out)", line):
        return [FILES[found[1]].format(name)]
    return of_other_files(line, name, source)


def read(name):
    try:
        with open(name, "rb") as text:
            return text.read()
    except OSError:
        return b""


def of_applied(line, file, name, given):
    """The same of a line on the certificate that the mode apply has read from its input, whose name
    and bytes are None where it can't be read again, for a module's file; None of another line."""
    if not re.match(r"fault json|fault certificate|limit certificate", line):
        return None
    if given is not None:
        lines = explained(line, name, given, None)
        return lines + (not_of_module(file, name, given) if line.endswith(" module") else [])
    if line == "fault json":
        return ["the certificate: this is no JSON"]
    return explained(line, "the certificate", b"", None)


def not_of_module(name, input_name, given):
    """Where the code of a certificate is not that of a module, procedure by procedure."""
    try:
        return reasons.Module(name).lines(input_name, given)
    except (OSError, Refused, NoCertificate):
        return []


def of_code(line, name, source):
    """What a line means where FILE is a code file, or None of a line that is not about that."""
    if lines := stuck.told(name, source, line):
        return lines
    if not line.startswith(("fault ", "limit ")):
        return None
    status, lines = reasons.code(name, source)
    if not status and line.startswith("fault bad-byte "):
        return [f"{name}: this is a code file, and is read as one with --from code"]
    return lines if status else None


def told(notes, name, input_name=None, mode=""):
    """What the last line of notes that tells of a refusal or a trap means, line by line."""
    source = read(name)
    given, is_code = read(input_name) if input_name else None, code_file.is_code(source)
    for line in reversed(notes.splitlines()):
        if is_code and (lines := of_code(line, name, source)):
            return lines
        if found := traps.STEPS.fullmatch(line):
            if source.startswith(images.MAGIC):
                return [f"{name}: trap {found[1]}: {traps.KINDS[found[1]]}"]
            return traps.told(name, source, line, default_program(), input_name)
        lines = of_applied(line, name, input_name, given) if mode == "apply" else None
        if lines := lines or explained(line, name, source, given):
            return lines
    return []


def all_told(notes, name, input_name=None, mode=""):
    """The same, and of a module behind it what else is wrong with it."""
    lines, line = told(notes, name, input_name, mode), (notes.splitlines() or [""])[-1]
    if lines and further.FAULT.fullmatch(line) and not code_file.holds_code(name):
        lines = lines + further.told(default_program(), name, read(name), line, explained)
    return lines


def tried(name, input_name):
    """The status of a call that compiles a module or code, or of one that runs it where there is an
    input, and its notes."""
    with tempfile.TemporaryDirectory(prefix="pra-explain-") as room:
        mode = ["interp"] if input_name else ["compile", "--image", f"{room}/image"]
        with open(input_name or os.devnull, "rb") as given:
            command = with_source([mode[0], name, "--rounds", "0", *mode[1:]])
            how = {"stdin": given, "capture_output": True, "check": False}
            ran = subprocess.run([default_program(), *command], **how)
    return ran.returncode, ran.stderr.decode(errors="replace")


def of_traps(name):
    """The status and what is told of a module that traps whatever its input is, or of code that
    does or is stuck; or 0 and nothing."""
    line = further.always_traps(default_program(), name)
    if not line:
        return 0, []
    place, *marked = told(line, name)
    return 1, [f"{place}; that is so with every input", *marked]


def explain(name, input_name):
    try:
        status, notes = tried(name, input_name)
    except OSError as error:
        print(reading.reason(input_name, error))
        return 5
    except Refused as refused:
        print(refused.said.decode(errors="replace"), end="")
        return refused.status
    for line in notes.splitlines():
        if line.startswith("pra: "):
            print(line, file=sys.stderr)  # that it was not proved, where there is no terminal
    lines = all_told(notes, name, input_name)
    if not lines and status == 0 and not input_name:
        status, lines = of_traps(name)
    if not lines:
        lines = [f"{name}: nothing is wrong"] if status == 0 else notes.splitlines()[-1:]
    print("\n".join(lines))
    return status


def without(words, option):
    """The words without an option, and its value or None."""
    if option not in words[:-1]:
        return words, None
    at = words.index(option)
    return words[:at] + words[at + 2 :], words[at + 1]


def of_file(name, input_name, module_name):
    """The status of a file, which is no module where a module is named for it. Code that breaks no
    rule is run as a module is."""
    if not module_name and code_file.holds_code(name) and not reasons.code(name, read(name))[0]:
        return explain(name, input_name)
    try:
        status = reasons.main(name, module_name)
    except Broken as broken:
        print(broken)
        return broken.status
    except Refused as refused:
        print("\n".join(told(refused.said.decode(errors="replace"), module_name)))
        return refused.status
    except OSError as error:
        print(f"{module_name}: can't be read: {error.strerror}")
        return 5
    return explain(name, input_name) if status == reasons.MODULE else status


def main(words):
    words, input_name = without(words, "--input")
    words, module_name = without(words, "--module")
    if len(words) == 1 and not words[0].startswith("-"):
        return of_file(words[0], input_name, module_name)
    if len(words) != 2 or words[0] != "--notes":
        print(f"fault words\n{USAGE}", file=sys.stderr)
        return NO_WORDS
    lines = all_told(sys.stdin.read(), words[1], input_name)
    if lines:
        print("\n".join(lines))
    return 0 if lines else 1


if __name__ == "__main__":
    sys.exit(stopped.status_of(lambda: main(sys.argv[1:])))
