#!/usr/bin/env python3
"""The words of ./pra: the screens of help, and what is wrong with words that were refused.

    words.py [WORD]              prints one screen, or what WORD does and which options it takes
    words.py --wrong WORD ..     says which of these words of a call is wrong, and what was meant

All words stand in words.txt. The status is 6 where WORD is none, and else 0.
"""

import difflib
import os
import sys
import textwrap
from dataclasses import dataclass

import stopped

HERE = os.path.dirname(os.path.realpath(__file__))
WIDE = 98  # columns of a screen
STATUS = (
    "status: 0 ended or written, 1 a trap, 2 still going after M steps, 3 something is wrong with"
    " FILE, 4 FILE has too much of something, 5 a file or a stream failed, 6 the words, 7 the input,"
    " 8 no memory, 70 no answer of the scripts"
)
NO_WORDS = 6  # the status where words are none of these
COMPILER = "-"  # stands for what the compiler does
NONE = "none"  # stands for no value
EVERYWHERE = ("--explain", "--json", "--help", "--version")  # options of ./pra itself


@dataclass
class Word:
    name: str
    follows: str  # what has to stand behind it
    script: str  # what does it, or - for the compiler
    options: list  # the names of those that bear on it
    does: str

    @property
    def call(self):
        return f"pra {self.name} {self.follows}".rstrip()

    @property
    def names(self):
        """Its options, with their dashes."""
        return [f"--{it}" if len(it) > 1 else f"-{it}" for it in self.options]


@dataclass
class Option:
    name: str  # with its dashes
    value: str  # what its value is called, or nothing where it has none
    default: str
    values: str  # which it may have
    does: str

    @property
    def call(self):
        return f"{self.name} {self.value}".rstrip()


def table():
    """The words and the options, by their names."""
    words, options = {}, {}
    with open(f"{HERE}/words.txt", encoding="utf-8") as text:
        for line in text:
            cells = [it.strip() for it in line.split("|")]
            if line.startswith("-"):
                name, _, value = cells[0].partition(" ")
                options[name] = Option(name, value, *cells[1:])
            elif not line.startswith("#") and len(cells) == 5:
                name, follows, script, takes, does = cells
                words[name] = Word(name, follows, script, takes.split(), does)
    return words, options


def of_compiler(words, options):
    """The options that the compiler takes."""
    names = {name for it in words.values() if it.script == COMPILER for name in it.names}
    return {name: it for name, it in options.items() if name in names}


# ---- screens


def beside(left, right, width):
    """Two columns, the right one broken into lines."""
    lines = textwrap.wrap(right, WIDE - width) or [""]
    first = [f"{left:<{width}}{lines.pop(0)}".rstrip()] if len(left) < width else [left]
    return "\n".join([*first, *(" " * width + it for it in lines)])


def option_words(it):
    """What an option does, and which values it may have."""
    without = f"; without it {it.default}" if it.default != NONE else ""
    return f"{it.does} ({it.values}{without})" if it.value else it.does


def option_line(it):
    return beside(f"  {it.call}", option_words(it), 17)


def word_line(it, options):
    """What a word does; of a script also which options it takes."""
    taken = "" if it.script == COMPILER else ", ".join(options[name].call for name in it.names)
    return beside(f"  {it.call}", f"{it.does} ({taken})" if taken else it.does, 24)


def usage(call, options):
    """The line of usage, broken where it is long, but not within an option."""
    taken = [f"[{it.call}]".replace(" ", "\0") for it in options]
    line = " ".join([f"usage: {call}", *taken])
    wrapped = textwrap.wrap(line, WIDE, subsequent_indent=" " * 11, break_on_hyphens=False)
    return "\n".join(wrapped).replace("\0", " ")


def screen():
    """All words and options."""
    words, options = table()
    known = of_compiler(words, options)
    yield usage("pra MODE FILE", known.values())
    yield ""
    for it in words.values():
        yield word_line(it, options)
    yield ""
    yield from map(option_line, known.values())
    yield ""
    yield ANY_WORD
    for name in EVERYWHERE:
        yield option_line(options[name])
    yield ""
    yield "\n".join(textwrap.wrap(STATUS, WIDE))
    yield ""
    yield "  echo 25 7 | pra run examples/samples.ob"


ANY_WORD = "of any word (and - for FILE is standard input, where that is not the program's input):"


def screen_of(it, options):
    """What one word does and takes."""
    taken = [options[name] for name in it.names]
    yield usage(it.call, taken)
    yield ""
    yield "\n".join(textwrap.wrap(f"{it.does[0].upper()}{it.does[1:]}.", WIDE))
    if taken:
        yield ""
        yield from map(option_line, taken)


# ---- words that were refused


def meant(word, known):
    """The known word that is near to one, as a question."""
    near = difflib.get_close_matches(word.lower(), known, 1, 0.6)
    return f"; did you mean {near[0]}?" if near else ""


def number_range(option):
    """The least and the greatest value of an option of numbers, or None."""
    least, _, most = option.values.partition(" to ")
    return (int(least), int(most)) if least.isdecimal() and most.isdecimal() else None


def is_number(option):
    """Whether an option has a number as its value."""
    return number_range(option) is not None or option.values == "a number"


def choices(option):
    """The words of which one is the value of an option, or none where it has other values."""
    return option.values.split(" or ") if " or " in option.values else []


def wrong_choice(option, value, mode):
    """What is wrong with a value that is to be one of a few words, or None."""
    known = choices(option)
    if value not in known:
        return f"{option.name} takes {option.values}, and not {value!r}{meant(value, known)}"
    is_code = option.name == "--from" and value == "code"
    return "gen writes a module to FILE, and no code" if is_code and mode == ["gen"] else None


def wrong_value(option, value, words):
    """What is wrong with the value of an option, or None. The first two words are MODE and FILE."""
    takes = f"{option.name} takes {option.values}"
    if found := number_range(option):
        is_number = value.isascii() and value.isdecimal() and len(value) <= 10
        if not is_number:
            return f"{takes}, in decimal digits, and {value!r} is no such number"
        return None if found[0] <= int(value) <= found[1] else f"{takes}, and not {value}"
    if choices(option):
        return wrong_choice(option, value, words[:1])
    if not value:
        return f"{option.name} takes a name that is not empty"
    if value in words[1:2]:
        return f"{value} is FILE, and the image would be written over it: give another name"
    return None


def parted(words, options):
    """The plain words, the options with their values, and what is wrong with how they stand."""
    plain, given, faults, words = [], {}, [], list(words)
    while words:
        word = words.pop(0)
        name, is_joined, value = word.partition("=")
        if word == "--":
            plain, words = plain + words, []
            continue
        if not word.startswith("-") or word == "-":
            plain.append(word)
            continue
        if name in options and not options[name].value and not is_joined:
            given[name] = ""
            continue
        is_value = not is_joined and words and (not words[0].startswith("-") or words[0] == "-")
        value = words.pop(0) if is_value else value if is_joined else None
        if name not in options:
            faults.append(f"{name} is no option{meant(name, options)}")
        elif name in given:
            faults.append(f"{name} stands twice")
        elif value is None:
            faults.append(f"behind {name} its value is missing: {options[name].values}")
            words = words[1:] if words and words[0][1:].isdecimal() else words
        else:
            given[name] = value
    return plain, given, faults


def wrong_plain(plain, modes):
    """What is wrong with MODE, FILE and what stands behind them."""
    if not plain:
        yield f"the first word is missing: {', '.join(modes)}"
        return
    if plain[0] not in modes:
        yield f"{plain[0]!r} is none of {', '.join(modes)}{meant(plain[0], modes)}"
    if len(plain) < 2:
        yield f"the name of FILE is missing, as in pra {plain[0]} FILE"
    elif not plain[1]:
        yield "the name of FILE is empty"
    for word in plain[2:]:
        yield f"{word!r} is one word too many: a call has one FILE (a name with blanks needs quotes)"


def wrong(words):
    """What is wrong with the words of a call, a line each."""
    known, options = table()
    options = of_compiler(known, options)
    modes = [it.name for it in known.values() if it.script == COMPILER]
    plain, given, faults = parted(words, options)
    yield from wrong_plain(plain, modes)
    yield from faults
    for name, value in given.items():
        if fault := wrong_value(options[name], value, plain):
            yield fault


def main(words):
    if words[:1] == ["--wrong"]:
        for line in wrong(words[1:]):
            print(f"pra: {line}")
        return 0
    if not words:
        print("\n".join(screen()))
        return 0
    known, options = table()
    if words[0] not in known:
        print(f"pra: {words[0]!r} is no word of pra{meant(words[0], known)}", file=sys.stderr)
        return NO_WORDS
    print("\n".join(screen_of(known[words[0]], options)))
    return 0


if __name__ == "__main__":
    sys.exit(stopped.status_of(lambda: main(sys.argv[1:])))
