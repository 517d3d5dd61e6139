"""Which lines of the source a block came from, found again by the text.

The compiler keeps no positions behind its tree. But calls, reads, writes, divisions, comparisons
and tests of indexes stand in the code in the order of the text, and so do blocks, but that the test
of a WHILE stands behind its statements. So the words of the source that make them are laid beside
the instructions, by long common stretches, and a block came from the lines of those that stand in
it. What was merged or dropped has no partner, and a block without any has no lines.
"""

from difflib import SequenceMatcher

import grammar
import places

# What makes an instruction by which a line is found again, by the word of the source.
SIGNS = dict.fromkeys(("DIV", "MOD"), "divmod") | {"[": "check"}
SIGNS |= dict.fromkeys(("=", "#", "<", "<=", ">", ">="), "cmp")
BUILT_IN = {"Read": "read", "Write": "write", "WriteLn": "line"}
# DIV by a constant power of two is a shift.
KINDS = {"cmpset": "cmp", "sar": "divmod"} | {it: it for it in (*SIGNS.values(), *BUILT_IN.values())}


def anchor_of(ins):
    """What an instruction is found by, or None."""
    return f"call {ins[1]}" if ins[0] == "call" else KINDS.get(ins[0])


class Source:
    """The words of a module that make such instructions, procedure by procedure."""

    def __init__(self, source):
        spans = list(places.tokens(source))
        self.words = [places.shown(source[start:end]) for start, end in spans]
        self.lines, line, last = [], 1, 0
        for start, _ in spans:
            line, last = line + source.count(b"\n", last, start), start
            self.lines.append(line)
        self.reserved = grammar.read().reserved
        self.found = []  # of each procedure, in the order of headings, its anchors and their lines
        self.numbers = {}  # of procedures, by their names
        self.open = []  # of each open WHILE where its test begins and ends, of an IF nothing
        self.read()

    def is_name(self, at):
        return at < len(self.words) and self.words[at][0].isalpha() and not self.is_reserved(at)

    def is_reserved(self, at):
        return self.words[at] in self.reserved

    def read(self):
        """Goes over the words with the procedures that are open, of which the last is read."""
        around = []  # the number of each, and whether its statements have begun
        for at, word in enumerate(self.words):
            if word in ("MODULE", "PROCEDURE"):
                if self.is_name(at + 1):
                    self.numbers.setdefault(self.words[at + 1], len(self.found))
                around.append([len(self.found), False])
                self.found.append([])
            elif word == "BEGIN" and around:
                around[-1][1] = True
            elif word == "END" and self.is_name(at + 1) and around:
                around.pop()
            elif around and around[-1][1]:
                self.turn(word, self.found[around[-1][0]])
                self.take(at, self.found[around[-1][0]])

    def turn(self, word, found):
        """Puts what the test of a WHILE makes behind what its statements make."""
        if word in ("IF", "WHILE"):
            self.open.append([len(found)] if word == "WHILE" else [])
        elif word == "DO":
            self.open[-1].append(len(found))
        elif word == "END":
            test = self.open.pop()
            if test:
                begin, middle = test
                found[begin:] = found[middle:] + found[begin:middle]

    def take(self, at, found):
        """Takes the anchor that a word of a statement is, if it is one."""
        word = self.words[at]
        anchor = SIGNS.get(word)
        if word in self.numbers:
            anchor = f"call {self.numbers[word]}"
        elif word in BUILT_IN:
            anchor = BUILT_IN[word]
        if anchor:
            found.append((anchor, self.lines[at]))


def lines_of_blocks(source, number, blocks):
    """Of each block of a procedure the lines that were found."""
    here = [
        (anchor, at) for at, block in enumerate(blocks) for anchor in map(anchor_of, block.code)
    ]
    here = [it for it in here if it[0]]
    there = source.found[number] if number < len(source.found) else []
    pair = SequenceMatcher(None, [it for it, _ in here], [it for it, _ in there], False)
    lines = [set() for _ in blocks]
    for one, other, size in pair.get_matching_blocks():
        for step in range(size):
            lines[here[one + step][1]].add(there[other + step][1])
    return [sorted(it) for it in lines]
