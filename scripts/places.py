"""Tokens of a source, and places in a text as a person reads them."""

import re

BLANKS = b" \t\n\r"
LONG_SYMBOLS = (b":=", b"<=", b">=")
WIDEST = 100  # columns of a source line that are shown


def comment_end(text, at):
    """Behind the comment that opens at a byte, or the end of the text where it stays open."""
    depth = 0
    while at < len(text):
        if text.startswith(b"(*", at):
            depth, at = depth + 1, at + 2
        elif text.startswith(b"*)", at):
            depth, at = depth - 1, at + 2
            if depth == 0:
                return at
        else:
            at += 1
    return len(text)


def token_end(text, at):
    """Behind the token that begins at a byte."""
    found = re.compile(rb"[A-Za-z][A-Za-z0-9]*|[0-9]+").match(text, at)
    if found:
        return found.end()
    if text.startswith(b"(*", at):
        return at + 2
    return at + (2 if text[at : at + 2] in LONG_SYMBOLS else 1)


def tokens(text):
    """The spans of the tokens of a text, up to the first byte that begins none."""
    at = 0
    while at < len(text):
        if text[at : at + 1] in (b" ", b"\t", b"\n", b"\r"):
            at += 1
        elif text.startswith(b"(*", at):
            at = comment_end(text, at)
        else:
            end = token_end(text, at)
            yield at, end
            at = end


def word_end(text, at):
    """Behind the run of bytes without blanks that begins at a byte."""
    end = at
    while end < len(text) and text[end] not in BLANKS:
        end += 1
    return end


def shown(text):
    """Bytes as a person sees them, a character for each."""
    return "".join(chr(b) if 32 <= b < 127 or b == 9 else "?" for b in text)


class Place:
    """A stretch of a text: its line and column, both from 1, and what stands there."""

    def __init__(self, name, text, start, end):
        self.name, self.text = name, text
        self.start, self.end = start, max(end, start + 1)
        self.line = text.count(b"\n", 0, start) + 1
        self.line_start = text.rfind(b"\n", 0, start) + 1
        self.column = start - self.line_start + 1

    def marked(self):
        """The line of the text with a mark below the stretch."""
        stop = self.text.find(b"\n", self.start)
        stop = len(self.text) if stop < 0 else stop
        first = max(self.line_start, self.start - WIDEST // 2)
        line = shown(self.text[first : min(stop, first + WIDEST)].rstrip(b"\r"))
        before = "".join("\t" if c == "\t" else " " for c in line[: self.start - first])
        before = before.ljust(self.start - first)
        width = max(1, min(self.end, stop, first + WIDEST) - self.start)
        return [f"  {line}", f"  {before}{'^' * width}"]

    def tell(self, words):
        return [f"{self.name}:{self.line}:{self.column}: {words}", *self.marked()]
