"""The tables of tests_layers, read as they stand in its sources."""

import re


def tables(source):
    """The texts of a source's constants, by name."""
    found = re.findall(r'const (\w+): &str = "((?:[^"\\]|\\.)*)";', source, re.DOTALL)
    return {name: re.sub(r"\\\n\s*", "", text) for name, text in found}


def instructions(source):
    """The rows of instructions: their bytes, and how they are printed."""
    rows = [row.split(" ", 1) for row in tables(source)["ROWS"].splitlines()]
    return [(bytes.fromhex(digits), printed) for digits, printed in rows if digits != "#"]
