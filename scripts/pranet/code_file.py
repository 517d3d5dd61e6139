"""Code files: the selected code of procedures by itself, as front ends of others hand it over.

A code file has of each procedure what a certificate has as its code, and a name, and it has the
number of data words. What speaks against one is told by checker/code_files.py.
"""

import json
import re
from dataclasses import dataclass

from pranet.certificate import code_of, code_value

KIND, VERSION = "pra-code", 1
MOST_BYTES = 16777216
MOST_DATA = 4194304  # words
MOST_PROCEDURES = 65536
MOST_NAME = 255  # bytes
NAME = re.compile("[A-Za-z][A-Za-z0-9]*")
MARK = re.compile(rb'"kind"\s*:\s*"pra-code"')
BLANKS = b" \t\n\r"


@dataclass
class CodeFile:
    data_words: int
    names: list  # of the procedures
    procedures: list


def begins_with_brace(data):
    """Whether a text is a certificate or a code file, and no module, by its first byte."""
    return data.lstrip(BLANKS)[:1] == b"{"


def is_code(data):
    """Whether a text is a code file, by its first byte and its kind. Of one that is no JSON, what
    looks like the kind tells it."""
    if not begins_with_brace(data):
        return False
    try:
        return json.loads(data).get("kind") == KIND
    except (ValueError, RecursionError):
        return MARK.search(data) is not None


def holds_code(name):
    """Whether a file is a code file; one that can't be read is none."""
    try:
        with open(name, "rb") as file:
            first = file.read(1 << 10)
            return (not first.strip(BLANKS) or begins_with_brace(first)) and is_code(
                first + file.read()
            )
    except (OSError, ValueError):
        return False


def of_value(value):
    """The code file of a JSON value that has its form."""
    procedures = [code_of(it, number) for number, it in enumerate(value["procs"])]
    return CodeFile(value["data_words"], [it["name"] for it in value["procs"]], procedures)


def write(code):
    """The text of a code file: one line, with sorted keys."""
    pairs = zip(code.procedures, code.names, strict=True)
    procedures = [code_value(it) | {"name": name} for it, name in pairs]
    value = {"data_words": code.data_words, "kind": KIND, "procs": procedures, "version": VERSION}
    return json.dumps(value, sort_keys=True, separators=(",", ":")) + "\n"


# ---- of certificates


def data_addresses(procedures):
    """The addresses of data words, each with its instruction's name."""
    for procedure in procedures:
        for block in procedure.blocks:
            for op, *operands in block.code:
                for it in operands:
                    if isinstance(it, list) and it[0] == "global":
                        yield op, it


def least_data(procedures):
    """How many data words there are at least, by addresses without what their indexes add."""
    ends = [4 * number + offset + 4 for _, (_, number, offset, _) in data_addresses(procedures)]
    return min(MOST_DATA, -(-max([0, *ends]) // 4))


def may_need_more(procedures):
    """Whether some data words may be reached that no address names: by an index, or by an address
    that is kept."""
    addresses = data_addresses(procedures)
    return any(index is not None or op == "addr" for op, (*_, index) in addresses)


def of_procedures(procedures, data_words=None):
    """The code file of a certificate's procedures, which have no names there."""
    names = [f"P{it.number}" for it in procedures]
    words = least_data(procedures) if data_words is None else data_words
    return CodeFile(words, names, procedures)
