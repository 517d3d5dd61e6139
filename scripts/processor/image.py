"""Image files, and where the procedures of a compiled image begin."""

import re
import struct

MAGIC, VERSION = 0x4941_5250, 1
HEADER = struct.Struct("<4I")  # magic, version, bytes of code, words of data
MAX_CODE_BYTES, MAX_DATA_WORDS = 41943040, 4194304
MAX_FILE_BYTES = HEADER.size + MAX_CODE_BYTES
TOO_MUCH, BROKEN = 4, 3  # statuses

# How each procedure of a compiled image begins: PUSH EBP; MOV EBP, ESP; CMP EBP, the lowest place
# of its frame; JB to the stub of the trap Stack; PUSH EBX; PUSH ESI; PUSH EDI.
PROLOGUE = re.compile(rb"\x55\x89\xe5\x81\xfd.{4}\x0f\x82(.{4})\x53\x56\x57", re.DOTALL)
BEHIND_BRANCH = 15  # from a procedure's first byte to the end of that JB
STACK_STUB = 21
PROCEDURE_LINE = re.compile(r"procedure \d+ (\w+) frame \d+", re.ASCII)


class Refused(Exception):
    """The line that a call ends with, and its status."""

    def __init__(self, status, line):
        super().__init__(line)
        self.status = status


class Image:
    def __init__(self, code, data_words):
        self.code, self.data_words = code, data_words

    def to_bytes(self):
        return HEADER.pack(MAGIC, VERSION, len(self.code), self.data_words) + self.code

    def begins(self):
        """Where its procedures begin, if it is a compiled one."""
        found = []
        for it in PROLOGUE.finditer(self.code):
            distance = int.from_bytes(it[1], "little", signed=True)
            if it.start() + BEHIND_BRANCH + distance == STACK_STUB:
                found.append(it.start())
        return found


def broken_field(data):
    """The first field of an image file that breaks its rule, with its place, or None."""
    if len(data) < HEADER.size:
        return "Length", 0
    magic, version, code_bytes, data_words = HEADER.unpack_from(data)
    if magic != MAGIC:
        return "Magic", 0
    if version != VERSION:
        return "Version", 4
    if not 1 <= code_bytes <= MAX_CODE_BYTES or len(data) != HEADER.size + code_bytes:
        return "CodeLength", 8
    if data_words > MAX_DATA_WORDS:
        return "DataWords", 12
    return None


def image_of(data):
    """The image that a file's bytes hold; else Refused, with the line that `list` has."""
    if len(data) > MAX_FILE_BYTES:
        count = MAX_FILE_BYTES + 1
        raise Refused(TOO_MUCH, f"limit image count {count} maximum {MAX_FILE_BYTES}")
    broken = broken_field(data)
    if broken:
        raise Refused(BROKEN, f"fault image {broken[0]} at {broken[1]}")
    return Image(data[HEADER.size :], HEADER.unpack_from(data)[3])


def names_in(report):
    """The names of the procedures that a report of the compiler tells."""
    return PROCEDURE_LINE.findall(report)


def symbols(image, names):
    """A name for each procedure of an image, with its place and size; no two names are one."""
    begins = image.begins()
    if len(names) != len(begins):
        names = [f"procedure_{number}" for number in range(len(begins))]
    count, found = {}, []
    for name, begin, end in zip(names, begins, [*begins[1:], len(image.code)]):
        count[name] = count.get(name, 0) + 1
        unique = name if count[name] == 1 else f"{name}.{count[name]}"
        found.append((unique, begin, end - begin))
    return found
