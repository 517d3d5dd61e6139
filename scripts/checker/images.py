"""What is wrong with an image file, or with the text of one, in words."""

import re

from checker.instructions import NoInstruction, decode, encode

HEAD = 16  # bytes in front of the code
MAGIC = b"PRAI"
VERSION = 1
MOST_CODE = 41943040  # bytes
MOST_DATA = 4194304  # words
MOST_IMAGE, MOST_LISTING = HEAD + MOST_CODE, 67108864  # bytes
LINE = re.compile(r"([0-9a-f]{8}) (\S.*)")


def visible(line, most=100):
    """A line as a person sees it."""
    shown = "".join(c if 32 <= ord(c) < 127 else f"\\x{ord(c):02x}" for c in line[:most])
    return f"  {shown}" + ("..." if len(line) > most else "")


def head_reason(data):
    """What is wrong with the head of an image, and at which byte; or None."""
    if len(data) < HEAD:
        return 0, f"an image has a head of {HEAD} bytes, and the file has {len(data)}"
    version, length, words = (int.from_bytes(data[at : at + 4], "little") for at in (4, 8, 12))
    if data[:4] != MAGIC:
        return 0, f"an image begins with the bytes PRAI, and here is {data[:4].hex(' ')}"
    if version != VERSION:
        return 4, f"the version is {version}, and {VERSION} is known"
    if not 1 <= length <= MOST_CODE:
        return 8, f"the code is told to have {length} bytes, and may have 1 to {MOST_CODE}"
    if HEAD + length != len(data):
        return 8, f"the code is told to have {length} bytes, and {len(data) - HEAD} are there"
    if words > MOST_DATA:
        return 12, f"there are {words} data words, and at most {MOST_DATA} may be"
    return None


def image_lines(name, data):
    """What is wrong with an image: its head, or the first place where no instruction begins."""
    found = head_reason(data)
    if found:
        return [f"{name}, byte {found[0]}: {found[1]}"]
    code, at, before = data[HEAD:], 0, None
    while at < len(code):
        try:
            text, size = decode(code, at)
        except NoInstruction as error:
            shown = code[at : at + 8].hex(" ")
            behind = f", behind `{before}`" if before else ""
            where = f"byte {at} of the code, {HEAD + at} of the file{behind}"
            return [f"{name}, {where}: no instruction begins with {shown}: {error}"]
        at, before = at + size, text
    return []


def first_line_reason(line):
    found = re.fullmatch(r"data (0|[1-9][0-9]*)", line)
    if not found:
        return "the first line is `data N`, with the number of data words"
    if len(found[1]) > 7 or int(found[1]) > MOST_DATA:
        return f"at most {MOST_DATA} data words may be"
    return None


def instruction_line(line, place):
    """The bytes of a line that has to stand at a place of the code."""
    found = LINE.fullmatch(line)
    if not found:
        raise NoInstruction(
            "a line is a place of eight hexadecimal digits in small letters, a blank and an "
            "instruction"
        )
    if int(found[1], 16) != place:
        raise NoInstruction(f"this instruction stands at {place:08x}")
    code = encode(found[2], place)
    written = text_of(code, place)
    if written != found[2]:
        raise NoInstruction(f"this instruction is written `{written}`")
    return code


def text_of(code, place):
    """The text of an instruction's bytes at a place."""
    text, _ = decode(code, 0)
    name, _, rest = text.partition(" ")
    if re.fullmatch(r"[0-9a-f]{8}", rest):  # a target counts from the place
        rest = f"{int(rest, 16) + place & 0xFFFFFFFF:08x}"
    return f"{name} {rest}".rstrip()


def listing_lines(name, data):
    """What is wrong with the text of an image: its first line that is none."""
    lines = data.decode("latin-1").split("\n")
    ended, open_line = lines[:-1], lines[-1]
    wrong = first_line_reason(lines[0])
    if wrong:
        return [f"{name}:1:1: {wrong}", visible(lines[0])]
    if len(lines) == 1:
        return [f"{name}:1:1: the line has no end"]
    place = 0
    for number, line in enumerate(ended[1:], 2):
        try:
            place += len(instruction_line(line, place))
        except NoInstruction as error:
            return [f"{name}:{number}:1: {visible(str(error)).strip()}", visible(line)]
    if open_line:
        return [f"{name}:{len(lines)}:1: the last line has no end", visible(open_line)]
    if len(ended) == 1:
        return [f"{name}:1:1: no instruction follows the first line"]
    return []
