"""A call of the compiler in a folder of its own, and whether it left what its row says."""

import contextlib
import dataclasses
import os
import subprocess
import tempfile

from calls import texts
from calls.reader import FILE

FULL = "/dev/full"  # to which nothing can be written
SHOWN = 400  # bytes of a text that a complaint shows


@dataclasses.dataclass
class Left:
    """What a call left."""

    status: int
    out: bytes
    notes: bytes
    rest: bytes  # of the input
    files: dict  # the bytes of each file that is there and was not


def files_of(room, given):
    """The files of a folder, but for those that are as they were given."""
    found = {}
    for name in os.listdir(room):
        with contextlib.suppress(IsADirectoryError), open(f"{room}/{name}", "rb") as file:
            held = file.read()
            if given.get(name) != held:
                found[name] = held
    return found


def lay(room, files, fails):
    """Writes files into a folder. What is to fail is a folder by its name."""
    for name, held in files.items():
        if name not in fails:
            with open(f"{room}/{name}", "wb") as file:
                file.write(held)
    for name in fails:
        if name not in ("input", "out", "notes"):
            os.mkdir(f"{room}/{name}")


@contextlib.contextmanager
def streams(room, given, fails):
    """The input of a call, and where what it writes goes."""
    with contextlib.ExitStack() as opened:
        if "input" in fails:
            source = os.open(room, os.O_RDONLY)  # a folder, of which no read is answered
            opened.callback(os.close, source)
        else:
            source = opened.enter_context(tempfile.TemporaryFile())
            source.write(given)
            source.seek(0)
        sinks = [
            opened.enter_context(open(FULL, "wb")) if it in fails else subprocess.PIPE
            for it in ("out", "notes")
        ]
        yield source, sinks


def left_by(program, words, files, given=b"", fails=()):
    """Calls a program in a new folder that has these files."""
    with tempfile.TemporaryDirectory(prefix="pra-call-") as room:
        lay(room, files, fails)
        with streams(room, given, fails) as (source, (out, notes)):
            how = {"stdin": source, "stdout": out, "stderr": notes, "cwd": room, "check": False}
            ran = subprocess.run([program, *words], **how)
            rest = given if "input" in fails else given[source.tell() :]
        written = ran.stdout or b"", ran.stderr or b""
        return Left(ran.returncode, *written, rest, files_of(room, files))


def shown(text):
    """A text, or both its ends, for a complaint."""
    if len(text) > 2 * SHOWN:
        text = text[:SHOWN] + b" .. " + text[-SHOWN:]
    return text.decode(errors="backslashreplace")


def compared(name, wanted, found):
    """A complaint where a text is another one."""
    if not texts.fits(wanted, found):
        yield f"{name}: wanted\n{shown(wanted)}\nfound\n{shown(found)}"


def compared_files(call, found):
    """A complaint for each file that should be another one, or not be there."""
    for name in sorted({*call.files, *found}):
        if (name in found) != (name in call.files):
            yield f"{name} is {'left' if name in found else 'missing'}"
        elif call.files[name] not in (None, len(found[name])):
            yield f"{name} has {len(found[name])} bytes, and not {call.files[name]}"
    first = next(iter(call.files), None)
    if call.text is not None and first in found:
        yield from compared(first, call.text, found[first])


def complaints(call, left):
    """What a call left otherwise than its row says."""
    if left.status != call.status:
        yield f"status {left.status}, and not {call.status}"
    yield from compared("out", call.out, left.out)
    yield from compared("notes", call.notes, left.notes)
    yield from compared("left", call.rest, left.rest)
    yield from compared_files(call, left.files)
    image = left.files.get(image_name(call.words))
    if call.image is not None and image not in (None, call.image):
        yield f"image {image.hex()}"


def image_name(words):
    """The name of the image that words ask for."""
    return value_of(words, "--image", "out.pri")


def value_of(words, option, default):
    """The value of an option among words."""
    for word, following in zip(words, [*words[1:], ""]):
        if word == option:
            return following
        if word.startswith(f"{option}="):
            return word.partition("=")[2]
    return default


def source_of(call):
    """The files that a call is given."""
    return {FILE: call.source}


def made(program, call):
    """Makes the call of a row."""
    return left_by(program, call.words, source_of(call), call.given, call.fails)
