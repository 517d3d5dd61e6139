"""How the scripts write files and output: whole, or not at all and never silently.

A file is made beside the one that it replaces, under a name of its own, and then renamed. So an old
file stays whole until the new one is, and calls at once can't mix what they write. A file that the
call has read is never written over, whatever its path is and through all links. Standard output
that is closed or full is a fault of the call, and standard error that is so is left alone.
"""

import contextlib
import io
import os
import secrets
import stat
import sys

FAULT = 5  # the status where a file or a stream failed
OUT, NOTES = 1, 2  # streams


class WriteFault(Exception):
    """A file, or standard output, that could not be written; its text is what notes say."""


# ---- files


def refuse(why):
    raise WriteFault(f"fault write file\npra: {why}")


def found_at(name):
    """What a name stands for, through all links, or None."""
    try:
        return os.stat(name)
    except (OSError, ValueError):
        return None


def is_one_of(found, names):
    """Whether one of the names stands for this file."""
    return any(it and os.path.samestat(found, it) for it in map(found_at, names))


def check(name, read=()):
    """WriteFault where a name can't be that of a file to be written by a call that reads the files
    of those names; gives what it stands for, or None."""
    if os.path.basename(name) in ("", ".", ".."):
        refuse(f"{name!r} is no name of a file")
    found = found_at(name)
    if found and stat.S_ISDIR(found.st_mode):
        refuse(f"{name} is a folder")
    if found and is_one_of(found, read):
        refuse(f"{name} is read by this call, and is not written over")
    return found


def write_beside(target, data, old, is_program):
    """Puts a file with these bytes in the place of an old one, or where there is none."""
    part = f"{os.path.dirname(target)}/.pra-{secrets.token_hex(8)}.part"
    how = os.O_WRONLY | os.O_CREAT | os.O_EXCL | os.O_CLOEXEC
    with open(os.open(part, how, 0o777 if is_program else 0o666), "wb") as file:
        try:
            if old:
                mode = stat.S_IMODE(old.st_mode)
                os.fchmod(file.fileno(), mode | (mode & 0o444) >> 2 if is_program else mode)
            file.write(data)
            file.flush()
            os.rename(part, target)
        except BaseException:
            with contextlib.suppress(OSError):
                os.remove(part)
            raise


def write(name, data, read=(), is_program=False):
    """Makes a file hold these bytes. `read` names the files that the call has read. WriteFault
    where it can't be done; the old file is then as it was, if it is a regular one."""
    old = check(name, read)
    try:
        if old:  # (where that may not be written, its folder might still let it be replaced)
            with open(os.open(name, os.O_WRONLY | os.O_CLOEXEC), "wb") as file:
                if not stat.S_ISREG(old.st_mode):
                    file.write(data)
                    return
        write_beside(os.path.realpath(name), data, old, is_program)
    except (OSError, ValueError) as error:
        refuse(f"{name}: {getattr(error, 'strerror', None) or error}")


# ---- streams


class Stream(io.RawIOBase):
    """A stream of the system to write to. Once it fails it takes everything, so that what Python
    writes at its end does not fail again; where it is the output this is a fault."""

    def __init__(self, number):
        self.number, self.has_failed = number, False

    def fileno(self):
        return self.number

    def isatty(self):
        return os.isatty(self.number)

    def writable(self):
        return True

    def write(self, data):
        if not self.has_failed:
            try:
                return os.write(self.number, data)
            except OSError as error:
                self.has_failed = True
                if self.number == OUT:
                    raise WriteFault("fault write out") from error
        return len(data)


def keep_closed_streams(*streams):
    """Has the use of a stream that is closed fail, whatever file is opened later: reads of standard
    input and writes to the others."""
    for number in streams or (0, OUT, NOTES):
        try:
            os.fstat(number)
        except OSError:
            flags = os.O_RDONLY if number in (OUT, NOTES) else os.O_WRONLY
            os.dup2(os.open(os.devnull, flags), number)


def text_stream(number):
    raw = Stream(number)
    errors = "surrogateescape" if number == OUT else "backslashreplace"
    how = {"encoding": "utf-8", "errors": errors, "line_buffering": number == NOTES or raw.isatty()}
    return io.TextIOWrapper(io.BufferedWriter(raw), **how)


def take_streams():
    """Has Python's output and notes be streams whose failure is told, or is none."""
    keep_closed_streams()
    sys.stdout, sys.stderr = text_stream(OUT), text_stream(NOTES)


def status_of(call):
    """The exit status of a call that writes files and output."""
    try:
        status = call()
        sys.stdout.flush()
        return status
    except WriteFault as fault:
        print(fault, file=sys.stderr)
        return FAULT
