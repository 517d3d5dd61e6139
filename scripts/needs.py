"""What tests need beside Python, and marks that leave them out where it is missing."""

import contextlib
import functools
import os
import shutil
import subprocess
import tempfile
import time
import unittest

import kept
import translation

TOP = os.path.dirname(os.path.dirname(os.path.realpath(__file__)))
BUILT = f"{TOP}/crates/pra/out/pra"
OTHER_ROOT = ["unshare", "--user", "--map-root-user", "chroot"]  # a command, before its folder
PATIENCE, LOOK = 30, 0.02  # seconds that a test waits for something, and between two looks


@functools.cache
def program():
    """A compiler: the one that PRA names, what was built, or what is kept unproved, or None."""
    for name in (os.environ.get("PRA"), BUILT):
        if name and os.access(name, os.X_OK):
            return os.path.abspath(name)
    try:
        return kept.program("pra")
    except (OSError, translation.NoAnswer):
        return None


@functools.cache
def has_gcc_32():
    """Whether gcc is there and makes programs of 32 bits."""
    if not shutil.which("gcc"):
        return False
    how = {"input": b"int main(void) { return 0; }", "capture_output": True, "check": False}
    return not subprocess.run(["gcc", "-m32", "-x", "c", "-", "-o", "/dev/null"], **how).returncode


@functools.cache
def has_libc_32():
    """Whether programs of 32 bits with the library of C are made and run here."""
    if not has_gcc_32():
        return False
    text = b"#include <stdio.h>\nint main(void) { return printf(\"\") != 0; }"
    with tempfile.TemporaryDirectory() as room:
        command = ["gcc", "-m32", "-x", "c", "-", "-o", f"{room}/tried"]
        if subprocess.run(command, input=text, capture_output=True, check=False).returncode:
            return False
        with contextlib.suppress(OSError):
            return subprocess.run([f"{room}/tried"], check=False).returncode == 0
    return False


def process_in(name):
    """The number of a process that it writes into a file, which is removed."""
    end = time.monotonic() + PATIENCE
    while time.monotonic() < end:
        with contextlib.suppress(OSError, ValueError), open(name, encoding="utf-8") as file:
            number = int(file.read())
            os.remove(name)
            return number
        time.sleep(LOOK)
    raise TimeoutError(name)


def has_ended(process):
    """Whether a process ends, soon."""
    end = time.monotonic() + PATIENCE
    while time.monotonic() < end:
        try:
            with open(f"/proc/{process}/stat", encoding="utf-8") as file:
                if file.read().rpartition(")")[2].split()[0] == "Z":
                    return True
        except OSError:
            return True
        time.sleep(LOOK)
    return False


@functools.cache
def has_other_root():
    """Whether a call can have a folder as its root, without what the system tells of processes."""
    words = [*OTHER_ROOT, "/", "true"]
    if not all(map(shutil.which, ("unshare", "chroot"))):
        return False
    return not subprocess.run(words, capture_output=True, check=False).returncode


def other_root(test):
    return unittest.skipUnless(has_other_root(), "no call can have another root here")(test)


def compiler(test):
    return unittest.skipUnless(program(), "there is no compiler: ./pra build, or PRA=PROGRAM")(test)


@functools.cache
def takes_code():
    """Whether the compiler takes code files: its line of usage has --from, and it does not read one
    as a module all the same."""
    if not program():
        return False
    how = {"stdin": subprocess.DEVNULL, "capture_output": True, "check": False}
    if b"--from" not in subprocess.run([program()], **how).stderr:
        return False
    with tempfile.NamedTemporaryFile(suffix=".code") as file:
        file.write(b"{}")
        file.flush()
        ran = subprocess.run([program(), "cert", file.name, "--from", "code"], **how)
    return ran.stderr != b"fault bad-byte at 0\n"


def from_code(test):
    reason = "there is no compiler that knows --from: ./pra build, or PRA=PROGRAM"
    return unittest.skipUnless(takes_code(), reason)(test)


def gcc_32(test):
    return unittest.skipUnless(has_gcc_32(), "gcc -m32 makes no program here")(test)


def gcc_libc_32(test):
    reason = "gcc -m32 makes no program with the library of C here (Debian: gcc-multilib)"
    return unittest.skipUnless(has_libc_32(), reason)(test)


def cbc(test):
    return unittest.skipUnless(shutil.which("cbc"), "cbc, the solver of COIN-OR, is not here")(test)


def chromium(test):
    return unittest.skipUnless(shutil.which("chromium"), "the browser chromium is not here")(test)
