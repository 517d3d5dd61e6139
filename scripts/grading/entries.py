"""What is handed in: the texts of certificates, from files or from a command that makes them."""

import contextlib
import os
import resource
import shlex
import signal
import subprocess
import tempfile
from dataclasses import dataclass

import stopped
from pranet.compiler import ANY_BYTES

ENDINGS = (".ob", ".cert", ".code")  # of files that are handed out
MOST_WRITTEN = 1 << 28  # bytes in a file of a command, its output among them


@dataclass
class Entry:
    """What was handed in for a module: the text of a certificate, or a word why there is none and
    the reason."""

    text: str = ""
    fault: str = ""
    reason: str = ""


@dataclass
class Student:
    """Who hands in: a name, and the folder that has the certificates or in which the command is."""

    name: str
    folder: str | None


def students_of(folder):
    """Each folder in a folder, by name, or that folder itself where it has none."""
    if folder is None:
        return [Student("", None)]
    names = sorted(it.name for it in os.scandir(folder) if it.is_dir() and it.name[0] not in "._")
    return [Student(it, f"{folder}/{it}") for it in names] or [Student("", folder)]


def module_name(file):
    """What a module is called in tables, and a certificate of it in folders."""
    name, ending = os.path.splitext(os.path.basename(file))
    return name if ending in ENDINGS else name + ending


def certificate_name(folder, file):
    """The name of the certificate that a folder has for a module."""
    return f"{folder}/{module_name(file)}.cert"


def entry_of_folder(folder, file):
    try:
        with open(certificate_name(folder, file), encoding="utf-8", errors=ANY_BYTES) as text:
            return Entry(text.read())
    except OSError as error:
        return Entry(fault="missing", reason=f"{module_name(file)}.cert: {error.strerror}")


# ---- commands


def prepared():
    """What a command does before it begins: it ends with this call, and writes no endless file."""
    ends = stopped.ends_with_parent(signal.SIGKILL)

    def prepare():
        resource.setrlimit(resource.RLIMIT_FSIZE, (MOST_WRITTEN, MOST_WRITTEN))
        ends()

    return prepare


def ended(process, seconds):
    """Whether a command ended by itself in so many seconds. It and all that it began is ended."""
    try:
        process.wait(seconds)
        return True
    except subprocess.TimeoutExpired:
        return False
    finally:
        with contextlib.suppress(ProcessLookupError):
            os.killpg(process.pid, signal.SIGKILL)


def read_back(file):
    file.seek(0)
    return file.read().decode(errors=ANY_BYTES)


def last_line(text):
    return (text.strip().splitlines() or [""])[-1].encode(errors="replace").decode()


def entry_of_command(command, problem, seconds, folder=None):
    """What a command makes of a problem, called in a folder if one is given."""
    with contextlib.ExitStack() as files:
        given, out, notes = (files.enter_context(tempfile.TemporaryFile()) for _ in range(3))
        given.write(problem.encode())
        given.seek(0)
        how = {"stdin": given, "stdout": out, "stderr": notes, "cwd": folder}
        how |= {"start_new_session": True, "preexec_fn": prepared()}
        try:
            with subprocess.Popen(shlex.split(command), **how) as process:
                is_ended = ended(process, seconds)
        except OSError as error:
            return Entry(fault="no answer", reason=f"{command}: {error.strerror}")
        if not is_ended:
            return Entry(fault="too slow", reason=f"no answer in {seconds} seconds")
        if process.returncode:
            told = f"status {process.returncode} {last_line(read_back(notes))}".rstrip()
            return Entry(fault="no answer", reason=told)
        return Entry(read_back(out))
