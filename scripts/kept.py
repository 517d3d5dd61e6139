"""The programs that are kept of crates of which nothing need be proved, in .unproved/ of this
checkout: under the sum of the sources and of the kit that they were made of. One build goes on at a
time; others wait for it.

    kept.py NAME COUNT CRATE WORD ..    makes one in COUNT parts, for a caller that has the right to

The program of a crate's tests is kept as CRATE.tests, and that of a crate as CRATE.
"""

import contextlib
import functools
import glob
import hashlib
import os
import shutil
import subprocess
import sys
import tempfile

import build
import stopped
import translation

KEPT = f"{build.TOP}/.unproved"  # the programs, their sums, and the folders of a build
ROOM = "build-"  # how the names of those folders begin
NO_ANSWER = 70  # the status where none can be made
MOST_PARTS = 8  # in which a translation is compiled side by side
# Of the compiler, which is no test: a call that lasts while the program is taken from where rt try
# has made it, and writes nothing.
LASTING = "--", "compile", f"{build.TOP}/examples/matrix.ob", "--rounds", "1000"
LASTING += "--image", "/dev/null"


def is_newer(path, time_of_sum):
    """Whether anything of the sources below a folder, or a folder of them, is newer."""
    with os.scandir(path) as entries:
        for it in entries:
            if it.name == "out":
                continue
            if it.stat().st_mtime_ns > time_of_sum:
                return True
            if it.is_dir() and is_newer(it.path, time_of_sum):
                return True
    return False


def has_changed(time_of_sum):
    """Whether sources or kit may be other ones than at that time."""
    crates = f"{build.TOP}/crates"
    files = f"{build.TOP}/crates.txt", crates, translation.kit()
    return any(os.stat(it).st_mtime_ns > time_of_sum for it in files) or is_newer(
        crates, time_of_sum
    )


@functools.cache
def version():
    return subprocess.run(["rt", "version"], capture_output=True, check=True).stdout


def sum_of(name):
    """A sum of the sources of a crate, and of those below it, and of the kit's version."""
    sources = build.sum_of_sources(name).encode()
    return hashlib.sha256(sources + b"\n" + version()).hexdigest()


def program(name):
    """The kept program of a crate, if it is one of these sources by this kit."""
    file = f"{KEPT}/{name}.sum"
    try:
        with open(file, encoding="utf-8") as text:
            known = text.read().strip()
        time_of_sum = os.stat(file).st_mtime_ns
    except OSError:
        return None
    found = f"{KEPT}/{name}-{known[:16]}"
    if not os.access(found, os.X_OK):
        return None
    if has_changed(time_of_sum):
        if sum_of(name.partition(".")[0]) != known:
            return None
        os.utime(file)
    return found


def hand_in(made, name, total, room):
    """Keeps a program under its sum, and removes what was kept before; tells where it is. Each step
    is whole, so that calls at once don't see half of one."""
    found = f"{KEPT}/{name}-{total[:16]}"
    with open(f"{room}/sum", "w", encoding="utf-8") as file:
        print(total, file=file)
    os.rename(made, found)
    os.rename(f"{room}/sum", f"{KEPT}/{name}.sum")
    for old in glob.glob(f"{KEPT}/{name}-*"):
        if old != found:
            with contextlib.suppress(OSError):
                os.remove(old)
    return found


def clear():
    """Removes what builds have left that were killed. No build goes on but that of the caller."""
    for it in glob.glob(f"{KEPT}/{ROOM}*"):
        shutil.rmtree(it, ignore_errors=True)


@contextlib.contextmanager
def one_build(if_waiting):
    """The right to build, once each build before has ended, however it did; calls if_waiting where
    one goes on. Ends with this process at the latest."""
    os.makedirs(KEPT, exist_ok=True)
    with stopped.turn(f"{KEPT}/lock", if_waiting):
        clear()
        yield


def processors():
    return len(os.sched_getaffinity(0))


def make(name, count, crate, words):
    """Makes a program of a crate, by those words of rt try and in so many parts at once, and keeps
    it under a name; the caller has the right to build."""
    total = sum_of(crate)
    with tempfile.TemporaryDirectory(prefix=ROOM, dir=KEPT) as room:
        made = translation.make(room, crate, words, min(count, MOST_PARTS))
        return hand_in(made, name, total, room)


def make_compiler():
    return make(build.COMPILER, processors(), build.COMPILER, LASTING)


def main(name, count, crate, *words):
    try:
        print(make(name, int(count), crate, words))
    except (translation.NoAnswer, OSError, subprocess.CalledProcessError) as error:
        print(f"pra: {name} can't be made: {error}", file=sys.stderr)
        return NO_ANSWER
    return 0


if __name__ == "__main__":
    sys.exit(stopped.status_of(lambda: main(*sys.argv[1:])))
