"""How a script ends that is stopped from outside: as an exception that it meets where it is, so
that what it has called ends with it and its files are removed, and without a trace at Ctrl-C."""

import contextlib
import ctypes
import fcntl
import os
import signal
import subprocess
import sys

import writing

SIGNALS = (signal.SIGTERM, signal.SIGHUP)
PR_SET_PDEATHSIG = 1  # of prctl: the signal that a process has when its parent ends


def by_signals():
    """Has the signals that stop a script be exceptions. One that is ignored stays so."""
    for number in SIGNALS:
        if signal.getsignal(number) != signal.SIG_IGN:
            signal.signal(number, lambda number, _: sys.exit(128 + number))


def ends_with_parent(number=signal.SIGKILL):
    """What a child does before its program begins, so that it ends when its parent does, however
    that ends: as preexec_fn of a Popen, in a thread that lasts as long as the child."""
    system, parent = ctypes.CDLL(None), os.getpid()

    def prepare():
        system.prctl(PR_SET_PDEATHSIG, int(number))
        if os.getppid() != parent:
            os._exit(128 + number)

    return prepare


def end_session(process, number=signal.SIGTERM):
    """Ends all that is left of the session that a process began."""
    with contextlib.suppress(ProcessLookupError):
        os.killpg(process.pid, number)


@contextlib.contextmanager
def session(command, **how):
    """A command in a session of its own, which is told to end when this block does, or this
    process, however that ends."""
    ending = {"stdin": subprocess.PIPE, "stdout": subprocess.DEVNULL, "stderr": subprocess.DEVNULL}
    how.update(start_new_session=True, preexec_fn=ends_with_parent(signal.SIGTERM))
    with subprocess.Popen(command, **how) as it:
        # (reads the end of a pipe of this process alone, once it has ended)
        words = ["sh", "-c", 'read _; kill -TERM -- "-$1"', "sh", str(it.pid)]
        with subprocess.Popen(words, start_new_session=True, **ending) as watcher:
            try:
                yield it
            finally:
                watcher.kill()
                end_session(it)


@contextlib.contextmanager
def turn(file, if_waiting):
    """The turn of this process, where one at a time has it: by a lock on a file, which ends with
    the process at the latest. Calls if_waiting where another one has it."""
    with open(file, "ab") as lock:
        try:
            fcntl.flock(lock, fcntl.LOCK_EX | fcntl.LOCK_NB)
        except BlockingIOError:
            if_waiting()
            fcntl.flock(lock, fcntl.LOCK_EX)
        yield


def status_of(call):
    """The exit status of a call; that of the signal where one stops it, and 5 where its output, or
    a file, can't be written."""
    by_signals()
    writing.take_streams()
    try:
        return writing.status_of(call)
    except KeyboardInterrupt:
        return 128 + signal.SIGINT
