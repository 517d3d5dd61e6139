#!/usr/bin/env python3
"""Runs all tests of the scripts.

    [PRA=PROGRAM] tests.py [--module NAME] [WORD ..]

With NAME those of that module alone, and with words those alone whose names have one of them.

Tests stand beside what they try, in files test_*.py, *_tests.py and tests.py. Those that need a
compiler take PROGRAM, the one that was built, or the unproved one that is kept, if it is of these
sources. Those for which something is missing are left out, and a line says why. The last line is
`N passed, N failed`. The status is 0 where none fails, and else 1.
"""

import collections
import contextlib
import glob
import importlib
import os
import signal
import sys
import unittest

import build
import kept
import translation

HERE = os.path.dirname(os.path.realpath(__file__))
PATTERNS = ("test_*.py", "*_tests.py", "*/test_*.py", "*/*_tests.py", "*/tests.py")


def names_of_modules():
    """The names of the modules that hold tests."""
    for pattern in PATTERNS:
        for file in sorted(glob.glob(f"{HERE}/{pattern}")):
            yield os.path.relpath(file, HERE).removesuffix(".py").replace(os.sep, ".")


def each(suite):
    """The tests of a suite, one by one."""
    for it in suite:
        if isinstance(it, unittest.TestSuite):
            yield from each(it)
        else:
            yield it


def compiler():
    """The program that the tests take, or None."""
    built = f"{build.TOP}/crates/{build.COMPILER}/out/{build.COMPILER}"
    with contextlib.suppress(OSError, translation.NoAnswer):
        return built if os.access(built, os.X_OK) else kept.program(build.COMPILER)
    return None


def suite_of(module, words):
    """The tests of a module, or of all, that have one of the words in their names."""
    loader, suite = unittest.defaultTestLoader, unittest.TestSuite()
    for name in [module] if module else names_of_modules():
        for it in each(loader.loadTestsFromModule(importlib.import_module(name))):
            if not words or any(word in it.id() for word in words):
                suite.addTest(it)
    return suite


def main(words):
    # What a shell runs in the background ignores it, and so would all that tests begin.
    signal.signal(signal.SIGINT, signal.default_int_handler)
    sys.path.insert(0, HERE)
    if "PRA" not in os.environ and (program := compiler()):
        os.environ["PRA"] = program
    module = words[1] if words[:1] == ["--module"] else ""
    suite = suite_of(module, words[2:] if module else words)
    if not module and not suite.countTestCases():
        print("there is no such test", file=sys.stderr)
        return 1
    ran = unittest.TextTestRunner(verbosity=1).run(suite)
    for reason, count in collections.Counter(reason for _, reason in ran.skipped).items():
        print(f"left out {count}: {reason}", file=sys.stderr)
    failed = len({it for it, _ in ran.failures + ran.errors})
    print(f"{ran.testsRun - failed - len(ran.skipped)} passed, {failed} failed", flush=True)
    return 0 if ran.wasSuccessful() else 1


if __name__ == "__main__":
    sys.exit(main(sys.argv[1:]))
