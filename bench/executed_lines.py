"""Writes which lines of the scripts each test executes. bench/mutations.py has it run.

Python imports it, as `sitecustomize`, where its folder is in PYTHONPATH: in the tests, and in each
tool that a test starts. Of the scripts below EXECUTED_OF it writes each line once for each test
into a file of its process, in the folder EXECUTED_IN, as soon as it is executed: a server that is
killed has left its lines. A test is known by EXECUTED_BY, which a tool has of the test that started
it. What a suite does outside of its tests, as its imports, stands for the whole suite. A line of a
test has its seconds.
"""

import os
import sys
import threading
import time
from contextlib import suppress
from functools import cache

FOLDER, RESULT = os.environ["EXECUTED_OF"], os.environ["EXECUTED_IN"]
SCRIPTS = tuple(f"{FOLDER}/{name}/" for name in ("deploy", "examples"))
seen, files = set(), {}


def write(*words):
    process = os.getpid()
    # (where a test leaves no room for a file, its tool goes on without)
    with suppress(OSError):
        # (after a fork the process has a file of its own)
        if process not in files:
            files.clear()
            name = f"{RESULT}/{process}-{time.monotonic_ns()}"
            files[process] = os.open(name, os.O_WRONLY | os.O_APPEND | os.O_CREAT, 0o666)
        os.write(files[process], ("\t".join(map(str, words)) + "\n").encode())


@cache
def script(file):
    """The name of a script in the tree, or None."""
    path = os.path.realpath(file)
    return path.removeprefix(f"{FOLDER}/") if path.startswith(SCRIPTS) else None


def of_line(frame, event, _):
    if event == "line":
        line = os.environ["EXECUTED_BY"], script(frame.f_code.co_filename), frame.f_lineno
        if line not in seen:
            seen.add(line)
            write("line", *line)
    return of_line


def of_call(frame, event, _):
    return of_line if script(frame.f_code.co_filename) else None


def named_tests():
    """Has each test of this suite written down, and what it executes under its name."""
    from unittest import TestCase
    run_alone = TestCase.run

    def run(case, result=None):
        suite, os.environ["EXECUTED_BY"] = os.environ["EXECUTED_BY"], case.id()
        began = time.monotonic()
        try:
            return run_alone(case, result)
        finally:
            os.environ["EXECUTED_BY"] = suite
            write("test", case.id(), round(time.monotonic() - began, 2))

    TestCase.run = run


# (a suite that a test starts is of that test)
if "unittest" in sys.orig_argv and "EXECUTED_BY" not in os.environ:
    # The name of the suite is the last word of `python3 -m unittest`.
    os.environ["EXECUTED_BY"] = sys.orig_argv[-1]
    named_tests()
if "EXECUTED_BY" in os.environ:
    sys.settrace(of_call)
    threading.settrace(of_call)
