"""The base class of tests: a folder of its own for each, and a limit on its time."""

import functools
import os
import shutil
import signal
import sys
import tempfile
import time
import unittest
from pathlib import Path

from tests.support.running import take_signals


ROOT = Path(__file__).resolve().parent.parent.parent
# The seconds after which a test fails.
LONGEST = 7200
# Tools begin by the `python3` of the PATH. It is the one that runs the tests, and no script in its
# place that first looks for one, as some machines have it.
if sys.executable and os.path.realpath(shutil.which("python3") or "") != os.path.realpath(
        sys.executable):
    os.environ["PATH"] = f"{os.path.dirname(sys.executable)}:{os.environ.get('PATH', '')}"
# Servers such as nginx are mostly where only the administrator's PATH has them.
FOLDERS = f"{os.environ.get('PATH', '')}:/usr/sbin:/usr/local/sbin"


def program(variable, crate):
    """A program that is tested: that of a variable of the environment, or else what `./office` or
    `rt ci` built.
    """
    built = ROOT / "crates" / crate / "out" / crate
    return Path(os.environ.get(variable) or built).resolve()


PROGRAM = program("OFFICE_PROGRAM", "tally_office")
# The program of `check`, `allot` and `recount` alone.
SMALL_PROGRAM = program("OFFICE_SMALL_PROGRAM", "tally_office_small")


def find(name):
    """The path of a program of this machine, or None."""
    return shutil.which(name, path=FOLDERS)


def needs(*names):
    """Skips a test where one of these programs is missing.

    Chromium needs its driver as well.
    """
    def wrap(test):
        @functools.wraps(test)
        def run(self, *given):
            for name in names:
                for file in ("chromium", "chromedriver") if name == "chromium" else (name,):
                    other = "chromium-browser" if file == "chromium" else file
                    if not find(file) and not find(other):
                        raise unittest.SkipTest(f"{file} is not there")
            return test(self, *given)
        return run
    return wrap


class Cut:
    """A value that is printed in part, where it is long."""

    def __init__(self, value):
        self.value = value

    def __repr__(self):
        text = repr(self.value)
        return text if len(text) <= 300 else f"{text[:200]} .. {text[-60:]}"


def too_long(*_):
    """Ends the suite: `subTest` would catch an assertion, and go on with the next row."""
    raise KeyboardInterrupt("a test takes more than two hours")


class Case(unittest.TestCase):
    """A test that runs in a temporary folder of its own, which is empty when it begins.

    A class of tests of the program sets `of_the_program`. With TIMES=1 the seconds of each test are
    printed.
    """

    maxDiff = None
    of_the_program = False
    prefix = "office-test-"
    # Whether a folder may stay that cannot be removed, as one that a browser still writes in.
    may_leave_files = False

    @classmethod
    def setUpClass(cls):
        super().setUpClass()
        if cls.of_the_program and not os.access(PROGRAM, os.X_OK):
            raise AssertionError(f"no program at {PROGRAM}: ./office builds it")

    def setUp(self):
        super().setUp()
        take_signals()
        if os.environ.get("TIMES"):
            self.addCleanup(self.print_seconds, time.monotonic())
        folder = tempfile.TemporaryDirectory(
            prefix=self.prefix, ignore_cleanup_errors=self.may_leave_files
        )
        self.addCleanup(folder.cleanup)
        self.addCleanup(os.chdir, "/")
        os.chdir(folder.name)
        self.addCleanup(signal.alarm, 0)
        signal.signal(signal.SIGALRM, too_long)
        signal.alarm(LONGEST)

    def print_seconds(self, began):
        print(f"{self._testMethodName} {time.monotonic() - began:.1f} s", flush=True)

    def subTest(self, *words, **row):
        """A row of a table, with the names and values that are printed where it fails."""
        return super().subTest(*words, **{name: Cut(value) for name, value in row.items()})
