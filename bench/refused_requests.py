#!/usr/bin/env python3
"""Refuses a keeper in memory its memory, once at each place where it asks for some.

Two tests of the crate `tally_test_core` ask the requests of scripts, and import texts of returns. The library of
`refused_memory.py` refuses a test the first request for memory, then in another run the second, and so on through all
that a run with ample memory makes. A request to the office is then refused with 22, or an import with fault 4, the
keeper shows the same as before, and what was refused gets its own answer when it is asked once more; or there is no
such refusal, and all answers are those that are given with ample memory. Where the test itself is refused what it
needs, to read a setup, to make the requests or to write an answer as text, it fails for that.

    bench/refused_requests.py [--program FILE] [--every N]

The tests are those that `rt ci` built, or `rt test tally_test_core`; they are skipped where neither was run. With
`--every N` only every Nth request for memory is refused. A C compiler is needed, as `cc`. The last line is `N passed, M
failed, K skipped`: tests, or the script where it is skipped.
"""

import argparse
import os
import sys
import tempfile
from collections import Counter
from pathlib import Path

# The modules imported from here are not to be left beside it in compiled form.
sys.dont_write_bytecode = True
from building import ROOT
from refused_memory import WHOLE, NotPromised, Runs, each_judged, ended, has_no_compiler, library_in, requests_refused

PROGRAM = ROOT / "crates/tally_test_core/out/tally_test_core_tests"

# The tests by name.
TESTS = {
    "scripts of requests": "requests::requests_have_their_answers",
    "imports": "imports::imports_come_to_what_they_do",
}

# The lines that a test writes of what was refused its memory, and once it has passed.
REFUSED = b"refused: "
PASSED = b"test result: ok"

# Why a test fails that is refused memory itself.
OWN_ERRORS = {
    b'error: "a setup"',
    b"error: AllocError",
    b"error: AllocFailed { .. }",
    b"error: Kind(OutOfMemory)",
    b"no memory to ask it the same",
    b"no memory to show it",
}


def refuse_each(runs, every, command):
    """The outcomes of the refusals, in words."""
    asked, ample = runs.run(command, b"", WHOLE, WHOLE)
    if not asked or outcome(ample) != "did without":
        raise NotPromised(f"with ample memory the answer is {ample}, after {asked} requests")
    came = Counter()
    for at in range(1, asked + 1, every):
        count, answer = runs.run(command, b"", at, at)
        if count is None or count < at:
            raise NotPromised(f"request {at} for memory was not made, or the test was killed: {answer}")
        what = outcome(answer)
        if what is None:
            raise NotPromised(f"with request {at} for memory refused the answer is {answer}")
        came[what] += 1
    counts = ", ".join(f"{what}: {count}" for what, count in sorted(came.items()))
    if not came["refused"]:
        raise NotPromised(f"nothing was refused its memory; {counts}")
    return f"{requests_refused(came.total(), asked)}; {counts}"


def outcome(answer):
    """The outcome of a refusal; nothing where it is not allowed."""
    status, output, error = answer
    lines = output.split(b"\n")
    refused = sum(line.startswith(REFUSED) for line in lines)
    if (status, error) == (0, b"") and PASSED in lines and refused <= 1:
        return "refused" if refused else "did without"
    if status == 101 and error.split(b"\n")[0] in OWN_ERRORS and not refused:
        return "the test's own"
    return None


def main():
    words = argparse.ArgumentParser(description=__doc__.splitlines()[0])
    words.add_argument("--program", type=Path, default=PROGRAM, help="the program of the tests, as it was built before")
    words.add_argument("--every", type=int, default=1, metavar="N", help="refuse only every Nth request")
    given = words.parse_args()
    if has_no_compiler():
        return ended(0, 0, 1)
    if not os.access(given.program, os.X_OK):
        print(f"skipped: no program of the tests at {given.program}: rt test tally_test_core builds it")
        return ended(0, 0, 1)
    with tempfile.TemporaryDirectory() as folder:
        runs = Runs(library_in(folder))
        program = str(given.program.resolve())
        return ended(*each_judged(TESTS.items(), lambda test: refuse_each(runs, given.every, [program, test])))


if __name__ == "__main__":
    sys.exit(main())
