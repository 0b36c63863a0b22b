#!/usr/bin/env python3
"""Tries examples/recount.py beside the office, on random polls with lots of each kind.

    bench/recount_beside.py --polls 20000
    bench/recount_beside.py --polls 400 --seed 7 --program crates/tally_office/out/tally_office

Each poll is a constituency of an office, by one of the four rules. The office is asked to draw a
lot at random, to certify without a lot, and to draw the lists that it names. Then a recount of the
returns and of the database is given the same lots: it has to say what the office answered. The last
line is 'N polls, M differ', and the exit status is 1 if any differs.
"""

import argparse
import os
import sys
import tempfile
import time
from collections import Counter
from pathlib import Path

ROOT = Path(__file__).resolve().parent.parent
sys.path.insert(0, str(ROOT))
sys.dont_write_bytecode = True
# As many constituencies as a setup can have.
IN_AN_OFFICE = 200


def tried(count, seed):
    """The polls of one office, and what differs."""
    from tests.support.recounts import batch, kinds_of

    with tempfile.TemporaryDirectory() as folder:
        os.chdir(folder)
        polls, differs = batch(seed, count)
        os.chdir("/")
    methods = Counter(poll.rule["method"] for poll in polls)
    return kinds_of(polls) + methods, differs


def main():
    command = argparse.ArgumentParser(
        description=__doc__, formatter_class=argparse.RawDescriptionHelpFormatter
    )
    command.add_argument("--polls", type=int, default=2000)
    command.add_argument("--seed", type=int, default=1)
    command.add_argument("--program", type=Path, help="the office; otherwise the one that is built")
    given = command.parse_args()
    if given.program:
        os.environ["OFFICE_PROGRAM"] = str(given.program.resolve())
    began, kinds, wrong = time.monotonic(), Counter(), 0
    for first in range(0, given.polls, IN_AN_OFFICE):
        count = min(IN_AN_OFFICE, given.polls - first)
        found, differs = tried(count, f"{given.seed} {first}")
        kinds, wrong = kinds + found, wrong + len(differs)
        print(f"{first + count} polls tried", file=sys.stderr, flush=True)
        for differing in differs:
            print("differs:", *differing, flush=True)
    print(*(f"{count:7,} {kind}" for kind, count in sorted(kinds.items())), sep="\n")
    print(f"{time.monotonic() - began:.0f} s")
    print(f"{given.polls} polls, {wrong} differ")
    return 1 if wrong else 0


if __name__ == "__main__":
    sys.exit(main())
