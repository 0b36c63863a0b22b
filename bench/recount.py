#!/usr/bin/env python3
"""Measures the time of `office recount` beside `office check` of the same returns, and a plain Rust program.

There are 20,000 rows of 60 lists, of as many stations of one constituency. The commands run in
turn. The texts of the recounts are compared byte for byte. A time is the processor's. Times are given as
medians, and as the ratio of the medians.

    bench/recount.py [--program PATH] [--rounds N]
"""

import argparse
import os
import statistics
import sys
import tempfile
from pathlib import Path

# The modules imported from here are not to be left beside it in compiled form.
sys.dont_write_bytecode = True
from building import PROGRAM, build_plain
from check import LISTS, ROWS, codes, in_turn, long_row, short_row, write
from measuring import Numbers

# Which command is measured beside which, and the greatest ratio that is the goal.
GOALS = (
    ("recount", "check", 1.3),
    ("recount --decisive", "recount", 3),
    ("recount", "plain", 1.5),
    ("recount --decisive", "plain --decisive", 1.5),
)
COMMANDS = ("check", "recount", "plain", "recount --decisive", "plain --decisive")
# The sum of the electors of a large constituency is at most 5,000,000,000.
MOST_ELECTORS = 5_000_000_000 // ROWS


def setup_text():
    """A large constituency of as many stations as there are rows, by D'Hondt."""
    lists = "".join(
        f'\n[[constituency.list]]\ncode = "{code}"\nname = "List {n}"\ncandidates = ["Ana"]\n'
        for n, code in enumerate(codes("list", LISTS))
    )
    stations = "".join(
        f'\n[[constituency.station]]\ncode = "{code}"\nelectors = {MOST_ELECTORS}\n'
        for code in codes("station", ROWS)
    )
    profile = '[[profile]]\ncode = "d3"\nmethod = "dhondt"\nthreshold = 100\nbase = "valid"\n'
    constituency = (
        '\n[[constituency]]\ncode = "c1"\nname = "Twin Town"\nseats = 37\nprofile = "d3"\nsize = "large"\n'
    )
    return profile + constituency + lists + stations


def rows(row):
    """A row of each station, with fewer votes for the later lists."""
    numbers = Numbers(3)
    most = MOST_ELECTORS // (LISTS + 2)
    weights = [1, 1, *range(LISTS, 0, -1)]
    return [
        row(station, slip, [numbers.below(most * weight // LISTS + 1) for weight in weights])
        for station, slip in zip(codes("station", ROWS), codes("slip", ROWS))
    ]


def measure(program, plain, setup, path, rounds):
    """The median milliseconds of each command on the file of returns."""
    recount = [program, "recount", "--setup", str(setup), "--con", "c1"]
    beside = [plain, str(setup), "c1"]
    texts, decisive = (
        in_turn([recount + words, beside + words], path, rounds) for words in ([], ["--decisive"])
    )
    (check,) = in_turn([[program, "check"]], path, rounds)
    times = [check, *texts, *decisive]
    return dict(zip(COMMANDS, map(statistics.median, times)))


def report(name, times):
    """Prints the times of one file, and their ratios: whether each is within its goal."""
    print(f"{name}: " + ", ".join(f"{command} {taken:.0f} ms" for command, taken in times.items()))
    within = True
    for command, beside, goal in GOALS:
        ratio = times[command] / times[beside]
        within &= ratio <= goal
        print(f"  {command} / {beside} {ratio:.2f}, at most {goal}" + ("" if ratio <= goal else ": MISSED"))
    return within


def main():
    parser = argparse.ArgumentParser(description="Measures `office recount` beside `check` and a plain Rust program.")
    parser.add_argument("--program", type=Path, default=PROGRAM, help="the built program")
    parser.add_argument("--rounds", type=int, default=9, help="how often each program runs on a file")
    args = parser.parse_args()
    if not args.program.is_file():
        sys.exit(f"{args.program} is not built: run ./office recount --help first")
    print(f"{os.cpu_count()} processors, {args.rounds} rounds, {ROWS} rows of {LISTS} lists\n")
    with tempfile.TemporaryDirectory() as folder:
        setup, path = Path(folder) / "setup.toml", Path(folder) / "returns.csv"
        setup.write_text(setup_text(), encoding="utf-8")
        plain = str(build_plain(Path(folder), "recount_plain"))
        within = True
        for name, row in (("short rows", short_row), ("long rows", long_row)):
            write(path, rows(row))
            within &= report(name, measure(str(args.program), plain, setup, path, args.rounds))
    return 0 if within else 1


if __name__ == "__main__":
    sys.exit(main())
