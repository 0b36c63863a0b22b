#!/usr/bin/env python3
"""Measures an import of returns into a keeper in memory against a check of the same text.

A constituency has 60 lists and 5,000 stations, and the text has a return of each. One program reads
both, and in each round imports the text into a keeper without returns and checks the text,
in turn the one first and then the other. A time is the thread's for the call alone, with the reading
of the text and without that of the setup; it is the median of the rounds, and what counts is the
ratio of the medians.

    bench/import.py [--runs N] [--rounds N]
"""

import statistics
import subprocess
import sys

# The modules imported from here are not to be left beside it in compiled form.
sys.dont_write_bytecode = True
from building import ROOT, keeper_program
from check import ELECTORS, LISTS, codes, distinct_rows, long_row, short_row, text_of
from measuring import Numbers

sys.path.append(str(ROOT))
from tests.support.office import constituency, party_list, profile, station

# As many as a constituency may have.
STATIONS = 5_000

# An import may take at most this many times as long as the check.
GOAL = 2

CALLS = ["import", "check"]


def setup_of(stations):
    """A setup of one constituency, with a table for each list and each station."""
    head = profile("loreg", threshold=300) + constituency("whole", "Whole", 9, "loreg")
    lists = (party_list(code, f"List {code}", "Ana") for code in codes("list", LISTS))
    tables = (station(code, ELECTORS) for code in codes("station", stations))
    return head + "".join(lists) + "".join(tables)


def shuffled(rows):
    """The rows in an order that looks random and is the same on every run."""
    numbers = Numbers(3)
    for at in range(len(rows) - 1, 0, -1):
        other = numbers.below(at + 1)
        rows[at], rows[other] = rows[other], rows[at]
    return rows


# The workloads by name, and how the rows of this many stations are made.
WORKLOADS = {
    "in order, long": lambda stations: distinct_rows(stations, long_row),
    "in order, short": lambda stations: distinct_rows(stations, short_row),
    "in no order, long": lambda stations: shuffled(distinct_rows(stations, long_row)),
    "in no order, short": lambda stations: shuffled(distinct_rows(stations, short_row)),
}


def run(program, setup, returns, rounds):
    """Runs the program: the nanoseconds of each call in each round, and the other lines."""
    command = [program, setup, returns, str(rounds)]
    ran = subprocess.run(command, capture_output=True, text=True)
    if ran.returncode != 0:
        sys.exit(f"{program}: {ran.stderr}")
    taken, others = {call: [] for call in CALLS}, []
    for line in ran.stdout.splitlines():
        word, _, rest = line.partition(" ")
        if word in CALLS:
            taken[word].append(int(rest))
        else:
            others.append(line)
    return taken, others


def agree(rows, others):
    """Stops where not every row was lodged, by the import and by the check."""
    counts = [f"lodged {len(rows)}", "same 0", "differs 0", "refused 0", "bad 0", "first -"]
    numbers = [[int(field) for field in row.split(",")[2:]] for row in rows]
    names = ["blank", "spoiled", *codes("list", LISTS)]
    totals = [f"{name} {sum(column)}" for name, column in zip(names, zip(*numbers))]
    if others != [f"imported {len(rows)}", *counts, *totals]:
        sys.exit("not every row was lodged, or the totals are others")


def measure(program, folder, rows, runs, rounds):
    """The size of the text in MiB, and the median nanoseconds of the import and of the check."""
    setup, returns = folder / "setup.toml", folder / "returns.csv"
    setup.write_text(setup_of(len(rows)))
    returns.write_text(text_of(rows))
    taken = {call: [] for call in CALLS}
    for _ in range(runs):
        times, others = run(program, setup, returns, rounds)
        agree(rows, others)
        for call in CALLS:
            taken[call] += times[call]
    medians = [statistics.median(taken[call]) for call in CALLS]
    return returns.stat().st_size / 2**20, *medians


def compare(program, folder, runs, rounds):
    """Prints the times on each workload: whether the goal was met on all of them."""
    print("workload             MiB   import ms   check ms   ratio")
    met = True
    for name, make in WORKLOADS.items():
        size, imported, checked = measure(program, folder, make(STATIONS), runs, rounds)
        ratio = imported / checked
        print(f"{name:18} {size:5.2f} {imported / 1e6:11.2f} {checked / 1e6:10.2f} {ratio:7.2f}")
        met = met and ratio <= GOAL
    return met


def grow(program, folder, runs, rounds):
    """Prints the time of an import by the number of stations."""
    print("\nstations     MiB   import ms   us a row")
    for stations in (625, 1_250, 2_500, 5_000):
        rows = shuffled(distinct_rows(stations, short_row))
        size, imported, _ = measure(program, folder, rows, runs, rounds)
        print(f"{stations:8} {size:7.2f} {imported / 1e6:11.2f} {imported / stations / 1000:10.2f}")


def main():
    description = "Measures an import of returns against a check."
    sizes = f"{LISTS} lists, {STATIONS} stations"
    with keeper_program("import_office", description, 3, sizes) as (program, folder, runs, rounds):
        met = compare(program, folder, runs, rounds)
        grow(program, folder, runs, rounds)
    if not met:
        sys.exit(f"\nan import takes more than {GOAL} times as long as a check")


if __name__ == "__main__":
    main()
