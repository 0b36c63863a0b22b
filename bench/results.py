#!/usr/bin/env python3
"""Measures the result in one answer beside the reports that it stands for.

    bench/results.py
    bench/results.py --stations 60000 --program crates/tally_office/out/tally_office

The constituencies of bench/spain.py are certified. Then the office is asked in turn, in each round,
for tally, seats, awards and votes short of each of them, for the result of each, and for all
results. A time is that of the office on a processor, the median of the rounds. The exit status is 1
where a result costs more than these four reports together, all results more than 1.2 of 52 results
one by one, or the results differ from those one by one.
"""

import argparse
import json
import os
import random
import statistics
import sys
import tempfile
from pathlib import Path

# The modules imported from here are not to be left beside it in compiled form.
sys.dont_write_bytecode = True
from spain import PROGRAM, SEATS, Office, count, returns_of, run, setup_of, spread

REPORTS = ("tally", "seats", "awards", "short")
# The most that all results may cost, in results one by one.
MOST = 1.2


def paths():
    """The targets of each kind."""
    return {
        "tally, seats, awards, short of 52": [f"/con/{c}/{r}" for c in SEATS for r in REPORTS],
        "the result of 52": [f"/con/{c}/result" for c in SEATS],
        "all results": ["/results"],
    }


def measure(desk, rounds):
    """The median seconds of each kind over some rounds."""
    taken = {kind: [] for kind in paths()}
    for _ in range(rounds):
        for kind, asked in paths().items():
            before = desk.seconds()
            for path in asked:
                desk.ask("GET", path)
            taken[kind].append(desk.seconds() - before)
    return {kind: statistics.median(times) for kind, times in taken.items()}


def are_same(desk):
    """Whether all results are those one by one, with all seats of the country."""
    one_by_one = [json.loads(desk.ask("GET", f"/con/{con}/result")) for con in SEATS]
    seats = sum(it["seats"] for result in one_by_one for it in result["lists"])
    return json.loads(desk.ask("GET", "/results")) == one_by_one and seats == sum(SEATS.values())


def election(program, total, rounds):
    draw, stations = random.Random(2023), spread(total)
    Path("setup.toml").write_text(setup_of(stations), encoding="utf-8")
    texts = {con: returns_of(number, many, draw)
             for number, (con, many) in enumerate(stations.items(), 1)}
    run(program, "new", "--db", "office.db", "--setup", "setup.toml")
    desk = Office(program, "office.db")
    try:
        count(desk, stations, texts)
        if not are_same(desk):
            sys.exit("the results are not those one by one")
        return measure(desk, rounds)
    finally:
        desk.end()


def show(medians):
    """Prints what each kind takes; whether all of it is within its limit."""
    reports, results, whole = medians.values()
    for kind, seconds in medians.items():
        print(f"{kind:36} {seconds * 1000:10.2f} ms")
    print(f"{'a result, in these four reports':36} {results / reports:10.2f}")
    print(f"{'all results, in 52 results':36} {whole / results:10.2f}")
    return results <= reports and whole <= MOST * results


def main():
    command = argparse.ArgumentParser(
        description=__doc__, formatter_class=argparse.RawDescriptionHelpFormatter)
    command.add_argument("--stations", type=int, default=5_200)
    command.add_argument("--rounds", type=int, default=15)
    command.add_argument("--program", type=Path, default=PROGRAM)
    given = command.parse_args()
    program = given.program.resolve()
    print(f"{os.cpu_count()} processors, load {os.getloadavg()[0]:.1f}")
    with tempfile.TemporaryDirectory() as folder:
        os.chdir(folder)
        medians = election(program, given.stations, given.rounds)
        os.chdir("/")
    return 0 if show(medians) else 1


if __name__ == "__main__":
    sys.exit(main())
