#!/usr/bin/env python3
"""Measures the reading of a setup against Python's own `tomllib`.

The setup is made in a temporary folder, the same one on every run: 200 constituencies with 60 lists
each, and as many stations as fit into 8 MiB, each a table of its own or all of them in one array.
The programs run in turn on one text, and what they find in it is compared once, to the last station.
A time is the processor's, for the whole process and for the system on its behalf, so that other work
on the machine disturbs it little. Times are given as medians and as the ratio of the medians. The
time of `toml` alone shows which part of `read_setup` is the parse that it rests on.

    bench/setup.py [--runs N]
"""

import argparse
import os
import statistics
import sys
import tempfile
from pathlib import Path

# The modules imported from here are not to be left beside it in compiled form.
sys.dont_write_bytecode = True
from building import HERE, ROOT, build_office, processor
from measuring import run

sys.path.append(str(ROOT))
from tests.support.office import constituency, party_list, profile, station

CONSTITUENCIES = 200
LISTS = 60
CANDIDATES = 3
MOST_STATIONS = 5_000
PRIME = 1_000_003
MOST_BYTES = 8 * 1024 * 1024
GOAL = 3

PROFILES = profile("loreg", threshold=300) + "\n" + profile("shares", "hare", 0, "lists")


def head_of(con):
    """A constituency without its lists and stations."""
    return constituency(f"con-{con:03}", f"Constituency {con}", 1 + con % 500, ["loreg", "shares"][con % 2])


def list_of(con, number):
    names = (f"Candidate {number}.{n}" for n in range(1, CANDIDATES + 1))
    return party_list(f"list-{number:02}", f"List {number} of {con}", *names)


def station_of(con, number):
    """The code of a station and its electors. The codes are in no order, and no two are the same."""
    place = con * MOST_STATIONS + number
    return f"station-{place * 387_420_489 % PRIME:07}", 1 + place * 7919 % 1_000_000


def inline_station(con, number):
    code, electors = station_of(con, number)
    return f'{{code = "{code}", electors = {electors}}},'


def tables(con, stations):
    """A constituency whose lists and stations each have a table of their own."""
    lists = [list_of(con, number) for number in range(1, LISTS + 1)]
    return "".join([head_of(con), *lists, *(station(*station_of(con, number)) for number in range(stations))])


def inline(con, stations):
    """A constituency whose stations are tables within one array."""
    entries = "\n".join(inline_station(con, number) for number in range(stations))
    lists = "".join(list_of(con, number) for number in range(1, LISTS + 1))
    return f"{head_of(con)}station = [\n{entries}\n]\n{lists}"


def setup_of(make, cons, limit):
    """A setup with as many stations in each constituency as fit: its text and their number."""
    most, text = 0, ""
    for step in (1000, 100, 10, 1):
        while True:
            longer = PROFILES + "".join(make(con, most + step) for con in range(cons))
            if len(longer) > limit:
                break
            most, text = most + step, longer
    return text, most


def medians(commands, path, runs):
    """The median time of each command, run in turn on one file."""
    times = [[] for _ in commands]
    for _ in range(runs):
        for command, taken in zip(commands, times):
            taken.append(run(command, path)[0])
    return [statistics.median(taken) for taken in times]


def agree(office, plain, path):
    """Stops where the two programs find different setups in a file."""
    if run([*office, "print"], path)[1] != run([*plain, "print"], path)[1]:
        sys.exit("the two programs read different setups")


def compare(office, plain, folder, runs):
    """Prints the times on setups at the limit: whether the goal was met on the usual one."""
    print("setup       stations   MiB   read_setup ms   toml alone ms   tomllib ms   ratio")
    ratios = {}
    for name, make in (("tables", tables), ("inline", inline)):
        text, stations = setup_of(make, CONSTITUENCIES, MOST_BYTES)
        path = folder / "setup.toml"
        path.write_text(text)
        agree(office, plain, path)
        commands = [[*office, "read"], [*office, "toml"], [*plain, "read"]]
        read, alone, slow = medians(commands, path, runs)
        ratios[name] = slow / read
        print(
            f"{name:10} {stations * CONSTITUENCIES:9} {len(text) / 2**20:5.2f} {read:15.0f}"
            f" {alone:15.0f} {slow:12.0f} {slow / read:7.1f}"
        )
    return ratios["tables"] >= GOAL


def grow(office, folder, runs):
    """Prints the time by the size of the setup."""
    print("\n  MiB   read_setup ms   toml alone ms   ns a byte")
    for part in (8, 4, 2, 1):
        text, _ = setup_of(tables, CONSTITUENCIES // part, MOST_BYTES // part)
        path = folder / "setup.toml"
        path.write_text(text)
        read, alone = medians([[*office, "read"], [*office, "toml"]], path, runs)
        print(f"{len(text) / 2**20:5.2f} {read:15.1f} {alone:15.1f} {read * 1e6 / len(text):11.1f}")


def main():
    parser = argparse.ArgumentParser(description="Measures `read_setup` against `tomllib`.")
    parser.add_argument("--runs", type=int, default=5, help="how often each program runs on a file")
    args = parser.parse_args()
    with tempfile.TemporaryDirectory() as name:
        folder = Path(name)
        office = [str(build_office(folder, "setup_office", ["//crates/tally_rules", "@rattle//toml"]))]
        plain = [sys.executable, str(HERE / "setup_plain.py")]
        version = sys.version.split()[0]
        print(f"{os.cpu_count()} processors, {processor()}, Python {version}, {args.runs} runs\n")
        met = compare(office, plain, folder, args.runs)
        grow(office, folder, args.runs)
    if not met:
        sys.exit(f"\n`read_setup` is not {GOAL} times as fast as `tomllib`")


if __name__ == "__main__":
    main()
