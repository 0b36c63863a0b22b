#!/usr/bin/env python3
"""Measures the time and the memory of `office check` against plain programs in Python and in Rust, and
on texts of one long record against the kit's `csv` alone.

The workloads are made in a temporary folder, the same ones on every run. The programs run in
turn, and what they write is compared byte for byte. A time is the processor's, for the program and
for the system on its behalf, so that other work on the machine disturbs it little. Times are given
as medians and as the ratio of the medians, since a ratio says the same on a faster or a slower
machine.

    bench/check.py [--program PATH] [--csv PATH] [--rounds N]
"""

import argparse
import os
import shutil
import statistics
import subprocess
import sys
import tempfile
from pathlib import Path

# The modules imported from here are not to be left beside it in compiled form.
sys.dont_write_bytecode = True
from building import HERE, PROGRAM, build_office, build_plain
from measuring import Numbers, number_text, run

PLAIN = HERE / "check_plain.py"

ROWS = 20_000
LISTS = 60
FEW_STATIONS = 50
MOST_BYTES = 16 * 1024 * 1024

# A good row has at most this many votes, the blank and the spoiled ones among them.
ELECTORS = 1_000_000


def codes(word, count):
    """This many codes of 16 characters."""
    return [f"{word}-{n:0{15 - len(word)}d}" for n in range(count)]


def header():
    return ",".join(["station", "slip", "blank", "spoiled"] + codes("list", LISTS))


def short_row(station, slip, numbers):
    """A row as most are: a number has the digits that it needs."""
    return ",".join([station, slip] + [str(n) for n in numbers])


def long_row(station, slip, numbers):
    """A row about as long as a good one can be without quotes: every number has nine digits."""
    return ",".join([station, slip] + [f"{n:09d}" for n in numbers])


def quoted_row(station, slip, numbers):
    """A long row with every field in quotes, ended by CR and LF."""
    return ",".join(f'"{field}"' for field in long_row(station, slip, numbers).split(",")) + "\r"


def counts(numbers):
    """The blank votes, the spoiled ones, and the votes for each list, within the electors."""
    most = ELECTORS // (LISTS + 2)
    return [numbers.below(most) for _ in range(LISTS + 2)]


def distinct_rows(rows, row):
    """Rows of as many stations, which are all lodged."""
    numbers = Numbers(1)
    return [
        row(station, slip, counts(numbers))
        for station, slip in zip(codes("station", rows), codes("slip", rows))
    ]


def repeated_rows(rows, row):
    """Rows of few stations: after the first of each, every third one differs and the others repeat."""
    numbers = Numbers(2)
    stations = codes("station", FEW_STATIONS)
    slips = codes("slip", FEW_STATIONS)
    standing = [counts(numbers) for _ in stations]
    made = []
    for n in range(rows):
        at = n if n < FEW_STATIONS else numbers.below(FEW_STATIONS)
        votes = list(standing[at])
        if n >= FEW_STATIONS and n % 3 == 0:
            votes[-1] += 1
        made.append(row(stations[at], slips[at], votes))
    return made


def filled(rows):
    """The rows with a remark in front of every hundredth one's station, up to the limit on bytes.

    Good rows alone do not come up to the limit; a row with a remark is bad.
    """
    room = MOST_BYTES - len(text_of(rows)) - 1
    remarked = range(99, len(rows), 100)
    share, rest = divmod(room, len(remarked))
    for place, at in enumerate(remarked):
        quote = '"' if rows[at].startswith('"') else ""
        remark = "x" * (share + (place < rest))
        rows[at] = quote + remark + rows[at][len(quote) :]
    return rows


def text_of(rows):
    return "\n".join([header()] + rows) + "\n"


# The workloads by name, and how their rows are made.
WORKLOADS = {
    "distinct": lambda: filled(distinct_rows(ROWS, long_row)),
    "repeated": lambda: repeated_rows(ROWS, short_row),
    "distinct, short": lambda: distinct_rows(ROWS, short_row),
    "distinct, quoted": lambda: filled(distinct_rows(ROWS, quoted_row)),
    "repeated, long": lambda: filled(repeated_rows(ROWS, long_row)),
}


# Texts of one long record, none of which has a header, by name.
HOSTILE = {
    "an unclosed quote": lambda: b'"' + b"x" * (MOST_BYTES - 1),
    "a quote over lines": lambda: b'"' + (b"x" * 63 + b"\n") * (MOST_BYTES // 64 - 1),
    "a quote over longer lines": lambda: b'"' + (b"x" * 79 + b"\n") * (MOST_BYTES // 80 - 1),
    "one field": lambda: b"x" * MOST_BYTES,
    "commas": lambda: b"," * MOST_BYTES,
}


def write(path, rows):
    """Writes the text of these rows, and answers its size in MiB."""
    path.write_bytes(text_of(rows).encode("ascii"))
    return path.stat().st_size / 2**20


def peak_of(command, path):
    """The peak memory of a command on a file, in MiB, or None where GNU time is not there.

    A process that this script starts counts the script's own memory at first, so GNU time starts it.
    """
    timer = shutil.which("time")
    if timer is None:
        return None
    with open(path, "rb") as text:
        timed = [timer, "-f", "%M"] + command
        ended = subprocess.run(timed, stdin=text, stdout=subprocess.DEVNULL, stderr=subprocess.PIPE)
    return int(ended.stderr.split()[-1]) / 1024


def in_turn(commands, path, rounds, status=0, beside=()):
    """The times of each command, run in turn on one file, followed by those of the programs beside
    them, which write other texts and end with status 0."""
    times = [[] for _ in (*commands, *beside)]
    for _ in range(rounds):
        outputs = set()
        for command, taken in zip(commands, times):
            milliseconds, output = run(command, path, status)
            taken.append(milliseconds)
            outputs.add(output)
        if len(outputs) != 1:
            sys.exit("the programs write different texts")
        for command, taken in zip(beside, times[len(commands) :]):
            taken.append(run(command, path)[0])
    return times


def medians(commands, path, rounds):
    """The median time of each command, run in turn on one file."""
    return [statistics.median(taken) for taken in in_turn(commands, path, rounds)]


def compare(office, rust, path, rounds):
    """Prints the times and the memory of the programs on each workload."""
    python = [sys.executable, str(PLAIN)]
    print("workload             MiB   office ms   Python ms   ratio   Rust ms   ratio   office MiB   a byte   Python MiB   Rust MiB")
    for name, make in WORKLOADS.items():
        size = write(path, make())
        own, slow, fast = medians([office, python, rust], path, rounds)
        low, high, least = (peak_of(command, path) for command in (office, python, rust))
        print(
            f"{name:18} {size:5.2f} {own:11.1f} {slow:11.1f} {slow / own:7.1f} {fast:9.1f} {fast / own:7.2f}"
            f" {number_text(low):>12} {number_text(low and low / size):>8} {number_text(high):>12} {number_text(least):>10}"
        )


def hold(office, rust, alone, path, rounds):
    """Prints the time and the memory on texts of one long record, which are refused. The ratio to `csv`
    is that of the medians, and then that of the least times."""
    print(
        "\nhostile text                 MiB   office ms   Rust ms   ratio   csv ms   office / csv    least"
        "   office MiB   a byte   Rust MiB   csv MiB"
    )
    for name, make in HOSTILE.items():
        path.write_bytes(make())
        size = path.stat().st_size / 2**20
        times = in_turn([office, rust], path, rounds, status=1, beside=[alone])
        own, fast, bare = (statistics.median(taken) for taken in times)
        least_own, _, least_bare = (min(taken) for taken in times)
        low, much, little = (peak_of(command, path) for command in (office, rust, alone))
        print(
            f"{name:25} {size:6.2f} {own:11.1f} {fast:9.1f} {fast / own:7.2f} {bare:8.1f} {own / bare:14.2f}"
            f" {least_own / least_bare:8.2f}"
            f" {number_text(low):>12} {number_text(low and low / size):>8} {number_text(much):>10} {number_text(little):>9}"
        )


def name_rows(office, path, rounds):
    """Prints the time of a check with the lines of its rows beside one without, where every second row is bad."""
    rows = distinct_rows(ROWS, short_row)
    for at in range(1, ROWS, 2):
        rows[at] += "x"
    write(path, rows)
    plain, named = (statistics.median(taken) for taken in in_turn([office], path, rounds, beside=[office + ["--rows"]]))
    print(f"\n{ROWS // 2} bad rows of {ROWS}: check {plain:.1f} ms, check --rows {named:.1f} ms, ratio {named / plain:.2f}")


def grow(office, path, rounds):
    """Prints the time and the memory of the program by the number of rows."""
    print("\n  rows     MiB   office ms   us a row   office MiB")
    for rows in (1_500, 5_000, 10_000, 20_000):
        size = write(path, distinct_rows(rows, long_row))
        (taken,) = medians([office], path, rounds)
        print(f"{rows:6} {size:7.2f} {taken:11.2f} {taken / rows * 1000:10.2f} {number_text(peak_of(office, path)):>12}")


def main():
    parser = argparse.ArgumentParser(description="Measures `office check` against plain programs in Python and in Rust.")
    parser.add_argument("--program", type=Path, default=PROGRAM, help="the built program")
    parser.add_argument("--csv", type=Path, help="csv_alone, where it is built already")
    parser.add_argument("--rounds", type=int, default=9, help="how often each program runs on a file")
    args = parser.parse_args()
    if not args.program.is_file():
        sys.exit(f"{args.program} is not built: run ./office check < examples/returns.csv first")
    office = [str(args.program), "check"]
    print(f"{os.cpu_count()} processors, Python {sys.version.split()[0]}, {args.rounds} rounds\n")
    with tempfile.TemporaryDirectory() as folder:
        path = Path(folder) / "returns.csv"
        rust = [str(build_plain(Path(folder), "check_plain"))]
        alone = [str(args.csv or build_office(Path(folder), "csv_alone", ["@rattle//csv"]))]
        compare(office, rust, path, args.rounds)
        hold(office, rust, alone, path, args.rounds)
        name_rows(office, path, args.rounds)
        grow(office, path, args.rounds)


if __name__ == "__main__":
    main()
