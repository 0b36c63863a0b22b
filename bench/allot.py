#!/usr/bin/env python3
"""Measures the calls that allot seats against a plain Rust program with a heap.

There are 60 lists and 500 seats. Both programs allot the seats of the same polls, many times, and
the seats have to be the same. A time is the processor's, for one call, and it is the least of many
rounds over all polls, since other work on the machine only adds to it. What is shown is the median
of several runs, in which the programs take turns, and the ratio of the medians.

    bench/allot.py [--runs N] [--rounds N]
"""

import argparse
import os
import statistics
import subprocess
import sys
import tempfile
from pathlib import Path

# The modules imported from here are not to be left beside it in compiled form.
sys.dont_write_bytecode = True
from building import build_office, build_plain, processor
from measuring import Numbers

LISTS = 60
SEATS = 500
POLLS = 50
MOST_VOTES = 5_000_000_000

RULES = [
    "dhondt",
    "dhondt/alternating",
    "sainte-lague",
    "modified-sainte-lague",
    "modified-sainte-lague/alternating",
    "hare",
]
CALLS = ["allot", "lot_need", "is_allotment", "votes_short"]

# At most this many times the time of the plain program's award.
GOALS = {"allot": 1.3, "lot_need": 20, "is_allotment": 20}

# votes_short takes at most this many times the time of one allot of this repository, not the plain
# one's.
MOST_ALLOTS = 3


def votes_apart(numbers):
    """Votes of which no two are likely to be the same."""
    return [1 + numbers.below(MOST_VOTES // LISTS) for _ in range(LISTS)], []


def votes_alike(numbers):
    """Equal votes for each list, and the lot that then decides: all places in some order."""
    places = list(range(1, LISTS + 1))
    for at in range(LISTS - 1, 0, -1):
        other = numbers.below(at + 1)
        places[at], places[other] = places[other], places[at]
    return [1 + numbers.below(MOST_VOTES // LISTS)] * LISTS, places


# The workloads by name: how a poll is made, and how many polls.
WORKLOADS = {
    "votes apart": (votes_apart, POLLS),
    "votes alike, a lot": (votes_alike, POLLS // 10),
}


def text_of(make, polls):
    """This many polls, each a line with its votes and its lot."""
    numbers = Numbers(1)
    lines = []
    for _ in range(polls):
        votes, lot = make(numbers)
        lines.append(f"{' '.join(map(str, votes))};{' '.join(map(str, lot))}\n")
    return "".join(lines)


def run(program, rule, rounds, text):
    """Runs a program: the least nanoseconds of each call, the counts, and the seats of the polls."""
    ran = subprocess.run(
        [program, rule, str(SEATS), str(rounds)], input=text, capture_output=True, text=True
    )
    if ran.returncode != 0:
        sys.exit(f"{program} {rule}: {ran.stderr}")
    least, counts, seats = {}, set(), []
    for line in ran.stdout.splitlines():
        word, _, rest = line.partition(" ")
        if word in CALLS:
            least[word] = min(int(rest), least.get(word, sys.maxsize))
        elif word == "counts":
            counts.add(rest)
        else:
            seats.append([int(held) for held in line.split()])
    return least, counts, seats


def agree(rule, make, polls, counts, seats, plain_seats):
    """Stops where the answers differ from the plain program's, or from what these polls come to."""
    if seats != plain_seats or len(seats) != polls:
        sys.exit(f"{rule}: the two programs give different seats")
    if any(sum(given) != SEATS for given in seats):
        sys.exit(f"{rule}: not all the seats are given")
    needing = polls if make is votes_alike else 0
    short = 0 if rule == "hare" else polls * LISTS
    if counts != {f"{needing} {polls} {short}"}:
        sys.exit(f"{rule}: {counts}, not {needing} polls that need a lot, {polls} right and {short} numbers")


def measure(office, plain, name, rule, runs, rounds):
    """Prints the times of each call on a workload by a rule: whether the goals were met."""
    make, polls = WORKLOADS[name]
    text = text_of(make, polls)
    taken = {call: [] for call in CALLS}
    plain_taken = []
    for _ in range(runs):
        least, counts, seats = run(office, rule, rounds, text)
        plain_least, _, plain_seats = run(plain, rule, rounds, text)
        agree(rule, make, polls, counts, seats, plain_seats)
        plain_taken.append(plain_least["allot"])
        for call in CALLS:
            taken[call].append(least[call])
    award = statistics.median(plain_taken)
    allotted = statistics.median(taken["allot"])
    met = True
    for call in CALLS:
        if call == "votes_short" and rule == "hare":
            continue
        median = statistics.median(taken[call])
        beside, goal = (allotted, MOST_ALLOTS) if call == "votes_short" else (award, GOALS[call])
        ratio = median / beside
        print(
            f"{name:20} {rule:33} {call:13} {median / polls / 1000:10.2f}"
            f" {beside / polls / 1000:10.2f} {ratio:8.2f} {goal:>6}"
        )
        met = met and ratio <= goal
    return met


def main():
    parser = argparse.ArgumentParser(description="Measures the calls that allot seats.")
    parser.add_argument("--runs", type=int, default=5, help="how often each program runs")
    parser.add_argument("--rounds", type=int, default=60, help="the rounds of a run")
    args = parser.parse_args()
    with tempfile.TemporaryDirectory() as folder:
        office = build_office(Path(folder), "allot_office", ["//crates/tally_allot", "//crates/tally_setup"])
        plain = build_plain(Path(folder), "allot_plain")
        print(f"{os.cpu_count()} processors, {processor()}, {args.runs} runs of {args.rounds} rounds")
        print(f"{LISTS} lists, {SEATS} seats; microseconds of processor time a call\n")
        print("workload             rule                              call              office     beside    ratio   goal")
        met = [
            measure(office, plain, name, rule, args.runs, args.rounds)
            for name in WORKLOADS
            for rule in RULES
        ]
    if not all(met):
        sys.exit("\nnot all goals are met")


if __name__ == "__main__":
    main()
