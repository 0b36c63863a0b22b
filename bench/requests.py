#!/usr/bin/env python3
"""Measures requests of a keeper in memory, one kind at a time.

A constituency has 60 lists and 5,000 stations, and the returns are lodged in no order. A program
reads the setup and the returns and makes the requests; in each round it then asks a new keeper one
kind after the other. A time is the thread's for the call that asks all of a kind, with the answers
that it hands out; it is the median of the rounds. The program counts the answers that are of the
kind that is wanted, and at the end the votes and the seats have to be what this script comes to.

A command on a constituency is to cost what its lists cost, and not what its stations cost. So some
kinds are shown with fewer stations too. Close, of each return once, also searches trees of all
stations.

Where `valgrind` is installed, the instructions of a request are counted too, with those that let its
answer go: they are the same however much other work the machine has. They are what a round of the
kinds up to this one takes beyond a round of those in front of it.

    bench/requests.py [--runs N] [--rounds N]
"""

import re
import shutil
import statistics
import subprocess
import sys
from importlib import import_module

# The modules imported from here are not to be left beside it in compiled form.
sys.dont_write_bytecode = True
from building import keeper_program
from check import ELECTORS, LISTS, codes, short_row, text_of
from measuring import Numbers

# Its name is a word of Python, so that no `import` can name it.
imports = import_module("import")

STATIONS = 5_000
FEWER_STATIONS = [50, 500]

# The seats and the threshold, in ten-thousandths, of the setup.
SEATS = 9
THRESHOLD = 300

# How many times as many votes as a small list the large ones may have, which alone are eligible.
LARGE_SHARES = [20, 15] + [8] * 16

# How often a request is made that is not made of each return, and how often requests take turns.
TURNS = 1_000

# The kinds in the order in which they are asked: what they are called, and how many requests there
# are with this many stations.
KINDS = {
    "lodge": ("Lodge", lambda stations: stations),
    "lodge_again": ("Lodge, the same again", lambda stations: stations),
    "show_return": ("ShowReturn", lambda stations: stations),
    "stale": ("Close, refused as stale", lambda stations: stations),
    "close": ("Close", lambda stations: stations),
    "show_con": ("ShowCon", lambda stations: TURNS),
    "show_progress": ("ShowProgress", lambda stations: TURNS),
    "certify_reopen": ("Certify, Reopen in turn", lambda stations: 2 * TURNS),
    "query_correct_close": ("Query, Correct, Close in turn", lambda stations: 3 * TURNS),
}

# The kinds that are shown with fewer stations too.
GROWING = ["certify_reopen", "show_con", "close"]


def shares():
    """How many times as many votes as a small list there may be: blank, spoiled, and for each list."""
    return [1, 1] + LARGE_SHARES + [1] * (LISTS - len(LARGE_SHARES))


def counts(numbers):
    """The blank votes, the spoiled ones, and the votes for each list, within the electors."""
    most = ELECTORS // sum(shares())
    return [numbers.below(share * most) for share in shares()]


def returns_of(stations):
    """The numbers of each return."""
    numbers = Numbers(4)
    return [counts(numbers) for _ in range(stations)]


def rows_of(returns):
    """The rows of the returns, in no order."""
    stations, slips = codes("station", len(returns)), codes("slip", len(returns))
    return imports.shuffled([short_row(*row) for row in zip(stations, slips, returns)])


def seats_of(votes, blank):
    """The seats of each list by D'Hondt: the highest quotients, which are to be no two alike."""
    valid = sum(votes) + blank
    eligible = [place for place, n in enumerate(votes) if n * 10_000 >= THRESHOLD * valid]
    if len(eligible) != len(LARGE_SHARES) or len(set(votes)) != len(votes):
        sys.exit("not as many lists as wanted are eligible, or two have as many votes")
    seats = [0] * len(votes)
    for _ in range(SEATS):
        seats[max(eligible, key=lambda place: votes[place] / (seats[place] + 1))] += 1
    return seats


def end_of(returns):
    """The last lines of the program: what the constituency comes to."""
    blank, spoiled, *votes = (sum(column) for column in zip(*returns))
    return [
        f"edition {2 * TURNS + 1}",
        f"closed {len(returns)}",
        f"blank {blank}",
        f"spoiled {spoiled}",
        *(f"votes {n}" for n in votes),
        *(f"seats {n}" for n in seats_of(votes, blank)),
    ]


def run(program, setup, returns, rounds):
    """Runs the program: for each kind the counts and the nanoseconds of each round, and the end."""
    command = [program, setup, returns, str(rounds), str(len(KINDS))]
    ran = subprocess.run(command, capture_output=True, text=True)
    if ran.returncode != 0:
        sys.exit(f"{program}: {ran.stderr}")
    answered, taken, end = {name: set() for name in KINDS}, {name: [] for name in KINDS}, []
    for line in ran.stdout.splitlines():
        word, *fields = line.split()
        if word in KINDS:
            asked, right, nanoseconds = map(int, fields)
            answered[word].add((asked, right))
            taken[word].append(nanoseconds)
        else:
            end.append(line)
    return answered, taken, end


def agree(returns, answered, end):
    """Stops where not each request was answered as it is to be, or the end is another."""
    for name, (_, requests) in KINDS.items():
        wanted = requests(len(returns))
        if answered[name] != {(wanted, wanted)}:
            sys.exit(f"{name}: {answered[name]} requests and answers, not {wanted} of both")
    if end != end_of(returns):
        sys.exit("the votes or the seats are others")


def write(folder, stations):
    """Writes a setup and the returns of this many stations: the returns and the two paths."""
    returns = returns_of(stations)
    setup, text = folder / f"setup-{stations}.toml", folder / f"returns-{stations}.csv"
    setup.write_text(imports.setup_of(stations))
    text.write_text(text_of(rows_of(returns)))
    return returns, setup, text


def measure(program, folder, runs, rounds):
    """The median nanoseconds of a request of each kind, by the number of stations.

    The numbers of stations take turns, since the machine's speed changes with its other work.
    """
    files = {stations: write(folder, stations) for stations in [*FEWER_STATIONS, STATIONS]}
    taken = {stations: {name: [] for name in KINDS} for stations in files}
    for _ in range(runs):
        for stations, (returns, setup, text) in files.items():
            answered, times, end = run(program, setup, text, rounds)
            agree(returns, answered, end)
            for name in KINDS:
                taken[stations][name] += times[name]
    return {stations: medians_of(times, stations) for stations, times in taken.items()}


def instructions_of(program, folder):
    """The instructions of a request of each kind."""
    _, setup, returns = write(folder, STATIONS)
    valgrind = ["valgrind", "--tool=callgrind", "--callgrind-out-file=/dev/null"]
    counted, before = {}, 0
    for most, name in enumerate([None, *KINDS]):
        command = [*valgrind, program, setup, returns, "1", str(most)]
        ran = subprocess.run(command, capture_output=True, text=True)
        found = re.search(r"Collected : (\d+)", ran.stderr)
        if ran.returncode != 0 or found is None:
            sys.exit(f"{program} under valgrind: {ran.stderr}")
        taken = int(found[1])
        if name is not None:
            counted[name] = (taken - before) / KINDS[name][1](STATIONS)
        before = taken
    return counted


def medians_of(times, stations):
    """The median nanoseconds of a request of each kind, from those of all requests of a kind."""
    return {
        name: statistics.median(times[name]) / requests(stations)
        for name, (_, requests) in KINDS.items()
    }


def show(medians, counted):
    """Prints what each kind takes."""
    print("request                         requests a second   us a request   instructions")
    for name, (title, _) in KINDS.items():
        instructions = f" {counted[name]:14,.0f}" if counted else ""
        print(f"{title:30} {1e9 / medians[name]:18,.0f} {medians[name] / 1000:14.3f}{instructions}")


def grow(medians):
    """Prints what some kinds take by the number of stations, and the last in relation to the first."""
    few, *_, many = medians
    heads = "".join(f"{stations:>10,}" for stations in medians)
    print(f"\nus a request, by stations      {heads}     ratio")
    for name in GROWING:
        times = "".join(f"{medians[stations][name] / 1000:10.3f}" for stations in medians)
        print(f"{KINDS[name][0]:30} {times} {medians[many][name] / medians[few][name]:9.2f}")


def main():
    description = "Measures requests of a keeper in memory."
    sizes = f"{LISTS} lists, {STATIONS} stations, {SEATS} seats"
    with keeper_program("requests_office", description, 10, sizes) as (program, folder, runs, rounds):
        medians = measure(program, folder, runs, rounds)
        counted = instructions_of(program, folder) if shutil.which("valgrind") else {}
        show(medians[STATIONS], counted)
        grow(medians)


if __name__ == "__main__":
    main()
