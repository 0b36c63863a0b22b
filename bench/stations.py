#!/usr/bin/env python3
"""Measures what the stations of a constituency cost its requests over HTTP, on a database in a file.

A constituency has 60 lists and 5,000 stations, or 20; a return of each is closed. Its view and its tally
are shown, returns of it are queried, corrected and closed, and it is certified and opened again in turn.
What an office is asked first after it was opened is printed apart. The same is asked of the 5,000 stations
where the constituency was certified and opened again 100 times before. Then the progress of a country of 52
constituencies with 60,000 stations is shown, whose returns are as they were imported.

With `--memory` the office's desk over a keeper in memory (`serve_office`) is asked the same of the 5,000
stations, and the answers are compared byte for byte. That program is built first, unless one of the same
sources is kept in `bench/out`; with `--built` it is one that was built before, in that folder.

A time is the processor's for the server alone, the median of the rounds, and beside it the least. Syncs
are not in it.

    bench/stations.py [--program PATH] [--memory] [--built FOLDER] [--rounds N] [--requests N]
                      [--folder PATH] [--country STATIONS]
"""

import argparse
import os
import shutil
import statistics
import sys
import tempfile
from pathlib import Path

# The modules imported from here are not to be left beside it in compiled form.
sys.dont_write_bytecode = True
from building import PROGRAM, Kept, processor
from check import LISTS, codes
from databases import Con, ask_in_memory, certify, closes_of, import_message, import_returns, make, reopen, setup_of
from serve import PROGRAMS
from serving import Server, free_port, get, office, post
from store import CONSTITUENCIES, COUNTRY_LISTS, IN_A_MESSAGE, cons_of

STATIONS = 5_000
FEW_STATIONS = 20
COUNTRY_STATIONS = 60_000

# How often the constituency was certified before where certificates are on record.
ON_RECORD = 100

# How many times as long as with few stations, and as of a keeper in memory, requests may take, and
# as without them where certificates are on record: no longer there, but two medians of the same
# work may differ by so much.
GOALS = [
    ("GET con", "few stations", 1.3),
    ("GET tally", "few stations", 1.3),
    ("certify, reopen", "few stations", 1.5),
    ("GET con", "in memory", 8),
    ("GET tally", "in memory", 8),
    *((kind, "none on record", 1.15) for kind in ("GET con", "GET tally", "query, correct, close", "certify, reopen")),
]

# The milliseconds that the progress of the country may take.
PROGRESS_GOAL = 10


def certificates(con, edition, count):
    """The messages that certify a constituency and open it again, this many times, from an edition on."""
    return [turn for at in range(edition, edition + 2 * count, 2) for turn in (certify(con, at), reopen(con, at + 1))]


def moves(con, count):
    """The messages that query, correct and close this many closed returns, one station after the other."""
    returns, messages = con.returns(), []
    for place in range(count):
        again, at = divmod(place, len(returns))
        station, slip, (blank, spoiled, *votes) = returns[at]
        rev, counts = 2 + 3 * again, {"votes": votes, "blank": blank, "spoiled": spoiled}
        messages += [
            post(f"/station/{station}/query", {"rev": rev, "note": "The record has another number."}),
            post(f"/station/{station}/correct", {"rev": rev + 1, "slip": slip, **counts}),
            post(f"/station/{station}/close", {"rev": rev + 2}),
        ]
    return messages


def kinds_of(con, asked, edition=1):
    """This many messages of each kind, in the order in which they are asked of a constituency in an edition."""
    return {
        "GET con": [get(f"/con/{con.code}")] * asked,
        "GET tally": [get(f"/con/{con.code}/tally")] * asked,
        "query, correct, close": moves(con, asked),
        "certify, reopen": certificates(con, edition, asked),
    }


def closed_database(folder, program, con, name):
    """A database whose constituency has a closed return of each station."""
    db = folder / name
    make(program, folder, name, [con])
    import_returns(program, db, con, con.returns())
    ask_in_memory(program, db, closes_of(con))
    return db


def recorded_database(program, con, db):
    """A copy of a database, with certificates on record."""
    recorded = Path(shutil.copy(db, db.with_name("recorded.db")))
    ask_in_memory(program, recorded, certificates(con, 1, ON_RECORD))
    return recorded


def ask_kinds(server, kinds, taken):
    """Asks the first message of the first kind, then all: adds the microseconds of each, and gives the answers."""
    first = next(iter(kinds.values()))[0]
    answers = [server.ask_all([first])]
    taken.setdefault("the first", []).append(answers[0].spent)
    for name, messages in kinds.items():
        answers.append(server.ask_all(messages))
        taken.setdefault(name, []).append(answers[-1].spent)
    return [answer for found in answers for answer in found.answers]


def count_of(kinds):
    return 1 + sum(len(messages) for messages in kinds.values())


def ask_office(folder, program, db, kinds, taken):
    """Asks an office on a copy of the database."""
    copy = folder / "served.db"
    shutil.copy(db, copy)
    with office(program, copy, count_of(kinds)) as server:
        return ask_kinds(server, kinds, taken)


def ask_memory(folder, built, con, kinds, taken):
    """Asks the desk over a keeper in memory, in which the returns are imported and closed first."""
    setup = folder / "memory.toml"
    setup.write_text(setup_of([con]))
    returns = con.returns()
    # (all of them would be more than a body may have)
    imports = [import_message(con, returns[at : at + IN_A_MESSAGE]) for at in range(0, len(returns), IN_A_MESSAGE)]
    before = [*imports, *closes_of(con)]
    port = free_port()
    with Server([built, setup, port, len(before) + count_of(kinds)], port) as server:
        server.ask_all(before)
        return ask_kinds(server, kinds, taken)


def constituencies(folder, program, built, rounds, asked):
    """Prints what requests on a constituency take: of each kind with many stations, and how many times as much as beside it."""
    cons = {count: Con(codes("station", count)) for count in (STATIONS, FEW_STATIONS)}
    dbs = {count: closed_database(folder, program, con, f"closed-{count}.db") for count, con in cons.items()}
    kinds = {count: kinds_of(con, asked) for count, con in cons.items()}
    dbs["recorded"] = recorded_database(program, cons[STATIONS], dbs[STATIONS])
    kinds["recorded"] = kinds_of(cons[STATIONS], asked, 1 + 2 * ON_RECORD)
    taken = {name: {} for name in (*dbs, *(["memory"] if built else []))}
    for _ in range(rounds):
        answers = {name: ask_office(folder, program, db, kinds[name], taken[name]) for name, db in dbs.items()}
        if built:
            of_memory = ask_memory(folder, built, cons[STATIONS], kinds[STATIONS], taken["memory"])
            if of_memory != answers[STATIONS]:
                sys.exit("the office and the keeper in memory answer in another way")
    names = [f"{STATIONS:,} stations", f"{FEW_STATIONS} stations", f"{ON_RECORD} on record", *(["in memory"] if built else [])]
    print(f"\n{'us a request, of the processor':32}" + "".join(f"{name:>24}" for name in names))
    ratios = {}
    for kind in taken[STATIONS]:
        medians = {name: statistics.median(of[kind]) for name, of in taken.items()}
        columns = "".join(f"{medians[name]:15,.0f} ({min(of[kind]):6,.0f})" for name, of in taken.items())
        print(f"  {kind:30}{columns}", flush=True)
        ratios[kind] = {
            "few stations": medians[STATIONS] / medians[FEW_STATIONS],
            "none on record": medians["recorded"] / medians[STATIONS],
            **({"in memory": medians[STATIONS] / medians["memory"]} if built else {}),
        }
    print(f"\n{'ratios':32}" + "".join(f"{name:>24}" for name in ratios["GET con"]))
    for kind, of_kind in ratios.items():
        print(f"  {kind:30}" + "".join(f"{ratio:24.2f}" for ratio in of_kind.values()), flush=True)
    return ratios


def progress(folder, program, stations, rounds, asked):
    """Prints what the progress of a country takes: the milliseconds of one after the first."""
    made = cons_of(CONSTITUENCIES, stations, COUNTRY_LISTS)
    db = folder / "country.db"
    make(program, folder, db.name, made)
    with office(program, db, len(made)) as server:
        server.ask_all([import_message(con) for con in made])
    firsts, later = [], []
    for _ in range(rounds):
        with office(program, db, 2 + asked) as server:
            # The memory of an opening is given back before the first connection is taken.
            server.ask(get("/con/none"))
            firsts.append(server.ask_all([get("/progress")]).spent / 1e3)
            later.append(server.ask_all([get("/progress")] * asked).spent / 1e3)
    print(f"\nthe progress of {CONSTITUENCIES} constituencies with {stations:,} stations, ms of the processor")
    for name, times in {"the first": firsts, "each later one": later}.items():
        print(f"  {name:30}{statistics.median(times):15,.2f} ({min(times):6,.2f})", flush=True)
    return statistics.median(later)


def main():
    parser = argparse.ArgumentParser(description="Measures what the stations of a constituency cost its requests.")
    parser.add_argument("--program", type=Path, default=PROGRAM, help="the built program")
    parser.add_argument("--memory", action="store_true", help="a keeper in memory is asked too; its program is built first")
    parser.add_argument("--built", type=Path, help="a folder with that program, where it is built already")
    parser.add_argument("--rounds", type=int, default=3, help="how often each server is asked")
    parser.add_argument("--requests", type=int, default=200, help="how many requests of a kind are asked in a round")
    parser.add_argument("--folder", type=Path, help="where the files are made, on the disk that is measured")
    parser.add_argument("--country", type=int, default=COUNTRY_STATIONS, help="the stations of the country, 0 for none")
    args = parser.parse_args()
    if not args.program.is_file():
        sys.exit(f"{args.program} is not built: run ./office check < examples/returns.csv first")
    program = args.program.resolve()
    built = args.built.resolve() / "serve_office" if args.built else None
    if args.memory and not built:
        built = Kept("serve_office", PROGRAMS["serve_office"]).built()
    with tempfile.TemporaryDirectory(dir=args.folder) as folder:
        folder = Path(folder)
        print(f"{os.cpu_count()} processors, {processor()}, load {os.getloadavg()[0]:.1f}, {args.rounds} rounds")
        print(f"of {args.requests} requests of a kind; {LISTS} lists", flush=True)
        ratios = constituencies(folder, program, built, args.rounds, args.requests)
        took = progress(folder, program, args.country, args.rounds, min(args.requests, 20)) if args.country else 0
    over = [f"{kind}, {beside}" for kind, beside, goal in GOALS if ratios[kind].get(beside, 0) > goal]
    over += ["the progress"] if took > PROGRESS_GOAL else []
    if over:
        sys.exit(f"\nmore than the goals: {'; '.join(over)}")


if __name__ == "__main__":
    main()
