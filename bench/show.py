#!/usr/bin/env python3
"""Measures `office new`, `import` and each report of `office show` on two databases of as many rows.

One has a single constituency of 60 lists and 5,000 stations, the other 200 constituencies of 60 lists and
25 stations each; all are certified, with a certificate on record that was reopened. A report is beside
the opening alone (`show` of a constituency that is not there), and beside programs that open the same
file and read all its rows through the kit's `sqlite` alone and through C SQLite. A time is the processor's
for the whole process, the programs run in turn, and what counts is the ratio of the medians.

Where `valgrind` is installed, the instructions of each report are counted too, on a database of few
stations, where the opening is short: they do not depend on the machine's other work. Those of the report
of the awards, of 500 seats and 60 lists, are beside those of the one award within it. And as many returns
are imported into constituencies of more and more stations, from whose times that of the opening is taken
away. With `--part` only the parts that are named are measured.

    bench/show.py [--program PATH] [--alone PATH] [--rounds N] [--folder PATH] [--part NAME..]
"""

import argparse
import os
import shutil
import sqlite3
import sys
import tempfile
from pathlib import Path

# The modules imported from here are not to be left beside it in compiled form.
sys.dont_write_bytecode = True
from building import HERE, PROGRAM, build_office, processor
from check import LISTS, codes
from databases import (
    Con,
    ask_in_memory,
    certify,
    closes_of,
    import_command,
    import_message,
    import_returns,
    make,
    open_command,
    reopen,
    show_command,
)
from measuring import counted, in_turn, number_text, took_text, within

STATIONS = 5_000
CONSTITUENCIES = 200
SEATS = 500

# How many returns are imported into constituencies of these numbers of stations.
FEW_RETURNS = 500
GROWING = [500, 1_000, 2_000, 4_000]

# How many times as long as an opening a report may take, and as an award the printing of the
# awards.
SHOW_GOAL = 1.3
AWARDS_GOAL = 2

REPORTS = ["progress", "country", "tally", "seats", "quotients", "awards", "short", "holders", "past", "provisional", "stations", "returns", "result", "results", "quota"]

# Those that are of no constituency alone.
OF_ALL = ("progress", "country", "results")

# The parts that are measured.
PARTS = ["one", "many", "instructions", "growth"]

PLAIN = [sys.executable, HERE / "store_plain.py"]


def one_con():
    return [Con(codes("station", STATIONS), seats=SEATS)]


def many_cons():
    """Constituencies by two rules in turn, among which the stations are shared."""
    stations, share = codes("station", STATIONS), STATIONS // CONSTITUENCIES
    return [
        Con(stations[place * share :][:share], f"con-{place:03}", ["divisors", "quotas"][place % 2], SEATS)
        for place in range(CONSTITUENCIES)
    ]


def certified(folder, program, cons):
    """Prints what `new` takes and an import of the last constituency's returns, and makes a database in
    which all of them are certified for the second time."""
    db = folder / "office.db"
    rows = sum(con.rows() for con in cons)
    print(f"\n{len(cons)} x {LISTS} lists, {len(cons[0].stations):,} stations and {SEATS} seats, {rows:,} rows")
    line("new", make(program, folder, db.name, cons))
    *others, last = cons
    if others:
        ask_in_memory(program, db, [import_message(con) for con in others])
    line(f"an import of {len(last.stations):,} returns", import_returns(program, db, last, last.returns()))
    asks = [close for con in cons for close in closes_of(con)]
    asks += [ask for con in cons for ask in (certify(con), reopen(con, 2), certify(con, 3))]
    ask_in_memory(program, db, asks)
    return db


def line(name, ran):
    print(f"  {name:28} {ran.spent:9.0f} ms {ran.clock:9.0f} by the clock {number_text(ran.peak):>7} MiB", flush=True)


def reports(program, alone, db, cons, rounds):
    """Prints what each report takes: the greatest ratio of one to the opening."""
    by_rule = {con.profile: con for con in reversed(cons)}
    commands = {
        "sqlite alone": [alone, "read", db],
        "C SQLite": [*PLAIN, "read", db],
        "C SQLite that checks": [*PLAIN, "check", db],
        "opening": open_command(program, db),
    }
    for report in REPORTS:
        con = by_rule.get("quotas" if report == "quota" else "divisors")
        if con is not None:
            commands[report] = show_command(program, db, report, None if report in OF_ALL else con)
    found = in_turn(rounds, commands, refused=["opening"])
    opening, alone = found["opening"], found["sqlite alone"]
    print("  show                        ms   least   by the clock    MiB   / opening   of the least   / sqlite alone")
    for name, took in found.items():
        print(
            took_text(name, took)
            + f" {took.spent / opening.spent:11.2f} {took.least / opening.least:14.2f} {took.spent / alone.spent:16.2f}",
            flush=True,
        )
    return max(found[report].spent for report in REPORTS if report in found) / opening.spent


def instructions(program, db, con):
    """Prints the instructions of each report on a small database, and of the award within the report of
    the awards: the greatest ratio of a report to an opening, and how many awards their printing is."""
    if shutil.which("valgrind") is None:
        return 1, 0
    opening = counted(open_command(program, db), db.parent)[0]
    print("  show                 instructions   / opening")
    print(f"  {'opening':16} {opening:16,}")
    most = 0
    for report in REPORTS[:-1]:
        found, profile = counted(show_command(program, db, report, None if report in OF_ALL else con), db.parent)
        most = max(most, found / opening)
        print(f"  {report:16} {found:16,} {found / opening:11.3f}")
        if report == "awards":
            both, award = (within(profile, name) for name in ("report::report_text", "under_lot::award_under_lot"))
    print(f"\n{SEATS} seats, {LISTS} lists     instructions   awards")
    for name, found in (("an award", award), ("the printing of awards", both - award), ("both", both)):
        print(f"  {name:22} {found:15,} {found / award:8.2f}")
    return most, (both - award) / award


def few_stations():
    """A constituency whose opening is short."""
    return Con(codes("station", 20), seats=SEATS)


def grow(folder, program, rounds):
    """Prints the time of an import of as many returns by the number of stations."""
    print(f"\nan import of {FEW_RETURNS} returns\nstations   opening ms   import ms   us a row without the opening")
    for stations in GROWING:
        con = Con(codes("station", stations))
        make(program, folder, "new.db", [con])
        text, db = folder / "returns.csv", folder / "growing.db"
        text.write_text(con.text_of(con.returns()[:: stations // FEW_RETURNS]))

        def begin():
            shutil.copy(folder / "new.db", db)

        commands = {
            "opening": open_command(program, folder / "new.db"),
            "import": import_command(program, db, con, text),
        }
        found = in_turn(rounds, commands, begin, refused=["opening"])
        opening, imported = found["opening"].spent, found["import"].spent
        rows = FEW_RETURNS * (LISTS + 3)
        print(f"{stations:8} {opening:12.1f} {imported:11.1f} {(imported - opening) * 1000 / rows:30.2f}")
        (folder / "new.db").unlink()


def main():
    parser = argparse.ArgumentParser(description="Measures the commands of the office and its reports.")
    parser.add_argument("--program", type=Path, default=PROGRAM, help="the built program")
    parser.add_argument("--alone", type=Path, help="store_alone, where it is built already")
    parser.add_argument("--rounds", type=int, default=5, help="how often each program runs on a file")
    parser.add_argument("--folder", type=Path, help="where the files are made, on the disk that is measured")
    parser.add_argument("--part", choices=PARTS, nargs="+", default=PARTS, help="what is measured")
    args = parser.parse_args()
    if not args.program.is_file():
        sys.exit(f"{args.program} is not built: run ./office check < examples/returns.csv first")
    program, met = args.program.resolve(), True
    with tempfile.TemporaryDirectory(dir=args.folder) as folder:
        folder = Path(folder)
        alone = args.alone.resolve() if args.alone else build_office(folder, "store_alone", ["@rattle//sqlite"])
        print(f"{os.cpu_count()} processors, {processor()}, load {os.getloadavg()[0]:.1f}, {args.rounds} rounds;")
        print(f"Python {sys.version.split()[0]}, C SQLite {sqlite3.sqlite_version}")
        for part, cons in (("one", one_con()), ("many", many_cons())):
            if part in args.part:
                db = certified(folder, program, cons)
                met = reports(program, alone, db, cons, args.rounds) <= SHOW_GOAL and met
                db.unlink()
        if "instructions" in args.part:
            con = few_stations()
            most, printing = instructions(program, certified(folder, program, [con]), con)
            met = most <= SHOW_GOAL and printing <= AWARDS_GOAL and met
        if "growth" in args.part:
            grow(folder, program, args.rounds)
    if not met:
        sys.exit(f"\na report takes more than {SHOW_GOAL} times as long as an opening, or the printing of awards more than {AWARDS_GOAL} awards")


if __name__ == "__main__":
    main()
