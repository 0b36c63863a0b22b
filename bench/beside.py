#!/usr/bin/env python3
"""Measures an office beside a former one: what each takes of the processor for the same work on a file, and the ratio.

A constituency has 60 lists and 5,000 stations. In each round the two programs do the same in turn, each on databases of its
own: all returns are imported into a new one, and that file is opened; then `office serve` is asked over HTTP to lodge returns,
and to certify the constituency and open it again, with all returns closed. At the end the files of the imports are compared.

A time is the processor's, for the whole process and for the system on its behalf; of a request it is the server's alone.

    bench/beside.py FORMER [--program PATH] [--stations N] [--rounds N] [--requests N] [--folder PATH]
"""

import argparse
import os
import shutil
import statistics
import sys
import tempfile
from pathlib import Path

# The modules imported from here are not to be left beside it in compiled form.
sys.dont_write_bytecode = True
from building import PROGRAM, processor
from check import LISTS, codes
from databases import Con, ask_in_memory, certify, closes_of, import_returns, make, open_command, reopen
from measuring import run_timed
from serving import office, post


def prepare(folder, program, con, asked):
    """Makes an empty database, one that lacks this many returns, and one whose returns are all closed."""
    make(program, folder, "new.db", [con])
    for name, returns in (("lacking.db", con.returns()[:-asked]), ("closed.db", con.returns())):
        shutil.copy(folder / "new.db", folder / name)
        import_returns(program, folder / name, con, returns)
    ask_in_memory(program, folder / "closed.db", closes_of(con))


def lodges(con, asked):
    """The messages that lodge the last returns."""
    return [
        post(f"/station/{station}/lodge", {"slip": slip, "votes": votes, "blank": blank, "spoiled": spoiled})
        for station, slip, (blank, spoiled, *votes) in con.returns()[-asked:]
    ]


def spent(folder, program, con, asked):
    """The milliseconds of each kind of work, once."""
    imported, served = folder / "imported.db", folder / "served.db"
    shutil.copy(folder / "new.db", imported)
    took = {
        "an import of all returns": import_returns(program, imported, con, con.returns()).spent,
        "an opening of that file": run_timed(open_command(program, imported), 1).spent,
    }
    shutil.copy(folder / "lacking.db", served)
    with office(program, served, asked) as server:
        took["a lodge"] = server.ask_all(lodges(con, asked)).spent / 1e3
    shutil.copy(folder / "closed.db", served)
    with office(program, served, asked) as server:
        turns = [(server.ask_all([certify(con, at)]).spent, server.ask_all([reopen(con, at + 1)]).spent) for at in range(1, asked, 2)]
    took["a certificate"], took["a reopening"] = (statistics.median(times) / 1e3 for times in zip(*turns))
    return took


def main():
    parser = argparse.ArgumentParser(description="Measures an office beside a former one.")
    parser.add_argument("former", type=Path, help="the former program")
    parser.add_argument("--program", type=Path, default=PROGRAM, help="the built program")
    parser.add_argument("--stations", type=int, default=5_000, help="how many stations the constituency has")
    parser.add_argument("--rounds", type=int, default=5, help="how often each does everything")
    parser.add_argument("--requests", type=int, default=200, help="how many requests of a kind a round has, an even number")
    parser.add_argument("--folder", type=Path, help="where the files are made")
    args = parser.parse_args()
    con = Con(codes("station", args.stations))
    print(f"{os.cpu_count()} processors, {processor()}, load {os.getloadavg()[0]:.1f}, {args.rounds} rounds;")
    print(f"{LISTS} lists, {args.stations:,} stations, {con.rows():,} rows", flush=True)
    with tempfile.TemporaryDirectory(dir=args.folder) as room:
        programs = {Path(room, name): program.resolve() for name, program in (("former", args.former), ("today", args.program))}
        for folder, program in programs.items():
            folder.mkdir()
            prepare(folder, program, con, args.requests)
        rounds = {folder: [] for folder in programs}
        for _ in range(args.rounds):
            for folder, program in programs.items():
                rounds[folder].append(spent(folder, program, con, args.requests))
        print(f"\n{'milliseconds':30} former   least   today   least   ratio   of the least")
        for kind in rounds[folder][0]:
            former, today = ([took[kind] for took in found] for found in rounds.values())
            middle, other, least, other_least = *map(statistics.median, (former, today)), *map(min, (former, today))
            print(f"  {kind:28} {middle:6.5g} {least:7.5g} {other:7.5g} {other_least:7.5g} {other / middle:7.2f} {other_least / least:14.2f}")
        files = [(folder / "imported.db").read_bytes() for folder in programs]
        print(f"\nthe files of the imports are {'the same' if files[0] == files[1] else 'different'}")


if __name__ == "__main__":
    main()
