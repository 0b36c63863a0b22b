#!/usr/bin/env python3
"""Measures an import into a database in a file, the opening of that file, and requests over HTTP to it.

A constituency has 60 lists and 5,000 stations, and the text has a return of each: 5,000 rows of `returns`
and 310,000 of `counts`. `office import` is beside the kit's `sqlite` alone, by a program that writes just
these rows into the same database, in the same order and by the same statements, and beside C SQLite
through Python. `office show` of a constituency that is not there opens the database, judges all its rows and closes it; it is beside programs that open
it and read all rows. The kit's `sqlite` tests every page and row at an opening, C SQLite only where it is
asked to.

The programs run in turn, and the rows that they leave are compared. A time is the processor's for the
whole process, and for the system on its behalf; what counts is the ratio of the medians.

Where `valgrind` is installed, the instructions of an import of fewer returns and of an opening after it
are counted too, of the office and of the kit's `sqlite` alone: they do not depend on other work.

Then `office serve` is asked for the returns and for the stations of the constituency, beside the kit's
`sqlite` alone, which reads the same rows by the same statements: what counts is the time without the
opening.

Last it is asked single requests, by one client that opens a connection for each, on the file and on a
copy in memory (/dev/shm). Where `strace` is installed, a third run counts how long the server waited for
the disk (fdatasync, fsync).

With `--country` a country of 52 constituencies, 60,000 stations and 20 lists is measured once, and a
tenth of it; with numbers after it, countries of this many stations in place of these.

With `--part` only the parts that are named are measured.

    bench/store.py [--program PATH] [--alone PATH] [--rounds N] [--folder PATH] [--part NAME..]
    bench/store.py [--program PATH] [--alone PATH] [--folder PATH] --country [STATIONS..]
"""

import argparse
import os
import re
import shutil
import sqlite3
import statistics
import sys
import tempfile
from contextlib import closing
from pathlib import Path

# The modules imported from here are not to be left beside it in compiled form.
sys.dont_write_bytecode = True
from building import HERE, PROGRAM, build_office, processor
from check import LISTS, codes
from databases import (
    MEMORY,
    Con,
    ask_in_memory,
    certify,
    closes_of,
    import_command,
    import_message,
    import_returns,
    make,
    open_command,
    reopen,
    show_command,
)
from measuring import Ran, counted, in_turn, number_text, run_timed, took_text
from serving import Server, free_port, get, office, post

STATIONS = 5_000
FEWER_ROWS = [1_250, 2_500]

# How many requests of a kind are asked over HTTP.
REQUESTS = 200

# How many times as long as with the kit's `sqlite` alone an import and an opening may take.
IMPORT_GOAL = 1.3
OPENING_GOAL = 2

# How many times as long the returns may take over HTTP, and how many MiB they may need.
RETURNS_GOAL = 1.3
RETURNS_MEMORY = 40

# The returns of one import over HTTP, some 700 KB of 60 lists.
IN_A_MESSAGE = 2_000

# A country: its constituencies, its lists, and the stations of a tenth of it and of the whole.
CONSTITUENCIES = 52
COUNTRY_LISTS = 20
COUNTRY_STATIONS = [6_000, 60_000]

# The parts that are measured of a constituency.
PARTS = ["import", "opening", "instructions", "growth", "returns", "requests"]

# How many returns are imported where instructions are counted.
COUNTED_RETURNS = 400

PLAIN = [sys.executable, HERE / "store_plain.py"]
NAMES = ["office", "sqlite alone", "C SQLite"]


def rows_of(db):
    """The rows of `returns` and of `counts`, in any order."""
    with closing(sqlite3.connect(db)) as conn:
        return [set(conn.execute(f"SELECT * FROM {table}")) for table in ("returns", "counts")]


def remove_logs(db):
    """Removes what a program may have left beside a database that it closed."""
    for end in ("-wal", "-shm"):
        db.with_name(db.name + end).unlink(missing_ok=True)


def table(title, found):
    """Prints what each command took, and its ratio to the kit's `sqlite` alone: that of the office."""
    print(f"\n{title:24}      ms   least   by the clock    MiB   ratio   of the least")
    alone = found["sqlite alone"]
    for name, took in found.items():
        print(took_text(name, took) + f" {took.spent / alone.spent:7.2f} {took.least / alone.least:14.2f}")
    return found["office"].spent / alone.spent


def imports(folder, program, alone, con, rounds):
    """Prints what an import takes: its ratio to the kit's `sqlite` alone."""
    text = folder / "returns.csv"
    text.write_text(con.text_of(con.returns()))
    copies = [folder / f"import-{place}.db" for place in range(3)]
    commands = dict(zip(NAMES, [
        import_command(program, copies[0], con, text),
        [alone, "write", copies[1], con.code, text],
        [*PLAIN, "write", copies[2], con.code, text],
    ]))

    def begin():
        for copy in copies:
            shutil.copy(folder / "new.db", copy)
            remove_logs(copy)

    found = in_turn(rounds, commands, begin_once(begin))
    left = [rows_of(copy) for copy in copies]
    if left[0] != left[1] or left[0] != left[2] or list(map(len, left[0])) != [STATIONS, STATIONS * (LISTS + 2)]:
        sys.exit("the programs leave different rows")
    return table("an import", found)


def begin_once(begin):
    """Begins again before each third command, so that the copies of the last round are left."""
    count = 0

    def before():
        nonlocal count
        if count % 3 == 0:
            begin()
        count += 1

    return before


def openings(folder, program, alone, con, rounds):
    """Prints what an opening takes: its ratio to the kit's `sqlite` alone."""
    db = folder / "received.db"
    wanted = con.rows() + len(con.lists) + 4
    commands = {
        "office": open_command(program, db),
        "sqlite alone": [alone, "read", db],
        "C SQLite": [*PLAIN, "read", db],
        "C SQLite that checks": [*PLAIN, "check", db],
    }
    for name, command in list(commands.items())[1:]:
        found = int(run_timed(command).output)
        if found != wanted:
            sys.exit(f"{name} reads {found} rows, not {wanted}")
    return table("an opening", in_turn(rounds, commands, refused=["office"]))


def instructions(folder, program, alone, con):
    """Prints the instructions of an import and of an opening, of the office and of `sqlite` alone."""
    if shutil.which("valgrind") is None:
        return
    text = folder / "counted.csv"
    text.write_text(con.text_of(con.returns()[:COUNTED_RETURNS]))
    dbs = [folder / "counted-office.db", folder / "counted-alone.db"]
    for db in dbs:
        shutil.copy(folder / "new.db", db)
    pairs = {
        "an import": [import_command(program, dbs[0], con, text), [alone, "write", dbs[1], con.code, text]],
        "an opening": [open_command(program, dbs[0]), [alone, "read", dbs[0]]],
    }
    print(f"\n{COUNTED_RETURNS} returns, instructions         office     sqlite alone   ratio")
    for name, pair in pairs.items():
        found, least = (counted(command, folder)[0] for command in pair)
        print(f"  {name:22} {found:16,} {least:16,} {found / least:7.2f}", flush=True)


def grow(folder, program, con, rounds):
    """Prints the time and the memory of imports of fewer returns into the same constituency, of one whose
    text has each return four times, and of openings after them."""
    print("\ntext   returns     rows   import ms   us a row    MiB   opening ms   us a row    MiB   bytes a row")
    db, text = folder / "growing.db", folder / "growing.csv"
    empty = opening_of(folder / "new.db", program, rounds)
    print(f"{'':33} {'':>10} {'':>6} {empty.spent:12.0f} {'':>10} {number_text(empty.peak):>6}")
    for count, times in [*((count, 1) for count in FEWER_ROWS), (STATIONS, 1), (STATIONS, 4)]:
        text.write_text(con.text_of(con.returns()[:count] * times))

        def begin():
            shutil.copy(folder / "new.db", db)

        imported = in_turn(rounds, {"": import_command(program, db, con, text)}, begin)[""]
        opened = opening_of(db, program, rounds)
        rows = count * (LISTS + 3)
        by_import, by_opening = ((took.spent - empty.spent) * 1e3 / rows for took in (imported, opened))
        bytes_each = None if opened.peak is None else (opened.peak - empty.peak) * 2**20 / rows
        print(
            f"x {times} {count:9,} {rows:8,} {imported.spent:11.0f} {by_import:10.2f} {number_text(imported.peak):>6}"
            f" {opened.spent:12.0f} {by_opening:10.2f} {number_text(opened.peak):>6} {number_text(bytes_each, 0):>13}"
        )


def opening_of(db, program, rounds):
    """The cost of an opening."""
    return in_turn(rounds, {"": open_command(program, db)}, refused=[""])[""]


def published(folder, program, alone, con, rounds):
    """Prints what the returns and the stations take over HTTP: the ratio of the returns to the kit's `sqlite` alone."""
    db, text = folder / "received.db", folder / "published.csv"
    text.write_text(con.text_of(con.returns()))
    taken, peak = {"sqlite alone": [], "returns": [], "stations": []}, 0
    for _ in range(rounds):
        ran = run_timed([alone, "show", db, text])
        peak = max(peak, ran.peak or 0)
        readings = [tuple(map(int, line.split())) for line in ran.output.splitlines()]
        if {found for found, _ in readings} != {con.rows()}:
            sys.exit(f"sqlite alone reads other rows than {con.rows()}: {readings}")
        taken["sqlite alone"] += [spent / 1e6 for _, spent in readings]
        with office(program, db, 2 * len(readings)) as server:
            for _ in readings:
                for what in ("returns", "stations"):
                    asked = server.ask_all([get(f"/con/{con.code}/{what}")])
                    taken[what].append(asked.spent / 1e3)
                    if what == "returns" and asked.answers[0].partition(b"\r\n\r\n")[2] != text.read_bytes():
                        sys.exit("the returns are not those that were imported")
    medians = {name: statistics.median(times) for name, times in taken.items()}
    print(f"\n{'a reading of the rows':24}      ms   least   ratio   of the least")
    for name, times in taken.items():
        of_least = min(times) / min(taken["sqlite alone"])
        print(f"  {name:22} {medians[name]:7.0f} {min(times):7.0f} {medians[name] / medians['sqlite alone']:7.2f} {of_least:14.2f}")
    before, after = memory_of_returns(folder, program, con)
    print(f"  MiB: sqlite alone with its opening {peak:.0f}; an office opened without returns, all taken in {before:.0f}, shown {after:.0f}")
    return medians["returns"] / medians["sqlite alone"], after - before


def memory_of_returns(folder, program, con):
    """The MiB that an office has which was opened before the returns came, so that no memory of its opening is free, and its
    peak while it shows them."""
    db, every = folder / "taken.db", con.returns()
    shutil.copy(folder / "new.db", db)
    imports = [import_message(con, every[at : at + IN_A_MESSAGE]) for at in range(0, len(every), IN_A_MESSAGE)]
    with office(program, db, len(imports) + 1) as server:
        server.ask_all(imports)
        before = forget_peak(server)
        server.ask_all([get(f"/con/{con.code}/returns")])
        return before, peak_so_far(server)


def forget_peak(server):
    """Has a server's peak memory begin again at what it has now: that in MiB."""
    Path(f"/proc/{server.process.pid}/clear_refs").write_text("5")
    return peak_so_far(server)


def kinds_of(con):
    """The requests by kind, in two lists: for a database that lacks the last returns, and for one whose
    returns are closed. Of a kind whose name is empty the time does not count."""
    def entries(verb, returns, **more):
        return [
            post(f"/station/{station}/{verb}", {**more, "slip": slip, "votes": votes, "blank": blank, "spoiled": spoiled})
            for station, slip, (blank, spoiled, *votes) in returns
        ]

    returns = con.returns()
    reopened = []
    for edition in range(1, 2 * REQUESTS, 2):
        reopened += [("certify", certify(con, edition)), ("reopen", reopen(con, edition + 1))]
    received = [
        ("lodge", entries("lodge", returns[-REQUESTS:])),
        ("close", closes_of(con)[:REQUESTS]),
        ("confirm", entries("confirm", returns[REQUESTS : 2 * REQUESTS], rev=1)),
        ("GET tally", [get(f"/con/{con.code}/tally")] * REQUESTS),
        ("GET con", [get(f"/con/{con.code}")] * REQUESTS),
    ]
    closed = [(name, [message]) for name, message in reopened]
    return received, closed


def ask_kinds(server, kinds):
    """Asks the requests of each kind: the microseconds of the clock and of the processor, and the number
    of requests, by the kind."""
    found = {}
    for name, messages in kinds:
        taken = server.ask_all(messages)
        clock, spent, count = found.get(name, (0, 0, 0))
        more = len(messages)
        found[name] = (clock + taken.clock * more, spent + taken.spent * more, count + more)
    return {name: (clock / count, spent / count, count) for name, (clock, spent, count) in found.items()}


def serve_on(place, folder, program, dbs, kinds):
    """Asks all kinds of the office on copies of the databases in a place."""
    found = {}
    for db, some in zip(dbs, kinds):
        copy = place / f"served-{os.getpid()}.db"
        shutil.copy(folder / db, copy)
        try:
            with office(program, copy, sum(len(messages) for _, messages in some)) as server:
                found |= ask_kinds(server, some)
        finally:
            copy.unlink()
            remove_logs(copy)
    return found


def waits(folder, program, dbs, kinds):
    """Of a request of each kind, where they can be traced: how many syncs it makes, the microseconds of
    these, and their share in the clock's time of the request."""
    if shutil.which("strace") is None:
        return {}
    found = {}
    for db, some in zip(dbs, kinds):
        copy, trace = folder / "traced.db", folder / "trace"
        shutil.copy(folder / db, copy)
        port, count = free_port(), sum(len(messages) for _, messages in some)
        command = ["strace", "--seccomp-bpf", "-f", "-T", "-e", "trace=fdatasync,fsync", "-o", trace]
        command += [program, "serve", "--db", copy, "--port", port, "--count", count]
        with Traced(command, port) as server:
            for name, messages in some:
                before = synced(trace)
                clock = server.ask_all(messages).clock * len(messages)
                after = synced(trace)
                parts = (after[0] - before[0], after[1] - before[1], clock, len(messages))
                found[name] = [sum(pair) for pair in zip(found.get(name, (0, 0, 0, 0)), parts)]
    return {name: (syncs / asked, time / asked, time / clock) for name, (time, syncs, clock, asked) in found.items()}


class Traced(Server):
    """A server under `strace`, whose own processor time does not count."""

    def spent(self):
        return 0


def synced(trace):
    """The microseconds of all syncs so far, and their number."""
    times = re.findall(r"sync\(\d+\) += 0 <([0-9.]+)>", trace.read_text())
    return sum(map(float, times)) * 1e6, len(times)


def requests(folder, program, con):
    """Prints what requests over HTTP take, on a file and in memory."""
    dbs, kinds = ["lacking.db", "closed.db"], kinds_of(con)
    prepare(folder, program, con)
    on_file = serve_on(folder, folder, program, dbs, kinds)
    in_memory = serve_on(MEMORY, folder, program, dbs, kinds) if MEMORY.is_dir() else {}
    waited = waits(folder, program, dbs, kinds)
    print("\nrequests        a second      us   of the processor   in memory us   syncs   us of them   share")
    for name, (clock, spent, _) in on_file.items():
        memory = in_memory[name][0] if name in in_memory else None
        syncs, wait, share = waited.get(name, (None, None, None))
        share = "-" if share is None else f"{share:.0%}"
        print(
            f"  {name:12} {1e6 / clock:9,.0f} {clock:7,.0f} {spent:18,.0f} {number_text(memory, 0):>14} {number_text(syncs):>7}"
            f" {number_text(wait, 0):>12} {share:>7}"
        )


def prepare(folder, program, con):
    """Makes the database that lacks the last returns, and the one whose returns are all closed."""
    shutil.copy(folder / "new.db", folder / "lacking.db")
    import_returns(program, folder / "lacking.db", con, con.returns()[:-REQUESTS])
    shutil.copy(folder / "received.db", folder / "closed.db")
    ask_in_memory(program, folder / "closed.db", closes_of(con))


def country(folder, program, alone, stations):
    """Measures a country of this many stations once: `new`, the imports, an opening and a certificate.

    All constituencies but the last are imported by messages to one server, since each `office import`
    opens the whole database.
    """
    made = cons_of(CONSTITUENCIES, stations, COUNTRY_LISTS)
    rows = sum(con.rows() for con in made)
    db = folder / "country.db"
    title = f"{CONSTITUENCIES} constituencies, {stations:,} stations, {COUNTRY_LISTS} lists"
    print(f"\n{title:60}      ms   by the clock     us a row   MiB")
    line("new", make(program, folder, db.name, made))
    imports_by_messages(program, db, made[:-1])
    line("the last import, with an opening", import_returns(program, db, made[-1], made[-1].returns()))
    line("an opening", run_timed(open_command(program, db), 1), rows)
    line("sqlite alone opens and reads it", run_timed([alone, "read", db]), rows)
    line("the progress, with an opening", run_timed(show_command(program, db, "progress")), rows)
    certificate(program, db, made[-1])
    print(f"  {rows:,} rows of returns and counts, {db.stat().st_size / 2**20:,.0f} MiB", flush=True)
    db.unlink()


def imports_by_messages(program, db, cons):
    """Prints what imports by messages to one server take: all, the first five and the last five."""
    with office(program, db, len(cons)) as server:
        taken = [server.ask_all([import_message(con)]) for con in cons]
        peak = peak_so_far(server)
    for name, some in {"": slice(None), "the first 5 of ": slice(5), "the last 5 of ": slice(-5, None)}.items():
        spent, clock = (sum(values) / 1e3 for values in zip(*((one.spent, one.clock) for one in taken[some])))
        rows = sum(con.rows() for con in cons[some])
        line(f"{name}{len(cons)} imports by messages", Ran(spent, clock, None if name else peak, b""), rows)


def cons_of(cons, stations, lists):
    """This many constituencies, among which the stations are shared."""
    all_stations = codes("station", stations)
    bounds = [stations * place // cons for place in range(cons + 1)]
    return [
        Con(all_stations[first:last], f"con-{place:02}", lists=codes("list", lists))
        for place, (first, last) in enumerate(zip(bounds, bounds[1:]))
    ]


def certificate(program, db, con):
    """Prints what the closing of all returns of a constituency takes, and its certificate."""
    closes = closes_of(con)
    with office(program, db, len(closes) + 1) as server:
        closed = server.ask_all(closes)
        certified = server.ask_all([certify(con)])
        peak = peak_so_far(server)
    line("a return is closed", Ran(closed.spent / 1e3, closed.clock / 1e3, None, b""))
    line(f"a certificate of {len(closes):,} stations", Ran(certified.spent / 1e3, certified.clock / 1e3, peak, b""))


def peak_so_far(server):
    """The peak memory of a server in MiB."""
    status = Path(f"/proc/{server.process.pid}/status").read_text()
    return int(re.search(r"VmHWM:\s+(\d+)", status)[1]) / 1024


def line(name, ran, rows=None):
    """Prints what something took, and for each row where rows are given."""
    places = 2 if ran.spent < 100 else 0
    each = None if rows is None else ran.spent * 1e3 / rows
    print(
        f"  {name:56} {ran.spent:11,.{places}f} {ran.clock:14,.{places}f} {number_text(each, 2):>12} {number_text(ran.peak, 0):>5}",
        flush=True,
    )


def main():
    parser = argparse.ArgumentParser(description="Measures an import into a database in a file, its opening, and requests.")
    parser.add_argument("--program", type=Path, default=PROGRAM, help="the built program")
    parser.add_argument("--alone", type=Path, help="store_alone, where it is built already")
    parser.add_argument("--rounds", type=int, default=5, help="how often each program runs on a file")
    parser.add_argument("--folder", type=Path, help="where the files are made, on the disk that is measured")
    parser.add_argument("--part", choices=PARTS, nargs="+", default=PARTS, help="what is measured")
    parser.add_argument("--country", type=int, nargs="*", help="measures countries of so many stations, once")
    args = parser.parse_args()
    if not args.program.is_file():
        sys.exit(f"{args.program} is not built: run ./office check < examples/returns.csv first")
    program = args.program.resolve()
    with tempfile.TemporaryDirectory(dir=args.folder) as folder:
        folder = Path(folder)
        alone = args.alone.resolve() if args.alone else build_office(folder, "store_alone", ["@rattle//sqlite"])
        print(f"{os.cpu_count()} processors, {processor()}, load {os.getloadavg()[0]:.1f}, {args.rounds} rounds;")
        print(f"Python {sys.version.split()[0]}, C SQLite {sqlite3.sqlite_version}")
        if args.country is not None:
            for stations in args.country or COUNTRY_STATIONS:
                country(folder, program, alone, stations)
            return
        con = Con(codes("station", STATIONS))
        make(program, folder, "new.db", [con])
        print(f"{LISTS} lists, {STATIONS:,} stations, a return of each: {con.rows():,} rows", flush=True)
        imported = opened = shown = more = 0
        if "import" in args.part:
            imported = imports(folder, program, alone, con, args.rounds)
        shutil.copy(folder / "new.db", folder / "received.db")
        import_returns(program, folder / "received.db", con, con.returns())
        if "opening" in args.part:
            opened = openings(folder, program, alone, con, args.rounds)
        if "instructions" in args.part:
            instructions(folder, program, alone, con)
        if "growth" in args.part:
            grow(folder, program, con, args.rounds)
        if "returns" in args.part:
            shown, more = published(folder, program, alone, con, args.rounds)
        if "requests" in args.part:
            requests(folder, program, con)
    if imported > IMPORT_GOAL or opened > OPENING_GOAL:
        sys.exit(f"\nan import takes more than {IMPORT_GOAL} times as long as sqlite alone, or an opening more than {OPENING_GOAL} times")
    if shown > RETURNS_GOAL or more > RETURNS_MEMORY:
        sys.exit(f"\nthe returns take more than {RETURNS_GOAL} times as long as sqlite alone, or {RETURNS_MEMORY} MiB")


if __name__ == "__main__":
    main()
