#!/usr/bin/env python3
"""Measures a constituency of 20,000 stations and 60 lists, a large one, beside one of 5,000.

In each round both are made, imported from one file, opened, imported once more over HTTP in files
of 2,500 rows, and served from databases in which every return is closed, where each is asked some
requests and then the other. What takes all stations is measured for each of them; a request for
itself: the return of a station, a tally, a correction, a certificate and its reopening, a trial of
500 returns. What shows all stations, the stations and the returns, holds the office for as long as
is printed.

At the end the returns of the large one are published, read back into a new office, and counted
again by examples/recount.py.

    bench/large.py [--program PATH] [--rounds N] [--requests N] [--folder PATH]

A time is the processor's, the median of all that was measured; beside it is the least. The status
is 1 where a ratio of medians is more than its goal.
"""

import argparse
import os
import shutil
import statistics
import subprocess
import sys
import tempfile
from contextlib import ExitStack, contextmanager
from pathlib import Path

# The modules imported from here are not to be left beside it in compiled form.
sys.dont_write_bytecode = True
from building import PROGRAM, ROOT, processor
from check import ELECTORS, LISTS, codes
from databases import (MEMORY, Con, ask_in_memory, certify, closes_of, import_message,
                       import_returns, make, open_command, reopen, show_command)
from measuring import run_timed
from serving import get, office, post

LARGE, NORMAL = 20_000, 5_000
# How many returns a trial has, and one of several files.
IN_A_TRIAL, IN_A_FILE = 500, 2_500
# In how many batches the messages of a kind are asked, one of each office in turn.
TURNS = 10
# How many times as long it may take for a station, or a request, as in a constituency of 5,000.
GOAL = 1.3


class LargeCon(Con):
    """A constituency of the size that its stations need. 20,000 may have 250,000 electors each."""

    @property
    def size(self):
        return len(self.stations)

    def setup(self):
        size = "large" if self.size > NORMAL else "normal"
        # (the key comes before the tables of lists)
        text = super().setup().replace("\n\n", f'\nsize = "{size}"\n\n', 1)
        return text.replace(f"electors = {ELECTORS}\n", f"electors = {ELECTORS // 4}\n")

    def returns(self):
        return [(station, slip, [n // 4 for n in counts])
                for station, slip, counts in super().returns()]


def corrections(con, asked):
    """A closed return is queried, corrected and closed again."""
    for station, slip, (blank, spoiled, *votes) in con.returns()[: con.size : con.size // asked]:
        counts = {"slip": slip, "votes": votes, "blank": spoiled, "spoiled": blank}
        yield post(f"/station/{station}/query", {"rev": 2, "note": "Two numbers are exchanged."})
        yield post(f"/station/{station}/correct", {"rev": 3, **counts})
        yield post(f"/station/{station}/close", {"rev": 4})


def requests_of(con, asked):
    """Messages of each kind, as many as are asked of it."""
    step = con.size // asked
    trial = post(f"/con/{con.code}/trial", con.text_of(con.returns()[:IN_A_TRIAL]).encode())
    turns = [message for at in range(1, 2 * asked, 2)
             for message in (certify(con, at), reopen(con, at + 1))]
    return {
        "GET return": [get(f"/station/{station}") for station in con.stations[::step][:asked]],
        "GET tally": [get(f"/con/{con.code}/tally")] * asked,
        f"trial of {IN_A_TRIAL}": [trial] * min(asked, 20),
        "certify, reopen": turns,
        "query, correct, close": list(corrections(con, asked)),
        "GET stations": [get(f"/con/{con.code}/stations")] * 4,
        "GET returns": [get(f"/con/{con.code}/returns")] * 4,
    }


def batches(messages):
    """The messages in order, in as many parts as there are turns."""
    size = -(-len(messages) // TURNS)
    return [messages[at : at + size] for at in range(0, len(messages), size)]


@contextmanager
def both(program, dbs, counts, keep=False):
    """An office on a copy of each of two databases, with as many messages as it will be asked.

    The copies are in memory, so that no message waits for a disk. They may be kept at the end.
    """
    with tempfile.TemporaryDirectory(dir=MEMORY if MEMORY.is_dir() else None) as folder:
        copies = [shutil.copy(db, folder) for db in dbs]
        with ExitStack() as stack:
            servers = [stack.enter_context(office(program, copy, count + 1))
                       for copy, count in zip(copies, counts)]
            for server in servers:
                # The memory of an opening is given back before the first answer.
                server.ask(get("/progress"))
            yield servers
        if keep:
            for copy, db in zip(copies, dbs):
                shutil.move(copy, db)


def ask_in_turns(program, cons, dbs, kinds, found, keep=False):
    """Asks two offices the messages of each kind, a batch of one and then a batch of the other."""
    counts = [sum(map(len, of_con.values())) for of_con in kinds]
    with both(program, dbs, counts, keep) as servers:
        for kind in kinds[0]:
            for turn in zip(*(batches(of_con[kind]) for of_con in kinds)):
                for con, server, messages in zip(cons, servers, turn):
                    found[con.size].setdefault(kind, []).append(server.ask_all(messages).spent)


def import_in_turns(program, cons, dbs, found):
    """Imports several files over HTTP: of the large one four for one of the other."""
    files = [[import_message(con, con.returns()[at : at + IN_A_FILE])
              for at in range(0, con.size, IN_A_FILE)] for con in cons]
    with both(program, dbs, map(len, files)) as servers:
        turns = [(1, message) for message in files[1]]
        for place, message in enumerate(files[0]):
            turns.insert((2 * place + 1) * len(files[1]) // len(files[0]) // 2, (0, message))
        for which, message in turns:
            spent = servers[which].ask_all([message]).spent / IN_A_FILE
            found[cons[which].size].setdefault("import of files, a station", []).append(spent)


def made_and_opened(folder, program, con, taken):
    """The cost of `new`, of an import and of an opening for a station. An empty database is left."""
    empty = folder / f"empty-{con.size}.db"
    empty.unlink(missing_ok=True)
    began = make(program, folder, empty.name, [con])
    shutil.copy(empty, folder / "round.db")
    imported = import_returns(program, folder / "round.db", con, con.returns())
    opened = run_timed(open_command(program, folder / "round.db"), status=1)
    for kind, ran in (("new", began), ("import", imported), ("opening", opened)):
        taken.setdefault(f"{kind}, a station", []).append(ran.spent * 1000 / con.size)
    return empty


def all_closed(folder, program, cons, found):
    """Databases in which each return is closed; what closing one takes."""
    dbs = [folder / f"closed-{con.size}.db" for con in cons]
    for con, db in zip(cons, dbs):
        make(program, folder, db.name, [con])
        import_returns(program, db, con, con.returns())
    kinds = [{"close": closes_of(con)} for con in cons]
    ask_in_turns(program, cons, dbs, kinds, found, keep=True)
    return dbs


def read_back(folder, program, db, con):
    """Certifies, publishes the returns, imports them into a new office, and counts both again."""
    ask_in_memory(program, db, [certify(con)])
    published = folder / "published.csv"
    published.write_bytes(run_timed(show_command(program, db, "returns", con)).output)
    again = LargeCon(con.stations)
    make(program, folder, "again.db", [again])
    found = subprocess.run(
        [program, "import", "--db", folder / "again.db", "--con", con.code, "--csv", published],
        capture_output=True, text=True, check=True)
    if not found.stdout.startswith(f"lodged {len(con.stations)}\n"):
        sys.exit(f"the published returns are not read back: {found.stdout}")
    ask_in_memory(program, folder / "again.db", [*closes_of(again), certify(again)])
    reports = [run_timed(show_command(program, path, "seats", con)).output
               for path in (db, folder / "again.db")]
    if reports[0] != reports[1]:
        sys.exit("the published returns give other seats")
    recount = [sys.executable, ROOT / "examples/recount.py", db]
    counted = subprocess.run(recount, capture_output=True, text=True)
    if counted.returncode or "agrees" not in counted.stdout:
        sys.exit(f"the recount says: {counted.stdout}{counted.stderr}")


def main():
    parser = argparse.ArgumentParser(
        description="Measures a large constituency beside one of 5,000 stations.")
    parser.add_argument("--program", type=Path, default=PROGRAM, help="the built program")
    parser.add_argument("--rounds", type=int, default=3, help="how often each office is asked")
    parser.add_argument("--requests", type=int, default=200,
                        help="how many requests of a kind are asked in a round")
    parser.add_argument("--folder", type=Path,
                        help="where the files are made, on the disk that is measured")
    args = parser.parse_args()
    program = args.program.resolve()
    with tempfile.TemporaryDirectory(dir=args.folder) as folder:
        folder = Path(folder)
        print(f"{os.cpu_count()} processors, {processor()}, load {os.getloadavg()[0]:.1f};"
              f" {LISTS} lists", flush=True)
        cons = [LargeCon(codes("station", count)) for count in (NORMAL, LARGE)]
        found = {con.size: {} for con in cons}
        whole = all_closed(folder, program, cons, found)
        for number in range(1, args.rounds + 1):
            dbs = [made_and_opened(folder, program, con, found[con.size]) for con in cons]
            import_in_turns(program, cons, dbs, found)
            kinds = [requests_of(con, args.requests) for con in cons]
            ask_in_turns(program, cons, whole, kinds, found)
            print(f"round {number}, load {os.getloadavg()[0]:.1f}", flush=True)
        over = shown(found)
        read_back(folder, program, whole[1], cons[1])
        print("published, read back, counted again: the same seats")
    if over:
        sys.exit(f"more than {GOAL} times as much: {', '.join(over)}")


def shown(found):
    """Prints the medians and their ratios: the kinds whose ratio is more than the goal."""
    over = []
    print(f"{'us of the processor':28}{NORMAL:>14,}{LARGE:>14,}{'ratio':>8}{'least ratio':>13}")
    for kind in found[NORMAL]:
        normal, large = (statistics.median(found[count][kind]) for count in (NORMAL, LARGE))
        # (these two show each station)
        more = LARGE / NORMAL if kind in ("GET stations", "GET returns") else 1
        ratio = large / normal / more
        least = min(found[LARGE][kind]) / min(found[NORMAL][kind]) / more
        over += [kind] if ratio > GOAL else []
        print(f"{kind:28}{normal:14,.1f}{large:14,.1f}{ratio:8.2f}{least:13.2f}", flush=True)
    return over


if __name__ == "__main__":
    main()
