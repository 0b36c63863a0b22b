"""A constituency of 20,000 stations beside one of 1,000, and the same in plain Python.

Each step takes about as much of the processor for a station, or for a request, in both. Growth by
the square of the stations would be twenty times as much. With 60 lists it takes minutes: that is
measured by bench/large.py.
"""

import itertools
import os
import resource
import statistics
import sys
import tomllib
from pathlib import Path

from tests.program.test_limits import WITHOUT_A_DISK
from tests.support import model, tools
from tests.support.beside import LOOKS_AT_ALL, get, post, shown_as
from tests.support.case import ROOT
from tests.support.costs import FEWEST, has_taken
from tests.support.desk import Desk
from tests.support.largest import csv
from tests.support.office import LISTS, PROFILE, constituency
from tests.support.program import ProgramCase, Ran, before_the_library, imports, new, same, show
from tests.support.program import write
from tests.support.running import PATIENCE

NORMAL, LARGE, MOST_NORMAL = 1_000, 20_000, 5_000
# The stations of a file of returns. The return of each hundredth is corrected.
IN_A_FILE, EACH = 500, 100
# How often what is of one return or of all sums is asked, and what is of all stations; in how many
# batches.
OFTEN, SELDOM, TURNS = 40, 4, 10
# Electors and agents of each station: 20,000 have the 5,000,000,000 that a constituency may have.
ELECTORS, AGENTS = 249_000, 1_000
# How many times as much of the processor a station, or a request, may take. Other work on the
# machine doubles what some of them take, and the square of the stations is twenty times as much.
MOST = 8


def setup_of(count):
    size = 'size = "large"\n' if count > MOST_NORMAL else ""
    stations = ",\n".join(
        f'{{ code = "s{n:015}", electors = {ELECTORS}, agents = {AGENTS} }}' for n in range(count)
    )
    head = PROFILE + constituency("c1", "Country", 37, "d0") + size
    return f"{head}station = [\n{stations}\n]\n{LISTS}"


def returns_of(con):
    """A return of each station, of as many votes as may be cast there."""
    return {
        station: ("p1", [140_000 - n % 7, 109_000], 1_000 - n % 3, n % 7 + n % 3)
        for n, station in enumerate(con.electors)
    }


def of_commands():
    """The seconds that the commands that have ended took of the processor."""
    used = resource.getrusage(resource.RUSAGE_CHILDREN)
    return used.ru_utime + used.ru_stime


class Counted:
    """An office of one constituency beside the plain one, and what its steps take."""

    def __init__(self, count):
        self.count, self.db, self.took = count, f"office-{count}.db", {}
        self.setup = setup_of(count)
        self.plain = model.Office(tomllib.loads(self.setup))
        self.con = self.plain.cons["c1"]
        self.desk = None

    def asked(self, what, requests):
        """Each request is answered as by the plain office; what they take of the processor."""
        before = has_taken(self.desk)
        for method, path, body in requests:
            same(self.desk.ask(method, path, body)[::2], self.plain.ask(method, path, body), path)
        self.took.setdefault(what, []).append((has_taken(self.desk) - before) / len(requests))

    def command(self, what, run, *words, **how):
        """Runs a command, which is of all stations."""
        before = of_commands()
        run(*words, **how)
        self.took.setdefault(what, []).append((of_commands() - before) * 1e9)

    def cost(self, what):
        """The nanoseconds that a step takes, the median: for a station where it is of all, else for
        a request.
        """
        took = statistics.median(self.took[what])
        return took / self.count if what in OF_ALL else max(FEWEST, took)

    def edited(self, verb, later=0, **body):
        return post(f"/con/c1/{verb}", edition=self.con.edition + later, **body)

    def files(self):
        """The messages that import the returns in several files."""
        returns = list(returns_of(self.con).items())
        return [
            ("POST", "/con/c1/import", csv(self.con, dict(returns[start : start + IN_A_FILE])))
            for start in range(0, self.count, IN_A_FILE)
        ]

    def corrections(self):
        """Returns are queried and corrected, so that B has a vote of A more."""
        for station in list(self.con.electors)[::EACH]:
            it = self.con.returns[station]
            (a, b), kept = it["votes"], {key: it[key] for key in ("slip", "blank", "spoiled")}
            yield post(f"/station/{station}/query", rev=1, note="one vote of A is of B")
            # (one vote more than may be cast)
            yield post(f"/station/{station}/correct", rev=2, votes=[a, b + 1], **kept)
            yield post(f"/station/{station}/correct", rev=2, votes=[a - 1, b + 1], **kept)

    def closings(self):
        """Each second return is closed by a second entry."""
        for n, (station, it) in enumerate(self.con.returns.items()):
            entry = {key: it[key] for key in ("slip", "votes", "blank", "spoiled")}
            if n % 2:
                yield post(f"/station/{station}/confirm", rev=it["rev"], **entry)
            else:
                yield post(f"/station/{station}/close", rev=it["rev"])

    def turns(self):
        """The certificate is withdrawn and given again."""
        for n in range(0, OFTEN, 2):
            yield self.edited("reopen", n, note="recount")
            yield self.edited("certify", n + 1)


# The requests to the offices, one after the other. An import and a trial put the codes of all
# stations in order first.
STEPS = {
    "an import of 500 returns": Counted.files,
    "a trial": lambda it: [("POST", "/con/c1/trial", csv(it.con, returns_of(it.con)))] * SELDOM,
    "a return": lambda it: [
        get(f"/station/{code}") for code in [*it.con.electors][:: it.count // OFTEN]
    ],
    "a query and a correction": Counted.corrections,
    "a refused certificate": lambda it: [it.edited("certify")] * OFTEN,
    "a closing": Counted.closings,
    "the first certificate": lambda it: [it.edited("certify")],
    "a reopening and a certificate": Counted.turns,
    "a tally": lambda it: [get("/con/c1/tally")] * OFTEN,
    "the seats": lambda it: [get("/con/c1/seats")] * OFTEN,
    "a view": lambda it: [get("/con/c1")] * OFTEN,
    "progress and country": lambda it: LOOKS_AT_ALL * OFTEN,
    "the stations": lambda it: [get("/con/c1/stations")] * SELDOM,
    "the returns": lambda it: [get("/con/c1/returns")] * SELDOM,
}
# These are of all stations, the first of them commands.
OF_ALL = ("new", "an opening", "an import at once", "a trial", "the stations", "the returns")


def batches(requests):
    size = -(-len(requests) // TURNS)
    return [requests[start : start + size] for start in range(0, len(requests), size)]


def counted(towns):
    """The returns are imported, corrected and closed, and the constituencies are certified.

    The offices are asked in turn, so that other work on the machine disturbs both alike.
    """
    for it in towns:
        it.command("new", new, it.setup, it.db)
        it.desk = Desk(it.db, 1_000_000, env=before_the_library(WITHOUT_A_DISK))
    for what, requests in STEPS.items():
        parts = [batches(list(requests(it))) for it in towns]
        for turn in itertools.zip_longest(*parts):
            for it, part in zip(towns, turn):
                if part:
                    it.asked(what, part)
    for it in towns:
        it.desk.process.kill()
        it.desk.process.communicate()


def published_and_read_back(towns):
    """The offices are opened again. Their returns, as they print them, are imported into new
    offices at once, which have the same, and are counted again to the same seats.
    """
    for it in towns:
        shown_as(it.plain, it.db, ["c1"], ("progress",))
    for report in ("tally", "seats", "stations", "returns"):
        for it in towns:
            it.command("an opening", shown_as, it.plain, it.db, ["c1"], [report])
    for it in towns:
        text, again = show("returns", db=it.db).out, f"again-{it.count}.db"
        Path(f"published-{it.count}").mkdir()
        write(f"published-{it.count}/c1.csv", text)
        new(it.setup, again)
        it.command("an import at once", imports, {"lodged": it.count}, text, db=again)
        same(show("returns", db=again), Ran(0, text, ""))
        words = ("--setup", "setup.toml", "--returns", f"published-{it.count}")
        found = tools.run(
            [sys.executable, ROOT / "examples/recount.py", *words],
            capture_output=True,
            text=True,
            timeout=PATIENCE,
        )
        won = " ".join(f"{code} {n}" for code, n in zip(it.con.lists, it.con.certified))
        same(found.stdout, f"c1 {won} ({it.count} of {it.count} stations)\n")


class LargeConstituency(ProgramCase):
    def test_twenty_thousand_stations_cost_no_more_each_than_a_thousand(self):
        """Made, imported in several files, corrected, closed, certified, published, read back,
        counted again and opened again, each answer as that of the plain office. The 20,000 stations
        have together as many votes as a constituency may have.
        """
        towns = normal, large = Counted(NORMAL), Counted(LARGE)
        counted(towns)
        published_and_read_back(towns)
        for it in towns:
            votes, blank, spoiled = it.con.closed()
            self.assertEqual(sum(votes) + blank + spoiled, it.count * (ELECTORS + AGENTS))
            self.assertEqual(votes[1], 109_000 * it.count + it.count // EACH)
        self.assertEqual(LARGE * (ELECTORS + AGENTS), 5_000_000_000)
        for what in large.took:
            less, more = normal.cost(what), large.cost(what)
            if os.environ.get("TIMES"):
                print(f"{what:32} {less:14,.0f} {more:14,.0f} {more / less:6.2f}")
            with self.subTest(what=what):
                self.assertLessEqual(more, MOST * less)
