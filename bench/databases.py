"""Databases of an office, made by the program itself."""

import shutil
import sys
import tempfile
from dataclasses import dataclass, field
from pathlib import Path

from building import ROOT
from check import ELECTORS, LISTS, codes, short_row
from measuring import Numbers, run_timed
from serving import office, post

sys.path.append(str(ROOT))
from tests.support.office import constituency, party_list, profile, station

# Where files are kept in memory.
MEMORY = Path("/dev/shm")

PROFILES = profile("divisors") + "\n" + profile("quotas", "hare")


@dataclass
class Con:
    """A constituency, with a return of each of its stations."""

    stations: list
    code: str = "whole"
    profile: str = "divisors"
    seats: int = 9
    lists: list = field(default_factory=lambda: codes("list", LISTS))

    def setup(self):
        """Its part of a setup, with a table for each list and each station."""
        names = [f"Candidate {place}" for place in (1, 2, 3)]
        return "".join(
            [
                constituency(self.code, "Whole", self.seats, self.profile),
                *(party_list(code, f"List {code}", *names) for code in self.lists),
                *(station(code, ELECTORS) for code in self.stations),
            ]
        )

    def returns(self):
        """A return of each station, the same ones on every run: its station, its slip, and its counts,
        the blank votes, the spoiled ones and those of the lists."""
        numbers = Numbers(sum(self.code.encode()))
        most = ELECTORS // (len(self.lists) + 2)
        return [
            (station, f"slip-{place}", [numbers.below(most) for _ in range(len(self.lists) + 2)])
            for place, station in enumerate(self.stations)
        ]

    def text_of(self, returns):
        """The CSV of these returns."""
        header = ",".join(["station", "slip", "blank", "spoiled", *self.lists])
        return "\n".join([header, *(short_row(*a_return) for a_return in returns)]) + "\n"

    def rows(self):
        """How many rows `returns` and `counts` have with all returns."""
        return len(self.stations) * (len(self.lists) + 3)


def setup_of(cons):
    return PROFILES + "".join(con.setup() for con in cons)


def make(program, folder, name, cons):
    """Makes a database: what `office new` took."""
    setup = folder / "setup.toml"
    setup.write_text(setup_of(cons))
    return run_timed([program, "new", "--db", folder / name, "--setup", setup])


def import_returns(program, db, con, returns):
    """Imports these returns: what `office import` took."""
    text = db.with_name("returns.csv")
    text.write_text(con.text_of(returns))
    taken = run_timed(import_command(program, db, con, text))
    if taken.output.split()[:2] != [b"lodged", b"%d" % len(returns)]:
        sys.exit(f"not all returns were lodged: {taken.output}")
    return taken


def import_message(con, returns=None):
    """The message that imports these returns, or one of each of the constituency's stations."""
    return post(f"/con/{con.code}/import", con.text_of(returns or con.returns()).encode())


def import_command(program, db, con, text):
    return [program, "import", "--db", db, "--con", con.code, "--csv", text]


def show_command(program, db, report, con=None):
    return [program, "show", "--db", db, "--report", report, *(["--con", con.code] if con else [])]


def open_command(program, db):
    """A command that opens a database and is then refused, with status 1: no constituency has this code."""
    return [program, "show", "--db", db, "--report", "tally", "--con", "none"]


def closes_of(con):
    return [post(f"/station/{station}/close", {"rev": 1}) for station in con.stations]


def certify(con, edition=1):
    return post(f"/con/{con.code}/certify", {"edition": edition})


def reopen(con, edition):
    return post(f"/con/{con.code}/reopen", {"edition": edition, "note": "The record has another number."})


def ask_over_http(program, db, messages):
    """Asks the office on a database these messages."""
    with office(program, db, len(messages)) as server:
        return server.ask_all(messages)


def ask_in_memory(program, db, messages):
    """As the server on a disk, with its database in memory, so that no message waits for a disk."""
    place = MEMORY if MEMORY.is_dir() else db.parent
    with tempfile.TemporaryDirectory(dir=place) as folder:
        fast = Path(shutil.move(db, folder))
        taken = ask_over_http(program, fast, messages)
        shutil.move(fast, db)
    return taken
