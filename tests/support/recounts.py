"""Random polls: the office's own answers to lots, beside what a recount says of the same lots."""

import importlib.util
import io
import json
import random
import re
import shutil
import string
import sys
from collections import Counter
from contextlib import contextmanager, redirect_stdout
from dataclasses import dataclass, field
from pathlib import Path
from unittest.mock import patch

from tests.support.case import ROOT
from tests.support.desk import Desk
from tests.support.office import constituency, party_list, profile, station
from tests.support.program import database, new, office
from tests.support.running import PATIENCE

SPEC = importlib.util.spec_from_file_location("recount", ROOT / "examples/recount.py")
RECOUNT = importlib.util.module_from_spec(SPEC)
SPEC.loader.exec_module(RECOUNT)
METHODS = ("dhondt", "sainte-lague", "modified-sainte-lague", "hare")
THRESHOLDS = (0, 0, 0, 300, 1000, 2000, 2500, 3333, 5000, 10000)
MISSING, OTHER, NONE = "a lot is missing", "a lot of other lists", "no list takes part"
# The words of the office's refusals, and of a recount.
WORDS = {
    "lot_missing": MISSING,
    "lot_wrong_group": OTHER,
    "lot_not_needed": OTHER,
    "no_eligible": NONE,
}


@dataclass
class Poll:
    """A constituency of one station, a lot that is tried at random, and what the office answers."""

    code: str
    rule: dict
    seats: int
    votes: list
    blank: int
    tried: list
    refused: str = ""  # the word that refuses the lot that is tried
    alone: str = ""  # the word that refuses a certificate without a lot
    lot: list = field(default_factory=list)  # with which it is certified
    won: list = field(default_factory=list)  # the certified seats, if there is a certificate

    @property
    def lists(self):
        return list(string.ascii_uppercase[: len(self.votes)])

    def setup(self):
        """Its profile, and its constituency."""
        rule, code = self.rule, self.code
        first = profile(code, rule["method"], rule["threshold"], rule["base"])
        lists = "".join(party_list(one, f"List {one}", "x") for one in self.lists)
        town = constituency(code, f"Town {code}", self.seats, code)
        return first + f'lot = "{rule["lot"]}"\n', town + lists + station(f"s{code}", 1000)

    def returns(self):
        counts = ",".join(map(str, [self.blank, 0, *self.votes]))
        header = ",".join(["station", "slip", "blank", "spoiled", *self.lists])
        return f"{header}\ns{self.code},p1,{counts}\n"

    def rows(self):
        """The rows of a closed return, for the tables of the office."""
        items = enumerate([self.blank, *self.votes])
        return [*items, (61, 0)]


def random_poll(draw, code):
    """A poll in which equal votes, equal quotients and lists at the threshold are frequent."""
    most = draw.choice((1, 2, 4, 12, 100))
    votes = [draw.randrange(most + 1) for _ in range(draw.randrange(1, 7))]
    if draw.random() < 0.5:
        votes = [draw.choice((one, votes[0])) for one in votes]
    rule = {
        "method": draw.choice(METHODS),
        "threshold": draw.choice(THRESHOLDS),
        "base": draw.choice(("valid", "lists")),
        "lot": draw.choice(("fixed", "alternating")),
    }
    seats, blank = draw.randrange(1, 10), draw.randrange(most + 1)
    poll = Poll(code, rule, seats, votes, blank, [])
    poll.tried = draw.sample(poll.lists, draw.randrange(1, len(votes) + 1))
    return poll


def make(polls, db):
    """An office of these polls, each with its return closed."""
    profiles, towns = zip(*(poll.setup() for poll in polls))
    new("".join(profiles) + "".join(towns), db, len(polls))
    with database(db) as it:
        for poll in polls:
            row = (f"s{poll.code}", poll.code, 2, "p1", 4, "")
            it.execute("INSERT INTO returns VALUES (?, ?, ?, ?, ?, ?)", row)
            for item, n in poll.rows():
                it.execute("INSERT INTO counts VALUES (?, ?, ?)", (f"s{poll.code}", item, n))
                at = (n, poll.code, item)
                it.execute("UPDATE totals SET n = ? WHERE con = ? AND item = ?", at)


@contextmanager
def desk_of(db, connections):
    desk = Desk(db, connections)
    try:
        yield desk
    finally:
        desk.process.terminate()
        desk.process.communicate(timeout=PATIENCE)
        # The next command that opens the database takes in the log.
        office("show", "--db", db, "--report", "progress")


def asked(desk, poll, verb, **body):
    """The office's answer to a command on a poll."""
    _, _, answer = desk.ask("POST", f"/con/{poll.code}/{verb}", json.dumps(body))
    return json.loads(answer)


def decide(desk, poll, draw):
    """Draws a lot and certifies, as far as the office lets it.

    The lot that is tried comes first, then a certificate without a lot, then the lists that the
    office names, in an order at random.
    """
    found = asked(desk, poll, "draw", edition=1, order=poll.tried)
    poll.refused = found.get("word", "")
    if not poll.refused:
        poll.lot, poll.alone = poll.tried, "lot_missing"
    else:
        found = asked(desk, poll, "certify", edition=1)
        poll.alone = found.get("word", "")
        if poll.alone == "lot_missing":
            poll.lot = draw.sample(found["group"], len(found["group"]))
            assert asked(desk, poll, "draw", edition=1, order=poll.lot)["ok"], poll
    if poll.lot:
        assert asked(desk, poll, "certify", edition=2)["ok"], poll
    if poll.lot or not poll.alone:
        _, _, answer = desk.ask("GET", f"/con/{poll.code}")
        poll.won = json.loads(answer)["seats"]


def recounted(*words):
    """The lines of a recount by their constituencies, and its exit status."""
    said = io.StringIO()
    with redirect_stdout(said), patch.object(sys, "argv", ["recount.py", *words]):
        status = RECOUNT.main()
    return dict(line.split(" ", 1) for line in said.getvalue().splitlines()), status


LOTS = {
    "right": lambda poll: poll.lot,
    "tried": lambda poll: poll.tried,
    "none": lambda poll: [],
}


def wanted(poll, kind):
    """The words that a recount has to say of a lot, by the office's own answers."""
    word = {"right": "", "tried": poll.refused, "none": poll.alone}[kind]
    if kind == "right" or word == "no_eligible":
        idle = poll.alone == "no_eligible"
        return [NONE] * idle + [OTHER] * (idle and kind == "tried")
    return [WORDS[word]] if word else []


def of_returns(polls, kind):
    """Recounts the published returns with lots of a kind; yields what differs from the office."""
    Path("published").mkdir(exist_ok=True)
    for poll in polls:
        Path(f"published/{poll.code}.csv").write_text(poll.returns(), encoding="utf-8")
    lots = {poll.code: LOTS[kind](poll) for poll in polls}
    text = "".join(" ".join([code, *lot]) + "\n" for code, lot in lots.items() if lot)
    Path("lots").write_text(text, encoding="utf-8")
    files = ("--setup", "setup.toml", "--returns", "published", "--lots", "lots")
    said, status = recounted(*files)
    for poll in polls:
        words = "; ".join(["1 of 1 stations", *wanted(poll, kind)])
        seats = dict(re.findall(r"([A-Z]) ([0-9]+)", said[poll.code].split("(")[0]))
        is_right = list(map(int, seats.values())) == poll.won
        is_whole = sum(map(int, seats.values())) == (poll.seats if poll.won else 0)
        if not said[poll.code].endswith(f"({words})") or not is_whole:
            yield poll, kind, said[poll.code]
        elif kind == "right" and poll.won and not is_right:
            yield poll, kind, said[poll.code]
    is_wrong = any(set(wanted(poll, kind)) - {NONE} for poll in polls)
    if status != is_wrong:
        yield "status", kind, status


def put_lots(db, polls, kind):
    """Writes lots of a kind into the tables, past the office."""
    with database(db) as it:
        for poll in polls:
            it.execute("DELETE FROM lots WHERE con = ?", (poll.code,))
            for place, code in enumerate(LOTS[kind](poll), 1):
                row = (poll.code, place, poll.lists.index(code) + 1)
                it.execute("INSERT INTO lots VALUES (?, ?, ?)", row)


def of_database(polls, kind, db="copy.db"):
    """Recounts the certified database with lots of a kind; yields what differs from the office."""
    shutil.copy("office.db", db)
    put_lots(db, polls, kind)
    said, status = recounted(db)
    for poll in polls:
        words = [word for word in wanted(poll, kind) if word != NONE]
        # Without the lot the recorded seats may be another list's.
        found = said[poll.code].replace("differs: seats, ", "differs: ")
        if found != ("differs: " + ", ".join(words) if words else "agrees"):
            yield poll, kind, said[poll.code]
    if status != any(line != "agrees" for line in said.values()):
        yield "status", kind, status


def of_the_office(polls, kind, draw, db="one.db"):
    """Gives one constituency a lot of a kind; yields it unless the office judges it as wanted."""
    poll = draw.choice(polls)
    shutil.copy("office.db", db)
    put_lots(db, [poll], kind)
    opened = office("show", "--db", db, "--report", "progress")
    if (opened.status == 0) != (not set(wanted(poll, kind)) - {NONE}):
        yield poll, kind, opened


def batch(seed, count):
    """Makes an office of random polls in this folder: the polls, and all that differs."""
    draw = random.Random(seed)
    polls = [random_poll(draw, f"c{n}") for n in range(count)]
    make(polls, "office.db")
    with desk_of("office.db", 6 * count) as desk:
        for poll in polls:
            decide(desk, poll, draw)
    differs = []
    for kind in LOTS:
        differs += of_returns(polls, kind)
        differs += of_database(polls, kind)
        differs += of_the_office(polls, kind, draw)
    return polls, differs


def kinds_of(polls):
    """How many polls had a lot of which kind tried, by the office's answers."""
    counts = Counter()
    for poll in polls:
        right = "a lot that was needed" if poll.lot else "no lot needed"
        counts[right if poll.won else "no list eligible"] += 1
        counts["a certificate without the lot"] += poll.alone == "lot_missing"
        counts["a wrong lot"] += poll.refused == "lot_wrong_group"
        counts["a needless lot"] += poll.refused == "lot_not_needed"
    return counts
