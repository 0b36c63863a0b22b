"""The data of the papers: a copy of an office's database, counted again by recount.py, and what
the record of commands says of who entered each return and when."""

import contextlib
import hashlib
import json
import re
import sqlite3
from dataclasses import dataclass, field
from functools import cached_property
from pathlib import Path
from tempfile import TemporaryDirectory

from chain import Chain, hash_of_file
from press_data import json_text, read_setup, returns_csv
from press_parts import hundredths
from record_commands import items, said_in
from record_moments import latest
from record_unanswered import Shown
from scripts import script

# As tables have them: the status of a closed return, and the spoiled votes among its numbers.
CLOSED, SPOILED = 4, 61
MOST_VOTES, LAST = 1_000_000, 9_999
CODE = re.compile("[A-Za-z0-9_-]{1,16}")


class Refused(Exception):
    """No paper is printed: the key of the text that says why, with its values."""

    def __init__(self, key, **values):
        super().__init__(key)
        self.key, self.values = key, values


class Unusable(Exception):
    """A file is not what it has to be."""


recounts, entries = script("recount.py"), script("entries")


# ---- the database


@dataclass
class Return:
    """A return: its paper, its revision, and its numbers."""
    station: str
    revision: int
    slip: str
    status: int
    note: str
    blank: int
    spoiled: int
    votes: list

    @property
    def row(self):
        """Its row in the published returns."""
        return [self.station, self.slip, self.blank, self.spoiled, *self.votes]

    @property
    def valid(self):
        return sum(self.votes) + self.blank

    @property
    def papers(self):
        return self.valid + self.spoiled

    @property
    def figures(self):
        """Its slip and its numbers, as the record's reader has them."""
        return self.slip, items(self.votes, self.blank, self.spoiled)


@dataclass
class Con:
    """A constituency: what the setup says of it, and what the tables have. Places of lists are from
    1; `returns` are in the setup's order of stations."""
    setup: dict
    edition: int = 1
    certified: bool = False
    note: str = ""
    returns: list = field(default_factory=list)
    lot: list = field(default_factory=list)
    given: dict = field(default_factory=dict)
    gone: dict = field(default_factory=dict)
    past: dict = field(default_factory=dict)

    @property
    def code(self):
        return self.setup["code"]

    @property
    def lists(self):
        return self.setup["list"]

    @property
    def stations(self):
        return self.setup["station"]

    @cached_property
    def closed(self):
        return [one for one in self.returns if one.status == CLOSED]

    @property
    def left(self):
        """How many stations are not closed."""
        return len(self.stations) - len(self.closed)

    @cached_property
    def electors(self):
        return sum(station["electors"] for station in self.stations)

    @property
    def agents(self):
        return sum(station.get("agents", 0) for station in self.stations)

    @cached_property
    def blank(self):
        return sum(one.blank for one in self.closed)

    @cached_property
    def spoiled(self):
        return sum(one.spoiled for one in self.closed)

    @cached_property
    def votes(self):
        """The votes of each list by its place."""
        sums = [sum(column) for column in zip(*(one.votes for one in self.closed))]
        return dict(enumerate(sums or [0] * len(self.lists), 1))

    @cached_property
    def valid(self):
        return sum(self.votes.values()) + self.blank

    @property
    def base(self):
        """The votes of which the threshold and the shares are parts."""
        return self.valid if self.setup["rule"]["base"] == "valid" else sum(self.votes.values())

    def share(self, votes):
        """In hundredths of a per cent, as the pages have it."""
        return hundredths(votes, self.base)

    @cached_property
    def eligible(self):
        return recounts.taking_part(self.setup["rule"], self.votes, self.blank)

    @cached_property
    def lot_needed(self):
        """The places of the lists that a lot has to decide among; none where the votes decide."""
        return recounts.group(self.setup, self.votes, self.eligible) if self.eligible else []

    def elected(self, gone):
        """Per seat, by lists, where these are gone: the list's place, the candidate's place in it,
        and the name; None for both where nobody is left."""
        found = []
        for place, one in enumerate(self.lists, 1):
            seats = self.given.get(place, 0)
            left = [(order, name) for order, name in enumerate(one["candidates"], 1)
                    if (place, order) not in gone][:seats]
            found += [(place, *who) for who in left]
            found += [(place, None, None)] * (seats - len(left))
        return found

    @property
    def published(self):
        """The closed returns, byte for byte as the press pages publish them."""
        return returns_csv([one["code"] for one in self.lists], [one.row for one in self.closed])

    @cached_property
    def hash(self):
        return hashlib.sha256(self.published.encode()).hexdigest()

    @property
    def published_name(self):
        return f"stations-{self.code}-{self.edition if self.certified else 'open'}.csv"


def right(condition):
    """A row of a table is one that an office may have."""
    if not condition:
        raise ValueError("rows that no office has")


def read_return(con, numbers, row):
    """A return of a row, with its numbers by their items."""
    station, revision, slip, status, note = row
    items = {0, SPOILED, *range(1, len(con.lists) + 1)}
    right(numbers.keys() == items and all(0 <= n <= MOST_VOTES for n in numbers.values()))
    right(1 <= revision <= LAST and status in range(1, CLOSED + 1) and CODE.fullmatch(slip))
    votes = [numbers[place] for place in range(1, len(con.lists) + 1)]
    return Return(station, revision, slip, status, note, numbers[0], numbers[SPOILED], votes)


def read_con(select, setup):
    """A constituency as the tables have it."""
    con, code = Con(setup), [setup["code"]]
    [(con.edition, certified, con.note)] = select(
        "SELECT edition, certified, note FROM cons WHERE con = ?", code)
    right(1 <= con.edition <= LAST and certified in (0, 1))
    con.certified = bool(certified)
    numbers, found = {}, {}
    for station, item, n in select("SELECT station, item, n FROM counts JOIN returns "
                                   "USING (station) WHERE con = ?", code):
        numbers.setdefault(station, {})[item] = n
    for row in select("SELECT station, rev, slip, status, note FROM returns WHERE con = ?", code):
        found[row[0]] = read_return(con, numbers.get(row[0], {}), row)
    codes = [station["code"] for station in con.stations]
    right(found.keys() <= set(codes))
    con.returns = [found[station] for station in codes if station in found]
    con.lot = [place for place, in select("SELECT list FROM lots WHERE con = ? ORDER BY place",
                                          code)]
    con.given = dict(select("SELECT list, n FROM seats WHERE con = ?", code))
    con.gone = {(place, order): note for place, order, note in select(
        "SELECT list, place, note FROM gone WHERE con = ? ORDER BY list, place", code)}
    for edition, place, n in select("SELECT edition, list, n FROM past WHERE con = ? "
                                    "ORDER BY edition, list", code):
        con.past.setdefault(edition, {})[place] = n
    places = range(1, len(con.lists) + 1)
    right(set(con.lot) <= set(places) and all(
        place in places and 1 <= order <= len(con.lists[place - 1]["candidates"])
        for place, order in con.gone))
    return con


def read_copy(file):
    """The setup's text and the constituencies of a copy, by their codes. Each is counted again."""
    # (an index of a log, -shm, has nothing of its own, and a log without a byte has no commit)
    # (that of a database to which a link leads lies beside the database)
    at = file.resolve() if file.is_symlink() else file
    beside = [Path(f"{at}{end}") for end in ("-wal", "-journal")]
    for log in beside:
        if log.exists() and log.stat().st_size:
            raise Refused("not_a_copy", file=file, log=log)
    address = f"{file.resolve().as_uri()}?mode=ro&immutable=1"
    try:
        with contextlib.closing(sqlite3.connect(address, uri=True)) as it:
            [(version, text)] = it.execute("SELECT version, text FROM setup")
            if version != 2:
                raise Unusable(f"{file}: tables of version {version}, and this reads version 2")
            return text, dict(counted_again(it.execute, text))
    except (sqlite3.Error, ValueError, KeyError, TypeError) as error:
        raise Unusable(f"{file}: {error}") from error


def counted_again(select, text):
    """Each constituency with its code, where what is recorded agrees with its closed returns."""
    for setup in recounts.read_setup(text):
        try:
            wrong = recounts.recount(select, setup)
            con = None if wrong else read_con(select, setup)
        except (ValueError, KeyError, IndexError, TypeError) as error:
            wrong = [str(error)]
        if wrong:
            raise Refused("differs", con=setup["code"], words=", ".join(wrong))
        yield setup["code"], con


# ---- the record of commands


class Record(entries.Reading):
    """A record: who entered each return and when, its queries, and what was done to constituencies.
    `number` is that of its last line."""

    def __init__(self, setup):
        super().__init__(setup)
        # (the events by their moments)
        self.number, self.closers, self.events = 0, {}, {}
        # Of each correction, by its line, the figures before it and after it; and who was gone at
        # the last certificate of a constituency.
        self.corrections, self.gone_before, self.before = {}, {}, None

    def look(self, said):
        """Counts a line that the reader of entries would print: what a paper says of it is looked for there."""
        self.left += 1

    def put_back(self, said):
        """An office that was put back has its acts since then: entries names it."""

    def back_before(self, command, led):
        """Of an office that was put back these are the figures before this correction."""
        super().back_before(command, led)
        self.before = self.figures_before(command)

    def done(self, command, entry):
        left = self.left
        super().done(command, entry)
        if self.left == left and (command.what in ("correct", "draw") or note_of(command)):
            self.events[self.moment] = command
        if command.what == "correct":
            self.corrections[command.number] = self.before, self.figures_of(command.code)
        if command.what == "certify":
            self.gone_before[command.code] = set(self.gone)
        if command.what == "close":
            self.closers[command.code] = command.name, command.time

    def undo(self, station, revision=0):
        """Leaves out the events of a return after this revision: the office has them no more."""
        for moment in self.returns[station].moments[revision:]:
            self.events.pop(moment, None)
        super().undo(station, revision)

    def figures_before(self, command):
        """The slip and the numbers of a return before this correction; None where the record lacks
        an act before it, by the revision that it names."""
        known = self.returns.get(command.code, entries.Return()).revisions
        if command.what == "correct" and said_in(command.body, "rev") == len(known):
            return self.figures_of(command.code)
        return None

    # ---- of a constituency

    def gone_since(self, con):
        """Those who are gone since the certificate; None where the record does not say."""
        whole = len(self.editions[con.code]) - 1 == con.edition
        # (one of which the copy alone says that he is gone may have gone before the certificate)
        certified = latest(self.moments[con.code][-1])
        is_unsure = any(who[0] == con.code and moment < certified <= latest(moment)
                        for who, moment in self.gone.items())
        if not whole or is_unsure or self.lost_gone_of(con):
            return None
        return con.gone.keys() - self.places_of(con, self.gone_before.get(con.code, ()))

    def places_of(self, con, gone):
        """Those of a constituency among these, as the tables have them."""
        return {(place, order) for code, named, order in gone if code == con.code
                for place, one in enumerate(con.lists, 1) if one["code"] == named}

    def meet(self, con):
        """Refuses a record that knows more of the constituency than the copy, or something else."""
        of_copy = {one.station: one for one in con.returns}
        self.shown_by_copy({("station", code): Shown(one.revision, (one.status,), one.figures)
                            for code, one in of_copy.items()}
                           | {("con", con.code): Shown(con.edition, (con.certified,))}
                           | {("gone", con.code, con.lists[place - 1]["code"], order): Shown(1)
                              for place, order in con.gone})
        taken = {place for *_, places in self.borne_out.values() for place in places}
        for station in con.stations:
            known = self.returns[station["code"]].revisions if station["code"] in self.returns else []
            one = of_copy.get(station["code"])
            if len(known) > (one.revision if one else 0):
                raise Refused("copy_is_older", con=con.code, what=station["code"])
            if one and len(known) == one.revision and (
                    known[-1] != (one.status, one.figures)
                    or self.returns[one.station].notes[-1] not in (None, one.note)):
                if ("station", one.station) not in taken:
                    raise Refused("other_record", con=con.code, what=station["code"])
                # (another act than the one that was taken as done: nobody knows whose)
                del self.returns[one.station]
        known = self.editions[con.code]
        if len(known) - 1 > con.edition or self.places_of(con, self.gone) - con.gone.keys():
            raise Refused("copy_is_older", con=con.code, what=con.code)
        if len(known) - 1 == con.edition and (
                known[-1] != con.certified or any(self.others_past(con.code, con.edition, con.past))
                or self.reason_of(con) not in (None, con.note) or self.other_notes(con)):
            raise Refused("other_record", con=con.code, what=con.code)
        drawn = self.lots[con.code][-1][1]
        lot = tuple(con.lists[place - 1]["code"] for place in con.lot)
        # (a query that the record lacks may have removed the lot)
        is_later = bool(self.lost_of(con)) and not lot
        if len(known) - 1 == con.edition and lot != drawn and not is_later:
            raise Refused("other_record", con=con.code, what=con.code)

    def reason_of(self, con):
        """The note of its last reopening, which is empty before the first; None where nobody knows."""
        return ["", *self.reasons[con.code].values()][-1]

    def other_notes(self, con):
        """Those who are gone for another reason than this record has."""
        known = {(con.lists[place - 1]["code"], order): note
                 for (place, order), note in con.gone.items()}
        return [who for code, *who in self.gone_notes if code == con.code
                and self.gone_notes[code, *who] not in (None, known.get(tuple(who)))]

    def lost_of(self, con):
        """The stations of which it lacks an act."""
        return [one.station for one in con.returns if not self.is_whole_of(one)]

    def lost_gone_of(self, con):
        """The places of those who are gone by no act that it has."""
        return sorted(con.gone.keys() - self.places_of(con, self.gone))

    def lacks_edition_of(self, con):
        """Whether it lacks an act by which the constituency came to its edition: nobody knows which."""
        return len(self.editions[con.code]) - 1 < con.edition

    def is_whole_of(self, one):
        """Whether it has each revision of a return."""
        return one.station in self.returns and len(
            self.returns[one.station].revisions) == one.revision

    def typed(self, one):
        """Who entered a return first, and who entered it again or closed it: name and time each,
        or None where the record does not say; and whether it was entered again."""
        found = self.returns.get(one.station, entries.Return())
        if not self.is_whole_of(one):
            return None, None, bool(found.second)
        return found.first, found.second or self.closers.get(one.station), bool(found.second)

    def events_of(self, con, what):
        """The commands done to a constituency or its stations, in order."""
        codes = {con.code} if what in ("reopen", "draw") else {
            station["code"] for station in con.stations}
        return [one for one in self.events.values() if one.what == what and one.code in codes]


def of_whole(file, cons):
    """Whether a setup.json has these constituencies. One of an older package does not say that a
    return has two entries."""
    try:
        known = {con["code"]: con for con in json.loads(file.read_text(encoding="utf-8"))}
    except (ValueError, KeyError, TypeError, RecursionError) as error:
        raise Unusable(f"{file}: {error}") from error
    return all(known.get(con["code"]) in (con, {key: con[key] for key in con if key != "entry"})
               for con in cons)


def read_record(file, text, whole=None):
    """The record of the office of a setup; where the setup is a part of another one, `whole` is its
    setup.json."""
    setup = {"constituency": recounts.read_setup(text)}
    with TemporaryDirectory(prefix="office-papers-") as folder:
        copy = Path(folder, "setup.toml")
        copy.write_text(text, encoding="utf-8")
        made = json_text(read_setup(copy))
    digest = hash_of_file(whole) if whole else hashlib.sha256(made.encode()).hexdigest()
    if whole and not of_whole(whole, json.loads(made)):
        raise Refused("setup_of_another", file=whole)
    record, chain, faults = Record(setup), Chain(), []
    with open(file, "rb") as data:
        lines = list(data)
    record.answered = entries.answered_in(lines)
    for number, line in enumerate(lines, 1):
        faults += chain.take(line.removesuffix(b"\n"))
        record.take(number, line.decode(errors="surrogateescape").rstrip("\n"))
    if faults:
        raise Refused("record_broken", file=file, fault=faults[0])
    if chain.setup not in (None, digest):
        raise Refused("record_of_another", file=file)
    record.number = chain.number
    return record


def gone_since(con, record):
    """Those who are gone since the certificate, whom it has among the elected; None where nobody
    knows. A seat is vacated only under a certificate: since the first one, all of them are gone."""
    if not con.gone or not con.past:
        return con.gone.keys()
    return record.gone_since(con) if record else None


def note_of(command):
    """The note of a query or a reopening; None where it has none, with which no office does it."""
    note = entries.note_of(command.body) if command.what in ("query", "reopen") else None
    return note if isinstance(note, str) else None
