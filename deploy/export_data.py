"""The published files of an election, as `export` reads them: each by the hash that manifest.json
has of it, and all of them in agreement."""

import csv
import hashlib
import io
import json
import math
import re
import stat
from collections import Counter, defaultdict
from dataclasses import dataclass, field
from datetime import date, datetime
from functools import cached_property

from press_data import NO_XML, OPEN, STATION, VERSION, returns_in

NUMBER = re.compile("[0-9]{1,10}")
CODE = re.compile("[A-Za-z0-9_-]{1,16}")
# The columns of results.csv that are sums of a constituency.
PLAIN = ("closed", "electors", "valid", "blank", "spoiled")


class Refused(Exception):
    """Nothing is written: the key of the text that says why, with its values."""

    status = 1

    def __init__(self, key, **values):
        super().__init__(key)
        self.key, self.values = key, values


class Unusable(Refused):
    """A file is missing, or is not what it has to be."""

    status = 2


class NotWritten(Refused):
    """The folder could not be written."""

    status = 3


# ---- sums: numbers by their kind and the list that they are of


def of_kinds(sums, *kinds):
    return {key: n for key, n in sums.items() if key[0] in kinds}


def compare(file, con, found, published):
    """Refuses sums that are not those of results.csv."""
    for key in sorted(found.keys() | published.keys()):
        one, other = found.get(key, 0), published.get(key, 0)
        if one != other:
            raise Refused("differs", file=file, con=con, what=key, found=one, published=other)


def compare_all(file, found, cons, *kinds):
    """Compares the sums of all constituencies of a file, which has these kinds of them."""
    for con in cons:
        compare(file, con.code, found.get(con.code, {}), of_kinds(con.published, *kinds))


# ---- an election


@dataclass
class Return:
    """A closed return: its station, and its numbers."""

    station: str
    blank: int
    spoiled: int
    votes: list

    @property
    def valid(self):
        return sum(self.votes) + self.blank

    @property
    def papers(self):
        return self.valid + self.spoiled


@dataclass
class Con:
    """A constituency: its entry in setup.json, its sums in results.csv, its closed returns by their
    stations and, where it is certified, who is elected: list, place in it and name, or None for
    both where a seat is empty. After a vacancy that is who holds the seat now; `left` has the lists
    of which somebody has left who would hold a seat."""

    setup: dict
    published: dict
    certified: bool
    returns: dict = field(default_factory=dict)
    elected: list = field(default_factory=list)
    left: set = field(default_factory=set)

    @property
    def code(self):
        return self.setup["code"]

    @property
    def name(self):
        return self.setup["name"]

    @property
    def lists(self):
        return self.setup["lists"]

    @property
    def stations(self):
        return self.setup["stations"]

    @property
    def electors(self):
        return sum(station["electors"] for station in self.stations)

    @cached_property
    def total(self):
        """The sum of its returns, as a return."""
        found = self.returns.values()
        votes = [sum(column) for column in zip(*(one.votes for one in found))]
        return Return(self.code, sum(one.blank for one in found),
                      sum(one.spoiled for one in found), votes or [0] * len(self.lists))

    @property
    def seats(self):
        """The seats of each list by its code; none without a certificate."""
        given = Counter(code for code, *_ in self.elected)
        return {one["code"]: given[one["code"]] for one in self.lists} if self.certified else {}

    @property
    def sums(self):
        """The sums of its returns and its seats, as results.csv has them."""
        codes = [one["code"] for one in self.lists]
        return {("closed", ""): len(self.returns), ("electors", ""): self.electors,
                ("valid", ""): self.total.valid, ("blank", ""): self.total.blank,
                ("spoiled", ""): self.total.spoiled,
                **{("votes", code): n for code, n in zip(codes, self.total.votes)},
                **{("seats", code): n for code, n in self.seats.items()}}


def vacated(cons):
    """The codes of the constituencies in which somebody has left."""
    return ", ".join(con.code for con in cons if con.left)


@dataclass
class Election:
    """All constituencies, with what the published files say of the whole."""

    title: str
    authority: str
    time: str
    day: date
    cons: list
    stations: dict

    @property
    def certified(self):
        return [con for con in self.cons if con.certified]

    @property
    def empty(self):
        """The empty seats of each certified constituency, by lists."""
        return {con.code: Counter(("seats", code) for code, _, name in con.elected if name is None)
                for con in self.certified}

    def name_of(self, station):
        return self.stations.get(station, {}).get("name") or station


# ---- reading


class Pages:
    """The folder of the pages. `last` is the file that was read last."""

    def __init__(self, folder):
        self.folder, self.last = folder, "manifest.json"
        manifest = json.loads(self.bytes_of(self.last))
        self.time, self.hashes = manifest["time"], manifest["files"]
        datetime.fromisoformat(self.time)
        if manifest["version"].partition(".")[0] != VERSION.partition(".")[0]:
            raise Unusable("version", file=folder / self.last, version=manifest["version"],
                           wanted=VERSION)

    def bytes_of(self, name):
        self.last, file = name, self.folder / name
        try:
            # (a pipe would be waited for, and a device may have no end)
            if not stat.S_ISREG(file.stat().st_mode):
                raise Unusable("no_file", file=file, error="not a regular file")
            return file.read_bytes()
        except OSError as error:
            raise Unusable("no_file", file=file, error=error.strerror) from error

    def text(self, name):
        """The text of a file, which has to be the one that manifest.json names."""
        data = self.bytes_of(name)
        if hashlib.sha256(data).hexdigest() != self.hashes.get(name):
            raise Refused("other_file", file=self.folder / name)
        return data.decode()

    def json(self, name):
        return json.loads(self.text(name))

    def rows(self, name):
        return list(csv.DictReader(io.StringIO(self.text(name), newline="")))


def number(text):
    if not NUMBER.fullmatch(text):
        raise ValueError(f"{text!r} is no number")
    return int(text)


def check_setup(setup):
    """Each code and number of setup.json is as the office has them."""
    for entry in setup:
        parts = [entry, *entry["lists"], *entry["stations"]]
        if wrong := [one["code"] for one in parts if not CODE.fullmatch(one["code"])]:
            raise ValueError(f"{wrong[0]!r} is no code")
        numbers = [entry["seats"], *(station["electors"] for station in entry["stations"])]
        if wrong := [n for n in numbers if type(n) is not int or n < 1]:
            raise ValueError(f"{wrong[0]!r} is no number")


def published_sums(rows):
    """The sums of a constituency in results.csv, each row of which has those of the whole."""
    whole = [[row[key] for key in (*PLAIN, "edition", "certified")] for row in rows]
    if whole.count(whole[0]) != len(whole):
        raise ValueError("the rows of a constituency differ")
    found = {(key, ""): number(rows[0][key]) for key in PLAIN}
    for row in rows:
        found["votes", row["list"]] = number(row["votes"])
        if row["certified"] == "true":
            found["seats", row["list"]] = number(row["seats"])
    return found


def read_returns(pages, con, name):
    """The closed returns of a file, by their stations."""
    columns, rows = returns_in(pages.text(name))
    known, found = {station["code"] for station in con.stations}, {}
    if columns != [*STATION, *(one["code"] for one in con.lists)]:
        raise Refused("other_setup", file=name, con=con.code)
    for station, _, *cells in rows:
        if station not in known or station in found:
            raise Refused("other_setup", file=name, con=con.code)
        blank, spoiled, *votes = map(number, cells)
        if len(votes) != len(con.lists):
            raise ValueError(f"the row of {station} has another length")
        found[station] = Return(station, blank, spoiled, votes)
    return found


def lists_left(gone, elected):
    """The lists of which somebody has left who would hold a seat. Who is gone stays so after a
    reopening, where the list may have fewer seats, or none."""
    last = {}
    for listed, place, _ in elected:
        last[listed] = max(last.get(listed, 0), place or math.inf)
    return {one["list"] for one in gone if one["place"] < last.get(one["list"], 0)}


def read_con(pages, setup, row, sums):
    """A constituency of which all that is published agrees: a row of it in results.csv, and its
    sums there."""
    code, certified = setup["code"], row["certified"] == "true"
    state = pages.json(f"con-{code}.json")
    lists = [(row["code"], row["name"]) for row in state["tally"]["lists"]]
    if (state["tally"]["name"], state["rule"]["seats"], lists) != (
            setup["name"], setup["seats"], [(one["code"], one["name"]) for one in setup["lists"]]):
        raise Refused("other_setup", file=pages.last, con=code)
    if (state["view"]["certified"], str(state["view"]["edition"])) != (
            certified, row["edition"]):
        raise Refused("other_moment", file=pages.last, con=code)
    con = Con(setup, sums, certified)
    if certified:
        con.elected = [(one["list"], one["place"], one["name"]) for one in state["holders"]]
        con.left = lists_left(state["view"]["gone"], con.elected)
        compare(pages.last, code, {("seats", one): n for one, n in state["seats"]["seats"].items()},
                of_kinds(sums, "seats"))
    if sums["closed", ""]:
        edition = row["edition"] if certified else OPEN
        con.returns = read_returns(pages, con, f"stations-{code}-{edition}.csv")
    compare(pages.last, code, con.sums, sums)
    if certified and con.elected != holders_of(con, state["view"]["gone"]):
        raise Refused("other_setup", file=f"con-{code}.json", con=code)
    return con


def holders_of(con, gone):
    """Who holds the seats by law: of each list the first of its candidates who are not gone, and
    where there are no more nobody."""
    left, found = {(one["list"], one["place"]) for one in gone}, []
    for one in con.lists:
        code, seats = one["code"], con.published["seats", one["code"]]
        stay = [who for who in enumerate(one["candidates"], 1) if (code, who[0]) not in left]
        found += [(code, *who) for who in [*stay, *[(None, None)] * seats][:seats]]
    return found


def names_of(election):
    """All names that are written."""
    yield from (election.title, election.authority)
    yield from (one["name"] for one in election.stations.values())
    for con in election.cons:
        yield con.name
        for one in con.lists:
            yield from (one["name"], *one["candidates"])


def read_all(pages, day):
    package, setup = pages.json("datapackage.json"), pages.json("setup.json")
    check_setup(setup)
    authority = next((one["title"] for one in package.get("contributors", ())), "")
    stations = pages.json("site.json")["stations"] if "site.json" in pages.hashes else {}
    rows = defaultdict(list)
    for row in pages.rows("results.csv"):
        rows[row["con"]].append(row)
    if other := rows.keys() ^ {entry["code"] for entry in setup}:
        raise Refused("other_setup", file="results.csv", con=min(other))
    sums = {code: published_sums(of_con) for code, of_con in rows.items()}
    cons = [read_con(pages, entry, rows[entry["code"]][0], sums[entry["code"]])
            for entry in setup]
    election = Election(package["title"], authority, pages.time, day, cons, stations)
    for name in names_of(election):
        if found := NO_XML.search(name):
            raise Refused("letter", name=name, letter=f"U+{ord(found[0]):04X}")
    return election


def read_election(folder, day):
    """The election whose pages are in a folder."""
    pages = None
    try:
        pages = Pages(folder)
        return read_all(pages, day)
    except (ValueError, KeyError, TypeError, IndexError, AttributeError, RecursionError,
            csv.Error) as error:
        file = folder / (pages.last if pages else "manifest.json")
        raise Unusable("unreadable", file=file, error=f"{type(error).__name__}: {error}") from error
