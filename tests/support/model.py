"""An office in plain Python: what the law and docs/FORMATS.md say of allotments, reports and
commands, in whole numbers.

Tests compare the program with it. It keeps all in dictionaries and counts everything again at each
request.
"""

import heapq
import itertools
import json
import math
import re
from functools import cached_property

from tests.support.model_reports import REPORTS, Unreported, country, progress, result, shown

# The divisors of the rules, and what the votes are multiplied by: the modified rule divides by 1.4,
# 3, 5 and so on, in fifths.
DIVISORS = {
    "dhondt": lambda k: k,
    "sainte-lague": lambda k: 2 * k - 1,
    "modified-sainte-lague": lambda k: 7 if k == 1 else 10 * k - 5,
}
UNITS = {"dhondt": 1, "sainte-lague": 1, "modified-sainte-lague": 5}

REFUSALS = dict(
    enumerate(
        (
            ("no_station", 404),
            ("no_constituency", 404),
            ("no_candidate", 404),
            ("bad_counts", 400),
            ("bad_note", 400),
            ("too_many_votes", 400),
            ("differs", 409),
            ("no_return", 404),
            ("certified", 409),
            ("not_certified", 409),
            ("stale", 409),
            ("exhausted", 409),
            ("wrong_status", 409),
            ("not_all_closed", 409),
            ("no_eligible", 409),
            ("lot_stands", 409),
            ("lot_not_needed", 409),
            ("lot_wrong_group", 409),
            ("lot_missing", 409),
            ("already_gone", 409),
            ("not_holder", 409),
        ),
        1,
    )
) | {24: ("not_confirmed", 409)}

STATUSES = ("received", "queried", "corrected", "closed")

LAST = 9999

CODE = "[A-Za-z0-9_-]{1,16}"


class Refused(Exception):
    """A command is refused with this number, and with what belongs to it."""

    def __init__(self, number, **more):
        super().__init__(number)
        self.number, self.more = number, more


def need(holds, number, **more):
    if not holds:
        raise Refused(number, **more)


def compact(value):
    return json.dumps(value, ensure_ascii=False, sort_keys=True, separators=(",", ":"))


# ---- allotments


def tied(ranked, seats):
    """Of ranks in falling order those that are equal to the last one that wins, and how many of
    them win.
    """
    if seats == 0:
        return [], 0
    last = ranked[seats - 1][:2]
    equal = [rank for rank in ranked if rank[:2] == last]
    return equal, sum(rank[:2] == last for rank in ranked[:seats])


class Poll:
    """The allotment of this many seats among votes for lists, which are numbered from 0.

    A lot is the numbers of its lists in its order.
    """

    def __init__(self, profile, seats, votes, blank, lot=()):
        self.method, self.seats, self.votes = profile["method"], seats, votes
        self.turns = {n: turn for turn, n in enumerate(lot)}
        self.alternates = profile.get("lot", "fixed") == "alternating"
        self.base = sum(votes) + (blank if profile["base"] == "valid" else 0)
        self.eligible = [
            n
            for n, v in enumerate(votes)
            if v > 0 and v * 10000 >= profile["threshold"] * self.base
        ]
        self.total = sum(votes[n] for n in self.eligible)

    def place(self, n, k=1):
        """The place of a list among equals: the least one comes first.

        An alternating lot is turned round for each even seat of its lists.
        """
        if n not in self.turns:
            return n
        return -self.turns[n] if self.alternates and k % 2 == 0 else self.turns[n]

    def divisor(self, k):
        return DIVISORS[self.method](k)

    def in_units(self, n):
        """The votes of a list in the unit in which the rule counts, of which its divisors make
        quotients.
        """
        return self.votes[n] * UNITS[self.method]

    @cached_property
    def scale(self):
        """The number that each divisor divides, so that a quotient times this is a whole number."""
        return math.lcm(*map(self.divisor, range(1, self.seats + 1)))

    def quotient(self, votes, k):
        return votes * (self.scale // self.divisor(k))

    def pairs_of(self, n):
        """The pairs of a list and one of its seats: their quotients fall."""
        votes = self.votes[n]
        for k in range(1, self.seats + 1):
            yield self.quotient(votes, k), votes, -self.place(n, k), n, k

    @cached_property
    def pairs(self):
        """The pairs of an eligible list and one of its seats, those of a greater quotient first,
        then of more votes, then by place: as many as the seats, twice, and one of each list. Beyond
        the seats are those that are equal to the last one, at most one of a list, and those that a
        list would have to overtake, which are fewer than the seats without its own.
        """
        found = heapq.merge(*map(self.pairs_of, self.eligible), reverse=True)
        return list(itertools.islice(found, 2 * self.seats + len(self.votes)))

    def claims(self):
        """Under Hare the claims to a seat that the whole quotas leave, those of a greater remainder
        first, and how many such seats are left.
        """
        found = [(self.quota(n)[1], self.votes[n], -self.place(n), n) for n in self.eligible]
        return sorted(found, reverse=True), self.seats - sum(
            self.quota(n)[0] for n in self.eligible
        )

    def quota(self, n):
        """The whole quotas of a list, and what they leave of its votes times the seats."""
        return divmod(self.votes[n] * self.seats, self.total)

    def ranked(self):
        return self.claims() if self.method == "hare" else (self.pairs, self.seats)

    def group(self):
        """The lists among which a lot is needed, and how many seats are in question: none and 0
        where the votes decide.
        """
        equal, win = tied(*self.ranked())
        return (sorted(rank[3] for rank in equal), win) if 0 < win < len(equal) else ([], 0)

    def awards(self):
        return [(n, k) for _, _, _, n, k in self.pairs[: self.seats]]

    def allotted(self):
        ranked, left = self.ranked()
        return self.seats_of(ranked[:left])

    def least(self):
        """The seats of each list whatever lot is drawn: the ranks that win, without those among
        which one is needed.
        """
        ranked, left = self.ranked()
        equal, win = tied(ranked, left)
        open_ranks = equal if 0 < win < len(equal) else []
        return self.seats_of([rank for rank in ranked[:left] if rank not in open_ranks])

    def seats_of(self, ranks):
        won = [rank[3] for rank in ranks]
        whole = [
            self.quota(n)[0] if self.method == "hare" and n in self.eligible else 0
            for n in range(len(self.votes))
        ]
        return [whole[n] + won.count(n) for n in range(len(self.votes))]

    def short(self, n, held):
        """The least number of votes more with which a list is sure of one more seat: its next pair
        is then above all but that many of others.
        """
        if held == self.seats:
            return None
        others = (pair for pair in self.pairs if pair[3] != n)
        lowest = next(itertools.islice(others, self.seats - held - 1, None))
        least = -(-lowest[0] // self.quotient(1, held + 1))
        # With an equal quotient the list of more votes is above.
        enough = least if (self.quotient(least, held + 1), least) > lowest[:2] else least + 1
        return enough - self.votes[n]


# ---- the office


class Con:
    """A constituency of a setup, with what it has come to.

    Lists are numbered from 0, candidates from 1.
    """

    def __init__(self, setup, profile):
        self.setup, self.profile, self.code, self.seats = (
            setup,
            profile,
            setup["code"],
            setup["seats"],
        )
        self.lists = [one["code"] for one in setup["list"]]
        self.names = [one["name"] for one in setup["list"]]
        self.candidates = [one["candidates"] for one in setup["list"]]
        self.electors = {station["code"]: station["electors"] for station in setup["station"]}
        self.entitled = {
            station["code"]: station["electors"] + station.get("agents", 0)
            for station in setup["station"]
        }
        self.twice = setup.get("entry", "single") == "double"
        self.returns, self.edition, self.certified, self.note = {}, 1, None, ""
        self.lot, self.gone, self.past = [], {}, {}
        self.polled = None, None

    def statuses(self):
        return [sum(it["status"] == status for it in self.returns.values()) for status in STATUSES]

    def closed(self):
        """The closed votes: those of each list, blank ones, spoiled ones."""
        found = [it for it in self.returns.values() if it["status"] == "closed"]
        votes = list(map(sum, zip(*(it["votes"] for it in found)))) or [0] * len(self.lists)
        return votes, sum(it["blank"] for it in found), sum(it["spoiled"] for it in found)

    def poll(self):
        """The allotment of the closed votes: the last one, unless they or the lot have changed."""
        votes, blank, _ = self.closed()
        if self.polled[0] != (votes, blank, self.lot):
            self.polled = (votes, blank, self.lot), Poll(
                self.profile, self.seats, votes, blank, self.lot
            )
        return self.polled[1]

    def holders(self, n):
        left = [
            place for place in range(1, len(self.candidates[n]) + 1) if (n, place) not in self.gone
        ]
        return left[: self.certified[n]]


def wrong_in(con, fields):
    """The first of what is wrong with a row that cannot be read."""
    header = ["station", "slip", "blank", "spoiled", *con.lists]
    if len(fields) != len(header):
        return f"fields {len(fields)}"
    station, slip, *numbers = fields
    if not re.fullmatch(CODE, station):
        return "bad_station"
    if station not in con.electors:
        return "no_station"
    if not re.fullmatch(CODE, slip):
        return "bad_slip"
    return next(
        (
            f"bad_number {column}"
            for column, n in zip(header[2:], numbers)
            if not re.fullmatch("[0-9]{1,9}", n)
        ),
        None,
    )


def counted(answers):
    """How many rows came to what, and the first that is named, with its number."""
    counts = dict.fromkeys(("lodged", "same", "differs", "refused", "bad"), 0) | {"first": None}
    for row, (answer, of, _) in enumerate(answers, 1):
        counts[answer] += 1
        if of is not None and counts["first"] is None:
            counts["first"] = [row, of]
    return counts


class Office:
    """An office and its answers, by its setup as `tomllib` reads it."""

    def __init__(self, setup):
        profiles = {profile["code"]: profile for profile in setup["profile"]}
        self.cons = {
            con["code"]: Con(con, profiles[con["profile"]]) for con in setup["constituency"]
        }

    def ask(self, method, path, body=None):
        """The status and the body of the answer to a request."""
        try:
            if method == "GET":
                return 200, self.show(*path.split("/")[1:])
            _, kind, code, verb = path.split("/")[:4]
            if kind == "station":
                return 200, compact(self.on_station(verb, code, **json.loads(body)))
            con = self.con(code)
            if verb == "import":
                return 200, compact(self.imported(con, body))
            if verb == "trial":
                return 200, self.tried(con, body)
            return 200, compact(getattr(self, verb)(con, **json.loads(body)))
        except Refused as it:
            word, status = REFUSALS[it.number]
            return status, compact({"refused": it.number, "word": word, **it.more})
        except Unreported as it:
            return 409, compact({"word": str(it)})

    def con(self, code):
        need(code in self.cons, 2)
        return self.cons[code]

    def show(self, kind, code=None, report=None):
        if kind == "progress":
            return "".join(map(progress, self.cons.values()))
        if kind == "country":
            return country(list(self.cons.values()))
        if kind == "results":
            return compact([result(con) for con in self.cons.values()])
        if kind == "station":
            con = self.con_of(code)
            need(code in con.returns, 8)
            return compact({"station": code, **con.returns[code]})
        con = self.con(code)
        if report == "result":
            return compact(result(con))
        return REPORTS[report](con) if report else compact(shown(con))

    # Returns.

    def con_of(self, station):
        found = [con for con in self.cons.values() if station in con.electors]
        need(found, 1)
        return found[0]

    def on_station(self, verb, station, **body):
        con = self.con_of(station)
        if verb == "lodge":
            return self.lodge(con, station, **body)
        return self.move(con, station, verb, **body)

    def check_counts(self, con, station, votes, blank, spoiled):
        need(
            len(votes) == len(con.lists) and all(n <= 1000000 for n in [*votes, blank, spoiled]), 4
        )
        need(sum(votes) + blank + spoiled <= con.entitled[station], 6)

    def lodge(self, con, station, slip, votes, blank, spoiled):
        self.check_counts(con, station, votes, blank, spoiled)
        stands = con.returns.get(station)
        given = {"slip": slip, "votes": votes, "blank": blank, "spoiled": spoiled}
        if stands:
            need(given.items() <= stands.items(), 7, rev=stands["rev"])
            return {"ok": "same", "rev": stands["rev"]}
        con.returns[station] = {**given, "rev": 1, "status": "received", "note": ""}
        return {"ok": "lodged", "rev": 1}

    def move(self, con, station, verb, rev, note=None, **given):
        if verb == "query":
            need(1 <= len(note.encode()) <= 200, 5)
        if verb in ("correct", "confirm"):
            self.check_counts(con, station, given["votes"], given["blank"], given["spoiled"])
        need(station in con.returns, 8)
        stands = con.returns[station]
        need(con.certified is None, 9)
        need(stands["rev"] == rev, 11, now=stands["rev"])
        need(rev < LAST, 12)
        starts, ends = {
            "query": (("received", "corrected", "closed"), "queried"),
            "correct": (("queried",), "corrected"),
            "close": (("received", "corrected"), "closed"),
            "confirm": (("received", "corrected"), "closed"),
        }[verb]
        need(stands["status"] in starts, 13, status=stands["status"])
        if verb == "close":
            need(not con.twice, 24)
        if verb == "confirm":
            need(given.items() <= stands.items(), 7, rev=rev)
        if verb == "query":
            con.lot, stands["note"] = [], note
        stands.update(given, status=ends, rev=rev + 1)
        return {"ok": "moved", "rev": rev + 1}

    def answers(self, con, text):
        """The outcome of rows that are lodged one by one: a word, and of those that are named the
        number and the words. No field of them is in quotes.
        """
        header, *rows = text.splitlines()
        assert header.split(",") == ["station", "slip", "blank", "spoiled", *con.lists]
        for row in rows:
            fields = row.split(",")
            if why := wrong_in(con, fields):
                yield "bad", 0, why
                continue
            station, slip, (blank, spoiled, *votes) = *fields[:2], map(int, fields[2:])
            try:
                yield self.lodge(con, station, slip, votes, blank, spoiled)["ok"], None, None
            except Refused as it:
                yield (
                    "differs" if it.number == 7 else "refused"
                ), it.number, f"{REFUSALS[it.number][0]} {station}"

    def imported(self, con, text):
        return counted(self.answers(con, text)) | {"ok": "import"}

    def tried(self, con, text):
        """The text of what an import would come to, which lodges nothing."""
        before = dict(con.returns)
        answers = list(self.answers(con, text))
        con.returns = before
        counts = counted(answers)
        counts["first"] = " ".join(map(str, counts["first"] or "-"))
        lines = [f"{word} {n}" for word, n in counts.items()]
        lines += [
            f"row {number} {of} {words}"
            for number, (_, of, words) in enumerate(answers, 1)
            if words
        ]
        return "".join(f"{line}\n" for line in lines)

    # Constituencies.

    def check_open(self, con, edition):
        """The conditions of a lot and of a certificate alike."""
        need(con.certified is None, 9)
        need(con.edition == edition, 11, now=con.edition)
        need(edition < LAST, 12)
        left = len(con.electors) - con.statuses()[3]
        need(left == 0, 14, left=left)
        need(con.poll().eligible, 15)

    def raised(self, con):
        con.edition += 1
        return {"ok": "edition", "edition": con.edition}

    def draw(self, con, edition, order):
        self.check_open(con, edition)
        need(not con.lot, 16)
        group, _ = con.poll().group()
        need(group, 17)
        codes = [con.lists[n] for n in group]
        need(sorted(order) == sorted(codes), 18, group=codes)
        con.lot = [con.lists.index(code) for code in order]
        return self.raised(con)

    def certify(self, con, edition):
        self.check_open(con, edition)
        group, seats = con.poll().group()
        need(not group or con.lot, 19, group=[con.lists[n] for n in group], seats=seats)
        con.certified = con.poll().allotted()
        return self.raised(con)

    def reopen(self, con, edition, note):
        need(1 <= len(note.encode()) <= 200, 5)
        need(con.certified is not None, 10)
        need(con.edition == edition, 11, now=con.edition)
        need(edition < LAST, 12)
        con.past[edition] = con.certified
        con.certified, con.note = None, note
        return self.raised(con)

    def vacate(self, con, place, note, **of):
        n = con.lists.index(of["list"]) if of["list"] in con.lists else None
        need(n is not None and 1 <= place <= len(con.candidates[n]), 3)
        need(1 <= len(note.encode()) <= 200, 5)
        need(con.certified is not None, 10)
        need((n, place) not in con.gone, 20)
        before = con.holders(n)
        need(place in before, 21)
        con.gone[n, place] = note
        return {
            "ok": "vacated",
            "next": next((it for it in con.holders(n) if it not in before), None),
        }
