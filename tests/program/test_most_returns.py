"""As many returns and stations as an office may have, and what requests on them cost."""

import contextlib
import itertools
import json
import os
import statistics
import string

from tests.support import model
from tests.support.beside import LOOKS_AT_ALL, answered_as, get, post, shown_as
from tests.support.costs import TIMES, closed_too_late, costs_no_more, lodged_again, spent
from tests.support.desk import Desk, serving
from tests.support.largest import (
    ALL,
    COUNTRY,
    MOST_STATIONS,
    NOTE,
    RULES,
    SIXTY,
    SMALLER,
    WIDE,
    begun,
    code,
    con_of,
    csv,
    lodged,
    reports_of,
)
from tests.support.office import constituency, profile
from tests.support.program import ProgramCase, database, new, only, same


# The requests to a constituency that is not closed, or of a station of it, and its status.
ASKED = {
    "the view": (lambda con: get(f"/con/{con.code}"), 200),
    "the tally": (lambda con: get(f"/con/{con.code}/tally"), 200),
    "the past": (lambda con: get(f"/con/{con.code}/past"), 200),
    "Certify": (lambda con: post(f"/con/{con.code}/certify", edition=con.edition), 409),
    "Draw": (lambda con: post(f"/con/{con.code}/draw", edition=con.edition, order=con.lists), 409),
    "Reopen": (lambda con: post(f"/con/{con.code}/reopen", edition=con.edition, note=NOTE), 409),
    "Vacate": (
        lambda con: post(f"/con/{con.code}/vacate", list=con.lists[0], place=1, note=NOTE),
        409,
    ),
    # These need no numbers of returns, and find none again.
    "a return": (lambda con: get(f"/station/{min(con.electors)}"), 200),
    "Close": (closed_too_late, 409),
    "Lodge": (lodged_again, 200),
}


def moved_around(desk, con):
    """The cost of a Query, a Correct and a Confirm of a return each, one after the other, several
    times.
    """
    station, took = min(con.electors), {}
    entry = {key: con.returns[station][key] for key in ("slip", "votes", "blank", "spoiled")}
    for turn in range(TIMES):
        for more, (verb, body) in enumerate(
            (("query", {"note": NOTE}), ("correct", entry), ("confirm", entry))
        ):
            request = post(
                f"/station/{station}/{verb}",
                rev=con.returns[station]["rev"] + 3 * turn + more,
                **body,
            )
            took.setdefault(verb, []).append(spent(desk, *request, times=1))
    return {verb: statistics.median(all_of_them) for verb, all_of_them in took.items()}


def forgotten(desk, con):
    """An import that has a fault: nothing is known after it of how many returns there are."""
    same(desk.ask("POST", f"/con/{con.code}/import", "x")[::2], (400, '{"word":"bad_header"}'))


def looks_at_no_station(db, plain):
    """A request for the country takes no more of the processor than the same of a constituency
    of four stations: the returns of a constituency are counted as the office opens, and once more
    after an import with a fault. Each of 5,000 would be some microseconds. The progress of all
    takes no more than a view of each.
    """
    large, *small = (con_of(plain, n) for n in (COUNTRY, SIXTY, SIXTY + 1, SIXTY + 2))
    with serving(db, len(ASKED) * (4 * TIMES + 4) + 8 * TIMES + 2) as desk:
        progress = spent(desk, *get("/progress"))
        for what, (asked, status) in ASKED.items():
            least = min(spent(desk, *asked(con), status=status) for con in small)
            costs_no_more(
                f"{what}, the first time", spent(desk, *asked(large), times=1, status=status), least
            )
            if what == "the view":
                costs_no_more("the progress", progress, ALL // 10 * least)
            forgotten(desk, large)
            for con in (small[0], large):
                spent(desk, *asked(con), times=1, status=status)
            costs_no_more(what, spent(desk, *asked(large), status=status), least)
        forgotten(desk, large)
        spent(desk, *get("/progress"), times=1)
        costs_no_more("the progress, the second time", spent(desk, *get("/progress")), progress)
        least = moved_around(desk, small[0])
        for verb, took in moved_around(desk, large).items():
            costs_no_more(verb, took, least[verb])


@contextlib.contextmanager
def killed_at_the_end(desk):
    yield desk
    desk.process.kill()
    desk.process.communicate()


CHARACTERS = string.ascii_letters + string.digits + "-_"


def short_codes():
    """The shortest codes of stations, each once."""
    for length in itertools.count(1):
        yield from map("".join, itertools.product(CHARACTERS, repeat=length))


# Beside a constituency for each of `RULES`, one that has nothing but blank votes, and one that has
# nothing but spoiled ones.
BLANK, SPOILED = len(RULES), len(RULES) + 1


MILLIONS = len(RULES) + 2


def crowded():
    """A setup as `tomllib` reads it, and its text: as many stations as there is room for, 5,000 in
    a constituency. Those of the first constituencies have a million electors each, the others nine.
    """
    codes = short_codes()
    profiles = [
        {
            "code": f"p{n}",
            "method": method,
            "threshold": 10000 if n < 4 else 5000,
            "base": ("lists", "valid")[n % 2],
            "lot": lot,
        }
        for n, (method, lot) in enumerate(RULES)
    ]
    texts = [
        profile(it["code"], it["method"], it["threshold"], it["base"]) + f'lot = "{it["lot"]}"\n'
        for it in profiles
    ]
    cons, room = [], 8388608 // SMALLER - len("".join(texts))
    while room > 500:
        n = len(cons)
        electors = 1000000 if n < MILLIONS else 9
        lists = [
            {"code": it, "name": it, "candidates": ["x"]} for it in ("A", "B")[: 1 + (n < MILLIONS)]
        ]
        tables = ",".join(
            f'{{code="{it["code"]}",name="{it["name"]}",candidates=["x"]}}' for it in lists
        )
        text = (
            constituency(f"c{n}", f"Town {n}", 499, f"p{n % len(RULES)}")
            + f"list=[{tables}]\nstation=["
        )
        stations = []
        while len(stations) < MOST_STATIONS and len(text) < room - 60:
            stations.append({"code": next(codes), "electors": electors})
            text += f'{{code="{stations[-1]["code"]}",electors={electors}}},'
        text += "]\n"
        room -= len(text)
        texts.append(text)
        cons.append(
            {
                "code": f"c{n}",
                "name": f"Town {n}",
                "seats": 499,
                "profile": f"p{n % len(RULES)}",
                "list": lists,
                "station": stations,
            }
        )
    return {"profile": profiles, "constituency": cons}, "".join(texts)


def counts_of(n):
    """The votes of each return of a constituency: of the first four all votes are for one list, of
    the next four half of them for each of two.
    """
    votes = (
        [n % 9]
        if n >= MILLIONS
        else [1000000, 0] if n < 4 else [500000, 500000] if n < BLANK else [0, 0]
    )
    return {"votes": votes, "blank": 1000000 * (n == BLANK), "spoiled": 1000000 * (n == SPOILED)}


def all_closed(plain):
    """Each return is closed, in the database and in plain Python, with the sums of each
    constituency.
    """
    with database() as it:
        it.execute("PRAGMA synchronous = OFF")
        it.execute("CREATE TEMP TABLE items (con TEXT, item INTEGER, n INTEGER)")
        for n, con in enumerate(plain.cons.values()):
            counts = counts_of(n)
            items = dict(enumerate([counts["blank"], *counts["votes"]])) | {61: counts["spoiled"]}
            it.executemany(
                "INSERT INTO returns VALUES (?, ?, 2, 'p', 4, '')",
                [(station, con.code) for station in con.electors],
            )
            it.executemany(
                "INSERT INTO items VALUES (?, ?, ?)",
                [(con.code, item, v) for item, v in items.items()],
            )
            it.executemany(
                "UPDATE totals SET n = ? WHERE con = ? AND item = ?",
                [(v * len(con.electors), con.code, item) for item, v in items.items()],
            )
            con.returns = {
                station: {**counts, "slip": "p", "rev": 2, "status": "closed", "note": ""}
                for station in con.electors
            }
        it.execute("CREATE INDEX temp.by_con ON items (con)")
        it.execute(
            "INSERT INTO counts SELECT station, item, n FROM returns JOIN items USING (con) ORDER"
            " BY station, item"
        )


def requests_on_most_votes(n, con):
    """A return is queried, corrected and closed again.

    The constituency is certified, by a lot where one is needed, and shown.
    """
    station = max(con.electors)
    yield post(f"/station/{station}/query", rev=2, note=NOTE)
    yield post(f"/station/{station}/correct", rev=3, slip="q", **counts_of(n))
    yield get(f"/con/{con.code}")
    yield post(f"/station/{station}/close", rev=4)
    yield post(f"/con/{con.code}/certify", edition=1)
    if con.poll().eligible and con.poll().group()[0]:
        yield post(f"/con/{con.code}/draw", edition=1, order=["B", "A"])
        yield post(f"/con/{con.code}/certify", edition=2)
    yield from [get(f"/con/{con.code}"), *reports_of(con)[:-2]]


class MostReturns(ProgramCase):
    def test_sixty_thousand_returns(self):
        """Each station has a return, by imports over HTTP; the longest one has 1,048,576 bytes, and
        is tried before. The server is killed, so that all of it is in the log. The office opens,
        and shows all of them; and so it does as one of the former version.
        """
        plain = begun()
        counts = (
            '{"bad":0,"differs":0,"first":null,"lodged":%d,"ok":"import","refused":0,"same":%d}'
        )
        tried = "lodged %d\nsame %d\ndiffers 0\nrefused 0\nbad 0\nfirst -\n"
        with killed_at_the_end(Desk("office.db", ALL + 4)) as desk:
            for con in plain.cons.values():
                returns = {
                    station: (
                        f"p-{station[2:]}",
                        [n % 10 for n in range(len(con.lists))],
                        n % 7,
                        n % 3,
                    )
                    for n, station in enumerate(con.electors)
                }
                text, again = csv(con, returns), 0
                if con.code == code("C", WIDE):
                    # Each return comes four times.
                    header, rows = text.split("\n", 1)
                    text, again = f"{header}\n{rows * 4}".ljust(1048576, "\n"), 3 * len(returns)
                    self.assertEqual(len(text), 1048576)
                    self.assertEqual(
                        desk.ask("POST", f"/con/{con.code}/trial", text)[::2],
                        (200, tried % (len(returns), again)),
                    )
                self.assertEqual(
                    desk.ask("POST", f"/con/{con.code}/import", text)[::2],
                    (200, counts % (len(returns), again)),
                    con.code,
                )
                lodged(con, returns)
                if again:
                    self.assertEqual(
                        desk.ask("POST", f"/con/{con.code}/trial", text)[::2],
                        (200, tried % (0, len(returns) + again)),
                    )
            self.assertEqual(desk.ask(*get("/progress"))[::2], plain.ask(*get("/progress")))
        self.assertGreater(os.path.getsize("office.db-wal"), 1000000)
        shown_as(plain, "office.db", [code("C", WIDE)], ("progress", "tally"))
        only("office.db")
        with database() as it:
            it.executescript("DROP TABLE past; UPDATE setup SET version = 1")
        looks_at_no_station("office.db", plain)

    def test_as_many_stations_as_a_setup_has_room_for(self):
        """More than 300,000 in one text, each with a closed return: the office is made, opens, and
        shows them. Of the first constituencies each has 5,000,000,000 votes. They are certified by
        each rule, or have none but blank or spoiled votes.
        """
        parsed, text = crowded()
        stations = sum(len(con["station"]) for con in parsed["constituency"])
        if SMALLER == 1:
            assert 8388000 < len(text) <= 8388608 and stations > 300000, (len(text), stations)
        plain = model.Office(parsed)
        new(text, constituencies=len(plain.cons))
        all_closed(plain)
        first, *_, last = plain.cons.values()
        ends = [
            get(f"/station/{station}")
            for con in (first, last)
            for station in (min(con.electors), max(con.electors))
        ]
        requests = [
            *LOOKS_AT_ALL,
            *ends,
            get(f"/con/{last.code}/tally"),
            get(f"/con/{last.code}/stations"),
        ]
        for n, con in enumerate(itertools.islice(plain.cons.values(), MILLIONS)):
            requests = itertools.chain(requests, requests_on_most_votes(n, con))
        answers = answered_as(plain, "office.db", itertools.chain(requests, LOOKS_AT_ALL))
        certificates = [
            json.loads(text).get("word", status)
            for path, status, text in answers
            if path.endswith("/certify")
        ]
        self.assertEqual(certificates, [200] * 4 + ["lot_missing", 200] * 4 + ["no_eligible"] * 2)
        # (what is counted again at the end of a test takes long)
        os.remove("office.db")
