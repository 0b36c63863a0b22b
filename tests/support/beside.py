"""The program beside an office in plain Python: each answer is the same."""

import itertools
import json

from tests.support.desk import serving
from tests.support.program import Ran, same, show


def answered_as(plain, db, requests, anew=()):
    """Sends requests to a server: each answer is that of the plain office, which is asked first, so
    that requests may come of its state. A new server is begun for each request whose path ends in
    one of these words.
    """
    steps = [(request, plain.ask(*request)) for request in requests]
    parts = [[]]
    for step in steps:
        if parts[-1] and step[0][1].endswith(anew):
            parts.append([])
        parts[-1].append(step)
    for part in parts:
        with serving(db, len(part)) as desk:
            for (method, path, body), answer in part:
                same(desk.ask(method, path, body)[::2], answer, path)
    return [(path, *answer) for (_, path, _), answer in steps]


def shown_as(plain, db, cons, reports):
    """All that is shown of a database is what the plain office shows."""
    for con, report in itertools.product(cons, reports):
        status, text = plain.ask(
            "GET", f"/{report}" if report in OFFICE_REPORTS else f"/con/{con}/{report}"
        )
        end = "\n" if report in ("result", "results") else ""
        wanted = (
            Ran(0, text + end, "")
            if status == 200
            else Ran(1, "", f"refused: {json.loads(text)['word']}\n")
        )
        same(show(report, con, db), wanted, (con, report))


def get(path):
    return "GET", path, None


def post(path, **body):
    return "POST", path, json.dumps(body)


CON_REPORTS = (
    "tally",
    "seats",
    "quotients",
    "awards",
    "quota",
    "short",
    "holders",
    "past",
    "provisional",
    "stations",
    "returns",
    "result",
)


OFFICE_REPORTS = ("progress", "country", "results")


LOOKS_AT_ALL = [get(f"/{report}") for report in OFFICE_REPORTS]


def returns_of_sixty_lists(draw):
    """Of each station the votes for 60 lists.

    Many lists have the same sum, so that a seat falls among equals; which have it is drawn.
    """
    sums = [draw.randrange(500, 60000) for _ in range(20)]
    wanted = [draw.choice(sums) for _ in range(60)]
    return [[n // 4 + (n % 4 if station == 0 else 0) for n in wanted] for station in range(4)]


def counted_and_certified(con, returns):
    """The requests that close these returns, every second by a second entry, and certify a
    constituency, with a lot that has the last lists first, where one is needed.
    """
    for n, (station, votes) in enumerate(zip(con.electors, returns)):
        stands = con.returns.get(station)
        if stands:
            entry = {"slip": "p2", "votes": votes, "blank": 7, "spoiled": 0}
            yield post(f"/station/{station}/query", rev=stands["rev"], note="again")
            yield post(f"/station/{station}/correct", rev=stands["rev"], **entry)
        else:
            entry = {"slip": "p1", "votes": votes, "blank": 1000, "spoiled": 9}
            yield post(f"/station/{station}/lodge", **entry)
        rev = con.returns[station]["rev"]
        yield (
            post(f"/station/{station}/confirm", rev=rev, **entry)
            if n % 2
            else post(f"/station/{station}/close", rev=rev)
        )
    yield post(f"/con/{con.code}/certify", edition=con.edition)
    group, _ = con.poll().group()
    if group:
        yield post(
            f"/con/{con.code}/draw", edition=con.edition, order=[con.lists[n] for n in group[1:]]
        )
        yield post(
            f"/con/{con.code}/draw",
            edition=con.edition,
            order=[con.lists[n] for n in reversed(group)],
        )
        yield post(f"/con/{con.code}/certify", edition=con.edition)
