"""An office at its limits: lists, seats, candidates, revisions and editions."""

import json
import os
import random
import tomllib
from pathlib import Path

from tests.support import model
from tests.support.beside import (
    CON_REPORTS,
    LOOKS_AT_ALL,
    OFFICE_REPORTS,
    answered_as,
    counted_and_certified,
    get,
    post,
    returns_of_sixty_lists,
    shown_as,
)
from tests.support.costs import TIMES, closed_too_late, costs_no_more, reads_each_return_once, spent
from tests.support.desk import serving
from tests.support.largest import (
    ALL,
    COMMANDS,
    COUNTRY,
    EDITED,
    NOTE,
    REVISED,
    RULES,
    SIXTY,
    begun,
    con_of,
    csv,
    lodged,
    reports_of,
    setup,
)
from tests.support.office import DOUBLE, LISTS, PROFILE, constituency, party_list, station
from tests.support.program import (
    ProgramCase,
    Ran,
    before_the_library,
    database,
    imports,
    new,
    office,
    only,
    write,
)


def tied(con, votes):
    """The lists among which a lot is needed with these votes, the seats in question, and for which
    seat of theirs it is.
    """
    poll = model.Poll(con.profile, con.seats, votes, 0)
    group, seats = poll.group()
    return len(group), seats, poll.allotted()[group[-1]] + 1 if group else 0


# The votes of each station of the country: 990,000 for lists, of which 55 have the same. By the
# modified rule each of these has five seats before the sixth, whose quotient is 10,800 / 11 =
# 981.8. The first list has 202 above that, since 396,000 / 403 is 982.6 and 396,000 / 405 is 977.8.
# So 500 - 275 - 202 = 23 seats are left to the 55 lists, each as a sixth one.
VOTES = [396000, 0, 0, 0, 0, *[10800] * 55]


def closed_by_hand(con, stations):
    """Returns that were lodged are closed, in the database and in plain Python: what thousands of
    requests would come to.
    """
    with database() as it:
        for station in stations:
            it.execute("UPDATE returns SET status = 4, rev = 2 WHERE station = ?", (station,))
            con.returns[station].update(status="closed", rev=2)
        votes, blank, spoiled = con.closed()
        items = {0: blank, 61: spoiled} | dict(enumerate(votes, 1))
        it.executemany(
            "UPDATE totals SET n = ? WHERE con = ? AND item = ?",
            [(n, con.code, item) for item, n in items.items()],
        )


def requests_of_the_country(con, station):
    """The last return is lodged and closed, the constituency certified with a lot, opened again,
    corrected and certified again.
    """

    def moved(verb, **body):
        return post(f"/station/{station}/{verb}", rev=con.returns[station]["rev"], **body)

    def edited(verb, **body):
        return post(f"/con/{con.code}/{verb}", edition=con.edition, **body)

    looks = [get("/progress"), get(f"/station/{station}"), get(f"/con/{con.code}")]
    counts = {"slip": "slip-of-16-chars", "votes": VOTES, "blank": 9999, "spoiled": 1}
    yield post(f"/station/{station}/lodge", **{**counts, "spoiled": 2})
    yield post(f"/station/{station}/lodge", **counts)
    yield from looks
    yield moved("query", note=NOTE + "x")
    yield moved("query", note=NOTE)
    yield from looks
    yield moved("correct", **counts)
    yield from looks
    yield edited("certify")
    yield moved("close")
    yield from looks
    yield edited("certify")
    group, _ = con.poll().group()
    order = [con.lists[n] for n in reversed(group)]
    yield edited("draw", order=order[1:])
    yield edited("draw", order=order)
    yield from looks
    yield edited("certify")
    yield from looks + reports_of(con)
    for n, place in ((0, 1), (0, con.certified[0]), (0, 1000), (59, 1)):
        yield post(f"/con/{con.code}/vacate", list=con.lists[n], place=place, note=NOTE)
    yield from [*looks, get(f"/con/{con.code}/holders")]
    yield edited("reopen", note=NOTE)
    yield from [*looks, get(f"/con/{con.code}/past")]
    yield moved("query", note=NOTE)
    counts = {"slip": "s", "votes": [0] * 59 + [1000000], "blank": 0, "spoiled": 0}
    yield moved("correct", **counts)
    yield moved("confirm", **{**counts, "slip": "t"})
    yield moved("confirm", **counts)
    yield edited("certify")
    yield edited("draw", order=[con.lists[n] for n in con.poll().group()[0]])
    yield edited("certify")
    yield from looks + reports_of(con)


def as_long_as_may_be(text):
    """A file of returns as a spreadsheet saves it, with 20,000 rows and 16,777,216 bytes: each row
    four times, and then bad ones.
    """
    header, *rows = (
        "".join(f'"{field}",' for field in line.split(","))[:-1] + "\r\n"
        for line in text.splitlines()
    )
    rows = rows * 4
    text = "\ufeff" + header + "".join(rows) + "x\r\n" * (20000 - len(rows))
    return text + "\r\n" * ((16777216 - len(text.encode())) // 2)


# Comes before the C library. What is tried here is not the disk, and each commit would wait for it.
WITHOUT_A_DISK = """
int fsync(int file) { return 0; }
int fdatasync(int file) { return 0; }
"""


def without_a_disk(run, *words):
    """Runs this where no commit waits for a disk."""
    os.environ.update(LD_PRELOAD=before_the_library(WITHOUT_A_DISK)["LD_PRELOAD"])
    try:
        return run(*words)
    finally:
        del os.environ["LD_PRELOAD"]


# The numbers of the constituencies of 500 seats. The others have one seat each.
LARGE = (0, ALL // 2, ALL - 1)


def of_its_own_lists(n):
    """A constituency of sixty lists, of which one is in each constituency."""
    lists = [("all", "All")] + [(f"L{n}-{l}", f"List {l} of {n}") for l in range(59)]
    seats = 500 if n in LARGE else 1
    return (
        constituency(f"c{n}", f"Town {n}", seats, "d0")
        + "".join(party_list(*it, "Ana") for it in lists)
        + station(f"s{n}", 1000000)
    )


def certified_by_hand(plain):
    """All others are certified, in the database and in plain Python: the sixty lists of each have
    the same votes, and a lot says which has the seat.
    """
    with database() as it:
        for n in {*range(ALL)} - {*LARGE}:
            con = plain.cons[f"c{n}"]
            order = [(n + place) % 60 for place in range(60)]
            seats = [int(place == order[0]) for place in range(60)]
            items = {0: n, 61: 0} | {place: 16000 for place in range(1, 61)}
            it.execute("INSERT INTO returns VALUES (?, ?, 2, 'p1', 4, '')", (f"s{n}", con.code))
            it.executemany(
                "INSERT INTO counts VALUES (?, ?, ?)",
                [(f"s{n}", item, votes) for item, votes in items.items()],
            )
            it.executemany(
                "UPDATE totals SET n = ? WHERE con = ? AND item = ?",
                [(votes, con.code, item) for item, votes in items.items()],
            )
            it.executemany(
                "INSERT INTO lots VALUES (?, ?, ?)",
                [(con.code, place, of + 1) for place, of in enumerate(order, 1)],
            )
            it.executemany(
                "INSERT INTO seats VALUES (?, ?, ?)",
                [(con.code, place, of) for place, of in enumerate(seats, 1)],
            )
            it.execute("UPDATE cons SET edition = 3, certified = 1 WHERE con = ?", (con.code,))
            con.returns[f"s{n}"] = {
                "slip": "p1",
                "votes": [16000] * 60,
                "blank": n,
                "spoiled": 0,
                "rev": 2,
                "status": "closed",
                "note": "",
            }
            con.edition, con.lot, con.certified = 3, order, seats


def everybody_goes(con):
    """The requests by which each candidate of the first list goes, one after the other, and what is
    shown between them.
    """
    looks = [get(f"/con/{con.code}"), get(f"/con/{con.code}/holders")]
    for place in range(1, len(con.candidates[0]) + 1):
        yield post(f"/con/{con.code}/vacate", list=con.lists[0], place=place, note=NOTE)
        if place in (1, 11, 101):
            yield from looks
    yield post(f"/con/{con.code}/vacate", list=con.lists[0], place=1, note=NOTE)
    yield from looks


def equal_votes(con, lists, spare):
    """This many lists have the same votes at each station, and the others a few."""
    return [[8000 if n < lists else spare for n in range(60)]] * len(con.electors)


def different_votes(con, draw):
    """No two lists have the same votes."""
    sums = draw.sample(range(4000, 60000), 60)
    return [
        [n // 4 + (n % 4 if station == 0 else 0) for n in sums]
        for station in range(len(con.electors))
    ]


def requests_of_each_rule(con, draw):
    """The constituency is certified with votes of five kinds, and shown each time; before the next
    ones it is opened again.
    """
    # Of 60 equal lists 20 have a 9th seat, and of 55 five a 10th.
    for returns in (
        equal_votes(con, 60, 0),
        equal_votes(con, 55, 0),
        different_votes(con, draw),
        *(returns_of_sixty_lists(draw) for _ in range(2)),
    ):
        yield from counted_and_certified(con, returns)
        yield from [get("/progress"), get(f"/con/{con.code}"), *reports_of(con)]
        yield post(f"/con/{con.code}/vacate", list=con.lists[0], place=1, note=NOTE)
        yield get(f"/con/{con.code}/holders")
        yield post(f"/con/{con.code}/reopen", edition=con.edition, note=NOTE)
    yield from [get(f"/con/{con.code}"), *reports_of(con)]


def looks_at_no_certificate(db, con, edited):
    """A constituency with 4,999 certificates on record is looked at as one that has none, and one
    of a setup of 8 MiB as one of a small setup: what is not shown is not read. (The past and the
    result show the certificates.)
    """
    new(db="small.db")
    looks = {"": 200} | {
        f"/{report}": 200 if report in ("tally", "provisional", "stations", "returns") else 409
        for report in CON_REPORTS
        if report not in ("past", "result")
    }
    with serving("small.db", len(looks) * TIMES) as desk:
        small = [
            spent(desk, *get(f"/con/c1{look}"), status=status) for look, status in looks.items()
        ]
    with serving(db, 2 * (len(looks) + 1) * TIMES) as desk:
        for (look, status), least in zip(looks.items(), small):
            none, beside = (
                spent(desk, *get(f"/con/{it.code}{look}"), status=status) for it in (con, edited)
            )
            costs_no_more(f"{look or 'the view'} in a large office", none, least)
            costs_no_more(f"{look or 'the view'} beside certificates", beside, none)
        none, beside = (spent(desk, *closed_too_late(it), status=409) for it in (con, edited))
        costs_no_more("Close beside certificates", beside, none)


def requests_up_to_the_last(con, station, edited):
    """The revision of a return is taken to the last, and the edition of a constituency."""
    counts = {"votes": [1], "blank": 0, "spoiled": 0}
    looks = [get(f"/station/{station}"), get(f"/con/{con.code}"), get("/progress")]
    yield post(f"/station/{station}/lodge", slip="p1", **counts)
    for rev in range(1, model.LAST):
        if rev % 2:
            yield post(f"/station/{station}/query", rev=rev, note=NOTE)
        else:
            yield post(f"/station/{station}/correct", rev=rev, slip=f"p{rev}", **counts)
    for verb, more in (
        ("query", {"note": NOTE}),
        ("close", {}),
        ("correct", {"slip": "p", **counts}),
    ):
        yield post(f"/station/{station}/{verb}", rev=model.LAST, **more)
    yield from looks
    station = min(edited.electors)
    yield post(f"/station/{station}/lodge", slip="p1", **counts)
    yield post(f"/station/{station}/close", rev=1)
    for edition in range(1, model.LAST):
        if edition % 2:
            yield post(f"/con/{edited.code}/certify", edition=edition)
        else:
            yield post(f"/con/{edited.code}/reopen", edition=edition, note=NOTE)
    for verb, more in (("certify", {}), ("reopen", {"note": NOTE})):
        yield post(f"/con/{edited.code}/{verb}", edition=model.LAST, **more)
    yield from [*looks, get(f"/con/{edited.code}"), get(f"/con/{edited.code}/past")]


def requests_at_the_end(cons):
    """Each command at the last revision or edition at which it is taken, and at the next one."""
    counts = {"votes": [100, 100], "blank": 0, "spoiled": 0}
    for con in cons:
        first, second = con.electors
        yield post(f"/station/{first}/query", rev=model.LAST - 3, note=NOTE)
        yield post(f"/station/{first}/correct", rev=model.LAST - 2, slip="p1", **counts)
        for verb in ("close", "confirm"):
            more = {"slip": "p1", **counts} if verb == "confirm" else {}
            for station in (first, second):
                yield post(f"/station/{station}/{verb}", rev=model.LAST - 1, **more)
        for verb, more in (
            ("query", {"note": NOTE}),
            ("correct", {"slip": "p", **counts}),
            ("close", {}),
            ("confirm", {"slip": "p1", **counts}),
        ):
            yield post(f"/station/{first}/{verb}", rev=model.LAST, **more)
        for slip in ("p1", "p2"):
            yield post(f"/station/{first}/lodge", slip=slip, **counts)
        order = list(reversed(con.lists))
        yield post(f"/con/{con.code}/draw", edition=model.LAST - 3, order=order)
        yield post(f"/con/{con.code}/certify", edition=model.LAST - 2)
        yield post(f"/con/{con.code}/vacate", list="A", place=1, note=NOTE)
        yield post(f"/con/{con.code}/reopen", edition=model.LAST - 1, note=NOTE)
        for verb, more in (("draw", {"order": order}), ("certify", {}), ("reopen", {"note": NOTE})):
            yield post(f"/con/{con.code}/{verb}", edition=model.LAST, **more)
        yield from [
            *(get(f"/station/{station}") for station in con.electors),
            get(f"/con/{con.code}"),
            get(f"/con/{con.code}/past"),
            get("/progress"),
        ]


class Limits(ProgramCase):
    def test_an_office_of_every_limit_is_made(self):
        """It is made, opens, and shows what an office shows in which nothing has come yet."""
        self.assertEqual(len(NOTE.encode()), 200)
        plain = begun()
        write("setup.toml", setup())
        before = Path("office.db").read_bytes()
        self.assertEqual(
            office("new", "--db", "office.db", "--setup", "setup.toml"),
            Ran(1, "", "refused: not_empty\n"),
        )
        self.assertEqual(Path("office.db").read_bytes(), before)
        cons = [con_of(plain, n) for n in (COUNTRY, SIXTY, ALL - 1)]
        stations = [station for con in cons for station in (min(con.electors), max(con.electors))]
        looks = [*LOOKS_AT_ALL, *(get(f"/station/{station}") for station in stations)]
        answered_as(
            plain,
            "office.db",
            looks + [it for con in cons for it in (get(f"/con/{con.code}"), *reports_of(con))],
        )
        shown_as(
            plain,
            "office.db",
            [cons[0].code],
            ("progress", "country", "tally", "seats", "stations"),
        )

    def test_five_thousand_stations_and_sixty_lists(self):
        """Returns are imported from a file that is as long as it may be, and one is lodged; each
        command is asked once, with the longest note where it has one, of a server that was just
        begun. The lot is one of half a hundred lists that alternate, for an even seat.
        """
        plain = begun()
        con = con_of(plain, COUNTRY)
        self.assertEqual(
            (con.profile["method"], con.profile["lot"], tied(con, VOTES)),
            ("modified-sainte-lague", "alternating", (55, 23, 6)),
        )
        *most, last = con.electors
        returns = {
            station: (f"slip-{number:011}", VOTES, 9999, 1) for number, station in enumerate(most)
        }
        text, rows = as_long_as_may_be(csv(con, returns)), 4 * len(returns)
        self.assertGreaterEqual(len(text.encode()), 16777215)
        bad = {"bad": 20000 - rows, "first": f"{rows + 1} 0"}
        imports({"lodged": len(returns), "same": 3 * len(returns), **bad}, text, con.code)
        only("office.db")
        lodged(con, returns)
        shown_as(plain, "office.db", [con.code], ("progress", "tally"))
        imports({"same": len(returns)}, csv(con, returns, ";"), con.code, flags=("--semicolon",))
        closed_by_hand(con, most)
        answers = answered_as(plain, "office.db", requests_of_the_country(con, last), COMMANDS)
        self.assertEqual(
            [status for path, status, _ in answers if path.endswith(("/draw", "/certify"))],
            [409, 409, 409, 200, 200, 409, 200, 200],
        )
        shown_as(
            plain,
            "office.db",
            [con.code],
            ("progress", "seats", "awards", "holders", "past", "stations", "returns"),
        )
        reads_each_return_once("office.db", con)

    def test_a_country_of_twelve_thousand_lists(self):
        """The table of the country has a line for each code, however many there are.

        At last all constituencies are certified, most of them with a lot of sixty lists: the office
        opens, and shows it.
        """
        setup = PROFILE + "".join(map(of_its_own_lists, range(ALL)))
        plain = model.Office(tomllib.loads(setup))
        new(setup, constituencies=ALL)
        requests = [get("/country")]
        for n in LARGE:
            requests.append(
                post(
                    f"/station/s{n}/lodge",
                    slip="p1",
                    votes=[16000 - 100 * l - n for l in range(60)],
                    blank=n,
                    spoiled=1,
                )
            )
            requests.append(post(f"/station/s{n}/close", rev=1))
            requests += [post(f"/con/c{n}/certify", edition=1)] * (n > 0) + [get("/country")]
        answers = answered_as(plain, "office.db", requests)
        self.assertEqual(
            ({status for _, status, _ in answers}, len(answers[-1][2].splitlines())),
            ({200}, 3 + 59 * ALL + 1 + 2),
        )
        shown_as(plain, "office.db", ["c0"], ("country",))
        certified_by_hand(plain)
        answered_as(
            plain,
            "office.db",
            [
                post("/con/c0/certify", edition=1),
                *LOOKS_AT_ALL,
                get("/con/c1"),
                get("/con/c1/seats"),
            ],
        )
        shown_as(plain, "office.db", ["c1"], ("country",))

    def test_a_list_of_which_everybody_goes(self):
        """A list of a thousand candidates, who hold 500 seats: each one goes, and at last nobody
        holds a seat.
        """
        names = [f"Candidate {n}" for n in range(1000)]
        setup = (
            PROFILE
            + constituency("c1", "Twin Town", 500, "d0")
            + party_list("A", "Alpha", *names)
            + station("s1")
        )
        plain = model.Office(tomllib.loads(setup))
        new(setup)
        con = plain.cons["c1"]
        answered_as(
            plain,
            "office.db",
            [
                post("/station/s1/lodge", slip="p1", votes=[300], blank=0, spoiled=0),
                post("/station/s1/close", rev=1),
                post("/con/c1/certify", edition=1),
            ],
        )
        answers = without_a_disk(answered_as, plain, "office.db", everybody_goes(con))
        self.assertEqual(
            sum(status == 200 for path, status, _ in answers if path.endswith("/vacate")), 1000
        )
        answered_as(plain, "office.db", [get("/con/c1"), get("/con/c1/holders")])
        shown_as(plain, "office.db", ["c1"], ("holders",))

    def test_sixty_thousand_who_are_gone(self):
        """As many as sixty lists may have candidates, each with a long note, as recounts may leave
        it. The last one goes, and nobody holds a seat; all is shown, and the office opens.
        """
        names = [f"C{n}" for n in range(1000)]
        lists = "".join(party_list(f"L{n}", f"List {n}", *names) for n in range(60))
        setup = (
            PROFILE + constituency("c1", "Twin Town", 500, "d0") + lists + station("s1", 1000000)
        )
        plain = model.Office(tomllib.loads(setup))
        new(setup)
        con = plain.cons["c1"]
        note = '"\\é😀' * 25
        self.assertEqual(len(note.encode()), 200)
        con.gone = {
            (n, place): note
            for n in range(60)
            for place in range(1, 1001)
            if (n, place) != (0, 1000)
        }
        with database() as it:
            it.executemany(
                "INSERT INTO gone VALUES ('c1', ?, ?, ?)",
                [(n + 1, place, text) for (n, place), text in con.gone.items()],
            )
        counts = {"votes": [300] + [0] * 59, "blank": 0, "spoiled": 0}
        requests = [
            post("/station/s1/lodge", slip="p1", **counts),
            post("/station/s1/close", rev=1),
            post("/con/c1/certify", edition=1),
            *(post("/con/c1/vacate", list="L0", place=place, note=note) for place in (999, 1000)),
            get("/con/c1"),
            get("/con/c1/holders"),
        ]
        answers = answered_as(plain, "office.db", requests)
        self.assertEqual(
            ([status for path, status, _ in answers if path.endswith("/vacate")], len(con.gone)),
            ([409, 200], 60000),
        )
        answered_as(
            plain, "office.db", [post("/con/c1/reopen", edition=2, note=note), get("/con/c1/past")]
        )

    def test_sixty_lists_and_five_hundred_seats_by_each_rule(self):
        """By each method, with lots that alternate and with lots that do not, with equal votes and
        without: each answer and each report is that of the plain office. What was certified at last
        is there at the next opening.
        """
        plain = begun()
        draw = random.Random(55)
        for n, (method, lot) in enumerate(RULES, SIXTY):
            with self.subTest(n=n, method=method, lot=lot):
                con = con_of(plain, n)
                self.assertEqual(tied(con, equal_votes(con, 60, 0)[0]), (60, 20, 9))
                if method != "hare":
                    self.assertEqual(tied(con, equal_votes(con, 55, 0)[0]), (55, 5, 10))
                answers = answered_as(
                    plain, "office.db", requests_of_each_rule(con, draw), ("/reopen",)
                )
                verbs = [path.rsplit("/", 1)[1] for path, status, _ in answers if status == 200]
                self.assertEqual((verbs.count("certify"), verbs.count("draw") >= 2), (5, True))
                answered_as(
                    plain, "office.db", counted_and_certified(con, returns_of_sixty_lists(draw))
                )
        shown_as(plain, "office.db", [con_of(plain, SIXTY + 2).code], CON_REPORTS + OFFICE_REPORTS)

    def test_the_last_revision_and_the_last_edition(self):
        """A return is moved 9,998 times, a constituency certified and opened again 4,999 times:
        nothing follows, and the office opens.
        """
        plain = begun()
        con, edited = con_of(plain, REVISED), con_of(plain, EDITED)
        [station] = con.electors
        answers = without_a_disk(
            answered_as, plain, "office.db", requests_up_to_the_last(con, station, edited)
        )
        self.assertEqual(
            sum(status == 200 for _, status, _ in answers), 2 * (model.LAST - 1) + 3 + 8
        )
        self.assertEqual(
            {text for path, status, text in answers if status == 409 and "exhausted" in text},
            {'{"refused":12,"word":"exhausted"}'},
        )
        answered_as(
            plain,
            "office.db",
            [get(f"/station/{station}"), get(f"/con/{edited.code}"), get("/progress")],
        )
        shown_as(plain, "office.db", [edited.code], ("past",))
        looks_at_no_certificate("office.db", con, edited)

    def test_each_command_at_the_last_revision_and_edition(self):
        """Of a constituency whose returns are entered once, and of one with two entries."""
        setup = PROFILE + "".join(
            constituency(code, "Town", 3, "d0")
            + entry
            + LISTS
            + station(f"{code}-1")
            + station(f"{code}-2")
            for code, entry in (("c1", ""), ("c2", DOUBLE))
        )
        plain = model.Office(tomllib.loads(setup))
        new(setup, constituencies=2)
        lodges = [
            post(f"/station/{code}-{n}/lodge", slip="p1", votes=[100, 100], blank=0, spoiled=0)
            for code in plain.cons
            for n in (1, 2)
        ]
        answered_as(plain, "office.db", lodges)
        with database() as it:
            it.execute("UPDATE cons SET edition = ?", (model.LAST - 3,))
            for con in plain.cons.values():
                con.edition = model.LAST - 3
                for of, rev in zip(con.electors, (model.LAST - 3, model.LAST - 1)):
                    it.execute("UPDATE returns SET rev = ? WHERE station = ?", (rev, of))
                    con.returns[of]["rev"] = rev
        answers = answered_as(plain, "office.db", requests_at_the_end(plain.cons.values()))
        for con in plain.cons:
            with self.subTest(con=con):
                self.assertEqual(
                    [
                        status
                        for path, status, _ in answers
                        if path.startswith(f"/con/{con}/")
                        and path.split("/")[3] in ("draw", "certify", "vacate", "reopen")
                    ],
                    [200, 200, 200, 200, 409, 409, 409],
                )
        self.assertEqual(
            {json.loads(text)["word"] for path, status, text in answers if status == 409},
            {"exhausted", "stale", "not_confirmed", "differs", "not_certified"},
        )
        shown_as(plain, "office.db", plain.cons, ("progress", "tally", "past", "stations"))
