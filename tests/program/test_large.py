"""Large offices beside one in plain Python."""

import itertools
import json
import random
import sys
import tomllib
from pathlib import Path

from tests.support import model, tools
from tests.support.beside import (
    CON_REPORTS,
    LOOKS_AT_ALL,
    OFFICE_REPORTS,
    answered_as,
    counted_and_certified,
    get,
    post,
    returns_of_sixty_lists,
    shown_as,
)
from tests.support.case import ROOT
from tests.support.office import DOUBLE, LISTS, PROFILE, constituency, profile, station
from tests.support.program import ProgramCase, imports, new, same, show, shows, write
from tests.support.running import PATIENCE


# The codes of three constituencies, their methods, thresholds and bases.
SIXTY_LISTS = (
    ("d", "dhondt", 0, "valid"),
    ("w", "sainte-lague", 100, "lists"),
    ("q", "hare", 150, "valid"),
)


def sixty_lists():
    """A setup of three constituencies with 60 lists, 500 seats and four stations each.

    Some lists have fewer candidates than seats.
    """
    text = "".join(profile(*terms) for terms in SIXTY_LISTS)
    candidates = {
        n: ", ".join(f'"{n}.{m}"' for m in range(1, n * 7 % 40 + 2)) for n in range(1, 61)
    }
    lists = ",\n".join(
        f'{{ code = "L{n}", name = "Lista ñ {n}", candidates = [{names}] }}'
        for n, names in candidates.items()
    )
    for code, *_ in SIXTY_LISTS:
        stations = ", ".join(f'{{ code = "{code}{n}", electors = 1000000 }}' for n in range(4))
        text += constituency(code, f"Sixty of {code}", 500, code)
        text += f"list = [\n{lists}\n]\nstation = [{stations}]\n"
    return text


def requests_on_sixty_lists(plain, draw):
    """Each constituency is certified, some who hold a seat go, it is opened again and certified
    with other votes, shown at each end.
    """
    for con in plain.cons.values():
        reports = [
            *LOOKS_AT_ALL,
            *(get(f"/con/{con.code}/{report}") for report in CON_REPORTS),
            get(f"/con/{con.code}"),
        ]
        yield from counted_and_certified(con, returns_of_sixty_lists(draw))
        yield from reports
        for n in (0, 30, 59):
            for place in (1, 1, 2, len(con.candidates[n]), len(con.candidates[n]) + 1):
                yield post(
                    f"/con/{con.code}/vacate", list=con.lists[n], place=place, note=f"gone {n}"
                )
        yield get(f"/con/{con.code}/holders")
        yield post(f"/con/{con.code}/reopen", edition=con.edition, note="recount")
        yield from reports
        yield from counted_and_certified(con, returns_of_sixty_lists(draw))
        yield from reports


def published_and_read_back(plain, setup):
    """The text published of each constituency, imported into a fresh office, is the same returns;
    and counted from these texts alone, with the lots, the seats are those that are certified.
    """
    new(setup, db="fresh.db", constituencies=len(plain.cons))
    Path("published").mkdir()
    for con in plain.cons:
        text = show("returns", con).out
        write(f"published/{con}.csv", text)
        imports({"lodged": len(plain.cons[con].returns)}, text, con, db="fresh.db")
        imports({"same": len(plain.cons[con].returns)}, text, con)
        shows("returns", text, con, db="fresh.db")
    write(
        "lots",
        "".join(
            " ".join([con.code, *(con.lists[n] for n in con.lot)]) + "\n"
            for con in plain.cons.values()
            if con.lot
        ),
    )
    words = (
        sys.executable,
        ROOT / "examples/recount.py",
        "--setup",
        "setup.toml",
        "--returns",
        "published",
    )
    counted = tools.run(
        [*words, "--lots", "lots"], capture_output=True, text=True, timeout=PATIENCE
    )
    seats = (
        (con, " ".join(f"{code} {n}" for code, n in zip(con.lists, con.certified)))
        for con in plain.cons.values()
    )
    same(
        counted.stdout,
        "".join(
            f"{con.code} {won} ({len(con.returns)} of {len(con.returns)} stations)\n"
            for con, won in seats
        ),
    )
    without = tools.run(words, capture_output=True, text=True, timeout=PATIENCE)
    same((without.returncode, without.stdout.count("a lot is missing")), (1, len(plain.cons)))


def two_entries():
    """A setup of two constituencies of three stations each.

    The returns of the first are entered twice.
    """
    text = PROFILE
    for code, entry in (("c1", DOUBLE), ("c2", "")):
        text += (
            constituency(code, "Town", 3, "d0")
            + entry
            + LISTS
            + "".join(station(f"{code}-{n}") for n in range(3))
        )
    return text


def entries_at_random(plain, draw, count):
    """Requests on returns, and certificates: most name the present revision and bring what is
    recorded, or nearly. At last the returns of all stations are tried and imported.
    """
    for _ in range(count):
        con = draw.choice(list(plain.cons.values()))
        code = draw.choice(list(con.electors))
        stands = con.returns.get(
            code, {"rev": 1, "slip": "p1", "votes": [100, 100], "blank": 0, "spoiled": 0}
        )
        rev = {"rev": stands["rev"] + draw.choice((0,) * 7 + (1,))}
        figures = {key: stands[key] for key in ("slip", "votes", "blank", "spoiled")}
        if draw.random() < 0.3:
            figures |= draw.choice(
                (
                    {"slip": "p2"},
                    {"votes": [draw.randrange(200), 100]},
                    {"votes": [1, 2, 3]},
                    {"blank": 1},
                    {"spoiled": 101},
                )
            )
        verb = draw.choices(
            ("lodge", "query", "correct", "close", "confirm", "certify", "reopen"),
            (2, 2, 3, 3, 4, 2, 1),
        )[0]
        body = {
            "lodge": figures,
            "query": {**rev, "note": "sum"},
            "correct": rev | figures,
            "close": rev,
            "confirm": rev | figures,
            "certify": {"edition": con.edition},
            "reopen": {"edition": con.edition, "note": "recount"},
        }[verb]
        yield post(
            f"/con/{con.code}/{verb}" if "edition" in body else f"/station/{code}/{verb}", **body
        )
        yield get(
            draw.choice(
                (
                    f"/station/{code}",
                    f"/con/{con.code}",
                    "/progress",
                    "/country",
                    f"/con/{con.code}/stations",
                    f"/con/{con.code}/returns",
                )
            )
        )
    for con in plain.cons.values():
        rows = "".join(f"{station},p1,0,0,100,100\n" for station in con.electors)
        yield from [
            (
                "POST",
                f"/con/{con.code}/{verb}",
                f"station,slip,blank,spoiled,{','.join(con.lists)}\n{rows}",
            )
            for verb in ("trial", "import")
        ]


def five_thousand_stations():
    stations = ",\n".join(f'{{ code = "s{n}", electors = 1000000 }}' for n in range(5000))
    lists = ", ".join(
        f'{{ code = "{code}", name = "{code}", candidates = ["x", "y"] }}' for code in "ABC"
    )
    return (
        PROFILE
        + constituency("c1", "Country", 500, "d0")
        + f"list = [{lists}]\nstation = [\n{stations}\n]\n"
    )


# The requests made between those on a constituency of 5,000 stations.
LOOKS = (get("/progress"), get("/con/c1"), get("/con/c1/tally"), get("/station/s4999"))


EACH_LOOK = (*LOOKS_AT_ALL, *(get(f"/con/c1/{report}") for report in CON_REPORTS))


def requests_that_close(con):
    """Each station is closed; each thousandth is queried first, with requests around it that are
    refused.
    """
    for number, station in enumerate(con.electors):
        rev = 1
        if number % 1000 == 0:
            yield from LOOKS
            yield post("/con/c1/certify", edition=1)
            yield post(f"/station/{station}/query", rev=1, note="is it so?")
            yield post(f"/station/{station}/close", rev=2)
            yield post(
                f"/station/{station}/correct",
                rev=2,
                slip="p1",
                votes=[1000000, 0, 0],
                blank=0,
                spoiled=0,
            )
            yield get("/progress")
            rev = 3
        yield post(f"/station/{station}/close", rev=rev)
        if number % 1000 == 0:
            yield post(f"/station/{station}/close", rev=rev)
            yield from LOOKS


def requests_that_correct(con, text):
    """Returns of a constituency that is open again are queried, corrected and closed, so that B has
    a seat; a text is imported with each.
    """
    wrong = text.replace("s3,p1,0,0,1000000", "s3,p1,0,0,1000001").replace("s4,p1,0,0", "s4,p1,0,x")
    yield "POST", "/con/c1/trial", wrong
    corrected = {f"s{n}": [n, 999980, 20 - n] for n in range(12)} | {"s4999": [0, 0, 0]}
    for station, votes in corrected.items():
        rev = con.returns[station]["rev"]
        yield post(f"/station/{station}/query", rev=rev, note="sum")
        yield from LOOKS
        yield "POST", "/con/c1/import", text
        yield post(
            f"/station/{station}/correct", rev=rev + 1, slip="p2", votes=votes, blank=0, spoiled=0
        )
        yield "POST", "/con/c1/import", wrong
    yield post("/con/c1/certify", edition=con.edition)
    for station in corrected:
        yield post(f"/station/{station}/close", rev=con.returns[station]["rev"])
        yield from LOOKS


def requests_on_five_thousand(con):
    """Returns are imported and closed, the constituency certified, imported into, opened again,
    corrected and certified again.
    """
    text = "station,slip,blank,spoiled,A,B,C\n" + "".join(
        f"s{n},p1,0,0,1000000,0,0\n" for n in range(5000)
    )
    yield from LOOKS
    yield "POST", "/con/c1/import", text
    yield from requests_that_close(con)
    yield post("/con/c1/certify", edition=1)
    yield from EACH_LOOK
    yield "POST", "/con/c1/import", text
    yield post("/station/s1/query", rev=2, note="too late")
    yield post("/con/c1/vacate", list="A", place=1, note="resigned")
    yield post("/con/c1/reopen", edition=2, note="recount")
    yield from requests_that_correct(con, text)
    yield post("/con/c1/certify", edition=3)
    yield from EACH_LOOK


def requests_on_a_second_recount(con):
    """It is opened again, returns are queried, imported beside, corrected and closed, and it is
    certified, opened again and certified.
    """
    text = "station,slip,blank,spoiled,A,B,C\n" + "".join(
        f"s{n},p1,0,0,1000000,0,0\n" for n in range(0, 5000, 100)
    )
    yield post("/con/c1/reopen", edition=con.edition, note="another recount")
    yield from LOOKS
    for station in ("s0", "s2500", "s4999"):
        rev = con.returns[station]["rev"]
        for path, body in (
            ("query", {"note": "sum"}),
            ("correct", {"slip": "p3", "votes": [1, 2, 3], "blank": 4, "spoiled": 5}),
            ("close", {}),
        ):
            yield post(f"/station/{station}/{path}", rev=con.returns[station]["rev"], **body)
            yield from LOOKS
            yield post("/con/c1/certify", edition=con.edition - 1)
            yield post("/con/c1/draw", edition=con.edition, order=["A", "B"])
            yield "POST", "/con/c1/import", text
            yield post(f"/station/{station}/{path}", rev=rev, **body)
    yield post("/con/c1/certify", edition=con.edition)
    yield from EACH_LOOK
    yield "POST", "/con/c1/import", text
    yield post("/con/c1/reopen", edition=con.edition, note="at once")
    yield from LOOKS
    yield post("/con/c1/certify", edition=con.edition)
    yield from EACH_LOOK


class Large(ProgramCase):
    def test_the_plain_office(self):
        """It gives what the law's own example gives, and ties as they are worked by hand."""
        loreg = [168000, 104000, 72000, 64000, 40000, 32000]

        def poll(method, seats, votes, blank=0, lot=(), threshold=0, rule="fixed"):
            return model.Poll(
                {"method": method, "threshold": threshold, "base": "valid", "lot": rule},
                seats,
                votes,
                blank,
                lot,
            )

        dhondt = poll("dhondt", 8, loreg, threshold=300)
        self.assertEqual(
            dhondt.awards(), [(0, 1), (1, 1), (0, 2), (2, 1), (3, 1), (0, 3), (1, 2), (0, 4)]
        )
        self.assertEqual(
            [dhondt.short(n, held) for n, held in enumerate((4, 2, 1, 1, 0, 0))],
            [92000, 22001, 12001, 20001, 2001, 10001],
        )
        for method, seats, votes, lot, allotted, group in (
            ("dhondt", 8, loreg, (), [4, 2, 1, 1, 0, 0], ([], 0)),
            ("sainte-lague", 8, loreg, (), [3, 2, 1, 1, 1, 0], ([], 0)),
            ("hare", 8, loreg, (), [3, 2, 1, 1, 1, 0], ([], 0)),
            ("dhondt", 4, [52, 35], (), [2, 2], ([], 0)),
            ("dhondt", 2, [200, 100], (), [2, 0], ([], 0)),
            ("dhondt", 3, [100, 100], (1, 0), [1, 2], ([0, 1], 1)),
            ("dhondt", 4, [100, 100], (), [2, 2], ([], 0)),
            ("hare", 1, [50, 50], (1, 0), [0, 1], ([0, 1], 1)),
            ("sainte-lague", 2, [53, 24, 23], (), [1, 1, 0], ([], 0)),
            ("modified-sainte-lague", 2, [53, 24, 23], (), [2, 0, 0], ([], 0)),
        ):
            with self.subTest(
                method=method, seats=seats, votes=votes, lot=lot, allotted=allotted, group=group
            ):
                self.assertEqual(
                    (
                        poll(method, seats, votes, lot=lot).allotted(),
                        poll(method, seats, votes).group(),
                    ),
                    (allotted, group),
                )
        # 53 / 3 is 17.67, and 24 / 1.4 is 17.14, 25 / 1.4 17.86; 23 / 1.4 is 16.43.
        modified = poll("modified-sainte-lague", 2, [53, 24, 23])
        self.assertEqual(
            (modified.awards(), [modified.short(n, held) for n, held in enumerate((2, 0, 0))]),
            ([(0, 1), (0, 2)], [None, 1, 2]),
        )
        # Three equal lists, and a lot of the last one first: for second seats the first one is.
        for seats, fixed, alternating in (
            (4, [1, 1, 2], [2, 1, 1]),
            (5, [1, 2, 2], [2, 2, 1]),
            (7, [2, 2, 3], [2, 2, 3]),
            (8, [2, 3, 3], [2, 3, 3]),
        ):
            for method, (rule, allotted) in itertools.product(
                model.DIVISORS, (("fixed", fixed), ("alternating", alternating))
            ):
                with self.subTest(seats=seats, method=method, rule=rule, allotted=allotted):
                    self.assertEqual(
                        poll(method, seats, [100] * 3, lot=(2, 1, 0), rule=rule).allotted(),
                        allotted,
                    )
        self.assertEqual(
            poll("dhondt", 3, [100, 100], lot=(1, 0), rule="alternating").awards(),
            [(1, 1), (0, 1), (0, 2)],
        )
        # A claim to a seat that the quotas leave is nobody's second one.
        self.assertEqual(
            poll("hare", 5, [100] * 3, lot=(2, 1, 0), rule="alternating").allotted(), [1, 2, 2]
        )
        self.assertEqual(poll("hare", 3, [70, 10], blank=20).allotted(), [3, 0])
        for votes, eligible in (([9304, 300, 296], [0, 1]), ([9301, 300, 299], [0, 1])):
            with self.subTest(votes=votes, eligible=eligible):
                self.assertEqual(
                    poll("dhondt", 1, votes, blank=100, threshold=300).eligible, eligible
                )

    def test_sixty_lists_and_five_hundred_seats(self):
        """By each rule: all reports, through the server and of the file, are those of the plain
        office; each rule has to draw a lot.
        """
        setup = sixty_lists()
        plain = model.Office(tomllib.loads(setup))
        new(setup, constituencies=3)
        answers = answered_as(plain, "office.db", requests_on_sixty_lists(plain, random.Random(58)))
        lots = {
            path.split("/")[2]
            for path, status, _ in answers
            if path.endswith("/draw") and status == 200
        }
        self.assertEqual(lots, {"d", "w", "q"})
        assert any(path.endswith("/confirm") and status == 200 for path, status, _ in answers)
        shown_as(plain, "office.db", plain.cons, CON_REPORTS + OFFICE_REPORTS)
        published_and_read_back(plain, setup)

    def test_returns_that_are_entered_twice(self):
        """Two thousand requests on two constituencies, one of which closes a return by its second
        entry alone, answered as by the plain office. Each answer of the two commands that close is
        among them.
        """
        setup = two_entries()
        plain = model.Office(tomllib.loads(setup))
        new(setup, constituencies=2)
        answers = answered_as(plain, "office.db", entries_at_random(plain, random.Random(24), 2000))
        for verb, wanted in (
            ("close", {200, 8, 9, 11, 13, 24}),
            ("confirm", {200, 4, 6, 7, 8, 9, 11, 13}),
        ):
            for con in ("c1", "c2"):
                with self.subTest(verb=verb, wanted=wanted, con=con):
                    found = {
                        json.loads(text).get("refused", status)
                        for path, status, text in answers
                        if path.startswith(f"/station/{con}") and path.endswith(verb)
                    }
                    self.assertEqual(
                        found, wanted - ({200} if (verb, con) == ("close", "c1") else {24})
                    )

    def test_an_office_of_five_thousand_stations(self):
        """As many as a constituency may have, each with as many votes as it may have.

        It is closed, certified, imported into, opened again and corrected while it is served; each
        certificate and each reopening is the first that an office just opened is asked. Then all
        that a second recount takes is asked in one serving.
        """
        setup = five_thousand_stations()
        plain = model.Office(tomllib.loads(setup))
        new(setup)
        answers = answered_as(
            plain, "office.db", requests_on_five_thousand(plain.cons["c1"]), ("/certify", "/reopen")
        )
        first, second = (
            text for path, status, text in answers if path == "/con/c1/awards" and status == 200
        )
        self.assertEqual(
            first.splitlines()[-1], " 500 A                500    5000000000   500    10000000"
        )
        self.assertEqual([line.split()[1] for line in second.splitlines()[1:]].count("B"), 1)
        answered_as(plain, "office.db", requests_on_a_second_recount(plain.cons["c1"]))
        shown_as(plain, "office.db", ["c1"], ("progress", "tally", "awards", "past"))
