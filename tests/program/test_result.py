"""The result of a constituency in one answer, beside the reports of the same state."""

import json
from pathlib import Path

from tests.support.beside import CON_REPORTS, OFFICE_REPORTS
from tests.support.desk import serving
from tests.support.office import (
    DOUBLE,
    LISTS,
    PROFILE,
    SETUP,
    constituency,
    party_list,
    profile,
    station,
)
from tests.support.program import (
    ProgramCase,
    Ran,
    certify,
    close_return,
    database,
    new,
    put,
    refused,
    rows,
    setup_of,
    show,
    shows,
)
from tests.support.twin_town import twin_town


MEMBERS = """awards base blank certified closed con corrected edition entry gone group holders
lists lot lot_rule method name note past queried question quota received seats spoiled stations
status threshold""".split()


OF_A_LIST = ["code", "eligible", "name", "provisional", "seats", "short", "votes"]


# The reports that are withheld until there is a certificate.
WITHHELD = ("seats", "quotients", "awards", "quota", "short", "holders")


# Three equal lists share five seats, without a lot.
TWO_IN_QUESTION = """\
PROVISIONAL c1 Village
stations 1 closed 1
lot 2 A B C
A                   1 List A
B                   1 List B
C                   1 List C
total               3
"""


def result(con="c1", report="result", db="office.db"):
    """The value that is printed, on one line of compact JSON with its keys in order."""
    ran = show(report, con, db)
    assert (ran.status, ran.err) == (0, ""), ran
    value = json.loads(ran.out)
    assert ran.out == json.dumps(value, separators=(",", ":"), ensure_ascii=False) + "\n", ran.out
    return value


def each(value, name):
    """This member of each list."""
    return [it[name] for it in value["lists"]]


def lines(report, con="c1"):
    """The words of each line of a report after its first; of a report that is withheld none."""
    ran = show(report, con)
    return [line.split() for line in ran.out.splitlines()[1:]] if ran.status == 0 else []


def told(value):
    """Each report of a constituency, as the words of its lines, by its result."""
    seats = each(value, "seats")
    codes = each(value, "code")
    yield "tally", [
        ["stations", str(value["stations"]), "closed", str(value["closed"])],
        ["valid", str(sum(each(value, "votes")) + value["blank"])]
        + ["blank", str(value["blank"]), "spoiled", str(value["spoiled"])],
        *(
            [it["code"], str(it["votes"]), "in" if it["eligible"] else "out", *it["name"].split()]
            for it in value["lists"]
        ),
    ]
    status = [value["status"]]
    if value["status"] == "lot":
        status += [str(value["question"]), *value["group"]]
    yield "provisional", [
        ["stations", str(value["stations"]), "closed", str(value["closed"])],
        status,
        *([it["code"], str(it["provisional"]), *it["name"].split()] for it in value["lists"]),
        ["total", str(sum(each(value, "provisional")))],
    ]
    if not value["certified"]:
        assert seats == [None] * len(codes), seats
        assert value["holders"] == []
        return
    yield "seats", [
        ["edition", str(value["edition"])],
        *([it["code"], str(it["seats"]), *it["name"].split()] for it in value["lists"]),
        ["total", str(value["seats"])],
    ]
    yield "holders", [
        [code, "-", "empty"] if place is None else [code, str(place), *name.split()]
        for code, place, name in value["holders"]
    ]
    if value["method"] == "hare":
        yield "quota", [[code, *map(str, rest)] for code, *rest in value["quota"]]
        return
    yield "awards", [
        [str(n), code, str(k), str(votes), str(divisor), str(votes // divisor)]
        for n, (code, k, votes, divisor) in enumerate(value["awards"], 1)
    ]
    yield "short", [
        [it["code"], str(it["seats"]), "-" if it["short"] is None else str(it["short"])]
        for it in value["lists"]
        if it["eligible"]
    ]


def without(report, found):
    """The words of a report that a result has: no share, and no sum of quotas or their votes."""
    if report == "tally":
        return found[:2] + [[line[0], line[1], *line[3:]] for line in found[2:]]
    if report == "quota":
        return [[line[0], *line[2:]] for line in found[1:]]
    return found


class Result(ProgramCase):
    def agrees(self, value, con="c1"):
        """The members are those that there are, and say what the reports say."""
        self.assertEqual(list(value), MEMBERS)
        for it in value["lists"]:
            self.assertEqual(list(it), OF_A_LIST)
        for report, wanted in told(value):
            with self.subTest(report=report, status=value["status"]):
                self.assertEqual(wanted, without(report, lines(report, con)))
        past = [
            line
            for certificate in value["past"]
            for line in [
                ["edition", str(certificate["edition"])],
                *(
                    [it["code"], str(n), *it["name"].split()]
                    for it, n in zip(value["lists"], certificate["seats"], strict=True)
                ),
            ]
        ]
        self.assertEqual(past, lines("past", con))

    def test_the_steps_of_twin_town(self):
        new()
        before = rows()
        empty = result()
        self.agrees(empty)
        self.assertEqual(empty["status"], "no_eligible")
        self.assertEqual((empty["group"], empty["question"], empty["lot"]), ([], 0, []))
        self.assertEqual(each(empty, "eligible"), [False, False])
        self.assertEqual((each(empty, "short"), empty["awards"]), ([None, None], []))
        self.assertEqual((empty["con"], empty["name"], empty["seats"]), ("c1", "Twin Town", 3))
        rule = [empty[name] for name in ("method", "base", "threshold", "lot_rule")]
        self.assertEqual(rule, ["dhondt", "valid", 0, "fixed"])
        self.assertEqual((empty["entry"], empty["edition"]), ("single", 1))
        self.assertEqual(rows(), before)

        close_return("s1", "c1", [100, 100])
        tied = result()
        self.agrees(tied)
        self.assertEqual((tied["status"], tied["group"], tied["question"]), ("lot", ["A", "B"], 1))
        self.assertEqual(each(tied, "provisional"), [1, 1])
        self.assertEqual((each(tied, "short"), tied["awards"]), ([None, None], []))

        with database() as it:
            it.execute("UPDATE cons SET edition = 2")
        put("lots", ("c1", 1, 2), ("c1", 2, 1))
        drawn = result()
        self.agrees(drawn)
        self.assertEqual((drawn["status"], drawn["lot"]), ("open", ["B", "A"]))
        self.assertEqual((each(drawn, "provisional"), each(drawn, "seats")), ([1, 2], [None, None]))
        self.assertEqual(each(drawn, "short"), [1, 200])
        self.assertEqual(drawn["awards"], [["B", 1, 100, 1], ["A", 1, 100, 1], ["B", 2, 100, 2]])
        self.assertEqual(drawn["holders"], [])

        certify("c1", 3, [1, 2])
        done = result()
        self.agrees(done)
        self.assertEqual((done["status"], done["certified"]), ("certified", True))
        self.assertEqual(done["holders"], [["A", 1, "Ana"], ["B", 1, "Bea"], ["B", None, None]])
        same = ("awards", "blank", "closed", "lot", "gone", "past", "quota", "spoiled")
        self.assertEqual([done[name] for name in same], [drawn[name] for name in same])
        self.assertEqual(each(done, "short"), each(drawn, "short"))

    def test_one_who_is_gone_and_a_certificate_that_was_reopened(self):
        twin_town()
        put("gone", ("c1", 1, 1, 'moved "away"'), ("c1", 2, 1, "resigned"))
        value = result()
        self.agrees(value)
        self.assertEqual(value["holders"], [["A", 2, "Abel"], ["B", None, None], ["B", None, None]])
        self.assertEqual(value["gone"], [["A", 1, 'moved "away"'], ["B", 1, "resigned"]])
        with database() as it:
            it.execute("UPDATE cons SET edition = 4, certified = 0, note = 'recount'")
            it.execute("DELETE FROM seats")
        put("past", ("c1", 3, 1, 1), ("c1", 3, 2, 2))
        value = result()
        self.agrees(value)
        self.assertEqual((value["status"], value["note"]), ("open", "recount"))
        self.assertEqual(value["past"], [{"edition": 3, "seats": [1, 2]}])
        self.assertEqual(value["gone"], [["A", 1, 'moved "away"'], ["B", 1, "resigned"]])
        self.assertEqual((value["holders"], each(value, "provisional")), ([], [1, 2]))

    def test_every_method_and_a_threshold(self):
        for method in ("dhondt", "sainte-lague", "modified-sainte-lague", "hare"):
            with self.subTest(method=method):
                db = f"{method}.db"
                lists = "".join(party_list(code, f"List {code}", "x", "y") for code in "ABCD")
                setup = profile("p", method, 1000, "lists") + 'lot = "alternating"\n'
                setup += constituency("c1", "Village", 4, "p") + DOUBLE + lists
                setup += station("s1", 9999)
                new(setup, db)
                close_return("s1", "c1", [900, 500, 300, 10], blank=7, spoiled=3, db=db)
                value = result(db=db)
                self.assertEqual(each(value, "eligible"), [True, True, True, False])
                self.assertEqual((value["blank"], value["spoiled"]), (7, 3))
                self.assertEqual((value["base"], value["threshold"]), ("lists", 1000))
                self.assertEqual((value["lot_rule"], value["entry"]), ("alternating", "double"))
                self.assertEqual((value["status"], each(value, "short")[3]), ("open", None))
                certify("c1", 2, each(value, "provisional"), db=db)
                done = result(db=db)
                self.assertEqual(each(done, "seats"), each(value, "provisional"))
                for name in ("awards", "quota"):
                    self.assertEqual(done[name], value[name])
                    self.assertEqual(done[name] != [], (name == "quota") == (method == "hare"))
                self.assertEqual(each(done, "short"), each(value, "short"))

    def test_quotas_by_hare(self):
        new(setup_of("hare", 8, "ABCDEF"))
        close_return("s1", "c1", [168000, 104000, 72000, 64000, 40000, 32000])
        value = result()
        self.agrees(value)
        self.assertEqual(each(value, "provisional"), [3, 2, 1, 1, 1, 0])
        self.assertEqual(value["quota"][0], ["A", 2, 384000, 3])
        self.assertEqual(value["quota"][4], ["E", 0, 320000, 1])
        self.assertEqual((value["awards"], each(value, "short")), ([], [None] * 6))
        certify("c1", 2, each(value, "provisional"))
        self.agrees(result())

    def test_a_list_that_has_all_seats(self):
        new(setup_of("dhondt", 2, "AB"))
        close_return("s1", "c1", [900, 0])
        value = result()
        self.assertEqual((each(value, "provisional"), each(value, "short")), ([2, 0], [None, None]))
        self.assertEqual(each(value, "eligible"), [True, False])
        self.assertEqual(value["awards"][1], ["A", 2, 900, 2])

    def two_in_question(self, method):
        """Three equal lists and five seats: each list has one, and a lot decides two."""
        new(setup_of(method, 5, "ABC"))
        close_return("s1", "c1", [100, 100, 100])
        shows("provisional", TWO_IN_QUESTION)
        value = result()
        self.agrees(value)
        self.assertEqual((value["status"], value["certified"]), ("lot", False))
        self.assertEqual((value["group"], value["question"]), (["A", "B", "C"], 2))
        self.assertEqual(each(value, "provisional"), [1, 1, 1])
        for name in ("seats", "short"):
            self.assertEqual(each(value, name), [None] * 3)
        for name in ("awards", "quota", "lot", "holders"):
            self.assertEqual(value[name], [])
        self.assertEqual(result(None, "results"), [value])
        with serving("office.db", 3) as desk:
            desk.get("/con/c1/provisional", TWO_IN_QUESTION)
            for path, wanted in (("/con/c1/result", value), ("/results", [value])):
                status, _, text = desk.ask("GET", path)
                self.assertEqual((status, json.loads(text)), (200, wanted))
        with database() as it:
            it.execute("UPDATE cons SET edition = 2")
        put("lots", ("c1", 1, 3), ("c1", 2, 1), ("c1", 3, 2))
        drawn = result()
        self.agrees(drawn)
        self.assertEqual((drawn["status"], drawn["lot"]), ("open", ["C", "A", "B"]))
        self.assertEqual(each(drawn, "provisional"), [2, 1, 2])
        return drawn

    def test_a_lot_that_decides_two_seats(self):
        drawn = self.two_in_question("dhondt")
        self.assertEqual(drawn["awards"][3:], [["C", 2, 100, 2], ["A", 2, 100, 2]])

    def test_a_lot_that_decides_two_seats_by_quotas(self):
        """The quota is 60 votes: what one leaves of 100 votes is 40, and five times that 200."""
        drawn = self.two_in_question("hare")
        self.assertEqual(drawn["quota"], [["A", 1, 200, 2], ["B", 1, 200, 1], ["C", 1, 200, 2]])

    def test_each_office_shows_its_own_reports(self):
        """Two offices in one folder, one of them in the file that the documents name."""
        new(SETUP)
        setup = PROFILE + constituency("c1", "Senate", 2, "d0")
        new(setup + party_list("S", "Sigma", "Sol") + station("t1"), "senate.db")
        close_return("t1", "c1", [7], db="senate.db")
        for db, name, closed in (("senate.db", "Senate", 1), ("office.db", "Twin Town", 0)):
            with self.subTest(db=db):
                value = result(db=db)
                self.assertEqual((value["name"], value["closed"]), (name, closed))
                self.assertEqual(result(None, "results", db), [value])
                country = show("country", None, db)
                self.assertIn(f"\nstations 1 closed {closed}\n", country.out)
                self.assertEqual(show("progress", None, db).out.split()[6], str(closed))
                for report in ("tally", "provisional", "past", "stations"):
                    self.assertIn(f" c1 {name}\n", show(report, db=db).out)

    def test_what_is_shown_of_a_constituency_that_could_be_certified(self):
        """Its votes decide, and it is not certified by being shown, on any way."""
        new()
        close_return("s1", "c1", [120, 100])
        self.assertEqual((result()["status"], result()["edition"]), ("open", 1))
        before, file = rows(), Path("office.db").read_bytes()
        for report in (*CON_REPORTS, *OFFICE_REPORTS):
            with self.subTest(report=report):
                show(report)
                self.assertEqual(rows(), before)
                self.assertEqual(Path("office.db").read_bytes(), file)
        paths = [f"/con/c1/{report}" for report in CON_REPORTS]
        paths += ["/con/c1", "/station/s1", *(f"/{report}" for report in OFFICE_REPORTS)]
        with serving("office.db", len(paths)) as desk:
            for path in paths:
                withheld = path.split("/")[-1] in WITHHELD
                self.assertEqual(desk.ask("GET", path)[0], 409 if withheld else 200)
        self.assertEqual(rows(), before)

    def test_all_constituencies(self):
        setup = PROFILE + constituency("c1", "Twin Town", 3, "d0") + LISTS + station("s1")
        setup += constituency("b2", "Port", 1, "d0")
        setup += party_list("C", "Gamma", "Cleo") + station("t1")
        new(setup, constituencies=2)
        close_return("s1", "c1", [100, 100])
        certify("c1", 3, [1, 2], [2, 1])
        close_return("t1", "b2", [5])
        for con in (None, "c1", "zz"):
            with self.subTest(con=con):
                both = result(con, "results")
                self.assertEqual(both, [result("c1"), result("b2")])
        self.assertEqual([it["status"] for it in both], ["certified", "open"])

    def test_what_is_refused(self):
        new()
        for con in ("zz", "no code", "", "C1"):
            with self.subTest(con=con):
                words = ("show", "--db", "office.db", "--report", "result", f"--con={con}")
                refused("no_constituency", *words)
        self.assertEqual(show("result", con=None), Ran(2, "", "missing --con\n"))
