"""Answers of offices to the press pages, in process: how long they are waited for, which of their
constituencies are those of the setup, and what a result and a table of stations are read as."""

import json
import urllib.error
from io import BytesIO
from types import SimpleNamespace
from unittest import mock

from tests.support.case import Case
from tests.support.pages import RESULT, with_lists
from tests.support.scripts import module

offices, results = module("press_offices"), module("press_results")

ENTRY = {"code": "c1", "name": "Twin Town", "seats": 3, "method": "dhondt", "threshold": 0,
         "base": "valid", "lot": "fixed", "stations": [{"code": "s1", "electors": 300},
                                                       {"code": "s2", "electors": 50}],
         "lists": [{"code": "A", "name": "Alpha", "candidates": ["Ana", "Abel"]},
                   {"code": "B", "name": "Beta", "candidates": ["Bea"]}]}
TABLE = "STATIONS c1 Twin Town\nstations 2 missing 1 closed 1\n"


class Office(offices.Office):
    """One whose answers are given, each with its seconds."""

    def __init__(self, test, *answers):
        super().__init__("http://office.example/")
        self.left, self.now, self.targets = list(answers), 100.0, []
        self.opener = SimpleNamespace(open=self.open)
        clock = SimpleNamespace(monotonic=lambda: self.now, sleep=self.sleep)
        patched = mock.patch("press_offices.time", clock)
        patched.start()
        test.addCleanup(patched.stop)

    def sleep(self, seconds):
        self.now += seconds

    def open(self, target, timeout):
        self.targets.append((target, timeout))
        status, text, seconds = self.left.pop(0) if len(self.left) > 1 else self.left[0]
        self.now += seconds
        if isinstance(status, Exception):
            raise status
        if status >= 400:
            raise urllib.error.HTTPError(target, status, "", {}, BytesIO(text.encode()))
        answer = mock.MagicMock(status=status)
        answer.__enter__.return_value = answer
        answer.read.return_value = text.encode()
        return answer


def saying(*cons, status=200):
    """An office with results of these constituencies."""
    text = json.dumps([con if isinstance(con, dict) else RESULT | {"con": con} for con in cons])
    return SimpleNamespace(compared={"c9"},
                           text=lambda target: text if status == 200 else refused())


def refused():
    raise results.NoAnswer("/results: status 503")


def entries(*codes):
    return {code: ENTRY | {"code": code, "stations": ENTRY["stations"][:1]} for code in codes}


class Asking(Case):
    def test_a_proxy_that_limits_is_asked_for_a_minute(self):
        """Each half second, and what it said last is the answer; any other answer is one at
        once."""
        office = Office(self, (429, "later", 0))
        self.assertEqual(office.get("/x"), (429, "later"))
        self.assertEqual((office.asked, office.now), (122, 160.5))
        office = Office(self, (429, "later", 0), (429, "later", 0), (200, "now", 0))
        self.assertEqual((office.get("/x"), office.asked, office.now), ((200, "now"), 3, 101.0))
        for status in (430, 428, 503, 404):
            office = Office(self, (status, "no", 0))
            self.assertEqual((office.get("/x"), office.asked), ((status, "no"), 1))

    def test_how_long_answers_took(self):
        """All of them together, those that failed too; each is waited for a minute."""
        office = Office(self, (200, "{}", 1.5), (404, "", 2.0), (OSError("no"), "", 4.0),
                        (ValueError("bad"), "", 0.0), (RuntimeError("cut"), "", 0.25),
                        (201, "", 0.0), (200, "x", 0.0))
        self.assertEqual(office.json("/a"), {})
        for target, said in (("/b", "^/b: status 404$"), ("/c", "^/c: no$"), ("/d", "^/d: bad$"),
                             ("/e", "^/e: RuntimeError$"), ("/f", "^/f: status 201$")):
            with self.assertRaisesRegex(offices.NoAnswer, said):
                office.text(target)
        with self.assertRaisesRegex(offices.NoAnswer, "^/g: not JSON$"):
            office.json("/g")
        self.assertEqual((office.took, office.asked), (7.75, 7))
        self.assertEqual(office.targets, [(f"http://office.example/{name}", 60)
                                          for name in "abcdefg"])


class Compared(Case):
    """Offices and the setup."""

    def test_the_constituencies_of_all_offices(self):
        down = saying(status=503)
        found, failures = offices.results_of([down, saying("c1", "c2"), saying("c3")], {})
        self.assertEqual((list(found), failures), (["c1", "c2", "c3"], ["/results: status 503"]))
        # One that was away may be another one when it answers again.
        self.assertEqual(down.compared, set())
        first, second, third = saying("c1", "c2", "c5"), saying("c2", "c3"), saying("c3", "c4")
        found, failures = offices.results_of([first, second, third], {})
        self.assertEqual((list(found), failures), (
            ["c1", "c5", "c4"], ["/results: more than one office has the constituency c2, c3"]))
        self.assertEqual([found[code][0] for code in ("c1", "c4")], [first, third])
        self.assertEqual(first.compared, {"c9"})

    def test_what_the_setup_has(self):
        """A line names those that it lacks, those that no office has while each answers, and those
        that are otherwise in it."""
        other = RESULT | {"con": "c2", "name": "Two", "seats": 4}
        found, failures = offices.results_of([saying("c1", other, "c3")], entries("c1", "c2", "c4"))
        self.assertEqual((list(found), failures), (["c1"], [
            "/results: the setup lacks the constituency c3",
            "/results: no office has the constituency c4",
            "/results: not as the setup has it, the constituency c2 (name, seats)"]))
        found, failures = offices.results_of([saying("c1"), saying(status=503)],
                                             entries("c1", "c4"))
        self.assertEqual((list(found), failures), (["c1"], ["/results: status 503"]))

    def test_twenty_are_named(self):
        for many, more in ((20, ""), (21, " and 1 more"), (30, " and 10 more")):
            codes = [f"c{n:02}" for n in range(many)]
            self.assertEqual(offices.named(set(codes)),
                             ", ".join(codes[:20]) + more)

    def test_what_is_otherwise_than_in_the_setup(self):
        one = ENTRY | {"stations": ENTRY["stations"][:1]}
        for result, entry, wanted in (
                ({}, {}, []), ({"name": "Two"}, {}, ["name"]), ({"seats": 4}, {}, ["seats"]),
                ({"method": "hare", "quota": [], "holders": []}, {}, ["method"]),
                ({"threshold": 3}, {}, ["threshold"]), ({"base": "lists"}, {}, ["base"]),
                ({"lot_rule": "alternating"}, {}, ["lot_rule"]),
                ({"stations": 2}, {}, ["stations"]),
                ({"entry": "double"}, {"entry": "double"}, []), ({"entry": "double"}, {}, []),
                ({}, {"entry": "double"}, ["entry"]),
                ({}, {"lists": one["lists"][::-1]}, ["lists"]),
                ({"holders": [["A", 2, "Abel"], ["B", 1, "Bea"], ["B", None, None]]}, {}, []),
                ({"holders": [["A", 2, "Abel"], ["B", 1, "Ben"]]}, {}, ["candidates"]),
                ({"holders": [["A", 3, "Abe"], ["B", 1, "Bea"]]}, {}, ["candidates"]),
                ({"holders": [["A", 1, "Abel"]]}, {}, ["candidates"]),
                ({"holders": [["C", 1, "Ana"]]}, {}, ["candidates"])):
            with self.subTest(result=result, entry=entry):
                self.assertEqual(offices.differences(results.con_of(RESULT | result), one | entry),
                                 wanted)

    def test_stations_that_are_those_of_the_setup(self):
        good = TABLE + "s1 300 closed 2 p1 30 0 0\ns2 50 - - - - - -\n"
        office = SimpleNamespace(compared=set(), other={"c1": "before", "c2": "said"})
        for text in (good.replace("s1", "s3"), good.replace("300", "301"),
                     TABLE + "s2 50 - - - - - -\ns1 300 - - - - - -\n",
                     TABLE + "s1 300 - - - - - -\n", TABLE,
                     good + "s3 50 - - - - - -\n"):
            with self.subTest(text=text), self.assertRaisesRegex(
                    offices.OtherSetup, "^/con/c1/stations: other stations or electors"):
                offices.compare_stations(office, "c1", ENTRY, text)
        self.assertEqual((office.compared, sorted(office.other)), (set(), ["c1", "c2"]))
        self.assertRegex(office.other["c1"], "other stations or electors")
        for text in ("", good.replace("STATIONS c1 ", "STATIONS c11 ")):
            with self.assertRaisesRegex(offices.NoAnswer, "not a table of stations$"):
                offices.compare_stations(office, "c1", ENTRY, text)
        offices.compare_stations(office, "c1", ENTRY, good)
        self.assertEqual((office.compared, office.other), ({"c1"}, {"c2": "said"}))


class Read(Case):
    """Results as they are read."""

    OPEN = with_lists(RESULT, votes=[70, 30], seats=[None, None], provisional=[2, 0]) | {
        "base": "lists", "blank": 5, "certified": False, "closed": 4, "corrected": 3, "edition": 4,
        "entry": "double", "gone": [["A", 2, "moved"]], "group": ["A", "B"], "holders": [],
        "note": "again", "past": [{"edition": 3, "seats": [2, 1]}], "queried": 2, "question": 1,
        "received": 1, "spoiled": 6, "stations": 12, "status": "lot", "lot": []}

    def test_a_constituency_that_is_counted(self):
        """Twelve stations, of which 1, 2, 3 and 4 have returns in each state: two have none."""
        self.assertEqual(results.con_of(self.OPEN), {
            "progress": {"con": "c1", "stations": 12, "missing": 2, "received": 1, "queried": 2,
                         "corrected": 3, "closed": 4, "edition": 4, "certified": False},
            "view": {"blank": 5, "certified": False, "closed": 4, "con": "c1", "edition": 4,
                     "lot": [], "note": "again", "spoiled": 6, "stations": 12, "entry": "double",
                     "gone": [{"list": "A", "note": "moved", "place": 2}], "seats": [],
                     "votes": [70, 30]},
            "rule": {"seats": 3, "method": "dhondt", "threshold": 0, "base": "lists",
                     "lot_rule": "fixed"},
            "tally": {"name": "Twin Town", "stations": 12, "closed": 4, "valid": 105, "blank": 5,
                      "spoiled": 6, "lists": [
                          {"code": "A", "name": "Alpha", "votes": 70, "share": "70.00",
                           "eligible": True},
                          {"code": "B", "name": "Beta", "votes": 30, "share": "30.00",
                           "eligible": True}]},
            "past": [{"edition": 3, "lists": [{"code": "A", "seats": 2, "name": "Alpha"},
                                              {"code": "B", "seats": 1, "name": "Beta"}]}],
            "provisional": {"status": "lot", "question": 1, "group": ["A", "B"],
                            "seats": {"A": 2, "B": 0}}})
        # Of the valid votes, 70 of 105 are 66.66 per cent, rounded down; of none nothing is.
        self.assertEqual([row["share"] for row in results.tally_of(
            self.OPEN | {"base": "valid"})["lists"]], ["66.66", "28.57"])
        self.assertEqual([results.share_of(*of) for of in ((0, 0), (1, 1), (1, 3000))],
                         ["0.00", "100.00", "0.03"])
        self.assertNotIn("provisional", results.con_of(self.OPEN | {"closed": 0}))

    def test_a_certificate(self):
        """By quotients, and by quotas."""
        found = results.con_of(RESULT)
        self.assertEqual((found["seats"], found["holders"][2], found["view"]["seats"]), (
            {"edition": 3, "total": 3, "seats": {"A": 1, "B": 2}},
            {"list": "B", "place": None, "name": None}, [1, 2]))
        self.assertEqual(found["awards"][2], {
            "seat": 3, "list": "B", "of_list": 2, "votes": 100, "divisor": 2, "quotient": 50})
        found_odd = results.awards_of(RESULT | {"awards": [["A", 3, 100, 3]]})
        self.assertEqual(found_odd, [{"seat": 1, "list": "A", "of_list": 3, "votes": 100,
                                      "divisor": 3, "quotient": 33}])
        self.assertEqual(found["quotients"], [
            ("A", [(100, True), (50, False), (33, False)]),
            ("B", [(100, True), (50, True), (33, False)])])
        self.assertEqual(found["short"], [{"list": "A", "seats": 1, "short": 1},
                                          {"list": "B", "seats": 2, "short": 200}])
        self.assertNotIn("entry", found["view"])
        of_one = with_lists(RESULT, eligible=[True, False])
        self.assertEqual([row["list"] for row in results.con_of(of_one)["short"]], ["A"])
        found = results.con_of(of_one | {"method": "hare", "quota": [["A", 2, 40, 3]]})
        self.assertEqual((found["quota"], "awards" in found), ({
            "votes": 100, "seats": 3, "lists": [
                {"list": "A", "votes": 100, "whole": 2, "remainder": 40, "seats": 3}]}, False))

    def test_results_that_are_none(self):
        """Also a withdrawn certificate with other lists than the constituency."""
        for text in ("", "{}", "[3]", json.dumps([{}]), json.dumps([
                self.OPEN | {"past": [{"edition": 3, "seats": [2]}]}]), json.dumps([
                    self.OPEN | {"past": [{"edition": 3, "seats": [2, 1, 1]}]}])):
            if text == "{}":
                self.assertEqual(results.read_results(text), {})
                continue
            with self.subTest(text=text), self.assertRaisesRegex(
                    results.NoAnswer, "^/results: not JSON of results: "):
                results.read_results(text)

    def test_seats_that_are_provisional(self):
        """In the order of seats, and then of votes; none of a certificate, or where no list takes
        part."""
        con = results.con_of(with_lists(self.OPEN, provisional=[1, 1], votes=[30, 70]))
        self.assertEqual(list(results.provisional_seats(con).items()), [("B", 1), ("A", 1)])
        self.assertEqual(list(results.by_seats(con, {"A": 2, "B": 1}).items()),
                         [("A", 2), ("B", 1)])
        self.assertEqual(list(results.by_seats(con, {"A": 0, "B": 0})), ["B", "A"])
        for status in ("certified", "no_eligible"):
            self.assertEqual(results.provisional_seats(con | {"provisional": con["provisional"] | {
                "status": status}}), {})
        self.assertEqual(results.provisional_seats({}), {})

    def test_which_lot_is_needed(self):
        """Where no provisional seats may be shown, that of a count that is whole alone."""
        for status, stations, seen, unseen in (
                ("lot", 4, (["A", "B"], 1), (["A", "B"], 1)), ("lot", 5, (["A", "B"], 1), None),
                ("open", 4, None, None)):
            with self.subTest(status=status, stations=stations):
                con = results.con_of(self.OPEN | {"status": status, "stations": stations})
                rest = results.without_provisional(con)
                self.assertEqual((results.lot_of(con), results.lot_of(rest)), (seen, unseen))
                self.assertNotIn("provisional", rest)
                self.assertEqual(rest["tally"], con["tally"])
        self.assertEqual(results.without_provisional({"tally": 3}), {"tally": 3})
        self.assertIsNone(results.lot_of({}))

    def test_a_line_of_stations_that_is_none(self):
        for line in ("s1 300 closed 2 p1 30 0", "s1 300 closed", "s1 300", "s1", "",
                     "s1 300 lost 2 p1 30 0 0"):
            with self.subTest(line=line), self.assertRaisesRegex(results.NoAnswer, "a line that"):
                results.read_stations(f"{TABLE}{line}\n")
        self.assertEqual(results.read_stations(TABLE + "s1 300 queried 2 p1 30 4 5 x\n"),
                         {"s1": ("queried", ["p1", 30, 4, 5])})
