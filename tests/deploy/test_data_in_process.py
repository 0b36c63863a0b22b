"""Functions of the published data at their edges: the feed and what it keeps of before, returns
that add up, heads of the record, and what schemas and descriptions say. No office is asked."""

import json
import xml.etree.ElementTree as ET
from datetime import datetime, timedelta, timezone
from pathlib import Path

from tests.support.case import Case
from tests.support.office import DOUBLE, LISTS, PROFILE, constituency, station
from tests.support.pages import RESULT, with_lists
from tests.support.published import ATOM
from tests.support.scripts import module

data, results, press_site = map(module, ("press_data", "press_results", "press_site"))

NOON = datetime(2026, 11, 29, 12, tzinfo=timezone.utc)
BEGINS = ('<?xml version="1.0" encoding="utf-8"?>\n'
          '<feed xmlns="http://www.w3.org/2005/Atom" xml:lang="en">\n')
OPEN = with_lists(RESULT, seats=[None, None]) | {
    "certified": False, "status": "open", "edition": 1, "lot": [], "stations": 4, "closed": 1,
    "received": 3, "holders": []}


def con_of(**more):
    return results.con_of((OPEN if more.get("certified") is False else RESULT) | more)


def summary(entry):
    return [entry.find(f"{ATOM}category").get("term"),
            *(entry.findtext(ATOM + tag) for tag in ("title", "summary", "updated"))]


class Feed(Case):
    def setUp(self):
        super().setUp()
        self.site = press_site.Site()

    def feed(self, known, minutes, cons, codes=None, setup=None):
        text = data.feed(known, cons, codes, setup or {}, self.site,
                         NOON + timedelta(minutes=minutes))
        found, has_others = data.said_before(text)
        self.assertFalse(has_others)
        return text, found

    def test_events_in_order_of_time(self):
        """Each certificate, with the reopening that withdrew it, of which the last one alone has
        the note; then who is gone, by name where the setup has the place."""
        con = con_of(edition=7, note="a recount", gone=[["A", 2, "moved"], ["A", 3, "ill"],
                                                        ["C", 1, "away"]],
                     past=[{"edition": 3, "seats": [3, 0]}, {"edition": 5, "seats": [1, 2]}])
        found = list(data.events(con, {"A": ["Ana", "Abel"]}))
        self.assertEqual([(kind, text) for kind, _, _, text in found], [
            ("certificate", "A 3"), ("reopening", ""), ("certificate", "A 1, B 2"),
            ("reopening", "a recount"), ("certificate", "A 1, B 2"), ("vacancy", "moved"),
            ("vacancy", "ill"), ("vacancy", "away")])
        self.assertEqual([words for _, words, *_ in found], [
            "3 A 3", "3 A 3", "5 A 1, B 2", "5 A 1, B 2", "7 A 1, B 2", "A 2 moved", "A 3 ill",
            "C 1 away"])
        self.assertEqual([of["name"] for *_, of, _ in found[5:]],
                         [" (\u2068Abel\u2069)", "", ""])
        withdrawn = con_of(certified=False, note="why", past=[{"edition": 3, "seats": [1, 2]}])
        self.assertEqual([(kind, text) for kind, *_, text in data.events(withdrawn, {})],
                         [("certificate", "A 1, B 2"), ("reopening", "why")])

    def test_a_feed(self):
        """It is in the namespace of Atom without a prefix, and the newest is first. What it had
        before keeps its moment; what the office does not show is gone, unless nobody was asked."""
        text, first = self.feed({}, 0, {"c1": con_of()})
        self.assertTrue(text.startswith(BEGINS), text)
        self.assertTrue(text.endswith("</feed>\n"))
        _, both = self.feed(first, 5, {"c1": con_of(gone=[["A", 1, "moved"]]),
                                       "c2": con_of(con="c2", name="Two")})
        self.assertEqual([summary(entry)[:1] + summary(entry)[3:] for entry in both.values()], [
            ["certificate", "2026-11-29T12:00:00+00:00"],
            ["vacancy", "2026-11-29T12:05:00+00:00"],
            ["certificate", "2026-11-29T12:05:00+00:00"]])
        self.assertEqual([data.con_of_entry(entry) for entry in both.values()], ["c1", "c1", "c2"])
        of_two = list(both)[2:]
        for cons, codes, wanted in (
                ({}, None, list(both)), ({}, ["c1", "c2"], list(both)), ({}, ["c2"], of_two),
                ({}, [], []), ({"c1": con_of(certified=False)}, ["c1"], None)):
            with self.subTest(cons=list(cons), codes=codes):
                _, found = self.feed(both, 9, cons, codes)
                if wanted is None:
                    [entry] = found.values()
                    self.assertEqual(summary(entry)[0], "provisional")
                else:
                    self.assertEqual(list(found), wanted)

    def test_what_an_entry_keeps(self):
        """Its moment where it is one, and the note of a reopening that no answer has any more."""
        con = con_of(edition=7, note="second", past=[{"edition": 3, "seats": [3, 0]},
                                                     {"edition": 5, "seats": [1, 2]}])
        before = con_of(certified=False, edition=4, note="first",
                        past=[{"edition": 3, "seats": [3, 0]}])
        _, known = self.feed({}, 0, {"c1": before})
        _, found = self.feed(known, 5, {"c1": con})
        self.assertEqual([summary(entry)[2] for entry in found.values()],
                         ["A 3", "first", "A 1, B 2", "second", "A 1, B 2"])
        self.assertEqual([summary(entry)[3][14:16] for entry in found.values()],
                         ["00", "00", "05", "05", "05"])
        for moment in ("today", "2026-11-29T12:00:00", None):
            entry = next(iter(known.values()))
            updated = entry.find(f"{ATOM}updated")
            if moment is None:
                entry.remove(updated)
            else:
                updated.text = moment
            _, found = self.feed(dict([*known.items()][:1]), 7, {"c1": con})
            self.assertEqual(summary(next(iter(found.values())))[3][14:16], "07")

    def test_the_title_of_provisional_seats(self):
        """It stays where it has a share that was counted before, with no more stations than now."""
        def title(share):
            return (f"\u2068Soria\u2069: provisional seats, with {share}% of the polling stations "
                    "counted")

        for closed, stations, share, wanted in (
                (2, 3, "33.33", True), (2, 3, "66.67", True), (1, 3, "66.67", False),
                (2, 3, "100.00", False), (3, 3, "100.00", True), (2, 3, "0.00", False),
                (2, 3, "33.34", False), (2, 3, "", False), (9, 10, "50.00", True),
                (5, 10, "50.00", True), (4, 10, "50.00", False), (9, 10, "55.00", False),
                (1, 3, "33.33", True), (20_000, 30_000, "0.01", True),
                (29_999, 30_000, "99.99", True), (100, 30_000, "99.99", False)):
            with self.subTest(closed=closed, stations=stations, share=share):
                tally = {"name": "Soria", "stations": stations, "closed": closed}
                self.assertIs(data.was_title(self.site, tally, title(share)), wanted)
        tally = {"name": "Soria", "stations": 3, "closed": 2}
        for other in ("", "33.33", title("33.33")[1:], title("33.33")[:-1],
                      title("33.33").replace("Soria", "Sória")):
            with self.subTest(other=other):
                self.assertFalse(data.was_title(self.site, tally, other))
        # Round by round: of one of four stations, and then of two, with the same seats.
        _, known = self.feed({}, 0, {"c1": con_of(certified=False)})
        _, found = self.feed(known, 5, {"c1": con_of(certified=False, closed=2, received=2)})
        [entry] = found.values()
        self.assertEqual((summary(entry)[1].count("25.00%"), summary(entry)[3][14:16]), (1, "00"))
        entry.remove(entry.find(f"{ATOM}title"))
        _, found = self.feed(found, 5, {"c1": con_of(certified=False, closed=2, received=2)})
        self.assertEqual([summary(entry)[1].count("50.00%") for entry in found.values()], [1])

    def test_a_feed_of_somebody_else(self):
        """An entry without an identifier or a constituency is none of these pages."""
        good = data.feed({}, {"c1": con_of()}, None, {}, self.site, NOON)
        [known] = data.said_before(good)[0]
        for text, wanted in (
                ("", ({}, False)), ("x", ({}, True)), (good, ([known], False)),
                (good.replace("<feed", "<a").replace("</feed>", "</a>"),
                 ([known], True)),
                (good.replace("<id>urn", "<other>urn", 2).replace("</id>", "</other>"), ([], True)),
                (good.replace("con-c1.html", "con.html"), ([], True)),
                (good.replace("con-c1.html", "xcon-c1.html"), ([], True)),
                (good.replace("</feed>", "<entry/></feed>"), ([known], True))):
            with self.subTest(text=text):
                found, has_others = data.said_before(text)
                self.assertEqual((list(found), has_others), (list(wanted[0]), wanted[1]))
        entry = ET.fromstring(f'<entry xmlns="{ATOM[1:-1]}"/>')
        self.assertIsNone(data.con_of_entry(entry))


class Tables(Case):
    def test_returns_that_add_up(self):
        """They have as many stations as are closed, and each sum of them."""
        view = {"closed": 2, "blank": 3, "spoiled": 2, "votes": [40, 60]}
        head = "station,slip,blank,spoiled,A,B\n"
        good = f"{head}s1,7,1,0,10,20\ns2,7,2,2,30,40\n"
        for text, wanted in (
                (good, True), (good.replace(",1,0,", ",2,0,"), False),
                (good.replace("2,2,30", "2,3,30"), False), (good.replace("40\n", "41\n"), False),
                (f"{good}s3,7,0,0,0,0\n", False), (f"{head}s1,7,3,2,40,60\n", False),
                (head, False), ("", False), (good.replace("40\n", "x\n"), False)):
            with self.subTest(text=text):
                self.assertIs(data.adds_up(text, view), wanted)

    def test_heads_that_follow_on_one_another(self):
        """One has more lines than each before it, or is one of them."""
        before = "time,lines,sha256\nx,7,aa\nx,9,bb\n"
        for lines, code, wanted in ((10, "cc", True), (9, "bb", True), (9, "aa", False),
                                    (8, "cc", False), (7, "aa", False), (9, "cc", False)):
            with self.subTest(lines=lines, code=code):
                self.assertIs(data.goes_on(before, {"n": lines, "hash": code}), wanted)
        self.assertTrue(data.goes_on("time,lines,sha256\n", {"n": 1, "hash": "aa"}))

    def test_the_table_of_results(self):
        con = con_of(blank=8, spoiled=5, stations=1)
        setup = {"c1": {"stations": [{"electors": 300}, {"electors": 50}]}}
        for of, electors in ((setup, "350"), ({}, "")):
            self.assertEqual(data.results_csv({"c1": con}, of).splitlines()[1:], [
                f"c1,Twin Town,1,1,3,true,{electors},208,8,5,A,Alpha,100,48.07,yes,1,1",
                f"c1,Twin Town,1,1,3,true,{electors},208,8,5,B,Beta,100,48.07,yes,2,2"])
        rest = results.without_provisional(con_of(certified=False))
        self.assertEqual(data.con_csv(rest).splitlines()[1], "A,Alpha,100,50.00,yes,,")

    def test_a_setup_whose_returns_are_entered_twice(self):
        Path("setup.toml").write_text(
            PROFILE + constituency("c1", "One", 3, "d0") + DOUBLE + LISTS + station("s1")
            + constituency("c2", "Two", 1, "d0") + LISTS + station("s2", 50).rstrip()
            + "\nagents = 4\n", encoding="utf-8")
        one, two = data.read_setup(Path("setup.toml"))
        self.assertEqual((one["entry"], "entry" in two, one["stations"], two["stations"]), (
            "double", False, [{"code": "s1", "electors": 300}],
            [{"code": "s2", "electors": 50, "agents": 4}]))
        self.assertEqual((two["lot"], two["lists"][1]), (
            "fixed", {"code": "B", "name": "Beta", "candidates": ["Bea"]}))


class Descriptions(Case):
    def test_the_text_of_a_json_file(self):
        """A line for each value, letters as they are."""
        self.assertEqual(data.json_text({"a": "é", "b": [1]}),
                         '{\n "a": "é",\n "b": [\n  1\n ]\n}\n')

    def test_what_numbers_may_be(self):
        """Editions are from 1 to 9999, as an office has them; counts from 0."""
        self.assertEqual((data.EDITION["minimum"], data.EDITION["maximum"]), (1, 9999))
        self.assertEqual((data.COUNT["minimum"], data.FROM_ONE["minimum"]), (0, 1))
        schema = json.loads(data.schemas()["setup.schema.json"])["items"]
        self.assertEqual(schema["required"], ["code", "name", "seats", "method", "threshold",
                                              "base", "lot", "lists", "stations"])
        self.assertEqual((sorted(schema["properties"]), schema["additionalProperties"]), (
            sorted([*schema["required"], "entry"]), False))

    def test_what_each_table_is(self):
        """By its name, with the names of constituencies and lists that are known."""
        cons = {"c1": con_of(), "c-2": con_of(con="c-2", name="Two")}
        for name, columns in (("stations-c1-3.csv", "station,slip,blank,spoiled,A,C"),
                              ("stations-c-2-open.csv", "station,slip,blank,spoiled,A,B"),
                              ("places-c1.csv",
                               "place,stations,closed,electors,blank,spoiled,A,B"),
                              ("places-c9.csv", ""), ("con-c9.csv", "x")):
            Path(name).write_text(columns, encoding="utf-8")
        for name, said, of_lists in (
                ("index.csv", "The progress of all constituencies.", None),
                ("results.csv", "Votes and seats of all constituencies.", None),
                ("elected.csv", "Who holds the seats of certified constituencies.", None),
                ("record.csv", "The heads of the record of commands that were shown.", None),
                ("con-c1.csv", "Votes and seats of Twin Town.", None),
                ("con-c9.csv", "Votes and seats of c9.", None),
                ("stations-c1-3.csv", "The returns of edition 3 of Twin Town.",
                 ["Votes of Alpha.", "Votes of C."]),
                ("stations-c-2-open.csv", "The returns that are closed so far of Two.",
                 ["Votes of Alpha.", "Votes of Beta."]),
                ("places-c1.csv", "Votes in the places of Twin Town.",
                 ["Votes of Alpha.", "Votes of Beta."]),
                ("places-c9.csv", "Votes in the places of c9.", [])):
            with self.subTest(name=name):
                found = data.resource_of(Path(name), cons)
                self.assertEqual((found["path"], found["description"]), (name, said))
                if of_lists is not None:
                    fields = [field for field in found["schema"]["fields"]
                              if field["description"].startswith("Votes of ")]
                    self.assertEqual([field["description"] for field in fields], of_lists)
                    first = [field["name"] for field in found["schema"]["fields"]][0]
                    self.assertIn(first, ("station", "place"))
        self.assertIsNone(data.resource_of(Path("others.csv"), cons))
