"""How `press.py` goes round: what a round asks for, when it waits, what it writes and removes, and
what it says. The office answers in this process, and no time passes but what a test lets pass."""

import contextlib
import hashlib
import io
import json
import os
import re
import runpy
import signal
import tomllib
from datetime import datetime, timedelta, timezone
from pathlib import Path
from types import SimpleNamespace
from unittest import mock

from tests.support import model
from tests.support.case import Case
from tests.support.desks import done
from tests.support.office import LISTS, PROFILE, constituency, station, with_stations
from tests.support.pages import RESULT, TWIN, shown_text
from tests.support.scripts import module
from tests.support.site import DEPLOY

press, files, offices, results, site = map(module, (
    "press", "press_files", "press_offices", "press_results", "press_site"))

SETUP = {"lists": [{"code": "A"}, {"code": "B"}],
         "stations": [{"code": "s1", "electors": 300}, {"code": "s2", "electors": 500}]}
COLUMNS = "station,slip,blank,spoiled,A,B\n"
# The page of this program has this mark.
OURS = "<p><!--age--><!--/age--></p>"
NOON = datetime(2026, 11, 29, 12, tzinfo=timezone.utc)


class Clock:
    """Time as a test lets it pass: of a round, and of the day."""

    def __init__(self, test):
        self.now, self.waited = 1000.0, []
        for name, value in (
                ("press.time", SimpleNamespace(monotonic=lambda: self.now, sleep=self.sleep)),
                ("press.datetime", SimpleNamespace(now=lambda: NOON + timedelta(
                    seconds=self.now - 1000)))):
            patched = mock.patch(name, value)
            patched.start()
            test.addCleanup(patched.stop)

    def sleep(self, seconds):
        self.waited.append(seconds)
        self.now += seconds


class Given(press.Office):
    """An office that gives what a function answers to a target, after some seconds for a table of
    stations."""

    def __init__(self, answers, seconds=0.0):
        super().__init__("http://office.example")
        self.answers, self.seconds, self.targets = answers, seconds, []

    def get_once(self, target):
        self.targets.append(target)
        self.asked += 1
        self.took += self.seconds if target.endswith("/stations") else 0
        return self.answers(target)


def in_turn(**answers):
    """An office that gives these answers to what it is asked for: each one after the other, and
    the last one from then on."""
    def answer(target):
        left = answers[target.rpartition("/")[2]]
        return 200, left.pop(0) if len(left) > 1 else left[0]

    return Given(answer)


def towns(many):
    """A setup of as many constituencies with one station each."""
    return PROFILE + "".join(constituency(f"c{n}", f"Town {n}", 3, "d0") + LISTS + station(f"s{n}")
                             for n in range(1, many + 1))


class Rounds:
    """Rounds over the model of an office."""

    def __init__(self, setup, seconds=0.0, about=""):
        self.model = model.Office(tomllib.loads(setup))
        Path("setup.toml").write_text(setup, encoding="utf-8")
        Path("site").mkdir(exist_ok=True)
        Path("site/site.toml").write_text(about, encoding="utf-8")
        self.site = site.Site(Path("site"))
        self.office = Given(lambda target: self.model.ask("GET", target), seconds)
        self.entries = {entry["code"]: entry for entry in press.read_setup(Path("setup.toml"))}
        self.seen, self.folder = press.Seen(), Path("pages")
        self.folder.mkdir(exist_ok=True)

    def go(self, seconds=60.0, head=None):
        """A round: how many pages it wrote, what failed, and which stations it asked for."""
        self.office.targets.clear()
        many, failures = press.write_all([self.office], self.folder, self.site, self.entries,
                                         self.seen, head, seconds)
        return many, failures, [target for target in self.office.targets
                                if target.endswith(("stations", "returns"))]

    def part(self, code):
        """The answer of an office that has this constituency alone."""
        found = [con for con in json.loads(self.model.ask("GET", "/results")[1])
                 if con["con"] == code]
        return 200, json.dumps(found)

    def lodge(self, code, *votes):
        done(self.model, f"/station/{code}/lodge",
             {"slip": "p1", "votes": votes, "blank": 0, "spoiled": 0})

    def close(self, code, *votes):
        self.lodge(code, *votes)
        done(self.model, f"/station/{code}/close", {"rev": 1})

    def read(self, name):
        return (self.folder / name).read_text(encoding="utf-8")


def files_of(*names, text=OURS):
    """Files of this folder with this text."""
    for name in names:
        Path(name).write_text(text, encoding="utf-8")


def left(pattern="*"):
    return sorted(file.name for file in Path().glob(pattern) if file.suffix != ".gz")


def con_of(**more):
    """Twin Town as the pages have it, with these results."""
    return results.con_of(RESULT | more)


class Stations(Case):
    """A round asks for the stations of a constituency."""

    def test_a_table_that_changes_is_asked_for_three_times(self):
        """A second and a tenth lie between two of these, and then it fails."""
        clock = Clock(self)
        table = ("STATIONS c1 Twin Town\nstations 2 missing 0 closed 1\n"
                 "s1 300 closed 2 p1 30 0 0\ns2 500 received 1 p2 50 0 0\n")
        office = in_turn(stations=[table], returns=[f"{COLUMNS}s1,p1,0,0,10,19\n"])
        with self.assertRaisesRegex(press.NoAnswer, "they change while they are asked for"):
            press.stations_of(office, "c1", None, SETUP)
        self.assertEqual((len(office.targets), clock.waited), (6, [1.1, 1.1]))
        # One that is as it was before is asked for once, and the returns are not.
        self.assertEqual(press.stations_of(office, "c1", table, SETUP), (table, None, None))
        self.assertEqual((len(office.targets), len(clock.waited)), (7, 2))

    def test_closed_returns_are_those_of_the_table(self):
        """Each has the slip and the sums that the table has of it; those that are not closed are
        left out."""
        stations = {"s1": ("closed", ["p1", 30, 1, 2]), "s2": ("received", ["p2", 50, 0, 0]),
                    "s3": None}
        other = "s2,p9,7,7,7,7\n"
        for row, wanted in (("s1,p1,1,2,10,20\n", f"{COLUMNS}s1,p1,1,2,10,20\n"),
                            ("s1,p2,1,2,10,20\n", None), ("s1,p1,1,2,10,21\n", None),
                            ("s1,p1,2,2,10,20\n", None), ("s1,p1,1,3,10,20\n", None),
                            ("", None)):
            with self.subTest(row=row):
                office = in_turn(returns=[COLUMNS + other + row])
                self.assertEqual(press.closed_returns(office, "c1", stations, SETUP), wanted)
        # Where none is closed the returns are not asked for.
        office = in_turn()
        self.assertEqual((press.closed_returns(office, "c1", {"s2": stations["s2"], "s3": None},
                                               SETUP), office.targets), (COLUMNS, []))

    def test_returns_of_a_certificate_are_of_its_edition_and_its_stations(self):
        view = {"closed": 2, "blank": 1, "spoiled": 2, "votes": [40, 60], "edition": 3}
        good = f"{COLUMNS}s1,p1,1,0,10,20\ns2,p1,0,2,30,40\n"
        for text, edition, wanted in ((good, 3, good), (good, 4, None),
                                      (good.replace("40\n", "41\n"), 3, None)):
            with self.subTest(text=text, edition=edition):
                office = in_turn(returns=[text], c1=[f'{{"edition": {edition}}}'])
                self.assertEqual(press.certified_returns(office, "c1", view, SETUP), wanted)
        office = in_turn(returns=[good.replace("s2", "s3")], c1=['{"edition": 3}'])
        with self.assertRaisesRegex(press.NoAnswer, "other stations or lists than those of the"):
            press.certified_returns(office, "c1", view, SETUP)

    def test_when_a_table_is_read_that_no_number_changed(self):
        """After more than sixty seconds, and at once where something changed or the file of closed
        returns is gone."""
        clock, rounds = Clock(self), Rounds(with_stations(2))
        rounds.close("s1", 10, 20)
        table, both = ["/con/c1/stations"], ["/con/c1/stations", "/con/c1/returns"]
        self.assertEqual(rounds.go(), (2, [], both))
        for seconds, asked in ((60, []), (0.5, table), (60, []), (0.5, table)):
            clock.now += seconds
            self.assertEqual(rounds.go()[2], asked)
        rounds.lodge("s2", 1, 2)
        self.assertEqual((rounds.go(0)[2], rounds.go()[2], rounds.go()[2]), ([], both, []))
        Path("pages/stations-c1-open.csv").unlink()
        with contextlib.redirect_stderr(io.StringIO()):
            self.assertEqual((rounds.go()[2], rounds.read("stations-c1-open.csv")),
                             (both, f"{COLUMNS}s1,p1,0,0,10,20\n"))
        # (a program that begins finds the file of the one before)
        rounds.seen = press.Seen()
        self.assertEqual((rounds.go(), rounds.go()), ((2, [], both), (2, [], [])))

    def test_a_round_asks_for_stations_until_its_seconds_are_over(self):
        """Each table takes a fifth of a second: three of four are in half a second. The fourth is
        in the next round, and what a round took too long is known to it."""
        rounds = Rounds(towns(4), seconds=0.2)
        for n in range(1, 5):
            rounds.lodge(f"s{n}", 1, 2)
        tables = [f"/con/c{n}/stations" for n in range(1, 5)]
        self.assertEqual(rounds.go(0.5), (5, [], tables[:3]))
        self.assertAlmostEqual(rounds.seen.left, -0.1)
        self.assertEqual(rounds.go(0.5), (5, [], tables[3:]))
        self.assertAlmostEqual(rounds.seen.left, 0.3)
        # Without a second left nothing is asked for, and with one that has no end everything.
        press.AGAIN, before = -1, press.AGAIN
        self.addCleanup(setattr, press, "AGAIN", before)
        self.assertEqual((rounds.go(0)[2], sorted(rounds.go(1e9)[2])), ([], tables))

    def test_whose_stations_are_first(self):
        """Where pages of stations are of a certificate that is withdrawn; then those of a
        certificate, then those never asked for, then those that waited longest."""
        it = SimpleNamespace(
            folder=Path(), has_stations=lambda code: code in ("c4", "c5", "c6"),
            cons={f"c{n}": {"progress": {"certified": n == 4, "missing": 0, "stations": 1}}
                  for n in range(1, 7)},
            seen=SimpleNamespace(stations={"c1": ("key", 70.0, ""), "c2": ("key", 60.0, ""),
                                           "c5": ("key", 80.0, ""), "c6": ("key", 90.0, "")}))
        files_of("stations-c5-open.csv", text="")
        self.assertEqual(sorted(it.cons, key=lambda code: press.Round.waits(it, code)),
                         ["c6", "c4", "c3", "c2", "c1", "c5"])

    def test_a_constituency_has_a_table_of_stations_while_it_is_counted(self):
        for certified, missing, wanted in ((False, 0, True), (False, 2, True), (False, 3, False),
                                           (True, 0, False)):
            with self.subTest(certified=certified, missing=missing):
                self.assertEqual(press.has_open(
                    {"certified": certified, "missing": missing, "stations": 3}), wanted)

    def test_whose_electors_are_counted(self):
        """All of them where all is closed, none where nothing is; else those of the closed returns,
        where there is a file of these."""
        files_of("one.csv", text=f"{COLUMNS}s2,p1,0,0,1,2\n")
        files_of("two.csv", text=f"{COLUMNS}s2,p1,0,0,1,2\ns1,p1,0,0,1,2\n")
        files_of("other.csv", text=f"{COLUMNS}s1,p1,0,0,2,1\n")
        for closed, stations, entry, returns, wanted in (
                (2, 2, SETUP, {}, 800), (0, 2, SETUP, {}, None), (0, 0, SETUP, {}, None),
                (2, 2, None, {}, None), (1, 2, None, {"open": "one.csv"}, None),
                (1, 2, SETUP, {}, None), (1, 2, SETUP, {"open": "one.csv"}, 500),
                (1, 2, SETUP, {"open": "two.csv"}, None), (1, 2, SETUP, {3: "one.csv"}, None),
                (1, 2, SETUP, {"open": "other.csv"}, None)):
            with self.subTest(closed=closed, entry=entry, returns=returns):
                con = {"tally": {"closed": closed, "stations": stations}, "view": {
                    "closed": closed, "blank": 0, "spoiled": 0, "votes": [1, 2]}}
                self.assertEqual(press.electors_counted(Path(), con, entry, returns), wanted)

    def test_returns_of_certificates_that_are_there(self):
        """Of the certificate in force and of those that are withdrawn, by edition. One of another
        edition, or with other sums than the certificate's, is removed, and what was there before
        has its compressed one again."""
        good = TWIN["/con/c1/returns"]
        past = [{"edition": 1, "seats": [1, 2]}]
        names = [f"stations-c1-{n}.csv" for n in (1, 2, 3)]
        files_of(*names, "stations-c1-x.csv", "stations-c2-2.csv", text=good)
        files_of("stations-c1-1.csv", text="of another moment\n")
        con, seen = con_of(past=past), press.Seen()
        # (in a round that has no time to ask)
        found = press.write_returns(in_turn(), Path(), "c1", con, {}, seen, False)
        self.assertEqual(found, {1: names[0], 3: names[2]})
        self.assertEqual(left(), [names[0], names[2], "stations-c1-x.csv", "stations-c2-2.csv"])
        self.assertEqual([Path(f"{name}.gz").exists() for name in left()],
                         [True, True, False, False])
        # Without a certificate, and with other sums than its own.
        withdrawn = con_of(certified=False, edition=4,
                           past=past + [{"edition": 3, "seats": [1, 2]}])
        self.assertEqual(press.write_returns(in_turn(), Path(), "c1", withdrawn, {}, seen, True),
                         found)
        files_of(names[2], text=good.replace("100,100", "100,101"))
        self.assertEqual(press.write_returns(in_turn(), Path(), "c1", con, {}, seen, False),
                         {1: names[0]})

    def test_returns_of_a_certificate_are_compared_once(self):
        """One that was there before is left where the office says the same, and made again, with
        its pages, where it says something else. What is of another moment is not published."""
        good, other = TWIN["/con/c1/returns"], "station,slip,blank,spoiled,A,B\ns1,p9,0,0,100,100\n"
        entry = {"lists": SETUP["lists"], "stations": SETUP["stations"][:1]}
        name = "stations-c1-3.csv"

        def returns(before, said, edition=3, seen=None):
            files_of(*[name] if before else [], text=before or "")
            seen = seen or press.Seen(written={"c1": "known"})
            office = in_turn(returns=[said], c1=[f'{{"edition": {edition}}}'])
            with contextlib.redirect_stderr(io.StringIO()) as errors:
                found = press.write_returns(office, Path(), "c1", con_of(), entry, seen, True)
            kept = Path(name).read_text(encoding="utf-8") if Path(name).exists() else None
            return found, kept, len(office.targets), "c1" in seen.written, errors.getvalue(), seen

        found, kept, asked, is_known, said, seen = returns(good, good)
        self.assertEqual((found, kept, asked, is_known, said), ({3: name}, good, 2, True, ""))
        self.assertEqual(returns(good, "", seen=seen)[:3], ({3: name}, good, 0))
        found, kept, _, is_known, said, _ = returns(other, good)
        self.assertEqual((found, kept, is_known), ({3: name}, good, False))
        self.assertEqual(said, f"failed: {name}: somebody else changed it, and pages were made of "
                         "it\n")
        # The office is at another edition by now: what has the right sums stays, nothing else does.
        self.assertEqual(returns(good, good, 4)[:2], ({3: name}, good))
        self.assertEqual(returns(good.replace(",0,100", ",1,100"), good, 4)[:2], ({}, None))
        self.assertEqual(returns(None, good)[:2], ({3: name}, good))


class Pages(Case):
    """A round writes pages and removes others."""

    def test_of_which_constituency_a_page_is(self):
        for page, wanted in (
                ("con-c1.html", "c1"), ("embed-c-1.html", "c-1"), ("details-c1-2.html", "c1"),
                ("stations-c_1-10.html", "c_1"), ("place-c1-3.html", "c1"),
                ("places-c1-1.html", "c1"), ("index.html", None), ("count-1.html", None),
                ("list-A.html", None), ("embed.html", None), ("details-c1.html", None),
                ("con-c1.csv", None)):
            with self.subTest(page=page):
                self.assertEqual(press.con_of(page), wanted)

    def test_the_files_of_a_folder_that_are_for_readers(self):
        files_of("b.csv", "b.csv.gz", ".b.csv.new", "a.html", "manifest.json")
        Path("a.csv").mkdir()
        self.assertEqual([file.name for file in press.published(Path(), "manifest.json")],
                         ["a.html", "b.csv"])

    def test_a_file_keeps_its_moment_while_it_says_the_same(self):
        def written(text):
            return lambda moment: (
                f'<time datetime="{moment.isoformat()}"><!--age--><!--/age-->{text}')

        def put(text, minutes):
            since = press.put_dated(Path(), "a.html", written(text),
                                    NOON + timedelta(minutes=minutes))
            return (since - NOON).seconds // 60, Path("a.html").read_text(encoding="utf-8")

        def page(text, minute):
            return minute, written(text)(NOON + timedelta(minutes=minute))

        self.assertEqual(put("one", 0), page("one", 0))
        self.assertEqual(put("one", 1), page("one", 0))
        # (how old a page is goes when it is of now)
        files_of("a.html", text=page("one", 0)[1].replace("<!--/", "a minute<!--/"))
        self.assertEqual(put("one", 2), page("one", 0))
        self.assertEqual(put("two", 3), page("two", 3))
        files_of("a.html", text="nothing that says a moment")
        self.assertEqual(put("two", 4), page("two", 4))

    def test_pages_that_follow_one_another(self):
        """One that stays as it is is passed over, and those beyond the last of them are removed,
        but for the board's own."""
        files_of(*(f"p-{n}.html" for n in (1, 2, 3, 4, 11, "x")), "pp-9.html",
                 text=f"before {OURS}")
        files_of("p-2019.html", text="the board's")
        press.write_parts(Path(), "p", [None, "two", lambda moment: "three"], NOON)
        self.assertEqual([Path(f"p-{n}.html").read_text(encoding="utf-8") for n in (1, 2, 3)],
                         [f"before {OURS}", "two", "three"])
        self.assertEqual(left(), ["p-1.html", "p-2.html", "p-2019.html", "p-3.html", "p-x.html",
                                  "pp-9.html"])

    def test_pages_that_are_left_as_they_are(self):
        """Those that show what they showed, and are there."""
        before = {}
        self.assertEqual(press.left_as_they_are(
            Path(), "place-c1", [(b"1", "one"), (b"2", "two"), (b"3", "three")], before),
            ["one", "two", "three"])
        files_of("place-c1-1.html", "place-c1-3.html")
        self.assertEqual(press.left_as_they_are(
            Path(), "place-c1", [(b"1", "one"), (b"2", "two"), (b"9", "nine")], before),
            [None, "two", "nine"])
        self.assertEqual(press.left_as_they_are(
            Path(), "place-c1", [(b"1", "one"), (b"2", "two"), (b"9", "nine")], before),
            [None, "two", None])

    def test_the_acts_of_a_certificate(self):
        """Of its edition and of its returns, with their kind and their language."""
        files_of("stations-c1-3.csv", text="returns\n")
        digest = hashlib.sha256(b"returns\n").hexdigest()[:12]
        files_of(f"act-count-c1-3-{digest}-es.pdf", f"act-proclamation-c1-3-{digest}-ca-ES.pdf",
                 f"act-count-c1-2-{digest}-es.pdf", f"act-count-c2-3-{digest}-es.pdf",
                 f"act-other-c1-3-{digest}-es.pdf", "act-count-c1-3-0123456789ab-es.pdf")
        self.assertEqual(press.acts_of(Path(), "c1", 3, {3: "stations-c1-3.csv"}), [
            (f"act-count-c1-3-{digest}-es.pdf", "count", "es"),
            (f"act-proclamation-c1-3-{digest}-ca-ES.pdf", "proclamation", "ca-ES")])
        self.assertEqual(press.acts_of(Path(), "c1", 3, {}), [])

    def test_a_head_of_another_record(self):
        """As the recorder says, or the heads that were shown: it is one of the failures."""
        shown = f"time,lines,sha256\nx,7,{'a' * 64}\n"
        for n, more, is_whole in ((8, {}, True), (8, {"fault": ""}, True),
                                  (8, {"fault": "another record"}, False), (6, {}, False),
                                  (6, {"fault": "another record"}, False)):
            with self.subTest(n=n, more=more):
                files_of("record.csv", text=shown)
                files_of("head", text=json.dumps({"time": "x", "n": n, "hash": "b" * 64} | more))
                head = press.put_head(Path(), Path("head"), failures := [])
                self.assertEqual((head["whole"], failures), (is_whole, [] if is_whole else [
                    f"head: line {n} is the last of the record, and record.csv has more, or "
                    "another"]))

    def test_the_page_of_a_constituency_is_made_where_it_changed(self):
        """Its counts, or the returns that are there; and not in a round in which neither did."""
        rounds, made = Rounds(with_stations(2)), []
        bodies = press.con_bodies
        with mock.patch("press.con_bodies", lambda *given: (
                made.append(given[1]), bodies(*given))[1]):
            for act, seconds, many in (
                    (lambda: None, 60, 1), (lambda: None, 60, 0),
                    (lambda: rounds.close("s1", 30, 10), 60, 1), (lambda: None, 60, 0),
                    (lambda: rounds.close("s2", 5, 1), 60, 1), (lambda: None, 60, 0),
                    (lambda: done(rounds.model, "/con/c1/certify", {"edition": 1}), 0, 1),
                    (lambda: None, 0, 0), (lambda: None, 60, 1), (lambda: None, 60, 0)):
                act()
                rounds.go(seconds)
                self.assertEqual(len(made), many)
                made.clear()
                if "s2" in rounds.model.con("c1").returns:
                    self.assertIn("Valid votes 46,", shown_text(rounds.read("con-c1.html")))
        self.assertIn("stations-c1-2.csv", rounds.read("con-c1.html"))

    def test_pages_of_stations_and_of_places(self):
        """Those of places are there before the count. Those of stations stay while the returns of
        a certificate are not read yet, and go where there is no setup."""
        Path("site").mkdir()
        files_of("site/stations.csv", text="station,name,place\ns1,,North\n")
        rounds = Rounds(with_stations(2))

        def there(seconds):
            rounds.go(seconds)
            return sorted(file.name for kind in ("place", "stations")
                          for file in rounds.folder.glob(f"{kind}*.html"))

        of_places = ["place-c1-1.html", "places-c1-1.html"]
        of_all = [*of_places, "stations-c1-1.html"]
        self.assertEqual(there(60), of_places)
        rounds.close("s1", 30, 10)
        rounds.close("s2", 5, 1)
        self.assertEqual(there(60), of_all)
        before = rounds.read("stations-c1-1.html")
        done(rounds.model, "/con/c1/certify", {"edition": 1})
        self.assertEqual((there(0), rounds.read("stations-c1-1.html")), (of_all, before))
        self.assertEqual(there(60), of_all)
        self.assertIn("stations-c1-2.csv", rounds.read("stations-c1-1.html"))
        rounds.entries, rounds.seen = {}, press.Seen()
        self.assertEqual(there(60), [])

    def test_pages_of_lists_are_made_where_a_constituency_changed(self):
        """And not in a round in which none did. A page of a list that is none is removed, but for
        the board's own."""
        rounds, made = Rounds(towns(2)), []
        pages_of = press.list_pages
        with mock.patch("press.list_pages", lambda site, country, party, cons: (
                made.append(party.code), pages_of(site, country, party, cons))[1]):
            for code, asked in ((None, "AB"), (None, ""), ("s1", "AB"), (None, ""), ("s2", "AB")):
                rounds.close(code, 30, 10) if code else None
                rounds.go()
                self.assertEqual("".join(made), asked)
                made.clear()
        self.assertIn("60", shown_text(rounds.read("list-A.html")))
        os.chdir("pages")
        files_of("list-C.html", "lists-C-1.html")
        files_of("list-of-names.html", "lists-of-names-1.html", text="the board's")
        os.chdir("..")
        rounds.seen.lists.clear()
        rounds.go()
        self.assertEqual(sorted(file.name for file in rounds.folder.glob("list*.html")), [
            "list-A.html", "list-B.html", "list-of-names.html", "lists-of-names-1.html"])

    def test_when_something_changed_last(self):
        """The latest moment of a constituency, on the page of the country."""
        clock, rounds = Clock(self), Rounds(towns(3), about='timezone = "UTC"\n')
        for n, minutes in enumerate((0, 3, 7)):
            clock.now = 1000 + 60 * minutes
            if n:
                rounds.close(f"s{n}", 30, 10)
                rounds.go()
        rounds.seen.moments |= {"c3": NOON + timedelta(minutes=5)}
        clock.now = 1000 + 60 * 20
        rounds.go()
        self.assertIn("12:07 UTC", shown_text(rounds.read("index.html")))
        self.assertIn("12:07 UTC", shown_text(rounds.read("count.html")))

    def test_the_names_that_are_found_are_made_again_where_pages_begin_elsewhere(self):
        """A reader who searches comes to the page of a station also after it became another."""
        rounds = Rounds(with_stations(2))
        rounds.go()
        self.assertIn('"starts":[]', rounds.read("find.json"))
        rounds.close("s1", 10, 20)
        rounds.go()
        self.assertIn('"starts":[0]', rounds.read("find.json"))

    def test_the_setup_is_written_once(self):
        """And again where somebody else removed it; without a setup there is none."""
        rounds, written = Rounds(with_stations(1)), []
        put = press.put
        with mock.patch("press.put", lambda folder, name, text: (
                written.append(name), put(folder, name, text))):
            for removed, many in ((False, 1), (False, 1), (True, 2)):
                if removed:
                    Path("pages/setup.json").unlink()
                with contextlib.redirect_stderr(io.StringIO()):
                    rounds.go()
                self.assertEqual(written.count("setup.json"), many)
        self.assertEqual(json.loads(rounds.read("setup.json"))[0]["code"], "c1")
        rounds.entries, rounds.folder = {}, Path("others")
        rounds.folder.mkdir()
        rounds.seen = press.Seen()
        rounds.go()
        self.assertFalse(Path("others/setup.json").exists())

    def test_files_that_somebody_else_changed_are_named(self):
        """Twenty of them; of more how many they are. Each is removed and made again, but for those
        that have moments of before, and for a folder."""
        for many, more in ((20, ""), (21, "1 more files"), (25, "5 more files")):
            folder = Path(f"pages{many}")
            folder.mkdir()
            names = ["feed.atom", "record.csv", "setup.json",
                     *(f"f{n:02}.csv" for n in range(many - 3))]
            for name in names:
                files.put(folder, name, "ours")
                (folder / name).write_text("another's", encoding="utf-8")
            (folder / "f00.csv").unlink()
            (folder / "f00.csv").mkdir()
            seen = press.Seen(has_setup=True, written={"c1": 1}, lists={"c1": 1}, left=-2.0)
            with self.subTest(many=many), contextlib.redirect_stderr(io.StringIO()) as errors:
                press.look_for_changes(folder, site.Site(), seen)
                lines = errors.getvalue().splitlines()
                said = [line for line in lines if line.endswith("changed or removed it")]
                self.assertEqual((len(said), len(lines)), (20, 20 + bool(more)))
                self.assertEqual(lines[20:], [
                    f"failed: {folder}: somebody else changed or removed {more}"] if more else [])
                self.assertEqual(sorted(file.name for file in folder.glob("[!.]*[!z]")),
                                 ["f00.csv", "feed.atom", "record.csv"])
                self.assertEqual((seen.has_setup, seen.written, seen.lists, seen.left),
                                 (False, {}, {}, -2.0))
        with contextlib.redirect_stderr(io.StringIO()) as errors:
            seen = press.Seen(has_setup=True, written={"c1": 1})
            press.look_for_changes(Path("pages25"), site.Site(), seen)
        self.assertEqual((errors.getvalue(), seen.has_setup, seen.written), ("", True, {"c1": 1}))


class WithFailures(Case):
    """A round in which something fails."""

    def test_others_go_on_where_one_fails(self):
        """The page of a constituency whose returns cannot be read says how old it is, as no other
        page does, and is written again with the next answer."""
        rounds = Rounds(towns(3), about='timezone = "UTC"\n')
        rounds.go()
        for n in (1, 2, 3):
            rounds.close(f"s{n}", 30, 10)
        good = rounds.office.answers
        rounds.office.answers = lambda target: (
            (200, "no returns\n") if target == "/con/c2/returns" else good(target))
        many, failures, _ = rounds.go()
        # Two of three constituencies, and the country.
        self.assertEqual((many, failures), (3, [
            "/con/c2/returns: other stations or lists than those of the setup"]))
        old = [n for n in (1, 2, 3) if "could not be renewed" in rounds.read(f"con-c{n}.html")]
        counted = [n for n in (1, 2, 3) if "Valid votes 40," in shown_text(
            rounds.read(f"con-c{n}.html"))]
        self.assertEqual((old, counted), ([2], [1, 3]))
        self.assertEqual(re.findall("con-(c.)[.]html", rounds.read("feed.atom")), ["c3", "c1"])
        rounds.office.answers = good
        self.assertEqual(rounds.go()[:2], (4, []))
        self.assertEqual(sorted(re.findall("con-(c.)[.]html", rounds.read("feed.atom"))),
                         ["c1", "c2", "c3"])
        # 120 papers of 900 electors
        self.assertIn("13.33%", rounds.read("index.html"))
        self.assertNotIn("could not be renewed", rounds.read("con-c2.html"))

    def test_how_many_pages_are_left_as_they_are(self):
        """Where no office answers: those of the country, of the constituencies and of the lists;
        the last of what failed says so."""
        rounds = Rounds(towns(2))
        rounds.go()
        pages = len([file for file in rounds.folder.glob("*.html")])
        files_of("pages/notice.html", text="the board's")
        down = [Given(lambda target: (503, "")) for _ in range(3)]
        many, failures = press.write_all(down, rounds.folder, rounds.site, rounds.entries,
                                         rounds.seen)
        self.assertEqual((many, failures), (0, [
            "/results: status 503", "/results: status 503",
            f"/results: status 503; left as they are: {pages} pages"]))
        self.assertEqual(sum("could not be renewed" in file.read_text(encoding="utf-8")
                             for file in rounds.folder.glob("*.html")), pages)

    def test_constituencies_that_no_office_has_now(self):
        """Without a setup nobody knows whether an office that gives no answer has them: their pages
        stay, as they do where all offices have none. Where each answers they are withdrawn."""
        rounds = Rounds(towns(2))
        parts = [Given(lambda target, code=code: rounds.part(code)) for code in ("c1", "c2")]

        def go(*there):
            press.write_all(there, rounds.folder, rounds.site, {}, press.Seen())
            return ["not part of the election" in rounds.read(f"con-{code}.html")
                    for code in ("c1", "c2")]

        self.assertEqual(go(*parts), [False, False])
        self.assertEqual(go(parts[0], Given(lambda target: (503, ""))), [False, False])
        self.assertEqual(go(Given(lambda target: (200, "[]"))), [False, False])
        self.assertEqual(go(parts[0]), [False, True])


class Program(Case):
    """The program itself: its rounds, its lines and its status."""

    def setUp(self):
        super().setUp()
        self.clock = Clock(self)
        self.addCleanup(signal.signal, signal.SIGTERM, signal.getsignal(signal.SIGTERM))

    def run_main(self, *words, rounds=(), act=None):
        """The status of the program, its lines, and what it said on its error stream. Each round is
        one of these: the seconds that it takes, and what it returns or raises. After the last of
        them `act` is done while the program waits."""
        left, asked = list(rounds), []

        def a_round(offices, folder, site, setup, seen, head=None, seconds=None):
            asked.append(seconds)
            took, found, seen.left, offices[0].asked = left.pop(0)
            self.clock.now += took
            if isinstance(found, Exception):
                raise found
            return found

        def sleep(seconds):
            self.clock.sleep(seconds)
            self.written.append(raw.getvalue().decode().count("\n"))
            if not left:
                act()

        raw, errors = io.BytesIO(), io.StringIO()
        out = io.TextIOWrapper(raw)
        self.written, press.time.sleep = [], sleep
        with mock.patch("press.write_all", a_round), mock.patch(
                "sys.argv", ["press.py", "http://127.0.0.1:9", *words]), mock.patch(
                "sys.stdout", out), contextlib.redirect_stderr(errors):
            try:
                status = press.main()
            except SystemExit as ended:
                status = ended.code
            out.flush()
        return status, raw.getvalue().decode().splitlines(), errors.getvalue(), asked

    def test_one_round(self):
        """Its status is 1 where something failed, and its line has what it wrote and asked for."""
        for failures, status in (([], 0), (["one", "two"], 1)):
            with self.subTest(failures=failures):
                found, [line], errors, asked = self.run_main(
                    "a/b/pages", rounds=[(2.5, (7, failures), 0.0, 12)])
                self.assertEqual((found, asked), (status, [float("inf")]))
                self.assertRegex(line, r"^\d\d:\d\d:\d\d " + (
                    f"pages 7 failed {len(failures)} GETs 12 in 2[.]5 s$"))
                self.assertEqual(errors, "".join(f"failed: {one}\n" for one in failures))
                self.assertTrue(Path("a/b/pages").is_dir())

    def test_rounds_again_and_again(self):
        """Each begins three seconds after the one before, or at once where that took longer. The
        line of each is there when it waits; a full disk ends the round alone."""
        full = OSError(28, "No space left on device", "a.html")
        status, lines, errors, asked = self.run_main(
            "pages", "--every", "3", act=lambda: os.kill(os.getpid(), signal.SIGTERM),
            rounds=[(1.0, (4, []), -0.2, 10), (5.0, (4, []), 0.1, 15), (0.5, full, 0.0, 15)])
        self.assertEqual((status, self.clock.waited), (0, [2.0, 0.0, 2.5]))
        self.assertEqual([round(seconds, 3) for seconds in asked], [0.5, 0.3, 0.5])
        self.assertEqual([line.partition(" ")[2] for line in lines], [
            "pages 4 failed 0 GETs 10 in 1.0 s", "pages 4 failed 0 GETs 5 in 5.0 s",
            "pages 0 failed 1 GETs 0 in 0.5 s"])
        self.assertEqual(self.written, [1, 2, 3])
        self.assertEqual(errors, "failed: a.html: No space left on device: the round ended there\n")

    def test_what_it_says_of_itself(self):
        status, lines, _, _ = self.run_main("--help")
        self.assertEqual((status, lines.count(
            "Writes the pages for the press and the public from what an office answers.")), (0, 1))

    def test_what_a_fault_of_the_folder_of_the_site_leaves(self):
        """Nobody may see seats before they are certified."""
        Path("site").mkdir()
        files_of("site/site.toml", text="provisional = 3\n")
        Path("pages").mkdir()
        files_of("pages/.provisional", text="")
        status, lines, _, asked = self.run_main("pages", "--site", "site")
        self.assertRegex(status, "^failed: site/site.toml: provisional is 3")
        self.assertEqual((lines, asked, Path("pages/.provisional").exists()), ([], [], False))

    def test_a_key_that_interrupts_it(self):
        """It ends with the status 0."""
        with mock.patch("sys.argv", ["press.py", "http://127.0.0.1:9", "pages"]), mock.patch(
                "press_files.restore", side_effect=KeyboardInterrupt), self.assertRaises(
                SystemExit) as ended:
            runpy.run_path(str(DEPLOY / "press.py"), run_name="__main__")
        self.assertEqual(ended.exception.code, 0)
