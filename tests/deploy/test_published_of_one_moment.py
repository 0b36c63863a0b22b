"""All that is published of a certificate is of one moment: its returns and the feed; and what the
pages say of moments."""

import contextlib
import json
import re
from datetime import datetime, timedelta
from pathlib import Path

from tests.deploy.test_rounds import NOON, Clock, Rounds, towns
from tests.support.case import Case
from tests.support.desks import done
from tests.support.office import with_stations
from tests.support.pages import shown_text
from tests.support.scripts import module

data, files, press = module("press_data"), module("press_files"), module("press")

HEADER = "station,slip,blank,spoiled,A,B\n"
VIEW = {"stations": 3, "blank": 1, "spoiled": 2, "votes": [90, 120], "closed": 3}


class ReturnsOfACertificate(Case):
    def test_a_station_of_zeros_that_is_missing(self):
        """The sums are right without it, and the returns are not all there."""
        rows = ["s1,p1,1,0,40,20\n", "s2,p2,0,2,50,100\n", "s3,p3,0,0,0,0\n"]
        self.assertTrue(data.adds_up(HEADER + "".join(rows), VIEW))
        self.assertFalse(data.adds_up(HEADER + "".join(rows[:2]), VIEW))
        self.assertFalse(data.adds_up(HEADER + "".join([*rows, rows[2]]), VIEW))

    def test_sums_of_each_column(self):
        for changed in ("s1,p1,0,0,40,20\n", "s1,p1,1,1,40,20\n", "s1,p1,1,0,41,20\n",
                        "s1,p1,1,0,40,19\n", "s1,p1,1,0,40,x\n"):
            with self.subTest(changed=changed):
                text = HEADER + changed + "s2,p2,0,2,50,100\ns3,p3,0,0,0,0\n"
                self.assertFalse(data.adds_up(text, VIEW))


def a_past(edition):
    lists = [{"code": "A", "seats": 2, "name": "Alpha"}, {"code": "B", "seats": 1, "name": "Beta"}]
    return {"edition": edition, "lists": lists}


class Feed(Case):
    CANDIDATES = {"A": ["Ana", "Abel"], "B": ["Bea"]}

    def test_a_constituency_that_was_reopened_twice(self):
        """The office keeps the note of the last reopening, which is no other's."""
        con = {"past": [a_past(2), a_past(4)], "view": {"note": "second count", "gone": []}}
        found = [(event[0], event[3]) for event in data.events(con, self.CANDIDATES)]
        self.assertEqual(found, [("certificate", "A 2, B 1"), ("reopening", ""),
                                 ("certificate", "A 2, B 1"), ("reopening", "second count")])

    def test_the_last_candidate_of_a_list(self):
        gone = [{"list": "A", "place": 2, "note": "moved"}, {"list": "B", "place": 1, "note": "x"},
                {"list": "B", "place": 2, "note": "no such place"}]
        con = {"past": [], "view": {"note": "", "gone": gone}}
        names = [event[2]["name"] for event in data.events(con, self.CANDIDATES)]
        self.assertEqual(names, [" (\u2068Abel\u2069)", " (\u2068Bea\u2069)", ""])


class Moments(Case):
    """The moments that pages and files say."""

    def latest(self, rounds):
        """The latest moment that a page says, or a file for programs."""
        texts = [rounds.read(file.name) for kind in ("*.html", "*.json", "*.atom")
                 for file in rounds.folder.glob(kind)]
        found = [moment for text in texts for moment in re.findall(
            r'(?:datetime="|"time": "|<updated>)(\d\d\d\d-[^"<]+)', text)]
        self.assertGreater(len(found), 10)
        return max(map(datetime.fromisoformat, found))

    def test_figures_are_of_the_moment_at_which_the_office_was_asked(self):
        """It may be late with a table of stations; a certificate that is on the page of the country
        may be withdrawn by then."""
        Path("site").mkdir()
        Path("site/stations.csv").write_text("station,name,place\ns1,,North\n", encoding="utf-8")
        clock, rounds = Clock(self), Rounds(towns(2), about='timezone = "UTC"\n')
        for n in (1, 2):
            rounds.close(f"s{n}", 30, 10)
        done(rounds.model, "/con/c2/certify", {"edition": 1})
        good = rounds.office.answers

        def late(target):
            if target.endswith("/stations"):
                clock.now += 90
            return good(target)

        rounds.office.answers = late
        rounds.go()
        self.assertGreater(clock.now, 1000 + 90)
        for name in ("index.html", "count.html"):
            self.assertIn("figures on 29 November 2026, 12:00 UTC.", shown_text(rounds.read(name)))
        self.assertEqual(self.latest(rounds), NOON)
        self.assertEqual(json.loads(rounds.read("manifest.json"))["time"], NOON.isoformat())

    def test_a_clock_that_was_ahead(self):
        """Pages that were dated by it are dated again once it is right: none says a moment that is
        yet to come, and one whose office is away says how old it is."""
        clock, rounds = Clock(self), Rounds(towns(2), about='timezone = "UTC"\n')
        clock.now += 2 * 3600
        rounds.close("s1", 30, 10)
        rounds.go()
        self.assertEqual(self.latest(rounds), NOON + timedelta(hours=2))
        clock.now -= 2 * 3600
        rounds.go()
        self.assertEqual(self.latest(rounds), NOON)
        # A program that begins finds the same.
        clock.now -= 3600
        rounds.seen = press.Seen()
        rounds.go()
        self.assertEqual(self.latest(rounds), NOON - timedelta(hours=1))
        clock.now += 1800
        rounds.office.answers = lambda target: (503, "")
        rounds.go()
        self.assertIn("it last changed 30 minutes earlier", shown_text(rounds.read("con-c1.html")))

    def test_pages_that_were_made_again_while_the_clock_was_ahead(self):
        """Once it is right none says a moment to come, whichever page it is."""
        clock = Clock(self)
        rounds = Rounds(with_stations(1), about='languages = ["es"]\n')
        rounds.go()
        clock.now += 7200
        for name in ("es/con-c1.html", "embed.html"):
            Path("pages", name).unlink()
        with contextlib.redirect_stderr(None):
            rounds.go()
        clock.now -= 7190
        rounds.go()
        moments = {str(file): files.moment_in(press.MOMENTS[".html"], files.text_of(file))
                   for file in Path("pages").rglob("*.html")}
        self.assertEqual([name for name, moment in moments.items()
                          if moment > NOON + timedelta(seconds=10)], [])


class Vouched(Case):
    def test_stations_that_were_not_read_since_a_start(self):
        """The manifest does not vouch for a file of theirs that somebody changed before, however
        many rounds have no time to read them."""
        rounds, name = Rounds(towns(2)), "stations-c1-open.csv"
        for n in (1, 2):
            rounds.close(f"s{n}", 30, 10)

        def vouched():
            rounds.go(vouched.seconds)
            return json.loads(rounds.read("manifest.json"))["files"]

        vouched.seconds = 60.0
        before = vouched()
        self.assertIn(name, before)
        files.LEFT.clear()
        rounds.seen, vouched.seconds = press.Seen(), 0.0
        file = rounds.folder / name
        file.write_text(rounds.read(name).replace("30", "90"), encoding="utf-8")
        for _ in range(2):
            found = vouched()
            self.assertEqual((before.keys() - found.keys(), "90" in rounds.read(name)), (
                {name}, True))
        vouched.seconds = 60.0
        self.assertEqual((vouched().keys(), rounds.read(name).count("90")), (before.keys(), 0))


class Electors(Case):
    def test_agents_are_no_electors(self):
        """Turnout is of electors, though agents vote as well."""
        Path("setup.toml").write_text(with_stations(2) + "agents = 7\n", encoding="utf-8")
        setup = {con["code"]: con for con in press.read_setup(Path("setup.toml"))}
        tally = {"name": "Twin Town", "valid": 0, "blank": 0, "spoiled": 0, "lists": [
            {"code": "A", "name": "Alpha", "votes": 0, "share": "0.00", "eligible": False}]}
        view = {"stations": 2, "closed": 0, "edition": 1, "certified": False}
        [heads, row] = data.results_csv({"c1": {"tally": tally, "view": view}}, setup).splitlines()
        self.assertEqual(dict(zip(heads.split(","), row.split(",")))["electors"], "600")
