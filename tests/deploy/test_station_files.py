"""The returns of stations, round by round."""

import contextlib
import os
import shutil
import tomllib
from pathlib import Path

from tests.support import model
from tests.support.desks import answer_of, desk_with, done
from tests.support.office import LISTS, PROFILE, constituency, station, with_stations
from tests.support.pages import REOPENED, TWIN, WITHDRAWN, read, results_of, shown_text
from tests.support.scripts import module
from tests.support.site import SiteCase

rounds = module("press")


@contextlib.contextmanager
def rounds_of(answers, setup):
    """A function that makes a round of press.py, which is not ended between them, over a desk with
    these answers: what failed, and which tables of stations were asked for."""
    asked = []

    def answered(head, _):
        asked.append(head.split(b" ")[1].decode())
        return answer_of(answers(asked[-1]))

    Path("setup.toml").write_text(setup, encoding="utf-8")
    Path("pages").mkdir(exist_ok=True)
    with desk_with(answered) as port:
        offices, seen = [rounds.Office(f"http://127.0.0.1:{port}")], rounds.Seen()
        entries = rounds.read_setup(Path("setup.toml"))

        def a_round(seconds=60.0):
            asked.clear()
            _, failures = rounds.write_all(offices, Path("pages"), rounds.Site(),
                                           {entry["code"]: entry for entry in entries}, seen,
                                           seconds=seconds)
            return failures, [target for target in asked
                              if target.endswith(("/stations", "/returns"))]

        a_round.seen = seen
        yield a_round


@contextlib.contextmanager
def with_instead(name, value):
    """A name of press.py that means this meanwhile."""
    before = getattr(rounds, name)
    setattr(rounds, name, value)
    yield
    setattr(rounds, name, before)


TABLE, RETURNS = "/con/c1/stations", "/con/c1/returns"
COLUMNS = "station,slip,blank,spoiled,A,B\n"


def a_slip(a, b, slip="p1"):
    return {"slip": slip, "votes": [a, b], "blank": 1, "spoiled": 2}


class StationFiles(SiteCase):
    def test_when_stations_are_asked_for(self):
        """At the start the table, once. Then without a certificate the table where a count or a sum
        has changed, or a minute is over, and the returns where it is another one and some are
        closed; with one the returns, once. Nothing is asked for one station after the other."""
        office = model.Office(tomllib.loads(with_stations(3)))
        with rounds_of(lambda target: office.ask("GET", target), with_stations(3)) as a_round:
            def file(edition="open"):
                return read(f"stations-c1-{edition}.csv")

            self.assertEqual((a_round(), os.path.exists("pages/stations-c1-open.csv"), a_round()),
                             (([], [TABLE]), False, ([], [])))
            done(office, "/station/s1/lodge", a_slip(10, 20))
            self.assertEqual((a_round(), file(), a_round()), (([], [TABLE]), COLUMNS, ([], [])))
            done(office, "/station/s1/close", {"rev": 1})
            self.assertEqual((a_round(), file(), a_round()),
                             (([], [TABLE, RETURNS]), f"{COLUMNS}s1,p1,1,2,10,20\n", ([], [])))
            # A return that is only received changes no figure.
            done(office, "/station/s3/lodge", a_slip(1, 2))
            self.assertEqual((a_round(), file()),
                             (([], [TABLE, RETURNS]), f"{COLUMNS}s1,p1,1,2,10,20\n"))
            # Changes that leave each count and each sum as it was: they are seen within a minute.
            done(office, "/station/s1/query", {"rev": 2, "note": "the slip"})
            done(office, "/station/s1/correct", {"rev": 3, **a_slip(10, 20, "p9")})
            done(office, "/station/s1/close", {"rev": 4})
            self.assertEqual((a_round(), file()), (([], []), f"{COLUMNS}s1,p1,1,2,10,20\n"))
            with with_instead("AGAIN", -1):
                self.assertEqual((a_round(), file()),
                                 (([], [TABLE, RETURNS]), f"{COLUMNS}s1,p9,1,2,10,20\n"))
                self.assertEqual(a_round(), ([], [TABLE]))
            Path("pages/stations-c1-open.csv").unlink()
            self.assertEqual((a_round(), file()),
                             (([], [TABLE, RETURNS]), f"{COLUMNS}s1,p9,1,2,10,20\n"))
            # A certificate, a vacancy, a reopening and another certificate.
            done(office, "/station/s2/lodge", a_slip(5, 5))
            for code in ("s2", "s3"):
                done(office, f"/station/{code}/close", {"rev": 1})
            done(office, "/con/c1/certify", {"edition": 1})
            whole = f"{COLUMNS}s1,p9,1,2,10,20\ns2,p1,1,2,5,5\ns3,p1,1,2,1,2\n"
            self.assertEqual(
                (a_round(), file(2), os.path.exists("pages/stations-c1-open.csv"), a_round()),
                (([], [RETURNS]), whole, False, ([], [])))
            done(office, "/con/c1/vacate", {"list": "A", "place": 1, "note": "moved"})
            self.assertEqual(a_round(), ([], []))
            done(office, "/con/c1/reopen", {"edition": 2, "note": "again"})
            self.assertEqual((a_round(), file(), file(2)), (([], [TABLE, RETURNS]), whole, whole))
            done(office, "/con/c1/certify", {"edition": 3})
            self.assertEqual(
                (a_round(), file(4), file(2), os.path.exists("pages/stations-c1-open.csv")),
                (([], [RETURNS]), whole, whole, False))

    def test_returns_that_change_while_they_are_asked_for(self):
        """Those of a certificate have its sums, and are of it before and after, or are not
        published even for an instant. Those of a constituency without one are asked for again with
        the table where a closed one of them is not as it is there."""
        good, written = TWIN["/con/c1/returns"], []
        others = [good.replace(old, new)
                  for old, new in (("p1", "p2"), ("100,100", "100,101"), (",0,0,100", ",1,0,100"),
                                   ("s1,p1,0,0,100,100\n", ""))]
        put = rounds.put
        with with_instead(
            "put",
            lambda folder, name, text: (written.append((name, text)), put(folder, name, text))):
            for other in others[1:]:
                certified = dict(TWIN) | {RETURNS: other}
                with rounds_of(lambda target: certified.get(target, 404),
                               with_stations(1)) as a_round:
                    self.assertEqual((a_round(), a_round()),
                                     (([], [TABLE, RETURNS]), ([], [RETURNS])))
                    self.assertEqual([name for name, _ in written if name.startswith("stations-")],
                                     [])
                    # Right returns, but of another edition by the end of it.
                    certified |= {RETURNS: good, "/con/c1": TWIN["/con/c1"] | {"edition": 5}}
                    self.assertEqual(a_round(), ([], [RETURNS]))
                    self.assertEqual([name for name, _ in written if name.startswith("stations-")],
                                     [])
                    certified["/con/c1"] = TWIN["/con/c1"]
                    self.assertEqual((a_round(), read("stations-c1-3.csv"), a_round()),
                                     (([], [RETURNS]), good, ([], [])))
                written.clear()
                shutil.rmtree("pages")
            for other in others:
                first = iter([other])
                answers = REOPENED | {RETURNS: lambda: next(first, good)}
                with rounds_of(lambda target: answers.get(target, 404),
                               with_stations(1)) as a_round:
                    self.assertEqual(a_round(), ([], [TABLE, RETURNS] * 2))
                    self.assertEqual(
                        {text for name, text in written if name == "stations-c1-open.csv"}, {good})
                    answers |= results_of(WITHDRAWN | {"note": "other"}) | {
                                RETURNS: other, TABLE: TWIN[TABLE].replace(" 2 p1", " 5 p1")}
                    self.assertEqual(a_round(), (
                        ["/con/c1/stations: they change while they are asked for"],
                        [TABLE, RETURNS] * 3))
                    self.assertEqual(read("stations-c1-open.csv"), good)
                written.clear()
                shutil.rmtree("pages")

    def test_returns_that_are_none(self):
        """Of another setup, or no text of its kind: what was published stays, and the page says
        that it is old."""
        other = with_stations(1).replace('"s1"', '"s2"'), with_stations(2), with_stations(
            1).replace('"B"', '"C"')
        texts = ("", "no such text\n", COLUMNS + "s1,p1,0,0,x,100\n", COLUMNS + "s1,p1\n",
                 COLUMNS + '"s1')
        for desk, certified in ((TWIN, True), (REOPENED, False)):
            with self.subTest(desk=desk, certified=certified):
                for setup in other:
                    with self.subTest(setup=setup):
                        with rounds_of(lambda target: desk.get(target, 404), setup) as a_round:
                            [failure], _ = a_round()
                            self.assertRegex(failure, (
                                "^/results: not as the setup has it, the constituency c1 "
                                "[(](lists|lists, candidates|stations)[)];|"
                                f"^{TABLE}: other stations or electors than those of the setup;"))
                for target in (RETURNS, *([] if certified else [TABLE])):
                    with self.subTest(target=target):
                        for text in texts:
                            with self.subTest(text=text):
                                answers = dict(desk)
                                with rounds_of(lambda target: answers.get(target, 404),
                                               with_stations(1)) as a_round:
                                    self.assertEqual(a_round()[0], [])
                                    before = read(f"stations-c1-{3 if certified else 'open'}.csv")
                                    answers[target] = text
                                    answers[TABLE] = text if target == TABLE else TWIN[
                                        TABLE].replace(" 2 p1", " 5 p1")
                                    # it is asked for again
                                    Path("pages/stations-c1-3.csv").write_text(COLUMNS)
                                    with with_instead("AGAIN", -1), with_instead("TRIES", 1):
                                        failures, _ = a_round()
                                    self.assertEqual((
                                        certified or read("stations-c1-open.csv") == before,
                                        certified and not failures or len(failures)), (True, True))
                                shutil.rmtree("pages")

    def test_electors_that_are_others_stay_a_failure(self):
        """In a round that has no time to ask again, with a certificate and without one, until the
        office has those of the setup."""
        said = f"{TABLE}: other stations or electors than those of the setup; left as they are: "
        for certified in (False, True):
            office = model.Office(tomllib.loads(with_stations(2)))
            others = {" 300 ": " 300 ", "is_down": False}

            def answers(target, office=office, others=others):
                status, text = office.ask("GET", target)
                return others["is_down"] and 503 or (
                    status, text.replace(" 300 ", others[" 300 "]))

            for code in ("s1", "s2"):
                done(office, f"/station/{code}/lodge", a_slip(10, 20))
                if certified:
                    done(office, f"/station/{code}/close", {"rev": 1})
            if certified:
                done(office, "/con/c1/certify", {"edition": 1})
            with self.subTest(certified=certified), rounds_of(
                    answers, with_stations(2, 250)) as a_round:
                for seconds, asked in ((60, [TABLE]), (0, []), (60, [TABLE]), (0, [])):
                    [failure], found = a_round(seconds)
                    self.assertEqual((failure[:len(said)], found), (said, asked))
                    self.assertFalse(os.path.exists("pages/index.html"))
                others[" 300 "] = " 250 "
                self.assertEqual((a_round()[0], a_round(0)[0]), ([], []))
                self.assertTrue(os.path.exists("pages/index.html"))
                # An office that was away may be another one: it is compared again.
                others[" 300 "] = " 300 "
                for is_down, words in ((True, "/results: status 503"), (False, said)):
                    others["is_down"] = is_down
                    [failure], _ = a_round()
                    self.assertEqual(failure[:len(words)], words)
            shutil.rmtree("pages")

    def test_whose_stations_wait(self):
        """A round in which there is time for the stations of one constituency asks for those that
        are certified, or else for those that waited longest, and publishes everything else."""
        cons = "".join(constituency(f"c{n}", f"Town {n}", 3, "d0") + LISTS + station(f"s{n}")
                       for n in range(1, 5))
        office = model.Office(tomllib.loads(PROFILE + cons))
        for n in range(1, 5):
            done(office, f"/station/s{n}/lodge", a_slip(n, 0))
        with rounds_of(lambda target: office.ask("GET", target),
                       PROFILE + cons) as a_round, with_instead("AGAIN", -1):
            self.assertEqual(a_round(0), ([], []))
            self.assertEqual([os.path.exists(f"pages/con-c{n}.html") for n in range(1, 5)],
                             [True] * 4)
            done(office, "/station/s4/close", {"rev": 1})
            done(office, "/con/c4/certify", {"edition": 1})
            self.assertEqual((a_round(0), os.path.exists("pages/stations-c4-2.csv")),
                             (([], []), False))
            self.assertNotIn("Each station: its return", read("con-c4.html"))
            self.assertEqual((a_round(1e-9), read("stations-c4-2.csv")),
                             (([], ["/con/c4/stations", "/con/c4/returns"]),
                              f"{COLUMNS}s4,p1,1,2,4,0\n"))
            self.assertIn("Each station: its return", read("con-c4.html"))
            for n in (1, 2, 3, 1, 2):
                with self.subTest(n=n):
                    self.assertEqual((a_round(1e-9), os.path.exists(f"pages/stations-c{n}-1.html")),
                                     (([], [f"/con/c{n}/stations"]), True))
            self.assertEqual(sorted(a_round()[1]), [f"/con/c{n}/stations" for n in (1, 2, 3)])

    def test_a_table_that_takes_long_is_asked_for_seldom(self):
        """One that takes 1.6 s takes the half seconds of three rounds, and a part of the next."""
        class Slow(rounds.Office):
            def get(self, target):
                found = super().get(target)
                self.took += 1.6 if target == TABLE else 0
                return found

        office = model.Office(tomllib.loads(with_stations(1)))
        done(office, "/station/s1/lodge", a_slip(1, 0))
        with with_instead("Office", Slow), with_instead("AGAIN", -1), rounds_of(
                lambda target: office.ask("GET", target), with_stations(1)) as a_round:
            asked = [len(a_round(rounds.seconds_of_round(a_round.seen))[1]) for _ in range(7)]
        self.assertEqual(asked, [1, 0, 0, 1, 0, 0, 1])

    def test_a_late_answer_does_not_stop_the_stations_for_long(self):
        seen = rounds.Seen()
        self.assertEqual(rounds.seconds_of_round(seen), 0.5)
        for left, seconds in ((0.4, 0.5), (0.0, 0.5), (-0.2, 0.3), (-2.0, -1.5), (-60.0, -4.5)):
            with self.subTest(left=left):
                seen.left = left
                self.assertAlmostEqual(rounds.seconds_of_round(seen), seconds)


class OfOneMoment(SiteCase):
    """Pages say of a count what it was at one moment, also where the stations are asked for later
    than the results."""

    of_the_program = False

    def setUp(self):
        super().setUp()
        setup = with_stations(4).replace('"s3"\nelectors = 300', '"s3"\nelectors = 1000')
        self.office, self.setup = model.Office(tomllib.loads(setup)), setup
        for code, (a, b) in {"s1": (100, 100), "s2": (60, 40), "s3": (500, 400)}.items():
            done(self.office, f"/station/{code}/lodge",
                 {"slip": code, "votes": [a, b], "blank": 0, "spoiled": 0})
        for code in ("s1", "s2"):
            done(self.office, f"/station/{code}/close", {"rev": 1})

    def test_electors_of_other_returns(self):
        """While stations are not asked for, as many returns are closed, but other ones: no turnout
        is said. Once they are asked for again it is that of 1,000 votes of 1,300 electors, on each
        page."""
        pages = ("con-c1.html", "index.html", "embed-c1.html", "stations-c1-1.html")
        with rounds_of(lambda target: self.office.ask("GET", target), self.setup) as a_round:
            self.assertEqual(a_round()[0], [])
            for name in pages[:3]:
                self.assertIn("Turnout of what is counted: 50.00", read(name))
            done(self.office, "/station/s1/query", {"rev": 2, "note": "sum"})
            done(self.office, "/station/s3/close", {"rev": 1})
            self.assertEqual(a_round(0.0), ([], []))
            for name in pages[:3]:
                self.assertNotIn("Turnout", read(name))
            self.assertEqual(a_round(), ([], [TABLE, RETURNS]))
            for name in pages:
                with self.subTest(name=name):
                    self.assertIn("Turnout of what is counted: 76.92", read(name))

    def test_a_return_that_is_closed_within_a_round(self):
        """The pages of places are written again with the numbers of the next round, though the
        table of stations is the same."""
        late = [True]

        def answers(target):
            if target == TABLE and late:
                late.clear()
                done(self.office, "/station/s3/close", {"rev": 1})
            return self.office.ask("GET", target)

        Path("site").mkdir()
        Path("site/site.toml").write_text("", encoding="utf-8")
        Path("site/stations.csv").write_text("station,name,place\n" + "".join(
            f"s{n},School,{'Far' if n == 4 else 'Town'}\n" for n in range(1, 5)),
            encoding="utf-8")
        site = rounds.Site(Path("site"))
        with rounds_of(answers, self.setup) as a_round, with_instead("Site", lambda: site):
            self.assertEqual(a_round()[0], [])
            self.assertEqual(a_round()[0], [])
            for name in ("con-c1.html", "stations-c1-1.html", "places-c1-1.html", "index.html"):
                with self.subTest(name=name):
                    self.assertIn("75.00% of the polling stations are counted, 3 of 4",
                                  shown_text(read(name)))
