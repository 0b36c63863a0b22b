"""More than one office behind a proxy."""

import contextlib
import json
import os
import re
import shutil
import signal
import sys
import time
from pathlib import Path

from tests.support import tools
from tests.support.case import PROGRAM, needs
from tests.support.desks import done, modelled
from tests.support.office import (
    LISTS, PROFILE, SETUP, constituency, party_list, profile, station,
)
from tests.support.pages import press, read, shown_text
from tests.support.proxy import Proxy
from tests.support.running import PATIENCE, free_port, until
from tests.support.site import DEPLOY, SiteCase, plain, ran, rows, serving


def three_offices_setup():
    """Seven constituencies of 1 to 7 stations each."""
    setup = profile("d0")
    for c in range(1, 8):
        setup += constituency(f"c{c}", f"Town {c}", 3, "d0")
        setup += party_list("A", "Alpha", "Ana") + party_list("B", "Beta", "Bea")
        setup += "".join(station(f"s{c}-{n}") for n in range(1, c + 1))
    return setup


# Two constituencies of a station each; and what an edited setup has in the place of what the
# office has, with what is said to be otherwise.
TOWNS = {code: constituency(code, f"Town <{code}>", 3, "d0") + LISTS + station(f"{code}-s1")
         for code in ("c1", "c2")}
EDITED = (
    ("seats = 3", "seats = 4", "seats"), ('"dhondt"', '"sainte-lague"', "method"),
    ("threshold = 0", "threshold = 300", "threshold"), ('"valid"', '"lists"', "base"),
    ('"valid"\n', '"valid"\nlot = "alternating"\n', "lot_rule"),
    ('"Town <c1>"', '"Town"', "name"), ('"Alpha"', '"Alfa"', "lists"),
    (LISTS, party_list("B", "Beta", "Bea") + party_list("A", "Alpha", "Ana", "Abel"), "lists"),
    # (no report has the candidates who hold no seat)
    ('"Abel"', '"Other"', "candidates"), ('["Bea"]', '["Bea", "Other"]', None),
    ('profile = "d0"\n', 'profile = "d0"\nentry = "double"\n', "entry"),
    (station("c1-s1"), station("c1-s1") + station("c1-s2"), "stations"))
IN_TABLE = ((station("c1-s1"), station("c1-s1", 3000)), ('"c1-s1"', '"c1-s9"'))


@contextlib.contextmanager
def certified(setup):
    """The port of an office with this setup, which has certified its first constituency."""
    with modelled(setup) as (office, port):
        if "c1-s1" in setup:
            done(office, "/station/c1-s1/lodge",
                 {"slip": "p1", "votes": [20, 10], "blank": 0, "spoiled": 0})
            done(office, "/station/c1-s1/close", {"rev": 1})
            done(office, "/con/c1/certify", {"edition": 1})
        yield port


class PagesOfOffices(SiteCase):
    """The country is published where the offices have the constituencies of the setup, each of
    them once, and as the setup has it."""

    def setUp(self):
        super().setUp()
        Path("setup.toml").write_text(PROFILE + "".join(TOWNS.values()), encoding="utf-8")
        self.words = ["--setup", "setup.toml"]

    def pages(self, *ports, status=1):
        """Runs press.py over these offices; what it says on standard error."""
        done = tools.run(
            [sys.executable, DEPLOY / "press.py", *(f"http://127.0.0.1:{port}" for port in ports),
             "pages", *self.words], capture_output=True, text=True, timeout=PATIENCE)
        self.assertEqual(done.returncode, status, done)
        return done.stderr

    def test_constituencies_that_are_there_twice_or_not(self):
        """They are named, the country stays as it was, and says so, and the pages of the others
        are written."""
        one, two, both = PROFILE + TOWNS["c1"], PROFILE + TOWNS["c2"], PROFILE + "".join(
            TOWNS.values())
        with certified(one) as first, certified(two) as second, certified(both) as whole:
            self.assertEqual(self.pages(first, second, status=0), "")
            before = read("results.csv"), read("index.csv")
            for ports, said, old in (
                    ([first], "no office has the constituency c2", ["c2"]),
                    ([second, second], "more than one office has the constituency c2",
                     ["c1", "c2"]),
                    ([first, whole], "more than one office has the constituency c1", ["c1"])):
                with self.subTest(said=said):
                    self.assertIn(f"failed: /results: {said}", self.pages(*ports))
                    self.assertEqual((read("results.csv"), read("index.csv")), before)
                    self.assertEqual([code for code in ("c1", "c2")
                                      if 'class="old"' in read(f"con-{code}.html")], old)
                    self.assertIn('class="old"', read("index.html"))
                    self.pages(first, second, status=0)
                    self.assertNotIn('class="old"', read("index.html"))
            Path("setup.toml").write_text(one, encoding="utf-8")
            self.assertIn("failed: /results: the setup lacks the constituency c2",
                          self.pages(whole))
            self.assertEqual((read("results.csv"), read("index.csv")), before)
            # Without a setup nobody knows which there are; of two nobody knows which is right.
            self.words = []
            self.pages(first, status=0)
            self.assertIn("more than one office has the constituency c1", self.pages(first, whole))

    def test_a_setup_that_was_edited(self):
        """Whatever an office has otherwise is named, and no page and no file has it of the
        setup."""
        setup = PROFILE + TOWNS["c1"]
        with certified(setup) as port:
            for old, new, what in EDITED:
                with self.subTest(what=what, new=new):
                    self.assertIn(old, setup)
                    Path("setup.toml").write_text(setup.replace(old, new), encoding="utf-8")
                    self.assertEqual(
                        self.pages(port, status=int(what is not None)),
                        what and "failed: /results: not as the setup has it, the constituency c1 "
                        f"({what}); left as they are: 0 pages\n" or "")
                    if what:
                        self.assertEqual(set(os.listdir("pages")), {".provisional", ".reserve"})
                    shutil.rmtree("pages")

    def test_a_setup_with_other_stations_or_electors(self):
        """They are compared once a start: in the round that has time for it the pages stay as they
        were, with a line on their age. The setup that is published stays too."""
        setup = PROFILE + TOWNS["c1"]
        Path("setup.toml").write_text(setup, encoding="utf-8")
        with certified(setup) as port:
            self.assertIn(" GETs 4 ", press(port, *self.words))
            before = read("results.csv"), read("setup.json")
            self.assertIn("Turnout: 10.00%.", shown_text(read("con-c1.html")))
            for old, new in IN_TABLE:
                with self.subTest(new=new):
                    Path("setup.toml").write_text(setup.replace(old, new), encoding="utf-8")
                    self.assertIn("than those of the setup; left as they are: ", self.pages(port))
                    self.assertEqual((read("results.csv"), read("setup.json")), before)
                    for name in ("index.html", "con-c1.html"):
                        self.assertIn('class="old"', read(name))
                        self.assertIn("Turnout: 10.00%.", shown_text(read(name)))


class Offices(SiteCase):
    def test_a_setup_that_is_split(self):
        """Each constituency is in one office, word for word, and no office has far more stations
        than another."""
        Path("setup.toml").write_text(three_offices_setup(), encoding="utf-8")
        said = ran(DEPLOY / "split", "setup.toml", "3", "parts")
        # 28 stations: 7 + 2 + 1, 6 + 3 and 5 + 4, by the rule of the largest first.
        self.assertEqual(said,
                         "office 1: 3 constituencies, 10 stations\n"
                         "office 2: 2 constituencies, 9 stations\n"
                         "office 3: 2 constituencies, 9 stations\n")
        texts = [read(f"setup-{office}.toml", "parts") for office in (1, 2, 3)]
        whole = three_offices_setup()
        self.assertEqual([re.findall('^code = "(c.)"', text, re.M) for text in texts],
                         [["c1", "c2", "c7"], ["c3", "c6"], ["c4", "c5"]])
        self.assertTrue(all(part in whole for text in texts
                            for part in re.split(r"(?=\[\[constituency\]\])", text)))
        for office in (1, 2, 3):
            ran(PROGRAM, "new", "--db", f"{office}.db", "--setup", f"parts/setup-{office}.toml")
        Path("wrong.toml").write_text(three_offices_setup().replace("s1-1", "S7-1"),
                                      encoding="utf-8")
        self.assertIn("capitals", ran(DEPLOY / "split", "wrong.toml", "3", "wrong", status=1))
        # A code would be a line of the proxy's configuration.
        Path("wrong.toml").write_text(
            three_offices_setup().replace('"s1-1"', '"s1-1 1;} map $uri $x {default"'),
            encoding="utf-8")
        self.assertIn("is no code", ran(DEPLOY / "split", "wrong.toml", "3", "wrong", status=1))
        self.assertFalse(Path("wrong").exists())
        self.assertIn("7 constituencies",
                      ran(DEPLOY / "split", "setup.toml", "8", "wrong", status=1))

    @needs("nginx", "openssl")
    def test_three_offices(self):
        """One site, one record and one set of pages for three offices; the record replays over
        three new ones."""
        Path("whole.toml").write_text(three_offices_setup(), encoding="utf-8")
        ran(DEPLOY / "split", "whole.toml", "3", "parts")
        with contextlib.ExitStack() as held:
            def served(name):
                return [held.enter_context(serving(read(f"setup-{office}.toml", "parts"),
                                                   f"{name}{office}.db")) for office in (1, 2, 3)]

            desks = served("office")
            front = Proxy(*(desk.port for desk in desks))
            front.configure()
            for name in ("offices.conf", "progress.conf", "progress.txt", "now.txt"):
                front.put(name, read(name, "parts"), {
                    "/etc/nginx/office/": f"{front.folder}/office/", **{
                        f"127.0.0.1:{8080 + office}": f"127.0.0.1:{desk.port}"
                        for office, desk in enumerate(desks, 1)}})
            front.start()
            held.callback(front.end)
            self.elect_three(front)
            progress = "".join(plain(desk.port, "GET", "/progress").body.decode() for desk in desks)
            self.assertEqual(sorted(line.split()[0] for line in progress.splitlines()),
                             [f"c{c}" for c in range(1, 8)])
            self.assertEqual(front.ask("GET", "/progress").body.decode(), progress)
            self.assertEqual(front.ask("GET", "/now/progress", name="clara").body.decode(),
                             progress)
            self.assertEqual([front.ask("GET", target, name="clara").status
                              for target in ("/progress/1", "/now/progress/1", "/progress/x",
                                             "/station/unknown")], [404, 404, 404, 404])
            self.assertEqual(front.ask("GET", "/now/progress").status, 401)
            addresses = [f"http://127.0.0.1:{desk.port}" for desk in desks]
            ran(sys.executable, DEPLOY / "press.py", *addresses, "pages", "--setup", "whole.toml")
            names, *results = [line.split(",") for line in read("results.csv").splitlines()]
            votes = names.index("votes")
            self.assertEqual({row[0]: [int(one[votes]) for one in results if one[0] == row[0]]
                              for row in results}, {f"c{c}": [10 * c * c, c] for c in range(1, 8)})
            self.assertTrue(json.loads(read("index.json"))["constituencies"][0]["certified"])
            self.assertEqual([line["office"] for line in front.record(42)].count(1), 3 + 2 * 10)
            # Those acts over three new offices.
            fresh, record = served("again"), (front.folder / "log/commands.log").read_bytes()
            done = tools.run(
                [DEPLOY / "replay", *(f"http://127.0.0.1:{desk.port}" for desk in fresh)],
                input=record, capture_output=True, text=False, timeout=PATIENCE)
            self.assertEqual(done.returncode, 0, done)
            self.assertTrue(done.stdout.startswith(b"sent 63, to look at 0; lines 126,"), done)
            # One that is away, or does not answer, holds up nobody who asks for all of them.
            first, _, third = (plain(desk.port, "GET", "/progress").body.decode() for desk in desks)
            for away in (lambda: desks[1].process.send_signal(signal.SIGSTOP), desks[1].end):
                with self.subTest(away=away):
                    away()
                    for target, name in (("/now/progress", "clara"), ("/progress", None)):
                        with self.subTest(target=target, name=name):
                            # (an answer is kept for a second)
                            until(lambda: front.ask("GET", target, name=name).body.decode()
                                  == f"{first}an office does not answer\n{third}")
                            began = time.monotonic()
                            self.assertEqual(front.ask("GET", target, name=name).status, 200)
                            # (five seconds for one that does not answer; other answers are waited
                            # for as long as five minutes)
                            self.assertLess(time.monotonic() - began, 40)
                    desks[1].process.send_signal(signal.SIGCONT) if desks[1].process else None
            for desk in desks + fresh:
                desk.end()
            for office in (1, 2, 3):
                with self.subTest(office=office):
                    self.assertEqual(rows(f"again{office}.db"), rows(f"office{office}.db"))
        # One of them does not answer: its pages say how old they are, and those of others go on.
        with serving(read("setup-2.toml", "parts"), "two.db") as two:
            ran(sys.executable, DEPLOY / "press.py", f"http://127.0.0.1:{free_port()}",
                f"http://127.0.0.1:{two.port}", "pages", status=1)
        self.assertEqual([f"c{c}" for c in range(1, 8) if 'class="old"' in read(f"con-c{c}.html")],
                         ["c1", "c2", "c4", "c5", "c7"])
        self.assertIn('class="old"', read("index.html"))

    def elect_three(self, front):
        """Lodges and closes the return of each station, and certifies each constituency: 28 + 28 +
        7 commands."""
        def ask(target, body, name, c):
            found = front.ask("POST", target, body, name, source=f"127.0.11.{c}")
            self.assertEqual(found.status, 200, target)

        for c in range(1, 8):
            for n in range(1, c + 1):
                ask(f"/station/s{c}-{n}/lodge",
                    {"slip": "p1", "votes": [10 * c, 1], "blank": 0, "spoiled": 0}, "clara", c)
                ask(f"/station/s{c}-{n}/close", {"rev": 1}, "clara", c)
            ask(f"/con/c{c}/certify", {"edition": 1}, "berta", c)

    def test_a_setup_that_cannot_be_split(self):
        """Its constituencies are in a form whose lines belong to none of them."""
        Path("setup.toml").write_text(
            'profile = [{ code = "d0", method = "dhondt", threshold = 0, base = "valid" }]\n'
            'constituency = [{ code = "c1", station = [{ code = "s1" }] }, '
            '{ code = "c2", station = [{ code = "s2" }] }]\n', encoding="utf-8")
        self.assertIn("[[constituency]]",
                      ran(DEPLOY / "split", "setup.toml", "2", "parts", status=1))
        self.assertFalse(Path("parts").exists())

    def test_how_the_proxy_reaches_each_office(self):
        """As it does one."""
        def upstreams(text):
            return re.findall(r"upstream .*?^}", text, re.M | re.S)

        Path("setup.toml").write_text(SETUP, encoding="utf-8")
        ran(DEPLOY / "split", "setup.toml", "1", "parts")
        self.assertEqual(upstreams(Path("parts/offices.conf").read_text(encoding="utf-8")),
                         upstreams((DEPLOY / "nginx/offices.conf").read_text(encoding="utf-8")))
