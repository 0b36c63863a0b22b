"""Reports are for people: where one gets another column, no program of deploy/ breaks."""

import os
import re
import shutil
import tomllib
from pathlib import Path

from tests.support import pictures
from tests.support.browser import tab
from tests.support.case import ROOT, Case, needs
from tests.support.clerks import said
from tests.support.countries import count_four, setup_of_four
from tests.support.desks import answer_of, desk_with, done
from tests.support.model import Office
from tests.support.office import with_stations
from tests.support.pages import press, read
from tests.support.scripts import loaded
from tests.support.site import DEPLOY

MORE = "    7777"


class Wider:
    """The model of an office of which each line of a report has another column; what it was asked
    for."""

    def __init__(self, setup):
        self.office, self.asked = Office(tomllib.loads(setup)), []

    def ask(self, method, path, body=None):
        status, text = self.office.ask(method, path, body)
        self.asked.append(path)
        if method == "GET" and not path.endswith("/returns") and text[:1] not in "[{":
            text = re.sub("$", MORE, text, flags=re.M).removesuffix(MORE)
        return status, text


def published(office, folder):
    """The files that press.py publishes of such an office, but for its moments."""
    with desk_with(lambda head, _: answer_of(
            office.ask("GET", head.split(b" ")[1].decode()))) as port:
        press(port, "--setup", "setup.toml", folder=folder)
    return {name: re.sub(r"<time .*?</time>|\d+ seconds? before|\d{4}-\d\d-\d\dT[\d:+-]+", "",
                         read(name, folder))
            for name in sorted(os.listdir(folder)) if not name.endswith((".gz", "manifest.json"))}


class AnotherColumn(Case):
    may_leave_files = True

    def test_on_the_pages(self):
        """They are the same, and made of the results, the returns and the tables of stations."""
        setup = setup_of_four()
        Path("setup.toml").write_text(setup, encoding="utf-8")
        plain, wider = Office(tomllib.loads(setup)), Wider(setup)
        for office in (plain, wider.office):
            count_four(office)
        self.assertIn(f"{MORE}\n", wider.ask("GET", "/con/sur/stations")[1])
        wider.asked.clear()
        found = published(wider, "wider")
        self.assertEqual(found, published(plain, "plain"))
        self.assertEqual([text for text in found.values() if MORE.strip() in text], [])
        self.assertEqual({re.sub("/con/[a-z]+", "/con/CODE", path) for path in wider.asked},
                         {"/results", "/con/CODE", "/con/CODE/returns", "/con/CODE/stations"})

    def test_what_a_second_sees(self):
        """Nothing after the revision."""
        office = Wider(with_stations(2))
        done(office, "/station/s1/lodge",
             {"slip": "p1", "votes": [191, 2], "blank": 1, "spoiled": 0})
        table = office.ask("GET", "/con/c1/stations")[1]
        self.assertIn("193       1       0    7777\n", table)
        self.assertEqual(loaded("reader.py").without_slips(table.encode()).decode().split("\n")[2:],
                         ["s1                   300 received     1",
                          f"s2                   300 -{MORE}", ""])

    @needs("chromium")
    def test_on_the_page_of_the_board_and_of_clerks(self):
        """Stations that are open, the lot that is needed, and who holds the seats."""
        self.addCleanup(setattr, pictures, "ROOT", ROOT)
        os.makedirs("deploy/www")
        pictures.ROOT = Path.cwd()
        shutil.copy(DEPLOY / "www/clerk.html", "deploy/www/clerk.html")
        setup = with_stations(2)
        Path("setup.toml").write_text(setup, encoding="utf-8")
        office = Wider(setup)
        published(office, "pages")
        done(office, "/station/s1/lodge",
             {"slip": "p1", "votes": [100, 100], "blank": 0, "spoiled": 0})
        with tab() as it:
            with pictures.clerks_site(office, "clara", "clerk") as address:
                it.open(address)
                said(it, "This is what the office has now.")
                self.assertIn("0 of 2 stations closed; without a return 1, received 1",
                              it.text("#progress-line"))
                it.click("#find")
                said(it, "Stations that are not closed: 2.")
                self.assertEqual(it.run("return [...document.querySelectorAll('#open-stations a')]"
                                        ".map((a) => a.textContent)"), ["s2", "s1"])
            done(office, "/station/s2/lodge",
                 {"slip": "p2", "votes": [0, 0], "blank": 0, "spoiled": 0})
            for code in ("s1", "s2"):
                done(office, f"/station/{code}/close", {"rev": 1})
            office.asked.clear()
            with pictures.clerks_site(office, "berta", "board") as address:
                it.open(address)
                said(it, "This is what the office has now.")
                self.assertIn("A, B", it.text("#view"))
                self.assertEqual(len(it.run("return [...document.querySelectorAll('#order select')]"
                                            ".map((e) => e.value)")), 2)
                done(office, "/con/c1/draw", {"edition": 1, "order": ["B", "A"]})
                done(office, "/con/c1/certify", {"edition": 2})
                it.open(address)
                said(it, "This is what the office has now.")
                self.assertTrue(it.visible("#vacate"))
                self.assertIn("Ana", it.text("#vacate"))
        self.assertEqual(set(office.asked) - {"/site.json"},
                         {"/con/c1/result", "/con/c1/draw", "/con/c1/certify"})
