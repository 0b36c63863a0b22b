"""The clerks' page in a browser."""

import base64
import hashlib
import json
import re
import signal
import sys
from pathlib import Path

from tests.support.case import ROOT, needs
from tests.support.clerks import (
    choose_con, choose_station, clerks_browser, compare, confirmed, enter, receipt, said,
)
from tests.support.office import with_stations
from tests.support.pages import page_of, press
from tests.support.proxy import office_and_proxy
from tests.support.running import until
from tests.support.safeguards import hash_of_file
from tests.support.shown import shows_well
from tests.support.site import BOTH, DEPLOY, LATE, STATIONS, SiteCase, plain, ran


def close_shown(it, code):
    choose_station(it, code)
    confirmed(it, "#close button", f"Close the return of {code}?", "Done.")


def draw(it, *order):
    for place, code in enumerate(order, 1):
        it.run("document.querySelector(`#order label:nth-child(${arguments[0]}) select`).value = "
               "arguments[1]", place, code)
    it.click("#draw button")


class ClerksPage(SiteCase):
    @needs("chromium", "nginx", "openssl")
    def test_an_election_in_the_clerks_page(self):
        """README's election, a query and a correction, a tie with its lot, a certificate, a vacancy
        and a reopening, by clicks alone."""
        with office_and_proxy(BOTH) as (desk, front):
            press(desk.port, "--setup", "setup.toml", folder=str(front.folder / "pages"))
            with clerks_browser(front, "clara") as it:
                self.clerks_part(it, desk)
            with clerks_browser(front, "berta") as it:
                self.boards_part(it, desk)
            press(desk.port, "--setup", "setup.toml", folder=str(front.folder / "pages"))
            self.assertEqual(page_of("con-montehondo.html", front.folder / "pages").tables[
                "Seats of each list"][1:], [
                ["ROBLE Lista del Roble", "4"], ["ENCINA Lista de la Encina", "3"],
                ["HAYA Lista del Haya", "2"], ["SAUCE Lista del Sauce", "0"],
                ["OLIVO Lista del Olivo", "0"], ["Total", "9"]])
            self.assertEqual(page_of("con-c1.html", front.folder / "pages").tables[
                "Certificate of edition 3, withdrawn"][1:], [["A Alpha", "1"], ["B Beta", "2"]])
            self.assertFalse([line for line in front.record()
                              if line["status"] not in (200, 400, 409)])
            desk.end()
            self.assertEqual(ran(sys.executable, ROOT / "examples/recount.py", "office.db"),
                             "montehondo agrees\nc1 agrees\n")

    def clerks_part(self, it, desk):
        self.assertEqual(it.text("#person"), "clara, clerk")
        self.assertEqual(
            [it.visible(f"#{form}") for form in ("import", "certify", "reopen", "lodge")],
            [True, False, False, False])
        it.of_session("POST", f"/element/{it.find('#import input[type=file]')}/value",
                      {"text": str(ROOT / "examples/returns.csv")})
        it.click("#import button")
        said(it, "This is what an import of this file would come to now.")
        it.click("#trial-import")
        said(it,
             "Lodged 13, the same 1, differing 2, refused 2, unreadable 2. The first that was not "
             "accepted is line 12 of the file: station 01-002-A: "
             "another return of its station is recorded.")
        # It is no plain success, and the lines that are to be looked at stay on the page.
        self.assertEqual(it.run("return [document.getElementById('said').className, "
                                "document.querySelectorAll('#not-accepted li').length, "
                                "document.getElementById('receipt').open]"), ["look", 6, True])
        for station, lodged in LATE.items():
            choose_station(it, station)
            self.assertEqual(it.text("#return"), f"Station {station} has no return yet.")
            self.assertEqual(it.run("return document.activeElement.name"), "slip")
            enter(it, "lodge", lodged)
            said(it, "Lodged.")
            it.wait("return document.activeElement.id === 'station'")
        # The slip a second time, wrong and right: what is recorded is not shown meanwhile.
        it.click("#compare")
        self.assertEqual(it.text("#return"), "Station 04-002-A: received.")
        enter(it, "lodge", LATE["04-002-A"] | {"votes": [40, 40, 21, 0, 0]})
        compare(it, "Another return of this station is recorded.")
        enter(it, "lodge", LATE["04-002-A"] | {"votes": [400, 40, 21, 0, 0]})
        said(it, "more than the station has electors and agents")
        enter(it, "lodge", LATE["04-002-A"])
        said(it, "Both entries are the same.")
        for station in STATIONS:
            close_shown(it, station)
        self.stale_part(it, desk)
        it.type("#query input[name=note]", "88 or 38?")
        it.click("#query button")
        said(it, "Done.")
        self.assertEqual((it.visible("#correct"), it.visible("#close")), (True, False))
        enter(it, "correct",
              {"slip": "r315", "votes": [91, 83, 47, 28, 0], "blank": 5, "spoiled": 2})
        said(it, "Done.")
        close_shown(it, STATIONS[-1])
        shows_well(it, "clerk")
        self.assertFalse(it.visible("#find"))
        choose_con(it, "c1")
        it.click("#find")
        said(it, "Stations that are not closed: 1. They are listed below.")
        self.assertEqual(it.text("#open-stations"), "Without a return: 1\ns1")
        # A station of another constituency is shown beside the lists of its own.
        for code, con, first in ((STATIONS[0], "montehondo", "ROBLE Lista del Roble"),
                                 ("s1", "c1", "A Alpha")):
            choose_station(it, code)
            self.assertEqual(it.run("return document.getElementById('con').value"), con)
            self.assertEqual(
                it.run("return document.querySelector('#lodge .counts span').textContent"), first)
        enter(it, "lodge", {"slip": "p1", "votes": [100, 100], "blank": 0, "spoiled": 0})
        said(it, "Lodged.")

    def stale_part(self, it, desk):
        """Another clerk queries the return that is shown: what the page sends is of the revision
        that it shows, and is refused."""
        choose_station(it, STATIONS[0])
        self.assertEqual(plain(desk.port, "POST", f"/station/{STATIONS[0]}/query",
                               '{"rev":2,"note":"elsewhere"}').status, 200)
        it.type("#query input[name=note]", "here")
        it.click("#query button")
        said(it, "Somebody was here before you.")
        self.assertEqual(it.text("#return p"),
                         f"Station {STATIONS[0]}: queried. Note: elsewhere")
        it.run("document.getElementById('query').reset()")
        enter(it, "correct",
              {"slip": "r101", "votes": [120, 85, 40, 22, 5], "blank": 4, "spoiled": 2})
        said(it, "Done.")
        close_shown(it, STATIONS[0])
        choose_station(it, STATIONS[-1])

    def boards_part(self, it, desk):
        self.assertEqual(it.text("#person"), "berta, board")
        confirmed(it, "#certify button", "Certify Montehondo?", "Done.")
        self.assertEqual((it.visible("#reopen"), it.visible("#certify"), it.visible("#import")),
                         (True, False, False))
        choose_con(it, "c1")
        confirmed(it, "#certify button", "Certify Twin Town?",
                  "Stations whose return is not closed: 1. Close them first.")
        # A clerk closes it elsewhere: the page shows what is there once it asks again.
        self.assertEqual(plain(desk.port, "POST", "/station/s1/close", '{"rev":1}').status, 200)
        # Whoever looks at it reads that a lot is needed, and so does whoever certifies.
        it.click("#again")
        said(it, "This is what the office has now.")
        self.assertIn("A lot is needed among A, B, for one seat.", it.text("#view .look"))
        self.assertTrue(it.visible("#draw"))
        confirmed(it, "#certify button", "Certify Twin Town?",
                  "A lot is needed among A, B, for one seat.")
        # It is to be looked at, and is no fault.
        self.assertEqual(it.run("return document.getElementById('said').className"), "look")
        draw(it, "B", "B")
        said(it, "The lot has to name each of these lists once and no other: A, B.")
        # The choice is still there, and the first place has the focus.
        self.assertEqual(it.run("const all = [...document.querySelectorAll('#order select')]; "
                                "return [...all.map((e) => e.value), "
                                "all.indexOf(document.activeElement)]"), ["B", "B", 0])
        draw(it, "B", "A")
        said(it, "Done.")
        self.assertEqual([*receipt(it)], ["Constituency", "Order", "By", "At"])
        self.assertFalse(it.visible("#draw"))
        confirmed(it, "#certify button", "Certify Twin Town?", "Done.")
        it.run("document.querySelector('#vacate select').selectedIndex = 1")
        it.type("#vacate input[name=note]", "moved")
        confirmed(it, "#vacate button", "Ana (A) is gone?", "Done: Abel moves in, place 2.")
        # Somebody else reopens it: what the page shows is no longer so, and its command is refused.
        self.assertEqual(
            plain(desk.port, "POST", "/con/c1/reopen", '{"edition":3,"note":"elsewhere"}').status,
            200)
        it.type("#reopen input[name=note]", "here")
        confirmed(it, "#reopen button", "Withdraw the certificate of Twin Town?", "not certified")
        self.assertEqual((it.visible("#certify"), it.visible("#reopen")), (True, False))
        shows_well(it, "board")

    @needs("chromium", "nginx", "openssl")
    def test_a_station_in_the_clerks_page(self):
        """A station sees its own return alone, and may lodge it; what is wrong in it a clerk
        corrects."""
        with office_and_proxy(with_stations(2)) as (desk, front):
            press(desk.port, "--setup", "setup.toml", folder=str(front.folder / "pages"))
            front.name("stations", "s1")
            with clerks_browser(front, "s1") as it:
                self.assertEqual([it.visible(f"#{part}")
                                  for part in ("of-con", "choice", "lodge", "close", "query")],
                                 [False, False, True, False, False])
                self.assertEqual(it.run("return [document.getElementById('station').value, "
                                        "document.getElementById('station').readOnly]"),
                                 ["s1", True])
                lodged = {"slip": "p1", "votes": [20, 30], "blank": 1, "spoiled": 0}
                enter(it, "lodge", lodged)
                said(it, "Lodged.")
                it.click("#compare")
                enter(it, "lodge", lodged | {"votes": [20, 31]})
                compare(it, "if the recorded one is wrong, tell the office: a clerk corrects it.")
                self.assertEqual([it.visible(f"#{part}")
                                  for part in ("of-con", "choice", "lodge", "close", "query")],
                                 [False, False, True, False, False])
            self.assertEqual(json.loads(plain(desk.port, "GET", "/station/s1").body)["votes"],
                             [20, 30])

    @needs("chromium", "nginx", "openssl")
    def test_a_station_that_the_clerks_page_does_not_know(self):
        """The office has it and setup.json does not: no form is shown for it, neither to its own
        name nor to a clerk."""
        with office_and_proxy(with_stations(3)) as (desk, front):
            Path("setup.toml").write_text(with_stations(1), encoding="utf-8")
            known = {"Office-Setup": hash_of_file(front.folder / "share/setup.json")}
            front.publish_setup("setup.toml")
            front.name("stations", "s2")
            # (the proxy knows it once it has read its files again)
            front.process.send_signal(signal.SIGHUP)
            until(lambda: front.ask("GET", "/now/progress", None, "clara", known).status == 409)
            lodged = '{"slip":"p1","votes":[1,2],"blank":0,"spoiled":0}'
            self.assertEqual(plain(desk.port, "POST", "/station/s3/lodge", lodged).status, 200)
            unknown = "setup.json has no station of this code."
            with clerks_browser(front, "s2", unknown) as it:
                self.assertFalse(it.visible("#lodge"))
            with clerks_browser(front, "clara") as it:
                for code, words in (("s2", unknown), ("s3", unknown),
                                    ("s4", "The office has no station of this code.")):
                    with self.subTest(code=code, words=words):
                        choose_station(it, code, words)
                        self.assertEqual((
                            [it.visible(f"#{form}") for form in ("lodge", "close", "query")],
                            it.text("#return")), ([False] * 3, ""))
                choose_station(it, "s1")
                self.assertTrue(it.visible("#lodge"))

    def test_what_the_clerks_page_is(self):
        """It is short, has a sentence for each refusal, nothing of another site, and its policy
        names its script."""
        text = (DEPLOY / "www/clerk.html").read_text(encoding="utf-8")
        self.assertLess(len(text.encode()), 80_000)
        formats = (ROOT / "docs/FORMATS.md").read_text(encoding="utf-8")
        begin = formats.index("The answer to a refused command has the number")
        answers = formats[begin:formats.index("### What GET shows")]
        words = set(re.findall(r"^\| (?:\d+ \| )?`(\w+)` \|", answers, re.M))
        self.assertEqual(len(words), 35)
        lost = [word for word in words
                if not re.search(rf"^{word}: \(a?\) => ", text,
                                 re.M)]
        self.assertEqual(lost, [])
        self.assertTrue(re.search("^unavailable: .*it may have been done", text, re.M))
        # So do those of requests whose answer is lost.
        self.assertEqual(re.findall(r'^(\d+): "[^"]*\bIt may have been done\b', text, re.M),
                         ["0", "502", "504"])
        script = re.search("<script>(.*?)</script>", text, re.S)[1]
        wanted = base64.b64encode(hashlib.sha256(script.encode()).digest()).decode()
        self.assertIn(f"script-src 'sha256-{wanted}'", text,
                      f"the policy of clerk.html has to name its script: 'sha256-{wanted}'")
        self.assertNotRegex(
            text, r"https?://|innerHTML|outerHTML|insertAdjacent|document\.write|eval\(|import ?\(")
