"""Slips, files and commands that are given to the clerks' page."""

import html
import json
import re
import tomllib
from pathlib import Path

from tests.support import model
from tests.support.case import needs
from tests.support.clerks import (
    SLIP, choose_con, choose_station, choose_station_again, claras_page, clerks_browser, compare,
    confirmed, enter, focused, forms, office_with_pages, post, receipt, said, shown, type_slip,
    unspoken,
)
from tests.support.desks import answer_of, desk_with
from tests.support.office import (
    LISTS, PROFILE, RETURNS, THREE_STATIONS, constituency, party_list, station, with_stations,
)
from tests.support.pages import press
from tests.support.proxy import office_and_proxy, proxy
from tests.support.shown import shows_well
from tests.support.site import BOTH, SiteCase, plain

WARNED = """return [...document.querySelectorAll('#lodge .warning > span')].map((e) =>
    [e.closest('.counts > div').querySelector('span').textContent.split(' ')[0], e.textContent])"""
MORE = "Far more than its share in the constituency so far."
# A moment as English has it.
AT = r"\w+ \d{1,2}, \d{4} at \d{1,2}:\d\d:\d\d\s[AP]M "
LESS = "Far less than its share in the constituency so far."
# A slip of 1,000 electors, and what is unusual in it. Each of twelve closed returns has 300, 200
# and 20 votes, so that as many are expected of another one. The spread is learned from them: 0.31
# and 0.27 of the logarithm, and chance in small numbers beside it. So of C 63 are just usual, 80
# are not.
UNUSUAL = (
    ([300, 20, 200], 0, 0, [["B", f"{LESS} Exchanged with the figure of C it would fit."],
                            ["C", f"{MORE} Exchanged with the figure of B it would fit."]]),
    ([300, 200, 80], 0, 0, [["C", MORE]]),
    ([300, 200, 5], 0, 0, [["C", LESS]]),
    ([300, 220, 0], 0, 0, [["C", LESS]]),
    ([30, 200, 15], 0, 0, [["A", LESS]]),
    ([300, 200, 20], 28, 0, [["Blank", "More than 5 per cent of all votes are blank."]]),
    ([300, 200, 20], 0, 28, [["Spoiled", "More than 5 per cent of all votes are spoiled."]]),
    ([115, 77, 7], 0, 0, [["Total", "Less than 20 per cent of the 1,000 electors."]]),
    ([549, 366, 36], 0, 0, [["Total", "More than 95 per cent of the 1,000 electors."]]),
)
# Slips that are just usual: 27 and 27 of 574 are 4.7 per cent each; 200 and 950 of 1,000 are 20 and
# 95 per cent.
USUAL = (([300, 200, 20], 27, 27), ([300, 180, 38], 0, 0), ([300, 200, 10], 0, 0),
         ([115, 77, 8], 0, 0), ([549, 365, 36], 0, 0), ([300, 200, 63], 0, 0))
# Rows that are named for each cause, and how the page says it.
FILE = RETURNS.replace("30,40", "31,40") + (
    "s1,p1,0,0,10\ns?,p1,0,0,1,1\nt1,p1,0,0,1,1\ns1,?,0,0,1,1\n"
    "s1,p1,0,x,1,1\ns3,p4,0,1000001,1,1\ns3,p4,0,300,1,1\n")
NAMED = [
    "Line 3: station s2: another return of its station is recorded. s2,p2,1,0,31,40",
    "Line 5: it has 5 fields, and the header has 6. s1,p1,0,0,10",
    "Line 6: its station is not a code. s?,p1,0,0,1,1",
    "Line 7: its station is not one of this constituency. t1,p1,0,0,1,1",
    "Line 8: its slip is not a code. s1,?,0,0,1,1",
    "Line 9: under spoiled there is no whole number of 1 to 9 digits. s1,p1,0,x,1,1",
    "Line 10: station s3: a number is above 1,000,000. s3,p4,0,1000001,1,1",
    "Line 11: station s3: its votes are more than the station has electors and agents. "
    "s3,p4,0,300,1,1"]
# The next command is done, and its answer is lost.
LOST = """const ask = window.fetch; window.fetch = async (target, more) => {
  const answer = await ask(target, more);
  if (more.method !== "POST") return answer;
  window.fetch = ask;
  throw new TypeError("lost");
};"""
NO_ANSWER = ("There was no answer. It may have been done. Look at what is shown once the office "
             "answers, or send it again: nothing is done twice.")


def offline(it, now):
    it.command("Network.emulateNetworkConditions", offline=now, latency=0, downloadThroughput=-1,
               uploadThroughput=-1)


ROWS = ("return [...document.querySelectorAll('#return tr')].map((row) => "
        "[...row.children].map((e) => e.textContent))")
PRINTED = """return [...document.querySelectorAll('header, #said, #receipt, #receipt button, main')]
    .filter((e) => e.getClientRects().length).map((e) => e.id || e.tagName)"""


class Slips(SiteCase):
    @needs("chromium", "nginx", "openssl")
    def test_the_total_of_the_slip(self):
        """A slip whose figures have not the total that was typed is not sent: the page says so
        aloud, and goes to the first figure."""
        with claras_page(BOTH) as (desk, front, it):
            choose_station(it, "s1")
            tops = it.run("const box = (e) => e.getBoundingClientRect(); return "
                          "[...document.querySelectorAll('#lodge .counts input')]"
                          ".map((e) => [e.name, box(e).left, box(e).top])")
            self.assertEqual([name for name, *_ in tops],
                             ["votes", "votes", "blank", "spoiled", "total"])
            self.assertEqual(
                (len({left for _, left, _ in tops}), sorted(tops, key=lambda one: one[2])),
                (1, tops))
            for wrong, words in (
                ({"votes": [120, 17]},
                 "the figures add up to 140, and the total that was typed is 194."),
                ({"total": 149},
                 "the figures add up to 194, and the total that was typed is 149."),
            ):
                with self.subTest(wrong=wrong, words=words):
                    enter(it, "lodge", SLIP | {"total": 194} | wrong)
                    said(it, words)
                    self.assertEqual(
                        (it.text("#alert").startswith("Nothing was sent: "), focused(it)),
                        (True, ["votes", "A Alpha"]))
                    self.assertEqual(it.run("return document.querySelector('#lodge "
                                            "input[name=total]').ariaInvalid"), "true")
                    self.assertEqual(plain(desk.port, "GET", "/station/s1").status, 404)
            # A field without a figure, or with another thing, is gone to by the browser itself.
            for place, typed in ((2, ""), (3, "1.0"), (1, "12O")):
                with self.subTest(place=place, typed=typed):
                    type_slip(it, "lodge", SLIP)
                    it.run("document.querySelector(`#lodge .counts > :nth-child(${arguments[0]}) "
                           "input`).value = arguments[1]", place, typed)
                    it.click("#lodge button")
                    self.assertEqual(it.run("return [...document.querySelectorAll('#lodge .counts "
                                            "input')].indexOf(document.activeElement)"), place - 1)
                    self.assertEqual(plain(desk.port, "GET", "/station/s1").status, 404)
            enter(it, "lodge", SLIP)
            said(it, "Lodged.")
            self.assertEqual(
                it.run("return document.querySelector('#lodge input[name=total]').ariaInvalid"),
                "false")
            # A receipt of a first entry has no figures: it may go with the slip.
            self.assertEqual(
                set(receipt(it)),
                {"Station", "Constituency", "Done", "Slip", "By", "At"})
            self.assertEqual(shown(desk, "s1")["votes"], [120, 71])
            shows_well(it, "entry")

    @needs("chromium", "nginx", "openssl")
    def test_whoever_may_write_the_press_pages(self):
        """They exchange no two lists of a slip, and no page of theirs acts as the clerk who looks
        at it."""
        with office_and_proxy(BOTH) as (desk, front):
            pages = front.folder / "pages"
            press(desk.port, "--setup", "setup.toml", folder=str(pages))
            setup = json.loads((pages / "setup.json").read_text(encoding="utf-8"))
            self.assertEqual(setup, json.loads(front.ask("GET", "/setup.json").body))
            next(one for one in setup if one["code"] == "c1")["lists"].reverse()
            (pages / "setup.json").write_text(json.dumps(setup), encoding="utf-8")
            (pages / "setup.json.gz").unlink()
            lodges = "fetch('/station/s2/lodge', { method: 'POST', body: '%s' })" % json.dumps(SLIP)
            for name, text in (
                ("own.html",
                 f'<html lang="en"><title>Own</title><body onload="{html.escape(lodges)}">'
                 f'<script>document.title = "ran"; {lodges}</script>'
                 '<script src="own.js"></script>'),
                ("own.js", f"document.title = 'ran'; {lodges}"),
                ("own.svg",
                 '<svg xmlns="http://www.w3.org/2000/svg"><title>Own</title>'
                 f'<script>{lodges}</script></svg>'),
            ):
                (pages / name).write_text(text, encoding="utf-8")
            with clerks_browser(front, "clara") as it:
                choose_station(it, "s1")
                self.assertEqual([name for _, name in it.named("textbox")][1:3],
                                 ["A Alpha", "B Beta"])
                enter(it, "lodge", SLIP)
                said(it, "Lodged.")
                page = it.run("return location.origin")
                for name in ("own.html", "own.svg"):
                    with self.subTest(name=name):
                        it.open(f"{page}/{name}")
                        it.wait("return document.readyState === 'complete'")
                        self.assertEqual(it.run("return document.title"), "Own")
                # The search of the pages is a script that the proxy names.
                it.open(f"{page}/")
                it.type(".search input", "twin")
                it.wait("return document.querySelector('.search output').textContent === '1'")
            self.assertEqual([line["path"] for line in front.record(1)], ["/station/s1/lodge"])

    @needs("chromium", "nginx", "openssl")
    def test_what_is_unusual_in_a_slip(self):
        """It is shown beside its figure, and is sent once somebody says of each that the paper says
        so."""
        setup = (PROFILE + constituency("c1", "Twin Town", 3, "d0") + LISTS
                 + party_list("C", "Gamma", "Gil")
                 + "".join(station(f"s{n}", 1000) for n in range(1, 21)))
        with office_with_pages(setup) as (desk, front):
            for n in (1, *range(10, 21)):
                post(desk, f"/station/s{n}/lodge",
                     {"slip": f"p{n}", "votes": [300, 200, 20], "blank": 0, "spoiled": 0})
                post(desk, f"/station/s{n}/close", {"rev": 1})
            press(desk.port, "--setup", "setup.toml", folder=str(front.folder / "pages"))
            with clerks_browser(front, "clara") as it:
                choose_station(it, "s2")
                it.wait("return learned.closed === 12 && learned.spreads.length === 3")
                for votes, blank, spoiled, wanted in UNUSUAL:
                    with self.subTest(votes=votes, blank=blank, spoiled=spoiled, wanted=wanted):
                        type_slip(it, "lodge", {"slip": "p2", "votes": votes, "blank": blank,
                                                "spoiled": spoiled})
                        it.click("#lodge button")
                        number = "a figure is" if len(wanted) == 1 else f"{len(wanted)} figures are"
                        self.assertEqual(it.run(WARNED), wanted)
                        self.assertTrue(it.text("#alert").startswith(
                            f"Nothing was sent yet: {number} unusual."), it.text("#alert"))
                        # The figure has the focus, and what is said of it belongs to it.
                        self.assertEqual(focused(it)[1].split(" ")[0], wanted[0][0])
                        described = "document.activeElement.getAttribute('aria-describedby')"
                        self.assertEqual(
                            it.run(f"return document.getElementById({described}).textContent"),
                            wanted[0][1])
                        self.assertEqual(plain(desk.port, "GET", "/station/s2").status, 404)
                shows_well(it, "unusual")
                self.assertEqual(unspoken(it), [])
                # One tick of two is not enough; a figure that is typed again is looked at again.
                type_slip(it, "lodge",
                          {"slip": "p2", "votes": [300, 20, 200], "blank": 0, "spoiled": 0})
                it.click("#lodge button")
                it.click("#lodge .warning input")
                it.click("#lodge button")
                self.assertTrue(
                    it.text("#alert").startswith("Nothing was sent yet: a figure is unusual."),
                    it.text("#alert"))
                it.type("#lodge .counts > :nth-child(2) input", "20")
                it.run("document.querySelectorAll('#lodge .warning input').forEach((e) => "
                       "e.checked || e.click())")
                it.click("#lodge button")
                self.assertEqual(
                    (len(it.run(WARNED)), plain(desk.port, "GET", "/station/s2").status), (2, 404))
                it.run("document.querySelectorAll('#lodge .warning input').forEach((e) => "
                       "e.checked || e.click())")
                it.click("#lodge button")
                said(it, "Lodged.")
                self.assertEqual((shown(desk, "s2")["votes"], it.run(WARNED)), ([300, 20, 200], []))
                for n, (votes, blank, spoiled) in enumerate(USUAL, 3):
                    choose_station(it, f"s{n}")
                    type_slip(it, "lodge",
                              {"slip": f"p{n}", "votes": votes, "blank": blank, "spoiled": spoiled})
                    it.click("#lodge button")
                    said(it, "Lodged.")

    @needs("chromium", "nginx", "openssl")
    def test_a_file_is_tried_before_it_is_imported(self):
        """The page shows what the import would come to and why each row would not be accepted, and
        imports the file once it is asked again. Before an office in plain Python."""
        office, asked = model.Office(tomllib.loads(THREE_STATIONS)), []

        def answered(head, body):
            method, target = head.decode().split(" ")[:2]
            asked.extend([target] if method == "POST" else [])
            return answer_of((400, '{"word":"bad_header"}') if b";" in body
                             else office.ask(method, target, body.decode()))

        self.assertEqual(office.ask(
            "POST", "/station/s2/lodge",
            json.dumps({"slip": "p2", "votes": [30, 40], "blank": 1, "spoiled": 0}))[0], 200)
        for name, text in (("rows.csv", FILE), ("good.csv", RETURNS),
                           ("other.csv", FILE.replace(",", ";"))):
            Path(name).write_text(text)
        Path("setup.toml").write_text(THREE_STATIONS)
        give = lambda it, name: it.of_session(
            "POST", f"/element/{it.find('#import input[type=file]')}/value",
            {"text": str(Path(name).resolve())})
        state = lambda it: (it.text("#import button"), it.text("#trial-import"),
                            sorted(office.cons["c1"].returns))
        with desk_with(answered) as port, proxy(port) as front:
            press(port, "--setup", "setup.toml", folder=str(front.folder / "pages"))
            with clerks_browser(front, "clara") as it:
                self.assertEqual(state(it), ("Try this file", "", ["s2"]))
                give(it, "other.csv")
                it.click("#import button")
                said(it,
                     "The first line of the file is not station,slip,blank,spoiled and this "
                     "constituency’s lists in order")
                self.assertEqual((state(it), asked),
                                 (("Try this file", "", ["s2"]), ["/con/c1/trial"]))
                give(it, "rows.csv")
                it.click("#import button")
                said(it, "This is what an import of this file would come to now.")
                self.assertEqual(state(it), ("Try this file", "Import this file", ["s2"]))
                self.assertEqual(it.run("return [...document.querySelectorAll('#trial "
                                        "tr')].map((e) => e.textContent)"),
                                 ["Lodged2", "The same0", "Differing1", "Refused2", "Unreadable5"])
                self.assertEqual(it.run("return [...document.querySelectorAll('#trial "
                                        "li')].map((e) => e.textContent)"), NAMED)
                self.assertEqual(it.text("#trial-question"),
                                 "Nothing is lodged yet. Import this file into Twin Town?")
                shows_well(it, "trial")
                # Another separator or another file is to be tried first, too.
                it.run("const e = document.querySelector('#import select'); e.value = "
                       "'/semicolon'; e.dispatchEvent(new Event('change', { bubbles: true }))")
                self.assertEqual(state(it), ("Try this file", "", ["s2"]))
                it.run("const e = document.querySelector('#import select'); e.value = ''; "
                       "e.dispatchEvent(new Event('change', { bubbles: true }))")
                it.click("#import button")
                said(it, "This is what an import of this file would come to now.")
                give(it, "good.csv")
                self.assertEqual(state(it), ("Try this file", "", ["s2"]))
                it.click("#import button")
                said(it, "This is what an import of this file would come to now.")
                self.assertEqual(
                    (state(it), it.run("return document.querySelectorAll('#trial li').length")),
                    (("Try this file", "Import this file", ["s2"]), 0))
                it.click("#trial-import")
                said(it, "Lodged 2, the same 1, differing 0, refused 0, unreadable 0.")
                self.assertEqual(state(it), ("Try this file", "", ["s1", "s2", "s3"]))
            self.assertEqual(asked, ["/con/c1/trial"] * 4 + ["/con/c1/import"])
            self.assertEqual([line["path"] for line in front.record(1)], ["/con/c1/import"])

    @needs("chromium", "nginx", "openssl")
    def test_what_was_typed_and_not_sent(self):
        """Another station, another constituency and another page ask before it goes; asking the
        office again keeps it."""
        with office_with_pages(BOTH) as (desk, front):
            leaves = "return dispatchEvent(new Event('beforeunload', { cancelable: true }))"
            slip = "return document.querySelector('#lodge input[name=slip]').value"
            with clerks_browser(front, "clara") as it:
                choose_station(it, "s1")
                self.assertTrue(it.run(leaves))
                type_slip(it, "lodge", SLIP)
                self.assertFalse(it.run(leaves))
                it.click("#again")
                said(it, "This is what the office has now.")
                self.assertEqual(it.run("return [...document.querySelectorAll('#lodge .counts "
                                        "input')].map((e) => e.value)"),
                                 ["120", "71", "2", "1", "194"])
                for chosen, code in (("station", "04-001-B"), ("con", "montehondo")):
                    with self.subTest(chosen=chosen, code=code):
                        it.run("const e = document.getElementById(arguments[0]); e.value = "
                               "arguments[1]; setTimeout(() => e.dispatchEvent(new "
                               "Event('change')))", chosen, code)
                        self.assertEqual(it.dismiss(),
                                         "What you typed for s1 was not sent. Leave it?")
                        self.assertEqual(it.run("return [document.getElementById('station').value, "
                                                "document.getElementById('con').value]"),
                                         ["s1", "c1"])
                        self.assertEqual(it.run(slip), "p1")
                choose_station_again(it, "04-001-B")
                self.assertEqual((it.run(slip), it.run(leaves),
                                  it.run("return document.getElementById('con').value")),
                                 ("", True, "montehondo"))
                # It asks for a field that is not shown any more as well, and for a note alone.
                post(desk, "/station/s1/lodge", SLIP)
                choose_station(it, "s1")
                it.click("#compare")
                it.type("#lodge input[name=slip]", "p1")
                it.click("#compare")
                self.assertEqual((it.visible("#lodge"), it.run(leaves)), (False, False))
                it.run("document.getElementById('lodge').reset()")
                self.assertTrue(it.run(leaves))
                it.type("#query input[name=note]", "smudged")
                self.assertFalse(it.run(leaves))
                choose_station_again(it, "04-001-B")
            self.assertEqual(shown(desk, "s1")["rev"], 1)

    @needs("chromium", "nginx", "openssl")
    def test_a_lost_connection(self):
        """A slip that was typed stays until it is recorded: a clerk and a station send it again;
        where the answer alone was lost, what is recorded is shown, and the page does not ask
        whether to leave it unsent."""
        with office_with_pages(with_stations(4)) as (desk, front):
            front.name("stations", "s1")
            typed = ("return [...document.querySelectorAll('#lodge "
                     "input:not([type=checkbox])')].map((e) => e.value)")
            for name, code, again in (("s1", "s1", "retry"), ("clara", "s2", "again")):
                with self.subTest(name=name, code=code, again=again):
                    with clerks_browser(front, name) as it:
                        if name == "clara":
                            choose_station(it, code)
                        self.assertFalse(it.visible("#retry"))
                        type_slip(it, "lodge", SLIP)
                        offline(it, True)
                        it.click("#lodge button")
                        said(it, NO_ANSWER)
                        self.assertEqual((it.text("#alert").startswith(NO_ANSWER), forms(it),
                                          it.visible("#receipt")), (True, [], False))
                        self.assertEqual(
                            [it.visible(f"#{button}") for button in ("retry", "again")],
                            [again == "retry", again == "again"])
                        offline(it, False)
                        it.click(f"#{again}")
                        said(it, "This is what the office has now.")
                        self.assertEqual((it.run(typed), it.visible("#retry"),
                                          plain(desk.port, "GET", f"/station/{code}").status),
                                         (["p1", "120", "71", "2", "1", "194"], False, 404))
                        it.click("#lodge button")
                        said(it, "Lodged.")
                        self.assertEqual(it.run(typed), [""] * 6)
            with clerks_browser(front, "bruno") as it:
                choose_station(it, "s3")
                type_slip(it, "lodge", SLIP)
                it.run(LOST)
                it.click("#lodge button")
                said(it, NO_ANSWER)
                self.assertIn("Station s3: received.", it.text("#return"))
                self.assertEqual((it.run(typed), it.visible("#receipt")), ([""] * 6, False))
                # A return that somebody else recorded meanwhile leaves what was typed.
                choose_station(it, "s4")
                type_slip(it, "lodge", SLIP)
                post(desk, "/station/s4/lodge", SLIP | {"votes": [71, 120]})
                it.click("#lodge button")
                compare(it, "Another return of this station is recorded.")
                self.assertEqual(it.run(typed), ["p1", "120", "71", "2", "1", "194"])
            self.assertEqual([(line["name"], line["path"], line["status"])
                              for line in front.record(4)],
                             [("s1", "/station/s1/lodge", 200), ("clara", "/station/s2/lodge", 200),
                              ("bruno", "/station/s3/lodge", 200),
                              ("bruno", "/station/s4/lodge", 409)])

    @needs("chromium", "nginx", "openssl")
    def test_two_windows_of_a_clerk(self):
        """An act of the other window meanwhile is said, and what is typed in this one stays; no
        command acts on what it does not show."""
        with claras_page(BOTH) as (desk, front, it):
            choose_station(it, "s1")
            one, page = it.of_session("GET", "/window"), it.run("return location.href")
            two = it.of_session("POST", "/window/new", {"type": "tab"})["handle"]
            it.of_session("POST", "/window", {"handle": two})
            it.command("Network.enable")
            it.command("Network.setExtraHTTPHeaders",
                       headers={"Authorization": front.authorization("clara")})
            it.open(page)
            said(it, "This is what the office has now.")
            choose_station(it, "s1")
            enter(it, "lodge", SLIP | {"votes": [120, 17]})
            said(it, "Lodged.")
            it.of_session("POST", "/window", {"handle": one})
            enter(it, "lodge", SLIP)
            compare(it, "Another return of this station is recorded. Compare both with the "
                    "slip; if the recorded one is wrong, query and correct it.")
            self.assertEqual(dict(it.run(ROWS))["B Beta"], "17")
            it.of_session("POST", "/window", {"handle": two})
            it.type("#query input[name=note]", "71 for B")
            it.click("#query button")
            said(it, "Done.")
            it.of_session("POST", "/window", {"handle": one})
            it.click("#close button")
            self.assertEqual(it.accept(), "Close the return of s1?")
            said(it, "Somebody was here before you.")
            self.assertEqual((shown(desk, "s1")["status"], shown(desk, "s1")["votes"]),
                             ("queried", [120, 17]))

    def acts(self, it, button, question, words, wanted):
        """A button that asks once: with no nothing is sent, with yes it is done, and the receipt
        says this."""
        before = it.text("#said")
        it.click(button)
        self.assertEqual((it.dismiss(), it.text("#said")), (question, before))
        confirmed(it, button, question, words)
        self.assertEqual((it.asked(), it.visible("#receipt tr"), unspoken(it)), (False, True, []))
        found = receipt(it)
        self.assertEqual({name: found.get(name) for name in wanted}, wanted)
        self.assertTrue(re.match(AT, found["At"]), found)

    @needs("chromium", "nginx", "openssl")
    def test_what_is_asked_once_and_its_receipt(self):
        with office_with_pages(BOTH) as (desk, front):
            town = {"Constituency": "Twin Town (c1)"}
            post(desk, "/station/s1/lodge", SLIP)
            with clerks_browser(front, "clara") as it:
                choose_station(it, "s1")
                self.acts(it, "#close button", "Close the return of s1?",
                          "Done.", town | {
                              "Station": "s1", "Done": None, "Slip": "p1",
                              "A Alpha": "120", "B Beta": "71", "Total": "194",
                              "By": "clara, clerk"})
                # On paper there is the receipt and nothing else.
                it.run("window.print = () => { window.printed = true; }")
                it.click("#print")
                self.assertTrue(it.run("return window.printed"))
                self.assertEqual(it.run(PRINTED), ["HEADER", "said", "receipt", "print", "MAIN"])
                it.command("Emulation.setEmulatedMedia", media="print")
                self.assertEqual(it.run(PRINTED), ["receipt"])
                it.command("Emulation.setEmulatedMedia", media="")
            with clerks_browser(front, "berta") as it:
                choose_con(it, "c1")
                # 120 and 71 votes: 120, 71, 60 are the three largest quotients.
                self.acts(it, "#certify button", "Certify Twin Town?",
                          "Done.", town | {
                              "Station": None, "A Alpha": "120 votes, 2 seats",
                              "B Beta": "71 votes, 1 seat", "By": "berta, board"})
                it.run("document.querySelector('#vacate select').selectedIndex = 1")
                it.type("#vacate input[name=note]", "moved")
                self.acts(it, "#vacate button", "Ana (A) is gone?",
                          "Done: nobody moves in, the seat is empty.",
                          town | {"Gone": "Ana, A, place 1", "Note": "moved"})
                it.type("#reopen input[name=note]", "a recount")
                self.acts(it, "#reopen button", "Withdraw the certificate of Twin Town?",
                          "Done.", town | {"Note": "a recount"})
            self.assertEqual(
                [line["path"] for line in front.record(4)],
                ["/station/s1/close", "/con/c1/certify", "/con/c1/vacate", "/con/c1/reopen"])

    @needs("chromium", "nginx", "openssl")
    def test_the_clerks_page_for_a_screen_reader(self):
        """As the browser tells it: each form and each field has a name, refusals are an alert, and
        nothing but what acts is a tab stop."""
        with office_with_pages(BOTH) as (desk, front):
            post(desk, "/station/s1/lodge", SLIP)
            post(desk, "/station/s1/query", {"rev": 1, "note": "smudged"})
            with clerks_browser(front, "clara") as it:
                choose_station(it, "s1")
                self.assertEqual(it.named("form"),
                                 [("form", "Correct it"), ("form", "Import a file of returns")])
                self.assertEqual([name for _, name in it.named("textbox", "combobox")],
                                 ["Constituency", "Station", "Slip", "A Alpha", "B Beta", "Blank",
                                  "Spoiled", "Total of all these on the slip",
                                  "Fields are separated by"])
                self.assertEqual(unspoken(it), [])
                self.assertEqual(it.run("return [document.getElementById('status').role, "
                                        "document.getElementById('alert').role]"),
                                 ["status", "alert"])
                # A browser offers no figure of another slip.
                self.assertEqual(it.run("return [...document.querySelectorAll('form "
                                        "input:not([type=checkbox], [type=file], "
                                        "[name=note])')].map((e) => e.autocomplete)"), ["off"] * 18)
                enter(it, "correct", SLIP | {"votes": [301, 0], "total": 304})
                said(it, "are more than the station has electors and agents.")
                self.assertEqual((it.text("#status"), focused(it)[0]), ("", "total"))
                for button, words in (("again", "This is what the office has now."),
                                      ("who", "The history of station s1 is shown.")):
                    with self.subTest(button=button, words=words):
                        it.click(f"#{button}")
                        said(it, words)
                        self.assertEqual(it.run("return document.activeElement.id"), button)
                self.assertEqual(unspoken(it), [])
                self.assertEqual(
                    it.run("return [document.scripts.length, document.scripts[0].src]"), [1, ""])
