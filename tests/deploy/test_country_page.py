"""The press page of a country."""

import json
import os
import re
import subprocess
import sys
import time
import tomllib
from datetime import datetime
from pathlib import Path

from tests.support import model
from tests.support.countries import FOUR_BEFORE, count_four, four, setup_of_four, sixty_lists
from tests.support.desks import answer_of, answering_desk, desk_with, done, modelled
from tests.support.office import constituency, party_list, profile, station
from tests.support.pages import page_of, press, read, shown_text, site_folder
from tests.support.scripts import module
from tests.support.site import DEPLOY, SiteCase

press_site = module("press_site")


def htmls(folder="pages"):
    """The pages of a folder, but for the parts for other sites."""
    return sorted(name for name in os.listdir(folder)
                  if name.endswith(".html") and not name.startswith("embed"))


def drawn(name="index.html"):
    """The groups of dots of a half circle: of whom, how many, and whether they are hollow."""
    groups = re.findall(r'<g class="([\w-]+)"><path d="([^"]*)"[^>]*/>(<path class="hole")?',
                        read(name))
    return [(of, path.count("h0"), bool(hole)) for of, path, hole in groups]


class CountryPage(SiteCase):
    def test_the_page_of_a_country(self):
        """Its seats, votes and turnout are sums of the constituencies; what is open and what is
        withdrawn is said; the closest seats are in order; and each constituency is found by its
        name."""
        with four() as (office, port):
            press(port, "--setup", "setup.toml")
            page, text = page_of("index.html"), shown_text(read("index.html"))
            for sentence in (
                "Certified: 5 of 10 seats, in 2 of 4 constituencies. Not certified: 5.",
                "2 seats: Sur was certified and is reopened; they may still change,",
                # In Sur A 10 (5), B 20 (10); in Oeste D 90 (45, 30), A 7, B 3.
                # One of two stations of Óeste is counted, and that of Sur.
                "Provisional: 5 seats, in constituencies with 2 of 3 polling stations counted "
                "(66.67%). These seats are not the result.",
                "3 seats: the count goes on in Óeste &lt;3&gt; (50.00% counted).",
                "The line marks the majority: 6 of 10 seats.",
                "5 of 6 polling stations are counted, 83.33 per cent",
                # Norte 203 of 1,000, Este 120 of 400, Sur 30 of 300, and of Oeste 100 of 400.
                "Turnout of what is counted: 21.57 per cent, 453 of 2,100 electors.",
                "Valid votes 450, including 5 blank; spoiled 3."):
                with self.subTest(sentence=sentence):
                    self.assertIn(sentence, text)
            self.assertEqual(page.tables["Seats and votes of each list"], [
                ["List", "certified seats", "provisional seats", "together", "votes", "share"],
                ["B Beta", "3", "2 provisional", "5", "193", "42.89%"],
                ["D Delta", "–", "3 provisional", "3", "90", "20.00%"],
                ["A Alpha", "2", "0 provisional", "2", "147", "32.67%"],
                ["C Gamma", "0", "–", "0", "15", "3.33%"],
                ["Total", "5", "5 provisional", "10", "445", ""]])
            self.assertIn('aria-label="Seats as a half circle of dots: B 3 and 2 provisional, '
                          'D 3 provisional, A 2.', read("index.html"))
            # Those of D and two of B are hollow, and their numbers are after a plus.
            self.assertEqual(drawn(), [("list-B", 3, False), ("list-B", 2, True),
                                       ("list-D", 3, True), ("list-A", 2, False)])
            self.assertEqual(sorted(re.findall("<text [^>]*>([^<]*)</text>", read("index.html"))),
                             ["10", "A 2", "B 3+2", "D 0+3"])
            self.assertIn("Hollow dots, and the numbers after a plus, are provisional seats, which "
                          "are not the result.", text)
            self.assertEqual([shown_text(item) for item
                              in re.findall("<li>(.*? one more seat .*?)</li>",
                                            read("index.html"))], [
                f"{of} would have one more seat in {con}, and {loser} one fewer, with {votes} more "
                "votes" for votes, of, con, loser in (
                    (11, "B", "Norte", "A"), (11, "A", "Este", "B"), (31, "C", "Este", "B"),
                    (46, "C", "Norte", "A"), (170, "A", "Norte", "B"))])
            self.assertEqual(page.tables["Constituencies in the order of their names"][1:], [
                ["Este certified, 100.00% counted", "B", "B 2"],
                ["Norte certified, 100.00% counted", "A", "A 2 B 1"],
                ["Óeste <3> no certificate yet, 50.00% counted", "D", "provisional: D 3"],
                ["Sur certificate withdrawn, 100.00% counted", "B", "provisional: B 2"]])
            self.assertEqual([row[0] for row
                              in page_of("count.html").tables["Progress of the constituencies"][
                                  1:]], ["Este", "Norte", "Óeste <3>", "Sur"])
            # Without the setup the office says how many seats there are, but nobody knows the
            # electors.
            press(port, folder="without")
            text = shown_text(read("index.html", "without"))
            self.assertIn("Certified: 5 of 10 seats, in 2 of 4 constituencies.", text)
            self.assertNotIn("Turnout", text)
            # Once everything is certified nothing is open.
            done(office, "/con/sur/certify", {"edition": 3})
            done(office, "/station/o2/lodge",
                 {"slip": "p2", "votes": [0, 0, 1], "blank": 0, "spoiled": 0})
            done(office, "/station/o2/close", {"rev": 1})
            done(office, "/con/oeste/certify", {"edition": 1})
            press(port, "--setup", "setup.toml")
            text = shown_text(read("index.html"))
            for sentence in ("All 10 seats are certified, in 4 constituencies.",
                             "Turnout: 18.16 per cent, 454 of 2,500 electors.", "D 3"):
                with self.subTest(sentence=sentence):
                    self.assertIn(sentence, text)
            self.assertEqual(re.findall("(?i)withdrawn|provisional|hollow", text), [])
            self.assertNotIn('<g class="open-seats">', read("index.html"))
            # D has three seats of few votes: lists are by seats, and in Oeste by votes.
            lists = page_of("index.html").tables["Seats and votes of each list"]
            self.assertEqual([row[:3] for row in lists[1:]], [
                ["B Beta", "5", "193"], ["D Delta", "3", "91"], ["A Alpha", "2", "147"],
                ["C Gamma", "0", "15"], ["Total", "10", "446"]])
            page = page_of("con-oeste.html")
            for table in ("Votes of each list", "Seats of each list", "Quotients of each list"):
                with self.subTest(table=table):
                    self.assertEqual([row[0][0] for row in page.tables[table][1:4]],
                                     ["D", "A", "B"])

    def test_provisional_seats(self):
        """They are on the pages from the first closed return until the certificate, with the word
        and with how much is counted; seats that a lot would decide are nobody's. Where the folder
        of the site forbids them they are in no file."""
        setup = setup_of_four()
        Path("setup.toml").write_text(setup, encoding="utf-8")
        with modelled(setup) as (office, port):
            def pages(folder="pages", **site):
                press(port, "--setup", "setup.toml", *(site_folder(**site) if site else ()),
                      folder=folder)
                return shown_text(read("con-norte.html", folder))

            # Of two votes each the third seat is a matter of a lot.
            for code in ("n1", "n2"):
                done(office, f"/station/{code}/lodge",
                     {"slip": "p1", "votes": [1, 1, 0], "blank": 0, "spoiled": 0})
            self.assertNotIn("rovisional", pages())
            self.assertEqual(read("con-norte.csv").splitlines()[1], "A,Alpha,0,0.00,no,,")
            done(office, "/station/n1/close", {"rev": 1})
            text = pages()
            self.assertIn("No certificate yet. A certificate needs every polling station counted. "
                          "Provisional, with 50.00% of the polling stations counted (1 of 2): how "
                          "the 3 seats would go if the votes counted so far were all the votes. "
                          "They are not the result, and may still change. If the votes counted so "
                          "far were all, a lot between A and B would decide 1 seat.", text)
            self.assertEqual(page_of("con-norte.html").tables[
                "Provisional seats of each list, with 50.00% of the polling stations counted"], [
                    ["List", "provisional seats"],
                    ["A Alpha", "1 provisional and perhaps 1 more by lot"],
                    ["B Beta", "1 provisional and perhaps 1 more by lot"],
                    ["C Gamma", "0 provisional"], ["Seats waiting for a lot", "1"],
                    ["Total (all seats)", "3"]])
            self.assertEqual(drawn("con-norte.html"), [
                ("list-A", 1, True), ("list-B", 1, True), ("open-seats", 1, False)])
            self.assertIn("Seats waiting for a lot1", shown_text(read("index.html")))
            self.assertEqual(read("con-norte.csv").splitlines()[1], "A,Alpha,1,50.00,yes,,1")
            self.assertEqual(json.loads(read("con-norte.json"))["provisional"], {
                "status": "lot", "question": 1, "group": ["A", "B"],
                "seats": {"A": 1, "B": 1, "C": 0}})
            # In Spanish, and where the law allows none.
            text = pages("es", site='language = "es"\n')
            self.assertIn("escrutado el 50,00 % de las mesas (1 de 2)", text)
            text = pages("none", site="provisional = false\n")
            self.assertIn("A certificate needs every polling station counted. 3 seats. No seat is "
                          "given.", text)
            for name in os.listdir("none"):
                if not name.endswith((".gz", ".schema.json", ".csv")) and name not in (
                        "datapackage.json", "openapi.json"):
                    with self.subTest(name=name):
                        self.assertNotIn("rovisional", read(name, "none"))
            self.assertEqual(read("con-norte.csv", "none").splitlines()[1], "A,Alpha,1,50.00,yes,,")
            # The lot decides, and then the board certifies.
            done(office, "/station/n2/close", {"rev": 1})
            done(office, "/con/norte/draw", {"edition": 1, "order": ["B", "A"]})
            text = pages()
            self.assertIn("Every polling station is counted; the board has not certified. "
                          "Provisional, with 100.00% of the polling stations counted (2 of 2): all "
                          "votes are counted, and the 3 seats are not the result until the board "
                          "certifies.", text)
            self.assertNotIn("would decide", text)
            self.assertEqual(drawn("con-norte.html"), [("list-B", 2, True), ("list-A", 1, True)])
            done(office, "/con/norte/certify", {"edition": 2})
            self.assertNotIn("rovisional", pages())
            self.assertEqual(drawn("con-norte.html"), [("list-B", 2, False), ("list-A", 1, False)])

    def test_a_country_of_many_lists(self):
        """Of lists without a seat the twenty with the most votes have a row each, and the others
        one together."""
        # L1 has the seat; L22 to L25 have 20, 19, 18 and 17 votes
        votes = [100, *range(40, 16, -1)]
        lists = "".join(party_list(f"L{n}", f"List {n}", "Ana") for n in range(1, 26))
        setup = profile("d0") + constituency("c1", "Town", 1, "d0") + lists + station("s1", 2000)
        Path("setup.toml").write_text(setup, encoding="utf-8")
        with modelled(setup) as (office, port):
            done(office, "/station/s1/lodge",
                 {"slip": "p1", "votes": votes, "blank": 0, "spoiled": 0})
            done(office, "/station/s1/close", {"rev": 1})
            done(office, "/con/c1/certify", {"edition": 1})
            press(port, "--setup", "setup.toml")
        rows = page_of("index.html").tables["Seats and votes of each list"][1:]
        self.assertEqual(
            [row[0] for row in rows],
            [*(f"L{n} List {n}" for n in range(1, 22)), "4 more lists without a seat", "Total"])
        self.assertEqual([row[1:3] for row in rows[-3:]], [["0", "21"], ["0", "74"], ["1", "784"]])

    def test_when_a_page_changed(self):
        """A page of a constituency has the moment of its last change, and is not written again
        before; the country's says how long that is ago. What is known no more is said."""
        with four() as (office, port):
            press(port, "--setup", "setup.toml")
            first = {name: (read(name), os.stat(f"pages/{name}").st_ino)
                     for name in sorted(os.listdir("pages")) if re.match("(con|stations)-", name)
                     and not name.endswith((".gz", ".json"))}
            time.sleep(1.1)
            done(office, "/station/o2/lodge",
                 {"slip": "p2", "votes": [0, 0, 1], "blank": 0, "spoiled": 0})
            press(port, "--setup", "setup.toml")
            changed = [name for name, was in first.items()
                       if (read(name), os.stat(f"pages/{name}").st_ino) != was]
            self.assertEqual(changed, ["con-oeste.html", "stations-oeste-1.html"])
            now, then = re.findall(r'<time datetime="([^"]*)">', read("index.html"))[:2]
            self.assertEqual(then,
                             re.search(r'<time datetime="([^"]*)">', read("con-oeste.html"))[1])
            # Within a second nothing is said of how long ago.
            ago = re.search(r"The last change was on <time .*?</time>(?:, (\d+ \w+) before)?\.",
                            read("index.html"))[1] or "0 seconds"
            seconds = (datetime.fromisoformat(now) - datetime.fromisoformat(then)).total_seconds()
            self.assertIn(ago, [press_site.Site().age(many) for many in (seconds - 1, seconds)],
                          (ago, then, now))

    def test_every_page_says_how_old_it_is(self):
        """Each has the moment of its last change, or of the round; while its office does not
        answer, also that it stays as it is, until it is answered again. Of one constituency so say
        its own pages alone."""
        Path("setup.toml").write_text(setup_of_four(), encoding="utf-8")
        office, broken = model.Office(tomllib.loads(setup_of_four())), set()
        count_four(office)

        def answered(head, _):
            target = head.split(b" ")[1].decode()
            return answer_of(503 if target in broken else office.ask("GET", target))

        with desk_with(answered) as port, answering_desk(sixty_lists()) as (long, _):
            press(long, folder="long")
            self.assertLess({"cons-1.html", "details-c1-2.html"}, set(htmls("long")))
            process = subprocess.Popen([sys.executable, DEPLOY / "press.py",
                                        f"http://127.0.0.1:{port}", "pages", "--setup",
                                        "setup.toml", "--every", "0.1"], stdout=subprocess.PIPE,
                                       stderr=subprocess.DEVNULL, text=True)
            try:
                self.assertIn(" failed 0 ", process.stdout.readline())
                first = {name: read(name) for name in htmls()}
                self.assertEqual(len(first), 2 + 4 + 4 + 4 + 1)
                for text in [*first.values(), *(read(name, "long") for name in htmls("long"))]:
                    with self.subTest(text=text):
                        header = text[text.index("<header>"):text.index("</header>")]
                        self.assertRegex(header,
                                         r'<p class="moment">(The office’s figures|Changed last) '
                                         r'on <time datetime="\d{4}-')
                for target, old in (("/con/norte/returns", ["con-norte.html",
                                                            "stations-norte-1.html"]),
                                    ("/results", list(first))):
                    with self.subTest(target=target, old=old):
                        broken.add(target)
                        Path("pages/stations-norte-2.csv").unlink()  # it is asked for again
                        process.stdout.readline()
                        self.assertIn(" failed 1 ", process.stdout.readline())
                        self.assertEqual([name for name in htmls()
                                          if '<p class="old" role="status">' in read(name)], old)
                        broken.clear()
                        process.stdout.readline()
                        self.assertIn(" failed 0 ", process.stdout.readline())
                        self.assertEqual([name for name in first if read(name) != first[name]
                                          and name not in ("count.html", "index.html")], [])
            finally:
                process.terminate()
                process.wait(timeout=20)
                process.stdout.close()

    def test_a_former_result(self):
        """Seats are compared where they are certified, and shares where every return is closed; of
        what no former result is known nothing is said."""
        with four() as (_, port):
            press(port, "--setup", "setup.toml", *site_folder(before=FOUR_BEFORE))
        lists = page_of("index.html").tables["Seats and votes of each list"]
        self.assertEqual([[row[0], row[1]] for row in lists], [
            ["List", "certified seats change"], ["B Beta", "3 +1"], ["D Delta", "–"],
            ["A Alpha", "2 −1"], ["C Gamma", "0 ±0"], ["Total", "5"]])
        self.assertEqual(page_of("con-norte.html").tables["Votes of each list"], [
            ["List", "votes", "share change", "takes part"],
            ["A Alpha", "100", "50.00% +30.00", "yes"], ["B Beta", "90", "45.00% +15.00", "yes"],
            ["C Gamma", "5", "2.50% +2.50", "yes"], ["Blank votes", "5", "2.50%", "–"]])
        self.assertEqual(
            page_of("con-norte.html").tables["Seats of each list"][1:],
            [["A Alpha", "2 ±0"], ["B Beta", "1 ±0"], ["C Gamma", "0 ±0"], ["Total", "3"]])
        self.assertIn("The change of a share is against the former result, in points of per cent",
                      read("con-norte.html"))
        without = ["List", "votes", "share", "takes part"]
        self.assertEqual(page_of("con-oeste.html").tables["Votes of each list"][0], without)
        # Shares of another base are not compared with those of the valid votes, and a country only
        # where each certified constituency has a former result.
        lists, north = setup_of_four().replace('base = "valid"',
                                               'base = "lists"'), FOUR_BEFORE.partition("este")[0]
        Path("lists.toml").write_text(lists, encoding="utf-8")
        with modelled(lists) as (office, port):
            count_four(office)
            press(port, "--setup", "lists.toml", *site_folder(before=FOUR_BEFORE), folder="lists")
        with four() as (_, port):
            press(port, "--setup", "setup.toml", *site_folder(before=north), folder="north")
        self.assertEqual(page_of("con-norte.html", "lists").tables["Votes of each list"][0],
                         without)
        self.assertEqual(page_of("index.html", "north").tables["Seats and votes of each list"][0],
                         ["List", "certified seats", "provisional seats", "together",
                          "votes", "share"])
