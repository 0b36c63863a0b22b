"""Places, lists and the elected on the press pages, and what the first page finds."""

import json
import os
import re
from pathlib import Path

from tests.support import browser
from tests.support.case import needs
from tests.support.countries import FOUR_BEFORE, four, setup_of_four
from tests.support.desks import answering_desk, done, modelled
from tests.support.office import (
    PROFILE, constituency, party_list, profile, station, with_stations,
)
from tests.support.pages import TWIN, page_of, press, read, shown_text, site_folder
from tests.support.published import package_faults
from tests.support.scripts import module
from tests.support.shown import shows_well
from tests.support.site import SiteCase

press_rounds, press_site = module("press"), module("press_site")
press_templates = module("press_templates")

PLACES = ('station,name,place\nn1,"School <old>, hall",Ribera\nn2,Hall,Monte Alto\n'
          'e1,Town hall,Alcañiz\ns1,School,Ribera\no1,,Getafe\no2,,Getafe\n')

# Where the last quotients are equal, by hand: the method and its lots, seats, votes of A, B and C,
# the order of a lot, and what the page says of the last seat and of the lot.
LOT_OF = "Exactly as high was the next quotient of {}: a lot decided."
VOTES_OF = ("Exactly as high was the next quotient of {}, with fewer votes in all: of equal "
            "quotients the list with more votes gets the seat.")
TIED = "{} tied for the last seat; the lot gave it to {}."
EQUALS = {
    # 30 : 3 and 10
    "votes": ("dhondt", "fixed", 3, [30, 10, 1], [], [VOTES_OF.format("B")]),
    "votes of two": ("dhondt", "fixed", 3, [30, 10, 10], [], [VOTES_OF.format("B, C")]),
    # the third seat is A's by votes, 30 : 3; the fourth is of B or C
    "lot below votes": ("dhondt", "fixed", 4, [30, 10, 10], ["C", "B"],
                        [LOT_OF.format("B"), TIED.format("B and C", "C")]),
    # 30 : 3 of A and of B, and 10 of C
    "lot and votes": ("dhondt", "fixed", 5, [30, 30, 10], ["B", "A"],
                      [LOT_OF.format("A"), VOTES_OF.format("C"), TIED.format("A and B", "B")]),
    # of the second seat the order is turned round
    "turned lot": ("dhondt", "alternating", 3, [100, 100, 1], ["B", "A"],
                   [LOT_OF.format("B"), TIED.format("A and B", "A")]),
    # 30 : 3 and 10
    "Sainte-Laguë": ("sainte-lague", "fixed", 2, [30, 10, 1], [], [VOTES_OF.format("B")]),
    # 150 : 3 and 70 : 1.4
    "modified": ("modified-sainte-lague", "fixed", 2, [150, 70, 1], [], [VOTES_OF.format("B")]),
    # 3 x 2 and 1 x 2 over 4 leave 2 each; of 1, 1 and 2 votes all leave 2 or 0
    "remainders by votes": ("hare", "fixed", 2, [3, 1, 0], [], []),
    "remainders by lot": ("hare", "fixed", 2, [1, 1, 2], ["B", "A"], []),
}


class Places(SiteCase):
    def test_the_places_of_a_constituency(self):
        """Their votes are those of their closed stations, by hand; a page each and a table of all
        are linked from that of the constituency. No seat is on them."""
        with four() as (_, port):
            press(port, "--setup", "setup.toml", *site_folder(stations=PLACES))
        # Ribera 60, 50, 5 and 5 blank; in Monte Alto two have 40.
        found = page_of("places-norte-1.html").tables
        self.assertEqual(
            found["Towns, and the list with the most votes in each"], [
             ["Town", "first list", "valid votes", "counted"],
             ["Monte Alto", "–", "80", "100.00%"], ["Ribera", "A 50.00%", "120", "100.00%"]])
        self.assertEqual(read("places-norte.csv"),
                         "place,stations,closed,electors,blank,spoiled,A,B,C\n"
                         "Ribera,1,1,500,5,1,60,50,5\nMonte Alto,1,1,500,0,2,40,40,0\n")
        page, text = page_of("place-norte-1.html"), shown_text(read("place-norte-1.html"))
        self.assertEqual(page.tables["Votes of each list here"], [
            ["List", "votes", "share"], ["A Alpha", "60", "50.00%"], ["B Beta", "50", "41.67%"],
            ["C Gamma", "5", "4.17%"], ["Blank votes", "5", "4.17%"]])
        self.assertEqual(page.tables["Returns station by station"][1:], [
            ["n1 School <old>, hall", "500", "60", "50", "5", "5", "1"]])
        for sentence in ("\u2068Alpha\u2069 has the most votes here, 50.00%.", "Turnout: 24.20%.",
                         "Valid votes 120, including 5 blank; spoiled 1."):
            with self.subTest(sentence=sentence):
                self.assertIn(sentence, text)
        self.assertIn("\u2068Alpha\u2069 and \u2068Beta\u2069 have as many votes here, 50.00% "
                      "each.", shown_text(read("place-norte-2.html")))
        text = shown_text(read("place-oeste-1.html"))
        self.assertIn("50.00% of the polling stations are counted, 1 of 2.", text)
        self.assertIn("leads with 90.00% of the votes counted", text)
        self.assertIn('<a href="places-oeste-1.html">Town by town</a>', read("con-oeste.html"))
        self.assertIn('<tr id="n1">', read("stations-norte-1.html"))
        for name in os.listdir("pages"):
            if re.match(r"places?-.*\.html$", name):
                with self.subTest(name=name):
                    page_of(name)
                    self.assertEqual(re.findall("(?i)provisional|certified seats", read(name)), [])
        self.assertEqual(package_faults(), [])

    def test_places_before_the_count_and_of_another_folder(self):
        """Before the first closed return each place is there, and nothing is counted. Without
        places in the folder of the site, or without the setup, there is no such page."""
        setup = setup_of_four()
        Path("setup.toml").write_text(setup, encoding="utf-8")
        with modelled(setup) as (_, port):
            press(port, "--setup", "setup.toml", *site_folder(stations=PLACES))
            text = shown_text(read("place-norte-1.html"))
            self.assertIn("No polling station is counted yet.", text)
            self.assertNotIn("leads", text)
            self.assertIn('href="places-norte-1.html"', read("con-norte.html"))
            press(port, "--setup", "setup.toml", *site_folder(stations="station,name\nn1,School\n"))
            self.assertEqual([name for name in os.listdir("pages") if name.startswith("place")], [])
            self.assertNotIn("places-", read("con-norte.html"))
            press(port, *site_folder(stations=PLACES))
            self.assertEqual([name for name in os.listdir("pages") if name.startswith("place")], [])

    def test_a_page_of_a_place_is_made_where_it_changes(self):
        """A return changes the pages of its own place, in each language: no other one is made, also
        where two lists change their order in the constituency. After a round without an answer all
        are made again, without the line that says how old they are."""
        setup, many = with_stations(12), 12
        Path("setup.toml").write_text(setup, encoding="utf-8")
        names = "".join(f"s{n},Hall {n},Town {n}\n" for n in range(1, many + 1))
        site_folder(stations=f"station,name,place\n{names}", site='languages = ["es"]\n')
        made, folder, seen = [], Path("pages"), press_rounds.Seen()
        site = press_site.Site(Path("site"))
        entries = {one["code"]: one for one in press_rounds.read_setup(Path("setup.toml"))}
        folder.mkdir()
        (folder / "es").mkdir()

        class Made(press_templates.Templates):
            def page(self, name, /, **values):
                made.append(name)
                return super().page(name, **values)

        def files():
            return {file: file.stat().st_ino for file in folder.rglob("place-*.html")}

        def round_of(office):
            """How many pages of places were made, and how many files of them written."""
            made.clear()
            before = files()
            _, failures = press_rounds.write_all([office], folder, site, entries, seen)
            now = files()
            written = sum(before.get(file) != number for file, number in now.items())
            return made.count("place.html") > 0, written, failures

        site.templates.__class__ = site.others[0].templates.__class__ = Made
        with modelled(setup) as (desk, port):
            office = press_rounds.Office(f"http://127.0.0.1:{port}")
            self.assertEqual(round_of(office), (True, 2 * many, []))
            self.assertEqual(round_of(office), (False, 0, []))
            for n, votes in enumerate(([10, 5], [10, 20], [30, 10], [5, 40]), 1):
                done(desk, f"/station/s{n}/lodge",
                     {"slip": "p1", "votes": votes, "blank": 0, "spoiled": 0})
                # With the first return stations get a state, with the first closed one a link.
                self.assertEqual(round_of(office)[1], 2 if n > 1 else 2 * many)
                done(desk, f"/station/s{n}/close", {"rev": 1})
                self.assertEqual(round_of(office)[1], 2 if n > 1 else 2 * many)
                if n > 1:
                    # Each is made with the moment of before, and then with its own.
                    self.assertEqual(made.count("place.html"), 4)
            nobody = press_rounds.Office("http://127.0.0.1:1")
            self.assertEqual(round_of(nobody)[1], 2 * many)
            self.assertIn("This page could not be renewed", read("place-c1-7.html"))
            self.assertEqual(round_of(office)[1:], (2 * many, []))
            self.assertNotIn("This page could not be renewed", read("place-c1-7.html"))

    def test_a_constituency_that_is_none_of_the_election(self):
        """Its pages say that they are withdrawn, in each language, and show no result; its files
        for programs are gone. Where an office gives no answer, or the setup has it, all stays."""
        setup = setup_of_four()
        Path("setup.toml").write_text(setup, encoding="utf-8")
        words = ("--setup", "setup.toml", *site_folder(stations=PLACES, site=(
            'languages = ["es"]\n')))
        with four() as (_, port):
            press(port, *words)
        own = [name for name in os.listdir("pages") if re.search("norte|oeste", name)]
        self.assertLessEqual(
            {"con-norte.html", "embed-norte.html", "con-norte.json", "con-norte.csv",
             "places-norte.csv", "place-norte-1.html", "places-norte-1.html",
             "stations-norte-1.html", "stations-norte-2.csv", "stations-oeste-open.csv"}, set(own))
        before = {name: read(name) for name in own if not name.endswith(".gz")}
        with answering_desk(TWIN) as (port, _):
            # The setup has these constituencies still: the office is another one.
            press(port, *words, status=1)
            self.assertEqual([name for name in before if 'class="old"' not in read(name)],
                             [name for name in before if not name.endswith(".html")])
            self.assertIn("Alpha", shown_text(read("con-norte.html")))
            Path("setup.toml").write_text(with_stations(1), encoding="utf-8")
            # A page of the board's own, whose name is like that of a constituency.
            for name in ("con-tact.html", "con-tact.csv"):
                Path("pages", name).write_text("ours", encoding="utf-8")
            with answering_desk({"/results": 503}) as (other, _):
                press(other, *words, status=1)
            self.assertIn("Alpha", shown_text(read("con-norte.html")))
            press(port, *words)
        left = {name for name in own if Path("pages", name).exists()}
        self.assertEqual({name.removesuffix(".gz") for name in left},
                         {name for name in before if name.endswith(".html")})
        said = {"pages": "The constituency of this page is not part of the election that is "
                         "published here. What the page said before is withdrawn.",
                "pages/es": "La circunscripción de esta página no forma parte de la elección que "
                            "aquí se publica. Lo que la página decía antes queda retirado."}
        for folder, words_there in said.items():
            for name in sorted(name for name in left if name.endswith(".html")):
                with self.subTest(folder=folder, name=name):
                    text = read(name, folder)
                    self.assertIn(words_there, shown_text(text))
                    self.assertEqual([said for said in ('href="index.html"', "Alpha", "Norte",
                                                        "Ribera", "<td") if said in text],
                                     ['href="index.html"'])
                    for file in (Path(folder, name), Path(folder, f"{name}.gz")):
                        self.assertTrue(file.exists())
        self.assertEqual([read(name) for name in ("con-tact.html", "con-tact.csv")], ["ours"] * 2)
        files = json.loads(read("manifest.json"))["files"]
        self.assertEqual([name for name in files if "norte" in name and ".html" not in name], [])
        self.assertIn("Alpha", read("con-c1.html"))
        # Once it is there again, its pages are what they were.
        Path("setup.toml").write_text(setup, encoding="utf-8")
        with four() as (_, port):
            press(port, *words)
        self.assertIn("Alpha", shown_text(read("con-norte.html")))
        self.assertTrue(Path("pages/con-norte.csv").exists())

    def test_pages_of_the_board_beside_these(self):
        """Where the office gives no answer the pages say how old they are, whatever else is in the
        folder."""
        with answering_desk(TWIN) as (port, _):
            press(port)
        own = {"notice.html": b"<p>closed on Monday</p>", "old.html": "Alcañiz".encode("latin-1")}
        for name, data in own.items():
            Path("pages", name).write_bytes(data)
        with answering_desk({"/results": 503}) as (port, _):
            press(port, status=1)
        self.assertIn("This page could not be renewed", read("con-c1.html"))
        self.assertIn("This page could not be renewed", read("index.html"))
        self.assertEqual({name: Path("pages", name).read_bytes() for name in own}, own)

    def test_lists_with_as_many_votes_in_a_place(self):
        """They are in the order of the setup, whichever has more in the constituency; the columns
        of its stations have the order of its own votes."""
        setup = with_stations(2)
        Path("setup.toml").write_text(setup, encoding="utf-8")
        with modelled(setup) as (desk, port):
            for code, votes in (("s1", [7, 7]), ("s2", [10, 20])):
                done(desk, f"/station/{code}/lodge",
                     {"slip": "p1", "votes": votes, "blank": 0, "spoiled": 0})
                done(desk, f"/station/{code}/close", {"rev": 1})
            press(port, "--setup", "setup.toml",
                  *site_folder(stations="station,name,place\ns1,,Ribera\ns2,,Getafe\n"))
        for name, lists in (("place-c1-1.html", ["A", "B"]), ("place-c1-2.html", ["B", "A"])):
            with self.subTest(name=name):
                tables = page_of(name).tables
                rows = tables["Votes of each list here"][1:]
                self.assertEqual([row[0] for row in rows][-1:], ["Blank votes"])
                self.assertEqual([row[0][:1] for row in rows[:-1]], lists)
                heads = tables["Returns station by station"][0]
                self.assertEqual([head for head in heads if head in ("A", "B")], lists)

    def test_the_names_that_the_first_page_finds(self):
        with four() as (_, port):
            press(port, "--setup", "setup.toml", *site_folder(stations=PLACES))
            found = json.loads(read("find.json"))["constituencies"]
            self.assertEqual(found[1], {
                "con": "norte", "name": "Norte", "places": ["Ribera", "Monte Alto"],
                "stations": ["n1", "n2"], "names": ["School <old>, hall", "Hall"], "starts": [0]})
            self.assertEqual([con["name"] for con in found], ["Este", "Norte", "Óeste <3>", "Sur"])
            press(port, folder="without")
        self.assertEqual(json.loads(read("find.json", "without"))["constituencies"][1], {
            "con": "norte", "name": "Norte", "places": [], "stations": [], "names": [],
            "starts": []})


class Lists(SiteCase):
    def test_the_page_of_a_list(self):
        """Its votes and seats in each constituency, and its elected, by hand; provisional seats
        have their word."""
        with four() as (_, port):
            press(port, "--setup", "setup.toml", *site_folder(before=FOUR_BEFORE))
        page, text = page_of("list-B.html"), shown_text(read("list-B.html"))
        self.assertEqual(page.tables["Votes and seats of this list in each constituency"], [
            ["Constituency", "certified seats", "provisional seats", "votes", "share"],
            ["Este", "2", "–", "80", "66.67%"], ["Norte", "1", "–", "90", "45.00%"],
            ["Óeste <3>", "–", "0 provisional", "3", "3.00%"],
            ["Sur", "–", "2 provisional", "20", "66.67%"]])
        self.assertEqual(page.tables["Holders of seats"], [
            ["name", "place", "Constituency"], ["B1", "1", "Este"], ["B2", "2", "Este"],
            ["B1", "1", "Norte"]])
        for sentence in ("193 votes, 42.89% of the valid votes, including blank votes.",
                         "Certified: 3 of the 5 seats that are certified so far, of 10 in all.",
                         # One of two stations of Óeste, and that of Sur.
                         "Provisional: 2 seats, in constituencies with 2 of 3 polling stations "
                         "counted (66.67%). These seats are not the result, and may still change.",
                         "Not final: of the 10 seats of all lists, 5 not certified yet",
                         "Certified seats: B 3 Further seats, provisional: B 2"):
            with self.subTest(sentence=sentence):
                self.assertIn(sentence, text)
        self.assertNotIn("Holders of seats", page_of("list-D.html").tables)
        for name in ("index.html", "con-norte.html"):
            with self.subTest(name=name):
                self.assertIn('<a class="to-list" href="list-B.html">', read(name))

    def test_the_elected(self):
        with four() as (office, port):
            done(office, "/con/este/vacate", {"list": "B", "place": 2, "note": "gone"})
            press(port, "--setup", "setup.toml")
            self.assertEqual(page_of("elected-1.html").tables["Holders of seats"], [
                ["name", "List", "place", "Constituency"], ["B1", "B", "1", "Este"],
                ["B3", "B", "3", "Este"], ["A1", "A", "1", "Norte"], ["A2", "A", "2", "Norte"],
                ["B1", "B", "1", "Norte"]])
            self.assertEqual(read("elected.csv").splitlines()[:3], [
                "con,con_name,list,seat,order,candidate", "este,Este,B,1,1,B1",
                "este,Este,B,2,3,B3"])
            self.assertIn('href="elected-1.html"', read("index.html"))
            self.assertEqual(package_faults(), [])
            # Once no certificate is in force nobody is elected; a list that is gone has no page.
            for code, edition in (("norte", 2), ("este", 2)):
                done(office, f"/con/{code}/reopen", {"edition": edition, "note": "a recount"})
            press(port, "--setup", "setup.toml")
            self.assertFalse(Path("pages/elected-1.html").exists())
            self.assertNotIn("elected-1.html", read("index.html"))
        with answering_desk(TWIN) as (port, _):
            press(port)
        self.assertEqual([Path(f"pages/list-{code}.html").exists() for code in "ABCD"],
                         [True, True, False, False])

    def test_why_the_last_seat_is_where_it_is(self):
        """By hand: the last quotient, the next one, and who lacked the fewest votes and from whom
        it would have had the seat; and where a lot decided."""
        with four() as (_, port):
            press(port, "--setup", "setup.toml")
        with answering_desk(TWIN) as (port, _):
            press(port, folder="twin")
        setup = with_stations(1).replace(PROFILE, profile("d0", "modified-sainte-lague"))
        with modelled(setup) as (office, port):
            done(office, "/station/s1/lodge",
                 {"slip": "p1", "votes": [100, 40], "blank": 0, "spoiled": 0})
            done(office, "/station/s1/close", {"rev": 1})
            done(office, "/con/c1/certify", {"edition": 1})
            press(port, folder="modified")
        for folder, name, sentences in (
            ("pages", "con-norte.html", (
                "Seat 3, the last, went to A: 100 votes divided by 2 are 50.",
                "The next highest quotient was that of B: 90 divided by 2 are 45.",
                "B lacked the fewest votes for one seat more: 11. With these and the same other "
                "votes, A would have one fewer.")),
            ("twin", "con-c1.html", (
                "Seat 3, the last, went to B: 100 votes divided by 2 are 50.",
                "Exactly as high was the next quotient of A: a lot decided.",
                "A lacked the fewest votes for one seat more: 1.")),
            # 100 : 1.4 and 100 : 3, then 40 : 1.4 before 100 : 5
            ("modified", "con-c1.html", (
                "Seat 3, the last, went to B: 40 votes divided by 1.4 are 28.",
                "The next highest quotient was that of A: 100 divided by 5 are 20."))):
            for sentence in sentences:
                with self.subTest(folder=folder, sentence=sentence):
                    self.assertIn(sentence, shown_text(read(name, folder)))
        self.assertNotIn("The last seat", read("con-oeste.html"))

    def test_which_equal_quotients_a_lot_decided(self):
        """A lot decides among lists of as many votes alone: of equal quotients the list with more
        votes has the seat, and is none of those that tied. So say the pages of the constituency
        and of the country, and its part for other sites; of remainders nothing is said."""
        for case, (method, lots, seats, votes, lot, said) in EQUALS.items():
            setup = f'{profile("d0", method)}lot = "{lots}"\n' + constituency(
                "c1", "Twin Town", seats, "d0") + "".join(
                    party_list(code, name, "Ana", "Bea") for code, name in (
                        ("A", "Alpha"), ("B", "Beta"), ("C", "Gamma"))) + station("s1")
            Path("setup.toml").write_text(setup, encoding="utf-8")
            with self.subTest(case=case), modelled(setup) as (office, port):
                done(office, "/station/s1/lodge",
                     {"slip": "p1", "votes": votes, "blank": 0, "spoiled": 0})
                done(office, "/station/s1/close", {"rev": 1})
                if lot:
                    done(office, "/con/c1/draw", {"edition": 1, "order": lot})
                done(office, "/con/c1/certify", {"edition": 2 if lot else 1})
                press(port, "--setup", "setup.toml", *site_folder(site='languages = ["es"]\n'))
                text, spanish = (shown_text(read("con-c1.html", folder))
                                 for folder in ("pages", "pages/es"))
                self.assertEqual("con menos votos en total: a igual cociente" in spanish,
                                 any("fewer votes in all" in sentence for sentence in said))
                # (a sentence on a lot is also under the title)
                found = re.findall("Exactly as high [^.]*[.]|[A-C] and [A-C] tied [^.]*[.]", text)
                self.assertEqual(sorted({*found}), sorted(said))
                tied = [sentence for sentence in said if "tied" in sentence]
                for name in ("index", "embed-c1"):
                    text = shown_text(read(f"{name}.html"))
                    self.assertEqual(re.findall("[A-C] and [A-C] tied [^.]*[.]", text), tied)


class Shown(SiteCase):
    @needs("chromium")
    def test_how_these_pages_are_shown(self):
        """Well at 320 and 360 points and on a desk; and no name of a stacked table is broken within
        a word on a phone."""
        broken = ("return [...document.querySelectorAll('.stacked .name, .stacked th a')].filter("
                  "(e) => { const range = document.createRange(); const node = (function text(n) { "
                  "return n.nodeType === 3 ? n : [...n.childNodes].map(text).find(Boolean); })(e); "
                  "return node && [...node.data.matchAll(/\\S+/g)].some((word) => { "
                  "range.setStart(node, word.index); "
                  "range.setEnd(node, word.index + word[0].length); "
                  "return range.getClientRects().length > 1; }); }).map((e) => e.textContent)")
        with four() as (_, port):
            names = {"Alpha": "Unión Democrática del Archipiélago",
                     "Norte": "Sant Cugat del Vallès"}
            press(port, "--setup", "setup.toml", *site_folder(stations=PLACES, site=(
                'language = "es"\n')), folder="four")
        for old, new in names.items():
            for file in Path("four").glob("*.html"):
                file.write_text(file.read_text(encoding="utf-8").replace(old, new),
                                encoding="utf-8")
        with browser.tab() as it:
            for file in ("index", "con-norte", "con-oeste", "place-norte-1", "places-norte-1",
                         "list-B", "elected-1", "embed", "embed-oeste"):
                with self.subTest(file=file):
                    it.open((Path.cwd() / f"four/{file}.html").as_uri())
                    shows_well(it, f"places-{file}")
                    for width in (320, 360):
                        it.size(width, 700, False)
                        self.assertEqual(it.run(broken), [], (file, width))
