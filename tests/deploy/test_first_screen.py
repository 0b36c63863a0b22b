"""The first screen of the press pages of an evening: what is counted, who has how many seats so
far and what they are, and what is missing."""

import re
from pathlib import Path

from tests.support import browser
from tests.support.case import needs
from tests.support.countries import count_level, four, level_setup, setup_of_four
from tests.support.desks import answering_desk, done, modelled
from tests.support.office import constituency, party_list, station
from tests.support.pages import (
    RESULT, TWIN, page_of, press, read, results_of, shown_text, site_folder,
)
from tests.support.scripts import module
from tests.support.site import SiteCase

press_head, press_site = module("press_head"), module("press_site")

SPANISH = 'language = "es"\n'


def header(name, folder="pages"):
    """The text under the title of a page, in its order."""
    text = read(name, folder)
    return shown_text(text[text.index("<h1>"):text.index('<p class="moment">')]).strip()


class FirstScreen(SiteCase):
    def in_order(self, text, *parts):
        """These are in the text, one after the other."""
        places = [text.find(part) for part in parts]
        self.assertEqual((sorted(places), min(places) >= 0), (places, True), (parts, text))

    def test_while_the_count_goes_on(self):
        """First comes that the result is not final, and how much is counted; then the certified
        seats and the provisional ones, each in a line of their own, and what each seat waits for
        that is not certified, with the reason of a reopening; then the votes. The table of the
        seats comes before the bars."""
        with four() as (office, port):
            press(port, "--setup", "setup.toml")
            press(port, "--setup", "setup.toml", *site_folder(site=SPANISH), folder="es")
            done(office, "/station/o2/lodge",
                 {"slip": "p2", "votes": [0, 0, 1], "blank": 0, "spoiled": 0})
            done(office, "/station/o2/close", {"rev": 1})
            press(port, "--setup", "setup.toml", folder="all")
        self.in_order(header("index.html", "all"), "All 6 polling stations are counted.",
                      "Sur was certified", "all votes are counted in Óeste")
        # Not of Sur, whose certificate is withdrawn.
        self.assertEqual(
            re.findall("(?i)[^.]*(?:all votes are counted|until the board)[^.]*[.]",
                       shown_text(read("index.html", "all"))),
            [" 3 seats: all votes are counted in Óeste &lt;3&gt;; the board has not certified "
             "yet."])
        self.in_order(header("index.html"), "Not final: 5 of 10 seats not certified yet",
                      "83.33% of the polling stations are counted, 5 of 6.",
                      "Certified, 5 of 10 seats: B 3 A 2",
                      "Further seats, provisional, 5 of 10: D 3 B 2",
                      "6 of 10 seats are a majority: nobody has it yet in certified seats.",
                      "Not certified, 5 of 10 seats:",
                      "2 seats: Sur was certified and is reopened; they may still change, and "
                      "then the board certifies again. Reason: a recount.",
                      "3 seats: the count goes on in Óeste &lt;3&gt; (50.00% counted).",
                      "\u2068Beta\u2069 leads with 42.89% of the votes counted")
        self.in_order(header("con-sur.html"), "Not final: certificate withdrawn",
                      "The only polling station is counted.",
                      "Sur was certified and is reopened: its 2 seats are provisional again.",
                      "Provisional seats: B 2", "Reopened: votes and seats may still "
                      "change, and then the board certifies again.", "has the most votes")
        for name, sentence in (
                ("pages/con-sur", "Certificate withdrawn. Reopened: votes and seats may still "
                 "change, and then the board certifies again."),
                ("pages/embed-sur", "Reopened: votes and seats may still change, and then the "
                 "board certifies again."),
                ("es/con-sur", "Reabierta: votos y escaños aún pueden cambiar; después la Junta "
                 "volverá a proclamar el resultado.")):
            with self.subTest(name=name):
                text = shown_text(read(f"{name}.html", "."))
                self.assertIn(sentence, text)
                self.assertEqual(re.findall("(?i)until the board|has not certified|hasta que la "
                                            "Junta|all votes are counted", text), [])
        self.in_order(header("con-oeste.html"), "Not final: no certificate yet",
                      "50.00% of the polling stations are counted, 1 of 2.",
                      "Provisional seats: D 3",
                      "3 seats; the count goes on, and none is certified.", "leads with")
        self.in_order(header("con-norte.html"), "Final: certified", "has won 2 of 3 seats",
                      "are counted",
                      "Certified seats: A 2 B 1")
        self.assertNotIn("rovisional", header("con-norte.html"))
        self.in_order(header("index.html", "es"), "No definitivo: 5 de 10 escaños sin proclamar",
                      "Escrutado el 83,33 % de las mesas",
                      "Proclamados, 5 de 10 escaños: B 3 A 2",
                      "Otros escaños, provisionales, 5 de 10: D 3 B 2",
                      "Sin proclamar, 5 de 10 escaños:",
                      "2 escaños: Sur tenía el resultado proclamado y se ha reabierto; aún pueden "
                      "cambiar, y después la Junta volverá a proclamarlos. Motivo: a recount.",
                      "3 escaños: sigue el escrutinio en Óeste &lt;3&gt; (50,00 % escrutado).")
        # No line has seats of two kinds, and each is marked as what it is.
        for name, lines in (("index", {"certified": ["B", "A"], "so-far": ["D", "B"]}),
                            ("embed", {"certified": ["B", "A"], "so-far": ["D", "B"]}),
                            ("con-sur", {"so-far": ["B"]}),
                            ("con-norte", {"certified": ["A", "B"]})):
            with self.subTest(name=name):
                found = re.findall('<p class="outlook ([a-z-]+)">(.*)</p>', read(f"{name}.html"))
                self.assertEqual({kind: re.findall("code list-([A-Z])", line)
                                  for kind, line in found}, lines)
        text = read("index.html")
        self.assertLess(text.index("<caption>Seats and votes of each list"),
                        text.index('<figure class="bars"'))

    def test_where_a_lot_is_needed(self):
        """Both lists are named before any seat, in the box and with the votes; neither is
        there as if it had none; and the country says which seat is missing."""
        Path("setup.toml").write_text(level_setup(), encoding="utf-8")
        with modelled(level_setup()) as (office, port):
            count_level(office, ["s1"])
            press(port, "--setup", "setup.toml", folder="half")
            count_level(office, ["s2"])
            press(port, "--setup", "setup.toml")
            press(port, "--setup", "setup.toml", *site_folder(site=SPANISH), folder="es")
        self.in_order(header("con-c1.html", "half"), "If the votes counted so far were all, a lot "
                      "between B and C would decide 1 seat.",
                      "Provisional seats: A 1 So far 1 seat would wait for a lot: B or C")
        self.in_order(header("con-c1.html"), "All 2 polling stations are counted.",
                      "A lot must be drawn between B and C for 1 seat.",
                      "Provisional seats: A 1 1 seat waits for a lot: B or C",
                      "All votes are counted; 1 seat is provisional until the board certifies.",
                      "\u2068Alpha\u2069 has the most votes, 41.67%, 16.67 points and "
                      "2 votes ahead of \u2068Beta\u2069 and \u2068Iris\u2069, who are tied.")
        self.assertIn("No certificate yet. A lot must be drawn between B and C for 1 seat; the "
                      "board can certify after it.", shown_text(read("con-c1.html")))
        [caption] = [one for one in page_of("con-c1.html").tables if one.startswith("Provisional")]
        self.assertEqual([row[1] for row in page_of("con-c1.html").tables[caption][1:]], [
            "1 provisional", "0 provisional and perhaps 1 more by lot",
            "0 provisional and perhaps 1 more by lot", "0 provisional", "1", "2"])
        self.assertIn(">lot 1</text>", read("con-c1.html"))
        self.assertIn('<p class="outlook lot"><b>1 seat waits for a lot:</b> B or C</p>',
                      read("con-c1.html"))
        self.in_order(header("index.html"), "Not final: none of the 2 seats is certified yet",
                      "Provisional, 1 of 2 seats: A 1",
                      "With nobody yet, 1 of 2 seats: 1 waiting for a lot",
                      "2 of 2 seats are a majority: nobody has it yet in certified seats.",
                      "Not certified, 2 of 2 seats: 2 seats: all votes are counted in Soria; a lot "
                      "between B and C must decide 1 of them, and then the board can certify.")
        self.assertEqual(
            page_of("index.html").tables["Constituencies in the order of their names"][1],
            ["Soria no certificate yet, 100.00% counted", "A", "provisional: A 1 lot pending 1"])
        self.in_order(header("con-c1.html", "es"), "Hay que sortear 1 escaño entre B y C.",
                      "Escaños provisionales: A 1 1 escaño pendiente de sorteo: B o C",
                      "más que \u2068Beta\u2069 e \u2068Iris\u2069, empatadas a votos.")
        for name in ("con-c1", "embed-c1"):
            text = shown_text(read(f"{name}.html"))
            self.assertEqual(re.findall("so far", text), [])
            self.assertIn("all votes are counted, and the 1 seat is not the result until the board "
                          "certifies.", text)

    def test_once_all_is_counted(self):
        """The count is over, and so say the words: nobody leads, and what is missing is the
        board."""
        Path("setup.toml").write_text(level_setup(), encoding="utf-8")
        with modelled(level_setup()) as (office, port):
            count_level(office, ["s1", "s2"])
            done(office, "/con/c1/draw", {"edition": 1, "order": ["C", "B"]})
            press(port, "--setup", "setup.toml")
            done(office, "/con/c1/certify", {"edition": 2})
            press(port, "--setup", "setup.toml", folder="certified")
            press(port, "--setup", "setup.toml", *site_folder(site=SPANISH), folder="es")
        for folder, said in (
                ("certified", "B and C tied for the last seat; the lot gave it to C. A lot was "
                              "drawn, in this order: C, then B."),
                ("es", "B y C empataban por el último escaño; el sorteo se lo dio a C.")):
            self.assertIn(said, shown_text(read("con-c1.html", folder)))
            self.assertIn(said.split(". ")[0], shown_text(read("embed-c1.html", folder)))
            # Which seats a lot decided is said of the country too.
            self.in_order(header("index.html", folder), f"Soria: {said.split('. ')[0]}")
        for name, seats, waits in (
                ("index.html", "Provisional, 2 of 2 seats: A 1 C 1", "2 seats: all votes are "
                 "counted in Soria; the board has not certified yet."),
                ("con-c1.html", "Provisional seats: A 1 C 1", "All votes are counted; 2 seats are "
                 "provisional until the board certifies.")):
            with self.subTest(name=name):
                text = shown_text(read(name))
                self.assertEqual(re.findall("leads|so far were|may still change", text), [])
                self.in_order(header(name), "All 2 polling stations are counted.", seats, waits,
                              "has the most votes")

    def test_before_the_count(self):
        """The number of seats is there, and which have no count; no list is said to take no part,
        and no bar is drawn."""
        Path("setup.toml").write_text(setup_of_four(), encoding="utf-8")
        with modelled(setup_of_four()) as (_, port):
            press(port, "--setup", "setup.toml")
        self.in_order(header("index.html"), "No polling station is counted yet.",
                      "Not certified, 10 of 10 seats: 10 seats: nothing is counted yet in ")
        self.in_order(header("con-norte.html"), "No polling station is counted yet.",
                      "3 seats, which nobody has yet.")
        page, text = page_of("con-norte.html"), read("con-norte.html")
        self.assertEqual([row[3] for row in page.tables["Votes of each list"][1:]], ["–"] * 3)
        self.assertEqual((page.figures, "Not all votes" in text), (0, False))
        self.assertEqual(
            page_of("index.html").tables["Constituencies in the order of their names"][1],
            ["Este no certificate yet, 0.00% counted", "–", "no count yet 2"])

    def test_seats_that_are_nobodys_have_words_of_their_own(self):
        """Seats without a count, those that a lot decides and those that are not certified are
        named apart."""
        setup = level_setup() + constituency("c2", "Ávila", 3, "d0") + party_list(
            "A", "Alpha", "Ana") + station("s3", 500)
        Path("setup.toml").write_text(setup, encoding="utf-8")
        with modelled(setup) as (office, port):
            count_level(office, ["s1"])
            press(port, "--setup", "setup.toml")
            press(port, "--setup", "setup.toml", *site_folder(site="provisional = false\n"),
                  folder="none")
        self.assertEqual(sorted(re.findall("<text [^>]*>([^<]*)</text>", read("index.html"))),
                         ["5", "A 1", "lot 1", "no count 3"])
        text = shown_text(read("index.html"))
        for sentence in ("Provisional, 1 of 5 seats: A 1", "With nobody yet, 4 of 5 seats: 1 "
                         "waiting for a lot and 3 with no count yet",
                         "Not certified, 5 of 5 seats:", "Not certified: 5.",
                         "2 seats: the count goes on in Soria (50.00% counted).",
                         "3 seats: nothing is counted yet in Ávila.", "Small grey ones are"):
            with self.subTest(sentence=sentence):
                self.assertIn(sentence, text)
        self.assertEqual(re.findall(r"(?i)\bopen\b", text), [])
        self.in_order(header("index.html", "none"), "Not certified, 5 of 5 seats:",
                      "2 seats: the count goes on in Soria", "3 seats: nothing is counted yet")

    def test_lists_with_as_many_seats(self):
        """Of lists with as many seats, provisional or certified, that with more votes is first:
        in the line of the seats, the half circle, the tables, and the part for other sites."""
        lists = [{"code": code, "name": f"List {code}", "votes": votes, "eligible": True,
                  "seats": many, "provisional": many, "short": None}
                 for code, votes, many in (("A", 10, 1), ("B", 30, 1), ("C", 20, 1), ("D", 40, 2))]
        certified = RESULT | {"lists": lists, "seats": 5, "awards": [], "quota": [], "holders": [],
                              "method": "hare", "lot": []}
        provisional = certified | {"certified": False, "status": "open",
                                   "lists": [row | {"seats": None} for row in lists]}
        for folder, result in (("certified", certified), ("provisional", provisional)):
            with answering_desk(TWIN | results_of(result)) as (port, _):
                press(port, folder=folder)
            for name in ("index", "con-c1"):
                with self.subTest(folder=folder, name=name):
                    self.assertIn("D 2 B 1 C 1 A 1", header(f"{name}.html", folder))
            for name in ("index", "con-c1", "embed-c1"):
                with self.subTest(folder=folder, name=name):
                    self.assertEqual(re.findall('<g class="list-([A-D])"><path',
                                                read(f"{name}.html", folder)), list("DBCA"))
            row = page_of("index.html", folder).tables["Constituencies in the order of their names"]
            self.assertIn("D 2 B 1 C 1 A 1", row[1][2])
        [table] = [rows for caption, rows in page_of("con-c1.html", "provisional").tables.items()
                   if caption.startswith("Provisional seats")]
        self.assertEqual([row[0][0] for row in table[1:5]], list("DBCA"))

    def test_who_has_won_as_many_seats(self):
        """Each list with the most seats is named, those of more votes first; many are a number."""
        for language, two, three, four_of_them in (
                ("en", "B and A have won 2 of 6", "C, B and A have won 2 of 6",
                 "4 lists have won 2 of 8"),
                ("es", "B y A han obtenido 2 de 6", "C, B y A han obtenido 2 de 6",
                 "4 candidaturas han obtenido 2 de 8")):
            site = press_site.Site(Path(site_folder(site=f'language = "{language}"\n')[1]))
            for seats, said in (([2, 2, 1, 1], two), ([2, 2, 2, 0], three),
                                ([2, 2, 2, 2], four_of_them)):
                with self.subTest(language=language, seats=seats):
                    standings = [press_head.Standing(name, votes, many) for name, votes, many
                                 in zip("ABCD", (10, 20, 30, 40), seats)]
                    for majority in (None, 4):
                        headline = press_head.has_won(site, standings, max(6, sum(seats)), majority)
                        self.assertTrue(re.sub("[\u2068\u2069]", "", headline).replace(
                            "\u00a0", " ").startswith(f"{said} "), headline)

    def test_one_and_many(self):
        """Numbers and their nouns agree, in both languages."""
        for language, one, two in (("en", "1\u00a0vote ahead", "2\u00a0votes ahead"),
                                   ("es", "1\u00a0voto más", "2\u00a0votos más")):
            folder = site_folder(site=f'language = "{language}"\n')[1]
            site = press_site.Site(Path(folder))
            for votes, said in ((6, one), (7, two)):
                with self.subTest(language=language, votes=votes):
                    standings = [press_head.Standing("A", votes), press_head.Standing("B", 5)]
                    self.assertIn(said, press_head.leads(site, standings, votes + 5))
            many = {key: text for key, text in site.words.items()
                    if isinstance(text, list) and "{number}" in "".join(text)}
            self.assertGreater(len(many), 40)
            self.assertEqual({key for key, text in many.items() if len(text) != 2}, set())
        self.assertEqual([site.listed(names) for names in (
            ["PSOC"], ["PSOC", "IU"], ["PSOC", "SUMA", "Hierro"])],
            ["PSOC", "PSOC e IU", "PSOC, SUMA y Hierro"])
        self.assertEqual([site.one_of(names) for names in (
            ["PSOC", "SORIA-YA"], ["PSOC", "Osma"], ["A", "B", "Hoz"])],
            ["PSOC o SORIA-YA", "PSOC u Osma", "A, B u Hoz"])

    @needs("chromium")
    def test_the_pages_on_a_phone(self):
        """No table of the pages of the country and of a constituency is wider than a phone, and no
        number is cut; the first screen has what is counted and the seats."""
        big = [["A", "Alpha", 1_234_567], ["B", "Beta", 1_134_567], ["C", "Gamma", 934_567]]
        lists = [{"code": code, "name": name * 6, "votes": votes, "eligible": True, "seats": many,
                  "provisional": many, "short": None} for (code, name, votes), many
                 in zip(big, (14, 12, 11))]
        first = RESULT | {"lists": lists, "seats": 37, "awards": [], "quota": [], "holders": [],
                          "method": "hare", "lot": []}
        second = first | {"con": "c2", "name": "Castellón", "certified": False, "status": "open",
                          "lists": [row | {"seats": None} for row in lists]}
        cut = ("return [...document.querySelectorAll('.scroll')].filter((e) => e.scrollWidth > "
               "e.clientWidth + 1).map((e) => e.innerText)")
        with answering_desk(TWIN | results_of(first, second)) as (port, _):
            press(port, folder="pages")
            press(port, *site_folder(site=SPANISH), folder="es")
        with browser.tab() as it:
            for folder in ("pages", "es"):
                for name in ("index", "con-c2", "count", "list-A", "embed"):
                    it.open((Path.cwd() / f"{folder}/{name}.html").as_uri())
                    for width in (320, 360):
                        with self.subTest(folder=folder, name=name, width=width):
                            it.size(width, 640)
                            self.assertEqual(it.run(cut), [])
                            self.assertEqual(it.run("return document.documentElement.scrollWidth"),
                                             width)
                            if name in ("index", "con-c2"):
                                ends = it.run("return [...document.querySelectorAll('.counted, "
                                              ".outlook, .missing')].map((e) => "
                                              "e.getBoundingClientRect().bottom)")
                                self.assertEqual((len(ends), max(ends) < 640), (3, True), ends)
