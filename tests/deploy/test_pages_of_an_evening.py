"""The words of the press pages in each state of an evening: seats that add up, the majority, how
much is counted, a constituency that was opened again, and a lot that is needed."""

import json
import os
import re
from datetime import datetime
from pathlib import Path

from tests.support import browser
from tests.support.case import needs
from tests.support.countries import (
    count_four, count_level, four, level_setup, setup_of_four,
)
from tests.support.desks import answering_desk, done, modelled
from tests.support.office import constituency, party_list, profile, station
from tests.support.pages import (
    RESULT, TWIN, page_of, press, read, results_of, shown_text, site_folder,
)
from tests.support.scripts import module
from tests.support.site import SiteCase

press_country, press_head, press_image, press_names, press_results, press_site = map(module, (
    "press_country", "press_head", "press_image", "press_names", "press_results", "press_site"))

SPANISH, NONE = 'language = "es"\n', "provisional = false\n"
# The table of the seats of all, in both languages.
ALL = ("Seats and votes of each list", "Escaños y votos por candidatura")


def adds_up(rows, columns):
    """Whether each of these columns of a table has in its last row the sum of the others."""
    numbers = [[int((re.match(r"\d+", row[column]) or [0])[0]) for row in rows[1:]]
               for column in columns]
    return all(sum(column[:-1]) == column[-1] for column in numbers)


def numbered_setup(places=13):
    """A country whose constituencies and towns have numbers in their names, from the last on."""
    text, names = profile("d0"), ["station,name,place"]
    for n in range(places, 0, -1):
        text += constituency(f"c{n}", f"District {n}", 1, "d0") + party_list("A", "Alpha", "Ana")
        text += "".join(station(f"s{n}-{m}", 500) for m in range(places, 0, -1))
        names += [f"s{n}-{m},School,Town {m}" for m in range(places, 0, -1)]
    return text, "\n".join(names) + "\n"


# What is said of a majority that nobody has in certified seats, and who would have it.
NOBODY_YET = ("nobody has it yet in certified seats.",
              "aún no la tiene nadie en escaños proclamados.")
NOBODY_EVEN = ("nobody has it, with the provisional seats either.",
               "no la tiene nadie, tampoco con los escaños provisionales.")
WOULD = (("with its provisional seats", " would have it."),
         ("con sus escaños provisionales la tendría", "."))


class PagesOfAnEvening(SiteCase):
    def test_a_share_just_below_the_threshold(self):
        """2.995 per cent are 3.00 of a list that takes part, and 2.99 of one that does not; the
        same on each page and in each part that has the share."""
        for threshold, share in ((300, "2.99%"), (0, "3.00%")):
            for many in (1, 2):
                with self.subTest(threshold=threshold, many=many):
                    setup = profile("d", threshold=threshold)
                    for n in range(many):
                        setup += constituency(f"c{n}", f"Town {n}", 1, "d")
                        setup += party_list("A", "Alpha", "Ana") + party_list("B", "Beta", "Bea")
                        setup += station(f"s{n}", 30_000)
                    Path("setup.toml").write_text(setup, encoding="utf-8")
                    with modelled(setup) as (office, port):
                        done(office, "/station/s0/lodge",
                             {"slip": "p1", "votes": [19_401, 599], "blank": 0, "spoiled": 0})
                        done(office, "/station/s0/close", {"rev": 1})
                        press(port, "--setup", "setup.toml")
                    # Of the country no threshold is; but one constituency is the country.
                    of_all = share if many == 1 else "3.00%"
                    for name, wanted in (("con-c0.html", share), ("embed-c0.html", share),
                                         ("list-B.html", share), ("index.html", of_all),
                                         ("embed.html", of_all)):
                        cells = [cell for rows in page_of(name).tables.values() for row in rows
                                 for cell in row if re.match(r"[23]\.\d\d%", cell)]
                        self.assertEqual(set(cells), {wanted}, name)
                    self.assertIn(f"{of_all} of the valid votes", shown_text(read("list-B.html")))
                    # 97.005 are 97.01, and as far from what is shown of the other list.
                    for name, other in (("con-c0.html", share), ("index.html", of_all)):
                        ahead = "94.02" if other == "2.99%" else "94.01"
                        self.assertIn(f"{ahead} points", shown_text(read(name)), name)

    def test_a_list_that_goes_on_on_another_page(self):
        """With two hundred constituencies: each page links the other one. With one it has none."""
        for many, wanted in ((200, ["list-A.html", "lists-A-1.html"]), (1, ["list-A.html"])):
            setup = profile("d0") + "".join(
                constituency(f"c{n}", f"District {n} of the country", 1, "d0")
                + party_list("A", "Alpha", "Ana") + station(f"s{n}") for n in range(many))
            Path("setup.toml").write_text(setup, encoding="utf-8")
            with self.subTest(many=many), modelled(setup) as (_, port):
                press(port, "--setup", "setup.toml", folder=f"pages{many}")
                pages = {file.name: file.read_text(encoding="utf-8")
                         for file in Path(f"pages{many}").glob("list*.html")}
                self.assertEqual(sorted(pages), wanted)
                found = {name: set(re.findall(r'href="(lists?-A(?:-1)?\.html)"', text))
                         for name, text in pages.items()}
                for name in pages:
                    self.assertEqual(found[name] - {"list-A.html"}, {*wanted[1:]} - {name})

    def test_the_rows_of_seats_add_up_to_all(self):
        """In each state seats that nobody has are rows of their own, on the page of the country and
        in the parts for other sites; the last row has all of them."""
        setup = setup_of_four()
        Path("setup.toml").write_text(setup, encoding="utf-8")

        def table(folder, page="index.html", caption=ALL[0]):
            return page_of(page, folder).tables[caption]

        def pages(folder, **site):
            press(port, "--setup", "setup.toml", *(site_folder(**site) if site else ()),
                  folder=folder)
            return table(folder)

        with modelled(setup) as (office, port):
            rows = pages("nothing")
            self.assertEqual([row[:3] for row in rows[-3:]], [
                ["D Delta", "–", "–"], ["Seats with no count yet", "10", "–"],
                ["Total", "10", "–"]])
            done(office, "/station/n1/lodge",
                 {"slip": "p0", "votes": [1, 1, 0], "blank": 0, "spoiled": 0})
            done(office, "/station/n1/close", {"rev": 1})
            rows = pages("first")
            self.assertEqual([row[:2] for row in rows[1:]], [
                ["A Alpha", "1 provisional"], ["B Beta", "1 provisional"],
                ["C Gamma", "0 provisional"], ["D Delta", "–"], ["Seats waiting for a lot", "1"],
                ["Seats with no count yet", "7"], ["Total (all seats)", "10"]])
            press(port, "--setup", "setup.toml", *site_folder(site=SPANISH), folder="es")
            self.assertEqual([row[:2] for row in table("es", caption=ALL[1])[-3:]], [
                ["Escaños pendientes de sorteo", "1"], ["Escaños aún sin escrutinio", "7"],
                ["Total (todos los escaños)", "10"]])
        with modelled(setup) as (office, port):
            count_four(office)
            rows = pages("some")
            self.assertEqual(rows[-1][:4], ["Total", "5", "5 provisional", "10"])
            rows = pages("none", site=NONE)
            self.assertEqual([row[:2] for row in rows[-2:]], [["Seats not certified", "5"],
                                                              ["Total", "10"]])
            done(office, "/con/norte/reopen", {"edition": 2, "note": "a recount"})
            done(office, "/con/este/reopen", {"edition": 2, "note": "a recount"})
            self.assertEqual(pages("reopened")[-1][:2], ["Total", "10 provisional"])
        for folder in ("nothing", "first", "some", "none", "reopened"):
            for page in ("index.html", "embed.html"):
                with self.subTest(folder=folder, page=page):
                    rows = table(folder, page)
                    self.assertEqual(adds_up(rows, range(1, len(rows[0]) - 2)), True, rows)
                    self.assertEqual(rows[-1][len(rows[0]) - 3].split()[0], "10")
            for code, seats in (("norte", "3"), ("este", "2"), ("sur", "2"), ("oeste", "3")):
                with self.subTest(folder=folder, code=code):
                    rows = table(folder, f"embed-{code}.html")
                    self.assertEqual(rows[-1][1].split()[0], seats)
                    self.assertEqual(rows[1][1] == "–" or adds_up(rows, [1]), True, rows)

    def test_the_majority_in_words(self):
        """Who has it is said of certified seats alone; of these with the provisional ones, that
        somebody would."""
        sites = {language: press_site.Site(Path(site_folder(
            site=f'language = "{language}"\n')[1])) for language in ("en", "es")}
        for seats, more, whole, english, spanish in (
                ((0, 0), (0, 0), False, *NOBODY_YET),
                ((3, 2), (2, 2), False, *NOBODY_YET),
                ((3, 2), (2, 3), False, *NOBODY_EVEN),
                ((3, 1), (3, 3), False, *(f"{said[:-1]}; {more} A{end}" for said, (more, end)
                                          in zip(NOBODY_YET, WOULD))),
                ((1, 3), (1, 5), False, *(f"{said[:-1]}; {more} B{end}" for said, (more, end)
                                          in zip(NOBODY_YET, WOULD))),
                ((6, 1), (0, 3), False, "A has it.", "la tiene A."),
                ((5, 5), (0, 0), True, "nobody has it.", "no la tiene nadie."),
                ((6, 4), (0, 0), True, "A has it.", "la tiene A.")):
            parties = [press_country.Party(code, code, seats=of, provisional=so_far)
                       for code, of, so_far in zip("AB", seats, more)]
            # (all is counted: a seat that nobody has waits for a lot)
            country = press_country.Country(parties, chamber=10, cons=2, certified=sum(seats),
                                            provisional=sum(more),
                                            certified_cons=2 if whole else 1)
            for language, said in (
                    ("en", f"6 of 10 seats are a majority: {english}"),
                    ("es", f"La mayoría absoluta son 6 de 10 escaños: {spanish}")):
                with self.subTest(seats=seats, more=more, whole=whole, language=language):
                    self.assertEqual(
                        shown_text(press_head.majority_said(sites[language], country)), said)
        for chamber in (0, 1):
            with self.subTest(chamber=chamber):
                self.assertIsNone(press_head.majority_said(
                    sites["en"], press_country.Country(chamber=chamber)))
        with four() as (_, port):
            press(port, "--setup", "setup.toml")
        for page in ("index.html", "count.html", "embed.html"):
            with self.subTest(page=page):
                self.assertIn(f'<p class="of-majority">6 of 10 seats are a majority: '
                              f'{NOBODY_YET[0]}</p>', read(page))
        self.assertNotIn('class="of-majority"', read("con-norte.html"))

    def test_of_which_constituencies_the_closest_seats_are(self):
        with four() as (office, port):
            press(port, "--setup", "setup.toml")
            press(port, "--setup", "setup.toml", *site_folder(site=SPANISH), folder="es")
            done(office, "/con/sur/certify", {"edition": 3})
            done(office, "/station/o2/lodge",
                 {"slip": "p2", "votes": [0, 0, 1], "blank": 0, "spoiled": 0})
            done(office, "/station/o2/close", {"rev": 1})
            done(office, "/con/oeste/certify", {"edition": 1})
            press(port, "--setup", "setup.toml", folder="all")
        for folder, heading, more in (
                ("pages", "The closest seats in the 2 constituencies that are certified",
                 "Only certified constituencies are here, 2 of 4; in the others a seat may be "
                 "closer."),
                ("es", "Los escaños más reñidos en las 2 circunscripciones ya proclamadas",
                 "Solo figuran las circunscripciones con resultado proclamado, 2 de 4;"),
                ("all", "The closest seats", None)):
            with self.subTest(folder=folder):
                text = read("index.html", folder)
                self.assertIn(f"<h2>{heading}</h2>", text)
                self.assertEqual(more is not None and more in text, more is not None)
        self.assertNotIn("Only certified", read("index.html", "all"))

    def test_how_much_is_counted(self):
        """It is rounded half up, but all is only where all is counted, and nothing where nothing
        is: on the pages, in the feed, in the parts for other sites and in the picture."""
        for closed, stations, share in (
                (0, 0, 0), (0, 7, 0), (7, 7, 10_000), (2, 3, 6_667), (1, 3, 3_333), (1, 8, 1_250),
                (1, 20_000, 1), (1, 60_000, 1), (59_999, 60_000, 9_999), (19_998, 20_000, 9_999),
                (3, 20_000, 2), (1, 2, 5_000)):
            with self.subTest(closed=closed, stations=stations):
                self.assertEqual(press_results.counted_share(closed, stations), share)
                points = press_image.counted_points(closed, stations, 920)
                self.assertEqual((points <= 0, points >= 920), (share == 0, share == 10_000))
        part = RESULT | {"certified": False, "status": "open", "stations": 3, "closed": 2,
                         "received": 1, "holders": [],
                         "lists": [row | {"seats": None} for row in RESULT["lists"]]}
        almost = part | {"con": "c2", "name": "Far", "stations": 60_000, "closed": 59_999}
        for result, said in ((part, "66.67%"), (almost, "99.99%")):
            with answering_desk(TWIN | results_of(result)) as (port, _):
                press(port)
            code = result["con"]
            for file, times in (("index.html", 3), (f"con-{code}.html", 3), ("count.html", 1),
                                ("embed.html", 1), (f"embed-{code}.html", 1), ("feed.atom", 1),
                                ("list-A.html", 1)):
                with self.subTest(said=said, file=file):
                    text = read(file)
                    self.assertGreaterEqual(text.count(said), times)
                    self.assertEqual(re.findall("66[.]66|100[.]00", shown_text(text)), [])

    def test_one_zone_and_one_form_of_times(self):
        """A moment is written in the zone of the site, whatever zone it was kept in; on each page
        and in each language alike. Without one it is in that of the server."""
        moments = [datetime.fromisoformat(text) for text in (
            "2026-11-29T20:05:09+00:00", "2026-11-29T21:05:09+01:00", "2026-11-30T01:35:09+05:30")]
        for about, said in (('timezone = "Europe/Madrid"\n', "29 November 2026, 21:05 CET"),
                            ('timezone = "America/Sao_Paulo"\n', "29 November 2026, 17:05 UTC-03"),
                            ("", None)):
            site = press_site.Site(Path(site_folder(site=about)[1]))
            own = moments[0].astimezone()
            said = said or f"{site.day(own)}, {own.strftime('%H:%M %Z')}"
            for moment in moments:
                with self.subTest(about=about, moment=moment):
                    self.assertEqual(site.moment(moment), said)
                    self.assertEqual(site.hour(moment), said.partition(", ")[2])
        with four() as (_, port):
            press(port, "--setup", "setup.toml", *site_folder(
                site='timezone = "Asia/Tokyo"\nlanguages = ["es"]\n'))
        forms = {name: re.findall(r'<time datetime="[^"]*">([^<]*)</time>', read(name))
                 for name in (*filter(lambda name: name.endswith(".html"), os.listdir("pages")),
                              *(f"es/{name}" for name in os.listdir("pages/es")
                                if name.endswith(".html")))}
        for name, found in forms.items():
            with self.subTest(name=name):
                form = (r"\d+ de \w+ de \d{4}, \d\d:\d\d JST" if name.startswith("es/")
                        else r"\d+ \w+ \d{4}, \d\d:\d\d JST")
                self.assertEqual([bool(re.fullmatch(form, one)) for one in found],
                                 [True] * len(found))
                self.assertNotEqual(found, [])
        for wrong in ('[es]\ntimezone = "Europe/Madrid"\n',):
            with self.subTest(wrong=wrong), self.assertRaises(press_site.Wrong):
                press_site.Site(Path(site_folder(site=wrong)[1]))

    def test_numbers_within_names_are_in_order(self):
        """As numbers, in each list of names; accents and case are as ever."""
        for names in (["District 2", "District 10", "district 11"],
                      ["Ávila 9", "Avila 10", "Ávila 10b"], ["2", "10", "A"],
                      ["A", "Á 1", "B"], ["x1y2", "x1y10", "x2y1"],
                      ["Town 007", "Town 8"], ["", "0", "a"]):
            with self.subTest(names=names):
                self.assertEqual(sorted(reversed(names), key=press_names.in_order), names)
        setup, names = numbered_setup()
        Path("setup.toml").write_text(setup, encoding="utf-8")
        with modelled(setup) as (office, port):
            for n in range(1, 14):
                for m in range(1, 14):
                    done(office, f"/station/s{n}-{m}/lodge",
                         {"slip": "p1", "votes": [n], "blank": 0, "spoiled": 0})
                    done(office, f"/station/s{n}-{m}/close", {"rev": 1})
                done(office, f"/con/c{n}/certify", {"edition": 1})
            press(port, "--setup", "setup.toml", *site_folder(stations=names))
            for n in (10, 9):
                done(office, f"/con/c{n}/reopen", {"edition": 2, "note": "again"})
            press(port, "--setup", "setup.toml", *site_folder(stations=names), folder="reopened")
        wanted = [f"District {n}" for n in range(1, 14)]
        for page, caption, column in (
                ("index", "Constituencies in the order of their names", 0),
                ("count", "Progress of the constituencies", 0),
                ("list-A", "Votes and seats of this list in each constituency", 0),
                ("list-A", "Holders of seats", 2), ("elected-1", "Holders of seats", 3)):
            with self.subTest(page=page, caption=caption):
                rows = page_of(f"{page}.html").tables[caption][1:]
                self.assertEqual([re.match(r"District \d+", row[column])[0] for row in rows],
                                 wanted)
        rows = page_of("places-c3-1.html").tables["Towns, and the list with the most votes in each"]
        self.assertEqual([row[0] for row in rows[1:]], [f"Town {n}" for n in range(1, 14)])
        # The number of the page of a place is still that of the setup.
        self.assertIn('<a href="place-c3-13.html"><bdi>Town 1</bdi></a>', read("places-c3-1.html"))
        found = json.loads(read("find.json"))["constituencies"]
        self.assertEqual([one["name"] for one in found], wanted)
        self.assertEqual(re.findall(r"District (\d+) was certified",
                                    shown_text(read("index.html", "reopened"))), ["9", "10"])

    def test_zero_and_a_dash(self):
        """0 is what was counted and is none; a dash, what is not counted or cannot be. The legend
        says so where there is a dash."""
        setup = setup_of_four()
        Path("setup.toml").write_text(setup, encoding="utf-8")
        with modelled(setup) as (office, port):
            press(port, "--setup", "setup.toml", folder="nothing")
            count_four(office)
            press(port, "--setup", "setup.toml")
            press(port, "--setup", "setup.toml", *site_folder(site=SPANISH), folder="es")
        rows = page_of("con-norte.html", "nothing").tables["Votes of each list"]
        self.assertEqual([row[1:] for row in rows[1:]], [["–"] * 3] * 3)
        rows = page_of("list-A.html", "nothing").tables[
            "Votes and seats of this list in each constituency"]
        self.assertEqual([row[1:] for row in rows[1:]], [["–"] * 3] * 4)
        rows = page_of("embed-norte.html", "nothing").tables[ALL[0]]
        self.assertEqual([row[1:] for row in rows[1:-1]], [["–"] * 3] * 3)
        # Only Oeste has D, which is not certified, and only certified constituencies have C.
        rows = {row[0]: row[1:4] for row in page_of("index.html").tables[ALL[0]]}
        self.assertEqual(rows["D Delta"], ["–", "3 provisional", "3"])
        self.assertEqual(rows["C Gamma"], ["0", "–", "0"])
        self.assertEqual(rows["A Alpha"], ["2", "0 provisional", "2"])
        self.assertIn("0 means counted, and none; a dash means that nothing is counted yet",
                      read("index.html"))
        self.assertIn("El 0 significa que se ha escrutado y no hay ninguno",
                      read("index.html", "es"))

    def test_a_constituency_that_was_opened_again(self):
        """While it is counted again the page says that it was reopened, why, and how much of it is
        counted; and not that the count goes on."""
        setup = setup_of_four()
        Path("setup.toml").write_text(setup, encoding="utf-8")
        with modelled(setup) as (office, port):
            count_four(office)
            done(office, "/con/norte/reopen", {"edition": 2, "note": "a slip of n2"})
            done(office, "/station/n2/query", {"rev": 2, "note": "again"})
            press(port, "--setup", "setup.toml")
            press(port, "--setup", "setup.toml", *site_folder(site=SPANISH), folder="es")
            press(port, "--setup", "setup.toml", *site_folder(site=NONE), folder="none")
        for folder, page, *sentences in (
                ("pages", "con-norte", "Reopened: 1 of 2 polling stations are counted (50.00%); "
                 "votes and seats may still change. Reason: a slip of n2. A certificate needs "
                 "every polling station counted.", "its 3 seats are provisional again. Reason: "
                 "a slip of n2."),
                ("pages", "index", "3 seats: Norte was certified and is reopened; they may still "
                 "change, and then the board certifies again. Reason: a slip of n2. 1 of 2 polling "
                 "stations are counted there (50.00%).", "2 seats: Sur was certified and is "
                 "reopened; they may still change, and then the board certifies again. Reason: a "
                 "recount."),
                ("pages", "embed-norte", "its 3 seats are provisional again. Reason: a slip of "
                 "n2.", "(1 of 2)"),
                ("pages", "stations-norte-1", "The certificate is withdrawn: 1 of 2 polling "
                 "stations are counted."),
                ("es", "con-norte", "Reabierta: escrutadas 1 de 2 mesas (50,00 %); votos y escaños "
                 "aún pueden cambiar. Motivo: a slip of n2."),
                ("es", "index", "Escrutadas allí 1 de 2 mesas (50,00 %)."),
                ("none", "con-norte", "Reopened: 1 of 2 polling stations are counted (50.00%)",
                 "its 3 seats are not certified now. Reason: a slip of n2.")):
            text = shown_text(read(f"{page}.html", folder)).replace("\u00a0", " ")
            with self.subTest(folder=folder, page=page):
                for sentence in sentences:
                    self.assertIn(sentence, text)
                # (on the page of the country that is said of Óeste)
                self.assertEqual(re.findall("the count goes on(?! in Óeste)|el escrutinio sigue|"
                                            "There is no certificate yet", text), [])
        self.assertEqual(read("index.html").count("are counted there"), 1)

    def test_a_lot_where_no_seat_is_provisional(self):
        """Where no seat may be shown before it is certified, a lot that is needed is named once all
        is counted, and not before; no seat is with it, and the files have none."""
        Path("setup.toml").write_text(level_setup(), encoding="utf-8")
        folder = site_folder(site=NONE + 'languages = ["es"]\n')
        with modelled(level_setup()) as (office, port):
            count_level(office, ["s1"])
            press(port, "--setup", "setup.toml", *folder, folder="half")
            count_level(office, ["s2"])
            press(port, "--setup", "setup.toml", *folder)
            done(office, "/con/c1/draw", {"edition": 1, "order": ["C", "B"]})
            press(port, "--setup", "setup.toml", *folder, folder="drawn")
        for page, sentence in (
                ("con-c1", "A lot must be drawn between B and C for 1 seat."),
                ("con-c1", "1 seat waits for a lot: B or C"),
                ("con-c1", "No certificate yet. A lot must be drawn between B and C for 1 seat; "
                 "the board can certify after it. 2 seats. No seat is given."),
                ("index", "2 seats: all votes are counted in Soria; a lot between B and C must "
                 "decide 1 of them, and then the board can certify."),
                ("count", "2 seats: all votes are counted in Soria; a lot between B and C must "
                 "decide 1 of them, and then the board can certify."),
                ("embed-c1", "A lot must be drawn between B and C for 1 seat."),
                ("es/con-c1", "Hay que sortear 1 escaño entre B y C."),
                ("es/index", "2 escaños: todos los votos están escrutados en Soria; hay que "
                 "sortear 1 de ellos entre B y C, y después la Junta puede proclamar el "
                 "resultado.")):
            with self.subTest(page=page):
                self.assertIn(sentence, shown_text(read(f"{page}.html")))
        self.assertEqual(page_of("index.html").tables[ALL[0]][-3:], [
            ["Seats waiting for a lot", "1", "–", ""], ["Seats not certified", "1", "–", ""],
            ["Total", "2", "12", ""]])
        self.assertEqual(
            page_of("index.html").tables["Constituencies in the order of their names"][1],
            ["Soria no certificate yet, 100.00% counted", "A", "lot pending 1 not certified 1"])
        found = json.loads(read("con-c1.json"))
        self.assertEqual((found["lot_needed"], "provisional" in found),
                         ({"group": ["B", "C"], "question": 1}, False))
        for one in ("half", "drawn"):
            with self.subTest(folder=one):
                self.assertNotIn("lot_needed", json.loads(read("con-c1.json", one)))
                for page in ("con-c1", "index", "embed-c1"):
                    self.assertEqual(re.findall("(?i) lot must| wait.? for a lot|lot pending",
                                                read(f"{page}.html", one)), [])
        for one in ("pages", "half", "drawn"):
            for name in os.listdir(one):
                if name.endswith((".html", ".atom")) or name == "con-c1.json":
                    with self.subTest(folder=one, name=name):
                        self.assertNotIn("rovisional", read(name, one))
            self.assertEqual([line.rsplit(",", 2)[1:] for line
                              in read("con-c1.csv", one).splitlines()[1:]], [["", ""]] * 4)

    @needs("chromium")
    def test_wide_tables_on_a_phone(self):
        """Seats in the order of their award and quotas have room on a phone; quotients and the
        returns of stations are in a frame that is moved sideways, with a first column that
        stays."""
        votes = {code: 1_234_567 - 111_111 * n for n, code in enumerate("ABCDEFGH")}
        # (codes as long as they may be)
        codes = {code: code * 16 for code in votes}
        lists = [{"code": codes[code], "name": f"List {code}", "votes": of, "eligible": True,
                  "seats": 4, "provisional": 4, "short": 1000} for code, of in votes.items()]
        first = RESULT | {
            "lists": lists, "seats": 32, "lot": [], "stations": 1, "holders": [],
            "awards": [[codes[code], k, of, k] for code, of in votes.items() for k in range(1, 5)]}
        second = first | {"con": "c2", "name": "Hare", "method": "hare", "awards": [],
                          "lists": [row | {"short": None} for row in lists],
                          "quota": [[codes[code], 3, of * 32, 4] for code, of in votes.items()]}
        cut = ("return [...document.querySelectorAll('.scroll')].filter((e) => e.scrollWidth > "
               "e.clientWidth + 1 && !(e.tabIndex === 0 && e.querySelector('.quotients')))"
               ".map((e) => e.querySelector('caption').innerText)")
        with answering_desk(TWIN | results_of(first, second)) as (port, _):
            press(port)
            press(port, *site_folder(site=SPANISH), folder="es")
        with four() as (_, port):
            press(port, "--setup", "setup.toml", folder="four")
        with browser.tab() as it:
            for folder in ("pages", "es"):
                for name in ("con-c1", "con-c2"):
                    it.open((Path.cwd() / f"{folder}/{name}.html").as_uri())
                    for width in (320, 360):
                        with self.subTest(folder=folder, name=name, width=width):
                            it.size(width, 640)
                            self.assertEqual(it.run(cut), [])
                            self.assertEqual(it.run("return document.documentElement.scrollWidth"),
                                             width)
            for name, rows in (("four/stations-norte-1", 3), ("pages/con-c1", 9)):
                it.open((Path.cwd() / f"{name}.html").as_uri())
                it.size(1280, 900)
                self.assertFalse(it.visible(".sideways"))
                for width in (320, 360):
                    it.size(width, 640)
                    it.run("document.querySelector('.scroll[tabindex]').scrollLeft = 50")
                    framed = it.run(
                        "const box = document.querySelector('.scroll[tabindex]');"
                        "const at = (e) => Math.round(e.getBoundingClientRect().left - "
                        "box.getBoundingClientRect().left - box.clientLeft);"
                        "return [getComputedStyle(box).borderTopWidth, "
                        "...[...box.querySelectorAll('tr > :first-child')].map(at)]")
                    with self.subTest(name=name, width=width):
                        self.assertEqual(framed, ["2px", *[0] * rows])
                        self.assertTrue(it.visible(".sideways"))
        self.assertIn('<a href="stations-norte-2.csv">', read("stations-norte-1.html", "four"))

    @needs("chromium")
    def test_the_count_on_a_phone(self):
        """A column is left out where no return is in its state, and else its numbers add up with
        those beside it, within the width of a phone.
        """
        votes = {"slip": "p1", "votes": [3, 2, 2, 1], "blank": 0, "spoiled": 0}
        acts = (("received", "lodge", votes), ("queried", "query", {"rev": 1, "note": "sum"}),
                ("corrected", "correct", {"rev": 2} | votes))
        Path("setup.toml").write_text(level_setup(), encoding="utf-8")
        shown = ("return [...document.querySelectorAll('.count thead th')].filter((e) => "
                 "e.offsetWidth).map((e) => e.innerText.trim().split(/[ ,]/)[0])")
        with modelled(level_setup()) as (office, port):
            press(port, "--setup", "setup.toml", folder="none")
            for state, act, body in acts:
                done(office, f"/station/s1/{act}", body)
                press(port, "--setup", "setup.toml", folder=state)
        with browser.tab() as it:
            for folder, left in (("none", []), ("received", ["received"]), ("queried", ["queried"]),
                                 ("corrected", ["corrected"])):
                it.open((Path.cwd() / folder / "count.html").as_uri())
                it.size(320, 640)
                with self.subTest(folder=folder):
                    self.assertEqual([one for one in it.run(shown)
                                      if one in ("received", "queried", "corrected")], left)
                    self.assertEqual(it.run("return document.documentElement.scrollWidth"), 320)
                it.size(1280, 900)
                self.assertEqual([one for one in it.run(shown)
                                  if one in ("received", "queried", "corrected")],
                                 ["received", "queried", "corrected"])
