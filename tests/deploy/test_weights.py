"""The weight of pages."""

import json
import os
import re
from datetime import datetime
from pathlib import Path

from tests.support.countries import invented_country, sixty_lists
from tests.support.desks import answering_desk, done, modelled
from tests.support.office import constituency, party_list, profile, station
from tests.support.pages import PAGE_BYTES, TWIN, page_of, press, read, shown_text
from tests.support.scripts import module
from tests.support.site import SiteCase

press_stations = module("press_stations")
press_site = module("press_site")

LONGEST = 'Coalition "For all of us & more": ' + "Ñ" * 23  # 80 bytes


def at_the_limits(method, name, seats, cons=1, lists=60):
    """A setup of constituencies, whose lists and candidates have this name, with a station each.

    Beside it the votes of each, with which every list has a seat and none needs a lot.
    """
    setup = profile("d0").replace('"dhondt"', f'"{method}"')
    for n in range(cons):
        setup += constituency(f"constituency{n:04}", name, seats, "d0")
        setup += "".join(party_list(f"LIST-{place:02}-{'X' * 8}", name,
                                    *[name] * (seats // lists + 2)) for place in range(lists))
        setup += station(f"station{n:09}", 1_000_000)
    return setup, [16_000 - 3 * place for place in range(lists)]


def rows_of_pages(pages, caption):
    """The rows of all tables of this caption, on all pages."""
    return [row for page in pages.values() for found, rows in page.all_tables if found == caption
            for row in rows[1:]]


class Weights(SiteCase):
    def test_the_weight_of_a_country(self):
        """With 52 constituencies, 364 seats and a map each page is below 60 kB."""
        invented_country()
        pages = [name for name in os.listdir("country") if name.endswith(".html")]
        # The index and the count; of each constituency its page, its stations and its part for
        # other sites; that of the country; five lists; the elected, on two.
        # (the list with the most elected goes on on a second page)
        self.assertEqual(len(pages), 2 + 3 * 52 + 1 + 6 + 2)
        for name in pages:
            page_of(name, "country")
        text = shown_text(read("index.html", "country"))
        self.assertIn("Certified: 336 of 364 seats, in 48 of 52 constituencies. Not certified: "
                      "28.", text)
        self.assertEqual(len(re.findall('<a href="con-c[0-9]+.html" class="con ',
                                        read("index.html", "country"))), 52)
        self.assertEqual(len(page_of("index.html", "country").tables[
            "Constituencies in the order of their names"]), 53)

    def test_the_weight_of_a_constituency(self):
        """With 60 lists, 100 seats and names as long as they may be each page is below 60 kB, and
        what has no room on one is on the next: every number, once, and links from each to all. They
        go where there is room on one."""
        answers = sixty_lists()
        with answering_desk(answers) as (port, _):
            press(port)
        names = ["con-c1.html", *(f"details-c1-{n}.html" for n in range(1, 6))]
        self.assertEqual(sorted(name for name in os.listdir("pages")
                                if re.match(r"(con|details)-.*\.html$", name)), names)
        found = {}
        for here, name in enumerate(names):
            with self.subTest(here=here, name=name):
                tables, text = page_of(name).all_tables, read(name)
                # A table that goes on elsewhere does not end with a sum.
                for table in re.findall(r'<table class="[^"]*totalled.*?</table>', text, re.S):
                    self.assertIn('<tr><th scope="row">Total</th>', table.splitlines()[-3])
                for caption, (heads, *cells) in tables:
                    shown = found.setdefault(caption, [heads])
                    self.assertEqual((heads, [row for row in cells if row in shown]),
                                     (shown[0], []), caption)
                    shown += cells
                self.assertEqual(re.findall(r'href="(details-.*?)"', text),
                                 [other for other in names[1:] if other != name])
                self.assertEqual(('<a href="con-c1.html"><bdi>Twin Town</bdi></a>' in text,
                                  ">Final: certified</p>" in text), (here > 0, True))
        rows = {caption: len(cells) - 1 for caption, cells in found.items()}
        quotients = [f"Quotients of each list, seats {first} to {min(first + 7, 42)}"
                     for first in range(1, 43, 8)]
        self.assertEqual(rows, {"Seats of each list": 61, "Votes of each list": 61,
                                "Returns of the stations": 1, "Holders of the seats": 100,
                                "Awards in order": 100, **dict.fromkeys(quotients, 60),
                                "Votes that a list lacked for one seat more, whatever lot is "
                                "drawn, with the same other votes and eligible lists": 60})
        self.assertEqual([cell for caption in quotients for cell in found[caption][2][1:]],
                         ["1,000 ★ won", *(str(1000 // k) for k in range(2, 43))])
        self.assertEqual(read("con-c1.html").count('<div class="bar '), 12)
        self.assertIn("The other 48 lists are in the table.", read("con-c1.html"))
        # The pages of its stations, of which one has room for some forty.
        con, codes = json.loads(read("con-c1.json")), [f"LIST-{n:02}-{'X' * 8}" for n in range(60)]
        entry = {"stations": [{"code": f"station-{n:08}", "electors": 900_000} for n in range(200)]}
        returns = "".join(f"station-{n:08},p{n},0,0{',123456' * 60}\n" for n in range(200))
        written, _ = press_stations.stations_pages(
            press_site.Site(), "c1", con, entry,
            f"station,slip,blank,spoiled,{','.join(codes)}\n{returns}")
        pages = [page(datetime.now().astimezone()) for page in written]
        self.assertEqual((len(pages) > 3, sum(text.count("123,456") for text in pages)),
                         (True, 200 * 60))
        self.assertEqual([len(text.encode()) for text in pages if len(text.encode()) >= PAGE_BYTES],
                         [])
        with answering_desk(TWIN) as (port, _):
            press(port)
        self.assertEqual([name for name in os.listdir("pages") if name.startswith("details-")], [])
        self.assertNotIn("details-", read("con-c1.html"))

    def certified_pages(self, setup, votes, folder):
        """The pages of such an election, certified; each is below 60 kB, with room."""
        Path("limits.toml").write_text(setup, encoding="utf-8")
        with modelled(setup) as (office, port):
            for con in office.cons.values():
                [code] = con.electors
                done(office, f"/station/{code}/lodge",
                     {"slip": "p1", "votes": votes, "blank": 0, "spoiled": 0})
                done(office, f"/station/{code}/close", {"rev": 1})
                done(office, f"/con/{con.code}/certify", {"edition": 1})
            press(port, "--setup", "limits.toml", folder=folder)
        # In the order in which a reader goes through them.
        names = sorted((name for name in os.listdir(folder) if name.endswith(".html")),
                       key=lambda name: (name.split("-")[0],
                                         [int(number) for number in re.findall(r"\d+", name)]))
        pages = {name: page_of(name, folder) for name in names}
        self.assertEqual([(name, os.path.getsize(f"{folder}/{name}")) for name in pages
                          if os.path.getsize(f"{folder}/{name}") > PAGE_BYTES - 3_000], [])
        return pages

    def test_the_weight_at_the_limits(self):
        """With 60 lists, 500 seats and names of 80 bytes each page is below 60 kB by every rule:
        each list and each seat is on one of them, and the page of the country has each
        list, or how many more there are."""
        for method in ("dhondt", "sainte-lague", "modified-sainte-lague", "hare"):
            with self.subTest(method=method):
                for place, name in enumerate(("W" * 80, LONGEST, '"' * 80)):
                    with self.subTest(place=place, name=name):
                        self.assertEqual(len(name.encode()), 80)
                        folder = f"{method}-{place}"
                        setup, votes = at_the_limits(method,
                                                     json.dumps(name, ensure_ascii=False)[1:-1],
                                                     500)
                        pages = self.certified_pages(setup, votes, folder)
                        codes = [f"LIST-{n:02}-{'X' * 8} {name}" for n in range(60)]
                        for caption, wanted in (("Seats of each list", [*codes, "Total"]),
                                                ("Votes of each list",
                                                 [*codes, "Blank votes"])):
                            with self.subTest(caption=caption, wanted=wanted):
                                self.assertEqual([row[0] for row in rows_of_pages(pages, caption)],
                                                 wanted)
                        self.assertEqual(len(rows_of_pages(pages, "Holders of the seats")), 500)
                        self.assertEqual(len(rows_of_pages(pages, "Quotas of each list")),
                                         60 if method == "hare" else 0)
                        self.assertEqual(len(rows_of_pages(pages, "Awards in order")),
                                         0 if method == "hare" else 500)
                        lacked = ("Votes that a list lacked for one seat more, whatever lot is "
                                  "drawn, with the same other votes and eligible lists")
                        self.assertEqual(len(rows_of_pages(pages, lacked)),
                                         0 if method == "hare" else 60)
                        *rows, total = pages["index.html"].tables["Seats and votes of each list"][
                            1:]
                        self.assertEqual((len(rows) > 8, total[1:3],
                                          sum(int(row[1].replace(",", "")) for row in rows)),
                                         (True, ["500", f"{sum(votes):,}"], 500))
                        if len(rows) < 60:
                            self.assertEqual(rows[-1][0], f"{60 - len(rows) + 1} more lists")

    def test_the_weight_of_200_constituencies(self):
        """They have pages of their own, in the order of their names, with a search; the page of
        the country leads there."""
        setup, votes = at_the_limits("dhondt", "W" * 77, 12, cons=200, lists=6)
        setup = re.sub(r'(code = "constituency\d(\d{3})"\nname = ")', r"\1\2", setup)
        pages = self.certified_pages(setup, votes, "large")
        parts = sorted(name for name in pages if name.startswith("cons-"))
        self.assertEqual([int(row[0][:3]) for name in parts for row
                          in pages[name].tables["Constituencies in the order of their names"][1:]],
                         list(range(200)))
        links = re.findall('<a class="piece" href="(.*?)">(.*?)</a>', read("index.html", "large"))
        self.assertEqual(([link for link, _ in links], links[0][1][:28]),
                         (parts, f"\u2068000{'W' * 20}…\u2069 –"))
        self.assertNotIn('class="searched', read("index.html", "large"))
        self.assertEqual(len(rows_of_pages(
            {name: page for name, page in pages.items() if name.startswith("count")},
            "Progress of the constituencies")), 200)
        self.assertIn('<a href="count-1.html">', read("count.html", "large"))
        # More seats than dots can be made out have no half circle; and where all have room on one
        # page again the others go.
        self.assertNotIn('class="seats"', read("index.html", "large"))
        self.assertIn('class="seats"', read("con-constituency0000.html", "large"))
        with answering_desk(TWIN) as (port, _):
            press(port, folder="large")
        self.assertEqual(
            [name for name in os.listdir("large") if re.match(r"(cons|count)-.*\.html", name)], [])
        self.assertIn('class="searched', read("index.html", "large"))
