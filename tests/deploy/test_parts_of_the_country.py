"""The page of the country and that of the count at their edges, in process: how many lists and dots
are shown, the cells of seats and votes, what the turnout is of, and how old a page is."""

import re
from datetime import datetime, timedelta, timezone

from tests.support.case import Case
from tests.support.pages import PAGE_BYTES, RESULT, Page, shown_text, with_lists
from tests.support.scripts import module

country, pages, parts, results, site = map(module, (
    "press_country", "press_pages", "press_parts", "press_results", "press_site"))

NOON = datetime(2026, 11, 29, 12, tzinfo=timezone.utc)
OPEN = with_lists(RESULT, seats=[None, None], votes=[70, 30], provisional=[2, 1]) | {
    "certified": False, "status": "open", "edition": 1, "lot": [], "stations": 4, "closed": 1,
    "received": 3, "holders": [], "awards": []}
PAST = [{"edition": 3, "seats": [1, 2]}]


def certified(**more):
    return results.con_of(RESULT | more)


def counting(**more):
    return results.con_of(OPEN | more)


def text(part):
    return shown_text(part).strip()


def parties(many, seats=0, provisional=0, votes=10):
    """As many lists, of which the first have a certified seat, and those after them a provisional
    one."""
    return [country.Party(f"L{n:03}", f"List {n}", votes=votes, closed=1, certified_cons=1,
                          provisional_cons=1, seats=int(n < seats),
                          provisional=int(seats <= n < seats + provisional))
            for n in range(many)]


class Country(Case):
    def setUp(self):
        super().setUp()
        self.site = site.Site()

    def test_what_is_certified_and_what_is_provisional(self):
        for cons, done, chamber, seats, said in (
                (1, 1, 1, 1, "The 1 seat is certified."),
                (1, 1, 3, 3, "All 3 seats are certified."),
                (2, 2, 9, 9, "All 9 seats are certified, in 2 constituencies."),
                (3, 1, 9, 4, "Certified: 4 of 9 seats, in 1 of 3 constituencies. Not certified: "
                             "5.")):
            self.assertEqual(text(pages.certified_said(self.site, country.Country(
                chamber=chamber, certified=seats, cons=cons, certified_cons=done))), said)
        found = country.Country(provisional=3, provisional_closed=1, provisional_stations=4)
        self.assertIsNone(pages.provisional_said(self.site, found))
        found.is_provisional = True
        self.assertIn("3 seats, in constituencies with 1 of 4 polling stations counted (25.00%)",
                      text(pages.provisional_said(self.site, found)))

    def test_where_there_is_a_half_circle(self):
        """Of one to a thousand seats, and of one to sixty lists that have some."""
        for chamber, lists, is_drawn in (
                (0, 0, False), (1, 1, True), (1000, 60, True), (1001, 60, False), (1000, 61, False),
                (9, 0, False), (100, 1, True)):
            found = country.Country(parties(70, lists), chamber=chamber, certified=lists)
            with self.subTest(chamber=chamber, lists=lists):
                self.assertEqual(pages.circle_of(self.site, found) is not None, is_drawn)
        found = country.Country(parties(2, 1, 1), chamber=5, certified=1, provisional=1)
        self.assertEqual([one["code"] for one in pages.circle_of(self.site, found)["groups"]],
                         ["L000", "L001", None])

    def test_the_bars_of_votes(self):
        """Those with most first, none of a list without votes."""
        found = country.Country([country.Party("A", "Alpha", votes=10),
                                 country.Party("B", "Beta", votes=0),
                                 country.Party("C", "Cara", votes=30)], valid=40, bases={"valid"})
        bars = pages.chart_of(self.site, found)["bars"]
        self.assertEqual([(bar["code"], bar["eligible"]) for bar in bars],
                         [("C", True), ("A", True)])
        self.assertIsNone(pages.chart_of(self.site, country.Country([country.Party("A", "Alpha")])))

    def test_how_many_lists_the_table_has(self):
        """Those with a seat, and twenty without one; the others are a row together, as are those
        that have no room."""
        def rows(of, room=float("inf")):
            found = country.Country(of, chamber=3, certified=3, certified_cons=1, cons=1, closed=1,
                                    valid=1000, bases={"valid"})
            table, shown = pages.parties_table(self.site, found, (None, None), room)
            [rows] = Page(table).tables.values()
            return len(shown), [row[0] for row in rows[1 + len(shown):]]

        self.assertEqual(rows(parties(23, 2, 1)), (23, ["Total"]))
        self.assertEqual(rows(parties(24, 2, 1)), (23, ["1 more list without a seat", "Total"]))
        self.assertEqual(rows(parties(26, 2, 1)), (23, ["3 more lists without a seat", "Total"]))
        # A row more is shown while the cells of those before it have no more bytes than the room.
        one = pages.party_cells(self.site, country.Country(bases={"valid"}, valid=1000),
                                parties(1, 1)[0], None, None)
        size = sum(map(parts.size, one))
        for room, shown in ((3 * size - 1, 3), (3 * size, 4), (3 * size + 1, 4), (0, 1), (1, 1)):
            with self.subTest(room=room):
                self.assertEqual(rows(parties(9, 9), room)[0], shown)
        self.assertEqual(rows(parties(9, 9), 0)[1], ["8 more lists", "Total"])
        self.assertEqual(rows(parties(9, 0, 9), 0)[1], ["8 more lists", "Total"])

    def test_the_cells_of_seats(self):
        """A number where a constituency of that kind has the list, else a dash; where both kinds
        are there, their sum too."""
        party = country.Party("A", "Alpha", seats=4, provisional=3, certified_cons=1,
                              provisional_cons=1)
        none = country.Party("B", "Beta")
        mixed = country.Country(certified_cons=1, is_provisional=True)
        so_far, done = country.Country(is_provisional=True), country.Country(certified_cons=1)
        for of, one, wanted in (
                (mixed, party, ["4", "3 provisional", "7"]), (mixed, none, ["–", "–", "–"]),
                (mixed, country.Party("B", "Beta", certified_cons=1), ["4", "–", "0"]),
                (mixed, country.Party("B", "Beta", provisional_cons=1),
                 ["–", "0 provisional", "0"]),
                (so_far, party, ["3 provisional"]), (so_far, none, ["–"]), (done, party, ["4"]),
                (done, none, ["–"])):
            with self.subTest(one=one):
                self.assertEqual([text(cell) for cell in pages.seats_cells(
                    self.site, of, one, "4")], wanted)
        for of, wanted in ((mixed, 3), (so_far, 1), (done, 1)):
            self.assertEqual(len(pages.seats_heads(self.site, of, None)), wanted)
        self.assertEqual([text(head.said) for head in pages.seats_heads(self.site, so_far, None)],
                         [self.site.say("seats_provisional")])

    def test_the_rows_of_all_seats(self):
        """Those that no list has are a row of each kind; the last one says of what it is a total,
        and is provisional where all seats are."""
        def rows(**more):
            return [[text(cell) for cell in row] for row in pages.total_cells(
                self.site, country.Country([country.Party("A", "Alpha", votes=9)], **more))]

        self.assertEqual(rows(chamber=9, certified=9, certified_cons=1),
                         [["Total", "9", "–", ""]])
        self.assertEqual(rows(chamber=9, certified=9, certified_cons=1, closed=1),
                         [["Total", "9", "9", ""]])
        self.assertEqual(rows(chamber=9, provisional=9, is_provisional=True, closed=1),
                         [["Total", "9 provisional", "9", ""]])
        self.assertEqual(rows(chamber=9, provisional=6, question=1, uncounted=2, closed=1,
                              is_provisional=True),
                         [["Seats waiting for a lot", "1", "–", ""],
                          ["Seats with no count yet", "2", "–", ""],
                          ["Total (all seats)", "9", "9", ""]])
        self.assertEqual(rows(chamber=9, certified=3, provisional=4, certified_cons=1,
                              is_provisional=True, closed=1),
                         [["Seats not certified", "–", "–", "2", "–", ""],
                          ["Total", "3", "4 provisional", "9", "9", ""]])

    def test_the_cells_of_votes(self):
        found = country.Country(valid=40, bases={"valid"})
        for party, before, wanted in (
                (country.Party("A", "Alpha", votes=10), None, ["–", "–"]),
                (country.Party("A", "Alpha", votes=10, closed=1), None, ["10", "25.00%"]),
                (country.Party("A", "Alpha", votes=10, closed=1), {"A": 2000},
                 ["10", "25.00% +5.00"])):
            self.assertEqual([text(cell) for cell in pages.votes_cells(
                self.site, found, party, before)], wanted)

    def test_the_turnout(self):
        """Of what is counted, where the electors of that are known: 30 papers of 60 electors."""
        for closed, electors, said in (
                (2, 60, "Turnout: 50.00 per cent, 30 of 60 electors."),
                (1, 60, "Turnout of what is counted: 50.00 per cent, 30 of 60 electors."),
                (0, 60, None), (1, None, None), (1, 0, None)):
            found = country.Country(closed=closed, stations=2, valid=25, spoiled=5,
                                    counted_electors=electors)
            with self.subTest(closed=closed, electors=electors):
                shown = pages.turnout_said(self.site, found)
                self.assertEqual(shown and text(shown), said)
        for closed, words in ((1, "leads"), (2, "has the most votes")):
            found = country.Country([country.Party("A", "Alpha", votes=25)], closed=closed,
                                    stations=2, valid=25, spoiled=5, counted_electors=60, cons=1,
                                    bases={"valid"})
            head = pages.country_head(self.site, found, {})
            self.assertIn("50.00%", head["counted_line"]["turnout"])
            self.assertEqual("so far" in head["headline"] or words in head["headline"], True,
                             head["headline"])

    def test_files_for_programs(self):
        own = ["embed.html", "results.csv", "index.csv", "index.json", "manifest.json"]
        for setup, wanted in (({}, own), ({"c1": 1}, [*own, "setup.json"])):
            self.assertEqual([file for file, _ in pages.programs(self.site, setup)], wanted)

    def test_the_seats_of_a_constituency(self):
        for con, wanted in (
                (certified(), "B 2 A 1"), (counting(), "provisional: A 2 B 1"),
                (results.con_of(with_lists(OPEN, provisional=[2, 0]) | {
                    "status": "lot", "question": 1, "group": ["A", "B"]}),
                 "provisional: A 2 lot pending 1"),
                (results.without_provisional(counting()), "not certified 3"),
                (counting(closed=0, received=4), "no count yet 3")):
            found = text(pages.con_seats(self.site, con)).replace("\u00a0", " ")
            self.assertEqual(re.sub("[ \u2002]+", " ", found), wanted)
        for con, wanted in ((certified(), "state_certified"), (counting(), "state_open"),
                            (counting(past=PAST), "state_withdrawn"),
                            (certified(past=PAST), "state_certified")):
            self.assertEqual(pages.state_of(con), wanted)


class Whole(Case):
    """Pages as they are written."""

    def setUp(self):
        super().setUp()
        self.site = site.Site()

    def index(self, cons, setup=None):
        return pages.index_pages(self.site, cons, setup or {}, NOON, NOON, {})

    def test_constituencies_are_on_the_page_while_there_is_room(self):
        """And else on pages of their own, of which each has a link to each; none is too long."""
        for many, own in ((20, True), (400, False)):
            cons = {f"c{n}": certified(con=f"c{n}", name=f"Town {n}") for n in range(many)}
            first, *others = self.index(cons)
            with self.subTest(many=many):
                self.assertEqual((len(others) == 0, first.count('href="con-c') >= many),
                                 (own, own))
                self.assertLess(max(len(page.encode()) for page in [first, *others]), PAGE_BYTES)
                # The closest seats are as many as there is room for: ten where there is.
                self.assertEqual(first.count("lacked"), self.index({"c0": cons["c0"]})[0].count(
                    "lacked"))
                for page in others:
                    for n in range(1, len(others) + 1):
                        self.assertIn(f'href="cons-{n}.html"', first)
                found = re.findall(r'href="con-(c\d+)[.]html"', "".join([first, *others]))
                self.assertLessEqual(set(cons), set(found))
                # Each list that is shown has its colour.
                for page in [first, *others]:
                    shown = set(re.findall(r'class="code list-(\w+)"', page))
                    self.assertLessEqual(shown, set(re.findall(r"\.list-(\w+)\{--light", page)))

    def test_the_colour_of_a_list_that_is_first_somewhere(self):
        """It is on the page though the table of lists has no row of it: in the table of
        constituencies, or where these have no room, on the map."""
        rows = [OPEN["lists"][0] | {"code": f"L{n:02}", "name": f"L{n:02}", "votes": 100}
                for n in range(25)]
        small = [OPEN["lists"][0] | {"code": "Z", "name": "Zeta", "votes": 5}]
        drawn = ("svg", None, {}, [("path", "c1", {}, [], "")], "")
        for many, shapes, wanted in ((2, None, True), (2, drawn, True), (400, drawn, True),
                                     (400, None, False)):
            cons = {f"c{n}": results.without_provisional(counting(
                con=f"c{n}", name=f"Town {n}", lists=small if n == 1 else rows))
                for n in range(many)}
            self.site.map = shapes
            first, *others = self.index(cons)
            with self.subTest(many=many, shapes=shapes):
                self.assertEqual((bool(others), "list-Z.html" in first), (many > 2, False))
                self.assertEqual(".list-Z{--light" in first, wanted)
                self.assertEqual('class="con list-Z' in first, bool(shapes))

    def test_a_map_of_a_country(self):
        """It says that some colours are pale, until all is certified."""
        self.site.map = ("svg", None, {}, [("path", "c1", {}, [], "")], "")
        for con, wanted in ((counting(), True), (certified(), False)):
            first, *_ = self.index({"c1": con})
            self.assertEqual(self.site.say("map_faded") in shown_text(first), wanted)

    def test_what_is_compared(self):
        """Seats with a former result, and shares with one; each says so."""
        for former, wanted in (
                ({}, [False, False]), ({"c1": {"seats": {"A": 2}, "votes": {}, "valid": None}},
                                       [True, False]),
                ({"c1": {"seats": {"A": 2}, "votes": {"A": 5}, "valid": 9}}, [True, True])):
            self.site.former = former
            first, *_ = self.index({"c1": certified()})
            said = text(first)
            with self.subTest(former=former):
                self.assertEqual([self.site.say(words) in said
                                  for words in ("change_seats", "change_shares")], wanted)

    def test_the_page_of_the_count(self):
        """Its first page is count.html, and those on which it goes on have numbers from 1. A column
        without a return is left out on a phone. Of a record nobody says that it is broken."""
        head = {"time": "x", "n": 9, "hash": "a" * 64}
        for many, long in ((2, 1), (180, 2), (300, 3)):
            cons = {f"c{n}": counting(con=f"c{n}", name=f"Town {n}",
                                      queried=int(n == 1)) for n in range(many)}
            written = pages.count_pages(self.site, cons, NOON, NOON, head)
            with self.subTest(many=many):
                self.assertLess(max(len(page.encode()) for page in written), PAGE_BYTES)
                found = [re.findall('href="(count(?:-[0-9]+)?[.]html)"',
                                    page.partition("<main>")[2]) for page in written]
                every = ["count.html", *(f"count-{n}.html" for n in range(1, len(written)))]
                self.assertEqual((len(written), self.site.say("details") in text(written[0])),
                                 (long, long > 1))
                self.assertEqual(found, [[name for name in every if name != own]
                                         for own in every])
                self.assertEqual({tuple(re.findall("no-[a-z]+", kind)) for kind in re.findall(
                    'table class="(count .*?)"', "".join(written))}, {("no-corrected",)})
        said = text(written[-1])
        self.assertIn(text(self.site.said("record_said", lines=9, hash="a" * 64)), said)
        for whole, words in ((False, "record_broken"), (True, "record_said")):
            written = pages.count_pages(self.site, {"c1": counting()}, NOON, NOON,
                                        head | {"whole": whole})
            self.assertIn(text(self.site.said(words, lines=9, hash="a" * 64)), text(written[0]))
        self.assertNotIn("a" * 64, pages.count_pages(self.site, {"c1": counting()}, NOON, NOON)[0])

    def test_how_old_a_page_is(self):
        """In its place, once, instead of what was there before; one that says no moment stays."""
        begin, end = parts.AGE
        page = f'<time datetime="{NOON.isoformat()}">{begin}{end} and {begin}{end}'
        later = NOON + timedelta(minutes=3)
        found = pages.aged(self.site, page, later)
        line = f'{self.site.say("stays", age="3 minutes")}'
        self.assertEqual((found.count(line), found.endswith(f"</p>{end} and {begin}{end}")),
                         (1, True), found)
        again = pages.aged(self.site, found, later + timedelta(minutes=1))
        self.assertEqual((again.count(line), again.count("4 minutes")), (0, 1))
        self.assertEqual(pages.unaged(again), page)
        self.assertEqual(pages.aged(self.site, "no moment" + begin + end, later),
                         "no moment" + begin + end)
