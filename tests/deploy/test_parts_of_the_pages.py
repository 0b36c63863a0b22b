"""The parts of the press pages, of results by hand: shares, tables and their division into pages,
the pages of lists, of the elected and of stations, and the parts for other sites. No office is
asked.
"""

import re
from datetime import UTC, datetime

from tests.support.case import Case
from tests.support.pages import RESULT, Page, shown_text, with_lists
from tests.support.scripts import module

country, embed, lists, parts, results, site, stations, templates = map(module, (
    "press_country", "press_embed", "press_lists", "press_parts", "press_results", "press_site",
    "press_stations", "press_templates"))

NOW = datetime(2026, 11, 29, 21, 0, tzinfo=UTC)


def plain(text):
    return shown_text(text).replace("\u00a0", " ")


def part_of(size, head=None):
    return parts.Part("x" * size, [head] if head else ())


def sizes(groups):
    return [[parts.size(part) for part in group] for group in groups]


class Shares(Case):
    def test_shares(self):
        """In hundredths of a per cent: rounded down, and half up. 1 of 32 are 3.125 per cent."""
        for votes, base, down, half_up in ((1, 32, 312, 313), (1, 3, 3_333, 3_333),
                                           (2, 3, 6_666, 6_667), (3, 3, 10_000, 10_000),
                                           (0, 3, 0, 0), (0, 0, 0, 0), (1, 1, 10_000, 10_000)):
            with self.subTest(votes=votes, base=base):
                self.assertEqual((parts.hundredths(votes, base), parts.rounded(votes, base)),
                                 (down, half_up))

    def test_a_share_that_would_be_rounded_up_to_the_threshold(self):
        """2.9985 per cent do not reach 3; nor is a share above it shown as less."""
        for votes, threshold, is_eligible, share in (
                (29_985, 300, False, 299), (29_985, 300, True, 300), (29_984, 299, False, 299),
                (29_940, 300, False, 299), (29_996, 0, True, 300), (29_985, 301, False, 300),
                (40_006, 300, False, 400)):
            with self.subTest(votes=votes, threshold=threshold, is_eligible=is_eligible):
                self.assertEqual(parts.shown_share(votes, 1_000_000, threshold, is_eligible), share)

    def test_of_which_votes_a_share_is(self):
        """30 of 40 votes for lists, or of 50 valid ones."""
        for base, votes, share in (("lists", 40, 7_500), ("valid", 50, 6_000)):
            con = {"rule": {"base": base, "threshold": 0}, "tally": {"valid": 50, "lists": [
                {"code": code, "votes": many, "eligible": True}
                for code, many in (("A", 10), ("B", 30), ("C", 0), ("D", 0))]}}
            self.assertEqual(parts.base_of(con), votes)
            self.assertEqual(parts.list_share(con, con["tally"]["lists"][1]), share)
            self.assertEqual([row["code"] for row in parts.by_votes(con)], list("BACD"))


class Tables(Case):
    def test_a_table(self):
        """Its classes name the columns of numbers; on a phone it has the columns of its cells, but
        for those that are left out there."""
        heads = ("List", parts.numbers("seats"), "first", parts.numbers("votes"))
        for kind, classes, columns in (
                ("stacked", "stacked n2 n4", 3), ("stacked under", "stacked under n2 n4", 2),
                ("count stacked no-received no-corrected",
                 "count stacked no-received no-corrected n2 n4", 1),
                ("stacked no-queried", "stacked no-queried n2 n4", 2),
                ("totalled", "totalled n2 n4", None)):
            with self.subTest(kind=kind):
                found = parts.framed(site.Site(), "A table", heads, ["<tr></tr>"], kind)
                self.assertIn(f'<table class="{classes}"', found)
                self.assertEqual(re.findall(r'--columns:(\d+)"', found),
                                 [str(columns)] if columns else [])
                self.assertEqual(found.heads, ("A table",))
                self.assertNotIn('tabindex="0"', found)
        self.assertIn('tabindex="0"', parts.framed(site.Site(), "", heads, [], wide=True))

    def test_tables_that_go_on(self):
        """The last one alone has the kind of one with a sum. Without a limit there is one."""
        it, rows = site.Site(), [part_of(10) for _ in range(5)]
        found = parts.tables(it, "A table", ("List",), rows, "totalled stacked", room=20)
        self.assertEqual([re.search('<table class="([^"]+)"', one)[1] for one in found],
                         ["stacked", "stacked", "totalled stacked"])
        self.assertEqual([one.count("x" * 10) for one in found], [2, 2, 1])
        whole = parts.table(it, "A table", ("List",), rows * 9_000)
        self.assertEqual(whole.count("x" * 10), 45_000)
        for wide, frames in (((), 0), ((True,), 3)):
            of_all = [*parts.tables(it, "", ("List",), rows, "", *wide, room=30),
                      parts.table(it, "", ("List",), rows, "", *wide)]
            self.assertEqual(sum(one.count('tabindex="0"') for one in of_all), frames)
        long = [part_of(13_000)] * 3
        self.assertEqual([one.count("x" * 13_000) for one in
                          parts.tables(it, "A table", ("List",), long)], [2, 1])

    def test_sections(self):
        """The first has the title, and what is before and after its table."""
        it = site.Site()
        found = parts.sections(it, "A title", [part_of(3, "One"), part_of(4, "Two")], "before",
                               "after")
        self.assertEqual([str(one) for one in found], [
            "<section><h2>A title</h2>\nbeforexxxafter</section>\n",
            "<section>\nxxxx</section>\n"])
        self.assertEqual([one.heads for one in found], [("One",), ("Two",)])
        joined = parts.together(found)
        self.assertEqual((joined.heads, str(joined)), (("One", "Two"), "".join(found)))

    def test_blank_votes(self):
        for share, said in ((431, "4.31%"), (0, "0.00%"), (None, "–")):
            found = parts.blank_row(site.Site(), 1_009, share, "!")
            self.assertEqual(re.findall(">([^<>]+)</t[dh]>", found),
                             ["Blank votes", "1,009", said, "!"])

    def test_a_head_of_numbers_that_may_change(self):
        for before, wanted in (({}, True), (None, False)):
            found = parts.changing(site.Site(), "seats", before)
            self.assertEqual((found.numbers, 'class="change"' in found.said), (True, wanted))

    def test_a_bar_of_what_is_done(self):
        self.assertIn('style="width:66.67%"', parts.progress_bar(site.Site(), "done", 2, 3))


class Division(Case):
    def test_pieces(self):
        """In bytes; what alone has no room has a group of its own, and none is empty."""
        for texts, room, wanted in (
                ([4, 4, 2], 8, [[4, 4], [2]]), ([4, 4, 2], 7, [[4], [4, 2]]),
                ([4, 4, 2], 10, [[4, 4, 2]]), ([9, 1, 9], 5, [[9], [1], [9]]), ([], 5, [[]])):
            with self.subTest(texts=texts, room=room):
                self.assertEqual(sizes(parts.pieces([part_of(size) for size in texts], room)),
                                 wanted)
        self.assertEqual(parts.pieces(["ñ", "ñ", "n"], 4), [["ñ", "ñ"], ["n"]])

    def test_room_for_links(self):
        """Links take room of each page; those of more pages may take more. Here those from the
        first page are measured, 5 bytes, and 8 where there are more than three."""
        def links(groups, here):
            many = 50 if here else 8 if len(groups) > 3 else 5
            return "y" * many if len(groups) >= least else ""

        for many, room, least, wanted in (
                (6, 30, 2, [2, 2, 2]), (3, 30, 2, [3]), (3, 30, 1, [2, 1]), (6, 35, 2, [3, 3]),
                (7, 25, 2, [1] * 7), (8, 27, 2, [1] * 8), (6, 60, 2, [6]),
                (9, 28, 2, [2, 2, 2, 2, 1])):
            with self.subTest(many=many, room=room, least=least):
                found = parts.divided([part_of(10) for _ in range(many)], room, links)
                self.assertEqual([len(group) for group in found], wanted)

    def test_links_to_further_pages(self):
        """By the tables of each, once; the page that has them is no link."""
        groups = [[part_of(1, "Seats"), part_of(1, "Votes"), part_of(1, "Seats")],
                  [part_of(1, "<Awards>")]]
        found = parts.details_links(site.Site(), ["a.html", "b.html"], groups, 1)
        self.assertEqual(re.findall("<li>(.*)</li>", found), [
            '<a href="a.html">Seats, Votes</a>', "<b>&lt;Awards&gt;</b>"])

    def test_links_to_pages_of_rows(self):
        """By the first and the last row of each. One page alone needs none, but from another
        page."""
        it = site.Site()
        links = parts.parts_links(it, "cons", [["Ávila", "Cádiz", "León"], ["Soria"]], 0)
        self.assertEqual(re.findall('<(?:b|a) class="piece".*?</[ab]>', links), [
            '<b class="piece">Ávila – León</b>',
            '<a class="piece" href="cons-2.html">Soria – Soria</a>'])
        self.assertEqual(parts.parts_links(it, "cons", [["Ávila"]], 0), "")
        self.assertIn('href="cons-1.html"', parts.parts_links(it, "cons", [["Ávila"]], None))

    def test_rows_that_are_searched(self):
        """Where two have room beside the links to three pages, three would have without these."""
        it, rows = site.Site(), [part_of(100) for _ in range(5)]
        links = parts.parts_links(it, "x", [["a", "b"], ["c", "d"], ["e", "e"]], 0)
        self.assertGreater(parts.size(links), 100)
        empty = "z" * (parts.PAGE_ROOM - parts.size(links) - 200)
        groups, of_groups = parts.searched(it, "x", rows, list("abcde"), empty)
        self.assertEqual([len(group) for group in groups], [2, 2, 1])
        self.assertEqual(re.findall('class="piece".*?>(.*?)<', of_groups(groups, 2)),
                         ["a – b", "c – d", "e – e"])

    def test_the_room_of_a_page(self):
        """A page and its line of how old it is are below 60,000 bytes."""
        self.assertEqual(parts.room_beside("a" * 900, "ñ" * 50), 55_900)
        self.assertEqual(parts.unaged("a<!--age-->old<!--/age-->b<!--age-->c<!--/age-->"),
                         "a<!--age--><!--/age-->b<!--age-->c<!--/age-->")


def con_of(result=RESULT, **values):
    return results.con_of(result | values)


def of_many_lists(many, certified=True):
    """A constituency whose lists L0, L1 and so on have 100, 99, .. votes, and a seat each."""
    of_all = [RESULT["lists"][0] | {"code": f"L{n}", "name": f"List {n}", "votes": 100 - n,
                                    "provisional": 1, "seats": 1 if certified else None}
              for n in range(many)]
    return con_of(method="hare", awards=[], holders=[], lists=of_all, seats=many, lot=[],
                  certified=certified, status="certified" if certified else "open")


def table_of(page, caption="Seats and votes of each list"):
    return Page(str(page)).tables[caption]


class PartsForOtherSites(Case):
    HEAD = {"headline": None, "counted_line": None, "outlook": None}

    def con_part(self, con):
        text = embed.con_embedded(site.Site(), "c1", con, self.HEAD)(NOW)
        return text, table_of(text)

    def country_part(self, *cons):
        cons = {f"c{n}": con for n, con in enumerate(cons)}
        it = site.Site()
        text = embed.country_embedded(it, country.together(cons, {}), cons)(NOW)
        return text, table_of(text)

    def test_how_many_lists_a_part_shows(self):
        """Eight, and the others together: L8 and L9 have 92 and 91 votes of the 955 of ten."""
        for certified, word in ((True, ""), (False, " provisional")):
            for part in (self.con_part, self.country_part):
                with self.subTest(certified=certified, part=part.__name__):
                    text, rows = part(of_many_lists(10, certified))
                    self.assertEqual(text.count('<p class="none">'), 0 if certified else 1)
                    self.assertEqual([row[0] for row in rows[1:]], [
                        *(f"L{n} List {n}" for n in range(8)), "2 more lists", "Total"])
                    self.assertEqual(rows[8][1:], [f"1{word}", "93", "9.74%"])
                    self.assertEqual(rows[9][1:], [f"2{word}", "183", "19.16%"])
                    self.assertEqual(rows[10][1:], [f"10{word}", "955", ""])
                    _, rows = part(of_many_lists(8, certified))
                    self.assertEqual([row[0] for row in rows[8:]], ["L7 List 7", "Total"])
        _, rows = self.con_part(of_many_lists(9))
        self.assertEqual(rows[9], ["1 more list", "1", "92", "10.65%"])

    def test_the_part_of_a_constituency(self):
        """Seats of a certificate; provisional ones, with the word and with how much is counted;
        and none. Those that a lot would decide have a row, and the last row is of all."""
        open_ = {"certified": False, "status": "open", "holders": [],
                 "lists": with_lists(RESULT, seats=[None, None])["lists"]}
        lot = open_ | {"status": "lot", "question": 1, "group": ["A", "B"],
                       "lists": with_lists(RESULT, seats=[None] * 2, provisional=[1, 1])["lists"]}
        none = open_ | {"closed": 0, "lists": with_lists(RESULT, seats=[None] * 2,
                                                         votes=[0, 0])["lists"]}
        past = {"past": [{"edition": 2, "seats": [1, 2]}]}
        rest = "not the result until the board certifies."
        for name, con, head, cells, total, said, dots in (
                ("certified", con_of(), "seats", [["B Beta", "2"], ["A Alpha", "1"]],
                 ["Total", "3", "200", ""], [], 3),
                ("all counted", con_of(**open_), "provisional seats",
                 [["B Beta", "2 provisional"], ["A Alpha", "1 provisional"]],
                 ["Total", "3 provisional", "200", ""],
                 ["Provisional, with 100.00% of the polling stations counted (1 of 1): all votes "
                  f"are counted, and the 3 seats are {rest}"], 3),
                ("a part", con_of(**open_, stations=3, received=2), "provisional seats",
                 [["B Beta", "2 provisional"], ["A Alpha", "1 provisional"]],
                 ["Total", "3 provisional", "200", ""],
                 ["Provisional, with 33.33% of the polling stations counted (1 of 3): how the 3 "
                  "seats would go if the votes counted so far were all the votes. They are not the "
                  "result, and may still change."], 3),
                ("a lot", con_of(**lot), "provisional seats",
                 [["A Alpha", "1 provisional"], ["B Beta", "1 provisional"],
                  ["Seats waiting for a lot", "1"]], ["Total (all seats)", "3", "200", ""],
                 ["Provisional, with 100.00% of the polling stations counted (1 of 1): all votes "
                  f"are counted, and the 2 seats are {rest}"], 3),
                ("a lot of a part", con_of(**lot, stations=2, received=1), "provisional seats",
                 [["A Alpha", "1 provisional"], ["B Beta", "1 provisional"],
                  ["Seats waiting for a lot", "1"]], ["Total (all seats)", "3", "200", ""],
                 ["Provisional, with 50.00% of the polling stations counted (1 of 2): how the 3 "
                  "seats would go if the votes counted so far were all the votes. They are not the "
                  "result, and may still change."], 3),
                ("reopened", con_of(**open_, **past), "provisional seats",
                 [["B Beta", "2 provisional"], ["A Alpha", "1 provisional"]],
                 ["Total", "3 provisional", "200", ""],
                 ["Provisional, with 100.00% of the polling stations counted (1 of 1): the "
                  "certificate is withdrawn. The 3 seats are not the result, and may still change."
                  ], 3),
                ("nothing counted", con_of(**none), "seats", [["A Alpha", "–"], ["B Beta", "–"]],
                 ["Total", "3", "–", ""], [], 0)):
            with self.subTest(name=name):
                text, rows = self.con_part(con)
                self.assertEqual(rows[0][1], head)
                self.assertEqual(sorted(row[:2] for row in rows[1:-1]), sorted(cells))
                self.assertEqual(rows[-1], total)
                self.assertEqual([row[2:] for row in rows[1:3]], [
                    ["100", "50.00%"] if dots else ["–", "–"]] * 2)
                self.assertEqual([shown_text(one) for one
                                  in re.findall('<p class="none">(.*?)</p>', text)], said)
                self.assertEqual(sum(path.count("h0") for path
                                     in re.findall('<g [^>]*><path[^>]* d="([^"]*)"', text)), dots)

    def test_a_part_that_is_withdrawn(self):
        text = embed.withdrawn_embedded(site.Site())(NOW)
        self.assertIn(shown_text(site.Site().said("page_withdrawn_said")), text)
        self.assertNotIn("<table", text)
        self.assertNotIn("page_withdrawn_said", self.con_part(con_of())[0])


class Lists(Case):
    def test_the_elected_for_programs(self):
        """The list with more votes first; its seats in a constituency are numbered from one, and
        an empty one has no place and no name."""
        other = con_of(con="c2", name="Ávila", holders=[["A", 1, "Ana"], ["B", 2, "=Bo"],
                                                        ["B", 1, "Bea"]],
                       lists=with_lists(RESULT, votes=[90, 100])["lists"])
        self.assertEqual(lists.elected_csv({"c1": con_of(), "c2": other}).splitlines(), [
            "con,con_name,list,seat,order,candidate", "c2,Ávila,B,1,2,'=Bo", "c2,Ávila,B,2,1,Bea",
            "c2,Ávila,A,1,1,Ana", "c1,Twin Town,A,1,1,Ana", "c1,Twin Town,B,1,1,Bea",
            "c1,Twin Town,B,2,,"])

    def test_the_page_of_a_list(self):
        """Its votes and seats in each constituency in the order of their names, and who is
        elected; what is provisional has a column of its own where it is."""
        open_ = con_of(con="c2", name="Ávila", certified=False, status="open", holders=[],
                       stations=3, received=2,
                       lists=with_lists(RESULT, seats=[None] * 2, votes=[50, 150])["lists"])
        heads = ["Constituency", "seats", "votes", "share"]
        for cons, rows, counted, elected, said in (
                ({"c1": con_of(), "c2": open_},
                 [["Constituency", "certified seats", "provisional seats", "votes", "share"],
                  ["Ávila", "–", "2 provisional", "150", "75.00%"],
                  ["Twin Town", "2", "–", "100", "50.00%"]],
                 "50.00% of the polling stations are counted, 2 of 4.", "The elected so far",
                 ["250 votes, 62.50% of the valid votes, including blank votes.",
                  "Certified: 2 of the 3 seats that are certified so far, of 6 in all.",
                  "Provisional: 2 seats, in constituencies with 1 of 3 polling stations counted "
                  "(33.33%). These seats are not the result, and may still change."]),
                ({"c1": con_of(base="lists", blank=100)},
                 [heads, ["Twin Town", "2", "100", "50.00%"]],
                 "The only polling station is counted.", "The elected",
                 ["100 votes, 50.00% of the votes of the lists.", "2 of 3 seats, certified."])):
            with self.subTest(cons=list(cons)):
                of_all = country.together(cons, {})
                [party] = [party for party in of_all.parties if party.code == "B"]
                [written] = lists.list_pages(site.Site(), of_all, party, cons)
                text = written(NOW)
                self.assertEqual(table_of(text, "Votes and seats of this list in each "
                                                "constituency"), rows)
                self.assertEqual(table_of(text, "Holders of seats")[1:],
                                 [["Bea", "1", "Twin Town"], ["empty", "–", "Twin Town"]])
                self.assertEqual(re.findall("<h2>(.*?)</h2>", text),
                                 ["Constituency by constituency", elected])
                self.assertIn(f"<b>{counted}</b>", text)
                self.assertEqual([plain(one) for one in
                                  re.findall('<p class="lead">(.*?)</p>', text)], said)

    def test_a_list_that_goes_on(self):
        """On pages with numbers from one, each of which has the links to the others; what is said
        of the list is on the first."""
        for many, pages in ((60, 2), (100, 3)):
            cons = {f"c{n}": con_of(con=f"c{n}", name=f"Constituency {n} {'W' * 60}")
                    for n in range(many)}
            of_all = country.together(cons, {})
            written = lists.list_pages(site.Site(), of_all, of_all.parties[0], cons)
            texts = [one(NOW) for one in written]
            names = ["list-B.html", *(f"lists-B-{n}.html" for n in range(1, len(texts)))]
            with self.subTest(many=many):
                self.assertEqual(len(texts), pages)
                for here, text in enumerate(texts):
                    self.assertEqual([name for name in names if f'<a href="{name}">' in text],
                                     [name for name in names if name != names[here]])
                    self.assertEqual('class="lead"' in text, here == 0)
                    self.assertLess(len(text.encode()), 57_000)
                self.assertEqual(sum(text.count("<tr role") for text in texts) - sum(
                    text.count("<table") for text in texts), 3 * many)

    def test_the_page_of_the_elected(self):
        """By constituency in the order of their names; none where no seat is certified."""
        cons = {"c1": con_of(), "c2": con_of(con="c2", name="Ávila", holders=[["A", 2, "Abel"]]),
                "c3": con_of(con="c3", certified=False, status="open", holders=[], lists=with_lists(
                    RESULT, seats=[None] * 2)["lists"], stations=3)}
        [written] = lists.elected_pages(site.Site(), country.together(cons, {}), cons)
        text = written(NOW)
        self.assertEqual(table_of(text, "Holders of seats"), [
            ["name", "List", "place", "Constituency"], ["Abel", "A", "2", "Ávila"],
            ["Ana", "A", "1", "Twin Town"], ["Bea", "B", "1", "Twin Town"],
            ["empty", "B", "–", "Twin Town"]])
        self.assertIn("Who holds the 4 certified seats, in 2 of 3 constituencies.", text)
        self.assertIn("<h1>The elected so far</h1>", text)
        self.assertIn("60.00% of the polling stations are counted, 3 of 5.", text)
        cons = {"c3": cons["c3"]}
        self.assertEqual(lists.elected_pages(site.Site(), country.together(cons, {}), cons), [])


class Stations(Case):
    ENTRY = {"base": "valid", "stations": [{"code": code, "electors": electors} for code, electors
                                           in (("s1", 300), ("s2", 1_200), ("s3", 500))]}
    RETURNS = "station,slip,blank,spoiled,A,B\ns3,p9,4,3,20,1000\ns1,p1,2,1,60,50\n"
    STATES = {"s1": "closed", "s2": "received", "s3": "closed"}
    OPEN = {"certified": False, "status": "open", "holders": []}

    @staticmethod
    def con(**values):
        """A constituency of these stations, where B has more votes."""
        of_all = with_lists(RESULT, votes=[80, 1_050])["lists"]
        return con_of(RESULT | {"lists": of_all, "stations": 3, "closed": 2}, **values)

    def page(self, states=None, **values):
        [written], starts = stations.stations_pages(site.Site(), "c1", self.con(**values),
                                                    self.ENTRY, self.RETURNS, states)
        self.assertEqual(starts, [0])
        return written(NOW)

    def test_the_table_of_stations(self):
        """Lists are in the order of their votes, then the blank and the spoiled ones; a station
        whose return is not closed has dashes. Of 800 electors 1,140 papers."""
        text = self.page()
        self.assertEqual(table_of(text, "Returns station by station"), [
            ["Station", "electors", "B", "A", "blank", "spoiled"],
            ["s1", "300", "50", "60", "2", "1"], ["s2", "1,200", "–", "–", "–", "–"],
            ["s3", "500", "1,000", "20", "4", "3"]])
        self.assertIn('href="stations-c1-3.csv"', text)
        self.assertIn('tabindex="0"', text)
        self.assertIn("66.67% of the polling stations are counted, 2 of 3.", text)
        self.assertIn("Turnout of what is counted: 142.50%.", text)

    def test_the_stations_of_an_open_constituency(self):
        """Each has a state, and the file is that of what is closed so far."""
        past = {"past": [{"edition": 2, "seats": [1, 2]}]}
        for values, is_again in (({}, False), (past, True)):
            text = self.page(self.STATES, **self.OPEN, **values)
            with self.subTest(is_again=is_again):
                rows = table_of(text, "Returns station by station")
                self.assertEqual([row[:3] for row in rows], [
                    ["Station", "return", "electors"], ["s1", "counted", "300"],
                    ["s2", "received", "1,200"], ["s3", "counted", "500"]])
                self.assertIn('href="stations-c1-open.csv"', text)
                self.assertEqual("The certificate is withdrawn: 2 of 3 polling stations are "
                                 "counted." in shown_text(text), is_again)

    def test_where_each_page_begins(self):
        """At the first station, and at as many after it as the pages before have."""
        entry = {"stations": [{"code": f"s{n}", "electors": 100} for n in range(1_200)]}
        written, starts = stations.stations_pages(site.Site(), "c1", self.con(), entry,
                                                  self.RETURNS)
        rows = [table_of(one(NOW), "Returns station by station")[1:] for one in written]
        self.assertGreater(len(rows), 2)
        self.assertEqual([row[0][0] for row in rows], [f"s{start}" for start in starts])
        self.assertEqual(sum(map(len, rows)), 1_200)

    def places(self, text, states=None):
        it = site.Site()
        it.places = {"s1": "North", "s2": "South", "s3": "North"}
        return stations.places_pages(it, "c1", self.con(**self.OPEN), self.ENTRY, text, states)

    def test_the_pages_of_places(self):
        """In each the lists are in the order of their votes there. Before anything is counted they
        are in that of the setup. Above their table are the stations of its rows, which the results
        of the constituency may have had in another moment."""
        for text, heads, rows, counted in (
                (self.RETURNS, [["B", "A"], ["A", "B"]],
                 [["50", "60", "2", "1"], ["1,000", "20", "4", "3"], ["–"] * 4],
                 "66.67% of the polling stations are counted, 2 of 3."),
                ("", [["A", "B"], ["A", "B"]], [["–"] * 4] * 3,
                 "No polling station is counted yet.")):
            with self.subTest(text=text):
                of_each, of_table, found = self.places(text)
                self.assertEqual([place.name for place in found], ["North", "South"])
                tables = [table_of(one.written(NOW), "Returns station by station")
                          for one in of_each]
                self.assertEqual([table[0][2:4] for table in tables], heads)
                self.assertEqual([row[2:] for table in tables for row in table[1:]], rows)
                [page] = of_table
                self.assertIn(counted, shown_text(page(NOW)))
        it = site.Site()
        self.assertEqual(stations.places_pages(it, "c1", self.con(), self.ENTRY, self.RETURNS),
                         ([], [], []))

    def test_when_the_page_of_a_place_is_another_one(self):
        """Where a return of it changed or the state of one, and not where one elsewhere did."""
        before = [one.shows for one in self.places(self.RETURNS, self.STATES)[0]]
        for text, states, wanted in (
                (self.RETURNS, self.STATES, [True, True]),
                (self.RETURNS, self.STATES | {"s2": "queried"}, [True, False]),
                (self.RETURNS.replace("60,50", "50,60"), self.STATES, [False, True]),
                (self.RETURNS.replace("p9", "p8"), self.STATES, [False, True])):
            now = [one.shows for one in self.places(text, states)[0]]
            self.assertEqual([one == was for one, was in zip(now, before)], wanted)
