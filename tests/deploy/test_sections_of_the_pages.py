"""Sections of the page of a constituency at their edges, in process: seats and why there are none,
shares, quotients, who holds the seats, lots, what is open, and the pages of places."""

import json
import re
from datetime import datetime, timezone
from unittest import mock

from tests.support.case import Case
from tests.support.pages import PAGE_BYTES, RESULT, Page, shown_text, with_lists
from tests.support.scripts import module

con_pages, country, lots, names, opened, parts, places, results, site = map(module, (
    "press_con", "press_country", "press_lots", "press_names", "press_open", "press_parts",
    "press_places", "press_results", "press_site"))

ENTRY = {"base": "valid", "lot": "fixed", "method": "dhondt", "threshold": 0, "name": "Twin Town",
         "lists": [{"code": "A", "candidates": ["Ana", "Abel"]},
                   {"code": "B", "candidates": ["Bea"]}],
         "stations": [{"code": "s1", "electors": 300}]}
ORDER = {"A": 0, "B": 1}
OPEN = with_lists(RESULT, seats=[None, None], votes=[70, 30], provisional=[2, 1]) | {
    "certified": False, "status": "open", "edition": 1, "lot": [], "stations": 4, "closed": 1,
    "received": 3, "holders": [], "awards": []}
PAST = [{"edition": 3, "seats": [1, 2]}, {"edition": 5, "seats": [2, 1]}]
LOT = {"status": "lot", "question": 1, "group": ["A", "B"]}
NOON = datetime(2026, 11, 29, 12, tzinfo=timezone.utc)


def certified(**more):
    return results.con_of(RESULT | more)


def counting(**more):
    return results.con_of(OPEN | more)


def text(part):
    """The text that is shown of a part or of several."""
    return " ".join(shown_text(one).strip() for one in ([part] if isinstance(part, str) else part))


def tables(part):
    return Page("".join([part] if isinstance(part, str) else part)).tables


def many_lists(many, seats):
    """A certificate of many lists with long names, of which each has a seat."""
    rows = [{"code": f"L{n:03}", "name": f"The list of number {n} of the north and the south",
             "votes": 9000 - n, "eligible": True, "seats": 1 if n < seats else 0,
             "provisional": 0, "short": 5} for n in range(many)]
    return results.con_of(RESULT | {
        "lists": rows, "seats": seats, "lot": [],
        "awards": [[f"L{n:03}", 1, 9000 - n, 1] for n in range(seats)],
        "holders": [[f"L{n:03}", 1, f"Candidate {n}"] for n in range(seats)]})


class Sections(Case):
    def setUp(self):
        super().setUp()
        self.site = site.Site()

    def test_why_there_is_no_certificate(self):
        for more, key, said in (
                ({}, "none_open", "A certificate needs every polling station counted."),
                ({"past": PAST, "note": "why"}, "none_withdrawn",
                 "Reopened: 1 of 4 polling stations are counted (25.00%); votes and seats may "
                 "still change. Reason: why. A certificate needs every polling station counted."),
                (LOT, "none_open", "A certificate needs every polling station counted."),
                (LOT | {"closed": 4}, "none_open",
                 "A lot must be drawn between A and B for 1 seat; the board can certify after it."),
                (LOT | {"closed": 4, "past": PAST}, "none_withdrawn",
                 "A lot must be drawn between A and B for 1 seat; the board can certify after it."),
                ({"closed": 4}, "none_open",
                 "Every polling station is counted; the board has not certified."),
                ({"closed": 4, "past": PAST}, "none_withdrawn",
                 self.site.say("may_change"))):
            with self.subTest(more=more):
                found = con_pages.why_none(self.site, counting(**more))
                self.assertEqual((found[0], text(found[1])), (key, said))

    def test_what_a_certificate_says(self):
        begin = "Certified in edition 7: 3 seats by D’Hondt’s rule."
        for past, said in (
                ([], ""),
                (PAST[:1], " Reopened and certified again: the certificate of edition 3 is "
                           "withdrawn."),
                (PAST, " Reopened 2 times and certified again: the certificate before this one, "
                       "of edition 5, is withdrawn.")):
            with self.subTest(past=past):
                self.assertEqual(text(con_pages.certified_said(
                    self.site, certified(edition=7, past=past))), begin + said)

    def test_where_the_order_of_a_lot_is_turned_round(self):
        """Where the rule says so, and by quotients alone."""
        for lot, method, drawn, wanted in (
                ("alternating", "dhondt", ["B", "A"], True),
                ("alternating", "hare", ["B", "A"], False), ("fixed", "dhondt", ["B", "A"], False),
                ("alternating", "dhondt", [], False)):
            with self.subTest(lot=lot, method=method):
                con = certified(lot=drawn, lot_rule=lot, method=method)
                found = con_pages.seats_sections(self.site, "c1", con, 9_000)
                self.assertEqual("this order is turned round" in text(found), wanted)
        found = con_pages.seats_sections(self.site, "c1", certified(), 9_000)
        self.assertNotIn("turned round", text(found))
        self.assertEqual(tables(found)["Seats of each list"][1:],
                         [["A Alpha", "1"], ["B Beta", "2"], ["Total", "3"]])

    def test_why_the_last_seat_is_where_it_is(self):
        """Its quotient and the next one; lists with as high a quotient, those of fewer votes apart;
        and who lacked the fewest votes, and from whom it would have had the seat."""
        def con(votes, won, short, **more):
            return results.con_of(RESULT | {
                "seats": len(won), "lot": [], "awards": won,
                "lists": [{"code": code, "name": code, "votes": many, "eligible": True, "short": of,
                           "provisional": 0, "seats": sum(one[0] == code for one in won)}
                          for (code, many), of in zip(votes.items(), short)]} | more)

        rounded = "Quotients are rounded down here; the rule compares them whole."
        for found, said in (
                (con({"A": 100, "B": 90, "C": 5}, [["A", 1, 100, 1], ["B", 1, 90, 1],
                                                   ["A", 2, 100, 2]], [None, 11, 96]),
                 ["Seat 3, the last, went to A: 100 votes divided by 2 are 50.",
                  f"The next highest quotient was that of B: 90 divided by 2 are 45. {rounded}",
                  "B lacked the fewest votes for one seat more: 11. With these and the same other "
                  "votes, A would have one fewer."]),
                (con({"A": 200, "B": 100, "C": 100, "D": 99}, [["A", 1, 200, 1], ["A", 2, 200, 2]],
                     [None] * 4),
                 ["Seat 2, the last, went to A: 200 votes divided by 2 are 100.",
                  "Exactly as high was the next quotient of B, C, with fewer votes in all: of "
                  "equal quotients the list with more votes gets the seat."]),
                (con({"A": 200, "B": 200, "C": 100}, [
                    ["A", 1, 200, 1], ["B", 1, 200, 1], ["B", 2, 200, 2]], [1, None, 2]),
                 ["Seat 3, the last, went to B: 200 votes divided by 2 are 100.",
                  "Exactly as high was the next quotient of A: a lot decided.",
                  "Exactly as high was the next quotient of C, with fewer votes in all: of equal "
                  "quotients the list with more votes gets the seat.",
                  "A lacked the fewest votes for one seat more: 1. With these and the same other "
                  "votes, B would have one fewer."]),
                (con({"A": 100, "B": 40}, [["A", 1, 500, 7], ["A", 2, 500, 15], ["B", 1, 200, 7]],
                     [None, None], method="modified-sainte-lague"),
                 ["Seat 3, the last, went to B: 40 votes divided by 1.4 are 28.",
                  f"The next highest quotient was that of A: 100 divided by 5 are 20. {rounded}"]),
                (counting(), []), (certified(awards=[]), [])):
            with self.subTest(said=said):
                self.assertEqual([text(one) for one in con_pages.last_seat(self.site, found)], said)

    def test_provisional_seats(self):
        """Those that a lot would decide are none of a list; where all is counted what is needed is
        said above. The number is that of all seats, or of those that no lot decides."""
        for more, begin, lot, rows in (
                ({}, "Provisional, with 25.00% of the polling stations counted (1 of 4): how the 3 "
                     "seats would go", False, [["A Alpha", "2 provisional"],
                                               ["B Beta", "1 provisional"],
                                               ["Total", "3 provisional"]]),
                (LOT, "Provisional, with 25.00% of the polling stations counted (1 of 4): how the "
                      "3 seats would go", True, [["A Alpha", "1 provisional and perhaps"],
                                                 ["B Beta", "1 provisional and perhaps"],
                                                 ["Seats waiting for a lot", "1"],
                                                 ["Total (all seats)", "3"]]),
                (LOT | {"closed": 4}, "all votes are counted, and the 2 seats are not the result "
                                      "until the board certifies.", False, None),
                (LOT | {"closed": 4, "past": PAST}, "the certificate is withdrawn. The 2 seats are "
                                                    "not the result, and may still change.",
                 False, None),
                ({"closed": 4}, "and the 3 seats are not the result until the board", False, None)):
            with self.subTest(more=more):
                seats = {"provisional": [1, 1]} if "group" in more else {}
                con = results.con_of(with_lists(OPEN | more, **seats))
                found = con_pages.provisional_sections(self.site, con, "none_open", "why", 9_000)
                self.assertIn(begin, text(found))
                self.assertEqual("a lot between A and B would decide" in text(found), lot)
                if rows:
                    shown = [[row[0], re.sub(" 1 more by lot", "", row[1])]
                             for rows in tables(found).values() for row in rows[1:]]
                    self.assertEqual(shown, rows)

    def test_votes_and_shares(self):
        """Dashes before anything is counted. A share is of the rule's votes, rounded half up."""
        for base, wanted in (("lists", None), ("valid", 741)):
            self.assertEqual(con_pages.blank_share(counting(blank=8, base=base)), wanted)
        for more, rows in (
                ({"blank": 8}, [["A Alpha", "70", "64.81%", "yes"],
                                ["B Beta", "30", "27.78%", "yes"],
                                ["Blank votes", "8", "7.41%", "–"]]),
                ({"blank": 8, "base": "lists"}, [["A Alpha", "70", "70.00%", "yes"],
                                                 ["B Beta", "30", "30.00%", "yes"],
                                                 ["Blank votes", "8", "–", "–"]]),
                ({"closed": 0, "received": 4}, [["A Alpha", "–", "–", "–"],
                                                ["B Beta", "–", "–", "–"]])):
            with self.subTest(more=more):
                found = con_pages.votes_sections(self.site, "c1", counting(**more), 9_000)
                [shown] = tables(found).values()
                self.assertEqual(shown[1:], rows)
        for more, wanted in (({}, False), ({"closed": 4, "past": PAST}, True),
                             ({"closed": 4}, False)):
            found = con_pages.votes_sections(self.site, "c1", counting(**more), 9_000)
            self.assertEqual(self.site.say("may_change") in text(found), wanted)
        for threshold in (0, 300):
            found = "".join(con_pages.votes_sections(
                self.site, "c1", counting(threshold=threshold), 9_000))
            is_drawn = threshold > 0
            self.assertEqual(["3.00%" in found, 'class="threshold"' in found], [is_drawn] * 2)
        for former, wanted in (({}, False), ({"c1": {"seats": {}, "votes": {"A": 1}, "valid": 2}},
                                             True)):
            self.site.former = former
            found = con_pages.votes_sections(self.site, "c1", counting(closed=4), 9_000)
            self.assertEqual(self.site.say("change_shares") in text(found), wanted)

    def test_the_lines_under_the_title(self):
        self.assertEqual(con_pages.con_head(self.site, certified(), None)["headline"],
                         "\u2068Beta\u2069 has won 2 of 3\u00a0seats.")
        for closed, words in ((1, "leads with 70.00%"), (4, "has the most votes")):
            found = con_pages.con_head(self.site, counting(closed=closed, spoiled=20), 240)
            self.assertIn("\u2068Alpha\u2069", found["headline"])
            self.assertEqual("leads" in found["headline"], closed == 1)
            # 120 papers of 240 electors
            self.assertIn("50.00%", found["counted_line"]["turnout"])

    def test_what_the_section_of_the_count_has(self):
        """The turnout where all is counted and the setup is known; links to the pages that there
        are; and that the returns come later."""
        def shown(con, entry, published, has_places):
            found = con_pages.counted_section(self.site, "c1", con, con["progress"], entry,
                                              published, has_places)
            said = text(found)
            return [self.site.say("stations_later") in said, "Turnout: " in said,
                    re.findall('href="(.*?)"', found), "spoiled" in said]

        whole = certified(spoiled=10)
        self.assertIn("Turnout: 70.00 per cent, 210 of 300 electors.", text(
            con_pages.counted_section(self.site, "c1", whole, whole["progress"], ENTRY, True,
                                      False)))
        both = ["places-c1-1.html", "stations-c1-1.html"]
        for con, entry, published, has_places, wanted in (
                (whole, ENTRY, True, True, [False, True, both, True]),
                (whole, None, False, False, [False, False, [], True]),
                (whole, ENTRY, False, True, [True, True, both[:1], True]),
                (counting(), ENTRY, True, False, [False, False, both[1:], True]),
                (counting(closed=0, received=4), ENTRY, False, False, [True, False, [], False])):
            with self.subTest(con=con["view"]["closed"], entry=entry, published=published):
                self.assertEqual(shown(con, entry, published, has_places), wanted)

    def test_who_holds_the_seats(self):
        """In the order of votes; an empty seat, and who is gone, with the name where the setup has
        the place."""
        con = certified(gone=[["A", 2, "moved <away>"], ["B", 2, "ill"]])
        found = con_pages.holders_sections(self.site, con, {"B": 0, "A": 1},
                                           {"A": ["Ana", "Abel"], "B": ["Bea"]})
        self.assertEqual(tables(found)["Holders of the seats"][1:], [
            ["B", "1", "Bea"], ["B", "–", "empty"], ["A", "1", "Ana"]])
        self.assertIn("A, place 2, Abel: moved &lt;away&gt;", text(found))
        self.assertIn("B, place 2: ill", text(found))
        self.assertEqual((len(found), con_pages.holders_sections(self.site, counting(), {}, {})),
                         (1, []))
        # Those who are gone go on on other parts, each once.
        con = certified(gone=[["A", n, "w" * 190] for n in range(1, 301)])
        found = con_pages.holders_sections(self.site, con, ORDER, {})
        self.assertGreater(len(found), 2)
        self.assertEqual([int(n) for n in re.findall(r"place (\d+)", text(found))],
                         list(range(1, 301)))

    def test_quotients_in_tables_as_wide_as_a_sheet(self):
        """Eight side by side; of more each table says which it has."""
        for seats, captions in ((7, ["Quotients of each list"]),
                                (8, ["Quotients for seats 1 to 8", "Quotients for seats 9 to 9"]),
                                (16, ["Quotients for seats 1 to 8", "Quotients for seats 9 to 16",
                                      "Quotients for seats 17 to 17"])):
            con = certified(seats=seats, lists=with_lists(RESULT, seats=[0, seats])["lists"],
                            awards=[["B", n, 100, n] for n in range(1, seats + 1)])
            found = con_pages.quotients_sections(self.site, con, {"B": 0, "A": 1})
            shown = {caption: rows for caption, rows in tables(found).items()
                     if "Quotients" in caption}
            with self.subTest(seats=seats):
                self.assertEqual(len(shown), len(captions), list(shown))
                heads = [head for rows in shown.values() for head in rows[0][1:]]
                self.assertEqual([int(re.search(r"\d+", head)[0]) for head in heads],
                                 list(range(1, seats + 2)))
                self.assertEqual({rows[1][0][:1] for rows in shown.values()}, {"B"})
                self.assertIn(self.site.say("table_short"), text(found))
                self.assertEqual([re.findall(r"\d+", caption) for caption in shown],
                                 [re.findall(r"\d+", caption) for caption in captions])
                self.assertEqual("".join(found).count('tabindex="0"'), len(captions))
        of_none = con_pages.quotients_sections(self.site, certified(
            lists=with_lists(RESULT, eligible=[False, False])["lists"]), ORDER)
        self.assertEqual(len(of_none), 2)
        self.assertEqual(con_pages.quotients_sections(self.site, counting(), ORDER), [])

    def test_awards_and_quotas(self):
        self.assertEqual((con_pages.awards_sections(self.site, counting()),
                          con_pages.quota_sections(self.site, certified(), ORDER)), ([], []))
        found = con_pages.awards_sections(self.site, certified())
        [rows] = tables(found).values()
        self.assertEqual(rows[1:], [["1", "B", "1", "100", "1", "100"],
                                    ["2", "A", "1", "100", "1", "100"],
                                    ["3", "B", "2", "100", "2", "50"]])
        self.assertIn("Quotients are rounded down here; the rule compares them whole.", text(found))
        found = con_pages.quota_sections(self.site, certified(
            method="hare", quota=[["A", 1, 1500, 2], ["B", 1, 0, 1]]), {"B": 0, "A": 1})
        [rows] = tables(found).values()
        self.assertEqual(rows[1:], [["B", "100", "1", "0", "1"], ["A", "100", "1", "1,500", "2"]])

    def test_certificates_that_are_withdrawn(self):
        """A table each, with a link to its returns where they are there."""
        con = certified(edition=7, past=PAST, note="why <1>")
        found = con_pages.past_sections(self.site, con, {"B": 0, "A": 1},
                                        {3: "stations-c1-3.csv", 7: "stations-c1-7.csv"})
        shown = tables(found)
        self.assertEqual([rows[1:] for rows in shown.values()], [
            [["B Beta", "2"], ["A Alpha", "1"]], [["B Beta", "1"], ["A Alpha", "2"]]])
        self.assertEqual(re.findall('href="(.*?)"', "".join(found)), ["stations-c1-3.csv"])
        self.assertIn("why &lt;1&gt;", text(found))
        self.assertNotIn("why", text(con_pages.past_sections(
            self.site, certified(past=PAST), ORDER, {})))
        self.assertIn("No certificate was withdrawn.", text(con_pages.past_sections(
            self.site, certified(), ORDER, {})))

    def test_files_for_programs(self):
        own = ["con-c1.csv", "con-c1.json", "embed-c1.html"]
        for edition, returns, wanted in (
                (3, {}, own), (3, {3: "a.csv", 2: "b.csv"}, [*own, "a.csv"]),
                (4, {"open": "o.csv", 3: "a.csv"}, [*own, "o.csv"]),
                (3, {3: "a.csv", "acts": [("act.pdf", "count", "es")]},
                 [*own, "a.csv", "act.pdf"])):
            with self.subTest(returns=returns):
                found = con_pages.files_section(self.site, "c1", edition, returns)
                self.assertEqual(sorted(re.findall('href="(.*?)"', found)), sorted(wanted))

    def test_a_page_that_goes_on(self):
        """Each has room for all that is on it, and the first as many rows as have room: with the
        next longer tables it would be too long. Nothing is twice, and no page is without links to
        the others."""
        for many, seats, pages in ((2, 3, 1), (100, 90, 3)):
            con = many_lists(many, seats) if many > 2 else certified()
            row = con["progress"]
            bodies = con_pages.con_bodies(self.site, "c1", con, row, None, {}, None, False)
            written = [con_pages.con_page(self.site, con, row, bodies[0], NOON), *(
                con_pages.details_page(self.site, "c1", con, row, body, NOON)
                for body in bodies[1:])]
            with self.subTest(many=many):
                self.assertGreaterEqual(len(written), pages)
                self.assertEqual(pages == 1, len(written) == 1)
                self.assertLess(max(len(page.encode()) for page in written), PAGE_BYTES)
                holders = [row[2] for page in written
                           for caption, rows in Page(page).all_tables
                           if caption == "Holders of the seats" for row in rows[1:]]
                self.assertEqual(len(holders), seats)
                if pages > 1:
                    links = [sorted(set(re.findall('href="(details-c1-.*?)"', page)))
                             for page in written]
                    names = [f"details-c1-{n}.html" for n in range(1, len(written))]
                    self.assertEqual(links[0], sorted(names))
                    self.assertEqual(links[1:], [sorted({*names} - {name}) for name in names])
        # Of the tables that are tried, each by itself, these are the first with which it fits.
        each = []
        for one in con_pages.TABLES_OF_CON:
            with mock.patch("press_con.TABLES_OF_CON", (one,)):
                body, *_ = con_pages.con_bodies(self.site, "c1", con, row, None, {}, None, False)
                each.append(con_pages.con_page(self.site, con, row, body, NOON))
        fit = [page for page in each if len(page.encode()) <= 56_900]
        self.assertEqual((fit[0] == written[0], 0 < len(fit) < len(each)), (True, True))


class Lots(Case):
    def setUp(self):
        super().setUp()
        self.site = site.Site()

    def test_lots_that_are_needed(self):
        self.assertIsNone(lots.lot_line(self.site, 0, True, ["A"]))
        for many, whole, said in (
                (1, True, "1 seat waits for a lot:"), (2, True, "2 seats wait for a lot:"),
                (1, False, "So far 1 seat would wait for a lot:")):
            self.assertEqual(lots.lot_line(self.site, many, whole, ["A", "B"]), (said, "A or B"))
        self.assertIsNone(lots.lot_said(self.site, counting()))
        for closed, said in ((4, "A lot must be drawn between A and B for 1 seat."),
                             (3, "If the votes counted so far were all, a lot between A and B "
                                 "would decide 1 seat.")):
            self.assertEqual(text(lots.lot_said(self.site, counting(**LOT, closed=closed))), said)

    def test_lots_that_were_drawn(self):
        """The lists between which one decided are named where quotients show them: of those of the
        lot the ones with the last quotient that won, and those whose next one is as high."""
        order = "A lot was drawn, in this order: B, then A."
        for more, said in (
                ({}, ["A and B tied for the last seat; the lot gave it to B.", order]),
                ({"lot": []}, []), ({"lot": ["B", "A"], "awards": []}, [order]),
                # The next quotient of A is 45, and not 50.
                (with_lists(RESULT, votes=[90, 100]), [order]),
                # Two of three seats at 100 each, of A, B and C, which has none.
                (with_lists(RESULT | {"lot": ["C", "B"], "awards": [
                    ["A", 1, 200, 1], ["C", 1, 100, 1]], "seats": 2}, votes=[200, 100]) | {
                        "lists": [*with_lists(RESULT, votes=[200, 100], seats=[1, 0])["lists"],
                                  {"code": "C", "name": "Cara", "votes": 100, "eligible": True,
                                   "seats": 1, "provisional": 1, "short": 1}]},
                 ["B and C tied for the last seat; the lot gave it to C.",
                  "A lot was drawn, in this order: C, then B."])):
            with self.subTest(more=more):
                self.assertEqual([text(one) for one in lots.lot_drawn(
                    self.site, results.con_of(RESULT | more))], said)

    def test_lots_of_a_country(self):
        """Three are named, and how many more there are. One without a certificate, or without a
        lot, is none of them."""
        for many, more in ((3, []), (4, ["A lot decided seats in 1 more constituency."]),
                           (5, ["A lot decided seats in 2 more constituencies."])):
            cons = {f"c{n}": certified(con=f"c{n}", name=f"Town {n}") for n in range(many)}
            cons |= {"x": counting(name="Away"), "y": certified(lot=[], name="Bay"),
                     "z": counting(name="Cape", lot=["A", "B"])}
            with self.subTest(many=many):
                self.assertEqual([text(one) for one in lots.lots_decided(self.site, cons)], [
                    *(f"Town {n}: A and B tied for the last seat; the lot gave it to B."
                      for n in range(3)), *more])


class Open(Case):
    def setUp(self):
        super().setUp()
        self.site = site.Site()

    def said(self, cons, certified_seats=0):
        of_all = country.Country(chamber=3 * len(cons), certified=certified_seats, cons=len(cons),
                                 certified_cons=certified_seats // 3)
        found = opened.country_open(self.site, of_all, cons)
        return found and [text(found["head"]), *(f"{text(seats)} {text(one)}"
                                                 for seats, one in found["said"])]

    def test_what_each_constituency_waits_for(self):
        whole = {"closed": 4, "received": 0}
        cons = {"c1": counting(name="Ay", past=PAST[:1], note="why"),
                "c2": counting(name="Bo", **LOT | whole), "c3": counting(name="Co", **whole),
                "c4": counting(name="Du"), "c5": counting(name="El", closed=0, received=4),
                "c6": certified(name="Fa"), "c7": counting(name="Go", past=PAST[:1], **whole),
                "c8": counting(name="Ha", past=PAST[:1], **LOT | whole)}
        self.assertEqual(self.said(cons, 3), [
            "Not certified, 21 of 24 seats:",
            "3 seats: Ay was certified and is reopened; they may still change, and then the board "
            "certifies again. Reason: why. "
            + text(opened.reopened_counted(self.site, cons["c1"], "counted_there")),
            "3 seats: Go was certified and is reopened; they may still change, and then the board "
            "certifies again.",
            "3 seats: Ha was certified and is reopened; they may still change, and then the board "
            "certifies again. A lot must be drawn between A and B for 1 seat.",
            "3 seats: all votes are counted in Bo; a lot between A and B must decide 1 of them, "
            "and then the board can certify.",
            "3 seats: all votes are counted in Co; the board has not certified yet.",
            "3 seats: the count goes on in Du (25.00% counted).",
            "3 seats: nothing is counted yet in El."])
        self.assertIsNone(self.said({"c6": certified()}, 3))

    def test_how_many_are_named(self):
        """Five that wait for the same; of those that are reopened or need a lot three, each in a
        sentence of its own, and how many more."""
        for many, said in ((5, "15 seats: nothing is counted yet in T0, T1, T2, T3, T4."),
                           (6, "18 seats: nothing is counted yet in 6 constituencies.")):
            cons = {f"c{n}": counting(name=f"T{n}", closed=0) for n in range(many)}
            self.assertEqual(self.said(cons)[1:], [said])
        for many, last in ((3, "3 seats: T2 was certified"), (4, "3 seats: 1 more constituency is"),
                           (5, "6 seats: 2 more constituencies are")):
            cons = {f"c{n}": counting(name=f"T{n}", closed=4, past=PAST[:1]) for n in range(many)}
            found = self.said(cons)[1:]
            self.assertEqual((len(found), found[-1].startswith(last)), (min(many, 4), True), found)

    def test_a_constituency_that_is_reopened(self):
        for more, said in (
                ({"note": "why"}, "Twin Town was certified and is reopened: its 3 seats are "
                                  "provisional again. Reason: why."),
                ({"closed": 0}, "Twin Town was certified and is reopened: its 3 seats are not "
                                "certified now.")):
            self.assertEqual(text(opened.reopened_said(self.site, counting(past=PAST, **more))),
                             said)


class Places(Case):
    CON = counting(stations=3)
    ENTRY = ENTRY | {"stations": [{"code": "s1", "electors": 300}, {"code": "s2", "electors": 50},
                                  {"code": "s3", "electors": 7}]}
    COLUMNS = ["station", "slip", "blank", "spoiled", "B", "A"]

    def setUp(self):
        super().setUp()
        self.site = site.Site()
        self.site.places = {"s1": "North", "s2": "North", "s3": "South 10"}

    def place(self, name="North", **more):
        return places.Place(name, self.ENTRY["stations"][:2], **{
            "closed": 2, "electors": 350, "blank": 5, "spoiled": 20,
            "votes": {"A": 60, "B": 30}} | more)

    def test_the_sums_of_a_place(self):
        """Of its stations that are closed, by the columns of the file."""
        found = places.added_up(self.site, self.CON, self.ENTRY, self.COLUMNS, [
            ["s2", "p2", "1", "2", "3", "4"], ["s1", "p1", "10", "20", "30", "40"]])
        north, south = found
        self.assertEqual((north.closed, north.electors, north.blank, north.spoiled, north.votes,
                          north.of_lists), (2, 350, 11, 22, {"A": 44, "B": 33}, 77))
        self.assertEqual((south.name, south.closed, south.electors, south.blank, south.spoiled,
                          south.votes), ("South 10", 0, 0, 0, 0, {"A": 0, "B": 0}))
        self.assertEqual(places.places_csv(self.CON, found).splitlines(), [
            "place,stations,closed,electors,blank,spoiled,A,B", "North,2,2,350,11,22,44,33",
            "South 10,1,0,0,0,0,0,0"])

    def test_the_lines_under_the_title_of_a_place(self):
        """Who leads, and who has the most once all its stations are counted; lists with as many are
        named as level."""
        named = {"A": "Alpha", "B": "Beta"}
        for base, share in (("valid", "63.16"), ("lists", "66.67")):
            found = places.place_head(self.site, {"base": base}, self.place(), named)
            self.assertEqual(found["headline"], self.site.say(
                "place_first", first="\u2068Alpha\u2069", second="", share=share))
            # 60, 30, 5 and 20 of 350 electors are 32.86 per cent.
            self.assertIn("32.86", found["counted_line"]["turnout"])
        found = places.place_head(self.site, ENTRY, self.place(closed=1), named)["headline"]
        self.assertEqual(("leads" in found, "63.16" in found), (True, True))
        for votes, who, share in (
                ({"A": 30, "B": 30}, "\u2068Alpha\u2069 and \u2068Beta\u2069", "46.15"),
                ({"A": 30, "B": 30, "C": 30, "D": 3},
                 "\u2068Alpha\u2069, \u2068Beta\u2069 and \u2068Gamma\u2069", "30.61")):
            found = places.place_head(self.site, ENTRY, self.place(votes=votes), named | {
                "C": "Gamma", "D": "Delta"})
            self.assertEqual(found["headline"], f"{who} have as many votes here, {share}% each.")
        self.assertIsNone(places.place_head(self.site, ENTRY, self.place(
            votes={"A": 0, "B": 0}), named)["headline"])

    def test_the_votes_of_a_place(self):
        """Those with most first, with shares of the votes of the rule; a place has no threshold."""
        con = counting(lists=with_lists(OPEN, eligible=[False, True])["lists"])
        for base, shares, blank, said in (
                ("valid", ["63.16%", "31.58%"], "5.26%", "valid"),
                ("lists", ["66.67%", "33.33%"], "–", "lists")):
            found = places.votes_of(self.site, con, ENTRY | {"base": base},
                                    self.place(votes={"B": 60, "A": 30}))
            [rows] = tables(found["table"]).values()
            self.assertEqual(rows[1:], [["B Beta", "60", shares[0]], ["A Alpha", "30", shares[1]],
                                        ["Blank votes", "5", blank]])
            self.assertEqual((found["lists_left"], found["base"], found["votes"]), (
                0, self.site.say(f"base_{said}"), self.site.said(
                    "votes_are", valid=95, blank=5, spoiled=20)))
            self.assertEqual([bar["eligible"] for bar in found["chart"]["bars"]], [True, True])

    def test_lists_that_have_no_room_on_the_page_of_a_place(self):
        """Half of what tables may have is for the votes: the others are counted."""
        codes = [f"L{n:03}" for n in range(300)]
        con = counting(lists=[OPEN["lists"][0] | {"code": code, "votes": 1} for code in codes])
        found = places.votes_of(self.site, con, ENTRY, self.place(votes=dict.fromkeys(codes, 1)))
        *rows, _ = re.findall('<tr role="row"><th scope="row".*?</tr>\n', found["table"])
        self.assertEqual(len(rows) + found["lists_left"], 300)
        self.assertTrue(12_800 < sum(map(len, map(str.encode, rows))) <= 13_000, len(rows))

    def test_stations_that_have_no_room_on_the_page_of_a_place(self):
        """The other half is for its stations, of which it says how many more there are."""
        row = site.Markup("<tr>" + "x" * 95)
        [page] = places.place_pages(self.site, "c1", self.CON, self.ENTRY, [self.place()], (
            lambda place: "seen", lambda place: (["station"], [row] * 200)), True)
        self.assertEqual(page.written(NOON).count("<tr>xxx"), 131)
        self.assertIn(text(self.site.said("stations_left", many=69)), text(page.written(NOON)))

    def test_pages_of_places(self):
        """They are numbered in the order of the setup, and show their stations in a table that can
        be moved sideways; a page shows something else where its numbers are others."""
        def pages(*sums):
            return places.place_pages(self.site, "c1", self.CON, self.ENTRY, sums, (
                lambda place: "seen", lambda place: (["station"], ["<tr><td>s1</td></tr>"])), True)

        one, two = pages(self.place(), self.place("South"))
        again, other = pages(self.place(), self.place("South", blank=6))
        self.assertEqual((one.shows == again.shows, two.shows == other.shows), (True, False))
        written = [page.written(NOON) for page in (one, two)]
        self.assertEqual([re.findall(r'<h1>(?:<.*?>)?(\w+)', page) for page in written],
                         [["North"], ["South"]])
        self.assertEqual([page.count('tabindex="0"') for page in written], [1, 1])
        self.site.languages = ["en", "es"]
        self.assertEqual([{*re.findall('href="es/(place-.*?)"', page.written(NOON))}
                          for page in (one, two)], [{"place-c1-1.html"}, {"place-c1-2.html"}])

    def test_the_table_of_places(self):
        """In the order of names, each with its number; who is first where one list alone is."""
        sums = [self.place("South 10"), self.place("South 2", votes={"A": 30, "B": 30}, closed=1),
                self.place("East", votes={"A": 0, "B": 0}, closed=0),
                self.place("West", votes={"A": 10, "B": 80})]
        [page] = places.table_pages(self.site, "c1", self.CON, self.ENTRY, sums, 2)
        written = page(NOON)
        [rows] = Page(written).tables.values()
        self.assertEqual(rows[1:], [
            ["East", "–", "5", "0.00%"], ["South 2", "–", "65", "50.00%"],
            ["South 10", "A 63.16%", "95", "100.00%"], ["West", "B 84.21%", "95", "100.00%"]])
        self.assertEqual(re.findall(r'href="(place-c1-\d[.]html)"', written),
                         [f"place-c1-{n}.html" for n in (3, 2, 1, 4)])
        # Also where the two after it have as many votes, and where there is but one list.
        [page] = places.table_pages(self.site, "c1", self.CON, self.ENTRY, [
            self.place("East", votes={"A": 55, "B": 20, "C": 20})], 3)
        self.assertEqual(Page(page(NOON)).tables.popitem()[1][1][1], "A 55.00%")
        [page] = places.table_pages(self.site, "c1", self.CON, self.ENTRY, [
            self.place("East", votes={"A": 10})], 3)
        self.assertEqual(Page(page(NOON)).tables.popitem()[1][1][1], "A 66.67%")

    def test_what_the_first_screen_finds(self):
        """In few letters, with names as they are."""
        self.site.names = {"s1": "School é"}
        text_found = places.find_json({"c2": counting(con="c2", name="Óbidos"),
                                       "c1": counting(name="Twin Town")}, {"c1": self.ENTRY},
                                      self.site, {"c1": [0, 2]})
        self.assertTrue(text_found.endswith("}\n"))
        self.assertIn('"con":"c2","name":"Óbidos"', text_found)
        self.assertEqual(json.loads(text_found)["constituencies"], [
            {"con": "c2", "name": "Óbidos", "places": [], "stations": [], "names": [],
             "starts": []},
            {"con": "c1", "name": "Twin Town", "places": ["North", "South 10"],
             "stations": ["s1", "s2", "s3"], "names": ["School é", "", ""], "starts": [0, 2]}])
        self.site.places = {}
        self.assertEqual(places.places_of(self.site, self.ENTRY), {})


class Names(Case):
    def test_the_label_of_a_name(self):
        """A name of 24 letters is whole; of a longer one there are 23 and an ellipsis."""
        self.assertEqual((names.label("n" * 24), names.label("n" * 25)),
                         (f"\u2068{'n' * 24}\u2069", f"\u2068{'n' * 23}…\u2069"))

    def test_parts_of_a_name_that_are_closed(self):
        for name, wanted in (
                ("plain", "plain"), (3, "3"), ("a\u2069b\u2069c", "abc"),
                ("\u2066a\u2069b", "\u2066a\u2069b"),
                ("\u2066a\u2069\u2069b\u2067c", "\u2066a\u2069b\u2067c\u2069"),
                ("a\nb\u2028c", "a b c"), ("\u2068\u2066a\u2069", "\u2068\u2066a\u2069\u2069")):
            with self.subTest(name=name):
                self.assertEqual(names.closed(name), wanted)

    def test_the_order_of_names(self):
        """Without accents and case, and by the numbers within them."""
        wanted = ["2 bis", "10 bis", "Ávila", "avila 2", "Avila 10", "Ávila 10 B 3",
                  "Avila 10 b 20", "Zamora"]
        self.assertEqual(sorted(wanted[::-1], key=names.in_order), wanted)
        self.assertEqual(names.in_order("Ávila 10 B"), ["avila ", 10, " b"])
