"""The lines under the titles of the press pages, of results by hand: how much is counted, who leads
or has won, the seats, what they wait for, and the majority. No office is asked.
"""

import re

from tests.support.case import Case
from tests.support.pages import RESULT, shown_text
from tests.support.scripts import module

country, head, results, site = map(module, (
    "press_country", "press_head", "press_results", "press_site"))

NAMES = {"A": "Alpha", "B": "Beta", "C": "Cara", "D": "Delta", "E": "Eta"}


def plain(text):
    """A text as it is shown, whatever its spaces and the direction of names."""
    return re.sub("[\u2068\u2069]", "", shown_text(str(text))).replace("\u00a0", " ")


def standings(**votes_and_seats):
    return [head.Standing(NAMES[code], *(of if isinstance(of, tuple) else (of,)))
            for code, of in votes_and_seats.items()]


class Count(Case):
    def test_how_much_is_counted(self):
        """With the turnout of what is counted, where its electors are known."""
        for numbers, said, turnout, done in (
                ((0, 7, 0, 300), "No polling station is counted yet.", None, "0.00"),
                ((1, 7, 100, 300), "14.29% of the polling stations are counted, 1 of 7.",
                 "Turnout of what is counted: 33.33%.", "14.29"),
                ((1, 1, 200, 300), "The only polling station is counted.", "Turnout: 66.67%.",
                 "100.00"),
                ((7, 7, 1, 8), "All 7 polling stations are counted.", "Turnout: 12.50%.", "100.00"),
                ((7, 7, 1, 0), "All 7 polling stations are counted.", None, "100.00"),
                ((7, 7), "All 7 polling stations are counted.", None, "100.00")):
            with self.subTest(numbers=numbers):
                self.assertEqual(head.counted_line(site.Site(), *numbers),
                                 {"said": said, "turnout": turnout, "done": done})


class Leaders(Case):
    def test_who_leads(self):
        """Of 200 votes; a share that the tables have is taken as it is."""
        for of_all, whole, said in (
                (standings(B=60, A=100, C=40), False,
                 "Alpha leads with 50.00% of the votes counted, 20.00 points and 40 votes ahead of "
                 "Beta."),
                (standings(A=100, B=99), True,
                 "Alpha has the most votes, 50.00%, 0.50 points and 1 vote ahead of Beta."),
                (standings(A=(100, 0, 4_999), B=(60, 0, 0), C=60), False,
                 "Alpha leads with 49.99% of the votes counted, 49.99 points and 40 votes ahead of "
                 "Beta and Cara, who are tied."),
                (standings(A=100, B=20, C=20, D=20, E=20), True,
                 "Alpha has the most votes, 50.00%, 40.00 points and 80 votes ahead of 4 lists, "
                 "who are tied."),
                (standings(A=100, B=0), False, "Alpha leads with 50.00% of the votes counted."),
                (standings(A=1), True, "Alpha has the most votes, 0.50%."),
                (standings(A=50, B=50), False, "Alpha and Beta have as many votes, 25.00% each."),
                (standings(A=50, B=50, C=50, D=10), False,
                 "Alpha, Beta and Cara have as many votes, 25.00% each."),
                (standings(A=50, B=50, C=50, D=50), True,
                 "4 lists have as many votes, 25.00% each.")):
            with self.subTest(said=said):
                found = head.leads(site.Site(), of_all, 200, *([True] if whole else []))
                self.assertEqual(plain(found), said)
        for none in ([], standings(A=0, B=0)):
            self.assertIsNone(head.leads(site.Site(), none, 0))

    def test_who_has_won(self):
        for of_all, total, majority, said in (
                (standings(A=(9, 4), B=(5, 6)), 10, 6, "Beta has won 6 of 10 seats, a majority."),
                (standings(A=(9, 5), B=(5, 4)), 10, 6,
                 "Alpha has won 5 of 10 seats, 1 short of a majority."),
                (standings(A=(9, 5), B=(5, 3)), 8, None, "Alpha has won 5 of 8 seats."),
                (standings(A=(9, 1), B=(5, 0)), 1, 1, "Alpha has won the seat."),
                (standings(A=(5, 2), B=(9, 2)), 5, 3, "Beta and Alpha have won 2 of 5 seats each."),
                (standings(A=(5, 2), B=(9, 2), C=(1, 2), D=(2, 2)), 8, 5,
                 "4 lists have won 2 of 8 seats each.")):
            with self.subTest(said=said):
                self.assertEqual(plain(head.has_won(site.Site(), of_all, total, majority)), said)

    def test_the_line_of_the_seats(self):
        """The lists with most first, eight of them, and the others together; none without a
        seat."""
        eight = {f"L{n}": n for n in range(9)}
        line = head.seats_line(site.Site(), "certified", "Seats:", eight)
        self.assertEqual(line, {"words": "Seats:", "kind": "certified", "others": None,
                                "seats": [(f"L{n}", str(n)) for n in range(8, 0, -1)]})
        line = head.seats_line(site.Site(), "provisional", "", eight | {"L9": 1_000, "L10": 9})
        self.assertEqual((line["seats"][0], len(line["seats"]), line["others"]),
                         (("L9", "1,000"), 8, "2 more lists: 3"))
        self.assertIsNone(head.seats_line(site.Site(), "certified", "", {"A": 0}))


class OfAConstituency(Case):
    """A and B have 6 and 4 votes of ten, and there are three seats."""

    @staticmethod
    def outlook(counted, certified=None, past=False, **shown):
        """The lines of a constituency, as texts."""
        closed, stations = counted
        con = {"rule": {"seats": 3, "method": "hare"}, "past": [{"edition": 1}] if past else [],
               "view": {"certified": bool(certified), "note": "",
                        "lot": ["B", "A"] if certified else []},
               "tally": {"name": "Soria", "closed": closed, "stations": stations, "lists": [
                   {"code": "A", "votes": 6}, {"code": "B", "votes": 4}]}}
        if shown:
            con["provisional"] = {"status": "open", "question": 0, "group": []} | shown
        if certified:
            con["seats"] = {"seats": certified}
        found = head.con_outlook(site.Site(), con)
        for key in ("said", "warnings"):
            found[key] = [plain(one) for one in found[key]]
        return found | {"state": (found["state"][0], plain(found["state"][1])),
                        "lines": [(one["kind"], one["words"], one["seats"], one["others"])
                                  for one in found["lines"]]}

    def test_the_lines_of_a_constituency(self):
        given = [("provisional", "Provisional seats:", [("A", "2"), ("B", "1")], None)]
        seats = {"seats": {"A": 2, "B": 1}}
        lot = {"status": "lot", "question": 1, "group": ["A", "B"], "seats": {"A": 1, "B": 1}}
        by_lot = [("provisional", "Provisional seats:", [("A", "1"), ("B", "1")], None)]
        needed = "A lot must be drawn between A and B for 1 seat."
        again = {"state": ("withdrawn", "Not final: certificate withdrawn")}
        for name, found, wanted in (
                ("certified", self.outlook((2, 2), seats["seats"]),
                 {"final": True, "state": ("certified", "Final: certified"),
                  "said": ["A lot was drawn, in this order: B, then A."],
                  "lines": [("certified", "Certified seats:", [("A", "2"), ("B", "1")], None)]}),
                ("not counted", self.outlook((0, 2)),
                 {"said": ["3 seats, which nobody has yet."]}),
                ("no list eligible", self.outlook((2, 2), status="no_eligible", seats={}),
                 {"said": ["3 seats, which nobody has yet."]}),
                ("a part", self.outlook((1, 2), **seats),
                 {"said": ["3 seats; the count goes on, and none is certified."], "lines": given}),
                ("a part, and a lot", self.outlook((1, 2), **lot),
                 {"said": ["3 seats; the count goes on, and none is certified."], "lines": by_lot,
                  "warnings": ["If the votes counted so far were all, a lot between A and B would "
                               "decide 1 seat."],
                  "lot": ("So far 1 seat would wait for a lot:", "A or B")}),
                ("all", self.outlook((2, 2), **seats),
                 {"said": ["All votes are counted; 3 seats are provisional until the board "
                           "certifies."], "lines": given}),
                ("all, and a lot", self.outlook((2, 2), **lot),
                 {"said": ["All votes are counted; 2 seats are provisional until the board "
                           "certifies."], "lines": by_lot, "warnings": [needed],
                  "lot": ("1 seat waits for a lot:", "A or B")}),
                ("reopened", self.outlook((2, 2), past=True, **seats),
                 again | {"said": ["Reopened: votes and seats may still change, and then the board "
                                   "certifies again."], "lines": given,
                          "warnings": ["Soria was certified and is reopened: its 3 seats are "
                                       "provisional again."]}),
                ("reopened, a part", self.outlook((1, 2), past=True),
                 again | {"said": ["Reopened: 1 of 2 polling stations are counted (50.00%); votes "
                                   "and seats may still change."],
                          "warnings": ["Soria was certified and is reopened: its 3 seats are not "
                                       "certified now."]})):
            with self.subTest(name=name):
                self.assertEqual(found, {
                    "final": False, "state": ("open", "Not final: no certificate yet"),
                    "warnings": [], "lines": [], "lot": None, "majority": None,
                    "open": None} | wanted)

    def test_a_lot_under_the_title(self):
        """Of a lot that decided the last seat, who got it; the order that was drawn is said below.
        """
        said = head.con_outlook(site.Site(), results.con_of(RESULT))["said"]
        self.assertEqual([plain(one) for one in said],
                         ["A and B tied for the last seat; the lot gave it to B."])


class OfTheCountry(Case):
    @staticmethod
    def country(seats, provisional=(0, 0), cons=(1, 2), **values):
        parties = [country.Party(code, NAMES[code], seats=of, provisional=more)
                   for code, of, more in zip("AB", seats, provisional)]
        return country.Country(parties, chamber=10, certified=sum(seats), certified_cons=cons[0],
                               provisional=sum(provisional), cons=cons[1], **values)

    def test_whether_the_seats_are_final(self):
        """Of a country, and on the page of a list with its own seats."""
        for of_all, state, said, list_said, lines in (
                (self.country((6, 4), cons=(2, 2)), "certified",
                 "Final: all 10 seats are certified",
                 "Final: the 10 seats of all lists are certified",
                 [("certified", "Certified seats:", [("A", "6")])]),
                (self.country((3, 4), (1, 0)), "open",
                 "Not final: 3 of 10 seats not certified yet",
                 "Not final: of the 10 seats of all lists, 3 not certified yet",
                 [("certified", "Certified seats:", [("A", "3")]),
                  ("provisional", "Further seats, provisional:", [("A", "1")])]),
                (self.country((0, 0), (2, 3), (0, 2)), "open",
                 "Not final: none of the 10 seats is certified yet",
                 "Not final: of the 10 seats of all lists, 10 not certified yet",
                 [("provisional", "Provisional seats:", [("A", "2")])])):
            with self.subTest(said=said):
                empty = {"final": state == "certified", "warnings": [], "lot": None,
                         "majority": None, "said": [], "open": None}
                found = head.state_alone(site.Site(), of_all)
                self.assertEqual(found | {"state": None}, empty | {"state": None, "lines": []})
                self.assertEqual((found["state"][0], plain(found["state"][1])), (state, said))
                found = head.list_outlook(site.Site(), of_all, of_all.parties[0])
                self.assertEqual((found["state"][0], plain(found["state"][1])), (state, list_said))
                self.assertEqual([(one["kind"], one["words"], one["seats"])
                                  for one in found["lines"]], lines)
                self.assertEqual(found | {"state": None, "lines": []},
                                 empty | {"state": None, "lines": []})

    def test_the_lines_of_the_seats(self):
        """Each says how many of all these are; one without a seat is not there."""
        for of_all, lines in (
                (self.country((6, 4), cons=(2, 2)), [
                    ("certified", "Certified seats:", "A 6, B 4")]),
                (self.country((3, 4), (1, 2)), [
                    ("certified", "Certified, 7 of 10 seats:", "B 4, A 3"),
                    ("provisional", "Further seats, provisional, 3 of 10:", "B 2, A 1")]),
                (self.country((0, 0), (1, 2)), [
                    ("provisional", "Provisional, 3 of 10 seats:", "B 2, A 1")]),
                (self.country((0, 0)), [])):
            with self.subTest(lines=lines):
                self.assertEqual([
                    (one["kind"], one["words"], ", ".join(map(" ".join, one["seats"])))
                    for one in head.country_lines(site.Site(), of_all)], lines)

    def test_what_seats_that_nobody_has_wait_for(self):
        """Where some have seats; of as many of both kinds too."""
        it = site.Site()
        found = head.nobodys_line(it, self.country((2, 0), (2, 0), question=1, uncounted=2))
        self.assertEqual([plain(one) for one in found], [
            "With nobody yet, 6 of 10 seats:",
            "1 waiting for a lot, 2 with no count yet and 3 not certified"])
        self.assertIsNone(head.nobodys_line(it, self.country((0, 0), uncounted=4)))
        self.assertIsNone(head.nobodys_line(it, self.country((6, 4))))

    def test_who_has_the_majority(self):
        """That nobody has it in provisional seats either is said only once all is counted."""
        not_yet = "nobody has it yet in certified seats"
        for of_all, said in (
                (self.country((3, 2), (2, 3), closed=1, stations=1),
                 "nobody has it, with the provisional seats either"),
                (self.country((3, 2), (2, 3), closed=1, stations=2), not_yet),
                (self.country((3, 2), (2, 2), closed=1, stations=1), not_yet),
                (self.country((5, 5), cons=(2, 2), closed=1, stations=1), "nobody has it"),
                (self.country((1, 6), closed=1, stations=2), "Beta has it"),
                (self.country((1, 5), (0, 1), closed=1, stations=2),
                 f"{not_yet}; with its provisional seats Beta would have it")):
            with self.subTest(said=said):
                self.assertEqual(plain(head.majority_said(site.Site(), of_all)),
                                 f"6 of 10 seats are a majority: {said}.")
        for chamber, said in ((2, "2 of 2 seats are a majority: nobody has it yet in certified "
                                  "seats."), (1, None), (0, None)):
            found = head.majority_said(site.Site(), country.Country(chamber=chamber, cons=1))
            self.assertEqual(found and plain(found), said)
