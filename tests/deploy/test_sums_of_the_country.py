"""Sums of all constituencies on the press pages, by small numbers: votes, seats of each kind,
electors, the closest seats, and a former result. No office is asked.
"""

from tests.support.case import Case
from tests.support.scripts import module

country, site = module("press_country"), module("press_site")


def constituency(name, number, votes, counted=(1, 1), blank=0, spoiled=0, base="valid", **more):
    """A constituency with these votes of lists; how many of its stations are counted."""
    closed, stations = counted
    return {"rule": {"seats": number, "base": base, "threshold": 0}, "past": [],
            "tally": {"name": name, "closed": closed, "stations": stations, "blank": blank,
                      "valid": sum(votes.values()) + blank, "spoiled": spoiled,
                      "lists": [{"code": code, "name": f"List {code}", "votes": many,
                                 "eligible": True} for code, many in votes.items()]}} | more


def certified(awards, short=(), **seats):
    """The reports of a certificate. A rule that has no votes short has none."""
    found = {"seats": {"total": sum(seats.values()), "seats": seats},
             "awards": [{"list": code} for code in awards]}
    return found if short is None else found | {
        "short": [{"list": code, "short": votes} for code, votes in short]}


def provisional(status="open", question=0, group=(), **seats):
    return {"provisional": {"status": status, "question": question, "group": list(group),
                            "seats": seats}}


# One that is certified; one that is being counted; one that needs a lot; one that is not counted;
# one that was certified, in which no list is eligible now; and one that is certified again, by a
# rule that has no votes short.
SIX = {
    "c1": constituency("Zeta", 3, {"A": 60, "B": 40}, (2, 2), blank=10, spoiled=5,
                       **certified("ABA", [("B", 21), ("A", 7)], A=2, B=1)),
    "c2": constituency("mu 10", 3, {"A": 5, "C": 7}, (1, 3), blank=1, spoiled=2,
                       **provisional(A=1, C=2)),
    "c3": constituency("mu 9", 3, {"B": 4, "C": 4},
                       **provisional("lot", 1, "BC", B=1, C=1)),
    "c4": constituency("Alpha", 4, {"A": 0}, (0, 2)),
    "c5": constituency("Beta", 5, {"A": 8}, blank=2,
                       past=[{"edition": 2}], **provisional("no_eligible", A=0)),
    "c6": constituency("Gamma", 2, {"A": 9, "C": 9}, spoiled=1, past=[{"edition": 2}],
                       **certified("AC", None, A=1, C=1))}
# The electors of the stations that are counted.
COUNTED = {"c1": 500, "c2": 90, "c3": 20, "c5": 60, "c6": 40}


class Sums(Case):
    def test_the_sums_of_six_constituencies(self):
        found = country.together(SIX, COUNTED)
        self.assertEqual([(party.code, party.name, party.votes, party.seats, party.provisional,
                           party.certified_cons, party.provisional_cons, party.closed)
                          for party in found.parties], [
            # of as many seats, provisional ones too, the list with more votes is first
            ("A", "List A", 82, 3, 1, 2, 1, 5), ("C", "List C", 20, 1, 3, 1, 2, 3),
            ("B", "List B", 44, 1, 1, 1, 1, 3)])
        self.assertEqual((found.chamber, found.certified, found.provisional, found.question,
                          found.uncounted, found.open), (20, 5, 5, 1, 4, 5))
        self.assertEqual([many for *_, many in found.nobodys], [1, 4, 5])
        self.assertEqual((found.is_provisional, found.provisional_closed,
                          found.provisional_stations), (True, 2, 4))
        self.assertEqual((found.cons, found.certified_cons, found.whole, found.is_mixed,
                          found.only, found.withdrawn), (6, 2, False, True, None, ["c5"]))
        self.assertEqual((found.stations, found.closed, found.valid, found.blank, found.spoiled),
                         (10, 6, 159, 13, 8))
        self.assertEqual((found.counted_electors, found.closest, found.without_short),
                         (710, [(7, "A", "c1", "B"), (21, "B", "c1", "A")], 1))
        self.assertEqual([code for code, _ in country.by_name(SIX)],
                         ["c4", "c5", "c6", "c3", "c2", "c1"])

    def test_electors_that_are_not_known(self):
        """Where those of one that is counted are missing those of all are not known; one that is
        not counted does not matter."""
        for left_out, wanted in (({"c4"}, 710), ({"c2"}, None), ({"c1"}, None), ({"c5"}, None),
                                 ({"c1", "c5"}, None)):
            with self.subTest(left_out=left_out):
                found = country.together(SIX, {code: many for code, many in COUNTED.items()
                                                if code not in left_out})
                self.assertEqual(found.counted_electors, wanted)

    def test_a_country_without_constituencies(self):
        """All its numbers are those of an empty one."""
        found = country.together({}, {})
        self.assertEqual(found, country.Country())
        self.assertEqual((found.parties, found.majority, found.is_provisional, found.is_mixed,
                          found.base, found.closest, found.only, found.cons),
                         ([], None, False, False, 0, [], None, 0))

    def test_what_is_certified_and_what_is_provisional(self):
        """Both are there only where a constituency is of each kind."""
        for codes, is_mixed, whole in (("1", False, True), ("2", False, False),
                                       ("12", True, False), ("14", False, False)):
            found = country.together({f"c{n}": SIX[f"c{n}"] for n in codes}, COUNTED)
            self.assertEqual((found.is_mixed, found.whole), (is_mixed, whole), codes)

    def test_lists_as_one(self):
        parties = [country.Party("A", "Alpha", *range(1, 7)), country.Party("B", "Beta", *[10] * 6)]
        self.assertEqual(country.Party.of_all(parties), country.Party("", "", *range(11, 17)))

    def test_of_which_votes_shares_are(self):
        """Of those for lists where every rule says so: 50 of 80; else of the valid ones, 100."""
        for bases, base, share in (
                (("lists", "lists"), 80, 6_250), (("valid", "lists"), 100, 5_000),
                (("valid", "valid"), 100, 5_000)):
            with self.subTest(bases=bases):
                cons = {"c1": constituency("One", 1, {"A": 30, "B": 10}, blank=5, base=bases[0]),
                        "c2": constituency("Two", 1, {"A": 20, "B": 20}, blank=15, base=bases[1])}
                found = country.together(cons, {})
                self.assertEqual((found.base, found.share_of(found.parties[0])), (base, share))

    def test_the_share_in_the_only_constituency(self):
        """4.996 per cent do not reach a threshold of 5, and are not shown as doing so; lists as one
        have their own."""
        one = constituency("One", 1, {"A": 95_004, "B": 4_996})
        one["rule"]["threshold"] = 500
        one["tally"]["lists"][1]["eligible"] = False
        found = country.together({"c1": one}, {})
        self.assertEqual([found.share_of(party) for party in found.parties], [9_500, 499])
        self.assertEqual(found.share_of(country.Party.of_all(found.parties[1:])), 500)
        two = country.together({"c1": one, "c2": constituency("Two", 1, {"A": 0})}, {})
        self.assertEqual(two.share_of(two.parties[1]), 500)


class Closest(Case):
    def test_the_ten_closest_seats(self):
        """By the votes that were lacking; of as many, in the order of constituencies and lists. A
        rule without such a number is counted."""
        letters = "ABCDEFGHIJKL"
        short = [(code, 30 - n) for n, code in enumerate(letters)]
        cons = {"c1": constituency("One", 1, dict.fromkeys(letters, 1),
                                   **certified("BA", short, **dict.fromkeys(letters, 0))),
                "c2": constituency("Two", 1, {"A": 1}, **certified("B", [("A", 19)], A=0)),
                "c3": constituency("Three", 1, {"A": 1}, **certified("A", None, A=1)),
                "c4": constituency("Four", 1, {"A": 1}, **certified("A", None, A=1))}
        found = country.together(cons, {})
        self.assertEqual([(votes, code, con) for votes, code, con, _ in found.closest], [
            (19, "L", "c1"), (19, "A", "c2"), (20, "K", "c1"), (21, "J", "c1"), (22, "I", "c1"),
            (23, "H", "c1"), (24, "G", "c1"), (25, "F", "c1"), (26, "E", "c1"), (27, "D", "c1")])
        self.assertEqual(found.without_short, 2)

    def test_who_would_lose_the_seat(self):
        """The list of the last award that is another one's."""
        for awards, code, wanted in (("ABC", "A", "C"), ("ABC", "C", "B"), ("ABAA", "A", "B")):
            con = {"awards": [{"list": one} for one in awards]}
            self.assertEqual(country.loser(con, code), wanted)


class Former(Case):
    FORMER = {"c1": {"valid": 20, "votes": {"A": 1, "B": 2}, "seats": {"A": 3}},
              "c2": {"valid": 12, "votes": {"B": 1}, "seats": {"A": 1, "B": 2}},
              "c3": {"valid": None, "votes": {"A": 9}, "seats": {"A": 1}}}

    def test_a_former_result_of_several(self):
        """1 of 32 are 3.125 per cent and 3 are 9.375: rounded half up. It is of all of them, or of
        none."""
        for codes, seats, shares in (
                (["c1", "c2"], {"A": 4, "B": 2}, {"A": 313, "B": 938}),
                (["c2"], {"A": 1, "B": 2}, {"B": 833}), (["c1", "c3"], {"A": 4}, None),
                (["c3"], {"A": 1}, None), (["c1", "c9"], None, None), ([], None, None)):
            with self.subTest(codes=codes):
                self.assertEqual((country.seats_before(self.FORMER, codes),
                                  country.shares_before(self.FORMER, codes)), (seats, shares))
