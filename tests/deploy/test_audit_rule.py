"""The audit of seats against papers: its assertions and its limit.

Made elections, from seeds that are fixed here, try that an audit keeps its limit.
"""

import itertools
import math
import random
import shutil
import subprocess
from fractions import Fraction

from tests.support import model
from tests.support.audits import METHODS, SEED, audit_of, con_of, tool
from tests.support.case import Case
from tests.support.running import PATIENCE

# Two lists and three stations of 100 electors: A 120 and B 80 votes.
ROWS = [[60, 20, 0, 0], [50, 30, 0, 0], [10, 30, 0, 0]]
# Of each rule: seats of the constituency, those of A and B; the assertions besides that each has a
# vote, closest first, each with its margin, what a paper adds at least and at most, and the votes;
# the bounds of the stations in millionths.
#
# By D'Hondt the quotients are 120, 60, 40 and 80, 40. A's second before B's second: 2 x 120 - 2 x
# 80 = 80; one vote moves it by 4. B's first before A's third: 3 x 80 - 120 = 120. The bound of s1
# is (2 x 60 - 2 x 20 + 2 x 100) / 80 = 3.5.
#
# By Sainte-Lague 120, 40, 24 and 80, 26.67, 16: B's second before A's third is 5 x 80 - 3 x 120 =
# 40, A's second before B's third 5 x 120 - 3 x 80 = 360. The bound of s3 is (5 x 30 - 3 x 10 + 3 x
# 100) / 40 = 10.5.
#
# By the modified rule in fifths: B's first before A's second, 15 x 80 - 7 x 120 = 360; one vote
# moves it by 22, and 17 by 374. A's first before B's second, 15 x 120 - 7 x 80 = 1240. The bound
# of s1 is (15 x 20 - 7 x 60 + 7 x 100) / 360 = 1.61..
#
# By Hare 200 votes have a quota of 50, the claims are 2.4 and 1.6. B's second before A's third:
# the claims less seats are 0.4 and -0.4, less than 1 apart by 0.2, which times 200 is 40. A's
# second before B's third: 1.8 x 200 = 360.
WORKED = {
    "dhondt": (3, [2, 1], [("A's seat 2 comes before B's seat 2", 80, -2, 2, 20),
                           ("B's seat 1 comes before A's seat 3", 120, -1, 3, 30)],
               [3500000, 3000000, 2000000]),
    "sainte-lague": (4, [2, 2], [("B's seat 2 comes before A's seat 3", 40, -3, 5, 5),
                                 ("A's seat 2 comes before B's seat 3", 360, -3, 5, 45)],
                     [5500000, 7500000, 10500000]),
    "modified-sainte-lague": (2, [1, 1], [("B's seat 1 comes before A's seat 2", 360, -7, 15, 17),
                                          ("A's seat 1 comes before B's seat 2", 1240, -7, 15, 57)],
                              [1611112, 2222223, 3000000]),
    "hare": (4, [2, 2], [("B's seat 2 comes before A's seat 3", 40, -3, 5, 5),
                         ("A's seat 2 comes before B's seat 3", 360, -3, 5, 45)],
             [5500000, 7500000, 10500000]),
}


def asserted(it):
    return it.words, it.margin, it.low, it.high, math.ceil(it.votes())


# The output of `printf SEED,1 | sha256sum` of coreutils and of the next seven: the first eight of
# 64 digits.
DIGESTS = ["2972ee61", "2cf6ac4f", "b640cabd", "0d5511a8", "8cd89903", "e586ce79", "289af8a7",
           "1552d4c5"]


def random_poll(random_one, method):
    lists, seats = random_one.randint(1, 5), random_one.randint(1, 7)
    threshold = random_one.choice([0, 0, 300, 1000, 2500])
    base = random_one.choice(["valid", "lists"])
    most = random_one.choice([6, 30, 400])
    con = con_of(method, seats, lists, [10000], threshold, base)
    return con, [random_one.randint(0, most) for _ in range(lists)], random_one.choice([
        0, random_one.randint(0, most)])


def ruled(con, votes, blank):
    """The seats by the model, whether a lot is needed, and who takes part."""
    poll = model.Poll({"method": con.method, "threshold": con.threshold, "base": con.base},
                      con.seats, votes, blank)
    if not poll.eligible:
        return None
    return poll.allotted(), bool(poll.group()[0]), poll.eligible


def holds(it, asserted_of, counts):
    """Whether an assertion is true of other counts."""
    least = it.recorded - it.margin + 1
    seen = asserted_of.seen(counts)
    return sum(times * seen[place] for place, times in it.terms) >= least


def at_most(tries, chance, beyond=Fraction(1, 1000)):
    """The least number that these tries, each with this chance, hardly exceed.

    They exceed it with a chance below `beyond`.
    """
    left, term = Fraction(1), (1 - chance)**tries
    for number in itertools.count():
        left -= term
        if left < beyond:
            return number
        term *= chance / (1 - chance) * Fraction(tries - number, number + 1)


def confirmed_after(it, papers, seed, limit, most):
    """After how many draws the risk is at most the limit, or None: an error is too large, or there
    are too many draws."""
    factors = {name: it.factor(name, it.error(name, papers[name])) for name in it.stations
               if it.bounds[name]}
    risk = 1.0
    for number in range(1, most + 1):
        above, below = factors[it.drawn(seed, number)]
        if below == 0:
            return None
        risk *= above / below
        if risk <= limit:
            return number
    return None


TENTH = 0.1
ELECTIONS = 500
# Elections whose bounds are together more are not tried: they take thousands of draws.
MOST_BOUNDS = 300


def made_election(made, method):
    """A constituency and what its papers say: lists of different strength, stations in which most
    electors voted."""
    lists, seats, many = made.randint(2, 4), made.randint(1, 5), made.randint(5, 12)
    strength = [made.random() + 0.05 for _ in range(lists)]
    rows = []
    for _ in range(many):
        voters = made.randint(20, 60)
        votes = made.choices(range(lists), [s * made.uniform(0.5, 1.5) for s in strength], k=voters)
        rows.append([votes.count(i) for i in range(lists)]
                    + [made.randint(0, 2), made.randint(0, 1)])
    con = con_of(method, seats, lists, [sum(row) + made.choice([0, 0, 3]) for row in rows],
                 made.choice([0, 0, 500]))
    return con, dict(zip(con.electors, rows))


def moved(made, row, share):
    """A station that is recorded otherwise: of one list this share of the votes are recorded for
    another."""
    of, to = made.sample(range(len(row) - 2), 2)
    many = math.ceil(row[of] * share)
    return [n - many * (i == of) + many * (i == to) for i, n in enumerate(row)]


def wrong_election(made, method):
    """One whose recorded seats are not those of its papers, by few large errors or by many small
    ones."""
    while True:
        con, papers = made_election(made, method)
        kind = made.choice(["one", "some", "all"])
        names = {"one": 1, "some": 3, "all": len(papers)}[kind]
        share = 1 if kind != "all" else made.choice([0.1, 0.3])
        recorded = papers | {name: moved(made, papers[name], share)
                             for name in made.sample(list(papers), names)}
        totals = [list(map(sum, zip(*rows.values()))) for rows in (papers, recorded)]
        right, given = (ruled(con, votes[:-2], votes[-2]) for votes in totals)
        if right and given and not given[1] and given[0] != right[0]:
            it = tool.Audit(con, recorded)
            if it.sums[-1] <= MOST_BOUNDS * 1000000:
                return kind, it, papers


def tight_election(made, method):
    """The worst case: all electors voted, and in one station of 20 everything that was for A is on
    paper B's, so that the two are equal on paper. The chance that no draw meets this station is
    that which the risk says, to the next draw."""
    stations, size = made.randint(15, 25), made.choice([1, 7, 40])
    con = con_of(method, 1, 2, [size] * (2 * stations - 2))
    rows = [[size, 0, 0, 0]] * stations + [[0, size, 0, 0]] * (stations - 2)
    recorded = dict(zip(con.electors, rows))
    return tool.Audit(con, recorded), recorded | {"s1": [0, size, 0, 0]}


class AuditRule(Case):
    def test_a_bound_is_the_largest_of_all_assertions(self):
        """Of which not all are looked at: those that are left out would not be more."""
        made, looked_at = random.Random(5), 0
        for method in METHODS * 100:
            con, papers = made_election(made, method)
            it = tool.Audit(con, papers)
            for station, bound in it.bounds.items():
                counts, most = it.seen(papers[station]), con.most(station)
                self.assertEqual(bound, max(
                    -((low * most - a * counts[i] - b * counts[j] - c * counts[k]) * tool.MILLION
                      // margin) for (i, a), (j, b), (k, c), low, margin in it.rows))
                looked_at += 1
        self.assertGreater(looked_at, 1000)

    def test_worked_elections(self):
        for method, (seats, won, wanted, bounds) in WORKED.items():
            with self.subTest(method=method, seats=seats, won=won, wanted=wanted):
                it = audit_of(con_of(method, seats, 2, [100] * 3), ROWS)
                self.assertEqual(it.seats, won)
                self.assertEqual([asserted(one) for one in it.assertions if "seat" in one.words],
                                 wanted)
                self.assertEqual(
                    sorted(asserted(one) for one in it.assertions if "vote" in one.words),
                    [("A has a vote", 120, 0, 1, 120), ("B has a vote", 80, 0, 1, 80)])
                self.assertEqual(list(it.bounds.values()), bounds)

    def test_thresholds_by_hand(self):
        # Ten per cent of 220 valid votes are 22, and C has 10: 12 votes more reach it.
        rows = [[60, 20, 10, 10, 3], [50, 30, 0, 0, 0], [10, 30, 0, 0, 0]]
        found = audit_of(con_of("hare", 4, 3, [110] * 3, 1000), rows).assertions
        self.assertEqual([asserted(it) for it in found if "threshold" in it.words], [
            ("C is below the threshold", 120000, -9000, 1000, 12),
            ("B reaches the threshold", 580001, -1000, 9000, 59),
            ("A reaches the threshold", 980001, -1000, 9000, 99)])
        # Ten per cent of 210 votes for lists are 21.
        found = audit_of(con_of("hare", 4, 3, [110] * 3, 1000, "lists"), rows).assertions
        self.assertEqual([asserted(it) for it in found if "C " in it.words],
                         [("C is below the threshold", 110000, -9000, 1000, 11)])
        # By D'Hondt of 4 seats A has three and B one. That C has none is easier to show by its
        # quotient, 10: A's last is 40, and B's 80. Of 20 seats it would have one, but for the
        # threshold.
        found = audit_of(con_of("dhondt", 4, 3, [110] * 3, 1000), rows).assertions
        self.assertEqual(
            {it.words for it in found if "C" in it.words},
            {"A's seat 3 comes before C's seat 1", "B's seat 1 comes before C's seat 1"})
        found = audit_of(con_of("dhondt", 20, 3, [110] * 3, 1000), rows).assertions
        self.assertEqual([it.words for it in found if "C" in it.words],
                         ["C is below the threshold"])

    def test_equal_quotients(self):
        # A's third quotient and B's second are 40. By law the seat is A's, which has more votes:
        # one vote less and it is B's.
        it = audit_of(con_of("dhondt", 4, 2, [100] * 3), ROWS)
        self.assertEqual((it.seats, it.lots, asserted(it.assertions[0])),
                         ([3, 1], [], ("A's seat 3 comes before B's seat 2", 1, -3, 2, 1)))
        # Under Hare with five seats 13 of 20 votes claim 3.25, 5 claim 1.25 and 2 claim 0.5. And 5,
        # 3, 2 of 10 with 5 seats 2.5, 1.5, 1: the last seat is A's, which has more votes than B.
        it = audit_of(con_of("hare", 5, 3, [100]), [[5, 3, 2, 0, 0]])
        self.assertEqual((it.seats, it.lots, asserted(it.assertions[0])),
                         ([3, 1, 1], [], ("A's seat 3 comes before B's seat 2", 1, -6, 4, 1)))

    def test_a_list_that_is_near_the_threshold_and_far_from_a_seat(self):
        # B has 3 of 100 valid votes, which is the threshold: whether it takes part changes no seat.
        it = audit_of(con_of("dhondt", 2, 2, [100, 100], 300), [[97, 3, 0, 0], [0, 0, 0, 0]])
        self.assertEqual(
            [one.words for one in it.assertions],
            ["A's seat 2 comes before B's seat 1", "A reaches the threshold", "A has a vote"])
        # Under Hare it changes the quota.
        it = audit_of(con_of("hare", 2, 2, [100, 100], 300), [[97, 3, 0, 0], [0, 0, 0, 0]])
        self.assertEqual(asserted(it.assertions[0]), ("B reaches the threshold", 1, -300, 9700, 1))

    def test_draws_by_hand(self):
        it = audit_of(con_of("dhondt", 3, 2, [100] * 3), ROWS)
        # The bounds are 3.5, 3 and 2 of 8.5. Of 8.5 the draws are 1.38, 1.49, 6.05, 0.44, 4.68,
        # 7.62, 1.35, 0.71.
        parts = [int(digits, 16) / 2**32 * 8.5 for digits in DIGESTS]
        self.assertEqual([f"{part:.2f}" for part in parts],
                         ["1.38", "1.49", "6.05", "0.44", "4.68", "7.62", "1.35", "0.71"])
        self.assertEqual([it.drawn(SEED, n) for n in range(1, 9)],
                         ["s1", "s1", "s2", "s1", "s2", "s3", "s1", "s1"])
        if shutil.which("sha256sum"):
            for n, digits in enumerate(DIGESTS, 1):
                with self.subTest(n=n, digits=digits):
                    ran = subprocess.run(["sha256sum"], input=f"{SEED},{n}".encode(),
                                         capture_output=True, timeout=PATIENCE)
                    self.assertEqual(ran.stdout.decode()[:8], digits)

    def test_a_station_that_can_have_no_error_is_never_drawn(self):
        # A's one seat rests on A's votes less B's: all of s2's electors voted for B, so its papers
        # can only be better for A.
        it = audit_of(con_of("dhondt", 1, 2, [50, 20, 50]),
                      [[50, 0, 0, 0], [0, 20, 0, 0], [50, 0, 0, 0]])
        self.assertEqual(list(it.bounds.values()), [1250000, 0, 1250000])
        self.assertEqual({it.drawn(SEED, n) for n in range(1, 200)}, {"s1", "s3"})

    def test_risks_by_hand(self):
        it = audit_of(con_of("dhondt", 3, 2, [100] * 3), ROWS)
        # A draw without an error: 1 - 1 / 8.5 = 15 / 17.
        self.assertEqual(it.error("s1", ROWS[0]), 0)
        self.assertEqual(Fraction(*it.factor("s1", 0)), Fraction(15, 17))
        # In s3 two votes for A are B's: 2 x 2 + 2 x 2 = 8 of 80, where its bound is 2. So 15 / 17 /
        # 0.95.
        error = it.error("s3", [8, 32, 0, 0])
        self.assertEqual(error, 100000)
        self.assertEqual(Fraction(*it.factor("s3", error)), Fraction(300, 323))
        # Two votes for B are spoiled: good for A, and 3 x 2 of 120 against B's seat. Two of A's are
        # B's, and the error is below 0 in neither: 8 of 80 again. Two of B's are A's: -8 of 80, and
        # (3 x 2 + 2) of 120, 0.0666667.
        self.assertEqual(it.error("s3", [10, 28, 0, 2]), 50000)
        self.assertEqual(it.error("s3", [12, 28, 0, 0]), 66667)
        # An error in the other direction: two votes more for B and three for A are on paper. 2 x -3
        # + 2 x 2 = -2 of 80, and 3 x -2 + 3 = -3 of 120: both -0.025, and the risk falls faster.
        self.assertEqual(it.error("s3", [13, 32, 0, 0]), -25000)
        # All the electors of s3 voted for B: its error is its bound, and no risk comes of it.
        self.assertEqual((it.error("s3", [0, 100, 0, 0]), it.factor("s3", 2000000)[1]),
                         (2000000, 0))
        # (15 / 17) to the 24th is 0.0496, to the 23rd 0.0562; with 1 in 1,000 of 200 votes wrong,
        # 0.2 of 20 votes are an error of 0.01 in 8.5 together, and 24 draws are enough too: 0.051;
        # 25 are.
        self.assertEqual((it.expected(20), it.expected(20, 0.001)), (24, 25))
        self.assertEqual(it.expected(20, 0.1), None)

    def test_the_assertions_say_what_the_rule_allots(self):
        """Of other totals they are all true only where these have the same seats and need no lot.
        Without a threshold that is everywhere so, and with one wherever the same lists take part
        and it is Hare's."""
        made, found = random.Random(59), {"same": 0, "other": 0, "lots": 0}
        for method in METHODS:
            with self.subTest(method=method):
                for _ in range(1500):
                    con, votes, blank = random_poll(made, method)
                    by_rule = ruled(con, votes, blank)
                    if by_rule is None:
                        continue
                    it = audit_of(con, [[*votes, blank, 0]])
                    self.assertEqual(bool(it.lots), by_rule[1], (con, votes))
                    if it.lots:
                        found["lots"] += 1
                        continue
                    self.assertEqual(it.seats, by_rule[0], (con, votes))
                    for _ in range(6):
                        step = made.choice([1, 3, 50])
                        others = [max(0, n + made.randint(-step, step)) for n in [*votes, blank]]
                        of_others = ruled(con, others[:-1], others[-1])
                        right = of_others is not None and of_others[:2] == (by_rule[0], False)
                        true = all(holds(one, it, [*others, 0]) for one in it.assertions)
                        self.assertTrue(right or not true, (con, votes, blank, others, of_others))
                        if con.threshold == 0 or (right and method == "hare"
                                                  and of_others[2] == by_rule[2]):
                            self.assertEqual(true, right, (con, votes, blank, others, of_others))
                        found["same" if right else "other"] += 1
        self.assertGreater(min(found.values()), 200, found)

    def test_wrong_seats_are_confirmed_at_most_at_the_limit(self):
        made, confirmed, kinds = random.Random(10), 0, []
        for number in range(ELECTIONS):
            kind, it, papers = wrong_election(made, METHODS[number % 4])
            kinds.append(kind)
            seed = f"{made.randrange(10**20):020}"
            confirmed += confirmed_after(it, papers, seed, TENTH, 3 * it.expected(10)) is not None
        self.assertGreater(min(kinds.count(kind) for kind in ("one", "some", "all")), 50, kinds)
        most = at_most(ELECTIONS, Fraction(1, 10))
        print(f"of {ELECTIONS} wrong elections {confirmed} confirmed at a limit of 10 per cent; at "
              f"most {most}")
        self.assertLessEqual(confirmed, most)

    def test_the_worst_case_is_confirmed_as_often_as_the_limit_says(self):
        made, confirmed = random.Random(11), 0
        for number in range(ELECTIONS):
            it, papers = tight_election(made, METHODS[number % 4])
            confirmed += confirmed_after(it, papers, f"{made.randrange(10**20):020}", TENTH,
                                         10**6) is not None
        most = at_most(ELECTIONS, Fraction(1, 10))
        print(f"of {ELECTIONS} worst cases {confirmed} confirmed at a limit of 10 per cent; at "
              f"most {most}")
        # An audit that confirmed nothing would keep the limit too: here it has to confirm about the
        # tenth that it may.
        self.assertLess(ELECTIONS // 20, confirmed)
        self.assertLessEqual(confirmed, most)

    def test_right_seats_are_confirmed_within_the_expected_draws(self):
        """Margins are above 5 per cent of the votes, and 1 vote in 1,000 is recorded for another
        list than on paper.

        At least half are confirmed within the draws of the plan for such errors. Without errors
        all are, with as many draws as the plan says.
        """
        made, within, tried = random.Random(12), 0, 0
        while tried < 60:
            con, papers = made_election(made, METHODS[tried % 4])
            papers = {name: [10 * n for n in row] for name, row in papers.items()}
            con.electors = {name: 10 * many for name, many in con.electors.items()}
            recorded = {name: list(row) for name, row in papers.items()}
            lists = len(con.lists)
            for name in made.choices(list(papers),
                                     k=round(sum(sum(row) for row in papers.values()) / 1000)):
                row = recorded[name]
                of, to = made.sample(range(lists), 2)
                if row[of]:
                    row[of], row[to] = row[of] - 1, row[to] + 1
            totals = list(map(sum, zip(*recorded.values())))
            right = ruled(con, totals[:-2], totals[-2])
            if right is None or right[1]:
                continue
            it = tool.Audit(con, recorded)
            if it.assertions[0].votes() * 20 < sum(it.votes):
                continue
            tried += 1
            seed = f"{made.randrange(10**20):020}"
            clean, off = it.expected(10), it.expected(10, 0.001)
            self.assertEqual(confirmed_after(it, recorded, seed, TENTH, clean), clean)
            within += confirmed_after(it, papers, seed, TENTH, off) is not None
        print(f"of {tried} right elections with errors {within} confirmed within the draws that "
              "are expected")
        self.assertGreaterEqual(within * 2, tried, within)
