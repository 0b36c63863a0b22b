"""`examples/recount.py` on elections that are worked by hand, and beside a search of all seats."""

import contextlib
import importlib.util
import io
import itertools
import re
import sqlite3
import subprocess
import sys
from contextlib import redirect_stderr, redirect_stdout
from fractions import Fraction
from pathlib import Path
from unittest.mock import patch

from tests.support.case import ROOT, Case
from tests.support.office import SETUP, constituency, party_list, profile, station, with_stations
from tests.support.program import (
    ProgramCase,
    Ran,
    certify,
    change,
    close_return,
    new,
    put,
    spoiled,
)
from tests.support.twin_town import twin_town

RECOUNT = ROOT / "examples/recount.py"
SPEC = importlib.util.spec_from_file_location("recount", RECOUNT)
recount = importlib.util.module_from_spec(SPEC)
SPEC.loader.exec_module(recount)

METHODS = ("dhondt", "sainte-lague", "modified-sainte-lague", "hare")


def quotient(method, votes, k):
    """Votes over the kth divisor: 1, 2, 3; 1, 3, 5; or 1.4, 3, 5."""
    if method == "dhondt":
        return Fraction(votes, k)
    return votes / (Fraction(7, 5) if method[0] == "m" and k == 1 else Fraction(2 * k - 1))


def is_by_quotients(method, votes, seats):
    """Whether no list's last quotient is below another's next one.

    Of equal quotients, that of fewer votes is below.
    """
    def rank(n, k):
        return quotient(method, votes[n], k), votes[n]

    return all(
        rank(n, seats[n]) >= rank(m, seats[m] + 1)
        for n, m in itertools.permutations(votes, 2)
        if seats[n]
    )


def is_by_remainders(votes, seats, all_seats):
    """Whether the seats above whole quotas are those of the greatest remainders.

    Of equal remainders, that of fewer votes is below.
    """
    total = sum(votes.values())
    whole = {n: divmod(v * all_seats, total) for n, v in votes.items()}
    if any(seats[n] - whole[n][0] not in (0, 1) for n in votes):
        return False
    claims = {n: (whole[n][1], votes[n]) for n in votes}
    more = [n for n in votes if seats[n] > whole[n][0]]
    return all(claims[n] >= claims[m] for n in more for m in votes if m not in more)


def parts(total, count):
    """All ways to give this many seats to this many lists."""
    if count == 1:
        yield (total,)
        return
    for first in range(total + 1):
        for rest in parts(total - first, count - 1):
            yield (first, *rest)


def by_votes_alone(method, votes, all_seats):
    """All allotments that the votes leave open, found by a search of all."""
    for given in parts(all_seats, len(votes)):
        seats = dict(zip(votes, given))
        if method == "hare":
            fits = is_by_remainders(votes, seats, all_seats)
        else:
            fits = is_by_quotients(method, votes, seats)
        if fits:
            yield seats


def small_polls():
    """Votes of up to four lists, and seats."""
    for count, most in ((1, 4), (2, 4), (3, 4), (4, 2)):
        for votes in itertools.product(range(most + 1), repeat=count):
            if any(votes):
                yield from ((votes, seats) for seats in range(1, 5))


class Groups(Case):
    def test_lots_by_a_search_of_all_allotments(self):
        """A lot decides among the lists whose seats differ between allotments by the votes alone.

        Of each order of these lists an allotment comes, and of each allotment an order.
        """
        for method, (votes, seats) in itertools.product(METHODS, small_polls()):
            con = {"rule": {"method": method}, "seats": seats}
            named = dict(enumerate(votes, 1))
            lists = [n for n, v in named.items() if v]
            open_ones = list(by_votes_alone(method, {n: named[n] for n in lists}, seats))
            wanted = [n for n in lists if len({one[n] for one in open_ones}) > 1]
            found = recount.group(con, named, lists)
            orders = itertools.permutations(found)
            given = [recount.allotted(con, named, lists, list(order)) for order in orders]
            given = {tuple(one[n] for n in lists) for one in given}
            of_search = {tuple(one[n] for n in lists) for one in open_ones}
            self.assertEqual((found, given), (wanted, of_search), (method, votes, seats))

    def test_a_list_in_the_middle(self):
        """Of three equal lists and two seats the second has one in both orders of the setup."""
        for method in METHODS:
            for rule in ({"method": method}, {"method": method, "lot": "alternating"}):
                with self.subTest(rule=rule):
                    con, votes = {"rule": rule, "seats": 2}, {1: 5, 2: 5, 3: 5}
                    self.assertEqual(recount.group(con, votes, [1, 2, 3]), [1, 2, 3])


class Allotments(Case):
    def test_lots_in_turn(self):
        """Of three lists with ten votes each the second was drawn first and the first one last.
        Where lots alternate, the second seats go the other way round, and by quotas they never
        do."""
        for method, kind, seats, wanted in (
                ("dhondt", "fixed", 4, [1, 2, 1]), ("dhondt", "fixed", 5, [1, 2, 2]),
                ("dhondt", "fixed", 7, [2, 3, 2]), ("dhondt", "alternating", 4, [2, 1, 1]),
                ("dhondt", "alternating", 5, [2, 1, 2]), ("dhondt", "alternating", 7, [2, 3, 2]),
                ("dhondt", "alternating", 8, [2, 3, 3]), ("hare", "alternating", 4, [1, 2, 1]),
                ("hare", "fixed", 5, [1, 2, 2]), ("hare", "alternating", 1, [0, 1, 0])):
            with self.subTest(method=method, kind=kind, seats=seats):
                con = {"rule": {"method": method, "lot": kind}, "seats": seats}
                found = recount.allotted(con, {1: 10, 2: 10, 3: 10}, [1, 2, 3], [2, 3, 1])
                self.assertEqual(found, dict(enumerate(wanted, 1)))

    def test_seats_of_unequal_votes(self):
        """By D'Hondt 80, 40 and 40: of equal quotients the first is that of more votes. By quotas
        claims of 3.25, 1.25 and 0.5; and of 2.5, 1.5 and 1, where more votes come first. A list
        that does not take part gets none."""
        for method, seats, votes, lists, wanted in (
                ("dhondt", 2, [40, 80], [1, 2], [0, 2]), ("dhondt", 3, [40, 80], [1, 2], [1, 2]),
                ("sainte-lague", 2, [30, 90], [1, 2], [0, 2]),
                ("hare", 5, [13, 5, 2], [1, 2, 3], [3, 1, 1]),
                ("hare", 5, [3, 5, 2], [1, 2, 3], [1, 3, 1]),
                ("hare", 4, [13, 5, 2], [1, 2], [3, 1, 0]),
                ("dhondt", 4, [13, 5, 12], [1, 2], [3, 1, 0])):
            with self.subTest(method=method, seats=seats, votes=votes):
                con = {"rule": {"method": method}, "seats": seats}
                found = recount.allotted(con, dict(enumerate(votes, 1)), lists, [])
                self.assertEqual(found, dict(enumerate(wanted, 1)))

    def test_who_takes_part(self):
        """A list with a vote that reaches the threshold, exactly too: of 20,000 votes 50.01 per
        cent are 10,002."""
        for base, threshold, votes, blank, wanted in (
                ("lists", 1000, [90, 10], 100, [1, 2]), ("lists", 1001, [90, 10], 100, [1]),
                ("valid", 500, [90, 10], 100, [1, 2]), ("valid", 501, [90, 10], 100, [1]),
                ("lists", 5001, [9999, 10001], 0, []), ("lists", 5001, [9998, 10002], 0, [2]),
                ("lists", 0, [1, 0], 9, [1]), ("lists", 5000, [1, 1], 9, [1, 2]),
                ("valid", 0, [0, 0], 9, [])):
            with self.subTest(base=base, threshold=threshold, votes=votes):
                rule = {"base": base, "threshold": threshold}
                self.assertEqual(recount.taking_part(rule, dict(enumerate(votes, 1)), blank),
                                 wanted)

    def test_sums_of_stations(self):
        """Of blank votes, of each list and of spoiled ones; and of what no list has, as a database
        may have it."""
        con = {"list": [{}, {}], "seats": 2, "most": {"s1": 20, "s2": 20},
               "rule": {"method": "dhondt", "base": "valid", "threshold": 0}}
        cast = {"s1": {0: 1, 1: 2, 61: 3}, "s2": {0: 4, 1: 5, 2: 6, 7: 5}}
        self.assertEqual(recount.judged(con, cast, []),
                         ({0: 5, 1: 7, 2: 6, 61: 3, 7: 5}, {1: 1, 2: 1}, []))

    def test_the_order_of_the_setup_where_there_is_no_lot(self):
        for method, seats, wanted in (("dhondt", 4, [2, 1, 1]), ("hare", 5, [2, 2, 1])):
            with self.subTest(method=method):
                con = {"rule": {"method": method}, "seats": seats}
                found = recount.allotted(con, {1: 10, 2: 10, 3: 10}, [1, 2, 3], [])
                self.assertEqual(found, dict(enumerate(wanted, 1)))


class Divisors(Case):
    def test_the_divisors_of_each_method(self):
        for method, wanted in (("dhondt", [1, 2, 3, 4]), ("sainte-lague", [1, 3, 5, 7]),
                               ("modified-sainte-lague", [Fraction(7, 5), 3, 5, 7])):
            with self.subTest(method=method):
                self.assertEqual([recount.divisor(method, k) for k in range(1, 5)], wanted)


def counted(*words):
    """The status and the texts of a recount with these words."""
    out, errors = io.StringIO(), io.StringIO()
    words = ["recount.py", *words]
    with redirect_stdout(out), redirect_stderr(errors), patch.object(sys, "argv", words):
        try:
            status = recount.main()
        except SystemExit as ended:
            status = ended.code
    return Ran(status, out.getvalue(), errors.getvalue())


def town(code="c1", seats=3, lists="AB", rule="d0"):
    each = "".join(party_list(one, f"List {one}", "x") for one in lists)
    return constituency(code, "Town", seats, rule) + each + station(f"{code}-1") + station(
        f"{code}-2"
    )


class OfReturns(Case):
    """A count of published returns."""

    def given(self, setup, lots="", **returns):
        """Writes a setup, lots, and the rows of each constituency below a header of its lists."""
        Path("setup.toml").write_text(setup, encoding="utf-8")
        Path("lots").write_text(lots, encoding="utf-8")
        Path("returns").mkdir(exist_ok=True)
        for code, (lists, *rows) in returns.items():
            header = ",".join(["station", "slip", "blank", "spoiled", *lists])
            text = "".join(f"{row}\n" for row in [header, *rows])
            Path(f"returns/{code}.csv").write_text(text, encoding="utf-8")
        files = ("--setup", "setup.toml", "--returns", "returns", "--lots", "lots")
        return counted(*files)

    def test_a_constituency_without_returns(self):
        """As one that is not certified yet: the others are counted."""
        given = self.given(profile("d0") + town() + town("c2"), "", c2=(
            "AB", "c2-1,p1,0,0,100,50", "c2-2,p2,0,0,10,50"))
        self.assertEqual(given, Ran(1, "c1 has no returns\nc2 A 2 B 1 (2 of 2 stations)\n", ""))

    def test_the_setup_that_a_site_publishes(self):
        """It has each rule in its constituency, and the agents of each station."""
        setup = (profile("d0") + profile("w5", "hare", 500, "lists") + town()
                 + town("c2", rule="w5"))
        rows = ("AB", "{}-1,p1,0,0,100,50", "{}-2,p2,9,0,0,50")
        given = {code: [row.format(code) for row in rows] for code in ("c1", "c2")}
        by_office = self.given(setup, "c1 B A\nc2 A B\n", **given)
        self.assertEqual(by_office.status, 0)
        subprocess.run([ROOT / "deploy/setup-json", "setup.toml", ".", "codes.conf"], check=True,
                       capture_output=True)
        files = ("--returns", "returns", "--lots", "lots")
        self.assertEqual(counted("--setup", "setup.json", *files), by_office)

    def test_lots(self):
        """A and B have 100 votes each, C has 10, and the third of three seats is A's or B's."""
        setup = profile("d0") + town(lists="ABC")
        rows = ("ABC", "c1-1,p1,0,0,100,50,10", "c1-2,p2,0,0,0,50,0")
        for lots, seats, said in (
            ("c1 A B", (2, 1, 0), ""),
            ("c1 B A", (1, 2, 0), ""),
            ("\n  \nc1 B A\n\n", (1, 2, 0), ""),
            ("\ufeffc1 B A\r\n", (1, 2, 0), ""),
            ("", (2, 1, 0), "; a lot is missing"),
            ("c1", (2, 1, 0), "; a lot is missing"),
            ("c1 C", (2, 1, 0), "; a lot of other lists"),
            ("c1 B", (2, 1, 0), "; a lot of other lists"),
            ("c1 C A", (2, 1, 0), "; a lot of other lists"),
            ("c1 B A C", (2, 1, 0), "; a lot of other lists"),
            ("c1 B A A", (2, 1, 0), "; a lot of other lists"),
            ("c1 B Z", (2, 1, 0), "; a lot of other lists"),
        ):
            with self.subTest(lots=lots):
                line = "c1 " + " ".join(f"{code} {n}" for code, n in zip("ABC", seats))
                self.assertEqual(
                    self.given(setup, lots, c1=rows),
                    Ran(1 if said else 0, f"{line} (2 of 2 stations{said})\n", ""),
                )

    def test_a_lot_that_nothing_needs(self):
        """The votes decide, so that no lot is allowed."""
        setup, rows = profile("d0") + town(seats=2), ("AB", "c1-1,p,0,0,100,100", "c1-2,q,0,0,0,0")
        self.assertEqual(
            self.given(setup, "c1 A B", c1=rows),
            Ran(1, "c1 A 1 B 1 (2 of 2 stations; a lot of other lists)\n", ""),
        )

    def test_a_lot_that_the_first_of_two_constituencies_lacks(self):
        setup = profile("d0") + town() + town("c2")
        rows = {
            code: ("AB", f"{code}-1,p,0,0,100,{votes}", f"{code}-2,q,0,0,0,0")
            for code, votes in (("c1", 100), ("c2", 10))
        }
        said = "c1 A 2 B 1 (2 of 2 stations; a lot is missing)\nc2 A 3 B 0 (2 of 2 stations)\n"
        self.assertEqual(self.given(setup, **rows), Ran(1, said, ""))

    def test_the_base_of_a_threshold(self):
        """A has 90 votes, B has 10 and 100 are blank: B has a tenth of the votes for lists, and a
        twentieth of the valid ones. A threshold that it reaches exactly lets it take part.
        """
        rows = ("AB", "c1-1,p,100,7,90,10", "c1-2,q,0,0,0,0")
        for base, threshold, seats in (
            ("lists", 1000, (9, 1)),
            ("lists", 1001, (10, 0)),
            ("valid", 500, (9, 1)),
            ("valid", 501, (10, 0)),
        ):
            with self.subTest(base=base, threshold=threshold):
                setup = profile("d0", "hare", threshold, base) + town(seats=10)
                said = f"c1 A {seats[0]} B {seats[1]} (2 of 2 stations)\n"
                self.assertEqual(self.given(setup, c1=rows), Ran(0, said, ""))

    def test_no_list_that_takes_part(self):
        """Each of two lists is below sixty per cent; or nobody has voted for a list."""
        said = "c1 A 0 B 0 (2 of 2 stations; no list takes part)\n"
        for first, threshold in (("c1-1,p,0,0,10,10", 6000), ("c1-1,p,0,0,0,0", 0),
                                 ("c1-1,p,0,0,0,0", 6000), ("c1-1,p,5,3,0,0", 0)):
            rows = ("AB", first, "c1-2,q,0,0,0,0")
            for method, base in itertools.product(METHODS, ("valid", "lists")):
                with self.subTest(first=first, threshold=threshold, method=method, base=base):
                    setup = profile("d0", method, threshold, base) + town()
                    self.assertEqual(self.given(setup, c1=rows), Ran(0, said, ""))

    def test_files_that_cannot_be_counted(self):
        """They end with status 2, and with one line."""
        setup, first = profile("d0") + town(), "c1-1,p,0,0,10,20"
        for rows in (
            ("AB", first, first),
            ("AB", first, "s9,q,0,0,1,1"),
            ("AB", first, "c1-2,q,0,0,1"),
            ("AB", first, "c1-2,q,0,0,1,1,1"),
            ("AB", first, "c1-2,q,0,0,-1,1"),
            ("AB", first, "c1-2,q,0,0,1_0,1"),
            ("AB", first, "c1-2,q,0,0,,1"),
            ("AB", first, 'c1-2,"q,0,0,1,1'),
            ("AB", first, 'c1-2,q,0,0,1,"1"1'),
            ("BA", first),
            ("ABC", first),
        ):
            with self.subTest(rows=rows):
                self.cannot_be_counted(self.given(setup, c1=rows))
        good = ("AB", first)
        for lots in ("c9 A B", "c1 A B\nc1 B A"):
            with self.subTest(lots=lots):
                self.cannot_be_counted(self.given(setup, lots, c1=good))
        for wrong in (
            setup.replace("dhondt", "saint-lague"),
            setup.replace('"valid"', '"votes"'),
            setup.replace('base = "valid"\n', ""),
            setup.replace("electors", "voters"),
            setup.replace("seats = 3", "seats = 501"),
            setup.replace("seats = 3", "seats = 0"),
            setup.replace("seats = 3", "seats = true"),
            setup.replace("seats = 3", "seats = 3.0"),
            setup.replace('base = "valid"\n', 'base = "valid"\nlot = "coin"\n'),
            setup.replace('profile = "d0"\n', 'profile = "d0"\nsize = "huge"\n'),
            setup.replace("threshold = 0\n", ""),
        ):
            with self.subTest(setup=wrong):
                self.assertNotEqual(wrong, setup)
                self.cannot_be_counted(self.given(wrong, c1=good))

    def test_numbers_of_a_setup_at_their_limits(self):
        """One that is outside them is named; the others are counted."""
        setup, rows = profile("d0") + town(), ("AB", "c1-1,p,0,0,10,20", "c1-2,q,0,0,1,1")
        for key, least, most, of in (
            ("threshold", 0, 10_000, ""),
            ("seats", 1, 500, ""),
            ("electors", 1, 1_000_000, " of c1-1"),
            ("agents", 0, 1_000, " of c1-2"),
        ):
            self.assertEqual(key in setup, key != "agents")
            for value in (least, most, least - 1, most + 1, f"{most}.0", "true", f'"{least}"'):
                with self.subTest(key=key, value=value):
                    line = f"{key} = {value}\n"
                    changed = re.sub(f"{key} = .*\n", line, setup, count=1)
                    ran = self.given(setup + line if key == "agents" else changed, c1=rows)
                    if value in (least, most):
                        self.assertIn(ran.status, (0, 1), ran)
                        continue
                    self.cannot_be_counted(ran)
                    self.assertIn(f"c1: {key}{of}: ", ran.err)
                    self.assertTrue(ran.err.endswith(f" is not {least} to {most}\n"), ran.err)

    def test_more_lists_than_a_constituency_may_have(self):
        """The 61st has the number of spoiled votes in a database."""
        for lists in (60, 61):
            codes = [f"L{n}" for n in range(lists)]
            town_of = constituency("c1", "Town", 1, "d0") + "".join(
                party_list(code, "List", "Ana") for code in codes) + station("s1")
            rows = (codes, f"s1,p,0,0,2{',1' * (lists - 1)}")
            ran = self.given(profile("d0") + town_of, c1=rows)
            if lists == 60:
                self.assertEqual((ran.status, ran.out[:9]), (0, "c1 L0 1 L"), ran)
                continue
            self.cannot_be_counted(ran)
            self.assertIn("c1: lists: 61 is not 1 to 60", ran.err)

    def cannot_be_counted(self, ran):
        self.assertEqual((ran.status, ran.out, ran.err.count("\n")), (2, "", 1))
        self.assertTrue(ran.err.startswith("recount.py: error: "), ran)

    def test_agents_vote_beside_the_electors(self):
        """At a station of 300 electors with 2 agents, 302 may vote."""
        for agents, votes, said in (
            (0, 300, ""),
            (0, 301, "; more votes than electors"),
            (2, 302, ""),
            (2, 303, "; more votes than electors"),
        ):
            with self.subTest(agents=agents, votes=votes):
                setup = profile("d0") + town() + (f"agents = {agents}\n" if agents else "")
                rows = ("AB", "c1-1,p,0,0,0,0", f"c1-2,q,1,1,{votes - 2},0")
                said_of = f"c1 A 3 B 0 (2 of 2 stations{said})\n"
                self.assertEqual(self.given(setup, c1=rows), Ran(1 if said else 0, said_of, ""))

    def test_a_large_constituency(self):
        """More than 5,000 stations need the word, and there may be 20,000."""
        rows = ("AB", "s1,p,0,0,2,1")
        for stations, size, counts in (
            (5000, "", True),
            (5001, "", False),
            (5001, "normal", False),
            (5001, "large", True),
            (20000, "large", True),
            (20001, "large", False),
        ):
            with self.subTest(stations=stations, size=size):
                key = f'profile = "d0"\nsize = "{size}"\n' if size else 'profile = "d0"\n'
                setup = with_stations(stations).replace('profile = "d0"\n', key)
                ran = self.given(setup, c1=rows)
                if counts:
                    said = f"c1 A 2 B 1 (1 of {stations} stations; stations are missing)\n"
                    self.assertEqual(ran, Ran(1, said, ""))
                else:
                    self.cannot_be_counted(ran)

    def test_words_that_name_no_files(self):
        said = "recount.py: error: either a database, or --setup and --returns"
        for words in ((), ("a.db", "--lots", "b"), ("a.db", "--setup", "b", "--returns", "c"),
                      ("--setup", "a"), ("--returns", "a"), ("--lots", "a"),
                      ("--setup", "a", "--lots", "b")):
            with self.subTest(words=words):
                ran = counted(*words)
                self.assertEqual((ran.status, ran.out, ran.err.splitlines()[-1]), (2, "", said))
        self.assertEqual(counted("a", "b").status, 2)


class OfDatabases(ProgramCase):
    """A count of an office's database in which somebody wrote past the office."""

    def test_lots(self):
        """A and B have 100 votes each, C has 10, and the third of three seats is A's or B's."""
        for number, (lot, seats, said) in enumerate((
            ([3], [2, 1, 0], "a lot of other lists"),
            ([2], [2, 1, 0], "a lot of other lists"),
            ([3, 1], [2, 1, 0], "a lot of other lists"),
            ([2, 1, 3], [2, 1, 0], "a lot of other lists"),
            ([2, 2, 1], [2, 1, 0], "a lot of other lists"),
            ([], [2, 1, 0], "a lot is missing"),
            ([2, 1], [2, 1, 0], "seats"),
        )):
            with self.subTest(lot=lot):
                db = f"{number}.db"
                new(SETUP.replace("[[constituency.station]]",
                                  party_list("C", "Gamma", "x") + "\n[[constituency.station]]"), db)
                close_return("s1", "c1", [100, 100, 10], db=db)
                certify("c1", 3, seats, lot, db)
                spoiled(f"c1 differs: {said}\n", db)

    def test_a_lot_without_a_certificate(self):
        """It is allowed only where all stations are closed and it is needed."""
        twin_town()
        change("UPDATE cons SET certified = 0, edition = 4, note = 'again'")
        change("DELETE FROM seats")
        self.assertEqual(counted("office.db"), Ran(0, "c1 agrees\n", ""))
        change("UPDATE returns SET status = 2")
        change("UPDATE totals SET n = 0")
        spoiled("c1 differs: 1 of 1 stations not closed, a lot of other lists\n")

    def test_no_list_that_takes_part(self):
        new()
        close_return("s1", "c1", [0, 0], blank=7)
        certify("c1", 2, [0, 0])
        spoiled("c1 differs: no list takes part\n")

    def test_withdrawn_certificates(self):
        """Each is of an earlier edition, and gave each list no less than no seat."""
        for number, (edition, seats, differs) in enumerate((
            (2, (1, 2), ""),
            (3, (1, 2), " past 3"),
            (4, (1, 2), " past 4"),
            (2, (4, -1), " past 2"),
            (2, (1, 1), " past 2"),
            (2, (3,), " past 2"),
        )):
            with self.subTest(edition=edition, seats=seats):
                db = twin_town(f"{number}.db")
                put("past", *(("c1", edition, n, won) for n, won in enumerate(seats, 1)), db=db)
                if differs:
                    spoiled(f"c1 differs:{differs}\n", db)
                else:
                    self.assertEqual(counted(db), Ran(0, "c1 agrees\n", ""))

    def test_numbers_below_0(self):
        """As of a table without its CHECK, which no office opens: its sums agree."""
        new()
        close_return("s1", "c1", [100, 100])
        with contextlib.closing(sqlite3.connect("office.db")) as it:
            it.execute("PRAGMA writable_schema = 1")
            it.execute("UPDATE sqlite_master SET sql = replace(sql, ' CHECK (n >= 0)', '')")
            it.commit()
        self.assertEqual(counted("office.db"), Ran(0, "c1 agrees\n", ""))
        for table in ("counts", "totals"):
            change(f"UPDATE {table} SET n = -9 WHERE item = 0")
        spoiled("c1 differs: numbers below 0\n")

    def test_more_votes_than_electors(self):
        new()
        close_return("s1", "c1", [200, 100], spoiled=1)
        spoiled("c1 differs: more votes than electors\n")

    def test_one_of_two_constituencies_that_differs(self):
        new(profile("d0") + town() + town("c2"), constituencies=2)
        self.assertEqual(counted("office.db"), Ran(0, "c1 agrees\nc2 agrees\n", ""))
        change("UPDATE totals SET n = 1 WHERE con = 'c1' AND item = 0")
        spoiled("c1 differs: totals\nc2 agrees\n")
