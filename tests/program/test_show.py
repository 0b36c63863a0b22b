"""`office show`: the reports."""

import itertools
import random
from fractions import Fraction

from tests.support.office import SETUP, constituency, profile
from tests.support.program import (
    ProgramCase,
    Ran,
    certify,
    close_return,
    database,
    new,
    only,
    put,
    recount,
    refused,
    rows,
    setup_of,
    show,
    shows,
)
from tests.support.twin_town import (
    AWARDS,
    COUNTRY_OPEN,
    HOLDERS,
    PAST,
    PROGRESS,
    PROVISIONAL_CERTIFIED,
    PROVISIONAL_NONE,
    PROVISIONAL_OPEN,
    PROVISIONAL_TIED,
    QUOTIENTS,
    SEATS,
    SHORT,
    TALLY,
    twin_town,
)


DIVISORS = {
    "dhondt": lambda k: Fraction(k),
    "sainte-lague": lambda k: Fraction(2 * k - 1),
    "modified-sainte-lague": lambda k: Fraction(7, 5) if k == 1 else Fraction(2 * k - 1),
}


ORDERS = list(itertools.permutations(range(3)))


def awarded(method, seats, votes, order):
    """The seats of three lists, each given to the greatest quotient, then the most votes, then the
    first in order.
    """
    won = [0, 0, 0]
    for _ in range(seats):
        take_part = [m for m in range(3) if votes[m]]
        won[
            max(
                take_part,
                key=lambda m: (votes[m] / DIVISORS[method](won[m] + 1), votes[m], -order.index(m)),
            )
        ] += 1
    return won


def tried(method, seats, votes, m, held):
    """The least number of votes more with which a list has more seats in every order, tried one by
    one.
    """
    for more in itertools.count(1):
        if held == seats:
            return "-"
        with_more = [n + more * (place == m) for place, n in enumerate(votes)]
        if min(awarded(method, seats, with_more, order)[m] for order in ORDERS) > held:
            return more


class Show(ProgramCase):
    def test_an_office_that_opens(self):
        new()
        shows("progress", PROGRESS, con=None)
        shows("progress", PROGRESS, con="zz")
        shows("past", "PAST c1 Twin Town\n")
        shows(
            "stations",
            "STATIONS c1 Twin Town\nstations 1 missing 1 closed 0\ns1                   300 -\n",
        )
        shows("returns", "station,slip,blank,spoiled,A,B\n")
        shows("country", COUNTRY_OPEN, con=None)
        shows("country", COUNTRY_OPEN, con="zz")
        for report in ("seats", "quotients", "awards", "quota", "holders", "short"):
            with self.subTest(report=report):
                self.assertEqual(show(report), Ran(1, "", "refused: not_certified\n"))
        for con in ("zz", "no code", "", "C1", "c1 "):
            with self.subTest(con=con):
                for report in ("stations", "returns"):
                    with self.subTest(report=report):
                        refused(
                            "no_constituency",
                            "show",
                            "--db",
                            "office.db",
                            "--report",
                            report,
                            f"--con={con}",
                        )
                self.assertEqual(show("tally", con=None), Ran(2, "", "missing --con\n"))
                refused(
                    "no_constituency",
                    "show",
                    "--db",
                    "office.db",
                    "--report",
                    "tally",
                    f"--con={con}",
                )
        only("office.db")

    def test_the_reports_of_a_certified_constituency(self):
        twin_town()
        before = rows()
        for report, text in (
            ("tally", TALLY),
            ("seats", SEATS),
            ("quotients", QUOTIENTS),
            ("awards", AWARDS),
            ("short", SHORT),
            ("past", "PAST c1 Twin Town\n"),
            (
                "progress",
                "c1                    1      0      0      0      0      1      3 certified\n",
            ),
            (
                "stations",
                (
                    "STATIONS c1 Twin Town\nstations 1 missing 0 closed 1\ns1                   300"
                    " closed       2 p1                   200       0       0\n"
                ),
            ),
            ("returns", "station,slip,blank,spoiled,A,B\ns1,p1,0,0,100,100\n"),
            (
                "country",
                COUNTRY_OPEN.replace("certified 0", "certified 1")
                .replace("closed 0", "closed 1")
                .replace(
                    "A                     0             0", "A                     1           100"
                )
                .replace(
                    "B                     0             0", "B                     2           100"
                )
                .replace(
                    "total                 0             0", "total                 3           200"
                ),
            ),
        ):
            with self.subTest(report=report, text=text):
                shows(report, text)
        self.assertEqual(show("quota"), Ran(1, "", "refused: other_method\n"))
        self.assertEqual(rows(), before)
        only("office.db")
        recount()
        put("gone", ("c1", 2, 1, "resigned"))
        shows("holders", HOLDERS)

    def test_the_provisional_seats_at_each_step_of_a_count(self):
        new()
        shows("provisional", PROVISIONAL_NONE)
        put("returns", ("s1", "c1", 1, "p1", 1, ""))
        put("counts", *(("s1", item, n) for item, n in ((0, 0), (1, 100), (2, 100), (61, 0))))
        shows("provisional", PROVISIONAL_NONE)
        with database() as it:
            it.execute("DELETE FROM returns")
            it.execute("DELETE FROM counts")
        close_return("s1", "c1", [100, 100])
        shows("provisional", PROVISIONAL_TIED)
        put("lots", ("c1", 1, 2), ("c1", 2, 1))
        shows("provisional", PROVISIONAL_OPEN)
        with database() as it:
            it.execute("DELETE FROM lots")
        certify("c1", 3, [1, 2], [2, 1])
        before = rows()
        shows("provisional", PROVISIONAL_CERTIFIED)
        self.assertEqual(rows(), before)
        only("office.db")

    def test_a_certificate_that_was_reopened(self):
        new()
        close_return("s1", "c1", [100, 100])
        put("lots", ("c1", 1, 2), ("c1", 2, 1))
        put("past", ("c1", 3, 1, 1), ("c1", 3, 2, 2))
        with database() as it:
            it.execute("UPDATE cons SET edition = 4, note = 'recount'")
        shows("past", PAST)
        self.assertEqual(show("seats"), Ran(1, "", "refused: not_certified\n"))
        recount()

    def test_a_quota_by_hare(self):
        new(setup_of("hare", 8, "ABCDEF"))
        close_return("s1", "c1", [168000, 104000, 72000, 64000, 40000, 32000])
        certify("c1", 2, [3, 2, 1, 1, 1, 0])
        lines = show("quota").out.splitlines()
        self.assertEqual(
            lines[:3],
            [
                "QUOTA c1 Village",
                "votes 480000 seats 8",
                "A                     168000    2          384000    3",
            ],
        )
        self.assertEqual(lines[6], "E                      40000    0          320000    1")
        for report in ("quotients", "awards", "short"):
            with self.subTest(report=report):
                self.assertEqual(show(report), Ran(1, "", "refused: other_method\n"))
        recount()

    def test_the_quotients_of_modified_sainte_lague(self):
        new(setup_of("modified-sainte-lague", 2, "ABC"))
        close_return("s1", "c1", [53, 24, 23])
        certify("c1", 2, [2, 0, 0])
        shows(
            "awards",
            """\
AWARDS c1 Village
   1 A                  1           265     7          37
   2 A                  2           265    15          17
""",
        )
        shows(
            "quotients",
            """\
QUOTIENTS c1 Village
A               *         37*         17          10
B                         17           8           4
C                         16           7           4
""",
        )
        shows(
            "short",
            (
                "SHORT c1 Village\nA                   2           -\nB                   0        "
                "   1\nC                   0           2\n"
            ),
        )
        recount()

    def test_seats_and_votes_short_are_found_by_trying(self):
        """Two hundred constituencies of few votes, many of them with a lot.

        That they open says that their seats are the allotment.
        """
        draw = random.Random(163)
        methods = list(DIVISORS)
        polls = []
        while len(polls) < 200:
            votes = [draw.randrange(7) for _ in "ABC"]
            if any(votes):
                polls.append((draw.choice(methods), draw.randint(1, 4), votes))
        text = "".join(profile(f"p{n}", method, base="lists") for n, method in enumerate(methods))
        lists = ", ".join(
            f'{{code = "{code}", name = "{code}", candidates = ["x"]}}' for code in "ABC"
        )
        for n, (method, seats, _) in enumerate(polls):
            text += constituency(f"c{n}", "Village", seats, f"p{methods.index(method)}")
            text += f'list = [{lists}]\nstation = [{{code = "s{n}", electors = 1000}}]\n'
        new(text, constituencies=200)
        wanted = {}
        for n, (method, seats, votes) in enumerate(polls):
            results = [awarded(method, seats, votes, order) for order in ORDERS]
            group = [m for m in range(3) if len({won[m] for won in results}) > 1]
            order = draw.choice(ORDERS)
            won = awarded(method, seats, votes, order)
            close_return(f"s{n}", f"c{n}", votes)
            certify(f"c{n}", 3 if group else 2, won, [m + 1 for m in order if m in group])
            wanted[f"c{n}"] = f"SHORT c{n} Village\n" + "".join(
                f"{code:<16}{won[m]:>5}{tried(method, seats, votes, m, won[m]):>12}\n"
                for m, code in enumerate("ABC")
                if votes[m]
            )
        for con, lines in wanted.items():
            with self.subTest(con=con, lines=lines):
                shows("short", lines, con)
        with database() as it:
            self.assertGreaterEqual(
                it.execute("SELECT count(DISTINCT con) FROM lots").fetchone()[0], 20
            )

    def test_an_alternating_lot(self):
        new(SETUP.replace('base = "valid"\n', 'base = "valid"\nlot = "alternating"\n'))
        close_return("s1", "c1", [100, 100])
        certify("c1", 3, [2, 1], [2, 1])
        lines = show("seats").out.splitlines()
        self.assertEqual(
            lines[2:],
            ["A                   2 Alpha", "B                   1 Beta", "total               3"],
        )
        recount()
