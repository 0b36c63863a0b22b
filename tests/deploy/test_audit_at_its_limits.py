"""The audit of seats: papers from a spreadsheet, lots, and an audit at its limit exactly."""

import argparse
import io
from contextlib import redirect_stdout
from fractions import Fraction
from types import SimpleNamespace

from tests.support.audits import METHODS, SEED, audit, audit_of, con_of, tool
from tests.support.case import Case
from tests.support.office import constituency, party_list, profile, station
from tests.support.program import write

SETUP = (
    profile("d0")
    + constituency("c1", "Town", 3, "d0")
    + party_list("A", "Alpha", "Ana")
    + party_list("B", "Beta", "Bea")
    + "".join(station(f"s{n}", 100) for n in (1, 2, 3))
)
RETURNS = "station,slip,blank,spoiled,A,B\ns1,p1,0,0,60,20\ns2,p2,0,0,50,30\ns3,p3,0,0,10,30\n"
PAPERS = "station,drawn,blank,spoiled,A,B\ns1,0,0,0,60,20\ns2,0,0,0,50,30\ns3,0,0,0,10,30\n"
FILES = "--setup setup.toml --returns returns.csv"
ASSESS = f"assess {FILES} --papers papers.csv --seed {SEED} --risk 5"


def assessed(papers, returns=RETURNS):
    write("setup.toml", SETUP)
    write("returns.csv", returns)
    write("papers.csv", papers)
    return audit(*ASSESS.split())


class Words(Case):
    def test_the_words_of_a_command(self):
        """Limits of more than 0 and less than 100 per cent; 1 to 999999 draws; seeds of 20
        digits."""
        for read, taken, refused in (
                (tool.limit, {"0.0001": Fraction(1, 10**6), "0.5": Fraction(1, 200),
                              "1": Fraction(1, 100), "99.9999": Fraction(999999, 10**6)},
                 ("0", "0.0000", "100", "100.0", "0.00001", "1000", "5.", ".5", "5%", "")),
                (tool.draws_number, {"1": 1, "000010": 10, "999999": 999999},
                 ("0", "000000", "1000000", "-1", "1.0", "")),
                (tool.seed_digits, {SEED: SEED, "0" * 20: "0" * 20},
                 ("1" * 19, "1" * 21, f"{SEED[:-1]}x", f"{SEED}\n", "\uff11" * 20))):
            for text, value in taken.items():
                with self.subTest(read=read.__name__, text=text):
                    self.assertEqual(read(text), value)
            for text in refused:
                with self.subTest(read=read.__name__, text=text):
                    self.assertRaises(argparse.ArgumentTypeError, read, text)


    def test_words_that_are_missing(self):
        for act, named in (("plan", "--setup, --returns, --risk"), ("draw", "--setup, --returns"),
                           ("assess", "--setup, --returns, --risk, --papers")):
            with self.subTest(act=act):
                ran = audit(act, *["--all"] * (act == "draw"))
                self.assertEqual((ran.status, ran.out, ran.err.splitlines()[-1]), (
                    2, "", f"audit.py {act}: error: the following arguments are required: {named}"))


class PapersOfASpreadsheet(Case):
    def test_papers_that_are_filled_in_in_part(self):
        """A station whose blank votes alone are written is not one that is not counted yet."""
        for filled, said in (("3,,,", "''"), ("x,0,1,2", "'x'"), ("3,x,1,2", "'x'")):
            with self.subTest(filled=filled):
                ran = assessed(f"station,drawn,blank,spoiled,A,B\ns1,1,{filled}\n")
                self.assertEqual((ran.status, ran.out, ran.err), (
                    2, "", f"audit.py: papers.csv, line 2: {said} of station s1 is not a number\n"))

    def test_a_mark_semicolons_and_carriage_returns(self):
        """As spreadsheets save a CSV file."""
        quoted = '"' + PAPERS.rstrip("\n").replace(",", '","').replace("\n", '"\n"') + '"\n'
        for papers in (
            "\ufeff" + PAPERS,
            PAPERS.replace("\n", "\r\n"),
            "\ufeff" + PAPERS.replace(",", ";").replace("\n", "\r\n"),
            quoted,
            "\ufeff" + quoted,
            PAPERS + ",,,,,\n",
        ):
            with self.subTest(papers=papers):
                ran = assessed(papers)
                self.assertEqual((ran.status, ran.err), (0, ""))
                self.assertTrue(ran.out.endswith("The papers give the same seats.\n"), ran.out)

    def test_a_setup_and_returns_with_a_mark(self):
        write("setup.toml", "\ufeff" + SETUP)
        write("returns.csv", "\ufeff" + RETURNS)
        ran = audit(*"plan --setup setup.toml --returns returns.csv --risk 5".split())
        self.assertEqual((ran.status, ran.err), (0, ""))

    def test_a_quote_that_is_left_open(self):
        """It swallows no rows; at the end of the file it is a row that was cut."""
        last = PAPERS.rstrip("\n").removesuffix("30")
        for papers in (PAPERS.replace("s2,0,", 's2,"0,'), f'{last}"30', f'{last}"3"0'):
            with self.subTest(papers=papers):
                ran = assessed(papers)
                self.assertEqual((ran.status, ran.out, ran.err.count("\n")), (2, "", 1))


class Lots(Case):
    def test_all_papers_where_a_lot_decided_the_returns(self):
        """By the returns A and B have 100 votes each; one vote was counted for the other. The
        returns do not say whom the lot gave the seat, so nothing is said of the same seats; nor of
        a sample, once all are counted."""
        tie = RETURNS.replace("60,20", "40,40")
        none = ("By the returns a lot decides, and by the papers none: the certified seats have to "
                "be these.\n")
        same = ("By the returns the same lot decides: the certified seats have to be those of the "
                "lot that was drawn.\n")
        for votes, said in (("41,39", none), ("39,41", none), ("40,40", same)):
            with self.subTest(votes=votes):
                ran = assessed(PAPERS.replace("60,20", votes), tie)
                self.assertEqual((ran.status, ran.err), (1, ""))
                self.assertTrue(ran.out.endswith(said), ran.out)
                self.assertEqual(ran.out.count("A lot has to decide"), int(said is same))

    def test_the_same_lot_beside_other_seats(self):
        """By the returns and by the papers a lot decides between A and B. It is the whole question
        only where all other lists have the same seats."""
        same, other, no_such = (
            "By the returns the same lot decides: the certified seats have to be those of the lot "
            "that was drawn.", "The papers give other seats: correct the returns, and certify "
            "again.", "By the returns no such lot decides: correct them, and certify again.")
        returns, lot = [100, 100, 120, 50, 0, 0], "A's seat 1 and B's seat 1"
        for method in METHODS:
            con = con_of(method, 2, 4, [1000])
            for papers, seats, said in (
                    (returns, ["lot", "lot", "1", "0"], same),
                    ([100, 100, 110, 60, 0, 0], ["lot", "lot", "1", "0"], same),
                    ([100, 100, 50, 120, 0, 0], ["lot", "lot", "0", "1"], other),
                    ([100, 50, 120, 100, 0, 0], ["lot", "0", "1", "lot"], no_such)):
                with self.subTest(method=method, papers=papers):
                    with redirect_stdout(io.StringIO()) as out:
                        status = tool.count_of_all(audit_of(con, [returns]),
                                                   audit_of(con, [papers]))
                    lines = out.getvalue().splitlines()
                    self.assertEqual((status, [line.split()[2] for line in lines[3:7]], lines[-1]),
                                     (1, seats, said))
                    self.assertIn(lot.replace("B", "D") if said is no_such else lot, lines[-2])


class Rules(Case):
    def test_divisors_of_a_method_that_is_not_known(self):
        """They are no other method's."""
        for method in ("saint-lague", "dhondt ", "hare", "huntington-hill", ""):
            with self.subTest(method=method):
                self.assertRaises(tool.Unusable, tool.divisor, method, 1)
        self.assertEqual([tool.divisor(method, 2) for method in METHODS[:3]], [2, 3, 15])

    def test_a_setup_with_a_method_that_is_not_known(self):
        write("returns.csv", RETURNS)
        for method in ("saint-lague", "huntington-hill"):
            with self.subTest(method=method):
                write("setup.toml", SETUP.replace("dhondt", method))
                ran = audit(*"plan --setup setup.toml --returns returns.csv --risk 5".split())
                self.assertEqual((ran.status, ran.out, ran.err.count("\n")), (2, "", 1))

    def test_a_setup_whose_numbers_are_none(self):
        """The office takes no such setup: nothing is computed of it."""
        write("returns.csv", RETURNS)
        for key, value, status in (
                ("threshold = 0", "threshold = 100", 0), ("threshold = 0", "threshold = -1", 2),
                ("threshold = 0", "threshold = 10001", 2),
                ("threshold = 0", "threshold = true", 2), ("threshold = 0", "threshold = 1.5", 2),
                ("electors = 100", "electors = 100.0", 2), ("electors = 100", "electors = true", 2),
                ("electors = 100", "electors = inf", 2), ("electors = 100", "electors = -1", 2),
                ("electors = 100", "electors = 1000000", 0),
                ("electors = 100", "electors = 1000001", 2)):
            with self.subTest(value=value):
                write("setup.toml", SETUP.replace(key, value))
                ran = audit(*"plan --setup setup.toml --returns returns.csv --risk 5".split())
                self.assertEqual((ran.status, ran.err.count("\n")), (status, status // 2), ran)

    def test_what_is_wrong_in_a_setup_is_named(self):
        """Also where it is one station's, and the others are right."""
        write("returns.csv", RETURNS)
        other = station("s4", 100)
        for old, new, said in (
                ('base = "valid"', 'base = "votes"', "the rule of c1 is not known"),
                ('method = "dhondt"', 'method = "saint-lague"', "the rule of c1 is not known"),
                (other, station("s4", -1), "the electors of a station of c1 are no number"),
                (other, f"{other}agents = true\n",
                 "the electors of a station of c1 are no number")):
            with self.subTest(new=new):
                self.assertIn(old, SETUP + other)
                write("setup.toml", (SETUP + other).replace(old, new))
                ran = audit(*"plan --setup setup.toml --returns returns.csv --risk 5".split())
                self.assertEqual((ran.status, ran.out, ran.err),
                                 (2, "", f"audit.py: setup.toml: {said}\n"))

    def test_who_takes_part(self):
        """A has 90 votes, B 10, and 100 are blank: of the votes for lists B has a tenth, of the
        valid ones a twentieth. A threshold that it reaches exactly lets it take part."""
        for base, threshold, wanted in (("lists", 1000, [0, 1]), ("lists", 1001, [0]),
                                        ("valid", 500, [0, 1]), ("valid", 501, [0])):
            with self.subTest(base=base, threshold=threshold):
                con = con_of("dhondt", 3, 2, [200], threshold, base)
                self.assertEqual(tool.taking_part(con, [90, 10], 100), wanted)
        # Of 20,000 votes 50.01 per cent are 10,002.
        for votes, wanted in (([9999, 10001], []), ([9998, 10002], [1])):
            con = con_of("hare", 3, 2, [20000], 5001, "lists")
            self.assertEqual(tool.taking_part(con, votes, 7), wanted)
        # Without a threshold one without a vote takes part too, and with one a vote is needed.
        for threshold, votes, wanted in ((0, [1, 0], [0, 1]), (5000, [1, 1], [0, 1]),
                                         (5000, [0, 0], [])):
            con = con_of("dhondt", 3, 2, [200], threshold, "lists")
            self.assertEqual(tool.taking_part(con, votes, 0), wanted)

    def test_a_setup_with_more_seats_than_the_office_takes(self):
        write("returns.csv", RETURNS)
        for seats, status in ((0, 2), (500, 0), (501, 2), (10**9, 2), ('"3"', 2), ("true", 2),
                              (3.0, 2)):
            with self.subTest(seats=seats):
                write("setup.toml", SETUP.replace("seats = 3", f"seats = {seats}"))
                ran = audit(*"plan --setup setup.toml --returns returns.csv --risk 5".split())
                self.assertEqual((ran.status, "not 1 to 500" in ran.err), (status, status == 2))

    def test_one_list_and_a_threshold_of_all_votes(self):
        """Its votes are the base: no paper for it, and no spoiled one, changes the difference."""
        con = con_of("dhondt", 3, 1, [100], 10000, "lists")
        found = audit_of(con, [[60, 5, 1]])
        self.assertEqual([it.words for it in found.assertions], ["A has a vote"])


    def words_of(self, *given):
        """The assertions of a constituency with one station of 400 electors, in words."""
        con, votes = con_of(*given[:3], [400], given[3]), given[4]
        return [it.words for it in audit_of(con, [[*votes, 0, 0]]).assertions]

    def test_a_list_below_the_threshold_is_shown_by_what_is_easier_to_show(self):
        """By D'Hondt of five seats A has four, with 200 votes, and B one, with 41; C has 10.

        The most that can be wrong: of A's fourth seat before C's first (200 - 4 x 10 + 4 x 400) /
        161 = 10.9, of B's first before it (41 - 10 + 400) / 31 = 13.9. A threshold of t
        ten-thousandths of 251 votes is not reached with (251 t - 100000 + (10000 - t) x 400) /
        (251 t - 100000): 13.3 where t is 1500, and 14.7 where it is 1400.
        """
        below, seats = "C is below the threshold", {
            "A's seat 4 comes before C's seat 1", "B's seat 1 comes before C's seat 1"}
        for threshold, wanted in ((1500, {below}), (1400, seats)):
            with self.subTest(threshold=threshold):
                found = self.words_of("dhondt", 5, 3, threshold, [200, 41, 10])
                self.assertEqual({words for words in found if "C" in words}, wanted)

    def test_a_list_below_the_threshold_whose_quotient_is_as_great(self):
        """Of four seats A has all: its fourth quotient is 25, as is B's first, or a little less.

        With 100 votes A's fourth seat comes before B's first, by one vote, which is closer than
        0.01 per cent of 125 votes; with 99 B is out for its threshold alone.
        """
        for threshold, votes, wanted in ((2001, [100, 25], "A's seat 4 comes before B's seat 1"),
                                         (2100, [99, 25], "B is below the threshold")):
            with self.subTest(votes=votes):
                found = self.words_of("dhondt", 4, 2, threshold, votes)
                self.assertEqual([words for words in found if "B" in words], [wanted])


class Errors(Case):
    def test_a_bound_where_two_assertions_are_as_close(self):
        """By D'Hondt of two seats A has one with 90 votes and D the other with 50, before B and C
        with 40 each.

        The ten electors of s1 voted for A. On paper they may have voted for B, or for C: 20 of the
        50 votes of either's distance from A. Of the 10 from D's seat 10 are missing then.
        """
        con = con_of("dhondt", 2, 4, [10, 240])
        it = audit_of(con, [[10, 0, 0, 0, 0, 0], [80, 40, 40, 50, 0, 0]])
        self.assertEqual((it.seats, it.bounds["s1"]), ([1, 0, 0, 1], 1000000))

    def test_an_error_by_quotas(self):
        """Of four seats A has two with 120 votes, and B two with 80: the claims are 2.4 and 1.6.

        Ten votes for A are spoiled on paper. A's second before B's third is 4 x 120 - 4 x 80 + 200
        = 360, and has 4 x 10 + 10 less.
        """
        it = audit_of(con_of("hare", 4, 2, [100] * 3),
                      [[60, 20, 0, 0], [50, 30, 0, 0], [10, 30, 0, 0]])
        self.assertEqual(it.error("s1", [50, 20, 0, 10]), 138889)


class AtTheLimit(Case):
    """A draw without an error multiplies the risk by (1 - 1/U)."""

    def followed(self, risk, draws):
        """The status of an audit of this many draws without an error, at this limit."""
        rows = [[60, 20, 0, 0], [50, 30, 0, 0], [10, 30, 0, 0]]
        found = audit_of(con_of("dhondt", 3, 2, [100] * 3), rows)
        given = SimpleNamespace(seed=SEED, risk=risk)
        with redirect_stdout(io.StringIO()):
            return tool.follow(found, given, ["s1"] * draws, found.recorded)

    def test_a_risk_of_the_limit_exactly(self):
        """U is 8.5, so that three draws leave (15/17) to the power of three."""
        risk = Fraction(15, 17) ** 3
        self.assertEqual(self.followed(risk, 3), 0)
        self.assertEqual(self.followed(risk - Fraction(1, 10**12), 3), 1)
        self.assertEqual(self.followed(risk, 2), 1)

    def test_no_draw_is_looked_at_after_one_that_is_not_counted(self):
        """Whatever is counted of the stations that come later."""
        it = audit_of(con_of("dhondt", 3, 2, [100] * 3),
                      [[60, 20, 0, 0], [50, 30, 0, 0], [10, 30, 0, 0]])
        with redirect_stdout(io.StringIO()) as said:
            counted = {one: it.recorded[one] for one in ("s1", "s2")}
            status = tool.follow(it, SimpleNamespace(seed=SEED, risk=Fraction(1, 20)),
                                 ["s1", "s3", "s2"], counted)
        rows = [line.split()[:2] for line in said.getvalue().splitlines()[2:]]
        self.assertEqual((status, rows[:3]), (1, [["1", "s1"], ["The", "papers"],
                                                  ["Not", "confirmed."]]))

    def test_a_station_that_is_drawn_a_thousand_times(self):
        """Of 4,000 draws each of three stations has more than a fifth."""
        write("setup.toml", SETUP)
        write("returns.csv", RETURNS)
        words = "draw --setup setup.toml --returns returns.csv --draws 4000".split()
        drawn = audit(*words, "--seed", SEED)
        self.assertEqual((drawn.status, drawn.err), (0, ""))
        rows = [row.split(",") for row in drawn.out.splitlines()[1:]]
        self.assertGreaterEqual(max(int(row[1]) for row in rows), 1000)
        counts = dict(line.split(",", 1) for line in ("s1,0,0,60,20", "s2,0,0,50,30"))
        text = "station,drawn,blank,spoiled,A,B\n" + "".join(
            f"{station},{drawn},{counts.get(station, ',,,')}\n" for station, drawn, *_ in rows
        )
        ran = assessed(text)
        self.assertEqual(ran.err, "")
        self.assertIn("risk %", ran.out)


class Expected(Case):
    def test_how_many_stations_and_papers_draws_reach(self):
        """Of two stations with one bound each is reached by a draw with a chance of a half, and by
        two draws with three quarters; where there is one it is reached."""
        two = SimpleNamespace(sums=[3, 6], bounds={"s1": 3, "s2": 3},
                              recorded={"s1": [10, 0, 0], "s2": [20, 5, 5]})
        one = SimpleNamespace(sums=[3], bounds={"s1": 3}, recorded={"s1": [10, 0, 0]})
        for it, draws, stations, papers in ((two, 1, 1, 20), (two, 2, 1.5, 30), (one, 1, 1, 10)):
            with self.subTest(stations=len(it.sums), draws=draws):
                found = tool.Audit.reached(it, draws)
                self.assertAlmostEqual(found[0], stations, places=6)
                self.assertAlmostEqual(found[1], papers, places=6)

    def test_draws_where_hardly_any_error_is_possible(self):
        """Of one list U is 1: where it has no vote its station shows it, and one draw leaves no
        risk. With a threshold of a tenth U is 1.11, so that a draw leaves a tenth of the risk, and
        two leave a hundredth."""
        for threshold, draws, total in ((0, 1, 1000000), (1000, 2, 1111110)):
            with self.subTest(threshold=threshold):
                it = audit_of(con_of("dhondt", 3, 1, [100], threshold), [[100, 0, 0]])
                self.assertEqual((it.sums[-1], it.expected(20)), (total, draws))

    def test_draws_where_votes_are_recorded_wrongly(self):
        """U is 8.5, and 20 wrong votes make the closest assertion false. Of 300 votes, of which 100
        are blank, 3 are wrong: errors of 0.15 together, so that a draw leaves 15/17 / (1 - 0.15 /
        8.5) = 0.898 of the risk on the average, and 28 draws leave less than a twentieth."""
        it = SimpleNamespace(sums=[3500000, 8500000], votes=[120, 80], blank=100,
                             assertions=[SimpleNamespace(votes=lambda: Fraction(20))])
        self.assertEqual(tool.Audit.expected(it, 20, 0.01), 28)
        # Where 20 of 300 are wrong no number of draws is enough.
        self.assertIsNone(tool.Audit.expected(it, 20, 0.067))
        self.assertGreater(tool.Audit.expected(it, 20, 0.066), 1000)
