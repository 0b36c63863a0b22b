"""The values of papers, of constituencies that are made by hand, and the rows that no office has.

Nothing is started and nothing is printed: test_papers has the papers.
"""

import re
from datetime import date
from pathlib import Path
from types import SimpleNamespace
from unittest import mock

from tests.support.case import Case
from tests.support.papers import COPY, HASH, con_of, copy_of, setup_with
from tests.support.scripts import loaded, module

data, forms_of, papers = module("papers_data"), module("papers_forms"), loaded("papers")


def forms(language="en", **about):
    found = forms_of.Forms(None, language, False)
    found.about |= about
    return found


class Sums(Case):
    def test_a_constituency(self):
        """By hand: A has 7 votes, B 3, and 2 are blank; 7 / 12 are 58.33 per cent, 7 / 10 70."""
        con = con_of(agents=2)
        self.assertEqual((con.left, con.electors, con.agents, con.blank, con.spoiled, con.votes,
                          con.valid), (0, 20, 2, 2, 4, {1: 7, 2: 3}, 12))
        self.assertEqual((con.base, con.share(7)), (12, 5833))
        of_lists = con_of(rule={"base": "lists"})
        self.assertEqual((of_lists.base, of_lists.share(7)), (10, 7000))
        self.assertEqual((con.returns[0].valid, con.returns[0].papers), (6, 8))
        self.assertEqual(con.published, "station,slip,blank,spoiled,A,B\ns1,p1,1,2,3,2\n"
                                        "s2,p2,1,2,4,1\n")
        open_one = con_of(status=3)
        self.assertEqual((open_one.left, open_one.votes, open_one.closed), (2, {1: 0, 2: 0}, []))
        self.assertEqual([con_of(certified=one, edition=7).published_name for one in (True, False)],
                         ["stations-c1-7.csv", "stations-c1-open.csv"])

    def test_which_lists_take_part_and_which_need_a_lot(self):
        """A threshold is of the valid votes: 3 of 12 are 25 per cent."""
        for threshold, wanted in ((2500, [1, 2]), (2501, [1]), (10_000, [])):
            with self.subTest(threshold=threshold):
                con = con_of(rule={"threshold": threshold})
                self.assertEqual((con.eligible, con.lot_needed), (wanted, []))
        self.assertEqual(con_of(votes=((5, 5),), seats=1).lot_needed, [1, 2])
        self.assertEqual(con_of(votes=((5, 5),), seats=2).lot_needed, [])

    def test_who_is_elected(self):
        con = con_of(given={1: 3, 2: 0})
        self.assertEqual(con.elected({}), [(1, 1, "Ana"), (1, 2, "Abel"), (1, None, None)])
        self.assertEqual(con.elected({(1, 1), (2, 1)}),
                         [(1, 2, "Abel"), (1, None, None), (1, None, None)])
        self.assertEqual(con_of(given={2: 1}).elected({(2, 1)}), [(2, 2, "Bo")])


class Rows(Case):
    """Rows of a database that no office has are refused."""

    def test_a_return(self):
        good, row = {0: 1, 1: 3, 2: 2, 61: 0}, ("s1", 2, "p1", 4, "")
        for numbers, at, value, is_right in (
                ({}, 1, 1, True), ({}, 1, 0, False), ({}, 1, 9999, True), ({}, 1, 10_000, False),
                ({}, 3, 1, True), ({}, 3, 0, False), ({}, 3, 4, True), ({}, 3, 5, False),
                ({}, 2, "x" * 16, True), ({}, 2, "x" * 17, False), ({}, 2, "", False),
                ({}, 2, "p 1", False), ({1: 1_000_000}, 1, 1, True), ({1: 1_000_001}, 1, 1, False),
                ({1: 0}, 1, 1, True), ({1: -1}, 1, 1, False), ({3: 0}, 1, 1, False),
                ({60: 0}, 1, 1, False)):
            with self.subTest(numbers=numbers, at=at, value=value):
                words = con_of(), good | numbers, (*row[:at], value, *row[at + 1:])
                if not is_right:
                    self.assertRaises(ValueError, data.read_return, *words)
                    continue
                found = data.read_return(*words)
                self.assertEqual((found.blank, found.spoiled, found.votes),
                                 (1, 0, [(good | numbers)[1], 2]))
        for item in good:
            rest = {key: n for key, n in good.items() if key != item}
            self.assertRaises(ValueError, data.read_return, con_of(), rest, row)

    def test_a_constituency(self):
        """The first and the last of what its rows may have: two lists of two candidates each."""
        returns = [("s2", 1, "p2", 1, ""), ("s1", 2, "p1", 4, "x")]
        counts = [(station, item, 5) for station in ("s1", "s2") for item in (0, 1, 2, 61)]
        good = {"cons": [(2, 1, "why")], "returns": returns, "counts": counts, "lots": [(2,), (1,)],
                "seats": [(1, 2), (2, 1)], "gone": [(1, 1, "x"), (2, 2, "y")],
                "past": [(1, 1, 3), (1, 2, 0), (2, 1, 1), (2, 2, 2)]}

        def read(**rows):
            tables = good | rows
            return data.read_con(lambda sql, _: tables[re.search(r"FROM (\w+)", sql)[1]],
                                 con_of().setup)

        con = read()
        self.assertEqual([(one.station, one.revision, one.votes) for one in con.returns],
                         [("s1", 2, [5, 5]), ("s2", 1, [5, 5])])
        self.assertEqual((con.edition, con.certified, con.note, con.lot, con.given, con.gone),
                         (2, True, "why", [2, 1], {1: 2, 2: 1}, {(1, 1): "x", (2, 2): "y"}))
        self.assertEqual(con.past, {1: {1: 3, 2: 0}, 2: {1: 1, 2: 2}})
        for rows, is_right in (
                ({"cons": [(1, 0, "")]}, True), ({"cons": [(9999, 1, "")]}, True),
                ({"cons": [(0, 1, "")]}, False), ({"cons": [(10_000, 1, "")]}, False),
                ({"cons": [(2, 2, "")]}, False), ({"cons": [(2, -1, "")]}, False),
                ({"lots": []}, True), ({"lots": [(1,)]}, True), ({"lots": [(3,)]}, False),
                ({"lots": [(0,)]}, False), ({"returns": returns[:1]}, True),
                ({"returns": [("s9", 2, "p1", 4, "")]}, False),
                ({"gone": [(1, 2, "")]}, True), ({"gone": [(1, 3, "")]}, False),
                ({"gone": [(1, 0, "")]}, False), ({"gone": [(3, 1, "")]}, False),
                ({"gone": [(0, 1, "")]}, False)):
            with self.subTest(rows=rows):
                if is_right:
                    self.assertEqual(read(**rows).certified, rows.get("cons", [(2, 1)])[0][1] == 1)
                else:
                    self.assertRaises(ValueError, read, **rows)

    def test_the_order_and_the_parts_of_a_copy(self):
        """Returns are in the order of the setup, and what is gone by lists and places."""
        copy_of("INSERT INTO gone VALUES ('montehondo', 3, 2, 'one'), ('montehondo', 1, 4, 'two')",
                "INSERT INTO past SELECT con, 1, list, n FROM seats")
        text, cons = data.read_copy(Path(COPY))
        con = cons["montehondo"]
        self.assertEqual([one.station for one in con.returns],
                         [station["code"] for station in con.stations])
        self.assertEqual(con.gone, {(1, 4): "two", (3, 2): "one"})
        self.assertEqual((con.past, con.given), ({1: {1: 4, 2: 3, 3: 2, 4: 0, 5: 0}},
                                                 {1: 4, 2: 3, 3: 2, 4: 0, 5: 0}))
        self.assertEqual((con.edition, con.certified, con.hash, con.lot), (2, True, HASH, []))
        self.assertIn('code = "montehondo"', text)

    def test_a_log_beside_a_copy(self):
        """One without a byte has no commit, and one with a byte may have."""
        copy_of()
        for end in ("-wal", "-journal"):
            for data_of_log, is_copy in ((b"", True), (b"x", False)):
                with self.subTest(end=end, data=data_of_log):
                    Path(f"{COPY}{end}").write_bytes(data_of_log)
                    if is_copy:
                        data.read_copy(Path(COPY))
                    else:
                        self.assertRaises(data.Refused, data.read_copy, Path(COPY))
            Path(f"{COPY}{end}").unlink()


class Texts(Case):
    def test_the_result_of_a_count(self):
        """12 valid votes and 4 spoiled ones: 16 of 20 electors are 80 per cent."""
        rows = [("electors", "20"), ("voters", "16"), ("turnout", "80.00 %"), ("valid", "12"),
                ("of_lists", "10"), ("blank", "2"), ("spoiled", "4")]
        for con, by_hand, wanted in (
                (con_of(), (), rows), (con_of(agents=2), (), [rows[0], ("agents", "2"), *rows[1:]]),
                (con_of(agents=2), ("certificates",),
                 [rows[0], ("certificates", ""), ("agents", "2"), *rows[1:]])):
            with self.subTest(wanted=wanted):
                self.assertEqual([(key, number) for key, _, number in
                                  forms_of.result(forms(), con, by_hand)], wanted)

    def test_rows_of_lists(self):
        con = con_of(rule={"threshold": 2501}, given={1: 3})
        self.assertEqual([list(row.values()) for row in forms_of.list_rows(forms(), con)], [
            [1, "A", "List A", "7", "58.33 %", "yes", "3"],
            [2, "B", "List B", "3", "25.00 %", "no", "0"]])

    def test_a_threshold(self):
        for least, said in ((0, "if it has votes."), (1, "reaches 0.01 % of"),
                            (300, "reaches 3.00 % of")):
            self.assertIn(said, forms_of.threshold(forms(), con_of(rule={"threshold": least})))

    def test_what_is_said_of_a_lot(self):
        """Turned round for every second seat where the rule says so, and not by Hare's method."""
        tie, turned = ((5, 5),), "For the second seat"
        for how, said in (
                ({"rule": {"threshold": 10_000}}, ["No list takes part"]),
                ({"votes": tie, "seats": 1}, ["Votes are equal."]),
                ({}, ["The votes decide every"]),
                ({"votes": tie, "lot": [2, 1]}, ["Equal votes were decided by lot"]),
                ({"votes": tie, "lot": [2, 1], "rule": {"lot": "fixed"}}, ["Equal votes"]),
                ({"votes": tie, "lot": [2, 1], "rule": {"lot": "alternating"}},
                 ["Equal votes", turned]),
                ({"votes": tie, "lot": [2, 1], "rule": {"lot": "alternating", "method": "hare"}},
                 ["Equal votes"])):
            with self.subTest(how=how):
                found = forms_of.lot(forms(), con_of(**how), None)
                self.assertEqual(len(found), len(said))
                for one, words in zip(found, said):
                    self.assertTrue(one.startswith(words), one)
        [drawn] = forms_of.lot(forms(), con_of(votes=tie, lot=[2, 1]), None)
        self.assertTrue(drawn.endswith("in this order: 1. B, 2. A."), drawn)
        [needed] = forms_of.lot(forms(), con_of(votes=tie, seats=1), None)
        self.assertTrue(needed.endswith("recorded: A, B."), needed)

    def test_what_a_correction_changed(self):
        def figures(slip, votes, blank, spoiled):
            return slip, data.items(votes, blank, spoiled)

        before = figures("p1", [3, 2], 0, 1)
        for after, wanted in (
                (before, "the same figures"), (None, "not in the record of commands"),
                (figures("p2", [3, 2], 0, 1), "Paper: p1 became p2"),
                (figures("p1", [0, 2], 4, 1), "blank: 0 became 4; A: 3 became 0"),
                (figures("p1", [3, 2], 0, 0), "spoiled: 1 became 0"),
                (figures("p2", [3, 1234], 0, 0), "B: 2 became 1,234; spoiled: 1 became 0; "
                                                 "Paper: p1 became p2")):
            with self.subTest(after=after):
                self.assertEqual(forms_of.changes(forms(), con_of(), (before, after)), wanted)
        self.assertEqual(forms_of.changes(forms(), con_of(), (None, before)),
                         "not in the record of commands")

    def test_incidents_that_only_the_copy_has(self):
        con = con_of(note="recount")
        con.returns[1].note = "3 or 8?"
        self.assertEqual(forms_of.incidents(forms(), con, None), [
            ("Return of station s2 queried", "3 or 8?", None),
            ("Result reopened, and its proclamation withdrawn", "recount", None)])

    def test_the_annex(self):
        """Ten lists are beside the sums, and fifteen are in each further table."""
        for number, wanted in ((1, [1]), (10, [10]), (11, [10, 1]), (25, [10, 15]),
                               (26, [10, 15, 1]), (41, [10, 15, 15, 1])):
            for agents in (0, 2):
                with self.subTest(number=number, agents=agents):
                    codes = [f"L{n}" for n in range(1, number + 1)]
                    con = con_of(votes=(range(number), [5] * number), lists=codes, agents=agents)
                    found = forms_of.annex(forms(), con)
                    sums = ["electors", *["agents"] * bool(agents), "voters", "spoiled", "valid",
                            "blank"]
                    self.assertEqual([one["heads"] for one in found], [
                        [*(sums if place == 0 else []),
                         *codes[sum(wanted[:place]):sum(wanted[:place + 1])]]
                        for place in range(len(wanted))])
                    self.assertEqual([cell for one in found for cell in one["sums"]][len(sums):],
                                     [str(n + 5) for n in range(number)])
        con = con_of(agents=2)
        [found] = forms_of.annex(forms(), con)
        self.assertEqual(found["rows"], [("s1", None, ["10", "2", "8", "2", "6", "1", "3", "2"]),
                                         ("s2", None, ["10", "0", "8", "2", "6", "1", "4", "1"])])
        self.assertEqual(found["sums"], ["20", "2", "16", "4", "12", "2", "7", "3"])

    def test_codes_that_are_written_upwards(self):
        for code, is_long in (("x" * 8, False), ("x" * 9, True)):
            [found] = forms_of.annex(forms(), con_of(lists=["A", code]))
            self.assertEqual(found["long"], is_long)

    def test_moments(self):
        """In the zone of the site, or as the record has them."""
        for about, wanted in (({}, "29 November 2026, 23:30 (-03:30)"),
                              ({"timezone": "Asia/Kolkata"}, "30 November 2026, 08:30 (+05:30)"),
                              ({"timezone": "UTC"}, "30 November 2026, 03:00 (+00:00)")):
            with self.subTest(about=about):
                self.assertEqual(forms(**about).when("2026-11-29T23:30:00-03:30"), wanted)

    def test_a_text_in_a_style_sheet(self):
        """Letters and digits are themselves, and nothing else is."""
        self.assertEqual(forms_of.in_style('a Z9"\\ñ;'), '"a Z9\\22 \\5c \\f1 \\3b "')
        self.assertEqual(forms_of.counters(f"{forms_of.PAGE}/{forms_of.PAGES}"),
                         '"" counter(page) "\\2f " counter(pages) ""')

    def test_who_signs(self):
        """A president and a secretary without a name where the board has none."""
        board = [{"name": "Ana", "role": "president"}, {"name": "Eva", "role": "clerk"}]
        for members, roles, wanted in (
                ([], (), [(None, "President"), (None, "Secretary")]),
                (board, (), [("Ana", "President"), ("Eva", "clerk"), (None, "Secretary")]),
                (board, ("president", "secretary"), [("Ana", "President"), (None, "Secretary")])):
            with self.subTest(members=members, roles=roles):
                found = forms(board=members).signers("c1", *roles)
                self.assertEqual([(one["name"], one["role"]) for one in found], wanted)

    def test_the_head_and_the_foot(self):
        con = con_of(edition=3)
        found = forms_of.paper(forms(date=date(2026, 11, 29)), con, "count_form", None)
        self.assertEqual((found["day"], found["foot"][1]), (
            "Election of 29 November 2026", "Edition 3 of the result · 2 of 2 returns closed · "
                                            "printed without the record of commands"))
        found = forms_of.paper(forms(), con, "count_form", SimpleNamespace(number=1234))
        self.assertTrue(found["day"].startswith("Election of ____"))
        self.assertTrue(found["foot"][1].endswith("record of commands up to line 1,234"))
        self.assertEqual(forms_of.done_at(forms(place="Lugo")).count("Lugo"), 1)
        self.assertIn("____", forms_of.done_at(forms()))

    def test_who_is_gone_and_who_follows(self):
        """Of A two seats: the first is gone, and the second has nobody after her."""
        con = con_of(given={1: 2, 2: 1}, gone={(1, 1): "died", (2, 1): "resigned"}, certified=True)
        self.assertEqual(forms_of.gone_of(forms(), con, {(2, 1)}), [
            "B, place 1: <bdi>Bea</bdi>. Reason: <bdi>resigned</bdi>"])
        self.assertEqual(forms_of.holders(forms(), con, {(1, 1), (2, 1)}), [
            "A: nobody is left on the list, and the seat stays vacant",
            "B, place 2: <bdi>Bo</bdi>"])
        self.assertEqual(forms_of.holders(forms(), con, {(2, 1)}), ["B, place 2: <bdi>Bo</bdi>"])
        self.assertEqual(forms_of.holders(forms(), con, ()), [])
        con.past = {1: {1: 2, 2: 1}}
        self.assertEqual(forms_of.withdrawn(forms(), con), [
            "Withdrawn proclamation, edition 1: A 2, B 1"])

    def test_the_act_of_proclamation(self):
        """Who was elected is apart from who is gone since, where somebody knows that: after a first
        certificate everybody is, and without a record nobody knows after a second one."""
        gone = {(1, 1): "died"}
        for past, elected, known in (
                ({}, [("1", 1, "Ana"), ("2", 2, "Abel"), ("3", 1, "Bea")], True),
                ({1: {1: 2, 2: 1}}, [("1", 2, "Abel"), ("2", None, None), ("3", 1, "Bea")], False)):
            with self.subTest(past=past):
                con = con_of(certified=True, given={1: 2, 2: 1}, gone=gone, past=past)
                act = forms_of.act_of_proclamation(forms(), con, None)
                self.assertEqual([(one["seat"], one["order"], one["name"])
                                  for one in act["elected"]], elected)
                self.assertEqual([one["list"]["code"] for one in act["elected"]], ["A", "A", "B"])
                said = ["A, place 1: <bdi>Ana</bdi>. Reason: <bdi>died</bdi>"]
                self.assertEqual([act[key] for key in ("gone", "gone_since", "gone_unknown",
                                                       "holders", "total")], [
                    [] if known else said, said if known else [], not known,
                    ["A: nobody is left on the list, and the seat stays vacant"] * known, "3"])
        for seats, words in ((1, "The one seat is allotted by"), (2, "The 2 seats are allotted")):
            con = con_of(seats=seats, certified=True)
            self.assertIn(words, forms_of.act_of_proclamation(forms(), con, None)["said"])
        with self.assertRaises(data.Refused) as refused:
            forms_of.act_of_proclamation(forms(), con_of(), None)
        self.assertEqual(refused.exception.key, "not_certified")

    def test_the_act_of_the_count(self):
        """One of one station says so; one with a station that is open is refused."""
        for votes, words in ((((3, 2), (4, 1)), "its 2 polling stations"),
                             (((3, 2),), "its one polling station")):
            self.assertIn(words, forms_of.act_of_count(forms(), con_of(votes=votes), None)["said"])
        con = con_of()
        con.returns[1].status = 3
        with self.assertRaises(data.Refused) as refused:
            forms_of.act_of_count(forms(), con, None)
        self.assertEqual(refused.exception.values, {"con": "c1", "left": 1, "stations": 2})

    def test_doubles_of_stations(self):
        """Of those that are closed, or of some of these."""
        con = con_of()
        con.returns[1].status = 3
        for stations, wanted in (((), ["s1"]), (("s1",), ["s1"]), (("s2",), "station_not_closed"),
                                 (("s1", "s9"), "station_not_closed")):
            with self.subTest(stations=stations):
                if isinstance(wanted, str):
                    with self.assertRaises(data.Refused) as refused:
                        forms_of.doubles(forms(), con, None, stations)
                    self.assertEqual((refused.exception.key, refused.exception.values["station"]),
                                     (wanted, stations[-1]))
                else:
                    found = forms_of.doubles(forms(), con, None, stations)["doubles"]
                    self.assertEqual([one["station"] for one in found], wanted)
        with self.assertRaises(data.Refused) as refused:
            forms_of.doubles(forms(), con_of(status=3), None)
        self.assertEqual(refused.exception.key, "none_closed")

    def test_the_double_of_a_return(self):
        con = con_of(agents=2)
        for place, agents in ((0, "2"), (1, None)):
            found = forms_of.double(forms(), con, con.returns[place], con.stations[place], None)
            self.assertEqual((found["agents"], found["electors"]), (agents, "10"))
        self.assertEqual([number for _, number in found["sums"]], ["5", "1", "6", "2", "8"])
        self.assertEqual(found["entries"], [(key, "printed without the record of commands")
                                            for key in ("entered_by", "closed_by")])
        typed = (("clara", "2026-11-29T20:00:00+00:00"), None, False)
        record = SimpleNamespace(typed=lambda _: typed)
        found = forms_of.double(forms(), con, con.returns[0], con.stations[0], record)
        self.assertEqual(found["entries"], [
            ("entered_by", "clara, 29 November 2026, 20:00 (+00:00)"),
            ("closed_by", "not in the record of commands")])
        # Where the setup asks for two entries a second one has closed it, whoever made it.
        con.setup["entry"] = "double"
        for some, said in ((None, "printed without the record of commands"),
                           (SimpleNamespace(typed=lambda _: (None, None, False)),
                            "not in the record of commands")):
            found = forms_of.double(forms(), con, con.returns[0], con.stations[0], some)
            self.assertEqual(found["entries"], [("entered_by", said), ("confirmed_by", said)])

    def test_faults_of_a_language(self):
        wanted = {"a": "x {one} {two}", "b": {"c": "y"}, "d": ["e", "f"], "g": "z"}
        for change, said in (
                ({}, None), ({"a": "{two}{one}"}, None), ({"b": {"c": "{}"}}, "b.c: its places "
                                                          "are not none"),
                ({"a": "{one}"}, "a: its places are not {one} {two}"),
                ({"a": "{one} {two} {six}"}, "a: its places are not {one} {two}"),
                ({"b": {}}, "b.c: it is missing"), ({"b": {"c": "y", "x": ""}}, "b.x: there is no "
                                                                              "such key"),
                ({"b": "y"}, "b: not of the kind that it has in English"), ({"d": ["e"]}, "d: not "
                                                                            "2 texts"),
                ({"g": "}"}, "g: its places are not none")):
            with self.subTest(change=change):
                self.assertEqual(forms_of.fault_of(wanted | change, wanted), said)


class Names(Case):
    def test_names_of_papers(self):
        """An act of proclamation that names who is gone since is not the one that was signed."""
        con = con_of(edition=3)
        head = f"c1-3-{con.hash[:12]}-es"
        self.assertEqual(papers.name_of("count", con, None, [], "es"), f"act-count-{head}")
        con.gone = {(1, 1): "x", (2, 1): "y"}
        self.assertEqual(papers.name_of("count", con, None, [], "es"), f"act-count-{head}")
        self.assertEqual(papers.name_of("proclamation", con, None, [], "es"),
                         f"act-proclamation-{head}_2-gone")
        for since, end in (({(1, 1)}, "_1-gone"), (set(), ""), (None, "_2-gone")):
            with self.subTest(since=since), mock.patch.object(papers, "gone_since",
                                                              lambda *_, since=since: since):
                self.assertEqual(papers.name_of("proclamation", con, None, [], "es"),
                                 f"act-proclamation-{head}{end}")
        for stations, name in (([], "doubles-c1-es"), (["s1"], "doubles-c1-s1-es"),
                               (["s2", "s1"], "doubles-c1-s2-es")):
            self.assertEqual(papers.name_of("doubles", con, None, stations, "es"), name)

    def test_whose_papers_are_wanted(self):
        cons = {code: con_of() for code in ("c1", "c2", "c3")}
        for code, con in cons.items():
            con.setup["code"] = code
            con.setup["station"] = [{"code": f"{code}-s{n}"} for n in (1, 2)]
        for codes, stations, wanted in (
                ([], [], ["c1", "c2", "c3"]), (["c3", "c1"], [], ["c3", "c1"]),
                ([], ["c2-s2"], ["c2"]), ([], ["c3-s1", "c1-s1", "c3-s2"], ["c3", "c1"]),
                (["c1", "c2"], ["c2-s1"], ["c2"]), (["c4"], [], None), ([], ["c4-s1"], None),
                (["c1"], ["c2-s1"], None)):
            with self.subTest(codes=codes, stations=stations):
                given = SimpleNamespace(con=codes, station=stations)
                if wanted is None:
                    self.assertRaises(data.Refused, papers.wanted_cons, cons, given)
                else:
                    self.assertEqual([con.code for con in papers.wanted_cons(cons, given)], wanted)

    def test_words_that_are_wrong(self):
        for words, is_taken in (
                ((), True), (("--setup", "s"), False), (("--setup", "s", "--record", "r"), True),
                (("--station", "s1"), False), (("--language", "es"), True),
                (("--language", "pt-BR"), True), (("--language", "ESP"), False),
                (("--language", "abcd"), False), (("--language", "a"), False)):
            with self.subTest(words=words), mock.patch("sys.stderr"), mock.patch(
                    "sys.argv", ["papers", "count", "copy", "out", *words]):
                if is_taken:
                    self.assertEqual(papers.arguments().kind, "count")
                else:
                    self.assertRaises(SystemExit, papers.arguments)


class Chromium(Case):
    """The program that makes a PDF is an imitation."""

    FILE = 'for word; do case $word in --print-to-pdf=*) file=${word#*=};; esac; done\n'

    def imitation(self, act):
        Path("chromium").write_text(f"#!/bin/sh\n{act}\n", encoding="utf-8")
        Path("chromium").chmod(0o755)
        return str(Path("chromium").resolve())

    def pdf_of(self, act):
        Path("page.pdf").write_bytes(b"%PDF- of another page")
        return papers.pdf_of(self.imitation(self.FILE + act), "<p>", Path.cwd())

    def test_its_version(self):
        for act, is_taken in (("echo Chromium 131.0.6778.85 Debian", True),
                              ("echo Chromium 130.9.1", False), ("echo Google Chrome 200.0", True),
                              ("echo Chromium", False), ("exit 1", False)):
            program = self.imitation(act)
            with self.subTest(act=act), mock.patch.object(
                    papers.shutil, "which", lambda name: {"google-chrome": program}.get(name)):
                if is_taken:
                    self.assertEqual(papers.browser(), program)
                else:
                    self.assertRaisesRegex(papers.NotWritten, "is no Chromium 131 or later",
                                           papers.browser)

    def test_what_it_made(self):
        """Of a status, and of a file that is none, its last line says more."""
        self.assertEqual(self.pdf_of("printf %s %PDF-1.4 >$file"), b"%PDF-1.4")
        for act, said in (("printf %s %PDF-1.4 >$file; exit 1", "has status 1: the last$"),
                          ("printf %s %PDX >$file", "has status 0: the last$"),
                          ("", "has status 0: the last$")):
            with self.subTest(act=act):
                self.assertRaisesRegex(papers.NotWritten, said, self.pdf_of,
                                       f"echo first >&2; echo the last >&2; {act}")

    def test_a_program_that_is_none_or_takes_too_long(self):
        with mock.patch.object(papers, "PATIENCE", 0.05):
            self.assertRaisesRegex(papers.NotWritten, "made no PDF: TimeoutExpired", self.pdf_of,
                                   "exec sleep 60")
        self.assertRaisesRegex(papers.NotWritten, "/none made no PDF: FileNotFoundError",
                               papers.pdf_of, "/none", "<p>", Path.cwd())

    def test_the_administrator_has_no_sandbox(self):
        for user, is_root in ((0, True), (1000, False)):
            with mock.patch.object(papers.os, "geteuid", lambda user=user: user):
                self.pdf_of('echo "$@" >words; printf %s %PDF- >$file')
            self.assertEqual(" --no-sandbox " in Path("words").read_text(), is_root)


class Written(Case):
    def test_files_are_written_beside_and_renamed(self):
        """A folder and those above it are made; where one fails nothing is left."""
        folder = Path("a/b")
        papers.write(folder, {"one": b"1", "two": b"2"})
        papers.write(folder, {"one": b"3"})
        self.assertEqual({path.name: path.read_bytes() for path in folder.iterdir()},
                         {"one": b"3", "two": b"2"})
        Path("a/b/three").mkdir()
        self.assertRaises(papers.NotWritten, papers.write, folder, {"new": b"4", "three": b"5"})
        self.assertEqual(sorted(path.name for path in folder.iterdir()), ["one", "three", "two"])
        self.assertRaises(papers.NotWritten, papers.write, Path("c"), {"none/new": b"4"})
        self.assertFalse(Path("c").exists())

    def test_pages_or_pdf(self):
        pages = {"one": "<p>ñ", "two": "<p>"}
        self.assertEqual(papers.files_of(pages, False),
                         {"one.html": "<p>ñ".encode(), "two.html": b"<p>"})
        with mock.patch.object(papers, "browser", lambda: "/c"), mock.patch.object(
                papers, "pdf_of", lambda program, page, _: f"{program} {page}".encode()):
            self.assertEqual(papers.files_of(pages, True),
                             {"one.pdf": "/c <p>ñ".encode(), "two.pdf": b"/c <p>"})

    def test_a_link_in_the_place_of_a_new_file(self):
        Path("other").write_text("as it was", encoding="utf-8")
        Path(".one.new").symlink_to("other")
        papers.write(Path(), {"one": b"1"})
        self.assertEqual((Path("other").read_text(), Path("one").read_bytes()), ("as it was", b"1"))


class Statuses(Case):
    def run_tool(self, *words):
        said = mock.Mock(write=lambda text: said.texts.append(text), texts=[])
        with mock.patch("sys.argv", ["papers", *words]), mock.patch("sys.stdout"), \
                mock.patch("sys.stderr", said):
            return papers.main(), "".join(said.texts)

    def test_what_cannot_be_done(self):
        """1 where the copy does not allow it, 2 for a file that cannot be used, 3 for a paper that
        cannot be written."""
        copy_of()
        Path("file").write_text("", encoding="utf-8")
        for words, status, said in (
                (("acts", COPY, "out"), 0, ""),
                (("acts", COPY, "out", "--con", "c9"), 1, "refused:"),
                (("acts", "none.db", "out"), 2, "failed: none.db is not there"),
                (("acts", COPY, "out", "--record", "none"), 2, "failed: none is not there"),
                (("acts", COPY, "out", "--record", COPY, "--setup", "none"), 2, "failed: none is"),
                (("acts", COPY, "out", "--site", "none"), 2, "failed: none is no folder"),
                (("acts", COPY, "out", "--site", "file"), 2, "failed: file is no folder"),
                (("acts", "/", "out"), 2, "failed: / is not there"),
                (("acts", COPY, "file/out"), 3, "failed: ")):
            with self.subTest(words=words):
                found, text = self.run_tool(*words, "--language", "en")
                self.assertEqual((found, text.startswith(said)), (status, True), text)

    def test_tables_of_another_version(self):
        for version, status in ((1, 2), (2, 0), (3, 2)):
            with self.subTest(version=version):
                copy_of(f"UPDATE setup SET version = {version}")
                self.assertEqual(self.run_tool("acts", COPY, "out", "--language", "en")[0], status)

    def test_agents_of_a_copy(self):
        copy_of(setup_with("electors = 412", "electors = 412\nagents = 1000"))
        [con] = data.read_copy(Path(COPY))[1].values()
        self.assertEqual((con.agents, con.electors), (1000, 5387))
        self.assertEqual(con.votes, {1: 1235, 2: 1134, 3: 694, 4: 299, 5: 65})
