"""The record as it is by now, as `replay` knows it, by hand. Nothing is started."""

import json
from unittest import mock

from tests.support.case import Case
from tests.support.record import LODGED
from tests.support.scripts import module

tool = module("replay_known")
STATION, OTHER, CON = (1, "station", "s1"), (1, "station", "s2"), (1, "con", "c1")
SECOND = LODGED | {"votes": [7, 7]}
# The figures of LODGED and of SECOND, and of one vote for each list.
P, Q, R = (("p1", frozenset({(1, a), (2, b)})) for a, b in ((1, 2), (7, 7), (1, 1)))
UNKNOWN, RECEIVED, ABSENT = "unknown", "received", (0, "", "")
FORGOTTEN, NEW, NOBODY = (None, None, UNKNOWN), (1, False, (), frozenset()), frozenset()
HEADER = "station,slip,blank,spoiled,A,B\n"
# Twelve votes may be at s1, and ten at the others.
CONS = [{"code": "c1", "lists": [{"code": "A"}, {"code": "B"}], "stations": [
    {"code": "s1", "electors": 10, "agents": 2}, {"code": "s2", "electors": 10},
    {"code": "s3", "electors": 10}]}]


def command(path, body, number=1, office=1):
    text = body if isinstance(body, str) else json.dumps(body)
    return {"n": number, "office": office, "words": ("clara", "POST", path), "body": text.encode()}


def known_of(*acts, cons=(), is_setup=False, states=None):
    """The record with these states, after some commands, of which each has a body and an answer,
    None if that is not known. The numbers of their lines are 1, 2, .."""
    it = tool.Known(cons, is_setup)
    it.states |= {place: set(found) for place, found in (states or {}).items()}
    for number, (path, body, answer) in enumerate(acts, 1):
        it.take(command(path, body, number), answer if answer is None else json.dumps(answer))
    return it


def a_file(*rows):
    return HEADER + "".join(f"{row}\n" for row in rows)


def answered(lodged, same, differs, first=None, bad=0, refused=0):
    return {"lodged": lodged, "same": same, "differs": differs, "first": first, "bad": bad,
            "refused": refused}


class Words(Case):
    def test_what_a_command_is_on(self):
        for path, place, act in (("/station/s1/close", STATION, "close"),
                                 ("/con/c1/import", CON, "import"),
                                 ("/con/c1/import/semicolon", CON, "import/semicolon"),
                                 ("/con/c1", CON, ""), ("/con", (1, "con", ""), "")):
            with self.subTest(path=path):
                self.assertEqual(tool.place_of(command(path, "{}")), (place, act))
        self.assertEqual(tool.place_of(command("/con/c1", "", 1, 2)), ((2, "con", "c1"), ""))
        for act in ("lodge", "query", "correct", "close", "confirm", "draw", "certify", "reopen",
                    "vacate", "import", "note", ""):
            of_con = act in ("draw", "certify", "reopen", "vacate")
            self.assertEqual(tool.is_known_act(CON, act), of_con)
            self.assertEqual(tool.is_known_act(STATION, act),
                             not of_con and act not in ("import", "note", ""))

    def test_what_a_body_says(self):
        for said, number in (({"rev": 3}, 3), ({"rev": 0}, 0), ({"rev": True}, None),
                             ({"rev": "3"}, None), ({"rev": 3.0}, None), ({}, None)):
            self.assertEqual(tool.number_in(said, "rev"), number)
        both = {"rev": 3, "edition": 5}
        self.assertEqual((tool.named_by(STATION, both), tool.named_by(CON, both)), (3, 5))
        for text in ("[]", "", "5", "null", "{", "[" * 20_000, None):
            self.assertEqual(tool.object_of(text), {})
        for left in LODGED:
            self.assertIsNone(tool.figures_of({key: LODGED[key] for key in LODGED if key != left}))
        self.assertIsNone(tool.figures_of(LODGED | {"votes": 5}))
        self.assertEqual(tool.figures_of(LODGED | {"rev": 1}), P)
        self.assertEqual(tool.figures_of(LODGED | {"blank": 3, "spoiled": 4}),
                         ("p1", frozenset({(0, 3), (1, 1), (2, 2), (61, 4)})))
        self.assertEqual(tool.who_goes({"list": "A", "place": 2, "note": ""}), ("A", 2))

    def test_what_is_known(self):
        for state, is_known in (((1, RECEIVED, P), True), (ABSENT, True), (NEW, True),
                                ((1, RECEIVED, UNKNOWN), False), ((1, None, P), False),
                                (FORGOTTEN, False), ((1, False, (), None), False),
                                ((1, False, UNKNOWN, NOBODY), False)):
            with self.subTest(state=state):
                self.assertIs(tool.is_known(state), is_known)

    def test_what_may_be(self):
        it = known_of(states={STATION: {(1, RECEIVED, P), (2, None, None), (3, "closed", UNKNOWN)},
                              CON: {(2, True, ("A",), None)}})
        for place, now, wanted in (
                (STATION, (1, RECEIVED, P), {(1, RECEIVED, P)}),
                (STATION, (1, "closed", P), set()), (STATION, (1, RECEIVED, Q), set()),
                (STATION, (2, "queried", Q), {(2, None, None)}),
                (STATION, (3, "closed", P), set()), (STATION, ABSENT, set()),
                (OTHER, ABSENT, {ABSENT}), (OTHER, (1, RECEIVED, P), set()),
                (CON, (2, True, ("A",), {("A", 1)}), {(2, True, ("A",), None)}),
                (CON, (2, True, ("B",), NOBODY), set()), (CON, NEW, set()),
                ((1, "con", "c2"), NEW, {NEW}), ((1, "con", "c2"), ABSENT, set())):
            with self.subTest(place=place, now=now):
                self.assertEqual(it.may_be(place, now), wanted)


class Files(Case):
    """The rows of a file that was imported, and its answer."""

    def test_the_rows_of_a_station(self):
        """The first is lodged where there is no return; others are the same, or differ."""
        one, more = [(3, P)], [(3, P), (4, Q), (6, P), (7, Q), (8, P)]
        at_two = (2, "queried", P)
        for state, rows, wanted, counts, first in (
                (ABSENT, one, (1, RECEIVED, P), [1, 0, 0], None),
                (ABSENT, more, (1, RECEIVED, P), [1, 2, 2], [4, 7]),
                (at_two, more, at_two, [0, 3, 2], [4, 7]), (at_two, one, at_two, [0, 1, 0], None),
                ((1, RECEIVED, Q), one, (1, RECEIVED, Q), [0, 0, 1], [3, 7])):
            with self.subTest(state=state, rows=rows):
                self.assertEqual(tool.led_to(state, rows), (wanted, counts, counts, first))
        for state in (FORGOTTEN, (2, "closed", UNKNOWN), (2, "closed", None)):
            self.assertEqual(tool.led_to(state, more), (state, (0, 0, 0), (1, 5, 5), None))

    def test_what_an_answer_allows(self):
        """Of each station the possibilities that fit, with some of each other station. Rows 1 and 2
        are of s1, and the others of s2."""
        def way(status, figures, *counts, first=None):
            return (1, status, figures), list(counts), list(counts), first

        # Rows 1 (P) and 2 (Q): of no return, of Q, of P, and of one that nobody knows.
        absent = way(RECEIVED, P, 1, 0, 1, first=[2, 7])
        has_q, has_p = (way("closed", it, 0, 1, 1, first=[at, 7]) for it, at in ((Q, 1), (P, 2)))
        nobody = (1, "closed", UNKNOWN), (0, 0, 0), (1, 2, 2), None
        # Row 1 alone, and row 3 alone.
        x, y = way(RECEIVED, P, 1, 0, 0), way("closed", P, 0, 1, 0)
        third, other = way(RECEIVED, R, 1, 0, 0), way("closed", P, 0, 0, 1, first=[3, 7])
        s1, s2 = "s1", "s2"
        only, both = {s1: [absent]}, {s1: [absent], s2: [third]}
        free, two = {s1: [x, y], s2: [nobody]}, {s1: [has_q, has_p]}
        for ways, wrong, answer, wanted in (
                (only, [], answered(1, 0, 1, [2, 7]), only),
                (both, [], answered(2, 0, 1, [2, 7]), both),
                # Each number has to be right, also of the rows that are no votes.
                *((only, [], answered(1, 0, 1, [2, 7]) | more, None) for more in (
                    {"lodged": 0}, {"lodged": 2}, {"same": 1}, {"same": -1}, {"differs": 0},
                    {"differs": 2}, {"bad": 1}, {"refused": 1}, {"bad": None}, {"lodged": None},
                    {"differs": "1"})),
                # The first that was not recorded.
                *((only, [], answered(1, 0, 1, first), None) for first in (
                    None, [1, 7], [3, 7], [2, 6], "x", 5, {})),
                ({s1: [x]}, [], answered(1, 0, 0), {s1: [x]}),
                ({s1: [x]}, [], answered(1, 0, 0, [1, 7]), None),
                ({s1: [x], s2: [other]}, [], answered(1, 0, 1, [3, 7]), {s1: [x], s2: [other]}),
                # With rows that are refused or bad.
                (only, [[3, 0], [4, 6]], answered(1, 0, 1, [2, 7], 1, 1), only),
                (only, [[3, 0], [4, 6]], answered(1, 0, 1, [2, 7], 2, 0), None),
                (only, [[3, 0], [4, 0], [5, 4]], answered(1, 0, 1, [2, 7], 2, 1), only),
                (only, [[3, 0]], answered(1, 0, 1, [3, 0], 1), None),
                (only, [[1, 0]], answered(1, 0, 1, [1, 0], 1), only),
                (only, [[1, 0]], answered(1, 0, 1, [2, 7], 1), None),
                (only, [[1, 0], [3, 6]], answered(1, 0, 1, [2, 7], 1, 1), None),
                ({s1: [has_q], s2: [third]}, [[2, 6]], answered(1, 1, 1, [2, 6], 0, 1), None),
                # No good row at all.
                ({}, [], answered(0, 0, 0), {}), ({}, [[1, 0]], answered(0, 0, 0, [1, 0], 1), {}),
                ({}, [[1, 0]], answered(0, 0, 0, None, 1), None),
                ({}, [], answered(1, 0, 0), None), ({}, [], answered(0, 1, 0), None),
                ({}, [[1, 0]], answered(0, 0, 1, [1, 0], 1), None), ({}, [], {}, None),
                # One of several returns, by the numbers or by the first row.
                ({s1: [absent, has_q], s2: [third]}, [], answered(2, 0, 1, [2, 7]), both),
                ({s1: [absent, has_q], s2: [third]}, [], answered(1, 1, 1, [1, 7]),
                 {s1: [has_q], s2: [third]}),
                (two, [], answered(0, 1, 1, [1, 7]), {s1: [has_q]}),
                (two, [], answered(0, 1, 1, [2, 7]), {s1: [has_p]}),
                (two, [[1, 6]], answered(0, 1, 1, [1, 6], 0, 1), two),
                # A return that nobody knows may have any of them, and any row of it is the first.
                ({s1: [nobody]}, [], answered(0, 1, 1, [2, 7]), {s1: [nobody]}),
                ({s1: [nobody]}, [], answered(1, 0, 1, [2, 7]), {s1: [nobody]}),
                ({s1: [nobody]}, [], answered(0, 2, 0), {s1: [nobody]}),
                ({s1: [nobody]}, [], answered(0, 0, 2), None),
                ({s1: [nobody]}, [], answered(0, 2, 0, [1, 7]), None),
                ({s1: [nobody]}, [], answered(2, 0, 0), None),
                ({s1: [nobody]}, [], answered(0, 3, 0), None),
                ({s1: [has_q, nobody]}, [], answered(0, 1, 1, [1, 7]), {s1: [has_q, nobody]}),
                (free, [], answered(1, 0, 2, [2, 7]), {s1: [x], s2: [nobody]}),
                (free, [], answered(0, 1, 2, [2, 7]), {s1: [y], s2: [nobody]}),
                (free, [], answered(2, 1, 0), {s1: [x], s2: [nobody]}),
                (free, [], answered(0, 3, 0), {s1: [y], s2: [nobody]}),
                (free, [], answered(1, 1, 1, [2, 7]), free),
                (free, [], answered(1, 1, 1, [1, 7]), free)):
            with self.subTest(ways=ways, wrong=wrong, answer=answer):
                self.assertEqual(tool.agreeing(ways, wrong, answer), wanted)

    def test_the_rows_that_are_recorded(self):
        """They begin at 1, and are read with the separator of the act, as an office reads them."""
        text = a_file("s1,p1,0,0,1,2", "s9,p1,0,0,1,2", "s1,p1,0,0,1000001,0", "s2,p1,0,0,1,11",
                      "s2,p1,0,0,7,7", "s1,p1,0,0,7,7")
        twelve = ("p1", frozenset({(1, 1), (2, 11)}))
        first = {STATION: [(1, P), (6, Q)]}
        both = first | {OTHER: [(4, twelve), (5, Q)]}
        semicolons, lists = text.replace(",", ";"), ["A", "B"]
        for path, body, most, wanted in (
                ("import", text, {"s1": 14, "s2": 14}, (both, [[2, 0], [3, 4]])),
                ("import", text, {"s1": 14}, (first, [[2, 0], [3, 4], [4, 0], [5, 0]])),
                ("import", text, {"s1": 14, "s2": 11}, (
                    first, [[2, 0], [3, 4], [4, 6], [5, 6]])),
                ("import", text, None, (both | {(1, "station", "s9"): [(2, P)]}, [[3, 4]])),
                ("import/semicolon", semicolons, {"s1": 14, "s2": 14}, (both, [[2, 0], [3, 4]])),
                ("import/semicolon", text, None, ({}, [])),
                ("import", text.replace("A,B", "B,A"), None, ({}, [])), ("import", "", None, (
                    {}, []))):
            with self.subTest(path=path, most=most):
                self.assertEqual(tool.rows_in(command(f"/con/c1/{path}", body), most, lists),
                                 wanted)

    def test_a_file_with_its_setup(self):
        """By the answer the state of each station; and of no answer each may have its rows or
        not."""
        file = a_file("s1,p1,0,0,1,2", "s1,p1,0,0,7,7", "s2,p1,0,0,1,2", "s3,p1,0,0,5,6")
        good = answered(2, 0, 0, [2, 6], 0, 2)
        lodged = {(1, RECEIVED, P)}
        for led, at_s1, at_s3, says in (
                (good, lodged, {ABSENT}, None), (None, {ABSENT, *lodged}, {ABSENT}, None),
                (good | {"refused": 1}, {FORGOTTEN}, {FORGOTTEN}, True),
                (good | {"lodged": 3}, {FORGOTTEN}, {FORGOTTEN}, True),
                ({}, {FORGOTTEN}, {FORGOTTEN}, True)):
            with self.subTest(led=led):
                it = known_of(cons=CONS, is_setup=True,
                              states={OTHER: {(4, "closed", P)} if says else {ABSENT}})
                said = it.take(command("/con/c1/import", file, 5),
                               None if led is None else json.dumps(led))
                self.assertEqual(said, says and "its answer is not what its rows lead to: nobody "
                                 "knows which of them it recorded")
                self.assertEqual((it.at(STATION), it.at((1, "station", "s3"))), (at_s1, at_s3))
                self.assertEqual(it.at(OTHER), {(4, "closed", P)} if says else at_s1)
                self.assertEqual(it.lines, dict.fromkeys(
                    [STATION, (1, "station", "s3")] if says else [STATION, OTHER], 5))

    def test_a_file_without_an_answer_is_read_once(self):
        """Not before each later command on its stations, nor where the answers to them do not
        follow; once more where its own answer is there. Each station may have its row or not."""
        file = command("/con/c1/import", a_file("s1,p1,0,0,1,2", "s2,p1,0,0,1,2"), 1)
        either = {ABSENT, (1, RECEIVED, P)}
        for is_setup in (True, False):
            with self.subTest(is_setup=is_setup), mock.patch.object(
                    tool, "rows_in", wraps=tool.rows_in) as read:
                it = tool.Known(CONS, is_setup)
                for number in range(2, 50):
                    close = command("/station/s1/close", {"rev": number}, number)
                    it.take_before(close, [file])
                    it.catch_up(close, "{}", [file])
                it.take(file, None)
                self.assertEqual((read.call_count, it.at(STATION), it.at(OTHER)),
                                 (1, either, either))
                it.take(file, json.dumps(answered(2, 0, 0)))
                self.assertEqual((read.call_count, it.at(STATION)), (2, {(1, RECEIVED, P)}))

    def test_how_many_votes_a_row_may_have(self):
        """As many as a station has electors and agents. An office shows no agents: without the
        setup all rows with more votes than electors were refused, or none of them was."""
        for row, led, by_setup, by_office in (
                ("s1,p1,0,0,5,7", answered(1, 0, 0), True, True),
                ("s1,p1,0,0,5,8", answered(1, 0, 0), False, True),
                ("s1,p1,0,0,5,8", answered(0, 0, 0, [1, 6], 0, 1), True, True),
                ("s1,p1,0,0,5,7", answered(0, 0, 0, [1, 6], 0, 1), False, False),
                ("s2,p1,0,0,5,5", answered(1, 0, 0), True, True),
                ("s2,p1,0,0,5,6", answered(1, 0, 0), False, True),
                ("s2,p1,0,0,5,6", answered(0, 0, 0, [1, 6], 0, 1), True, True),
                ("s2,p1,0,0,1000000,0", answered(1, 0, 0), False, True),
                ("s2,p1,0,0,1000000,1", answered(1, 0, 0), False, False),
                ("s9,p1,0,0,1,2", answered(1, 0, 0), False, False),
                ("s9,p1,0,0,1,2", answered(0, 0, 0, [1, 0], 1), True, True)):
            file = command("/con/c1/import", a_file(row))
            for is_setup, fits in ((True, by_setup), (False, by_office)):
                with self.subTest(row=row, led=led, is_setup=is_setup):
                    it = tool.Known(CONS, is_setup)
                    self.assertEqual(it.ways(file, led, True) is not None, fits)
        # Of a constituency that nobody shows any station, and any votes.
        self.assertEqual(list(known_of().ways(
            command("/con/c1/import", a_file("s9,p1,0,0,1,2")), answered(1, 0, 0), True)),
            [(1, "station", "s9")])

    def test_a_file_without_an_answer(self):
        """With the setup each row that may be recorded, and without it nobody knows."""
        file = command("/con/c1/import", a_file("s1,p1,0,0,1,2", "s2,p1,0,0,5,6"))
        of_setup = tool.Known(CONS, True).ways(file, {}, False)
        self.assertEqual({at: [way[0] for way in some] for at, some in of_setup.items()},
                         {STATION: [(1, RECEIVED, P)]})
        self.assertIsNone(tool.Known(CONS, False).ways(file, {}, False))

    def test_a_file_of_which_the_answer_leaves_several_things(self):
        """Without the setup a station may have any of its rows, or no return; one that is there
        stays. Of two of one revision nobody knows which it is."""
        file = a_file("s1,p1,0,0,1,2", "s1,p1,0,0,6,7", "s2,p1,0,0,7,7", "s3,p1,0,0,1,2")
        third, lodge = (1, "station", "s3"), ("/station/s3/lodge", SECOND, {"rev": 1})
        for cons in (CONS, ()):
            for led in (None, answered(9, 9, 9)):
                with self.subTest(cons=cons, led=led):
                    it = known_of(lodge, ("/con/c1/import", file, led), cons=cons)
                    self.assertEqual([it.at(at) for at in (STATION, OTHER, third)], [
                        {ABSENT, (1, RECEIVED, UNKNOWN)}, {ABSENT, (1, RECEIVED, Q)},
                        {(1, RECEIVED, Q)}])
                    self.assertEqual(it.lines, {STATION: 2, OTHER: 2, third: 1})


class Returns(Case):
    """The states of a return and of a constituency after what was done."""

    def after(self, path, said, led, is_done, *before, place=STATION):
        it = known_of(states={place: before})
        return it.after(command(path, said), led, is_done)

    def test_a_lodge(self):
        lodge = "/station/s1/lodge"
        for led, is_done, before, wanted in (
                ({"rev": 1}, True, [ABSENT], {(1, RECEIVED, P)}),
                ({"rev": 1}, True, [(2, "closed", Q)], {(1, RECEIVED, P)}),
                ({}, False, [ABSENT, (2, "closed", Q)], {(1, RECEIVED, P)}),
                ({}, False, [(2, "closed", Q)], set())):
            with self.subTest(led=led, is_done=is_done, before=before):
                self.assertEqual(self.after(lodge, LODGED, led, is_done, *before), wanted)
        same = {"ok": "same", "rev": 2}
        for before, wanted in (
                ((2, "closed", P), {(2, "closed", P)}), ((2, "closed", Q), set()),
                ((2, "closed", None), {(2, "closed", P)}), ((1, "closed", P), set()),
                ((2, "closed", UNKNOWN), {(2, "closed", P)}), ((None, "closed", P), set())):
            with self.subTest(before=before):
                self.assertEqual(self.after(lodge, LODGED, same, True, before), wanted)

    def test_acts_over_a_return(self):
        """Each leads from the revision that it names to the next one, with the figures that it
        brings, or those before it. A second entry is the same as the first."""
        before = {(2, RECEIVED, P), (2, RECEIVED, Q), (3, "closed", R), (None, RECEIVED, UNKNOWN)}
        figures = {P, Q, UNKNOWN}
        for act, status, wanted in (
                ("query", "queried", figures), ("close", "closed", figures),
                ("correct", "corrected", {P}), ("confirm", "closed", {P})):
            with self.subTest(act=act):
                path = f"/station/s1/{act}"
                for is_done in (True, False):
                    for led in ({}, {"ok": "same", "rev": 2}):
                        self.assertEqual(
                            self.after(path, LODGED | {"rev": 2}, led, is_done, *before),
                            {(3, status, it) for it in wanted})
                for said in ({}, {"rev": None}):
                    self.assertEqual(self.after(path, LODGED | said, {}, True, *before), set())
                self.assertEqual(
                    self.after(path, LODGED | {"rev": 0}, {}, True, ABSENT), set())
                self.assertEqual(
                    self.after(path, LODGED | {"rev": 9}, {}, True, (2, RECEIVED, P)), set())
        for it, fits in ((P, True), (Q, False), (None, True), (UNKNOWN, True)):
            self.assertEqual(self.after("/station/s1/confirm", LODGED | {"rev": 2}, {}, True,
                                        (2, RECEIVED, it)), {(3, "closed", P)} if fits else set())
        # A correction without figures, which no office accepts.
        self.assertEqual(self.after("/station/s1/correct", {"rev": 2}, {}, True, (2, "queried", P)),
                         {(3, "corrected", UNKNOWN)})

    def test_acts_on_a_constituency(self):
        gone, two = frozenset({("A", 1)}), frozenset({("A", 1), ("B", 2)})
        before = {(2, False, ("A", "B"), gone), (3, True, (), NOBODY), (None, None, None, None)}
        for act, said, wanted in (
                ("draw", {"edition": 2, "order": ["B", "A"]}, {
                    (3, False, ("B", "A"), gone), (3, False, ("B", "A"), None)}),
                ("draw", {"edition": 2, "order": "BA"}, {
                    (3, False, UNKNOWN, gone), (3, False, UNKNOWN, None)}),
                ("certify", {"edition": 2, "order": ["B"]}, {
                    (3, True, ("A", "B"), gone), (3, True, None, None)}),
                ("reopen", {"edition": 3}, {(4, False, (), NOBODY), (4, False, None, None)}),
                ("reopen", {}, set()), ("reopen", {"edition": 9}, {(10, False, None, None)}),
                ("vacate", {"list": "B", "place": 2}, {
                    (3, True, (), frozenset({("B", 2)})), (None, True, None, None)})):
            with self.subTest(act=act, said=said):
                self.assertEqual(self.after(f"/con/c1/{act}", said, {}, True, *before, place=CON),
                                 wanted)
        for state, wanted in (((3, True, (), gone), {(3, True, (), two)}),
                              ((3, False, (), gone), set()),
                              ((3, None, (), gone), {(3, True, (), two)}),
                              ((3, True, UNKNOWN, UNKNOWN), {(3, True, UNKNOWN, UNKNOWN)}),
                              ((3, True, (), None), {(3, True, (), None)})):
            self.assertEqual(self.after("/con/c1/vacate", {"list": "B", "place": 2}, {}, True,
                                        state, place=CON), wanted)

    def test_what_is_known_after_an_answer_that_does_not_follow(self):
        """It has what the command brings and what is answered. Nobody knows the rest, which may be
        anything where the record has no line of the place at all."""
        for path, said, led, known, alone in (
                ("/station/s1/lodge", LODGED, {"rev": 2, "ok": "same"}, (2, None, P), None),
                ("/station/s1/query", {"rev": 4}, {"rev": 5}, (5, "queried", UNKNOWN),
                 (5, "queried", None)),
                ("/station/s1/correct", LODGED | {"rev": 4}, {"rev": 5}, (5, "corrected", P), None),
                ("/station/s1/correct", {"rev": 4}, {"rev": 5}, (5, "corrected", UNKNOWN), None),
                ("/station/s1/confirm", LODGED | {"rev": 4}, {"rev": 5}, (5, "closed", P), None),
                ("/station/s1/close", {"rev": 4}, {}, (None, "closed", UNKNOWN),
                 (None, "closed", None)),
                ("/con/c1/certify", {"edition": 4}, {"edition": 5}, (5, True, UNKNOWN, UNKNOWN),
                 (5, True, None, None)),
                ("/con/c1/draw", {"edition": 4, "order": ["A"]}, {"edition": 5},
                 (5, False, UNKNOWN, UNKNOWN), (5, False, None, None)),
                ("/con/c1/reopen", {"edition": 4}, {}, (None, False, UNKNOWN, UNKNOWN),
                 (None, False, None, None)),
                ("/con/c1/vacate", {"list": "A", "place": 1}, {}, (None, True, UNKNOWN, UNKNOWN),
                 (None, True, None, None))):
            place, _ = tool.place_of(command(path, said))
            before = {(1, RECEIVED, R) if place == STATION else NEW}
            with self.subTest(path=path, said=said):
                it = known_of((path, said, led), states={place: before})
                self.assertEqual((it.at(place), it.lines), ({known}, {place: 1}))
                it = known_of((path, said, led))
                self.assertEqual(it.at(place), {alone or known})
                # Of one that may have been done nothing is learned.
                it = known_of((path, said, None), states={place: before})
                self.assertEqual((it.at(place), it.lines), (before, {}))

    def test_a_body_that_no_office_accepts(self):
        """Where nobody knows whether it was done it was not, whatever is in it."""
        certified = (2, True, (), NOBODY)
        for path, said, place, before in (
                ("/station/s1/lodge", LODGED | {"slip": ["p1"]}, STATION, ABSENT),
                ("/con/c1/draw", {"edition": 2, "order": [["A"]]}, CON, certified),
                ("/con/c1/vacate", {"list": ["A"], "place": 1}, CON, certified),
                ("/con/c1/vacate", {"list": "A", "place": [1]}, CON, certified)):
            with self.subTest(path=path, said=said):
                it = known_of((path, said, None), states={place: {before}})
                self.assertEqual((it.at(place), it.lines), ({before}, {}))

    def test_a_return(self):
        """Through the acts of an evening, also where nobody knows whether one was done."""
        lodge, query = ("/station/s1/lodge", LODGED, {"rev": 1}), (
            "/station/s1/query", {"rev": 1}, {"rev": 2})
        correct = ("/station/s1/correct", SECOND | {"rev": 2}, {"rev": 3})
        for acts, wanted, line in (
                ((), {ABSENT}, None), ((lodge,), {(1, RECEIVED, P)}, 1),
                ((lodge, query), {(2, "queried", P)}, 2),
                ((lodge, query, correct), {(3, "corrected", Q)}, 3),
                (((*lodge[:2], None),), {ABSENT, (1, RECEIVED, P)}, 1),
                ((lodge, (*query[:2], None)), {(1, RECEIVED, P), (2, "queried", P)}, 2),
                ((lodge, (*query[:2], None), correct), {(3, "corrected", Q)}, 3),
                # Of two returns of one revision nobody knows which it was.
                (((*lodge[:2], None), ("/station/s1/lodge", SECOND, None)),
                 {ABSENT, (1, RECEIVED, UNKNOWN)}, 2),
                # It is there already, and there was no other one then.
                (((*lodge[:2], None), query, ("/station/s1/lodge", SECOND, None)),
                 {(2, "queried", P)}, 2),
                # What is no act of the office changes nothing.
                ((lodge, ("/station/s1/note", {"rev": 1}, {"rev": 2})), {(1, RECEIVED, P)}, 1)):
            with self.subTest(acts=acts):
                it = known_of(*acts)
                self.assertEqual(it.at(STATION), wanted)
                self.assertEqual(it.lines.get(STATION), line)

    def test_figures_that_differ_at_one_revision(self):
        it = known_of()
        it.put(STATION, command("", "", 7), {(1, RECEIVED, P), (1, "closed", Q), (2, "closed", P)},
               True)
        self.assertEqual(it.at(STATION), {(1, RECEIVED, UNKNOWN), (1, "closed", UNKNOWN),
                                          (2, "closed", P)})
        lots = {(2, False, ("A", "B"), NOBODY), (2, False, ("B", "A"), NOBODY)}
        it.put(CON, command("", "", 8), lots, True)
        it.put(CON, command("", "", 9), {(3, True, (), NOBODY)}, False)
        self.assertEqual((it.at(CON), it.lines), (lots | {(3, True, (), NOBODY)},
                                                  {STATION: 7, CON: 9}))

    def test_a_query_takes_away_the_lot(self):
        """Of the constituency of its station in its own office, or perhaps."""
        drawn = (2, False, ("A", "B"), frozenset({("A", 1)}))
        none, con, at = drawn[:2] + ((),) + drawn[3:], (2, "con", "c1"), (2, "station", "s1")
        for act, answer, state, wanted in (
                ("query", "{}", 1, {none}), ("query", None, 1, {none, drawn}),
                ("query", None, 5, {drawn}), ("query", "{}", 5, {none}),
                ("close", "{}", 1, {drawn})):
            with self.subTest(act=act, answer=answer, state=state):
                it = known_of(cons=CONS, states={at: {(state, RECEIVED, P)}, con: {drawn},
                                                 CON: {drawn}})
                it.take(command(f"/station/s1/{act}", {"rev": 1}, 7, 2), answer)
                self.assertEqual((it.at(con), it.at(CON)), (wanted, {drawn}))
                self.assertEqual(it.lines.get(con), None if wanted == {drawn} else 7)
        it = known_of(("/station/s9/query", {"rev": 1}, {"rev": 2}), cons=CONS)
        self.assertEqual([*it.states], [(1, "station", "s9")])

    def test_a_refusal_says_what_was_there(self):
        """As stale, of which it says the number now; or since the return differs from that of the
        command."""
        states = {ABSENT, (1, RECEIVED, P), (1, RECEIVED, Q), (2, "queried", P),
                  (None, "closed", P)}
        for led, body, wanted in (
                ({"word": "stale", "now": 2}, LODGED, {(2, "queried", P), (None, "closed", P)}),
                ({"word": "stale", "now": 2, "rev": 1}, LODGED, {
                    (2, "queried", P), (None, "closed", P)}),
                ({"word": "differs", "rev": 1}, LODGED, {(1, RECEIVED, Q)}),
                ({"word": "differs", "rev": 1}, SECOND, {(1, RECEIVED, P), (None, "closed", P)}),
                ({"word": "differs", "rev": 2}, SECOND, {(2, "queried", P), (None, "closed", P)}),
                ({"word": "differs", "rev": 2}, LODGED, {(2, None, UNKNOWN)}),
                ({"word": "differs", "rev": 1}, {}, {
                    (1, RECEIVED, P), (1, RECEIVED, Q), (None, "closed", P)}),
                ({"word": "stale", "now": 9}, LODGED, {(None, "closed", P)}),
                ({"word": "certified", "now": 2}, LODGED, states), ({}, LODGED, states)):
            with self.subTest(led=led, body=body):
                it = known_of(states={STATION: states})
                it.refuse(command("/station/s1/lodge", body), json.dumps(led))
                self.assertEqual(it.at(STATION), wanted)
        it = known_of()
        it.refuse(command("/station/s1/lodge", LODGED), '{"word":"stale","now":2}')
        self.assertEqual(it.states, {})
        it = known_of(states={STATION: {(2, None, None), (1, RECEIVED, P)}})
        it.refuse(command("/station/s1/query", {"rev": 1}), '{"word":"stale","now":2}')
        self.assertEqual(it.at(STATION), {(2, None, None)})
        for at in (1, RECEIVED, UNKNOWN), (1, RECEIVED, None):
            it = known_of(states={STATION: {at, ABSENT}})
            it.refuse(command("/station/s1/lodge", LODGED), '{"word":"differs","rev":1}')
            self.assertEqual(it.at(STATION), {at})

    def test_a_refusal_that_names_what_nobody_knows(self):
        """Something was done that the record lacks: its revision or edition is known, and no more.
        An answer that says no number, or of a place that the record lacks, says nothing."""
        closed = {(2, "closed", P)}
        for now, wanted in ((5, (5, None, UNKNOWN)), (1, (1, None, UNKNOWN)), (2, None),
                            (None, None), ("5", None), (True, None)):
            with self.subTest(now=now):
                it = known_of(states={STATION: closed})
                it.refuse(command("/station/s1/query", {"rev": 3}, 7),
                          json.dumps({"word": "stale", "now": now}))
                self.assertEqual((it.states, it.lines), (
                    {STATION: {wanted} if wanted else closed}, {STATION: 7} if wanted else {}))
        it = known_of(states={CON: {(2, True, (), NOBODY)}})
        it.refuse(command("/con/c1/reopen", {"edition": 2}), '{"word":"stale","now":4}')
        self.assertEqual(it.at(CON), {(4, None, UNKNOWN, UNKNOWN)})

    def test_a_refusal_that_shows_what_was_done(self):
        """A query without an answer came before the close that it names, whose answer is not known
        either: both were done."""
        unsure = [command("/station/s1/query", {"rev": 2}, 4), command("/con/c1/draw", {}, 5),
                  command("/station/s2/query", {"rev": 1}, 6)]
        it = known_of(states={STATION: {(1, RECEIVED, P), (2, "closed", P)},
                              OTHER: {(1, RECEIVED, P)}})
        it.refuse(command("/station/s1/close", {"rev": 1}), '{"word":"stale","now":3}', unsure)
        self.assertEqual((it.at(STATION), it.at(OTHER)), ({(3, "queried", P)},
                                                          {(1, RECEIVED, P)}))
        it.refuse(command("/station/s2/close", {"rev": 3}), '{"word":"stale","now":1}', unsure)
        self.assertEqual(it.at(OTHER), {(1, RECEIVED, P)})

    def test_commands_that_an_answer_shows_to_have_been_done(self):
        """Where it does not follow from what is known, those without an answer may have been done
        before it: of its place, and those that lodge returns."""
        unsure = [command("/station/s1/lodge", LODGED, 1), command("/station/s2/lodge", LODGED, 2),
                  command("/con/c1/import", a_file("s3,p1,0,0,1,2"), 3),
                  command("/station/s1/query", {"rev": 1}, 4),
                  command("/station/s2/query", {"rev": 1}, 5),
                  command("/con/c1/draw", {"edition": 1, "order": []}, 6)]
        lodging = {STATION: 1, OTHER: 2, (1, "station", "s3"): 3}
        # (a query takes away the lot)
        of_s1 = lodging | {STATION: 4, CON: 4}
        file = a_file("s1,p1,0,0,1,2")
        for path, body, led, wanted in (
                ("/station/s1/close", {"rev": 1}, {"rev": 2}, of_s1),
                ("/station/s1/lodge", LODGED, {"rev": 1}, {}),
                ("/station/s1/lodge", LODGED, {"rev": 1, "ok": "same"}, of_s1),
                ("/station/s1/note", {"rev": 9}, {}, {}),
                ("/con/c1/certify", {"edition": 1}, {}, {}),
                ("/con/c1/certify", {"edition": 2}, {}, lodging | {CON: 6}),
                ("/con/c1/import", file, answered(1, 0, 0), {}),
                ("/con/c1/import", file, answered(0, 1, 0), lodging | {CON: 6}),
                ("/con/c1/import/semicolon", file, answered(0, 1, 0), lodging | {CON: 6})):
            with self.subTest(path=path, led=led):
                it = tool.Known(CONS, True)
                it.catch_up(command(path, body, 9), json.dumps(led), unsure)
                self.assertEqual(it.lines, wanted)
        # A return that was lodged says itself what it is.
        it = known_of(cons=CONS, is_setup=True, states={STATION: {(2, "closed", Q)}})
        it.catch_up(command("/station/s1/lodge", LODGED, 9), '{"rev":1}', unsure)
        self.assertEqual(it.lines, {})
        # Each may have been done, or not.
        it.catch_up(command("/station/s2/close", {"rev": 9}), "{}", unsure)
        self.assertEqual(it.at(OTHER), {ABSENT, (1, RECEIVED, P), (2, "queried", P)})
