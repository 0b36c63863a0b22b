"""Parts of what `entries` reads of a record, and of a copy beside it, by hand. Nothing is
started."""

import contextlib
import csv
import io
import json
import math
from types import SimpleNamespace
from unittest import mock

from tests.support.case import Case
from tests.support.record import LODGED, a_command, chained
from tests.support.safeguards import TWO_TOWNS
from tests.support.scripts import loaded

tool = loaded("entries")
# By D'Hondt of three seats the lists of LODGED, with one vote and two, have one and two.
SEATS, OTHER_SEATS = {1: 1, 2: 2}, {1: 2, 2: 1}
# The acts of an evening of the constituency with one station.
LODGE = "/station/t1/lodge", LODGED
CLOSE = "/station/t1/close", {"rev": 1}
CERTIFY = "/con/c2/certify", {"edition": 1}
REOPEN = "/con/c2/reopen", {"edition": 2, "note": "recount"}
HEADER = "station,slip,blank,spoiled"


def printed(act, *given):
    """The lines that an act prints, and what it gives back."""
    with contextlib.redirect_stdout(io.StringIO()) as said:
        found = act(*given)
    return said.getvalue().splitlines(), found


def reading_of(*acts):
    """A record of acts as it was read: each was done, by its answer in the line after it."""
    lines = []
    for path, body, *more in acts:
        lines += [a_command(body if isinstance(body, str) else json.dumps(body), path)
                  | dict(*more), {"to": len(lines) + 1, "status": 200, "answer": "{}"}]
    said, it = printed(read, lines)
    assert not said, said
    return it


def read(lines):
    it = tool.Reading({"constituency": tool.cons_of(TWO_TOWNS)})
    for number, line in enumerate(chained(*lines).splitlines(), 1):
        it.take(number, line.decode())
    return it


class Commands(Case):
    def test_commands_that_no_recorder_writes(self):
        """Another method, an act of another kind or of none, or a body that is no base64."""
        good = a_command("é", "/station/s1/lodge") | {"time": "22:14"}
        for other in ({"method": "GET"}, {"path": "/con/c1/lodge"}, {"path": "/station/s1/draw"},
                      {"path": "/station/s1/lodge/semicolon"}, {"path": "/station/s1/note"},
                      {"body_base64": "e30=!"}, {"body_base64": "e"}):
            with self.subTest(other=other):
                self.assertRaises(ValueError, tool.command_of, good | other, 7)
        for path in ("/station/s1", "/desk/s1/lodge", "/station/s 1/lodge", "/station//lodge",
                     "station/s1/lodge", "/station/s1/lodge/", "/con/c1/import/semicolon/x"):
            with self.subTest(path=path):
                self.assertRaises(AttributeError, tool.command_of, good | {"path": path}, 7)
        for other, what, code, body in (
                ({}, "lodge", "s1", "é"),
                ({"path": "/con/c1/import/semicolon"}, "import/semicolon", "c1", "é"),
                ({"body_base64": "/w=="}, "lodge", "s1", "\udcff"),
                ({"path": "/con/c-1_a/vacate"}, "vacate", "c-1_a", "é")):
            with self.subTest(other=other):
                self.assertEqual(tool.command_of(good | other, 7), (
                    7, "clara", "22:14", what, code, body, "127.0.0.1", None))

    def test_bodies(self):
        """Figures in the order of a database, a note, and a lot; nothing of what has none."""
        figures = json.dumps({"slip": "p1", "votes": [0, 5], "blank": 3, "spoiled": 4})
        self.assertEqual(tool.figures_of(figures),
                         ("p1", frozenset({(0, 3), (2, 5), (61, 4)})))
        self.assertEqual(tool.note_of('{"note":"smudged"}'), "smudged")
        for body in ("", "[]", "5", "{}", "{", "[" * 20_000, '{"slip":"p1","votes":5}'):
            self.assertEqual((tool.figures_of(body), tool.note_of(body)), (None, None))
        self.assertEqual(tool.lot_of('{"order":["B","A"]}'), ("B", "A"))
        for body in ('{"order":"AB"}', '{"order":["A",5]}', '{"order":{"A":1}}'):
            self.assertRaises(ValueError, tool.lot_of, body)


class Answers(Case):
    def test_answers_by_which_a_command_was_done(self):
        """Those of 200; of others nobody knows, and the rest were refused."""
        command = a_command(json.dumps(LODGED), "/station/s1/lodge")
        unknown = ["line 1: lodge s1 by clara (2026-11-26T22:14:01.000+00:00): nobody knows "
                   "whether it was done"]
        lost = ["line 2: it answers line 9, which is not there: nobody knows what was done"]
        for number, status, is_done, said in (
                (1, 200, True, []), (1, 409, False, []), (1, 400, False, []), (1, 201, False, []),
                (1, None, False, unknown), (1, 502, False, unknown), (1, 503, False, unknown),
                (1, 504, False, unknown), (1, 500, False, []), (9, 200, False, lost),
                (9, 409, False, []), (9, 201, False, []), (9, None, False, [])):
            with self.subTest(number=number, status=status):
                lines, it = printed(read, [command, {"to": number, "status": status}])
                self.assertEqual((lines, "s1" in it.returns, it.left), (said, is_done, len(said)))
                self.assertEqual(it.times, {2: "2026-11-26T22:14:02.000+00:00"})

    def test_answers_that_no_recorder_writes(self):
        for wrong in ({"to": "1", "status": 200}, {"to": 1, "status": "200"}, {"to": 1},
                      {"to": None, "status": None}, {"to": 1.0, "status": 200}):
            with self.subTest(wrong=wrong):
                [line], it = printed(read, [a_command("{}", "/station/s1/close"), wrong])
                self.assertTrue(line.startswith("line 2 is no whole line of a record: {"), line)
                self.assertEqual((list(it.commands), it.returns), ([1], {}))

    def test_commands_that_were_not_sent(self):
        """A status of their own says so: they are not waited for."""
        for status, waits in ((403, False), (502, False), (503, False), (504, False), (200, True),
                              (None, True)):
            with self.subTest(status=status):
                it = read([a_command("{}", "/station/s1/close") | {"status": status}])
                self.assertEqual((bool(it.commands), it.offices),
                                 (waits, {"c1": {1}} if waits else {}))


    def test_lines_that_are_not_as_they_were_written(self):
        """Each is named once: as no whole line, or as a fault of the record."""
        command = a_command("{}", "/station/s1/close") | {"status": 409}
        record = chained(command, command | {"n": 7}, b"cut", command, command | {"n": 9})
        it = tool.Reading({"constituency": tool.cons_of(TWO_TOWNS)})
        given = SimpleNamespace(buffer=io.BytesIO(record))
        with mock.patch.object(tool.sys, "stdin", given):
            lines, faults = printed(tool.read, it, {6: {"00"}})
        self.assertEqual(lines, ["line 3 is no whole line of a record: cut"])
        self.assertEqual((faults, it.number, it.left), ([
            "line 2: not as it was written, or one before it",
            "line 5: not as it was written, or one before it",
            "line 6: it was shown, and is not there"], 5, 1))


    def test_the_setup_with_which_a_record_begins(self):
        [line] = chained({"setup": "5e"}).decode().splitlines()
        other = "the record is of another setup, whose SHA-256 is 5e"
        for digest, said in ((None, []), ("5e", []), ("00", [other])):
            with self.subTest(digest=digest):
                it = tool.Reading({"constituency": []}, digest=digest)
                self.assertEqual((printed(it.take, 1, line)[0], it.left), (said, len(said)))


class Moments(Case):
    def test_from_which_line_to_which_a_value_was_there(self):
        for moments, number, wanted in (([3, 7], 0, (0, 3)), ([3, 7], 1, (3, 7)),
                                        ([3, 7], 2, (7, math.inf)), ([], 0, (0, math.inf)),
                                        ([0], 1, (0, math.inf))):
            with self.subTest(moments=moments, number=number):
                self.assertEqual(tool.span_of("it", moments, number), ("it", *wanted))

    def test_the_moment_of_a_copy(self):
        """All of its parts were so between two lines; where one was so no more when another began
        to be, a part was put back."""
        one, other, third = (tool.Span(*span) for span in (
            ("s1 at revision 1", 2, 6), ("c1 at edition 2", 5, math.inf),
            ("s2 at revision 2", 6, 8)))
        never = ("the office has s1 at revision 1, as it was before line 6 of the record, and s2 "
                 "at revision 2, as it was from line 6 on: it never had both")
        for spans, moment, lacks, said in (
                ([], (0, math.inf), None, []), ([other], (5, math.inf), None, []),
                ([one], (2, 6), one, []), ([one, other], (5, 6), one, []),
                ([other, third], (6, 8), third, []), ([third, other, one], (6, 7), None, [never])):
            with self.subTest(spans=spans):
                it = reading_of()
                self.assertEqual(printed(it.moment_of, spans), (said, moment))
                self.assertEqual((it.lacks, it.left), (lacks, len(said)))

    def test_the_age_of_a_copy(self):
        """A remark says what it lacks, unless that was there by the line in its name."""
        lacks = tool.Span("s1 at revision 1", 2, 6)
        said = ("the copy lacks what was done from line 6 of the record on (22:14): it has s1 at "
                "revision 1")
        back = ("It was made when the record had {} lines: the office was put back to an earlier "
                "moment")
        shorter = "the copy was made when the record had 10 lines, and this one has 9"
        for lines, span, wanted, left in (
                (None, None, [], 0), (9, None, [], 0), (10, None, [shorter], 1),
                (None, lacks, [f"remark: {said}"], 0), (5, lacks, [f"remark: {said}"], 0),
                (6, lacks, [f"{said}. {back.format(6)}"], 1),
                (10, lacks, [shorter, f"{said}. {back.format(10)}"], 2)):
            with self.subTest(lines=lines, lacks=bool(span)):
                it = reading_of()
                it.number, it.times, it.lacks = 9, {6: "22:14"}, span
                self.assertEqual(printed(it.compare_age, lines)[0], wanted)
                self.assertEqual(it.left, left)
        self.assertEqual(printed(reading_of().compare_age, 1)[0], [
            "the copy was made when the record had 1 lines, and this one has 0"])

    def test_the_lines_in_the_name_of_a_copy(self):
        for name, lines in (("office-20261126T221400Z-00001234.db", 1234),
                            ("copies/office-20261126T221400Z-0.db", 0),
                            ("office-20261126T221400Z.db", None),
                            ("office-20261126T221400Z-.db", None),
                            ("office-20261126T221400-7.db", None), ("data.db", None),
                            ("my-office-20261126T221400Z-7.db", None),
                            ("office-20261126T221400Z-7.db.old", None)):
            with self.subTest(name=name):
                self.assertEqual(tool.lines_of(name), lines)


class Lots(Case):
    def test_the_lots_between_two_lines(self):
        """A lot was drawn by the answer in line 5, and a query in line 9 removed it."""
        drawn, none = (1, 2), ()
        for since, until, may_be in ((0, 5, {none}), (4, 6, {none, drawn}), (5, 9, {drawn}),
                                     (8, 9, {drawn}), (8, 10, {none, drawn}),
                                     (9, math.inf, {none}), (0, math.inf, {none, drawn})):
            for lot, said in ((drawn, "the lot A, B"), (none, "no lot"),
                              ((2, 1), "the lot B, A"), ((1, 3), "the lot A, list 3 (not there)"),
                              ((0, 2), "the lot list 0 (not there), B")):
                with self.subTest(since=since, until=until, lot=lot):
                    it = reading_of()
                    it.lots["c1"] = [(0, ()), (5, ("A", "B")), (9, ())]
                    office = SimpleNamespace(editions={"c1": (1, False), "c9": (1, False)},
                                             lots={"c1": lot} if lot else {})
                    wanted = [] if lot in may_be else [
                        f"c1: the office has {said}, and no acts of this record left it so"]
                    self.assertEqual(printed(it.compare_lots, office, since, until)[0], wanted)

    def test_which_acts_move_a_lot(self):
        it = reading_of(("/con/c1/draw", {"edition": 1, "order": ["B", "A"]}), LODGE,
                        ("/station/t1/query", {"rev": 1, "note": ""}))
        self.assertEqual(it.lots, {"c1": [(0, ()), (2, ("B", "A"))], "c2": [(0, ()), (6, ())]})
        self.assertEqual(it.moments, {"c1": [0, 2], "c2": [0]})
        # A certificate is in force after a draw as before it.
        again = reading_of(CERTIFY, ("/con/c2/draw", {"edition": 2, "order": []}))
        self.assertEqual((it.editions["c1"], again.editions["c2"]),
                         ([None, False, False], [None, False, True, True]))

    def test_lists_by_their_places(self):
        it = reading_of()
        self.assertEqual([it.list_of("c1", place) for place in range(4)], [None, "A", "B", None])
        self.assertEqual((it.list_of("c9", 1), it.candidate("c1", 2, 7), it.candidate("c1", 3, 7)),
                         (None, ("c1", "B", 7), ("c1", "?", 7)))


class Certificates(Case):
    def test_certificates_that_were_withdrawn(self):
        """Of editions 2 and 4, by the reopenings that led to 3 and 5."""
        it = reading_of(LODGE, CLOSE, CERTIFY, REOPEN, CERTIFY, REOPEN)
        self.assertEqual(it.editions["c2"], [None, False, True, False, True, False])
        self.assertEqual(it.moments["c2"], [0, 6, 8, 10, 12])
        self.assertEqual(it.reasons["c2"], {3: "recount", 5: "recount"})
        lacks, other = "the office lacks the withdrawn certificate of edition {}", (
            "the office has a withdrawn certificate of edition {} with other seats than the acts "
            "of this record gave")
        unknown = "the office has a withdrawn certificate of edition {}, by no acts of this record"
        both = {2: SEATS, 4: SEATS}
        for edition, found, said in (
                (1, {}, []), (2, {}, []), (3, {2: SEATS}, []), (4, {2: SEATS}, []), (5, both, []),
                (3, {}, [lacks.format(2)]), (5, {4: SEATS}, [lacks.format(2)]),
                (5, {2: SEATS}, [lacks.format(4)]), (4, both, [unknown.format(4)]),
                (3, {2: OTHER_SEATS}, [other.format(2)]),
                (5, {2: OTHER_SEATS, 3: SEATS, 4: {1: 3}}, [
                    other.format(2), unknown.format(3), other.format(4)]),
                (2, {1: SEATS}, [unknown.format(1)])):
            with self.subTest(edition=edition, found=found):
                self.assertEqual(list(it.others_past("c2", edition, found)), said)

    def test_a_certificate_that_a_lot_did_not_withdraw(self):
        it = reading_of()
        it.editions["c2"] = [None, False, True, True, False]
        for edition, said in ((3, []), (4, ["the office lacks the withdrawn certificate of edition "
                                            "3"])):
            self.assertEqual(list(it.others_past("c2", edition, {})), said)

    def test_seats_after_a_lot(self):
        """Of two lists with 100 votes each, for the third of three seats."""
        tie = "/station/t1/lodge", LODGED | {"votes": [100, 100]}
        for order, seats in ((["A", "B"], {1: 2, 2: 1}), (["B", "A"], {1: 1, 2: 2})):
            with self.subTest(order=order):
                it = reading_of(tie, CLOSE, ("/con/c2/draw", {"edition": 1, "order": order}),
                                ("/con/c2/certify", {"edition": 2}))
                self.assertEqual((it.given["c2"], it.editions["c2"]),
                                 ({3: seats}, [None, False, False, True]))

    def test_seats_of_figures_that_were_corrected(self):
        it = reading_of(LODGE, ("/station/t1/query", {"rev": 1, "note": ""}),
                        ("/station/t1/correct", LODGED | {"rev": 2, "votes": [2, 1]}),
                        ("/station/t1/close", {"rev": 3}), CERTIFY)
        self.assertEqual(it.given["c2"], {2: OTHER_SEATS})

    def test_seats_that_nobody_knows(self):
        """Of a certificate over a return that the record does not have, or not closed."""
        for acts in ((CERTIFY, REOPEN), (LODGE, CERTIFY, REOPEN), (CLOSE, CERTIFY, REOPEN)):
            with self.subTest(acts=acts):
                it = reading_of(*acts)
                self.assertEqual(it.given["c2"], {2: None})
                self.assertEqual(list(it.others_past("c2", 3, {2: OTHER_SEATS})), [])

    def test_what_changed_after_a_line(self):
        """A return in line 4, and the edition in line 6."""
        it = reading_of(LODGE, CLOSE, CERTIFY)
        for number, wanted in ((3, ["c2", "t1"]), (4, ["c2"]), (5, ["c2"]), (6, [])):
            with self.subTest(number=number):
                self.assertEqual(it.changed_since("c2", number), wanted)
        self.assertEqual(it.changed_since("c1", 0), [])


class Returns(Case):
    def test_the_revisions_of_a_return(self):
        """Each with its status, its figures, its line and the note of the last query."""
        corrected = LODGED | {"slip": "p2", "votes": [3, 0], "spoiled": 4}
        it = reading_of(LODGE, ("/station/t1/query", {"rev": 1, "note": "smudged"}),
                        ("/station/t1/correct", corrected), ("/station/t1/close", {"rev": 3}))
        known = it.returns["t1"]
        first, second = ("p1", frozenset({(1, 1), (2, 2)})), ("p2", frozenset({(1, 3), (61, 4)}))
        self.assertEqual(known.revisions, [(1, first), (2, first), (3, second), (4, second)])
        self.assertEqual((known.moments, known.notes),
                         ([2, 4, 6, 8], ["", "smudged", "smudged", "smudged"]))

    def test_stations_whose_entries_came_from_one_address(self):
        """Of closed returns; where nobody knows an address it is not named."""
        one, other, none = ({"address": it} for it in ("192.0.2.1", "192.0.2.2", None))
        for first, second, act, wanted in (
                (one, one, "confirm", ["s1"]), (one, other, "confirm", []),
                (none, none, "confirm", []), (one, one, "query", []), (one, one, "close", [])):
            with self.subTest(first=first, second=second, act=act):
                it = reading_of(("/station/s1/lodge", LODGED, first),
                                (f"/station/s1/{act}", {"rev": 1, **LODGED}, second))
                self.assertEqual(it.from_one_address(), wanted)

    def test_the_address_of_a_correction(self):
        """It is that of the first entry then."""
        for second, wanted in (("192.0.2.2", ["s1"]), ("192.0.2.1", [])):
            it = reading_of(*((f"/station/s1/{act}", LODGED | {"note": ""}, {"address": address})
                              for act, address in (("lodge", "192.0.2.1"), ("query", "192.0.2.3"),
                                                   ("correct", "192.0.2.2"), ("confirm", second))))
            self.assertEqual(it.from_one_address(), wanted)

    def test_rows_that_an_import_lodges(self):
        """With a code, numbers of at most nine digits, and as many votes as may be at the
        station, under the header of the office."""
        con = tool.cons_of(TWO_TOWNS)[1] | {"station": [
            {"code": "t1", "electors": 10, "agents": 2}, {"code": "t3", "electors": 4}]}
        good, header = ("t1", ("p1", frozenset({(0, 3), (61, 4), (1, 5)}))), f"{HEADER},A,B"
        for row, wanted in (
                ("t1,p1,3,4,5,0", [good]), ("t1,p1,3,4,000000005,0", [good]),
                ("t1,p1,3,4,0000000005,0", []), ("t1,p1,3,4,5,1", []), ("t1,p1,3,4,5", []),
                ("t1,p1,3,4,5,0,", []), ("t1,p1,3,4,5,-0", []), ("t1,,3,4,5,0", []),
                ("t1,p 1,3,4,5,0", []), ("t2,p1,3,4,5,0", []), ("t2,p1,0,0,0,0", []),
                ("t1;p1;3;4;5;0", []), ("t3,p1,0,1,1,3", []),
                ("t3,p1,0,0,4,0", [("t3", ("p1", frozenset({(1, 4)})))])):
            with self.subTest(row=row):
                text = f"\ufeff{header}\n\n{row}\n"
                self.assertEqual(list(tool.rows_of(text, False, con)), wanted)
                self.assertEqual(list(tool.rows_of(text.replace(",", ";"), True, con)),
                                 wanted or [good] * (";" in row))

    def test_what_an_import_refuses_a_row_for(self):
        """Each row with its number, 0 where it is bad: of more than a million votes for a list,
        blank or spoiled, or of more votes than may be at the station."""
        million = 1_000_000
        for row, wanted in (
                ("t1,p1,0,0,10,0", ("p1", frozenset({(1, 10)}))), ("t1,p1,0,0,10,1", 6),
                ("t1,p1,1,0,0,10", 6), ("t1,p1,0,0,1000000,0", 6), ("t1,p1,0,0,1000001,0", 4),
                ("t1,p1,0,1000001,0,0", 4), ("t1,p1,1000001,0,0,0", 4),
                ("t1,p1,0,0,1000000000,0", 0), ("t1,p1,0,0,999999999,0", 4),
                ("t2,p1,0,0,0,0", 0), ("t 1,p1,0,0,0,0", 0), (",p1,0,0,0,0", 0),
                ("t1,p,0,0,,0", 0), ("t1", 0)):
            with self.subTest(row=row):
                found = list(tool.judged_rows(f"{HEADER},A,B\n{row}\n", False, {"t1": 10}))
                self.assertEqual(found, [(row.split(",", maxsplit=1)[0], wanted)])
        for row, wanted in (("t2,p1,1,2,1000000,3",
                             ("p1", frozenset({(0, 1), (61, 2), (1, million), (2, 3)}))),
                            ("t2,p1,0,0,0,1000001", 4), ("t 2,p1,0,0,0,0", 0)):
            self.assertEqual([found for _, found in tool.judged_rows(
                f"{HEADER},A,B\n{row}\n", False)], [wanted])

    def test_files_that_are_refused_as_a_whole(self):
        """By another header or delimiter than the office's, or by their length: 20,000 rows."""
        row, lists = "t1,p1,0,0,1,2\n", ["A", "B"]
        for header, of, number in (
                (f"{HEADER},A,B", lists, 1), (f"{HEADER},A,B", None, 1), (f"{HEADER},X,Y", None, 1),
                (f'"station",slip,blank,"spoiled",A,"B"', lists, 1), (f"{HEADER},B,A", lists, 0),
                (f"{HEADER},A", lists, 0), (f"{HEADER},A,B,C", lists, 0), (HEADER, lists, 0),
                (f"{HEADER},a,B", lists, 0), (f"{HEADER},A,B".replace(",", ";"), lists, 0),
                ("station,slip,spoiled,blank,A,B", None, 0), ("station,slip,blank", None, 0),
                ("", lists, 0)):
            with self.subTest(header=header, of=of):
                found = tool.judged_rows(f"{header}\n{row}", False, None, of)
                self.assertEqual([station for station, _ in found], ["t1"] * number)
        self.assertEqual(list(tool.judged_rows(f"{HEADER},A\nt1,p1,0,0,5\n", False, None, ["A"])),
                         [("t1", ("p1", frozenset({(1, 5)})))])
        for text in ("", "\ufeff", "\n\n"):
            self.assertEqual(list(tool.judged_rows(text, False)), [])
        # Under a header without a list no row is good.
        self.assertEqual(list(tool.judged_rows(f"{HEADER}\nt1,p1,0,0\n", False)), [("t1", 0)])
        for number, rows in ((20_000, 20_000), (20_001, 0)):
            found = tool.judged_rows(f"{HEADER},A,B\n\n{row * number}\n", False, None, lists)
            self.assertEqual(len(list(found)), rows)

    def test_a_row_that_is_very_long(self):
        """The others are lodged all the same, also for the papers, which read a record by this
        file."""
        limit = csv.field_size_limit(131_072)
        try:
            commands = loaded("record_commands.py")
            text = f"{HEADER},A,B\nt1,{'p' * 200_000},0,0,1,2\nt1,p1,0,0,1,2\n"
            found = commands.rows_of(text, False, tool.cons_of(TWO_TOWNS)[1])
            self.assertEqual([(code, slip) for code, (slip, _) in found], [("t1", "p1")])
        finally:
            csv.field_size_limit(limit)


def copy_of(it, of=("c1", "c2"), **other):
    """A copy of the office that has some constituencies as a record left them, or otherwise."""
    returns = {code: one for code, one in it.returns.items() if it.home[code]["code"] in of}
    return SimpleNamespace(**{
        "cons": list(it.cons.values()), "past": {}, "reasons": dict.fromkeys(of, ""),
        "returns": {code: (len(one.revisions), one.revisions[-1]) for code, one in returns.items()},
        "notes": {code: one.notes[-1] for code, one in returns.items()}, "gone": {}, "lots": {},
        "editions": {con: (len(it.editions[con]) - 1, it.editions[con][-1]) for con in of},
    } | other)


class Copies(Case):
    NEVER = "and no acts of this record left it so"

    def test_a_copy_that_is_otherwise(self):
        """Each part of it is named, with what the copy has."""
        acts = (LODGE, ("/station/t1/query", {"rev": 1, "note": "smudged"}),
                ("/station/t1/close", {"rev": 2}), CERTIFY, REOPEN,
                ("/con/c2/vacate", {"list": "B", "place": 1, "note": "died"}))
        figures = "p1", frozenset({(1, 1), (2, 2)})
        as_it_was = {"reasons": {"c1": "", "c2": "recount"}, "past": {"c2": {2: SEATS}},
                     "gone": {("c2", 2, 1): "died"}}
        at = "t1: the office has it at revision {}, " + self.NEVER
        editions = {"c1": (1, False), "c2": (3, False)}
        for other, said in (
                ({}, []), ({"cons": [{"code": "c1"}]}, [
                    "c1: the office has another rule, or other seats, lists or stations, than the "
                    "setup"]),
                ({"returns": {"t1": (3, (3, figures))}}, [at.format(3)]),
                ({"returns": {"t1": (4, (4, figures))}}, [at.format(4)]),
                ({"returns": {"t1": (3, (4, ("p2", figures[1])))}}, [at.format(3)]),
                ({"returns": {"t1": (0, (4, figures))}}, [at.format(0)]),
                ({"returns": {"t1": ("?", (4, figures))}}, [at.format("?")]),
                ({"notes": {"t1": "14?"}}, [
                    "t1: the office has the note '14?', and this record 'smudged'"]),
                ({"editions": editions | {"c2": (3, True)}}, [
                    "c2: the office has it certified at edition 3, " + self.NEVER]),
                ({"editions": editions | {"c2": (4, False)}}, [
                    "c2: the office has it not certified at edition 4, " + self.NEVER]),
                ({"editions": editions | {"c1": (0, False)}}, [
                    "c1: the office has it not certified at edition 0, " + self.NEVER]),
                ({"reasons": {"c1": "", "c2": ""}}, [
                    "c2: the office has the note '', and this record 'recount'"]),
                ({"past": {}}, ["c2: the office lacks the withdrawn certificate of edition 2"]),
                ({"gone": {("c2", 2, 1): "resigned"}}, [
                    "c2, list B, place 1: the office has the note 'resigned', and this record "
                    "'died'"]),
                ({"gone": {("c2", 2, 1): "died", ("c2", 2, 2): ""}}, [
                    "c2: a holder is gone, list B, place 2, by no act of this record"]),
                ({"lots": {"c1": (1, 2)}}, [
                    "c1: the office has the lot A, B, " + self.NEVER])):
            with self.subTest(other=other):
                it = reading_of(*acts)
                self.assertEqual(printed(it.compare, copy_of(it, **as_it_was | other))[0], said)
                self.assertIsNone(it.lacks)

    def test_a_copy_of_an_earlier_moment(self):
        """It lacks the first of all parts that were otherwise afterwards."""
        acts = (LODGE, CLOSE, CERTIFY, ("/con/c2/vacate", {"list": "B", "place": 1, "note": ""}))
        first, figures = {"c1": (1, False), "c2": (1, False)}, ("p1", frozenset({(1, 1), (2, 2)}))
        whole = {"gone": {("c2", 2, 1): ""}}
        for other, lacks in (
                (whole, None), ({}, ("c2, list B, place 1, not gone", 0, 8)),
                ({"editions": first}, ("c2 at edition 1", 0, 6)),
                ({"editions": first, "returns": {"t1": (1, (1, figures))}},
                 ("t1 at revision 1", 2, 4)),
                ({"editions": first, "returns": {}, "notes": {}}, ("no return of t1", 0, 2))):
            with self.subTest(other=other):
                it = reading_of(*acts)
                self.assertEqual(printed(it.compare, copy_of(it, **other))[0], [])
                self.assertEqual(it.lacks, lacks)

    def test_the_office_of_a_copy(self):
        """It is known by commands to its constituencies, or by the number that is given."""
        at_s1 = ("/station/s1/lodge", LODGED)
        asks = ("the copy has no constituency to which this record has commands, so nobody knows "
                "of which office it is: say so with --number, as 1 where there is one office")
        lacks = "{}: the office does not have it, and this record has commands to it there"
        another = ("c1: the office has it, and this record has commands to it in office {} and not "
                   "in {}: the copy is of another office")
        second = {"office": 2}
        for acts, cons, number, said in (
                ([at_s1, LODGE], ["c1", "c2"], None, []), ([], ["c1"], None, []),
                ([at_s1, LODGE], ["c1"], None, [lacks.format("c2")]),
                ([at_s1, (*LODGE, second)], ["c1"], None, []),
                ([at_s1, (*LODGE, second)], ["c1"], 1, []),
                ([at_s1, (*LODGE, second)], ["c1"], 2, [another.format(1, 2), lacks.format("c2")]),
                ([at_s1], ["c2"], None, [asks]), ([at_s1], ["c2"], 1, [lacks.format("c1")]),
                ([at_s1], ["c2"], 2, []), ([], ["c1"], 3, []),
                ([(*at_s1, second), at_s1], ["c1"], 3, [another.format(1, 3)])):
            with self.subTest(acts=acts, cons=cons, number=number):
                it = reading_of(*acts)
                it.office_number = number
                self.assertEqual(printed(it.compare, copy_of(it, cons))[0], said)
