"""Parts of `replay` by hand: lines of a record, and what an office answers. Nothing is started."""

import contextlib
import hashlib
import io
import json
import sys
from datetime import UTC, datetime
from pathlib import Path
from unittest import mock

from tests.support.case import Case
from tests.support.record import LODGED, a_command, chained
from tests.support.scripts import loaded

tool = loaded("replay")
STATION, OTHER, CON = (1, "station", "s1"), (1, "station", "s2"), (1, "con", "c1")
SECOND = LODGED | {"votes": [7, 7]}
# The figures of LODGED and of SECOND.
P, Q = (("p1", frozenset({(1, a), (2, b)})) for a, b in ((1, 2), (7, 7)))
ABSENT, NOBODY, UNKNOWN = (0, "", ""), frozenset(), "unknown"
HEADER = "station,slip,blank,spoiled,A,B\n"
TABLE = "STATIONS c1 Town\nstations 3 missing 1\n"
# A constituency of the setup, and as an office shows it.
RULE = {"name": "Town", "seats": 3, "method": "dhondt", "threshold": "5%", "base": "votes"}
PARTS = {"code": "c1", **RULE, "lot": "drawn",
         "lists": [{"code": "A", "name": "Alpha"}, {"code": "B", "name": "Beta"}],
         "stations": [{"code": "s1", "electors": 300}, {"code": "s2", "electors": 20}]}
RESULT = RULE | {"lot_rule": "drawn", "lists": PARTS["lists"], "seats_won": 3}
SHOWN = {"/progress": "c1 2 1\n", "/con/c1/result": RESULT,
         "/con/c1/stations": f"{TABLE}s1 300 closed 1 p1\ns2 20 -\n"}
MOMENT = datetime(2026, 11, 26, 22, 14, tzinfo=UTC)


def a_line(path, body, number=1):
    """A command as it is read from its line."""
    text = body if isinstance(body, str) else json.dumps(body)
    entry = {"n": number, "time": "2026-11-26T22:14:00+00:00", "before": ""} | a_command(text, path)
    return tool.read_line(json.dumps(entry).encode())


class ByHand(Case):
    def answering(self, *offices):
        """Offices, called desk1, desk2, .., that give these answers: a status, a text, what is in
        JSON, or a status with one of these; 404 otherwise. What they are asked is kept."""
        self.asked = []

        def send(desk, method, path, body):
            self.asked.append((desk, method, path, body))
            found = offices[int(desk.removeprefix("desk")) - 1].get(path, 404)
            status, found = found if isinstance(found, tuple) else (200, found)
            return (found, "{}") if isinstance(found, int) else (status, found if isinstance(
                found, str) else json.dumps(found))

        patched = mock.patch.object(tool, "send", send)
        patched.start()
        self.addCleanup(patched.stop)
        return {number: f"desk{number}" for number in range(1, len(offices) + 1)}

    def replay(self, *offices, words=(0, None), states=None, lines=None, shown=None):
        """Over offices that give these answers, by a record that is known to have these states."""
        desks = self.answering(*offices)
        it = tool.Replay(desks, *words, dict(shown or {}), tool.Setup(None, {}))
        it.known.states |= states or {}
        it.known.lines |= lines or {}
        return it

    def printed(self, act, *given):
        """The value that an act gives back, and the lines that it prints."""
        with contextlib.redirect_stdout(io.StringIO()) as said:
            found = act(*given)
        return found, said.getvalue().splitlines()

    def replayed(self, it, *lines):
        """The status, the lines that are printed but for the last, and the last."""
        def take_all():
            for line in chained(*lines).splitlines():
                it.take(line)
            return it.end()

        status, (*others, last) = self.printed(take_all)
        self.assertEqual(status, int(bool(others)))
        self.posted = [body.decode() for _, method, _, body in self.asked if method == "POST"]
        return others, last


class Words(Case):
    def test_the_words_of_a_command(self):
        """An address, or a check; a line from 1, or a moment with its zone."""
        desk, moment = "http://127.0.0.1:8080", "2026-11-26T22:14:00+00:00"
        for words, said in (
                (["--check"], None), ([desk], None), ([desk, desk, "--after", "0"], None),
                ([desk, "--since", moment], None), (["--check", "--after", "0"], None),
                ([], "it needs an address, or --check"),
                ([desk, "--check"], "it needs an address, or --check"),
                ([desk, "--after", "-1"], "lines are numbered from 1"),
                ([desk, "--after", "1", "--since", moment], "not allowed with"),
                ([desk, "--since", moment[:-6]], "the time has its zone"),
                (["127.0.0.1:8080"], "an address begins with http://"),
                ([desk, "https://127.0.0.1"], "an address begins with http://"),
                ([desk, "http://"], "an address begins with http://"),
                ([desk, "--shown", "none.csv"], "none.csv: FileNotFoundError"),
                ([desk, "--setup", "none.json"], "replay: none.json: FileNotFoundError")):
            with self.subTest(words=words):
                status, out, errors = self.ran(words)
                if said is None:
                    self.assertEqual((status, errors), (0, ""))
                    self.assertTrue(out.endswith(
                        f"to look at 0; lines 0, the hash of the last {'0' * 64}\n"), out)
                else:
                    self.assertEqual((status, out, said in errors), (2, "", True), errors)
        self.assertIn("Sends the commands of a record to an office once more", self.ran(
            ["--help"])[1])

    def ran(self, words, record=b"", answer=(200, "")):
        """Status, output and errors of a run with these words, over an office that gives the same
        answer to all that it is asked: without any constituency."""
        given = io.TextIOWrapper(io.BytesIO(record))
        out, errors = io.TextIOWrapper(io.BytesIO(), "ascii"), io.StringIO()
        with mock.patch.object(sys, "argv", ["replay", *words]), mock.patch.object(
                sys, "stdin", given), mock.patch.object(sys, "stdout", out), mock.patch.object(
                tool, "send", lambda *_: answer), contextlib.redirect_stderr(errors):
            try:
                status = tool.main()
            except SystemExit as ended:
                status = ended.code
        out.flush()
        return status, out.buffer.getvalue().decode(), errors.getvalue()

    def test_a_record_that_is_read(self):
        """To its end, with the line that has no end, and with characters that cannot be printed
        where it is run. One of another setup ends it."""
        status, out, errors = self.ran(["--check"], b"\xc3\xa9\n\n{}")
        last = hashlib.sha256(b"{}").hexdigest()
        self.assertEqual((status, errors), (1, ""))
        self.assertEqual(out.splitlines(), [
            "line 1: not a line of a record: \\xe9", "line 2: not a line of a record: ",
            "line 3: not a line of a record: {}",
            f"to look at 3; lines 3, the hash of the last {last}"])
        self.assertEqual(self.ran(["http://desk", "http://desk"], b"", (503, ""))[1].splitlines(), [
            "office 1: it does not say what it has", "office 2: it does not say what it has",
            f"sent 0, to look at 2; lines 0, the hash of the last {'0' * 64}"])
        for word, text, error in (
                ("--setup", "x", "JSONDecodeError("), ("--setup", "[{}]", "KeyError('code')"),
                ("--setup", "5", "TypeError("), ("--shown", "lines,sha256\n", "ValueError("),
                ("--shown", "sha256,lines\n5e\n", "TypeError(")):
            Path("file").write_text(text, encoding="utf-8")
            status, out, errors = self.ran(["http://desk", word, "file"])
            self.assertEqual((status, out, f"file: {error}" in errors), (2, "", True), errors)
        Path("setup.json").write_text("[]", encoding="utf-8")
        for words in (["http://desk"], ["--check", "--setup", "setup.json"]):
            status, out, errors = self.ran(words, chained({"setup": "5e"}))
            self.assertEqual((status, out, errors[:25]), (2, "", "replay: the record is of "))

    def test_a_line_that_no_recorder_writes(self):
        """Its words would be sent as they are: they are text of ASCII that can be printed, without
        a space; a time has its zone, and a body in base64 nothing else."""
        good = {"n": 1, "time": "2026-11-26T22:14:00+00:00", "before": ""} | a_command("é")
        wrong = [{key: value} for key in ("name", "method", "path")
                 for value in (5, None, "é", "a\tb", "two words", "\x7f", [])]
        for one in (*wrong, {"time": "2026-11-26T22:14:00"}, {"time": "ten"},
                    {"body_base64": "e30=!"}, {"body_base64": "e"}):
            with self.subTest(one=one):
                self.assertRaises(ValueError, tool.read_line, json.dumps(good | one).encode())
        for one, body in (({}, "é".encode()), ({"body_base64": "/w=="}, b"\xff"),
                          ({"bytes": 3}, b"")):
            self.assertEqual(tool.read_line(json.dumps(good | one).encode())["body"], body)

    def test_what_a_line_says(self):
        head = {"n": 1, "time": "2026-11-26T22:14:00+00:00", "before": "5e"}
        for more, wanted in (
                ({"setup": "00"}, {"setup": "00"}),
                ({"to": 4, "status": 200, "answer": "{}"}, {
                    "to": 4, "status": 200, "answer": "{}"}),
                ({"to": 4, "status": None}, {"to": 4, "status": None, "answer": ""}),
                (a_command("{}") | {"status": 403}, {
                    "office": 1, "words": ("clara", "POST", "/con/c1/import"), "body": b"{}",
                    "status": 403})):
            with self.subTest(more=more):
                self.assertEqual(tool.read_line(json.dumps(head | more).encode()), {
                    "n": 1, "before": "5e", "time": MOMENT, "line": head | more} | wanted)

    def test_what_an_answer_says(self):
        answer = {"lodged": 13, "same": 1, "differs": 2, "first": [11, 7]}
        self.assertEqual(tool.recorded(json.dumps(answer)), (14, 2, [11, 7]))
        for text in ("", "[]", "5", "{}", json.dumps(answer | {"same": None}), "[" * 20_000,
                     *(json.dumps({key: answer[key] for key in answer if key != left})
                       for left in answer)):
            with self.subTest(text=text):
                self.assertIsNone(tool.recorded(text))

    def test_an_office_that_is_asked(self):
        """Its status and its text, whatever that is; or why there is none."""
        with mock.patch.object(tool.http.client, "HTTPConnection") as connection:
            asked = connection.return_value
            answer = asked.getresponse.return_value
            answer.status, answer.read.return_value = 409, b"\xffx"
            self.assertEqual(tool.send("desk", "POST", "/con", b"{}"), (409, "\ufffdx"))
            self.assertEqual(connection.call_args[0], ("desk",))
            asked.request.assert_called_once_with("POST", "/con", b"{}")
            for error in (OSError("away"), ValueError("away"),
                          tool.http.client.HTTPException("away")):
                asked.request.side_effect = error
                self.assertEqual(tool.send("desk", "POST", "/con", b"{}"),
                                 (None, "no answer: away"))


class Setups(ByHand):
    def test_what_an_office_shows(self):
        """The codes of its constituencies, their stations, and the parts that a setup has too."""
        for found, codes in (("c1 3 2\n\nc-2_x 1 0\n", ["c1", "c-2_x"]), ("", []), (503, None),
                             (f"{'c' * 16} 1\n", ["c" * 16]), (f"{'c' * 17} 1\n", None),
                             ("c1 3\n\u20ac 3\n", None), ("<html>\n", None)):
            with self.subTest(found=found):
                self.answering({"/progress": found})
                self.assertEqual(tool.codes_of("desk1"), codes)
        for found, stations in (
                (f"{TABLE}s1 300 closed 1 p1\ns2 20 -\ns3 x -\ns4 5\n\n", [
                    {"code": "s1", "electors": 300}, {"code": "s2", "electors": 20}]),
                (TABLE, []), (404, []), ("", []), ((503, f"{TABLE}s1 300 -\n"), [])):
            with self.subTest(found=found):
                self.answering({"/con/c1/stations": found})
                self.assertEqual(tool.stations_of("desk1", "c1"), stations)
        wanted = {"name": "Town", "seats": 3, "rule": ["dhondt", "5%", "votes", "drawn"],
                  "lists or their order": [["A", "Alpha"], ["B", "Beta"]],
                  "stations or electors": [["s1", "300"], ["s2", "20"]]}
        self.assertEqual(tool.of_setup(PARTS), wanted)
        for more, found in (({}, wanted | {"entry": None}),
                            ({"/con/c1/result": RESULT | {"entry": "double"}},
                             wanted | {"entry": "double"}),
                            ({"/con/c1/result": 404}, None),
                            ({"/con/c1/result": (201, RESULT)}, None),
                            ({"/con/c1/result": "[]"}, {}), ({"/con/c1/result": "x"}, {}),
                            ({"/con/c1/result": "[" * 20_000}, {}),
                            ({"/con/c1/result": {}}, {})):
            with self.subTest(more=more):
                self.answering(SHOWN | more)
                self.assertEqual(tool.of_office("desk1", "c1"), found)

    def test_offices_of_another_setup(self):
        """Each constituency is in one office, as the setup has it, and there are no others."""
        double, other = PARTS | {"entry": "double"}, "the office has the constituency c1 otherwise"
        with_double = SHOWN | {"/con/c1/result": RESULT | {"entry": "double"}}
        for con, offices, said in (
                (PARTS, [SHOWN], None), (PARTS, [{"/progress": ""}, SHOWN], None),
                (PARTS, [{}], "no office has the constituency c1"),
                (PARTS, [SHOWN, SHOWN], "more than one office has the constituency c1"),
                (PARTS, [SHOWN, {"/progress": "c9 1\nc3 1\nc1 1\n"}],
                 "an office has the constituency c3, which the setup lacks"),
                (double, [with_double], None), (PARTS, [with_double], None),
                (double, [SHOWN], f"{other} than the setup: one entry closes a return there"),
                *((PARTS | more, [SHOWN], f"{other} than the setup: {what}") for more, what in (
                    ({"name": "City"}, "name"), ({"seats": 4, "name": "City"}, "name, seats"),
                    ({"lot": "none"}, "rule"), ({"base": "valid"}, "rule"),
                    ({"lists": PARTS["lists"][::-1]}, "lists or their order"),
                    ({"stations": PARTS["stations"][:1]}, "stations or electors")))):
            Path("setup.json").write_text(json.dumps([con]), encoding="utf-8")
            with self.subTest(con=con, offices=offices):
                desks = self.answering(*offices)
                if said:
                    with self.assertRaises(tool.OtherSetup) as refused:
                        tool.Setup("setup.json", desks)
                    self.assertEqual(str(refused.exception), said)
                else:
                    self.assertEqual(tool.Setup("setup.json", desks).cons, [con])

    def test_the_setup_of_a_record(self):
        """Where something is sent the setup has to be named, and be that of the record."""
        Path("setup.json").write_text("[]", encoding="utf-8")
        hash_of_it = hashlib.sha256(b"[]").hexdigest()
        another = "the record is of another setup, whose SHA-256 is 5e"
        name_it = ("the record is of a setup: name its setup.json (--setup), whose SHA-256 is 5e")
        for file, is_sent, found, said in (
                (None, False, "5e", None), (None, True, None, None), (None, True, "5e", name_it),
                ("setup.json", True, hash_of_it, None), ("setup.json", False, hash_of_it, None),
                ("setup.json", True, None, None), ("setup.json", False, "5e", another),
                ("setup.json", True, "5e", another)):
            with self.subTest(file=file, is_sent=is_sent, found=found):
                desks = self.answering({"/progress": ""})
                it = tool.Setup(file, desks if is_sent else {})
                if said:
                    with self.assertRaises(tool.OtherSetup) as refused:
                        it.meet(found)
                    self.assertEqual(str(refused.exception), said)
                else:
                    it.meet(found)

    def test_stations_without_a_setup(self):
        """As the offices show them; one that shows none has none. With a setup, those of it."""
        second = {"/progress": "c2 1 0\n", "/con/c2/stations": f"{TABLE}t1 9 -\n"}
        of_first = {"code": "c1", "stations": PARTS["stations"]}
        of_second = {"code": "c2", "stations": [{"code": "t1", "electors": 9}]}
        for offices, cons in (([SHOWN], [of_first]), ([SHOWN, second], [of_first, of_second]),
                              ([{}, second], [of_second]), ([], [])):
            self.assertEqual(tool.Setup(None, self.answering(*offices)).cons, cons)
        Path("setup.json").write_text(json.dumps([PARTS]), encoding="utf-8")
        self.assertEqual(tool.Setup("setup.json", {}).cons, [])


class OfTheOffice(ByHand):
    """The record beside an office."""

    FOUND = {"/station/s1": {"rev": 1, "status": "received", **LODGED},
             "/con/c1": {"edition": 2, "certified": True, "lot": ["A", "B"],
                         "gone": [{"list": "A", "place": 1}]},
             "/con/c1/stations": f"{TABLE}s1 300 received 1 p1\ns2 20 closed 4 p1\ns3 9 -\n",
             "/con/c1/returns": f"{HEADER}s1,p1,0,0,1,2\ns2,p1,0,0,7,7\n"}

    def test_what_is_read(self):
        """A return, none of it, or a constituency with all of its returns. Of an answer that is
        another one nothing."""
        s1, con = (1, "received", P), (2, True, ("A", "B"), frozenset({("A", 1)}))
        third, own = (1, "station", "s3"), self.FOUND["/con/c1"]
        whole = {CON: con, STATION: s1, OTHER: (4, "closed", Q), third: ABSENT}
        for place, more, wanted in (
                (STATION, {}, {STATION: s1}), (STATION, {"/station/s1": 404}, {STATION: ABSENT}),
                *((STATION, {"/station/s1": it}, {}) for it in (
                    503, (201, self.FOUND["/station/s1"]), "", "{}", "[]")),
                (CON, {}, whole), (CON, {"/con/c1": own | {"lot": [], "gone": []}}, whole | {
                    CON: (2, True, (), NOBODY)}),
                # The returns are not there yet, or of other stations.
                (CON, {"/con/c1/returns": f"{HEADER}s2,p1,0,0,7,7\n"}, whole | {
                    STATION: (1, "received", None)}),
                (CON, {"/con/c1/stations": TABLE}, {CON: con}),
                *((CON, {path: status}, {}) for path in (
                    "/con/c1", "/con/c1/stations", "/con/c1/returns")
                  for status in (404, (201, self.FOUND[path]))),
                *((CON, {"/con/c1": {key: own[key] for key in own if key != left}}, {})
                  for left in own),
                (CON, {"/con/c1": own | {"gone": [5]}}, {}),
                (CON, {"/con/c1": own | {"lot": 5}}, {}),
                (CON, {"/con/c1/stations": f"{TABLE}s1 300 received x p1\n"}, {}),
                (CON, {"/con/c1/stations": f"{TABLE}s1\n"}, {})):
            with self.subTest(place=place, more=more):
                self.assertEqual(self.replay(self.FOUND | more).read(place), wanted)
        self.assertEqual(self.replay({}, self.FOUND).read((2, "station", "s1")),
                         {(2, "station", "s1"): s1})

    def test_a_return_that_is_looked_at(self):
        """Before a query, a correction, a close and a second entry it is the one that is named, and
        one that the record may have there. A former one is refused by the office."""
        now = self.FOUND["/station/s1"]
        known = {STATION: {(1, "received", P), (2, "queried", P)}}
        for found, states, said, wanted in (
                (now, known, {"rev": 1}, None), (now | SECOND, known, {"rev": 1}, "line 4"),
                (now | {"status": "closed"}, known, {"rev": 1}, "line 4"),
                (404, known, {"rev": 1}, "line 4"), (503, known, {"rev": 1}, "line 4"),
                (now | SECOND | {"rev": 2}, known, {"rev": 1}, None),
                (now, known, {"rev": 2}, "line 4"), (now, known, {}, "line 4"),
                (404, known, {"rev": 0}, "line 4"), (404, {}, {"rev": 0}, None),
                (now | {"rev": 5}, {}, {"rev": 5}, None),
                (now | {"rev": 4}, {}, {"rev": 5}, "this record"),
                (now | {"rev": 6}, {}, {"rev": 5}, None)):
            for act in ("query", "correct", "close", "confirm"):
                with self.subTest(found=found, said=said, act=act):
                    it = self.replay({"/station/s1": found}, states=states,
                                     lines=dict.fromkeys(states, 4))
                    one = a_line(f"/station/s1/{act}", said)
                    self.assertEqual(it.other_than_known(one), wanted)
        it = self.replay({}, states=known)
        for path in ("/station/s1/lodge", "/con/c1/import", "/con/c1/note"):
            self.assertIsNone(it.other_than_known(a_line(path, {"rev": 1})))
        self.assertEqual(self.asked, [])

    def test_a_constituency_that_is_looked_at(self):
        """With all of its returns, before a lot, a certificate, a reopening and a vacancy. The line
        of what differs first is named."""
        at, table = self.FOUND["/con/c1"], self.FOUND["/con/c1/stations"]
        closed = table.replace("received", "closed")
        states = {CON: {(2, True, ("A", "B"), frozenset({("A", 1)}))},
                  STATION: {(1, "received", P)}, OTHER: {(4, "closed", Q)}}
        lines = {CON: 9, STATION: 3, OTHER: 5}
        more, fewer = [*at["gone"], {"list": "B", "place": 1}], []
        for found, wanted, of_vacancy in (
                ({}, None, None), ({"/con/c1": at | {"lot": ["B", "A"]}}, "line 9", "line 9"),
                ({"/con/c1": at | {"certified": False}}, "line 9", "line 9"),
                ({"/con/c1": at | {"gone": fewer}}, "line 9", "line 9"),
                # Somebody who is gone already is refused.
                ({"/con/c1": at | {"gone": more}}, "line 9", None),
                ({"/con/c1": at | {"edition": 3}}, None, "line 9"),
                ({"/con/c1": at | {"edition": 1}}, "line 9", "line 9"),
                ({"/con/c1/stations": closed}, "line 3", "line 3"),
                ({"/con/c1/returns": f"{HEADER}s1,p1,0,0,1,2\n"}, "line 5", "line 5"),
                ({"/con/c1": at | {"lot": []}, "/con/c1/stations": closed}, "line 9", "line 9"),
                ({"/con/c1": 503}, "line 9", "line 9")):
            for act, said in (("draw", {"edition": 2}), ("certify", {"edition": 2}),
                              ("reopen", {"edition": 2}), ("vacate", {"list": "B", "place": 1})):
                with self.subTest(found=found, act=act):
                    it = self.replay(self.FOUND | found, states=states, lines=lines)
                    self.assertEqual(it.other_than_known(a_line(f"/con/c1/{act}", said)),
                                     of_vacancy if act == "vacate" else wanted)
        certify, lacks = a_line("/con/c1/certify", {"edition": 2}), {OTHER: {(4, "closed", Q)}}
        # Nobody knows a return of s1, and a constituency is at edition 1 at first.
        it = self.replay(self.FOUND, states={CON: states[CON], **lacks}, lines=lines)
        self.assertIsNone(it.other_than_known(certify))
        it = self.replay(self.FOUND, states=lacks, lines={OTHER: 5})
        self.assertEqual(it.other_than_known(certify), "this record")

    def test_what_an_office_has_otherwise_at_the_end(self):
        """It is named, or not where the record says it; None where the record does not say it."""
        at, left = "station s1: the office has something else than ", "line 4 left"
        one, other, unsure = (1, "received", P), (1, "received", Q), (1, "received", UNKNOWN)
        absent = "station s1: the office does not show it"
        new, drawn = (1, False, (), NOBODY), (2, False, ("A", "B"), NOBODY)
        of_con = "con c1: the office has something else than "
        for place, states, now, wanted, said in (
                (STATION, {one}, one, False, None), (STATION, {one}, other, True, at + left),
                (STATION, {one}, ABSENT, True, at + left), (STATION, {one}, None, True, absent),
                (STATION, {one, other}, other, False, None),
                (STATION, {one, (1, None, P)}, one, False, None),
                (STATION, {(1, None, P)}, one, None, None),
                (STATION, {(1, None, P)}, other, True, at + left),
                (STATION, {unsure}, one, None, None), (STATION, {unsure}, None, True, absent),
                (STATION, {unsure, ABSENT}, ABSENT, False, None),
                (STATION, None, one, None, None), (STATION, None, ABSENT, False, None),
                (CON, None, new, False, None), (CON, None, drawn, True, of_con + "this record"),
                (CON, {drawn}, drawn, False, None), (CON, {drawn}, new, True, of_con + left),
                (CON, {(2, False, UNKNOWN, NOBODY)}, drawn, None, None),
                (CON, {drawn}, None, True, "con c1: the office does not show it")):
            with self.subTest(place=place, states=states, now=now):
                it = self.replay({}, states={place: states} if states else {},
                                 lines={place: 4} if states else {})
                self.assertEqual(self.printed(it.differs, place, now),
                                 (wanted, [said] if said else []))
                self.assertEqual(it.left, int(bool(said)))

    def test_each_place_of_an_office_at_the_end(self):
        """Those that it shows, and those that the record has of it; at most 20 stations are named
        of which the record does not say all."""
        s1, con = {(1, "received", P)}, {(2, True, ("A", "B"), frozenset({("A", 1)}))}
        found = self.FOUND | {"/progress": "c1 3 2\n"}
        says = "con c1: the record does not say all of "
        states = {CON: con, STATION: s1, OTHER: {(4, "closed", Q)}}
        away, of_second = (1, "station", "t1"), (2, "station", "t2")
        otherwise = "{}: the office has something else than line 4 left"
        for office, more, wanted in (
                (found, {}, []), (found, {OTHER: set()}, [says + "s2"]),
                (found, {away: s1}, [otherwise.format("station t1")]),
                (found, {away: s1 | {ABSENT}, of_second: s1}, []),
                (found, {(1, "con", "c2"): con}, ["con c2: the office does not show it"]),
                (found | {"/con/c1": 503}, {STATION: {ABSENT}}, [
                    "con c1: the office does not show it", otherwise.format("station s2")]),
                (found | {"/con/c1": 503}, {CON: set(), STATION: set(), OTHER: set()}, [
                    "con c1: the office does not show it"]),
                (found | {"/progress": 503}, {}, ["office 1: it does not say what it has"])):
            with self.subTest(more=more):
                it = self.replay(office, states={
                    at: one for at, one in (states | more).items() if one})
                it.known.lines = dict.fromkeys(it.known.states, 4)
                self.assertEqual(self.printed(it.compare, 1)[1], wanted)
        for number, said in ((1, "s1"), (20, ""), (21, " and 1 more"), (30, " and 10 more")):
            table = "".join(f"s{n} 9 received 1 p1\n" for n in range(1, number + 1))
            it = self.replay(found | {"/con/c1/stations": TABLE + table}, states={CON: con})
            names = ", ".join(f"s{n}" for n in range(1, min(number, 20) + 1))
            self.assertEqual(self.printed(it.compare, 1)[1],
                             [says + (said if number == 1 else names + said)])


class Answers(ByHand):
    """A record that is sent to an office."""

    def test_answers_by_which_a_command_was_done(self):
        """It is sent, once; where nobody knows, it is named, and where it was refused it is not."""
        named = ("line 1: 2026-11-26T22:14:01.000+00:00 clara POST /con/c1/note one: it was not "
                 "sent: nobody knows whether it was done")
        one, office = a_command("one", "/con/c1/note"), {"/progress": "", "/con/c1/note": "{}"}
        for status, sent, said in (
                (200, ["one"], []), (None, [], [named]), (502, [], [named]), (503, [], [named]),
                (504, [], [named]), (500, [], []), (501, [], []), (505, [], []), (202, [], []),
                (400, [], []), (403, [], []), (404, [], []), (409, [], [])):
            with self.subTest(status=status):
                others, last = self.replayed(
                    self.replay(office), one, {"to": 1, "status": status, "answer": ""})
                self.assertEqual((self.posted, others), (sent, said))
                self.assertTrue(last.startswith(
                    f"sent {len(sent)}, to look at {len(said)}; lines 2, the hash of the last "))
        answer = {"to": 1, "status": 200, "answer": None}
        lost = "which is not there: that was done, and cannot be sent"
        self.assertEqual(self.replayed(self.replay(office), one, answer, answer)[0],
                         [f"line 3: it answers line 1, {lost}"])
        self.assertEqual(self.posted, ["one"])
        for status, said in ((200, [f"line 1: it answers line 9, {lost}"]), (409, []), (None, [])):
            self.assertEqual(self.replayed(
                self.replay(office), {"to": 9, "status": status, "answer": ""})[0], said)
        # Its own status says that it was not sent to the office.
        self.assertEqual(self.replayed(self.replay(office), one | {"status": 403})[0], [])

    def test_an_office_that_is_not_named(self):
        """Its commands are named, and sent to no other."""
        lines = []
        for number, office, act in ((1, 1, "note"), (3, 2, "note"), (5, 3, "certify")):
            lines += [a_command(f"{office}", f"/con/c1/{act}") | {"office": office},
                      {"to": number, "status": 200, "answer": "{}"}]
        office = {"/progress": "", "/con/c1/note": "{}"}
        said, last = self.replayed(self.replay(office, office), *lines)
        self.assertEqual((said, last.split(";")[0]), (
            ["line 5: 2026-11-26T22:14:05.000+00:00 clara POST /con/c1/certify 3: office 3 is not "
             "named"], "sent 2, to look at 1"))
        self.assertEqual([(desk, body) for desk, method, _, body in self.asked
                          if method == "POST"], [("desk1", b"1"), ("desk2", b"2")])
        self.assertEqual(self.replayed(self.replay(office, words=(6, None)), *lines)[0], [])

    def test_answers_of_an_office_now(self):
        """Whatever is not 200 is named, another number of rows that are recorded, and another one
        who moves into a seat."""
        def rows(lodged, same, differs, first):
            return json.dumps({"lodged": lodged, "same": same, "differs": differs, "first": first})

        head = "line 1: 2026-11-26T22:14:01.000+00:00 clara POST /con/c1/note one: "
        for then, now, said in (
                ("{}", "{}", None), ("{}", 409, "409 {}"), ("{}", 201, "201 {}"),
                (rows(1, 1, 0, None), rows(1, 1, 0, None), None),
                (rows(1, 1, 0, None), rows(0, 2, 0, None), None),
                (rows(1, 1, 0, None), rows(1, 0, 1, [2, 7]), "200 " + rows(1, 0, 1, [2, 7])),
                ('{"next":"Abel"}', '{"next":"Abel","x":1}', None),
                ('{"next":"Abel"}', '{"next":"Alma"}', '200 {"next":"Alma"}'),
                ('{"next":"Abel"}', "{}", "200 {}")):
            with self.subTest(then=then, now=now):
                it = self.replay({"/progress": "", "/con/c1/note": now})
                self.assertEqual(self.replayed(it, a_command("one", "/con/c1/note"), {
                    "to": 1, "status": 200, "answer": then})[0], [head + said] if said else [])
        with mock.patch.object(tool, "send", lambda *_: (None, "no answer: away")):
            long = a_line("/con/c1/note", "\n" + "é" * 500)
            self.assertEqual(self.printed(it.again, long, "{}")[1], [
                f"line 1: 2026-11-26T22:14:00+00:00 clara POST /con/c1/note \\n{'é' * 499}:  no "
                "answer: away"])

    def test_what_the_record_has_after_an_answer(self):
        """A query was done, may have been, or was refused."""
        lodge = [a_command(json.dumps(LODGED), "/station/s1/lodge"),
                 {"to": 1, "status": 200, "answer": '{"rev":1}'}]
        query = a_command('{"rev":1,"note":""}', "/station/s1/query")
        one, two = (1, "received", P), (2, "queried", P)
        for status, known in ((200, {two}), (504, {one, two}), (None, {one, two}), (409, {one}),
                              (503, {one, two}), (500, {one})):
            with self.subTest(status=status):
                it = self.replay({"/progress": ""})
                self.replayed(it, *lodge, query, {
                    "to": 3, "status": status, "answer": '{"rev":2}'})
                self.assertEqual(it.known.at(STATION), known)
        # The answer is lost; none at all; or it is there before that of the lodge.
        third = {"to": 3, "status": 200, "answer": None}
        for lines, known in (
                ([*lodge, query, third], {two}), ([*lodge, query], {one, two}),
                ([query, lodge[0], {"to": 1, "status": 504, "answer": ""}, lodge[1] | {"to": 2}],
                 {one, two})):
            it = self.replay({"/progress": ""})
            self.replayed(it, *lines)
            self.assertEqual(it.known.at(STATION), known)
        # A body that no office accepts is named, and changes nothing.
        it = self.replay({"/progress": ""})
        said, _ = self.replayed(it, a_command('{"edition":1,"order":[["A"]]}', "/con/c1/draw"),
                                {"to": 1, "status": 502, "answer": ""})
        self.assertEqual(([line.rsplit(": ", 1)[1] for line in said], it.known.states),
                         (["nobody knows whether it was done"], {}))

    def test_a_refusal_and_an_answer_say_what_was_done(self):
        """A lodge without an answer was done, where a close is refused as stale or accepted; an
        answer that is known leaves nothing unsure."""
        lodge = a_command(json.dumps(LODGED), "/station/s1/lodge")
        close, one = a_command('{"rev":1}', "/station/s1/close"), (1, "received", P)
        stale, unknown = '{"word":"stale","now":1}', {"to": 1, "status": 504, "answer": ""}
        for more, wanted in (
                ([unknown, close, {"to": 3, "status": 409, "answer": stale}], {one}),
                ([unknown, close, {"to": 3, "status": 409, "answer": ""}], {ABSENT, one}),
                ([unknown, close, {"to": 3, "status": 400, "answer": stale}], {ABSENT, one}),
                ([close, {"to": 2, "status": 200, "answer": "{}"}], {(2, "closed", P)}),
                ([unknown, close, {"to": 3, "status": 200, "answer": "{}"}], {(2, "closed", P)}),
                ([{"to": 1, "status": 409, "answer": ""}, close,
                  {"to": 3, "status": 200, "answer": '{"rev":2}'}], {(2, "closed", None)})):
            with self.subTest(more=more):
                it = self.replay({"/progress": ""})
                self.replayed(it, lodge, *more)
                self.assertEqual(it.known.at(STATION), wanted)

    def test_a_command_that_is_not_sent_over_something_else(self):
        """And a file whose answer cannot be so."""
        lines = [a_command(json.dumps(LODGED), "/station/s1/lodge"),
                 {"to": 1, "status": 200, "answer": '{"rev":1}'},
                 a_command('{"rev":1}', "/station/s1/close"),
                 {"to": 3, "status": 200, "answer": '{"rev":2}'}]
        office = {"/progress": "", "/station/s1/lodge": '{"rev":1}', "/station/s1/close": "{}",
                  "/station/s1": {"rev": 1, "status": "received", **SECOND}}
        left = "station s1: the office has something else than line 3 left"
        head = ("line 3: 2026-11-26T22:14:03.000+00:00 clara POST /station/s1/close "
                '{"rev":1}: it was not sent: the office has something else than line 1')
        for words, said, sent in (((0, None), [head, left], 1), ((2, None), [head, left], 0),
                                  ((4, None), [left], 0)):
            with self.subTest(words=words):
                it = self.replay(office, words=words)
                self.assertEqual((self.replayed(it, *lines)[0], len(self.posted)), (said, sent))
        it = self.replay({"/progress": "", "/con/c1/import": "{}"})
        it.known = tool.Known([], True)
        file = a_command(f"{HEADER}s1,p1,0,0,1,2\n")
        self.assertEqual([line.rsplit(": ", 1)[1] for line in self.replayed(
            it, file, {"to": 1, "status": 200, "answer": "{}"})[0]], [
                "nobody knows which of them it recorded"])

    def test_answers_before_a_line_or_a_moment(self):
        """They are not sent again: up to this line, or of an earlier moment."""
        lines, office = [], {"/progress": ""}
        for place in (1, 3, 5):
            office[f"/con/c{place}/note"] = "{}"
            lines += [a_command(f"{place}", f"/con/c{place}/note"),
                      {"to": place, "status": 200, "answer": ""}]
        left = ("left out by their time: {} that were done. The answer to the last is line {}, of "
                "2026-11-26T22:14:0{}.000+00:00: does the copy have it?")
        for words, sent, said in (
                ((0, None), ["1", "3", "5"], []), ((1, None), ["1", "3", "5"], []),
                ((2, None), ["3", "5"], []), ((5, None), ["5"], []), ((6, None), [], []),
                ((0, MOMENT.replace(second=2)), ["1", "3", "5"], []),
                ((0, MOMENT.replace(second=3)), ["3", "5"], [left.format(1, 2, 2)]),
                ((0, MOMENT.replace(second=5)), ["5"], [left.format(2, 4, 4)]),
                ((0, MOMENT.replace(second=7)), [], [left.format(3, 6, 6)])):
            with self.subTest(words=words):
                said_now, _ = self.replayed(self.replay(office, words=words), *lines)
                self.assertEqual((self.posted, said_now), (sent, said))
        # What was refused or is not known is not counted, and what is lost not named.
        for status, answers in ((409, 1), (504, 1), (200, 9)):
            it = self.replay(office, words=(0, MOMENT.replace(second=7)))
            said = self.replayed(it, lines[0], {"to": answers, "status": status, "answer": ""})[0]
            self.assertEqual(said, [left.format(1, 2, 2)] if status == 200 else [])


class Ends(ByHand):
    def ended(self, words, *lines, shown=None):
        """The lines of a check of a record with these words."""
        return self.replayed(self.replay(words=words, shown=shown), *lines)[0]

    def test_the_end_of_a_record(self):
        """A command without an answer is named, of the moment that is asked for or later; and a
        line after which there is nothing may be the last one."""
        moment = MOMENT.replace(second=1)
        unknown = ["line 1: 2026-11-26T22:14:01.000+00:00 clara POST /con/c1/import {}: it was not "
                   "sent: nobody knows whether it was done"]
        missing = ["line 2: it is not there: this record lacks its end, or the copy is another's"]
        command, later = a_command("{}"), moment.replace(second=2)
        done = [command, {"to": 1, "status": 200, "answer": ""}]
        for words, lines, said in (
                ((0, None), [command], unknown), ((0, moment), [command], unknown),
                ((0, later), [command], []), ((1, None), [command], unknown),
                ((0, MOMENT.replace(second=7)), done, []), ((0, None), done, []),
                ((2, None), [command], unknown + missing),
                ((1, None), [command | {"status": 403}], []),
                ((2, None), [command | {"status": 403}], missing)):
            with self.subTest(words=words, lines=lines):
                self.assertEqual(self.ended(words, *lines), said)
        last = self.replayed(self.replay(), command)[1]
        digest = hashlib.sha256(chained(command).rstrip(b"\n")).hexdigest()
        self.assertEqual(last, f"to look at 1; lines 1, the hash of the last {digest}")

    def test_a_clock_that_was_put_back(self):
        """A line of the same moment as the one before says nothing of that."""
        since = datetime(2026, 11, 26, tzinfo=UTC)
        times = [{"time": f"2026-11-26T22:14:{second:02}+00:00", "status": 403}
                 for second in (1, 1, 0)]
        lines = [a_command("{}") | time for time in times]
        self.assertEqual(self.ended((0, since), *lines[:2]), [])
        self.assertEqual(self.ended((0, None), *lines), [])
        said = self.ended((0, since), *lines, lines[0], lines[2])
        self.assertEqual([line[:43] for line in said],
                         ["line 3: the clock was put back before it. W"])

    def test_lines_that_are_not_as_they_were_written(self):
        """Each is named once; also where another was shown, or one that is not there."""
        command = a_command("{}") | {"status": 403}
        digests = [hashlib.sha256(line).hexdigest() for line in chained(
            command, command | {"n": 7}, b"cut", command).splitlines()]
        is_not = "not as it was written, or one before it: its number is"
        for shown, said in (
                ({}, []), ({1: {digests[0]}, 4: {digests[3]}}, []),
                ({1: {digests[1]}}, ["line 1: another one was shown"]),
                ({4: {digests[3], "00"}}, ["line 4: another one was shown"]),
                ({6: {"00"}, 5: {"00"}}, ["line 5: it was shown, and is not there",
                                          "line 6: it was shown, and is not there"])):
            lines = [f"line 2: {is_not} 7", "line 3: not a line of a record: cut", *said]
            with self.subTest(shown=shown):
                found = self.ended((0, None), command, command | {"n": 7}, b"cut", command,
                                   shown=shown)
                self.assertEqual(sorted(found), sorted(lines))
        it = self.replay()
        record = chained(command, command, command).splitlines()
        self.assertEqual(self.printed(lambda: [it.take(line) for line in record[::2]])[1], [
            f"line 2: {is_not} 3, and it is not after the line before it"])
        body = chained(command | {"body": 5}).rstrip(b"\n")
        for line in (b"x\xff" * 101, b"[" * 20_000, b"5", b"{}", body):
            shown = line[:200].decode(errors="backslashreplace")
            self.assertEqual(self.ended((0, None), line), [
                f"line 1: not a line of a record: {shown}"])

    def test_the_setup_of_a_record_is_in_its_first_line(self):
        """A later one says nothing, and is named."""
        command = a_command("{}") | {"status": 403}
        it = self.replay({"/progress": ""})
        it.setup.is_sent = True
        self.assertRaises(tool.OtherSetup, it.take, chained({"setup": "5e"}).rstrip(b"\n"))
        it = self.replay({"/progress": ""})
        it.setup.is_sent = True
        self.assertEqual(self.replayed(it, command, {"n": 1, "setup": "5e"})[0], [
            "line 2: not as it was written, or one before it: its number is 1"])
