"""The recorder's functions at their edges: what it records, answers and sends, and how long it
waits. Nothing is started.
"""

import contextlib
import grp
import hashlib
import io
import json
import os
import re
import socket
import sys
import threading
from datetime import UTC, datetime, timedelta
from pathlib import Path
from types import SimpleNamespace
from unittest import mock

from tests.support.case import Case
from tests.support.desks import answer_of, desk_with
from tests.support.record import chained
from tests.support.scripts import loaded

MOMENT = datetime(2026, 11, 29, 22, 14, 37, 500_000, UTC)
SETUP = [{"code": "c1", "stations": [{"code": "s1"}, {"code": "s2"}]},
         {"code": "c2", "stations": [{"code": "t1"}]}]


class OfARecorder(Case):
    """A test that has the module for itself, and prints no line of the record."""

    def setUp(self):
        super().setUp()
        self.recorder = loaded("recorder.py")
        self.recorder.sys = SimpleNamespace(stdout=self.enterContext(open(os.devnull, "wb")),
                                            stderr=io.StringIO(), maxsize=sys.maxsize,
                                            exit=sys.exit)

    def clocked(self):
        """A clock that moves while somebody waits, and how long each waited."""
        clock, waited = [1000.0], []

        def sleep(seconds):
            waited.append(seconds)
            clock[0] += seconds

        self.recorder.time = SimpleNamespace(monotonic=lambda: clock[0], sleep=sleep)
        return clock, waited

    def at(self, moment):
        class Clock(datetime):
            @classmethod
            def now(cls, tz=None):
                return moment

        self.recorder.datetime = Clock

    def lines(self):
        return [json.loads(line) for line in Path("commands.log").read_bytes().splitlines()]


class Records(OfARecorder):
    def test_what_was_shown(self):
        """The first line names the columns; a row that is cut, or has no number, says nothing."""
        shown, one, other = self.recorder.read_shown, "a" * 64, "b" * 64
        self.assertEqual((shown(None), shown("record.csv")), ({}, {}))
        rows = [f"t,7,{one}", f"t,1,{one}", f"t,2,{one}", f"t,2,{other}", f"t,0,{one}",
                f"t,3,{one[1:]}", f"t,999999999999999,{one}", f"t,1000000000000000,{one}", "t,4"]
        Path("record.csv").write_text("\n".join(rows), encoding="utf-8")
        self.assertEqual(shown("record.csv"),
                         {1: {one}, 2: {one, other}, 999_999_999_999_999: {one}})
        Path("link.csv").symlink_to("nowhere")
        self.assertRaises(OSError, shown, "link.csv")

    def test_how_long_what_was_shown_may_be(self):
        with open("record.csv", "wb") as file:
            file.truncate(67_108_864)
        self.assertEqual(self.recorder.read_shown("record.csv"), {})
        os.truncate("record.csv", 67_108_865)
        with self.assertRaisesRegex(ValueError, "no file of at most 67108864 bytes"):
            self.recorder.read_shown("record.csv")

    def test_the_setup_of_a_record(self):
        """Nothing is added to that of another setup. One that names none is gone on with."""
        own = self.recorder.Setup("a" * 64, {})
        for lines, setup, is_taken in (
                ([], own, True), ([{"setup": "a" * 64}, {}], own, True), ([{}], own, True),
                ([{"setup": "b" * 64}, {}], own, False), ([{"setup": "b" * 64}], None, True),
                ([{}, {"setup": "b" * 64}], own, True),
                ([{"setup": "b" * 64}, {"setup": "a" * 64}], own, False)):
            with self.subTest(lines=lines, setup=setup):
                Path("commands.log").write_bytes(chained(*lines))
                record = self.recorder.Record("commands.log", 0, setup)
                said = f"commands.log is the record of another setup, whose hash is {'b' * 64}"
                self.assertEqual(record.fault, None if is_taken else said)
                self.assertEqual(record.head().get("fault"), record.fault)
                if not is_taken:
                    self.assertRaisesRegex(OSError, said, record.add, {"path": "/con/c1/draw"})
                    continue
                number = record.add({"path": "/con/c1/draw"})
                # A new record begins with its setup, where that is known.
                self.assertEqual(number, len(lines) + 1 + (not lines))
                self.assertEqual([line["n"] for line in self.lines()],
                                 list(range(1, number + 1)))
                if not lines:
                    self.assertEqual(self.lines()[0]["setup"], "a" * 64)

    def test_room_on_the_disk(self):
        """As many bytes as are to be left, and the line: one less, and nothing is recorded."""
        entry = {"path": "/station/s1/close"}
        line, _ = self.recorder.Record("other.log", 0).write(entry, MOMENT)
        most = 4096 + len(line) + 1
        for free, is_written in ((most, True), (most - 1, False)):
            with self.subTest(free=free):
                Path("commands.log").unlink(missing_ok=True)
                record = self.recorder.Record("commands.log", 4096)
                disk = SimpleNamespace(f_bavail=free, f_frsize=1)
                with mock.patch.object(self.recorder.os, "statvfs", lambda _: disk):
                    if is_written:
                        record.write(entry, MOMENT)
                    else:
                        self.assertRaisesRegex(OSError, "less than 4096 bytes are left",
                                               record.write, entry, MOMENT)
                self.assertEqual(len(self.lines()), is_written)

    def test_the_hour_of_those_who_typed(self):
        """Sixty minutes, of which the last one is not over."""
        self.at(MOMENT)
        found = self.recorder.Record("commands.log", 0).typed("c1")
        # (in the hour zone of the computer, without parts of a second)
        moment = datetime(2026, 11, 29, 21, 15, tzinfo=UTC).astimezone()
        self.assertEqual(found, {"con": "c1", "since": moment.isoformat(), "names": []})

    def test_a_line_of_each_length(self):
        """A history has what was sent of lines of up to 65,535 bytes."""
        record = self.recorder.Record("commands.log", 0)
        entry = {"name": "clara", "role": "clerk", "path": "/station/s1/lodge", "body": ""}
        record.add(entry)
        bare = Path("commands.log").stat().st_size
        for length in (65_535, 65_536, 65_537):
            record.add(entry | {"body": "x" * (length - bare)})
        bodies = [one.get("body") for one in record.history("s1")["commands"]]
        self.assertEqual(bodies, ["", "x" * (65_535 - bare), None, None])
        self.assertEqual(record.history("s1", False)["commands"][0].get("body"), None)

    def test_the_last_name_that_waits_is_the_first_one(self):
        """Where two wait, since the first of them was not of the board for a while."""
        staff = Path("staff.conf")
        record = self.recorder.Record("commands.log", 0, names=staff)
        entry = {"office": 1, "path": "/con/c1/draw", "body": "{}"}
        for name, board, wanted in (("berta", ("berta", "simon"), {"status": 202}),
                                    ("simon", ("simon",), {"status": 202}),
                                    ("carla", ("berta", "simon", "carla"), {"first": 2})):
            staff.write_text("".join(f"{one} board;\n" for one in board), encoding="utf-8")
            number, answer = record.add_of_board(entry | {"name": name})
            self.assertEqual({key: value for key, value in self.lines()[number - 1].items()
                              if key in ("first", "status")}, wanted)
            self.assertEqual(answer is None, "first" in wanted)

    def test_a_first_name_is_of_the_board_of_that_constituency(self):
        staff = Path("staff.conf")
        staff.write_text('bea "board c2";\nberta board;\n', encoding="utf-8")
        for con, wanted in (("c1", [202, 202]), ("c2", [202, None])):
            with self.subTest(con=con):
                record = self.recorder.Record(f"{con}.log", 0, names=staff)
                entry = {"office": 1, "path": f"/con/{con}/draw", "body": "{}"}
                answers = [record.add_of_board(entry | {"name": name})[1]
                           for name in ("bea", "berta")]
                self.assertEqual([one and one.status for one in answers], wanted)

    def test_what_is_said_to_a_name_that_waits(self):
        """For an hour; of those who were too early the last five."""
        moment = MOMENT.replace(microsecond=0)
        early = [(f"n{number}", moment + timedelta(minutes=number), "return")
                 for number in range(7)]
        found = self.recorder.waits(moment, [("ana", moment, "draw", "{}")], early)
        said = json.loads(found.body)
        self.assertEqual((found.status, said["word"], said["until"]),
                         (202, "waits_for_second_name", "2026-11-29T23:14:37+00:00"))
        self.assertEqual(said["others"], [{"name": "ana", "time": "2026-11-29T22:14:37+00:00",
                                           "act": "draw", "body": "{}"}])
        self.assertEqual([one["name"] for one in said["too_early"]],
                         ["n2", "n3", "n4", "n5", "n6"])
        self.assertEqual(said["too_early"][0], {
            "name": "n2", "time": "2026-11-29T22:16:37+00:00", "changed": "return"})


class Asked(OfARecorder):
    """An office that a command is sent to."""

    def test_what_the_office_gets(self):
        """A request of GET ends the connection, and has no body; a command says its length."""
        asked = []

        def answered(*message):
            asked.append(message)
            return answer_of((202, "ñ"))

        with desk_with(answered) as port:
            desk = self.recorder.Desk(f"127.0.0.1:{port}")
            found = [desk.ask("GET", "/progress"), desk.ask("POST", "/con/c1/draw", b"{}"),
                     desk.ask("POST", "/station/s1/close", b"")]
        self.assertEqual(asked, [
            (b"GET /progress HTTP/1.1\r\nHost: office\r\nConnection: close", b""),
            (b"POST /con/c1/draw HTTP/1.1\r\nHost: office\r\nContent-Length: 2", b"{}"),
            (b"POST /station/s1/close HTTP/1.1\r\nHost: office\r\nContent-Length: 0", b"")])
        self.assertEqual(found, 3 * [(202, "ñ".encode(), "text/plain; charset=utf-8", False)])

    def asked(self, method, *answers):
        """The answer to a request to which an office gives these answers in turn, how often it was
        sent and how long each next time was waited for."""
        _, waited = self.clocked()
        desk, left = self.recorder.Desk("127.0.0.1:1"), list(answers)

        def once(*_):
            found = left.pop(0)
            if found is TimeoutError:
                raise found
            return found if found is None else self.recorder.Answer(found or None)

        desk.ask_once = once
        found = desk.ask(method, "/con/c1/draw", b"{}")
        return found.status, found.again, len(answers) - len(left), waited

    def test_how_often_it_is_asked(self):
        """Five times where it ends without an answer (0 here), each time after twice as long. Who
        is refused then, was perhaps refused since it was done. None is an office that nobody
        reaches."""
        waited = [0.1, 0.2, 0.4, 0.8, 1.6]
        for method, answers, wanted in (
                ("POST", (200, 9), (200, False, 1)), ("POST", (409, 9), (409, False, 1)),
                ("POST", (0, 200, 9), (200, True, 2)), ("GET", (0, 200, 9), (200, True, 2)),
                ("POST", (0, 0, 0, 0, 200, 9), (200, True, 5)),
                ("POST", (0, 0, 0, 0, 0, 200), (None, False, 5)),
                ("POST", (0, 409, 9), (None, False, 2)), ("GET", (0, 404, 9), (404, True, 2)),
                ("POST", (0, 201, 9), (None, False, 2)), ("POST", (None, 9), (502, False, 1)),
                ("POST", (0, None, 9), (None, False, 2)),
                ("POST", (TimeoutError, 9), (504, False, 1))):
            with self.subTest(method=method, answers=answers):
                found = self.asked(method, *answers)
                self.assertEqual(found[:3], wanted)
                self.assertEqual(found[3], waited[:answers[:found[2]].count(0)])

    def test_how_long_an_office_is_waited_for(self):
        """A minute where it takes no connection, or as long as is said; five minutes for an
        answer."""
        tried, timeouts = [], []

        class Refused:
            def __init__(self, host, port, timeout):
                tried.append((host, port, timeout))

            def connect(self):
                if len(tried) < self.listens_after:
                    raise ConnectionRefusedError
                self.sock = SimpleNamespace(settimeout=timeouts.append)

            def close(self):
                pass

        for words, wait, after, seconds, wanted in (
                ((), 60, 10**6, 60, 300), ((), 7, 10**6, 7, 300), ((5,), 0, 10**6, 0, 5),
                ((5,), 60, 1, 0, 5)):
            with self.subTest(wait=wait, after=after):
                tried.clear()
                clock, _ = self.clocked()
                Refused.listens_after = after
                with mock.patch.object(self.recorder.http.client, "HTTPConnection", Refused):
                    desk = self.recorder.Desk("[::1]:8080", *words)
                    wait = self.recorder.WAIT if wait == 60 else wait
                    found = desk.connected(wait)
                self.assertEqual(found is None, after > 1)
                self.assertEqual(set(tried), {("[::1]", 8080, wanted)})
                self.assertAlmostEqual(clock[0] - 1000, seconds, delta=0.11)
        # Once it listens, an answer may take as long as ever.
        self.assertEqual(timeouts, [300])


class Answered(OfARecorder):
    """Requests of the proxy."""

    def setUp(self):
        super().setUp()
        self.sent, self.ways = [], []
        stations = {"s1": "c1", "s2": "c1", "t1": "c2"}
        setup = self.recorder.Setup("a" * 64, stations)
        self.record = self.recorder.Record("commands.log", 0, setup)
        self.said = self.recorder.Answer(200, b'{"ok":"lodged","rev":1}')

    def ask(self, method, path, body=b""):
        self.sent.append((method, path, body))
        return self.said

    @contextlib.contextmanager
    def another(self):
        self.ways.append("another")
        yield

    def passed(self, name, act):
        self.ways.append(name)
        return act()

    def given(self, method, path, body=b"{}", name="clara", role="clerk", allowed="1", two=False,
              once=None):
        """The answer to a request, what the office was sent, and what was recorded."""
        self.sent.clear()
        self.ways.clear()
        before = len(self.lines())
        desk = SimpleNamespace(ask=self.ask, files=self, lock=threading.Lock())
        one = self.recorder.Recorder(self.record, desk, 2, self.recorder.Limit(), two)
        fields = {"office-name": name, "office-role": role, "office-address": "192.0.2.1",
                  "office-allowed": allowed} | ({} if once is None else {"office-once": once})
        found = one.answered(method, path, fields, body)
        lines = [{key: value for key, value in line.items()
                  if key not in ("time", "salt", "before")} for line in self.lines()[before:]]
        return found, list(self.sent), lines

    def test_commands(self):
        """A file waits for its turn. A command that a role may not give is recorded, and answered;
        of a trial nothing is."""
        paths = {"/station/s1/lodge": "another", "/con/c1/draw": "another",
                 "/con/c1/import": "clara", "/con/c1/import/semicolon": "clara"}
        number = 1
        for path, way in paths.items():
            with self.subTest(path=path):
                entry = {"name": "clara", "role": "clerk", "address": "192.0.2.1", "office": 2,
                         "method": "POST", "path": path}
                found, sent, lines = self.given("POST", path, b"x")
                self.assertEqual((found, sent), (self.said, [("POST", path, b"x")]))
                self.assertEqual(lines[-2:], [
                    {"n": number + 1} | entry | {"body": "x"},
                    {"n": number + 2, "to": number + 1, "status": 200,
                     "answer": '{"ok":"lodged","rev":1}'}])
                self.assertEqual(self.ways, [way])
                for allowed in ("0", ""):
                    found, sent, lines = self.given("POST", path, b"xyz", allowed=allowed)
                    self.assertEqual((found.status, sent, self.ways), (403, [], ["another"]))
                    number += 1
                    self.assertEqual(lines, [{"n": number + 2} | entry
                                             | {"bytes": 3, "status": 403}])
                number += 2
        for path in ("/con/c1/trial", "/con/c1/trial/semicolon"):
            with self.subTest(path=path):
                self.assertEqual(self.given("POST", path, b"x"),
                                 (self.said, [("POST", path, b"x")], []))
                self.assertEqual(self.ways, ["clara"])
                found, sent, lines = self.given("POST", path, b"x", allowed="0")
                self.assertEqual((found.status, sent, lines), (403, [], []))

    def test_what_was_sent_again_and_what_is_no_text(self):
        self.said = self.recorder.Answer(200, b"\xff", again=True)
        found, _, lines = self.given("POST", "/station/s1/lodge", b"\xfe")
        self.assertEqual((found.status, lines[-2]["body_base64"]), (200, "/g=="))
        self.assertEqual(lines[-1], {"n": 3, "to": 2, "status": 200, "again": True,
                                     "answer_base64": "/w=="})

    def test_a_command_that_a_browser_sends_again(self):
        """It is recorded and done once, and has the answer of the first, unless nobody knows by
        that whether it was done. Another name, path, body or text of the page makes another
        command."""
        def times(answer, path="/station/s1/lodge", **words):
            """How often it was done, and how many lines it left, and then a second time."""
            self.said = answer
            first, *done = self.given("POST", path, **words)
            self.said = self.recorder.Answer(200, b"other")
            again, *more = self.given("POST", path, **words)
            return first == again, *map(len, [*done, *more])

        accepted, refused = self.said, self.recorder.Answer(409, b'{"word":"stale"}')
        self.record.add({"path": "/station/s1/lodge"})
        for answer, words in ((accepted, {}), (accepted, {"once": ""})):
            self.assertEqual(times(answer, **words), (False, 1, 2, 1, 2))
        for answer, words in (
                (accepted, {"once": "1"}), (accepted, {"once": "2"}),
                (accepted, {"once": "1", "name": "bruno"}), (accepted, {"once": "1", "body": b""}),
                (accepted, {"once": "1", "path": "/station/s1/close"}),
                (refused, {"once": "3"})):
            with self.subTest(words=words, answer=answer):
                self.assertEqual(times(answer, **words), (True, 1, 2, 0, 0))
        for status in (None, 502, 503, 504):
            with self.subTest(status=status):
                self.assertEqual(times(self.recorder.Answer(status), once="4"), (False, 1, 2, 1, 2))
                self.record.once.kept.clear()
        self.assertEqual(times(accepted, once="5", allowed="0"), (True, 0, 1, 0, 0))
        self.assertEqual(times(accepted, "/con/c1/import", once="6"), (True, 1, 2, 0, 0))
        # A trial, which is not recorded, is done again.
        self.assertEqual(times(accepted, "/con/c1/trial", once="6"), (False, 1, 0, 1, 0))
        # Of the board: the first name does not wait twice, and the second is not a first one then.
        draw = {"path": "/con/c1/draw", "role": "board", "two": True, "once": "7"}
        self.assertEqual(times(accepted, name="berta", **draw), (True, 0, 1, 0, 0))
        self.assertEqual(times(accepted, name="simon", **draw), (True, 1, 2, 0, 0))
        self.assertEqual(self.record.waiting.requests, {})

    def test_other_methods(self):
        for method, path in (("PUT", "/station/s1/lodge"), ("GET", "/station/s1/lodge"),
                             ("HEAD", "/history/s1"), ("GET", "/progress")):
            with self.subTest(method=method, path=path):
                found, sent, lines = self.given(method, path)
                self.assertEqual((found.status, sent, lines), (405, [], []))

    def test_a_disk_that_is_full(self):
        self.record.room = 1 << 62
        found, sent, lines = self.given("POST", "/station/s1/lodge")
        self.assertEqual((found.status, found.body, sent, lines),
                         (503, b'{"word": "unavailable"}', [], []))
        self.assertIn("not recorded, and not done: clara POST /station/s1/lodge: less than ",
                      self.recorder.sys.stderr.getvalue())

    def test_an_answer_that_is_not_recorded(self):
        """It is given. Nobody knows after a start what was done, and nobody does now."""
        taken, add = [], self.record.add
        self.record.take_of_board = taken.append

        def added(entry):
            if "to" in entry:
                raise OSError("full")
            return add(entry)

        self.record.add = added
        self.assertEqual(self.given("POST", "/station/s1/lodge")[0].status, 200)
        self.assertEqual(taken[-1], {"to": 2, "status": None})
        self.assertEqual(self.recorder.sys.stderr.getvalue(),
                         "the answer to 2 is not recorded: full\n")

    def test_histories(self):
        """In letters as they are; to a role that sees no figures without what was sent."""
        self.given("POST", "/station/s1/lodge", "ñ".encode(), name="ñuño")
        for role, body in (("clerk", "ñ"), ("board", "ñ"), ("second", None)):
            with self.subTest(role=role):
                found, sent, lines = self.given("GET", "/history/s1", role=role)
                self.assertEqual((found.status, sent, lines), (200, [], []))
                said = json.loads(found.body)
                self.assertEqual((said["station"], said["whole"]), ("s1", True))
                [one] = said["commands"]
                self.assertEqual((one["name"], one["act"], one.get("body")),
                                 ("ñuño", "lodge", body))
                self.assertIn("ñuño".encode(), found.body)
        self.assertEqual(self.given("GET", "/history/s1", allowed="0")[0].status, 403)
        self.assertEqual(json.loads(self.given("GET", "/history/s1/x")[0].body)["station"],
                         "s1/x")
        with self.record.reading.places.taken("clara"), self.record.reading.places.taken("clara"):
            self.assertEqual(self.given("GET", "/history/s1")[0].status, 429)

    def test_who_typed(self):
        """The board sees each name, and another name its own."""
        for name in ("clara", "bruno", "bruno"):
            self.given("POST", "/station/s1/lodge", name=name)
        for role, wanted in (("board", ["bruno", "clara"]), ("clerk", ["clara"]),
                             ("second", ["clara"])):
            with self.subTest(role=role):
                found, sent, lines = self.given("GET", "/typed/c1", role=role)
                self.assertEqual((found.status, sent, lines), (200, [], []))
                self.assertEqual([row["name"] for row in json.loads(found.body)["names"]], wanted)
        self.assertEqual(self.given("GET", "/typed/c1", allowed="0")[0].status, 403)

    def test_acts_of_the_board(self):
        """With two names the first one waits; with one, and of other acts, none does."""
        path = "/con/c1/draw"
        for name, two, status, sent in (("berta", False, 200, 1), ("berta", True, 202, 0),
                                        ("berta", True, 202, 0), ("simon", True, 200, 1)):
            with self.subTest(name=name, two=two):
                found = self.given("POST", path, name=name, role="board", two=two)
                self.assertEqual((found[0].status, len(found[1])), (status, sent))
        self.assertEqual(self.given("POST", "/station/s1/lodge", two=True)[0].status, 200)

    def test_an_office_that_has_to_say_what_it_has(self):
        """Before the first name waits, where it may still do a command of before: it is asked, and
        where it says nothing the line of the request says so itself."""
        for status, wanted in ((200, 202), (201, 502), (404, 502), (502, 502), (503, 503),
                               (504, 504), (None, 502)):
            with self.subTest(status=status):
                self.record.waiting.unsettled.add(2)
                self.said = self.recorder.Answer(status)
                found, sent, lines = self.given("POST", "/con/c1/draw", role="board", two=True)
                self.assertEqual((found.status, sent), (wanted, [("GET", "/progress", b"")]))
                self.assertEqual(lines[-1]["status"], wanted)
                self.assertEqual(2 in self.record.waiting.unsettled, status != 200)


class FilesInTurn(OfARecorder):
    def test_one_at_a_time(self):
        """Another one waits while a file is under way, and looks often whether it is its turn."""
        clock, _ = self.clocked()
        files, seen = self.recorder.Files(), []

        def act():
            with files.another():
                clock[0] += 2
            for name in ("bruno", "clara"):
                files.waiting.append(self.recorder.File(name))
                seen.append(files.wait(files.waiting[-1]))

        files.passed("clara", act)
        self.assertEqual(seen, [0.02, 0.02])
        # Six seconds are left to others, of which two and a half are over.
        clock[0] += 2.5
        bruno, clara = files.waiting
        self.assertEqual([files.wait(bruno), files.wait(clara)], [0.02, 0.02])
        clock[0] += 3.51
        self.assertEqual([files.wait(clara), files.wait(bruno)], [0.02, None])
        self.assertEqual(files.wait(clara), 0.02)


class OverASocket(OfARecorder):
    def exchanged(self, request, answered):
        """The answer to a client that sends this, and ends."""
        ours, theirs = socket.socketpair()
        with ours, theirs:
            ours.sendall(request)
            ours.shutdown(socket.SHUT_WR)
            server = SimpleNamespace(answered=answered)
            try:
                self.recorder.Handler(theirs, ("", 0), server)
            finally:
                theirs.close()
            return ours.recv(65_536)

    def test_a_message_and_its_answer(self):
        asked = []

        def answered(method, path, fields, body):
            asked.append((method, path, fields["Office-Name"], body))
            return self.recorder.Answer(*self.answer)

        for answer, line, kind in (((200, b"{}"), b"200 OK", b"application/json"),
                                   ((404, b"", "text/plain"), b"404 Not Found", b"text/plain"),
                                   ((None,), b"502 Bad Gateway", b"application/json")):
            with self.subTest(answer=answer):
                self.answer, body = answer, answer[1] if len(answer) > 1 else b""
                found = self.exchanged(b"POST /a HTTP/1.0\r\nOffice-Name: clara\r\n"
                                       b"Content-Length: 3\r\n\r\nxyz", answered)
                self.assertEqual(found, b"HTTP/1.1 %s\r\nContent-Type: %s\r\nContent-Length: %d"
                                        b"\r\nConnection: close\r\n\r\n%s"
                                 % (line, kind, len(body), body))
        self.exchanged(b"GET /b HTTP/1.0\r\nOffice-Name: bruno\r\n\r\n", answered)
        self.assertEqual(asked, 3 * [("POST", "/a", "clara", b"xyz")]
                         + [("GET", "/b", "bruno", b"")])

    def test_nothing_is_written_after_an_answer_without_a_body(self):
        """The proxy has all of it, and closes: it was answered, and nothing is said of it."""
        for body, parts in ((b"", 1), (b"{}", 2)):
            ours, theirs = socket.socketpair()
            with ours, theirs:
                ours.sendall(b"GET /b HTTP/1.0\r\n\r\n")
                written = []
                one = SimpleNamespace(makefile=theirs.makefile, settimeout=theirs.settimeout,
                                      sendall=written.append)
                self.recorder.Handler(one, ("", 0), SimpleNamespace(
                    answered=lambda *_: self.recorder.Answer(403, body)))
                self.assertEqual(len(written), parts)

    def test_a_message_that_was_cut(self):
        with self.assertRaisesRegex(OSError, "a message that was cut"):
            self.exchanged(b"POST /a HTTP/1.0\r\nContent-Length: 4\r\n\r\nxyz", None)

    def test_who_is_served(self):
        """One after the other, whatever was wrong with the one before."""
        served, said = [], io.StringIO()

        class Listener:
            def __init__(self):
                self.left = iter(range(3))

            def accept(self):
                return contextlib.nullcontext(), next(self.left)

        def handled(_, address, server):
            served.append((address, server))
            raise ValueError(f"of {address}")

        self.recorder.Handler, self.recorder.sys.stderr = handled, said
        self.assertRaises(StopIteration, self.recorder.serve, Listener(), "a server")
        self.assertEqual(served, [(number, "a server") for number in range(3)])
        self.assertEqual(said.getvalue().splitlines(), [
            f"no answer: ValueError('of {number}')" for number in range(3)])

    def test_a_socket(self):
        """It takes the place of one that was left; its owner stays, its group is the proxy's."""
        given, group = [], grp.getgrgid(os.getgid())
        for number in range(2):
            with mock.patch.object(self.recorder.os, "chown", lambda *how: given.append(how)):
                self.recorder.listen(Path("1.sock"), group.gr_name).close()
        self.assertEqual(given, 2 * [(Path("1.sock"), -1, group.gr_gid)])
        self.addCleanup(os.umask, os.umask(0o027))
        self.recorder.listen(Path("2.sock"), None).close()
        # What is written afterwards has the modes of before.
        self.assertEqual((len(given), os.umask(0o027)), (2, 0o027))

    def test_the_head(self):
        """It is written where the record has a new line, which the disk has then, and looked for
        once a second."""
        heads, done = [1, 1, 2, 2], []

        def slept(seconds):
            done.append(seconds)
            heads.pop(0)
            if not heads:
                raise KeyboardInterrupt

        self.recorder.time = SimpleNamespace(sleep=slept)
        record = SimpleNamespace(head=lambda: {"n": heads[0]}, sync=lambda: done.append("synced"))
        self.assertRaises(KeyboardInterrupt, self.recorder.show_head, Path.cwd(), record)
        self.assertEqual(done, ["synced", 1, 1, "synced", 1, 1])
        self.assertEqual(Path("head").read_text(encoding="utf-8"), '{"n": 2}\n')
        self.assertEqual([file.name for file in Path().iterdir()], ["head"])


class Started(OfARecorder):
    def started(self, *words):
        """The record of a recorder that these words start: its sockets, threads and desks."""
        sockets, threads, records = [], [], []

        class Thread:
            def __init__(self, target, args, daemon):
                threads.append((target, *args, daemon))

            def start(self):
                pass

        self.recorder.fcntl = SimpleNamespace(LOCK_EX=2, LOCK_NB=4,
                                              flock=lambda file, _: os.close(file))
        self.recorder.listen = lambda file, group: sockets.append((str(file), group)) or file
        self.recorder.threading = SimpleNamespace(Thread=Thread, Lock=threading.Lock)
        self.recorder.show_head = lambda folder, record: records.append((str(folder), record))
        with mock.patch.object(sys, "argv", ["recorder.py", *words]):
            self.recorder.main()
        [(folder, record)] = records
        self.assertEqual({(one[0], one[-1]) for one in threads}, {(self.recorder.serve, True)})
        served = [(str(listener), one.desk.address, one.office, one.two_of_board)
                  for _, listener, one, _ in threads]
        return folder, record, sockets, served

    def test_without_more_words(self):
        """One office, at the usual port; 256 MB are left on the disk of the record."""
        for _ in range(2):
            folder, record, sockets, served = self.started("a/b", "commands.log")
        self.assertEqual((folder, str(record.file), record.room, record.setup, record.names),
                         ("a/b", "commands.log", 268_435_456, None, None))
        self.assertEqual(sockets, [("a/b/1.sock", None)])
        self.assertEqual(served, 64 * [("a/b/1.sock", ("127.0.0.1", 8080), 1, False)])
        self.assertEqual(self.recorder.sys.stderr.getvalue(), "")

    def test_its_help(self):
        with mock.patch.object(sys, "argv", ["recorder.py", "--help"]), \
                contextlib.redirect_stdout(io.StringIO()) as printed:
            self.assertRaises(SystemExit, self.recorder.main)
        about = "Passes commands from the proxy to the office, each recorded on the disk before"
        self.assertIn(about, " ".join(printed.getvalue().split()))

    def test_two_offices(self):
        Path("setup.json").write_text(json.dumps(SETUP), encoding="utf-8")
        folder, record, sockets, served = self.started(
            "run", "commands.log", "--desk", "a:1", "--desk", "b:2", "--group", "g", "--room", "7",
            "--setup", "setup.json", "--two-of-board", "--staff", "staff.conf")
        self.assertEqual(sockets, [("run/1.sock", "g"), ("run/2.sock", "g")])
        self.assertEqual(served, 64 * [("run/1.sock", ("a", 1), 1, True)]
                         + 64 * [("run/2.sock", ("b", 2), 2, True)])
        self.assertEqual((record.room, record.names), (7, Path("staff.conf")))
        self.assertEqual(record.setup, (hashlib.sha256(json.dumps(SETUP).encode()).hexdigest(),
                                        {"s1": "c1", "s2": "c1", "t1": "c2"}))

    def test_what_is_said_of_a_record(self):
        """That nothing is added to it, or that nobody knows whether it was cut."""
        first = chained({"setup": "b" * 64})
        row = f"time,n,hash\nt,2,{'a' * 64}\n"
        Path("setup.json").write_text("[]", encoding="utf-8")
        for lines, shown, words, said in (
                (first, row, [], "no command is done: commands.log: line 2 is not the one that was "
                                 "shown: it was cut, or written again\n"),
                (first, "", ["--setup", "setup.json"],
                 "no command is done: commands.log is the record of another setup, whose hash is "
                 f"{'b' * 64}\n"),
                (first, "", [], "record.csv has no line that was shown: nobody knows whether "
                                "commands.log, of 1 lines, is as it was\n"),
                (b"", "", [], ""), (first, None, [], "")):
            with self.subTest(shown=shown, words=words):
                Path("commands.log").write_bytes(lines)
                Path("record.csv").write_text(shown or "", encoding="utf-8")
                self.recorder.sys.stderr = io.StringIO()
                self.started("run", "commands.log", *words,
                             *(["--shown", "record.csv"] if shown is not None else []))
                self.assertEqual(self.recorder.sys.stderr.getvalue(), said)

    def test_files_that_cannot_be_read(self):
        for text in ("{", '{"a": 1}', "[1]", '[{"code": "c1"}]'):
            with self.subTest(text=text):
                Path("setup.json").write_text(text, encoding="utf-8")
                with self.assertRaisesRegex(SystemExit, re.escape("failed: setup.json: ")):
                    self.started("run", "commands.log", "--setup", "setup.json")
        self.assertEqual([file.name for file in Path().iterdir()], ["setup.json"])
