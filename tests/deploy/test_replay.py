"""The record sent again to a fresh office."""

import collections
import hashlib
import json
import re
import time
from pathlib import Path

from tests.support import tools
from tests.support.case import ROOT, needs
from tests.support.desks import (
    answer_of,
    answering_desk,
    commanded,
    done,
    empty_desk,
    recording_desk,
)
from tests.support.office import with_stations
from tests.support.proxy import office_and_proxy, proxy
from tests.support.record import LODGED, a_command, chained, replayed
from tests.support.running import PATIENCE
from tests.support.site import (
    DEPLOY,
    EXAMPLES,
    LATE,
    NAME,
    STATIONS,
    SiteCase,
    plain,
    rows,
    serving,
)


def elect(ask):
    """README's election, with a query, a lot, a vacancy and a reopening, and some commands that are
    refused."""
    csv = (ROOT / "examples/returns.csv").read_bytes()
    ask("/con/montehondo/import", csv, "clara", 200)
    for station, lodged in LATE.items():
        ask(f"/station/{station}/lodge", json.dumps(lodged), station, 200)
    ask("/station/04-001-B/lodge", json.dumps(LATE["04-002-A"]), "clara", 409)
    ask("/con/montehondo/certify", '{"edition":1}', "berta", 409)
    for station in STATIONS:
        ask(f"/station/{station}/close", '{"rev":1}', "clara", 200)
    ask("/station/03-002-A/query", '{"rev":2,"note":"«88» or \\"38\\"?\\u00e1"}', "bruno", 200)
    ask("/station/03-002-A/correct",
        '{"rev":3,"slip":"r310","votes":[88,90,44,21,6],"blank":2,"spoiled":1}', "bruno", 200)
    ask("/station/03-002-A/close", '{"rev":4}', "clara", 200)
    ask("/con/montehondo/certify", '{"edition":1}', "clara", 403)
    ask("/con/montehondo/certify", '{"edition":1}', "berta", 200)
    ask("/con/montehondo/vacate", '{"list":"HAYA","place":1,"note":"resigned"}', "berta", 200)
    ask("/con/montehondo/reopen", '{"edition":2,"note":"a recount\\nof two stations"}', "berta",
        400)
    ask("/con/montehondo/reopen", '{"edition":2,"note":"recount of 03-002-A"}', "berta", 200)
    ask("/con/montehondo/certify", '{"edition":3}', "berta", 200)


def hash_of_last(front):
    """As in sed -n '$p' commands.log | tr -d '\\n' | sha256sum."""
    return hashlib.sha256((front.folder / "log/commands.log").read_bytes().split(b"\n")[
        -2]).hexdigest()


def replay(desk, front, *words):
    return replayed(desk.port, (front.folder / "log/commands.log").read_bytes(), *words)


SPOILED = (b"", b"5", b"[]", b"null", b"{}", b'"text"', b"{", b"\xff\xfe", b"\0" * 100,
           b"[" * 20_000, b'{"n": 1}', b'{"n": {}, "before": ""}', b"1e999", b"x" * 100_000)


def spoiled_lines():
    """A hundred lines that no recorder wrote, each another."""
    good = {"n": 1, "time": "2026-11-26T22:14:00.000+00:00", **a_command("{}", "/station/s1/close"),
            "before": "0" * 64}
    answer = {"n": 2, "time": good["time"], "to": 1, "status": 200, "answer": "",
              "before": "0" * 64}
    values = (None, 5, "", [], {}, "\ud800", "two words", [["a"]], 1e300, True)
    lines = list(SPOILED)
    for entry, keys in ((good, ("n", "time", "name", "office", "method", "path", "body", "before")),
                        (answer, ("n", "time", "to", "status"))):
        lines += [json.dumps({name: value for name, value in entry.items() if name != key}).encode()
                  for key in keys]
        lines += [json.dumps(entry | {key: value}).encode() for key in keys for value in values]
    return lines[:100]


LODGED_ANSWER = {"status": 200, "answer": '{"ok":"lodged","rev":1}'}


def lodge(n):
    return f"/station/s{n}/lodge", json.dumps(LODGED | {"votes": [n, 0]})


# Commands that no recorder has written, and what is said of them.
ODD = ((a_command("{}") | {"n": 99}, "not as it was written, or one before it: its number is 99"),
       (a_command("{}") | {"method": "POST /x"}, "not a line of a record"),
       (a_command("{}") | {"name": "cl ara"}, "not a line of a record"),
       (a_command("{}") | {"path": "/con/c1/é"}, "not a line of a record"),
       (a_command("{}") | {"time": "2026-11-26T22:14:00"}, "not a line of a record"),
       (a_command(b"") | {"body_base64": "e30=!"}, "not a line of a record"),
       (a_command("{}") | {"office": 2}, "office 2 is not named"),
       (a_command("{}") | {"office": "\ud800"}, "not a line of a record"))


class Replay(SiteCase):
    @needs("nginx", "openssl")
    def test_the_record_replayed(self):
        """The lines of the record that the desk accepted, over a fresh database, lead to the same
        rows of all tables."""
        with office_and_proxy(EXAMPLES) as (desk, front):
            for station in LATE:
                front.name("stations", station)

            def ask(target, body, name, status):
                found = front.ask("POST", target, body, name, source=f"127.0.8.{len(target)}")
                self.assertEqual(found.status, status, f"{target} {body}: {found}")

            elect(ask)
            record = front.record(29)
            desk.end()
        keys = {"n", "time", "name", "role", "address", "office", "method", "path", "salt",
                "before", "status"}
        self.assertTrue(all(set(line) == keys
                            | ({"bytes"} if line["status"] == 403 else {"body", "answer"}) for line
                            in record))
        self.assertEqual(collections.Counter(line["status"] for line in record),
                         {200: 25, 409: 2, 400: 1, 403: 1})
        self.assertEqual([line["role"] for line in record[:3]], ["clerk", "station", "station"])
        self.assertTrue(all(re.fullmatch(r"\d{4}-\d\d-\d\dT\d\d:\d\d:\d\d\.\d{3}[+-]\d\d:\d\d",
                                         line["time"]) for line in record))
        with serving(EXAMPLES, "again.db") as desk:
            # 28 commands with their answers, and a line for the one that clara might not give.
            end = f"lines 57, the hash of the last {hash_of_last(front)}\n"
            self.assertEqual(replay(desk, front), (0, f"sent 25, to look at 0; {end}"))
            # Once more: the two returns are the same, and so is the import but for the row that was
            # corrected since; the rest is refused, since nothing is done a second time.
            status, said = replay(desk, front)
            self.assertEqual(status, 1, said)
            self.assertTrue(said.endswith(f"\nsent 25, to look at 23; {end}"), said)
            self.assertIn('"word":"stale"', said)
            # By their time the office has all of them: the last is to be looked at.
            line = (front.folder / "log/commands.log").read_bytes().splitlines()[-1]
            said_of_last = ("left out by their time: 25 that were done. The answer to the last is "
                            f"line 57, of {json.loads(line)['time']}: does the copy have it?")
            self.assertEqual(replay(desk, front, "--since", "2100-01-01T00:00:00+00:00"),
                             (1, f"{said_of_last}\nsent 0, to look at 1; {end}"))
            self.assertEqual(replay(desk, front, "--after", "57"),
                             (0, f"sent 0, to look at 0; {end}"))
            self.assertEqual(replay(desk, front, "--since", record[0]["time"])[1], said)
        self.assertEqual(rows("again.db"), rows("office.db"))

    def test_a_record_of_troubles(self):
        """A command that may have been done is named and not sent. A body that is no UTF-8 is sent
        as it is; so is what comes after it, and after a command that has no answer. They are sent
        in the order of their answers."""
        latin = "p\u00e9".encode("latin-1")
        record = chained(
            a_command(latin), {"to": 1, "status": 504, "answer": ""}, a_command("full"),
            {"to": 3, "status": 503, "answer": ""}, a_command("ended"),
            {"to": 5, "status": None, "answer": ""}, a_command("second"), a_command(latin),
            {"to": 8, "status": 200, "answer": ""}, {"to": 7, "status": 200, "answer": ""},
            a_command("cut"), {"to": 11, "status": 200, "answer": ""},
            a_command("wrong"), {"to": 13, "status": 400, "answer": ""},
            a_command("") | {"bytes": 3, "status": 403},
            b'{"time":"2026', a_command("last"), {"to": 17, "status": 200, "answer": ""},
            a_command("lost"))

        def answered(body):
            return b"" if body == b"cut" else answer_of((409 if body == latin else 200, "{}"))

        with empty_desk(answered) as (port, messages):
            status, said = replayed(port, record)
            self.assertEqual((status, messages), (1, [latin, b"second", b"cut", b"last"]))
            head = "2026-11-26T22:14:{:02}.000+00:00 clara POST /con/c1/import"
            unknown = "it was not sent: nobody knows whether it was done"
            self.assertEqual(re.sub("(no answer): .*", r"\1", said).splitlines()[:-1], [
                f"line 1: {head.format(1)} p\\xe9: {unknown}",
                f"line 3: {head.format(3)} full: {unknown}",
                f"line 5: {head.format(5)} ended: {unknown}",
                f"line 8: {head.format(8)} p\\xe9: 409 {{}}",
                f"line 11: {head.format(11)} cut:  no answer",
                'line 16: not a line of a record: {"time":"2026',
                f"line 19: {head.format(19)} lost: {unknown}"])
            self.assertTrue(said.splitlines()[-1].startswith("sent 4, to look at 7; lines 19, "),
                            said)
            messages.clear()
            # Of 22:14:12 and later: by the time of the answer.
            replayed(port, record, "--since", "2026-11-26T22:14:12+00:00")
            self.assertEqual(messages, [b"cut", b"last"])
        for words in ("127.0.0.1:8080", "localhost:8080", "https://127.0.0.1",
                      "http://127.0.0.1 --since 2026-11-26T22:14:00", "",
                      "http://127.0.0.1 --since 2026-11-26T22:14:00+00:00 --after 1",
                      "http://127.0.0.1 --after -1",
                      "--check http://127.0.0.1"):
            with self.subTest(words=words):
                done = tools.run([DEPLOY / "replay", *words.split()], input=record,
                                 capture_output=True, timeout=PATIENCE)
                self.assertEqual((done.returncode, done.stdout, b"usage:" in done.stderr),
                                 (2, b"", True))

    def test_a_record_of_a_hundred_spoiled_lines(self):
        """Each is named by its number, and what comes between and after them is sent."""
        spoiled = spoiled_lines()
        self.assertEqual(len(spoiled), 100)
        entries = []
        for place, line in enumerate(spoiled):
            entries += [a_command(f"{place}", "/station/s1/lodge"), line,
                        {"to": 3 * place + 1, "status": 200, "answer": ""}]
        with empty_desk() as (port, messages):
            status, said = replayed(port, chained(*entries))
        self.assertEqual((status, [body for body in messages if body.isdigit()]),
                         (1, [b"%d" % place for place in range(100)]))
        named = {int(number) for number in re.findall(r"^line (\d+):", said, re.M)}
        self.assertEqual(sorted(set(range(2, 301, 3)) - named), [])
        self.assertRegex(
            said.splitlines()[-1],
            r"^sent 1\d\d, to look at 1\d\d; lines 300, the hash of the last [0-9a-f]{64}$",
            said[-300:])

    def test_a_record_whose_clock_was_put_back(self):
        """A copy of 22:14:10 lacks what was done after it, also where the clock said 22:12 then: it
        is sent, and the line is named."""
        times = ((11, "22:13:00"), (12, "22:14:10"), (13, "22:12:20"), (14, "22:12:30"),
                 (15, "22:14:20"))
        entries = []
        for n, time_of in times:
            moment = {"time": f"2026-11-26T{time_of}.000+00:00"}
            entries += [a_command(*lodge(n)[::-1]) | moment, LODGED_ANSWER | {
                "to": len(entries) + 1} | moment]
        with commanded(with_stations(15)) as (office, port, came):
            done(office, *lodge(11))
            status, said = replayed(port, chained(*entries), "--since", "2026-11-26T22:14:10+00:00")
            self.assertEqual((status, came), (1, [lodge(n) for n in (12, 13, 14, 15)]))
            self.assertEqual(said.splitlines()[0],
                             "line 5: the clock was put back before it. What was answered from "
                             "here on is sent, whatever its time")
            self.assertIn("\nleft out by their time: 1 that were done. The answer to the last is "
                          "line 2, of 2026-11-26T22:13:00.000+00:00: does the copy have it?\n"
                          "sent 4, to look at 2; lines 10, ", said)
        # Over a new office it is nothing to look at.
        with commanded(with_stations(15)) as (_, port, came):
            self.assertEqual((replayed(port, chained(*entries))[0], len(came)), (0, 5))

    def test_what_was_answered_after_a_line(self):
        """It is sent, whatever its time, also where it was asked for before that line; and what has
        no answer is named wherever it is."""
        entries = [a_command(*lodge(n)[::-1]) for n in range(1, 5)]
        answers = [LODGED_ANSWER | {"to": n} for n in range(1, 4)]
        record = chained(*entries[:2], answers[0], entries[2], answers[1],
                         answers[2] | {"to": 4, "time": "2026-11-26T21:00:00.000+00:00"},
                         entries[3])
        for after, sent in ((0, [1, 2, 3]), (3, [2, 3]), (5, [3]), (7, [])):
            with self.subTest(after=after), commanded(with_stations(4)) as (office, port, came):
                for n in {1, 2, 3} - {*sent}:
                    done(office, *lodge(n))
                status, said = replayed(port, record, "--after", f"{after:08}")
                self.assertEqual((status, came), (1, [lodge(n) for n in sent]), said)
                self.assertEqual([line[:7] for line in said.splitlines()], ["line 7:", "sent " + (
                    f"{len(sent)},")], said)
        # A record that lacks its end, or another one's.
        with commanded(with_stations(4)) as (_, port, came):
            status, said = replayed(port, chained(*entries[:1], answers[0]), "--after", "3")
        self.assertEqual((status, came, said.splitlines()[0]), (1, [], (
            "line 3: it is not there: this record lacks its end, or the copy is another's")))

    @needs("nginx", "openssl")
    def test_a_record_of_odd_requests(self):
        """Two spaces, a space at the end, an absolute target: what the desk did, the record has as
        the desk got it, and replay sends it."""
        with recording_desk() as (port, messages), proxy(port) as front:
            body = json.dumps(LODGED)
            head = (f"Host: {NAME}\r\nAuthorization: {front.authorization('clara')}\r\n"
                    f"Content-Length: {len(body)}\r\nConnection: close\r\n\r\n{body}")
            for line in ("POST  /station/s1/lodge HTTP/1.1", "POST /station/s2/lodge  HTTP/1.1",
                         f"POST https://{NAME}/station/s3/lodge HTTP/1.1",
                         "POST /station/s4/lodge HTTP/1.1"):
                with self.subTest(line=line):
                    with front.connect() as it:
                        it.sendall(f"{line}\r\n{head}".encode())
                        self.assertTrue(it.recv(65536).startswith(b"HTTP/1.1 200 "))
            wanted = [f"/station/s{n}/lodge" for n in range(1, 5)]
            self.assertEqual([line["path"] for line in front.record(4)], wanted)
            self.assertEqual([head.split(b" ")[1].decode() for head, _ in messages], wanted)
            record = (front.folder / "log/commands.log").read_bytes()
        with commanded(with_stations(4)) as (_, port, came):
            self.assertEqual(replayed(port, record)[0], 0)
            self.assertEqual([target for target, _ in came], wanted)

    def test_what_is_not_sent_again(self):
        """Each is named, and an answer to what is not there too."""
        for entry, words in ODD:
            with self.subTest(entry=entry, words=words):
                with empty_desk() as (port, messages):
                    status, said = replayed(port, chained(
                        entry, {"to": 1, "status": 200, "answer": ""},
                        a_command("[]"), {"to": 3, "status": 200, "answer": ""}))
                self.assertEqual((status, messages), (1, [b"[]"]))
                self.assertTrue(f"line 1: {words}" in said or words in said.splitlines()[0], said)
        with empty_desk() as (port, messages):
            status, said = replayed(port, chained({"to": 7, "status": 200, "answer": ""},
                                                  {"to": 8, "status": 409, "answer": ""}))
        self.assertEqual((status, messages, said.splitlines()[0]),
                         (1, [],
                          "line 1: it answers line 7, which is not there: that was done, and "
                          "cannot be sent"))
        self.assertTrue(said.splitlines()[1].startswith("sent 0, to look at 1; lines 2, "), said)

    def test_an_import_that_is_taken_in_part(self):
        """Of a file of which fourteen rows were recorded thirteen are now, as where the setup lacks
        a station: it is named; all of them may be the same as those that are there. So it is where
        the office has another row of a station, which the file has twice."""
        def said_of(lodged, same_as, ok="import"):
            return {"bad": 2, "differs": 0, "first": [11, 7], "lodged": lodged, "ok": ok,
                    "refused": 0, "same": same_as}

        before = json.dumps(said_of(13, 1))
        for now, wanted in ((said_of(13, 1), 0), (said_of(0, 14), 0), (said_of(12, 1), 1),
                            (said_of(13, 1) | {"differs": 1}, 1),
                            (said_of(13, 1) | {"first": [9, 7]}, 1),
                            ({"ok": "moved", "rev": 2}, 1)):
            with self.subTest(now=now, wanted=wanted):
                with answering_desk({"/con/c1/import": now, "/progress": ""}) as (port, _):
                    status, said = replayed(
                        port, chained(a_command("x"), {"to": 1, "status": 200, "answer": before}))
                self.assertEqual((status,
                                  said.count("\nsent 1, to look at 1; ")
                                  or said.startswith("sent 1, to look at 0; ")), (wanted, 1))
                self.assertTrue(
                    not wanted or said.startswith("line 1: ") and json.dumps(now) in said, said)

    def test_what_replay_prints(self):
        """A line for each of what is to be looked at, whatever a body, an answer or a line has in
        it."""
        odd = "\nsent 9, to look at 0\x1b[2J\r\u2028é"
        with answering_desk({"/con/c1/import": (409, odd), "/progress": ""}) as (port, _):
            status, said = replayed(port, chained(a_command(odd),
                                                  {"to": 1, "status": 200, "answer": ""},
                                                  a_command(odd), odd.replace("\n", " ").encode()))
        self.assertEqual((status, len(said.split("\n")), said.count("\\x1b[2J\\r\\u2028\\xe9")),
                         (1, 5, 4))
        self.assertTrue(all(c.isprintable() or c == "\n" for c in said), said)

    def test_a_desk_that_answers_no_http(self):
        """A command that is sent to it is named, and the rest is sent; one that takes two seconds
        is waited for."""
        answers = iter([b"x\r\n\r\n", b"HTTP/1.1 200 OK\r\nContent-Length: x\r\n\r\n",
                        answer_of("{}")])
        entries = [entry for n in (1, 3, 5)
                   for entry in (a_command("{}"), {"to": n, "status": 200, "answer": ""})]
        with empty_desk(lambda _: time.sleep(2) or next(answers)) as (port, _):
            status, said = replayed(port, chained(*entries))
        self.assertEqual((status, said.splitlines()[-1].split(";")[0]), (1, "sent 3, to look at 1"))
        self.assertTrue(said.startswith("line 1: "), said)
        self.assertIn("no answer", said)


def on(station, act, **body):
    return f"/station/{station}/{act}", json.dumps(body)


def imported(*rows_of_it):
    return "/con/c1/import", "\n".join(("station,slip,blank,spoiled,A,B", *rows_of_it))


OTHER = LODGED | {"votes": [7, 7]}
SECOND = on("s2", "lodge", **LODGED), on("s2", "close", rev=1)
CERTIFY = ("/con/c1/certify", '{"edition":1}')
QUERIED = on("s1", "lodge", **LODGED), on("s1", "query", rev=1, note="14?")
CORRECTED = *QUERIED, on("s1", "correct", rev=2, **LODGED | {"votes": [10, 20]})


class OfficeThatDiffers(SiteCase):
    """The record over an office that does not answer as the record says: nothing is closed or
    certified that was not closed or certified with these votes."""

    def recorded(self, *commands):
        """The lines of commands that an office accepts: command 3 and its answer are 5 and 6."""
        lines = []
        for file in Path().glob("old.db*"):
            file.unlink()
        with serving(with_stations(2), "old.db") as desk:
            for target, body in commands:
                found = plain(desk.port, "POST", target, body)
                self.assertEqual(found.status, 200, found)
                lines += [a_command(body, target),
                          {"to": len(lines) + 1, "status": 200, "answer": found.body.decode()}]
        return lines

    def over(self, lines, before=(), unknown=(), after=0, electors=300):
        """The lines that are not sent to an office which did some commands before, since it has
        something else; then the status and the votes of s1, and whether the constituency is
        certified. Nobody knows the answer in the lines `unknown`."""
        lines = [line | {"status": 504} if place in unknown else line
                 for place, line in enumerate(lines, 1)]
        for file in Path().glob("new.db*"):
            file.unlink()
        with serving(with_stations(2, electors), "new.db") as desk:
            for target, body in before:
                self.assertEqual(plain(desk.port, "POST", target, body).status, 200)
            said = replayed(desk.port, chained(*lines), "--after", str(after))[1]
            s1, c1 = (json.loads(plain(desk.port, "GET", target).body)
                      for target in ("/station/s1", "/con/c1"))
        left = [int(line) for line in re.findall(
            r"^line (\d+): .*: the office has something else than line \d+$", said, re.M)]
        return left, s1.get("status"), s1.get("votes"), c1["certified"]

    def test_a_return_that_lacks_a_change(self):
        """It was closed, called in question, corrected and closed again. Without the query, or
        without the correction too, it is closed as it was at first, and that is not certified.
        Without the lodge there is no return."""
        lines = self.recorded(
            QUERIED[0], on("s1", "close", rev=1), *SECOND, on("s1", "query", rev=2, note="14?"),
            on("s1", "correct", rev=3, **OTHER), on("s1", "close", rev=4), CERTIFY)
        for unknown, wanted in (((), ([], "closed", [7, 7], True)),
                                ((10,), ([11, 13, 15], "closed", [1, 2], False)),
                                ((10, 12), ([13, 15], "closed", [1, 2], False)),
                                ((2,), ([3, 9, 11, 13, 15], None, None, False))):
            with self.subTest(unknown=unknown):
                self.assertEqual(self.over(lines, unknown=unknown), wanted)

    def test_a_correction_that_the_office_refuses(self):
        """The office has lines 1 and 2, and was given a correction before the rest: where it is
        that of the record, what comes after it is done too, and else nothing is closed over it. So
        it is where there are more votes than electors now."""
        done = *CORRECTED, on("s1", "close", rev=3), *SECOND, CERTIFY
        lines = self.recorded(*done, ("/con/c1/reopen", '{"edition":2,"note":"sum"}'),
                              ("/con/c1/certify", '{"edition":3}'))
        for commands, after in ((3, 2), (4, 2), (7, 2), (3, 0), (4, 0), (7, 0), (7, 14)):
            with self.subTest(commands=commands, after=after):
                self.assertEqual(self.over(lines, done[:commands], after=after),
                                 ([], "closed", [10, 20], True))
        for other in ({"votes": [20, 10]}, {"slip": "p2"}, {"blank": 1}, {"spoiled": 1}):
            body = LODGED | {"votes": [10, 20]} | other
            with self.subTest(other=other):
                self.assertEqual(
                    self.over(lines, [*QUERIED, on("s1", "correct", rev=2, **body)], after=2),
                    ([7, 13, 15, 17], "corrected", body["votes"], False))
        self.assertEqual(self.over(lines, electors=29),
                         ([7, 13, 15, 17], "queried", [1, 2], False))

    def test_a_return_with_which_the_office_has_gone_on(self):
        """It is not closed at the revision that the record names too, nor certified where no other
        command is on its station: there, the office has the lines up to `after`."""
        lodge, queried = QUERIED
        closed = on("s1", "close", rev=1)
        wrong = on("s1", "correct", rev=2, **OTHER)
        again = on("s1", "query", rev=2, note="14?"), on("s1", "correct", rev=3, **OTHER)
        for record, before, unknown, after, wanted in (
                ((lodge, closed), (lodge, queried, wrong, on("s1", "close", rev=3)), (), 2,
                 ([9], "closed", [7, 7], False)),
                ((lodge, closed), (lodge, closed, *SECOND, *again, on("s1", "close", rev=4)), (), 8,
                 ([9], "closed", [7, 7], False)),
                ((*CORRECTED, on("s1", "close", rev=3)), (lodge, queried, wrong), (), 6,
                 ([7, 13], "corrected", [7, 7], False)),
                ((*CORRECTED, on("s1", "close", rev=3)), (lodge, queried, wrong), (4, 6), 2,
                 ([7, 13], "corrected", [7, 7], False)),
                ((imported("", "s1,p1,0,0,1,2"), closed), (on("s1", "lodge", **OTHER),), (2,), 0,
                 ([3, 9], "received", [7, 7], False)),
                ((imported("s1,p1,0,0,1,2", "s1,p1,0,0,7,7"), closed),
                 (on("s1", "lodge", **OTHER),), (), 2, ([3, 9], "received", [7, 7], False))):
            lines = self.recorded(*record, *SECOND, CERTIFY)
            with self.subTest(record=record, before=before, unknown=unknown):
                self.assertEqual(self.over(lines, before, unknown, after), wanted)

    def test_a_copy_that_has_what_was_not_answered(self):
        """It is certified, as it was: the record says by its next line which of these were done, or
        the copy may have either."""
        done = *CORRECTED, on("s1", "close", rev=3), *SECOND, CERTIFY
        lines = self.recorded(*done)
        for commands, unknown, after in ((4, (8,), 8), (4, (6,), 6), (3, (4, 6), 6), (1, (2,), 2),
                                         (6, (2, 4, 6, 8, 10, 12), 12)):
            with self.subTest(commands=commands, unknown=unknown):
                self.assertEqual(self.over(lines, done[:commands], unknown, after),
                                 ([], "closed", [10, 20], True))

    def test_a_copy_without_what_was_not_answered(self):
        """The query was not done, and the close after it is."""
        lodge, query = QUERIED
        lines = self.recorded(lodge, on("s1", "close", rev=1), *SECOND, CERTIFY)
        later = [line | {"to": line["to"] + 2} if "to" in line else line for line in lines[2:]]
        unanswered = [a_command(query[1], query[0]), {"to": 3, "status": 504, "answer": ""}]
        self.assertEqual(self.over([*lines[:2], *unanswered, *later], [lodge], after=4),
                         ([], "closed", [1, 2], True))

    def test_a_return_that_the_record_lacks(self):
        """As one of a file that was imported while nothing was served: its revision is known, by
        the close, and its figures may be any."""
        lodge, close = SECOND
        more = [on("s2", "query", rev=2, note="3?"), on("s2", "correct", rev=3, **OTHER),
                on("s2", "close", rev=4)]
        closed = on("s1", "lodge", **LODGED), on("s1", "close", rev=1)
        lines = self.recorded(*closed, lodge, close, CERTIFY)
        lines[5] |= {"status": 404}
        for before, after, wanted in (((*closed, lodge), 6, []),
                                      ((*closed, lodge, close, *more), 8, [9])):
            with self.subTest(after=after):
                self.assertEqual(self.over(lines, before, after=after),
                                 (wanted, "closed", [1, 2], not wanted))

    def test_another_lot(self):
        """A certificate is not sent over a lot that was not drawn by the record, and its own is, as
        one that is there already, or that may have been drawn."""
        alike = LODGED | {"votes": [10, 10]}
        closed = [command for station in ("s1", "s2") for command in (
            on(station, "lodge", **alike), on(station, "close", rev=1))]
        drawn, other = (("/con/c1/draw", json.dumps({"edition": 1, "order": order}))
                        for order in (["A", "B"], ["B", "A"]))
        lines = self.recorded(*closed, drawn, ("/con/c1/certify", '{"edition":2}'))
        for lot, unknown, wanted in ((drawn, (), []), (other, (), [11]), (drawn, (10,), []),
                                     (other, (10,), [11])):
            with self.subTest(lot=lot, unknown=unknown):
                self.assertEqual(self.over(lines, [*closed, lot], unknown, 8),
                                 (wanted, "closed", [10, 10], not wanted))
        # A query takes the lot away, and no lot is needed after the correction.
        lines = self.recorded(*closed, drawn, on("s1", "query", rev=2, note="10?"),
                              on("s1", "correct", rev=3, **alike | {"votes": [10, 20]}),
                              on("s1", "close", rev=4), ("/con/c1/certify", '{"edition":2}'))
        self.assertEqual(self.over(lines), ([], "closed", [10, 20], True))

    def test_a_file_of_which_other_rows_are_recorded(self):
        """The row of s1 was not recorded, and is now, since what was before it is lost: s1 is not
        closed over it, and the other station is, as it was."""
        lines = self.recorded(QUERIED[0], imported("s1,p1,0,0,7,7", "s2,p1,0,0,1,2"),
                              on("s1", "close", rev=1), SECOND[1], CERTIFY)
        self.assertEqual(self.over(lines, unknown=(2,)), ([5, 9], "received", [7, 7], False))

    def test_a_file_with_a_station_that_has_another_return(self):
        """It is known, and the other one is closed."""
        lines = self.recorded(imported("s1,p1,0,0,1,2", "s2,p1,0,0,1,2"), on("s1", "close", rev=1),
                              SECOND[1], CERTIFY)
        self.assertEqual(self.over(lines, [on("s1", "lodge", **OTHER)]),
                         ([3, 7], "received", [7, 7], False))

    def test_a_file_with_a_row_that_is_very_long(self):
        """The office does not record it, and it records the others, which are known all the
        same."""
        lines = self.recorded(imported("s1,p1,0,0,1,2", f"s2,{'p' * 200_000},0,0,1,2"),
                              on("s1", "close", rev=1))
        self.assertEqual(self.over(lines, [on("s1", "lodge", **OTHER)]),
                         ([3], "received", [7, 7], False))
        self.assertEqual(self.over(lines), ([], "closed", [1, 2], False))

    def test_an_office_that_does_not_say_its_returns(self):
        """Nobody knows over which ones a certificate would be, and it is not sent."""
        lines = (a_command(CERTIFY[1], CERTIFY[0]), {"to": 1, "status": 200, "answer": "{}"})
        con = {"edition": 1, "lot": [], "certified": False, "gone": []}
        shown = {"/con/c1": con, "/con/c1/returns": "station,slip,blank,spoiled,A,B\n",
                 "/con/c1/stations": "STATIONS c1 Twin Town\nstations 1 missing 1 closed 0\n"
                                     "s1 300 -\n"}
        for other, wanted in (({}, True), *(({target: 503}, False) for target in shown),
                              ({"/con/c1": {"edition": 1}}, False)):
            answers = shown | other | {CERTIFY[0]: "{}"}
            with self.subTest(other=other), answering_desk(answers) as (port, asked):
                replayed(port, chained(*lines))
                self.assertEqual(CERTIFY[0] in asked, wanted)

    def test_the_stations_of_a_file(self):
        """Each is looked at by itself, whatever the office answers to the file: as many rows as
        then may be other ones. A code may be in quotes, a line may end with CR. Of a station of
        which the record has no line nobody knows the return."""
        body = ('station;slip;blank;spoiled;A;B\r"s1";p;0;0;1;2\r\ns2;p;0;0;1;2\r'
                '""s3;p;0;0;1;2\n"s"2;p;0;0;2;1')
        answer = {"bad": 0, "differs": 1, "first": [4, 7], "lodged": 3, "ok": "import",
                  "refused": 0, "same": 0}
        closes = {n: f"/station/s{n}/close" for n in range(1, 5)}
        entries = [entry for place, (target, text, said) in enumerate((
            ("/con/c1/import/semicolon", body, json.dumps(answer)),
            *((close, '{"rev":1}', "{}") for close in closes.values()))) for entry in (
                a_command(text, target), {"to": 2 * place + 1, "status": 200, "answer": said})]
        own = {"rev": 1, "status": "received", "slip": "p", "votes": [1, 2], "blank": 0,
               "spoiled": 0}
        other = own | {"votes": [2, 1]}
        for shown, sent in (((own, own, own, own), [1, 2, 3, 4]),
                            ((own, other, own, own), [1, 3, 4]),
                            ((other, own, other, other), [2, 4]), ((own, 404, own, 404), [1, 3]),
                            ((own, 503, own | {"status": "closed"}, own), [1, 4])):
            for now in (answer, answer | {"first": None}, 503):
                answers = dict.fromkeys(closes.values(), "{}") | {"/progress": "",
                    "/con/c1/import/semicolon": now,
                    **{f"/station/s{n}": it for n, it in zip(closes, shown)}}
                with self.subTest(shown=shown, now=now), answering_desk(answers) as (port, asked):
                    replayed(port, chained(*entries))
                    self.assertEqual([n for n in closes if closes[n] in asked], sent)
