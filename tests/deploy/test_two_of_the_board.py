"""Acts of the board that need two names: the same request from both, within an hour."""

import concurrent.futures
import contextlib
import json
import os
import signal
import socket
import threading
import tomllib
from datetime import UTC, datetime, timedelta
from pathlib import Path

from tests.support import model, tools
from tests.support.case import needs
from tests.support.clerks import clerks_browser, confirmed, receipt, said
from tests.support.desks import answer_of, commanded, desk_with, done, recording_desk
from tests.support.office import SETUP
from tests.support.proxy import children
from tests.support.record import LODGED, a_command, chained, replayed
from tests.support.recorder import recorder_alone, recorder_at
from tests.support.running import PATIENCE
from tests.support.safeguards import Safeguards, WithSetup
from tests.support.scripts import module
from tests.support.site import DEPLOY

second_name = module("second_name")

ACTS = {"draw": '{"edition":1,"order":["A","B"]}', "certify": '{"edition":1}',
        "reopen": '{"edition":2,"note":"the count was wrong"}',
        "vacate": '{"list":"A","place":1,"note":"resigned"}'}
HOUR = timedelta(hours=1)
BEGIN = datetime(2026, 11, 29, 21, tzinfo=UTC)


def board(path, body="{}", name="berta", office=1, role="board", allowed="1"):
    """Sends a command as the proxy does: status and body of its answer."""
    data = body.encode()
    with socket.socket(socket.AF_UNIX) as it:
        it.settimeout(PATIENCE)
        it.connect(f"recorder/{office}.sock")
        it.sendall(f"POST {path} HTTP/1.0\r\nHost: recorder1\r\nOffice-Name: {name}\r\n"
                   f"Office-Role: {role}\r\nOffice-Address: 192.0.2.1\r\n"
                   f"Office-Allowed: {allowed}\r\nContent-Length: {len(data)}\r\n\r\n".encode()
                   + data)
        head, _, found = b"".join(iter(lambda: it.recv(65536), b"")).partition(b"\r\n\r\n")
        return int(head[9:12]), found.decode()


def record():
    return [json.loads(line) for line in Path("commands.log").read_text().splitlines()]


@contextlib.contextmanager
def two_names(*words):
    """The recorder that needs two names, before a desk that answers 200; what the desk got."""
    with recording_desk(b'{"ok":"moved","edition":2}') as (port, messages):
        with recorder_alone(port, "--two-of-board", *words):
            yield messages


class Requests(Safeguards):
    def test_each_act_needs_two_names(self):
        with two_names() as messages:
            for act, body in ACTS.items():
                with self.subTest(act=act):
                    path, before = f"/con/c1/{act}", len(messages)
                    status, said_first = board(path, body)
                    self.assertEqual((status, len(messages)), (202, before))
                    answer = json.loads(said_first)
                    self.assertEqual((answer["word"], answer["others"]),
                                     ("waits_for_second_name", []))
                    self.assertEqual(board(path, body, "simon"),
                                     (200, '{"ok":"moved","edition":2}'))
                    self.assertEqual([one[1].decode() for one in messages[before:]], [body])
                    first, second, answered = record()[-3:]
                    self.assertEqual(
                        [first[key] for key in ("name", "path", "body", "status")],
                        ["berta", path, body, 202])
                    self.assertEqual(
                        [second[key] for key in ("name", "path", "body", "first")],
                        ["simon", path, body, first["n"]])
                    self.assertEqual([answered[key] for key in ("to", "status")],
                                     [second["n"], 200])
                    self.assertNotIn("status", second)
                    until = datetime.fromisoformat(answer["until"])
                    self.assertLess(abs(until - datetime.fromisoformat(first["time"]) - HOUR),
                                    timedelta(seconds=2))

    def test_the_same_name_again(self):
        with two_names() as messages:
            self.assertEqual([board("/con/c1/certify")[0] for _ in range(3)], [202] * 3)
            self.assertEqual((len(messages), len(record())), (0, 3))
            # Nothing else waits.
            self.assertEqual(json.loads(board("/con/c1/certify")[1])["others"], [])
            self.assertEqual(board("/con/c1/certify", name="simon")[0], 200)

    def test_another_request(self):
        """Of another body, edition, act, constituency or office: it waits by itself."""
        with recording_desk() as (other, others), two_names(
            "--desk", f"127.0.0.1:{other}") as messages:
            body = ACTS["draw"]
            self.assertEqual(board("/con/c1/draw", body)[0], 202)
            for path, another, office in (
                ("/con/c1/draw", body.replace("1", "2"), 1),
                ("/con/c1/draw", body.replace('"A","B"', '"B","A"'), 1),
                ("/con/c1/draw", body + " ", 1), ("/con/c1/draw", "", 1),
                ("/con/c1/certify", body, 1), ("/con/c1/reopen", body, 1),
                ("/con/c2/draw", body, 1), ("/con/c1/draw", body, 2),
            ):
                with self.subTest(path=path, body=another, office=office):
                    self.assertEqual(board(path, another, "simon", office)[0], 202)
            self.assertEqual((messages, others), ([], []))
            # The first one waits yet.
            self.assertEqual(board("/con/c1/draw", body, "simon")[0], 200)
            self.assertEqual((len(messages), len(others)), (1, 0))

    def test_bodies_that_are_no_texts(self):
        """They are in the record in base64, and compared there."""
        def sent(data, name):
            with socket.socket(socket.AF_UNIX) as it:
                it.connect("recorder/1.sock")
                it.sendall(b"POST /con/c1/certify HTTP/1.0\r\nOffice-Name: %s\r\nOffice-Role: board"
                           b"\r\nOffice-Address: 192.0.2.1\r\nOffice-Allowed: 1\r\n"
                           b"Content-Length: %d\r\n\r\n%s" % (name, len(data), data))
                return it.recv(65536)[9:12]

        with two_names() as messages:
            self.assertEqual(sent(b"\xff\1", b"berta"), b"202")
            self.assertEqual(sent(b"\xff\2", b"simon"), b"202")
            self.assertEqual(sent(b"\xff\1", b"simon"), b"200")
            self.assertEqual([body for _, body in messages], [b"\xff\1"])

    def test_two_names_are_used_up(self):
        """An act that was sent once is not sent by a third name, whatever the office answered."""
        with desk_with(lambda *_: b"HTTP/1.1 409 X\r\nContent-Length: 2\r\n"
                                  b"Connection: close\r\n\r\n{}") as port:
            with recorder_alone(port, "--two-of-board"):
                found = [board("/con/c1/certify", name=name)[0]
                         for name in ("berta", "simon", "simon", "carla", "berta")]
                self.assertEqual(found, [202, 409, 202, 409, 202])
        # One that waited under two names before the office took it is used up under both.
        with two_names():
            path = "/con/c2/certify"
            self.assertEqual([board(path, name=name)[0] for name in ("berta", "simon", "berta")],
                             [202, 200, 202])

    def test_other_commands_need_one_name(self):
        with two_names() as messages:
            for path, role in (
                ("/station/s1/lodge", "clerk"), ("/station/s1/close", "clerk"),
                ("/station/certify/query", "clerk"), ("/station/vacate/query", "second"),
                ("/con/draw/import", "clerk"), ("/con/c1/import/semicolon", "clerk"),
                ("/con/reopen/trial", "clerk"),
            ):
                with self.subTest(path=path):
                    before = len(messages)
                    self.assertEqual((board(path, name="x", role=role)[0], len(messages) - before),
                                     (200, 1))

    def test_a_name_that_may_not(self):
        """It is refused, and is no first name."""
        with two_names() as messages:
            self.assertEqual(board("/con/c1/certify", name="clara", role="clerk", allowed="0")[0],
                             403)
            self.assertEqual(board("/con/c1/certify")[0], 202)
            self.assertEqual(board("/con/c1/certify", name="clara", role="clerk", allowed="0")[0],
                             403)
            self.assertEqual(messages, [])

    def test_without_the_setting(self):
        with recording_desk() as (port, messages), recorder_alone(port):
            self.assertEqual([board(f"/con/c1/{act}", body)[0] for act, body in ACTS.items()],
                             [200] * 4)
            self.assertEqual((len(messages), [line for line in record() if "first" in line]),
                             (4, []))

    def test_what_else_waits(self):
        """The answer says what others asked of the same constituency, the newest last."""
        with recording_desk() as (port, _), two_names("--desk", f"127.0.0.1:{port}"):
            for path, body, name, office in (
                ("/con/c1/reopen", '{"note":"one"}', "berta", 1),
                ("/con/c1/draw", ACTS["draw"], "carla", 1),
                ("/con/c2/reopen", "{}", "berta", 1), ("/con/c1/draw", "{}", "berta", 2),
                ("/con/c1/reopen", '{"note":"two"}', "simon", 1)):
                status, text = board(path, body, name, office)
                self.assertEqual(status, 202)
            others = [(one["name"], one["act"], one["body"])
                      for one in json.loads(text)["others"]]
            self.assertEqual(others, [("berta", "reopen", '{"note":"one"}'),
                                      ("carla", "draw", ACTS["draw"])])
            for n in range(8):
                text = board("/con/c3/reopen", f'{{"note":"{n}"}}')[1]
            self.assertEqual([one["body"] for one in json.loads(text)["others"]],
                             [f'{{"note":"{n}"}}' for n in range(2, 7)])

    def test_names_that_come_at_once(self):
        """However they meet, one is the first and the other the second."""
        with two_names() as messages, concurrent.futures.ThreadPoolExecutor(16) as at_once:
            asked = [(f"/con/c{n}/certify", "{}", name) for n in range(40)
                     for name in ("berta", "simon")]
            found = list(at_once.map(lambda one: board(*one)[0], asked))
            pairs = [sorted(found[n:n + 2]) for n in range(0, 80, 2)]
            self.assertEqual((pairs, len(messages)), ([[200, 202]] * 40, 40))


class Restarts(Safeguards):
    def test_the_record_is_the_memory(self):
        """A recorder that was killed knows what waits, and what was sent."""
        with recording_desk() as (port, messages):
            for name, wanted in (("berta", 202), ("berta", 202), ("simon", 200), ("simon", 202),
                                 ("carla", 200), ("berta", 202)):
                with recorder_alone(port, "--two-of-board") as process:
                    self.assertEqual(board("/con/c1/certify", name=name)[0], wanted)
                    process.send_signal(signal.SIGKILL)
                    process.wait()
            self.assertEqual(len(messages), 2)

    def test_lines_that_nobody_has_to_read(self):
        """Whatever is in a record, the recorder starts with it."""
        certify = a_command("{}", "/con/c1/certify")
        lines = chained({"status": 202}, {"first": 1}, b"[]", {"status": 202, "time": "x"},
                        certify | {"name": "x", "status": 202, "time": 3},
                        b'{"status": 202, [', b'{"first": 7, "name": {}}')
        Path("commands.log").write_bytes(lines)
        with two_names():
            self.assertEqual([board("/con/c1/certify", name=name)[0]
                              for name in ("berta", "simon")], [202, 200])

    def test_what_cannot_be_recorded_does_not_wait(self):
        with two_names("--room", str(1 << 62)) as messages:
            self.assertEqual([board("/con/c1/certify", name=name)[0]
                              for name in ("berta", "simon")], [503, 503])
            self.assertEqual((messages, record()), ([], []))
        with two_names():
            self.assertEqual(board("/con/c1/certify", name="simon")[0], 202)


    def test_a_name_that_is_of_the_board_no_more(self):
        """It does not count as the first of two from then on, also before the proxy knows it."""
        file = Path("staff.conf")
        for after, status in (
                ("berta board;\nsimon board;\n", 200), ("Berta board;\n", 200),
                ('berta "board c1 c2";\n', 200), ('"berta" board;\n', 202), ("", 202),
                ("# berta board;\n", 202), ("berta clerk;\n", 202), ("berta2 board;\n", 202),
                ('berta "board c2";\n', 202)):
            with self.subTest(after=after):
                Path("commands.log").unlink(missing_ok=True)
                file.write_text("berta board; # of c1\nsimon board;\n", encoding="utf-8")
                with two_names("--staff", "staff.conf") as messages:
                    self.assertEqual(board("/con/c1/certify")[0], 202)
                    file.write_text(after, encoding="utf-8")
                    self.assertEqual(board("/con/c1/certify", name="simon")[0], status)
                    self.assertEqual(len(messages), status == 200)
                    # The one that counts now is the second name's.
                    file.write_text("simon board;\ncarla board;\n", encoding="utf-8")
                    self.assertEqual(board("/con/c1/certify", name="carla")[0],
                                     202 if status == 200 else 200)
        # Nobody knows who is of the board.
        with two_names("--staff", "staff.conf") as messages:
            file.unlink()
            before = len(record())
            self.assertEqual(board("/con/c2/certify")[0], 503)
            self.assertEqual((messages, len(record())), ([], before))

    def test_the_service_knows_the_names(self):
        text = (DEPLOY / "office-recorder.service").read_text(encoding="utf-8")
        self.assertIn(" --staff /etc/nginx/office/staff.conf ", text)


class Hours(Safeguards):
    def at(self, *moments):
        """The answers to a request of berta and then of others, each at its moment."""
        clock = [BEGIN]
        recorder = recorder_at(self, clock)
        Path("log").unlink(missing_ok=True)
        desk = type("Desk", (), {"lock": threading.Lock(), "files": recorder.Files(),
                                 "ask": lambda *_: recorder.Answer(200, b"{}")})()
        found = []
        for name, seconds in moments:
            clock[0] = BEGIN + timedelta(seconds=seconds)
            # Each from the record alone.
            one = recorder.Recorder(recorder.Record("log", 0), desk, 1, recorder.Limit(), True)
            fields = {"office-name": name, "office-role": "board", "office-address": "192.0.2.1",
                      "office-allowed": "1"}
            found.append(one.answered("POST", "/con/c1/certify", fields, b"{}").status)
        return found

    def test_many_that_wait(self):
        """One name may have thousands that wait. An answer names the last five others, and what
        waits in vain is looked for once a minute."""
        waiting, moments = second_name.Waiting(), [0, 3590, 3610, 3649.9, 3650]

        def entry(number, seconds):
            moment = BEGIN + timedelta(seconds=seconds)
            return {"n": number, "time": moment.isoformat(), "name": "berta", "office": 1,
                    "path": "/con/c1/certify", "body": f"body {number}",
                    "status": second_name.WAITS}, moment

        for number, seconds in enumerate(moments):
            with self.subTest(seconds=seconds):
                one, moment = entry(number, seconds)
                waiting.take(one)
                bodies = [body for _, _, body, _ in waiting.requests[1, "c1"]]
                # The first one is there yet where nobody looked for it, and does not wait.
                first = 0 if seconds < 3650 else 1
                self.assertEqual(bodies, [f"body {n}" for n in range(first, number + 1)])
                before = range(int(seconds >= 3600), number)
                self.assertEqual([body for *_, body in waiting.others(one, moment)],
                                 [f"body {n}" for n in before])
                self.assertEqual(list(waiting.firsts(entry(0, 0)[0] | {"name": "simon"}, moment)),
                                 [0] if seconds < 3600 else [])
        for number in range(5, 1000):
            waiting.take(entry(number, 3700)[0])
        self.assertEqual([body for *_, body in waiting.others(*entry(998, 3700))],
                         [f"body {n}" for n in (994, 995, 996, 997, 999)])

    def test_within_an_hour(self):
        for moments, wanted in (
            ((("berta", 0), ("simon", 0)), [202, 200]),
            ((("berta", 0), ("simon", 3599.9)), [202, 200]),
            ((("berta", 0), ("simon", 3600)), [202, 202]),
            ((("berta", 0), ("simon", 3600), ("berta", 3601)), [202, 202, 200]),
            # Who asks once more has another hour.
            ((("berta", 0), ("berta", 3000), ("simon", 6599)), [202, 202, 200]),
            ((("berta", 0), ("berta", 3000), ("simon", 6600)), [202, 202, 202]),
            # Of two that wait one is late.
            ((("berta", 0), ("simon", 4000), ("carla", 4001)), [202, 202, 200]),
            # A clock that was put back says nothing of an hour.
            ((("berta", 0), ("simon", -1)), [202, 202]),
            ((("berta", 0), ("simon", -7200), ("simon", 10)), [202, 202, 200]),
            ((("berta", 0), ("simon", 86_400)), [202, 202]),
        ):
            with self.subTest(moments=moments):
                self.assertEqual(self.at(*moments), wanted)

    def test_what_else_waits_within_an_hour(self):
        waiting = second_name.Waiting()
        line = {"n": 1, "name": "berta", "office": 1, "path": "/con/c1/certify", "body": "{}",
                "status": 202, "time": BEGIN.isoformat()}
        waiting.take(line)
        for path, minutes, wanted in (("/con/c1/reopen", 59, 1), ("/con/c1/reopen", 60, 0),
                                      ("/con/c1/reopen", 0, 1), ("/con/c1/certify", 59, 0),
                                      ("/con/c12/reopen", 59, 0), ("/con/c/reopen", 59, 0)):
            with self.subTest(path=path, minutes=minutes):
                moment = BEGIN + timedelta(minutes=minutes)
                self.assertEqual(len(waiting.others(line | {"path": path}, moment)), wanted)

    def test_what_waited_in_vain_costs_no_memory(self):
        waiting = second_name.Waiting()
        for number in range(2000):
            moment = BEGIN + timedelta(seconds=10 * number)
            waiting.take({"n": number, "name": f"n{number % 3}", "office": 1, "status": 202,
                          "path": "/con/c1/certify", "body": str(number // 3),
                          "time": moment.isoformat()})
        self.assertLessEqual(len(waiting.requests), 121)
        self.assertLessEqual(sum(map(len, waiting.requests.values())), 360)


def waits(name, act="certify", body='{"edition":1}', minute=0, **more):
    return a_command(body, f"/con/c1/{act}") | {
        "role": "board", "name": name, "time": f"2026-11-29T21:{minute:02}:00.000+00:00",
        "status": 202} | more


def second(name, first, act="certify", body='{"edition":1}', minute=10, **more):
    found = waits(name, act, body, minute) | {"first": first} | more
    del found["status"]
    return found


def answer(to, status=200):
    return {"to": to, "status": status, "answer": '{"ok":"moved","edition":2}'}


class Tools(Safeguards):
    def entries(self, lines, *words):
        Path("setup.toml").write_text(SETUP, encoding="utf-8")
        ran = tools.run([DEPLOY / "entries", "setup.toml", *words], input=chained(*lines),
                        capture_output=True, timeout=PATIENCE)
        self.assertEqual(ran.stderr, b"")
        return ran.returncode, ran.stdout.decode().splitlines()[:-1]

    def test_two_names_in_entries(self):
        at = "2026-11-29T21:{:02}:00.000+00:00".format
        good = [waits("berta"), second("simon", 1), answer(2)]
        self.assertEqual(self.entries(good), (0, []))
        self.assertEqual(self.entries(good, "--two-of-board"), (0, []))
        alone = [second("simon", 1) | {"name": "berta"}]
        del alone[0]["first"]
        of_one = [*alone, answer(1)]
        self.assertEqual(self.entries(of_one), (0, []))
        self.assertEqual(self.entries(of_one, "--two-of-board"),
                         (1, [f"c1: certify by berta alone ({at(10)})"]))
        # An act that was refused was done by nobody.
        self.assertEqual(self.entries([*alone, answer(1, 409)], "--two-of-board"), (0, []))
        gone = alone[0] | {"path": "/con/c1/vacate", "body": '{"list":"A","place":1,"note":"x"}'}
        self.assertEqual(self.entries([gone, answer(1)], "--two-of-board"),
                         (1, [f"c1: vacate by berta alone ({at(10)})"]))

    def test_names_that_the_record_does_not_bear_out(self):
        late = waits("berta", minute=0) | {"time": "2026-11-29T20:10:00.000+00:00"}
        for why, lines in {
            "the same name": [waits("simon"), second("simon", 1)],
            "another body": [waits("berta", body='{"edition":2}'), second("simon", 1)],
            "another act": [waits("berta", "reopen"), second("simon", 1)],
            "another constituency": [waits("berta", path="/con/c2/certify"), second("simon", 1)],
            "another office": [waits("berta", office=2), second("simon", 1)],
            "an hour": [late, second("simon", 1)],
            "later": [waits("berta", minute=11), second("simon", 1)],
            "another line": [waits("berta"), second("simon", 7)],
            "nothing": [second("simon", 1), waits("berta")],
            "no request that waited": [second("berta", 1) | {"status": 403}, second("simon", 1)],
        }.items():
            with self.subTest(why=why):
                number = [n for n, line in enumerate(lines, 1) if line["name"] == "simon"
                          and "first" in line][0]
                status, said_of = self.entries([*lines, answer(number)], "--two-of-board")
                first = lines[number - 1]["first"]
                self.assertEqual((status, said_of[0]), (
                    1, f"line {number}: certify c1 by simon (2026-11-29T21:10:00.000+00:00): line "
                       f"{first} is not the same request of another name, within the hour before"))
                self.assertIn("c1: certify by simon alone (2026-11-29T21:10:00.000+00:00)", said_of)

    def test_returns_that_changed_between_both_names(self):
        """The first name saw other figures than those that are certified."""
        def of_s1(act, **body):
            return a_command(json.dumps(body), f"/station/s1/{act}") | {
                "time": "2026-11-29T21:05:00.000+00:00"}

        slip = {"slip": "p1", "votes": [9, 1], "blank": 0, "spoiled": 0}
        closed = [of_s1("lodge", **slip), answer(1), of_s1("close", rev=1), answer(3)]
        others = [of_s1("query", rev=2, note="9 or 1?"), answer(6),
                  of_s1("correct", rev=3, **slip | {"votes": [1, 9]}), answer(8),
                  of_s1("close", rev=4), answer(10)]
        said = "s1 changed after the first of these asked"
        for act, body in ACTS.items():
            with self.subTest(act=act):
                first, both = waits("berta", act, body), second("simon", 5, act, body)
                self.assertEqual(self.entries([*closed, first, *others, both, answer(12)]), (
                    1, [f"c1: {act} by berta and simon (2026-11-29T21:10:00.000+00:00): {said}"]))
                # A command that was refused changed nothing, nor did one before both.
                refused = [of_s1("query", rev=7, note="9 or 1?"), answer(6, 409)]
                self.assertEqual(self.entries([*closed, first, *refused, both, answer(8)]),
                                 (0, []))
        # The edition changed, as after a reopening and another certificate.
        reopened = [a_command('{"edition":2,"note":"sum"}', "/con/c1/reopen"), answer(6)]
        first, both = (one("vacate", ACTS["vacate"]) for one in (
            lambda *act: waits("berta", *act), lambda *act: second("simon", 5, *act)))
        self.assertEqual(self.entries([*closed, first, *reopened, both, answer(8)]), (
            1, ["c1: vacate by berta and simon (2026-11-29T21:10:00.000+00:00): c1 changed after "
                "the first of these asked"]))
        self.assertEqual(self.entries([*closed, reopened[0], answer(5), first, both | {"first": 7},
                                       answer(8)]), (0, []))
        # Of a certificate that was refused nothing has to be looked at.
        lines = [*closed, waits("berta"), *others, second("simon", 5), answer(12, 409)]
        self.assertEqual(self.entries(lines), (0, []))

    def test_a_first_name_is_used_up(self):
        lines = [waits("berta"), second("simon", 1), answer(2, 409), second("carla", 1)]
        status, said_of = self.entries([*lines, answer(4)])
        self.assertEqual((status, len(said_of)), (1, 1))
        self.assertIn("line 4: certify c1 by carla", said_of[0])

    def test_what_waited_in_vain_is_a_remark(self):
        lines = [waits("berta", "reopen"), waits("berta"), second("simon", 2, minute=20), answer(3),
                 waits("simon", "draw", '{"edition":1,"order":["A","B"]}', 30)]
        self.assertEqual(self.entries(lines, "--two-of-board"), (0, [
            "remark: c1: reopen by berta (2026-11-29T21:00:00.000+00:00) found no second name",
            "remark: c1: draw by simon (2026-11-29T21:30:00.000+00:00) found no second name"]))

    def test_both_names_of_a_certificate(self):
        Path("setup.toml").write_text(SETUP.replace("seats = 3\n", 'seats = 3\nentry = "double"\n'),
                                      encoding="utf-8")
        lines = [waits("berta"), second("simon", 1), answer(2)]
        ran = tools.run([DEPLOY / "entries", "setup.toml"], input=chained(*lines),
                        capture_output=True, timeout=PATIENCE)
        self.assertEqual((ran.returncode, ran.stdout.decode().splitlines()[0]), (
            1, "c1: certified by berta and simon (2026-11-29T21:10:00.000+00:00), edition 2, "
               "over s1"))

    def test_replay_sends_once_what_went_through(self):
        closed = ("/station/s1/lodge", json.dumps(LODGED)), ("/station/s1/close", '{"rev":1}')
        lines = [entry for number, (target, body) in enumerate(closed) for entry in (
            a_command(body, target), answer(2 * number + 1))]
        lines += [waits("berta"), waits("berta"), second("simon", 6), answer(7),
                  waits("carla", "reopen"), second("simon", 9, "reopen"), answer(10, 409)]
        with commanded(SETUP) as (_, port, came):
            status, said_of = replayed(port, chained(*lines))
            self.assertEqual((status, said_of.split(";")[0]), (0, "sent 3, to look at 0"))
            self.assertEqual(came, [*closed, ("/con/c1/certify", '{"edition":1}')])
        checked = tools.run([DEPLOY / "replay", "--check"], input=chained(*lines),
                            capture_output=True, timeout=PATIENCE)
        self.assertEqual(checked.returncode, 0)

    def test_the_records_of_the_recorder(self):
        """The lines that the recorder writes itself, `entries` and `replay` read without a word."""
        Path("setup.toml").write_text(SETUP, encoding="utf-8")
        with two_names():
            for name in ("berta", "simon"):
                board("/con/c1/certify", ACTS["certify"], name)
        lines = Path("commands.log").read_bytes()
        self.assertEqual(len(lines.splitlines()), 3)
        for words in (("entries", "setup.toml", "--two-of-board"), ("replay", "--check")):
            ran = tools.run([DEPLOY / words[0], *words[1:]], input=lines, timeout=PATIENCE,
                            capture_output=True)
            self.assertEqual((words, ran.returncode), (words, 0), ran)


class OfBoard(WithSetup):
    """The proxy with two names of the board, and a recorder that needs both."""

    recorder_words = ("--two-of-board",)


@contextlib.contextmanager
def site_of_board(port):
    front = OfBoard(port)
    front.configure('clara clerk;\nberta board;\nsimon board;\nbea "board c2";\n')
    try:
        front.start()
        yield front
    finally:
        front.end()


@contextlib.contextmanager
def counted(before=lambda: None):
    """In place of the office its model, in which every return is closed: A and B have as many
    votes. Its port. Before each answer to a command something may be done."""
    office = model.Office(tomllib.loads(SETUP))

    def answered(head, body):
        method, target = head.decode().split(" ")[:2]
        if method == "POST":
            before()
        return answer_of(office.ask(method, target, body.decode()))

    done(office, "/station/s1/lodge", {"slip": "p1", "votes": [60, 60], "blank": 0, "spoiled": 0})
    done(office, "/station/s1/close", {"rev": 1})
    with desk_with(answered) as port:
        yield port


class Site(Safeguards):
    @needs("nginx", "openssl")
    def test_through_the_proxy(self):
        """Only names of the board are two names, and only where they may act."""
        Path("setup.toml").write_text(SETUP, encoding="utf-8")
        with recording_desk() as (port, messages), site_of_board(port) as front:
            def asked(name):
                return front.ask("POST", "/con/c1/certify", ACTS["certify"], name).status

            self.assertEqual([asked(name) for name in ("berta", "bea", "clara", "berta", "simon")],
                             [202, 403, 403, 202, 200])
            self.assertEqual(len(messages), 1)
            # The record begins with its setup.
            first = (front.folder / "log/commands.log").read_text().splitlines()[0]
            self.assertIn('"setup": ', first)
            found = front.ask("POST", "/con/c1/reopen", ACTS["reopen"], "berta")
            self.assertIn("application/json", found.head["Content-Type"])
            self.assertEqual(json.loads(found.body)["word"], "waits_for_second_name")

    @needs("chromium", "nginx", "openssl")
    def test_the_page_of_the_board(self):
        """A certificate that needs a lot: the page says what waits, and of the lot among whom."""
        Path("setup.toml").write_text(SETUP, encoding="utf-8")
        waiting = "it waits until"
        with counted() as port, site_of_board(port) as front:
            with clerks_browser(front, "berta") as one, clerks_browser(front, "simon") as other:
                def certify(it, words):
                    confirmed(it, "#certify button", "Certify Twin Town?", words)

                def draw(it, words):
                    it.run("document.querySelectorAll('#order select').forEach((e, n) => {"
                           "e.value = ['B', 'A'][n]; })")
                    it.click("#draw button")
                    said(it, words)

                certify(one, waiting)
                self.assertEqual(one.text("#receipt summary"), "")
                certify(other, "A lot is needed among A, B, for one seat.")
                draw(other, waiting)
                # All returns are closed: that a lot is needed was seen before anybody asked.
                self.assertTrue(one.run("return !document.getElementById('draw').hidden"))
                certify(one, "Waiting too, by simon: Record the lot: B, A.")
                draw(one, "Done.")
                self.assertIn("a lot", one.text("#receipt summary"))
                certify(one, waiting)
                other.click("#again")
                said(other, "This is what the office has now.")
                certify(other, "Done.")
            acts = [(line["name"], line["path"].split("/")[3], line["status"])
                    for line in front.record(7)]
            self.assertEqual(acts, [
                ("berta", "certify", 202), ("simon", "certify", 409), ("simon", "draw", 202),
                ("berta", "certify", 202), ("berta", "draw", 200), ("berta", "certify", 202),
                ("simon", "certify", 200)])

    @needs("chromium", "nginx", "openssl")
    def test_a_request_that_the_browser_sends_again(self):
        """By itself, since the proxy ended its connection without an answer: the page says what was
        done, and the second name does not wait once more."""
        Path("setup.toml").write_text(SETUP, encoding="utf-8")
        ended = []

        def end():
            """Kills the processes that serve, in whose place the proxy starts others."""
            ended.extend(map(int, children(front)))
            for process in ended:
                os.kill(process, signal.SIGKILL)

        with counted(end) as port, site_of_board(port) as front:
            self.assertEqual(front.ask("POST", "/con/c1/draw", '{"edition":1,"order":["B","A"]}',
                                       "berta").status, 202)
            with clerks_browser(front, "simon") as it:
                it.run("document.querySelectorAll('#order select').forEach((e, n) => {"
                       "e.value = ['B', 'A'][n]; })")
                it.click("#draw button")
                it.wait("return !document.getElementById('again').disabled")
                self.assertEqual(it.text("#said"), "Done.")
                it.run("document.getElementById('receipt').open = true")
                self.assertEqual(receipt(it)["By"], "simon, board")
            self.assertTrue(ended)
            self.assertEqual([(line["name"], line["status"]) for line in front.record(2)],
                             [("berta", 202), ("simon", 200)])

    @needs("chromium", "nginx", "openssl")
    def test_a_page_that_another_name_loaded(self):
        """In another window of its browser somebody logged in under another name: what is pressed
        is done under neither, and no receipt has a name that the record has not."""
        Path("setup.toml").write_text(SETUP, encoding="utf-8")
        with counted() as port, site_of_board(port) as front:
            with clerks_browser(front, "berta") as it:
                def draw(words):
                    it.run("document.querySelectorAll('#order select').forEach((e, n) => {"
                           "e.value = ['B', 'A'][n]; })")
                    it.click("#draw button")
                    said(it, words)

                draw("it waits until")
                it.command("Network.setExtraHTTPHeaders",
                           headers={"Authorization": front.authorization("simon")})
                draw("this page was loaded under another name")
                self.assertEqual((it.text("#person"), it.text("#receipt summary")),
                                 ("berta, board", ""))
                # What was chosen stays, until the page is loaded again.
                self.assertEqual(it.run("return [...document.querySelectorAll('#order select')]"
                                        ".map((e) => e.value)"), ["B", "A"])
                it.run("document.forms.draw.reset(); location.reload()")
                it.wait("return document.getElementById('person').textContent === 'simon, board'")
                said(it, "This is what the office has now.")
                draw("Done.")
                it.run("document.getElementById('receipt').open = true")
                self.assertEqual(receipt(it)["By"], "simon, board")
            self.assertEqual([(line["name"], line["status"]) for line in front.record(2)],
                             [("berta", 202), ("simon", 200)])
