"""Changes in a constituency between the requests of two names of the board: the second name is then
a first one again, and nothing is done over figures that only one of them saw."""

import concurrent.futures
import contextlib
import itertools
import json
import os
import random
import signal
import tempfile
import threading
from datetime import datetime, timedelta
from pathlib import Path

from tests.deploy.test_two_of_the_board import ACTS, BEGIN, board, record, site_of_board
from tests.support import tools
from tests.support.case import needs
from tests.support.clerks import clerks_browser, confirmed, said
from tests.support.desks import desk_with
from tests.support.office import with_stations
from tests.support.recorder import recorder_alone, recorder_at
from tests.support.running import PATIENCE, until
from tests.support.safeguards import TWO_TOWNS, Safeguards
from tests.support.scripts import loaded, module
from tests.support.site import DEPLOY, SiteCase, plain, serving

second_name = module("second_name")

STATIONS = {"s1": "c1", "s2": "c1", "t1": "c2"}
KNOWN = [{"code": con, "stations": [{"code": code} for code in STATIONS if STATIONS[code] == con]}
         for con in ("c1", "c2")]
DONE = '{"ok":"moved","rev":2}'
IMPORTED = '{"bad":0,"differs":0,"first":null,"lodged":%d,"ok":"import","refused":0,"same":2}'
CERTIFY = "/con/c1/certify"
# Each way of changing a return of c1, or its edition.
CHANGES = ("/station/s1/lodge", "/station/s2/query", "/station/s1/correct", "/station/s2/close",
           "/station/s1/confirm", "/con/c1/import", "/con/c1/import/semicolon", "/con/c1/draw",
           "/con/c1/certify", "/con/c1/reopen")
# Requests that change none of it, beside those that are refused, with their answers.
OTHERS = (("/station/t1/correct", DONE), ("/con/c2/import", IMPORTED % 1),
          ("/con/c2/reopen", '{"edition":2,"ok":"edition"}'),
          ("/con/c1/vacate", '{"next":2,"ok":"vacated"}'), ("/con/c1/trial", DONE),
          ("/station/s1/lodge", '{"ok":"same","rev":1}'), ("/con/c1/import", IMPORTED % 0))


class Desk:
    """In place of the office something that gives the answers of a test, and waits as it says."""

    def __init__(self):
        self.answers, self.asked, self.held = {}, [], {}

    def answered(self, head, body):
        target = head.decode().split(" ")[1]
        self.asked.append(target)
        if target in self.held:
            self.held[target].wait(PATIENCE)
        answer = self.answers.get(target, (200, DONE))
        if isinstance(answer, list):
            answer = answer.pop(0)
        if answer is None or isinstance(answer, bytes):
            return answer or b""
        status, text = answer
        return (f"HTTP/1.1 {status} X\r\nContent-Type: application/json\r\nContent-Length: "
                f"{len(text)}\r\nConnection: close\r\n\r\n{text}").encode()


@contextlib.contextmanager
def two_names(*words, known=True):
    """The recorder that needs two names, before such a desk, which it may reach as two offices."""
    Path("setup.json").write_text(json.dumps(KNOWN), encoding="utf-8")
    if known:
        words += ("--setup", "setup.json")
    desk = Desk()
    with desk_with(desk.answered) as port, desk_with(desk.answered) as other:
        with recorder_alone(port, "--desk", f"127.0.0.1:{other}", "--two-of-board", *words) as it:
            desk.process = it
            yield desk


def first_and_then(path, name="clara", office=1, body="{}"):
    """Another request after the first one of a certificate, and then the answer to a second name:
    its status, and who was too early."""
    asked = board(CERTIFY)
    assert asked[0] == 202, asked
    if path in [f"/con/c1/{act}" for act in ACTS]:
        # It needs two names itself.
        assert board(path, "[]", "carla", office)[0] == 202
    with contextlib.suppress(ValueError):  # without an answer
        board(path, "[]" if "/con/c1/" in path else body, name, office)
    status, text = board(CERTIFY, name="simon")
    return status, [one["name"] for one in json.loads(text).get("too_early", [])]


def asked_by(*names):
    """The statuses of the answers to a request of each of these names."""
    return [board(CERTIFY, name=name)[0] for name in names]


class Changes(Safeguards):
    def test_each_change_of_the_constituency(self):
        with two_names() as desk:
            for path in CHANGES:
                with self.subTest(path=path):
                    desk.asked.clear()
                    self.assertEqual(first_and_then(path), (202, ["berta"]))
                    self.assertEqual(desk.asked, [path])
                    # It is a first one, and berta, who looks at the figures again, the second.
                    self.assertEqual(board(CERTIFY), (200, DONE))

    def test_each_request_that_waits(self):
        with two_names():
            for act, body in ACTS.items():
                with self.subTest(act=act):
                    path = f"/con/c1/{act}"
                    self.assertEqual(board(path, body)[0], 202)
                    board("/station/s1/correct")
                    self.assertEqual([board(path, body, name)[0] for name in ("simon", "berta")],
                                     [202, 200])

    def test_what_changes_nothing_there(self):
        with two_names() as desk:
            for path, answer in OTHERS:
                with self.subTest(path=path, answer=answer):
                    desk.answers = {path: (200, answer)}
                    self.assertEqual(first_and_then(path), (200, []))

    def test_another_office(self):
        with two_names():
            self.assertEqual(first_and_then("/station/s1/correct", office=2), (200, []))

    def test_a_change_that_was_refused(self):
        with two_names() as desk:
            for status, path in itertools.product((400, 404, 409, 413), CHANGES):
                with self.subTest(status=status, path=path):
                    desk.answers = {path: (status, '{"word":"stale","refused":11,"now":2}')}
                    wanted = status if path == CERTIFY else 200
                    self.assertEqual(first_and_then(path)[0], wanted)
            # Nor has one that its name may not give changed anything.
            desk.answers = {}
            self.assertEqual(board(CERTIFY)[0], 202)
            self.assertEqual(board("/station/s1/correct", allowed="0")[0], 403)
            self.assertEqual(board(CERTIFY, name="simon")[0], 200)

    def test_why_it_ended(self):
        """The page says which change there was: a return, the edition, or one of both."""
        for path, answer, changed in (
                ("/station/s1/correct", None, "return"), ("/con/c1/import", None, "return"),
                ("/con/c1/draw", None, "edition"), ("/con/c1/reopen", None, "edition"),
                ("/station/s1/close", (504, "{}"), "unknown"),
                ("/con/c1/draw", (504, "{}"), "unknown")):
            Path("commands.log").unlink(missing_ok=True)
            with self.subTest(path=path, answer=answer), two_names() as desk:
                if answer:
                    desk.answers[path] = answer
                self.assertEqual(first_and_then(path), (202, ["berta"]))
                said_of = json.loads(board(CERTIFY, name="simon")[1])
                self.assertEqual([one["changed"] for one in said_of["too_early"]], [changed])

    def test_an_answer_that_is_not_known(self):
        """Nobody knows what the office did, or will do yet: it is asked before the next name is the
        first one."""
        with two_names() as desk:
            for answer in (None, b"no answer of HTTP\r\n\r\n", (500, "{}"), (502, "{}"),
                           (503, "{}"), (504, "{}"), (302, ""), (200, "?"), (200, "[]"),
                           (200, '{"ok":"import"}'), (200, '{"ok":"import","lodged":"0"}')):
                with self.subTest(answer=answer):
                    desk.asked.clear()
                    desk.answers["/station/s1/correct"] = answer
                    self.assertEqual(first_and_then("/station/s1/correct"), (202, ["berta"]))
                    unknown = not isinstance(answer, tuple) or answer[0] in (502, 503, 504)
                    self.assertEqual(desk.asked.count("/progress"), unknown)
                    # Once is enough.
                    self.assertEqual(board(CERTIFY)[0], 200)
                    self.assertEqual(desk.asked.count("/progress"), unknown)

    def test_a_command_that_was_sent_again(self):
        """The office ends after it did a change, before it answers: the answer to the same command,
        sent again, is that it was recorded before."""
        for path, said_again in (("/station/s1/lodge", '{"ok":"same","rev":1}'),
                                 ("/con/c1/import", IMPORTED % 0)):
            with self.subTest(path=path):
                with two_names() as desk:
                    desk.answers[path] = [None, (200, said_again)]
                    self.assertEqual(first_and_then(path), (202, ["berta"]))
                    self.assertEqual(desk.asked, [path, path])
                # And a recorder that starts knows it.
                with two_names():
                    self.assertEqual(asked_by("berta"), [200])
                self.assertEqual([line.get("again") for line in record() if "to" in line],
                                 [True, None])
                Path("commands.log").unlink()

    def test_an_office_that_says_nothing_more(self):
        """No name is the first one while the office may still do a command of before."""
        with two_names() as desk:
            desk.answers.update({"/station/s1/correct": None, "/progress": None})
            self.assertEqual(board("/station/s1/correct")[0], 502)
            self.assertEqual(asked_by("berta"), [502])
            desk.answers["/progress"] = b"no answer of HTTP\r\n\r\n"
            self.assertEqual(asked_by("simon"), [502])
            self.assertNotIn(CERTIFY, desk.asked)
            desk.answers.clear()
            self.assertEqual(asked_by("berta", "simon"), [202, 200])
            self.assertEqual([line["status"] for line in record() if "to" in line], [None, 200])
            # Those that were not sent say so in their own lines.
            self.assertEqual([(line["name"], line["status"]) for line in record()
                              if "status" in line and "to" not in line],
                             [("berta", 502), ("simon", 502), ("berta", 202)])

    def test_a_request_that_was_not_sent(self):
        """It ends nothing that waits: neither in the recorder, nor where it starts again, nor for
        `entries`."""
        Path("setup.toml").write_text(TWO_TOWNS, encoding="utf-8")
        there = "/con/c2/certify"
        with two_names() as desk:
            self.assertEqual(board(there)[0], 202)
            for answer, status in ((None, 502), ((504, "{}"), 504)):
                desk.answers.update({"/station/s1/correct": answer, "/progress": answer})
                board("/station/s1/correct", role="clerk")
                self.assertEqual(board(there, name="simon")[0], status)
            desk.answers.clear()
            self.assertEqual(desk.asked.count(there), 0)
            self.assertEqual(board(there, name="simon")[0], 200)
        whole = Path("commands.log").read_bytes().splitlines(keepends=True)
        self.assertEqual([line["first"] for line in record() if "first" in line], [2])
        said = tools.run([DEPLOY / "entries", "setup.toml"], input=b"".join(whole),
                         capture_output=True, timeout=PATIENCE).stdout.decode().splitlines()
        self.assertEqual([line for line in said if "certify" in line], [])
        Path("commands.log").write_bytes(b"".join(whole[:-2]))
        with two_names():
            self.assertEqual(board(there, name="simon")[0], 200)

    def test_an_office_that_a_failed_disk_has_shut(self):
        """Its next opening finds the change done, or not: until then no name is the first one."""
        unavailable = 503, '{"refused":23,"word":"store"}'
        with two_names() as desk:
            desk.answers.update({"/station/s1/correct": unavailable, "/progress": unavailable,
                                 "/station/s2/close": (400, '{"word":"bad_body"}')})
            self.assertEqual(board("/station/s1/correct")[0], 503)
            self.assertEqual(asked_by("berta"), [503])
            # What it cannot read it refuses as ever.
            self.assertEqual(board("/station/s2/close")[0], 400)
            self.assertEqual(asked_by("simon", "berta"), [503, 503])
        with two_names() as desk:
            desk.answers["/progress"] = unavailable
            self.assertEqual(asked_by("simon", "berta"), [503, 503])
            desk.answers["/progress"] = 404, "{}"
            self.assertEqual(asked_by("simon"), [502])
            self.assertNotIn(CERTIFY, desk.asked)
            desk.answers.clear()
            self.assertEqual(asked_by("berta", "simon"), [202, 200])

    def test_a_station_of_which_nobody_knows_where_it_is(self):
        """Without a setup each change of a station ends all that waits in the office; an import
        ends what waits in its constituency."""
        with two_names(known=False):
            for path, office, wanted in (
                    ("/station/t1/correct", 2, 200), ("/con/c2/import", 1, 200),
                    ("/con/c1/import", 1, 202), ("/station/t1/correct", 1, 202)):
                with self.subTest(path=path, office=office):
                    self.assertEqual(first_and_then(path, office=office)[0], wanted)
                    self.assertEqual(board(CERTIFY)[0], 200 if wanted == 202 else 202)
                    self.assertEqual(board(CERTIFY, name="simon")[0], 202 if wanted == 202 else 200)
                    board(CERTIFY, name="carla") if wanted == 202 else None
        Path("commands.log").unlink()
        with two_names():
            self.assertEqual(first_and_then("/station/unknown/correct")[0], 202)

    def test_what_is_said_of_the_first_name(self):
        with two_names():
            self.assertEqual(board(CERTIFY)[0], 202)
            board("/station/s1/correct")
            self.assertEqual(board(CERTIFY, name="carla")[0], 202)
            board("/station/s1/correct")
            said_of = json.loads(board(CERTIFY, name="simon")[1])
            self.assertEqual([one["name"] for one in said_of["too_early"]], ["berta", "carla"])
            times = [line["time"][:19] for line in record() if line.get("status") == 202][:2]
            self.assertEqual([one["time"][:19] for one in said_of["too_early"]], times)
            # It is not among what else waits, and nobody was too early for another request.
            found = json.loads(board("/con/c1/reopen", name="simon")[1])
            self.assertEqual(([one["name"] for one in found["others"]], found["too_early"]),
                             (["simon"], []))
            # Who asks again is not too early.
            self.assertEqual(board(CERTIFY)[0], 200)
            self.assertEqual(json.loads(board(CERTIFY)[1])["too_early"], [])


class UnderWay(Safeguards):
    """A change that is on its way while the second name asks."""

    def setUp(self):
        super().setUp()
        self.pool = self.enterContext(concurrent.futures.ThreadPoolExecutor(8))

    def test_a_change_that_the_office_has(self):
        """The second name waits for its answer, and is then a first one, or the second where the
        change was refused."""
        for status, wanted in ((200, 202), (409, 200), (503, 202)):
            with self.subTest(status=status), two_names() as desk:
                desk.held["/station/s1/correct"] = held = threading.Event()
                desk.answers["/station/s1/correct"] = status, DONE
                self.assertEqual(board(CERTIFY)[0], 202)
                change = self.pool.submit(board, "/station/s1/correct")
                until(lambda: "/station/s1/correct" in desk.asked)
                second = self.pool.submit(board, CERTIFY, name="simon")
                with self.assertRaises(TimeoutError):
                    second.result(0.5)
                self.assertNotIn(CERTIFY, desk.asked)
                held.set()
                self.assertEqual((change.result()[0], second.result()[0]), (status, wanted))
            Path("commands.log").unlink()

    def test_a_change_that_the_office_has_not_yet(self):
        """It is recorded, and comes after what both names asked for."""
        with two_names() as desk:
            desk.held[CERTIFY] = held = threading.Event()
            self.assertEqual(board(CERTIFY)[0], 202)
            second = self.pool.submit(board, CERTIFY, name="simon")
            until(lambda: CERTIFY in desk.asked)
            change = self.pool.submit(board, "/station/s1/correct")
            until(lambda: record()[-1].get("path") == "/station/s1/correct")
            held.set()
            self.assertEqual((second.result()[0], change.result()[0]), (200, 200))
            self.assertEqual(desk.asked, [CERTIFY, "/station/s1/correct"])

    def test_the_desk_is_held_from_the_decision_on(self):
        """Whether a request is the second one, and that it is sent, is one turn at the desk."""
        recorder, turns = loaded("recorder.py"), []
        recorder.sys = type("Sys", (), {"stdout": self.enterContext(open("copy", "wb"))})

        class Lock:
            turn, held = 0, False

            def __enter__(self):
                self.turn, self.held = self.turn + 1, True

            def __exit__(self, *_):
                self.held = False

        def ask(*_):
            turns.append((lock.held, lock.turn, "sent"))
            return recorder.Answer(200, DONE.encode())

        lock, live = Lock(), recorder.Record("log", 0)
        desk = type("Desk", (), {"lock": lock, "files": recorder.Files(), "ask": ask})()
        one, add = recorder.Recorder(live, desk, 1, recorder.Limit(), True), live.add_of_board

        def added(entry):
            turns.append((lock.held, lock.turn, "decided"))
            return add(entry)

        live.add_of_board = added
        for name in ("berta", "simon"):
            one.answered("POST", CERTIFY, {
                "office-name": name, "office-role": "board", "office-address": "192.0.2.1",
                "office-allowed": "1"}, b"{}")
        self.assertEqual(turns, [(True, 1, "decided"), (True, 2, "decided"), (True, 2, "sent")])

    def test_changes_and_names_at_once(self):
        """However they meet: between both names no change was answered."""
        with two_names() as desk:
            for number in range(60):
                asked = [(CERTIFY, "{}", "berta"), ("/station/s1/correct", "{}", "clara"),
                         (CERTIFY, "{}", "simon"), ("/station/s2/correct", "{}", "clara")]
                random.Random(number).shuffle(asked)
                list(self.pool.map(lambda one: board(*one), asked))
            lines = record()
            self.assertEqual(desk.asked.count(CERTIFY), sum("first" in line for line in lines))
        self.assertGreater(sum("first" in line for line in lines), 5)
        self.assertGreater(sum(line.get("status") == 202 for line in lines), 5)
        self.assertEqual(wrong_lines(lines), [])


def changes_of(lines):
    """The numbers of the answers that end what waits in c1 of office 1, by the documents."""
    commands = {line["n"]: line for line in lines if "path" in line}
    for line in lines:
        command = commands.get(line.get("to"))
        if command and command["office"] == 1:
            _, kind, code, act = command["path"].split("/", 3)
            refused = line["status"] in (400, 404, 409) or line.get("answer") in [
                '{"ok":"same","rev":1}', IMPORTED % 0]
            con = code if kind == "con" else STATIONS.get(code, "c1")
            if con == "c1" and act != "vacate" and not refused:
                yield line["n"]


def wrong_lines(lines):
    """The requests for a certificate of c1 that are a first or a second one and should not be."""
    changes, waiting, wrong = set(changes_of(lines)), {}, []
    for line in lines:
        if line["n"] in changes:
            waiting.clear()
        if line.get("path") == CERTIFY and line["office"] == 1 and line.get("status") != 403:
            moment = datetime.fromisoformat(line["time"])
            others = {n for name, (n, first) in waiting.items()
                      if name != line["name"] and moment - first < timedelta(hours=1)}
            if line.get("status") == 202 and not others:
                waiting[line["name"]] = line["n"], moment
            elif line.get("first") in others:
                waiting.clear()
            else:
                wrong.append(line["n"])
    return wrong


class FromTheRecord(Safeguards):
    """A recorder that starts knows what the one before knew."""

    def restarted(self, act, killed=lambda desk: None, asked=None):
        """The answer to a second name where an act came before, and then the end of a recorder."""
        with two_names() as desk:
            self.assertEqual(board(CERTIFY)[0], 202)
            act(desk)
            killed(desk)
            desk.process.send_signal(signal.SIGKILL)
            desk.process.wait()
        with two_names() as desk:
            status, text = board(CERTIFY, name="simon")
            if asked is not None:
                self.assertEqual(desk.asked[:1] == ["/progress"], asked)
        Path("commands.log").unlink()
        return status, [one["name"] for one in json.loads(text).get("too_early", [])]

    def test_a_recorder_that_was_killed_between_both(self):
        def refused(desk):
            desk.answers["/station/s1/correct"] = 409, "{}"
            board("/station/s1/correct")

        for why, act, wanted in (
                ("nothing", lambda _: None, (200, [])),
                ("a change", lambda _: board("/station/s1/correct"), (202, ["berta"])),
                ("another constituency", lambda _: board("/station/t1/correct"), (200, [])),
                ("refused", refused, (200, [])),
                ("may not", lambda _: board("/station/s1/correct", allowed="0"), (200, []))):
            with self.subTest(why=why):
                self.assertEqual(self.restarted(act, asked=False), wanted)

    def test_a_change_without_an_answer(self):
        """The recorder was killed while the office had it."""
        for path, wanted in (("/station/s1/correct", (202, ["berta"])),
                             ("/station/t1/correct", (200, [])), ("/con/c1/vacate", (200, []))):
            with self.subTest(path=path), concurrent.futures.ThreadPoolExecutor() as pool:
                def act(desk, path=path, pool=pool):
                    desk.held[path] = threading.Event()
                    if path.endswith("vacate"):
                        board(path)
                    pool.submit(board, path, name="clara")
                    until(lambda: path in desk.asked)

                self.assertEqual(self.restarted(act, asked=True), wanted)

    def test_an_answer_that_is_not_recorded(self):
        """The record cannot be written to while the office does a change: after a start nobody
        would know the answer."""
        for status in (200, 409):
            with self.subTest(status=status), concurrent.futures.ThreadPoolExecutor() as pool:
                with two_names() as desk:
                    desk.held["/station/s1/correct"] = held = threading.Event()
                    desk.answers["/station/s1/correct"] = status, "{}"
                    self.assertEqual(board(CERTIFY)[0], 202)
                    change = pool.submit(board, "/station/s1/correct")
                    until(lambda: "/station/s1/correct" in desk.asked)
                    size = os.stat("commands.log").st_size
                    with open("commands.log", "ab") as file:
                        file.write(b"x")
                    held.set()
                    self.assertEqual(change.result()[0], status)
                    os.truncate("commands.log", size)
                    self.assertEqual(asked_by("simon", "berta"), [202, 200])
                self.assertIn("is not recorded", Path("said").read_text(encoding="utf-8"))
                Path("commands.log").unlink()

    def test_hours_at_random(self):
        """A recorder waits for what it would find in the record, and each line is right."""
        for number in range(10):
            with self.subTest(number=number), tempfile.TemporaryDirectory() as folder:
                self.at_random(random.Random(number), Path(folder) / "log", number % 4 == 0)

    def at_random(self, by_chance, file, is_unknown):
        clock = [BEGIN]
        recorder = recorder_at(self, clock)
        setup = None if is_unknown else recorder.Setup("0" * 64, STATIONS)
        answers = [recorder.Answer(*one) for one in (
            (200, DONE.encode()), (409, b"{}"), (None,), (503, b"{}"),
            (200, b'{"ok":"same","rev":1}'))]

        def ask(_, method, *more):
            return answers[0] if method == "GET" else by_chance.choice(answers)

        desk = type("Desk", (), {"lock": threading.Lock(), "files": recorder.Files(),
                                 "ask": ask})()
        live = recorder.Record(file, 0, setup)
        live.sync = lambda: None
        offices = [recorder.Recorder(live, desk, office, recorder.Limit(), True)
                   for office in (1, 2)]
        for one in offices:
            one.limit.is_over = lambda *_: False
        for step in range(150):
            clock[0] += timedelta(seconds=by_chance.choice((1, 30, 400, 1500)))
            name = by_chance.choice(("berta", "simon", "carla"))
            path = by_chance.choice((*[CERTIFY] * 4, *CHANGES, *(path for path, _ in OTHERS)))
            fields = {"office-name": name, "office-role": "board", "office-address": "192.0.2.1",
                      "office-allowed": by_chance.choice("1111110")}
            by_chance.choice((*offices, offices[0])).answered("POST", path, fields, b"{}")
            if step % 3 == 0:
                again = recorder.Record(file, 0, setup).waiting
                self.assertEqual((again.requests, again.ended),
                                 (live.waiting.requests, live.waiting.ended))
        lines = [json.loads(line) for line in file.read_text().splitlines()]
        self.assertGreater(sum(line.get("status") == 202 for line in lines), 10)
        if not is_unknown:
            self.assertEqual(wrong_lines(lines), [])

    def test_a_long_record(self):
        """A command that has its answer costs no memory, nor does a request that was ended an hour
        ago."""
        waiting = second_name.Waiting(STATIONS)
        for number in range(1, 9001, 3):
            at = {"time": (BEGIN + timedelta(seconds=10 * number)).isoformat(), "office": 1}
            waiting.take(at | {"n": number, "name": "berta", "path": CERTIFY, "body": str(number),
                               "status": 202})
            waiting.take(at | {"n": number + 1, "name": "clara", "path": "/station/s1/correct"})
            waiting.take({"n": number + 2, "to": number + 1, "status": 200, "answer": DONE})
        self.assertEqual((waiting.under_way, waiting.requests), ({}, {}))
        self.assertLessEqual(len(waiting.ended[1, "c1"]), 121)


SLIP = {"slip": "p1", "votes": [120, 71], "blank": 2, "spoiled": 1}


class RealOffice(SiteCase):
    @needs("nginx", "openssl")
    def test_figures_that_the_first_name_never_saw(self):
        """The attack itself: a clerk corrects a return between the two names of a certificate."""
        with serving(with_stations(1)) as desk, site_of_board(desk.port) as front:
            def sent(name, target, **body):
                found = front.ask("POST", target, json.dumps(body), name)
                return found.status, json.loads(found.body)

            def is_certified():
                return json.loads(plain(desk.port, "GET", "/con/c1").body)["certified"]

            self.assertEqual(sent("clara", "/station/s1/lodge", **SLIP)[0], 200)
            self.assertEqual(sent("clara", "/station/s1/close", rev=1)[0], 200)
            self.assertEqual(sent("berta", CERTIFY, edition=1)[0], 202)
            for act, body in (("query", {"rev": 2, "note": "sum"}),
                              ("correct", {"rev": 3} | SLIP | {"votes": [71, 120]}),
                              ("close", {"rev": 4})):
                self.assertEqual(sent("clara", f"/station/s1/{act}", **body)[0], 200)
            status, said_of = sent("simon", CERTIFY, edition=1)
            early = [one["name"] for one in said_of["too_early"]]
            self.assertEqual((status, said_of["word"], early),
                             (202, "waits_for_second_name", ["berta"]))
            self.assertFalse(is_certified())
            # A change that is refused leaves it waiting, and berta agrees to the new figures.
            self.assertEqual(sent("clara", "/station/s1/close", rev=1)[0], 409)
            self.assertEqual(sent("berta", CERTIFY, edition=1),
                             (200, {"edition": 2, "ok": "edition"}))
            self.assertTrue(is_certified())
            lines = (front.folder / "log/commands.log").read_bytes()
        found = tools.run([DEPLOY / "entries", "setup.toml", "--two-of-board"], input=lines,
                          capture_output=True, timeout=PATIENCE)
        self.assertEqual((found.returncode, found.stdout.decode()),
                         (0, "closed 1, of these by a second entry 0, to look at 0\n"))

    def closed_by_clara(self, front):
        """A clerk lodges and closes the return of s1: how she sends what follows."""
        def sent(act, body):
            found = front.ask("POST", f"/station/s1/{act}", json.dumps(body), "clara")
            self.assertEqual(found.status, 200)

        sent("lodge", SLIP)
        sent("close", {"rev": 1})
        return sent

    @needs("chromium", "nginx", "openssl")
    def test_a_page_that_shows_figures_of_before(self):
        """A name of the board certifies what it saw: a page that was left open sends nothing."""
        with serving(with_stations(1)) as desk, site_of_board(desk.port) as front:
            sent = self.closed_by_clara(front)
            with clerks_browser(front, "berta") as it:
                sent("query", {"rev": 2, "note": "sum"})
                sent("correct", {"rev": 3} | SLIP | {"votes": [71, 120]})
                sent("close", {"rev": 4})
                confirmed(it, "#certify button", "Certify Twin Town?", "Nothing was sent")
                self.assertEqual(len(front.record(5)), 5)
                confirmed(it, "#certify button", "Certify Twin Town?", "it waits until")

    @needs("chromium", "nginx", "openssl")
    def test_the_page_of_the_second_name(self):
        with serving(with_stations(1)) as desk, site_of_board(desk.port) as front:
            sent = self.closed_by_clara(front)
            with clerks_browser(front, "simon") as it:
                self.assertEqual(front.ask("POST", CERTIFY, '{"edition":1}', "berta").status, 202)
                sent("query", {"rev": 2, "note": "sum"})
                sent("correct", {"rev": 3} | SLIP)
                sent("close", {"rev": 4})
                confirmed(it, "#certify button", "Certify Twin Town?",
                          "berta asked for the same before")
                said(it, "both names have to ask again.")
                self.assertEqual(front.ask("POST", CERTIFY, '{"edition":1}', "berta").status, 200)

