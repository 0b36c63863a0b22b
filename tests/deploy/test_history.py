"""Who did what to a station."""

import concurrent.futures
import contextlib
import json
import os
import threading
from pathlib import Path
from types import SimpleNamespace

from tests.support.case import needs
from tests.support.clerks import (
    SLIP, TWICE, choose_station, clerks_browser, office_with_a_second, said,
)
from tests.support.record import a_command, chained
from tests.support.running import PATIENCE, until
from tests.support.safeguards import Safeguards, office_and_site
from tests.support.scripts import loaded, module
from tests.support.shown import shows_well
from tests.support.site import SiteCase

recorder = module("recorder")


def history(front, code, name):
    return json.loads(front.ask("GET", f"/now/station/{code}/history", name=name).body)


class History(SiteCase):
    @needs("nginx", "openssl")
    def test_who_did_what_to_a_station(self):
        """From the record: the staff see who and when, what was answered and typed, and a second
        nothing of what was typed or answered; stations and strangers see nothing. After a start of
        the recorder it is the same."""
        with office_with_a_second(TWICE) as (desk, front):
            front.name("stations", "s1")
            wrong = SLIP | {"votes": [120, 17]}
            rows = "station,slip,blank,spoiled,A,B\r\ns2,p2,0,0,10,20\r\ns1,p1,2,1,120,71\r\n"
            noted = {"rev": 1, "note": "the slip says 71 for B"}
            given = (("clara", "/station/s1/lodge", wrong),
                     ("sara", "/station/s1/confirm", {"rev": 1, **SLIP}),
                     ("sara", "/station/s1/query", noted),
                     ("berta", "/station/s1/close", {"rev": 2}),
                     ("bruno", "/station/s1/correct", {"rev": 2, **SLIP}),
                     ("sara", "/station/s1/confirm", {"rev": 3, **SLIP}),
                     ("clara", "/con/c1/import", rows), ("clara", "/con/c1/import", rows),
                     ("s1", "/station/s1/lodge", SLIP), ("clara", "/station/s3/lodge", SLIP))
            statuses = [front.ask("POST", target, body, name).status
                        for name, target, body in given]
            self.assertEqual(statuses, [200, 409, 200, 403, 200, 200, 200, 200, 200, 200])
            record = front.record(10)
            for again in (False, True):
                with self.subTest(again=again):
                    if again:
                        front.end_recorder()
                        front.start_recorder()
                    for name in ("clara", "berta"):
                        with self.subTest(name=name):
                            found = history(front, "s1", name)
                            self.assertEqual((found["station"], found["whole"]), ("s1", True))
                            # The second import lodged nothing.
                            wanted = [("clara", "clerk", "lodge", 200, json.dumps(wrong),
                                       '{"ok":"lodged","rev":1}'),
                                      ("sara", "second", "confirm", 409, json.dumps(given[1][2]),
                                       '{"refused":7,"rev":1,"word":"differs"}'),
                                      ("sara", "second", "query", 200, json.dumps(noted),
                                       '{"ok":"moved","rev":2}'),
                                      ("berta", "board", "close", 403, None, None),
                                      ("bruno", "clerk", "correct", 200, json.dumps(given[4][2]),
                                       '{"ok":"moved","rev":3}'),
                                      ("sara", "second", "confirm", 200, json.dumps(given[5][2]),
                                       '{"ok":"moved","rev":4}'),
                                      ("clara", "clerk", "import", 200, None,
                                       '{"bad":0,"differs":0,"first":null,"lodged":1,"ok":"import",'
                                       '"refused":0,"same":1}'),
                                      ("s1", "station", "lodge", 200, json.dumps(SLIP),
                                       '{"ok":"same","rev":4}')]
                            self.assertEqual([(
                                *(one[key] for key in ("name", "role", "act", "status")),
                                one.get("body"), one.get("answer")) for one in found["commands"]],
                                             wanted)
                            self.assertEqual(
                                [(one["n"], one["time"]) for one in found["commands"]],
                                [(one["n"], one["time"]) for one in record[:7] + record[8:9]])
                            self.assertEqual([(one["act"], one["n"])
                                              for one in history(front, "s2", name)["commands"]],
                                             [("import", record[6]["n"])])
                            self.assertEqual(history(front, "s4", name),
                                             {"station": "s4", "whole": True, "commands": []})
                    seen = history(front, "s1", "sara")
                    bare = ("n", "time", "name", "role", "act", "status")
                    self.assertEqual(seen, {
                        "station": "s1", "whole": True,
                        "commands": [{key: one[key] for key in bare} for one in found["commands"]]})

            def ask(method, target, name, **more):
                return front.ask(method, target, name=name, **more).status

            target = "/now/station/s1/history"
            self.assertEqual([ask("GET", target, None),
                              ask("GET", target, "clara", password="other"),
                              ask("GET", target, "s1"), ask("GET", target, "nonesuch")],
                             [401, 401, 403, 401])
            self.assertEqual([
                ask("POST", target, "clara"), ask("HEAD", target, "clara"),
                ask("GET", target + "?x", "clara"), ask("GET", "/station/s1/history", "clara"),
                ask("GET", "/history/s1", "clara"),
                ask("GET", "/now/station/s%31/history", "clara"),
                ask("GET", target, "clara", headers={"Sec-Fetch-Site": "cross-site"})],
                             [405, 405, 404, 404, 404, 404, 403])
            # A client does not name its role.
            self.assertEqual(json.loads(front.ask(
                "GET", target, name="sara",
                headers={"Office-Role": "clerk", "Office-Allowed": "1"}).body), seen)
            self.assertEqual(front.ask(
                "GET", target, name="s1",
                headers={"Office-Role": "clerk", "Office-Allowed": "1"}).status, 403)
            # Reading is not recorded.
            self.assertEqual(len(front.record()), 10)

    @needs("nginx", "openssl")
    def test_who_typed_how_many_returns(self):
        """In the last hour, of a constituency: the board sees each name, a clerk and a second their
        own alone, a station and strangers nothing. After a start of the recorder it is the same.
        """
        with office_and_site(TWICE) as (desk, front):
            wrong, noted = SLIP | {"votes": [120, 17]}, {"rev": 1, "note": "71 for B"}
            port_slip = {"slip": "q1", "votes": [30, 10, 5], "blank": 0, "spoiled": 1}
            for name, target, body in (
                    ("clara", "/station/s1/lodge", wrong), ("clara", "/station/s2/lodge", SLIP),
                    ("bruno", "/station/s3/lodge", SLIP), ("bruno", "/station/t1/lodge", port_slip),
                    # The same again, one that differs, and one that may not be typed.
                    ("bruno", "/station/s2/lodge", SLIP), ("sara", "/station/s1/confirm",
                                                           {"rev": 1, **SLIP}),
                    ("berta", "/station/s4/lodge", SLIP),
                    ("sara", "/station/s2/confirm", {"rev": 1, **SLIP}),
                    ("sara", "/station/s1/query", noted),
                    ("bruno", "/station/s1/correct", {"rev": 2, **SLIP})):
                front.ask("POST", target, body, name)
            front.record(10)

            def typed(name, con="c1"):
                found = json.loads(front.ask("GET", f"/now/con/{con}/typed", name=name).body)
                self.assertEqual((found["con"], len(found["since"])), (con, 25))
                return [tuple(row.values()) for row in found["names"]]

            all_names = [("bruno", "clerk", 1, 0, 1), ("clara", "clerk", 2, 0, 0),
                         ("sara", "second", 0, 1, 0)]
            for again in (False, True):
                with self.subTest(again=again):
                    if again:
                        front.end_recorder()
                        front.start_recorder()
                    self.assertEqual([typed(name) for name in ("berta", "clara", "bruno", "sara")],
                                     [all_names, *([one] for one in (all_names[1], all_names[0],
                                                                     all_names[2]))])
                    self.assertEqual([typed("berta", "c2"), typed("clara", "c2")],
                                     [[("bruno", "clerk", 1, 0, 0)], []])
            ask = lambda method, target, name, **more: front.ask(method, target, name=name,
                                                                 **more).status
            target = "/now/con/c1/typed"
            self.assertEqual([
                ask("GET", target, None), ask("GET", target, "berta", password="other"),
                ask("GET", target, "s1"), ask("POST", target, "berta"),
                ask("GET", target + "?x", "berta"), ask("GET", "/con/c1/typed", "berta"),
                ask("GET", "/typed/c1", "berta")], [401, 401, 403, 405, 404, 404, 404])
            # A client names neither its name nor its role.
            found = front.ask("GET", target, name="sara", headers={
                "Office-Role": "board", "Office-Name": "clara", "Office-Allowed": "1"})
            self.assertEqual(len(json.loads(found.body)["names"]), 1)

    def test_what_was_typed_counts_for_an_hour(self):
        """By the clock of the record: what is older, of a moment that is yet to come, of a station
        that the setup has not, or that nobody knows to be done, does not count."""
        homes = {"s1": "c1", "t1": "c2"}
        path = lambda code, act="lodge": f"/station/{code}/{act}"
        rows = ((path("s1"), "10:00:59", 200), (path("s1"), "10:02:00", 200),
                (path("s1", "confirm"), "10:30:00", 200), (path("s1", "query"), "10:30:00", 200),
                (path("t1"), "10:30:00", 200), (path("s9"), "10:30:00", 200),
                (path("s1"), "10:31:00", None), (path("s1"), "10:31:00", 409),
                ("/con/c1/import", "10:31:00", 200), (path("s1", "correct"), "11:00:59", 200),
                (path("s1"), "11:01:00", 200))
        typed = recorder.Typed(homes)
        for target, time, status in rows:
            typed.take(target, "clara", "clerk", {"time": f"2026-11-29T{time}.000+01:00",
                                                  "status": status, "answer": "{}"})
        now = recorder.datetime.fromisoformat("2026-11-29T10:00:30+00:00")
        self.assertEqual([typed.of(con, now) for con in ("c1", "c2", "c3")], [
            [{"name": "clara", "role": "clerk", "lodge": 1, "confirm": 1, "correct": 1}],
            [{"name": "clara", "role": "clerk", "lodge": 1, "confirm": 0, "correct": 0}], []])
        # However long it goes on, it keeps the minutes of an hour.
        for minute in range(600):
            at = now + recorder.timedelta(minutes=minute)
            typed.take(path("s1"), "clara", "clerk", {"time": at.isoformat(), "status": 200,
                                                      "answer": "{}"})
        self.assertEqual((len(typed.minutes), typed.of("c1", at)[0]["lodge"]), (60, 60))

    def test_a_history_reads_the_lines_of_its_station(self):
        """And no others, however many there are: what they are turned into afterwards changes
        nothing. It has the last lines alone; long lines, commands without an answer and lines of no
        recorder are no trouble."""
        file = lambda body: a_command(body, "/con/c1/import/semicolon")
        answered = lambda to, answer="": {"to": to, "status": 200, "answer": answer}
        lodged, nothing = '{"lodged":1}', '{"lodged":0}'
        lines = [b"5", b"[" * 20_000, b'{"to":1}', b"", b'{"path":"/station/s1/close"}',
                 a_command("{}", "/station/s1/lodge"), a_command("{}", "/station/s2/lodge"),
                 answered(7), answered(6), a_command("{}", "/station/s1/close"),
                 file("s7;p\n" + "x" * 100_000), answered(11, lodged),
                 file("s7;p\u00e9\n".encode("latin-1")), answered(13, lodged), file("s7;q"),
                 file("s7;r"), answered(16, nothing), a_command("{}", "/con/s1/certify"),
                 answered(18), a_command("{}", "/station/s8/lodge"),
                 a_command('"' * 16_384, "/station/s8/lodge"), answered(21), answered(20)]
        for n in range(24, 324, 2):
            lines += [a_command("{}", "/station/s2/query"), answered(n)]
        text = chained(*lines)
        Path("commands.log").write_bytes(text)
        record = recorder.Record("commands.log", 0)

        def found(code):
            history = record.history(code)
            return history["whole"], [(one["n"], one["act"], one["status"])
                                      for one in history["commands"]]

        wanted = {"s1": (True, [(6, "lodge", 200), (10, "close", None)]),
                  "s7": (True, [(11, "import", 200), (13, "import", 200), (15, "import", None)]),
                  "s2": (False, [(n, "query", 200) for n in range(124, 324, 2)]),
                  "s8": (True, [(20, "lodge", 200), (21, "lodge", 200)]), "s9": (True, [])}
        self.assertEqual({code: found(code) for code in wanted}, wanted)
        self.assertEqual([[key for key in one
                           if key not in ("n", "time", "name", "role", "act", "status")]
                          for one in record.history("s7")["commands"]],
                         [["answer"], ["answer"], []])
        self.assertEqual([one["body"] for one in record.history("s8")["commands"]],
                         ["{}", '"' * 16_384])
        # A return that is lodged over and over, or refused, pushes no act out.
        Path("commands.log").write_bytes(chained(
            a_command("{}", "/station/s1/lodge"), answered(1, '{"ok":"lodged","rev":1}'),
            a_command("{}", "/station/s1/query"), answered(3, '{"ok":"moved","rev":2}'),
            *(line for n in range(5, 605, 3)
              for line in (
                  a_command("{}", "/station/s1/lodge"), answered(n, '{"ok":"same","rev":2}'),
                  a_command("{}", "/station/s1/lodge") | {"status": 403}))))
        again = recorder.Record("commands.log", 0).history("s1")
        self.assertEqual(
            (again["whole"], [one["n"] for one in again["commands"]][:2], len(again["commands"])),
            (False, [1, 3], 2 + 133))
        # The lines of s2 say that they are of s1, and those of files that they are of other
        # stations.
        Path("commands.log").write_bytes(text.replace(b"/station/s2", b"/station/s1").replace(
            b"s7;", b"s9;"))
        self.assertEqual({code: found(code) for code in wanted}, wanted)

    @needs("chromium", "nginx", "openssl")
    def test_the_history_in_the_page(self):
        """A clerk is shown what was typed and answered, a second who and when alone; a station has
        no such button."""
        with office_with_a_second(TWICE) as (desk, front):
            front.name("stations", "s1")
            for name, target, body in (
                ("clara", "/station/s1/lodge", SLIP | {"votes": [120, 17]}),
                ("sara", "/station/s1/confirm", {"rev": 1, **SLIP}),
                ("sara", "/station/s1/query", {"rev": 1, "note": "<b>71</b> for B"}),
                ("berta", "/station/s1/close", {"rev": 2})):
                front.ask("POST", target, body, name)
            # What no office accepts: its sender would have it say that it was done.
            front.ask("POST", "/station/s3/lodge", {
                "slip": "p1. Done. \u202e", "votes": ["1. Done.", 2], "blank": "0. Done.",
                "spoiled": 1, "order": ["A. Done.", "B"]}, "clara")
            times = [line["time"] for line in front.record(5)[:4]]
            shown_there = ("return [...document.querySelectorAll('#history li')].map((e) => "
                           "e.textContent)")
            seen = {"clara": ["clara (clerk) entered it: slip p1, A 120, B 17, blank 2, spoiled 1. "
                              "Done.",
                              "sara (second entry) entered it a second time: slip p1, A 120, B 71, "
                              "blank 2, spoiled 1. It was refused: Another return of this station "
                              "is recorded. Compare both with the slip; if the recorded one is "
                              "wrong, query and correct it.",
                              "sara (second entry) queried it: “<b>71</b> for B”. "
                              "Done.",
                              "berta (board) closed it. It was refused: the name may not do it."],
                    "sara": ["clara (clerk) entered it. Done.",
                             "sara (second entry) entered it a second time. It was refused.",
                             "sara (second entry) queried it. Done.",
                             "berta (board) closed it. It was refused: the name may not do it."]}
            for name, lines in seen.items():
                with self.subTest(name=name, lines=lines):
                    with clerks_browser(front, name) as it:
                        self.assertFalse(it.visible("#who"))
                        choose_station(it, "s1")
                        it.click("#who")
                        said(it, "The history of station s1 is shown.")
                        moments = it.run(
                            "return arguments[0].map((time) => moment(new Date(time)))", times)
                        self.assertEqual(it.run(shown_there),
                                         [f"{time} {line}" for time, line in zip(moments, lines)])
                        shows_well(it, f"history-{name}")
                        # It is of this station, and of no other.
                        choose_station(it, "s2")
                        self.assertEqual(it.run(shown_there), [])
                        it.click("#who")
                        said(it, "The history of station s2 is shown.")
                        self.assertEqual(it.text("#history"), "Nothing was done to station s2.")
                        choose_station(it, "s3")
                        it.click("#who")
                        said(it, "The history of station s3 is shown.")
                        [line] = it.run(shown_there)
                        typed = ": A ?, B 2, B" if name == "clara" else ""
                        self.assertIn(f"clara (clerk) entered it{typed}. It was refused", line)
                        self.assertNotIn("Done", line)
            with clerks_browser(front, "s1") as it:
                self.assertFalse(it.visible("#who"))


class Turns(Safeguards):
    def test_how_many_a_name_may_ask_for(self):
        """Two wait or are under way, over all offices, and of all names sixteen; others are
        answered 429. One is read at a time. Who may not see it takes no place."""
        recorder, go_on = loaded("recorder.py"), threading.Event()
        recorder.turns = loaded("turns.py")
        recorder.turns.REST = 0
        record, under_way, most = recorder.Record("commands.log", 0), [], []

        def held(*_):
            under_way.append(1)
            most.append(len(under_way))
            go_on.wait(PATIENCE)
            under_way.pop()
            return {"commands": [], "names": []}

        record.history = record.typed = held
        offices = [recorder.Recorder(record, None, n, recorder.Limit()) for n in (1, 2)]
        places = record.reading.places
        with concurrent.futures.ThreadPoolExecutor(30) as at_once, contextlib.ExitStack() as ended:
            ended.callback(go_on.set)

            def asked(name, path="/history/s1", office=0, allowed="1"):
                before = places.names.total()
                fields = {"office-name": name, "office-role": "second", "office-allowed": allowed}
                done = at_once.submit(offices[office].answered, "GET", path, fields, b"")
                until(lambda: places.names.total() > before or done.done())
                return done.result().status if done.done() else None

            found = [asked("sara"), asked("sara", "/typed/c1", 1), asked("sara", office=1),
                     asked("sara", "/typed/c1")]
            self.assertEqual(found, [None, None, 429, 429])
            self.assertEqual(asked("clara"), None)
            self.assertEqual(asked("s1", allowed="0"), 403)
            self.assertEqual([asked(f"name-{n}") for n in range(14)], [None] * 13 + [429])
            # Nor does it wait for those that do.
            self.assertEqual(asked("s1", allowed="0"), 403)
            go_on.set()
        self.assertEqual(set(most), {1})
        self.assertEqual(dict(places.names), {})

    def test_what_is_left_to_commands(self):
        """Three times as long as it took, a second at most; also where it has failed."""
        turns, clock, began = loaded("turns.py"), [1000.0], []

        def sleep(seconds):
            clock[0] += seconds

        turns.time = SimpleNamespace(monotonic=lambda: clock[0], sleep=sleep)
        reading = turns.Reading()

        def taking(seconds):
            began.append(round(clock[0] - 1000, 3))
            clock[0] += seconds
            return 1 / seconds

        for seconds in (0.125, 2, 0.25):
            self.assertEqual(reading.passed("clara", lambda: taking(seconds)), 1 / seconds)
        self.assertRaises(ZeroDivisionError, reading.passed, "clara", lambda: taking(0))
        for _ in range(3):
            reading.passed("clara", lambda: taking(0.5))
        # (0.125 * 4 = 0.5, 0.5 + 2 + 1 = 3.5, 3.5 + 0.25 * 4 = 4.5)
        self.assertEqual(began, [0, 0.5, 3.5, 4.5, 4.5, 6, 7.5])

    def test_what_is_not_shown_is_not_read(self):
        """Of the lines of a second's history what was sent and answered is not even parsed."""
        recorder, parsed = loaded("recorder.py"), []
        recorder.sys = SimpleNamespace(stdout=self.enterContext(open("copy", "wb")))
        record = recorder.Record("commands.log", 0)
        entry = {"name": "sara", "role": "second", "address": "192.0.2.1", "office": 1,
                 "method": "POST", "path": "/station/s1/confirm"}
        for body, answer in (({"body": '"' * 16_384}, {"answer": "{}"}),
                             ({"body_base64": "/w=="}, {"answer_base64": "/w=="})):
            number = record.add(entry | body)
            record.add({"to": number, "status": 409} | answer)
        record.add(entry | {"bytes": 16_384, "status": 403})

        def loads(line):
            parsed.append(len(line))
            return json.loads(line)

        recorder.json = SimpleNamespace(loads=loads)
        bare = ("n", "time", "name", "role", "act", "status")
        short, whole = (record.history("s1", is_whole)["commands"] for is_whole in (False, True))
        self.assertEqual(short, [{key: one[key] for key in bare} for one in whole])
        self.assertEqual([(one["n"], one["status"]) for one in short],
                         [(1, 409), (3, 409), (5, 403)])
        self.assertEqual([(one.get("body", "")[:1], one.get("answer")) for one in whole],
                         [('"', "{}"), ("", None), ("", None)])
        self.assertLess(max(parsed[:5]), 500)
        self.assertGreater(max(parsed[5:]), 16_384)


class Floods(SiteCase):
    @needs("nginx", "openssl")
    def test_a_clerk_reads_while_a_second_asks_without_end(self):
        """In the place of the record is a pipe, which nobody has read before the end."""
        with office_with_a_second(TWICE) as (_, front):
            file = front.folder / "log/commands.log"
            file.rename(file.with_suffix(".own"))
            os.mkfifo(file)
            with concurrent.futures.ThreadPoolExecutor(9) as at_once, contextlib.ExitStack() as end:
                end.callback(lambda: self.addCleanup(os.close, os.open(file, os.O_RDWR)))

                def ask(name, target="/now/station/s1/history"):
                    return at_once.submit(lambda: front.ask("GET", target, name=name).status)

                given = [ask("sara") for _ in range(6)]
                until(lambda: sum(one.done() for one in given) == 4)
                # (nor who typed how many returns)
                typed = ask("sara", "/now/con/c1/typed")
                until(typed.done)
                clerk = [ask("clara"), ask("clara", "/now/con/c1/typed")]
            self.assertEqual(sorted(one.result() for one in given), [200] * 2 + [429] * 4)
            self.assertEqual([one.result() for one in [typed, *clerk]], [429, 200, 200])
