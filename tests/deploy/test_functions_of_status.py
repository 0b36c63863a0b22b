"""The looks of `status` at their edges: answers, ages, room, acts and lines of a record. No office,
no proxy and no recount is started.
"""

import base64
import contextlib
import hashlib
import http.client
import io
import json
import os
import pwd
import socket
import ssl
import subprocess
import threading
import time
from datetime import UTC, datetime
from pathlib import Path
from types import SimpleNamespace
from unittest import mock

from tests.support.case import Case, needs
from tests.support.record import a_command, chained
from tests.support.scripts import loaded

NOW = datetime(2026, 11, 29, 22, 0, 0, tzinfo=UTC).timestamp()
FILE = "station,slip,blank,spoiled,A,B\ns1,p1,0,0,1,2\ns2,p2,0,0,1,2\ns3,p3,0,0,1,2\n"
IMPORT = {"ok": "import", "bad": 0, "refused": 0}


class OfStatus(Case):
    """A test that has the looks for itself, at one moment."""

    def setUp(self):
        super().setUp()
        self.looks, self.clock = loaded("status_looks.py"), [1000.0]
        self.looks.time = SimpleNamespace(time=lambda: NOW, monotonic=lambda: self.clock[0])

    def changed(self, **attributes):
        """Other functions in the place of those of the looks."""
        for name, value in attributes.items():
            setattr(self.looks, name, value)

    @staticmethod
    def said_by(found):
        return found.is_well, found.says


class Answers(OfStatus):
    def answered(self, answer, fields=None):
        """The finding of a connection that gives this answer after a quarter of a second."""
        asked = []

        class Connection:
            def request(_, method, target, headers):
                asked.append((method, target, headers))
                self.clock[0] += 0.25

            def getresponse(_):
                if isinstance(answer, Exception):
                    raise answer
                return SimpleNamespace(status=answer, read=lambda: b"")

            def close(_):
                asked.append("closed")

        found = self.looks.answered(Connection(), "/progress", fields)
        self.assertEqual(asked, [("GET", "/progress", fields or {}), "closed"])
        return found

    def test_an_answer(self):
        for answer, wanted in ((200, (200, 0.25)), (404, (404, 0.25)),
                               (OSError("refused"), (None, "refused")),
                               (TimeoutError(), (None, "TimeoutError")),
                               (http.client.BadStatusLine("x"), (None, "x"))):
            with self.subTest(answer=answer):
                self.assertEqual(self.answered(answer), wanted)
        self.answered(200, {"Office-Wait": "no"})

    def test_what_is_said_of_an_answer(self):
        for answer, wanted, said in (
                ((200, 0.25), 200, (True, "it answered in 250 ms")),
                ((403, 0.0), 403, (True, "it answered in 0 ms")),
                ((200, 0.25), 403, (False, "it answers with status 200")),
                ((201, 0.25), 200, (False, "it answers with status 201")),
                ((None, "refused"), 200, (False, "it does not answer: refused"))):
            with self.subTest(answer=answer, wanted=wanted):
                found = self.looks.of_answer("desk", "1", wanted, answer)
                self.assertEqual(self.said_by(found), said)
                self.assertEqual((found.part, found.of, found.numbers),
                                 ("desk", "1", {"answer_seconds": answer[1]} if said[0] else {}))

    def test_who_is_asked_for_what(self):
        """The office and the reader for the progress, and the recorder for a history that is for
        nobody. Each has ten seconds."""
        asked, answers = [], []

        def answered(connection, target, fields=None):
            where = getattr(connection, "file", connection.host)
            asked.append((where, connection.timeout, target, fields))
            return answers.pop(0), 0.0

        self.changed(answered=answered)
        of_proxy = {"Office-Allowed": "1", "Office-Wait": "no"}
        own, names = "/run/reader/1.sock", "/run/reader/1-names.sock"
        for look, where, given, is_well, wanted in (
                (self.looks.look_at_desk, "127.0.0.1:8080", [200], True,
                 [("127.0.0.1", 10, "/progress", None)]),
                (self.looks.look_at_desk, "127.0.0.1:8080", [201], False,
                 [("127.0.0.1", 10, "/progress", None)]),
                (self.looks.look_at_recorder, "/run/1.sock", [403], True,
                 [("/run/1.sock", 10, "/history/-", {"Office-Allowed": "0",
                                                     "Office-Role": "nobody"})]),
                (self.looks.look_at_recorder, "/run/1.sock", [200], False,
                 [("/run/1.sock", 10, "/history/-", {"Office-Allowed": "0",
                                                     "Office-Role": "nobody"})]),
                (self.looks.look_at_reader, own, [200, 200], True,
                 [(own, 10, "/progress", of_proxy), (names, 10, "/progress", of_proxy)]),
                (self.looks.look_at_reader, own, [502, 200], False,
                 [(own, 10, "/progress", of_proxy)]),
                (self.looks.look_at_reader, own, [200, 201], False,
                 [(own, 10, "/progress", of_proxy), (names, 10, "/progress", of_proxy)])):
            with self.subTest(look=look.__name__, given=given):
                asked.clear()
                answers[:] = given
                self.assertEqual(look(where, "1").is_well, is_well)
                self.assertEqual(asked, wanted)

    def test_a_port_that_is_tried_as_another(self):
        """By a process that is waited for. What is not refused is open."""
        user, own, end = pwd.getpwuid(os.getuid()).pw_name, os.getpid(), os._exit

        def ended(status):
            assert os.getpid() != own, "the process that asks would end"
            end(status)

        self.enterContext(mock.patch.object(os, "_exit", ended))
        with socket.create_server(("127.0.0.1", 0)) as open_one:
            port = open_one.getsockname()[1]
            self.assertEqual(self.looks.tried_as(user, f"127.0.0.1:{port}"),
                             f"{user} reaches it: its rules are not loaded")
        self.assertEqual(self.looks.tried_as(user, f"127.0.0.1:{port}"), None)
        self.assertRaises(KeyError, self.looks.tried_as, "no-such-user", "127.0.0.1:1")
        if os.getuid():
            self.assertRegex(self.looks.tried_as("root", f"127.0.0.1:{port}"),
                             "^it cannot be tried as root: ")
        # No process is left.
        with contextlib.suppress(ChildProcessError):
            how = os.WEXITED | os.WNOHANG | os.WNOWAIT
            self.assertIsNone(os.waitid(os.P_ALL, 0, how))

    def test_a_port(self):
        Path("open.nft").write_text("# Every program .. (--open-port).\n", encoding="utf-8")
        Path("closed.nft").write_text("table inet office {}\n", encoding="utf-8")
        reached = "www-data reaches it: its rules are not loaded"
        for rules, tried, said in (
                ("", None, (True, "www-data is refused")), ("", reached, (False, reached)),
                ("closed.nft", None, (True, "www-data is refused")),
                ("closed.nft", reached, (False, reached)),
                ("open.nft", reached,
                 (True, "every program of this computer reaches it (--open-port)")),
                ("", KeyError("x"), (False, "there is no user www-data")),
                ("", OSError("x"), (False, "it cannot be tried as www-data: x"))):
            with self.subTest(rules=rules, tried=tried):
                self.changed(tried_as=mock.Mock(side_effect=[tried]))
                found = self.looks.look_at_port("127.0.0.1:1", "www-data", rules, "1")
                self.assertEqual((self.said_by(found), found.part, found.of), (said, "port", "1"))
        found = self.looks.look_at_port("127.0.0.1:1", "www-data", "gone.nft", "1", "reader_port")
        self.assertEqual((found.is_well, found.part), (False, "reader_port"))
        self.assertRegex(found.says, "^gone.nft cannot be read: ")


class AgesAndRoom(OfStatus):
    def test_how_old_pages_and_copies_may_be(self):
        """As many seconds as are said; a minute ahead of the clock is nothing."""
        copy = Path("office-20261129T215000Z.db")
        copy.write_bytes(b"")
        self.changed(does_agree=lambda *_: True)
        for age, is_well, said in (
                (0, True, "0 seconds"), (120, True, "2 minutes"), (121, False, "2 minutes"),
                (-60, True, "-60 seconds"), (-61, False, "61 seconds ahead of the clock, which was "
                                                         "put back")):
            with self.subTest(age=age):
                moment = datetime.fromtimestamp(NOW - age, UTC).isoformat()
                Path("manifest.json").write_text(json.dumps({"time": moment}), encoding="utf-8")
                os.utime(copy, (NOW - age, NOW - age))
                is_ahead = "ahead" in said
                found = self.looks.look_at_pages(".", 120)
                self.assertEqual(self.said_by(found),
                                 (is_well, f"they are {said}{'' if is_ahead else ' old'}"))
                self.assertEqual((found.part, found.numbers), ("pages", {"age_seconds": age}))
                found = self.looks.look_at_backup(".", 120, "1", {})
                self.assertEqual(self.said_by(found),
                                 (is_well, f"{copy} was up to date {said}"
                                           f"{'' if is_ahead else ' ago'}, and agrees"))
                self.assertEqual((found.of, found.numbers),
                                 ("1", {"age_seconds": age, "agrees": 1}))

    def test_the_newest_copy(self):
        """It is the last by its name: the others may be as they are."""
        looked = []
        self.assertEqual(self.said_by(self.looks.look_at_backup(".", 60, "1", {})),
                         (False, ". has no copy"))
        Path("office-20261129T210000Z-7.db").mkdir()
        newest = Path("office-20261129T214000Z-9.db")
        for file in (newest, Path("office-20261129T213000Z-8.db"), Path("other.db")):
            file.write_bytes(b"")
            os.utime(file, (NOW, NOW))
        self.changed(does_agree=lambda *words: looked.append(words) or False)
        found = self.looks.look_at_backup(".", 60, "1", {"agreed": []})
        self.assertEqual(self.said_by(found), (False, f"{newest} was up to date 0 seconds ago, and "
                                                      "does not agree"))
        self.assertEqual((looked, found.numbers["agrees"]), ([(newest, {"agreed": []})], 0))
        self.changed(does_agree=mock.Mock(side_effect=OSError("gone")))
        self.assertEqual(self.said_by(self.looks.look_at_backup(".", 60, "1", {})),
                         (False, "the newest copy cannot be read: gone"))

    def test_a_copy_that_was_seen_to_agree(self):
        """It is not counted again; of those that agreed the last two hundred and one are kept."""
        Path("copy.db").write_bytes(b"a copy")
        own, counted = hashlib.sha256(b"a copy").hexdigest(), []

        def run(words, **_):
            counted.append(words)
            return SimpleNamespace(returncode=self.status)

        self.changed(subprocess=SimpleNamespace(run=run), RECOUNTS=(Path("no.py"), Path("copy.db")))
        others = [f"{number}" for number in range(201)]
        for before, status, agrees, times, after in (
                ([], 0, True, 1, [own]), ([], 1, False, 1, []), ([own], 1, True, 0, [own]),
                (others, 0, True, 1, [*others[1:], own]), (others, 2, False, 1, others),
                (others[1:], 0, True, 1, [*others[1:], own])):
            with self.subTest(before=len(before), status=status):
                counted.clear()
                seen, self.status = {"agreed": list(before)}, status
                self.assertEqual(self.looks.does_agree(Path("copy.db"), seen), agrees)
                self.assertEqual((len(counted), seen["agreed"]), (times, after))
        self.assertEqual((self.looks.does_agree(Path("copy.db"), found := {}), found),
                         (True, {"agreed": [own]}))
        self.looks.RECOUNTS = (Path("no.py"), Path("nor.py"))
        with self.assertRaisesRegex(FileNotFoundError, "^no.py is not there$"):
            self.looks.does_agree(Path("copy.db"), {})

    def test_what_was_sent_elsewhere(self):
        """All of it, as long ago as the newest copy may be old; each office has its own."""
        for folder in ("a", "b"):
            Path(folder).mkdir()
        look = lambda: self.said_by(self.looks.look_at_sent("backup.env", "a", 1800, "1"))
        for text in (None, "", "# ELSEWHERE=x\nOTHER=y\n", "ELSEWHERE=\n",
                     "ELSEWHERE=x\nELSEWHERE=''"):
            with self.subTest(text=text):
                if text is not None:
                    Path("backup.env").write_text(text, encoding="utf-8")
                self.assertEqual(look(), (True, "no copy is sent to another computer"))
        lacks = "not all of it is at copies@HOST: journalctl -u 'office-backup*' says why"
        for text in ("ELSEWHERE=copies@HOST\n", '# x\n ELSEWHERE="copies@HOST" ',
                     "ELSEWHERE=other\nELSEWHERE='copies@HOST'\nOTHER=x"):
            Path("backup.env").write_text(text, encoding="utf-8")
            self.assertEqual(look(), (False, lacks))
        Path("b/.sent").touch()
        self.assertEqual(look(), (False, lacks))
        Path("a/.sent").touch()
        for age, is_well, said in ((0, True, "0 seconds ago"), (1800, True, "30 minutes ago"),
                                   (1801, False, "30 minutes ago"), (-60, True, "-60 seconds ago"),
                                   (-61, False, "61 seconds ahead of the clock, which was put "
                                                "back")):
            with self.subTest(age=age):
                os.utime("a/.sent", (NOW - age, NOW - age))
                found = self.looks.look_at_sent("backup.env", "a", 1800, "1")
                self.assertEqual(self.said_by(found),
                                 (is_well, f"all of it was at copies@HOST {said}"))
                self.assertEqual((found.part, found.of, found.numbers),
                                 ("sent", "1", {"age_seconds": age}))
        Path("backup.env").write_bytes(b"\xff")
        self.assertIn("backup.env cannot be read: ", look()[1])

    def test_how_much_room_is_enough(self):
        for free, is_well, said in ((7 << 20, True, 7), ((7 << 20) - 1, False, 6),
                                    ((8 << 20) - 1, True, 7)):
            with self.subTest(free=free), mock.patch.object(
                    self.looks.shutil, "disk_usage", lambda _, free=free: SimpleNamespace(
                        free=free)):
                found = self.looks.look_at_room("/var", 7)
                self.assertEqual(self.said_by(found), (is_well, f"{said} MB are free"))
                self.assertEqual((found.of, found.numbers), ("/var", {"room_bytes": free}))
        found = self.looks.look_at_room("gone", 0)
        self.assertEqual((found.is_well, found.of), (False, "gone"))

    def test_how_long_a_certificate_is_valid(self):
        """At least as many days as are said; it ends at its last second."""
        for seconds, is_well, said in (
                (14 * 86_400, True, "it ends on 2026-11-29"), (14 * 86_400 + 1, False, None),
                (14 * 86_400 - 1, True, None), (86_399, False, None), (1, False, None),
                (0, False, "it ended on 2026-11-29"), (-1, False, "it ended on 2026-11-29")):
            with self.subTest(seconds=seconds):
                # The certificate ends at NOW, and the clock is this many seconds before it.
                before = seconds if said is not None or seconds < 86_400 else 28 * 86_400 - seconds
                self.looks.time.time = lambda before=before: NOW - before
                run = mock.Mock(return_value=SimpleNamespace(
                    stdout="notAfter=Nov 29 22:00:00 2026 GMT\n"))
                with mock.patch.object(self.looks.subprocess, "run", run):
                    found = self.looks.look_at_certificate("a.pem", 14)
                said = said or "it ends on 2026-11-29"
                self.assertEqual(self.said_by(found), (is_well, said))
                self.assertEqual(found.numbers, {"certificate_days": before / 86_400})
                self.assertEqual(run.call_args.args[0][-1], "a.pem")

    @needs("openssl")
    def test_a_certificate_that_the_proxy_shows(self):
        """The first one of the file, under the name of the site; of another one it is said what to
        do, and a proxy that does not answer is not well."""
        for name in ("one", "other"):
            subprocess.run(["openssl", "req", "-x509", "-newkey", "ec", "-pkeyopt",
                            "ec_paramgen_curve:prime256v1", "-nodes", "-days", "30", "-subj",
                            "/CN=a.example", "-keyout", f"{name}.key", "-out", f"{name}.pem"],
                           check=True, capture_output=True)
        # (openssl writes a name of the owner above it, in another encoding)
        chain = "friendlyName: Peña\n" + "".join(
            Path(f"{name}.pem").read_text(encoding="ascii") for name in ("one", "other"))
        Path("chain.pem").write_text(chain, encoding="latin-1")
        context = ssl.SSLContext(ssl.PROTOCOL_TLS_SERVER)
        context.load_cert_chain("one.pem", "one.key")
        asked = []
        context.sni_callback = lambda _, name, __: asked.append(name)

        def show(listener):
            with contextlib.suppress(OSError):
                while True:
                    with context.wrap_socket(listener.accept()[0], server_side=True):
                        pass

        with socket.create_server(("127.0.0.1", 0)) as listener:
            threading.Thread(target=show, args=[listener], daemon=True).start()
            self.looks.PROXY, self.looks.time = listener.getsockname(), time
            Path("key.pem").write_bytes(Path("one.key").read_bytes() + Path("one.pem").read_bytes())
            for file, is_shown in (("one.pem", True), ("chain.pem", True), ("key.pem", True),
                                   ("other.pem", False)):
                with self.subTest(file=file):
                    found = self.looks.look_at_certificate(file, 14, "a.example")
                    self.assertEqual((found.is_well, found.says.partition("; ")[2]), (
                        is_shown, "" if is_shown else
                        "the proxy shows another one: nginx -t && systemctl reload nginx"))
            self.assertTrue(self.looks.look_at_certificate("other.pem", 14).is_well)
            self.assertEqual(asked, ["a.example"] * 4)
            listener.shutdown(socket.SHUT_RDWR)
        found = self.looks.look_at_certificate("one.pem", 14, "a.example")
        self.assertFalse(found.is_well)
        self.assertIn("; the proxy does not show it to a.example: ", found.says)

    def test_how_long_a_file_may_be(self):
        with open("manifest.json", "wb") as file:
            file.truncate(67_108_864)
        self.assertEqual(len(self.looks.text_of("manifest.json")), 67_108_864)
        os.truncate("manifest.json", 67_108_865)
        with self.assertRaisesRegex(ValueError, "^no file of at most 64 MB$"):
            self.looks.text_of("manifest.json")


class LastActs(OfStatus):
    def taken(self, acts, command, answer, number, status=200):
        """Acts with a command of this number, and the answer to it in the next line."""
        acts.take(number, command)
        acts.take(number + 1, {"to": number, "status": status, "answer": json.dumps(answer)})
        return acts

    def test_what_an_act_led_to(self):
        """A revision, an edition, that somebody is gone, or how many stations have a return."""
        vacancy = a_command(json.dumps({"list": "A", "place": 3}), "/con/c1/vacate")
        lodge, draw = (a_command("{}", path) for path in ("/station/s1/lodge", "/con/c1/draw"))
        semicolon = a_command(FILE.replace(",", ";"), "/con/c1/import/semicolon")
        s123 = ["s1", "s2", "s3"]
        for command, said, wanted in (
                (lodge, {"ok": "lodged", "rev": 3}, ("/station/s1", 3)),
                (draw, {"ok": "drawn", "edition": 2}, ("/con/c1", 2)),
                (lodge, {"ok": "lodged"}, ("/station/s1", None)),
                (vacancy, {"ok": "vacated", "next": 4}, ("/con/c1 A 3", 1)),
                (a_command(FILE), IMPORT, ("/con/c1 import 9", 3, s123)),
                (semicolon, IMPORT, ("/con/c1 import 9", 3, s123)),
                (a_command(FILE), IMPORT | {"bad": 1}, ("/con/c1 import 9", 2, s123)),
                (a_command(FILE + ",,,,,\n" * 5), IMPORT | {"bad": 6},
                 ("/con/c1 import 9", 2, s123)),
                (a_command(FILE), IMPORT | {"refused": 2}, ("/con/c1 import 9", 1, s123)),
                (a_command(FILE), IMPORT | {"bad": 1, "refused": 2},
                 ("/con/c1 import 9", None, s123)),
                (a_command(FILE), IMPORT | {"bad": 4, "refused": 4},
                 ("/con/c1 import 9", None, s123))):
            with self.subTest(path=command["path"], said=said):
                self.assertEqual(self.looks.led_to(command, said, 9), wanted)

    def test_the_stations_of_a_file(self):
        """Each once, without the header, whatever blank lines there are, in any text."""
        for body, path in (
                (FILE, "/con/c1/import"), ("\n\r\n" + FILE, "/con/c1/import"),
                ("\ufeff" + FILE, "/con/c1/import"), (FILE + "s1,p9\n,p4\n", "/con/c1/import"),
                (FILE.replace(",", ";"), "/con/c1/import/semicolon"),
                (FILE.replace("\ns2", '\n"s2"'), "/con/c1/import")):
            with self.subTest(body=body):
                command = a_command(body, path)
                self.assertEqual(self.looks.led_to(command, IMPORT, 9)[2], ["s1", "s2", "s3"])
                del command["body"]
                command["body_base64"] = base64.b64encode(body.encode()).decode()
                self.assertEqual(self.looks.led_to(command, IMPORT, 9)[2], ["s1", "s2", "s3"])
        many = a_command("station\n" + "".join(f"s{number}\n" for number in range(2001)))
        target, least, stations = self.looks.led_to(many, IMPORT, 9)
        self.assertEqual((least, len(stations), stations[-1]), (2000, 2000, "s1999"))

    def test_which_lines_are_acts(self):
        """Those that were accepted, of commands since the last look."""
        command, rev = a_command("{}", "/station/s1/lodge"), {"ok": "lodged", "rev": 1}
        office = {"1": {"/station/s1": [1, 2]}}
        for lines, wanted in (
                ([command, {"to": 1, "status": 200, "answer": json.dumps(rev)}], office),
                ([command, {"to": 1, "status": 201, "answer": json.dumps(rev)}], {}),
                ([command, {"to": 1, "status": 409, "answer": json.dumps(rev)}], {}),
                ([command, {"to": 2, "status": 200, "answer": json.dumps(rev)}], {}),
                ([command | {"status": 403}, {"to": 1, "status": 200, "answer": "{}"}], {}),
                ([{"setup": "a"}, {"to": 1, "status": 200, "answer": "{}"}], {}),
                ([command, {"to": 1, "status": 200, "answer": '{"ok":"lodged"}'}], {})):
            with self.subTest(lines=lines):
                acts = self.looks.Acts({})
                for number, line in enumerate(lines, 1):
                    acts.take(number, line)
                self.assertEqual(acts.new, wanted)

    def test_the_last_twenty(self):
        acts = self.looks.Acts({})
        for number in range(1, 41, 2):
            self.taken(acts, a_command("{}", f"/station/s{number}/lodge"), {"rev": 1}, number)
        self.assertEqual([len(acts.of("1")), acts.of("2")], [20, {}])
        # Who acts once more is the last one, and takes the place of no other.
        self.taken(acts, a_command("{}", "/station/s1/query"), {"rev": 2}, 41)
        self.taken(acts, a_command("{}", "/station/s40/lodge"), {"rev": 1}, 43)
        self.assertEqual([*acts.of("1")], [f"/station/s{n}" for n in (*range(5, 41, 2), 1, 40)])
        self.assertEqual(acts.of("1")["/station/s1"], [2, 42])

    def test_what_is_kept_for_the_next_look(self):
        """The last twenty, what an office lacks, and what was left."""
        before = {"1": {f"/station/a{n}": [1, n] for n in range(1, 4)},
                  "2": {"/station/b1": [1, 1]}}
        acts = self.looks.Acts(before)
        for number in range(11, 51, 2):
            self.taken(acts, a_command("{}", f"/station/s{number}/lodge"), {"rev": 1}, number)
        kept = acts.kept({})
        self.assertEqual([*kept["1"]], [f"/station/s{n}" for n in range(11, 51, 2)])
        self.assertEqual(kept["2"], before["2"])
        self.assertEqual(acts.kept({"1": {"/station/a1": [1, 1]}})["1"]["/station/a1"], [1, 1])
        # The office said no more after two were compared: the others of before are left.
        acts.leave("1", 2)
        self.assertEqual(acts.left, {"1": {"/station/a3": [1, 3]}})
        self.assertEqual(len(acts.kept({})["1"]), 21)

    def test_what_an_office_shows(self):
        table = "STATIONS c1\nstations 3\n" + "".join(
            f"{code:16}{300:8} {status:9}\n" for code, status in (
                ("s1", "received"), ("s2", "-"), ("s3", "closed"), ("s4", "received")))
        gone = {"gone": [{"list": "A", "place": 3}, {"list": "import", "place": 7}]}
        for target, stations, status, text, asked, wanted in (
                ("/station/s1", (), 200, {"rev": 4}, "/station/s1", 4),
                ("/con/c1", (), 200, {"edition": 2}, "/con/c1", 2),
                ("/con/c1", (), 200, {}, "/con/c1", None),
                ("/con/c1", (), 200, {"edition": "2"}, "/con/c1", None),
                ("/station/s1", (), 404, "{}", "/station/s1", 0),
                ("/station/s1", (), 503, "{}", "/station/s1", None),
                ("/station/s1", (), 200, "x", "/station/s1", None),
                ("/station/s1", (), 200, "[]", "/station/s1", None),
                ("/con/c1 A 3", (), 200, gone, "/con/c1", 1),
                ("/con/c1 A 4", (), 200, gone, "/con/c1", 0),
                ("/con/c1 B 3", (), 200, gone, "/con/c1", 0),
                ("/con/c1 A 3", (), 200, {"gone": []}, "/con/c1", 0),
                # (a list of such a name, of which no file is)
                ("/con/c1 import 7", (), 200, gone, "/con/c1", 1),
                ("/con/c1 import 9", ["s1", "s2", "s4", "s9"], 200, table, "/con/c1/stations", 2),
                ("/con/c1 import 9", ["s1"], 503, table, "/con/c1/stations", None),
                ("/con/c1 import 9", ["s1"], 201, table, "/con/c1/stations", None),
                ("/con/c1 import 9", ["s1"], 404, "", "/con/c1/stations", 0)):
            with self.subTest(target=target, status=status, text=text):
                sent = []
                answer = SimpleNamespace(status=status, read=lambda text=text: (
                    text if isinstance(text, str) else json.dumps(text)).encode())
                connection = SimpleNamespace(request=lambda *words: sent.append(words),
                                             getresponse=lambda: answer, close=lambda: None)
                given = mock.Mock(return_value=connection)
                with mock.patch.object(self.looks.http.client, "HTTPConnection", given):
                    found = self.looks.shown_by("127.0.0.1:8080", target, stations)
                self.assertEqual((found, sent), (wanted, [("GET", asked)]))
                given.assert_called_once_with("127.0.0.1:8080", timeout=10)

    def test_the_stations_of_a_report(self):
        """After two lines each has its code in sixteen columns, and in the twenty-sixth a status,
        or a hyphen."""
        head, code = "station s1\n      s2\n", "s" * 16
        for line, stations, wanted in (
                (f"{code}     300 received", [code], 1), (f"{code}     300 -", [code], 0),
                (f"{code}     300 x", [code], 1), (f"{code}     300 ", [code], 0),
                (f"{code}     300", [code], 0), (f"{'s1':16}     300 received", ["s1", "s2"], 1),
                (f"{code}12345678 received", [code], 1)):
            with self.subTest(line=line):
                self.assertEqual(self.looks.returned(head + line + "\n", stations), wanted)
        twice = "s1".ljust(25) + "closed\n"
        self.assertEqual(self.looks.returned(twice * 2, ["s1"]), 0)
        self.assertEqual(self.looks.returned(twice * 3, ["s1"]), 1)

    def test_how_it_speaks_of_an_act(self):
        for target, reached, said in (
                ("/station/s1", 3, "/station/s1 came to 3"),
                ("/con/c1 A 3", 1, "A 3 of /con/c1 was gone"),
                ("/con/c1 import 9", 1, "1 station of a file of /con/c1 had a return"),
                ("/con/c1 import 9", 2, "2 stations of a file of /con/c1 had a return")):
            self.assertEqual(self.looks.words_of(target, reached), said)

    def test_an_office_that_lacks_an_act(self):
        """The first line that it lacks is named. Where it says no more, what is left of before is
        compared at the next look."""
        before = {"1": {"/station/s1": [2, 10], "/station/s2": [1, 12], "/station/s3": [4, 11]}}
        well = "of the last acts of the record it has all {} that were compared"
        lacks = "it was put back to an earlier moment: it lacks what line {} of the record " \
                "answered, by which {}"
        for shown, said, lacking, left in (
                ((2, 1, 4), (True, well.format(3)), {}, {}),
                ((3, 9, 5), (True, well.format(3)), {}, {}),
                ((2, 0, 3), (False, lacks.format(11, "/station/s3 came to 4")),
                 {"/station/s2": [1, 12], "/station/s3": [4, 11]}, {}),
                ((2, 0, 4), (False, lacks.format(12, "/station/s2 came to 1")),
                 {"/station/s2": [1, 12]}, {}),
                ((2, None, 0), (True, well.format(1)), {},
                 {"1": {"/station/s2": [1, 12], "/station/s3": [4, 11]}}),
                ((None, 1, 4), (False, "it says of none of the last acts of the record now whether "
                                       "it has it"), {}, before)):
            with self.subTest(shown=shown):
                acts, found, given = self.looks.Acts(before), {}, iter(shown)
                self.changed(shown_by=lambda *_, given=given: next(given))
                look = self.looks.look_at_acts("127.0.0.1:1", "1", acts, found, "one")
                self.assertEqual((self.said_by(look), look.part, look.of), (said, "acts", "one"))
                self.assertEqual((found.get("1", {}), acts.left), (lacking, left))


class Records(OfStatus):
    FILE = Path("commands.log")

    def looked(self, *lines, seen=None, head=None, copied=(0, ""), acts=None):
        """The finding of a record of these lines, and what was seen of it."""
        text = lines[0] if lines and isinstance(lines[0], bytes) else chained(*lines)
        self.FILE.write_bytes(text)
        if head is not None:
            Path("head").write_text(head if isinstance(head, str) else json.dumps(head))
        seen = {} if seen is None else seen
        found = self.looks.look_at_record(self.FILE, "head" if head is not None else None, seen,
                                          acts, copied)
        return found, seen.get("record")

    @staticmethod
    def hashes(text):
        return [hashlib.sha256(line).hexdigest() for line in text.splitlines()]

    def test_what_is_seen_of_a_record(self):
        """The number, the hash and the place of its last line, and the hash of all."""
        whole = lambda text: hashlib.sha256(text).hexdigest()
        self.assertEqual(self.looked(b"")[1], {"n": 0, "hash": "0" * 64, "at": 0,
                                               "all": whole(b"")})
        three, seen = chained({}, {}, {}), {}
        lines = three.splitlines(keepends=True)
        before = 0
        for number, new in ((1, 1), (1, 0), (3, 2), (3, 0)):
            text = b"".join(lines[:number])
            found, record = self.looked(text + b"{", seen=seen)
            its = "its 1 line is whole, {} of it new" if number == 1 else \
                f"its {number} lines are whole, {{}} of them new"
            self.assertEqual((self.said_by(found), found.numbers),
                             ((True, its.format(new)), {"record_lines": number}))
            self.assertEqual(record, {"n": number, "hash": self.hashes(text)[-1],
                                      "at": len(b"".join(lines[:number - 1])),
                                      "all": whole(text)})
            self.assertEqual(number - new, before)
            before = number

    def test_a_line_that_was_changed_or_is_gone(self):
        text = chained({"a": 1}, {"a": 2}, {"a": 3})
        first, second, third = text.splitlines(keepends=True)
        other = chained({"a": 9}, {"a": 2}).splitlines(keepends=True)[0]
        seen = {"record": self.looked(first + second)[1]}
        for lines, fault in (
                ((first, second, third), None), ((first, second), None),
                ((first,), "line 2 is not the one that was seen before, or is gone"),
                ((other, second), "a line before line 2 is not the one that was seen before"),
                ((first, third), "line 2 is not the one that was seen before, or is gone"),
                ((first, second, second), "line 3 does not follow from the line before it"),
                ((first, second, b"{\n"), "line 3 cannot be read"),
                ((first, second, b"{\n", third), "line 4 does not follow from the line before it")):
            with self.subTest(lines=lines):
                kept = dict(seen)
                found, record = self.looked(b"".join(lines), seen=kept)
                self.assertEqual(found.is_well, fault is None, found.says)
                if fault:
                    self.assertEqual((found.says, kept), (fault, seen))
        # The looks of an older version did not keep the hash of all.
        old = {key: value for key, value in seen["record"].items() if key != "all"}
        self.assertTrue(self.looked(other + second, seen={"record": old})[0].is_well)

    def test_lines_that_do_not_follow(self):
        """By their number, or by the hash of the line before: each alone."""
        first, second = chained({}, {}).splitlines(keepends=True)
        entry = json.loads(second)
        for change in ({"n": 3}, {"before": "a" * 64}):
            text = first + json.dumps(entry | change).encode() + b"\n"
            self.assertEqual(self.said_by(self.looked(text)[0]),
                             (False, "line 2 does not follow from the line before it"))

    def test_the_head_of_a_record(self):
        text = chained({}, {}, {})
        one, two, three = self.hashes(text)
        for head, fault in (
                ({"n": 3, "hash": three}, None), ({"n": 2, "hash": two}, None),
                ({"n": 0, "hash": "0" * 64}, None), ({"n": 1, "hash": one}, None),
                ({"n": 4, "hash": three}, "it has 3 lines, and the recorder wrote 4"),
                ({"n": 2, "hash": one}, "line 2 is not the one that the recorder wrote"),
                ({"n": 3, "hash": one}, "line 3 is not the one that the recorder wrote"),
                ({"n": 0, "hash": one}, "line 0 is not the one that the recorder wrote"),
                ({"n": 3, "hash": three, "fault": "no room"},
                 "the recorder does no command: no room"),
                ({"n": 3}, "its head cannot be read"), ({"hash": one}, "its head cannot be read"),
                ({"n": "3", "hash": one}, "its head cannot be read"),
                ([3], "its head cannot be read"), ("{", "its head cannot be read")):
            with self.subTest(head=head):
                found, _ = self.looked(text, head=head)
                self.assertEqual((found.is_well, fault or found.says),
                                 (fault is None, found.says))
        # At the next look it may be the line that was the last one, or one before it.
        for head, is_well in (({"n": 3, "hash": three}, True), ({"n": 3, "hash": two}, False),
                              ({"n": 2, "hash": one}, True)):
            seen = {"record": self.looked(text)[1]}
            self.assertEqual(self.looked(text, seen=seen, head=head)[0].is_well, is_well)
        Path("head").unlink()
        self.assertTrue(self.looks.look_at_record(self.FILE, "head", {}).is_well)
        self.FILE.write_bytes(b"")
        self.assertTrue(self.looks.look_at_record(self.FILE, "head", {}).is_well)

    def test_copies_that_had_more_lines(self):
        """Their names say how many lines the record had."""
        Path("one").mkdir()
        Path("other").mkdir()
        for name in ("one/office-20261129T220000Z-2.db", "other/office-20261129T210000Z-3.db",
                     "one/office-20261129T230000Z.db", "one/office-20261129T230000Z-9.db.new",
                     "one/office-x-9.db"):
            Path(name).write_bytes(b"")
        self.assertEqual(self.looks.most_lines(["one", "other"]),
                         (3, "office-20261129T210000Z-3.db"))
        self.assertEqual(self.looks.most_lines(["one"]), (2, "office-20261129T220000Z-2.db"))
        self.assertEqual(self.looks.most_lines(["none"]), (0, ""))
        for many, said in ((3, None), (4, "it has 3 lines, and had 4 when a.db was made")):
            found, _ = self.looked({}, {}, {}, copied=(many, "a.db"))
            self.assertEqual((found.is_well, said or found.says), (said is None, found.says))
        self.assertTrue(self.looked(b"")[0].is_well)
        self.assertFalse(self.looked(b"", copied=(1, "a.db"))[0].is_well)

    def test_acts_among_its_lines(self):
        """Of those that are new; what no recorder wrote is none."""
        lines = [a_command("{}", "/station/s1/lodge"),
                 {"to": 1, "status": 200, "answer": '{"rev":1}'}, {"to": [], "status": 200},
                 a_command("{}", "/station/s2/lodge"),
                 {"to": 4, "status": 200, "answer": '{"rev":1}'}]
        acts, seen = self.looks.Acts({}), {}
        self.looked(*lines[:3], seen=seen, acts=acts)
        self.assertEqual(acts.new, {"1": {"/station/s1": [1, 2]}})
        acts = self.looks.Acts({})
        found, _ = self.looked(*lines, seen=seen, acts=acts)
        self.assertEqual((found.is_well, acts.new), (True, {"1": {"/station/s2": [1, 5]}}))

    def test_a_file_in_parts(self):
        """Of a megabyte each, and no further than to the place of the last line."""
        for size, wanted in ((0, []), (7, [7]), (1 << 20, [1 << 20]),
                             ((1 << 20) + 1, [1 << 20, 1]), (3 << 20, [1 << 20, 1 << 20, 500])):
            file = io.BytesIO(b"x" * ((2 << 20) + 500))
            self.assertEqual([len(part) for part in self.looks.parts_of(file, size)], wanted)

    def test_contents_of_a_line(self):
        for line, wanted in ((b'{"n":1}', {"n": 1}), (b"{", None), (b"[1]", None), (b"1", None),
                             (b"[" * 100_000, None)):
            self.assertEqual(self.looks.entry_of(line), wanted)
