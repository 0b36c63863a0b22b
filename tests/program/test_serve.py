"""`office serve`: an election over HTTP, ports, signals and killed servers."""

import http.client
import json
import os
import random
import signal
import socket
import threading

from tests.support.certificates import certificates, reopened
from tests.support.desk import Desk, asking, reset, serving, take
from tests.support.office import SETUP
from tests.support.program import ProgramCase, Ran, failed, new, only, recount, rows, show, shows
from tests.support.running import PATIENCE, free_port
from tests.support.twin_town import (
    AWARDS,
    HOLDERS,
    PAST,
    PROGRESS,
    PROVISIONAL_CERTIFIED,
    PROVISIONAL_NONE,
    PROVISIONAL_OPEN,
    PROVISIONAL_TIED,
    QUOTIENTS,
    SCRIPT,
    SEATS,
    SHORT,
    TALLY,
)

# The provisional seats after steps of the script: lodged and not closed, closed, with its lot, and
# certified.
PROVISIONAL_AFTER = {
    1: PROVISIONAL_NONE,
    3: PROVISIONAL_TIED,
    7: PROVISIONAL_OPEN,
    10: PROVISIONAL_CERTIFIED,
}


class Serve(ProgramCase):
    def test_an_election_over_http(self):
        new()
        with serving("office.db", len(SCRIPT) + 18) as desk:
            desk.get("/progress", PROGRESS)
            desk.get("/con/c1/provisional", PROVISIONAL_NONE)
            for number, step in enumerate(SCRIPT, 1):
                take(desk, step)
                if number in PROVISIONAL_AFTER:
                    desk.get("/con/c1/provisional", PROVISIONAL_AFTER[number])
                if number == 3:
                    desk.get("/con/c1/tally", TALLY)
                if number == 10:
                    for report, text in (
                        ("seats", SEATS),
                        ("quotients", QUOTIENTS),
                        ("awards", AWARDS),
                        ("short", SHORT),
                    ):
                        with self.subTest(report=report, text=text):
                            desk.get(f"/con/c1/{report}", text)
                    self.assertEqual(
                        desk.ask("GET", "/con/c1/quota")[::2], (409, '{"word":"other_method"}')
                    )
                if number == 13:
                    desk.get("/con/c1/holders", HOLDERS)
                if number == 16:
                    desk.get("/con/c1/past", PAST)
                    self.assertEqual(
                        desk.ask("GET", "/con/c1/seats")[::2], (409, '{"word":"not_certified"}')
                    )
            self.assertEqual(json.loads(desk.ask("GET", "/con/c1")[2])["seats"], [2, 1])
            self.assertEqual(
                desk.ask("GET", "/station/s1")[2],
                (
                    '{"blank":0,"note":"sum","rev":5,"slip":"p2","spoiled":0,"station":"s1",'
                    '"status":"closed","votes":[120,120]}'
                ),
            )
            desk.get(
                "/con/c1/holders",
                (
                    "HOLDERS c1 Twin Town\nA                   1 Ana\nA                   2 Abel\nB"
                    "                   - empty\n"
                ),
            )
        only("office.db")
        recount()
        shows("past", PAST)

    def test_an_answer_byte_for_byte(self):
        new()
        body = b'{"slip":"p1","votes":[50,40],"blank":2,"spoiled":1}'
        message = b"POST /station/s1/lodge HTTP/1.1\r\nContent-Length: 51\r\n\r\n" + body
        with serving("office.db", 2) as desk:
            for text in (b'{"ok":"lodged","rev":1}', b'{"ok":"same","rev":1}'):
                head = (
                    "HTTP/1.1 200 OK\r\nContent-Type: application/json\r\nContent-Length:"
                    f" {len(text)}\r\nConnection: close\r\n\r\n"
                )
                self.assertEqual(desk.send(message), head.encode() + text)

    def test_as_many_certificates_as_there_may_be(self):
        """With sixty lists each: the last one is given and opened again, and all are shown.

        A client goes in the middle of that, and the next one has all of it.
        """
        reopened(4998, "office.db")
        past = certificates(4999)
        with serving("office.db", 7, failed=1) as desk:
            take(
                desk,
                (
                    "/station/s1/lodge",
                    {"slip": "p1", "votes": [100] + [0] * 59, "blank": 0, "spoiled": 0},
                    200,
                    '{"ok":"lodged","rev":1}',
                ),
            )
            take(desk, ("/station/s1/close", {"rev": 1}, 200, '{"ok":"moved","rev":2}'))
            take(
                desk, ("/con/c1/certify", {"edition": 9997}, 200, '{"edition":9998,"ok":"edition"}')
            )
            take(
                desk,
                (
                    "/con/c1/reopen",
                    {"edition": 9998, "note": "recount"},
                    200,
                    '{"edition":9999,"ok":"edition"}',
                ),
            )
            it = socket.create_connection(("127.0.0.1", desk.port), timeout=PATIENCE)
            it.sendall(asking("GET", "/con/c1/past"))
            assert it.recv(65536).startswith(b"HTTP/1.1 200 OK")
            reset(it)
            desk.get("/con/c1/past", past)
            take(
                desk,
                ("/con/c1/certify", {"edition": 9999}, 409, '{"refused":12,"word":"exhausted"}'),
            )
        shows("past", past)

    def test_a_server_listens_on_one_address_alone(self):
        """Another address of this machine, also one that only this machine reaches, is not
        answered.
        """
        new()
        with serving("office.db", 1) as desk:
            for address in ("127.0.0.2", "127.255.255.254"):
                try:
                    socket.create_connection((address, desk.port), timeout=PATIENCE).close()
                except ConnectionRefusedError:
                    continue
                raise AssertionError(f"the server listens on {address}")
            desk.get("/progress", PROGRESS)

    def test_a_port_that_is_taken(self):
        new()
        with socket.socket() as it:
            it.bind(("127.0.0.1", 0))
            it.listen()
            failed(
                "port",
                "serve",
                "--db",
                "office.db",
                "--port",
                str(it.getsockname()[1]),
                "--count",
                "1",
            )

    def test_a_server_that_is_asked_to_end(self):
        """A command that it answered is recorded, and the same port can be had again at once."""
        for number in (signal.SIGINT, signal.SIGTERM):
            with self.subTest(number=number):
                new(db="office.db")
                desk = Desk("office.db", 5)
                for words in (
                    ("show", "--report", "progress"),
                    ("serve", "--port", str(free_port()), "--count", "1"),
                ):
                    with self.subTest(words=words):
                        failed("store", *words, "--db", "office.db")
                body = json.dumps({"slip": "p1", "votes": [100, 100], "blank": 0, "spoiled": 0})
                self.assertEqual(desk.ask("POST", "/station/s1/lodge", body)[0], 200)
                desk.process.send_signal(number)
                self.assertEqual(desk.end(), Ran(-number, "", ""))
                again = Desk("office.db", 1, desk.port)
                self.assertEqual(
                    again.ask("GET", "/progress")[2],
                    "c1                    1      0      1      0      0      0      1 open\n",
                )
                self.assertEqual(again.end(), Ran(0, "answered 1 failed 0\n", ""))
                only("office.db")
                os.remove("office.db")

    def test_names_in_other_scripts(self):
        new(SETUP.replace("Twin Town", "Ciudad Ñandú").replace("Alpha", "Αλφα"))
        with serving("office.db", 1) as desk:
            status, fields, text = desk.ask("GET", "/con/c1/tally")
            self.assertIn("TALLY c1 Ciudad Ñandú\n", text)
            self.assertTrue(text.splitlines()[3].endswith("Αλφα"), text)

    def test_a_server_that_is_killed(self):
        """An acknowledged command is there at the next opening; one that was refused is not."""
        stations = "".join(
            f'\n[[constituency.station]]\ncode = "t{n}"\nelectors = 300\n' for n in range(2000)
        )
        new(SETUP + stations)
        chance = random.Random(26)
        acknowledged, sent, turns = set(), 0, 0
        # (more turns where the machine is so slow that few commands are answered before the end)
        while turns < 50 or len(acknowledged) <= 50 and turns < 500:
            turns += 1
            desk = Desk("office.db", 1000000)
            stop = threading.Timer(chance.uniform(0.005, 0.1), desk.process.kill)
            stop.start()
            try:
                while sent < 2000:
                    station = f"t{sent}"
                    sent += 1
                    body = json.dumps(
                        {
                            "slip": "p",
                            "votes": [1, 2],
                            "blank": 0,
                            "spoiled": 301 if sent % 7 == 0 else 0,
                        }
                    )
                    status, _, _ = desk.ask("POST", f"/station/{station}/lodge", body)
                    if status == 200:
                        acknowledged.add(station)
            except (OSError, http.client.HTTPException):
                pass
            stop.join()
            desk.process.wait()
            desk.process.stderr.close()
            desk.process.stdout.close()
            self.assertEqual(show("past").status, 0)
            stand = {row[0] for row in rows()["returns"]}
            refused_ones = {f"t{n}" for n in range(sent) if (n + 1) % 7 == 0}
            assert acknowledged <= stand and not stand & refused_ones, (
                acknowledged - stand,
                stand & refused_ones,
            )
            self.assertLessEqual(len(stand - acknowledged), 50)
        print(f"{len(acknowledged)} acknowledged in {turns} turns")
        self.assertGreater(len(acknowledged), 50)
        recount()
