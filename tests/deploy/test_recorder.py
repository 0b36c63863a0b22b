"""The recorder, by itself."""

import concurrent.futures
import contextlib
import grp
import json
import os
import resource
import socket
import stat
import subprocess
import sys
import threading
import time
from datetime import datetime
from pathlib import Path
from unittest import mock

from tests.support import tools
from tests.support.case import needs
from tests.support.desks import (
    answer_of, desk_with, empty_desk, recording_desk, whole_message,
)
from tests.support.proxy import proxy
from tests.support.record import a_command, replayed
from tests.support.recorder import FAILING, command, recorder_alone
from tests.support.running import PATIENCE, until
from tests.support.scripts import PROGRAMS, loaded
from tests.support.site import DEPLOY, SiteCase


class Recorder(SiteCase):
    def test_a_disk_that_does_not_keep_what_is_written(self):
        """A command of which the disk does not say that it has it is not passed on."""
        with recording_desk() as (port, messages):
            with recorder_alone(port, program=(FAILING, "2")):
                self.assertEqual(command("/station/s1/close"), 200)
                self.assertEqual([command("/station/s2/close"), len(messages)], [503, 1])
            self.assertIn("Input/output error", Path("said").read_text())
            # Nor is such a line shown.
            with recorder_alone(port, program=(FAILING, "0")) as process:
                self.assertEqual(
                    (process.wait(timeout=PATIENCE) != 0, Path("recorder/head").exists()),
                    (True, False))

    def test_commands_one_after_the_other(self):
        """However many come at once the office has one of them, so that answers are recorded in the
        order in which it did them. Those that wait are recorded already."""
        under_way, most, lock, done = set(), [0], threading.Lock(), []

        def answer(connection):
            with connection:
                head, _ = whole_message(connection)
                with lock:
                    under_way.add(connection)
                    most[0] = max(most[0], len(under_way))
                # The first is answered once five are recorded.
                until(lambda: Path("commands.log").read_bytes().count(b"\n") >= 5)
                time.sleep(0.05)
                with lock:
                    under_way.discard(connection)
                    done.append(head.split(b" ")[1].decode())
                connection.sendall(answer_of("{}"))

        def serve():
            with contextlib.suppress(OSError):
                while True:
                    threading.Thread(target=answer, args=(listener.accept()[0],),
                                     daemon=True).start()

        with socket.create_server(("127.0.0.1", 0), backlog=64) as listener:
            threading.Thread(target=serve, daemon=True).start()
            with recorder_alone(listener.getsockname()[1]), concurrent.futures.ThreadPoolExecutor(
                20) as clerks:
                self.assertEqual(
                    set(clerks.map(lambda n: command(f"/station/s{n}/close"), range(40))), {200})
            listener.shutdown(socket.SHUT_RDWR)
        lines = [json.loads(line) for line in Path("commands.log").read_text().splitlines()]
        paths = {line["n"]: line["path"] for line in lines if "path" in line}
        self.assertEqual((most[0], [paths[line["to"]] for line in lines if "to" in line]),
                         (1, done))
        self.assertTrue(all("path" in line for line in lines[:5]), lines[:5])

    def test_no_hash_bears_out_a_guess(self):
        """Whoever knows all of a line but its figures cannot try them on the hash that is shown:
        the same line is another one each time, and no history says what else is in it."""
        moment, entry = datetime.now().astimezone(), a_command("{}", "/station/s1/lodge")
        lines = []
        for name in ("one.log", "other.log"):
            record = loaded("recorder.py").Record(Path(name), 0)
            with open(os.devnull, "wb") as nowhere, mock.patch("sys.stdout", nowhere):
                for more in (entry, {"to": 1, "status": 200, "answer": ""}):
                    line, place = record.write(more, moment)
                    record.index.take(line, place)
                    lines.append(json.loads(line))
            [shown] = record.history("s1")["commands"]
            self.assertEqual((shown["answer"], "salt" in shown), ("", False))
        for line, other in zip(lines[:2], lines[2:]):
            self.assertEqual({key for key in line if line[key] != other[key]} - {"before"},
                             {"salt"})
        salts = {line["salt"] for line in lines}
        self.assertEqual([len(salts), {len(bytes.fromhex(salt)) for salt in salts}], [4, {16}])

    def test_a_command_that_is_sent_again_while_it_is_under_way(self):
        """Its answer is waited for. Where that ended without one it is done again."""
        for ends in (False, True):
            with self.subTest(ends=ends):
                once, done, given, go_on = loaded("turns.py").Once(), [], [], threading.Event()

                def act():
                    done.append(0)
                    go_on.wait(PATIENCE)
                    if ends and len(done) == 1:
                        raise OSError
                    return len(done)

                def ask():
                    with contextlib.suppress(OSError):
                        given.append(once.passed("clara", "a command", act))

                threads = [threading.Thread(target=ask) for _ in range(3)]
                for thread in threads:
                    thread.start()
                # Another command, or that of another name, waits for none.
                self.assertEqual(once.passed("clara", "another", lambda: "done"), "done")
                self.assertEqual(once.passed("bruno", "a command", lambda: "done"), "done")
                self.assertEqual((len(done), given), (1, []))
                go_on.set()
                for thread in threads:
                    thread.join(PATIENCE)
                self.assertEqual((len(done), given), (2, [2, 2]) if ends else (1, [1, 1, 1]))

    def test_how_many_answers_are_kept(self):
        """The last eight of each name."""
        once, done = loaded("turns.py").Once(), []
        claras = [("clara", number) for number in range(9)]
        for one in (*claras, ("bruno", 0), *claras[1:], ("bruno", 0), ("clara", 0)):
            once.passed(*one, lambda: done.append(one))
        self.assertEqual(done, [*claras, ("bruno", 0), ("clara", 0)])
        self.assertEqual((once.under_way, {name: len(kept) for name, kept in once.kept.items()}),
                         (set(), {"clara": 8, "bruno": 1}))

    def test_what_a_station_may_give(self):
        """Twenty commands at once, and one more each fifteen seconds; every station has its own,
        and staff are not limited."""
        recorder = loaded("recorder.py")
        clock = [1000.0]
        recorder.time = type("Time", (), {"monotonic": staticmethod(lambda: clock[0])})
        limit = recorder.Limit()
        is_over = lambda name: limit.is_over(name, "station", 16_384)
        self.assertEqual([is_over("s1") for _ in range(25)], [False] * 20 + [True] * 5)
        self.assertFalse(is_over("s2"))
        for seconds, wanted in ((14, [True]), (1, [False, True]), (30, [False, False, True]),
                                (3600, [False] * 20 + [True])):
            with self.subTest(seconds=seconds, wanted=wanted):
                clock[0] += seconds
                self.assertEqual([is_over("s1") for _ in wanted], wanted)
        with recording_desk() as (port, _), recorder_alone(port):
            names = 25 * [("s1", "station")] + 25 * [("clara", "clerk")]
            self.assertEqual(
                [command("/station/s1/lodge", name=name, role=role) for name, role in names],
                [200] * 20 + [429] * 5 + [200] * 25)

    def test_what_one_of_the_staff_may_send(self):
        """Whoever has a clerk's password fills no disk, and does not keep the office with trials,
        which are not recorded: 32 MB at once, and then 72 MB an hour, which is a file of 1 MB each
        minute. Every name has its own."""
        recorder = loaded("recorder.py")
        clock = [1000.0]
        recorder.time = type("Time", (), {"monotonic": staticmethod(lambda: clock[0])})
        limit = recorder.Limit()
        sent = lambda name, length: next(n for n in range(100_000)
                                         if limit.is_over(name, "clerk", length))
        self.assertEqual((sent("clara", 1_048_576), sent("bruno", 1_048_576), sent("berta", 0)),
                         (31, 31, 33_554))
        for seconds, wanted in ((1, 0), (1, 1), (53, 1), (3600, 31)):
            with self.subTest(seconds=seconds, wanted=wanted):
                clock[0] += seconds
                self.assertEqual(sent("clara", 1_048_576), wanted)
        for _ in range(600):
            clock[0] += 60
            self.assertFalse(limit.is_over("bruno", "clerk", 1_048_576))
        # Each byte that was sent counts, whatever it was.
        recorder.STAFF_BYTES, asked = 10 << 20, []
        recorder.sys = type("Sys", (), {"stdout": open("copy", "wb")})
        desk = type("Desk", (), {"lock": threading.Lock(), "files": recorder.Files(),
                                 "ask": lambda _, *message: asked.append(message)
                                 or recorder.Answer(200, b"{}")})()
        one = recorder.Recorder(recorder.Record("commands.log", 0), desk, 1, recorder.Limit())

        def given(act, name="clara"):
            fields = {"office-name": name, "office-role": "clerk", "office-address": "192.0.2.1",
                      "office-allowed": "1"}
            return one.answered("POST", f"/con/c1/{act}", fields, b"\1" * 1_000_000).status

        self.assertEqual([given(act) for act in 3 * ["trial"] + 9 * ["import"] + ["trial"]],
                         [200] * 10 + [429] * 3)
        self.assertEqual((given("import", "bruno"), len(asked)), (200, 11))
        # In base64.
        self.assertEqual(Path("commands.log").stat().st_size // 1_333_336, 8)

    def test_what_the_recorder_writes(self):
        """Bodies of all bytes as they came; who gave a command, in which role and from where; each
        line on standard output too. Only the proxy's group may write to the socket, everybody may
        read the head, and the record nobody beside its group."""
        others = [group for group in grp.getgrall() if group.gr_gid != os.getgid()
                  and (not os.geteuid() or group.gr_gid in os.getgroups())]
        group = (others or [grp.getgrgid(os.getgid())])[0]
        bodies = [bytes(range(256)), "«88»\t\r\n\u2028\U0001f5f3".encode(), b"p\xe9", b'"\\',
                  b"\x7f", b"\1" * 16_384, "é".encode() * 8192]
        with recording_desk() as (port, messages), recorder_alone(port, "--group", group.gr_name):
            self.assertEqual([command("/con/c1/import", body) for body in bodies],
                             [200] * len(bodies))
            self.assertEqual(command("/con/c1/certify", b"xyz", allowed="0"), 403)
            self.assertEqual(command("/con/c1/certify", b"xyz", allowed=""), 403)
            self.assertEqual([body for _, body in messages], bodies)
            record = Path("commands.log").read_bytes()
            until(lambda: json.loads(Path("recorder/head").read_text())["n"] == 2 * len(bodies) + 2)
            # A body takes at most four thirds of its length, and what is text its length.
            lengths = [len(line)
                       for line in record.splitlines()[2 * len(bodies) - 4:2 * len(bodies):2]]
            self.assertTrue(all(16_384 < length < most + 400
                                for length, most in zip(lengths, (21_848, 16_384))), lengths)
            modes = {name: stat.filemode(os.stat(name).st_mode)
                     for name in ("recorder/1.sock", "recorder/head", "commands.log")}
            self.assertEqual(modes, {"recorder/1.sock": "srw-rw----", "recorder/head": "-rw-r--r--",
                                     "commands.log": "-rw-r-----"})
            self.assertEqual(os.stat("recorder/1.sock").st_gid, group.gr_gid)
            self.assertEqual(Path("copy").read_bytes(), record)
            last = json.loads(record.splitlines()[-1])
            self.assertEqual([last[key]
                              for key in ("name", "role", "address", "office", "method", "path",
                                          "bytes", "status")],
                             ["clara", "clerk", "192.0.2.1", 1, "POST", "/con/c1/certify", 3, 403])
            with empty_desk() as (other, came):
                self.assertEqual((replayed(other, record)[0], came), (0, bodies))
            # Who reads the head reads it whole: another file takes its place.
            with open("recorder/head", encoding="utf-8") as old:
                self.assertEqual(command("/station/s1/close"), 200)
                until(lambda: json.loads(Path("recorder/head").read_text())["n"] == 2 * len(bodies)
                      + 4)
                self.assertEqual(json.loads(old.read())["n"], 2 * len(bodies) + 2)

    def test_a_socket_is_nobody_elses_from_the_first_moment(self):
        seen, chown = [], os.chown
        os.chown = lambda file, *_: seen.append(stat.filemode(os.stat(file).st_mode))
        try:
            loaded("recorder.py").listen(Path("1.sock"), grp.getgrgid(os.getgid()).gr_name).close()
        finally:
            os.chown = chown
        self.assertEqual((seen, stat.filemode(os.stat("1.sock").st_mode)),
                         (["srw-------"], "srw-rw----"))

    def test_a_record_that_is_gone_on_with(self):
        """A recorder that starts again goes on with number and hash; a line that was cut meanwhile
        is ended, and counts. Commands that come at once have each a number, and a journal that
        takes nothing stops nobody."""
        with recording_desk() as (port, _):
            for round_of in range(2):
                with recorder_alone(
                    port, output=subprocess.PIPE) as process, concurrent.futures.ThreadPoolExecutor(
                    20) as clerks:
                    process.stdout.close()
                    self.assertEqual(
                        set(clerks.map(lambda n: command(f"/station/s{n}/close"), range(100))),
                        {200})
                if not round_of:
                    with open("commands.log", "ab") as it:
                        it.write(b'{"n": 201, "ti')
        done = tools.run([DEPLOY / "replay", "--check"],
                         input=Path("commands.log").read_bytes(), capture_output=True,
                         timeout=PATIENCE)
        self.assertEqual((done.returncode, done.stdout.splitlines()[0], done.stdout.count(b"\n")),
                         (1, b'line 201: not a line of a record: {"n": 201, "ti', 2))
        self.assertIn(b"to look at 1; lines 401, ", done.stdout)

    def test_a_line_that_the_disk_cuts(self):
        """A command whose line is not whole is not done; the line counts, and those that follow are
        after it. What was done is answered, also where its answer has no room."""
        with recording_desk() as (port, messages), recorder_alone(port) as process:
            self.assertEqual(command("/station/s1/close"), 200)
            size = Path("commands.log").stat().st_size
            resource.prlimit(process.pid, resource.RLIMIT_FSIZE,
                             (size + 100, resource.RLIM_INFINITY))
            self.assertEqual(
                [command("/station/s2/close"), command("/station/s3/close"), len(messages)],
                [503, 503, 1])
            self.assertEqual(Path("commands.log").stat().st_size, size + 100)
            resource.prlimit(process.pid, resource.RLIMIT_FSIZE,
                             (resource.RLIM_INFINITY, resource.RLIM_INFINITY))
            self.assertEqual([command("/station/s4/close"), len(messages)], [200, 2])
            lines = Path("commands.log").read_bytes()
            resource.prlimit(process.pid, resource.RLIMIT_FSIZE,
                             (len(lines) + len(lines.split(b"\n")[0]) + 1, resource.RLIM_INFINITY))
            self.assertEqual([command("/station/s5/close"), len(messages)], [200, 3])
        self.assertIn("the answer to 6 is not recorded", Path("said").read_text())
        done = tools.run([DEPLOY / "replay", "--check"],
                         input=Path("commands.log").read_bytes(), capture_output=True,
                         timeout=PATIENCE)
        cut, unanswered, end = done.stdout.decode().splitlines()
        self.assertEqual(done.returncode, 1, done)
        self.assertTrue(cut.startswith("line 3: not a line of a record"), done)
        self.assertTrue(unanswered.startswith("line 6: "), done)
        self.assertTrue(end.startswith("to look at 2; lines 6, "), done)

    def test_a_record_that_somebody_changes(self):
        """Where it was moved, another file took its place, or it was cut or added to, nothing is
        done until it is as it was, or the recorder is started again and goes on with what is
        there."""
        file = Path("commands.log")

        def move():
            file.rename("aside")

        def save_as_an_editor():
            move()
            file.write_bytes(Path("aside").read_bytes())

        def put_back():
            os.replace("aside", file)

        def cut():
            Path("aside").write_bytes(file.read_bytes())
            os.truncate(file, file.stat().st_size - 10)

        def write_back():
            file.write_bytes(Path("aside").read_bytes())

        def add():
            Path("aside").write_bytes(file.read_bytes())
            with file.open("ab") as it:
                it.write(b"a line\n")

        with recording_desk() as (port, messages):
            with recorder_alone(port):
                for change, back in ((move, put_back), (save_as_an_editor, put_back),
                                     (cut, write_back), (add, write_back)):
                    with self.subTest(change=change, back=back):
                        self.assertEqual(command("/station/s1/close"), 200, change.__name__)
                        done = len(messages)
                        change()
                        self.assertEqual((command("/station/s2/close"), len(messages)), (503, done),
                                         change.__name__)
                        back()
                        self.assertEqual(command("/station/s3/close"), 200, change.__name__)
                self.assertEqual(len(file.read_bytes().splitlines()), 16)
                cut()
                self.assertEqual(command("/station/s4/close"), 503)
            self.assertIn("commands.log is another file, or longer or shorter than it was left",
                          Path("said").read_text())
            with recorder_alone(port):
                self.assertEqual(command("/station/s5/close"), 200)
        self.assertEqual(json.loads(file.read_bytes().splitlines()[-1])["n"], 18)

    def test_what_was_shown_is_no_file(self):
        """The user of the pages writes it: the recorder says so and ends, and waits for no pipe."""
        file = Path("record.csv")
        for made in (lambda: os.mkfifo(file), lambda: file.symlink_to("/dev/zero"),
                     lambda: (file.touch(), os.truncate(file, 1 << 40))):
            file.unlink(missing_ok=True)
            made()
            with recorder_alone(1, "--shown", file) as process:
                self.assertEqual(process.wait(timeout=PATIENCE), 1)
            self.assertIn("failed: record.csv: ", Path("said").read_text())
            self.assertFalse(Path("recorder/head").exists())

    def test_a_recorder_that_is_to_end(self):
        """A command that is under way has its answer and its line; no other is taken meanwhile."""
        with recording_desk(wait=1.5) as (port, messages), recorder_alone(port) as process, \
                concurrent.futures.ThreadPoolExecutor(1) as pool:
            first = pool.submit(command, "/station/s1/close")
            until(lambda: messages)
            process.terminate()
            time.sleep(0.3)
            self.assertEqual(command("/station/s2/close"), 503)
            self.assertEqual((first.result(), process.wait(timeout=PATIENCE)), (200, 0))
        lines = [json.loads(line) for line in Path("commands.log").read_text().splitlines()]
        self.assertEqual([(line.get("path"), line.get("status")) for line in lines],
                         [("/station/s1/close", None), (None, 200)])
        self.assertEqual(len(messages), 1)

    def test_a_recorder_that_is_to_end_as_it_starts(self):
        """The first command that it takes has its answer and its line too."""
        def is_listened_to():
            with socket.socket(socket.AF_UNIX) as it:
                return not it.connect_ex("recorder/1.sock")

        with recording_desk(wait=0.5) as (port, messages), \
                concurrent.futures.ThreadPoolExecutor(1) as pool, subprocess.Popen(
                    [sys.executable, PROGRAMS / "late_signals.py", DEPLOY / "recorder.py",
                     "recorder", "commands.log", "--room", "0", "--desk", f"127.0.0.1:{port}"],
                    stdout=subprocess.DEVNULL) as process:
            until(is_listened_to)
            first = pool.submit(command, "/station/s1/close")
            until(lambda: messages)
            process.terminate()
            self.assertEqual((first.result(), process.wait(timeout=PATIENCE)), (200, 0))
        lines = [json.loads(line) for line in Path("commands.log").read_text().splitlines()]
        self.assertEqual([(line.get("path"), line.get("status")) for line in lines],
                         [("/station/s1/close", None), (None, 200)])

    def test_answers_that_are_no_http(self):
        """As of another program that has the port of the office: each command is without an answer,
        and those after them are served."""
        answers = iter([b"x\r\n\r\n"] * (loaded("recorder.py").THREADS + 6))
        with desk_with(lambda *_: next(answers, answer_of("{}"))) as port, recorder_alone(port):
            self.assertEqual(
                {command("/station/s1/close") for _ in range(loaded("recorder.py").THREADS + 6)},
                {None})
            self.assertEqual(command("/station/s1/close"), 200)

    def test_a_second_recorder(self):
        """It ends, and the first one goes on."""
        with recording_desk() as (port, _), recorder_alone(port):
            with recorder_alone(port) as second:
                self.assertTrue(second.wait(timeout=PATIENCE))
            self.assertEqual(command("/station/s1/close"), 200)
        self.assertEqual(len(Path("commands.log").read_bytes().splitlines()), 2)

    def test_a_desk_that_is_away(self):
        """A command is not done where the office was never reached; where it was, and ended, nobody
        knows."""
        recorder = loaded("recorder.py")
        recorder.WAIT = 0.3
        with recording_desk() as (port, _):
            pass
        self.assertEqual(
            recorder.Desk(f"127.0.0.1:{port}").ask("POST", "/station/s1/close", b"")[0], 502)
        answers = iter([b"", answer_of((404, "{}"))])
        with desk_with(lambda *_: next(answers)) as port:
            self.assertEqual(recorder.Desk(f"127.0.0.1:{port}").ask("GET", "/station/s1", b"")[0],
                             404)
        with socket.create_server(("127.0.0.1", 0)) as listener:
            def once():
                listener.accept()[0].close()
                listener.close()

            threading.Thread(target=once, daemon=True).start()
            self.assertEqual(recorder.Desk(f"127.0.0.1:{listener.getsockname()[1]}").ask(
                "POST", "/station/s1/close", b"")[0], None)

    def test_a_desk_that_says_nothing(self):
        """It has the command once, and nobody waits five times as long for an answer."""
        recorder = loaded("recorder.py")
        recorder.PATIENCE = 0.3
        with recording_desk(wait=3) as (port, messages):
            for method in ("GET", "POST"):
                self.assertEqual(
                    recorder.Desk(f"127.0.0.1:{port}").ask(method, "/station/s1/close", b"")[0],
                    504)
            self.assertLess(len(messages), 3)

    @needs("nginx", "openssl")
    def test_a_command_that_takes_long(self):
        """Six seconds, as a large import may: its client waits, and it is sent once."""
        with recording_desk(wait=6) as (port, messages), proxy(port) as front:
            self.assertEqual((front.ask("POST", "/con/c1/import", b"x", "clara").status,
                              len(messages), front.record(1)[0]["status"]), (200, 1, 200))

    @needs("nginx", "openssl")
    def test_the_address_of_a_command(self):
        with recording_desk() as (port, _), proxy(port) as front:
            self.assertEqual(
                front.ask("POST", "/station/s1/close", {}, "clara", source="127.0.15.1").status,
                200)
            self.assertEqual(
                front.ask("POST", "/con/c1/certify", {}, "clara", source="127.0.15.2").status, 403)
            self.assertEqual([line["address"] for line in front.record(2)],
                             ["127.0.15.1", "127.0.15.2"])
