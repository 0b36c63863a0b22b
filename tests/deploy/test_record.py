"""The record of commands."""

import contextlib
import hashlib
import json
import os
import re
import signal
import socket
import subprocess
import unittest
from pathlib import Path

from tests.support import tools
from tests.support.case import needs
from tests.support.desks import answer_of, desk_with, recording_desk
from tests.support.office import with_stations
from tests.support.pages import press, read
from tests.support.proxy import office_and_proxy, proxy
from tests.support.record import LODGED, a_command, chained, recorded_200
from tests.support.running import PATIENCE, until
from tests.support.site import DEPLOY, SiteCase, plain, serving


@contextlib.contextmanager
def small_disk(folder, size):
    """A file system of this size in memory."""
    folder.mkdir(parents=True)
    if os.geteuid() or subprocess.run(
        ["mount", "-t", "tmpfs", "-o", f"size={size}", "tmpfs", folder],
        capture_output=True).returncode:
        raise unittest.SkipTest("no file system can be mounted")
    try:
        yield
    finally:
        subprocess.run(["umount", "-l", folder], check=True)


def rows_of_open(desk):
    """Everything that the office shows."""
    return [plain(desk.port, "GET", target).body
            for target in ("/progress", "/station/s1", "/station/s2", "/con/c1")]


class Record(SiteCase):
    @needs("nginx", "openssl", "mount")
    def test_a_record_without_room(self):
        """One station fills the disk of the record: from then on nothing is done that is not
        recorded, and with room it goes on."""
        with small_disk(Path.cwd() / "proxy/log", 3_000_000), serving(with_stations(
            2)) as desk, proxy(desk.port, room=1_000_000) as front:
            front.name("stations", "s1")
            front.name("stations", "s2")
            done = []

            def ask(target, body, name, status):
                found = front.ask("POST", target, body, name)
                self.assertEqual(found.status, status, target)
                if status == 200:
                    done.append((target, found.body.decode()))
                return found

            ask("/station/s1/lodge", LODGED, "s1", 200)
            # A station has some commands, and then one each quarter of a minute: one name alone
            # cannot fill a disk. A body of control characters takes four thirds of its length.
            statuses = [front.ask("POST", "/station/s1/lodge", b"\1" * 16_384, "s1").status
                        for _ in range(30)]
            self.assertEqual((statuses[:15], set(statuses[20:])), ([400] * 15, {429}))
            size = (front.folder / "log/commands.log").stat().st_size
            self.assertLess(15 * 16_384, size)
            self.assertLess(size, 21 * 22_500)
            # So the disk is filled by a file beside.
            disk = os.statvfs(front.folder / "log")
            (front.folder / "log/filler").write_bytes(
                b"x" * (disk.f_bavail * disk.f_frsize - 1_000_000))
            lines, before = front.lines(), rows_of_open(desk)
            for target, body, name in (("/station/s2/lodge", LODGED, "s2"),
                                       ("/station/s1/close", {"rev": 1}, "clara"),
                                       ("/con/c1/certify", {"edition": 1}, "berta"),
                                       ("/con/c1/certify", {"edition": 1}, "clara")):
                with self.subTest(target=target, body=body, name=name):
                    self.assertEqual(ask(target, body, name, 503).body, b'{"word": "unavailable"}')
            self.assertEqual((front.lines(), rows_of_open(desk)), (lines, before))
            self.assertEqual(front.ask("GET", "/now/progress", name="clara").status, 200)
            (front.folder / "log/filler").unlink()
            ask("/station/s2/lodge", LODGED | {"slip": "p2"}, "s2", 200)
            for name in ("s1", "s2"):
                ask(f"/station/{name}/close", {"rev": 1}, "clara", 200)
            ask("/con/c1/certify", {"edition": 1}, "berta", 200)
            self.assertEqual(recorded_200(front), done)
            self.assertEqual(self.check(front)[0], 0)

    def check(self, front, *words):
        done = tools.run([DEPLOY / "replay", "--check", *words],
                         input=(front.folder / "log/commands.log").read_bytes(),
                         capture_output=True, timeout=PATIENCE)
        self.assertEqual(done.stderr, b"")
        return done.returncode, done.stdout.decode()

    @needs("nginx", "openssl", "mount")
    def test_a_record_whose_disk_is_full_all_the_same(self):
        """Lines are cut where the file system has less room than it says: what is not whole is not
        done, and the lines go on."""
        disk = small_disk(Path.cwd() / "proxy/log", 400_000)
        with recording_desk() as (port, messages), disk, proxy(port) as front:
            statuses = [front.ask("POST", "/con/c1/import", b"x" * 50_000, "clara").status
                        for _ in range(12)]
            self.assertIn(statuses.count(200), (4, 5, 6, 7), statuses)
            self.assertEqual(set(statuses), {200, 503}, statuses)
            self.assertEqual(statuses.count(200), len(messages))
            # The recorder is ended; when it starts again there is a line that was cut in the
            # middle.
            front.end_recorder(signal.SIGKILL)
            file = front.folder / "log/commands.log"
            whole = file.read_bytes().count(b"\n")
            subprocess.run(["mount", "-o", "remount,size=9000000", file.parent], check=True)
            with file.open("ab") as it:
                it.write(b'{"n": 1000, "ti')
            front.start_recorder()
            self.assertEqual(front.ask("POST", "/station/s1/close", {"rev": 1}, "clara").status,
                             200)
            lines = file.read_bytes().split(b"\n")
            self.assertEqual([json.loads(line)["n"] for line in lines[-3:-1]],
                             [whole + 2, whole + 3])
            last = hashlib.sha256(lines[-2]).hexdigest()
            self.assertEqual(self.check(front), (
                1, f'line {whole + 1}: not a line of a record: {{"n": 1000, "ti\n'
                f'to look at 1; lines {whole + 3}, the hash of the last {last}\n'))

    @needs("nginx", "openssl", "mount")
    def test_logs_of_the_proxy_without_room(self):
        """Strangers have filled them: what has no name writes nothing more, and commands are done
        and recorded."""
        logs = Path.cwd() / "proxy/log"
        with recording_desk() as (port, messages), small_disk(logs, 200_000):
            # The record has a disk of its own.
            (logs / "commands.log").symlink_to("../commands.log")
            with proxy(port) as front:
                for _ in range(2000):
                    with socket.create_connection(("127.0.0.1", front.port)) as it:
                        # No TLS: the proxy writes a line of it.
                        it.sendall(b"\x16\x03\x01\xff\xff" + b"x" * 100)
                until(lambda: os.statvfs(logs).f_bavail == 0)
                size = (logs / "error.log").stat().st_size
                self.assertEqual([front.ask("POST", "/con/c1/certify", {}, name,
                                            password=password).status
                                  for name, password in ((None, None), ("berta", "x"),
                                                         ("berta", None), ("clara", None))],
                                 [401, 401, 200, 403])
                self.assertEqual(front.ask("GET", "/con/c1").status, 200)
                self.assertEqual(([line["status"] for line in front.record(2)],
                                  (logs / "error.log").stat().st_size), ([200, 403], size))
                self.assertEqual((front.refused(), len(messages)), ([], 2))

    @needs("nginx", "openssl")
    def test_a_command_is_recorded_before_the_desk_has_it(self):
        """The desk is killed while it has the command, or the recorder is: the record has the
        command."""
        found = []

        def answered(head, body):
            found.append((head.split(b" ")[1],
                          [line["path"] for line in front.lines() if "path" in line]))
            if body == b'{"rev":2}':
                front.end_recorder(signal.SIGKILL)
            return answer_of("{}")

        with desk_with(answered) as port, proxy(port) as front:
            self.assertEqual(front.ask("POST", "/station/s1/close", '{"rev":1}', "clara").status,
                             200)
            self.assertEqual(front.ask("POST", "/station/s2/close", '{"rev":2}', "clara").status,
                             502)
            self.assertEqual(front.ask("POST", "/station/s3/close", '{"rev":1}', "clara").status,
                             502)
            self.assertEqual(found, [
                (b"/station/s1/close", ["/station/s1/close"]),
                (b"/station/s2/close", ["/station/s1/close", "/station/s2/close"])])
            status, said = self.check(front)
            self.assertEqual(status, 1, said)
            self.assertIn("clara POST /station/s2/close {\"rev\":2}: it was not sent: nobody knows "
                          "whether it was done", said)

    def test_a_record_that_was_changed(self):
        """A line that is altered, removed, added or moved is found, wherever it is but the last,
        whose hash the pages show; and by what they have shown also a record that was written again,
        or lacks its end."""
        entries = [entry for n in range(1, 6)
                   for entry in (a_command(f'{{"rev":{n}}}', f"/station/s{n}/close"),
                                 {"to": 2 * n - 1, "status": 200, "answer": "{}"})]
        lines = chained(*entries).splitlines(keepends=True)

        def checked(changed, *words):
            done = tools.run([DEPLOY / "replay", "--check", *words], input=b"".join(changed),
                             capture_output=True, timeout=PATIENCE)
            self.assertEqual(done.stderr, b"")
            found = re.findall(rb"^line (\d+):", done.stdout, re.M)
            return done.returncode, set(map(int, found)), done.stdout.split()[-1].decode()

        last = hashlib.sha256(lines[-1].rstrip(b"\n")).hexdigest()
        self.assertEqual(checked(lines), (0, set(), last))
        altered = lines[4].replace(b"s3", b"s9")
        for changed, number in ((lines[:4] + [altered] + lines[5:], 6), (lines[:4] + lines[6:], 5),
                                (lines[:4] + [lines[5], lines[4]] + lines[6:], 5),
                                (lines[:4] + [lines[2], lines[3]] + lines[4:], 5), (lines[2:], 1)):
            with self.subTest(changed=changed, number=number):
                status, named, _ = checked(changed)
                self.assertEqual((status, number in named), (1, True))
        # A whole new record, and one that lacks its end, are right in themselves: their last line
        # has another hash than what was shown, or another number.
        other = chained(*(entry | {"name": "bruno"} if "name" in entry else entry
                          for entry in entries)).splitlines(keepends=True)
        for changed in (other, lines[:-2]):
            with self.subTest(changed=changed):
                status, named, hash_of = checked(changed)
                self.assertEqual((status, named), (0, set()))
                self.assertNotEqual(hash_of, last)
        shown = f"time,lines,sha256\n2026-11-26T22:00:00+00:00,0,{'0' * 64}\n" + "".join(
            f"2026-11-26T22:14:00+00:00,{n},{hashlib.sha256(lines[n - 1].rstrip()).hexdigest()}\n"
            for n in (2, 4, 10))
        Path("record.csv").write_text(shown, encoding="utf-8")
        for changed, wanted in ((lines, (0, set())), (other, (1, {2, 4, 10})),
                                (lines[:-2], (1, {10})), (lines[:4] + other[4:], (1, {5, 10})),
                                ([], (1, {2, 4, 10}))):
            with self.subTest(changed=changed, wanted=wanted):
                self.assertEqual(checked(changed, "--shown", "record.csv")[:2], wanted)
        # A file that is shown twice, and otherwise the second time, was not one record.
        Path("record.csv").write_text(f"{shown}2026-11-26T22:14:00+00:00,4,{'f' * 64}\n",
                                      encoding="utf-8")
        self.assertEqual(checked(lines, "--shown", "record.csv")[:2], (1, {4}))
        Path("other.csv").write_text("time,lines\n2026,x\n", encoding="utf-8")
        Path("long.csv").write_text(f"time,lines,sha256\n{'x' * 200_000}\n", encoding="utf-8")
        for file in ("other.csv", "nonesuch.csv", "long.csv"):
            with self.subTest(file=file):
                self.assertEqual(tools.run([DEPLOY / "replay", "--check", "--shown", file],
                                           input=b"", capture_output=True,
                                           timeout=PATIENCE).returncode, 2)

    @needs("nginx", "openssl")
    def test_the_head_of_the_record_on_the_pages(self):
        """Each round shows how many lines the record has and the hash of the last, and keeps what
        it showed."""
        with office_and_proxy(with_stations(2)) as (desk, front):
            head, pages = front.folder / "recorder/head", []
            for name in ("s1", "s2"):
                with self.subTest(name=name):
                    self.assertEqual(
                        front.ask("POST", f"/station/{name}/lodge", LODGED, "clara").status, 200)
                    lines = (front.folder / "log/commands.log").read_bytes().split(b"\n")[:-1]
                    until(lambda: json.loads(head.read_text())["n"] == len(lines))
                    for _ in range(2):
                        press(desk.port, "--head", str(head))
                    pages.append((str(len(lines)), hashlib.sha256(lines[-1]).hexdigest()))
                    self.assertIn(f"It has {pages[-1][0]} lines.", read("count.html"))
                    self.assertIn(pages[-1][1], read("count.html"))
                    shown = json.loads(read("manifest.json"))["record"]
                    self.assertEqual((shown["lines"], shown["sha256"]), (len(lines), pages[-1][1]))
            self.assertEqual(
                [tuple(line.split(",")[1:]) for line in read("record.csv").splitlines()],
                [("lines", "sha256"), *pages])
            self.assertEqual([count for count, _ in pages], ["2", "4"])
            status, said = self.check(front, "--shown", "pages/record.csv")
            self.assertEqual((status, said),
                             (0, f"to look at 0; lines 4, the hash of the last {pages[-1][1]}\n"))
