#!/usr/bin/env python3
"""Tests `deploy/status`: each part that it looks at is broken once, and named.

    python3 tests/deploy/test_status.py

Small servers take the place of the desk, the reader and the recorder; the copies are those of
`examples/`. It needs Python and openssl. Without nginx the test of `/health` is skipped.
"""

import contextlib
import getpass
import hashlib
import http.client
import http.server
import json
import os
import re
import shutil
import socket
import sqlite3
import ssl
import subprocess
import sys
import tempfile
import threading
import time
import tomllib
import unittest
from datetime import datetime, timedelta
from pathlib import Path

from tests.support import tools
from tests.support.running import is_listened_to
from tests.support.scripts import module

ROOT = Path(__file__).resolve().parent.parent.parent
DEPLOY = ROOT / "deploy"
NGINX = shutil.which("nginx", path=f"{os.environ.get('PATH', '')}:/usr/sbin")
PROGRESS = b"montehondo           15      0      0      0      0     15      2 certified\n"


class Answers(http.server.BaseHTTPRequestHandler):
    """Answers as its server says."""

    def do_GET(self):
        self.server.asked.append((self.path, dict(self.headers)))
        self.send_response(self.server.status)
        self.send_header("Content-Length", str(len(PROGRESS)))
        self.end_headers()
        self.wfile.write(PROGRESS)

    def log_message(self, *_):
        pass

    def address_string(self):
        return ""


OnPort = http.server.ThreadingHTTPServer


class OnSocket(OnPort):
    address_family = socket.AF_UNIX

    def server_bind(self):
        self.socket.bind(self.server_address)
        self.server_name, self.server_port = "", 0

    def get_request(self):
        return self.socket.accept()[0], ("", 0)


@contextlib.contextmanager
def answering(kind, address, status):
    """In place of the desk or the recorder something that answers with a status."""
    with kind(address, Answers) as server:
        server.asked, server.status = [], status
        threading.Thread(target=server.serve_forever, args=(0.02,), daemon=True).start()
        try:
            yield server
        finally:
            server.shutdown()


def openssl(*words):
    subprocess.run(["openssl", *words], check=True, capture_output=True)


def certify(file, days):
    """Makes a certificate for some days, and its key beside it."""
    key, request = file.with_name("key.pem"), file.with_name("request.pem")
    openssl("req", "-new", "-newkey", "ec", "-pkeyopt", "ec_paramgen_curve:prime256v1", "-nodes",
            "-subj", "/CN=office.example", "-keyout", key, "-out", request)
    openssl("x509", "-req", "-in", request, "-signkey", key, "-days", str(days), "-out", file)


def line(number, before, **more):
    return json.dumps({"n": number, "name": "clara", **more, "before": before}).encode()


def hash_of(text):
    return hashlib.sha256(text).hexdigest()


class Status(unittest.TestCase):
    @classmethod
    def setUpClass(cls):
        with tempfile.TemporaryDirectory() as folder:
            file = Path(folder) / "certificate.pem"
            certify(file, 30)
            cls.of_thirty_days = file.read_bytes()

    def setUp(self):
        self.folder = Path(self.enterContext(tempfile.TemporaryDirectory()))
        self.desk = self.enterContext(answering(OnPort, ("127.0.0.1", 0), 200))
        self.reader, _ = (self.enterContext(answering(OnSocket, str(self.folder / name), 200))
                          for name in ("reader.sock", "reader-names.sock"))
        self.recorder = self.enterContext(answering(OnSocket, str(self.folder / "1.sock"), 403))
        self.record, self.head = self.folder / "commands.log", self.folder / "head"
        self.seen = self.folder / "state/seen.json"
        self.lines = []
        self.write(3)
        (self.folder / "pages").mkdir()
        self.publish(0)
        (self.folder / "backups").mkdir()
        self.copy = self.folder / "backups/office-20261126T221400Z.db"
        shutil.copyfile(ROOT / "examples/montehondo.db", self.copy)
        self.certificate = self.folder / "certificate.pem"
        self.certificate.write_bytes(self.of_thirty_days)
        self.configure()

    # ---- what is looked at

    def write(self, more):
        """Adds lines to the record, as the recorder does."""
        for _ in range(more):
            before = hash_of(self.lines[-1]) if self.lines else "0" * 64
            self.lines.append(line(len(self.lines) + 1, before))
        self.put_lines()

    def put_lines(self, lines=None, end=b"\n", head=None):
        self.record.write_bytes(b"\n".join(lines or self.lines) + end)
        head = head or {"n": len(self.lines), "hash": hash_of(self.lines[-1])}
        self.head.write_text(json.dumps(head), encoding="utf-8")

    def publish(self, seconds):
        moment = datetime.now().astimezone() - timedelta(seconds=seconds)
        text = json.dumps({"time": moment.isoformat()})
        (self.folder / "pages/manifest.json").write_text(text, encoding="utf-8")

    def configure(self, **changes):
        values = {"desk": f"127.0.0.1:{self.desk.server_port}", "megabytes": 1, "days": 14,
                  "seen": self.seen, **changes}
        (self.folder / "status.toml").write_text(f"""\
seen = "{values['seen']}"
[record]
file = "{self.record}"
head = "{self.head}"
[pages]
folder = "{self.folder}/pages"
seconds = 3600
[certificate]
file = "{self.certificate}"
days = {values['days']}
[[room]]
folder = "{self.folder}"
megabytes = {values['megabytes']}
[[office]]
name = "first"
desk = "{values['desk']}"
reader = "{self.folder}/reader.sock"
recorder = "{self.folder}/1.sock"
backups = "{self.folder}/backups"
seconds = 1800
""", encoding="utf-8")

    # ---- looking

    def status(self, *words):
        first = (sys.executable, DEPLOY / "status", "--config", self.folder / "status.toml")
        done = tools.run([*first, *words], capture_output=True, text=True, timeout=300)
        return done.returncode, done.stdout, done.stderr

    def parts(self, status):
        """The lines on each part; the status is looked at."""
        found, text, fault = self.status("--json")
        self.assertEqual((found, fault), (status, ""), text)
        said = json.loads(text)
        self.assertEqual(said["well"], status == 0)
        return {part["part"]: part for part in said["parts"]}

    def assert_wrong(self, part, says):
        """This part alone is wrong."""
        parts = self.parts(1)
        self.assertEqual([name for name, found in parts.items() if not found["well"]], [part])
        self.assertRegex(parts[part]["says"], says)

    # ---- tests

    def test_all_is_well(self):
        parts = self.parts(0)
        self.assertEqual(list(parts), ["desk", "reader", "recorder", "backup", "record", "pages",
                                       "room", "certificate"])
        self.assertEqual((parts["desk"]["of"], parts["room"]["of"]), ("first", str(self.folder)))
        self.assertEqual((parts["record"]["record_lines"], parts["backup"]["agrees"]), (3, 1))
        self.assertTrue(29 < parts["certificate"]["certificate_days"] <= 30)
        status, text, _ = self.status()
        self.assertEqual((status, text.splitlines()[-1]), (0, "all is well"))
        self.assertEqual(text.count(" well  "), 8)
        self.assertEqual(self.desk.asked[0][0], "/progress")
        # The recorder refuses this itself: nobody is asked, and nothing recorded.
        [target, fields] = self.recorder.asked[0]
        self.assertEqual((target, fields["Office-Allowed"]), ("/history/-", "0"))

    def test_the_table_says_which_part_is_wrong(self):
        self.publish(5 * 3600)
        status, text, _ = self.status()
        self.assertEqual(status, 1)
        self.assertRegex(text, r"(?m)^ +pages +WRONG  they are 5 hours old$")
        self.assertRegex(text, r"(?m)^first +desk +well   it answered in \d+ ms$")
        self.assertEqual(text.splitlines()[-1], "1 of 8 is wrong")

    def test_a_desk_that_does_not_answer(self):
        with socket.create_server(("127.0.0.1", 0)) as taken:
            port = taken.getsockname()[1]
        self.configure(desk=f"127.0.0.1:{port}")
        self.assert_wrong("desk", "it does not answer")

    def test_a_desk_that_is_shut(self):
        self.desk.status = 503
        self.assert_wrong("desk", "it answers with status 503")

    def test_a_port_that_is_open(self):
        """A user whom the rules of the ports keep from the desk reaches it where they are not
        loaded. With --open-port there are none."""
        user = "nobody" if os.geteuid() == 0 else getpass.getuser()
        desk, rules = f"127.0.0.1:{self.desk.server_port}", self.folder / "ports.nft"
        rules.write_text("table inet office {\n", encoding="utf-8")
        more = f'"\nclosed_to = "{user}"\nrules = "{rules}'
        self.configure(desk=desk + more)
        self.assert_wrong("port", f"^{user} reaches it: its rules are not loaded$")
        rules.write_text("# Every program on this computer .. (--open-port).\n", encoding="utf-8")
        self.assertEqual(self.parts(0)["port"]["says"],
                         "every program of this computer reaches it (--open-port)")
        rules.unlink()
        self.assert_wrong("port", f"^{rules} cannot be read: ")
        self.configure(desk=f'{desk}"\nclosed_to = "no-such-user')
        self.assert_wrong("port", "^there is no user no-such-user$")
        # Refused, as where the desk is not there: that is a fault of the desk.
        with socket.create_server(("127.0.0.1", 0)) as other:
            closed = other.getsockname()[1]
        self.configure(desk=f'127.0.0.1:{closed}"\nclosed_to = "{user}')
        self.assert_wrong("desk", "it does not answer")
        self.assertEqual(self.parts(1)["port"]["says"], f"{user} is refused")

    def test_a_reader_that_does_not_answer(self):
        (self.folder / "reader.sock").unlink()
        self.assert_wrong("reader", "it does not answer")
        # One that takes connections and says nothing is not waited for.
        with socket.socket(socket.AF_UNIX) as silent:
            silent.bind(str(self.folder / "reader.sock"))
            silent.listen()
            began = time.monotonic()
            self.assert_wrong("reader", "it does not answer: timed out")
            self.assertLess(time.monotonic() - began, 60)

    def test_a_reader_that_does_not_reach_the_desk(self):
        for status in (403, 429, 502, 504):
            with self.subTest(status=status):
                self.reader.status = status
                self.assert_wrong("reader", f"it answers with status {status}")

    def test_what_the_reader_is_asked(self):
        """As the proxy asks for a report, and no longer than a look takes."""
        self.parts(0)
        [(path, fields)] = self.reader.asked
        self.assertEqual([path, fields["Office-Allowed"], fields["Office-Wait"]],
                         ["/progress", "1", "no"])

    def test_the_reader_itself(self):
        """The program, before a desk that answers, and before none."""
        with socket.create_server(("127.0.0.1", 0)) as taken:
            nobody = taken.getsockname()[1]
        for port, wrong in ((self.desk.server_port, ""), (nobody, "it answers with status 502")):
            with self.subTest(port=port), contextlib.ExitStack() as ended:
                folder = self.folder / f"reader-{port}"
                words = (sys.executable, DEPLOY / "reader.py", folder, "--desk",
                         f"127.0.0.1:{port}")
                program = subprocess.Popen(words)
                ended.callback(program.wait)
                ended.callback(program.kill)
                end = time.monotonic() + 60
                while not is_listened_to(folder / "1-names.sock"):
                    self.assertLess(time.monotonic(), end)
                    time.sleep(0.05)
                text = (self.folder / "status.toml").read_text(encoding="utf-8")
                text = text.replace(f"{self.folder}/reader.sock", f"{folder}/1.sock")
                (self.folder / "status.toml").write_text(text, encoding="utf-8")
                if wrong:
                    self.assert_wrong("reader", wrong)
                else:
                    self.parts(0)
                self.configure()
        (self.folder / "reader-names.sock").unlink()
        self.assert_wrong("reader", "it does not answer")

    def test_a_recorder_that_does_not_answer(self):
        (self.folder / "1.sock").unlink()
        self.assert_wrong("recorder", "it does not answer")

    def test_ages_in_words(self):
        looks = module("status_looks")
        for seconds, said in ((0, "0 seconds"), (1, "1 second"), (1.4, "1 second"),
                              (2, "2 seconds"), (119, "119 seconds"), (120, "2 minutes"),
                              (7200, "2 hours"), (172_800, "2 days")):
            with self.subTest(seconds=seconds):
                self.assertEqual(looks.spoken(seconds), said)

    def test_a_recorder_that_is_none(self):
        self.recorder.status = 200
        self.assert_wrong("recorder", "it answers with status 200")

    def test_pages_that_are_old_or_not_there(self):
        self.publish(5 * 3600)
        self.assert_wrong("pages", "they are 5 hours old")
        (self.folder / "pages/manifest.json").write_text("{}", encoding="utf-8")
        self.assert_wrong("pages", "manifest.json cannot be read")
        (self.folder / "pages/manifest.json").unlink()
        self.assert_wrong("pages", "manifest.json cannot be read")

    def test_pages_and_copies_ahead_of_the_clock(self):
        """Those of before the clock was put back may be hours old: nobody knows. Some seconds are
        nothing."""
        self.publish(-3 * 3600)
        self.assert_wrong("pages", "they are 3 hours ahead of the clock, which was put back")
        self.publish(-20)
        self.assertTrue(self.parts(0)["pages"]["well"])
        for seconds, is_well in ((3 * 3600 + 60, False), (20, True)):
            later = time.time() + seconds
            os.utime(self.copy, (later, later))
            if is_well:
                self.assertTrue(self.parts(0)["backup"]["well"])
            else:
                self.assert_wrong("backup", "was up to date 3 hours ahead of the clock, which was "
                                  "put back, and agrees")

    def test_pages_that_are_no_files(self):
        """The user of the pages writes them, and root reads them: a pipe is not waited for, a link
        not followed, and what has no end not read."""
        file = self.folder / "pages/manifest.json"
        kept = file.with_name("kept.json")
        file.rename(kept)
        for made in (lambda: os.mkfifo(file), lambda: file.symlink_to("/dev/zero"),
                     lambda: file.symlink_to(kept),
                     lambda: (file.touch(), os.truncate(file, 1 << 40)),
                     lambda: file.write_text("[" * 100_000)):
            file.unlink(missing_ok=True)
            made()
            self.assert_wrong("pages", "manifest.json cannot be read")

    def test_a_record_and_a_head_that_are_no_files(self):
        """The user of the recorder writes both, and root reads them."""
        for file, said, *more in ((self.record, "no file"), (self.head, "be read", "[" * 10**5)):
            for made in (lambda: os.mkfifo(file), lambda: file.symlink_to("/dev/zero"),
                         *(lambda text=text: file.write_text(text) for text in more)):
                file.unlink()
                made()
                self.assert_wrong("record", said)
            file.unlink()
            self.put_lines()

    def test_copies_that_are_old_do_not_agree_or_are_not_there(self):
        old = time.time() - 3 * 3600
        os.utime(self.copy, (old, old))
        self.assert_wrong("backup", "was up to date 3 hours ago, and agrees")
        os.utime(self.copy)
        self.parts(0)
        # One vote more than its returns have.
        with contextlib.closing(sqlite3.connect(self.copy)) as it, it:
            it.execute("UPDATE totals SET n = n + 1 WHERE item = 1")
        self.assert_wrong("backup", "does not agree")
        self.copy.unlink()
        self.assert_wrong("backup", "has no copy")
        self.copy.mkdir()
        self.assert_wrong("backup", "the newest copy cannot be read: ")
        self.copy.rmdir()
        # The user of the office writes the copies, and root reads them.
        for made in (lambda: os.mkfifo(self.copy), lambda: self.copy.symlink_to("/dev/zero"),
                     lambda: self.copy.symlink_to(ROOT / "examples/montehondo.db")):
            self.copy.unlink(missing_ok=True)
            made()
            self.assert_wrong("backup", f"the newest copy cannot be read: {self.copy} is no file")

    def test_a_backup_that_finds_nothing_new_makes_its_copy_new(self):
        database, folder = self.folder / "office.db", self.folder / "backups"
        shutil.copyfile(ROOT / "examples/montehondo.db", database)
        old = time.time() - 3 * 3600
        self.copy.unlink()
        for _ in range(2):
            words = (sys.executable, DEPLOY / "backup", database, folder)
            tools.run(words, check=True, capture_output=True)
            [copy] = folder.iterdir()
            self.assertLess(time.time() - copy.stat().st_mtime, 60)
            os.utime(copy, (old, old))

    def test_a_disk_without_room(self):
        self.configure(megabytes=10**9)
        self.assert_wrong("room", "[0-9]+ MB are free")
        self.configure()
        # Of two disks, one that is gone.
        with open(self.folder / "status.toml", "a", encoding="utf-8") as file:
            file.write(f'[[room]]\nfolder = "{self.folder}/gone"\n')
        status, text, _ = self.status()
        self.assertEqual((status, text.splitlines()[-1]), (1, "1 of 9 is wrong"))
        self.assertRegex(text, rf"(?m)^{self.folder}/gone +room +WRONG  .*No such file")
        self.assertRegex(text, rf"(?m)^{self.folder} +room +well ")

    def test_a_certificate_that_ends_soon_or_is_none(self):
        self.configure(days=31)
        self.assert_wrong("certificate", "it ends on 20")
        self.configure()
        certify(self.certificate, 0)
        time.sleep(1.1)
        self.assert_wrong("certificate", "it ended on 20")
        self.certificate.write_text("no certificate", encoding="utf-8")
        self.assert_wrong("certificate", "cannot be read as a certificate")

    def test_a_record_goes_on_from_the_last_look(self):
        self.assertEqual(self.parts(0)["record"]["says"], "its 3 lines are whole, 3 of them new")
        self.write(2)
        self.assertEqual(self.parts(0)["record"]["says"], "its 5 lines are whole, 2 of them new")
        self.assertEqual(self.parts(0)["record"]["says"], "its 5 lines are whole, 0 of them new")
        # A line that is being written is none yet, and the head may be a second old.
        self.put_lines([*self.lines, line(6, hash_of(self.lines[-1]))], end=b"")
        self.assertEqual(self.parts(0)["record"]["record_lines"], 5)
        self.put_lines([*self.lines, line(6, hash_of(self.lines[-1]))])
        self.assertEqual(self.parts(0)["record"]["record_lines"], 6)

    def test_a_line_that_a_power_cut_cut_is_a_line(self):
        cut = b'{"n": 4, "name": "cl'
        self.lines += [cut, line(5, hash_of(cut))]
        self.put_lines()
        self.assertEqual(self.parts(0)["record"]["record_lines"], 5)

    def test_a_record_that_is_not_the_one_that_was_written(self):
        first, second, third = self.lines
        after = line(4, hash_of(third))
        other = line(2, hash_of(first), name="bruno")
        again = [first, other, line(3, hash_of(other))]
        head = {"n": 3, "hash": hash_of(third)}
        fresh = {
            "a line is another": ([first, other, third], None, "line 3 does not follow from"),
            "a line is gone": ([first, third], None, "line 2 does not follow"),
            "a line was put in": ([first, second, second, third], None, "line 3 does not follow"),
            "the first is gone": ([second, third], None, "line 1 does not follow"),
            "it ends before the head": ([first, second], head,
                                        "it has 2 lines, and the recorder wrote 3"),
            "it was written again": (again, head, "line 3 is not the one that the recorder wrote"),
            "its last line is no line": ([first, second, third, b"what"], head,
                                         "line 4 cannot be read"),
            "a line is no object": ([first, second, third, b"[]", after], head,
                                    "line 5 does not follow"),
        }
        for what, (lines, shown, says) in fresh.items():
            with self.subTest(what=what):
                self.seen.unlink(missing_ok=True)
                self.put_lines(lines, head=shown)
                self.assert_wrong("record", says)
        seen = {
            "it and its head were written again": (again, {"n": 3, "hash": hash_of(again[-1])}),
            "it and its head are shorter": ([first, second], {"n": 2, "hash": hash_of(second)}),
            "it is a new one": ([line(1, "0" * 64, name="new")], {"n": 1, "hash": "0"}),
        }
        for what, (lines, shown) in seen.items():
            with self.subTest(what=what):
                self.seen.unlink(missing_ok=True)
                self.put_lines()
                self.parts(0)
                self.put_lines(lines, head=shown)
                # However often it is looked at.
                for _ in range(2):
                    self.assert_wrong("record", "line 3 is not the one that was seen before")
        self.record.unlink()
        self.assert_wrong("record", "No such file")

    def test_a_line_that_is_changed_in_its_place(self):
        """The lines after the last look follow from the last one all the same, whatever was changed
        before it."""
        self.write(1)
        self.parts(0)
        whole, first = list(self.lines), self.lines[0]
        self.lines[0] = first.replace(b"clara", b"bruno")
        self.assertEqual((len(self.lines[0]), self.lines[0] == first), (len(first), False))
        for _ in range(2):
            self.write(1)
            self.assert_wrong("record", "a line before line 4 is not the one that was seen before")
        self.lines = [*whole, *self.lines[4:]]
        self.put_lines()
        self.assertEqual(self.parts(0)["record"]["says"], "its 6 lines are whole, 2 of them new")
        # What an older version kept of a look is less: then all is as it says.
        seen = json.loads(self.seen.read_text(encoding="utf-8"))
        del seen["record"]["all"]
        self.seen.write_text(json.dumps(seen), encoding="utf-8")
        self.assertEqual(self.parts(0)["record"]["says"], "its 6 lines are whole, 0 of them new")

    def test_a_record_with_which_the_recorder_does_no_command(self):
        """It answers, and the lines are whole; its head has the fault."""
        head = {"n": 3, "hash": hash_of(self.lines[-1]), "fault": "it is that of another setup"}
        self.put_lines(head=head)
        for _ in range(2):
            self.assert_wrong("record", "the recorder does no command: it is that of another setup")
        self.put_lines()
        self.parts(0)

    def test_a_head_that_is_none(self):
        for head in ([3], {"n": 3}, {"n": "three", "hash": ""}):
            with self.subTest(head=head):
                self.put_lines(head=head)
                self.assert_wrong("record", "its head cannot be read")

    def test_tools_without_a_recount(self):
        tools = self.folder / "tools"
        tools.mkdir()
        for name in ("status", "status_looks.py"):
            shutil.copy(DEPLOY / name, tools)
        done = subprocess.run(
            (sys.executable, tools / "status", "--config", self.folder / "status.toml"),
            capture_output=True, text=True, timeout=300)
        self.assertEqual((done.returncode, done.stderr), (1, ""))
        self.assertIn(f"the newest copy cannot be read: {tools}/recount.py is not there",
                      done.stdout)

    def test_a_record_that_was_put_aside_is_forgotten(self):
        self.write(4)
        self.parts(0)
        self.lines = []
        self.write(2)
        self.assert_wrong("record", "line 7 is not the one that was seen before, or is gone")
        self.assertEqual(self.status("--forget")[0], 0)
        self.assertEqual(self.parts(0)["record"]["record_lines"], 2)
        self.lines = []
        self.write(1)
        self.assertEqual(self.status("--forget")[0], 0)
        self.assertEqual(self.parts(0)["record"]["says"], "its 1 line is whole, 0 of it new")

    def test_what_was_seen_that_cannot_be_read_or_kept(self):
        self.parts(0)
        for text in ("{", "[" * 100_000):
            self.seen.write_text(text, encoding="utf-8")
            self.assertRegex(self.parts(1)["seen"]["says"], "seen.json cannot be read")
            self.parts(0)  # (it was written again)
        self.configure(seen=self.certificate / "seen.json")
        self.assertRegex(self.parts(1)["seen"]["says"], "Not a directory")
        self.configure(seen="")
        self.parts(0)

    def test_metrics(self):
        self.publish(5 * 3600)
        status, text, _ = self.status("--prometheus")
        self.assertEqual(status, 1)
        rows = dict(line.rsplit(" ", 1) for line in text.splitlines() if not line.startswith("#"))
        wanted = {'office_well{part="desk",of="first"}': "1",
                  'office_well{part="backup",of="first"}': "1",
                  'office_well{part="record",of=""}': "1", 'office_well{part="pages",of=""}': "0",
                  'office_record_lines{part="record",of=""}': "3",
                  'office_agrees{part="backup",of="first"}': "1"}
        self.assertEqual({name: rows[name] for name in wanted}, wanted)
        age = float(rows['office_age_seconds{part="pages",of=""}'])
        self.assertTrue(5 * 3600 <= age < 6 * 3600)
        self.assertIn("# HELP office_well Whether a part is well.\n# TYPE office_well gauge", text)
        self.assertEqual(text.count("# TYPE"), len({row.split("{")[0] for row in rows}))
        status, out, _ = self.status("--prometheus", "--to", str(self.folder / "office.prom"))
        files = [file.name for file in self.folder.glob("*office.prom*")]
        self.assertEqual((status, out, files), (1, "", ["office.prom"]))

    def test_several_offices(self):
        more = f'[[office]]\nname = "second"\nrecorder = "{self.folder}/2.sock"\n'
        with open(self.folder / "status.toml", "a", encoding="utf-8") as file:
            file.write(more)
        status, text, _ = self.status()
        self.assertEqual(status, 1)
        self.assertRegex(text, r"(?m)^first +recorder +well ")
        self.assertRegex(text, r"(?m)^second +recorder +WRONG ")

    def test_a_wrong_command_line_or_file_has_status_2(self):
        table = (("seen = 3", "seen is not a text"), ("[desk]\n", "desk is no part to look at"),
                 ("[office]\n", "[[office]]"), ("[[office]]\n", "office lacks name"),
                 ("[record]\n", "record lacks file"), ("pages = 3", "pages is no table"),
                 ("[pages]\nfolder = 3", "pages: folder is not a text"),
                 ('[pages]\nfolder = "a"\nage = 3', "pages has no key age"), ("[", "status.toml"),
                 ('[[room]]\nfolder = "a"\nmegabytes = -1', "room: megabytes is not a number"))
        for text, says in table:
            with self.subTest(text=text):
                (self.folder / "status.toml").write_text(text, encoding="utf-8")
                status, out, fault = self.status()
                self.assertEqual((status, out, fault.count("\n")), (2, "", 1))
                self.assertIn(says, fault)
        for words in (("--json", "--prometheus"), ("--nothing",), ("--config", "/not/there")):
            with self.subTest(words=words):
                self.assertEqual(self.status(*words)[0], 2)
        self.assertFalse(self.seen.exists())

    def test_the_file_that_comes_with_it_is_of_the_folders_of_the_services(self):
        text = (DEPLOY / "status.toml").read_text(encoding="utf-8")
        files = [*DEPLOY.glob("*.service"), DEPLOY / "nginx/offices.conf"]
        services = "".join(file.read_text(encoding="utf-8") for file in files)
        said = tomllib.loads(text)
        [office] = said["office"]
        for place in (said["record"]["file"], said["record"]["head"], said["pages"]["folder"],
                      office["desk"], office["reader"], office["reader_port"], office["recorder"],
                      office["backups"], office["elsewhere"]):
            with self.subTest(place=place):
                self.assertIn(place, services)
        # As it comes, it is taken.
        text = text.replace("/var/lib/office-status", f"{self.folder}/state")
        (self.folder / "status.toml").write_text(text, encoding="utf-8")
        self.assertIn(self.status()[0], (0, 1))


@unittest.skipUnless(NGINX, "nginx is not there")
class Health(unittest.TestCase):
    """The proxy says yes or no, and nothing more."""

    def setUp(self):
        self.folder = Path(self.enterContext(tempfile.TemporaryDirectory()))
        self.desk = self.enterContext(answering(OnPort, ("127.0.0.1", 0), 200))
        with socket.create_server(("127.0.0.1", 0)) as free:
            self.port = free.getsockname()[1]
        for name in ("office", "log", "temporary"):
            (self.folder / name).mkdir()
        desk = f"127.0.0.1:{self.desk.server_port}"
        places = {"/var/log/nginx": f"{self.folder}/log",
                  "/var/lib/nginx": f"{self.folder}/temporary",
                  "/etc/nginx/office": f"{self.folder}/office",
                  "user www-data;": "user root;" if os.geteuid() == 0 else "",
                  "pid /run/nginx.pid;": f"pid {self.folder}/pid; daemon off;",
                  "listen 443 ssl": f"listen 127.0.0.1:{self.port} ssl",
                  "listen 80": "listen 127.0.0.1:0", "unix:/run/office-reader/1-names.sock": desk}
        for file in (DEPLOY / "nginx.conf", *DEPLOY.glob("nginx/*.conf")):
            text = file.read_text(encoding="utf-8")
            for old, new in places.items():
                text = text.replace(old, new)
            folder = self.folder if file.name == "nginx.conf" else self.folder / "office"
            (folder / file.name).write_text(text, encoding="utf-8")
        # The port 0 is none for nginx: nobody asks without TLS here.
        conf = self.folder / "nginx.conf"
        text = conf.read_text(encoding="utf-8")
        begin = text.index("    server {\n        listen 127.0.0.1:0")
        end = text.index("    server {", begin + 9)
        conf.write_text(text[:begin] + text[end:], encoding="utf-8")
        certificate = self.folder / "office/certificate.pem"
        certify(certificate, 2)
        words = (NGINX, "-e", self.folder / "log/error.log", "-c", conf)
        self.process = subprocess.Popen(words, stderr=subprocess.DEVNULL)
        self.addCleanup(self.process.wait)
        self.addCleanup(self.process.terminate)
        end = time.monotonic() + 60
        while time.monotonic() < end and self.process.poll() is None:
            with contextlib.suppress(OSError), socket.create_connection(("127.0.0.1", self.port)):
                return
            time.sleep(0.05)
        self.fail((self.folder / "log/error.log").read_text(encoding="utf-8"))

    def asked(self, method="GET", target="/health"):
        """Status and body of an answer; the method is GET where none is named."""
        context = ssl._create_unverified_context()
        there = http.client.HTTPSConnection("127.0.0.1", self.port, timeout=60, context=context)
        with contextlib.closing(there):
            there.sock = context.wrap_socket(socket.create_connection(("127.0.0.1", self.port)),
                                             server_hostname="office.example")
            there.request(method, target, headers={"Host": "office.example"})
            answer = there.getresponse()
            return answer.status, answer.read()

    def assert_soon(self, status):
        """An answer is kept for a second."""
        end = time.monotonic() + 30
        while self.asked()[0] != status:
            self.assertLess(time.monotonic(), end)
            time.sleep(0.2)

    def test_yes_and_no(self):
        self.assertEqual(self.asked(), (204, b""))
        self.assertEqual(self.asked("HEAD"), (204, b""))
        self.assertEqual(self.asked("POST")[0], 405)
        # Nobody gets at what the proxy asks for that.
        self.assertEqual(self.asked(target="/health/office")[0], 404)
        self.assertEqual({path for path, _ in self.desk.asked}, {"/progress"})
        self.desk.status = 503
        self.assert_soon(503)
        self.assertNotIn(b"montehondo", self.asked()[1])
        self.desk.status = 200
        self.assert_soon(204)
        self.desk.shutdown()
        self.desk.server_close()
        self.assert_soon(503)


if __name__ == "__main__":
    unittest.main()
