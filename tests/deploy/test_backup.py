"""Copies of the database."""

import contextlib
import json
import os
import re
import shutil
import signal
import sqlite3
import stat
import statistics
import threading
import time
from datetime import UTC, datetime
from pathlib import Path

from tests.support import tools
from tests.support.case import PROGRAM, ROOT
from tests.support.office import SETUP, with_stations
from tests.support.record import LODGED, chained, replayed
from tests.support.recorder import command, recorder_alone
from tests.support.running import PATIENCE, free_port, until
from tests.support.scripts import loaded
from tests.support.site import (
    DEPLOY, EXAMPLES, Office, SiteCase, backup, new, plain, ran, rows, serving,
)


def office_table(rows):
    """Makes a database with a table of two columns that have to be the same, which keeps its log;
    its connection."""
    it = sqlite3.connect("office.db", isolation_level=None, check_same_thread=False)
    it.execute("PRAGMA journal_mode = WAL")
    it.execute("PRAGMA wal_autocheckpoint = 0")
    it.execute("CREATE TABLE setup (one, other)")
    it.executemany("INSERT INTO setup VALUES (0, 0)", [()] * rows)
    return it


class Backup(SiteCase):
    def test_a_backup(self):
        """While the office serves, after it was killed, and once it was ended: the copies are of
        the same moment."""
        with serving(EXAMPLES) as desk:
            self.assertEqual(plain(desk.port, "POST", "/con/montehondo/import",
                                   (ROOT / "examples/returns.csv").read_bytes()).status, 200)
            status, out, errors = backup("office.db", "copies")
            self.assertEqual((status, errors), (0, ""))
            [copy] = Path("copies").iterdir()
            self.assertTrue(re.fullmatch(r"office-\d{8}T\d{6}Z\.db", copy.name), copy)
            self.assertEqual(out, f"copied office.db to copies/{copy.name}\nmontehondo agrees\n")
            # Through a link too the log is copied, which lies beside the database.
            Path("links").mkdir()
            Path("links/link.db").symlink_to(Path("office.db").resolve())
            self.assertEqual(backup("links/link.db", "of_link")[0], 0)
            [of_link] = Path("of_link").iterdir()
            self.assertEqual(of_link.read_bytes(), copy.read_bytes())
            # Nothing has changed: no second copy, and the first is counted again.
            same = 0, f"copies/{copy.name} is the same already\nmontehondo agrees\n", ""
            self.assertEqual(backup("office.db", "copies"), same)
            desk.end(signal.SIGKILL)
        self.assertTrue(Path("office.db-wal").exists(), "a killed office leaves its log")
        self.assertEqual(backup("office.db", "copies"), same)
        self.assertTrue(Path("office.db-wal").exists())
        ran(PROGRAM, "show", "--db", "office.db", "--report", "progress")
        self.assertEqual(rows(str(copy)), rows())
        self.assertEqual(len(list(Path("copies").iterdir())), 1)
        # It is an office's database, which can take the place of the one that is lost.
        self.assertEqual(ran(PROGRAM, "show", "--db", copy, "--report", "progress").split()[1:4],
                         ["15", "2", "13"])

    def test_a_backup_that_finds_no_room(self):
        """It leaves no half of a copy."""
        new(EXAMPLES)
        status, out, errors = backup("office.db", "copies", largest=50_000)
        self.assertTrue(status, (status, out, errors))
        self.assertFalse(out, (status, out, errors))
        self.assertTrue(errors, (status, out, errors))
        self.assertEqual(os.listdir("copies"), [])
        self.assertEqual(backup("office.db", "copies")[0], 0)

    def test_a_backup_of_what_is_no_office(self):
        Path("empty.db").write_bytes(b"")
        Path("text.db").write_text("no database" * 1000, encoding="utf-8")
        with contextlib.closing(sqlite3.connect("other.db")) as it, it:
            it.execute("CREATE TABLE other (n)")
        for words in (("nonesuch.db", "copies"), ("empty.db", "copies"), ("text.db", "copies"),
                      ("other.db", "copies"), ("office.db",), ()):
            with self.subTest(words=words):
                status, out, errors = backup(*words)
                self.assertTrue(status, (status, out, errors))
                self.assertFalse(out, (status, out, errors))
                self.assertTrue(errors, (status, out, errors))
        self.assertTrue(not Path("copies").exists() or not list(Path("copies").iterdir()))

    def test_a_backup_while_clerks_lodge(self):
        """Each copy is of one moment: it has the returns that were lodged by then, in their order,
        and none is half there."""
        with serving(with_stations(5000)) as desk:
            lodged, stop, longest = [], threading.Event(), [0.0] * 5

            def lodge():
                for n in range(1, 5001):
                    if stop.is_set():
                        return
                    began = time.monotonic()
                    body = json.dumps({"slip": f"p{n}", "votes": [n % 100, 1], "blank": 0,
                                       "spoiled": 0})
                    self.assertEqual(plain(desk.port, "POST", f"/station/s{n}/lodge", body).status,
                                     200)
                    longest[round_of] = max(longest[round_of], time.monotonic() - began)
                    lodged.append(n)
                    # (so that they last as long as the backups)
                    time.sleep(0.003)

            round_of, thread = 0, threading.Thread(target=lodge)
            thread.start()
            try:
                for round_of in range(5):
                    until(lambda: len(lodged) > 50 * round_of)
                    before = len(lodged)
                    status, out, errors = backup("office.db", f"copies-{round_of}")
                    after = len(lodged)
                    self.assertEqual((status, errors), (0, ""))
                    [copy] = Path(f"copies-{round_of}").iterdir()
                    found = rows(str(copy))
                    stations = sorted(int(row[0][1:]) for row in found["returns"])
                    self.assertEqual(stations, list(range(1, len(stations) + 1)))
                    self.assertLessEqual(before, len(stations), (before, len(stations), after))
                    self.assertLessEqual(len(stations), after + 1, (before, len(stations), after))
                    self.assertGreater(after, before, "nothing was lodged meanwhile")
            finally:
                stop.set()
                thread.join(timeout=PATIENCE)
            print("the longest lodge during each backup:", *(f"{took:.2f} s" for took in longest))
            # (of five, since a disk that has much else to do may let one wait; where the office
            # has to wait for the database itself, a lodge is answered 503)
            self.assertLess(statistics.median(longest), 3)

    def test_a_log_that_is_begun_again_during_a_backup(self):
        """The office takes its log into the database between the copy of the one and of the other:
        both are copied once more."""
        script = loaded("backup")
        copied, times, copy_file = [], [], shutil.copyfile
        with contextlib.closing(office_table(500)) as it:
            def copyfile(source, to):
                copy_file(source, to)
                copied.append(str(source))
                times.append(datetime.now(UTC))
                if len(copied) in (1, 3):
                    it.execute(f"UPDATE setup SET one = {len(copied)}, other = {len(copied)}")
                    it.execute("PRAGMA wal_checkpoint(RESTART)")
                    it.execute("UPDATE setup SET one = one + 1, other = other + 1 WHERE rowid < "
                               f"{len(copied) + 100}")

            script.shutil.copyfile = copyfile
            try:
                moment, _ = script.copy_both(Path("office.db"), Path("copy.db"))
            finally:
                script.shutil.copyfile = copy_file
            self.assertEqual(copied, ["office.db", "office.db-wal"] * 3)
            self.assertLessEqual(times[-2], moment, (times, moment))
            self.assertLessEqual(moment, times[-1], (times, moment))
            script.take_log(Path("copy.db"))
            wanted = it.execute("SELECT one, other FROM setup").fetchall()
        with contextlib.closing(sqlite3.connect("copy.db")) as copy:
            self.assertEqual(copy.execute("SELECT one, other FROM setup").fetchall(), wanted)
        self.assertFalse(Path("copy.db-wal").exists())

    def test_an_office_that_begins_to_serve_during_a_backup(self):
        """There was no log at first: the copy is of a moment with its log."""
        script = loaded("backup")
        with contextlib.closing(office_table(10)) as it:
            it.execute("PRAGMA journal_mode = DELETE")
            copied, copy_file = [], shutil.copyfile

            def copyfile(source, to):
                copy_file(source, to)
                copied.append(str(source))
                if len(copied) == 1:
                    it.execute("UPDATE setup SET one = 1, other = 1")

            script.shutil.copyfile = copyfile
            try:
                script.copy_both(Path("office.db"), Path("copy.db"))
            finally:
                script.shutil.copyfile = copy_file
            self.assertEqual(copied.count("office.db"), 2)
        with contextlib.closing(sqlite3.connect("copy.db")) as copy:
            self.assertEqual(set(copy.execute("SELECT one, other FROM setup")), {(1, 1)})

    def test_a_log_that_never_rests(self):
        script = loaded("backup")
        script.TRIES = 3
        script.head_of, heads = lambda log: str(next(heads)).encode(), iter(range(100))
        Path("office.db").write_bytes(b"x")
        with self.assertRaises(script.Failed):
            script.copy_both(Path("office.db"), Path("copy.db"))

    def test_a_backup_whose_votes_do_not_agree(self):
        """The copy is kept, and the status says that it does not agree, each time; nobody else may
        read it."""
        with serving(SETUP) as desk:
            self.assertEqual(
                plain(desk.port, "POST", "/station/s1/lodge", json.dumps(LODGED)).status, 200)
            self.assertEqual(plain(desk.port, "POST", "/station/s1/close", '{"rev":1}').status, 200)
        with contextlib.closing(sqlite3.connect("office.db")) as it, it:
            it.execute("UPDATE totals SET n = n + 1")
        for begin in ("copied office.db to ", "copies/office-"):
            status, out, _ = backup("office.db", "copies")
            self.assertEqual((status, out.splitlines()[1:]), (1, ["c1 differs: totals"]))
            self.assertTrue(out.startswith(begin), out)
        [copy] = Path("copies").iterdir()
        self.assertEqual(stat.filemode(copy.stat().st_mode), "-rw-r-----")

    def test_a_backup_of_a_spoiled_database(self):
        """A page of it is spoiled: no copy."""
        with contextlib.closing(office_table(5000)) as it:
            it.execute("CREATE INDEX both_columns ON setup (one, other)")
            it.execute("PRAGMA journal_mode = DELETE")
        size = Path("office.db").stat().st_size
        with open("office.db", "r+b") as it:
            it.seek(size - 6000)
            it.write(b"\xff" * 3000)
        status, out, said = backup("office.db", "copies")
        self.assertTrue(status, (status, out, said))
        self.assertFalse(out, (status, out, said))
        self.assertIn("nothing was copied", said, (status, out, said))
        self.assertEqual(list(Path("copies").iterdir()), [])

    def test_room_for_more_copies(self):
        """No copy is made that would leave less room than three more need; and a copy is on the
        disk, with its name, before it is reported."""
        script = loaded("backup")
        office_table(100).close()
        free, seen = [0], []
        script.shutil = type("Shutil", (), {
            "copyfile": staticmethod(shutil.copyfile),
            "disk_usage": lambda _: type("Usage", (), {"free": free[0]})})
        script.os.fsync, fsync = lambda descriptor: seen.append((
            os.readlink(f"/proc/self/fd/{descriptor}"), os.listdir("copies"))), os.fsync
        try:
            size = sum(Path(name).stat().st_size for name in ("office.db", "office.db-wal")
                       if Path(name).exists())
            for free[0], is_copied in ((4 * size - 1, False), (4 * size, True)):
                with self.subTest(is_copied=is_copied, free=free):
                    try:
                        copy, is_new = script.back_up(Path("office.db"), Path("copies"))
                        self.assertEqual((is_copied, is_new), (True, True))
                    except script.Failed:
                        self.assertEqual((is_copied, os.listdir("copies")), (False, []))
        finally:
            script.os.fsync = fsync
        here = os.getcwd()
        self.assertEqual(
            seen, [(f"{here}/copies/.copy.db", [".copy.db"]), (f"{here}/copies", [copy.name])])

    def test_a_copy_after_the_clock_was_put_back(self):
        """It is made, and the one that its time would be taken for the newest by is named, each
        time until it is put aside."""
        shutil.copy(ROOT / "examples/montehondo.db", "office.db")
        Path("copies").mkdir()
        ahead = Path("copies/office-20990101T000000Z.db")
        ahead.write_bytes(b"a copy of before")
        for _ in range(2):
            status, out, said = backup("office.db", "copies")
            self.assertEqual((status, out.splitlines()[-1], said),
                             (1, "montehondo agrees",
                              f"backup: {ahead} has a later time, and is an older copy: the clock "
                              "was put back\n"))
            time.sleep(1.1)
        ahead.unlink()
        status, out, said = backup("office.db", "copies")
        self.assertEqual((status, out.split()[1:], said),
                         (0, "is the same already montehondo agrees".split(), ""))
        # The last one has the time that is ahead: no name gets an earlier one.
        max(Path("copies").iterdir()).rename(ahead)
        names = sorted(os.listdir("copies"))
        Path("commands.log").write_bytes(b"one\n")
        self.assertEqual(backup("office.db", "copies", "commands.log"), (
            1, f"{ahead} is the same already\nmontehondo agrees\n",
            f"backup: {ahead} has a later time than the clock, which was put back; its name does "
            "not say that the record has 1 lines\n"))
        self.assertEqual(sorted(os.listdir("copies")), names)

    def test_two_copies_of_one_second(self):
        """The first one stays, and the second is not made: one name is one copy."""
        script, moment = loaded("backup"), datetime(2026, 11, 26, 22, 14, tzinfo=UTC)
        script.datetime = type("Clock", (), {"now": lambda _: moment})
        shutil.copy(ROOT / "examples/montehondo.db", "office.db")
        copy, _ = script.back_up(Path("office.db"), Path("copies"))
        first = copy.read_bytes()
        with contextlib.closing(sqlite3.connect("office.db")) as it, it:
            it.execute("UPDATE cons SET note = 'another'")
        with self.assertRaisesRegex(script.Failed, f"{copy} is there already, and is another one"):
            script.back_up(Path("office.db"), Path("copies"))
        self.assertEqual((list(Path("copies").iterdir()), copy.read_bytes()), ([copy], first))

    def test_a_record_that_was_cut(self):
        """A name with more lines says that the record had them: it stays, and each run and `status`
        say so, also where the record is gone and where a later copy has fewer, until it is moved
        away."""
        shutil.copy(ROOT / "examples/montehondo.db", "office.db")
        lines = chained(*[{"name": "clara"}] * 7).splitlines(True)
        Path("status.toml").write_text('[record]\nfile = "commands.log"\n[[office]]\n'
                                       'name = "first"\nbackups = "copies"\n', encoding="utf-8")

        def copied(number):
            if number:
                Path("commands.log").write_bytes(b"".join(lines[:number]))
            else:
                Path("commands.log").unlink()
            status, out, said = backup("office.db", "copies", "commands.log")
            self.assertEqual(out.splitlines()[-1], "montehondo agrees")
            looked = tools.run([DEPLOY / "status", "--config", "status.toml"], text=True,
                               capture_output=True, timeout=PATIENCE)
            self.assertEqual(looked.returncode, status, looked.stdout)
            if status and number:
                self.assertIn(f"it has {number} lines, and had 7 when {longest.name} was made",
                              looked.stdout)
            return status, said

        self.assertEqual(copied(7), (0, ""))
        [longest] = Path("copies").iterdir()
        for number in (4, 0, 5):
            with self.subTest(number=number):
                self.assertEqual(copied(number), (1, self.of_a_cut_record(number, longest)))
                self.assertEqual(list(Path("copies").iterdir()), [longest])
        with contextlib.closing(sqlite3.connect("office.db")) as it, it:
            it.execute("UPDATE cons SET note = 'another'")
        time.sleep(1.1)
        for number in (5, 6):
            self.assertEqual(copied(number), (1, self.of_a_cut_record(number, longest)))
            self.assertTrue(longest.exists())
            self.assertEqual(len(os.listdir("copies")), 2)
        longest.rename("kept.db")
        self.assertEqual(copied(6), (0, ""))

    @staticmethod
    def of_a_cut_record(number, copy):
        return (f"backup: commands.log has {number} lines, and had 7 when {copy} was made: keep "
                "that copy\n")

    def test_a_copy_that_is_published(self):
        """By the lines of README.md: the newest one, whatever its name is, if it agrees. Otherwise
        what was published stays."""
        page = (DEPLOY / "README.md").read_text(encoding="utf-8")
        [lines] = re.findall(r"\n    \(\n((?:    .*\n)*?.*recount.py office.db\n(?:    .*\n)*?)"
                             r"    \)\n", page)
        for old, here in (("systemctl start office-backup@$site",
                           f"{DEPLOY}/backup data.db lib/$site/backup"),
                          ("runuser -u office -- ", ""), ("/var/lib/office", "lib"),
                          ("/usr/lib/office", str(ROOT / "examples")),
                          ("/usr/bin/office", PROGRAM), ("/var/www/office", "pages")):
            self.assertIn(old, lines)
            lines = lines.replace(old, str(here))
        Path("pages/site").mkdir(parents=True)
        Path("lib/site/backup").mkdir(parents=True)
        Path("lib/site/backup/office-20261126T221400Z-00001234.db").write_bytes(b"an older copy")

        def publish():
            ran = tools.run(["sh", "-c", f"(\n{lines})"], env={**os.environ, "site": "site"},
                            capture_output=True, timeout=PATIENCE)
            self.said = ran.stdout.decode().splitlines()
            return ran.returncode

        published = Path("pages/site/office.db")
        self.assertTrue(publish())
        self.assertFalse(published.exists(), "without a database nothing is published")
        new(with_stations(1), "data.db")
        self.assertTrue(publish())
        self.assertRegex(self.said[-1], "^c1 .* open$")
        self.assertFalse(published.exists(), "one is not certified")
        time.sleep(1.1)
        shutil.copy(ROOT / "examples/montehondo.db", "data.db")
        self.assertEqual(publish(), 0)
        wanted = max(Path("lib/site/backup").iterdir()).read_bytes()
        self.assertEqual((published.read_bytes(), stat.filemode(published.stat().st_mode)),
                         (wanted, "-rw-r--r--"))
        with contextlib.closing(sqlite3.connect("data.db")) as it, it:
            it.execute("UPDATE totals SET n = n + 1")
        time.sleep(1.1)
        # Also where the service does not say that it differs.
        for lines in (lines, lines.replace("lib/$site/backup\n", "lib/$site/backup || true\n", 1)):
            self.assertTrue(publish())
            self.assertEqual(published.read_bytes(), wanted)

    def test_the_lines_in_the_name_of_a_copy(self):
        """How many whole lines the record had, which are counted when the database is copied and
        before its log is. Without a record, and with one that cannot be read, there are none."""
        shutil.copy(ROOT / "examples/montehondo.db", "office.db")
        Path("commands.log").write_bytes(b"one\ntwo\nthree\nfou")
        script = loaded("backup")
        lines = script.Lines(Path("commands.log"))
        with open("commands.log", "ab") as it:
            it.write(b"r\n")
        copy, _ = script.back_up(Path("office.db"), Path("copies"), lines)
        self.assertRegex(copy.name, r"^office-\d{8}T\d{6}Z-00000004\.db$")
        self.assertEqual(backup("office.db", "copies", "commands.log"),
                         (0, f"{copy} is the same already\nmontehondo agrees\n", ""))
        # After more lines the same copy has another name: it lacks nothing of these either.
        with open("commands.log", "ab") as it:
            it.write(b"five\n")
        status, out, said = backup("office.db", "copies", "commands.log")
        [copy] = Path("copies").iterdir()
        self.assertEqual((status, out, said),
                         (0, f"{copy} is the same already\nmontehondo agrees\n", ""))
        self.assertRegex(copy.name, r"^office-\d{8}T\d{6}Z-00000005\.db$")
        status, _, said = backup("office.db", "others", "missing.log")
        self.assertEqual((status, said), (0, ""))
        self.assertRegex(os.listdir("others")[0], r"^office-\d{8}T\d{6}Z-00000000\.db$")
        Path("folder").mkdir()
        for _ in range(2):
            status, out, said = backup("office.db", "more", "folder")
            self.assertEqual((status, out.splitlines()[-1]), (1, "montehondo agrees"))
            self.assertIn("backup: folder: ", said)
            [name] = os.listdir("more")
            self.assertRegex(name, r"^office-\d{8}T\d{6}Z\.db$")
        # The user of the record has put a pipe in its place: nobody waits for it.
        os.mkfifo("pipe")
        status, out, said = backup("office.db", "last", "pipe")
        self.assertEqual((status, out.splitlines()[-1]), (1, "montehondo agrees"))
        self.assertIn("backup: pipe: it is no file", said)
        self.assertEqual(backup("office.db")[0], 2)

    def test_what_came_after_a_copy_when_the_clock_was_put_back(self):
        """The copy is of 21:08, and the clock was put back by five minutes in a pause: no line has
        an earlier time than the one before it, and what came at 21:05 is sent, by its line."""
        with serving(with_stations(3)) as desk, recorder_alone(desk.port):
            self.assertEqual(command("/station/s1/lodge", json.dumps(LODGED).encode()), 200)
            status, out, said = backup("office.db", "copies", "commands.log")
            self.assertEqual((status, said), (0, ""))
            [copy] = Path("copies").iterdir()
            for n in (2, 3):
                self.assertEqual(command(f"/station/s{n}/lodge", json.dumps(LODGED).encode()), 200)
        lines = Path("commands.log").read_bytes().splitlines()
        entries = [{key: value for key, value in json.loads(line).items() if key not in
                    ("n", "before")} for line in lines]
        own = int(re.fullmatch(r".*-(\d{8})\.db", copy.name)[1])
        moments = ("21:00", "21:05", "21:09")
        for n, entry in enumerate(entries):
            entry["time"] = f"2026-11-26T{moments[(n - len(lines) + 6) // 2]}:00.000+00:00"
        self.assertEqual(own, len(lines) - 4)
        for words, sent in ((["--after", str(own)], "sent 2, to look at 0;"),
                            (["--since", "2026-11-26T21:08:00+00:00"], "sent 1, to look at 2;")):
            again = Office(shutil.copy(copy, "again.db"), free_port())
            again.start()
            try:
                status, said = replayed(again.port, chained(*entries), *words)
            finally:
                again.end()
            self.assertIn(sent, said)
            self.assertEqual((status, rows("again.db") == rows("office.db")),
                             (0, True) if words[0] == "--after" else (1, False), said)
        self.assertIn(f"left out by their time: 2 that were done. The answer to the last is line "
                      f"{len(lines) - 2}, of 2026-11-26T21:05:00.000+00:00: does the copy have it?",
                      said)

    def test_a_copy_and_what_came_after_it(self):
        """A command that is done while the copy is looked at, which takes a while, is sent after
        it from the record: nothing is lost between them."""
        script = loaded("backup")
        with serving(with_stations(20)) as desk, recorder_alone(desk.port):
            def lodge(n):
                self.assertEqual(command(f"/station/s{n}/lodge", json.dumps(LODGED).encode()), 200)

            for n in range(1, 6):
                lodge(n)
            take_log = script.take_log

            def slow(copy):
                take_log(copy)
                for n in range(6, 16):
                    lodge(n)
                    time.sleep(0.2)

            script.take_log = slow
            copy, _ = script.back_up(Path("office.db"), Path("copies"),
                                     script.Lines(Path("commands.log")))
            for n in range(16, 21):
                lodge(n)
        moment = datetime.strptime(copy.name[:23], "office-%Y%m%dT%H%M%SZ").isoformat() + "+00:00"
        for words, least in ((["--since", moment], 15), (["--after", copy.stem[-8:]], 15)):
            again = Office(shutil.copy(copy, "again.db"), free_port())
            again.start()
            try:
                status, said = replayed(again.port, Path("commands.log").read_bytes(), *words)
                found = re.search("^sent ([0-9]+), to look at ([0-9]+);", said, re.M)
                # By the time of a second some may be sent that the copy has; by the line, none.
                self.assertTrue(least <= int(found[1]) < (21 if words[0] == "--since" else 16),
                                said)
                left_out = int(words[0] == "--since" and "left out by their time: " in said)
                self.assertEqual((status, int(found[2])), (left_out, left_out), said)
            finally:
                again.end()
            self.assertEqual(rows("again.db"), rows("office.db"))
