"""office-site --restore: a site of a copy and a record, on another computer and on its own. In a
folder: the office and `replay` are run, and of systemd only the words are seen.
"""

import contextlib
import gzip
import hashlib
import io
import json
import os
import re
import shutil
import signal
import subprocess
import sys
import tarfile
import zlib
from pathlib import Path
from unittest import mock

from tests.deploy.test_office_site import tree
from tests.support.case import PROGRAM
from tests.support.record import LODGED, a_command, chained
from tests.support.running import free_port
from tests.support.site import DEPLOY, Office, backup, plain, rows
from tests.support.sites import OfSites

ONE, OTHER = "a.example", "b.example"
COPY, ARCHIVE = "office-20261126T221403Z-00000003.db", f"office-{ONE}.tar.gz"
DATA, RECORD = f"var/lib/office/{ONE}", f"var/log/office/{ONE}/commands.log"
SETUP = f"etc/office/{ONE}/setup.toml"
AGAIN = ("--restore", COPY, ONE)
ELSEWHERE = (*AGAIN, "--from", ARCHIVE, "--record", "commands.log")
# On this computer it is closed until an hour, and a board has asked for two names.
HOUR = "2099-11-29T20:00:00+01:00"


def is_packed(data, text):
    with contextlib.suppress(OSError, EOFError, zlib.error):
        return gzip.decompress(data) == text
    return False


class Restored(OfSites):
    of_the_program = True
    prefix = "office-restored-"

    def setUp(self):
        super().setUp()
        self.calls, self.office = [], None
        self.addCleanup(lambda: self.office and self.office.end())
        self.site.DESKS = range(free_port(), 65_536)
        self.site.await_page = lambda _: None
        self.site.Machine = self.machine_at
        self.site.site_restore.run = self.tar_or_program
        self.lost()

    def machine_at(self, root):
        machine = type(self.machine)(root)
        machine.has_services = True
        machine.systemctl = lambda *words: machine.has_services and self.systemctl(*words)
        machine.is_active = lambda unit: False
        machine.reset_failed = lambda *units: None
        return machine

    def systemctl(self, *words):
        self.calls.append(" ".join(words))
        if words == ("start", f"office@{ONE}"):
            desk, _ = self.site.ports_of(self.machine, ONE)
            self.office = Office(self.root / DATA / "office.db", desk)
            self.office.start()
        elif words[0] == "disable" and self.office:
            self.office.end()

    def program(self, *words, env=None):
        name = Path(words[0]).name
        if name == "office" and "--db" in words:
            words = PROGRAM, *words[1:]
        elif name != "setup-json":
            return super().program(*words, env=env)
        subprocess.run(list(map(str, words)), check=True, capture_output=True)
        return "", ""

    def tar_or_program(self, *words):
        if words[0] == "nginx":
            self.calls.append(" ".join(words))
            return "", ""
        return subprocess.run(list(map(str, words)), check=True).stdout, ""

    def lost(self):
        """The archive, the copy and the record of a site, whose computer is moved away. The copy
        lacks the second return."""
        self.assertEqual(self.did(ONE, "setup.toml", "--hour", HOUR)[0], 0)
        self.put(f"etc/office/{ONE}/recorder.env", "RECORDER=--two-of-board\n")
        (self.root / "etc/systemd/system/office-alarm@.service.d").mkdir(parents=True)
        subprocess.run(["tar", "-C", self.root, "-czf", ARCHIVE, f"etc/office/{ONE}",
                        f"etc/nginx/office/{ONE}", f"var/lib/office-site/{ONE}",
                        "etc/systemd/system/office-alarm@.service.d"], check=True)
        office = Office(self.root / DATA / "office.db", free_port())
        self.addCleanup(office.end)
        office.start()
        setup = self.root / f"var/lib/office-site/{ONE}/setup.json"
        lines = [{"setup": hashlib.sha256(setup.read_bytes()).hexdigest()}]
        for place, name in enumerate(("s1", "s2")):
            body = json.dumps({**LODGED, "slip": name})
            said = plain(office.port, "POST", f"/station/{name}/lodge", body)
            lines += [a_command(body, f"/station/{name}/lodge"),
                      {"to": 2 * place + 2, "status": 200, "answer": said.body.decode()}]
            if name == "s1":
                self.assertEqual(backup(self.root / DATA / "office.db", "copies")[::2], (0, ""))
        office.end()
        [copy] = Path("copies").glob("office-*.db")
        copy.rename(COPY)
        Path("commands.log").write_bytes(chained(*lines))
        os.rename(self.root, "lost")
        (self.root / "etc/office").mkdir(parents=True)

    def restored(self, *words, status=0):
        self.calls.clear()
        found, out, said = self.did(*words)
        self.assertEqual(found, status, (out, said))
        return out, said

    def refused(self, words, said):
        """It is said before anything is changed, or any service stops."""
        before = tree(self.root)
        self.assertRegex(self.restored(*words, status=1)[1], f"^office-site: .*{said}")
        self.assertEqual((tree(self.root), self.calls), (before, []))

    def slips(self):
        return [row[:3] for row in rows(self.root / DATA / "office.db")["returns"]]

    def test_another_computer(self):
        """The office alone is started, once the proxy has its hour; then all is as it was."""
        out, _ = self.restored(*ELSEWHERE)
        self.assertEqual([word for word in self.calls if not word.startswith("stop")], [
            f"disable --now --quiet {' '.join(self.site.units_of(ONE))}", "daemon-reload",
            "nginx -t", "restart nginx", "reload-or-restart office-ports",
            f"start office@{ONE}"])
        self.assertIn("sent 1, to look at 0; lines 5,", out)
        self.assertEqual(out.splitlines()[-3:], [
            f"pages and reports are for everybody: {HOUR}",
            "acts of the board are by two of the board",
            f"nobody reaches the office yet. Then start the rest: office-site {ONE}"])
        self.office.end()
        self.assertEqual(len(self.slips()), 2)
        self.assertEqual(rows(self.root / DATA / "office.db"), rows(f"lost/{DATA}/office.db"))
        self.assertEqual((self.root / RECORD).read_bytes(), Path("commands.log").read_bytes())
        for place in (SETUP, f"etc/nginx/office/{ONE}/staff.htpasswd",
                      f"etc/nginx/office/{ONE}/embargo.conf"):
            self.assertEqual((self.root / place).read_bytes(), Path("lost", place).read_bytes())
        self.assertTrue((self.root / "etc/systemd/system/office-alarm@.service.d").is_dir())
        self.refused(ELSEWHERE, "this computer has something of a.example already")
        self.assertRegex(self.did("--list")[1],
                         "^a.example: port [0-9]+, was restored, and is not open, ")
        # Who has looked starts the rest; an upgrade does not.
        self.refused(("--again",), "a.example was restored: look at it, and start it")
        self.office.end()
        self.assertIn(f"restart {' '.join(self.site.units_of(ONE))}",
                      self.restored(ONE) and self.calls)
        self.restored("--again")
        self.assertRegex(self.did("--list")[1], "^a.example: port [0-9]+, does not run, ")

    def test_a_database_that_alone_is_lost(self):
        """The record and the setup of this computer stay. What is left of the database is put
        aside, also of one that this was tried with before."""
        shutil.copytree("lost", self.root, symlinks=True, dirs_exist_ok=True)
        os.remove(self.root / DATA / "office.db")
        self.put(f"{DATA}/office.db-wal", "a log")
        self.refused(AGAIN, "commands.log is not there: mount its file system; or if it is lost")
        (self.root / RECORD).write_bytes(Path("commands.log").read_bytes())
        (self.root / SETUP).write_bytes((self.root / SETUP).read_bytes() + b"# newer\n")
        for words in (AGAIN, (*AGAIN, "--record", "commands.log"), ELSEWHERE[:3]):
            self.assertIn("sent 1, to look at 0;", self.restored(*words)[0])
            self.office.end()
            self.assertEqual(len(self.slips()), 2)
        self.assertTrue((self.root / SETUP).read_bytes().endswith(b"# newer\n"))
        self.assertEqual([file.read_text() for file in self.root.glob(
            f"{DATA}/before-*/office.db-wal")], ["a log"])

    def test_a_record_that_goes_less_far_than_what_was_seen(self):
        """The recorder would do nothing beside what the pages have shown of the lost one, and each
        backup would fail beside a copy that is later than it."""
        shutil.copytree("lost", self.root, symlinks=True, dirs_exist_ok=True)
        backups, pages = f"{DATA}/backup", f"var/www/office/{ONE}"
        shown = self.put(f"{pages}/record.csv", "shown")
        seen = self.put(f"var/lib/office-status/{ONE}/seen.json", "{}")
        later = self.put(f"{backups}/office-20261126T221500Z-00000006.db", "later")
        kept = [self.put(f"{backups}/office-20261126T22130{n}Z-0000000{n}.db") for n in (4, 5)]
        copy = kept[0].with_name(COPY)
        os.rename(COPY, copy)
        words = ("--restore", str(copy), ONE, "--record", "commands.log")
        self.assertIn("sent 1, to look at 0;", self.restored(*words)[0])
        self.assertEqual([file.exists() for file in (shown, seen, later, *kept, copy)],
                         [False] * 3 + [True] * 3)
        for folder, name in ((pages, ".before-*/record.csv"), (backups, f"before-*/{later.name}")):
            self.assertEqual(len([*(self.root / folder).glob(name)]), 1)
        self.office.end()
        # With the record of this computer none of it is moved.
        shown.touch()
        self.restored(*words[:3])
        self.assertTrue(shown.exists())

    def test_a_link_of_another_user(self):
        """Root gives away no file to which somebody's link leads meanwhile."""
        secret = Path("secret")
        secret.write_text("s", encoding="utf-8")
        secret.chmod(0o600)
        folder = self.root / "folder"
        folder.mkdir()

        def copied(data, copy):
            (folder / ".file.new").unlink()
            (folder / ".file.new").symlink_to(secret.resolve())

        restore = self.site.site_restore
        with mock.patch.object(restore.shutil, "copyfileobj", copied):
            super().refused("somebody else writes", restore.take, self.machine, COPY,
                            "/folder/file", 0o644, "office")
        self.assertEqual((secret.stat().st_mode & 0o777, (folder / "file").exists()),
                         (0o600, False))

    def test_a_run_that_was_interrupted(self):
        """Of the same archive it goes on, and unpacks nothing over what somebody has mended."""
        put = self.site.site_restore.take
        for at in ("commands.log", ".restored.db"):
            def fails(machine, file, place, *more, at=at):
                if place.endswith(at):
                    raise OSError("no room")
                put(machine, file, place, *more)

            with mock.patch.object(self.site.site_restore, "take", fails):
                self.assertIn("no room", self.restored(*ELSEWHERE, status=1)[1])
            self.assertFalse((self.root / DATA / "office.db").exists())
            for words in ((ONE,), (ONE, "setup.toml"), ("--begin-again", ONE)):
                self.restored(*words, status=1)
                self.assertEqual(self.calls, [])
        with mock.patch.object(self.site.site_restore, "await_desk", side_effect=OSError("no")):
            self.restored(*ELSEWHERE, status=1)
        self.refused((ONE,), "a.example is being restored: go on with office-site --restore")
        self.assertRegex(self.did("--list")[1], "^a.example: port [0-9]+, is being restored, ")
        self.office.end()
        self.put(f"etc/nginx/office/{ONE}/staff.conf", "ana clerk;\n")
        shutil.copy(ARCHIVE, "other.tar.gz")
        with open("other.tar.gz", "ab") as file:
            file.write(b"\0")
        other = (*AGAIN, "--from", "other.tar.gz", "--record", "commands.log")
        self.refused(other, "this computer has something of a.example already")
        self.assertIn("sent 1, to look at 0;", self.restored(*ELSEWHERE)[0])
        self.assertEqual((self.root / f"etc/nginx/office/{ONE}/staff.conf").read_text(),
                         "ana clerk;\n")

    def test_what_a_spare_computer_has_of_the_site(self):
        units = [f"/etc/systemd/system/office-{name}@{ONE}.{kind}" for name, kind in (
            ("recorder", "service"), ("press", "service.d"), ("backup", "timer.d"))]
        for place in (*self.site.folders_of(ONE), *units):
            there = self.put(f"{place[1:]}/left").parent
            self.refused(ELSEWHERE, f"move all of it away:\n    tar .* {place[1:]}\n$")
            shutil.rmtree(there)

    def test_the_line_that_moves_it_away(self):
        """Also where it is not the first time: what was moved before is still there."""
        self.restored(*ELSEWHERE)
        self.office.end()
        self.refused(ELSEWHERE, f"; or else office-site --remove {ONE}, and then this once more\n$")
        self.restored("--remove", ONE)
        database = (self.root / DATA / "office.db").read_bytes()
        for again in (False, True):
            if again:
                self.put(f"{DATA}/office.db", "another")
            line = self.restored(*ELSEWHERE, status=1)[1].splitlines()[-1]
            subprocess.run(["sh", "-c", line.replace("tar -C / ", f"tar -C {self.root} ").replace(
                "/root/before.tar", "before.tar")], check=True)
        with tarfile.open("before.tar") as files:
            kept = [files.extractfile(one).read() for one in files
                    if one.name == f"{DATA}/office.db"]
        self.assertEqual(kept, [database, b"another"])
        self.restored(*ELSEWHERE)

    def test_a_link_in_the_place_of_the_record(self):
        """Of a record that somebody moved to a larger disk; also if that is not there."""
        shutil.copytree("lost", self.root, symlinks=True, dirs_exist_ok=True)
        larger = Path("larger.log").resolve()
        (self.root / RECORD).symlink_to(larger)
        for there in (False, True):
            if there:
                shutil.copy("commands.log", larger)
            for words in (AGAIN, (*AGAIN, "--record", "commands.log")):
                self.refused(words, "commands.log is a link: put the file itself there\n$")
        os.replace(larger, self.root / RECORD)
        self.assertIn("sent 1, to look at 0;", self.restored(*AGAIN)[0])

    def test_units_of_this_computer(self):
        """Those of another site stay, also where its name begins alike. One that the archive has
        otherwise is named: other sites may need it."""
        unit = "etc/systemd/system/office-alarm@.service.d/call.conf"
        other = self.put(f"etc/systemd/system/office-press@{ONE}.uk.service.d/own.conf", "own")
        for text, here in (("call", "call b"), ("call", "call")):
            Path("lost", unit).write_text(text, encoding="utf-8")
            subprocess.run(["tar", "-C", "lost", "-czf", ARCHIVE, f"etc/office/{ONE}",
                            f"etc/nginx/office/{ONE}", str(Path(unit).parent)], check=True)
            self.put(unit, here)
            if here != text:
                self.refused(ELSEWHERE, f"/{unit} is another one than in {ARCHIVE}")
        self.restored(*ELSEWHERE)
        self.assertEqual(other.read_text(), "own")

    def test_files_that_are_not_of_the_site(self):
        record = Path("commands.log").read_bytes()
        lines = list(map(json.loads, record.splitlines()))
        bare = [{key: line[key] for key in line if key not in ("n", "before")} for line in lines]
        later = [line | {"time": line["time"].replace("26T", "27T")} for line in bare]
        earlier = [line | {"time": line["time"].replace("26T", "25T")} for line in bare]
        other = [{**bare[0], "setup": "0" * 64}, *bare[1:]]
        for entries, said in ((later, "is not the record of"), (earlier, "is not the record of"),
                              (other, "is the record of another setup")):
            Path("commands.log").write_bytes(chained(*entries))
            self.refused(ELSEWHERE, said)
        for end in (0, 2):
            Path("commands.log").write_bytes(b"".join(record.splitlines(True)[:end]))
            self.refused(ELSEWHERE, f"has {end} lines, and the name of .* says 3: it lacks its end")
        Path("commands.log").write_bytes(record)
        shutil.copy(COPY, "evening.db")
        words = ("--restore", "evening.db", *ELSEWHERE[2:])
        self.refused(words, "does not say how many lines the record had")
        Path("evening.db").write_bytes(Path(COPY).read_bytes()[:-5000])
        self.refused((*words, "--after", "3"), "is not whole")
        Path(f"{COPY}-wal").write_text("x")
        self.refused(ELSEWHERE, "that is no copy, but a database with its log")
        os.remove(f"{COPY}-wal")
        whole = Path(ARCHIVE).read_bytes()
        flipped = [whole[:at] + bytes([whole[at] ^ 1]) + whole[at + 1:] for at in range(
            20, len(whole), len(whole) // 40)]
        # (one that changes nothing of what is packed, as within a row of zeros, is no fault)
        flipped = [data for data in flipped if not is_packed(data, gzip.decompress(whole))]
        for data in (whole[:-len(whole) // 3], b"", whole[:-4] + b"abcd", *flipped):
            Path(ARCHIVE).write_bytes(data)
            self.refused(ELSEWHERE, "is not whole")
        Path(ARCHIVE).write_bytes(whole)
        self.refused(("--restore", COPY, OTHER, *ELSEWHERE[3:]),
                     f"lacks etc/office/{OTHER}/setup.toml")
        self.refused(AGAIN, "is not set up here: name its archive")
        self.refused(ELSEWHERE[:-2], "name the record that was kept elsewhere")
        self.refused(("--restore", "none", *ELSEWHERE[2:]), "none is not there")
        # A clock that was put back, where somebody says so.
        Path("commands.log").write_bytes(chained(*later))
        self.assertIn("sent 1, to look at 0;", self.restored(*ELSEWHERE, "--after", "3")[0])

    def test_a_copy_of_another_setup(self):
        subprocess.run(["tar", "-C", "lost", "-czf", ARCHIVE, f"etc/nginx/office/{ONE}"],
                       check=True)
        self.refused(ELSEWHERE, f"lacks {SETUP}")
        Path("lost", SETUP).write_text(Path("lost", SETUP).read_text().replace("300", "301"))
        subprocess.run(["tar", "-C", "lost", "-czf", ARCHIVE, f"etc/office/{ONE}",
                        f"etc/nginx/office/{ONE}"], check=True)
        self.refused(ELSEWHERE, "was made of another setup than that of a.example")
        with mock.patch.object(self.site.site_restore, "run", side_effect=OSError("no room")):
            self.restored(*AGAIN, "setup.toml", *ELSEWHERE[3:], status=1)
        self.refused(ELSEWHERE, "was made of another setup than that of a.example")
        self.assertFalse((self.root / SETUP).exists())
        self.assertIn("sent 1, to look at 0;", self.restored(
            *AGAIN, "setup.toml", *ELSEWHERE[3:])[0])
        self.assertEqual((self.root / SETUP).read_bytes(), Path("setup.toml").read_bytes())

    def test_an_archive_of_before_an_upgrade(self):
        """The setup.json of an older package is another one than that of which the record is."""
        Path("lost/var/lib/office-site", ONE, "setup.json").write_text("[]", encoding="utf-8")
        places = f"etc/office/{ONE}", f"etc/nginx/office/{ONE}", f"var/lib/office-site/{ONE}"
        subprocess.run(["tar", "-C", "lost", "-czf", ARCHIVE, *places], check=True)
        self.assertIn("sent 1, to look at 0;", self.restored(*ELSEWHERE)[0])

    def test_an_archive_of_several_sites(self):
        """Those of others, and of the computer, are left out."""
        for place in (f"etc/office/{OTHER}/setup.toml", f"etc/nginx/office/{OTHER}/key.pem",
                      "etc/nginx/nginx.conf", f"etc/systemd/system/office-press@{OTHER}.service",
                      f"etc/systemd/system/office-press@{ONE}.uk.service"):
            Path("lost", place).parent.mkdir(parents=True, exist_ok=True)
            Path("lost", place).write_text("other", encoding="utf-8")
        subprocess.run(["tar", "-C", "lost", "-czf", ARCHIVE, "etc"], check=True)
        self.assertIn("sent 1, to look at 0;", self.restored(*ELSEWHERE)[0])
        self.assertEqual(sorted(file.name for file in self.root.glob("etc/*/*")),
                         ["a.example", "nginx.conf", "office", "ports.nft", "system"])
        self.assertEqual(sorted(os.listdir(self.root / "etc/systemd/system")),
                         ["nginx.service.d", "office-alarm@.service.d"])
        self.assertNotEqual((self.root / "etc/nginx/nginx.conf").read_text(), "other")

    def test_a_database_as_its_own_copy(self):
        shutil.copytree("lost", self.root, symlinks=True, dirs_exist_ok=True)
        (self.root / RECORD).write_bytes(Path("commands.log").read_bytes())
        database = self.root / DATA / "office.db"
        for log in self.root.glob(f"{DATA}/office.db-*"):
            log.unlink()
        shutil.copy(COPY, database)
        words = ("--restore", str(database), ONE, "--after", "3")
        self.assertIn("sent 1, to look at 0;", self.restored(*words)[0])

    def test_names_of_another_site(self):
        names = Path("lost/etc/nginx/office", ONE, "staff.conf")
        names.unlink()
        names.symlink_to(f"../{OTHER}/staff.conf")
        subprocess.run(["tar", "-C", "lost", "-czf", ARCHIVE, f"etc/office/{ONE}",
                        f"etc/nginx/office/{ONE}"], check=True)
        self.refused(ELSEWHERE, "has the names of b.example: make that site again first")

    def test_two_records(self):
        """The record that is here goes on from the one that was fetched, or neither is taken."""
        shutil.copytree("lost", self.root, symlinks=True, dirs_exist_ok=True)
        whole = Path("commands.log").read_bytes()
        words = (*AGAIN, "--record", "commands.log")
        (self.root / RECORD).write_bytes(whole.replace(b"clara", b"carla"))
        self.refused(words, "does not begin with commands.log: one of the two is of another")
        # Of the one that is here the end is lost.
        (self.root / RECORD).write_bytes(whole[:-1])
        self.assertIn("sent 1, to look at 0; lines 5,", self.restored(*words)[0])
        self.assertEqual((self.root / RECORD).read_bytes(), whole)
        self.office.end()
        Path("commands.log").write_bytes(b"".join(whole.splitlines(True)[:3]))
        self.assertIn("sent 1, to look at 0; lines 5,", self.restored(*words)[0])

    def test_what_has_to_be_looked_at(self):
        """Its status is 1 where replay names something, and nothing is left begun where replay
        sends nothing."""
        whole = Path("commands.log").read_bytes().splitlines(True)
        Path("commands.log").write_bytes(b"".join(whole[:-1]))
        out, _ = self.restored(*ELSEWHERE, status=1)
        self.assertIn("nobody knows whether it was done", out)
        self.assertIn(f"Then start the rest: office-site {ONE}", out)

    def test_a_command_line(self):
        for words in ((ONE, "--from", ARCHIVE), (ONE, "--after", "3"),
                      (ONE, "--record", "commands.log"), (*AGAIN, "--passwords-of", OTHER),
                      (*AGAIN, "--after", "-5")):
            argv = ["office-site", *words]
            with self.subTest(words=words), mock.patch.object(sys, "argv", argv), \
                    contextlib.redirect_stderr(io.StringIO()), self.assertRaises(SystemExit):
                self.site.read_words()

    def test_the_lines_of_the_documents(self):
        """They are words that office-site reads, of a copy, an archive and a record as this house
        names them."""
        page = (DEPLOY / "README.md").read_text(encoding="utf-8")
        lines = re.findall(r"^    office-site (--restore .*)$", page, re.M)
        self.assertEqual(len(lines), 2)
        for line in lines:
            with mock.patch.object(sys, "argv", ["office-site", *line.split()]):
                given = self.site.read_words()
            self.assertTrue(self.site.site_restore.COPY.fullmatch(given.restore))
            self.assertEqual(given.archive, given.archive and f"office-{given.site}.tar.gz")
        self.assertIn("tar -C / -czf office-$site.tar.gz ", page)
