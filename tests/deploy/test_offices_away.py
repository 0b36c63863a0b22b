"""An office of several that is away, and pages whose disk is full: what others get meanwhile, and
what the published files say.
"""

import contextlib
import errno
import hashlib
import json
import os
import re
import signal
import sqlite3
import sys
import threading
import time
from datetime import UTC, datetime, timedelta
from pathlib import Path
from unittest import mock

from tests.support.case import Case
from tests.support.desks import done, modelled
from tests.support.office import LISTS, PROFILE, constituency, station
from tests.support.pages import press, read
from tests.support.running import PATIENCE, free_port
from tests.support.scripts import loaded, module
from tests.support.site import DEPLOY, SiteCase, ran

reader, rounds, press_files = module("reader"), module("press"), module("press_files")

TOWNS = {code: constituency(code, f"Town {code}", 3, "d0") + LISTS + station(f"{code}-s1")
         for code in ("c1", "c2")}
OF_ALL = ["elected.csv", "index.csv", "index.json", "results.csv"]
OF_TWO = ("c1", "c2")
FULL = OSError(errno.ENOSPC, "No space left on device")


def certify(office, code):
    """Lodges and closes the return of a constituency, and certifies it."""
    done(office, f"/station/{code}-s1/lodge",
         {"slip": "p1", "votes": [20, 10], "blank": 0, "spoiled": 0})
    done(office, f"/station/{code}-s1/close", {"rev": 1})
    done(office, f"/con/{code}/certify", {"edition": 1})


@contextlib.contextmanager
def certified(code):
    """An office with one constituency that is certified, and its port."""
    with modelled(PROFILE + TOWNS[code]) as (office, port):
        certify(office, code)
        yield office, port


def of_all():
    return sorted(name for name in OF_ALL if Path("pages", name).exists())


def without_age(names):
    """The pages of these names that do not say how old they are."""
    return sorted(file.name for file in Path("pages").glob(f"{names}.html")
                  if 'class="old"' not in file.read_text(encoding="utf-8"))


def vouched_for():
    """The files that the manifest names, each with whether it has that hash."""
    return {name: hashlib.sha256(Path("pages", name).read_bytes()).hexdigest() == digest
            for name, digest in json.loads(read("manifest.json"))["files"].items()}


class PagesOfOneAway(SiteCase):
    of_the_program = False

    def setUp(self):
        super().setUp()
        Path("setup.toml").write_text(PROFILE + "".join(TOWNS.values()), encoding="utf-8")

    def a_round(self, *ports, status=0):
        addresses = [f"http://127.0.0.1:{port}" for port in ports]
        return ran(sys.executable, DEPLOY / "press.py", *addresses, "pages", "--setup",
                   "setup.toml", status=status)

    @contextlib.contextmanager
    def rounds(self, port, codes, *others):
        """A function that makes a round of the pages of these constituencies, in this process."""
        Path("setup.toml").write_text(PROFILE + "".join(TOWNS[code] for code in codes),
                                      encoding="utf-8")
        setup = {one["code"]: one for one in rounds.read_setup(Path("setup.toml"))}
        offices = [rounds.Office(f"http://127.0.0.1:{one}") for one in (port, *others)]
        Path("pages").mkdir(exist_ok=True)

        def a_round():
            with contextlib.redirect_stderr(None):
                rounds.write_all(offices, Path("pages"), rounds.Site(), setup, a_round.seen)

        a_round.seen = rounds.Seen()
        yield a_round

    def test_a_certificate_that_is_withdrawn_meanwhile(self):
        """The files of all constituencies are removed that still have it, and come again with the
        other office. What has not changed stays."""
        with certified("c1") as (office, first):
            with certified("c2") as (_, second):
                self.a_round(first, second)
                self.assertEqual(of_all(), OF_ALL)
                self.a_round(first, free_port(), status=1)
                self.assertEqual(of_all(), OF_ALL)
                done(office, "/con/c1/reopen", {"edition": 2, "note": "mistake"})
                self.a_round(first, free_port(), status=1)
                self.assertEqual(of_all(), [])
                self.assertEqual(set(OF_ALL) & vouched_for().keys(), set())
                self.a_round(first, second)
                self.assertEqual(of_all(), OF_ALL)
                states = [row.split(",")[:6] for row in read("results.csv").splitlines()[1:]]
                self.assertEqual({(row[0], row[5]) for row in states},
                                 {("c1", "false"), ("c2", "true")})

    def test_a_certificate_of_another_edition(self):
        with certified("c1") as (office, first), certified("c2") as (_, second):
            self.a_round(first, second)
            done(office, "/con/c1/reopen", {"edition": 2, "note": "mistake"})
            done(office, "/con/c1/certify", {"edition": 3})
            self.a_round(first, free_port(), status=1)
            self.assertEqual(of_all(), [])

    def test_a_database_that_was_published(self):
        """It stays while its certificates are in force, also over restarts, whatever becomes of
        other files, and is removed once one is withdrawn, also where it comes after that: whoever
        counts it again would find it right. So is each of several, and one that is no database
        stays."""
        def published(edition):
            for name in ("office.db", "office-2.db"):
                Path("pages", name).unlink(missing_ok=True)
                with contextlib.closing(sqlite3.connect(Path("pages", name))) as it, it:
                    it.execute("CREATE TABLE cons (con TEXT, edition INTEGER, certified INTEGER)")
                    it.execute("INSERT INTO cons VALUES ('c1', ?, 1), ('c9', 1, 1)", [edition])
                os.utime(Path("pages", name), (0, time.time() - press_files.LATELY))

        def there():
            found = {name for name in vouched_for() if name.startswith("office")}
            self.assertEqual(found, {file.name for file in Path("pages").glob("office*")})
            return found - {"office-x.db"}

        both = {"office.db", "office-2.db"}
        with certified("c1") as (office, port), self.rounds(port, ["c1"]) as a_round:
            a_round()
            Path("pages/office-x.db").write_bytes(b"no database")
            published(2)
            a_round()
            a_round.seen = rounds.Seen()
            Path("pages/index.json").unlink()
            a_round()
            self.assertEqual(there(), both)
            done(office, "/con/c1/reopen", {"edition": 2, "note": "mistake"})
            for _ in range(2):
                a_round()
                self.assertEqual(there(), set())
                published(2)
            # One that is put there while a round goes on may be of what that does not know yet.
            published(2)
            Path("pages/office.db").touch()
            a_round()
            self.assertEqual(there(), {"office.db"})
            done(office, "/con/c1/certify", {"edition": 3})
            os.utime("pages/office.db", (0, 0))
            a_round()
            self.assertEqual(there(), set())
            published(4)
            a_round()
            self.assertEqual(there(), both)

    def test_a_link_in_the_place_of_a_file(self):
        """Whether it leads nowhere or where nobody may look, it ends no round, and no certificate
        that is withdrawn stays beside it. The manifest has none: the proxy does not serve it."""
        with certified("c1") as (office, port), self.rounds(port, ["c1"]) as a_round:
            a_round()
            links = [Path("pages", name) for name in ("office.db", "office-2.db", "act.pdf")]
            for link, to in zip(links, ("nowhere", "x" * 300, "x" * 300)):
                link.symlink_to(to)
            self.assertRaises(OSError, links[1].is_file)
            done(office, "/con/c1/reopen", {"edition": 2, "note": "mistake"})
            with mock.patch.object(rounds, "write_con", side_effect=FULL):
                self.assertRaises(OSError, a_round)
            self.assertEqual(of_all(), [])
            a_round.seen.forget()
            a_round()
            self.assertEqual([row.split(",")[5] for row in read("results.csv").splitlines()[1:]],
                             ["false", "false"])
            self.assertEqual((without_age("index"), vouched_for().keys() & {
                link.name for link in links}), (["index.html"], set()))

    def test_a_file_that_was_changed_before(self):
        """The manifest does not vouch for it, whichever it is, as long as an office is away; and
        it does for what is as it was."""
        with certified("c1") as (_, first):
            with certified("c2") as (_, second):
                self.a_round(first, second)
            names = set(vouched_for())
            changed = {"elected.csv", "con-c2.html", "con-c2.csv"}
            for name in changed:
                file = Path("pages", name)
                file.write_bytes(file.read_bytes().replace(b"Ana", b"Eve").replace(b"20", b"90"))
            for _ in range(2):
                self.a_round(first, free_port(), status=1)
                found = vouched_for()
                self.assertEqual(set(found.values()), {True})
                # A page that has a line of its age is not as the manifest had it either.
                gone = {name for name in names - found.keys() if not name.endswith(".html")}
                self.assertEqual(gone, {"elected.csv", "con-c2.csv"})
                self.assertNotIn("con-c2.html", found)
                self.assertIn("con-c1.html", found)
            with certified("c2") as (_, second):
                self.a_round(first, second)
            self.assertEqual(vouched_for(), dict.fromkeys(names, True))
            self.assertNotIn("Eve", read("elected.csv"))

    def test_a_disk_that_is_full(self):
        """Each page says how old it is, by the room that was kept for that; nothing vouches for
        them, and no file of all constituencies has a certificate that is withdrawn."""
        with certified("c1") as (office, port), self.rounds(port, ["c1"]) as a_round:
            a_round()
            reserve = Path("pages/.reserve")
            room = reserve.stat()
            self.assertEqual(room.st_size, 4 * 1024 * 1024)
            self.assertGreaterEqual(room.st_blocks * 512, room.st_size)
            done(office, "/con/c1/reopen", {"edition": 2, "note": "mistake"})
            with mock.patch.object(rounds, "write_con", side_effect=FULL), \
                    self.assertRaises(OSError):
                a_round()
            a_round.seen.forget()
            pages = [file.name for file in Path("pages").glob("*.html")]
            self.assertIn("con-c1.html", pages)
            self.assertEqual([name for name in pages if 'class="old"' not in read(name)], [])
            # (the room is kept again, before anybody else takes it)
            self.assertEqual((reserve.stat().st_blocks, Path("pages/manifest.json").exists(),
                              of_all()), (room.st_blocks, False, []))
            a_round()
            self.assertEqual((reserve.exists(), of_all()), (True, OF_ALL))
            self.assertEqual([file.name for file in Path("pages").glob("*.html")
                              if 'class="old"' in read(file.name)], [])
            self.assertEqual(set(vouched_for().values()), {True})

    def test_a_disk_without_the_room_that_is_kept(self):
        """Nothing is written before there is that room: pages go on saying how old they are."""
        with certified("c1") as (office, port), self.rounds(port, ["c1"]) as a_round:
            a_round()
            done(office, "/con/c1/reopen", {"edition": 2, "note": "mistake"})
            Path("pages/.reserve").unlink()
            with mock.patch.object(press_files.os, "posix_fallocate", side_effect=FULL):
                for _ in range(3):
                    self.assertRaises(OSError, a_round)
                    a_round.seen.forget()
                    self.assertEqual((without_age("*"), of_all()), ([], []))
                    self.assertIn('state-certified"', read("con-c1.html"))
            a_round()
            self.assertEqual(without_age("*"), sorted(
                file.name for file in Path("pages").glob("*.html")))
            self.assertNotIn('state-certified"', read("con-c1.html"))

    def test_a_disk_without_any_room(self):
        """A page that cannot say how old it is, and may have a certificate that is withdrawn, is
        removed; whatever has none stays, and so does one that says how old it is already. All are
        there again with the first round that has room."""
        self.enterContext(contextlib.redirect_stderr(None))
        with modelled(PROFILE + "".join(TOWNS.values())) as (office, port):
            for code in OF_TWO:
                certify(office, code)
            with self.rounds(port, OF_TWO) as a_round:
                a_round()
                names = without_age("*")
                rounds.put(Path("pages"), "list-A.html", rounds.aged(
                    rounds.Site(), read("list-A.html"), datetime.now(UTC) + timedelta(hours=1)))
                with mock.patch.object(press_files, "put_bytes", side_effect=FULL):
                    # As long as nothing is withdrawn all that is there may be read.
                    self.assertRaises(OSError, a_round)
                    self.assertEqual(without_age("*"), [
                        name for name in names if name != "list-A.html"])
                    done(office, "/con/c1/reopen", {"edition": 2, "note": "mistake"})
                    for _ in range(2):
                        self.assertRaises(OSError, a_round)
                        a_round.seen.forget()
                        self.assertEqual([file.name for file in Path("pages").glob("*.html")
                                          if "c2" not in file.name], ["list-A.html"])
                    self.assertEqual(without_age("*"), [
                        name for name in names if "c2" in name])
                done(office, "/con/c1/certify", {"edition": 3})
                a_round()
                self.assertEqual(without_age("*"), names)

    def test_a_disk_that_is_full_between_a_table_and_its_json(self):
        """The table keeps no certificate that is withdrawn in a later round, which finds no room
        either."""
        for name in ("con_json", "index_json"):
            with self.subTest(name=name), certified("c1") as (office, port), \
                    self.rounds(port, ["c1"]) as a_round:
                done(office, "/con/c1/reopen", {"edition": 2, "note": "mistake"})
                a_round()
                before = read("con-c1.csv")
                done(office, "/con/c1/certify", {"edition": 3})
                with mock.patch.object(rounds, name, side_effect=FULL):
                    self.assertRaises(OSError, a_round)
                a_round.seen.forget()
                done(office, "/con/c1/reopen", {"edition": 4, "note": "mistake"})
                with mock.patch.object(rounds, "write_con", side_effect=FULL):
                    self.assertRaises(OSError, a_round)
                table, index = Path("pages/con-c1.csv"), Path("pages/index.csv")
                self.assertFalse(table.exists() and read("con-c1.csv") != before)
                self.assertFalse(index.exists() and ",true" in read("index.csv"))

    def test_a_first_certificate_of_a_disk_that_is_full_before_its_json(self):
        """Its pages, or those of all, are removed once it is withdrawn. What programs read stays
        meanwhile: it has none, and nothing is left of that once there is room."""
        for name in ("con_json", "index_json"):
            with self.subTest(name=name), certified("c1") as (office, port), \
                    self.rounds(port, ["c1"]) as a_round:
                done(office, "/con/c1/reopen", {"edition": 2, "note": "mistake"})
                a_round()
                done(office, "/con/c1/certify", {"edition": 3})
                with contextlib.ExitStack() as later:
                    def fill(*_, later=later):
                        later.enter_context(
                            mock.patch.object(press_files, "put_bytes", side_effect=FULL))
                        raise FULL

                    with mock.patch.object(rounds, name, fill):
                        self.assertRaises(OSError, a_round)
                    self.assertTrue(Path("pages/con-c1.json").exists())
                    self.assertEqual(of_all(), OF_ALL)
                    done(office, "/con/c1/reopen", {"edition": 4, "note": "mistake"})
                    for _ in range(2):
                        a_round.seen.forget()
                        self.assertRaises(OSError, a_round)
                        self.assertEqual([page for page in without_age("*")
                                          if 'state-certified"' in read(page)], [])
                a_round.seen.forget()
                a_round()
                self.assertEqual(sorted(file.name for file in Path("pages").glob(".*")),
                                 [".provisional", ".reserve"])
                self.assertNotIn('state-certified"', read("con-c1.html") + read("index.html"))

    def test_what_is_written_before_a_round_on_a_full_disk(self):
        """The office is asked all the same: nothing keeps a certificate that is withdrawn."""
        with certified("c1") as (office, port), self.rounds(port, ["c1"]) as a_round:
            a_round()
            done(office, "/con/c1/reopen", {"edition": 2, "note": "mistake"})
            Path("pages/find.json").unlink()
            with mock.patch.object(rounds, "write_given", side_effect=FULL):
                for _ in range(2):
                    self.assertRaises(OSError, a_round)
                    a_round.seen.forget()
                    self.assertEqual((without_age("*"), of_all()), ([], []))

    def test_a_start_on_a_full_disk(self):
        """It leaves the room that is kept to the pages. What finds none is written by a round;
        another fault ends the start."""
        Path("site").mkdir()
        Path("site/site.toml").write_text('languages = ["es"]\n', encoding="utf-8")
        Path("site/stations.csv").write_text("station,name\nc1-s1,Hall\n", encoding="utf-8")
        folder, site, given = Path("pages"), rounds.Site(Path("site")), Path("pages/site.json")
        folder.mkdir()
        press_files.keep_room(folder)
        for of, name in ((press_files, "put_bytes"), (Path, "mkdir")):
            with mock.patch.object(of, name, side_effect=FULL):
                rounds.begin(folder, site)
            self.assertEqual((given.exists(), Path("pages/.reserve").exists()), (False, True))
        rounds.look_for_changes(folder, site, rounds.Seen())
        self.assertTrue(given.exists() and Path("pages/es").is_dir())
        with mock.patch.object(rounds, "write_given", side_effect=PermissionError(13, "denied")):
            self.assertRaises(PermissionError, rounds.begin, folder, site)

    def test_lines_that_find_no_room(self):
        """As those in a file of the same disk: the program goes on."""
        self.addCleanup(signal.signal, signal.SIGTERM, signal.getsignal(signal.SIGTERM))
        with mock.patch.object(rounds, "write_all", return_value=(1, ["one"])), mock.patch(
                "sys.argv", ["press.py", "http://127.0.0.1:9", "pages"]), mock.patch(
                "sys.stderr", mock.Mock(write=mock.Mock(side_effect=FULL))):
            self.assertEqual(rounds.main(), 1)

    def test_a_page_that_was_changed_before_a_disk_was_full(self):
        """The manifest does not vouch for it in the rounds after that, as long as its office is
        away."""
        with certified("c1") as (_, first):
            with certified("c2") as (_, second), self.rounds(first, OF_TWO, second) as a_round:
                a_round()
                press_files.LEFT.clear()
                a_round.seen.forget()
                page = Path("pages/con-c2.html")
                page.write_text(page.read_text(encoding="utf-8").replace("Ana", "Eve"))
                with mock.patch.object(rounds, "write_con", side_effect=FULL):
                    self.assertRaises(OSError, a_round)
            a_round()
            self.assertIn("Eve", page.read_text(encoding="utf-8"))
            self.assertNotIn("con-c2.html", vouched_for())
            self.assertIn("con-c1.html", vouched_for())

    def test_a_round_that_is_cut_off(self):
        """Files with a withdrawn certificate are gone before anything is written in their place:
        whoever is ended in a round leaves none of them."""
        with certified("c1") as (office, port), self.rounds(port, ["c1"]) as a_round:
            a_round()
            done(office, "/con/c1/reopen", {"edition": 2, "note": "mistake"})
            with mock.patch.object(rounds, "write_index", side_effect=SystemExit), \
                    self.assertRaises(SystemExit):
                a_round()
            self.assertEqual(of_all(), [])
            a_round()
            self.assertEqual(of_all(), OF_ALL)
            # Nobody knows what they say where one of them is gone.
            Path("pages/index.json").unlink()
            press_files.withdraw_of_all(Path("pages"), {"c1": None}, None)
            self.assertEqual(of_all(), [])

    def test_files_of_another_election(self):
        """Of a constituency that is none of the setup, and that no office has now."""
        with certified("c1") as (_, port), self.rounds(port, ["c1"]) as a_round:
            a_round()
        with certified("c2") as (_, port), self.rounds(port, OF_TWO[1:], free_port()) as a_round:
            a_round()
            self.assertEqual(of_all(), [])

    def test_a_constituency_that_is_not_written(self):
        """Its files for programs have no certificate that is withdrawn; without a new one they
        stay, and the manifest does not vouch for what was changed before."""
        with modelled(PROFILE + "".join(TOWNS.values())) as (office, port):
            for code in OF_TWO:
                certify(office, code)
            with self.rounds(port, OF_TWO) as a_round:
                a_round()
            press_files.LEFT.clear()
            file = Path("pages/con-c2.csv")
            file.write_bytes(file.read_bytes().replace(b"20", b"90"))
            with self.rounds(port, OF_TWO) as a_round, mock.patch.object(
                    rounds, "write_returns", side_effect=rounds.NoAnswer("/con/c1/stations: 500")):
                a_round()
                self.assertTrue(file.exists() and Path("pages/con-c1.json").exists())
                self.assertNotIn("con-c2.csv", vouched_for())
                done(office, "/con/c1/reopen", {"edition": 2, "note": "mistake"})
                a_round()
                self.assertEqual([name for name in ("con-c1.csv", "con-c1.json", "con-c2.json")
                                  if Path("pages", name).exists()], ["con-c2.json"])
                done(office, "/con/c1/certify", {"edition": 3})
                a_round()
            with self.rounds(port, OF_TWO) as a_round:
                a_round()
                self.assertEqual(json.loads(read("con-c1.json"))["view"]["edition"], 4)
                self.assertEqual(set(vouched_for().values()), {True})

    def test_a_constituency_whose_json_somebody_removed(self):
        """Nobody knows what its table says, so that it is removed where it cannot be written."""
        with certified("c1") as (office, port), self.rounds(port, ["c1"]) as a_round:
            a_round()
            Path("pages/con-c1.json").unlink()
            done(office, "/con/c1/reopen", {"edition": 2, "note": "mistake"})
            with mock.patch.object(
                    rounds, "write_returns", side_effect=rounds.NoAnswer("/con/c1/stations: 500")):
                a_round()
            self.assertFalse(Path("pages/con-c1.csv").exists())

    def test_a_compressed_file_of_a_former_certificate(self):
        """It is made again where somebody removes it: the next start makes the other one of it."""
        with certified("c1") as (office, port), self.rounds(port, ["c1"]) as a_round:
            a_round()
            done(office, "/con/c1/reopen", {"edition": 2, "note": "mistake"})
            a_round()
            compressed = Path("pages/stations-c1-2.csv.gz")
            compressed.unlink()
            a_round()
            self.assertTrue(compressed.exists())

    def test_a_template_without_a_place_for_the_age(self):
        """Its pages are known as those of this program all the same, also by the next one: that of
        the elected of a withdrawn certificate goes."""
        Path("site/templates").mkdir(parents=True)
        own = (DEPLOY / "templates/base.html").read_text(encoding="utf-8")
        Path("site/templates/base.html").write_text(
            re.sub("<!--.?age-->", "", own), encoding="utf-8")
        Path("setup.toml").write_text(PROFILE + TOWNS["c1"], encoding="utf-8")
        with certified("c1") as (office, port):
            press(port, "--setup", "setup.toml", "--site", "site")
            self.assertTrue(Path("pages/elected-1.html").exists())
            done(office, "/con/c1/reopen", {"edition": 2, "note": "mistake"})
            press(port, "--setup", "setup.toml", "--site", "site")
            self.assertFalse(Path("pages/elected-1.html").exists())

    def test_room_that_is_not_there(self):
        """No part of it is left on the disk, and no round begins. One that cannot be kept for
        another reason ends none."""
        Path("pages").mkdir()
        for error, is_full in ((errno.ENOSPC, True), (errno.EDQUOT, True), (errno.EPERM, False)):
            with self.subTest(error=error), mock.patch.object(
                    press_files.os, "posix_fallocate", side_effect=OSError(error, "full")):
                if is_full:
                    self.assertRaises(OSError, press_files.keep_room, Path("pages"))
                else:
                    press_files.keep_room(Path("pages"))
                self.assertEqual(list(Path("pages").iterdir()), [])
        Path("pages/.reserve").mkdir()
        press_files.keep_room(Path("pages"))


class ReadersOfOneAway(Case):
    def test_an_office_that_is_away_takes_no_place_of_another(self):
        """Of stations, seconds and the others: as many as there are places wait for one office,
        and whoever asks another one is answered."""
        for role, many in (("station", 24), ("second", 24), ("clerk", 64)):
            with self.subTest(role=role):
                back, often = threading.Event(), reader.Often()
                away = mock.Mock(ask=lambda *_, wait: back.wait(PATIENCE) and reader.Answer(502))
                here = mock.Mock(ask=lambda *_, wait: reader.Answer(200))
                one, other = (reader.Reader(desk, threading.Semaphore(2), often)
                              for desk in (away, here))
                fields = [{"Office-Name": f"n{n // 2}", "Office-Role": role}
                          for n in range(many)]
                threads = [threading.Thread(target=one.answered, args=("GET", "/con/c1", each, 0))
                           for each in fields]
                try:
                    for thread in threads:
                        thread.start()
                    places = one.places_of.get(role, one.places_of_names)
                    while places.names.total() < many:
                        threading.Event().wait(0.01)
                    more = {"Office-Name": "more", "Office-Role": role}
                    self.assertEqual(one.answered("GET", "/con/c1", more, 0).status, 429)
                    self.assertEqual(other.answered("GET", "/con/c1", more, 0).status, 200)
                finally:
                    back.set()
                    for thread in threads:
                        thread.join()

    def test_the_progress_of_all_offices_says_who_asks(self):
        """Whatever the proxy asks at the sockets of names is of a name: so the reader counts it,
        and it waits for its turn."""
        found = re.findall(r"^location [^{]*\{.*?^}", loaded("split").PROGRESS, re.M | re.S)
        of_names = [text for text in found if "http://names" in text]
        self.assertEqual(len(of_names), 1)
        for header in ("Office-Name $name", "Office-Role $role", "Office-Allowed $sees_tables"):
            self.assertIn(f"    proxy_set_header {header};\n", of_names[0])
        # What is answered 429 is a line too, and no blank.
        self.assertIn("    error_page 429 502 504 = @away;\n", of_names[0])
