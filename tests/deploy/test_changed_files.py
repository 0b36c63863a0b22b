"""Published files that somebody else changes: what the press pages make of them."""

import contextlib
import gzip
import hashlib
import io
import json
import re
import sys
from datetime import UTC, datetime
from pathlib import Path
from unittest import mock

from tests.deploy.test_station_files import COLUMNS, rounds, rounds_of
from tests.support.countries import four
from tests.support.desks import done, modelled
from tests.support.office import with_stations
from tests.support.pages import press, read
from tests.support.published import entries
from tests.support.scripts import module
from tests.support.site import DEPLOY, SiteCase, ran

press_files = module("press_files")


def content(name):
    data = Path("pages", name).read_bytes()
    return gzip.decompress(data) if name.endswith(".gz") else data


def says(name):
    """The content of a file without the moments in it: one that is made again has another."""
    return re.sub(rb"\d{4}-\d\d-\d\dT[^<\"]*|\d\d:\d\d|\d+ seconds?", b"", content(name))


@contextlib.contextmanager
def rounds_of_four():
    """A function that makes a round of the pages of four constituencies, and returns what it said
    on standard error: the names and the words."""
    with four() as (office, _):
        text = Path("setup.toml").read_text(encoding="utf-8")
        with rounds_of(lambda target: office.ask("GET", target), text) as a_round:
            setup = {one["code"]: one for one in rounds.read_setup(Path("setup.toml"))}
            rounds.write_given(Path("pages"), rounds.Site())

            def said_in_a_round():
                said = io.StringIO()
                with contextlib.redirect_stderr(said):
                    a_round()
                return sorted(line.rpartition("/")[2] for line in said.getvalue().splitlines())

            said_in_a_round.seen = a_round.seen
            yield said_in_a_round


def said_by_press(port):
    return ran(sys.executable, DEPLOY / "press.py", f"http://127.0.0.1:{port}", "pages",
               "--setup", "setup.toml")


@contextlib.contextmanager
def pages_of_a_certificate():
    """The pages of a certified constituency of two stations: its setup, its office and the port."""
    setup = with_stations(2)
    with modelled(setup) as (office, port):
        done(office, "/con/c1/import", f"{COLUMNS}s1,p1,0,0,100,50\ns2,p2,0,0,20,60\n")
        for code in ("s1", "s2"):
            done(office, f"/station/{code}/close", {"rev": 1})
        done(office, "/con/c1/certify", {"edition": 1})
        Path("setup.toml").write_text(setup, encoding="utf-8")
        press(port, "--setup", "setup.toml")
        yield setup, office, port


class ChangedFiles(SiteCase):
    of_the_program = False

    def assert_vouched_for(self):
        """The manifest has the hash of each file that it names, and of its compressed one."""
        for name, digest in json.loads(read("manifest.json"))["files"].items():
            with self.subTest(name=name):
                self.assertEqual(hashlib.sha256(content(name)).hexdigest(), digest)
                self.assertEqual(content(f"{name}.gz"), content(name))

    def test_files_that_somebody_changes(self):
        """Each is named, and made again in the next round, though nothing of the count changed."""
        words = "somebody else changed or removed it"
        with rounds_of_four() as a_round:
            for _ in range(2):
                self.assertEqual(a_round(), [])
            before = {file.name: says(file.name) for file in Path("pages").iterdir()}
            for names in (("con-norte.html", "con-sur.html.gz", "elected.csv.gz", "embed.html"),
                          ("con-norte.json", "list-A.html", "setup.json", "find.json",
                           "stations-norte-2.csv", "stations-oeste-open.csv"),
                          ("con-norte.csv", "con-norte.csv.gz", "feed.atom", "index.csv")):
                with self.subTest(names=names):
                    for name in names:
                        data = content(name).replace(b"A", b"B", 1).replace(b"3", b"4", 1)
                        self.assertNotEqual(data, content(name))
                        Path("pages", name).write_bytes(
                            gzip.compress(data) if name.endswith(".gz") else data)
                    said = [f"{name}: {words}" for name in names]
                    if "feed.atom" in names:
                        # (with another namespace it is no feed)
                        said.append("feed.atom: what is none of the entries of these pages is left "
                                    "out")
                    self.assertEqual(a_round(), sorted(said))
                    self.assertEqual({name: says(name) for name in names},
                                     {name: before[name] for name in names})
                    self.assert_vouched_for()
            # One that is gone, one with a link in its place, and one of which only a right changed.
            Path("pages/con-sur.html").unlink()
            Path("pages/index.csv").unlink()
            Path("pages/index.csv").symlink_to("results.csv")
            Path("pages/con-este.json").chmod(0o640)
            self.assertEqual(a_round(), [f"con-sur.html: {words}", f"index.csv: {words}"])
            self.assertFalse(Path("pages/index.csv").is_symlink())
            self.assertEqual({file.name for file in Path("pages").iterdir()}, before.keys())
            self.assert_vouched_for()
            self.assertEqual(a_round(), [])

    def test_a_manifest_of_what_was_written(self):
        """Of a file that is changed before the manifest is made it has the hash of what was
        written: who compares notices."""
        with rounds_of_four() as a_round:
            a_round()
            file, pages = Path("pages/con-norte.csv"), Path("pages").absolute()
            wanted = hashlib.sha256(file.read_bytes()).hexdigest()
            file.write_bytes(file.read_bytes().replace(b"100", b"900"))
            said = rounds.manifest([file.absolute()], None, datetime.now(UTC), pages)
            self.assertEqual(json.loads(said)["files"], {"con-norte.csv": wanted})

    def test_files_that_are_no_text(self):
        """While the pages were away: each is made again, and the pages go on."""
        with four() as (office, port):
            press(port, "--setup", "setup.toml")
            before = {file.name: says(file.name) for file in Path("pages").iterdir()}
            for data in (b"\xff\xfe\xff", b""):
                for name in ("con-norte.html", "con-norte.json", "feed.atom", "index.csv",
                             "stations-norte-2.csv"):
                    with self.subTest(name=name, data=data):
                        Path("pages", name).write_bytes(data)
                        press(port, "--setup", "setup.toml")
                        self.assertEqual(says(name), before[name])
            Path("pages/stations-norte-2.csv").write_bytes(b"")
            done(office, "/con/norte/reopen", {"edition": 2, "note": "again"})
            press(port, "--setup", "setup.toml")
            self.assertEqual(says("stations-norte-2.csv"), before["stations-norte-2.csv"])

    def test_moments_that_are_none(self):
        """A page that says one is made again, when the pages start and when it is marked as old."""
        with four() as (office, port):
            press(port, "--setup", "setup.toml")
            names = ("con-norte.html", "con-norte.json", "feed.atom", "embed.html")
            before = {name: says(name) for name in names}
            for moment in ("x", "2026-11-30T20:00:00", "0001-01-01T00:00:00+14:00"):
                for name in names:
                    text = re.sub(r'(<time datetime="|"time": "|<updated>)[^"<]+',
                                  rf"\g<1>{moment}", read(name))
                    Path("pages", name).write_text(text, encoding="utf-8")
                    rounds.put(Path("pages"), name,
                               rounds.aged(rounds.Site(), text, datetime.now(UTC)))
                press(port, "--setup", "setup.toml")
                with self.subTest(moment=moment):
                    self.assertEqual({name: says(name) for name in names}, before)

    def test_links_and_folders_while_the_pages_were_away(self):
        """A link is replaced, since the proxy serves none. A folder stays, since nobody knows what
        is in it: it is named, and all the rest is written."""
        with four() as (office, port):
            press(port, "--setup", "setup.toml")
            before = {file.name: says(file.name) for file in Path("pages").iterdir()}
            names = ("con-norte.html", "list-A.html", "index.csv", "con-sur.json.gz", "feed.atom",
                     "stations-norte-2.csv", "stations-oeste-open.csv", "site.json",
                     "elected-1.html", "places-norte.csv")
            names = [name for name in names if name in before]
            self.assertGreater(len(names), 7)
            for name in names:
                Path("pages", name).rename(name)
                Path("pages", name).symlink_to(Path(name).absolute())
            said = said_by_press(port)
            self.assertEqual((said.count("failed: "), " pages 5 failed 0 " in said), (1, True))
            self.assertIn("stations-norte-2.csv: somebody else changed or removed it", said)
            self.assertEqual([name for name in before if Path("pages", name).is_symlink()], [])
            self.assertEqual({name: says(name) for name in names},
                             {name: before[name] for name in names})
            for name in names:
                Path("pages", name).unlink()
                Path("pages", name).mkdir()
            said = said_by_press(port)
            self.assertIn(" pages 5 failed 0 ", said)
            for name in names:
                self.assertIn(f"failed: pages/{name}: a folder is in its place\n", said)
                Path("pages", name).rmdir()
            said_by_press(port)
            self.assertEqual({name: says(name) for name in names},
                             {name: before[name] for name in names})
            self.assertEqual({file.name for file in Path("pages").iterdir()}, before.keys())

    def test_a_withdrawn_certificate_while_the_pages_were_away(self):
        """Its file of returns is named and made again from the compressed one; nobody can make it
        where both were changed."""
        with four() as (office, port):
            done(office, "/con/sur/certify", {"edition": 3})
            said_by_press(port)
            edition = json.loads(office.ask("GET", "/con/sur")[1])["edition"]
            name = f"stations-sur-{edition}.csv"
            words = f"{name}: somebody else changed or removed it"
            done(office, "/con/sur/reopen", {"edition": edition, "note": "again"})
            self.assertNotIn(words, said_by_press(port))
            right, file = content(name), Path("pages", name)
            compressed = Path("pages", f"{name}.gz")

            def put_another():
                file.write_bytes(right.replace(b"10", b"11"))

            def put_link():
                file.unlink()
                file.symlink_to("index.csv")

            for change in (put_another, file.unlink, put_link, lambda: file.write_bytes(b"\xff")):
                change()
                self.assertIn(words, said_by_press(port))
                self.assertEqual((content(name), file.is_symlink()), (right, False))
                self.assert_vouched_for()
                self.assertNotIn(words, said_by_press(port))
            # The compressed one alone was changed: it is made of the other.
            compressed.write_bytes(gzip.compress(b"x", 6, mtime=0))
            self.assertNotIn(words, said_by_press(port))
            self.assertEqual(content(f"{name}.gz"), right)
            # A manifest that is none, or is lost, says none of it.
            before = read("manifest.json")
            for text in ("", "[]", '{"files": [1]}', '{"files": {"stations-sur-4.csv": 1}}'):
                Path("pages/manifest.json").write_text(text, encoding="utf-8")
                self.assertNotIn(words, said_by_press(port))
            self.assertEqual(read("manifest.json").count(name), before.count(name))
            put_another()
            compressed.write_bytes(gzip.compress(file.read_bytes(), 6, mtime=0))
            self.assertIn(words, said_by_press(port))
            self.assertEqual((file.exists(), compressed.exists()), (False, False))
            self.assertNotIn(name, read("manifest.json"))

    def test_files_that_cannot_be_read(self):
        """As those that root puts there with rights for itself alone. They are made again while the
        pages go on, and as they start; another's file is none of the manifest."""
        def opened(file, *words, **more):
            if file.exists() and not file.stat().st_mode & 0o444:
                raise PermissionError(13, "Permission denied", str(file))
            return io.open(file, *words, **more)

        names = ("con-norte.html", "con-norte.json.gz", "feed.atom", "index.csv",
                 "stations-norte-2.csv")
        with rounds_of_four() as a_round, mock.patch.object(Path, "open", opened):
            a_round()
            before = {name: says(name) for name in names}
            for name in ("office.db", "con-old.html", "stations-old-2.csv"):
                Path("pages", name).write_bytes(b"x")
                Path("pages", name).chmod(0)
            for starts in (False, True):
                for name in names:
                    Path("pages", name).unlink()
                    Path("pages", name).write_bytes(b"x")
                    Path("pages", name).chmod(0)
                if starts:
                    press_files.LEFT.clear()
                    a_round.seen.forget()
                self.assertEqual(len(a_round()), 0 if starts else len(names))
                for name in names:
                    with self.subTest(name=name, starts=starts):
                        self.assertEqual(says(name), before[name])
                self.assertNotIn("office.db", json.loads(read("manifest.json"))["files"])

    def test_stations_that_were_exchanged(self):
        """While the pages were away: the sums of a certificate stay, and the file is not that of
        the office. A withdrawn certificate's file is known from then on alone."""
        with pages_of_a_certificate() as (setup, office, port):
            right = read("stations-c1-2.csv")
            Path("pages/stations-c1-2.csv").write_text(
                f"{COLUMNS}s1,p1,0,0,20,60\ns2,p2,0,0,100,50\n", encoding="utf-8")
            press(port, "--setup", "setup.toml")
            self.assertEqual(read("stations-c1-2.csv"), right)
            self.assert_vouched_for()
            done(office, "/con/c1/reopen", {"edition": 2, "note": "again"})
            with rounds_of(lambda target: office.ask("GET", target), setup) as a_round:
                a_round()
                self.assertEqual(read("stations-c1-2.csv"), right)
                Path("pages/stations-c1-2.csv").write_text(right.replace("100", "101"))
                with contextlib.redirect_stderr(io.StringIO()):
                    a_round()
                self.assertFalse(Path("pages/stations-c1-2.csv").exists())

    def test_pages_that_were_made_of_exchanged_stations(self):
        """A first round has not the time to ask the office of each constituency: pages that were
        made meanwhile of what somebody wrote are made again once the office has said it."""
        with pages_of_a_certificate() as (setup, office, port):
            right = {file.name: says(file.name) for file in Path("pages").glob("*c1*.[ch]*")}
            exchanged = f"{COLUMNS}s1,p1,0,0,20,60\ns2,p2,0,0,100,50\n"
            Path("pages/stations-c1-2.csv").write_text(exchanged, encoding="utf-8")
            Path("pages/stations-c1-2.csv.gz").write_bytes(gzip.compress(exchanged.encode()))
            with rounds_of(lambda target: office.ask("GET", target), setup) as a_round:
                a_round(seconds=-1.0)
                self.assertNotEqual({name: says(name) for name in right}, right)
                said = io.StringIO()
                with contextlib.redirect_stderr(said):
                    a_round()
                self.assertEqual({name: says(name) for name in right}, right)
                self.assertIn("stations-c1-2.csv: somebody else changed it", said.getvalue())

    def test_a_feed_that_somebody_changed(self):
        """Its entries say what the office bears out, with the moments that they had."""
        with four() as (_, port):
            press(port, "--setup", "setup.toml")
            before, said = read("feed.atom"), entries()
            self.assertIn("<summary>A 2, B 1</summary>", before)
            for old, new in (("<summary>A 2, B 1</summary>", "<summary>A 1, B 2</summary>"),
                             ("certified in edition 2", "certified in edition 9"),
                             ("with 50.00%", "with 49.00%"), ("with 50.00%", "with 100.00%"),
                             ("Óeste &lt;3&gt;", "Norte"),
                             (": provisional seats, with", ": certified seats, with"),
                             ("a recount", "a mistake"), ("con-norte.html", "con-sur.html")):
                with self.subTest(old=old):
                    self.assertIn(old, before)
                    Path("pages/feed.atom").write_text(before.replace(old, new), encoding="utf-8")
                    press(port, "--setup", "setup.toml")
                    self.assertEqual(entries(), said)
                    self.assertEqual(read("feed.atom").count("con-norte.html"),
                                     before.count("con-norte.html"))
