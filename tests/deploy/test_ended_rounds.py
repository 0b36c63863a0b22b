"""Rounds of the pages that end before their end or have no time for stations, and starts with
settings that cannot be used: no certificate that is withdrawn stays without an age."""

import contextlib
import errno
import os
import re
import shutil
import sys
from pathlib import Path
from unittest import mock

from tests.deploy.test_offices_away import (
    FULL, OF_ALL, PROFILE, TOWNS, certified, of_all, press_files, rounds, without_age,
)
from tests.deploy.test_rounds import Rounds, files_of
from tests.support import tools
from tests.support.desks import answering_desk, done
from tests.support.office import with_stations
from tests.support.pages import REOPENED, TWIN, read
from tests.support.rounds import OfPages
from tests.support.running import PATIENCE, free_port
from tests.support.site import DEPLOY, SiteCase

# The line that says how old a page is ends so.
AGE = {"en": " earlier.</p>", "es": " anteriores.</p>"}
SITE = {"site.toml": 'languages = ["es"]\n'}
CON_PARTS = (DEPLOY / "templates/con_parts.html").read_text(encoding="utf-8")
PAST_NOTE = re.search("{% macro past_note.*?{% endmacro %}\n", CON_PARTS, re.S)[0]
# Files that have no age.
OF_PROGRAMS = ("manifest.json", "results.csv", "elected.csv", "index.json", "con-c1.json")


@contextlib.contextmanager
def unreadable(file):
    """The disk cannot read this file, until another one is in its place."""
    bad = os.stat(file).st_ino

    def read_by(real):
        def reads(path, *args, **kwargs):
            if path.name == file.name and path.exists() and path.stat().st_ino == bad:
                raise OSError(errno.EIO, "Input/output error", str(path))
            return real(path, *args, **kwargs)
        return reads

    with mock.patch.object(Path, "read_text", read_by(Path.read_text)), \
            mock.patch.object(Path, "read_bytes", read_by(Path.read_bytes)):
        yield


class OfPrograms(OfPages):
    """Programs that make one round each."""

    def a_round(self, answers, site, *words):
        """Its status, and the last line that it says."""
        self.site_of(site)
        with answering_desk(answers) as (port, _):
            ended = tools.run([sys.executable, DEPLOY / "press.py", f"http://127.0.0.1:{port}",
                               "pages", "--setup", "setup.toml", "--site", "site", *words],
                              capture_output=True, text=True, timeout=PATIENCE, check=False)
        return ended.returncode, ended.stderr.strip().split("\n")[-1]

    def assert_all_aged(self):
        """Each page says how old it is, in its language, and no file is there that cannot."""
        pages = [file.read_text(encoding="utf-8") for file in Path("pages").rglob("*.html")]
        self.assertGreater(len(pages), 10)
        for text in pages:
            language = re.search('<html lang="(..)"', text)[1]
            found = re.search('<p class="old".*', text)
            self.assertTrue(found and found[0].count(AGE[language]), text[:500])
        self.assertEqual([name for name in OF_PROGRAMS if Path("pages", name).exists()], [])

    def test_a_template_without_what_a_reopening_needs(self):
        """A board's own copy of an older one: the program ends with each reopening, as often as it
        is started again."""
        for past_note, said in (
                ("", "has no attribute 'past_note'"),
                ("{% macro past_note(note) %}{{ nonesuch }}{% endmacro %}",
                 "failed: templates: 'nonesuch' is undefined")):
            with self.subTest(said=said):
                site = SITE | {"templates/con_parts.html": CON_PARTS.replace(PAST_NOTE, past_note)}
                self.assertEqual(self.a_round(TWIN, site), (0, ""))
                for _ in range(2):
                    status, line = self.a_round(REOPENED, site)
                    self.assertEqual((status, said in line), (1, True), line)
                    self.assert_all_aged()
                self.assertEqual(self.a_round(REOPENED, SITE), (0, ""))
                self.assertEqual(without_age("*"), sorted(
                    file.name for file in Path("pages").glob("*.html")))

    def test_settings_that_are_faulty_at_a_start(self):
        """Of the folder of the site, in the first language or in another, or of the setup."""
        for site in (SITE, {"site.toml": 'language = "es"\nlanguages = ["en"]\n'}):
            for faulty, words, said in (
                    ({"site.toml": "provisonal = false"}, (), "no key is called 'provisonal'"),
                    ({"templates/top.html": "{% if"}, (), "templates: top.html, line 1"),
                    ({"before.csv": "con"}, (), "before.csv: no column"),
                    (SITE, ("--setup", "nowhere.toml"), "nowhere.toml: No such file")):
                with self.subTest(site=site, said=said):
                    self.assertEqual(self.a_round(TWIN, site), (0, ""))
                    for _ in range(2):
                        status, line = self.a_round(REOPENED, faulty, *words)
                        self.assertEqual((status, line.startswith("failed: "), said in line),
                                         (1, True, True), line)
                        self.assert_all_aged()
                        self.assertFalse(Path("pages/.provisional").exists())

    def test_settings_that_are_faulty_while_the_office_is_away(self):
        """Nobody knows what is withdrawn: all that can say its age does, and the rest stays."""
        self.assertEqual(self.a_round(TWIN, SITE), (0, ""))
        self.assertEqual(self.a_round({}, {"site.toml": "x"})[0], 1)
        self.assertEqual(without_age("*"), [])
        self.assertTrue(Path("pages/results.csv").exists())
        self.assertFalse(Path("pages/manifest.json").exists())

    def test_a_folder_that_cannot_be_made_ready(self):
        """As where one of another language is root's."""
        self.assertEqual(self.a_round(TWIN, SITE), (0, ""))
        self.site_of(SITE)
        with answering_desk(REOPENED) as (port, _), mock.patch.object(
                rounds, "repair", side_effect=PermissionError(13, "denied", "es")), mock.patch(
                "sys.argv", ["press.py", f"http://127.0.0.1:{port}", "pages", "--site", "site"]):
            with self.assertRaises(SystemExit) as ended:
                rounds.main()
        self.assertEqual(str(ended.exception), "failed: es: denied")
        self.assert_all_aged()
        self.assertTrue(Path("pages/.provisional").exists())


class InThisProcess(SiteCase):
    of_the_program = False

    def test_whatever_ends_a_round(self):
        """Wherever it does, and also where a page cannot say its age: then it goes, if it may have
        a certificate that is withdrawn."""
        setup = {"c1": rounds.read_setup(self.setup_file("c1"))[0]}
        for act, aged in (("results_of", True), ("look_for_changes", True), ("write_con", True),
                          ("write_con", False), ("write_index", True), ("write_about", True)):
            with self.subTest(act=act, aged=aged), certified("c1") as (office, port):
                asked = [rounds.Office(f"http://127.0.0.1:{port}")], Path("pages"), rounds.Site()
                Path("pages").mkdir(exist_ok=True)
                rounds.write_all(*asked, setup, rounds.Seen())
                Path("pages/own.html").write_text("of a board", encoding="utf-8")
                done(office, "/con/c1/reopen", {"edition": 2, "note": "mistake"})
                with mock.patch.object(rounds, act, side_effect=ZeroDivisionError), \
                        mock.patch.object(rounds, "aged", side_effect=None if aged else KeyError,
                                          wraps=rounds.aged):
                    self.assertRaises(ZeroDivisionError, rounds.write_all, *asked, setup,
                                      rounds.Seen())
                self.assertEqual(read("own.html"), "of a board")
                self.assertEqual(without_age("*"), ["own.html"])
                self.assertEqual(Path("pages/con-c1.html").exists(), aged)
                self.assertFalse(Path("pages/manifest.json").exists())
                if act not in ("results_of", "write_about"):
                    self.assertEqual(of_all(), [])

    def test_pages_of_the_stations_of_a_certificate_that_is_withdrawn(self):
        """They say how old they are until a round has the seconds to ask for the returns: those of
        stations and of places, and no other page."""
        Path("site").mkdir()
        files_of("site/stations.csv", text="station,name,place\ns1,,North\ns2,,North\n")
        one = Rounds(with_stations(2))
        of_stations = ["place-c1-1.html", "places-c1-1.html", "stations-c1-1.html"]

        def aged(seconds):
            one.go(seconds)
            return sorted(file.name for file in one.folder.glob("*.html")
                          if 'class="old"' in one.read(file.name))

        one.close("s1", 30, 10)
        one.close("s2", 5, 1)
        self.assertEqual(aged(60), [])
        done(one.model, "/con/c1/certify", {"edition": 1})
        self.assertEqual((aged(0), aged(60)), ([], []))
        for act, body in (("reopen", {"edition": 2, "note": "mistake"}),
                          ("certify", {"edition": 3}),
                          ("reopen", {"edition": 4, "note": "mistake"})):
            with self.subTest(act=act, body=body):
                done(one.model, f"/con/c1/{act}", body)
                self.assertEqual((aged(0), aged(0)), (of_stations, of_stations))
                # (a program that is started again knows nothing of before)
                one.seen = rounds.Seen()
                self.assertEqual((aged(0), aged(60), aged(0)), (of_stations, [], []))

    def test_pages_of_the_stations_of_an_office_that_was_replaced(self):
        """A copy from before took its place, and other returns were certified with the same
        edition: its file of returns goes at once, and pages of them say how old they are until a
        round has the seconds to ask. Those of a count that is certified do not."""
        Path("site").mkdir()
        files_of("site/stations.csv", text="station,name,place\ns1,,North\ns2,,North\n")
        one, other = Rounds(with_stations(2)), Rounds(with_stations(2))
        of_stations = ["place-c1-1.html", "places-c1-1.html", "stations-c1-1.html"]

        def certify(town, votes):
            town.close("s1", votes, 10)
            town.close("s2", 5, 1)
            one.go()
            done(town.model, "/con/c1/certify", {"edition": 1})

        def found(seconds):
            one.go(seconds)
            return (sorted(file.name for file in one.folder.glob("*.html")
                           if 'class="old"' in one.read(file.name)),
                    [file.read_text().count("100") for file in (
                        *one.folder.glob("stations-*.csv"), *one.folder.glob("places-*.csv"))])

        certify(one, 100)
        self.assertEqual((found(0), found(0), found(60)), (([], [0]), ([], [0]), ([], [1, 0])))
        certify(other, 90)
        one.model = other.model
        self.assertEqual((found(0), found(0)), ((of_stations, []), (of_stations, [])))
        self.assertEqual((found(60), found(0)), (([], [0, 0]), ([], [0, 0])))

    def test_a_holder_who_has_left(self):
        """Of a certificate of the same edition: no list of the elected has that name while another
        office is away, nor has a page that cannot say how old it is. Numbers stay, which have no
        names, unless the seats are others."""
        setup = {one["code"]: one for one in rounds.read_setup(self.setup_file("c1", "c2"))}
        site, folder = rounds.Site(), Path("pages")
        vacancy = {"list": "A", "place": 1, "note": "left"}
        folder.mkdir()

        def write(*ports):
            with contextlib.redirect_stderr(None):
                rounds.write_all([rounds.Office(f"http://127.0.0.1:{port}") for port in ports],
                                 folder, site, setup, rounds.Seen())

        with certified("c1") as (one, first), certified("c2") as (_, second):
            write(first, second)
            done(one, "/con/c1/vacate", vacancy)
            write(first, free_port())
            self.assertEqual(of_all(), ["index.csv", "index.json", "results.csv"])
            write(first, second)
            self.assertEqual(of_all(), OF_ALL)
            file = folder / "elected.csv"
            file.write_text(read(file.name).replace("c1,Town c1,A,1,", "c1,Town c1,B,2,"))
            rounds.forget(file)
            write(first, free_port())
            self.assertEqual(of_all(), [])
        with certified("c1") as (one, first), certified("c2") as (_, second):
            write(first, second)
            done(one, "/con/c1/vacate", vacancy)
            with mock.patch.object(rounds, "write_con", side_effect=FULL), \
                    mock.patch.object(rounds, "aged", side_effect=FULL):
                self.assertRaises(OSError, write, first, second)
            self.assertEqual([page.name for page in folder.glob("*.html")
                              if "c2" not in page.name and "Ana" in read(page.name)], [])
            self.assertFalse(file.exists() or Path(folder, "con-c1.json").exists())

    def test_a_file_that_the_disk_cannot_read(self):
        """It ends no round, and is written again. In a round that ends for another reason each
        other page says its age, and no file for programs has the certificate that is withdrawn."""
        setup = {one["code"]: one for one in rounds.read_setup(self.setup_file("c1", "c2"))}
        site, folder = rounds.Site(), Path("pages")
        for name in ("con-c1.html", "con-c2.html", "list-A.html", "elected-1.html", "index.html",
                     "stations-c2-1.html", "index.json", "con-c1.json", "elected.csv"):
            for is_known in (False, True):
                with self.subTest(name=name, is_known=is_known), \
                        certified("c1") as (one, first), certified("c2") as (_, second):
                    def write():
                        rounds.write_all(
                            [rounds.Office(f"http://127.0.0.1:{port}") for port in (first, second)],
                            folder, site, setup, rounds.Seen())

                    shutil.rmtree(folder, ignore_errors=True)
                    press_files.LEFT.clear()
                    folder.mkdir()
                    write()
                    pages = without_age("*")
                    if not is_known:
                        press_files.LEFT.clear()
                    done(one, "/con/c1/reopen", {"edition": 2, "note": "mistake"})
                    with unreadable(folder / name):
                        with mock.patch.object(rounds, "write_con", side_effect=FULL):
                            self.assertRaises(OSError, write)
                        is_there = Path("pages/con-c1.json").exists()
                    self.assertEqual((set(without_age("*")) - {name}, of_all(), is_there),
                                     (set(), [], False))
                    press_files.LEFT.clear()
                    if not (folder / name).exists():
                        continue
                    with unreadable(folder / name):
                        write()
                    self.assertEqual((without_age("*"), of_all()), (pages, OF_ALL))
                    self.assertNotIn("Final: all", read("index.html"))

    def test_a_link_that_leads_where_nobody_may_look(self):
        """Put there while the program was away, it ends no round, and is written over."""
        setup = {one["code"]: one for one in rounds.read_setup(self.setup_file("c1"))}
        Path("site").mkdir()
        files_of("site/stations.csv", text="station,name,place\nc1-s1,,North\n")
        site, folder = rounds.Site(Path("site")), Path("pages")
        for name in ("stations-c1-1.html", "places-c1-1.html", "place-c1-1.html",
                     "stations-c1-open.csv", "stations-c1-1.csv", "con-c1.json", "elected.csv"):
            with self.subTest(name=name), certified("c1") as (office, port):
                offices, link = [rounds.Office(f"http://127.0.0.1:{port}")], folder / name
                folder.mkdir(exist_ok=True)
                rounds.write_all(offices, folder, site, setup, rounds.Seen())
                press_files.LEFT.clear()
                link.unlink(missing_ok=True)
                link.symlink_to("x" * 300)
                self.assertRaises(OSError, link.exists)
                done(office, "/con/c1/reopen", {"edition": 2, "note": "mistake"})
                with mock.patch.object(rounds, "write_index", side_effect=ZeroDivisionError):
                    self.assertRaises(ZeroDivisionError, rounds.write_all, offices, folder, site,
                                      setup, rounds.Seen())
                self.assertEqual((without_age("*"), of_all()), ([], []))
                rounds.write_all(offices, folder, site, setup, rounds.Seen())
                self.assertFalse(link.is_symlink())
                self.assertNotIn("Final: all", read("index.html"))

    def setup_file(self, *codes):
        file = Path("setup.toml")
        file.write_text(PROFILE + "".join(TOWNS[code] for code in codes), encoding="utf-8")
        return file
