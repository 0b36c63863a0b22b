"""The files of tools: missing ones, logs beside a copy, days, names; and a program that is not
built."""

import argparse
import contextlib
import os
import shutil
import signal
import sqlite3
import subprocess
import sys
import threading
import time
import tomllib
from datetime import date
from pathlib import Path
from unittest import mock

from tests.support import tools
from tests.support.case import ROOT, Case
from tests.support.office import PROFILE
from tests.support.running import PATIENCE
from tests.support.scripts import loaded, module
from tests.support.setups import (
    CODES, CONSTITUENCIES, EDITS, EXAMPLE, GOOD_PROFILE, STATION, TEXTS, cases_of,
)
from tests.support.site import DEPLOY

COPY, SETUP = ROOT / "examples/montehondo.db", ROOT / "examples/setup.toml"


def tool(name, *words):
    """Status, output and errors of a tool, with an empty standard input."""
    file = ROOT / "examples" / name if name == "recount.py" else DEPLOY / name
    done = tools.run([sys.executable, file, *map(str, words)], input="", text=True,
                     capture_output=True, timeout=PATIENCE)
    return done.returncode, done.stdout, done.stderr


class ValuesOfAnotherKind(Case):
    prefix = "office-values-"

    def test_a_setup_that_no_office_takes(self):
        """A code, a name or candidates of another kind: a line says so, and nothing is written."""
        text = SETUP.read_text(encoding="utf-8")
        for old, new in (('code = "montehondo"', "code = 5"), ('code = "ROBLE"', 'code = ["x"]'),
                         ('code = "ROBLE"', "code = {}"), ('name = "Montehondo"', "name = 7"),
                         ('candidates = ["Nuria Valle"]', "candidates = 3"),
                         ('candidates = ["Nuria Valle"]', "candidates = [[1]]")):
            with self.subTest(new=new):
                self.assertIn(old, text)
                Path("setup.toml").write_text(text.replace(old, new), encoding="utf-8")
                status, printed, said = tool("setup-json", "setup.toml", ".")
                self.assertEqual((status, printed, said.count("\n")), (1, "", 1), said)
                self.assertTrue(said.startswith("failed: setup.toml: "), said)
                self.assertEqual(os.listdir("."), ["setup.toml"])

    def test_the_faults_of_a_setup_are_those_of_the_office(self):
        """A setup that the office takes has none; another has its fault at the office's place."""
        cases = [(EXAMPLE.replace(*edit.replace(" / ", "\n").split(" => "), 1), word)
                 for edit, word in cases_of(EDITS)]
        cases += [(EXAMPLE.replace('"c1"', f'"{code}"'), word) for code, word in cases_of(CODES)]
        cases += cases_of(TEXTS)
        cases += [(GOOD_PROFILE + text, word) for text, word in cases_of(CONSTITUENCIES)]
        limits, seen = module("setup_limits"), set()
        for text, word in cases:
            with self.subTest(text=text, word=word):
                kind, _, place = word.partition(" / at ")
                kind, _, what = kind.partition(" ")
                seen.add(kind)
                if kind == "not_toml":
                    self.assertRaises(tomllib.TOMLDecodeError, tomllib.loads, text)
                    continue
                fault = limits.first_fault(tomllib.loads(text), 200, sees_capitals=True)
                if kind == "read":
                    self.assertIsNone(fault)
                    continue
                first, _, other = place.partition("; first at ")
                self.assertTrue(fault.startswith(f"{first or 'the setup'}: "), fault)
                self.assertTrue(fault.endswith(f", first at {other}" if other else ""), fault)
                self.assertIn("profile" if kind == "unknown_profile" else what, fault)
        self.assertEqual(seen, {"read", "not_toml", "missing", "bad_value", "duplicate",
                                "unknown_profile"})

    def test_setup_json_refuses_what_the_office_refuses(self):
        """The first fault, with its place; and nothing is written."""
        cons = "".join(EXAMPLE.removeprefix(PROFILE).replace('"c1"', f'"c{n}"').replace(
            '"s1"', f'"s{n}"') for n in range(201))
        for text, said in (
                (EXAMPLE.replace("seats = 3", "seats = 501"),
                 "constituency 1 c1: seats is 501, and not a number from 1 to 500"),
                (EXAMPLE.replace("threshold = 0", "threshold = -1"),
                 "profile 1 d0: threshold is -1, and not a number from 0 to 10,000"),
                (EXAMPLE.replace('["Bea"]', '["Bea", ""]'),
                 "constituency 1 c1, list 2 B, candidate 2: candidates is '', and not a name of 1 "
                 "to 80 bytes"),
                (EXAMPLE.replace('"Bea"', '"Bea"' + ', "Bo"' * 1000),
                 "constituency 1 c1, list 2 B: 1,001 of candidates, and 1,000 is the limit"),
                (EXAMPLE + STATION, "constituency 1 c1, station 2: station s1 comes twice, first "
                 "at constituency 1 c1, station 1 s1"),
                (PROFILE + cons, "the setup: 201 of constituency, and 200 is the limit"),
                (EXAMPLE.replace('"Alpha"', f'"{"x" * 10_000}"'), "constituency 1 c1, list 1 A: "
                 f"name is '{'x' * 99}.., and not a name of 1 to 80 bytes"),
                ((EXAMPLE + "#").ljust(8_388_609), "8,388,609 bytes, and 8,388,608 is the limit")):
            with self.subTest(said=said):
                Path("setup.toml").write_text(text, encoding="utf-8")
                self.assertEqual(tool("setup-json", "setup.toml", ".", "codes.conf"),
                                 (1, "", f"failed: setup.toml: {said}\n"))
                self.assertEqual(os.listdir("."), ["setup.toml"])

    def test_setup_json_writes_all_or_nothing(self):
        """Where one of its files cannot be written the others stay as they are, and nothing is left
        beside them. Of a rename that the disk refuses after others a line says so."""
        places = ("share/setup.json", "share/setup.json.gz", "codes.conf")
        Path("share").mkdir()
        Path("setup.toml").write_text(EXAMPLE, encoding="utf-8")
        self.assertEqual(tool("setup-json", "setup.toml", "share", "codes.conf"), (0, "", ""))
        before = {name: Path(name).read_bytes() for name in places}
        Path("setup.toml").write_text(EXAMPLE.replace("Alpha", "Gamma"), encoding="utf-8")
        there = sorted(map(str, Path().rglob("*")))

        def assert_as_before(said, *words):
            status, printed, errors = tool("setup-json", "setup.toml", *words)
            self.assertEqual((status, errors.count("\n")), (1, 1), errors)
            self.assertTrue(errors.startswith("failed: ") and said in errors, errors)
            self.assertEqual(printed, "")

        for folder, codes in (("share", "none/codes.conf"), ("share", "setup.toml/codes.conf"),
                              ("none", "codes.conf")):
            with self.subTest(folder=folder, codes=codes):
                assert_as_before(".new: No", folder, codes)
                self.assertEqual({name: Path(name).read_bytes() for name in places}, before)
                self.assertEqual(sorted(map(str, Path().rglob("*"))), there)
        for place in places:
            with self.subTest(place=place):
                os.rename(place, "kept")
                Path(place).mkdir()
                assert_as_before(f"{place}: a folder is in its place", "share", "codes.conf")
                Path(place).rmdir()
                os.rename("kept", place)
                self.assertEqual({name: Path(name).read_bytes() for name in places}, before)
                self.assertEqual(sorted(map(str, Path().rglob("*"))), there)
        write, replace = loaded("setup-json").write, os.replace

        def refused(old, new):
            if str(new) == "codes.conf":
                raise PermissionError(1, "Operation not permitted", old)
            replace(old, new)

        with mock.patch("os.replace", refused), self.assertRaisesRegex(
                OSError, "Operation not permitted; already written: setup.json: "):
            write({Path("share/setup.json"): b"new", Path("codes.conf"): b"new"})
        self.assertEqual(sorted(map(str, Path().rglob("*"))), there)

    def test_setup_json_takes_codes_that_differ_in_capitals_alone(self):
        """As the office does: the proxy tells these apart by patterns."""
        Path("setup.toml").write_text(EXAMPLE + STATION.replace("s1", "S1"), encoding="utf-8")
        self.assertEqual(tool("setup-json", "setup.toml", ".", "codes.conf"), (0, "", ""))

    def test_a_file_that_goes_too_deep(self):
        """Each tool that reads it says so in a line."""
        Path("deep.toml").write_text("a = " + "[" * 100_000, encoding="utf-8")
        Path("site").mkdir()
        shutil.copy("deep.toml", "site/site.toml")
        for name, words, status in (
                ("split", ("deep.toml", "2", "parts"), 1), ("status", ("--config", "deep.toml"), 2),
                ("papers", ("acts", COPY, "out", "--site", "site"), 2),
                ("press.py", ("http://127.0.0.1:1", "pages", "--setup", "deep.toml"), 1),
                ("setup-json", ("deep.toml", "."), 1)):
            with self.subTest(name=name):
                found = tool(name, *words)
                self.assertEqual((found[0], found[2].count("\n")), (status, 1), found)


class MissingFiles(Case):
    prefix = "office-missing-"

    def test_a_file_that_is_missing(self):
        """Each tool names it, writes nothing, and has the status that its help and FORMATS say."""
        plan = ("plan", "--returns", "none.csv", "--risk", "5")
        rows = (
            ("setup-from-tables", ("none",), 3, "none: there is no such folder"),
            ("setup-from-tables", ("tables",), 3, "lists.csv: there is no such file"),
            ("setup-from-tables", ("--rule", "loreg", "--compare", "none.csv",
                                   ROOT / "examples/tables"), 3, "none.csv: there is no such file"),
            ("setup-json", ("none.toml", "."), 1, "failed: none.toml: No such file or directory"),
            ("split", ("none.toml", "2", "parts"), 3, "none.toml"),
            ("papers", ("count", "none.db", "out"), 2, "none.db is not there"),
            ("papers", ("count", COPY, "out", "--record", "none.log"), 2, "none.log is not there"),
            ("papers", ("count", COPY, "out", "--site", "none"), 2, "none is no folder"),
            ("entries", ("none.toml",), 2, "entries: none.toml: it is not there"),
            ("entries", (SETUP, "--office", "none.db"), 2, "entries: none.db: it is not there"),
            ("entries", (SETUP, "--shown", "none.csv"), 2, "entries: none.csv: it is not there"),
            ("audit.py", (*plan, "--setup", "none.toml"), 2, "none.toml"),
            ("audit.py", (*plan, "--setup", SETUP), 2, "none.csv"),
            ("recount.py", ("none.db",), 2, "none.db is not there"),
            ("recount.py", ("--setup", "none.toml", "--returns", "."), 2, "none.toml"),
            ("recount.py", ("--setup", SETUP, "--returns", "none"), 2, "none is no folder"),
            ("replay", ("--check", "--shown", "none.csv"), 2, "none.csv"),
            ("backup", ("none.db", "copies"), 1, "none.db"),
            ("status", ("--config", "none.toml"), 2, "none.toml"),
            ("desk", ("none.toml", "--no-browser"), 1, "desk: none.toml is not there"),
        )
        Path("tables").mkdir()
        Path("tables/constituencies.csv").write_text("name,seats\nA,1\n", encoding="utf-8")
        for name, words, status, said in rows:
            with self.subTest(tool=name, words=words):
                found, out, errors = tool(name, *words)
                self.assertEqual((found, out), (status, ""), errors)
                self.assertIn(said, errors)
                self.assertNotIn("Traceback", errors)

    def test_a_setup_of_the_pages_that_is_none(self):
        """press.py says so in a line, and no longer that provisional seats may be shown."""
        Path("pages").mkdir()
        texts = {"no.toml": b"seats 3", "bytes.toml": b"\xff", "empty.toml": b"",
                 "number.toml": b"profile = 3\nconstituency = 3", "none.toml": None}
        for name, text in texts.items():
            with self.subTest(name=name):
                Path("pages/.provisional").touch()
                if text is not None:
                    Path(name).write_bytes(text)
                status, _, said = tool("press.py", "http://127.0.0.1:1", "pages", "--setup", name)
                self.assertEqual((status, said.count("\n"), said.startswith(f"failed: {name}: ")),
                                 (1, 1, True), said)
                # (the room that lets pages say their age is kept again)
                self.assertEqual(os.listdir("pages"), [".reserve"])

    def test_a_folder_below_one_that_is_missing(self):
        """A tool that writes into a folder makes it, with those above; the pages may be there."""
        Path("site").mkdir()
        Path("site/colours.csv").write_text("list,colour\nA,red\n", encoding="utf-8")
        for name, before, folder, after, status in (
                ("split", (SETUP, 1), "split/parts", (), 0),
                ("backup", (COPY,), "backup/copies", (), 0),
                ("papers", ("count", COPY), "papers/out", (), 0),
                # (it stops there, before it asks the office)
                ("press.py", ("http://127.0.0.1:1",), "press/pages", ("--site", "site"), 1),
                ("press.py", ("http://127.0.0.1:1",), "press/pages", ("--site", "site"), 1)):
            with self.subTest(tool=name):
                found, _, errors = tool(name, *before, folder, *after)
                self.assertEqual((found, "Traceback" in errors), (status, False), errors)
                self.assertTrue(Path(folder).is_dir())


class Logs(Case):
    """A copy of a database with files of SQLite beside it."""

    prefix = "office-logs-"

    def copies(self):
        """A database whose last commit is in its log alone, copied as it was open."""
        shutil.copyfile(COPY, "open.db")
        with contextlib.closing(sqlite3.connect("open.db", isolation_level=None)) as it:
            it.execute("PRAGMA journal_mode = WAL")
            it.execute("PRAGMA wal_autocheckpoint = 0")
            it.execute("UPDATE cons SET note = 'in the log alone'")
            for end in ("", "-wal", "-shm"):
                shutil.copyfile(f"open.db{end}", f"copy.db{end}")

    def papers(self):
        return tool("papers", "count", "copy.db", "out")

    def test_an_index_without_a_log_is_passed_over(self):
        """Nothing of an office is in it; nor in a log without a byte. Nothing is left beside."""
        self.copies()
        shutil.copyfile(COPY, "copy.db")
        for log in (None, b""):
            with self.subTest(log=log):
                Path("copy.db-wal").unlink(missing_ok=True)
                if log is not None:
                    Path("copy.db-wal").write_bytes(log)
                before = sorted(os.listdir())
                self.assertEqual(self.papers()[::2], (0, ""))
                self.assertEqual(tool("recount.py", "copy.db"), (0, "montehondo agrees\n", ""))
                status, said, errors = tool("entries", SETUP, "--office", "copy.db")
                self.assertEqual((status, errors), (1, ""), said)
                shutil.rmtree("out")
                self.assertEqual(sorted(os.listdir()), before)

    def test_a_log_with_commits_is_never_passed_over(self):
        self.copies()
        for end in ("-wal", "-journal"):
            with self.subTest(end=end):
                if end == "-journal":
                    Path("copy.db-wal").rename("copy.db-journal")
                for language, words in (("en", "may have acts that copy.db lacks"),
                                        ("es", "puede tener operaciones que faltan en copy.db")):
                    status, out, said = tool("papers", "count", "copy.db", "out",
                                             "--language", language)
                    self.assertEqual((status, out), (1, ""), said)
                    self.assertIn(f"copy.db{end}", said)
                    self.assertIn(words, said)
                    self.assertIn("office show --db copy.db --report progress", said)

    def test_a_log_is_read(self):
        """By recount.py and by entries, as SQLite reads it: what is in it alone counts."""
        self.copies()
        with contextlib.closing(sqlite3.connect("copy.db")) as it:
            it.execute("UPDATE counts SET n = n + 1 WHERE item = 1")
            it.commit()
            for end in ("", "-wal"):
                shutil.copyfile(f"copy.db{end}", f"later.db{end}")
        status, said, errors = tool("recount.py", "later.db")
        self.assertEqual((status, errors), (1, ""))
        self.assertIn("montehondo differs: totals", said)
        status, said, errors = tool("entries", SETUP, "--office", "later.db")
        self.assertEqual((status, errors), (1, ""))
        self.assertIn("no acts of this record left it so", said)
        # Without its log the file is as it was before.
        for end in ("-wal", "-shm"):
            Path(f"later.db{end}").unlink(missing_ok=True)
        self.assertEqual(tool("recount.py", "later.db"), (0, "montehondo agrees\n", ""))


class OneOfAKind(Case):
    """Of one there is no plural, on paper either."""

    prefix = "office-one-"

    def test_an_act_of_one_station_or_one_seat(self):
        forms_of, data = module("papers_forms"), module("papers_data")
        for language, said in (("en", ("its one polling station,", "The one seat is allotted by")),
                               ("es", ("su única mesa,", "su único escaño según"))):
            with self.subTest(language=language):
                forms = forms_of.Forms(None, language, False)
                con = data.read_copy(COPY)[1]["montehondo"]
                many = (forms_of.act_of_count(forms, con, None)["said"],
                        forms_of.act_of_proclamation(forms, con, None)["said"])
                con = data.read_copy(COPY)[1]["montehondo"]
                con.setup["station"], con.returns = con.setup["station"][:1], con.returns[:1]
                con.setup["seats"] = 1
                one = (forms_of.act_of_count(forms, con, None)["said"],
                       forms_of.act_of_proclamation(forms, con, None)["said"])
                for word, text, other in zip(said, one, many):
                    self.assertIn(word, text)
                    self.assertNotIn(word, other)

    def test_a_division_into_parts_of_one(self):
        setup = SETUP.read_text(encoding="utf-8")
        head, _, stations = setup.partition("[[constituency.station]]")
        one = head + "[[constituency.station]]" + stations.partition("[[")[0]
        Path("one.toml").write_text(one, encoding="utf-8")
        self.assertEqual(tool("split", "one.toml", "1", "parts")[1],
                         "office 1: 1 constituency, 1 station\n")
        self.assertIn("there is 1 constituency", tool("split", "one.toml", "2", "more")[2])

    def test_an_audit_of_one(self):
        audit = loaded("audit.py")
        self.assertEqual([audit.counted(number, "seat") for number in (0, 1, 2, 1200)],
                         ["0 seats", "1 seat", "2 seats", "1,200 seats"])


class Days(Case):
    prefix = "office-days-"

    def test_the_day_in_quotes_or_without(self):
        site = module("press_site")
        file = Path("site.toml")
        for text in ("2026-11-29", '"2026-11-29"', '" 2026-11-29 "', "2026-11-29T09:00:00+01:00"):
            with self.subTest(text=text):
                file.write_text(f"date = {text}\n", encoding="utf-8")
                self.assertEqual(site.read_about(file)["date"], date(2026, 11, 29))
        for text in ('"29/11/2026"', '"2026-02-30"', "2026", '"2026-11-29x"', "true"):
            with self.subTest(text=text):
                file.write_text(f"date = {text}\n", encoding="utf-8")
                with self.assertRaisesRegex(site.Wrong, "date is .*: write a day such as 2026-11-"):
                    site.read_about(file)
        file.write_text("board = 3\n", encoding="utf-8")
        with self.assertRaisesRegex(site.Wrong, r"board is 3: write tables \[\[board\]\]"):
            site.read_about(file)


class Names(Case):
    prefix = "office-names-"

    def test_a_name_with_other_letters(self):
        desk = loaded("desk")
        self.assertEqual(desk.person("board:jose_1"), ("board", "jose_1"))
        for text, language, said in (
                ("board:josé", "C", "josé is no name: 1 to 32 letters from a to z, digits, - and _,"
                                    " as in board:jose"),
                ("clerk:Ana María", "es_ES.UTF-8", "Ana María no es un nombre: de 1 a 32 letras de "
                                                   "la a a la z sin acentos, cifras, - y _, como "
                                                   "en clerk:ana-maria"),
                ("clerk:Ωμ", "C", "as in clerk:ana"),
                ("king:ana", "C", "king:ana is not ROLE:NAME, as clerk:ana; the roles are clerk, "
                                  "second, board, station"),
                ("ana", "es", "ana no es ROL:NOMBRE"), ("clerk:", "C", "is not ROLE:NAME")):
            with self.subTest(text=text), mock.patch.dict(os.environ, {"LC_ALL": language}):
                with self.assertRaises(argparse.ArgumentTypeError) as found:
                    desk.person(text)
                self.assertIn(said, str(found.exception))


LAUNCHER = """#!/bin/sh
echo "office: this takes some 30 minutes" >&2
trap 'echo "office: the build was ended" >&2; exit 3' TERM
{act}
"""


class Building(Case):
    """The desk of a clone whose program is not built yet; the launcher is an imitation."""

    prefix = "office-building-"

    def started(self, act):
        """A desk whose clone has this launcher, and what it printed on standard error."""
        shutil.copytree(DEPLOY, "clone/deploy", symlinks=True,
                        ignore=shutil.ignore_patterns("__pycache__", "pictures"))
        Path("clone/office").write_text(LAUNCHER.format(act=act), encoding="utf-8")
        Path("clone/office").chmod(0o755)
        return subprocess.Popen(
            [sys.executable, "clone/deploy/desk", SETUP, "--no-browser", "--open-port"],
            stdout=subprocess.DEVNULL, stderr=subprocess.PIPE, text=True,
            env={**os.environ, "LC_ALL": "C.UTF-8"})

    def test_it_says_so_at_once_and_shows_the_lines_of_the_build(self):
        """Where the build fails it says what has to work first."""
        _, said = self.started("exit 3").communicate(timeout=PATIENCE)
        first, second, last = said.splitlines()
        self.assertRegex(first, "^desk: the program is not built yet. .*/clone/office proves and")
        self.assertEqual(second, "office: this takes some 30 minutes")
        self.assertIn("Once `", last)
        self.assertIn("clone/office check` works, so does this", last)

    def test_a_build_that_is_ended(self):
        """A signal to the desk ends the build by its launcher."""
        desk = self.started("while :; do sleep 0.1; done")
        killer = threading.Timer(PATIENCE, desk.kill)
        killer.start()
        try:
            lines = [desk.stderr.readline(), desk.stderr.readline()]
            self.assertEqual(lines[1], "office: this takes some 30 minutes\n")
            time.sleep(0.5)
            desk.send_signal(signal.SIGTERM)
            self.assertEqual(desk.stderr.read(), "office: the build was ended\n")
            self.assertEqual(desk.wait(PATIENCE), 0)
        finally:
            killer.cancel()

    def test_the_program_that_was_built_is_started(self):
        """It, and not the launcher, which might begin to build again in its place."""
        program = "crates/tally_office/out/tally_office"
        act = (f'd=$(dirname "$0")/{program}; mkdir -p "$(dirname "$d")"\n'
               'printf \'#!/bin/sh\necho "refused: it is $0" >&2; exit 1\n\' >"$d"; chmod +x "$d"')
        _, said = self.started(act).communicate(timeout=PATIENCE)
        self.assertIn("no database was made from", said)
        self.assertIn(f"clone/{program}", said.splitlines()[-1])
