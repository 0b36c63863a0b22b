"""Copies of a database: their names, the lines of the record in them, and the moment of a copy.

All of it is in this process.
"""

import contextlib
import io
import os
import shutil
from datetime import UTC, datetime
from pathlib import Path
from types import SimpleNamespace
from unittest import mock

from tests.support.case import ROOT, Case
from tests.support.scripts import loaded

MOMENT = datetime(2026, 11, 26, 22, 14, tzinfo=UTC)


def name(minute, lines=None):
    """The name of a copy of a minute after ten, with this many lines."""
    return f"office-20261126T22{minute}00Z{'' if lines is None else f'-{lines:08}'}.db"


class Names(Case):
    def setUp(self):
        super().setUp()
        self.tool = loaded("backup")
        self.tool.datetime = SimpleNamespace(now=lambda _: MOMENT)

    def test_the_name_of_a_copy_that_is_the_same(self):
        """The last copy gets the present moment and lines, unless its name has these lines already,
        more, or a later moment; without a record it stays. It is as new as the database."""
        shutil.copy(ROOT / "examples/montehondo.db", "office.db")
        copy, is_new = self.tool.back_up(Path("office.db"), Path("copies"))
        self.assertEqual((copy.name, is_new), (name(14), True))
        shutil.copy(copy, "kept.db")
        for last, lines, wanted in (
                (name(13, 4), 5, name(14, 5)), (name(13, 5), 5, name(13, 5)),
                (name(13, 6), 5, name(13, 6)), (name(15, 4), 5, name(15, 4)),
                (name(14, 4), 5, name(14, 5)), (name(13), 5, name(14, 5)),
                (name(13), 0, name(14, 0)), (name(15), 5, name(15)), (name(13), None, name(13)),
                (name(13, 4), None, name(13, 4))):
            with self.subTest(last=last, lines=lines):
                copy.unlink()
                copy = Path("copies", last)
                shutil.copy("kept.db", copy)
                os.utime(copy, (0, 0))
                record = None if lines is None else SimpleNamespace(
                    now=lambda lines=lines: lines)
                copy, is_new = self.tool.back_up(Path("office.db"), Path("copies"), record)
                self.assertEqual((copy.name, is_new, os.listdir("copies")),
                                 (wanted, False, [wanted]))
                self.assertGreater(copy.stat().st_mtime, 0)

    def test_what_the_names_of_all_copies_say(self):
        """Whether another has a later moment, and whether the record has as many lines as they
        say; a name without lines says none."""
        last, first = f"copies/{name(14, 5)}", f"copies/{name(13, 4)}"
        later = "{} has a later time, and is an older copy: the clock was put back"
        fewer = ("{} has a later time than the clock, which was put back; its name does not say "
                  "that the record has {} lines")
        cut = "commands.log has {} lines, and had {} when {} was made: keep that copy"
        Path("copies").mkdir()
        for names, copy, lines, said in (
                ((first, last), last, 5, []), ((first, last), last, None, []),
                ((first, last), last, 4, [cut.format(4, 5, last)]),
                ((first, last), last, 6, [fewer.format(last, 6)]),
                ((first, last), first, 4, [later.format(last), cut.format(4, 5, last)]),
                ((first, last), first, 5, [later.format(last), fewer.format(first, 5)]),
                ((first, last), first, None, [later.format(last)]),
                ((f"copies/{name(14)}",), f"copies/{name(14)}", 0, []),
                ((f"copies/{name(14)}",), f"copies/{name(14)}", 1,
                 [fewer.format(f"copies/{name(14)}", 1)]),
                ((f"copies/{name(13, 9)}", last), last, 5,
                 [cut.format(5, 9, f"copies/{name(13, 9)}")])):
            with self.subTest(names=names, copy=copy, lines=lines):
                for file in Path("copies").iterdir():
                    file.unlink()
                for file in (*names, "copies/notes.db"):
                    Path(file).touch()
                record = None if lines is None else SimpleNamespace(
                    record="commands.log", number=lines, fault=None)
                self.assertEqual(list(self.tool.faults_of(Path(copy), record)), said)
        record = SimpleNamespace(record="commands.log", number=9, fault="it is no file")
        self.assertEqual(list(self.tool.faults_of(Path(last), record)), [
            "commands.log: it is no file; nobody knows how many lines it has"])

    def test_the_lines_of_a_record(self):
        """Whole ones, counted on from where they were counted to, whatever is read at a time."""
        for part in (1, 3, 1 << 20):
            with self.subTest(part=part), mock.patch.object(self.tool, "PART", part):
                Path("commands.log").unlink(missing_ok=True)
                it, found = self.tool.Lines(Path("commands.log")), []
                for text in (b"", b"\none\ntwo\nth", b"ree\n", b"", b"\n\n"):
                    with open("commands.log", "ab") as record:
                        record.write(text)
                    found.append(it.now())
                self.assertEqual((found, it.number, it.fault), ([0, 3, 4, 4, 6], 6, None))

    def test_words_that_it_does_not_know(self):
        for words in ((), ("office.db",), ("office.db", "copies", "commands.log", "more")):
            with self.subTest(words=words), contextlib.redirect_stderr(io.StringIO()) as said:
                self.assertEqual(self.tool.main(words), 2)
                self.assertEqual(said.getvalue(), "usage: backup DATABASE FOLDER [RECORD]\n")


    def test_a_database_that_is_not_there(self):
        """Or is empty: no copy, and a line says why. The folder is made, with those above it."""
        Path("empty.db").touch()
        for file, why in (("missing.db", "[Errno 2] No such file or directory: '{}'"),
                          ("empty.db", "{} is empty")):
            with self.subTest(file=file), contextlib.redirect_stderr(io.StringIO()) as said:
                self.assertEqual(self.tool.main([file, "of/copies"]), 1)
                self.assertEqual(said.getvalue(), f"backup: {file}: "
                                 f"{why.format(Path(file).resolve())}; nothing was copied\n")
                self.assertEqual(os.listdir("of/copies"), [])


class Moments(Case):
    def test_a_database_and_its_log_of_one_moment(self):
        """The log has the same head before and after; where there is none, the database is the
        same file of the same size and time."""
        tool = loaded("backup")
        keys = ("st_ino", "st_size", "st_mtime_ns")

        def state(*values):
            return SimpleNamespace(**dict(zip(keys, values)))

        for before, after, is_same in (
                ((b"head", None), (b"head", None), True), ((b"head", None), (b"tail", None), False),
                ((b"", state(1, 2, 3)), (b"", state(1, 2, 3)), True),
                ((b"", state(1, 2, 3)), (b"", state(9, 2, 3)), False),
                ((b"", state(1, 2, 3)), (b"", state(1, 9, 3)), False),
                ((b"", state(1, 2, 3)), (b"", state(1, 2, 9)), False),
                ((b"", state(1, 2, 3)), (b"", None), False),
                ((b"", None), (b"", state(1, 2, 3)), False),
                ((b"", state(1, 2, 3)), (b"head", state(1, 2, 3)), False)):
            with self.subTest(before=before, after=after):
                self.assertIs(tool.same_moment(before, after), is_same)

    def test_a_copy_that_is_no_offices(self):
        """Its log was not taken whole, it is spoiled, or it has no setup."""
        tool = loaded("backup")
        for busy, said, setups, is_taken in ((0, "ok", 1, True), (1, "ok", 1, False),
                                             (0, "a row is missing", 1, False),
                                             (0, "ok", 0, False)):
            with self.subTest(busy=busy, said=said, setups=setups):
                found = {"PRAGMA wal_checkpoint(TRUNCATE)": (busy, 0, 0),
                         "PRAGMA quick_check": (said,), "SELECT count(*) FROM setup": (setups,)}
                it = SimpleNamespace(close=lambda: None, execute=lambda words, found=found: (
                    SimpleNamespace(fetchone=lambda: found[words])))
                for end in ("-wal", "-shm"):
                    Path(f"copy.db{end}").touch()
                with mock.patch.object(tool.sqlite3, "connect", lambda _, it=it: it):
                    if is_taken:
                        tool.take_log(Path("copy.db"))
                        self.assertEqual(os.listdir(), [])
                    else:
                        self.assertRaisesRegex(
                            tool.Failed, f"^the copy is not an office's database: {said}$",
                            tool.take_log, Path("copy.db"))
