"""The files that the press pages write, in process: each beside and renamed, with a compressed one,
and what becomes of those that somebody else changed, removed or replaced."""

import contextlib
import gzip
import hashlib
import io
import json
import os
from datetime import datetime, timezone
from pathlib import Path
from unittest import mock

from tests.support.case import Case
from tests.support.scripts import module

files = module("press_files")

HERE = Path()
FULL = OSError(28, "No space left on device")


def texts(*names):
    return [Path(name).read_text(encoding="utf-8") for name in names]


def unpacked(name):
    return gzip.decompress(Path(name).read_bytes()).decode()


def there():
    return sorted(os.listdir())


def said_by(act, *given):
    """The lines on the error stream."""
    with contextlib.redirect_stderr(io.StringIO()) as errors:
        act(*given)
    return errors.getvalue()


class Written(Case):
    def test_files_of_before_are_made_again(self):
        """Nobody knows what a compressed file says that this program did not write."""
        Path("a.html").write_text("one", encoding="utf-8")
        Path("a.html.gz").write_bytes(gzip.compress(b"another"))
        files.put(HERE, "a.html", "one")
        self.assertEqual((texts("a.html"), unpacked("a.html.gz")), (["one"], "one"))
        files.put(HERE, "a.html", "two")
        self.assertEqual((texts("a.html"), unpacked("a.html.gz")), (["two"], "two"))
        # Also where the file alone is as it shall be.
        Path("a.html.gz").unlink()
        files.put(HERE, "a.html", "two")
        self.assertEqual((there(), unpacked("a.html.gz")), (["a.html", "a.html.gz"], "two"))

    def test_a_compressed_file_that_was_cut_is_made_again(self):
        files.put(HERE, "a.html", "text")
        whole = Path("a.html.gz").read_bytes()
        for cut in (whole[:-3], whole[:5], b"", b"\0" * len(whole)):
            Path("a.html.gz").write_bytes(cut)
            files.repair(HERE)
            self.assertEqual(Path("a.html.gz").read_bytes(), whole)
        # Without room for it there is none: the proxy gives the file.
        Path("a.html.gz").write_bytes(files.compressed_of(b"another"))
        with mock.patch.object(files, "put_bytes", side_effect=FULL):
            files.repair(HERE)
        self.assertEqual(there(), ["a.html"])

    def test_a_full_disk(self):
        """Nothing that was begun stays, what was there does, and the fault is the disk's."""
        files.put(HERE, "a.html", "one")
        for name in ("os.replace", "pathlib.Path.write_bytes"):
            with self.subTest(name=name), mock.patch(name, side_effect=FULL):
                with self.assertRaises(OSError) as found:
                    files.put(HERE, "a.html", "two")
                self.assertEqual((found.exception.errno, there(), texts("a.html")),
                                 (28, ["a.html", "a.html.gz"], ["one"]))

    def test_a_disk_that_is_full_between_a_file_and_its_compressed_one(self):
        """Browsers get the compressed one alone, and also where there is no file: none of another
        moment stays, and it is made again where the file is as it was."""
        files.put(HERE, "a.html", "one")
        write = files.put_bytes
        with mock.patch.object(files, "put_bytes", side_effect=lambda file, data: write(
                file, data if file.suffix == ".gz" else self.fail_full())):
            self.assertRaises(OSError, files.put, HERE, "a.html", "two")
            self.assertRaises(OSError, files.put, HERE, "b.html", "two")
        self.assertEqual((there(), texts("a.html"), files.changed(HERE)), (
            ["a.html"], ["one"], []))
        files.put(HERE, "a.html", "one")
        self.assertEqual((texts("a.html"), unpacked("a.html.gz")), (["one"], "one"))
        # Where the compressed one finds no room neither is written.
        with mock.patch.object(files, "put_bytes", side_effect=FULL):
            self.assertRaises(OSError, files.put, HERE, "a.html", "two")
        self.assertEqual((texts("a.html"), unpacked("a.html.gz")), (["one"], "one"))

    @staticmethod
    def fail_full():
        raise FULL

    def test_links_and_folders_in_the_place_of_a_file(self):
        """A link is replaced, as no reader gets one; a folder is named and stays."""
        Path("elsewhere").write_text("one", encoding="utf-8")
        Path("a.html").symlink_to("elsewhere")
        self.assertFalse(files.is_as(Path("a.html"), b"one"))
        self.assertEqual(said_by(files.put, HERE, "a.html", "one"), "")
        self.assertEqual((Path("a.html").is_symlink(), texts("a.html", "elsewhere")),
                         (False, ["one", "one"]))
        Path("b.html").mkdir()
        Path("link").symlink_to("b.html")
        self.assertEqual([files.is_folder(Path(name))
                          for name in ("b.html", "link", "a.html", "x")],
                         [True, False, False, False])
        said = "failed: b.html: a folder is in its place\n"
        self.assertEqual(said_by(files.put, HERE, "b.html", "one"), said)
        self.assertEqual(said_by(files.remove, HERE, "b.html"), said)
        self.assertEqual(there(), ["a.html", "a.html.gz", "b.html", "elsewhere", "link"])
        self.assertFalse(files.is_as(Path("x"), b""))

    def test_a_file_that_cannot_be_read(self):
        """It has another content, so it is replaced; its hash is not known, nor its text."""
        Path("a.html").write_text("one", encoding="utf-8")
        refused = PermissionError(13, "Permission denied")
        with mock.patch("pathlib.Path.read_bytes", side_effect=refused), mock.patch(
                "pathlib.Path.read_text", side_effect=refused):
            self.assertEqual((files.is_as(Path("a.html"), b"one"), files.hash_of(Path("a.html")),
                              files.text_of(Path("a.html"))), (False, None, ""))

    def test_files_and_folders_that_are_removed(self):
        """With what is compressed, and what a link leads to stays."""
        files.put(HERE, "a.html", "one")
        self.assertTrue(files.is_known(Path("a.html")))
        files.remove(HERE, "a.html")
        files.remove(HERE, "a.html")
        self.assertEqual((there(), files.is_known(Path("a.html"))), ([], False))
        for name in ("es", "kept"):
            Path(name, "within").mkdir(parents=True)
        Path("ca").symlink_to("kept")
        Path("file").write_text("", encoding="utf-8")
        for name in ("es", "ca", "file", "x"):
            files.remove_folder(Path(name))
        self.assertEqual((there(), os.listdir("kept")), (["file", "kept"], ["within"]))
        Path("link").symlink_to("kept")
        for name in ("link", "file", "kept", "new", "new"):
            files.make_folder(Path(name))
        self.assertEqual((there(), [files.is_folder(Path(name)) for name in there()]),
                         (["file", "kept", "link", "new"], [True] * 4))
        self.assertEqual(os.listdir("kept"), ["within"])

    def test_whether_seats_may_be_shown(self):
        for is_allowed, wanted in ((True, [".provisional"]), (True, [".provisional"]), (False, []),
                                   (False, [])):
            files.allow_provisional(HERE, is_allowed)
            self.assertEqual(there(), wanted)


class Changed(Case):
    """Files that somebody else changed since they were left."""

    def test_which_files_are_others(self):
        """Those with another content, or none; not those with another right or another time, which
        are known as they are now, and none of another folder."""
        names = ["as-it-was", "changed", "touched", "removed", "link", "folder", "last"]
        Path("pages").mkdir()
        Path("pages2").mkdir()
        for name in names:
            files.put_bytes(Path("pages", name), b"one")
        files.put_bytes(Path("pages2/other"), b"one")
        os.chdir("pages")
        for name in ("changed", "../pages2/other", "last"):
            Path(name).write_bytes(b"two")
        os.utime("touched", (1, 1))
        Path("elsewhere").write_bytes(b"one")
        for name in ("removed", "link", "folder"):
            Path(name).unlink()
        Path("link").symlink_to("elsewhere")
        Path("folder").mkdir()
        os.chdir("..")
        wanted = ["changed", "folder", "last", "link", "removed"]
        self.assertEqual(sorted(file.name for file in files.changed(Path("pages"))), wanted)
        self.assertEqual([name for name in names if not files.is_known(Path("pages", name))],
                         [name for name in names if name in wanted])
        self.assertEqual(files.changed(Path("pages")), [])
        self.assertEqual([file.name for file in files.changed(Path("pages2"))], ["other"])

    def test_the_hash_of_what_was_written(self):
        """Of a file that somebody else changed it is that of before; of one that is written again
        it is the new one; of another's, that of what it is."""
        one, two = (hashlib.sha256(data).hexdigest() for data in (b"one", b"two"))
        file = Path("a.html")
        files.put_bytes(file, b"one")
        file.write_bytes(b"two")
        self.assertEqual((files.hash_as_left(file), files.hash_of(file)), (one, two))
        files.put_bytes(file, b"one")
        files.put_bytes(file, b"two")
        self.assertEqual(files.hash_as_left(file), two)
        Path("b.html").write_bytes(b"one")
        self.assertEqual((files.hash_as_left(Path("b.html")), files.hash_as_left(Path("c.html"))),
                         (one, None))

    def test_what_a_certificate_was_made_of_is_made_again(self):
        """From the compressed file beside it, where the manifest has the hash of that; else it is
        removed. Other files, and a folder in the place of one, are left."""
        def digest(text):
            return hashlib.sha256(text.encode()).hexdigest()

        def state(name):
            file = Path(name)
            return "folder" if file.is_dir() else file.read_text() if file.exists() else None

        good = {"stations-c1-1.csv": "as it was", "stations-c1-2.csv": "changed",
                "stations-c1-3.csv": "removed", "stations-c1-4.csv": "changed with it",
                "stations-c1-5.csv": "removed with it", "stations-c1-6.csv": "a folder",
                "stations-c1-7.csv": "a link", "stations-c1-open.csv": "open", "con-c1.csv": "con"}
        for name, text in good.items():
            Path(name).write_text(text, encoding="utf-8")
            Path(f"{name}.gz").write_bytes(files.compressed_of(text.encode()))
        Path("manifest.json").write_text(json.dumps({"files": {
            name: digest(text) for name, text in good.items()} | {"stations-c1-8.csv": 3}}),
            encoding="utf-8")
        for name in ("stations-c1-2.csv", "stations-c1-4.csv", "stations-c1-open.csv",
                     "con-c1.csv"):
            Path(name).write_text("another's", encoding="utf-8")
        for name in ("stations-c1-3.csv", "stations-c1-5.csv", "stations-c1-5.csv.gz",
                     "stations-c1-6.csv", "stations-c1-6.csv.gz", "stations-c1-7.csv"):
            Path(name).unlink()
        Path("stations-c1-4.csv.gz").write_bytes(files.compressed_of(b"another's"))
        Path("stations-c1-6.csv").mkdir()
        Path("elsewhere").write_text("a link", encoding="utf-8")
        Path("stations-c1-7.csv").symlink_to("elsewhere")
        said = said_by(files.restore, HERE)
        self.assertEqual({name: state(name) for name in good}, good | {
            "stations-c1-4.csv": None, "stations-c1-5.csv": None, "stations-c1-6.csv": "folder",
            "stations-c1-open.csv": "another's", "con-c1.csv": "another's"})
        self.assertEqual((Path("stations-c1-7.csv").is_symlink(), said), (False, "".join(
            f"failed: stations-c1-{n}.csv: somebody else changed or removed it\n"
            for n in range(2, 8))))
        self.assertFalse(Path("stations-c1-4.csv.gz").exists())

    def test_what_a_certificate_was_made_of_without_room_to_make_it_again(self):
        """It has the room that was kept. Without that it is removed, and the start goes on; another
        fault ends it."""
        files.keep_room(HERE)
        for fault, wanted in ((FULL, ["manifest.json"]), (PermissionError(13, "denied"), None)):
            files.put(HERE, "stations-c1-2.csv", "as it was")
            digest = hashlib.sha256(b"as it was").hexdigest()
            Path("manifest.json").write_text(json.dumps({"files": {"stations-c1-2.csv": digest}}),
                                             encoding="utf-8")
            Path("stations-c1-2.csv").write_text("another's", encoding="utf-8")
            with mock.patch.object(files, "put_bytes", side_effect=fault):
                if wanted:
                    said_by(files.restore, HERE)
                    self.assertEqual(there(), wanted)
                else:
                    self.assertRaises(PermissionError, said_by, files.restore, HERE)

    def test_a_manifest_that_is_none(self):
        for text in ("", "[]", "{}", '{"files": []}', '{"files": 3}', "[" * 100_000):
            Path("manifest.json").write_text(text, encoding="utf-8")
            self.assertEqual(files.manifest_of(HERE), {})
        Path("manifest.json").unlink()
        self.assertEqual(files.manifest_of(HERE), {})
        os.mkfifo("manifest.json")
        self.assertEqual(files.manifest_of(HERE), {})

    def test_the_moment_of_a_text(self):
        """It has a zone, and is one that can be."""
        noon = datetime(2026, 11, 29, 12, tzinfo=timezone.utc)
        for text, wanted in (
                ("at 2026-11-29T13:00:00+01:00.", noon), ("at 2026-11-29T13:00:00.", None),
                ("at 2026-11-31T13:00:00+01:00.", None), ("at noon.", None), ("", None),
                ("at 0001-01-01T00:00:00+23:00.", None)):
            with self.subTest(text=text):
                self.assertEqual(files.moment_in("at (.*)[.]", text), wanted)

    def test_texts_that_cannot_be_read(self):
        Path("a").write_bytes(b"a\xff")
        Path("folder").mkdir()
        self.assertEqual([files.text_of(Path(name)) for name in ("a", "folder", "none")],
                         ["a\ufffd", "", ""])
        os.mkfifo("pipe")
        Path("b").write_text("é", encoding="utf-8")
        self.assertEqual(files.text_of_another(Path("b")), "é")
        with self.assertRaisesRegex(ValueError, "it is no file"):
            files.text_of_another(Path("pipe"))
