"""The file that `status` reads, the order of its looks, and what it prints and keeps. The looks
themselves are not done.
"""

import contextlib
import io
import json
import shutil
import sys
from datetime import datetime
from pathlib import Path
from unittest import mock

from tests.support.case import Case
from tests.support.scripts import loaded


class Printed(Case):
    def setUp(self):
        super().setUp()
        self.status = loaded("status")
        found = self.status.looks.Found
        self.well = found("desk", True, "it answered in 3 ms", "1", {"answer_seconds": 0.003})
        self.wrong = found("room", False, 'a "b"\\c\nd', "/var/ñ", {"room_bytes": 7})

    def test_a_table(self):
        other = self.status.looks.Found("pages", False, "old")
        for found, text in (
                ([], "all is well\n"), ([self.well], "1  desk  well  it answered in 3 ms\n"
                                                     "all is well\n"),
                ([self.well, other], "1  desk   well   it answered in 3 ms\n"
                                     "   pages  WRONG  old\n1 of 2 is wrong\n"),
                ([other, other, self.well], "   pages  WRONG  old\n   pages  WRONG  old\n"
                                            "1  desk   well   it answered in 3 ms\n"
                                            "2 of 3 are wrong\n")):
            with self.subTest(text=text):
                self.assertEqual(self.status.as_table(found), text)

    def test_json(self):
        text = self.status.as_json([self.well, self.wrong])
        said = json.loads(text)
        self.assertIsNotNone(datetime.fromisoformat(said.pop("time")).tzinfo)
        self.assertEqual(said, {"well": False, "parts": [
            {"part": "desk", "of": "1", "well": True, "says": "it answered in 3 ms",
             "answer_seconds": 0.003},
            {"part": "room", "of": "/var/ñ", "well": False, "says": 'a "b"\\c\nd',
             "room_bytes": 7}]})
        self.assertIn('\n "parts": [\n  {\n   "part": "desk",\n', text)
        self.assertIn("/var/ñ", text)
        self.assertTrue(text.endswith("}\n"))
        self.assertTrue(json.loads(self.status.as_json([self.well]))["well"])

    def test_metrics(self):
        self.assertEqual(self.status.as_metrics([self.well, self.wrong]), """\
# HELP office_well Whether a part is well.
# TYPE office_well gauge
office_well{part="desk",of="1"} 1
office_well{part="room",of="/var/ñ"} 0
# HELP office_answer_seconds How long an answer took.
# TYPE office_answer_seconds gauge
office_answer_seconds{part="desk",of="1"} 0.003
# HELP office_room_bytes What is free on the disk of a folder.
# TYPE office_room_bytes gauge
office_room_bytes{part="room",of="/var/ñ"} 7
""")
        self.assertEqual(self.status.quoted('a "b"\\c\nd'), '"a \\"b\\"\\\\c\\nd"')

    def configured(self, text):
        Path("status.toml").write_text(text, encoding="utf-8")
        return self.status.read_config(Path("status.toml"))

    def test_what_is_usual(self):
        self.assertEqual(self.configured(""), {
            "seen": "", "record": None, "pages": None, "certificate": None, "hour": None,
            "room": [], "office": []})
        self.assertEqual(self.configured(
            'seen = "s"\n[record]\nfile = "r"\n[pages]\nfolder = "p"\n[certificate]\nfile = "c"\n'
            '[hour]\nfile = "h"\n[[room]]\nfolder = "/"\n'
            '[[office]]\nname = "1"\n[[office]]\nname = "2"\nseconds = 0\n'
            ), {
                "seen": "s", "record": {"file": "r", "head": ""},
                "pages": {"folder": "p", "seconds": 120},
                "certificate": {"file": "c", "days": 14, "site": ""},
                "hour": {"file": "h", "site": ""},
                "room": [{"folder": "/", "megabytes": 512}],
                "office": [{"name": name, "desk": "", "closed_to": "", "rules": "", "reader": "",
                            "reader_port": "", "recorder": "", "backups": "", "elsewhere": "",
                            "seconds": seconds}
                           for name, seconds in (("1", 1800), ("2", 0))]})

    def test_faults_of_the_file(self):
        for text, said in (
                ("x = ", ""), ("places = 1", ": places is no part to look at"),
                ("seen = 1", ": seen is not a text"), ("room = 1", ": room has to be written as "
                                                                   "[[room]]"),
                ("pages = 1", ": pages is no table"), ("room = [1]", ": room is no table"),
                ('[pages]\nfolder = "p"\nage = 1', ": pages has no key age"),
                ("[pages]\nseconds = 1", ": pages lacks folder"),
                ('[pages]\nfolder = "p"\nseconds = -1', ": pages: seconds is not a number"),
                ('[pages]\nfolder = "p"\nseconds = true', ": pages: seconds is not a number"),
                ('[pages]\nfolder = "p"\nseconds = "1"', ": pages: seconds is not a number"),
                ("[pages]\nfolder = 1", ": pages: folder is not a text"),
                ('[record]\nfile = "r"\nhead = 1', ": record: head is not a text")):
            with self.subTest(text=text), self.assertRaises(self.status.Wrong) as wrong:
                self.configured(text)
            self.assertIn(f"status.toml{said}", str(wrong.exception))
        with self.assertRaises(self.status.Wrong):
            self.status.read_config(Path("none.toml"))

    def test_what_of_an_office_is_looked_at(self):
        """All that is named. A port is tried where somebody is named who may not reach it; what was
        sent elsewhere is in a file beside the copies."""
        names = ("desk", "port", "reader", "recorder", "backup", "sent")
        self.enterContext(mock.patch.multiple(self.status.looks, **{
            f"look_at_{name}": lambda *words, name=name: (name, *words) for name in names}))
        empty = self.configured('[[office]]\nname = "1"')["office"][0]
        for changes, wanted in (
                ({}, []), ({"closed_to": "u"}, []), ({"desk": "d"}, [("desk", "d", "1")]),
                ({"desk": "d", "closed_to": "u", "rules": "r"},
                 [("desk", "d", "1"), ("port", "d", "u", "r", "1")]),
                ({"reader_port": "p"}, []),
                ({"reader_port": "p", "closed_to": "u"},
                 [("port", "p", "u", "", "1", "reader_port")]),
                ({"reader": "s"}, [("reader", "s", "1")]),
                ({"recorder": "s"}, [("recorder", "s", "1")]),
                ({"elsewhere": "e"}, []), ({"backups": "b"}, [("backup", "b", 1800, "1", {})]),
                ({"backups": "b", "elsewhere": "e", "seconds": 7},
                 [("backup", "b", 7, "1", {}), ("sent", "e", "b", 7, "1")])):
            with self.subTest(changes=changes):
                self.assertEqual(list(self.status.look_at_office(empty | changes, {})), wanted)

    def test_all_parts_in_their_order(self):
        looks, seen = self.status.looks, {}
        found = lambda part: lambda *words: looks.Found(part, True, "", numbers=words)
        self.enterContext(mock.patch.multiple(looks, **{
            f"look_at_{part}": found(part)
            for part in ("desk", "recorder", "record", "pages", "room", "certificate", "hour",
                         "acts")}))
        config = self.configured(
            '[record]\nfile = "r"\n[pages]\nfolder = "p"\n'
            '[certificate]\nfile = "c"\nsite = "s"\n[hour]\nfile = "h"\nsite = "s"\n'
            '[[room]]\nfolder = "/"\n[[room]]\nfolder = "/var"\n'
            '[[office]]\nname = "1"\ndesk = "d"\nrecorder = "/run/1.sock"\n'
            '[[office]]\nname = "2"\nrecorder = "/run/2.sock"\n'
            '[[office]]\nname = "3"\ndesk = "e"\nrecorder = "/run/3.sock"\n')
        seen["acts"] = {"1": {"/station/s1": [1, 2]}, "2": {"/station/t1": [1, 2]}}
        parts = self.status.look(config, seen)
        self.assertEqual([one.part for one in parts], [
            "desk", "recorder", "recorder", "desk", "recorder", "record", "acts", "pages", "room",
            "room", "certificate", "hour"])
        self.assertEqual([one.numbers for one in parts[-2:]], [("c", 14, "s"), ("h", "s")])
        # Under no name the proxy is asked for no hour.
        config["hour"]["site"] = ""
        self.assertNotIn("hour", [one.part for one in self.status.look(config, {"acts": {}})])
        # Of an office whose desk is named, and that has acts.
        self.assertEqual(parts[6].numbers[:2], ("d", "1"))
        self.assertEqual(seen["acts"], {"1": {"/station/s1": [1, 2]},
                                        "2": {"/station/t1": [1, 2]}})

    def test_what_was_seen_is_kept(self):
        for text, seen, said in (
                ('{"record": {"n": 1}, "agreed": [], "other": 1}', {"record": {"n": 1},
                                                                    "agreed": []}, []),
                ('{"acts": {}}', {"acts": {}}, []), (None, {}, []), ("{", {}, [False]),
                ("1", {}, [False])):
            with self.subTest(text=text):
                file = Path("a/b/seen.json")
                shutil.rmtree("a", ignore_errors=True)
                if text is not None:
                    file.parent.mkdir(parents=True, exist_ok=True)
                    file.write_text(text, encoding="utf-8")
                looked = []

                def look(config, before, looked=looked):
                    looked.append(dict(before))
                    before["agreed"] = ["a"]
                    return [self.well]

                self.status.look = look
                found = self.status.looked({"seen": str(file)}, False)
                self.assertEqual(looked, [seen])
                self.assertEqual([one.is_well for one in found], [True, *said])
                self.assertEqual(file.read_text(encoding="utf-8"),
                                 json.dumps(seen | {"agreed": ["a"]}) + "\n")
                self.assertEqual(self.status.looked({"seen": str(file)}, True), [self.well])
                self.assertEqual(looked[1], {})
        self.assertEqual(self.status.looked({"seen": ""}, False), [self.well])
        # Of several faults the first one is said, and it is one part.
        Path("file").write_text("{")
        for file in ("file/seen.json", "status.toml/seen.json"):
            Path("status.toml").write_text("")
            found = self.status.looked({"seen": file}, False)
            self.assertEqual([(one.part, one.is_well) for one in found],
                             [("desk", True), ("seen", False)])

    def test_how_it_ends(self):
        """0 where all is well, 1 where something is not, 2 where it looked at nothing."""
        Path("status.toml").write_text("", encoding="utf-8")
        for found, words, status in (
                ([self.well], [], 0), ([self.well, self.wrong], [], 1), ([self.wrong], [], 1),
                ([self.well], ["--to", "out"], 0), ([self.wrong], ["--to", "out"], 1),
                ([self.well], ["--to", "none/out"], 2), ([self.well], ["--config", "none"], 2)):
            with self.subTest(found=len(found), words=words):
                Path("out").unlink(missing_ok=True)
                Path(".out.new").symlink_to("elsewhere")
                self.status.looked = lambda *_, found=found: found
                said, printed = io.StringIO(), io.StringIO()
                argv = ["status", "--config", "status.toml", *words]
                with mock.patch.object(sys, "argv", argv), \
                        contextlib.redirect_stderr(said), contextlib.redirect_stdout(printed):
                    self.assertEqual(self.status.main(), status)
                text = self.status.as_table(found)
                self.assertEqual(printed.getvalue(), "" if words else text)
                if words == ["--to", "out"]:
                    self.assertEqual(Path("out").read_text(encoding="utf-8"), text)
                self.assertEqual(said.getvalue().startswith("status: "), status == 2)
                Path(".out.new").unlink(missing_ok=True)
        self.assertFalse(Path("elsewhere").exists())
