"""Functions of the tools, by hand: lines of a record, names and ports, files of a site,
units, limits. Nothing is started.
"""

import contextlib
import hashlib
import io
import json
import sys
import time
from pathlib import Path
from types import SimpleNamespace
from unittest import mock

from tests.support.case import Case
from tests.support.record import LODGED, a_command, chained
from tests.support.scripts import loaded, module

recorder, limits, machine, places = (module(name) for name in (
    "recorder", "setup_limits", "site_machine", "site_places"))
parts, server, staff = module("desk_parts"), module("desk_server"), module("staff")
forms, looks = module("papers_forms"), module("status_looks")
record_index = module("record_index")
desk, office_site, replay, setup_json, keep_copies, password = (loaded(name) for name in (
    "desk", "office-site", "replay", "setup-json", "keep-copies", "password"))


def words_of(act, *words):
    """The words that a tool reads of its command line, or its answer to a wrong one."""
    said = io.StringIO()
    with mock.patch.object(sys, "argv", ["tool", *words]), contextlib.redirect_stderr(said):
        try:
            return act()
        except SystemExit as ended:
            return ended.code, said.getvalue()


class Records(Case):
    def record(self, **how):
        return recorder.Record(Path("commands.log"), 0, **how)

    def test_what_is_written(self):
        """Numbered lines, each with the hash of the one before, in letters as they are."""
        record, write, printed = self.record(), recorder.os.write, []

        def written(descriptor, text):
            if descriptor == record.descriptor:
                return write(descriptor, text)
            printed.append(text)
            return len(text)

        with mock.patch.object(recorder.os, "write", written):
            for name in ("clara", "ñuño"):
                record.write({"name": name})
        # Each is printed too, for the log of the service.
        self.assertEqual(b"".join(printed), Path("commands.log").read_bytes())
        one, other = Path("commands.log").read_bytes().splitlines()
        first, second = json.loads(one), json.loads(other)
        self.assertEqual(first | {"time": "", "salt": ""},
                         {"n": 1, "time": "", "name": "clara", "before": "0" * 64, "salt": ""})
        self.assertEqual(second | {"time": "", "salt": ""}, {
            "n": 2, "time": "", "name": "ñuño", "before": hashlib.sha256(one).hexdigest(),
            "salt": ""})
        self.assertNotEqual(first["salt"], second["salt"])
        self.assertIn("ñuño".encode(), other)

    def test_what_was_shown_has_to_be_there(self):
        Path("commands.log").write_bytes(chained({}, {}))
        lines = Path("commands.log").read_bytes().splitlines()
        hashes = [hashlib.sha256(line).hexdigest() for line in lines]
        for shown, is_whole in (({}, True), ({2: {hashes[1]}}, True), ({2: {hashes[0]}}, False),
                                ({1: {hashes[0]}, 2: {hashes[1]}}, True), ({3: {hashes[1]}}, False),
                                ({1: {hashes[0], hashes[1]}}, False)):
            with self.subTest(shown=shown):
                self.assertEqual(self.record(shown=shown).fault is None, is_whole)

    def test_what_was_done(self):
        """Whatever was answered 200 and was not the same already, and what nobody knows."""
        for status, answer, wanted in (
                (200, '{"ok":"lodged"}', True), (200, '{"ok":"same"}', False), (409, "{}", False),
                (403, "{}", False), (502, "", True), (None, "", True)):
            with self.subTest(status=status, answer=answer):
                self.assertEqual(record_index.is_done({"status": status, "answer": answer}), wanted)

    def test_a_file_of_which_nothing_was_lodged_is_about_no_station(self):
        rows = "station,slip,blank,spoiled,A,B\ns1,p1,0,0,1,2\n"
        for command, answer, is_found in (
                (a_command(rows), {"status": 200, "answer": '{"lodged":1}'}, True),
                (a_command(rows), {"status": 200, "answer": '{"lodged":0}'}, False),
                (a_command(rows), {"status": 502, "answer": ""}, True),
                (a_command(json.dumps(LODGED), "/station/s1/lodge"),
                 {"status": 409, "answer": '{"word":"differs"}'}, True)):
            with self.subTest(answer=answer):
                index, place = recorder.Index(), 0
                for line in chained(command, {"to": 1} | answer).splitlines(keepends=True):
                    index.take(line, place)
                    place += len(line)
                self.assertEqual(len(index.of("s1")[0]), 2 if is_found else 0)

    def test_a_record_is_sent_to_offices_of_its_setup(self):
        """A record that names its setup is sent if that is named too, and is the same."""
        Path("setup.json").write_text("[]", encoding="utf-8")
        own = hashlib.sha256(b"[]").hexdigest()
        for file, desks, found, is_taken in (
                (None, {1: "d"}, "", True), (None, {1: "d"}, own, False), (None, {}, own, True),
                ("setup.json", {1: "d"}, own, True), ("setup.json", {1: "d"}, "0" * 64, False),
                ("setup.json", {}, "0" * 64, False), ("setup.json", {1: "d"}, "", True)):
            with self.subTest(file=file, desks=desks, found=found):
                setup = replay.Setup(file, desks)
                if is_taken:
                    setup.meet(found)
                else:
                    self.assertRaises(replay.OtherSetup, setup.meet, found)


    def test_how_a_look_speaks_of_a_record(self):
        for lines, said in ((1, "its 1 line is whole, 1 of it new"),
                            (2, "its 2 lines are whole, 2 of them new")):
            with self.subTest(lines=lines):
                Path("commands.log").write_bytes(chained(*[{}] * lines))
                found = looks.look_at_record(Path("commands.log"), None, {})
                self.assertEqual((found.is_well, found.says), (True, said))


class Desks(Case):
    def test_names_of_stations(self):
        Path("setup.toml").write_text(
            '[[constituency]]\n[[constituency.station]]\ncode = "s1"\n', encoding="utf-8")
        for role, name, is_taken in (("station", "s1", True), ("station", "s2", False),
                                     ("clerk", "clara", True), ("clerk", "S1", False)):
            with self.subTest(role=role, name=name):
                given = SimpleNamespace(setup=Path("setup.toml"), people=[(role, name)])
                if is_taken:
                    desk.check_names(given)
                else:
                    self.assertRaises(desk.Fault, desk.check_names, given)

    def test_the_database_of_a_setup(self):
        for words, wanted in (([], "setup.db"), (["--trial"], "setup.trial.db"),
                              (["--db", "a.db"], "a.db"), (["--trial", "--db", "a.db"], "a.db")):
            with self.subTest(words=words):
                self.assertEqual(words_of(desk.command_line, "here/setup.toml", *words).db,
                                 Path(wanted))

    def test_files_of_a_package(self):
        """They are beside the tool, or in the folder of the same name below share."""
        here = Path.cwd() / "usr/lib/office"
        for folder in (here, Path("usr/share/office")):
            folder.mkdir(parents=True)
        (here / "one").write_text("1", encoding="utf-8")
        Path("usr/share/office/other").write_text("2", encoding="utf-8")
        with mock.patch.object(desk, "HERE", here):
            self.assertEqual((desk.shared("one"), desk.shared("other")), ("1", "2"))
            self.assertRaises(desk.Fault, desk.shared, "none")

    def test_a_part_that_ended(self):
        """It is started again, unless it ended within seconds of its start."""
        for seconds, is_started in ((1, False), (3600, True)):
            with self.subTest(seconds=seconds):
                part = parts.Part("the office", [])
                part.process = SimpleNamespace(poll=lambda: 1, returncode=1)
                part.began, started = time.monotonic() - seconds, []
                with mock.patch.object(parts.Part, "start", lambda it: started.append(it)), \
                        contextlib.redirect_stderr(io.StringIO()):
                    if is_started:
                        part.look()
                    else:
                        self.assertRaises(parts.Fault, part.look)
                self.assertEqual(started, [part] * is_started)

    def test_a_field_that_is_there_once(self):
        for values, wanted in ((None, None), ([], None), (["a"], "a"), (["a", "b"], None)):
            it = SimpleNamespace(headers=SimpleNamespace(get_all=lambda _, values=values: values))
            handlers = [one for one in vars(server).values() if hasattr(one, "only")]
            self.assertEqual([one.only(it, "Cookie") for one in handlers], [wanted])


class Sites(Case):
    def test_words_of_a_command(self):
        for words, said in (
                (["a.example", "setup.toml"], None), (["--again"], None), (["--list"], None),
                (["--remove", "--all"], None), (["--remove", "a.example"], None),
                (["--again", "a.example"], "name none"), (["--list", "a.example"], "name none"),
                (["--remove", "--all", "a.example"], "name none"), ([], "name a site"),
                (["--remove"], "name a site"), (["A.example"], "no name of a site"),
                (["10.0.0.5"], "and no address"), (["a.5"], "and no address"),
                (["--restore", "a.db"], "name a site"), (["--restore", "a.db", "a.example"], None),
                (["--restore", "a.db", "--again", "a.example"], "not allowed with"),
                (["a..example"], "no name of a site"), (["a" * 65], "no name of a site"),
                (["a" * 64], None)):
            with self.subTest(words=words):
                found = words_of(office_site.read_words, *words)
                if said is None:
                    self.assertNotIsInstance(found, tuple, found)
                else:
                    self.assertEqual((found[0], said in found[1]), (2, True), found)

    def test_units_of_a_site(self):
        found = office_site.units_of("a.example")
        self.assertEqual(len(found), len(office_site.SERVICES) + len(office_site.TIMERS))
        self.assertIn("office@a.example.service", found)
        self.assertEqual(sum(name.endswith("@a.example.timer") for name in found),
                         len(office_site.TIMERS))

    def test_the_template_of_a_unit(self):
        """That of the office alone waits for what closes its ports to others."""
        for unit in ("office.service", "office-press.service"):
            with self.subTest(unit=unit):
                name, text = places.template_of(unit, "# About it.\n[Unit]\nDescription=An office\n"
                                                      "[Service]\n")
                self.assertEqual(name, unit.replace(".", "@."))
                self.assertEqual(text.count("office-ports.service"),
                                 2 if unit == "office.service" else 0)
                self.assertIn("\nDescription=An office, site %i\n", text)

    def test_files_of_a_machine(self):
        """A file is written once, a link in its place is not followed, and what is not there is
        not removed."""
        it, said = machine.Machine(Path.cwd()), []
        with mock.patch.object(it, "say", lambda word, *_: said.append(word)), \
                mock.patch.object(it, "owned", lambda *_: False):
            it.put("/a", "text")
            it.put("/a", "text")
            it.put("/a", "other")
            Path("b").symlink_to("a")
            it.put("/b", "other")
            self.assertEqual((said, Path("b").is_symlink()), (["wrote"] * 3, False))
            it.put("/c", "")
            Path("d").symlink_to("nowhere")
            said.clear()
            for place in ("/c", "/c", "/d", "/e"):
                it.remove(place)
        self.assertEqual((said, sorted(path.name for path in Path().iterdir())),
                         (["removed"] * 2, ["a", "b"]))

    def test_names_bound_to_what_is_not_there(self):
        posts = {"clara": staff.Post("clerk", ("c1", "c9")), "berta": staff.Post("board")}
        self.assertEqual(setup_json.bound_elsewhere([{"code": "c1"}], posts), [
            "clara is bound to c9, which is no constituency of this setup"])


class Limits(Case):
    def test_numbers_of_a_station(self):
        for electors, agents, is_taken in (
                (1, None, True), (0, None, False), (1_000_000, None, True),
                (1_000_001, None, False), (999_999, 1, True), (1_000_000, 1, False),
                (1, 1_000, True), (1, 1_001, False), (1, 0, True)):
            with self.subTest(electors=electors, agents=agents):
                station = {"code": "s1", "electors": electors}
                station |= {} if agents is None else {"agents": agents}
                codes = SimpleNamespace(add=lambda *_: None)
                said = contextlib.nullcontext() if is_taken else self.assertRaises(
                    limits.Fault)
                with said:
                    limits.check_stations({"station": [station]}, "c1", codes)

    def test_room_for_a_copy(self):
        """A gibibyte has to be left beside it, and may be left exactly."""
        for free, is_room in ((2**30 + 7, True), (2**30 + 6, False)):
            usage = SimpleNamespace(free=free)
            with self.subTest(free=free), mock.patch.object(
                    keep_copies.shutil, "disk_usage", lambda _, usage=usage: usage):
                if is_room:
                    keep_copies.see_room(Path(), 7)
                else:
                    self.assertRaises(keep_copies.Refused, keep_copies.see_room, Path(), 7)


class Words(Case):
    def test_passwords_of_a_site(self):
        """The site and its name come first; without them the usual folders are meant."""
        for words, sites, rest in (
                (["--site", "a.example", "names"], ["a.example"], ["names"]),
                (["names"], [], ["names"]), (["--site"], [], ["--site"]),
                (["--site", "A", "names"], [], ["--site", "A", "names"])):
            with self.subTest(words=words):
                found, done = [], []
                with mock.patch.object(password, "at_site", found.append), \
                        mock.patch.object(password, "done", done.append), \
                        mock.patch.object(password.os, "umask", lambda _: 0):
                    self.assertEqual(password.main(words), 0)
                self.assertEqual((found, done), (sites, [rest]))

    def test_who_is_of_a_board(self):
        """Those of the constituency and those of all; of roles, where some are named."""
        it = forms.Forms.__new__(forms.Forms)
        it.words = {"roles": {"president": "President"}}
        it.about = {"board": [{"name": "Ana", "role": "president", "con": "c1"},
                              {"name": "Bea", "role": "member"},
                              {"name": "Eva", "role": "president", "con": "c2"}]}
        for roles, wanted in (((), ["Ana", "Bea"]), (("president",), ["Ana"]),
                              (("secretary",), [])):
            with self.subTest(roles=roles):
                self.assertEqual([one["name"] for one in it.board_of("c1", *roles)], wanted)

    def test_the_order_of_a_lot(self):
        it = SimpleNamespace(say=lambda _, place, list: f"{place} {list}")
        self.assertEqual(forms.in_order(it, ["C", "A"]), "1 C, 2 A")

    def test_faults_of_texts(self):
        """A list has as many texts as the English one, and each is a text."""
        for found, fault in ((["c", "d"], None), (["c"], "months: not 2 texts"),
                             ([1, "d"], "months: not 2 texts"), (["c", 1], "months: not 2 texts")):
            with self.subTest(found=found):
                self.assertEqual(forms.fault_of({"months": found}, {"months": ["a", "b"]}), fault)
