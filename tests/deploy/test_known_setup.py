"""Pages, commands, the record and its tools know their setup: lists in another order are never
taken for these."""

import json
import sys
import tomllib
from pathlib import Path

from tests.support import tools
from tests.support.case import needs
from tests.support.desks import answering_desk, commanded, done, recording_desk
from tests.support.model import Office
from tests.support.office import (
    DOUBLE,
    LISTS,
    PROFILE,
    constituency,
    party_list,
    station,
    with_stations,
)
from tests.support.published import checked
from tests.support.record import LODGED, a_command, chained
from tests.support.safeguards import SLIP, Safeguards, hash_of_file, run, site
from tests.support.scripts import loaded
from tests.support.site import DEPLOY, SiteCase, plain, serving

OTHER_ORDER = (
    PROFILE
    + constituency("c1", "Twin Town", 3, "d0")
    + party_list("B", "Beta", "Bea")
    + party_list("A", "Alpha", "Ana", "Abel")
    + station("s1")
    + station("s2")
)


def setup_json(text, folder="."):
    Path("made.toml").write_text(text, encoding="utf-8")
    Path(folder).mkdir(exist_ok=True)
    return run("setup-json", "made.toml", folder)[0]


def replay(record, *words):
    done = tools.run(
        [DEPLOY / "replay", *words], input=record, capture_output=True, text=False, timeout=60
    )
    return done.returncode, done.stdout.decode(), done.stderr.decode()


# What an office shows that has the return of s1.
ROW_OF_S1 = "s1 300 received 1 p1 3 0 0\n"
HAS_S1 = {"/progress": "c1 2 2\n", "/station/s1/lodge": "{}",
          "/con/c1": {"edition": 1, "certified": False, "lot": [], "gone": []},
          "/con/c1/returns": "station,slip,blank,spoiled,A,B\ns1,p1,0,0,1,2\n"}


class Proxy(Safeguards):
    @needs("nginx", "openssl")
    def test_a_page_that_has_another_setup(self):
        """Its commands are answered 409, and neither recorded nor done, and so is what it asks; a
        program that names no setup is served."""
        Path("setup.toml").write_text(with_stations(2), encoding="utf-8")
        with recording_desk() as (port, messages), site(port) as front:
            known = hash_of_file(front.folder / "share/setup.json")
            rows = {known: 200, "": 200, "0" * 64: 409, known[:-1]: 409, known + "0": 409, "x": 409}
            for said, wanted in rows.items():
                with self.subTest(said=said):
                    before = len(messages)
                    found = front.ask(
                        "POST", "/station/s1/lodge", LODGED, "clara", {"Office-Setup": said}
                    )
                    self.assertEqual(
                        (found.status, len(messages) - before), (wanted, int(wanted == 200))
                    )
            self.assertEqual(front.ask("POST", "/station/s1/lodge", LODGED, "clara").status, 200)
            # A trial says what an import would come to, and is of the same lists.
            self.assertEqual(
                front.ask("POST", "/con/c1/trial", "x", "clara", {"Office-Setup": "x"}).status, 409
            )
            record = front.record(3)
            self.assertEqual(len(record), 3)
            # Nor is it shown votes or slips, which it would have under the wrong lists.
            for target in ("/con/c1", "/con/c1/result", "/con/c1/stations", "/con/c1/returns",
                           "/con/c1/typed", "/station/s1", "/station/s1/history", "/progress"):
                with self.subTest(target=target):
                    self.assertEqual([front.ask("GET", f"/now{target}", None, "clara",
                                                {"Office-Setup": said}).status
                                      for said in (known, "", "0" * 64)], [200, 200, 409])
            with open(front.folder / "log/commands.log", encoding="utf-8") as lines:
                first = json.loads(next(lines))
            self.assertEqual(
                first | {"time": "", "salt": ""},
                {"n": 1, "time": "", "setup": known, "salt": "", "before": "0" * 64}
            )

    def test_the_page_sends_the_hash_of_what_it_has(self):
        text = (DEPLOY / "www/clerk.html").read_text(encoding="utf-8")
        self.assertIn('{ "Office-Setup": setupHash }', text)
        self.assertIn("setupHash = crypto.subtle ? await hashOf(file.text)", text)
        self.assertRegex(text, '(?m)^ *409: "Nothing was done: the setup is another one')


class TwoEntries(Safeguards):
    """Whether a return is closed by its second entry alone is a part of the setup."""

    def test_what_setup_json_says_of_it(self):
        """That of a setup with one entry is as it was before: with `single` said, and without."""
        texts = {}
        for name, entry in (("double", DOUBLE), ("single", 'entry = "single"\n'), ("none", "")):
            setup_json(PROFILE + constituency("c1", "Twin Town", 3, "d0") + entry + LISTS
                       + station("s1"), name)
            texts[name] = Path(name, "setup.json").read_text(encoding="utf-8")
        single = {"code": "c1", "name": "Twin Town", "seats": 3, "method": "dhondt", "threshold": 0,
                  "base": "valid", "lot": "fixed",
                  "lists": [{"code": "A", "name": "Alpha", "candidates": ["Ana", "Abel"]},
                            {"code": "B", "name": "Beta", "candidates": ["Bea"]}],
                  "stations": [{"code": "s1", "electors": 300}]}
        self.assertEqual([texts[name] for name in ("single", "none")],
                         [json.dumps([single], indent=1) + "\n"] * 2)
        self.assertEqual(json.loads(texts["double"]), [single | {"entry": "double"}])
        # As its schema says that is published.
        schema = loaded("press_data.py").SCHEMAS["setup"][1]
        for entry, wanted in (({}, []), ({"entry": "double"}, []),
                              ({"entry": "single"}, ["it[0].entry: not 'double'"])):
            self.assertEqual(checked(schema, [single | entry]), wanted)

    def test_taken_away_everywhere_else(self):
        """Where the setup and the office no longer have it, the record still begins with it."""
        both = (PROFILE + constituency("c1", "Twin Town", 3, "d0") + DOUBLE + LISTS + station("s1"))
        setup_json(both, "both")
        record = chained({"setup": hash_of_file("both/setup.json")},
                         a_command(json.dumps(LODGED), "/station/s1/lodge"),
                         {"to": 2, "status": 200, "answer": '{"ok":"lodged","rev":1}'})
        begun = hash_of_file("both/setup.json")
        other = f"the record is of another setup, whose SHA-256 is {begun}"
        for text, wanted in ((both, (0, False)), (both.replace(DOUBLE, ""), (1, True))):
            with self.subTest(wanted=wanted):
                Path("setup.toml").write_text(text, encoding="utf-8")
                done = tools.run([DEPLOY / "entries", "setup.toml"], input=record,
                                 capture_output=True, timeout=60)
                self.assertEqual((done.returncode, other in done.stdout.decode()), wanted)
                setup_json(text, "now")
                status, _, said = replay(record, "--check", "--setup", "now/setup.json")
                self.assertEqual((status, "the record is of another setup" in said),
                                 (2 * wanted[0], wanted[1]))
        recorder = loaded("recorder.py")
        Path("log").write_bytes(record)
        for folder, wanted in (("both", False), ("now", True)):
            found = recorder.Record("log", 0, recorder.read_setup(Path(folder, "setup.json")))
            self.assertEqual("is the record of another setup" in (found.fault or ""), wanted)

    def test_an_office_that_needs_one_entry(self):
        """Nothing of a record is sent to it where the setup needs two. A setup.json of an older
        package does not say it, and is sent to either."""
        text = PROFILE + constituency("c1", "Twin Town", 3, "d0") + LISTS + station("s1")
        setup_json(text.replace(LISTS, DOUBLE + LISTS), "both")
        setup_json(text, "one")
        result = {"name": "Twin Town", "seats": 3, "method": "dhondt", "threshold": 0,
                  "base": "valid", "lot_rule": "fixed",
                  "lists": [{"code": "A", "name": "Alpha"}, {"code": "B", "name": "Beta"}]}
        for folder, entry, wanted in (("both", "double", 0), ("both", "single", 2),
                                      ("one", "single", 0), ("one", "double", 0)):
            record = chained({"setup": hash_of_file(f"{folder}/setup.json")},
                             a_command(json.dumps(LODGED), "/station/s1/lodge"),
                             {"to": 2, "status": 200, "answer": '{"ok":"lodged","rev":1}'})
            answers = HAS_S1 | {"/con/c1/result": result | {"entry": entry},
                                "/con/c1/stations": f"STATIONS\nstations 1\n{ROW_OF_S1}"}
            with self.subTest(folder=folder, entry=entry), answering_desk(answers) as (port, asked):
                status, _, said = replay(record, f"http://127.0.0.1:{port}", "--setup",
                                         f"{folder}/setup.json")
                self.assertEqual((status, "/station/s1/lodge" in asked, "one entry closes" in said),
                                 (wanted, not wanted, bool(wanted)))

    def test_a_setup_that_an_older_package_wrote(self):
        """Once a record began with it, it stays as it is, and the proxy has its hash; another one
        does not."""
        text = PROFILE + constituency("c1", "Twin Town", 3, "d0") + LISTS + station("s1")
        double = text.replace(LISTS, DOUBLE + LISTS)
        setup_json(text, "older")
        setup_json(double, "newer")
        setup_json(OTHER_ORDER, "other")
        for begun, kept in (("older", True), ("newer", True), ("other", False), (None, False)):
            with self.subTest(begun=begun):
                Path("made.toml").write_text(double, encoding="utf-8")
                words = ("--begun", f"{begun}/setup.json") if begun else ()
                Path("made").mkdir(exist_ok=True)
                codes = run("setup-json", "made.toml", "made", *words)[0]
                wanted = hash_of_file(f"{begun if kept else 'newer'}/setup.json")
                self.assertEqual(hash_of_file("made/setup.json"), wanted)
                self.assertIn(wanted, codes)


class Record(Safeguards):
    def test_a_record_of_another_setup_is_not_gone_on_with(self):
        recorder = loaded("recorder.py")
        recorder.sys = type("Sys", (), {"stdout": open("copy", "wb"), "stderr": sys.stderr})
        setup_json(with_stations(2), "one")
        setup_json(OTHER_ORDER, "other")
        one, other = (
            recorder.read_setup(Path(folder, "setup.json")) for folder in ("one", "other")
        )
        self.assertEqual((one.hash, one.stations),
                         (hash_of_file("one/setup.json"), {"s1": "c1", "s2": "c1"}))
        self.assertNotEqual(one.hash, other.hash)
        # Nothing is written before there is a command.
        self.assertEqual(
            (recorder.Record("log", 0, one).number, Path("log").read_bytes()), (0, b"")
        )
        self.assertEqual(recorder.Record("log", 0, one).add({"name": "clara"}), 2)
        self.assertEqual(json.loads(Path("log").read_text().splitlines()[0])["setup"], one.hash)
        self.assertEqual(recorder.Record("log", 0, one).add({"name": "clara"}), 3)
        for record in (recorder.Record("log", 0, other),):
            self.assertIn("is the record of another setup", record.fault)
            with self.assertRaises(OSError):
                record.add({"name": "clara"})
        self.assertEqual(len(Path("log").read_bytes().splitlines()), 3)
        # One that began without a setup goes on.
        Path("old").write_bytes(chained({"name": "clara"}))
        self.assertEqual(recorder.Record("old", 0, one).add({"name": "clara"}), 2)

    def test_the_index_has_the_stations_of_the_setup_alone(self):
        recorder = loaded("recorder.py")
        rows = "".join(f"x{n},p,0,0,1,2\n" for n in range(5000))
        command = {
            "path": "/con/c1/import",
            "method": "POST",
            "body": f"station\ns1,p,0,0,1,2\n{rows}",
        }
        lines = chained(command, {"to": 1, "status": 200, "answer": '{"lodged":1}'}).splitlines(
            keepends=True
        )
        for known, wanted in (({"s1": "c1", "s2": "c1"}, 1), ({"s1": "c2"}, 0), (None, 5002)):
            with self.subTest(known=known):
                index = recorder.Index(known)
                for line in lines:
                    index.take(line, 0)
                self.assertEqual(len(index.places), wanted)


    def test_a_file_is_in_no_history_of_another_constituency(self):
        """Whoever may act in the one alone cannot push the acts of a station of another out of its
        history, by rows that are bad there."""
        recorder = loaded("recorder.py")
        entries = [a_command("{}", "/station/s1/lodge"),
                   {"to": 1, "status": 200, "answer": '{"ok":"lodged","rev":1}'}]
        for n in range(150):
            body = f"station,slip,blank,spoiled,A\nt{n},p,0,0,1\ns1,p,0,0,1\n"
            entries += [a_command(body, "/con/c2/import"),
                        {"to": 2 * n + 3, "status": 200, "answer": '{"lodged":1,"bad":1}'}]
        Path("commands.log").write_bytes(chained(*entries))
        stations = {"s1": "c1"} | {f"t{n}": "c2" for n in range(150)}
        record = recorder.Record(Path("commands.log"), 0, recorder.Setup("", stations))
        found = {code: (it["whole"], [one["act"] for one in it["commands"]])
                 for code in ("s1", "t7") for it in [record.history(code)]}
        self.assertEqual(found, {"s1": (True, ["lodge"]), "t7": (True, ["import"])})


class Replay(SiteCase):
    def record(self, folder):
        lodge = {
            "name": "clara",
            "role": "clerk",
            "address": "127.0.0.1",
            "office": 1,
            "method": "POST",
            "path": "/station/s1/lodge",
            "body": json.dumps(LODGED),
        }
        answer = {"to": 2, "status": 200, "answer": '{"ok":"lodged","rev":1}'}
        return chained({"setup": hash_of_file(f"{folder}/setup.json")}, lodge, answer)

    def test_a_record_is_sent_to_an_office_of_its_setup_alone(self):
        setup_json(with_stations(2), "one")
        setup_json(OTHER_ORDER, "other")
        record = self.record("one")
        lists = [{"code": "A", "name": "Alpha"}, {"code": "B", "name": "Beta"}]
        result = {"name": "Twin Town", "seats": 3, "method": "dhondt", "threshold": 0,
                  "base": "valid", "lot_rule": "fixed", "lists": lists}
        mine = HAS_S1 | {
            "/con/c1/result": result,
            "/con/c1/stations": f"STATIONS c1\nstations 2\n{ROW_OF_S1}s2 300 -\n"}
        others = mine | {"/con/c1/result": result | {"lists": lists[::-1]}}
        more = mine | {"/progress": "c1 2 2\nc2 1 1\n"}
        rows = (
            (mine, ("--setup", "one/setup.json"), 0, ""),
            (
                others,
                ("--setup", "one/setup.json"),
                2,
                "the office has the constituency c1 otherwise than the setup: lists or their",
            ),
            (more, ("--setup", "one/setup.json"), 2, "an office has the constituency c2"),
            (others, ("--setup", "other/setup.json"), 2, "the record is of another setup"),
            (mine, (), 2, "name its setup.json"),
            (mine, ("--setup", "nonesuch.json"), 2, "nonesuch.json"),
        )
        for answers, words, wanted, why in rows:
            with self.subTest(words=words, why=why), answering_desk(answers) as (port, asked):
                status, _, said = replay(record, f"http://127.0.0.1:{port}", *words)
                self.assertEqual((status, "/station/s1/lodge" in asked), (wanted, wanted == 0))
                self.assertIn(why, said)

    def test_an_office_that_has_another_return(self):
        """It has gone on by itself: what the record did over its own return is not done over that
        one, at the station and in its constituency, and each is named."""
        setup = (with_stations(2) + constituency("c2", "Port", 3, "d0")
                 + party_list("A", "Alpha", "Ana", "Abel") + party_list("B", "Beta", "Bea")
                 + station("t1"))
        setup_json(setup, "one")
        targets = [*((f"/station/{code}/lodge", json.dumps(LODGED)) for code in ("s1", "s2", "t1")),
                   *((f"/station/{code}/close", '{"rev": 1}') for code in ("s1", "s2", "t1")),
                   *((f"/con/{code}/certify", '{"edition": 1}') for code in ("c1", "c2")),
                   ("/con/c1/vacate", '{"list": "A", "place": 1, "note": "x"}')]
        own, commands = Office(tomllib.loads(setup)), []
        for place, (target, body) in enumerate(targets):
            status, answer = own.ask("POST", target, body)
            commands += [a_command(body, target),
                         {"to": 2 * place + 2, "status": status, "answer": answer}]
        known = {"setup": hash_of_file("one/setup.json")}, *commands
        unknown = {"n": 1, "to": 0, "status": 409, "answer": ""}, *commands
        for record, words in ((known, ("--setup", "one/setup.json")), (unknown, ())):
            with self.subTest(words=words), commanded(setup) as (office, port, came):
                done(office, "/station/s1/lodge", LODGED | {"votes": [7, 7]})
                status, printed, _ = replay(chained(*record), f"http://127.0.0.1:{port}", *words)
                self.assertEqual((status, came), (1, [
                    command for place, command in enumerate(targets) if place not in (3, 6, 8)]))
                self.assertEqual([(line.split(":")[0], line.split(": ")[-1])
                                  for line in printed.splitlines()[:-1]], [
                    ("line 2", '409 {"refused":7,"rev":1,"word":"differs"}'),
                    *((f"line {line}", f"the office has something else than line {other}")
                      for line, other in ((8, 2), (14, 8), (18, 14))),
                    ("con c1", "the office has something else than line 18 left"),
                    ("station s1", "the office has something else than line 8 left")])

    def test_names_with_other_ends_of_a_line(self):
        """A reader of text may take U+0085 or U+2028 for the end of a line, and an office does
        not: it is the right one, and has no constituency more."""
        for name in ("Twin\\u0085 Town", "Twin\\u2028 Town"):
            text = with_stations(2).replace("Twin Town", name)
            for file in Path().glob("office.db*"):
                file.unlink()
            setup_json(text, "one")
            with self.subTest(name=name), serving(text) as desk:
                status, said, error = replay(self.record("one"), f"http://127.0.0.1:{desk.port}",
                                             "--setup", "one/setup.json")
                self.assertEqual((status, said.split(";")[0], error),
                                 (0, "sent 1, to look at 0", ""))

    def test_a_check_compares_the_setup_where_it_is_named(self):
        setup_json(with_stations(2), "one")
        setup_json(OTHER_ORDER, "other")
        record = self.record("one")
        self.assertEqual(replay(record, "--check")[0], 0)
        self.assertEqual(replay(record, "--check", "--setup", "one/setup.json")[0], 0)
        self.assertEqual(replay(record, "--check", "--setup", "other/setup.json")[0], 2)

    @needs("nginx", "openssl")
    def test_two_offices_whose_lists_are_in_another_order(self):
        """The very programs: the record of one is refused for the other, which stays as it was."""
        with serving(with_stations(2)) as desk, site(desk.port) as front:
            self.assertEqual(front.ask("POST", "/station/s1/lodge", SLIP, "clara").status, 200)
            front.record(1)
            record = (front.folder / "log/commands.log").read_bytes()
            setup = front.folder / "share/setup.json"
            with serving(OTHER_ORDER, "other.db") as other:
                before = plain(other.port, "GET", "/con/c1/returns").body
                status, _, said = replay(record, f"http://127.0.0.1:{other.port}", "--setup", setup)
                self.assertEqual(
                    (status, plain(other.port, "GET", "/con/c1/returns").body), (2, before)
                )
            with serving(with_stations(2), "again.db") as again:
                status, said, _ = replay(record, f"http://127.0.0.1:{again.port}", "--setup", setup)
                self.assertEqual((status, said.split(";")[0]), (0, "sent 1, to look at 0"))
