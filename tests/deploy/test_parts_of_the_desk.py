"""The words that `desk` reads, what it starts and ends, the roles of its requests, and whose
connections it answers: function by function, with no desk and no office.
"""

import argparse
import contextlib
import errno
import io
import os
import signal
import sqlite3
import struct
import subprocess
import sys
from pathlib import Path
from types import SimpleNamespace
from unittest import mock

from tests.support.case import Case
from tests.support.scripts import loaded, module

roles = module("desk_roles")
SETUP = '[[constituency]]\ncode = "c1"\n[[constituency.station]]\ncode = "s1"\n'
NO_LANGUAGE = dict.fromkeys(("LC_ALL", "LC_MESSAGES", "LANG"), "C")


class OfTheDesk(Case):
    def setUp(self):
        super().setUp()
        self.desk = loaded("desk")
        self.enterContext(mock.patch.dict(os.environ, NO_LANGUAGE))
        for name in ("DISPLAY", "WAYLAND_DISPLAY", "BROWSER"):
            os.environ.pop(name, None)

    def words(self, *words):
        with mock.patch.object(sys, "argv", ["desk", *words]), \
                contextlib.redirect_stderr(io.StringIO()) as said:
            try:
                return self.desk.command_line()
            except SystemExit as ended:
                return ended.code, said.getvalue()


class Words(OfTheDesk):
    def test_a_role_and_a_name(self):
        for text, wanted in (("clerk:ana", ("clerk", "ana")), ("station:S-1_b", ("station",
                                                                                 "S-1_b")),
                             ("board:" + "a" * 32, ("board", "a" * 32))):
            self.assertEqual(self.desk.person(text), wanted)
        not_role = "{} is not ROLE:NAME, as clerk:ana; the roles are clerk, second, board, station"
        not_name = ("{} is no name: 1 to 32 letters from a to z, digits, - and _, as in {}")
        for text, said in (
                ("king:ana", not_role.format("king:ana")), ("clerk:", not_role.format("clerk:")),
                ("clerk", not_role.format("clerk")), (":ana", not_role.format(":ana")),
                ("clerk:Ana Mª", not_name.format("Ana Mª", "clerk:ana-ma")),
                ("board:¡¿", not_name.format("¡¿", "board:ana")),
                ("clerk:" + "b" * 33, not_name.format("b" * 33, "clerk:" + "b" * 32)),
                ("clerk: é ", not_name.format(" é ", "clerk:e"))):
            with self.subTest(text=text), self.assertRaises(argparse.ArgumentTypeError) as wrong:
                self.desk.person(text)
            self.assertEqual(str(wrong.exception), said)

    def test_a_port(self):
        for text in ("1", "8080", "65535", "00001"):
            self.assertEqual(self.desk.first_port(text), int(text))
        for text in ("0", "65536", "99999", "123456", "", "x", "-1", " 80", "٣"):
            with self.subTest(text=text), self.assertRaises(argparse.ArgumentTypeError) as wrong:
                self.desk.first_port(text)
            self.assertEqual(str(wrong.exception), f"{text!r} is no port")

    def test_who_works_here(self):
        """The usual name of each role that nobody was named for."""
        usual = [("clerk", "clerk-1"), ("second", "second-1"), ("board", "board-1")]
        for words, wanted in (
                ((), usual), (("clerk:ana",), [*usual[1:], ("clerk", "ana")]),
                (("station:s1", "station:s2"), [*usual, ("station", "s1"), ("station", "s2")]),
                (("board:a", "second:b", "clerk:c"), [("board", "a"), ("second", "b"),
                                                      ("clerk", "c")])):
            found = self.words("a.toml", *(word for one in words for word in ("--name", one)))
            self.assertEqual(found.people, wanted)
        for words in (("clerk:ana", "board:ANA"), ("board:clerk-1",)):
            status, said = self.words("a.toml", *(w for one in words for w in ("--name", one)))
            self.assertEqual((status, "two have the name" in said), (2, True))

    def test_the_language_of_its_user(self):
        for all_, messages, lang, wanted in (("", "", "", "en"), ("es_ES.UTF-8", "", "", "es"),
                                             ("C", "es", "es", "en"), ("", "es", "C", "es"),
                                             ("", "", "es", "es"), ("", "", "fr", "en")):
            with mock.patch.dict(os.environ, {"LC_ALL": all_, "LC_MESSAGES": messages,
                                              "LANG": lang}):
                self.assertEqual(self.desk.user_language(), wanted)
        os.environ["LC_ALL"] = "es"
        self.assertEqual(self.desk.words()["end"], "Ctrl-C cierra la oficina.")

    def test_names_that_are_codes(self):
        Path("setup.toml").write_text(SETUP, encoding="utf-8")
        for role, name, said in (
                ("station", "s1", None), ("station", "S1", "S1 is no station of setup.toml"),
                ("clerk", "c1", None), ("clerk", "s1", "s1 is the code of a station"),
                ("board", "S1", "S1 is the code of a station")):
            given = argparse.Namespace(setup=Path("setup.toml"), people=[(role, name)])
            with self.subTest(role=role, name=name), \
                    self.assertRaises(self.desk.Fault) if said else contextlib.nullcontext() as it:
                self.desk.check_names(given)
            self.assertIn(said or "", str(it.exception) if said else "")


class Programs(OfTheDesk):
    def test_the_program(self):
        """The one that is named, or that the launcher beside has built, or that of the PATH. The
        launcher that is named is the one beside."""
        here = Path.cwd() / "here"
        (here / "deploy").mkdir(parents=True)
        self.desk.HERE, self.desk.built_by = here / "deploy", lambda it: f"built by {it}"
        on_path = {"office": "/usr/bin/office", "other": "bin/other", "launcher": here / "office"}
        self.desk.shutil = SimpleNamespace(which=on_path.get)
        Path("bin").mkdir()
        Path("bin/other").touch()
        built = f"built by {here / 'office'}"
        for mode, named, wanted in (
                (None, None, "/usr/bin/office"), (None, "other", f"{Path.cwd()}/bin/other"),
                (0o644, None, "/usr/bin/office"), (0o644, "other", f"{Path.cwd()}/bin/other"),
                (0o755, None, built), (0o755, "other", f"{Path.cwd()}/bin/other"),
                (0o755, "launcher", built), (0o755, "nonesuch", None)):
            with self.subTest(mode=mode, named=named):
                (here / "office").unlink(missing_ok=True)
                if mode:
                    (here / "office").touch()
                self.desk.os = SimpleNamespace(
                    path=os.path, X_OK=os.X_OK,
                    access=lambda *_, mode=mode: bool(mode and mode & 0o100))
                if wanted:
                    self.assertEqual(self.desk.program_of(named), wanted)
                else:
                    self.assertRaises(self.desk.Fault, self.desk.program_of, named)
        on_path.clear()
        (here / "office").unlink()
        with self.assertRaisesRegex(self.desk.Fault, "^the program office is not there"):
            self.desk.program_of(None)

    def test_a_launcher_that_builds(self):
        """It is asked to check a return; where it cannot, nothing is started."""
        launcher = Path.cwd() / "office"
        program = launcher.with_name("crates") / "tally_office/out/tally_office"
        program.parent.mkdir(parents=True)
        for status, builds, wanted, says in ((0, True, str(program), True),
                                             (0, True, str(program), False),
                                             (0, False, str(launcher), True),
                                             (1, False, None, True)):
            with self.subTest(status=status, builds=builds):
                if says:
                    program.unlink(missing_ok=True)
                launcher.write_text(
                    '#!/bin/sh\n[ "$1" = check ] || exit 9\ngrep -q ^station,slip, || exit 8\n'
                    + f"touch {program}; chmod 755 {program}\n" * builds + f"exit {status}\n",
                    encoding="utf-8")
                launcher.chmod(0o755)
                with contextlib.redirect_stderr(io.StringIO()) as said:
                    if wanted:
                        self.assertEqual(self.desk.built_by(launcher), wanted)
                    else:
                        self.assertRaises(self.desk.Fault, self.desk.built_by, launcher)
                self.assertEqual("is not built yet" in said.getvalue(), says)

    def test_the_doors(self):
        """A secret of twenty-four bytes for each; the ports follow the first one."""
        made = []

        def door(person, port):
            made.append((person.name, person.role, port))
            if port == 65_536:
                raise OverflowError("too high")
            return person

        self.desk.Door = door
        people = [("clerk", "ana"), ("board", "bea"), ("station", "s1")]
        for port, ports in ((None, [0, 0, 0]), (7000, [7000, 7001, 7002])):
            made.clear()
            found = self.desk.doors_of(argparse.Namespace(people=people, port=port))
            self.assertEqual(made, [(name, role, port)
                                    for (role, name), port in zip(people, ports)])
            self.assertEqual({len(one.secret) for one in found}, {32})
            self.assertEqual(len({one.secret for one in found}), 3)
        with self.assertRaisesRegex(self.desk.Fault, "^port 65536 is not free for bea: "):
            self.desk.doors_of(argparse.Namespace(people=people, port=65_535))

    def test_the_clerks_page(self):
        """In the language of the press pages, or of the user; the English one where it has none."""
        site, shared = Path("site"), {"www/clerk_en.html": "en", "www/clerk_es.html": "es",
                                      "www/clerk.html": "usual"}

        def text_of(name):
            if name not in shared:
                raise self.desk.Fault(name)
            return shared[name]

        self.desk.shared = text_of
        site.mkdir()
        for text, lang, wanted in (
                (None, "C", "en"), (None, "es", "es"), ("", "es", "en"), ('language = "es"', "C",
                                                                          "es"),
                ('language = "fr"', "es", "usual"), ("x", "es", "es")):
            with self.subTest(text=text, lang=lang):
                if text is not None:
                    (site / "site.toml").write_text(text, encoding="utf-8")
                os.environ["LC_ALL"] = lang
                self.assertEqual(self.desk.clerks_page(argparse.Namespace(site=site)), wanted)
        self.assertEqual(self.desk.clerks_page(argparse.Namespace(site=None)), "es")

    def test_what_doors_share(self):
        files = SimpleNamespace(share=Path("share"), reader=Path("reader"), pages=Path("pages"),
                                sockets=Path("sockets"))
        texts = {"nginx/policy.conf": 'add_header Content-Security-Policy "default-src \'self\'";',
                 "www/desk_enter.html": "$name", "www/desk_trial.html": "<p>"}
        self.desk.shared, self.desk.clerks_page = texts.get, lambda _: "clerks"

        def ran(tool, setup, share):
            (share / "setup.json").write_bytes(b"[]")
            return self.status, "a fault"

        self.desk.ran = ran
        for trial, banner in ((True, "<p>"), (False, "")):
            self.status = 0
            given = argparse.Namespace(setup=Path("setup.toml"), trial=trial)
            house = self.desk.house_of(given, files, "peers")
            self.assertEqual(
                (house.reader, house.recorder, house.pages, house.setup, house.clerk, house.peers,
                 house.banner, house.policy, house.enter.substitute(name="ana")),
                (Path("reader/1-names.sock"), Path("sockets/1.sock"), Path("pages"), b"[]",
                 "clerks", "peers", banner, "default-src 'self'", "ana"))
            (files.share / "setup.json").unlink()
            files.share.rmdir()
            texts["nginx/policy.conf"] = 'add_header Content-Security-Policy "default-src \'self\'"'
        self.status = 1
        with self.assertRaisesRegex(self.desk.Fault, "^setup.toml: a fault$"):
            self.desk.house_of(given, files, "peers")
        self.status, texts["nginx/policy.conf"] = 0, ""
        (files.share / "setup.json").unlink()
        files.share.rmdir()
        self.assertEqual(self.desk.house_of(given, files, "peers").policy, "default-src 'none'")


class Opened(OfTheDesk):
    def test_a_network_of_its_own(self):
        left = []
        self.desk.leave_network = lambda: left.append(1)
        self.assertEqual((self.desk.walls(argparse.Namespace(open_port=False)), left), (8080, [1]))
        port = self.desk.walls(argparse.Namespace(open_port=True))
        self.assertEqual((1024 <= port <= 65_535, left), (True, [1]))
        self.desk.leave_network = mock.Mock(side_effect=OSError(errno.EPERM, "not permitted"))
        said = r"\(not permitted\): --open-port does without"
        with self.assertRaisesRegex(self.desk.Fault, said):
            self.desk.walls(argparse.Namespace(open_port=False))

    def test_who_opens_the_browser(self):
        """A program of its own, where there is a screen for one, unless it is not wanted."""
        started = []
        self.desk.subprocess = SimpleNamespace(
            PIPE=-1, DEVNULL=-3, Popen=lambda words, **how: started.append(how) or "opener")
        for no_browser, names, wanted in ((False, (), None), (False, ("DISPLAY",), "opener"),
                                          (False, ("WAYLAND_DISPLAY",), "opener"),
                                          (False, ("BROWSER",), "opener"),
                                          (True, ("DISPLAY", "BROWSER"), None), (True, (), None)):
            with mock.patch.dict(os.environ, dict.fromkeys(names, ":0")):
                given = argparse.Namespace(no_browser=no_browser)
                self.assertEqual(self.desk.opener(given), wanted)
        # Ctrl-C is not for the browser, and what it says is for nobody.
        self.assertEqual(started, 3 * [{"stdin": -1, "text": True, "start_new_session": True,
                                        "stdout": -3, "stderr": -3}])

    def test_what_is_printed(self):
        door = lambda name, role: SimpleNamespace(person=SimpleNamespace(name=name, role=role),
                                                  address=f"http://{name}")
        files = SimpleNamespace(db="a.db", record="a.commands.log", pages="a.pages")
        for trial in (False, True):
            with contextlib.redirect_stdout(io.StringIO()) as printed:
                self.desk.show_open(argparse.Namespace(setup="a.toml", trial=trial), files,
                                    [door("ana", "clerk"), door("berta", "second"),
                                     door("s1", "station")])
            self.assertEqual(printed.getvalue(), (
                "The office of a.toml is open, on this computer alone and for its own user alone.\n"
                "Database a.db, record a.commands.log, press pages a.pages\n"
                + "This is a trial: nothing in it counts.\n" * trial
                + "\nAn address is the key of its name. Open yours in a browser, and give it to "
                "nobody else:\n"
                "  ana    clerk         http://ana\n"
                "  berta  second entry  http://berta\n"
                "  s1     station       http://s1\n\nCtrl-C ends the office.\n"))

    def test_what_is_started(self):
        """The office, a look at its record, the rest; each part is looked at twice a second."""
        done, waited = [], []

        class Pipe(io.StringIO):
            def close(self):
                done.append(("browser", self.getvalue()))

        def sleep(seconds):
            waited.append(seconds)
            if len(waited) > 2:
                raise self.desk.Ended

        class Thread:
            def __init__(self, target, args, daemon):
                done.append((target, args, daemon))

            def start(self):
                pass

        part = lambda name: SimpleNamespace(start=lambda: done.append(f"start {name}"),
                                            look=lambda: done.append(f"look at {name}"))
        doors = [SimpleNamespace(serve_forever=name, address=f"http://{name}")
                 for name in ("ana", "bea")]
        self.desk.time, self.desk.threading = SimpleNamespace(sleep=sleep), SimpleNamespace(
            Thread=Thread)
        self.desk.show_open = lambda *_: done.append("open")
        self.desk.check_record = lambda *_: done.append(_)
        for browser, more in ((None, []), (SimpleNamespace(stdin=Pipe()),
                                           [("browser", "http://ana\n")])):
            done.clear()
            waited.clear()
            self.assertRaises(self.desk.Ended, self.desk.serve, "given", "files", 80,
                              [part("a"), part("b")], doors, browser)
            self.assertEqual(done, [
                "start a", ("given", "files", "127.0.0.1:80"), "start b",
                ("ana", (0.1,), True), ("bea", (0.1,), True), "open", *more,
                *2 * ["look at a", "look at b"]])
            self.assertEqual(waited, [0.5] * 3)

    def test_what_its_record_says_otherwise(self):
        """Twenty are named; a record that is not there, or is not to be looked at, says nothing."""
        files = SimpleNamespace(db=Path("a.db"), record=Path("a.log"), share=Path("share"))
        self.desk.others_of = others = mock.Mock(return_value=[])
        given = argparse.Namespace(as_it_is=False)
        self.desk.check_record(given, files, "")
        files.record.touch()
        self.desk.check_record(argparse.Namespace(as_it_is=True), files, "")
        others.assert_not_called()
        for found, named in ((1, ()), (20, ()), (21, ("and 1 more",))):
            others.return_value = [f"station s{n}" for n in range(found)]
            with self.assertRaises(self.desk.Fault) as fault:
                self.desk.check_record(given, files, "there")
            self.assertEqual(str(fault.exception).splitlines()[:-1], [
                "a.db is not what its record a.log leads to:", *others.return_value[:20], *named])
        others.assert_called_with(Path("a.log"), Path("share/setup.json"), "there")

    def test_from_its_start_to_its_end(self):
        """Commands that are under way have half a minute; the parts end in the other order, and the
        database is left in one file."""
        Path("setup.toml").write_text(SETUP, encoding="utf-8")
        done, ended = [], signal.getsignal(signal.SIGINT)
        gate = SimpleNamespace(shut=lambda seconds: done.append(("shut", seconds)))
        part = lambda name: SimpleNamespace(end=lambda: done.append(f"end {name}"))
        door = SimpleNamespace()
        self.enterContext(mock.patch.multiple(
            self.desk, program_of=lambda _: "office", opener=lambda _: None, Peers=lambda _: None,
            ready_database=lambda *_: done.append("ready"), doors_of=lambda _: [door],
            house_of=lambda *_: SimpleNamespace(gate=gate), walls=lambda _: 1,
            parts_of=lambda *_: [part("a"), part("b")],
            close_database=lambda *_: done.append("closed"),
            signal=SimpleNamespace(SIGINT=2, SIGTERM=15, SIGHUP=1, SIG_IGN=0,
                                   signal=lambda number, how: done.append((number, how)))))
        given = argparse.Namespace(setup=Path("setup.toml"), db=Path("a.db"), office=None,
                                   people=[("clerk", "ana")])
        for fault in (self.desk.Ended, OSError):
            done.clear()
            self.desk.serve = mock.Mock(side_effect=fault)
            with contextlib.redirect_stdout(io.StringIO()) as printed:
                if fault is OSError:
                    self.assertRaises(OSError, self.desk.run, given, "folder")
                else:
                    self.desk.run(given, "folder")
            self.assertEqual(done, ["ready", (2, 0), (15, 0), (1, 0), ("shut", 30), "end b",
                                    "end a", "closed"])
            self.assertEqual(printed.getvalue(), "" if fault is OSError else (
                "The office has ended. All of it is in a.db; its record is a.commands.log.\n"))
        self.assertEqual((door.house.gate, signal.getsignal(signal.SIGINT)), (gate, ended))
        given.setup = Path("none.toml")
        with self.assertRaisesRegex(self.desk.Fault, "^none.toml is not there$"):
            self.desk.run(given, "folder")

    def test_how_it_ends(self):
        for fault, status, said in ((None, 0, ""), (self.desk.Ended(), 0, ""),
                                    (self.desk.Fault("a fault"), 1, "desk: a fault\n"),
                                    (OSError("b"), 1, "desk: b\n"),
                                    (sqlite3.OperationalError("c"), 1, "desk: c\n")):
            modes = []
            self.desk.run = mock.Mock(side_effect=[fault])
            self.enterContext(mock.patch.multiple(
                self.desk, command_line=lambda: None,
                os=SimpleNamespace(umask=modes.append),
                signal=SimpleNamespace(SIGINT=2, SIGTERM=15, SIGHUP=1, signal=lambda *_: None)))
            with contextlib.redirect_stderr(io.StringIO()) as printed:
                self.assertEqual(self.desk.main(), status)
            self.assertEqual((printed.getvalue(), modes), (said, [0o077]))


class Parts(Case):
    def setUp(self):
        super().setUp()
        self.parts, self.clock, self.done = loaded("desk_parts.py"), [1000.0], []
        self.parts.time = SimpleNamespace(monotonic=lambda: self.clock[0], sleep=self.sleep)
        self.status = None
        self.process = SimpleNamespace(
            poll=lambda: self.status, returncode=7, wait=self.waited,
            kill=lambda: self.ended("kill"), terminate=lambda: self.done.append("terminate"))

    def sleep(self, seconds):
        self.clock[0] += seconds

    def ended(self, how):
        self.done.append(how)
        self.status = -9

    def waited(self, seconds=None):
        self.done.append(("wait", seconds))
        if self.status is None:
            raise subprocess.TimeoutExpired("a", seconds)

    def started(self, is_ready=None, said=None):
        """A part in whose place nothing is started, and how it would be."""
        part, how = self.parts.Part("the part", ["a", Path("b"), 3], is_ready, said), []
        with mock.patch.object(self.parts.subprocess, "Popen",
                               lambda *words, **more: how.append((words, more)) or self.process):
            part.start()
        return part, how

    def test_a_start(self):
        """Without input and output, in a session of its own: Ctrl-C is not for it. Where this
        program dies it ends too."""
        Path("said").write_text("of before", encoding="utf-8")
        part, [((words,), how)] = self.started(said=Path("said"))
        self.assertEqual(words, ["a", "b", "3"])
        deaths = []
        with mock.patch.object(self.parts, "die_with_parent", deaths.append):
            how.pop("preexec_fn")()
        self.assertEqual(deaths, [signal.SIGTERM])
        self.assertEqual(how.pop("stderr").name, "said")
        self.assertEqual(how, {"stdin": subprocess.DEVNULL, "stdout": subprocess.DEVNULL,
                               "start_new_session": True})
        self.assertEqual((part.began, Path("said").read_text()), (1000.0, ""))
        self.assertEqual(self.started()[1][0][1]["stderr"], None)

    def test_how_long_a_start_may_take(self):
        """A minute, unless it ends before."""
        for seconds, status, said in ((0, None, None), (59.995, None, None), (60.02, None, ""),
                                      (1, 1, ": a fault")):
            with self.subTest(seconds=seconds, status=status):
                self.clock[0], self.status = 1000.0, status
                ready = lambda: self.clock[0] - 1000 >= seconds
                if said is None:
                    self.assertIs(self.started(ready)[0].process, self.process)
                    continue
                Path("said").write_text("", encoding="utf-8")
                if said:
                    ready = lambda: Path("said").write_text("a fault\n", encoding="utf-8") and False
                with self.assertRaises(self.parts.Fault) as fault:
                    self.started(ready, Path("said"))
                self.assertEqual(str(fault.exception), f"the part does not start{said}")
                self.assertLess(self.clock[0], 1060.02)

    def test_a_part_that_ended(self):
        """It is started again; not within five seconds of its start."""
        for seconds, status, wanted in ((4.99, None, "runs"), (4.99, 7, "a fault"),
                                        (5, 7, "again"), (3600, 0, "again")):
            with self.subTest(seconds=seconds, status=status):
                part, _ = self.started()
                part.said = Path("said")
                part.said.write_text("x\n", encoding="utf-8")
                again = []
                part.start = lambda again=again: again.append(1)
                self.clock[0], self.status = part.began + seconds, status
                with contextlib.redirect_stderr(io.StringIO()) as said:
                    if wanted == "a fault":
                        with self.assertRaises(self.parts.Fault) as fault:
                            part.look()
                        self.assertEqual(str(fault.exception), "the part ended with status 7: x")
                    else:
                        part.look()
                self.assertEqual(len(again), wanted == "again")
                self.assertEqual(said.getvalue(), "desk: the part ended, and is started again\n"
                                 * (wanted == "again"))
                self.status = None

    def test_an_end(self):
        """It has ten seconds; one that was not started, or ended already, is left."""
        part = self.parts.Part("the part", [])
        part.end()
        part, _ = self.started()
        part.end()
        self.assertEqual(self.done, ["terminate", ("wait", 10), "kill", ("wait", None)])
        self.done.clear()
        part.end()
        self.assertEqual(self.done, [])
        self.process.terminate = lambda: self.ended("terminate")
        self.status = None
        part.end()
        self.assertEqual(self.done, ["terminate", ("wait", 10)])

    def test_all_parts(self):
        files = self.parts.Files(Path("a.db"), "folder")
        for site, more in ((None, []), ("site", ["--site", "site"])):
            given = argparse.Namespace(setup="setup.toml", site=site)
            office, record, read, press = self.parts.parts_of("office", given, files, 8080)
            self.assertEqual(office.words, ["office", "serve", "--db", "a.db", "--port", "8080",
                                            "--count", "1000000"])
            here, address = self.parts.HERE, "127.0.0.1:8080"
            self.assertEqual(record.words[1:], [
                f"{here}/recorder.py", "folder/recorder", "a.commands.log", "--desk", address,
                "--setup", "folder/share/setup.json", "--shown", "a.pages/record.csv"])
            self.assertEqual(read.words[1:], [f"{here}/reader.py", "folder/reader", "--desk",
                                              address])
            self.assertEqual(press.words[1:], [
                f"{here}/press.py", f"http://{address}", "a.pages", "--every", "5", "--setup",
                "setup.toml", "--head", "folder/recorder/head", *more])
            self.assertEqual([one.is_ready and one.is_ready() for one in (record, read, press)],
                             [False, False, None])
        Path("folder").mkdir()
        for text, is_ready in ((b"", False), (b"office: listening on 8080\n", True)):
            Path("folder/office.log").write_bytes(text)
            self.assertEqual(office.is_ready(), is_ready)

    def test_what_is_beside_a_database(self):
        """A copy with another ending has its own; what has none shares that of its database."""
        for name, record, other, shares in (
                ("a.db", "a", "a.db.db", False), ("a.bak", "a.bak", "a.bak.db", True),
                ("a", "a", "a.db", True)):
            with self.subTest(name=name):
                files = self.parts.Files(Path(name), "folder")
                self.assertEqual((str(files.record), str(files.pages)),
                                 (f"{record}.commands.log", f"{record}.pages"))
                self.assertEqual(files.shared_with(), None)
                Path(other).touch()
                self.assertEqual(files.shared_with(), Path(other) if shares else None)
                Path(other).unlink()

    def test_a_database_of_another_setup(self):
        setup, files = Path("setup.toml"), self.parts.Files(Path("a.db"), "folder")
        setup.write_bytes("ñ".encode())
        asked, self.answer = [], (0, "")
        self.parts.ran = lambda *words: asked.append(words) or self.answer
        for text, said in (("ñ", None), ("n", "a.db was made from another setup than setup.toml")):
            Path("a.db").unlink(missing_ok=True)
            with contextlib.closing(sqlite3.connect("a.db")) as it, it:
                it.execute("CREATE TABLE setup (text)")
                it.execute("INSERT INTO setup VALUES (?)", (text,))
            with self.assertRaisesRegex(self.parts.Fault, said) if said else \
                    contextlib.nullcontext():
                self.parts.ready_database("office", setup, files)
        self.assertEqual(asked, 2 * [("office", "show", "--db", Path("a.db"), "--report",
                                      "progress")])
        for answer, said in (((0, "failed: store: x"), "a.db is in use by another program"),
                             ((1, "no file"), "a.db cannot be opened: no file")):
            self.answer = answer
            with self.assertRaisesRegex(self.parts.Fault, said):
                self.parts.close_database("office", Path("a.db"))
        Path("a.db").unlink()
        self.answer = 1, "a fault"
        with self.assertRaisesRegex(self.parts.Fault, "^no database was made from setup.toml: a f"):
            self.parts.ready_database("office", setup, files)
        self.answer = 0, ""
        self.parts.ready_database("office", setup, files)
        self.assertEqual(asked[-1], ("office", "new", "--db", Path("a.db"), "--setup", setup))

    def test_what_a_program_says(self):
        code = "import sys; sys.stderr.buffer.write(b'a\\xff\\nb\\n\\n'); sys.exit(3)"
        self.assertEqual(self.parts.ran(sys.executable, "-c", code), (3, "a\ufffd, b"))


class Roles(Case):
    def test_how_long_a_body_may_be(self):
        for target, most in (("/station/s1/lodge", 16_384), ("/con/c1/import", 1_048_576),
                             ("/con/c1/trial/semicolon", 1_048_576), ("/con/c1/draw", 16_384),
                             ("/progress", 0), ("/now/con/c1/typed", 0), ("/", 0)):
            self.assertEqual(roles.request_of(target).most, most)

    def test_who_may_do_what(self):
        for target, role, name, wanted in (
                ("/station/s1/lodge", "clerk", "ana", True),
                ("/station/s1/lodge", "station", "s1", True),
                ("/station/s1/lodge", "station", "s2", False),
                ("/station/s1/lodge", "board", "s1", False),
                ("/station/s1/close", "station", "s1", False),
                ("/station/s1/confirm", "second", "sara", True),
                ("/station/s1", "station", "s1", True), ("/station/s1", "station", "s2", False),
                ("/station/s1", "second", "s1", False), ("/now/station/s1", "board", "b", True),
                ("/con/c1/returns", "second", "sara", False),
                ("/con/c1/tally", "station", "s1", True)):
            with self.subTest(target=target, role=role):
                self.assertEqual(roles.request_of(target).is_allowed(name, role), wanted)

    def test_provisional_seats(self):
        for target, role, is_hidden, wanted in (
                ("/results", "second", True, False), ("/results", "second", False, True),
                ("/results", "clerk", True, True), ("/con/c1/tally", "second", True, True),
                ("/now/con/c1/result", "station", True, False), ("/", "second", True, True),
                ("/con/c1/provisional", "board", True, True)):
            with self.subTest(target=target, role=role):
                self.assertEqual(roles.request_of(target).is_there(role, is_hidden), wanted)

    def test_questions(self):
        for target, kind in (("/?a", "file"), ("/setup.json?a", "setup"), ("/progress?a", None),
                             ("/progress?", None), ("/none/none?a", None), ("/none/none", None)):
            found = roles.request_of(target)
            self.assertEqual(found and found.kind, kind)


class Walls(Case):
    def setUp(self):
        super().setUp()
        self.walls = loaded("desk_walls.py")

    def test_whose_connection_it_is(self):
        """An established one, whose other end is of one of the users; in either table."""
        head = "  sl  local rem st tx rx tr tm->when retrnsmt uid\n"
        row = "0: {} {} {} 0:0 0:0 0 {} 0\n"
        own, peer = ("127.0.0.1", 8080), ("127.0.0.1", 5000)
        here, there = "0100007F:1F90", "0100007F:1388"
        mapped = "0000000000000000FFFF0000"
        found = lambda text: head + row.format("x:1", "y:2", "01", 7) + text
        for tables, wanted in (
                ([found(row.format(there, here, "01", 1000))], True),
                ([head + row.format(there, here, "01", 0)], True),
                ([found(""), found(row.format(mapped + there, mapped + here, "01", 1000))], True),
                ([found(row.format(there, here, "01", 1001))], False),
                ([found(row.format(there, here, "08", 1000))], False),
                ([found(row.format(here, there, "01", 1000))], False),
                ([found(row.format(there, "0100007F:1F91", "01", 1000))], False),
                ([found(row.format("0100007F:1389", here, "01", 1000))], False),
                ([row.format(there, here, "01", 1000)], False), ([found("")], False), ([], False)):
            with self.subTest(tables=tables):
                peers = self.walls.Peers({1000, 0})
                for table in peers.tables:
                    table.close()
                peers.tables = [io.BytesIO(table.encode()) for table in tables]
                for _ in range(2):
                    self.assertEqual(peers.is_of_us(peer, own), wanted)

    def test_a_table_that_lacks_a_line(self):
        """It is read three times."""
        peers, line, read = self.walls.Peers({1000}), [None] * 8, []
        for table in peers.tables:
            table.close()
        line[3], line[7] = "01", "1000"
        for at, wanted in ((1, True), (3, True), (4, False)):
            read.clear()
            peers.line_of = lambda *_, at=at: read.append(1) or (line if len(read) >= at else None)
            self.assertEqual(peers.is_of_us(("127.0.0.1", 1), ("127.0.0.1", 2)), wanted)
            self.assertEqual(len(read), min(at, 3))

    def test_the_end_of_an_address(self):
        self.assertEqual(self.walls.ending(("127.0.0.1", 80)), "0100007F:0050")
        peers = self.walls.Peers({1})
        for table in peers.tables:
            # (what was read before is not what the table says now)
            self.assertIsInstance(table, io.RawIOBase)
            table.close()

    def test_a_network_that_is_left(self):
        """An administrator needs no users of its own; where the system refuses it is said."""
        asked, written, set_ = [], {}, []
        self.walls.fcntl = SimpleNamespace(ioctl=lambda _, *what: set_.append(what))
        user, group = os.geteuid(), os.getegid()
        maps = {"/proc/self/setgroups": "deny", "/proc/self/uid_map": f"{user} {user} 1",
                "/proc/self/gid_map": f"{group} {group} 1"}

        def write_text(path, text, encoding):
            written[str(path)] = text

        up = 0x8914, struct.pack("16sh14x", b"lo", 1)
        for answers, flags, wanted in (
                ([0], [0x40000000], {}), ([-1, 0], [0x40000000, 0x50000000], maps),
                ([1, 0], [0x40000000, 0x50000000], maps), ([-1, -1], [0x40000000, 0x50000000],
                                                           None)):
            with self.subTest(answers=answers):
                asked.clear(), written.clear(), set_.clear()
                left = list(answers)
                self.walls.LIBC = SimpleNamespace(
                    unshare=lambda what, left=left: asked.append(what) or left.pop(0))
                with mock.patch.object(Path, "write_text", write_text), mock.patch.object(
                        self.walls.ctypes, "get_errno", lambda: errno.EPERM):
                    if wanted is None:
                        with self.assertRaises(PermissionError):
                            self.walls.leave_network()
                    else:
                        self.walls.leave_network()
                self.assertEqual((asked, written), (flags, wanted or {}))
                self.assertEqual(set_, [] if wanted is None else [up])

    def test_why_the_system_refuses(self):
        """The number that it gives is kept: 1 is no flag of any network, or nobody may ask."""
        self.assertFalse(self.walls.unshared(1))
        self.assertIn(self.walls.ctypes.get_errno(), (errno.EINVAL, errno.EPERM))

    def test_what_dies_with_this_program(self):
        asked = []
        self.walls.LIBC = SimpleNamespace(prctl=lambda *words: asked.append(words))
        self.walls.die_with_parent(signal.SIGTERM)
        # (1 is PR_SET_PDEATHSIG of the kernel)
        self.assertEqual(asked, [(1, signal.SIGTERM)])
