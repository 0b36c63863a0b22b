"""The changes that office-site makes to a computer with services: units, ports, files and their
owners, the files of the proxy and the places of sites. In a folder; nothing is started but an
nginx of its own.
"""

import argparse
import contextlib
import io
import json
import os
import pwd
import signal
import socket
import stat
import subprocess
import sys
import time
import urllib.request
from pathlib import Path
from types import SimpleNamespace
from unittest import mock

from tests.support.case import Case, needs
from tests.support.running import PATIENCE, free_port, until
from tests.support.scripts import loaded, module
from tests.support.sites import OfSites

ONE, OTHER = "a.example", "b.example"


class OnAComputer(OfSites):
    """The steps of a computer that has services, none of which is started."""

    def setUp(self):
        super().setUp()
        self.calls, self.older, self.waits = [], set(), []
        self.machine.has_services = True
        self.machine.systemctl = lambda *words: self.calls.append(" ".join(words))
        self.machine.is_older = lambda unit, *files: unit in self.older
        self.machine.words_of = lambda unit: None
        self.machine.reload_proxy = lambda: self.calls.append("reload nginx")
        program = self.site.run

        def run(*words):
            if words[0] == "nginx":
                self.calls.append(" ".join(words))
            return program(*words)

        self.site.run = run
        self.site.await_page = self.waits.append
        self.site.listeners = lambda: {443: {"1"}}
        self.put(f"var/lib/office/{ONE}/backup/office-1.db")

    def started(self, again=False):
        self.calls.clear()
        self.machine.changed.clear()
        with contextlib.redirect_stdout(io.StringIO()) as printed:
            self.site.start(self.machine, ONE, again)
        return list(self.calls), printed.getvalue()

    def test_what_is_started(self):
        """A unit that does not run, and once more one that is older than its files. The rules of
        the ports are loaded each time, and then the files of the proxy, before any unit starts."""
        units = [f"{unit}@{ONE}.service" for unit in ("office", "office-reader", "office-recorder",
                                                      "office-press")]
        units += [f"{unit}@{ONE}.timer" for unit in ("office-backup", "office-status")]
        enable = f"enable --quiet office-ports {' '.join(units)} nginx"
        begin = ["daemon-reload", "nginx -t", "reload-or-restart office-ports", enable]
        well = [*begin, "reload nginx"]
        self.assertEqual(self.started(), (well, ""))
        self.assertEqual((self.waits, self.ran), ([ONE], [["nginx", "-t"]]))
        nginx = "restart nginx"
        for older, again, wanted, printed in (
                ({units[0], units[5]}, False, [*well, f"restart {units[0]} {units[5]}"],
                 f"started {units[0]} {units[5]}\n"),
                ({"nginx"}, False, [*begin, nginx], "started nginx.service\n"),
                (set(), True, [*begin, nginx, f"restart {' '.join(units)}"],
                 f"started nginx.service\nstarted {' '.join(units)}\n")):
            with self.subTest(older=older, again=again):
                self.older = older
                self.assertEqual(self.started(again), (wanted, printed))
        self.older = set()
        for taken in ({}, {444: {"1"}}):
            self.site.listeners = lambda taken=taken: taken
            self.assertEqual(self.started()[0][-1], nginx)
        self.site.listeners = lambda: {443: {"1"}}
        (self.root / f"var/lib/office/{ONE}/backup/office-1.db").unlink()
        self.put(f"var/lib/office/{ONE}/backup/other")
        self.assertEqual(self.started()[1], f"the first copy in /var/lib/office/{ONE}/backup\n")
        self.assertEqual(self.calls[-1], f"start office-backup@{ONE}")
        self.machine.has_services = False
        self.assertEqual(self.started(), ([], ""))

    def test_a_proxy_whose_files_are_wrong(self):
        """No unit is started, nor is one that runs restarted, and no page is waited for; also where
        it does not read them."""
        self.older = {"nginx", f"office@{ONE}.service"}
        self.fails = {"nginx": "duplicate upstream"}
        for again in (False, True):
            with self.subTest(again=again):
                self.calls.clear()
                self.refused("nginx: duplicate upstream", self.site.start, self.machine, ONE, again)
                self.assertEqual(self.calls, ["daemon-reload", "nginx -t"])
        self.fails, self.older = {}, {f"office@{ONE}.service"}
        self.machine.reload_proxy = mock.Mock(side_effect=self.site.Fault("its files of before"))
        self.calls.clear()
        self.refused("its files of before", self.site.start, self.machine, ONE, False)
        self.assertEqual([call.split()[0] for call in self.calls],
                         ["daemon-reload", "nginx", "reload-or-restart", "enable"])
        self.assertEqual(self.waits, [])

    def test_logs_that_have_just_got_a_place(self):
        """The proxy writes there once it is started again."""
        self.machine.changed.append("/var/log/nginx")
        with contextlib.redirect_stdout(io.StringIO()):
            self.site.start(self.machine, ONE, False)
        self.assertEqual(self.calls[-1], "restart nginx")

    def test_how_long_a_page_is_waited_for(self):
        """A minute, for an office that answers, and for pages that are public or not yet."""
        clock, answers, site = [1000.0], {}, loaded("office-site")

        def sleep(seconds):
            clock[0] += seconds

        def status_of(_, target):
            found = answers[target]
            if isinstance(found, Exception):
                raise found
            return found(clock[0] - 1000) if callable(found) else found

        site.time = SimpleNamespace(monotonic=lambda: clock[0], sleep=sleep)
        site.status_of, site.head_of = status_of, lambda _: {"n": 1, "hash": "a"}
        for health, page, seconds in ((204, 200, 0), (204, 403, 0),
                                      (204, lambda took: 200 if took > 59.5 else 404, 59.6)):
            clock[0] = 1000.0
            answers.update({"/health": health, "/": page})
            site.await_page(ONE)
            self.assertAlmostEqual(clock[0] - 1000, seconds, delta=0.01)
        for health, page, said in ((204, 404, "/health 204, / 404"), (200, 200, "/health 200"),
                                   (OSError("refused"), 200, "refused"),
                                   (204, lambda took: 200 if took > 60.1 else 502,
                                    "/health 204, / 502")):
            clock[0] = 1000.0
            answers.update({"/health": health, "/": page})
            with self.assertRaises(site.Fault) as fault:
                site.await_page(ONE)
            self.assertIn(f"https://{ONE}/ does not answer ({said}", str(fault.exception))
            self.assertTrue(str(fault.exception).endswith(
                f"systemctl status office@{ONE}.service office-reader@{ONE}.service "
                f"office-recorder@{ONE}.service office-press@{ONE}.service "
                f"office-backup@{ONE}.timer office-status@{ONE}.timer nginx"))
            self.assertAlmostEqual(clock[0] - 1000, 60, delta=0.21)

    def test_how_long_a_recorder_is_waited_for(self):
        """A minute, until it has read the record. One that does no command says why."""
        clock, site = [1000.0], loaded("office-site")
        site.time = SimpleNamespace(monotonic=lambda: clock[0],
                                    sleep=lambda seconds: clock.append(clock.pop() + seconds))
        site.status_of = lambda _, target: 204 if target == "/health" else 200
        wrong, where = {"n": 1, "hash": "a", "fault": "line 2 was cut"}, []
        for head, after, seconds, said in (
                ({"n": 0, "hash": "a"}, 0, 0, None), ({"n": 1, "hash": "a"}, 59.5, 59.6, None),
                (wrong, 0, 0, "line 2 was cut"), (wrong, 3, 3, "line 2 was cut"),
                ({"n": 1, "hash": "a"}, 61, 60, "it has not begun"),
                (None, 0, 60, "it has not begun"), ([], 0, 60, "it has not begun")):
            with self.subTest(head=head, after=after):
                clock[0] = 1000.0

                def head_in(file, head=head, after=after):
                    where.append(file)
                    if clock[0] - 1000 < after:
                        raise FileNotFoundError
                    return head

                with mock.patch.object(site.status_looks, "head_in", head_in):
                    if said:
                        self.refused(f"the recorder of {ONE} does no command ({said}): "
                                     f"journalctl -u office-recorder@{ONE}", site.await_page, ONE)
                    else:
                        site.await_page(ONE)
                self.assertAlmostEqual(clock[0] - 1000, seconds, delta=0.21)
        self.assertEqual({*where}, {f"/run/office-recorder/{ONE}/head"})

    def test_a_file_system_for_the_logs(self):
        """With the first site, where they are beside the record and nobody wants them there."""
        disks, image = {"/var/log/nginx": 1, "/var/log/office": 1}, [False]

        class Place(type(Path())):
            def stat(self, **_):
                return SimpleNamespace(st_dev=disks[str(self)])

            def exists(self):
                return image[0]

            def unlink(self, missing_ok=False):
                done.append(("unlink", missing_ok))

            def chmod(self, mode):
                done.append(mode)

        done, written = [], []
        self.enterContext(mock.patch.multiple(
            self.site, Path=Place, create=True, is_ours=lambda _: self.is_ours,
            shutil=SimpleNamespace(chown=lambda *words: done.append(words)),
            open=lambda name, mode, encoding: contextlib.nullcontext(
                SimpleNamespace(write=lambda text: written.append((name, mode, text))))))
        make = [["fallocate", "-l", "1G", "/var/log/nginx.img"],
                ["mkfs.ext4", "-q", "/var/log/nginx.img"],
                ["mount", "-o", "loop", "/var/log/nginx.img", "/var/log/nginx"]]
        for real, beside, ours, there, record, is_made in (
                (True, False, False, False, 1, True), (False, False, False, False, 1, False),
                (True, True, False, False, 1, False), (True, False, True, False, 1, False),
                (True, False, False, True, 1, False), (True, False, False, False, 2, False)):
            with self.subTest(real=real, beside=beside, ours=ours, there=there, record=record), \
                    contextlib.redirect_stdout(io.StringIO()):
                self.ran.clear(), written.clear(), done.clear(), self.calls.clear()
                self.machine.is_real, self.is_ours, image[0] = real, ours, there
                disks["/var/log/office"] = record
                self.site.own_log_disk(self.machine, beside)
                self.assertEqual((self.ran, bool(written)), (make if is_made else [], is_made))
        self.machine.is_real, self.is_ours, image[0] = True, False, False
        disks["/var/log/office"] = 1
        with contextlib.redirect_stdout(io.StringIO()):
            self.site.own_log_disk(self.machine, False)
        # (the computer starts without it, and nginx does not start before it)
        self.assertEqual(written, [("/etc/fstab", "a", (
            "/var/log/nginx.img /var/log/nginx ext4 "
            "loop,nofail,x-systemd.before=nginx.service 0 0\n"))])
        self.assertEqual((done, self.calls), ([0o600, (Place("/var/log/nginx"), "root", "adm")],
                                              ["daemon-reload"]))
        self.fails = {"mkfs.ext4": "no room"}
        done.clear()
        self.refused("the logs of the proxy get no file system of their own: mkfs.ext4: no room; "
                     "with --logs-beside", self.site.own_log_disk, self.machine, False)
        self.assertEqual(done, [0o600, ("unlink", True)])

    def test_each_site_again(self):
        """The files of all are written before anything is started: the proxy reads those of all."""
        given = argparse.Namespace(site=None, again=True, list=False, remove=False)
        sites = []
        self.site.set_up = lambda _, words: sites.append((words.site, words.again))
        self.site.start = lambda _, site, again: sites.append(("start", site, again))
        for place, site in enumerate((ONE, OTHER)):
            self.ports(site, 8080 + place)
        with contextlib.redirect_stdout(io.StringIO()) as printed:
            self.site.act(self.machine, given)
            self.machine.changed.append("x")
            self.site.act(self.machine, given)
        self.assertEqual((sites, printed.getvalue()), (
            2 * [(ONE, True), (OTHER, True), ("start", ONE, True), ("start", OTHER, True)],
            "nothing was changed\n"))

    def test_an_upgrade_with_a_fault_of_one_site(self):
        """It is not started, and the others are; a site that does not start keeps no other from
        it."""
        sites = (ONE, OTHER, "c.example")
        for place, site in enumerate(sites):
            self.ports(site, 8080 + place)
        started = []

        def fails_for(wrong, said):
            def step(_, words, again=None):
                if (site := getattr(words, "site", words)) == wrong:
                    raise self.site.Fault(said)
                if again:
                    started.append(site)
            return step

        self.site.set_up, self.site.start = fails_for(ONE, "no key"), fails_for(OTHER, "no page")
        self.refused(f"{ONE}: no key\noffice-site: {OTHER}: no page", self.site.all_once_more,
                     self.machine, argparse.Namespace(again=True))
        self.assertEqual(started, ["c.example"])

    def test_the_record_that_a_site_has_begun(self):
        self.assertEqual(self.site.begun_with(self.machine, ONE), None)
        file = self.put(f"var/lib/office-site/{ONE}/setup.json", "[]")
        line = {"n": 1, "setup": module("record_lines").hash_of(b"[]")}
        self.put(f"var/log/office/{ONE}/commands.log", json.dumps(line) + "\n")
        self.assertEqual(self.site.begun_with(self.machine, ONE), file)


class OfAMachine(Case):
    def setUp(self):
        super().setUp()
        self.site_machine = loaded("site_machine.py")
        self.machine = self.site_machine.Machine(Path.cwd() / "root")
        self.root = self.machine.root
        self.root.mkdir()

    def said(self, act, *words, **how):
        """The lines that an act prints."""
        with contextlib.redirect_stdout(io.StringIO()) as printed:
            act(*words, **how)
        return printed.getvalue().splitlines()


class Files(OfAMachine):
    def test_a_folder_and_the_computer_itself(self):
        for root, has_systemd, is_real, has_services in (
                ("/", True, True, True), ("/", False, True, False), (".", True, False, False)):
            with mock.patch.object(Path, "is_dir", lambda _, found=has_systemd: found):
                it = self.site_machine.Machine(root)
            self.assertEqual((it.is_real, it.has_services), (is_real, has_services))
        self.assertEqual(self.machine.at("/a/b"), self.root / "a/b")

    def test_folders(self):
        """Each with its mode, in others if need be; what is so already is not said."""
        folder = lambda *how: self.said(self.machine.folder, "/a/b", *how)
        self.assertEqual(folder(0o750), ["folder /a/b"])
        self.assertEqual(stat.filemode((self.root / "a/b").stat().st_mode), "drwxr-x---")
        self.assertEqual((folder(0o750), folder(0o700), folder(0o700)), ([], ["folder /a/b"], []))
        self.assertEqual(self.machine.changed, ["/a/b"] * 2)

    def test_owners_on_the_computer_itself(self):
        """A group is called as its user, where no other is named."""
        given, own = [], pwd.getpwuid(os.getuid()).pw_name
        self.machine.is_real = True
        (self.root / "a").touch(0o644)
        (self.root / "a").chmod(0o644)
        ids = {own: os.getuid(), "u": 70_001, "g": 70_002}
        self.enterContext(mock.patch.multiple(
            self.site_machine, pwd=SimpleNamespace(getpwnam=lambda name: SimpleNamespace(
                pw_uid=ids[name])), grp=SimpleNamespace(getgrnam=lambda name: SimpleNamespace(
                    gr_gid=os.getgid() if name == own else ids[name])),
            os=SimpleNamespace(chown=lambda *words: given.append(words))))
        self.assertFalse(self.machine.owned("/a", 0o644, own))
        for words, wanted in ((("u",), (70_001, 70_001)), (("u", "g"), (70_001, 70_002)),
                              ((own, "g"), (os.getuid(), 70_002))):
            given.clear()
            self.assertTrue(self.machine.owned("/a", 0o644, *words))
            self.assertEqual(given, [(self.root / "a", *wanted)])
        self.assertTrue(self.machine.owned("/a", 0o600, own))
        self.assertEqual(stat.filemode((self.root / "a").stat().st_mode), "-rw-------")

    def test_a_file(self):
        """It is written beside and takes the place of another, which may be a link; what is there
        already is not written."""
        put = lambda *words, **how: self.said(self.machine.put, "/a", *words, **how)
        self.assertEqual((put("1"), put(b"1"), put("2")), (["wrote /a"], [], ["wrote /a"]))
        (self.root / "b").write_text("3", encoding="utf-8")
        (self.root / "a").unlink()
        (self.root / "a").symlink_to("b")
        self.assertEqual((put("3", is_said=False), (self.root / "a").is_symlink()), ([], False))
        self.assertEqual(self.machine.changed, ["/a"] * 3)
        self.assertEqual((put("3", 0o600), put("3", 0o600)), (["owner of /a"], []))
        (self.root / "a").unlink()
        (self.root / "a").mkdir()
        self.assertRaises(OSError, put, "3")

    def test_a_link(self):
        link = lambda target: self.said(self.machine.link, "/a", target)
        self.assertEqual([link("b"), link("b"), link("c")], [["link /a"], [], ["link /a"]])
        (self.root / "a").unlink()
        (self.root / "a").write_text("b", encoding="utf-8")
        self.assertEqual((link("c"), os.readlink(self.root / "a")), (["link /a"], "c"))

    def test_what_is_removed(self):
        (self.root / "a").touch()
        (self.root / "b").symlink_to("nowhere")
        for place, said in (("/a", ["removed /a"]), ("/b", ["removed /b"]), ("/c", [])):
            self.assertEqual(self.said(self.machine.remove, place), said)
        self.assertEqual([*self.root.iterdir()], [])

    def test_what_is_put_aside(self):
        """The files of a pattern, in a new folder of this user; of none no folder is made."""
        aside = lambda *names: self.said(self.machine.put_aside, "/", names, "into", 0o750, "root")
        self.assertEqual((aside("a*"), [*self.root.iterdir()]), ([], []))
        for name in ("a1", "a2", "b", "c"):
            (self.root / name).write_text(name, encoding="utf-8")
        self.assertEqual(aside("a*", "b", "none"), ["folder //into"])
        self.assertEqual({str(file.relative_to(self.root)) for file in self.root.rglob("*")},
                         {"c", "into", "into/a1", "into/a2", "into/b"})
        self.assertEqual(stat.filemode((self.root / "into").stat().st_mode), "drwxr-x---")
        # It goes on into one that was begun, and over nothing that is there.
        (self.root / "b").touch()
        with self.assertRaisesRegex(self.site_machine.Fault, "into/b is there already$"):
            aside("b", "c")
        self.assertEqual((self.root / "into/b").read_text(encoding="utf-8"), "b")
        self.assertEqual(aside("c"), ["folder //into"])
        self.assertTrue((self.root / "into/c").exists())
        with mock.patch.object(os, "geteuid", lambda: os.getuid() + 1), \
                self.assertRaisesRegex(self.site_machine.Fault, "other is another user's$"):
            self.machine.put_aside("/", ("b",), "other", 0o750, "root")


class Services(OfAMachine):
    def test_what_systemd_is_asked(self):
        asked = []
        self.site_machine.run = lambda *words: asked.append(words)
        self.enterContext(mock.patch.object(
            self.site_machine.subprocess, "run",
            lambda words, **_: asked.append(tuple(words)) or SimpleNamespace(returncode=self.ends)))
        for has_services in (False, True):
            self.machine.has_services = has_services
            asked.clear()
            self.machine.systemctl("stop", "a")
            self.machine.reset_failed("a", "b")
            self.ends = 3
            self.assertEqual(self.machine.is_active("a"), False)
            self.ends = 0
            self.assertEqual(self.machine.is_active("a"), has_services)
            self.assertEqual(asked, [
                ("systemctl", "stop", "a"), ("systemctl", "reset-failed", "a", "b"),
                *2 * [("systemctl", "is-active", "--quiet", "a")]] if has_services else [])

    def test_the_words_of_a_unit(self):
        """Those of its process, while it has one."""
        process = subprocess.Popen(["sleep", "600", "1"])
        self.addCleanup(process.wait)
        self.addCleanup(process.kill)
        until(lambda: Path(f"/proc/{process.pid}/cmdline").read_bytes().startswith(b"sleep"))
        for active, number, wanted in ((True, process.pid, ["sleep", "600", "1", ""]),
                                       (False, process.pid, None), (True, 0, None)):
            self.machine.is_active = lambda unit, active=active: unit == "a" and active
            self.site_machine.run = lambda *words, number=number: (
                f"MainPID={number * (words[1:] == ('show', '--property=MainPID', 'a'))}\n", "")
            self.assertEqual(self.machine.words_of("a"), wanted)

    def test_what_is_older_than_its_files(self):
        """A unit that does not run, or began before one of them was written."""
        self.site_machine.time = SimpleNamespace(time=lambda: 5000.0, monotonic=lambda: 700.0)
        # It began ten seconds after the computer, which began at 4300.
        self.site_machine.run = lambda *_: (
            "ActiveEnterTimestampMonotonic=10000000\n", "")
        for active, times, wanted in ((False, (0,), True), (True, (4310,), False),
                                      (True, (4311,), True), (True, (4309, 4311), True),
                                      (True, (4311, 4309), True), (True, (0, 4310), False)):
            with self.subTest(active=active, times=times):
                self.machine.is_active = lambda _, active=active: active
                for number, moment in enumerate(times):
                    (self.root / str(number)).touch()
                    os.utime(self.root / str(number), (moment, moment))
                files = [f"/{number}" for number in range(len(times))]
                self.assertEqual(self.machine.is_older("a", *files), wanted)

    @needs("nginx")
    def test_a_proxy_that_reads_its_files(self):
        """Whoever asks after it gets an answer by these, also where a request of before is not over
        yet; a proxy that cannot use them is a fault."""
        conf, port = Path("nginx.conf").resolve(), free_port()

        def write(word, more=""):
            # (a map as large as that of many stations, which takes a while to read)
            many = "".join(f"x{number} 1;" for number in range(60_000))
            conf.write_text(f"""
                daemon off; pid {conf.parent}/pid; error_log {conf.parent}/said;
                worker_processes 4; events {{}} {more}
                http {{
                    access_log off; client_body_temp_path {conf.parent}/body;
                    map_hash_max_size 2000000; map $uri $x {{ {many} }}
                    server {{ listen 127.0.0.1:{port}; return 200 {word}; }}
                }}""", encoding="utf-8")

        def answer():
            with urllib.request.urlopen(f"http://127.0.0.1:{port}/", timeout=PATIENCE) as found:
                return found.read().decode()

        def is_there():
            with contextlib.suppress(OSError):
                return answer() == "one"

        write("one")
        process = subprocess.Popen(["nginx", "-c", conf, "-p", conf.parent])
        self.addCleanup(process.wait)
        self.addCleanup(process.terminate)
        until(is_there)
        self.site_machine.run = lambda *words: (f"MainPID={process.pid}\n", "")
        self.machine.systemctl = lambda *words: process.send_signal(signal.SIGHUP)
        self.assertEqual(len(self.site_machine.workers_of(str(process.pid))), 4)
        with contextlib.closing(socket.create_connection(("127.0.0.1", port), PATIENCE)) as slow:
            slow.sendall(b"GET / HTTP/1.1\r\n")
            for word in ("two", "three"):
                write(word)
                self.machine.reload_proxy()
                self.assertEqual([answer() for _ in range(20)], [word] * 20)
        write("four", "no such directive;")
        clock = iter((0.0, 59.9, 60.1))
        self.site_machine.time = SimpleNamespace(monotonic=lambda: next(clock), sleep=time.sleep)
        with self.assertRaisesRegex(self.site_machine.Fault, "^nginx goes on with its files of "
                                                             "before: journalctl -u nginx$"):
            self.machine.reload_proxy()

    def test_a_program_and_its_fault(self):
        """Its words are on standard error, or else on the other output; a number where it has
        none."""
        run, python = self.site_machine.run, sys.executable
        code = ("import os, sys; print(os.environ.get('A'), os.environ['PATH']); "
                "sys.stderr.write('b')")
        for env, wanted in ((None, None), ({"A": "1"}, "1")):
            with mock.patch.dict(os.environ, {"PATH": "/bin"}):
                self.assertEqual(run(python, "-c", code, env=env), (f"{wanted} /bin\n", "b"))
        for code, said in (("print('a'); exit('b')", "b"), ("print('a'); exit(1)", "a"),
                           ("exit(3)", "status 3")):
            with self.assertRaises(self.site_machine.Fault) as fault:
                run(python, "-c", code)
            self.assertEqual((str(fault.exception), fault.exception.said),
                             (f"{Path(python).name} -c: {said}", said))

    def in_folder(self, **files):
        """The tables of the kernel in a folder of the test."""
        for name, text in files.items():
            file = Path("proc") / name.replace("_", "/")
            file.parent.mkdir(parents=True, exist_ok=True)
            file.write_text(text, encoding="ascii")
        self.site_machine.Path = lambda place: Path(str(place).removeprefix("/"))

    def test_who_listens(self):
        """The ports of both tables that are listened on, and the program that has a socket."""
        head = "  sl  local_address rem_address st tx_queue tr tm->when retrnsmt uid more inode\n"
        row = "   0: {}:{} 00000000:0000 {} 0:0 00:0 0 0 0 {} 1 0\n"
        own, zeros = "0100007F", "0" * 32
        self.in_folder(net_tcp=head + row.format(own, "1F90", "0A", 11) + row.format(
            own, "1F91", "01", 12) + row.format("00000000", "0050", "0A", 13))
        self.assertEqual(self.site_machine.listeners(), {8080: {"11"}, 80: {"13"}})
        self.in_folder(net_tcp6=head + row.format(zeros, "0050", "0A", 14))
        self.assertEqual(self.site_machine.listeners(), {8080: {"11"}, 80: {"13", "14"}})
        for number, name, targets in (("7", "shop", ("socket:[11]", "pipe:[13]")),
                                      ("12", "nginx", ("/dev/null", "socket:[13]")),
                                      ("self", "none", ("socket:[99]",))):
            (Path("proc") / number / "fd").mkdir(parents=True)
            (Path("proc") / number / "comm").write_text(f"{name}\n", encoding="ascii")
            for place, target in enumerate(targets):
                (Path("proc") / number / "fd" / str(place)).symlink_to(target)
        (Path("proc/7/fd") / "file").touch()
        for sockets, said in (({"11"}, "shop (7)"), ({"13", "14"}, "nginx (12)"),
                              ({"99"}, "another program"), ({"1"}, "another program")):
            self.assertEqual(self.site_machine.who_listens(sockets), said)

    def test_the_addresses_of_the_computer(self):
        self.in_folder()
        self.assertFalse(self.site_machine.has_ipv6())
        for text, wanted in (("", False), ("\n", False), ("fe80 02 40 20 80 eth0\n", True)):
            self.in_folder(net_if__inet6=text)
            Path("proc/net/if_inet6").write_text(text, encoding="ascii")
            self.assertEqual(self.site_machine.has_ipv6(), wanted)

    def test_a_page_of_a_site(self):
        """Of this computer, over TLS by the name of the site, whatever its certificate is."""
        done = []
        context = SimpleNamespace(check_hostname=True, verify_mode=2, wrap_socket=lambda it, **how:
                                  done.append((it, how)) or SimpleNamespace(close=lambda: None))
        connection = self.site_machine.http.client.HTTPSConnection
        self.enterContext(mock.patch.multiple(
            connection, request=lambda it, *words: done.append((it.host, it.timeout, *words)),
            getresponse=lambda _: SimpleNamespace(status=403)))
        self.enterContext(mock.patch.object(self.site_machine.socket, "create_connection",
                                            lambda *words: words))
        with mock.patch.object(self.site_machine.ssl, "create_default_context", lambda: context):
            self.assertEqual(self.site_machine.status_of(ONE, "/health"), 403)
        self.assertEqual(done, [((("127.0.0.1", 443), 10), {"server_hostname": ONE}),
                                (ONE, 10, "GET", "/health")])
        self.assertEqual((context.check_hostname, context.verify_mode), (False, 0))


class Proxy(Case):
    TEXT = """\
# Of deploy/.
# Two lines.
user www-data;

http {
    # About a map.
    map $arg_a $ours {
        default off;
    }

    map $ours $theirs {
        default 1;
    }
    map $arg_b $shared {
        default 2;
    }
    include mime.types;
    upstream office1 { server unix:/run/office-reader/1.sock; }
    server {
        listen 80 default_server;
        server_name office.example;
        include office/part.conf;
        set $local $theirs;
    }
}
"""
    PARTS = {"part.conf": "map $arg_c $of_part {\n}\nlocation / { root /var/www/office; }\n"}

    def setUp(self):
        super().setUp()
        self.proxy = module("site_proxy")

    def test_the_directives_of_a_text(self):
        head, found = self.proxy.directives(self.TEXT)
        self.assertEqual(head, "# Of deploy/.\n# Two lines.\nuser www-data;\n")
        self.assertEqual([self.proxy.bare(one).splitlines()[0] for one in found], [
            "map $arg_a $ours {", "map $ours $theirs {", "map $arg_b $shared {",
            "include mime.types;", "upstream office1 { server unix:/run/office-reader/1.sock; }",
            "server {"])
        self.assertEqual(found[0], "    # About a map.\n    map $arg_a $ours {\n"
                                   "        default off;\n    }")

    def test_what_is_of_a_site(self):
        """Its names and places, and whatever has a variable that is made of these."""
        once, ours, own = self.proxy.divided(self.TEXT, self.PARTS)
        self.assertEqual([self.proxy.bare(one).split()[0] for one in once],
                         ["map", "map", "map", "include", "upstream"])
        self.assertEqual((len(ours), own), (1, {"of_part"}))
        text = self.TEXT.replace("$arg_a", "$of_part")
        once, ours, own = self.proxy.divided(text, self.PARTS)
        self.assertEqual(([self.proxy.bare(one).splitlines()[0] for one in once], own), (
            ["map $arg_b $shared {", "include mime.types;",
             "upstream office1 { server unix:/run/office-reader/1.sock; }"],
            {"of_part", "ours", "theirs"}))

    def test_the_files_of_a_site(self):
        text = self.TEXT.replace("$arg_a", "$of_part")
        files = self.proxy.of_site(text, self.PARTS, ONE, 8080, False)
        self.assertEqual(files["part.conf"], (
            "map $arg_c $of_part_8080 {\n}\nlocation / { root /var/www/office/a.example; }\n"))
        site = files["site.conf"]
        self.assertTrue(site.startswith(f"{self.proxy.MARK}\n    # About a map.\n"))
        for line in ("    map $of_part_8080 $ours_8080 {", "    map $ours_8080 $theirs_8080 {",
                     "        listen 80;", "        server_name a.example;",
                     "        include office/a.example/part.conf;",
                     "        set $local $theirs_8080;"):
            self.assertEqual(site.split("\n").count(line), 2 if "server_name" in line else 1, line)
        self.assertTrue(site.endswith("    }\n"))
        self.assertNotIn("[::]", site)
        both = self.proxy.of_site(text, self.PARTS, ONE, 8080, True)["site.conf"]
        self.assertIn("        listen 80;\n        listen [::]:80;\n", both)

    def test_the_whole(self):
        """The sites in their order, and another name gets no answer."""
        whole = self.proxy.whole(self.TEXT, self.PARTS, [ONE, OTHER], False)
        self.assertTrue(whole.startswith(f"{self.proxy.MARK}\nuser www-data;\n\nhttp {{\n"))
        self.assertIn("    include office/a.example/site.conf;\n"
                      "    include office/b.example/site.conf;\n}\n", whole)
        self.assertIn("        listen 80 default_server;\n        return 421;\n", whole)
        self.assertNotIn("office.example", whole)
        self.assertEqual(whole.count("map $arg_b $shared {"), 1)
        both = self.proxy.whole(self.TEXT, self.PARTS, [], True)
        self.assertIn("listen 80 default_server;\n        listen [::]:80 default_server;\n", both)


class Places(Case):
    def test_the_ports_of_sites(self):
        places = module("site_places")
        self.assertEqual((places.DESKS[0], places.DESKS[-1], places.READER), (8080, 8179, 100))

    def test_a_unit(self):
        """Each line of it, as a template of sites has it."""
        places = module("site_places")
        name, text = places.template_of("office.service", """\
# About it,
# in two lines.
[Unit]
Description=An office
# A note on /var/lib/office.
After=network.target office-recorder.service
OnFailure=office-alarm.service
[Service]
InaccessiblePaths=-/var/lib/office -/etc/nginx/office
StateDirectory=office
Environment=A=/usr/local/share/office/a
ExecStart=/usr/local/bin/office serve --db /var/lib/office/office.db --port 8080
ExecStartPost=/usr/local/lib/office/status
ExecStop=/usr/local/lib/office/reader.py --desk 127.0.0.1:8080 --read 127.0.0.1:8090
""")
        self.assertEqual((name, text), ("office@.service", """\
# Made of deploy/office.service by deploy/make-deb.
[Unit]
Requires=office-ports.service
After=office-ports.service
Description=An office, site %i
# A note on /var/lib/office.
After=network.target office-recorder@%i.service
OnFailure=office-alarm@%i.service
[Service]
InaccessiblePaths=-/var/lib/office -/etc/nginx/office
StateDirectory=office/%i
Environment=A=/var/lib/office-site/%i/a
EnvironmentFile=/etc/office/%i/ports
ExecStart=/usr/bin/office serve --db /var/lib/office/%i/office.db --port ${DESK}
ExecStartPost=/usr/lib/office/status --config /etc/office/%i/status.toml
ExecStop=/usr/lib/office/reader.py --desk 127.0.0.1:${DESK} --read 127.0.0.1:${READ}
"""))
        name, text = places.template_of("office-status.timer", "[Unit]\nDescription=A look\n")
        self.assertEqual((name, text), ("office-status@.timer", (
            "# Made of deploy/office-status.timer by deploy/make-deb.\n[Unit]\n"
            "Description=A look, site %i\n")))
