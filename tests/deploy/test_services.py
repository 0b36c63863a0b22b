"""The units of systemd, and what BY_HAND.md says to do on a machine."""

import contextlib
import grp
import json
import os
import re
import shlex
import shutil
import signal
import stat
import subprocess
import sys
from pathlib import Path

from tests.support.case import PROGRAM, needs
from tests.support.office import SETUP, with_stations
from tests.support.proxy import proxy
from tests.support.record import LODGED, a_command, chained
from tests.support.running import PATIENCE, free_port, until
from tests.support.scripts import PROGRAMS, module
from tests.support.site import DEPLOY, SiteCase, backup, new, plain, ran, rows, serving

# The rights that systemd finds of each service: all may use the network, have the system's
# folders and see what every process sees.
ALL_MAY = {"RootDirectory=/RootImage=", "PrivateMounts=",
           "RestrictAddressFamilies=~AF_(INET|INET6)", "ProcSubset=", "PrivateNetwork=",
           "PrivateUsers=", "DeviceAllow=", "IPAddressDeny="}
SCRIPTS_MAY = ALL_MAY | {"SystemCallFilter=~@resources", "SystemCallFilter=~@privileged",
                         "RemoveIPC=", "ProtectProc="}
MAY = {"office": ALL_MAY, "office-press": SCRIPTS_MAY | {"UMask="},
       "office-recorder": SCRIPTS_MAY
       | {"UMask=", "SupplementaryGroups=", "RestrictAddressFamilies=~AF_UNIX"},
       "office-reader": SCRIPTS_MAY
       | {"UMask=", "SupplementaryGroups=", "RestrictAddressFamilies=~AF_UNIX"},
       "office-backup": SCRIPTS_MAY | {"SupplementaryGroups=", "RestrictAddressFamilies=~AF_UNIX"}}


def lines_of(unit):
    """The values of a unit, by their keys."""
    lines = [line.split("=", 1) for line in (DEPLOY / unit).read_text(encoding="utf-8").splitlines()
             if "=" in line and not line.startswith("#")]
    return {key: [value for other, value in lines if other == key] for key, _ in lines}


# Lines whose effect only a booted machine shows: each starts with the machine and again whenever it
# ends, at once and however often; what it finds when it starts; what ends first where the memory is
# short.
BOOTED = {
    "office.service": {"WantedBy": "multi-user.target", "Restart": "always", "RestartSec": "100ms",
                       "StartLimitIntervalSec": "0", "After": "network.target",
                       "StateDirectory": "office", "StateDirectoryMode": "0700",
                       "WorkingDirectory": "/var/lib/office", "UMask": "0077",
                       "OOMScoreAdjust": "-500", "SystemCallErrorNumber": "EPERM"},
    "office-recorder.service": {"WantedBy": "multi-user.target", "Restart": "always",
                                "RestartSec": "100ms", "StartLimitIntervalSec": "0",
                                "SupplementaryGroups": "www-data",
                                "Environment": "RECORDER=",
                                "EnvironmentFile": "-/etc/office/recorder.env",
                                "RuntimeDirectory": "office-recorder", "LogsDirectory": "office",
                                "LogsDirectoryMode": "0750", "UMask": "0027",
                                "LogRateLimitIntervalSec": "0", "OOMScoreAdjust": "-500",
                                "SystemCallErrorNumber": "EPERM"},
    "office-reader.service": {"WantedBy": "multi-user.target", "Restart": "always",
                              "RestartSec": "100ms", "StartLimitIntervalSec": "0",
                              "SupplementaryGroups": "www-data",
                              "RuntimeDirectory": "office-reader", "UMask": "0027",
                              "OOMScoreAdjust": "-500",
                              "InaccessiblePaths": "-/var/log/office -/run/office-recorder",
                              "SystemCallErrorNumber": "EPERM"},
    "office-press.service": {"WantedBy": "multi-user.target", "Restart": "always",
                             "RestartSec": "5", "StartLimitIntervalSec": "0",
                             "After":
                                 "office.service office-recorder.service office-reader.service",
                             "ReadWritePaths": "/var/www/office", "UMask": "0022",
                             "SystemCallErrorNumber": "EPERM"},
    "office-backup.service": {"Type": "oneshot", "OnFailure": "office-alarm.service",
                              "SupplementaryGroups": "office-recorder",
                              "EnvironmentFile": "-/etc/office/backup.env", "Nice": "10",
                              "TimeoutStartSec": "20min", "TimeoutStopSec": "10min",
                              "StateDirectory": "office", "StateDirectoryMode": "0700",
                              "UMask": "0077", "SystemCallErrorNumber": "EPERM"},
    "office-backup.timer": {"WantedBy": "timers.target", "OnActiveSec": "1min",
                            "OnUnitInactiveSec": "10min"},
}


@contextlib.contextmanager
def started(unit, places):
    """The process that a unit starts, with other places in its line."""
    line = placed(lines_of(unit)["ExecStart"][0], {"$RECORDER": "", **places})
    process = subprocess.Popen(shlex.split(line),
                               stdout=subprocess.PIPE, stderr=subprocess.STDOUT, text=True)
    try:
        yield process
    finally:
        process.kill()
        process.wait()
        process.stdout.close()


def placed(line, places):
    for old, new in places.items():
        line = line.replace(old, str(new))
    return line


# In place of systemctl and of ssh, which write down what they were called with.
SYSTEMCTL, SSH = PROGRAMS / "systemctl", PROGRAMS / "ssh"


class Services(SiteCase):
    @needs("systemd-analyze")
    def test_the_units(self):
        """systemd has nothing to say against them, once what they start is there."""
        here = Path.cwd()
        for unit in sorted(DEPLOY.glob("*.service")):
            text = unit.read_text(encoding="utf-8")
            for program in re.findall(r"^Exec\w+=-?(/\S+)", text, re.M):
                text = text.replace(program, "/bin/true")
            (here / unit.name).write_text(text, encoding="utf-8")
            done = subprocess.run(["systemd-analyze", "verify", "--man=no", here / unit.name],
                                  capture_output=True, text=True, timeout=PATIENCE)
            said = [line for line in (done.stdout + done.stderr).splitlines() if unit.name in line]
            self.assertEqual((done.returncode, said), (0, []))
        text = (DEPLOY / "office.service").read_text(encoding="utf-8")
        for line in ("ProtectSystem=strict", "NoNewPrivileges=yes", "Restart=always",
                     "RestrictAddressFamilies=AF_INET", "IPAddressAllow=localhost",
                     "IPAddressDeny=any"):
            with self.subTest(line=line):
                self.assertIn(f"\n{line}\n", text)

    @needs("systemd-analyze")
    def test_what_the_services_may_do(self):
        """The office, the recorder and the press reach this machine alone, and the backup another
        one."""
        for unit, may in MAY.items():
            with self.subTest(unit=unit, may=may):
                said = ran("systemd-analyze", "security", "--offline=yes", "--no-pager",
                           "--json=short", DEPLOY / f"{unit}.service")
                found = {line["name"]: line["exposure"] for line in json.loads(said)
                         if line["set"] is False}
                self.assertEqual((set(found) - may, may - set(found)), (set(), set()))
                self.assertEqual(found["IPAddressDeny="],
                                 "0.2" if unit == "office-backup" else "0.1")

    def test_the_services_and_their_places(self):
        """Their users and folders are those that BY_HAND.md makes, and what they start it
        installs."""
        page = (DEPLOY / "BY_HAND.md").read_text(encoding="utf-8")
        installed = {f"{line.split()[-1]}{Path(word).name}"
                     for line in re.findall("^    install -m .*/$", page, re.M)
                     for word in line.split()[3:-1]}
        installed |= {line.split()[-1]
                      for line in re.findall("^    install -m .*[^/]$", page, re.M)}
        for unit, booted in BOOTED.items():
            with self.subTest(unit=unit, booted=booted):
                lines = lines_of(unit)
                self.assertEqual({key: lines.get(key) for key in booted},
                                 {key: [value] for key, value in booted.items()})
                self.assertIn("electoral office", lines["Description"][0].lower())
                if unit.endswith(".timer"):
                    continue
                [user] = lines["User"]
                self.assertEqual(lines["Group"], [user])
                self.assertIn(f"\n    adduser --system --group --no-create-home {user}\n", page,
                              user)
                self.assertEqual(lines["Documentation"],
                                 ["file:///usr/local/share/doc/office/README.md"])
                for file in ["/usr/local/share/doc/office/README.md",
                             *re.findall(r"/usr/local/\S+", " ".join(lines["ExecStart"]))]:
                    with self.subTest(file=file):
                        self.assertTrue(file in installed or file.endswith("/setup.json"))
        for line in ("-m 700 -o office -g office /var/lib/office",
                     "-m 750 -o office-press -g www-data /var/www/office",
                     "-m 750 -o office-recorder -g office-recorder /var/log/office"):
            with self.subTest(line=line):
                self.assertIn(f"\n    install -d {line}\n", page)
        # The logs, which strangers can fill (logs_of_the_proxy_without_room), have a file system of
        # their own.
        self.assertIn("\n    mount /var/log/nginx\n", page)
        self.assertLess(page.index("    mount /var/log/nginx\n"),
                        page.index("    systemctl restart nginx\n"))
        self.assertIn(f"\nuser {lines_of('office-recorder.service')['SupplementaryGroups'][0]};\n",
                      (DEPLOY / "nginx.conf").read_text(encoding="utf-8"))

    def test_what_a_board_adds_to_the_words_of_the_recorder(self):
        """It is kept in /etc/office, so an upgrade leaves it, and another computer has it with the
        archive; an absent file adds no word."""
        page = (DEPLOY / "README.md").read_text(encoding="utf-8")
        [(word, file)] = re.findall(r"^    echo RECORDER=(\S+) > (\S+)$", page, re.M)
        name, text = module("site_places").template_of("office-recorder.service", (
            DEPLOY / "office-recorder.service").read_text(encoding="utf-8"))
        self.assertEqual((word, name), ("--two-of-board", "office-recorder@.service"))
        self.assertIn(f"\nEnvironmentFile=-{file.replace('NAME', '%i')}\n", text)
        self.assertRegex(text, r"\nExecStart=\S+ \S+/recorder\.py \$RECORDER /run/")
        [kept] = re.findall(r"^    .* tar -C / -czf office-\$site.tar.gz (.*)$", page, re.M)
        self.assertIn(str(Path(file.replace("NAME", "$site")).parent).lstrip("/"), kept.split())
        own = {"office-alarm@.service.d", "office-recorder@results.example.org.service"}
        for name in (*own, "multi-user.target.wants", "multi-user.target.wants/office-a@b.service"):
            Path("etc/systemd/system", name).mkdir(parents=True, exist_ok=True)
        found = re.search(r"\$\(cd / && (.*?)\)", kept)[1]
        self.assertEqual({*ran("sh", "-c", found).split()},
                         {f"etc/systemd/system/{name}" for name in own})

    def test_the_programs_that_are_installed_by_hand(self):
        """Each has beside it whatever of this folder it imports."""
        page = (DEPLOY / "BY_HAND.md").read_text(encoding="utf-8")
        lines = re.findall("^    install -m [67][45][45] (.*) /usr/local/lib/office/$", page, re.M)
        files = [file for word in " ".join(lines).split() for file in DEPLOY.parent.glob(word)]
        self.assertGreater(len(files), 40)
        there, ours = {file.stem for file in files}, {file.stem for file in DEPLOY.glob("*.py")}
        for file in files:
            if file.suffix in ("", ".py"):
                with self.subTest(file=file.name):
                    found = re.findall(r"^\s*(?:from|import) (\w+)", file.read_text("utf-8"), re.M)
                    self.assertEqual({*found} & ours - there, set())

    def test_the_names_that_the_proxy_comes_with(self):
        """BY_HAND.md gives each a password, and each has a role that may do something."""
        names = re.findall(r"^(\S+) (\w+);$",
                           (DEPLOY / "nginx/staff.conf").read_text(encoding="utf-8"), re.M)
        self.assertEqual([name for name, _ in names],
                         re.findall(r"^    /usr/local/lib/office/password staff (\S+)$",
                                    (DEPLOY / "BY_HAND.md").read_text(encoding="utf-8"), re.M))
        self.assertEqual([role for _, role in names], ["clerk", "clerk", "second", "board"])

    @needs("nginx", "openssl")
    def test_what_the_services_start(self):
        """The very lines of the units, each with a folder of its own in the place of the system's,
        make an office behind the proxy: an act is recorded, on the pages, and in the copy."""
        port = free_port()
        Path("setup.toml").write_text(SETUP, encoding="utf-8")
        with proxy(port) as front:
            front.end_recorder()
            front.end_reader()
            (front.folder / "lib").mkdir()
            places = {"/usr/local/bin/office": PROGRAM, "/usr/local/lib/office/": f"{DEPLOY}/",
                      "/var/lib/office": front.folder / "lib",
                      "/var/log/office": front.folder / "log",
                      "/run/office-recorder": front.folder / "recorder",
                      "/var/www/office": front.folder / "pages", "/etc/office": Path.cwd(),
                      "/usr/local/share/office": front.folder / "share",
                      "/run/office-reader": front.folder / "reader", "8090": free_port(),
                      "/usr/bin/python3": sys.executable, "8080": port,
                      "www-data": grp.getgrgid(os.getgid()).gr_name}
            new(SETUP, front.folder / "lib/office.db")
            recorder = started("office-recorder.service", places)
            reader = started("office-reader.service", places)
            with started("office.service", places) as office, recorder, reader:
                self.assertTrue(office.stdout.readline().startswith("listening on "))
                until(lambda: (front.folder / "recorder/head").exists())
                self.assertEqual(front.ask("POST", "/station/s1/lodge", LODGED, "clara").status,
                                 200)
                # The first line has the setup.
                until(lambda: json.loads((front.folder / "recorder/head").read_text())["n"] == 3)
                with started("office-press.service", places) as press:
                    self.assertIn(" pages 2 failed 0 ", press.stdout.readline())
                self.assertEqual(json.loads((front.folder / "pages/manifest.json").read_text(
                    encoding="utf-8"))["record"]["lines"], 3)
                self.assertEqual(json.loads((front.folder / "pages/setup.json").read_text(
                    encoding="utf-8"))[0]["code"], "c1")
                with started("office-backup.service", places) as copying:
                    self.assertEqual(
                        (copying.stdout.read().splitlines()[-1], copying.wait(timeout=PATIENCE)),
                        ("c1 agrees", 0))

    def test_another_machine_in_the_place_of_a_lost_one(self):
        """BY_HAND.md's steps for it, also over an office that step 3 has made: nothing is written
        into while it runs, what the copy lacks is sent once the office listens, and the names and
        passwords are those that step 5 has kept. Who has looked starts the rest."""
        page = (DEPLOY / "BY_HAND.md").read_text(encoding="utf-8")
        [keep] = re.findall("^    (.* tar -C / -c.*)$", page, re.M)
        steps = re.findall("^    (.*)$",
                           page.split("\n## When the machine is lost\n")[1].split("\n## ")[0], re.M)
        kept = {"etc/office/setup.toml": "a setup", "etc/nginx/office/staff.htpasswd": "a password",
                "etc/nginx/nginx.conf": "a proxy"}
        for folder in (
            "bin", "lib", "log", "www/es",
            *(f"{machine}/{Path(file).parent}" for file in kept for machine in ("old", "new"))):
            Path(folder).mkdir(parents=True, exist_ok=True)
        for file, text in kept.items():
            Path("old", file).write_text(text, encoding="utf-8")
        subprocess.run(["sh", "-c", keep.replace("tar -C /", "tar -C old")], check=True,
                       timeout=PATIENCE)
        self.assertEqual(stat.S_IMODE(os.stat("office-etc.tar.gz").st_mode), 0o600)
        [unpack] = re.findall("`(tar -C / -xzf .*?)`", page)
        ran("sh", "-c", unpack.replace("tar -C /", "tar -C new"))
        Path("embargo.conf").write_text("# for everybody: at once\n", encoding="utf-8")

        bodies = {name: json.dumps({**LODGED, "slip": name}) for name in ("s1", "s2")}
        with serving(with_stations(2)) as lost:
            for name in bodies:
                self.assertEqual(
                    plain(lost.port, "POST", f"/station/{name}/lodge", bodies[name]).status, 200)
                if name == "s1":
                    self.assertEqual(backup("office.db", ".")[::2], (0, ""))
        [copy] = Path().glob("office-*.db")
        copy.rename("office-20261126T221400Z-00000002.db")
        # The second one's time is before that of the copy: the clock was put back.
        lines = [entry for name in bodies for entry in (
            a_command(bodies[name], f"/station/{name}/lodge"),
            {"status": 200, "answer": '{"ok":"lodged","rev":1}'})]
        record = chained(lines[0], lines[1] | {"to": 1}, *(
            line | {"time": "2026-11-26T22:13:00.000+00:00"} for line in (
                lines[2], lines[3] | {"to": 3})))
        Path("commands.log").write_bytes(record)

        shutil.copy(SYSTEMCTL, "bin")
        with serving(with_stations(2), "lib/office.db") as fresh:
            places = {"8080": fresh.port, "-o office -g office ": "",
                      "-00001234.db": "-00000002.db",
                      "-o office-recorder -g office-recorder ": "",
                      "/usr/local/lib/office/": f"{DEPLOY}/", "/var/lib/office": "lib",
                      "/var/log/office": "log", "/etc/office/setup.toml": "setup.toml",
                      "/usr/local/share/office": ".", "/etc/nginx/office": "."}
            its = {"PATH": f"{Path.cwd()}/bin:{os.environ['PATH']}",
                   "OFFICE": str(fresh.process.pid), "PROGRAM": str(PROGRAM),
                   "PORT": str(fresh.port)}
            try:
                ended = subprocess.run(["sh", "-e", "-c", placed("\n".join(steps), places)],
                                       env={**os.environ, **its}, timeout=PATIENCE,
                                       stdout=subprocess.PIPE, stderr=subprocess.STDOUT, text=True)
                self.assertEqual((ended.returncode, "sent 1, to look at 0;" in ended.stdout),
                                 (0, True), ended.stdout)
                self.assertIn("# for everybody: at once\n", ended.stdout)
            finally:
                if Path("started").exists():
                    os.kill(int(Path("started").read_text()), signal.SIGTERM)
        for db in ("office.db", "lib/office.db"):
            ran(PROGRAM, "show", "--db", db, "--report", "progress")  # takes the log into the file
        self.assertEqual(rows("lib/office.db"), rows("office.db"))
        self.assertEqual({file: Path("new", file).read_text(encoding="utf-8") for file in kept},
                         kept)
        self.assertEqual(Path("log/commands.log").read_bytes(), record)
        self.assertEqual(len([*Path("lib").glob("before-*/office.db")]), 1)
        first, stop, reload, *then = [
            line.split() for line in Path("said").read_text(encoding="utf-8").splitlines()]
        self.assertEqual((first[0], *stop, reload[0], [words[0] for words in then]),
                         (":disable", ":stop", "office-backup", ":daemon-reload",
                          ["commands.log:start", "commands.log:enable"]))
        self.assertEqual({*first[1:]}, {unit for words in then for unit in words[1:]})
        alone, rest = page.split("\n## When the machine is lost\n")[1].split("    )\n")
        self.assertEqual(re.findall("^    systemctl (start|enable|restart) (.*)$", alone, re.M),
                         [("start", "office")])
        self.assertIn("systemctl enable --now ", rest)

    def test_where_several_offices_send_their_copies(self):
        """Each with a key that BY_HAND.md makes, to a folder of its own: none is refused where all
        send at once, and of two copies of one name none is left out."""
        page = (DEPLOY / "BY_HAND.md").read_text(encoding="utf-8").split("## More than one")[1]
        [units] = re.findall("for unit in .*?; do\n.*?\n *done\n", page, re.S)
        for folder in ("units", "log", "bin", "there"):
            Path(folder).mkdir()
        places = {"/etc/systemd/system": "units", "deploy/": f"{DEPLOY}/"}
        ran("sh", "-ec", f"for n in 1 2 3; do {placed(units, places)}done")
        # In place of sshd: each key has the folder of its name.
        Path("bin/ssh").write_text(
            '#!/bin/sh\nexport SSH_ORIGINAL_COMMAND="$8"\n'
            f'exec {sys.executable} {DEPLOY}/keep-copies "there/${{2##*/}}"\n', encoding="utf-8")
        Path("bin/ssh").chmod(0o755)
        places = {"/var/lib/office": "lib", "/var/log/office": "log",
                  "/usr/local/lib/office": DEPLOY}
        sends = []
        for n in (1, 2, 3):
            Path(f"lib/backup-{n}").mkdir(parents=True)
            Path(f"lib/backup-{n}/office-20261126T221400Z-00000001.db").write_bytes(b"of %d" % n)
            Path(f"there/backup-key-{n}").mkdir()
            unit = Path(f"units/office-backup-{n}.service").read_text(encoding="utf-8")
            [how] = re.findall('^Environment="OFFICE_SSH=(.*)"$', unit, re.M)
            [line] = re.findall("^ExecStopPost=(.*)$", unit, re.M)
            self.assertIn(f" /var/lib/office/office-{n}.db /var/lib/office/backup-{n} ", unit)
            self.assertIn("\nEnvironmentFile=-/etc/office/backup.env\n", unit)
            sends.append((shlex.split(placed(line, places)), {
                "PATH": f"{Path.cwd()}/bin:{os.environ['PATH']}", "OFFICE_SSH": how,
                "ELSEWHERE": "keeper@host.example"}))
        self.assertIn("-f /etc/office/backup-key-$n\n", page)
        for record in (b"one\n", b"one\ntwo\n"):
            Path("log/commands.log").write_bytes(record)
            at_once = [subprocess.Popen(words, env=env) for words, env in sends]
            self.assertEqual([one.wait(timeout=PATIENCE) for one in at_once], [0, 0, 0])
            for n in (1, 2, 3):
                self.assertEqual(
                    [file.read_bytes() for file in sorted(Path(f"there/backup-key-{n}").iterdir())],
                    [record, b"of %d" % n])

    def test_where_copies_are_sent(self):
        """To the machine that backup.env names, with a key and to a host that BY_HAND.md has made;
        without it nowhere. What is kept there stays: a longer record there is not replaced, and one
        that differs is kept beside it."""
        lines, page = lines_of("office-backup.service"), (DEPLOY / "BY_HAND.md").read_text(
            encoding="utf-8")
        for folder in ("log", "lib/backup", "elsewhere", "bin"):
            Path(folder).mkdir(parents=True)
        shutil.copy(SSH, "bin")
        Path("lib/backup/office-20261126T221400Z.db").write_bytes(b"a copy")
        [environment] = [shlex.split(line)[0].split("=", 1) for line in lines["Environment"]]
        send = shlex.split(placed(
            lines["ExecStopPost"][0],
            {"/var/lib/office": Path.cwd() / "lib", "/var/log/office": Path.cwd() / "log",
             "/usr/local/lib/office": DEPLOY}))
        forced = f"{sys.executable} {DEPLOY / 'keep-copies'} {Path.cwd() / 'elsewhere'}"

        def sent(record, **more):
            Path("log/commands.log").write_bytes(record)
            Path("asked").unlink(missing_ok=True)
            path = f"{Path.cwd()}/bin:{os.environ['PATH']}"
            words = {"PATH": path, "FORCED": forced, **dict([environment]), **more}
            return subprocess.run(send, env=words, timeout=PATIENCE,
                                  stderr=subprocess.DEVNULL).returncode

        self.assertEqual((sent(b"one\n"), os.listdir("elsewhere"), Path("asked").exists()),
                         (0, [], False))
        there = {"ELSEWHERE": "keeper@host.example"}
        kept = []
        for record, records in ((b"one\n", [b"one\n"]), (b"one\ntwo\n", [b"one\ntwo\n"]),
                                (b"one\n", [b"one\n", b"one\ntwo\n"])):
            with self.subTest(record=record):
                self.assertEqual(sent(record, **there), 0)
                kept = sorted(Path("elsewhere").glob("commands-*.log"))
                self.assertEqual(sorted(file.read_bytes() for file in kept), records)
        self.assertEqual(len(os.listdir("elsewhere")), len(kept) + 1)
        self.assertEqual(Path("elsewhere/office-20261126T221400Z.db").read_bytes(), b"a copy")
        asked = Path("asked").read_text(encoding="utf-8")
        files = re.findall(r"/etc/office/backup-\w+", asked.splitlines()[0])
        self.assertIn("keeper@host.example list", asked)
        self.assertIn("-o BatchMode=yes", asked)
        self.assertEqual(len(files), 2, asked)
        self.assertTrue(all(f"{file}\n" in page for file in files), files)
        self.assertTrue(sent(b"x", FORCED="false", **there))
