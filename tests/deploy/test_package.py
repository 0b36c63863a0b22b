"""The Debian package: its bytes, what it says of itself, its units, and what lintian says."""

import gzip
import hashlib
import json
import os
import re
import shutil
import subprocess
import sys
from pathlib import Path

from tests.support.case import PROGRAM, ROOT, Case, needs
from tests.support.packages import KIT, MAKE, made, made_once, unpacked
from tests.support.running import PATIENCE
from tests.support.site import DEPLOY, ran
from tests.deploy.test_services import MAY

UNITS = ("office", "office-reader", "office-recorder", "office-press", "office-backup",
         "office-status", "office-alarm")
# The settings that a template of a unit has otherwise than the unit: where its files and ports are.
PLACES = {"ExecStart", "ExecStopPost", "EnvironmentFile", "Environment", "StateDirectory",
          "RuntimeDirectory", "LogsDirectory", "WorkingDirectory", "ReadWritePaths", "After",
          "Requires", "OnFailure", "Description", "Documentation"}


def lines_of(file):
    lines = file.read_text(encoding="utf-8").splitlines()
    return [line for line in lines if "=" in line and not line.startswith("#")]


def make(*words, status):
    done = subprocess.run([MAKE, *words], capture_output=True, text=True, timeout=PATIENCE)
    assert done.returncode == status, (words, done.returncode, done.stdout, done.stderr)
    return done.stdout, done.stderr


class Package(Case):
    of_the_program = True
    prefix = "office-package-"

    @needs("dpkg-deb", "git")
    def test_the_same_bytes(self):
        """Another folder, hour zone, language and mask of modes make no difference."""
        before = os.umask(0o077)
        try:
            other = made("other", TZ="Asia/Tokyo", LC_ALL="C.UTF-8")
        finally:
            os.umask(before)
        self.assertEqual(other.name, made_once().name)
        self.assertRegex(other.name,
                         r"^office_0\.1\.0\+\d{14}\.[0-9a-f]{8}(\.uncommitted)?_amd64\.deb$")
        self.assertEqual(other.read_bytes(), made_once().read_bytes())
        for line in ran("dpkg-deb", "--contents", other).splitlines():
            mode, owner = line.split()[:2]
            self.assertEqual((owner, mode[5], mode[8]), ("root/root", "-", "-") if mode[0] != "l"
                             else ("root/root", "w", "w"), line)

    @needs("dpkg-deb", "git")
    def test_what_it_says_of_itself(self):
        """The commit, the kit and the checksum of the program; another program is noticed."""
        commit = ran("git", "-C", ROOT, "rev-parse", "HEAD").strip()
        checksum = hashlib.sha256(PROGRAM.read_bytes()).hexdigest()
        wanted = f"commit: {commit}\nkit: {KIT}\nprogram: {checksum}\n"
        self.assertEqual(make("--show", made_once(), status=0), (wanted, ""))
        root = unpacked(made_once(), "all")
        self.assertEqual((root / "usr/share/doc/office/BUILD").read_text(), wanted)
        self.assertEqual((root / "usr/bin/office").read_bytes(), PROGRAM.read_bytes())
        ran("dpkg-deb", "--control", made_once(), "all/DEBIAN")
        with open("all/usr/bin/office", "ab") as program:
            program.write(b"\0")
        ran("dpkg-deb", "--root-owner-group", "-Znone", "--build", "all", "other.deb")
        said, fault = make("--show", "other.deb", status=1)
        self.assertIn(f"names another program: {checksum}", fault)
        self.assertNotIn(checksum, said)

    @needs("dpkg-deb", "git")
    def test_what_is_refused(self):
        """Nothing is written then."""
        Path("text").write_text("no program", encoding="utf-8")
        for words, status, fault in (
                (["text", "--to", "to"], 1, "text is no program for amd64"),
                (["nonesuch", "--to", "to"], 1, "nonesuch: No such file"),
                ([], 2, "name a program"), ([PROGRAM, "--show", "x"], 2, "name a program"),
                (["--show", "text"], 1, "dpkg-deb")):
            with self.subTest(words=words):
                self.assertIn(fault, make(*words, status=status)[1])
        ran("git", "clone", "--quiet", "--shared", "--no-checkout", ROOT, "clone")
        ran("git", "-C", "clone", "checkout", "HEAD", "--", "deploy", "docs", "examples",
            "README.md")
        for file in (MAKE, DEPLOY / "site_places.py"):
            shutil.copy(file, "clone/deploy")
        with open("clone/deploy/press.css", "a", encoding="utf-8") as style:
            style.write("\n")
        done = subprocess.run(["clone/deploy/make-deb", PROGRAM, "--to", "to", "--kit", KIT],
                              capture_output=True, text=True, timeout=PATIENCE)
        self.assertEqual((done.returncode, done.stdout), (1, ""))
        self.assertIn("files differ from the commit (--uncommitted):", done.stderr)
        self.assertIn("M deploy/press.css", done.stderr)
        self.assertFalse(Path("to").exists())

    @needs("dpkg-deb", "git")
    def test_the_manual_pages(self):
        """They have what the program and office-site print of themselves, and no line is lost."""
        root = unpacked(made_once(), "all") / "usr/share/man"
        # (the program calls itself as its file is called)
        Path("office").symlink_to(PROGRAM)
        program = Path.cwd() / "office"
        of_program = [program, "--help"], [program, "allot", "--help"]
        for name, section, words in (("office", 1, of_program),
                                     ("office-site", 8, ([DEPLOY / "office-site", "--help"],))):
            with self.subTest(name=name):
                text = gzip.decompress(
                    (root / f"man{section}/{name}.{section}.gz").read_bytes()).decode()
                self.assertRegex(text, rf'^\.TH {name.upper()} {section} \d{{4}}-\d\d-\d\d ')
                plain = re.sub(r"^\\&", "", text, flags=re.M)
                plain = plain.replace("\\-", "-").replace("\\e", "\\")
                for each in words:
                    done = subprocess.run(each, capture_output=True, text=True, timeout=PATIENCE,
                                          env={**os.environ, "COLUMNS": "80"})
                    self.assertIn((done.stdout or done.stderr).strip("\n"), plain)

    @needs("dpkg-deb", "git")
    def test_where_the_documents_say_that_tools_are(self):
        """Each tool and example that GUIDE and deploy/README.md name is where README.Debian and
        GUIDE say that the package has it."""
        root = unpacked(made_once(), "all")
        documents = root / "usr/share/doc/office"
        said = (documents / "README.Debian").read_text(encoding="utf-8")
        for place in ("/usr/lib/office/NAME", "/usr/share/doc/office/examples/NAME"):
            self.assertIn(place, said)
        guide = (documents / "docs/GUIDE.md").read_text(encoding="utf-8")
        self.assertIn("`/usr/lib/office/NAME` in that of `deploy/NAME`", guide)
        text = guide + (documents / "deploy/README.md").read_text(encoding="utf-8")
        code = "\n".join(re.findall(r"^    .*|`[^`\n]+`", text, re.M))
        named = set(re.findall(r"(?<![\w./])deploy/([a-z][\w.-]*)", code))
        self.assertLess({"desk", "setup-from-tables", "audit.py", "papers"}, named)
        self.assertEqual({name for name in named if not (root / "usr/lib/office" / name).exists()},
                         {"make-deb"})
        examples = set(re.findall(r"(?<![\w./])(examples/[\w./-]*\w)", code))
        self.assertGreater(len(examples), 4)
        self.assertEqual({name for name in examples if not (documents / name).exists()}, set())
        installed = set(re.findall(r"/usr/lib/office/[\w.-]*\w", code))
        self.assertEqual({name for name in installed if not (root / name[1:]).exists()},
                         {"/usr/lib/office/NAME"} & installed)

    @needs("dpkg-deb", "git", "lintian")
    def test_lintian_finds_no_error(self):
        done = subprocess.run(
            ["lintian", "--no-cfg", "--fail-on", "error", "--allow-root", made_once()],
            capture_output=True, text=True, timeout=PATIENCE)
        self.assertEqual((done.returncode, re.findall("^E: .*", done.stdout, re.M)), (0, []),
                         done.stdout + done.stderr)

    @needs("dpkg-deb", "git")
    def test_what_it_needs_and_has(self):
        """Each program that the tools call is a dependency; each tool and module is there."""
        said = ran("dpkg-deb", "--field", made_once(), "Depends")
        names = set(re.findall(r"(?:^|[,|] )([a-z0-9.-]+)", said.strip()))
        self.assertEqual(names, {"libc6", "nginx-light", "nginx", "nftables", "openssl", "python3",
                                 "python3-jinja2", "systemd"})
        root = unpacked(made_once(), "all")
        have = {file.name for file in (root / "usr/lib/office").iterdir()}
        tools = {file.name for file in DEPLOY.iterdir()
                 if file.is_file() and (file.suffix == ".py" or os.access(file, os.X_OK))}
        self.assertEqual(tools - have, {"make-deb", "build-clerk"})
        for tool in ("office-site", "password", "status", "setup-json", "backup", "desk"):
            with self.subTest(tool=tool):
                done = subprocess.run([sys.executable, root / "usr/lib/office" / tool, "--help"],
                                      capture_output=True, text=True, timeout=PATIENCE)
                self.assertNotIn("Traceback", done.stderr)
        self.assertEqual(os.readlink(root / "usr/sbin/office-site"), "../lib/office/office-site")
        self.assertFalse((root / "usr/local").exists())
        for folder in ("usr/lib/office", "lib", "usr/share/office"):
            for file in (root / folder).rglob("*.service"):
                self.assertNotIn("/usr/local", file.read_text(encoding="utf-8"), file)

    @needs("dpkg-deb", "git", "systemd-analyze")
    def test_the_units_of_sites(self):
        """They keep every line of the units of one office but places, systemd has nothing to say
        against them, and the services may do no more."""
        root = unpacked(made_once(), "all")
        folder = root / "lib/systemd/system"
        for name in UNITS:
            with self.subTest(name=name):
                one, many = (
                    [line for line in lines_of(file) if line.split("=")[0] not in PLACES]
                    for file in (DEPLOY / f"{name}.service", folder / f"{name}@.service"))
                self.assertEqual(many, one)
        self.assertIn("Requires=office-ports.service", lines_of(folder / "office@.service"))
        for unit in ("office-status", "office-backup"):
            self.assertIn("OnFailure=office-alarm@%i.service",
                          lines_of(folder / f"{unit}@.service"))
        lines = lines_of(folder / "office-alarm@.service")
        [calls] = [line for line in lines if "journalctl" in line]
        self.assertIn("journalctl -u office-status@%i -u office-backup@%i says what", calls)
        self.assertIn("ExecStart=/usr/lib/office/status --config /etc/office/%i/status.toml",
                      lines_of(folder / "office-status@.service"))
        Path("units").mkdir()
        for file in folder.iterdir():
            text = re.sub(r"^(Exec\w+=-?)/\S+", r"\1/bin/true", file.read_text(), flags=re.M)
            name = file.name.replace("@.", "@a-b.example.")
            Path("units", file.name).write_text(text, encoding="utf-8")
            if name != file.name:
                Path("units", name).symlink_to(file.name)
        done = subprocess.run(
            ["systemd-analyze", "verify", "--man=no",
             *(file for file in Path("units").resolve().iterdir() if "@." not in file.name)],
            capture_output=True, text=True, timeout=PATIENCE)
        said = [line for line in (done.stdout + done.stderr).splitlines() if "office" in line]
        self.assertEqual((done.returncode, said), (0, []))
        for unit, may in MAY.items():
            with self.subTest(unit=unit):
                shutil.copy(folder / f"{unit}@.service", f"{unit}.service")
                said = ran("systemd-analyze", "security", "--offline=yes", "--no-pager",
                           "--json=short", f"./{unit}.service")
                found = {line["name"] for line in json.loads(said) if line["set"] is False}
                self.assertEqual((found - may, may - found), (set(), set()))


class BeforeAnUpgrade(Case):
    prefix = "office-before-an-upgrade-"
    # In the place of systemctl: units and their states are in `units`, and no copy of a site is
    # made whose name is among $WITHOUT.
    SYSTEMCTL = """#!/bin/sh
case "$1" in
list-units)
    for state in $(echo "$*" | sed 's/.*--state=\\([a-z,]*\\).*/\\1/; y/,/ /'); do
        grep " $state\\$" units | sed 's/ [a-z]*$/ loaded/'
    done ;;
start)
    echo "$2" >> said
    site=${2#*@}
    case " $WITHOUT " in *" ${site%.service} "*) exit 1 ;; esac ;;
is-active) grep -q "^$3 active\\$" units ;;
esac
"""

    def before_an_upgrade(self, without):
        """The script of the package with systemd, and the copies that it asked for."""
        text = (ROOT / "deploy/package/prerm").read_text(encoding="utf-8")
        Path("prerm").write_text(text.replace("/run/systemd/system", ".").replace(
            "/usr/lib/office", "lib"), encoding="utf-8")
        Path("said").unlink(missing_ok=True)
        done = subprocess.run(
            ["sh", "prerm", "upgrade", "1.0"], capture_output=True, text=True, timeout=PATIENCE,
            env={**os.environ, "PATH": f"{Path.cwd()}/bin:{os.environ['PATH']}",
                 "WITHOUT": without})
        return done.returncode, done.stderr, Path("said").read_text(encoding="utf-8").split()

    def test_a_copy_of_each_office(self):
        """Also of one that failed or is about to start, which stops no upgrade where there can be
        no copy of it; without a copy of one that runs there is none."""
        Path("bin").mkdir()
        Path("lib").mkdir()
        Path("bin/systemctl").write_text(self.SYSTEMCTL, encoding="utf-8")
        Path("bin/systemctl").chmod(0o755)
        Path("units").write_text("office@runs.service active\noffice@starts.service activating\n"
                                 "office@failed.service failed\noffice@ended.service inactive\n",
                                 encoding="utf-8")
        copies = [f"office-backup@{site}.service" for site in ("runs", "starts", "failed")]
        self.assertEqual(self.before_an_upgrade(""), (0, "", copies))
        status, said, asked = self.before_an_upgrade("starts failed")
        self.assertEqual((status, asked), (0, copies))
        self.assertEqual(said, "".join(
            f"office: office@{site}.service has no good copy: journalctl -u office-backup@{site}"
            ".service says why\n" for site in ("starts", "failed")))
        status, said, asked = self.before_an_upgrade("runs")
        self.assertEqual((status, asked), (1, copies[:1]))
        self.assertTrue(said.endswith("says why\noffice: nothing was changed\n"), said)
