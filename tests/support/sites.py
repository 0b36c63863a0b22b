"""A computer of sites in a folder, with the files of deploy/ in the place of a package's."""

import contextlib
import fcntl
import io
import os
import sqlite3
import sys
from pathlib import Path
from types import SimpleNamespace
from unittest import mock

from tests.support.case import Case
from tests.support.office import with_stations
from tests.support.scripts import loaded, module
from tests.support.site import DEPLOY

Fault = module("site_machine").Fault
SETUP = with_stations(2)


def made_of(setup, file):
    """Makes a database that has a setup, and no more."""
    with contextlib.closing(sqlite3.connect(file)) as it, it:
        it.execute("CREATE TABLE setup (id INTEGER PRIMARY KEY, version INTEGER, text TEXT)")
        it.execute("INSERT INTO setup VALUES (1, 1, ?)", (setup,))


def setup_in(file):
    """The setup of such a database, as a file that nobody changes: what is beside it stays."""
    with contextlib.closing(sqlite3.connect(f"file:{file}?immutable=1", uri=True)) as it:
        return it.execute("SELECT text FROM setup").fetchone()[0]


class OfSites(Case):
    """A package, and a computer in a folder, on which programs only seem to run."""

    def setUp(self):
        super().setUp()
        self.site, self.fails = loaded("office-site"), {}
        # The words of each program, with its name alone, and where each is.
        self.ran, self.places = [], []
        share = Path.cwd() / "share"
        share.mkdir()
        for name in ("nginx", "www", "nginx.conf", "nginx-office.conf", "status.toml",
                     "package/ports.nft"):
            (share / Path(name).name).symlink_to(DEPLOY / name)
        self.site.SHARE, self.site.run = share, self.program
        self.site.listeners, self.site.who_listens = lambda: {}, lambda _: "shop (7)"
        self.site.has_ipv6 = lambda: False
        self.site.fcntl = SimpleNamespace(LOCK_EX=fcntl.LOCK_EX, LOCK_NB=fcntl.LOCK_NB,
                                          flock=self.lock)
        Path("setup.toml").write_text(SETUP, encoding="utf-8")
        self.machine = self.site.Machine(Path.cwd() / "root")
        self.root = self.machine.root
        (self.root / "etc/office").mkdir(parents=True)

    @staticmethod
    def lock(file, how):
        """As office-site locks a folder, which the end of its process unlocks."""
        try:
            fcntl.flock(file, how)
        finally:
            os.close(file)

    def program(self, *words, env=None):
        """In the place of a program."""
        words = [str(word) for word in words]
        name = Path(words[0]).name
        self.places.append(words[0])
        self.ran.append([name, *words[1:]])
        if name in self.fails:
            fault = Fault(f"{name}: {self.fails[name]}")
            fault.said = self.fails[name]
            raise fault
        if name == "office":
            made_of(Path(words[words.index("--setup") + 1]).read_bytes().decode(),
                    words[words.index("--db") + 1])
        elif name == "setup-json":
            (Path(words[2]) / "setup.json").write_text(words[1][-10:], encoding="utf-8")
            Path(words[3]).write_text("# codes\n", encoding="utf-8")
        elif name == "openssl":
            for word in ("-keyout", "-out"):
                Path(words[words.index(word) + 1]).write_text("pem", encoding="utf-8")
        elif name == "password":
            with open(Path(env["PASSWORDS"]) / "staff.htpasswd", "a", encoding="utf-8") as file:
                file.write(f"{words[2]}:x\n")
                os.fchmod(file.fileno(), 0o640)
            return f"{words[2]} secret\n", ""
        elif name == "embargo":
            hour = "2099-11-29T20:00:00+01:00" if words[1] != "now" else "2020-01-01T00:00:00Z"
            text = (DEPLOY / "nginx/embargo.conf").read_text(encoding="utf-8")
            return text.replace("at once", hour), f"until {hour}\n"
        return "", "of setup-json\n" if name == "setup-json" else ""

    def put(self, place, text=""):
        file = self.root / place
        file.parent.mkdir(parents=True, exist_ok=True)
        file.write_text(text, encoding="utf-8")
        return file

    def ports(self, site, desk, read=None):
        self.put(f"etc/office/{site}/ports", f"# x\nDESK={desk}\nREAD={read or desk + 100}\n")

    def did(self, *words):
        """The status of office-site with these words, what it prints and what it says."""
        printed, said = io.StringIO(), io.StringIO()
        argv = ["office-site", "--root", str(self.root), *words]
        self.ran.clear()
        with mock.patch.object(sys, "argv", argv), contextlib.redirect_stdout(printed), \
                contextlib.redirect_stderr(said):
            status = self.site.main()
        return status, printed.getvalue(), said.getvalue()

    def refused(self, said, act, *words):
        with self.assertRaises(Fault) as fault:
            act(*words)
        self.assertIn(said, str(fault.exception))
