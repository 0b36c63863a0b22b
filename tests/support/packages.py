"""The Debian package as tests make it, and a machine of its own in which it is installed."""

import atexit
import contextlib
import functools
import os
import re
import shutil
import subprocess
import sys
import tempfile
from pathlib import Path

from tests.support.case import FOLDERS, PROGRAM, ROOT
from tests.support.running import PATIENCE

MAKE = ROOT / "deploy/make-deb"
KIT = "a kit"


def made(folder, program=PROGRAM, **environment):
    """The package of this tree, with files that are not committed yet."""
    done = subprocess.run(
        [MAKE, program, "--to", folder, "--kit", KIT, "--uncommitted"], capture_output=True,
        text=True, timeout=PATIENCE, env={**os.environ, **environment})
    assert done.returncode == 0, done.stderr
    return Path(done.stdout.split(maxsplit=1)[1].strip())


@functools.cache
def made_once():
    """The package, which is made once for all tests of a suite."""
    folder = Path(tempfile.mkdtemp(prefix="office-package-"))
    atexit.register(shutil.rmtree, folder)
    return made(folder)


def unpacked(package, folder):
    subprocess.run(["dpkg-deb", "-x", package, folder], check=True, timeout=PATIENCE)
    return Path(folder).resolve()


def office_site(root, *words):
    """Status, and what office-site of an unpacked package prints and says, below that folder."""
    done = subprocess.run(
        [sys.executable, root / "usr/lib/office/office-site", "--root", root, *words],
        capture_output=True, text=True, timeout=PATIENCE)
    return done.returncode, done.stdout, done.stderr


def passwords_in(said):
    """The passwords that office-site printed, by names."""
    return dict(re.findall(r"^password of (\S+) (\S+)$", said, re.M))


class NoMachine(Exception):
    """This computer lets nobody have such a machine."""


# Every change goes to memory. The folder of processes is that of the computer.
MOUNTS = """
set -e
mount --make-rprivate /
mount -t tmpfs tmpfs "$1"
mkdir "$1/upper" "$1/work" "$1/all"
mount -t overlay overlay -o "lowerdir=/,upperdir=$1/upper,workdir=$1/work" "$1/all"
cd "$1/all"
mount -t proc proc proc
mount -t tmpfs tmpfs run
mount --rbind /dev dev
mkdir -p tmp
ip link set lo up
touch "$1/all/tmp/is-ready"
exec chroot . sleep 3600
"""


class Machine:
    """A copy of this computer in memory, with a network of its own and no services."""

    def __init__(self):
        self.place = tempfile.mkdtemp(prefix="office-machine-")
        self.process = subprocess.Popen(
            ["unshare", "--mount", "--net", "sh", "-c", MOUNTS, "sh", self.place],
            stderr=subprocess.PIPE, text=True, env={**os.environ, "PATH": FOLDERS})
        self.started = []

    def inside(self, *words):
        return ["nsenter", "-t", str(self.process.pid), "--mount", "--net", "--root", "--wd",
                *map(str, words)]

    def await_it(self):
        while not self.root.exists() or self.process.poll() is not None:
            if self.process.poll() is not None:
                raise NoMachine(self.process.stderr.read())

    @property
    def root(self):
        return Path(f"/proc/{self.process.pid}/root/tmp/is-ready")

    def at(self, place):
        """A file of the machine, as this computer sees it."""
        return Path(f"/proc/{self.process.pid}/root{place}")

    def ran(self, *words, status=0):
        done = subprocess.run(self.inside(*words), capture_output=True, text=True,
                              timeout=PATIENCE, env={"PATH": FOLDERS, "LC_ALL": "C.UTF-8",
                                                     "DEBIAN_FRONTEND": "noninteractive"})
        assert done.returncode == status, (words, done.returncode, done.stdout, done.stderr)
        return done.stdout + done.stderr

    def start(self, *words):
        """Starts a program that goes on until the machine ends."""
        with open(self.at("/root/said"), "ab") as said:
            self.started.append(subprocess.Popen(
                self.inside(*words), stdout=said, stderr=said, start_new_session=True,
                env={"PATH": FOLDERS, "LC_ALL": "C.UTF-8"}))

    def said(self):
        """The output of the programs that were started."""
        return self.at("/root/said").read_text(encoding="utf-8", errors="replace")

    def end(self):
        for process in self.started:
            with contextlib.suppress(ProcessLookupError):
                os.killpg(process.pid, 9)
            process.wait()
        self.process.kill()
        self.process.wait()
        self.process.stderr.close()
        shutil.rmtree(self.place, ignore_errors=True)


@contextlib.contextmanager
def machine():
    it = Machine()
    try:
        it.await_it()
        yield it
    finally:
        it.end()
