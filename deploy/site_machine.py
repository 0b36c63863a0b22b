"""The changes that office-site makes to a computer: it writes files, and knows what it changed; it looks who has
a port; it runs programs. With another root than / it writes files there, and no more."""

import grp
import http.client
import os
import pwd
import re
import socket
import ssl
import subprocess
import time
from contextlib import closing, contextmanager, suppress
from pathlib import Path


class Fault(Exception):
    """Why no more was done, in words; of a program, what it said."""

    said = ""


class Machine:
    """A computer, or a folder in which its files are (`--root`)."""

    def __init__(self, root):
        self.root, self.changed = Path(root), []
        self.is_real = self.root == Path("/")
        # A folder, and a system that is being installed, has no services.
        self.has_services = self.is_real and Path("/run/systemd/system").is_dir()

    def at(self, place):
        """Where a place of the computer is."""
        return self.root / str(place).lstrip("/")

    def text(self, place):
        """The text of a file that an administrator may have changed."""
        try:
            return self.at(place).read_text(encoding="utf-8")
        except UnicodeDecodeError as error:
            raise Fault(f"{self.at(place)}: not UTF-8") from error

    def say(self, done, place, is_said=True):
        self.changed.append(str(place))
        if is_said:
            print(f"{done} {place}", flush=True)

    def owned(self, place, mode, user="root", group=None):
        """Gives a file or a folder its mode and its owner; whether it had others."""
        file = self.at(place)
        before = file.stat()
        ids = (before.st_uid, before.st_gid)
        if self.is_real:
            ids = pwd.getpwnam(user).pw_uid, grp.getgrnam(group or user).gr_gid
        wanted = (mode, *ids)
        if (before.st_mode & 0o7777, before.st_uid, before.st_gid) == wanted:
            return False
        os.chown(file, *ids)
        file.chmod(mode)
        return True

    def folder(self, place, mode=0o755, user="root", group=None):
        file = self.at(place)
        is_new = not file.is_dir()
        if is_new:
            file.mkdir(mode=0o700, parents=True)
        if self.owned(place, mode, user, group) or is_new:
            self.say("folder", place)

    def put_aside(self, place, names, into, mode, user):
        """Moves the files of these names of a folder, which is perhaps another user's, into a new
        folder there, or into one that was begun. A link that this user puts in its place is not
        followed: the new folder would be another one, which root would give away."""
        folder = self.at(place)
        found = [file.name for name in names for file in sorted(folder.glob(name))]
        if not found:
            return
        with opened(folder, os.O_DIRECTORY) as outer:
            with suppress(FileExistsError):
                os.mkdir(into, 0o700, dir_fd=outer)
            with opened(into, os.O_DIRECTORY | os.O_NOFOLLOW, outer) as inner:
                if os.fstat(inner).st_uid != os.geteuid():
                    raise Fault(f"{folder / into} is another user's")
                if there := {*found} & {*os.listdir(inner)}:
                    raise Fault(f"{folder / into / min(there)} is there already")
                for name in found:
                    os.rename(name, name, src_dir_fd=outer, dst_dir_fd=inner)
                if self.is_real:
                    os.fchown(inner, pwd.getpwnam(user).pw_uid, grp.getgrnam(user).gr_gid)
                os.fchmod(inner, mode)
        self.say("folder", f"{place}/{into}")

    def put(self, place, data, mode=0o644, user="root", group=None, is_said=True):
        """Writes a file beside and renames it, if it is not so already."""
        file, data = self.at(place), data.encode() if isinstance(data, str) else data
        if file.is_file() and not file.is_symlink() and file.read_bytes() == data:
            if self.owned(place, mode, user, group):
                self.say("owner of", place)
            return
        beside = Path(place).with_name(f".{file.name}.new")
        self.at(beside).write_bytes(data)
        self.owned(beside, mode, user, group)
        os.replace(self.at(beside), file)
        self.say("wrote", place, is_said)

    def link(self, place, target):
        """A link, in the place of one that leads elsewhere."""
        file = self.at(place)
        if file.is_symlink() and os.readlink(file) == target:
            return
        file.unlink(missing_ok=True)
        file.symlink_to(target)
        self.say("link", place)

    def remove(self, place):
        """Removes a file or a link, if it is there."""
        if self.at(place).is_symlink() or self.at(place).exists():
            self.at(place).unlink()
            self.say("removed", place)

    def systemctl(self, *words):
        if self.has_services:
            run("systemctl", *words)

    def reload_proxy(self):
        """Has nginx read its files, and waits until it answers by these alone. Where it cannot use
        them it goes on with those of before, and systemctl does not say so."""
        said, _ = run("systemctl", "show", "--property=MainPID", "nginx")
        main, end = said.partition("=")[2].strip(), time.monotonic() + 60
        before = workers_of(main)
        self.systemctl("reload", "nginx")
        while before & workers_of(main):
            if time.monotonic() > end:
                raise Fault("nginx goes on with its files of before: journalctl -u nginx")
            time.sleep(0.05)

    def reset_failed(self, *units):
        """Has systemd forget that units failed; of one that did not it has nothing to forget."""
        if self.has_services:
            subprocess.run(["systemctl", "reset-failed", *units], stderr=subprocess.DEVNULL)

    def is_older(self, unit, *files):
        """Whether a unit does not run, or began before one of these files was written."""
        if not self.is_active(unit):
            return True
        said, _ = run("systemctl", "show", "--property=ActiveEnterTimestampMonotonic", unit)
        began = time.time() - time.monotonic() + int(said.partition("=")[2]) / 1e6
        return any(self.at(file).stat().st_mtime > began for file in files)

    def words_of(self, unit):
        """The words with which the process of a unit runs; None of one that does not run."""
        if not self.is_active(unit):
            return None
        said, _ = run("systemctl", "show", "--property=MainPID", unit)
        with suppress(OSError):
            words = Path("/proc", said.partition("=")[2].strip(), "cmdline").read_bytes()
            # (one that is just being begun has none yet)
            return words.decode(errors="replace").split("\0") if words else None
        return None

    def is_active(self, unit):
        return self.has_services and not subprocess.run(
            ["systemctl", "is-active", "--quiet", unit]).returncode


@contextmanager
def opened(folder, flags, within=None):
    """The descriptor of a folder."""
    descriptor = os.open(folder, os.O_RDONLY | flags, dir_fd=within)
    try:
        yield descriptor
    finally:
        os.close(descriptor)


def run(*words, env=None, cwd=None):
    """The output of a program; what it says goes on. A Fault has its words."""
    done = subprocess.run([str(word) for word in words], stdout=subprocess.PIPE, cwd=cwd,
                          stderr=subprocess.PIPE, text=True, env={**os.environ, **(env or {})})
    if done.returncode:
        said = (done.stderr or done.stdout).strip() or f"status {done.returncode}"
        fault = Fault(f"{Path(words[0]).name} {words[1]}: {said}")
        fault.said = said
        raise fault
    return done.stdout, done.stderr


def listeners():
    """The ports of this computer that are listened on, and the socket of each."""
    found = {}
    for table in ("tcp", "tcp6"):
        file = Path("/proc/net") / table
        for line in file.read_text().splitlines()[1:] if file.exists() else ():
            words = line.split()
            if words[3] == "0A":
                found.setdefault(int(words[1].rpartition(":")[2], 16), set()).add(words[9])
    return found


def who_listens(sockets):
    """The program that has one of these sockets, with its number: `another program` if none."""
    for link in Path("/proc").glob("[0-9]*/fd/*"):
        try:
            found = re.fullmatch(r"socket:\[(\d+)\]", os.readlink(link))
            if found and found[1] in sockets:
                folder = link.parents[1]
                return f"{(folder / 'comm').read_text().strip()} ({folder.name})"
        except OSError:
            continue
    return "another program"


def workers_of(main):
    """The processes of an nginx that take requests; one that has only to finish some says so."""
    found = set()
    for folder in Path("/proc").glob("[0-9]*"):
        with suppress(OSError):
            parent = (folder / "stat").read_text(errors="replace").rpartition(")")[2].split()[1]
            if parent == main and b"is shutting down" not in (folder / "cmdline").read_bytes():
                found.add(folder.name)
    return found


def has_ipv6():
    file = Path("/proc/net/if_inet6")
    return file.exists() and bool(file.read_text().strip())


def status_of(site, target):
    """The status with which this computer's proxy answers who reads something of a site."""
    context = ssl.create_default_context()
    context.check_hostname, context.verify_mode = False, ssl.CERT_NONE
    connection = http.client.HTTPSConnection(site, timeout=10)
    with closing(connection):
        plain = socket.create_connection(("127.0.0.1", 443), 10)
        connection.sock = context.wrap_socket(plain, server_hostname=site)
        connection.request("GET", target)
        return connection.getresponse().status
