"""nginx, the recorder and the reader, with the files of `deploy/`."""

import base64
import collections
import contextlib
import functools
import http.server
import json
import os
import re
import shutil
import signal
import socket
import ssl
import subprocess
import sys
import tempfile
import time
from pathlib import Path

from tests.support import tools
from tests.support.case import find
from tests.support.running import PATIENCE, free_port, until
from tests.support.site import DEPLOY, NAME, Answer, printed, ran, same, serving

NGINX = find("nginx")


def filled(text, pairs):
    """A text with its places filled in; each has to be there."""
    for old, put in pairs.items():
        assert old in text, f"nginx.conf has no {old}"
        text = text.replace(old, put)
    return text


# Who has a role, where a test says nothing else.
STAFF = "clara clerk;\nbruno clerk;\nberta board;\n"


def password(folder, *words, run=tools.run):
    """Runs the script that gives passwords, for the names of a folder."""
    return run(
        [DEPLOY / "password", *words], capture_output=True, text=True, timeout=3 * PATIENCE,
        env={**os.environ, "PASSWORDS": str(folder), "SETUP": "names.toml"})


def new_password(folder, *words):
    """A name's password, by that script."""
    said = password(folder, *words)
    same((said.returncode, said.stderr), (0, ""))
    return said.stdout.split()[-1]


@functools.cache
def certificate():
    """A certificate and its key, made once for all proxies of a suite: the bytes of each file."""
    with tempfile.TemporaryDirectory() as made:
        key, file = Path(made) / "key.pem", Path(made) / "certificate.pem"
        ran("openssl", "req", "-x509", "-nodes", "-days", "2",
            "-newkey", "ec", "-pkeyopt", "ec_paramgen_curve:prime256v1",
            "-keyout", key, "-out", file,
            "-subj", f"/CN={NAME}", "-addext", f"subjectAltName=DNS:{NAME}")
        return {"key.pem": key.read_bytes(), "certificate.pem": file.read_bytes()}


@functools.cache
def staff_with_passwords(staff):
    """The files of a staff that has its passwords, given once for all proxies of a suite, and the
    passwords."""
    with tempfile.TemporaryDirectory() as made:
        folder = Path(made)
        (folder / "staff.conf").write_text(staff, encoding="utf-8")
        passwords = {name: new_password(folder, "staff", name)
                     for name in re.findall(r"^\w+", staff, re.M)}
        return {name: (folder / name).read_bytes()
                for name in ("staff.conf", "staff.htpasswd")}, passwords


@functools.cache
def of_setup(text):
    """The files that an office's script writes of a setup, once for each in a suite: codes.conf,
    and the bytes of each published one."""
    with tempfile.TemporaryDirectory() as made:
        setup, share = Path(made) / "setup.toml", Path(made) / "share"
        setup.write_bytes(text)
        share.mkdir()
        codes = printed(DEPLOY / "setup-json", setup, share)
        return codes, {file.name: file.read_bytes() for file in share.iterdir()}


class Proxy:
    """nginx, the recorder and the reader with the files of deploy/, their places filled in, in a
    folder of its own."""

    def __init__(self, desk, *more):
        self.folder = Path.cwd() / "proxy"
        self.port, self.plain, self.desks = free_port(), free_port(), (desk, *more)
        self.passwords = {}
        self.process = self.recorder = self.reader = None
        # Further places of nginx.conf to fill in, and the room that the recorder leaves.
        self.more, self.room = {}, 0

    def configure(self, staff=STAFF):
        for name in ("office", "log", "temporary", "pages", "share", "recorder", "reader"):
            (self.folder / name).mkdir(parents=True, exist_ok=True)
        places = {"/var/log/nginx/": f"{self.folder}/log/",
                  "/var/lib/nginx/": f"{self.folder}/temporary/",
                  "/var/www/office": f"{self.folder}/pages",
                  "/usr/local/share/office": f"{self.folder}/share",
                  "/etc/nginx/office/": f"{self.folder}/office/"}
        for part in (DEPLOY / "nginx").glob("*.conf"):
            self.put(part.name, part.read_text(encoding="utf-8"), places)
        (self.folder / "nginx.conf").write_text(
            filled((DEPLOY / "nginx.conf").read_text(encoding="utf-8"), {
                "user www-data;": "user root;" if os.geteuid() == 0 else "",
                "pid /run/nginx.pid;": f"pid {self.folder}/nginx.pid; daemon off;", **places,
                "listen 443": f"listen 127.0.0.1:{self.port}",
                "listen 80": f"listen 127.0.0.1:{self.plain}",
                f'"https://{NAME}"': f'"https://{NAME}:{self.port}"',
                f"https://{NAME}$": f"https://{NAME}:{self.port}$", **self.more,
            }), encoding="utf-8")
        shutil.copy(DEPLOY / "www/clerk.html", self.folder / "share")
        # As press.py leaves it where a site may show provisional seats.
        (self.folder / "pages/.provisional").touch()
        if Path("setup.toml").exists():
            self.publish_setup("setup.toml")
        files, passwords = staff_with_passwords(staff)
        for name, text in {**files, **certificate()}.items():
            (self.folder / "office" / name).write_bytes(text)
        self.passwords.update(passwords)
        self.tls = ssl.create_default_context(cafile=self.folder / "office/certificate.pem")

    def publish_setup(self, file):
        """Writes setup.json, by the script that an office uses."""
        codes, files = of_setup(Path(file).read_bytes())
        self.put("codes.conf", codes)
        for name, text in files.items():
            (self.folder / "share" / name).write_bytes(text)

    def put(self, name, text, places=None):
        """Writes a file of the configuration."""
        for old, new in {**(places or {}), "127.0.0.1:8080": f"127.0.0.1:{self.desks[0]}",
                         "/run/office-recorder/": f"{self.folder}/recorder/",
                         "/run/office-reader/": f"{self.folder}/reader/"}.items():
            text = text.replace(old, new)
        (self.folder / "office" / name).write_text(text, encoding="utf-8")

    def password(self, *words):
        """Runs the script that gives passwords."""
        return password(self.folder / "office", *words)

    def name(self, file, name):
        """Gives a name its password, by the script that an office uses; of a station, of a setup
        that has it."""
        Path("names.toml").write_text(
            f'[[constituency]]\n[[constituency.station]]\ncode = "{name}"\n', encoding="utf-8")
        self.passwords[name] = new_password(self.folder / "office", file, name)

    def start_recorder(self):
        desks = [word for desk in self.desks for word in ("--desk", f"127.0.0.1:{desk}")]
        with open(self.folder / "log/recorder", "ab") as said:
            self.recorder = subprocess.Popen(
                [sys.executable, DEPLOY / "recorder.py", self.folder / "recorder",
                 self.folder / "log/commands.log", "--room", str(self.room), *desks],
                stdout=subprocess.DEVNULL, stderr=said)
        until(lambda: (self.folder / "recorder/head").exists() or self.recorder.poll() is not None)

    def end_recorder(self, number=signal.SIGTERM):
        if self.recorder:
            self.recorder.send_signal(number)
            self.recorder.wait(timeout=PATIENCE)
            (self.folder / "recorder/head").unlink(missing_ok=True)
            self.recorder = None

    def start_reader(self):
        desks = [word for desk in self.desks for word in ("--desk", f"127.0.0.1:{desk}")]
        with open(self.folder / "log/reader", "ab") as said:
            self.reader = subprocess.Popen(
                [sys.executable, DEPLOY / "reader.py", self.folder / "reader", *desks],
                stdout=subprocess.DEVNULL, stderr=said)
        last = self.folder / f"reader/{len(self.desks)}-names.sock"
        until(lambda: last.exists() or self.reader.poll() is not None)

    def end_reader(self):
        if self.reader:
            self.reader.kill()
            self.reader.wait(timeout=PATIENCE)
            for file in (self.folder / "reader").glob("*.sock"):
                file.unlink()
            self.reader = None

    def start(self):
        self.start_reader()
        self.start_recorder()
        self.process = subprocess.Popen(
            [NGINX, "-e", self.folder / "log/error.log", "-c", self.folder / "nginx.conf"],
            stdout=subprocess.DEVNULL, stderr=subprocess.DEVNULL)
        end = time.monotonic() + PATIENCE
        while True:
            try:
                socket.create_connection(("127.0.0.1", self.port), timeout=PATIENCE).close()
                return
            except OSError:
                log = self.folder / "log/error.log"
                said = log.read_text() if log.exists() else "nginx"
                assert self.process.poll() is None and time.monotonic() < end, said
                time.sleep(0.05)

    def end(self):
        if self.process:
            self.process.terminate()
            self.process.wait(timeout=PATIENCE)
        self.end_recorder()
        self.end_reader()

    def connect(self, source="127.0.0.1", name=NAME):
        """A connection with TLS, from an address of this machine."""
        there = socket.create_connection(("127.0.0.1", self.port), timeout=PATIENCE,
                                         source_address=(source, 0))
        return self.tls.wrap_socket(there, server_hostname=name)

    def authorization(self, name, password=None):
        pair = f"{name}:{self.passwords.get(name, 'none') if password is None else password}"
        return "Basic " + base64.b64encode(pair.encode()).decode()

    def ask(self, method, target, body=None, name=None, headers=None, source="127.0.0.1",
            password=None):
        """Status, body and head of an answer."""
        connection = http.client.HTTPConnection(NAME, self.port, timeout=PATIENCE)
        connection.sock = self.connect(source)
        head = {"Authorization": self.authorization(name, password)} if name else {}
        body = json.dumps(body) if isinstance(body, dict) else body
        body = body.encode() if isinstance(body, str) else body
        if method == "POST" and body is None:
            body = b""
        with contextlib.closing(connection):
            connection.request(method, target, body, {**head, **(headers or {})})
            answer = connection.getresponse()
            return Answer(answer.status, answer.read(), answer.headers)

    def lines(self):
        """The lines of the record."""
        file = self.folder / "log/commands.log"
        return [json.loads(line)
                for line in file.read_text(encoding="utf-8").splitlines()] if file.exists() else []

    def record(self, commands=0):
        """The commands of the record, each with its answer, once it has this many."""
        def whole():
            answers = {line["to"]: line for line in self.lines() if "to" in line}
            found = [line | {key: answers[line["n"]][key] for key in ("status", "answer")
                             if line["n"] in answers and key in answers[line["n"]]}
                     for line in self.lines() if "to" not in line]
            return found if len(found) >= commands and all("status" in line
                                                           for line in found) else None

        until(whole)
        return whole()

    def refused(self, lines=0):
        """The lines of the record of wrong passwords, once it has this many.

        A line comes after its answer.
        """
        file = self.folder / "log/refused.log"
        until(lambda: file.read_bytes().count(b"\n") >= lines)
        return [json.loads(line) for line in file.read_text(encoding="utf-8").splitlines()]


@contextlib.contextmanager
def proxy(*desks, more=None, room=0, staff=STAFF):
    it = Proxy(*desks)
    it.more, it.room = more or {}, room
    it.configure(staff)
    try:
        it.start()
        yield it
    finally:
        it.end()


@contextlib.contextmanager
def office_and_proxy(setup):
    with serving(setup) as desk, proxy(desk.port) as front:
        yield desk, front


def pipelined(front, asked, times, source, headers=""):
    """Sends a request `times` times at once over one connection.

    `headers` are the fields of each, or a list with those of one after the other. The result is how
    many answers have each status.
    """
    each = [headers] * times if isinstance(headers, str) else headers
    with front.connect(source) as it:
        it.sendall("".join(f"{asked} HTTP/1.1\r\nHost: {NAME}\r\n{one}Content-Length: 0\r\n\r\n"
                           for one in each).encode())
        statuses, answers = collections.Counter(), b""
        while statuses.total() < times:
            part = it.recv(65536)
            assert part, (statuses, answers[-500:])
            answers += part
            end = 0
            for found in re.finditer(rb"^HTTP/1.1 (\d+) ", answers, re.M):
                statuses[found[1]] += 1
                end = found.end()
            answers = answers[end:]
    return statuses


def errors(front):
    return (front.folder / "log/error.log").read_text(encoding="utf-8")


def children(front):
    """The processes that the proxy has started."""
    return Path(f"/proc/{front.process.pid}/task/{front.process.pid}/children").read_text().split()


@contextlib.contextmanager
def with_a_second(port):
    front = Proxy(port)
    front.configure(STAFF + "sara second;\n")
    try:
        front.start()
        yield front
    finally:
        front.end()
