"""The server of `deploy/desk`: in the place of the proxy, for browsers of one computer and user.

Each name has a port, so that two names can be open in one browser and neither acts for the other.
Whoever opens the address of a name gets its secret as a cookie; nobody else gets anything. The
reader answers what is asked of the office; the recorder writes each command down, and passes it on.
"""

import contextlib
import hashlib
import hmac
import http.client
import http.server
import os
import re
import socket
import sys
import threading
from dataclasses import dataclass
from pathlib import Path
from string import Template

from desk_roles import FROM_A_PAGE, request_of

ENTER = "/enter/"
HTML = "text/html; charset=utf-8"
KINDS = {".html": HTML, ".csv": "text/csv; charset=utf-8", ".json": "application/json",
         ".atom": "application/atom+xml", ".svg": "image/svg+xml", ".png": "image/png",
         ".pdf": "application/pdf"}
HEADS = {"Cache-Control": "no-store", "X-Content-Type-Options": "nosniff",
         "X-Frame-Options": "DENY", "Referrer-Policy": "no-referrer",
         "Cross-Origin-Opener-Policy": "same-origin",
         "Cross-Origin-Resource-Policy": "same-origin"}
# How long a client may be silent, and an answer may take: an import has its time.
SILENCE, PATIENCE = 10, 400
# Threads at a time, each of a connection.
MOST_THREADS = 200
# Bytes of a body that are read before it is refused, so that its sender reads the answer.
READ_OF_STRANGERS, READ_OF_NAMES = 16_384, 64 << 20


@dataclass(frozen=True)
class Person:
    """A name, its role, and the secret that its address has."""
    name: str
    role: str
    secret: str


@dataclass(frozen=True)
class House:
    """The things that all doors share: two sockets, the files, and who may connect."""
    reader: Path
    recorder: Path
    pages: Path
    setup: bytes
    clerk: str
    enter: Template
    # The text with which each page of a trial begins; else empty.
    banner: str
    # The policy of the press pages, as the proxy has it.
    policy: str
    peers: object
    gate: object


class Gate:
    """The gate through which commands go until it is shut."""

    def __init__(self):
        self.condition, self.inside, self.is_shut = threading.Condition(), 0, False

    @contextlib.contextmanager
    def passed(self):
        """Whether the gate is open; while it was, whoever shuts it waits."""
        with self.condition:
            is_open = not self.is_shut
            self.inside += is_open
        try:
            yield is_open
        finally:
            with self.condition:
                self.inside -= is_open
                self.condition.notify_all()

    def shut(self, seconds):
        """Lets nothing more through, and waits for what is under way, no longer than so."""
        with self.condition:
            self.is_shut = True
            self.condition.wait_for(lambda: not self.inside, seconds)


class ToSocket(http.client.HTTPConnection):
    """A connection to the socket of the reader or the recorder."""

    def __init__(self, file):
        super().__init__("office", timeout=PATIENCE)
        self.file = file

    def connect(self):
        self.sock = socket.socket(socket.AF_UNIX)
        self.sock.settimeout(self.timeout)
        self.sock.connect(str(self.file))


def asked(file, method, target, body, fields):
    """Status, body and kind of an answer; 502 where there is none."""
    try:
        with contextlib.closing(ToSocket(file)) as connection:
            connection.request(method, target, body, fields)
            answer = connection.getresponse()
            return answer.status, answer.read(), answer.getheader("Content-Type")
    except (OSError, http.client.HTTPException):
        return 502, b"", None


def with_banner(page, banner):
    """A page with the banner as the first thing in its body, and in its title."""
    text, word = page.decode(), re.search(r"<strong>(.*?)</strong>", banner)
    text = re.sub(r"<body[^>]*>", lambda body: body[0] + banner, text, count=1)
    if word:
        text = text.replace("<title>", f"<title>{word[1]}: ", 1)
    return text.encode()


class Handler(http.server.BaseHTTPRequestHandler):
    """Answers one request of a connection."""

    timeout = SILENCE
    # Whether it came with the secret, and how many bytes of its body are to be read yet.
    is_known, left = False, 0

    # ---- answers

    def log_message(self, *_):
        """An address has a secret: nothing is written down."""

    def send_error(self, code, *_):
        self.send(code)

    def send(self, status, body=b"", kind=None, **heads):
        """An answer, once the body of the request was read, or was too long for that."""
        self.read_rest()
        self.send_response_only(status)
        if kind:
            self.send_header("Content-Type", kind)
        for name, value in (HEADS | heads).items():
            self.send_header(name.replace("_", "-"), value)
        self.send_header("Content-Length", str(len(body)))
        self.end_headers()
        if self.command != "HEAD":
            self.wfile.write(body)

    def send_page(self, page, **heads):
        body = with_banner(page, self.server.house.banner) if self.server.house.banner else page
        self.send(200, body, HTML, **heads)

    def read_rest(self):
        left = min(self.left, READ_OF_NAMES if self.is_known else READ_OF_STRANGERS)
        self.left = 0
        while left > 0 and (part := self.rfile.read(min(left, 65_536))):
            left -= len(part)

    # ---- who asks

    def only(self, name):
        """The value of a field, or None where it is not there once."""
        values = self.headers.get_all(name)
        return values[0] if values and len(values) == 1 else None

    def length(self):
        """The length of the body; None where the request does not say it well."""
        said = self.only("Content-Length") if "Content-Length" in self.headers else "0"
        return int(said) if said and re.fullmatch("[0-9]{1,12}", said) else None

    def is_secret(self, said):
        wanted = self.server.person.secret.encode()
        return hmac.compare_digest(said.encode("latin-1", "replace"), wanted)

    def has_cookie(self):
        parts = ";".join(self.headers.get_all("Cookie", [])).split(";")
        pairs = [part.strip().partition("=") for part in parts]
        return any(name == self.server.cookie and self.is_secret(value) for name, _, value in pairs)

    def is_of_this_site(self, *pages):
        """Whether the page that asks, if one does, is of this site, or as the browser says."""
        return (self.headers.get("Origin") in (None, f"http://{self.server.host}")
                and self.headers.get("Sec-Fetch-Site") in (None, "same-origin", *pages))

    # ---- what is asked

    def answer(self):
        self.left = self.length() or 0
        if self.only("Host") != self.server.host:
            self.send(421)
        elif self.path.startswith(ENTER):
            self.enter(self.path.removeprefix(ENTER))
        elif not self.is_of_this_site("none") or not self.has_cookie():
            self.send(403)
        else:
            self.is_known = True
            self.answer_name()

    do_GET = do_HEAD = do_POST = do_PUT = do_DELETE = do_PATCH = do_OPTIONS = do_TRACE = answer
    do_CONNECT = answer

    def enter(self, secret):
        """Whoever opens the address of a name gets its cookie, and is led to the clerks' page."""
        # A link that leads here from anywhere has the secret.
        if (self.command != "GET" or not self.is_secret(secret)
                or not self.is_of_this_site("none", "cross-site", "same-site")):
            return self.send(403)
        page = self.server.house.enter.substitute(name=self.server.person.name)
        return self.send_page(page.encode(), Set_Cookie=self.cookie(self.server.person.secret))

    def cookie(self, value, end=""):
        return f"{self.server.cookie}={value}; Path=/; HttpOnly; SameSite=Strict{end}"

    def answer_name(self):
        found, length = request_of(self.path), self.length()
        if "Transfer-Encoding" in self.headers:
            self.send(411)
        elif length is None:
            self.send(400)
        elif length > (found.most if found else 0):
            self.send(413)
        elif not found:
            self.send(404)
        elif found.kind in FROM_A_PAGE and not self.is_of_this_site():
            self.send(403)
        elif self.command not in found.methods:
            self.send(405, Allow=", ".join(found.methods))
        else:
            getattr(self, f"answer_{found.kind}")(found)

    def answer_page(self, _):
        person = self.server.person
        self.send_page(self.server.house.clerk.encode(), X_Office_Name=person.name,
                       X_Office_Role=person.role)

    def answer_logout(self, _):
        self.send(204, Set_Cookie=self.cookie("", "; Max-Age=0"))

    def answer_setup(self, _):
        self.send(200, self.server.house.setup, KINDS[".json"])

    def answer_file(self, found):
        # (the pages of another language are in a folder of their own)
        is_folder = not found.file or found.file.endswith("/")
        file = self.server.house.pages / found.file / ("index.html" if is_folder else "")
        try:
            body = file.read_bytes() if file.is_file() and not file.is_symlink() else None
        except OSError:
            body = None
        kind = KINDS.get(file.suffix, "application/octet-stream")
        # A drawing that is opened by itself may have a script, and it would act as the name.
        policy = {"Content_Security_Policy": self.server.house.policy}
        if body is None:
            self.send(404)
        elif kind == HTML:
            self.send_page(body, **policy)
        else:
            self.send(200, body, kind, **policy)

    def answer_table(self, found):
        # (press.py leaves this file where provisional seats may be shown)
        is_hidden = not (self.server.house.pages / ".provisional").is_file()
        is_there = found.is_there(self.server.person.role, is_hidden)
        self.read(found.path, Office_Allowed=self.says_allowed(found),
                  Office_There="1" if is_there else "0")

    answer_now = answer_slips = answer_now_slips = answer_table

    def answer_now_all(self, found):
        person = self.server.person
        self.read(f"/{found.path}/{found.con}", Office_Name=person.name, Office_Role=person.role)

    def read(self, target, **fields):
        self.pass_on(self.server.house.reader, "GET", target, **fields)

    def answer_history(self, found):
        person = self.server.person
        self.pass_on(self.server.house.recorder, "GET", f"/history/{found.station}",
                     Office_Name=person.name, Office_Role=person.role,
                     Office_Allowed=self.says_allowed(found))

    def answer_typed(self, found):
        person = self.server.person
        self.pass_on(self.server.house.recorder, "GET", f"/typed/{found.con}",
                     Office_Name=person.name, Office_Role=person.role,
                     Office_Allowed=self.says_allowed(found))

    def answer_command(self, found):
        person, length = self.server.person, self.length()
        body = self.rfile.read(length)
        self.left = 0
        if len(body) < length:
            return None
        # A page that was opened with another setup has its lists in another order.
        if self.headers.get("Office-Setup") not in (None, self.setup_hash()):
            return self.send(409)
        with self.server.house.gate.passed() as is_open:
            if not is_open:
                return self.send(503)
            return self.pass_on(
                self.server.house.recorder, "POST", found.path, body, Office_Name=person.name,
                Office_Role=person.role, Office_Address=self.client_address[0],
                Office_Allowed=self.says_allowed(found))

    def setup_hash(self):
        return hashlib.sha256(self.server.house.setup).hexdigest()

    def says_allowed(self, found):
        return "1" if found.is_allowed(self.server.person.name, self.server.person.role) else "0"

    def pass_on(self, socket_file, method, target, body=None, **fields):
        fields = {name.replace("_", "-"): value for name, value in fields.items()}
        self.send(*asked(socket_file, method, target, body, fields))


class Door(http.server.ThreadingHTTPServer):
    """Where one name comes in: a port of 127.0.0.1. Port 0 is any that is free."""

    daemon_threads = True
    house = None

    def __init__(self, person, port):
        super().__init__(("127.0.0.1", port), Handler)
        self.person, self.own = person, self.server_address
        self.host, self.cookie = f"127.0.0.1:{self.own[1]}", f"office-{self.own[1]}"

    @property
    def address(self):
        return f"http://{self.host}{ENTER}{self.person.secret}"

    def server_bind(self):
        # (the one of the library asks for the name of the address, which may take seconds)
        self.socket.setsockopt(socket.SOL_SOCKET, socket.SO_REUSEADDR, 1)
        self.socket.bind(self.server_address)
        self.server_address = self.socket.getsockname()

    def verify_request(self, request, client_address):
        """Another user's program is not answered, nor one beside too many others."""
        return (threading.active_count() < MOST_THREADS
                and self.house.peers.is_of_us(client_address, self.own))

    def handle_error(self, *_):
        """Whatever went wrong with a connection, without what was asked."""
        error = sys.exc_info()[1]
        if not isinstance(error, (ConnectionError, TimeoutError)):
            print(f"desk: no answer: {type(error).__name__}", file=sys.stderr, flush=True)


def users_of_this():
    """This program's user, and the administrator, who may do everything anyway."""
    return {os.getuid(), 0}
