"""The program as it serves, and its clients."""

import contextlib
import http.client
import json
import socket
import struct
import subprocess
import time

from tests.support.case import PROGRAM
from tests.support.program import STARTED, Ran, same
from tests.support.running import PATIENCE, free_port


def answering(port):
    """A connection to a server that may only be about to listen."""
    for _ in range(PATIENCE * 20):
        with contextlib.suppress(ConnectionRefusedError):
            connection = http.client.HTTPConnection("127.0.0.1", port, timeout=PATIENCE)
            connection.connect()
            return connection
        time.sleep(0.05)
    raise AssertionError("nobody listens")


def answer_from(connection):
    """The status, the fields and the body of an answer, which has the length that it says."""
    found = b""
    while b"\r\n\r\n" not in found:
        if not (piece := connection.recv(65536)):
            raise http.client.RemoteDisconnected(f"an answer that ends: {found}")
        found += piece
    head, _, text = found.partition(b"\r\n\r\n")
    first, *lines = head.decode("latin-1").split("\r\n")
    protocol, status, _ = first.split(" ", 2)
    same(protocol, "HTTP/1.1", first)
    fields = dict(line.split(": ", 1) for line in lines)
    parts, left = [text], int(fields["Content-Length"]) - len(text)
    while left > 0:
        if not (piece := connection.recv(min(left, 1 << 20))):
            raise http.client.IncompleteRead(b"".join(parts), left)
        parts.append(piece)
        left -= len(piece)
    same(left, 0, first)
    return int(status), fields, b"".join(parts).decode()


class Desk:
    """The program as it serves."""

    def __init__(self, db, count, port=None, **how):
        self.port, self.count = port or free_port(), count
        words = [PROGRAM, "serve", "--db", db, "--port", str(self.port), "--count", str(count)]
        self.process = subprocess.Popen(
            words, stdout=subprocess.PIPE, stderr=subprocess.PIPE, **how
        )
        STARTED.append(self.process)
        same(
            self.process.stderr.readline().decode(),
            f"listening on 127.0.0.1:{self.port} for {count} connections\n",
        )

    def ask(self, method, path, body=None):
        """The status, the fields and the body of an answer."""
        sent = b"" if body is None else body if isinstance(body, bytes) else body.encode("latin-1")
        head = f"{method} {path} HTTP/1.1\r\nHost: 127.0.0.1:{self.port}\r\n"
        if body is not None or method == "POST":
            head += f"Content-Length: {len(sent)}\r\n"
        with socket.create_connection(("127.0.0.1", self.port), timeout=PATIENCE) as it:
            it.sendall(f"{head}\r\n".encode("latin-1") + sent)
            return answer_from(it)

    def get(self, path, text):
        status, fields, body = self.ask("GET", path)
        same((status, fields["Content-Type"], body), (200, "text/plain; charset=utf-8", text))

    def send(self, message, hang_up=False):
        """All bytes of what is answered to these bytes."""
        with socket.create_connection(("127.0.0.1", self.port), timeout=PATIENCE) as it:
            it.sendall(message)
            it.shutdown(socket.SHUT_WR)
            if hang_up:
                return b""
            found = b""
            while piece := it.recv(65536):
                found += piece
            return found

    def end(self):
        out, err = self.process.communicate(timeout=PATIENCE)
        return Ran(self.process.returncode, out.decode(), err.decode())


def reset(connection):
    """The connection ends at once: a read at its other end fails."""
    connection.setsockopt(socket.SOL_SOCKET, socket.SO_LINGER, struct.pack("ii", 1, 0))
    connection.close()


@contextlib.contextmanager
def serving(db, count, failed=0):
    """A desk for `count` connections, of which `failed` fail; with None, as many as it says."""
    desk = Desk(db, count)
    yield desk
    ran = desk.end()
    if failed is None:
        failed = int(ran.out.rpartition(" ")[2] or -1)
    same(ran, Ran(0, f"answered {count - failed} failed {failed}\n", ""))


def take(desk, step):
    path, body, status, text = step
    found, fields, answer = desk.ask("POST", path, json.dumps(body))
    same((found, answer), (status, text))
    same((fields["Content-Type"], fields["Connection"]), ("application/json", "close"))


def asking(method, target, body=""):
    """The bytes of a message, with a length where it is a POST."""
    length = f"Content-Length: {len(body.encode())}\r\n" if method == "POST" else ""
    return f"{method} {target} HTTP/1.1\r\n{length}\r\n{body}".encode()
