"""A program that serves HTTP, and a client that opens a connection for each request."""

import json
import socket
import subprocess
import sys
import time
from dataclasses import dataclass
from pathlib import Path

from building import ROOT

sys.path.append(str(ROOT))
from tests.support.running import free_port


@dataclass
class Taken:
    """The cost of some requests: microseconds a request of the clock, and of the server's processor."""

    clock: float
    spent: float
    answers: list


def get(path):
    return f"GET {path} HTTP/1.1\r\nHost: localhost\r\n\r\n".encode()


def post(path, body):
    text = body if isinstance(body, bytes) else json.dumps(body, separators=(",", ":")).encode()
    return f"POST {path} HTTP/1.1\r\nHost: localhost\r\nContent-Length: {len(text)}\r\n\r\n".encode() + text


class Server:
    """A server of this many connections, which says that it listens in a line of standard error.

    It is started for a `with`, at whose end it has to have served them and to end well.
    """

    def __init__(self, command, port):
        self.command, self.port = [str(word) for word in command], port

    def __enter__(self):
        self.process = subprocess.Popen(self.command, stdout=subprocess.DEVNULL, stderr=subprocess.PIPE)
        line = self.process.stderr.readline()
        if not line.startswith(b"listening"):
            sys.exit(f"{self.command[0]}: {line.decode()}")
        return self

    def __exit__(self, kind, error, trace):
        if kind is not None:
            self.process.kill()
        if self.process.wait() != 0 and kind is None:
            sys.exit(f"{self.command[0]} answered the exit status {self.process.returncode}")
        self.process.stderr.close()

    def ask(self, message):
        """All bytes that are answered to a message."""
        with socket.create_connection(("127.0.0.1", self.port), timeout=60) as connection:
            connection.sendall(message)
            return rest_of(connection)

    def spent(self):
        """The nanoseconds that the server has been on a processor. It has one thread."""
        return int(Path(f"/proc/{self.process.pid}/schedstat").read_text().split()[0])

    def ask_all(self, messages):
        """Asks all messages, of which each has to be answered 200."""
        spent, began = self.spent(), time.monotonic()
        answers = [self.ask(message) for message in messages]
        clock, spent = time.monotonic() - began, self.spent() - spent
        for message, answer in zip(messages, answers):
            if not answer.startswith(b"HTTP/1.1 200 "):
                sys.exit(f"{message[:80]!r}: {answer!r}")
        return Taken(clock * 1e6 / len(messages), spent / 1e3 / len(messages), answers)


def rest_of(connection):
    """All that a connection still gives."""
    found = b""
    while piece := connection.recv(65536):
        found += piece
    return found


def office(program, db, count):
    """The office as it serves this many connections on a database."""
    port = free_port()
    return Server([program, "serve", "--db", db, "--port", port, "--count", count], port)
