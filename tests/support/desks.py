"""Servers in the place of an office: with given answers, or with its model."""

import contextlib
import json
import re
import socket
import threading
import time
import tomllib

from tests.support import model
from tests.support.site import same


@contextlib.contextmanager
def desk_with(answered, port=0):
    """In place of the office something that sends what this function answers to the head and the
    body of a message; its port."""

    def serve(listener):
        with contextlib.suppress(OSError):
            while True:
                connection, _ = listener.accept()
                with connection:
                    connection.sendall(answered(*whole_message(connection)))

    with socket.create_server(("127.0.0.1", port), backlog=512) as listener:
        threading.Thread(target=serve, args=(listener,), daemon=True).start()
        yield listener.getsockname()[1]
        listener.shutdown(socket.SHUT_RDWR)


@contextlib.contextmanager
def recording_desk(answer=b'{"ok":"lodged","rev":1}', wait=0.0):
    """In place of the office something that keeps what came; its port, and the messages."""
    messages = []

    def recorded(*message):
        messages.append(message)
        time.sleep(wait)
        return (b"HTTP/1.1 200 OK\r\nContent-Type: application/json\r\nContent-Length: %d\r\n"
                b"Connection: close\r\n\r\n%s" % (len(answer), answer))

    with desk_with(recorded) as port:
        yield port, messages


def whole_message(connection):
    """Head and body of a message; its body has the length that the head says."""
    read = b""
    while b"\r\n\r\n" not in read:
        part = connection.recv(65536)
        if not part:
            return read, b""
        read += part
    head, body = read.split(b"\r\n\r\n", 1)
    length = re.search(rb"(?i)^content-length: *(\d+)", head, re.M)
    while length and len(body) < int(length[1]):
        part = connection.recv(65536)
        if not part:
            break
        body += part
    return head, body


@contextlib.contextmanager
def answering_desk(answers):
    """In place of the office something that gives these answers: a text, JSON, a status, or what a
    function returns; its port, and what was asked."""
    asked = []

    def answered(head, _):
        target = head.split(b" ")[1].decode()
        asked.append(target)
        return answer_of(answers.get(target, 404))

    with desk_with(answered) as port:
        yield port, asked


def answer_of(answer):
    answer = answer() if callable(answer) else answer
    status, body = (answer, "{}") if isinstance(answer, int) else answer if isinstance(answer,
                                                                                       tuple) else (
        200, answer)
    body = (json.dumps(body) if isinstance(body, (dict, list)) else body).encode()
    kind = "application/json" if body.startswith((b"{", b"[")) else "text/plain; charset=utf-8"
    return (f"HTTP/1.1 {status} X\r\nContent-Type: {kind}\r\nContent-Length: {len(body)}\r\n"
            "Connection: close\r\n\r\n").encode() + body


@contextlib.contextmanager
def modelled(setup):
    """In place of the office its model in plain Python; the model, and its port."""
    office = model.Office(tomllib.loads(setup))
    with desk_with(lambda head, _: answer_of(
        office.ask("GET", head.split(b" ")[1].decode()))) as port:
        yield office, port


@contextlib.contextmanager
def commanded(setup):
    """In place of the office its model, which takes commands too; the model, its port, and the
    targets and bodies of the commands that came."""
    office, came = model.Office(tomllib.loads(setup)), []

    def answered(head, body):
        method, target = head.decode().split(" ")[:2]
        if method == "POST":
            came.append((target, body.decode()))
        return answer_of(office.ask(method, target, body.decode()))

    with desk_with(answered) as port:
        yield office, port, came


@contextlib.contextmanager
def empty_desk(answered=lambda body: answer_of("{}")):
    """In place of the office something that has no constituency, and gives to each command what a
    function of its body returns; its port, and the bodies that came."""
    came = []

    def answer(head, body):
        if head.startswith(b"GET "):
            return answer_of("" if head.startswith(b"GET /progress ") else 404)
        came.append(body)
        return answered(body)

    with desk_with(answer) as port:
        yield port, came


def done(office, target, body):
    """Sends a command to the model of an office, which has to accept it."""
    same(office.ask("POST", target, body if isinstance(body, str) else json.dumps(body))[0], 200)
