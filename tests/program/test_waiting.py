"""Clients that keep the office waiting, by the clock."""

import contextlib
import os
import shutil
import socket
import threading
import time
from concurrent.futures import ThreadPoolExecutor

from tests.support.certificates import reopened
from tests.support.desk import serving
from tests.support.program import ProgramCase, new, same
from tests.support.running import PATIENCE, tries
from tests.support.twin_town import LODGE, PROGRESS


def given_up(desk, message, connected):
    """Sends a byte a second of a message, without end, and gives the seconds until the office ended
    the connection, unanswered.
    """
    with socket.create_connection(("127.0.0.1", desk.port), timeout=1) as it:
        connected.set()
        began = time.monotonic()
        for number in range(90):
            with contextlib.suppress(TimeoutError):
                try:
                    it.sendall(message[number : number + 1])
                    found = it.recv(1)
                except ConnectionError:
                    found = b""
                same(found, b"")
                return time.monotonic() - began
    raise AssertionError("the connection was not ended")


def waits_for(db, message):
    """The view of one client that keeps the office waiting, while the next one is there already and
    then gets its answer, as a third does.
    """
    with serving(db, 3, failed=1) as desk, ThreadPoolExecutor(1) as other:
        connected = threading.Event()
        waited = other.submit(given_up, desk, message, connected)
        # So that it is the second in the line.
        connected.wait(PATIENCE)
        desk.get("/progress", PROGRESS)
        seconds = waited.result()
        desk.get("/progress", PROGRESS)
        return seconds


def read_late(db):
    """The answer as a client reads it that takes no byte for fifteen seconds, while the next one is
    there already and waits for its answer.
    """
    with serving(db, 2) as desk, ThreadPoolExecutor(1) as other, socket.socket() as it:
        it.setsockopt(socket.SOL_SOCKET, socket.SO_RCVBUF, 4096)
        it.settimeout(PATIENCE)
        it.connect(("127.0.0.1", desk.port))
        it.sendall(b"GET /con/c1/past HTTP/1.1\r\n\r\n")
        it.shutdown(socket.SHUT_WR)
        waits = other.submit(
            desk.get,
            "/progress",
            "c1                    1      1      0      0      0      0   2001 open\n",
        )
        time.sleep(15)
        assert not waits.done()
        found = b""
        while piece := it.recv(65536):
            found += piece
        waits.result()
        return found


def never_read(db):
    """How many seconds a client that takes no byte of its answer keeps the next one waiting."""
    with serving(db, 2, failed=1) as desk, socket.socket() as it:
        it.setsockopt(socket.SOL_SOCKET, socket.SO_RCVBUF, 4096)
        it.settimeout(PATIENCE)
        it.connect(("127.0.0.1", desk.port))
        it.sendall(b"GET /con/c1/past HTTP/1.1\r\n\r\n")
        it.shutdown(socket.SHUT_WR)
        began = time.monotonic()
        desk.get(
            "/progress", "c1                    1      1      0      0      0      0   2001 open\n"
        )
        return time.monotonic() - began


def stays(db):
    """The seconds until a client has its answer and its end, and those for which it keeps the next
    one waiting, as it sends and closes nothing then.
    """
    with serving(db, 2) as desk, socket.create_connection(
        ("127.0.0.1", desk.port), timeout=PATIENCE
    ) as it:
        began = time.monotonic()
        it.sendall(b"GET /progress HTTP/1.1\r\n\r\n")
        while it.recv(65536):
            pass
        ended = time.monotonic()
        desk.get("/progress", PROGRESS)
        return ended - began, time.monotonic() - ended


def pauses(db):
    """The answer to a client whose message comes in three parts, with eight seconds between them,
    and to one that sends a body that is too long, with a pause in its middle, before it reads.
    """
    with serving(db, 3) as desk:
        with socket.create_connection(("127.0.0.1", desk.port), timeout=PATIENCE) as it:
            it.sendall(LODGE[:20])
            for part in (LODGE[20:-20], LODGE[-20:]):
                time.sleep(8)
                it.sendall(part)
            first = it.recv(65536)
        with socket.create_connection(("127.0.0.1", desk.port), timeout=PATIENCE) as it:
            it.sendall(
                b"POST /con/c1/import HTTP/1.1\r\nContent-Length: 2000000\r\n\r\n" + b"x" * 1000000
            )
            time.sleep(0.7)
            it.sendall(b"x" * 1000000)
            second = it.recv(65536)
        desk.get("/progress", PROGRESS.replace("1      1      0", "1      0      1"))
        return first, second


def is_left_alone(db):
    """A server to which nobody comes for longer than a read may wait, and then again, so that more
    than the time of a message is over: it answers both who come.
    """
    with serving(db, 2) as desk:
        for _ in range(2):
            time.sleep(16)
            desk.get("/progress", PROGRESS)


def kept_waiting(past):
    slow = f"GET /progress HTTP/1.1\r\na: {'b' * 200}".encode()
    with ThreadPoolExecutor(7) as together:
        late = together.submit(read_late, "late/office.db")
        never = together.submit(never_read, "never/office.db")
        stayed = together.submit(stays, "stays/office.db")
        paused = together.submit(pauses, "pauses/office.db")
        alone = together.submit(is_left_alone, "alone/office.db")
        silent, slow = together.map(waits_for, ("silent/office.db", "slow/office.db"), (b"", slow))
        head, _, body = late.result().partition(b"\r\n\r\n")
    alone.result()
    assert [
        it.endswith(end)
        for it, end in zip(paused.result(), (b'"rev":1}', b'{"word":"body_too_long"}'))
    ] == [True, True], paused.result()
    ended, stayed = stayed.result()
    print(
        f"silent {silent:.1f} s, slow {slow:.1f} s, never {never.result():.1f} s, ended"
        f" {ended:.1f} s, stayed {stayed:.1f} s"
    )
    assert head.startswith(b"HTTP/1.1 200 OK\r\n") and body == past, (head, len(body), len(past))
    # (a read may wait for ten seconds, and a message or an answer for thirty: twenty more are the
    # machine's; without these limits it would be thirty, or without end)
    assert 9.5 <= silent <= 25, silent
    assert 29 <= slow <= 50, slow
    assert 9.5 <= never.result() <= 50, never.result()
    assert ended <= 1.5, ended
    assert stayed <= 8, stayed


class Waiting(ProgramCase):
    def test_clients_that_keep_the_office_waiting(self):
        """Ten seconds for a read, thirty for a message in all: a client that sends nothing is given
        up, and one that sends a byte a second, but not one that pauses twice for eight seconds. Of
        the thirty for an answer one may take nothing for fifteen: it has the answer whole. One that
        takes nothing at all is given up, and one that has its answer and stays is waited for two
        seconds. Between clients the server waits as long as it has to.
        """
        # The offices are made one after the other, since each is made of the same file.
        for name in ("silent", "slow", "late", "never", "stays", "pauses", "alone"):
            os.mkdir(name)
        for name in ("silent", "slow", "stays", "pauses", "alone"):
            new(db=f"{name}/office.db")
        # Of six million bytes: more than the buffers of two sockets take.
        past = reopened(1000, "late/office.db").encode()
        shutil.copy("late/office.db", "never/office.db")
        tries(lambda: kept_waiting(past))
