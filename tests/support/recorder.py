"""The recorder by itself."""

import contextlib
import socket
import subprocess
import sys
from datetime import datetime
from pathlib import Path

from tests.support.running import PATIENCE, until
from tests.support.scripts import PROGRAMS, loaded
from tests.support.site import DEPLOY

FAILING = PROGRAMS / "failing_disk.py"


@contextlib.contextmanager
def recorder_alone(desk, *words, program=(), output=None):
    """The recorder without the proxy, in the folder `recorder`, with the record `commands.log`; its
    process."""
    Path("recorder/head").unlink(missing_ok=True)
    with open("copy", "wb") as copy, open("said", "wb") as said:
        process = subprocess.Popen([sys.executable, *program, DEPLOY / "recorder.py", "recorder",
                                    "commands.log", "--room", "0", "--desk", f"127.0.0.1:{desk}",
                                    *words], stdout=output or copy, stderr=said, umask=0)
    try:
        until(lambda: Path("recorder/head").exists() or process.poll() is not None)
        yield process
    finally:
        process.kill()
        process.wait()


def command(target, body=b"{}", name="clara", role="clerk", allowed="1"):
    """Sends a command as the proxy does; the answer's status, or None where there is none."""
    with socket.socket(socket.AF_UNIX) as it:
        it.settimeout(PATIENCE)
        it.connect("recorder/1.sock")
        head = (f"POST {target} HTTP/1.0\r\nHost: recorder1\r\nOffice-Name: {name}\r\n"
                f"Office-Role: {role}\r\nOffice-Address: 192.0.2.1\r\n"
                f"Office-Allowed: {allowed}\r\nContent-Length: {len(body)}\r\n\r\n")
        it.sendall(head.encode() + body)
        answer = it.recv(65536)
        return int(answer[9:12]) if answer else None


def recorder_at(test, clock):
    """The recorder's module for a test, at the moment that the list `clock` has."""
    recorder = loaded("recorder.py")

    class Clock(datetime):
        @classmethod
        def now(cls, tz=None):
            return clock[0]

    recorder.datetime = Clock
    recorder.sys = type("Sys", (), {"stdout": test.enterContext(open("copy", "wb"))})
    return recorder
