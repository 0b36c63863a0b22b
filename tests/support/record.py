"""Records of commands, as the recorder writes them, and what is sent again from them."""

import base64
import hashlib
import json
import os

from tests.support import tools
from tests.support.running import PATIENCE
from tests.support.site import DEPLOY, same


def replayed(port, record, *words):
    # A character that cannot be encoded is an error here, whatever the locale is.
    done = tools.run([DEPLOY / "replay", f"http://127.0.0.1:{port}", *words], input=record,
                     capture_output=True, timeout=PATIENCE,
                     env={**os.environ, "PYTHONIOENCODING": "ascii:strict"})
    same(done.stderr, b"")
    return done.returncode, done.stdout.decode()


def chained(*entries):
    """A record of these lines: each gets its number and the hash of the line before; bytes are put
    there as they are."""
    lines, before = [], "0" * 64
    for number, entry in enumerate(entries, 1):
        line = entry if isinstance(entry, bytes) else json.dumps(
            {"n": number, "time": f"2026-11-26T22:14:{number % 60:02}.000+00:00", **entry,
             "before": before}).encode()
        lines.append(line)
        before = hashlib.sha256(line).hexdigest()
    return b"".join(line + b"\n" for line in lines)


def a_command(body, path="/con/c1/import"):
    """A command as the recorder writes it."""
    return {"name": "clara", "role": "clerk", "address": "127.0.0.1", "office": 1, "method": "POST",
            "path": path} | (
        {"body": body} if isinstance(body, str)
        else {"body_base64": base64.b64encode(body).decode()})


LODGED = {"slip": "p1", "votes": [1, 2], "blank": 0, "spoiled": 0}


def recorded_200(front):
    """The commands that were done, by the record: path and answer of each."""
    commands = {line["n"]: line for line in front.lines() if "to" not in line}
    return [(commands[line["to"]]["path"], line["answer"]) for line in front.lines()
            if line.get("status") == 200 and "to" in line]
