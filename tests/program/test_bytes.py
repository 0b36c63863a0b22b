"""A message that is cut, reset or changed at each byte."""

import json
import shutil
import socket

from tests.support import openapi
from tests.support.desk import reset, serving
from tests.support.program import ProgramCase, new, only, recount, same
from tests.support.running import PATIENCE
from tests.support.twin_town import LODGE, PROGRESS


def answered(message, desk):
    """The status and the body of an answer, which is one of those that docs/FORMATS.md names."""
    found = desk.send(message)
    head, _, body = found.partition(b"\r\n\r\n")
    line, *fields = head.decode().split("\r\n")
    status, phrase = line.removeprefix("HTTP/1.1 ").split(" ", 1)
    value = json.loads(body)
    if "refused" in value:
        same((value["word"], status), openapi.refusals()[value["refused"]])
    elif "word" in value:
        same(status, openapi.words()[value["word"]])
    else:
        same(status, "200")
    allow = [f"Allow: {'GET' if b'/lodge' not in message else 'POST'}"] if status == "405" else []
    same(
        fields,
        [
            "Content-Type: application/json",
            f"Content-Length: {len(body)}",
            *allow,
            "Connection: close",
        ],
    )
    same((phrase, body.decode()), (openapi.PHRASES[status], openapi.compact(value)))
    return int(status), value


def recorded(desk, text):
    """A return of this text is recorded, or none where there is no text."""
    status, _, body = desk.ask("GET", "/station/s1")
    if text is None:
        same((status, body), (404, '{"refused":8,"word":"no_return"}'))
    else:
        whole = {**text, "note": "", "rev": 1, "station": "s1", "status": "received"}
        same((status, json.loads(body)), (200, whole))


class Bytes(ProgramCase):
    def test_every_beginning_of_a_message(self):
        """Each is answered as one that ended early, and nothing comes of it."""
        new()
        with serving("office.db", 2 * len(LODGE) + 1) as desk:
            for length in range(len(LODGE)):
                with self.subTest(length=length):
                    status, value = answered(LODGE[:length], desk)
                    self.assertEqual(
                        (status, value["word"]),
                        (400, "bad_head" if length < LODGE.index(b"{") else "ended_early"),
                    )
                    recorded(desk, None)
            desk.get("/progress", PROGRESS)
        recount()

    def test_a_connection_that_is_reset_at_every_byte(self):
        """Nothing is answered, nothing comes of it, and the next one is served."""
        new()
        with serving("office.db", len(LODGE) + 2, failed=len(LODGE)) as desk:
            for length in range(len(LODGE)):
                it = socket.create_connection(("127.0.0.1", desk.port), timeout=PATIENCE)
                it.sendall(LODGE[:length])
                reset(it)
            recorded(desk, None)
            desk.get("/progress", PROGRESS)
        recount()

    def test_every_byte_of_a_message(self):
        """Each is changed to another: the answer is one that is documented, and the office has the
        whole return or none.
        """
        new(db="new.db")
        lodged = 0
        for place in range(len(LODGE)):
            with self.subTest(place=place):
                message = bytearray(LODGE)
                message[place] = (message[place] + 1) % 256
                shutil.copy("new.db", "office.db")
                with serving("office.db", 3) as desk:
                    status, value = answered(bytes(message), desk)
                    if status == 200:
                        lodged += 1
                        self.assertEqual(value, {"ok": "lodged", "rev": 1})
                    text = json.loads(message[LODGE.index(b"{") :]) if status == 200 else None
                    recorded(desk, text)
                    desk.get(
                        "/progress",
                        (
                            PROGRESS
                            if text is None
                            else PROGRESS.replace("1      1      0", "1      0      1")
                        ),
                    )
                only("new.db", "office.db")
        self.assertGreater(lodged, 5)
