"""Messages over HTTP: targets, methods, bodies, and how long each may be."""

import json
import socket

from tests.support import openapi
from tests.support.desk import asking, serving, take
from tests.support.program import ProgramCase, lines_of, new, rows, same
from tests.support.running import PATIENCE
from tests.support.twin_town import LODGE, SCRIPT, TALLY


# Targets without a route. Nothing of a target is decoded, and it has no query.
NO_ROUTES = """\
GET /
GET *
GET progress
GET /nothing
GET /Progress
GET /progress/
GET /progress/c1
GET /progress?con=c1
GET http://127.0.0.1/progress
GET /station
GET /station/s1/
GET /station/s1/tally
POST /station/s1/lodge/
POST /station/s1/lodge?rev=1
POST /station/s1/s2/lodge
GET /con
GET /con/c1/
GET /con/c1/Tally
GET /con/c1/%74ally
POST /con/c1/lodge
POST /con/c1/import/comma
POST /con/c1/trial/comma
POST /con/c1/import/semicolon/
"""


# Codes that no station and no constituency has: case counts, and a code is not decoded.
NO_CODES = {
    "no_constituency": (
        "GET /con/zz/tally",
        "GET /con/zz/result",
        "GET /con/zz/provisional",
        "GET /con/c-1_Z",
        "GET /con/C1",
        "GET /con/ABCDEFGHIJKLMNOP",
        "GET /con/ABCDEFGHIJKLMNOPQ",
        "GET /con/{c}",
        "GET /con/c1?edition=1",
        "POST /con/c.1/import/semicolon",
        "POST /con/C1/certify",
    ),
    "no_station": (
        "GET /station/S1",
        "GET /station/s%31",
        "GET /station/sé",
        "POST /station/s1;/close",
        "POST /station/zz/lodge",
    ),
}


def has_word(desk, message, status, word):
    head, _, body = desk.send(message).partition(b"\r\n\r\n")
    same((int(head.split()[1]), json.loads(body)["word"]), (status, word), message)


# Bodies that are no command of their route: a key is not there or has another value, or the text is
# no object.
BAD_BODIES = r"""
close s1 {}
close s1 {"Rev":1}
close s1 {"edition":1}
close s1 {"rev":"1"}
close s1 {"rev":1.0}
close s1 {"rev":1e0}
close s1 {"rev":-0}
close s1 {"rev":-1}
close s1 {"rev":01}
close s1 {"rev":+1}
close s1 {"rev":4294967296}
close s1 {"rev":18446744073709551617}
close s1 {"rev":null}
close s1 {"rev":true}
close s1 {"rev":[1]}
close s1 {"rev":{"rev":1}}
close s1 {"rev":2,"rev":"1"}
certify c1 {"rev":1}
vacate c1 {"list":"B","place":"1","note":"x"}
lodge s1 {"slip":"p1","votes":[50,40],"spoiled":1}
lodge s1 {"slip":"p1","votes":[50,40],"blank":2}
lodge s1 {"slip":"p1","votes":[50,40],"blank":2,"spoiled":4294967296}
lodge s1 {"votes":[50,40],"blank":2,"spoiled":1}
lodge s1 {"slip":"p1","blank":2,"spoiled":1}
lodge s1 {"slip":1,"votes":[50,40],"blank":2,"spoiled":1}
lodge s1 {"slip":"","votes":[50,40],"blank":2,"spoiled":1}
lodge s1 {"slip":"p 1","votes":[50,40],"blank":2,"spoiled":1}
lodge s1 {"slip":"ABCDEFGHIJKLMNOPQ","votes":[50,40],"blank":2,"spoiled":1}
lodge s1 {"slip":"p1","votes":50,"blank":2,"spoiled":1}
lodge s1 {"slip":"p1","votes":{"A":50,"B":40},"blank":2,"spoiled":1}
lodge s1 {"slip":"p1","votes":[50,"40"],"blank":2,"spoiled":1}
lodge s1 {"slip":"p1","votes":[50,40.0],"blank":2,"spoiled":1}
lodge s1 {"slip":"p1","votes":[-50,40],"blank":2,"spoiled":1}
lodge s1 {"slip":"p1","votes":[50,4294967296],"blank":2,"spoiled":1}
correct s1 {"slip":"p2","votes":[120,120],"blank":0,"spoiled":0}
correct s1 {"rev":3,"votes":[120,120],"blank":0,"spoiled":0}
confirm s1 {"slip":"p1","votes":[100,99],"blank":2,"spoiled":1}
confirm s1 {"rev":1,"votes":[100,99],"blank":2,"spoiled":1}
query s1 {"rev":2}
query s1 {"rev":2,"note":1}
query s1 {"rev":2,"note":null}
query s1 {"rev":2,"note":"\ud800"}
draw c1 {"edition":1}
draw c1 {"order":["B","A"]}
draw c1 {"edition":1,"order":"BA"}
draw c1 {"edition":1,"order":["B",1]}
draw c1 {"edition":1,"order":["B","A."]}
reopen c1 {"edition":3}
reopen c1 {"note":"recount"}
vacate c1 {"place":1,"note":"resigned"}
vacate c1 {"list":"B C","place":1,"note":"resigned"}
vacate c1 {"list":"B","note":"resigned"}
vacate c1 {"list":"B","place":1}
close s1 null
close s1 1
close s1 "rev"
close s1 [1]
close s1 [{"rev":1}]
close s1 {"rev":1
close s1 {"rev":1}}
close s1 {"rev":1}{"rev":1}
close s1 {"rev":1,}
close s1 {rev:1}
close s1 {'rev':1}
close s1 {"rev" 1}
close s1 {"rev":1}//
close s1 rev=1
"""


# Further keys, other orders of keys, white space and escapes are JSON's own. Where a key is given
# twice the last value is taken. A number is any of 32 bits, a note any text and a code any code:
# what the office takes is looked at later.
GOOD_BODIES = r"""
lodge s1 {"spoiled":1,"blank":2,"votes":[50,40],"slip":"\u0070-1_Z"} = 200 {"ok":"lodged","rev":1}
close s1  { "note" : [null, {"rev": "x"}] , "rev" : 7 }  = 409 {"now":1,"refused":11,"word":"stale"}
close s1 {"rev":0} = 409 {"now":1,"refused":11,"word":"stale"}
close s1 {"rev":4294967295} = 409 {"now":1,"refused":11,"word":"stale"}
close s1 {"rev":1,"rev":2} = 409 {"now":1,"refused":11,"word":"stale"}
close s1 {"rev":"1","rev":2} = 409 {"now":1,"refused":11,"word":"stale"}
lodge s1 {"slip":"p1","votes":[],"blank":2,"spoiled":1} = 400 {"refused":4,"word":"bad_counts"}
lodge s1 {"slip":"p1","votes":[4294967295,0],"blank":0,"spoiled":0} = 400
    {"refused":4,"word":"bad_counts"}
lodge s1 {"slip":"ABCDEFGHIJKLMNOP","votes":[50,40],"blank":2,"spoiled":1} = 409
    {"refused":7,"rev":1,"word":"differs"}
query s1 {"rev":1,"note":""} = 400 {"refused":5,"word":"bad_note"}
query s1 {"rev":1,"note":"a\tb"} = 400 {"refused":5,"word":"bad_note"}
query s1 {"\u0072ev":1,"note":"\u00e9 \"x\" \ud83d\ude00"} = 200 {"ok":"moved","rev":2}
draw c1 {"edition":1,"order":[]} = 409 {"left":1,"refused":14,"word":"not_all_closed"}
draw c1 {"edition":1,"order":["b","B","b"]} = 409 {"left":1,"refused":14,"word":"not_all_closed"}
vacate c1 {"list":"b","place":0,"note":"x"} = 404 {"refused":3,"word":"no_candidate"}
"""


AFTER_THEM = (
    '{"blank":2,"note":"é \\"x\\"'
    ' 😀","rev":2,"slip":"p-1_Z","spoiled":1,"station":"s1","status":"queried","votes":[50,40]}'
)


def longest_head(method, path, length):
    """A head of 16,384 bytes with 64 fields, of which the last one has a long name and a long
    value.
    """
    lines = [
        f"{method} {path} HTTP/1.1",
        f"Content-Length: {length}",
        *(f"field-{n}: {n}" for n in range(62)),
        f"{'n' * 7000}: ",
    ]
    text = "\r\n".join(lines)
    return f"{text}{'x' * (16380 - len(text))}\r\n\r\n".encode()


class Messages(ProgramCase):
    def test_messages_that_are_refused(self):
        new()
        close = b"POST /station/s1/close HTTP/1.1\r\n"
        cases = (
            (b"", 400, "bad_head"),
            (b"GET /progress HTTP/1.1\r\n" + b"a: b\r\n" * 65 + b"\r\n", 400, "bad_head"),
            (b"GET /progress HTTP/1.1\r\na: " + b"b" * 20000, 400, "head_too_long"),
            (close + b"\r\n", 411, "length_required"),
            (
                close + b"Transfer-Encoding: chunked\r\nContent-Length: 1\r\n\r\nx",
                411,
                "length_required",
            ),
            (close + b"Content-Length: x\r\n\r\n", 400, "bad_length"),
            (close + b"Content-Length: +1\r\n\r\nx", 400, "bad_length"),
            (close + b"Content-Length: 1\r\nContent-Length: 1\r\n\r\nx", 400, "bad_length"),
            (close + b"Content-Length: 1048577\r\n\r\n", 400, "body_too_long"),
            (close + b"Content-Length: 9\r\n\r\n{}", 400, "ended_early"),
            (b"GET /nothing HTTP/1.1\r\n\r\n", 404, "no_route"),
            (b"GET /" + b"a" * 16366 + b" HTTP/1.1\r\n\r\n", 404, "no_route"),
            ("GET /caña HTTP/1.1\r\n\r\n".encode(), 404, "no_route"),
            (b"GET /ca\xf1a HTTP/1.1\r\n\r\n", 400, "bad_head"),
            (b"PUT /progress HTTP/1.1\r\n\r\n", 405, "no_method"),
            (b"GET /con/zz/tally HTTP/1.1\r\n\r\n", 404, "no_constituency"),
            (b"GET /station/zz HTTP/1.1\r\n\r\n", 404, "no_station"),
            (b"GET /station/s1 HTTP/1.1\r\n\r\n", 404, "no_return"),
            *(
                (close + f"Content-Length: {len(body)}\r\n\r\n{body}".encode(), 400, "bad_body")
                for body in (
                    "",
                    "[" * 128 + "]" * 128,
                    '{"rev":1.0}',
                    '{"rev":4294967296}',
                    '{"rev":"1"}',
                    '{"rev":1} x',
                    "{}",
                )
            ),
        )
        with serving("office.db", len(cases)) as desk:
            for message, status, word in cases:
                with self.subTest(message=message, status=status, word=word):
                    head, _, body = desk.send(message).partition(b"\r\n\r\n")
                    self.assertEqual(
                        (int(head.split()[1]), json.loads(body)["word"]), (status, word)
                    )
        self.assertEqual(rows()["returns"], [])

    def test_targets_and_methods(self):
        """A target has one route at most, with one method; the code in it is looked up before the
        body is read.
        """
        new()
        routes = {
            path.format(s="s1", c="c1"): method.upper() for path, method, _ in openapi.operations()
        }
        others = [
            (method, path)
            for path, mine in routes.items()
            for method in ("GET", "POST", "PUT", "HEAD", "DELETE", mine.lower())
            if method != mine
        ]
        lines, codes = NO_ROUTES.splitlines(), [
            (word, line) for word, lines in NO_CODES.items() for line in lines
        ]
        with serving("office.db", len(others) + len(lines) + len(codes)) as desk:
            for method, path in others:
                with self.subTest(method=method, path=path):
                    has_word(desk, asking(method, path), 405, "no_method")
            for line in lines:
                with self.subTest(line=line):
                    has_word(desk, asking(*line.split(" ")), 404, "no_route")
            for word, line in codes:
                with self.subTest(word=word, line=line):
                    has_word(desk, asking(*line.split(" "), "x"), 404, word)
        self.assertEqual(rows()["returns"], [])

    def test_bodies_that_are_commands(self):
        new()
        bad, read = lines_of(BAD_BODIES), lines_of(GOOD_BODIES)
        with serving("office.db", len(bad) + len(read) + 1) as desk:

            def sent(line):
                verb, of, body = line.split(" ", 2)
                kind = "con" if verb in ("draw", "certify", "reopen", "vacate") else "station"
                return desk.ask("POST", f"/{kind}/{of}/{verb}", body.encode())[::2]

            for line in bad:
                with self.subTest(line=line):
                    self.assertEqual(sent(line), (400, '{"word":"bad_body"}'))
            for line in read:
                with self.subTest(line=line):
                    line, answer = line.split(" = ")
                    status, text = answer.split(" ", 1)
                    self.assertEqual(sent(line), (int(status), text))
            self.assertEqual(desk.ask("GET", "/station/s1")[::2], (200, AFTER_THEM))

    def test_bodies_that_are_read(self):
        """Of bytes that are no line of text, values one in another, and a long note: the body is
        bad, or its command is looked at.
        """
        new()
        nested = {
            arrays: b'{"rev":1,"more":' + b"[" * arrays + b"]" * arrays + b"}"
            for arrays in (126, 127)
        }
        cases = (
            (b' \t\r\n{"rev":\n1}\r\n', 404, "no_return"),
            (b'{"rev":1}\x00', 400, "bad_body"),
            (b'\xef\xbb\xbf{"rev":1}', 400, "bad_body"),
            (b"\xff", 400, "bad_body"),
            (b'{"rev":1,"note":"\xff"}', 400, "bad_body"),
            (b'{"rev":1,"note":"\xed\xa0\x80"}', 400, "bad_body"),
            (b'{"rev":1,"note":"\n"}', 400, "bad_body"),
            (b'{"rev":1,"note":"\x7f"}', 404, "no_return"),
            (nested[126], 404, "no_return"),
            (nested[127], 400, "bad_body"),
        )
        with serving("office.db", len(cases) + 3) as desk:
            for body, status, word in cases:
                with self.subTest(body=body, status=status, word=word):
                    found, _, text = desk.ask("POST", "/station/s1/close", body)
                    self.assertEqual((found, json.loads(text)["word"]), (status, word))
            # The longest body: the return, and spaces after it.
            body = LODGE[LODGE.index(b"{") :].ljust(1048576)
            self.assertEqual(
                desk.ask("POST", "/station/s1/lodge", body)[::2], (200, '{"ok":"lodged","rev":1}')
            )
            for note, answer in (
                ("n" * 201, (400, '{"refused":5,"word":"bad_note"}')),
                ("n" * 200, (200, '{"ok":"moved","rev":2}')),
            ):
                self.assertEqual(
                    desk.ask("POST", "/station/s1/query", json.dumps({"rev": 1, "note": note}))[
                        ::2
                    ],
                    answer,
                )

    def test_the_longest_messages(self):
        """Each command with a body of 1,048,576 bytes, which is filled by spaces, a long text, or
        many members of an array under a further key; each second one under a head of 16,384 bytes
        and 64 fields.
        """
        new()
        steps = list(SCRIPT)
        steps[2] = (
            "/station/s1/confirm",
            {"rev": 1, "slip": "p1", "votes": [100, 100], "blank": 0, "spoiled": 0},
            *SCRIPT[2][2:],
        )
        # Beside a long head: empty lines before a short one, and targets that have nothing of
        # theirs.
        heads = [
            (longest_head("GET", "/progress", 0), b"200"),
            (b"\r\n" * 8000 + b"GET /progress HTTP/1.1\r\n\r\n", b"200"),
        ]
        heads += [
            (f"GET {path.format('x' * 16000)} HTTP/1.1\r\n\r\n".encode(), b"404")
            for path in ("/station/{}", "/con/{}/tally", "/con/c1/{}", "/{}")
        ]
        with serving("office.db", len(steps) + len(heads)) as desk:
            for number, (path, body, status, answer) in enumerate(steps):
                text = json.dumps(body | ({}, {"more": ""}, {"more": [0, 0]})[number % 3])
                room = 1048576 - len(text)
                text = (
                    text.ljust(1048576),
                    text.replace('""', f'"{"x" * room}"'),
                    text.replace("[0, 0]", f"[{'0,' * (room // 2)}0, 0]"),
                )[number % 3].ljust(1048576)
                head = (
                    f"POST {path} HTTP/1.1\r\nContent-Length: 1048576\r\n\r\n".encode()
                    if number % 2
                    else longest_head("POST", path, 1048576)
                )
                self.assertEqual(
                    (len(text), len(head)), (1048576, len(head) if number % 2 else 16384)
                )
                found = desk.send(head + text.encode())
                self.assertEqual(
                    (int(found.split(b" ")[1]), found.rpartition(b"\n")[2].decode()),
                    (status, answer),
                    (path, number),
                )
            for head, status in heads:
                with self.subTest(head=head, status=status):
                    self.assertEqual(desk.send(head).split(b" ")[1], status)

    def test_values_that_are_long(self):
        """The fault of a long value is reported, as of a short one: of texts, of votes, of the
        lists of a lot.
        """
        new()
        votes = {"slip": "p1", "votes": [0] * 300000, "blank": 0, "spoiled": 0}
        slip = {"slip": "p" * 1000000, "votes": [100, 100], "blank": 0, "spoiled": 0}
        note, order = "é" * 500000, ["A"] * 100000
        bad_body, bad_counts = (400, '{"word":"bad_body"}'), (
            400,
            '{"refused":4,"word":"bad_counts"}',
        )
        bad_note = (400, '{"refused":5,"word":"bad_note"}')
        cases = [
            (f"/station/s1/{verb}", rev | body, answer)
            for verb, rev in (("lodge", {}), ("correct", {"rev": 1}), ("confirm", {"rev": 1}))
            for body, answer in ((votes, bad_counts), (slip, bad_body))
        ]
        cases += [
            ("/station/s1/query", {"rev": 2, "note": note}, bad_note),
            ("/con/c1/reopen", {"edition": 1, "note": note}, bad_note),
            ("/con/c1/vacate", {"list": "A", "place": 1, "note": note}, bad_note),
            ("/con/c1/vacate", {"list": "A" * 1000000, "place": 1, "note": "x"}, bad_body),
            (
                "/con/c1/vacate",
                {"list": "A", "place": 4294967295, "note": "x"},
                (404, '{"refused":3,"word":"no_candidate"}'),
            ),
            ("/con/c1/draw", {"edition": 1, "order": ["A" * 1000000]}, bad_body),
            (
                "/con/c1/draw",
                {"edition": 1, "order": order},
                (409, '{"group":["A","B"],"refused":18,"word":"lot_wrong_group"}'),
            ),
        ]
        with serving("office.db", len(cases) + 3) as desk:
            for step in SCRIPT[:1] + SCRIPT[2:3]:
                take(desk, step)
            for path, body, answer in cases:
                with self.subTest(path=path, body=body, answer=answer):
                    text = json.dumps(body, ensure_ascii=False, separators=(",", ":")).encode()
                    assert 300000 < len(text) <= 1048576 or path.endswith("vacate"), len(text)
                    self.assertEqual(desk.ask("POST", path, text)[::2], answer)
            desk.get("/con/c1/tally", TALLY)

    def test_a_message_that_comes_byte_by_byte(self):
        """The longest head, and a beginning of the longest body: some eighty thousand reads give
        one byte each.
        """
        new()
        body = (
            json.dumps({"slip": "p1", "votes": [50, 40], "blank": 2, "spoiled": 1})
            .encode()
            .ljust(1048576)
        )
        with serving("office.db", 1) as desk, socket.create_connection(
            ("127.0.0.1", desk.port), timeout=PATIENCE
        ) as it:
            it.setsockopt(socket.IPPROTO_TCP, socket.TCP_NODELAY, 1)
            for byte in longest_head("POST", "/station/s1/lodge", len(body)) + body[:65536]:
                it.sendall(bytes([byte]))
            it.sendall(body[65536:])
            assert it.recv(65536).endswith(b'{"ok":"lodged","rev":1}')
