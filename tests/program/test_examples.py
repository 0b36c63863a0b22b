"""Each example of docs/openapi.json, byte for byte."""

import json
import os
import resource
import shutil

from tests.support import openapi
from tests.support.desk import Desk, serving
from tests.support.office import (
    CONSTITUENCY,
    DOUBLE,
    LISTS,
    PROFILE,
    RETURNS,
    SETUP,
    THREE_STATIONS,
    constituency,
    party_list,
    station,
)
from tests.support.program import (
    ProgramCase,
    Ran,
    change,
    new,
    recount,
    rows,
    same,
    setup_of,
    show,
    shows,
)
from tests.support.twin_town import LODGE, PROGRESS, SCRIPT


def counted(votes):
    """A return of s1 is lodged and closed."""
    return [
        ("/station/s1/lodge", {"slip": "p1", "votes": votes, "blank": 0, "spoiled": 0}),
        ("/station/s1/close", {"rev": 1}),
    ]


RECOUNT = [step[:2] for step in SCRIPT if step[2] == 200]


CERTIFIED = [*counted([120, 100]), ("/con/c1/certify", {"edition": 1})]


ROWS = ("/con/c1/import", RETURNS.rstrip())


WORKED = ("/station/s1/lodge", json.loads(LODGE[LODGE.index(b"{") :]))


# A second constituency, which has the list B too.
PORT = (
    constituency("c2", "Port", 2, "d0")
    + party_list("B", "Beta", "Bo")
    + party_list("C", "Gamma", "Cleo")
    + station("t1", 100)
)


IN_PORT = [
    ("/station/t1/lodge", {"slip": "q1", "votes": [30, 10], "blank": 0, "spoiled": 0}),
    ("/station/t1/close", {"rev": 1}),
]


THIRD = ("/station/s3/lodge", {"slip": "p3", "votes": [30, 40], "blank": 1, "spoiled": 2})


# The states in which examples are given: a setup, the requests that lead there, and what is then
# changed by hand.
STATES = {
    "new": (SETUP, []),
    "received": (SETUP, RECOUNT[:1]),
    "closed": (SETUP, RECOUNT[:2]),
    "drawn": (SETUP, RECOUNT[:3]),
    "certified": (SETUP, RECOUNT[:4]),
    "vacated": (SETUP, RECOUNT[:5]),
    "reopened": (SETUP, RECOUNT[:6]),
    "queried": (SETUP, RECOUNT[:7]),
    "corrected": (SETUP, RECOUNT[:8]),
    "closed again": (SETUP, RECOUNT[:9]),
    "worked": (SETUP, [WORKED]),
    "three stations": (THREE_STATIONS, []),
    "imported": (THREE_STATIONS, [ROWS]),
    "no votes": (SETUP, counted([0, 0])),
    "no tie": (SETUP, counted([120, 100])),
    "certified without a lot": (SETUP, CERTIFIED),
    "hare": (SETUP.replace("dhondt", "hare"), RECOUNT[:4]),
    "three equal lists": (setup_of("dhondt", 2, "ABC"), counted([100, 100, 100])),
    "last revision": (SETUP, RECOUNT[:2], "UPDATE returns SET rev = 9999"),
    "last edition": (SETUP, RECOUNT[:2], "UPDATE cons SET edition = 9999"),
    "last certificate": (SETUP, CERTIFIED, "UPDATE cons SET edition = 9999"),
    "entered twice": (PROFILE + CONSTITUENCY + DOUBLE + LISTS + station("s1"), RECOUNT[:1]),
    "one of three missing": (THREE_STATIONS, [*counted([100, 100]), THIRD]),
    "two constituencies": (SETUP + PORT, RECOUNT[:4] + IN_PORT),
    "one of two certified": (SETUP + PORT, RECOUNT[:4]),
}


def given(state, body=None, s="s1", c="c1", **changes):
    """A state, and the request to which an example is the answer there: the route's own example,
    another body, or some changes.
    """
    assert state in STATES, state
    return state, {"s": s, "c": c}, body, changes


# Where each answer is given, by its name or by the name of its route and its own.
GIVEN = {
    "no_station": given("new", s="zz"),
    "no_constituency": given("new", c="zz"),
    "no_return": given("new"),
    "not_certified": given("new"),
    "progress report": given("new"),
    "station corrected": given("corrected"),
    "station received": given("imported", s="s2"),
    "constituency certified": given("certified"),
    "constituency entered_twice": given("entered twice"),
    "tally report": given("closed"),
    "report": given("certified"),
    "quota report": given("hare"),
    "past report": given("reopened"),
    "provisional report": given("closed"),
    "stations report": given("one of three missing"),
    "returns returns": given("closed"),
    "country country": given("two constituencies"),
    "results two": given("one of two certified"),
    "result certified": given("certified"),
    "result lot_needed": given("closed"),
    "other_method": given("hare"),
    "quota other_method": given("certified"),
    "lodge lodged": given("new"),
    "same": given("worked"),
    "differs": given("closed again"),
    "bad_body": given("new", "x"),
    "bad_counts": given("queried", votes=[50, 40, 30]),
    "too_many_votes": given("queried", votes=[300, 1]),
    "bad_note": given("certified", note=""),
    "query moved": given("reopened"),
    "correct moved": given("queried"),
    "close moved": given("received"),
    "certified": given("certified"),
    "exhausted": given("last revision", rev=9999),
    "stale": given("closed"),
    "query stale": given("closed", rev=1),
    "query wrong_status_2": given("queried", rev=3),
    "correct wrong_status_1": given("received", rev=1),
    "correct wrong_status_3": given("corrected", rev=4),
    "correct wrong_status_4": given("closed", rev=2),
    "close wrong_status_2": given("queried", rev=3),
    "close wrong_status_4": given("closed", rev=2),
    "confirm moved": given("received"),
    "confirm wrong_status_2": given("queried", rev=3),
    "confirm wrong_status_4": given("closed", rev=2),
    "differs_1": given("entered twice", votes=[100, 99]),
    "not_confirmed": given("entered twice"),
    "draw edition": given("closed"),
    "certify edition": given("drawn"),
    "reopen edition": given("certified"),
    "draw exhausted": given("last edition", edition=9999),
    "certify exhausted": given("last edition", edition=9999),
    "reopen exhausted": given("last certificate", edition=9999),
    "draw stale": given("drawn"),
    "certify stale": given("drawn", edition=1),
    "reopen stale": given("certified without a lot"),
    "not_all_closed": given("new", edition=1),
    "no_eligible": given("no votes", edition=1),
    "lot_stands": given("drawn", edition=2),
    "lot_not_needed": given("no tie"),
    "lot_wrong_group": given("closed", order=["A"]),
    "lot_missing_1": given("closed", edition=1),
    "lot_missing_2": given("three equal lists", edition=1),
    "nobody": given("certified"),
    "next": given("certified", list="A"),
    "no_candidate": given("certified", place=2),
    "already_gone": given("vacated"),
    "not_holder": given("certified", list="A", place=2),
    "lodged": given("three stations"),
    "import differs": given("imported", ROWS[1].replace("30,40", "31,40")),
    "bad_header": given("three stations", "station"),
    "import too_long": given("three stations", RETURNS + "x\n" * 19998),
    "importSemicolon too_long": given("three stations", RETURNS.replace(",", ";") + "x\n" * 19998),
    "trial named": given("imported", ROWS[1].replace("30,40", "31,40").replace("50,60", "x,60")),
    "trial too_long": given("three stations", RETURNS + "x\n" * 19998),
    "trialSemicolon too_long": given("three stations", RETURNS.replace(",", ";") + "x\n" * 19998),
}


# The messages of any route that have these answers, whatever the state.
FAULTY = {
    "bad_head": "{method} {target}\r\n\r\n",
    "head_too_long": "{method} {target} HTTP/1.1\r\na: " + "b" * 16384,
    "bad_length": "{method} {target} HTTP/1.1\r\nContent-Length: x\r\n\r\n",
    "body_too_long": "{method} {target} HTTP/1.1\r\nContent-Length: 1048577\r\n\r\n",
    "ended_early": "{method} {target} HTTP/1.1\r\nContent-Length: 3\r\n\r\n{{}}",
    "length_required": "{method} {target} HTTP/1.1\r\nTransfer-Encoding: chunked\r\n\r\n",
    "no_method": "PUT {target} HTTP/1.1\r\n\r\n",
    "no_route": "{method} {target}/ HTTP/1.1\r\n\r\n",
}


def example_answer(status, response, kind, value):
    """All bytes of the answer that an example stands for."""
    text = openapi.compact(value) if kind == "application/json" else value
    allow = [
        f"Allow: {it['schema']['enum'][0]}\r\n"
        for name, it in response["headers"].items()
        if name == "Allow"
    ]
    return (
        f"HTTP/1.1 {status} {openapi.PHRASES[status]}\r\nContent-Type: {kind}\r\nContent-Length:"
        f" {len(text.encode())}\r\n{''.join(allow)}Connection: close\r\n\r\n{text}"
    ).encode()


def request(method, target, body):
    if method == "GET":
        return f"GET {target} HTTP/1.1\r\n\r\n".encode()
    text = body if isinstance(body, str) else json.dumps(body)
    return f"POST {target} HTTP/1.1\r\nContent-Length: {len(text.encode())}\r\n\r\n{text}".encode()


def examples():
    """Of each example of an answer its name with that of its route, where it is given, the message,
    and the answer.
    """
    operations = list(openapi.operations())
    # The answer of every target that is on none of the paths.
    operations.append(
        (
            "/progress",
            "get",
            {
                "operationId": "none",
                "responses": {"404": openapi.DOCUMENT["components"]["responses"]["no_route"]},
            },
        )
    )
    for path, method, operation in operations:
        method, bodies = method.upper(), [None]
        if method == "POST":
            bodies = [value for *_, value in openapi.contents(operation["requestBody"])]
        for status, response in operation["responses"].items():
            response = openapi.resolved(response)
            for kind, _, own, value in openapi.contents(response):
                name, answer = f"{operation['operationId']} {own}", example_answer(
                    status, response, kind, value
                )
                if own in FAULTY:
                    target = path.format(s="s1", c="c1")
                    yield name, "new", FAULTY[own].format(
                        method=method, target=target
                    ).encode(), answer
                elif own == "unavailable":
                    yield from (
                        (
                            name,
                            "full disk",
                            request(method, path.format(s="s1", c="c1"), body),
                            answer,
                        )
                        for body in bodies
                    )
                else:
                    assert (
                        name in GIVEN or own in GIVEN
                    ), f"nothing is known to lead to the example {name}"
                    state, codes, body, changes = GIVEN.get(name) or GIVEN[own]
                    # Where an answer is that of the route's own request, it is that of each of its
                    # examples.
                    mine = (
                        [body] if body else [{**it, **changes} if changes else it for it in bodies]
                    )
                    yield from (
                        (name, state, request(method, path.format(**codes), it), answer)
                        for it in mine
                    )


def lead_to(state):
    """An office in a state, in a file of its name."""
    setup, steps, *by_hand = STATES[state]
    db = new(setup, f"{state}.db", setup.count("[[constituency]]"))
    if steps:
        with serving(db, len(steps)) as desk:
            for path, body in steps:
                same(
                    desk.ask("POST", path, body if isinstance(body, str) else json.dumps(body))[0],
                    200,
                )
    for sql in by_hand:
        change(sql, db)
    return db


def wrongly_answered(desk, sent):
    """Those of these examples that are not answered as they say."""
    return [
        f"{name}: {message[:200]}\n  found  {found}\n  wanted {answer}"
        for name, _, message, answer in sent
        if (found := desk.send(message)) != answer
    ]


class Examples(ProgramCase):
    def test_each_example_of_the_document(self):
        """Each answer in docs/openapi.json is given, byte for byte, in a state that leads to it;
        each request is one that is accepted.
        """
        sent = list(examples())
        self.assertEqual({state for _, state, _, _ in sent}, {*STATES, "full disk"})
        self.assertEqual(
            {*GIVEN, *FAULTY, "unavailable"}
            - {name for it in sent for name in (it[0], it[0].split()[1])},
            set(),
        )
        accepted = [
            it for it in sent if it[2].startswith(b"POST") and it[3].startswith(b"HTTP/1.1 200 ")
        ]
        for path, method, operation in openapi.operations():
            for *_, value in openapi.contents(operation["requestBody"]) if method == "post" else ():
                with self.subTest(path=path, value=value):
                    self.assertIn(
                        request("POST", path.format(s="s1", c="c1"), value),
                        [it[2] for it in accepted],
                    )
        wrong = []
        for state in STATES:
            with self.subTest(state=state):
                db = lead_to(state)
                before = rows(db)
                for group in [
                    [it for it in sent if it[1] == state and it not in accepted],
                    *([it] for it in accepted if it[1] == state),
                ]:
                    shutil.copy(db, "copy.db")
                    with serving("copy.db", len(group) + 1) as desk:
                        wrong += wrongly_answered(desk, group)
                        self.assertEqual(desk.ask("GET", "/progress")[0], 200)
                    if group and group[0] in accepted:
                        recount("copy.db")
                    else:
                        self.assertEqual(rows("copy.db"), before)
        assert not wrong, "\n" + "\n".join(wrong)

    def test_what_is_shown_of_a_constituency(self):
        """As it opens, closed, certified, with a candidate gone, and reopened."""
        for state, text in (
            (
                "new",
                (
                    '{"blank":0,"certified":false,"closed":0,"con":"c1","edition":1,"gone":[],'
                    '"lot":[],"note":"","seats":[],"spoiled":0,"stations":1,"votes":[0,0]}'
                ),
            ),
            (
                "closed",
                (
                    '{"blank":0,"certified":false,"closed":1,"con":"c1","edition":1,"gone":[],'
                    '"lot":[],"note":"","seats":[],"spoiled":0,"stations":1,"votes":[100,100]}'
                ),
            ),
            (
                "certified",
                (
                    '{"blank":0,"certified":true,"closed":1,"con":"c1","edition":3,"gone":[],'
                    '"lot":["B","A"],"note":"","seats":[1,2],"spoiled":0,"stations":1,'
                    '"votes":[100,100]}'
                ),
            ),
            (
                "vacated",
                (
                    '{"blank":0,"certified":true,"closed":1,"con":"c1","edition":3,'
                    '"gone":[{"list":"B","note":"resigned","place":1}],"lot":["B","A"],'
                    '"note":"","seats":[1,2],"spoiled":0,"stations":1,"votes":[100,100]}'
                ),
            ),
            (
                "reopened",
                (
                    '{"blank":0,"certified":false,"closed":1,"con":"c1","edition":4,'
                    '"gone":[{"list":"B","note":"resigned","place":1}],"lot":["B","A"],'
                    '"note":"recount","seats":[],"spoiled":0,"stations":1,"votes":[100,100]}'
                ),
            ),
        ):
            with self.subTest(state=state, text=text):
                with serving(lead_to(state), 1) as desk:
                    self.assertEqual(desk.ask("GET", "/con/c1")[::2], (200, text))

    def test_what_is_shown_of_a_return(self):
        """Received, queried with a note that needs escapes, and corrected."""
        new()
        text = (
            '{"blank":%d,"note":"%s","rev":%d,"slip":"%s","spoiled":%d,'
            '"station":"s1","status":"%s","votes":[%s]}'
        )
        note = '"4\\5" de caña'
        with serving("office.db", 6) as desk:
            for path, body, shown in (
                ("lodge", WORKED[1], (2, "", 1, "p1", 1, "received", "50,40")),
                (
                    "query",
                    {"rev": 1, "note": note},
                    (2, '\\"4\\\\5\\" de caña', 2, "p1", 1, "queried", "50,40"),
                ),
                (
                    "correct",
                    {"rev": 2, "slip": "p-_9", "votes": [1, 1], "blank": 0, "spoiled": 0},
                    (0, '\\"4\\\\5\\" de caña', 3, "p-_9", 0, "corrected", "1,1"),
                ),
            ):
                self.assertEqual(desk.ask("POST", f"/station/s1/{path}", json.dumps(body))[0], 200)
                self.assertEqual(desk.ask("GET", "/station/s1")[::2], (200, text % shown))

    def test_what_is_answered_where_the_disk_is_full(self):
        """A return that cannot be written gets the answer 503, which is the same on each route, and
        nothing has changed.
        """
        unavailable = [it for it in examples() if it[1] == "full disk"]
        self.assertEqual(len({answer for *_, answer in unavailable}), 1)
        sent = [it for it in unavailable if it[0].startswith("lodge ")]
        new()
        desk = Desk("office.db", len(sent) + 1, restore_signals=False)
        resource.prlimit(desk.process.pid, resource.RLIMIT_FSIZE, (0, 0))
        wrong = wrongly_answered(desk, sent)
        self.assertEqual(desk.ask("GET", "/station/s1")[0], 404)
        # Whether the closing fails too depends on what there is left to write.
        ran = desk.end()
        self.assertIn(
            ran, (Ran(0, f"answered {len(sent) + 1} failed 0\n", ""), Ran(3, "", "failed: store\n"))
        )
        assert sent and not wrong, "\n" + "\n".join(wrong)
        shows("progress", PROGRESS, con=None)

    def test_nothing_that_is_shown_changes_where_the_disk_is_full(self):
        """Each request that would be accepted: what is shown after it, and at the next opening, is
        what was shown before.
        """
        paths = ("/progress", "/con/c1", "/con/c1/past", "/station/s1")
        shut = (503, '{"word":"unavailable"}')
        for name, state, message, answer in list(examples()):
            with self.subTest(name=name):
                if not (message.startswith(b"POST") and answer.startswith(b"HTTP/1.1 200 ")):
                    continue
                if not os.path.exists(f"{state}.db"):
                    lead_to(state)
                shutil.copy(f"{state}.db", "copy.db")
                before = rows("copy.db")
                desk = Desk("copy.db", 2 * len(paths) + 1, restore_signals=False)
                shown = [desk.ask("GET", path)[::2] for path in paths]
                resource.prlimit(desk.process.pid, resource.RLIMIT_FSIZE, (0, 0))
                found = desk.send(message)
                # A return that is recorded already is the same, and takes no write; nor does a
                # trial.
                unwritten = (
                    b'"ok":"same"' in answer
                    or b'"lodged":0' in answer
                    or b"/trial" in message.split(b" ")[1]
                )
                assert found.endswith(shut[1].encode()) or found == answer and unwritten, found
                after = [desk.ask("GET", path)[::2] for path in paths]
                self.assertEqual(
                    [now if then != shut else then for then, now in zip(after, shown)], after
                )
                # An office that was shut says so; else whether the closing fails too depends on
                # what there is left to write.
                ran = desk.end()
                assert (
                    ran == Ran(3, "", "failed: store\n") or shut not in after and ran.status == 0
                ), ran
                self.assertEqual(show("progress", con=None, db="copy.db"), Ran(0, shown[0][1], ""))
                self.assertEqual(rows("copy.db"), before)
