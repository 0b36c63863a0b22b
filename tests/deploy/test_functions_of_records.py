"""The meaning of lines of the record, at its edges: which stations they are about, who typed how
much, and which requests wait for a second name; and the names of the staff. Nothing is started.
"""

import base64
from datetime import UTC, datetime, timedelta
from pathlib import Path

from tests.support.case import Case
from tests.support.record import a_command
from tests.support.scripts import module

index, lines, names, staff = (module(name) for name in (
    "record_index", "record_lines", "second_name", "staff"))

BEGIN = datetime(2026, 11, 29, 22, 0, tzinfo=UTC)
STATIONS = {"s1": "c1", "s2": "c1", "t1": "c2"}
ROWS = "station,slip\ns1,p1\n\ns2,p2\nt1,p3\ns1,p4\n"


class Stations(Case):
    def test_the_stations_of_a_command(self):
        """The one that it names, or those of the rows of a file, in any text."""
        rows, none = {"station", "s1", "s2", "t1"}, set()
        semicolons = ROWS.replace(",", ";")
        for path, entry, wanted in (
                ("/station/s1/lodge", {"body": "{}"}, {"s1"}),
                ("/station/s1/lodge", {"bytes": 7}, {"s1"}),
                ("/con/c1/import", {"body": ROWS}, rows), ("/con/c1/import", {"bytes": 7}, none),
                ("/con/c1/import", {"body": "\ufeff" + ROWS}, rows),
                ("/con/c1/import/semicolon", {"body": semicolons}, rows),
                ("/con/c1/import", {"body": semicolons.replace("\n\n", "\n")},
                 {row for row in semicolons.split("\n") if row}),
                ("/con/c1/import", {"body_base64": base64.b64encode(ROWS.encode()).decode()}, rows),
                ("/con/c1/draw", {"body": ROWS}, none), ("/con/c1/certify", {"body": ""}, none)):
            with self.subTest(path=path, entry=entry):
                self.assertEqual(index.stations_of({"path": path} | entry), wanted)
        self.assertRaises(ValueError, index.stations_of, {"path": "/progress"})
        self.assertEqual(index.stations_of({"path": "/station/s1/a/b"}), {"s1"})

    def test_those_of_the_setup(self):
        """Of a file those of its constituency, and of a station that it is known."""
        known, unknown = index.Index(STATIONS), index.Index()
        for path, stations, wanted in (
                ("/con/c1/import", {"s1", "t1", "x"}, {"s1"}),
                ("/con/c2/import/semicolon", {"s1", "t1"}, {"t1"}),
                ("/station/t1/lodge", {"t1"}, {"t1"}), ("/station/x/lodge", {"x"}, set())):
            with self.subTest(path=path):
                self.assertEqual(known.of_setup(stations, path), wanted)
                self.assertEqual(unknown.of_setup(stations, path), stations)

    def of(self, *entries):
        """The places of s1 in a record of these lines, ten bytes each."""
        found = index.Index(STATIONS)
        for place, entry in enumerate(entries):
            found.take_entry(entry, 10 * place)
        return found.of("s1")

    def test_a_command_and_its_answer(self):
        lodge = a_command("{}", "/station/s1/lodge") | {"n": 1}
        file = a_command(ROWS) | {"n": 1}
        answer = lambda status, text="{}": {"to": 1, "status": status, "answer": text}
        for entries, wanted in (
                ([lodge], [0]), ([lodge, answer(200)], [0, 10]), ([lodge, answer(409)], [0, 10]),
                ([lodge | {"status": 403}], [0]), ([lodge | {"status": 403}, answer(200)], [0]),
                ([file], [0]), ([file, answer(200, '{"lodged":1}')], [0, 10]),
                ([file, answer(200, '{"lodged":0}')], []), ([file, answer(409)], []),
                ([file, answer(502, "")], [0, 10]), ([file, answer(None, "")], [0, 10]),
                ([lodge, answer(200), answer(200)], [0, 10]), ([None, [], lodge], [20]),
                ([a_command("{}", "/station/s2/lodge") | {"n": 1}, answer(200)], [])):
            with self.subTest(entries=entries):
                self.assertEqual(self.of(*entries), (wanted, True))

    def test_how_many_lines_are_shown(self):
        """The last two hundred of what was done, of what was not, and of what waits."""
        path = "/station/s1/lodge"
        for kind in ("done", "not done", "waiting"):
            for many, is_whole in ((200, True), (202, False)):
                with self.subTest(kind=kind, many=many):
                    entries = []
                    for number in range(many // 2):
                        entry = a_command("{}", path) | {"n": number}
                        more = {"to": number, "status": 200 if kind == "done" else 409,
                                "answer": "{}"}
                        if kind == "waiting":
                            more = entry | {"n": -number - 1}
                        entries += [entry, more]
                    places, whole = self.of(*entries)
                    self.assertEqual(whole, is_whole)
                    self.assertEqual(places, [10 * n for n in range(many - 200, many)])

    def test_what_was_refused_pushes_out_no_act(self):
        lodge = a_command("{}", "/station/s1/lodge")
        refused = [lodge | {"n": number, "status": 403} for number in range(3, 204)]
        places, whole = self.of(lodge | {"n": 1}, {"to": 1, "status": 200, "answer": "{}"},
                                *refused)
        self.assertEqual((places[:3], len(places), whole), ([0, 10, 30], 202, False))

    def test_what_was_done(self):
        for status, answer, wanted in (
                (200, "{}", True), (201, "{}", False), (200, '{"ok":"same","rev":1}', False),
                (502, '{"ok":"same"}', True), (503, "", True), (504, "", True), (501, "", False),
                (505, "", False), (500, "", False), (None, "", True), (403, "", False)):
            with self.subTest(status=status, answer=answer):
                self.assertEqual(index.is_done({"status": status, "answer": answer}), wanted)
        self.assertTrue(index.is_done({"status": 200}))
        # What was sent twice was done the first time, where it is the same the second time.
        for status, wanted in ((200, True), (409, False)):
            self.assertEqual(index.is_done({"status": status, "answer": '{"ok":"same"}',
                                            "again": True}), wanted)

    def test_a_file_that_was_sent_twice(self):
        """The office may have recorded it, and ended before it answered: then its rows are the same
        when it is sent again."""
        same, nothing = '{"lodged":0,"same":2}', ([], True)
        for answer, wanted in (({"answer": same}, nothing), ({"answer": same, "again": True},
                                                             ([0, 10], True))):
            with self.subTest(answer=answer):
                self.assertEqual(self.of(a_command(ROWS, "/con/c1/import") | {"n": 1}, {
                    "to": 1, "status": 200} | answer), wanted)


class Typed(Case):
    def take(self, typed, path, minute, name="clara", role="clerk", **answer):
        moment = (BEGIN + timedelta(minutes=minute)).isoformat()
        typed.take(path, name, role, {"time": moment, "status": 200, "answer": "{}"} | answer)

    def test_what_counts(self):
        """A return that was typed in a known station, and accepted, where it was not there."""
        for path, answer, counts in (
                ("/station/s1/lodge", {}, True), ("/station/s1/confirm", {}, True),
                ("/station/s1/correct", {}, True), ("/station/s1/query", {}, False),
                ("/station/s1/close", {}, False), ("/station/x/lodge", {}, False),
                ("/con/c1/import", {}, False), ("/station/s1/lodge/x", {}, False),
                ("/station/s1/lodge", {"status": 409}, False),
                ("/station/s1/lodge", {"status": 201}, False),
                ("/station/s1/lodge", {"status": None}, False),
                ("/station/s1/lodge", {"status": 502}, False),
                ("/station/s1/lodge", {"answer": '{"ok":"same"}'}, False),
                ("/station/s1/lodge", {"answer": '{"ok":"same"}', "again": True}, True)):
            with self.subTest(path=path, answer=answer):
                typed = index.Typed(STATIONS)
                self.take(typed, path, 0, **answer)
                self.assertEqual(len(typed.of("c1", BEGIN)), counts)

    def test_how_much_of_whom(self):
        """Each name and role of a constituency, that with the most first."""
        typed = index.Typed(STATIONS)
        for path, minute, name, role in (
                ("/station/s1/lodge", 0, "clara", "clerk"),
                ("/station/s2/lodge", 0, "clara", "clerk"),
                ("/station/s1/correct", 1, "clara", "clerk"),
                ("/station/s1/confirm", 1, "sara", "second"),
                ("/station/s1/lodge", 1, "ana", "clerk"), ("/station/s1/lodge", 1, "ana", "second"),
                ("/station/t1/lodge", 1, "bruno", "clerk")):
            self.take(typed, path, minute, name, role)
        row = lambda name, role, lodge=0, confirm=0, correct=0: {
            "name": name, "role": role, "lodge": lodge, "confirm": confirm, "correct": correct}
        now = BEGIN + timedelta(minutes=1)
        self.assertEqual(typed.of("c1", now), [
            row("clara", "clerk", 2, 0, 1), row("ana", "clerk", 1), row("ana", "second", 1),
            row("sara", "second", 0, 1)])
        self.assertEqual(typed.of("c2", now), [row("bruno", "clerk", 1)])
        self.assertEqual(typed.of("c3", now), [])

    def test_for_how_long(self):
        """The minute of now and the fifty-nine before it; none that is yet to come."""
        for minute, seconds, counts in ((0, 0, True), (0, 59, True), (-59, 0, True),
                                        (-60, 59, False), (1, 0, False), (1, -1, True)):
            with self.subTest(minute=minute, seconds=seconds):
                typed = index.Typed(STATIONS)
                self.take(typed, "/station/s1/lodge", minute + seconds / 60)
                self.assertEqual(len(typed.of("c1", BEGIN)), counts)
        typed = index.Typed(STATIONS)
        for minute in (0, 1, 59, 60):
            self.take(typed, "/station/s1/lodge", minute)
        # What can count no more is forgotten.
        self.assertEqual(len(typed.minutes), 3)
        self.take(typed, "/station/s1/lodge", 60)
        self.assertEqual(typed.of("c1", BEGIN + timedelta(minutes=60))[0]["lodge"], 4)

    def test_answers_count_as_they_are_taken(self):
        found = index.Index(STATIONS, index.Typed(STATIONS))
        found.take_entry(a_command("{}", "/station/s1/lodge") | {"n": 1}, 0)
        found.take_entry({"to": 1, "status": 200, "answer": "{}", "time": BEGIN.isoformat()}, 9)
        self.assertEqual([row["name"] for row in found.typed_of("c1", BEGIN)], ["clara"])
        self.assertEqual(index.Index(STATIONS).typed_of("c1", BEGIN), [])


class Lines(Case):
    def test_a_command_as_it_is_shown(self):
        for path, act, body in (("/station/s1/lodge", "lodge", {"body": "x"}),
                                ("/con/c1/import/semicolon", "import", {}),
                                ("/con/c1/draw", "draw", {})):
            with self.subTest(path=path):
                entry = a_command("x", path) | {"n": 7, "time": "t", "salt": "s"}
                bare = {"n": 7, "time": "t", "name": "clara", "role": "clerk", "act": act}
                self.assertEqual(lines.command_of(entry), bare | {"status": None} | body)
                self.assertEqual(lines.command_of(entry | {"status": 403})["status"], 403)
        entry = a_command("ñ".encode(), "/station/s1/lodge") | {"n": 7, "time": "t"}
        self.assertEqual(lines.command_of(entry)["body"], "ñ")
        del entry["body_base64"]
        self.assertNotIn("body", lines.command_of(entry))
        entry = a_command(b"\xff", "/station/s1/lodge") | {"n": 7, "time": "t"}
        self.assertNotIn("body", lines.command_of(entry))

    def test_a_line_without_its_texts(self):
        for line, wanted in (
                (b'{"n": 1, "path": "/a", "body": "x", "answer": "y"}', b'{"n": 1, "path": "/a"}'),
                (b'{"to": 1, "status": 200, "answer_base64": "eA=="}',
                 b'{"to": 1, "status": 200}'),
                (b'{"n": 1, "path": "/a", "body_base64": "eA==", "salt": "s"}',
                 b'{"n": 1, "path": "/a"}'),
                (b'{"n": 1, "status": 403}', None)):
            with self.subTest(line=line):
                self.assertEqual(lines.before_texts(line), wanted or line)

    def test_texts_and_bytes(self):
        """Base64 has whatever a terminal may obey, or turns round, and what is no text."""
        for data, is_text in (
                (b"", True), (b"{}", True), ("ñ 88\t\r\n".encode(), True), (b"\r\n", True),
                (b"\xff", False), (b"\x1b[2J", False), ("a\u202eb".encode(), False),
                (b"a\x00", False), (b"a\nb\x7f", False), (b"\x7f\na", False),
                ("\u2028".encode(), False)):
            with self.subTest(data=data):
                wanted = {"body": data.decode()} if is_text else {
                    "body_base64": base64.b64encode(data).decode()}
                self.assertEqual(lines.text_or_bytes("body", data), wanted)

    def test_the_setup_of_a_line(self):
        for line, wanted in ((b'{"setup": "a"}', "a"), (b"{}", ""), (b"{", ""), (b"1", ""),
                             (b"[" * 100_000, "")):
            self.assertEqual(lines.setup_of(line), wanted)


def request(number=1, name="berta", path="/con/c1/certify", minutes=0.0, office=1, body="{}",
            **more):
    moment = BEGIN + timedelta(minutes=minutes)
    return {"n": number, "name": name, "office": office, "path": path, "body": body,
            "time": moment.isoformat()} | more


def waiting(number=1, name="berta", **how):
    return request(number, name, **how) | {"status": 202}


class SecondNames(Case):
    def test_which_acts_need_two(self):
        for path, wanted in (
                ("/con/c1/draw", True), ("/con/c1/certify", True), ("/con/c1/reopen", True),
                ("/con/c1/vacate", True), ("/con/c1/import", False), ("/con/c1/draw/x", False),
                ("/station/s1/lodge", False), ("/con/draw/x", False), ("/con/c1", False)):
            self.assertEqual(names.needs_two(path), wanted, path)

    def test_what_is_refused(self):
        """An answer by which it is known that nothing was changed."""
        imported = '{"ok":"import","lodged":%s}'
        for status, answer, wanted in (
                (200, '{"ok":"lodged"}', False), (200, '{"ok":"same"}', True),
                (200, imported % 0, True), (200, imported % 1, False), (200, '{"lodged":0}', False),
                (200, '{"ok":"moved","lodged":0}', False), (200, "{", False), (200, "[]", False),
                (201, '{"ok":"same"}', False), (399, "", False), (400, "", True), (401, "", True),
                (499, "", True), (500, "", False), (None, "", False), ("404", "", False)):
            with self.subTest(status=status, answer=answer):
                entry = {"status": status, "answer": answer}
                self.assertEqual(names.is_refused(entry), wanted)
                self.assertEqual(names.is_refused(entry | {"again": True}),
                                 wanted and status != 200)
        self.assertFalse(names.is_refused({"status": 200}))

    def given(self, *entries, stations=STATIONS):
        found = names.Waiting(stations)
        for entry in entries:
            found.take(entry)
        return found

    def test_who_is_the_first_one(self):
        """Another name with the same request, less than an hour ago."""
        moment = BEGIN + timedelta(hours=1)
        second = request(9, "simon")
        for entry, asked, at, wanted in (
                (waiting(), second, BEGIN, {1: "berta"}),
                (waiting(), second, moment - timedelta(seconds=1), {1: "berta"}),
                (waiting(), second, moment, {}), (waiting(), second, BEGIN - timedelta(1), {}),
                (waiting(), second, BEGIN - timedelta(seconds=1), {}),
                (waiting(name="simon"), second, BEGIN, {}),
                (waiting(office=2), second, BEGIN, {}), (waiting(body="[]"), second, BEGIN, {}),
                (waiting(path="/con/c2/certify"), second, BEGIN, {}),
                (waiting(path="/con/c1/draw"), second, BEGIN, {}),
                (waiting(body_base64="e30="), second, BEGIN, {}),
                (request(), second, BEGIN, {}), (request(status=201), second, BEGIN, {}),
                (request(status=203), second, BEGIN, {})):
            with self.subTest(entry=entry, at=at):
                found = self.given(entry)
                self.assertEqual(found.firsts(asked, at), wanted)
                self.assertEqual(found.too_early(asked, at), [])

    def test_two_names_are_used_up(self):
        found = self.given(waiting(), waiting(2, body="[]"), request(3, "simon", first=1))
        self.assertEqual(found.firsts(request(4, "carla"), BEGIN), {})
        self.assertEqual(found.firsts(request(4, "carla", body="[]"), BEGIN), {2: "berta"})
        self.assertEqual(set(found.under_way), {3})

    def test_what_ends_a_wait(self):
        """An answer to what may have changed a return or the edition of the constituency."""
        asked = request(9, "simon")
        for path, answer, why in (
                ("/station/s1/lodge", {"status": 200, "answer": "{}"}, "return"),
                ("/con/c1/import", {"status": 200, "answer": "{}"}, "return"),
                ("/con/c1/import/semicolon", {"status": 200, "answer": "{}"}, "return"),
                ("/con/c1/reopen", {"status": 200, "answer": "{}"}, "edition"),
                ("/station/unknown/lodge", {"status": 200, "answer": "{}"}, "return"),
                ("/station/s1/lodge", {"status": None}, "unknown"),
                ("/con/c1/reopen", {"status": 502}, "unknown"),
                ("/con/c1/vacate", {"status": 200, "answer": "{}"}, None),
                ("/station/t1/lodge", {"status": 200, "answer": "{}"}, None),
                ("/con/c2/import", {"status": 200, "answer": "{}"}, None),
                ("/station/s1/lodge", {"status": 409}, None),
                ("/station/s1/lodge", {"status": 200, "answer": '{"ok":"same"}'}, None)):
            with self.subTest(path=path, answer=answer):
                found = self.given(waiting(), request(2, "clara", path), {"to": 2} | answer)
                is_over = {} if why else {1: "berta"}
                self.assertEqual(found.firsts(asked, BEGIN), is_over)
                self.assertEqual(found.too_early(asked, BEGIN),
                                 [("berta", BEGIN, why)] if why else [])
                other = self.given(waiting(), request(2, "clara", path, office=2),
                                   {"to": 2} | answer)
                self.assertEqual(other.firsts(asked, BEGIN), {1: "berta"})
        # Without a setup each station may be of any constituency; an answer to nothing ends all.
        for entries in ([request(2, "clara", "/station/t1/lodge"),
                         {"to": 2, "status": 200, "answer": "{}"}],
                        [{"to": 7, "status": 200, "answer": "{}"}]):
            found = self.given(waiting(), *entries, stations=None)
            self.assertEqual(found.firsts(asked, BEGIN), {})

    def test_who_was_too_early(self):
        """Within the hour, of the same request; once it is given by two it is over."""
        change = [request(2, "clara", "/station/s1/lodge"),
                  {"to": 2, "status": 200, "answer": "{}"}]
        found = self.given(waiting(), *change)
        asked = request(9, "simon")
        for entry, minutes, many in ((asked, 59, 1), (asked, 60, 0), (asked, -1, 0),
                                     (asked | {"name": "berta"}, 1, 0),
                                     (asked | {"body": "[]"}, 1, 0)):
            moment = BEGIN + timedelta(minutes=minutes)
            self.assertEqual(len(found.too_early(entry, moment)), many)
        found.take(waiting(3, name="simon"))
        found.take(request(4, "carla", first=3))
        self.assertEqual(found.too_early(asked, BEGIN), [])

    def test_offices_of_which_nobody_knows(self):
        """Those with a command whose answer is not known, until one is accepted there."""
        lodge = lambda number, office=1: request(number, "clara", "/station/s1/lodge",
                                                 office=office)
        for answers, wanted in (
                ([(None, 1)], {1}), ([(502, 1)], {1}), ([(503, 2)], {2}), ([(504, 1)], {1}),
                ([(500, 1)], set()), ([(None, 1), (200, 1)], set()), ([(None, 1), (409, 1)], {1}),
                ([(None, 1), (201, 1)], {1}), ([(None, 1), (200, 2)], {1}), ([(200, 1)], set())):
            with self.subTest(answers=answers):
                found = names.Waiting(STATIONS)
                for number, (status, office) in enumerate(answers):
                    found.take(lodge(number, office))
                    found.take({"to": number, "status": status, "answer": "{}"})
                self.assertEqual((found.unsettled, found.under_way), (wanted, {}))
        # A recorder that starts knows of no command without an answer what became of it.
        found = self.given(waiting(), lodge(2), request(3, status=403))
        self.assertEqual(set(found.under_way), {2})
        found.begin()
        self.assertEqual((found.under_way, found.unsettled), ({}, {1}))
        self.assertEqual(found.firsts(request(9, "simon"), BEGIN), {})

    def test_what_else_waits(self):
        """The last five other acts of the constituency, of less than an hour, in their order."""
        entries = [waiting(n, name=f"n{n}", path="/con/c1/draw", body=str(n), minutes=n)
                   for n in range(7)]
        found = self.given(*entries, waiting(8, path="/con/c2/draw"))
        asked = request(9, "simon")
        for minutes, wanted in ((6, [2, 3, 4, 5, 6]), (62, [3, 4, 5, 6]), (65, [6]), (66, [])):
            others = found.others(asked, BEGIN + timedelta(minutes=minutes))
            self.assertEqual(others, [(f"n{n}", BEGIN + timedelta(minutes=n), "draw", str(n))
                                      for n in wanted])
        own = found.others(request(9, "simon", "/con/c1/draw", body="6"),
                           BEGIN + timedelta(minutes=6))
        self.assertEqual([body for *_, body in own], ["1", "2", "3", "4", "5"])

    def test_what_waited_in_vain_is_forgotten(self):
        """After an hour, looked for once a minute; what is left of a constituency stays."""
        found = self.given(waiting(1, body="a"), waiting(2, "simon", body="a", minutes=0.5),
                           waiting(3, path="/con/c2/draw"))
        for minutes, wanted in ((59.99, {"c1": 2, "c2": 1}), (60, {"c1": 2, "c2": 1}),
                                (60.98, {"c1": 2, "c2": 1}), (61, {"c1": 0, "c2": 0})):
            with self.subTest(minutes=minutes):
                found.forget(BEGIN + timedelta(minutes=minutes))
                left = {con: sum(map(len, found.requests.get((1, con), {}).values()))
                        for con in ("c1", "c2")}
                self.assertEqual(left, wanted)
        self.assertEqual(found.requests, {})
        found = self.given(waiting(1, body="a"), waiting(2, "simon", body="a", minutes=0.5),
                           waiting(3, body="b"))
        found.forget(BEGIN + timedelta(minutes=60.25))
        self.assertEqual([[*given] for given in found.requests[1, "c1"].values()],
                         [["simon"]])
        found = self.given(waiting())
        found.forget(BEGIN + timedelta(hours=1))
        self.assertEqual(found.requests, {})
        # A clock that was put back is no reason to look each time.
        found.forgot = BEGIN
        found.forget(BEGIN - timedelta(minutes=0.5))
        self.assertEqual(found.forgot, BEGIN)
        found.forget(BEGIN - timedelta(minutes=1))
        self.assertEqual(found.forgot, BEGIN - timedelta(minutes=1))


class Staff(Case):
    TEXT = ('# The names.\nclara clerk;\n  berta "board";  # she\nbea\t"board c2 c3";\n'
            'eva "clerk";\nnora "second ";\nnobody\n')

    def test_posts(self):
        self.assertEqual(staff.posts(self.TEXT), {
            "clara": ("clerk", None), "berta": ("board", None), "bea": ("board", ("c2", "c3")),
            "eva": ("clerk", None), "nora": ("second", ())})
        for post, words, value in (
                (staff.Post("clerk"), "clerk, everywhere", "clerk"),
                (staff.Post("board", ("c2", "c3")), "board, c2, c3", '"board c2 c3"'),
                (staff.Post("second", ()), "second, nowhere", '"second "')):
            self.assertEqual((post.words, post.value), (words, value))

    def test_lines_that_are_not_read(self):
        text = ('clara clerk;\n\n# a note\n  # another\nnobody\nana clerk; bea board;\n'
                'eva clerk; # a note\n"x" clerk;\nana clerk\n')
        self.assertEqual(staff.unread(text), {5: "nobody", 6: "ana clerk; bea board;",
                                              8: '"x" clerk;', 9: "ana clerk"})

    def test_another_post(self):
        post = staff.Post("clerk", ("c1",))
        self.assertEqual(staff.with_post(self.TEXT, "berta", post), self.TEXT.replace(
            '  berta "board";  # she', '  berta "clerk c1";  # she'))
        self.assertEqual(staff.with_post(self.TEXT, "bea", staff.Post("second")),
                         self.TEXT.replace('bea\t"board c2 c3";', "bea\tsecond;"))
        self.assertEqual(staff.with_post(self.TEXT, "ana", post), self.TEXT)

    def test_who_is_of_the_board(self):
        Path("staff.conf").write_text(self.TEXT, encoding="utf-8")
        for con, wanted in (("c1", ["berta", "BERTA"]), ("c2", ["berta", "BERTA", "Bea"])):
            is_board = staff.board_of(Path("staff.conf"), con)
            given = ("clara", "berta", "BERTA", "Bea", "nobody")
            self.assertEqual([name for name in given if is_board(name)], wanted)
        self.assertTrue(staff.board_of(None, "c1")("nobody"))
