"""The record sent again where nobody knows of some commands whether they were done.

A desk ended and was sent a command again, the recorder ended before an answer, or a body is one
that no office accepts. The model of an office is in its place, and gives the answers too.
"""

import json
import tomllib
from pathlib import Path

from tests.support import tools
from tests.support.case import Case
from tests.support.desks import commanded, done
from tests.support.model import Office
from tests.support.office import with_stations
from tests.support.record import LODGED, a_command, chained
from tests.support.running import PATIENCE
from tests.support.safeguards import hash_of_file
from tests.support.scripts import module
from tests.support.site import DEPLOY, ran

known = module("replay_known")
HEADER = "station,slip,blank,spoiled,A,B\n"
NOBODY_KNOWS = "nobody knows whether it was done"
CERTIFY = "/con/c1/certify", '{"edition":1}'
ODD_SLIP = json.dumps(LODGED | {"slip": []})


def lodged(code, *votes):
    return f"/station/{code}/lodge", json.dumps(LODGED | {"votes": votes})


def on(code, act, **said):
    return f"/station/{code}/{act}", json.dumps(said)


def vacated(place):
    return "/con/c1/vacate", json.dumps({"list": "A", "place": place, "note": "resigned"})


def closed(code, *votes):
    return lodged(code, *votes), on(code, "close", rev=1)


def a_file(*rows):
    return "/con/c1/import", HEADER + "".join(f"{row}\n" for row in rows)


def kept(office):
    """The returns, the edition and the certificate of the constituency of an office."""
    con = office.cons["c1"]
    return con.returns, con.edition, con.certified


class OfUnknownAnswers(Case):
    def begin(self, stations):
        """A record of a setup with this many stations, and its office."""
        self.setup = with_stations(stations)
        Path("setup.toml").write_text(self.setup, encoding="utf-8")
        ran(DEPLOY / "setup-json", "setup.toml", ".")
        self.office = Office(tomllib.loads(self.setup))
        self.lines = [{"setup": hash_of_file("setup.json")}]

    def add(self, command, *, is_done=True, status=200, again=False):
        """A command, and its answer if there is one: done or not, or done twice."""
        self.lines.append(a_command(command[1], command[0]))
        answers = [self.office.ask("POST", *command) for _ in range(is_done + again)]
        if status is None:
            return
        if status in (502, 503, 504):
            answers.append((status, '{"word":"unavailable"}'))
        self.assertEqual(answers[-1][0], status, answers)
        self.lines.append({"to": len(self.lines), "status": status, "answer": answers[-1][1]}
                          | ({"again": True} if again else {}))

    def over(self, *own, after=0):
        """Sends the record, or what is after a line, to an office that did these commands before:
        its status, what is printed of each line and place, how many were sent, and the office."""
        with commanded(self.setup) as (office, port, came):
            for command in own:
                done(office, *command)
            status, said = self.sent_to(port, after)
        return status, said, [target for target, _ in came], office

    def sent_to(self, port, after):
        found = tools.run(
            [DEPLOY / "replay", f"http://127.0.0.1:{port}", "--after", str(after),
             "--setup", "setup.json"],
            input=chained(*self.lines), capture_output=True, timeout=PATIENCE)
        self.assertEqual(found.stderr, b"")
        *lines, last = self.printed = found.stdout.decode().splitlines()
        self.assertRegex(last, rf"^sent \d+, to look at {len(lines)}; lines {len(self.lines)}, ")
        return found.returncode, [(line.split(":")[0], line[line.rindex(": ") + 2:])
                                  for line in lines]

    def over_its_own(self):
        """Compares the record with the office that it is of: what is printed. Nothing is sent."""
        with commanded(self.setup) as (office, port, _):
            office.cons = self.office.cons
            return self.sent_to(port, len(self.lines))[1]

    def test_a_file_that_an_office_was_sent_again(self):
        """Two files before it were not recorded, and its answer would follow from the first one
        too: over a copy with the figures of that one nothing is closed and certified."""
        self.begin(2)
        self.add(a_file("s2,p1,0,0,1,1", "s1,p1,0,0,90,10"), is_done=False, status=503)
        self.add(a_file("s2,p1,0,0,2,2"), is_done=False, status=503)
        self.add(a_file("s2,p1,0,0,3,3", "s2,p1,0,0,4,4", "s1,p1,0,0,10,90"), again=True)
        changed = (on("s2", "query", rev=1, note="3?"),
                   on("s2", "correct", rev=2, **LODGED | {"votes": [5, 5]}))
        for command in changed:
            self.add(command)
        after = len(self.lines)
        for command in (on("s1", "close", rev=1), on("s2", "close", rev=3), CERTIFY):
            self.add(command)
        other = a_file("s1,p1,0,0,90,10", "s2,p1,0,0,3,3"), *changed
        status, said, sent, office = self.over(*other, after=after)
        self.assertEqual((status, sent, office.cons["c1"].edition, office.cons["c1"].certified),
                         (1, ["/station/s2/close"], 1, None))
        self.assertIn("line 12", [place for place, _ in said])
        self.assertIn("line 16", [place for place, _ in said])

    def test_an_office_that_ended_before_it_answered(self):
        """The file, or the return, was recorded before it ended, and is the same when it is sent
        again. Over a new office, over that office and over a copy all is as the record says."""
        self.begin(3)
        self.add(a_file("s1,p1,0,0,1,2", "s2,p1,0,0,1,2"), again=True)
        self.add(lodged("s3", 1, 2), again=True)
        for code in ("s1", "s2", "s3"):
            self.add(on(code, "close", rev=1))
        self.add(CERTIFY)
        self.assertEqual([json.loads(line["answer"]).get("same", json.loads(line["answer"])["ok"])
                          for line in self.lines if line.get("again")], [2, "same"])
        self.assertEqual(self.over_its_own(), [])
        for own in ((), (lodged("s1", 1, 2),), (lodged("s1", 1, 2), lodged("s2", 1, 2))):
            with self.subTest(own=own):
                status, said, sent, office = self.over(*own)
                self.assertEqual((status, said, len(sent)), (0, [], 6))
                self.assertEqual(kept(office), kept(self.office))

    def test_a_return_without_an_answer_that_was_recorded(self):
        """Its lodge, or its file, has no answer line, and what was answered later would follow from
        another lodge too, which was not done: nothing is closed over the figures of that one, and
        the record's own office is not named as another."""
        for command, refused in ((lodged("s1", 10, 90), ()),
                                 (lodged("s1", 10, 90), (lodged("s1", 5, 5),)),
                                 (a_file("s1,p1,0,0,10,90"), ())):
            self.begin(1)
            self.add(lodged("s1", 90, 10), is_done=False, status=503)
            self.add(command, status=None)
            for other in refused:
                self.add(other, status=409)
            after = len(self.lines)
            for other in (on("s1", "close", rev=1), CERTIFY):
                self.add(other)
            with self.subTest(command=command, refused=refused):
                said = self.over_its_own()
                self.assertEqual(said, [("line 4", NOBODY_KNOWS),
                                        ("con c1", "the record does not say all of s1")])
                status, _, sent, office = self.over(lodged("s1", 90, 10), after=after)
                self.assertEqual((status, sent), (1, []))
                self.assertEqual(office.cons["c1"].returns["s1"]["status"], "received")

    def test_a_return_without_an_answer_before_a_file(self):
        """The answer to the file follows from a lodge that was not done, and from that one."""
        self.begin(2)
        self.add(lodged("s2", 1, 1), is_done=False, status=503)
        self.add(lodged("s1", 10, 90), status=None)
        self.add(a_file("s9,p1,0,0,1,1", "s1,p1,0,0,90,10", "s2,p1,0,0,3,3"))
        self.add(on("s1", "close", rev=1))
        answer = json.loads(self.lines[5]["answer"])
        self.assertEqual((answer["lodged"], answer["differs"]), (1, 1))
        self.assertNotIn("the office has something else", str(self.over_its_own()))
        status, _, sent, office = self.over()
        self.assertEqual((status, sent), (1, ["/con/c1/import"]))
        self.assertEqual(office.cons["c1"].returns["s1"]["status"], "received")

    def test_a_body_that_no_office_accepts(self):
        """Nobody knows whether it was done: all other commands are sent as without it."""
        odd = (("/station/s1/lodge", ODD_SLIP), ("/station/s2/correct", ODD_SLIP),
               ("/station/s2/confirm", ODD_SLIP), ("/con/c1/vacate", '{"list":[],"place":1}'),
               ("/con/c1/vacate", '{"list":"A","place":{}}'),
               ("/con/c1/draw", '{"edition":1,"order":[[]]}'), ("/con/c1/import", "[]"))
        for command in odd:
            for status in (502, 503, 504, None) if command == odd[0] else (503, None):
                self.begin(2)
                self.add(lodged("s1", 90, 10), status=None)
                self.add(command, is_done=False, status=status)
                for other in (on("s1", "close", rev=1), *closed("s2", 5, 5), CERTIFY):
                    self.add(other)
                with self.subTest(command=command, status=status):
                    status, said, sent, office = self.over(lodged("s1", 90, 10))
                    self.assertEqual((status, sorted(said)), (1, [
                        ("line 2", NOBODY_KNOWS), ("line 3", NOBODY_KNOWS)]))
                    self.assertEqual(len(sent), 4)
                    self.assertEqual(kept(office), kept(self.office))

    def test_a_line_whose_office_is_no_number(self):
        """It is named as no line of a record, and the rest is sent."""
        for number in ([1], {}, "1", 1.0, True, None):
            for status in (503, None) if number == [1] else (None,):
                self.begin(1)
                self.add(lodged("s1", 90, 10), is_done=False, status=status)
                self.lines[1]["office"] = number
                for command in (*closed("s1", 5, 6), CERTIFY):
                    self.add(command)
                with self.subTest(number=number, status=status):
                    result, said, sent, office = self.over()
                    self.assertEqual((result, [place for place, _ in said]), (1, ["line 2"]))
                    self.assertIn("line 2: not a line of a record: ", self.printed[0])
                    self.assertEqual((len(sent), kept(office)), (3, kept(self.office)))

    def test_forty_vacancies_of_which_nobody_knows_whether_they_were_done(self):
        """Each doubles who may be gone: of more than 256 states nobody knows which it is, and the
        constituency is held back and named."""
        place, it = (1, "con", "c1"), known.Known([], True)
        it.states[place] = {(2, True, (), frozenset())}
        for number in range(1, 41):
            path, body = vacated(number)
            it.take({"n": number, "office": 1, "words": ("clara", "POST", path),
                     "body": body.encode()}, None)
            if number == 8:
                self.assertEqual((len(it.states[place]), (2, True, (), frozenset(
                    [("A", 3), ("A", 8)])) in it.states[place]), (256, True))
            else:
                self.assertLess(len(it.states[place]), 256)
        self.assertEqual(it.states[place], {(2, True, "unknown", "unknown")})
        self.begin(1)
        for command in (*closed("s1", 90, 10), CERTIFY):
            self.add(command)
        after = len(self.lines)
        for number in range(1, 41):
            self.add(vacated(number), is_done=False, status=503)
        self.assertEqual(self.over_its_own()[-1], ("con c1", "the record does not say all of c1"))
        self.add(("/con/c1/reopen", '{"edition":2,"note":"sum"}'))
        for more in ((), (vacated(1),)):
            with self.subTest(more=more):
                status, said, sent, office = self.over(
                    *closed("s1", 90, 10), CERTIFY, *more, after=after)
                self.assertEqual((status, sent, office.cons["c1"].edition), (1, [], 2))
                self.assertEqual([one for one in said if one[1] != NOBODY_KNOWS], [
                    (f"line {len(self.lines) - 1}",
                     f"the office has something else than line {len(self.lines) - 3}"),
                    ("con c1", "the record does not say all of c1")])
