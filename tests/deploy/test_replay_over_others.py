"""The record sent to an office that has something else: nothing is done over it, and it is named.

The model of an office is in its place, and gives the answers of the record too.
"""

import json
import tomllib
from pathlib import Path

from tests.support import tools
from tests.support.case import Case
from tests.support.desks import answering_desk, commanded, done
from tests.support.model import Office
from tests.support.office import with_stations
from tests.support.record import LODGED, a_command, chained
from tests.support.running import PATIENCE
from tests.support.safeguards import hash_of_file
from tests.support.site import DEPLOY, ran

SETUP = with_stations(3).replace('"Ana", "Abel"', '"Ana", "Abel", "Alma", "Aldo"')
WITH_AGENTS = with_stations(3, 30).replace("electors = 30\n", "electors = 30\nagents = 5\n")
HEADER = "station,slip,blank,spoiled,A,B\n"
NOT_SENT = "it was not sent: the office has something else than "


def lodged(code, *votes):
    return f"/station/{code}/lodge", json.dumps(LODGED | {"votes": votes})


def on(code, act, **said):
    return f"/station/{code}/{act}", json.dumps(said)


def of(act, **said):
    return f"/con/c1/{act}", json.dumps(said)


def a_file(*rows):
    return "/con/c1/import", HEADER + "".join(f"{row}\n" for row in rows)


def closed(code, *votes):
    return lodged(code, *votes), on(code, "close", rev=1)


def certified(first=(200, 20)):
    """All stations closed, and a certificate of edition 2: lines 2 to 15 of a record."""
    return *closed("s1", *first), *closed("s2", 5, 6), *closed("s3", 7, 8), of("certify", edition=1)


VACATE = of("vacate", list="A", place=1, note="resigned")
REOPEN = of("reopen", edition=2, note="sum")


class OverOthers(Case):
    def recorded(self, *commands, setup=SETUP, is_named=True):
        """The lines of commands to an office of this setup: of the first one, 2 and 3."""
        Path("setup.toml").write_text(setup, encoding="utf-8")
        ran(DEPLOY / "setup-json", "setup.toml", ".")
        office = Office(tomllib.loads(setup))
        self.words = ("--setup", "setup.json") if is_named else ()
        self.lines = [{"setup": hash_of_file("setup.json")} if is_named else
                      {"to": 0, "status": 409, "answer": ""}]
        for target, body in commands:
            status, answer = office.ask("POST", target, body)
            self.assertEqual(status, 200, answer)
            self.lines += [a_command(body, target), {
                "to": len(self.lines) + 1, "status": status, "answer": answer}]

    def sent_to(self, port, *words):
        """The status, and what is printed of each line and place, without the command."""
        found = tools.run(
            [DEPLOY / "replay", f"http://127.0.0.1:{port}", *words, *self.words],
            input=chained(*self.lines), capture_output=True, timeout=PATIENCE)
        self.assertEqual(found.stderr, b"")
        *lines, last = found.stdout.decode().splitlines()
        said = [(line.split(":")[0], line[line.rindex(": ") + 2:]) for line in lines]
        return found.returncode, said, last

    def over(self, *own, after=1, setup=SETUP):
        """Sends the record, or the part after a line, to an office that did these commands before:
        what is printed, and the office."""
        with commanded(setup) as (office, port, came):
            for command in own:
                done(office, *command)
            status, said, last = self.sent_to(port, "--after", str(after))
            self.came = came
        self.assertEqual((status, last.split(";")[0].split("look at ")[1]),
                         (int(bool(said)), str(len(said))))
        return said, office

    def test_a_file_with_a_bad_row_and_two_rows_of_a_station(self):
        """The record has the first of both, and the office the second: it is not closed."""
        self.recorded(a_file(",,,,,", "s1,p1,0,0,200,20", "s1,p1,0,0,20,200", "s2,p1,0,0,5,6",
                             "s3,p1,0,0,7,8"),
                      *(on(code, "close", rev=1) for code in ("s1", "s2", "s3")),
                      of("certify", edition=1))
        said, office = self.over(a_file("s1,p1,0,0,20,200"))
        self.assertEqual(said, [("line 4", "the office has something else than line 2"),
                                ("line 10", "the office has something else than line 4"),
                                ("con c1", "the office has something else than line 10 left"),
                                ("station s1", "the office has something else than line 4 left")])
        self.assertEqual(office.cons["c1"].returns["s1"]["status"], "received")
        said, office = self.over()
        self.assertEqual((said, office.cons["c1"].certified), ([], [3, 0]))

    def test_as_many_other_rows_of_a_file(self):
        """As many rows are recorded, the same and otherwise as then, and the first one that differs
        is the same: s1 has the figures of its other row, and is not closed."""
        self.recorded(lodged("s2", 1, 2), a_file("s2,p9,0,0,9,9", "s1,p1,0,0,10,20",
                                                 "s1,p1,0,0,20,10"), on("s1", "close", rev=1))
        said, office = self.over(lodged("s1", 20, 10))
        self.assertEqual(said, [("line 6", "the office has something else than line 4"),
                                ("station s1", "the office has something else than line 6 left")])

    def test_a_file_with_a_field_of_any_length(self):
        self.recorded(a_file(f"x,{'y' * 140_000},0,0,1,2", "s1,p1,0,0,200,20"),
                      on("s1", "close", rev=1))
        said, _ = self.over(lodged("s1", 20, 200))
        self.assertEqual([one for one, _ in said], ["line 2", "line 4", "station s1"])
        self.assertEqual(self.over()[0], [])

    def test_a_reopening_and_a_vacancy_over_another_certificate(self):
        for command in (REOPEN, VACATE):
            with self.subTest(command=command):
                self.recorded(*certified(), command)
                said, office = self.over(*certified((100, 99)), after=15)
                self.assertEqual(said, [
                    ("line 16", "the office has something else than line 4"),
                    *[("con c1", "the office has something else than line 16 left")],
                    ("station s1", "the office has something else than line 4 left")])
                self.assertEqual((office.cons["c1"].edition, office.cons["c1"].gone), (2, {}))
                self.assertEqual(self.over(*certified(), after=15)[0], [])

    def test_a_vacancy_over_another_vacancy(self):
        """Another one would move in. One that is there already is sent, and refused."""
        self.recorded(*certified((110, 99)), VACATE)
        other = of("vacate", list="A", place=2, note="other")
        said, _ = self.over(*certified((110, 99)), other, after=15)
        self.assertEqual(said, [("line 16", "the office has something else than line 14"),
                                ("con c1", "the office has something else than line 16 left")])
        said, _ = self.over(*certified((110, 99)), VACATE, after=15)
        self.assertEqual(said, [("line 16", '409 {"refused":20,"word":"already_gone"}')])

    def test_a_vacancy_into_which_another_one_moves(self):
        """As where the lists have other candidates, which are not compared."""
        self.recorded(*certified((110, 99)), VACATE)
        said, _ = self.over(setup=SETUP.replace(', "Alma", "Aldo"', ""))
        self.assertEqual(said, [("line 16", '200 {"next":null,"ok":"vacated"}')])

    def test_a_copy_of_something_else(self):
        """Nothing is after the line of its name, and what was before is compared."""
        self.recorded(*certified())
        self.assertEqual(self.over(*certified(), after=15)[0], [])
        others = {"con c1": ("con c1", "the office has something else than line 14 left"),
                  **{code: (f"station {code}", f"the office has something else than line {n} left")
                     for code, n in (("s1", 4), ("s2", 8), ("s3", 12))}}
        for own, named in ((certified((20, 200)), ["s1"]), (certified()[:-1], ["con c1"]),
                           (certified()[:-2], ["con c1", "s3"]),
                           (certified()[:-3], ["con c1", "s3"]), ((), [*others]),
                           ((*certified(), VACATE), ["con c1"]),
                           ((*certified(), REOPEN), ["con c1"])):
            with self.subTest(own=own):
                self.assertEqual(self.over(*own, after=15)[0], [others[one] for one in named])

    def test_a_copy_that_has_more(self):
        self.recorded(*closed("s1", 1, 2))
        self.assertEqual(self.over(*closed("s1", 1, 2), lodged("s2", 3, 4), after=5)[0],
                         [("con c1", "the record does not say all of s2")])
        setup = with_stations(25)
        for last, said in ((21, ""), (22, " and 1 more"), (25, " and 4 more")):
            self.recorded(lodged("s1", 1, 2), setup=setup)
            own = [lodged(f"s{n}", 1, 2) for n in range(1, last + 1)]
            said = ", ".join(f"s{n}" for n in range(2, 22)) + said
            with self.subTest(last=last):
                self.assertEqual(self.over(*own, after=3, setup=setup)[0],
                                 [("con c1", f"the record does not say all of {said}")])

    def test_an_office_that_does_not_say_what_it_has(self):
        self.recorded(*closed("s1", 1, 2), is_named=False)
        for answers, said in (({}, [("office 1", "it does not say what it has")]),
                              ({"/progress": "\u20ac 3 2\n"}, [
                                  ("office 1", "it does not say what it has")]),
                              ({"/progress": "c1 3 2\n"}, [
                                  ("con c1", "the office does not show it"),
                                  ("station s1", "the office has something else than line 4 left")
                              ]), ({"/progress": ""}, [
                                  ("station s1", "the office has something else than line 4 left")
                              ])):
            with self.subTest(answers=answers), answering_desk(answers) as (port, _):
                self.assertEqual(self.sent_to(port, "--after", "5")[:2], (1, said))

    def test_a_lot_that_a_query_took_away(self):
        """The office has drawn it after all returns were closed again: by the record there is
        none."""
        alike = *closed("s1", 9, 9), *closed("s2", 9, 9), *closed("s3", 9, 9)
        again = (on("s1", "query", rev=2, note="9?"),
                 on("s1", "correct", rev=3, **LODGED | {"votes": [9, 9]}),
                 on("s1", "close", rev=4))
        drawn = of("draw", edition=1, order=["A", "B"])
        for is_named in (True, False):
            self.recorded(*alike, drawn, *again, is_named=is_named)
            after = len(self.lines)
            with self.subTest(is_named=is_named):
                self.assertEqual(self.over(*alike, drawn, *again, after=after)[0], [])
                self.assertEqual(self.over(*alike, *again, drawn, after=after)[0], [
                    ("con c1", "the office has something else than line 16 left")])

    def test_an_answer_that_the_rows_of_a_file_do_not_lead_to(self):
        """A line is lost, or forged: nobody knows what was recorded, until a later answer says it.
        Nothing is closed over a return of the file, whatever the office has."""
        self.recorded(a_file("s1,p1,0,0,1,2", "s2,p1,0,0,3,4"), lodged("s3", 5, 6),
                      lodged("s2", 3, 4),
                      *(on(code, "close", rev=1) for code in ("s1", "s2", "s3")))
        answer = json.loads(self.lines[2]["answer"])
        says = "its answer is not what its rows lead to: nobody knows which of them it recorded"
        for other in ({"lodged": 1}, {"same": 1}, {"differs": 1, "first": [1, 7]}, {"refused": 1},
                      {"bad": 1}, {"first": [2, 7]}, {"first": "x"}, {"lodged": None}):
            self.lines[2]["answer"] = json.dumps(answer | other)
            with self.subTest(other=other):
                said = self.over()[0]
                self.assertEqual([one for one in said if "200" not in one[1]], [
                    ("line 2", says.split(": ")[1]),
                    ("line 8", "the office has something else than line 2"),
                    ("con c1", "the record does not say all of s1")])

    def test_a_file_without_its_setup(self):
        """An office does not say how many agents a station has. A row with more votes than electors
        was refused or not, and the answer says it where all such rows, or none of them, were; else
        a station may have what its rows say. Where they say several things nothing is closed."""
        row = "{},p1,0,0,{},{}".format
        one, other = row("s1", 20, 12), row("s1", 10, 12)
        refused = row("s2", 30, 12), row("s3", 3, 4)
        for rows, own, named in (
                ((one, other), (one,), []),
                ((one, other), (other,), ["line 2", "line 4", "station s1"]),
                ((one, other, *refused), (), ["line 4", "con c1"]),
                ((one, *refused), (), []),
                ((row("s1", 30, 12), other, *refused), (), []),
                ((row("s1", 30, 12), other, *refused), (row("s1", 12, 10),), [
                    "line 2", "line 4", "station s1"])):
            self.recorded(a_file(*rows), on("s1", "close", rev=1), setup=WITH_AGENTS,
                          is_named=False)
            with self.subTest(rows=rows, own=own):
                own = [a_file(*own)] if own else []
                said, _ = self.over(*own, setup=WITH_AGENTS)
                self.assertEqual([place for place, _ in said], named)

    def test_what_has_no_answer(self):
        """Not even that nobody knows it: the office may have it or not."""
        self.recorded(lodged("s1", 1, 2), a_file("s2,p1,0,0,3,4"), on("s2", "close", rev=1),
                      lodged("s3", 5, 6), on("s3", "query", rev=1, note="5?"))
        del self.lines[4], self.lines[-1]
        self.lines[5:] = [line | {"to": line["to"] - 1} if "to" in line else line
                          for line in self.lines[5:]]
        unknown = [(f"line {n}", "nobody knows whether it was done") for n in (4, 9)]
        query = on("s3", "query", rev=1, note="5?")
        for own in ((), (lodged("s3", 5, 6), query)):
            with self.subTest(own=own):
                self.assertEqual(self.over(a_file("s2,p1,0,0,3,4"), *own)[0], unknown)

    def test_a_refusal_says_what_was_there(self):
        """Nobody knows of two lodges whether they were done; later commands were refused, since the
        return differs, or as stale. So they were done, also where a copy lacks them."""
        all_done = lodged("s1", 1, 2), lodged("s2", 3, 4), on("s2", "query", rev=1, note="3?")
        self.recorded(*all_done)
        lines = [line | ({"status": 504} if line.get("to") else {}) for line in self.lines]
        refused = [a_command(lodged("s1", 2, 2)[1], "/station/s1/lodge"),
                   {"to": 8, "status": 409, "answer": '{"refused":7,"rev":1,"word":"differs"}'},
                   a_command('{"rev":1}', "/station/s2/close"),
                   {"to": 10, "status": 409, "answer": '{"now":2,"refused":11,"word":"stale"}'}]
        named = [("station s1", "the office has something else than line 2 left"),
                 ("station s2", "the office has something else than line 6 left")]
        for more, own, said in (([], (), []), (refused, (), named), (refused, all_done, []),
                                (refused, all_done[:2], named[1:]), (refused[:2], all_done[:1], []),
                                (refused[:2], (lodged("s1", 2, 2),), named[:1])):
            self.lines = [*lines, *more]
            with self.subTest(more=more, own=own):
                self.assertEqual(self.over(*own, after=len(self.lines))[0], said)

    def test_a_refusal_that_names_a_return_past_the_record(self):
        """A query was refused as stale, since the return was corrected past the recorder: another
        return was certified, so that nothing is certified over the one that the record has."""
        self.recorded(*certified())
        answers = [a_command('{"rev":2,"note":"5?"}', "/station/s1/query"),
                   {"to": 14, "status": 409, "answer": '{"now":5,"refused":11,"word":"stale"}'}]
        certificate = [self.lines[13], self.lines[14] | {"to": 16}]
        self.lines = [*self.lines[:13], *answers, *certificate]
        for after, own in ((1, ()), (15, certified()[:6])):
            with self.subTest(after=after):
                said, office = self.over(*own, after=after)
                self.assertEqual(said, [
                    ("line 16", "the office has something else than line 14"),
                    ("con c1", "the office has something else than line 16 left"),
                    ("con c1", "the record does not say all of s1")])
                self.assertIsNone(office.cons["c1"].certified)

    def test_a_number_with_more_digits_than_python_reads(self):
        """The office ignores its key, and takes the rest."""
        self.recorded(*closed("s1", 1, 2), is_named=False)
        self.lines[1]["body"] = self.lines[1]["body"].replace("{", f'{{"x": {"7" * 5000}, ', 1)
        shown = LODGED | {"rev": 1, "status": "received"}
        for votes, is_sent in (([1, 2], True), ([2, 1], False)):
            with self.subTest(votes=votes), answering_desk(
                    {"/station/s1": shown | {"votes": votes}}) as (port, asked):
                self.sent_to(port)
                self.assertEqual("/station/s1/close" in asked, is_sent)

    def test_a_later_line_that_names_another_setup(self):
        """It is named, and does not end what is sent."""
        self.recorded(*closed("s1", 1, 2))
        self.lines.insert(3, {"n": 1, "setup": "0" * 64})
        self.lines[5] |= {"to": 5}
        with commanded(SETUP) as (_, port, came):
            status, said, last = self.sent_to(port)
        self.assertEqual((status, [place for place, _ in said], last.split(";")[0], len(came)),
                         (1, ["line 4"], "sent 2, to look at 1", 2))
