"""Records: rows with as many votes as there may be, commands sent again, and long histories."""

import contextlib
import hashlib
import csv
import io
import json
import os
import socket
import sqlite3
import sys
import threading
import tomllib
from pathlib import Path
from types import SimpleNamespace
from unittest import mock

from tests.support.case import Case
from tests.support.office import SETUP, station
from tests.support.program import write
from tests.support.record import LODGED, a_command, chained
from tests.support.scripts import loaded, module

entries = loaded("entries")
chain, recorder, replay = module("chain"), module("recorder"), loaded("replay")


class RowsOfAFile(Case):
    def lodged(self, rows, setup=SETUP, head="station,slip,blank,spoiled,A,B"):
        """The stations of the rows that an import lodges, by the tool that reads records."""
        [con] = tomllib.loads(setup)["constituency"]
        text = f"{head}\n" + "".join(f"{row}\n" for row in rows)
        return [code for code, _ in entries.rows_of(text, False, con)]

    def test_as_many_votes_as_electors(self):
        """Twin Town's station has 300 electors."""
        self.assertEqual(self.lodged(["s1,p1,0,0,150,150"]), ["s1"])
        self.assertEqual(self.lodged(["s1,p1,10,20,135,135"]), ["s1"])
        self.assertEqual(self.lodged(["s1,p1,0,0,150,151"]), [])
        self.assertEqual(self.lodged(["s1,p1,1,0,150,150"]), [])

    def test_a_file_that_is_refused_as_a_whole(self):
        row, other = "s1,p1,0,0,1,2", "s9,p1,0,0,1,2"
        self.assertEqual(self.lodged([row] + [other] * 19_999), ["s1"])
        self.assertEqual(self.lodged([row] + [other] * 20_000), [])
        for head in ("station,slip,blank,spoiled,B,A", "station,slip,blank,spoiled,A",
                     "station,slip,spoiled,blank,A,B", "station,slip,blank,spoiled,A,B,"):
            with self.subTest(head=head):
                self.assertEqual(self.lodged([row], head=head), [])
        self.assertEqual(self.lodged([row], head='\ufeff"station",slip,blank,spoiled,A,B'), ["s1"])

    def test_a_million_votes(self):
        setup = SETUP + station("s2", 1000000)
        self.assertEqual(self.lodged(["s2,p1,0,0,1000000,0"], setup), ["s2"])
        self.assertEqual(self.lodged(["s2,p1,0,0,1000001,0"], setup), [])


class Lines(Case):
    """Lines as one after the other, and what was shown of them."""

    def test_a_line_that_does_not_follow_on_the_one_before(self):
        """By its number or by its hash; a line after it is right again."""
        first, second, third = chained({"setup": "5e"}, {}, {}).splitlines()
        other = chained({}, {"n": 3}, {}).splitlines()
        forged = second.replace(b'"before": "', b'"before": "0')
        of_forged = third.replace(hashlib.sha256(second).hexdigest().encode(),
                                  hashlib.sha256(forged).hexdigest().encode())
        for lines, wrong, setup in (
                ([first, second, third], [], "5e"), (other, [2], None),
                ([first, forged, of_forged], [2], "5e"), ([second], [1], None),
                ([first, third], [2], "5e"), ([first, b"cut", b"[]", b"null"], [2, 3, 4], "5e")):
            with self.subTest(lines=lines):
                it = chain.Chain()
                self.assertEqual(sum(map(it.take, lines), []) + it.end(), [
                    f"line {number}: not as it was written, or one before it" for number in wrong])
                self.assertEqual((it.number, it.setup), (len(lines), setup))

    def test_lines_that_were_shown(self):
        lines = chained({}, {}).splitlines()
        one, two = (hashlib.sha256(line).hexdigest() for line in lines)
        for shown, said in (
                ({1: {one}, 2: {two}}, []), ({1: {two}}, ["line 1: another one was shown"]),
                ({1: {one, two}}, ["line 1: another one was shown"]),
                ({4: {one}, 3: {two}}, ["line 3: it was shown, and is not there",
                                        "line 4: it was shown, and is not there"])):
            with self.subTest(shown=shown):
                it = chain.Chain(shown)
                self.assertEqual(sum(map(it.take, lines), []) + it.end(), said)

    def test_what_was_shown(self):
        """By the numbers of lines; a number that has two hashes has both, and 0 has none."""
        for text, found in (("lines,sha256\n7,aa\n", {7: {"aa"}}),
                            ("time,lines,sha256\n,0,00\n,7,aa\n,9,cc\n,7,bb\n",
                             {7: {"aa", "bb"}, 9: {"cc"}}),
                            ("lines,sha256\n0,00\n", {})):
            with self.subTest(text=text):
                write("record.csv", text)
                self.assertEqual(chain.read_shown("record.csv"), found)

    def test_a_record_of_a_setup(self):
        """By its first line alone; nobody waits for a pipe."""
        write("setup.json", "[]")
        own = hashlib.sha256(b"[]").hexdigest()
        long = {"setup": own, "more": "x" * 8192}
        for name, record, begins in (
                ("right", chained({"setup": own}, {}), True), ("cut", chained({"setup": own})[:-1],
                                                               True),
                ("later", chained({}, {"setup": own}), False), ("none", b"", False),
                ("other", chained({"setup": "0" * 64}), False), ("long", chained(long), False),
                ("number", chained({"setup": 5}), False), ("list", b"[1]\n", False)):
            with self.subTest(name=name):
                Path(name).write_bytes(record)
                self.assertIs(chain.begins_with(Path(name), Path("setup.json")), begins)
        os.mkfifo("pipe")
        for record, setup in (("pipe", "setup.json"), ("right", "missing"), ("missing", "right")):
            self.assertIs(chain.begins_with(Path(record), Path(setup)), False)


@contextlib.contextmanager
def answering_in_turn(*answers):
    """A desk that gives these answers to its connections; nothing ends a connection at once."""
    listener = socket.create_server(("127.0.0.1", 0))

    def serve():
        for text in answers:
            connection, _ = listener.accept()
            with connection:
                connection.recv(65536)
                connection.sendall(text)

    thread = threading.Thread(target=serve)
    thread.start()
    try:
        yield f"127.0.0.1:{listener.getsockname()[1]}"
    finally:
        thread.join()
        listener.close()


def an_answer(status):
    return f"HTTP/1.1 {status} X\r\nContent-Length: 2\r\nConnection: close\r\n\r\n{{}}".encode()


class SentAgain(Case):
    def test_a_refusal_of_a_command_that_was_sent_again(self):
        """The desk ended without an answer, and refuses the command then: it may have been done."""
        for status, known in ((200, 200), (400, None), (404, None), (409, None), (503, None)):
            with self.subTest(status=status):
                with answering_in_turn(b"", an_answer(status)) as address:
                    found = recorder.Desk(address).ask("POST", "/con/c1/certify", b"{}")
                self.assertEqual(found[0], known)

    def test_a_refusal_at_once(self):
        for status in (400, 404, 409):
            with self.subTest(status=status):
                with answering_in_turn(an_answer(status)) as address:
                    found = recorder.Desk(address).ask("POST", "/con/c1/certify", b"{}")
                self.assertEqual(found[0], status)


class LongHistory(Case):
    def history(self, commands):
        """The index's places of a station, and whether they are all."""
        index = recorder.Index()
        lines = []
        for number in range(commands):
            lines += [
                a_command(json.dumps(LODGED), "/station/s1/lodge"),
                {"to": 2 * number + 1, "status": 200, "answer": '{"ok":"lodged","rev":1}'},
            ]
        place = 0
        for line in chained(*lines).splitlines(keepends=True):
            index.take(line, place)
            place += len(line)
        places, whole = index.of("s1")
        return len(places), whole

    def test_as_many_lines_as_are_shown(self):
        """A command and its answer are two lines, and two hundred lines are shown."""
        self.assertEqual(self.history(99), (198, True))
        self.assertEqual(self.history(100), (200, True))
        self.assertEqual(self.history(101), (200, False))


class Revisions(Case):
    """A copy of the office beside its record: what each act leaves is what the copy has."""

    # The acts of a station in turn, each with the number of the status that it leaves: received,
    # queried, corrected or closed.
    ACTS = (("lodge", 1), ("query", 2), ("correct", 3), ("close", 4), ("query", 2), ("confirm", 4))

    def looked_at(self, acts, status):
        """The names of a record with these acts and a copy that has the last with a status."""
        lines = []
        for number, act in enumerate(acts, 1):
            body = LODGED if act in ("lodge", "correct") else {"rev": number - 1}
            lines += [a_command(json.dumps(body), f"/station/s1/{act}"),
                      {"to": 2 * number - 1, "status": 200, "answer": "{}"}]
        with contextlib.closing(sqlite3.connect(":memory:")) as it:
            it.executescript("""
                CREATE TABLE counts (station, item, n); CREATE TABLE lots (con, list, place);
                CREATE TABLE cons (con, edition, certified, note);
                CREATE TABLE returns (station, rev, status, slip, note);
                CREATE TABLE gone (con, list, place, note); CREATE TABLE setup (text);
                INSERT INTO counts VALUES ('s1', 1, 1), ('s1', 2, 2), ('s1', 0, 0), ('s1', 61, 0);
                INSERT INTO cons VALUES ('c1', 1, 0, '');
            """)
            it.execute("INSERT INTO returns VALUES ('s1', ?, ?, 'p1', '')", (len(acts), status))
            it.execute("INSERT INTO setup VALUES (?)", (SETUP,))
            it.commit()
            with mock.patch.object(entries.sqlite3, "connect", lambda *_, **__: it):
                office = entries.Office("copy.db")
        reading = entries.Reading({"constituency": entries.cons_of(SETUP)})
        said = io.StringIO()
        given = SimpleNamespace(buffer=io.BytesIO(chained(*lines)))
        with mock.patch.object(sys, "stdin", given), contextlib.redirect_stdout(said):
            self.assertEqual(entries.read(reading, {}), [])
            reading.compare(office)
        return said.getvalue().splitlines()

    def test_each_status_is_that_of_the_last_act(self):
        for number in range(1, len(self.ACTS) + 1):
            acts, statuses = zip(*self.ACTS[:number])
            for status in (1, 2, 3, 4):
                with self.subTest(acts=acts, status=status):
                    self.assertEqual(len(self.looked_at(acts, status)), status != statuses[-1])


class Offices(Case):
    LISTS = [{"code": "A", "name": "Alpha"}, {"code": "B", "name": "Beta"}]
    STATIONS = [{"code": "s1", "electors": 300}, {"code": "s2", "electors": 20}]
    CON = {"code": "c1", "name": "Twin Town", "seats": 3, "method": "dhondt", "threshold": 300,
           "base": "valid", "lot": "fixed", "lists": LISTS, "stations": STATIONS}

    def office(self, stations="s1 300 -\ns2 20 closed 1 p1 5 0 0\n", **other):
        """The answers of an office of this setup, or of one that has something otherwise."""
        result = {key: value for key, value in self.CON.items() if key not in ("lot", "stations")}
        result |= {"lot_rule": "fixed", "stations": 2} | other
        return [(200, json.dumps(result)), (200, f"STATIONS c1\nstations 2\n{stations}")]

    def test_the_office_that_has_a_constituency(self):
        """Of several offices one has it, with all of which an office says that it is of this
        setup."""
        none = [(404, '{"word":"no_constituency"}')] * 2
        right, lists = self.office(), self.LISTS
        others = [self.office(**other) for other in (
            {"lists": lists[::-1]}, {"lists": lists[:1]}, {"seats": 4}, {"name": "Twin City"},
            {"lists": [lists[0], {"code": "B", "name": "Gamma"}]}, {"method": "sainte-lague"},
            {"threshold": 299}, {"base": "lists"}, {"lot_rule": "alternating"},
            {"stations": "s1 300 -\n"}, {"stations": "s2 20 -\ns1 300 -\n"},
            {"stations": "s1 301 -\ns2 20 -\n"})]
        for answers, is_taken in (
                (right, True), (none + right, True), (right + none, True), (none, False),
                (right + right, False), ([(200, ""), right[1]], False), ([(200, "[]")] * 2, False),
                ([(None, "")] * 2, False), *((other, False) for other in others)):
            with self.subTest(answers=answers):
                left = list(answers)
                desks = {number: "desk" for number in range(len(answers) // 2)}
                with mock.patch.object(replay, "send", lambda *_: left.pop(0)):
                    if is_taken:
                        replay.Setup.compare(self.CON, desks)
                    else:
                        self.assertRaises(replay.OtherSetup, replay.Setup.compare, self.CON, desks)

    def test_a_setup_with_two_entries(self):
        """So has the office; a setup that does not say it may be of an older package."""
        double, single = {"entry": "double"}, {"entry": "single"}
        for of_setup, of_office, is_taken in (
                (double, double, True), (double, single, False), (double, {}, False),
                ({}, double, True), ({}, {}, True), (single, double, True)):
            for number in (1, 2):
                with self.subTest(setup=of_setup, office=of_office, offices=number):
                    left = self.office(**of_office) + [(404, "{}")] * 2 * (number - 1)
                    desks = {place: "desk" for place in range(number)}
                    with mock.patch.object(replay, "send", lambda *_: left.pop(0)):
                        if is_taken:
                            replay.Setup.compare(self.CON | of_setup, desks)
                        else:
                            self.assertRaisesRegex(
                                replay.OtherSetup, "one entry closes a return there",
                                replay.Setup.compare, self.CON | of_setup, desks)
