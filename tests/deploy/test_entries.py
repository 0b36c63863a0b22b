"""Who entered what, from the record."""

import os
import signal
from pathlib import Path

from tests.support import tools
from tests.support.case import needs
from tests.support.clerks import SLIP, TWICE, office_with_a_second
from tests.support.record import a_command, chained
from tests.support.running import PATIENCE, until
from tests.support.site import DEPLOY, SiteCase

TIME = "2026-11-26T22:14:00.000+00:00"


def given(name, path, body="{}", *statuses):
    """A command of a record, with the statuses of its answers: 200 where none is named."""
    return [(a_command(body, path) | {"time": TIME, "name": name}, statuses or (200,))]


def refused_name(name, path):
    """A command of a name whose role may not give it."""
    command = a_command("{}", path) | {"time": TIME, "name": name, "bytes": 2, "status": 403}
    return [({key: value for key, value in command.items() if key != "body"}, ())]


def without_answer(name, path):
    return [(command, ()) for command, _ in given(name, path)]


def record_of(commands):
    """A record as the recorder writes it; a line of bytes is there as it is."""
    lines = []
    for one in commands:
        command, statuses = (one, ()) if isinstance(one, bytes) else one
        lines.append(command)
        number = len(lines)
        lines += [{"time": TIME, "to": number, "status": status, "answer": ""}
                  for status in statuses]
    return chained(*lines)


class Entries(SiteCase):
    def entries(self, record, setup=TWICE):
        """The output of the tool for a record, which is given as bytes or as commands."""
        Path("entries.toml").write_text(setup, encoding="utf-8")
        done = tools.run([DEPLOY / "entries", "entries.toml"],
                         input=record if isinstance(record, bytes) else record_of(record),
                         capture_output=True, timeout=PATIENCE,
                         env={**os.environ, "PYTHONIOENCODING": "utf-8:strict"})
        self.assertEqual(done.stderr, b"")
        return done.returncode, done.stdout.decode().splitlines()

    def test_second_entries_that_differ_often(self):
        """Who has no paper may try all figures: ten tries of a name at a station are named, and
        nine are not, nor those of other stations or names, nor first entries."""
        differs = '{"refused":7,"rev":1,"word":"differs"}'

        def tried(name, path, times, answer=differs):
            command = a_command("{}", path) | {"time": TIME, "name": name}
            return [command, {"time": TIME, "status": 409, "answer": answer}] * times

        rows = [*tried("sara", "/station/s1/confirm", 10), *tried("sara", "/station/s2/confirm", 9),
                *tried("sonia", "/station/s2/confirm", 9), *tried("clara", "/station/s3/lodge", 20),
                *tried("sara", "/station/s4/confirm", 20, '{"now":2,"refused":11,"word":"stale"}')]
        rows = [row | ({} if "path" in row else {"to": n}) for n, row in enumerate(rows)]
        self.assertEqual(self.entries(chained(*rows)), (
            1, ["s1: the second entries of sara differed 10 times from the first",
                "closed 0, of these by a second entry 0, to look at 1"]))

    def test_the_two_entries_of_a_record(self):
        """Of a station that was entered, corrected or imported by the name that confirmed it; the
        certificates over such; and none where two names entered it, or one entry is enough."""
        good = given("clara", "/station/s1/lodge") + given("sara", "/station/s1/confirm")
        self.assertEqual(self.entries(good),
                         (0, ["closed 1, of these by a second entry 1, to look at 0"]))
        single = given("clara", "/station/u1/lodge") + given("clara", "/station/u1/close") + given(
            "berta", "/con/c3/certify", '{"edition":1}')
        self.assertEqual(self.entries(good + single),
                         (0, ["closed 2, of these by a second entry 1, to look at 0"]))
        # Of the rows of the import the first is good, the second has more votes than electors, and
        # that of s1 changes nothing.
        rows = ("station,slip,blank,spoiled,A,B\r\ns4,p4,0,0,10,20\r\ns5,p5,0,0,200,101\r\n\r\n"
                "s1,p1,2,1,120,71\r\n")
        record = (
            good + given("clara", "/station/s2/lodge") + given("clara", "/station/s2/confirm")
            + given("clara", "/station/s3/lodge") + given("sara", "/station/s3/query")
            + given("sara", "/station/s3/correct") + given("sara", "/station/s3/confirm")
            + given("bruno", "/con/c1/import", rows) + given("bruno", "/station/s4/confirm")
            + given("clara", "/station/s5/lodge") + given("bruno", "/station/s5/confirm")
            # A return that is answered `same`, or refused, is nobody's entry.
            + given("sara", "/station/s5/lodge") + given("sara", "/station/s5/lodge", "{}", 409)
            + given("sara", "/station/s5/confirm", "{}", 409)
            + refused_name("clara", "/station/s5/confirm") + given("sara", "/station/s6/confirm")
            + given("berta", "/con/c1/certify", '{"edition":1}')
            + given("berta", "/con/c1/certify", '{"edition":1}', 409))
        of_clara, of_sara, of_bruno = (f"both entries are by {name} ({TIME}, {TIME})"
                                       for name in ("clara", "sara", "bruno"))
        first_lost = (f"s6: its second entry is by sara ({TIME}), and its first "
                      "is not in this record")
        certified = f"c1: certified by berta ({TIME}), edition 2, over s2, s3, s4, s6"
        self.assertEqual(self.entries(record), (
            1, [f"s2: {of_clara}", f"s3: {of_sara}", f"s4: {of_bruno}", first_lost, certified,
                "closed 6, of these by a second entry 6, to look at 5"]))
        # Entered again under two names after a reopening, it is named no more; its certificate is.
        again = (record + given("berta", "/con/c1/reopen") + given("sara", "/station/s2/query")
                 + given("clara", "/station/s2/correct"))
        self.assertEqual(self.entries(again), (
            1, [f"s3: {of_sara}", f"s4: {of_bruno}", first_lost, certified,
                "closed 5, of these by a second entry 5, to look at 4"]))
        self.assertEqual(self.entries(again + given("sara", "/station/s2/confirm"))[1][0],
                         f"s3: {of_sara}")
        # The first entry is that which was recorded, whoever sent the same again; a return that is
        # queried is not closed.
        same_again = (given("clara", "/station/s1/lodge") + given("bruno", "/station/s1/lodge")
                      + given("clara", "/station/s1/confirm"))
        self.assertEqual(
            self.entries(same_again),
            (1, [f"s1: {of_clara}", "closed 1, of these by a second entry 1, to look at 1"]))
        self.assertEqual(self.entries(same_again + given("bruno", "/station/s1/query")),
                         (0, ["closed 0, of these by a second entry 0, to look at 0"]))
        # A certificate over what nobody closed in the record, and a close that the office cannot
        # have accepted where two entries are needed.
        lost = given("clara", "/station/t1/lodge") + given("clara", "/station/t1/close") + given(
            "berta", "/con/c2/certify", '{"edition":4}')
        self.assertEqual(self.entries(lost), (
            1, ["t1: its second entry is not in this record",
                f"c2: certified by berta ({TIME}), edition 5, over t1",
                "closed 1, of these by a second entry 0, to look at 2"]))

    def test_entries_in_the_order_of_their_answers(self):
        """The first entry is by the name whose command was done first, and not by the one whose
        command was recorded first."""
        lodged = [command for name in ("clara", "sara")
                  for command, _ in given(name, "/station/s1/lodge")]
        answers = [{"time": TIME, "to": number, "status": 200, "answer": ""} for number in (1, 2)]
        confirmed = [command for command, _ in given("sara", "/station/s1/confirm")] + [{
            "time": TIME, "to": 5, "status": 200, "answer": ""}]
        both = f"s1: both entries are by sara ({TIME}, {TIME})"
        self.assertEqual(self.entries(chained(*lodged, *answers, *confirmed)),
                         (0, ["closed 1, of these by a second entry 1, to look at 0"]))
        self.assertEqual(self.entries(chained(*lodged, *answers[::-1], *confirmed)),
                         (1, [both, "closed 1, of these by a second entry 1, to look at 1"]))

    def test_a_spoiled_record_of_entries(self):
        """Lines that are cut or of another kind are named, and what comes after them is read; so is
        what nobody knows to have been done, and a body that is no text. A line that was changed is
        read as it is."""
        twice = given("clara", "/station/s1/lodge") + given("clara", "/station/s1/confirm")
        both = [f"s1: both entries are by clara ({TIME}, {TIME})",
                "closed 1, of these by a second entry 1, to look at 2"]
        whole = record_of(given("clara", "/station/s1/lodge")).splitlines()[0]
        spoiled = [whole[:40], b"5", b"{}", b"null", b'"to"', b"[]", b"\0\0", b"[" * 20_000,
                   b'{"to":[],"status":200}', b'{"to":1}', b'{"to":1,"status":"200"}',
                   whole.replace(b"POST", b"GET"), whole.replace(b'"path"', b'"pith"'),
                   whole.replace(b"/lodge", b"/nonesuch"), whole.replace(b'"n": 1', b'"n": []'),
                   whole.replace(b'"body": "{}"', b'"body_base64": "e"'), b"p\xe9"]
        for one in spoiled:
            with self.subTest(one=one):
                status, said_of = self.entries([one] + twice)
                self.assertEqual((status, said_of[1:]), (1, both))
                text = one.decode(errors="backslashreplace").replace("\\xe9", "\\udce9").replace(
                    "\0", "\\x00")[:200]
                self.assertEqual(said_of[0], f"line 1 is no whole line of a record: {text}")
        # Characters that a terminal obeys are escaped, in a line, a name or a time.
        odd = "\x1b[1A\x1b[2K\x9b\u202e\r"
        shown = "\\x1b[1A\\x1b[2K\\x9b\\u202e\\r"
        self.assertEqual(self.entries([odd.encode()] + twice)[1][0],
                         f"line 1 is no whole line of a record: {shown}")
        named = [(command | {"name": odd, "time": odd}, statuses) for command, statuses in twice]
        self.assertEqual(self.entries(named)[1][0],
                         f"s1: both entries are by {shown} ({shown}, {shown})")
        # Commands that another office answered as done.
        for path, what in (("/station/zz/lodge", "lodge zz"), ("/con/zz/certify", "certify zz"),
                           ("/con/zz/import", "import zz"), ("/con/c1/certify", "certify c1")):
            with self.subTest(path=path, what=what):
                status, said_of = self.entries(given("clara", path, "[]") + twice)
                wrong = f"{what} by clara ({TIME}) is no command of an office of this setup"
                self.assertEqual((status, said_of), (1, [f"line 1: {wrong}", *both]))
        # A command that another line, or none, was put in the place of.
        self.assertEqual(self.entries([b"cut"] + record_of(twice).splitlines()[1:]), (1, [
            "line 1 is no whole line of a record: cut",
            "line 2: it answers line 1, which is not there: nobody knows what was done",
            f"s1: its second entry is by clara ({TIME}), and its first is not in this record",
            "closed 1, of these by a second entry 1, to look at 3"]))
        # A record that was changed is read, and is not whole.
        changed = record_of(twice).replace(b'"clara"', b'"sara"', 1)
        self.assertEqual(self.entries(changed), (2, [
            "the record is not whole: line 2: not as it was written, or one before it",
            "closed 1, of these by a second entry 1, to look at 0"]))
        second = given("sara", "/station/s1/confirm")
        for unknown in (without_answer("clara", "/station/s1/lodge"),
                        *(given("clara", "/station/s1/lodge", "{}", status)
                          for status in (None, 502, 503, 504))):
            with self.subTest(unknown=unknown):
                status, said_of = self.entries(unknown + second)
                self.assertEqual((status, said_of[:2]), (
                    1, [f"line 1: lodge s1 by clara ({TIME}): nobody knows whether it was done",
                        f"s1: its second entry is by sara ({TIME}), and its first "
                        "is not in this record"]))
        # A row with another station's name in bytes that are no UTF-8.
        rows = "station;slip;blank;spoiled;A;B\ns\xe9;p1;0;0;1;2\ns1;p1;0;0;1;2\n".encode("latin-1")
        record = (given("josé", "/con/c1/import/semicolon", rows)
                  + given("josé", "/station/s1/confirm"))
        self.assertEqual(self.entries(record), (
            1, [f"s1: both entries are by josé ({TIME}, {TIME})",
                "closed 1, of these by a second entry 1, to look at 1"]))
        self.assertEqual(self.entries([]),
                         (0, ["closed 0, of these by a second entry 0, to look at 0"]))

    @needs("nginx", "openssl")
    def test_a_name_that_changes_its_role(self):
        """No name may do both; one that was given the other role in the evening does, and the
        record shows it."""
        with office_with_a_second(TWICE) as (desk, front):
            ask = lambda target, body, name: front.ask("POST", target, body, name).status
            self.assertEqual(
                [ask(f"/station/{code}/lodge", SLIP, "clara") for code in ("s1", "s2")], [200] * 2)
            self.assertEqual([ask("/station/s1/confirm", {"rev": 1, **SLIP}, name)
                              for name in ("clara", "sara")], [403, 200])
            staff = front.folder / "office/staff.conf"
            staff.write_text(staff.read_text().replace("clara clerk;", "clara second;"))
            front.process.send_signal(signal.SIGHUP)
            until(lambda: ask("/station/s2/close", {"rev": 1}, "clara") == 403)
            # (a process of the proxy that had the old roles may still take some requests)
            until(lambda: ask("/station/s2/confirm", {"rev": 1, **SLIP}, "clara") == 200)
            times = [line["time"] for line in front.record(6) if "/s2/" in line["path"]
                     and line["status"] == 200]
            record = (front.folder / "log/commands.log").read_bytes()
        self.assertEqual(self.entries(record), (
            1, [f"s2: both entries are by clara ({times[0]}, {times[1]})",
                "remark: c1: the slip p1 is that of s1, s2",
                "closed 2, of these by a second entry 2, to look at 1"]))
