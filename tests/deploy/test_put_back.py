"""A whole office that somebody put back to an earlier moment: `status` sees it on the computer of
the office, and `entries` in a copy whose name says how many lines the record had, or in what the
record itself says."""

import contextlib
import io
import json
import shutil
import sqlite3
from pathlib import Path

from tests.deploy.test_returns_past_the_record import reading_of
from tests.deploy.test_two_of_the_board import answer, board
from tests.support import tools
from tests.support.case import Case
from tests.support.desks import answering_desk
from tests.support.office import DOUBLE, LISTS, PROFILE, constituency, station, with_stations
from tests.support.record import a_command, chained
from tests.support.recorder import recorder_alone
from tests.support.running import PATIENCE
from tests.support.safeguards import TWO_TOWNS, Safeguards
from tests.support.site import DEPLOY, SiteCase, backup, new, serving

SLIP = {"slip": "p1", "votes": [120, 71], "blank": 2, "spoiled": 1}
# Of an office of which no act could be compared.
SILENT = [(False, "it says of none of the last acts of the record now whether it has it")]


def said_by_status(*words):
    """The acts of each office, as `status` has them: whether they are well, and in words."""
    ran = tools.run([DEPLOY / "status", "--config", "status.toml", "--json", *words],
                    capture_output=True, timeout=PATIENCE)
    assert ran.stderr == b"", ran.stderr
    parts = [part for part in json.loads(ran.stdout)["parts"] if part["part"] in ("acts", "record")]
    assert parts[0]["well"], parts
    return [(part["well"], part["says"]) for part in parts[1:]]


def configured(*ports):
    offices = [f'[[office]]\nname = "{number}"\ndesk = "127.0.0.1:{port}"\n'
               f'recorder = "x/{number}.sock"\n' for number, port in enumerate(ports, 1)]
    record = 'seen = "seen.json"\n[record]\nfile = "commands.log"\n'
    Path("status.toml").write_text(record + "".join(offices), encoding="utf-8")


def done(act, number, **reached):
    """An act of the record and its answer, where the act is the line of this number."""
    return [a_command("{}", act), {"to": number, "status": 200,
                                   "answer": json.dumps({"ok": "moved"} | reached)}]


def imported(number, **counts):
    """The answer to an import, where the command is the line of this number."""
    counts = {"bad": 0, "differs": 0, "first": None, "lodged": 0, "ok": "import", "refused": 0,
              "same": 0} | counts
    return {"to": number, "status": 200, "answer": json.dumps(counts)}


def lodged(*stations, begin=1):
    return [line for place, code in enumerate(stations)
            for line in done(f"/station/{code}/lodge", begin + 2 * place, rev=1)]


class Status(Safeguards):
    """`status` beside servers in the place of the office."""

    def looks(self, shown, lines, wanted, *words):
        """Of an office that shows this, `status` says so after these lines of the record."""
        Path("commands.log").write_bytes(chained(*lines))
        with answering_desk({"/progress": "x", **shown}) as (port, asked):
            configured(port)
            found = said_by_status(*words)
        self.assertEqual(found, wanted)
        return asked

    def test_an_office_that_has_what_it_did_or_not(self):
        lines = [*done("/station/s1/lodge", 1, rev=1), *done("/station/s1/close", 3, rev=2),
                 *done("/con/c1/certify", 5, edition=2)]
        there = {"/station/s1": {"rev": 2}, "/con/c1": {"edition": 2}}
        well = [(True, "of the last acts of the record it has all 2 that were compared")]

        def back(line, target, reached):
            return [(False, "it was put back to an earlier moment: it lacks what line "
                            f"{line} of the record answered, by which {target} came to {reached}")]

        for why, shown, wanted in (
                ("as it was", {}, well),
                ("more was done meanwhile",
                 {"/station/s1": {"rev": 5}, "/con/c1": {"edition": 4}}, well),
                ("a return", {"/station/s1": {"rev": 1}}, back(4, "/station/s1", 2)),
                ("no return", {"/station/s1": (404, {"word": "no_return"})},
                 back(4, "/station/s1", 2)),
                ("an edition", {"/con/c1": {"edition": 1}}, back(6, "/con/c1", 2)),
                ("both", {"/station/s1": 404, "/con/c1": {"edition": 1}},
                 back(4, "/station/s1", 2)),
                ("no answer", {"/station/s1": 503}, SILENT),
                ("no JSON", {"/con/c1": "?"},
                 [(True, "of the last acts of the record it has all 1 that were compared")])):
            with self.subTest(why=why):
                self.looks(there | shown, lines, wanted, "--forget")

    def test_lines_that_are_no_acts(self):
        command = a_command("{}", "/station/s1/close")
        for why, lines in {
            "refused": [command, answer(1, 409)], "unknown": [command, {"to": 1, "status": None}],
            "no answer": [command], "it may not": [command | {"status": 403}],
            "it waits": [a_command("{}", "/con/c1/certify") | {"status": 202}],
            "an import of nothing": [a_command("station,slip\n"), imported(1, bad=0)],
            "an import of bad rows": [a_command("station,slip\n?\ns1,p1\n"), imported(1, bad=2)],
            "an import that says nothing": [a_command("x"), {
                "to": 1, "status": 200, "answer": '{"ok":"import"}'}],
            "a vacancy of no list": [a_command('{"place":1}', "/con/c1/vacate"), {
                "to": 1, "status": 200, "answer": '{"next":2,"ok":"vacated"}'}],
            "no JSON": [command, {"to": 1, "status": 200, "answer": "?"}],
            "a list": [command, {"to": 1, "status": 200, "answer": "[]"}],
            "nobody's answer": [{"to": 7, "status": 200, "answer": '{"rev":3}'}],
        }.items():
            with self.subTest(why=why):
                self.assertEqual(self.looks({}, lines, [], "--forget"), ["/progress"])

    def test_an_office_before_an_import_or_a_vacancy(self):
        """Its own moment is one before a file of returns was imported, or a candidate was gone."""
        head = "\ufeffstation,slip,blank,spoiled,A,B\r\n"
        rows = 's1,p1,0,0,1,2\r\n"s2",p2,0,0,3,4\r\n'
        one, two = (f"{code:16}     300 received     1 p1                     3       0       0\n"
                    for code in ("s1", "s2"))
        none = "{:16}     300 -\n".format
        begin = "STATIONS c1 Twin\nstations 3 missing 1 closed 0\n"
        whole = [a_command(head + rows), imported(1, lodged=2)]
        again = [a_command(head + rows), imported(1, lodged=1, same=1)]
        semicolons = [a_command((head + rows).replace(",", ";").encode(),
                                "/con/c1/import/semicolon"), imported(1, differs=1, same=1)]
        above = [a_command("\n" + head[1:] + rows), imported(1, lodged=2)]
        bad = [a_command(head + rows + "s3,?\n"), imported(1, lodged=2, bad=1)]
        odd = [a_command(head + rows.replace('"s2"', "s\u20282")), imported(1, lodged=1, bad=1)]
        gone = [a_command('{"list":"B","place":2,"note":"x"}', "/con/c1/vacate"),
                {"to": 1, "status": 200, "answer": '{"next":3,"ok":"vacated"}'}]
        table, who = "/con/c1/stations", {"list": "B", "place": 2, "note": "x"}
        files = "2 stations of a file of /con/c1 had a return"
        for why, lines, shown, is_well, words in (
                ("all", whole, {table: begin + one + two + none("s3")}, True, None),
                ("more", whole, {table: begin + one + two}, True, None),
                ("before", whole, {table: begin + none("s1") + none("s2")}, False, files),
                ("before the second", again, {table: begin + one + none("s2")}, False, files),
                ("semicolons", semicolons, {table: begin + none("s1") + two}, False, files),
                ("semicolons, all", semicolons, {table: begin + one + two}, True, None),
                ("a blank line above", above, {table: begin + one + two}, True, None),
                ("a name of three lines", whole, {table: begin.replace(
                    "Twin", f"Twin\u2028\u2028{two[:26]}") + one + none("s2")}, False, files),
                ("a code of two lines", odd, {table: begin + one}, True, None),
                ("a bad row", bad, {table: begin + one + two + none("s3")}, True, None),
                ("before it", bad, {table: begin + one + none("s2") + none("s3")}, False, files),
                ("no constituency", whole, {table: 404}, False, files),
                ("gone", gone, {"/con/c1": {"edition": 2, "gone": [who]}}, True, None),
                ("two are gone", gone, {"/con/c1": {"gone": [who | {"place": 1}, who]}}, True,
                 None),
                ("another is", gone, {"/con/c1": {"gone": [who | {"place": 1}]}}, False,
                 "B 2 of /con/c1 was gone"),
                ("nobody is", gone, {"/con/c1": {"edition": 9, "gone": []}}, False,
                 "B 2 of /con/c1 was gone")):
            with self.subTest(why=why):
                wanted = ("of the last acts of the record it has all 1 that were compared"
                          if is_well else "it was put back to an earlier moment: it lacks what "
                                          f"line 2 of the record answered, by which {words}")
                # So it is at the next look, which has it from the one before.
                for more in ("--forget",), ():
                    self.looks(shown, lines, [(is_well, wanted)], *more)
        # An office that says nothing of them now.
        for lines, shown in ((whole, {table: 503}), (gone, {"/con/c1": {"edition": 2}})):
            self.looks(shown, lines, SILENT, "--forget")

    def test_it_stays_so(self):
        """An office that was put back is wrong until it has what it lacked, whatever it does."""
        lines, stations = lodged("s1"), [f"t{n}" for n in range(60)]
        there = {f"/station/{code}": {"rev": 1} for code in stations}
        self.assertTrue(self.looks(there | {"/station/s1": {"rev": 1}}, lines, [
            (True, "of the last acts of the record it has all 1 that were compared")]))
        wrong = [(False, "it was put back to an earlier moment: it lacks what line 2 of the record "
                         "answered, by which /station/s1 came to 1")]
        # Many acts followed within the minute, and at the next look once more.
        for many in (30, 60):
            asked = self.looks(there, lines + lodged(*stations[:many], begin=3), wrong)
            self.assertLess(len(asked), 45)
        # So it is after a look at which it did not answer, as while somebody starts it again.
        self.looks({f"/station/{code}": 503 for code in ("s1", *stations)},
                   lines + lodged(*stations, begin=3), SILENT)
        self.looks(there, lines + lodged(*stations, begin=3), wrong)
        self.looks(there | {"/station/s1": {"rev": 1}}, lines + lodged(*stations, begin=3), [
            (True, "of the last acts of the record it has all 21 that were compared")])
        self.looks(there, lines + lodged(*stations, begin=3), [
            (True, "of the last acts of the record it has all 20 that were compared")])

    def test_it_goes_on_with_the_same_return(self):
        """The act that it lacks is looked for, not a later one of the office that was put back;
        also where a look comes only after both."""
        lost, later = done("/station/s1/correct", 1, rev=3), done("/station/s1/close", 3, rev=2)
        well = [(True, "of the last acts of the record it has all 1 that were compared")]
        wrong = [(False, "it was put back to an earlier moment: it lacks what line 2 of the record "
                         "answered, by which /station/s1 came to 3")]
        back, on = {"/station/s1": {"rev": 2}}, {"/station/s1": {"rev": 3}}
        self.looks(back, [*lost, *later], wrong, "--forget")
        self.looks(on, lost, well, "--forget")
        self.looks(back, [*lost, *later], wrong)
        self.looks(back, [*lost, *later], wrong)
        # It has gone on for as long as the record had before.
        again = done("/station/s1/query", 5, rev=3)
        self.looks(on, [*lost, *later, *again], well)
        self.looks(back, [*lost, *later, *again],
                   [(False, wrong[0][1].replace("line 2", "line 6"))])

    def test_several_offices(self):
        """Each is compared with its own acts."""
        lines = [*done("/station/s1/lodge", 1, rev=1), *done("/station/s2/lodge", 3, rev=1)]
        lines[2]["office"] = 2
        Path("commands.log").write_bytes(chained(*lines))
        with answering_desk({"/station/s1": {"rev": 1}}) as (one, _):
            with answering_desk({"/station/s2": {"rev": 1}}) as (two, _):
                configured(one, two)
                self.assertEqual([well for well, _ in said_by_status("--forget")], [True, True])
                configured(two, one)
                self.assertEqual([well for well, _ in said_by_status("--forget")], [False, False])


class OfTheRecord(Case):
    """A record whose answers say that the office came to a revision that it had before."""

    def reading(self, *acts):
        """A record of acts on s1, or of files, each a name, the act, the body and what the answer
        says; and the lines that `entries` prints of an office that was put back."""
        said = io.StringIO()
        with contextlib.redirect_stdout(said):
            it = reading_of(*((name, f"/{'con/c1' if act == 'import' else 'station/s1'}/{act}",
                               body, {"answer": json.dumps(led)}) for name, act, body, led in acts))
        lines = said.getvalue().splitlines()
        self.assertEqual(it.left, len(lines))
        ends = ", which this record has already: the office was put back to an earlier moment"
        return it, [line.removesuffix(ends) for line in lines]

    LODGED, SAME = {"ok": "lodged", "rev": 1}, {"ok": "same", "rev": 1}

    def lodged(self, name, votes, led):
        return name, "lodge", SLIP | {"votes": votes}, led

    def moved(self, name, act, rev, votes=None):
        """One of the acts that lead to the next revision."""
        body = {"rev": rev, "note": "120?"} if act == "query" else {"rev": rev}
        return name, act, body | (SLIP | {"votes": votes} if votes else {}), {
            "ok": "moved", "rev": rev + 1}

    def test_who_entered_a_return_that_was_gone(self):
        """Whoever lodged it last, or whoever had corrected it by the revision to which it was put
        back: what was done afterwards is not in that office."""
        one, other = [120, 71], [71, 120]
        lodge = self.lodged("anna", one, self.LODGED)
        confirm = self.moved("carl", "confirm", 1, one)
        changed = [self.moved("bea", "query", 1), self.moved("carl", "correct", 2, other),
                   self.moved("bea", "query", 3), self.moved("anna", "correct", 4, one)]
        to_1, to_2 = (f"s1: {act} by carl (2026-11-26T22:14:{second:02}.000+00:00) led to revision "
                      for act, second in (("lodge", 3), ("confirm", 11)))
        for why, acts, said, first, revisions in (
                ("lodged", [lodge, confirm], [], "anna", 2),
                ("again", [lodge, self.lodged("carl", other, self.LODGED)], [f"{to_1}1"], "carl",
                 1),
                ("again, the same", [lodge, self.lodged("carl", one, self.LODGED), confirm],
                 [f"{to_1}1"], "carl", 2),
                ("it was there", [lodge, self.lodged("carl", one, self.SAME), confirm], [], "anna",
                 2),
                ("past the record", [lodge, self.moved("carl", "confirm", 5, one)], [], "anna", 2),
                ("corrected", [lodge, *changed], [], "anna", 5),
                ("before both", [lodge, *changed, confirm], [f"{to_2}2"], "anna", 2),
                ("between both", [lodge, *changed, self.moved("carl", "confirm", 3, other)],
                 [f"{to_2}4"], "carl", 4),
                ("an answer without a number", [lodge, (*lodge[:3], {"ok": "lodged"})], [], "anna",
                 1)):
            with self.subTest(why=why):
                it, lines = self.reading(*acts)
                found = it.returns["s1"]
                self.assertEqual((lines, found.first[0], len(found.revisions), len(found.moments),
                                  len(found.notes)), (said, first, *[revisions] * 3))
                if acts[-1][1] == "confirm":
                    fault = it.fault("s1")
                    self.assertEqual(bool(fault) and fault.split(" (")[0],
                                     first == "carl" and "both entries are by carl", fault)

    def imported(self, name, number):
        """A file with the same row for each station, of which the office lodged this many."""
        rows = "".join(f"s{n},p1,2,1,120,71\n" for n in (1, 2, 3))
        led = imported(1, lodged=number, same=3 - number)["answer"]
        return name, "import", f"station,slip,blank,spoiled,A,B\n{rows}", json.loads(led)

    def test_a_return_that_came_past_the_record(self):
        """The record has fewer revisions of it than the office: by their numbers it is seen all the
        same. Nobody knows then what the return was."""
        one, other = [120, 71], [71, 120]
        acts = [self.moved("clara", "query", 1), self.moved("clara", "correct", 2, other),
                self.moved("sara", "confirm", 3, other)]
        confirm, correct = acts[2], self.moved("carl", "correct", 2, one)
        for more, wanted, known in (
                ((), [], 3), ((confirm,), ["confirm 4"], 1),
                ((correct, self.moved("sara", "confirm", 3, one)), ["correct 3"], 2),
                ((confirm, confirm), ["confirm 4", "confirm 4"], 1)):
            with self.subTest(more=more):
                it, said = self.reading(*acts, *more)
                self.assertEqual([f"{line.split()[1]} {line.split()[-1]}" for line in said], wanted)
                self.assertEqual(len(it.returns["s1"].revisions), known)

    def test_a_return_that_was_corrected_and_is_lodged_again_so(self):
        """A file has it as it was corrected: its first revision was otherwise, so nothing is known
        of it."""
        one, other = [71, 120], [120, 71]
        acts = [self.lodged("anna", one, self.LODGED), self.moved("bea", "query", 1),
                self.moved("carl", "correct", 2, other)]
        for before, revisions in ((acts, 0), ([self.lodged("anna", other, self.LODGED)], 1)):
            it, said = self.reading(*before, self.imported("ivo", 2), self.imported("ivo", 1))
            self.assertEqual((len(said), len(it.returns["s1"].revisions), it.returns["s1"].first),
                             (1, revisions, None))

    def test_who_imported_what_was_gone(self):
        """A file of which all rows were lodged is its clerk's; where only some were nobody knows
        which, nor who entered a return that was put back to its first revision afterwards."""
        figures = [120, 71]
        lodge = self.lodged("anna", figures, self.LODGED)
        otherwise = self.lodged("anna", figures[::-1], self.LODGED)
        confirm, all_three = self.moved("carl", "confirm", 1, figures), self.imported("anna", 3)
        of_file = ("c1: line {}: an import lodged {}, also returns that this record has already: "
                   "the office was put back to an earlier moment")
        again = "s1: confirm by carl (2026-11-26T22:14:07.000+00:00) led to revision 2"
        for before, number, after, said, firsts in (
                ([lodge], 2, [], [], ["anna", "carl", "carl"]),
                ([lodge], 3, [], [of_file.format(4, 3)], ["carl"] * 3),
                ([lodge, confirm], 3, [confirm], [of_file.format(6, 3)], ["carl"] * 3),
                ([all_three], 0, [], [], ["anna"] * 3),
                ([all_three], 2, [], [of_file.format(4, 2)], [None] * 3),
                ([all_three, confirm], 1, [], [of_file.format(6, 1)], ["anna", None, None]),
                # Of one that may have other figures nothing is known, but that it was there.
                ([otherwise, self.imported("anna", 2)], 1, [], [of_file.format(6, 1)],
                 [None] * 3),
                ([otherwise, self.imported("anna", 2)], 1, [lodge],
                 [of_file.format(6, 1), "s1: lodge by anna (2026-11-26T22:14:07.000+00:00) led to "
                  "revision 1"], ["anna", None, None]),
                ([all_three, confirm], 1, [confirm], [of_file.format(6, 1), again], [None] * 3)):
            with self.subTest(before=before, number=number, after=after):
                it, lines = self.reading(*before, self.imported("carl", number), *after)
                found = [it.returns[code] for code in ("s1", "s2", "s3")]
                self.assertEqual((lines, [one.first and one.first[0] for one in found]),
                                 (said, firsts))


class BorneOut(SiteCase):
    def test_a_confirmation_that_the_copy_alone_bears_out(self):
        """Its answer was lost. Both entries are one name's all the same, also where the board has
        certified."""
        town = constituency("c1", "Town", 2, "d0")
        new(PROFILE + town + DOUBLE + LISTS + station("s1"))
        slip = {"slip": "p1", "votes": [10, 20], "blank": 0, "spoiled": 0}
        lodge, confirm, certify = (a_command(json.dumps(body), f"/{path}") | {"name": name}
                                   for body, path, name in (
                                       (slip, "station/s1/lodge", "zoe"),
                                       (slip | {"rev": 1}, "station/s1/confirm", "zoe"),
                                       ({"edition": 1}, "con/c1/certify", "berta")))
        done = {"to": 1, "status": 200, "answer": '{"ok":"lodged","rev":1}'}
        for certified, lines in ((0, [lodge, done, confirm]), (1, [lodge, done, confirm, certify])):
            with contextlib.closing(sqlite3.connect("office.db")) as it, it:
                it.execute("REPLACE INTO returns VALUES ('s1', 'c1', 2, 'p1', 4, '')")
                it.executemany("REPLACE INTO counts VALUES ('s1', ?, ?)",
                               [(0, 0), (1, 10), (2, 20), (61, 0)])
                it.execute("UPDATE cons SET edition = ?, certified = ?", (1 + certified, certified))
            ran = tools.run([DEPLOY / "entries", "setup.toml", "--office", "office.db"],
                            input=chained(*lines).decode(), capture_output=True, text=True,
                            timeout=PATIENCE, check=False)
            with self.subTest(certified=certified):
                self.assertIn("\ns1: both entries are by zoe (", ran.stdout)
                self.assertIn("closed 1, ", ran.stdout)
                self.assertEqual("\nc1: certified by berta (" in ran.stdout, bool(certified))


class Put(SiteCase):
    def sent(self, act, code="s1", **body):
        found = board(f"/station/{code}/{act}", json.dumps(body), "clara")
        self.assertEqual(found[0], 200)

    def of_copy(self):
        """The lines of `entries` about a copy that `backup` makes now, and its status."""
        self.assertEqual(backup("office.db", "copies", "commands.log")[0], 0)
        ran = tools.run([DEPLOY / "entries", "setup.toml", "--office",
                         max(Path("copies").glob("*.db"))],
                        input=Path("commands.log").read_bytes(), capture_output=True,
                        timeout=PATIENCE)
        return ran.returncode, ran.stdout.decode().splitlines()[:-1]

    def put(self, copy, desk):
        """Ends an office, which goes on from a copy."""
        desk.end()
        for file in Path().glob("office.db*"):
            file.unlink()
        shutil.copy(copy, "office.db")
        desk.start()

    def test_yesterday_over_today(self):
        """The whole office is put back, and goes on: `status` names it, and `entries` its copy."""
        with serving(with_stations(3)) as desk, recorder_alone(desk.port):
            configured(desk.port)

            self.sent("lodge", **SLIP)
            self.assertEqual(backup("office.db", "before")[0], 0)
            [yesterday] = Path("before").glob("*.db")
            self.sent("close", rev=1)
            self.assertEqual((said_by_status(), self.of_copy()), (
                [(True, "of the last acts of the record it has all 1 that were compared")],
                (0, [])))
            self.put(yesterday, desk)
            self.sent("lodge", "s2", **SLIP)
            [(well, said)] = said_by_status()
            self.assertEqual((well, said), (
                False, "it was put back to an earlier moment: it lacks what line 4 of the record "
                       "answered, by which /station/s1 came to 2"))
            status, [line] = self.of_copy()
            self.assertEqual(status, 1)
            self.assertRegex(line, r"^the office has s1 at revision 1, as it was before line 4 .* "
                                   r"it never had both$")
            # Without a further act nothing but its name says that it is no older copy.
            older = "the copy lacks what was done from line 4 of the record on ("
            for lines, wanted, begins in (
                    (0, 0, f"remark: {older}"), (3, 0, f"remark: {older}"), (4, 1, older),
                    (6, 1, older), (7, 1, "the copy was made when the record had 7 lines, and")):
                with self.subTest(lines=lines):
                    copy = f"office-20261129T200000Z-{lines:08}.db"
                    shutil.copy(yesterday, copy)
                    ran = tools.run([DEPLOY / "entries", "setup.toml", "--office", copy],
                                    input=Path("commands.log").read_bytes(), capture_output=True,
                                    timeout=PATIENCE)
                    first = ran.stdout.decode().splitlines()[0]
                    self.assertEqual((ran.returncode, first[:len(begins)]), (wanted, begins), first)

    def test_the_newest_copy_over_what_came_after_it(self):
        """The next copy is that one again, by the name of the lines that the record has by then."""
        with serving(with_stations(3)) as desk, recorder_alone(desk.port):
            self.sent("lodge", **SLIP)
            self.assertEqual(self.of_copy(), (0, []))
            [copy] = Path("copies").glob("*.db")
            self.sent("close", rev=1)
            self.put(copy, desk)
            status, [line] = self.of_copy()
            self.assertEqual(status, 1)
            self.assertRegex(line, "^the copy lacks what was done from line 4 of the record on .*: "
                                   "the office was put back to an earlier moment$")

    def test_a_constituency_that_the_copy_lacks(self):
        """It is named where the record has commands to it in the office of the copy."""
        new(PROFILE + constituency("c2", "Once", 3, "d0") + LISTS + station("t1"), "copy.db")
        Path("setup.toml").write_text(TWO_TOWNS, encoding="utf-8")
        refused = [a_command('{"rev":1}', "/station/t1/close"), answer(1, 404)]
        lodge, imported = a_command(json.dumps(SLIP), "/station/s1/lodge"), a_command("x")
        said = ["c1: the office does not have it, and this record has commands to it there"]
        asks = ["the copy has no constituency to which this record has commands, so nobody knows "
                "of which office it is: say so with --number, as 1 where there is one office"]
        two = [lodge | {"office": 2}, answer(1)]
        another = ["c2: the office has it, and this record has commands to it in office 1 and not "
                   "in 3: the copy is of another office"]
        for why, lines, wanted, *number in (
                ("nothing was done", [], []),
                ("nothing was done there", refused, []),
                ("a return", [*refused, lodge, answer(3)], said),
                ("a file", [*refused, imported, answer(3, 400)], said),
                ("nothing else was done", [lodge, answer(1)], asks),
                ("nothing else was done in this office", [lodge, answer(1)], said, 1),
                # Of several offices one has no command yet: the copy is of that one, or not.
                ("in another office alone", [lodge, answer(1)], [], 2),
                ("in the second office alone", two, asks),
                ("in the second office, and the copy is of the first", two, [], 1),
                ("in the second office, and the copy is of it", two, said, 2),
                # Its own constituency had commands in another one.
                ("there, and the copy is of the third", refused, another, 3),
                ("in both, and the copy is of the second",
                 [*refused, refused[0] | {"office": 2}, answer(3, 404)], [], 2),
                ("in another office", [*refused, lodge | {"office": 2}, answer(3)], [])):
            with self.subTest(why=why):
                ran = tools.run([DEPLOY / "entries", "setup.toml", "--office", "copy.db",
                                 *[word for one in number for word in ("--number", str(one))]],
                                input=chained(*lines), capture_output=True, timeout=PATIENCE)
                self.assertEqual((ran.returncode, ran.stdout.decode().splitlines()[:-1]),
                                 (bool(wanted), wanted), ran)
