"""Returns that came to an office past its recorder, as by `office import` while it was stopped; and
what the record's answers say of who entered them. And slip codes that two stations have."""

import json
from pathlib import Path

from tests.support import tools
from tests.support.case import PROGRAM, Case
from tests.support.office import THREE_STATIONS
from tests.support.papers import paper, papers
from tests.support.record import LODGED, a_command, chained
from tests.support.recorder import command, recorder_alone
from tests.support.running import PATIENCE, free_port
from tests.support.scripts import loaded
from tests.support.site import DEPLOY, Office, SiteCase, backup, new, ran

tool = loaded("entries")
HEADER = "station,slip,blank,spoiled,A,B\n"
S1, S2, S3, OTHER_S1 = ("s1,p1,0,0,10,20\n", "s2,p2,0,0,30,40\n", "s3,p3,0,0,5,6\n",
                        "s1,p1,0,0,11,20\n")
# What these rows say, as a database has it.
ALL = {"s1": ("p1", {(1, 10), (2, 20)}), "s2": ("p2", {(1, 30), (2, 40)}),
       "s3": ("p3", {(1, 5), (2, 6)})}
LODGE_S1 = {"slip": "p1", "votes": [10, 20], "blank": 0, "spoiled": 0}


def answer(lodged, same, differs, first=None, bad=0):
    return json.dumps({"bad": bad, "differs": differs, "first": first, "lodged": lodged,
                       "ok": "import", "refused": 0, "same": same})


def reading_of(*acts):
    """A record of acts, each a name, a path, a body, and the answer with what its line has else."""
    lines = []
    for name, path, body, answered in acts:
        lines += [a_command(body if isinstance(body, str) else json.dumps(body), path)
                  | {"name": name}, {"to": len(lines) + 1, "status": 200} | answered]
    it = tool.Reading({"constituency": tool.cons_of(THREE_STATIONS)})
    for number, line in enumerate(chained(*lines).splitlines(), 1):
        it.take(number, line.decode())
    return it


class Imports(Case):
    def lodged(self, rows, answered, before=(), **more):
        """The figures of the returns that clara's import of these rows lodged."""
        it = reading_of(*before, ("clara", "/con/c1/import", HEADER + rows,
                                  {"answer": answered} | more))
        self.assertEqual(it.left, 0)
        return {code: it.figures_of(code) for code, found in it.returns.items()
                if found.first and found.first[0] == "clara"}

    def test_rows_that_the_answer_bears_out(self):
        """A station that came past the record is nobody's: the first row that differs says which;
        of others nobody knows which it was."""
        rows, sent_twice = S1 + S2 + S3, {"again": True}
        for answered, more, wanted in (
                (answer(3, 0, 0), {}, "s1 s2 s3"), (answer(2, 0, 1, [2, 7]), {}, "s1 s3"),
                (answer(2, 0, 1, [1, 7]), {}, "s2 s3"), (answer(2, 1, 0), {}, ""),
                (answer(1, 1, 1, [1, 7]), {}, ""), (answer(1, 0, 2, [1, 7]), {}, ""),
                (answer(0, 3, 0), {}, ""), (answer(0, 0, 3, [1, 7]), {}, ""),
                # Sent twice: recorded the first time, or the second time.
                (answer(0, 3, 0), sent_twice, "s1 s2 s3"),
                (answer(3, 0, 0), sent_twice, "s1 s2 s3"),
                (answer(0, 2, 1, [2, 7]), sent_twice, "s1 s3"),
                # (all of a file is recorded at once)
                (answer(1, 2, 0), sent_twice, ""), (answer(0, 1, 2, [1, 7]), sent_twice, ""),
                # Records that do not say it.
                ("", {}, "s1 s2 s3"), ("{}", {}, "s1 s2 s3"), ("[5]", {}, "s1 s2 s3"),
                ("5", {}, "s1 s2 s3"), ('{"ok":"import"}', {}, "s1 s2 s3")):
            with self.subTest(answered=answered, more=more):
                self.assertEqual(self.lodged(rows, answered, **more),
                                 {code: ALL[code] for code in wanted.split()})

    def test_rows_beside_others(self):
        """Rows that are bad, that repeat a station, or of a return that the record has."""
        by_bruno = [("bruno", "/station/s1/lodge", LODGE_S1, {"answer": '{"ok":"lodged","rev":1}'})]
        for rows, answered, before, more, wanted in (
                ("s9,p9,0,0,1,1\n" + S1 + S2, answer(2, 0, 0, [1, 0], 1), [], {}, "s1 s2"),
                # The first refusal is the bad row: nobody knows which of the others differs.
                ("s9,p9,0,0,1,1\n" + S1 + S2, answer(1, 0, 1, [1, 0], 1), [], {}, ""),
                ("\n" + S1 + "\ns9,p9\n" + S2, answer(2, 0, 0, [2, 0], 1), [], {}, "s1 s2"),
                # The second row of a station differs from the first one, which was lodged.
                (S1 + OTHER_S1 + S2, answer(2, 0, 1, [2, 7]), [], {}, "s1 s2"),
                (S1 + S1 + S2, answer(2, 1, 0), [], {}, "s1 s2"),
                (S1 + OTHER_S1 + S2, answer(0, 2, 1, [2, 7]), [], {"again": True}, "s1 s2"),
                # Of bruno's return a row is the same, or differs.
                (S1 + S2 + S3, answer(2, 1, 0), by_bruno, {}, "s2 s3"),
                (OTHER_S1 + S2 + S3, answer(2, 0, 1, [1, 7]), by_bruno, {}, "s2 s3"),
                (OTHER_S1 + S2 + S3, answer(1, 1, 1, [1, 7]), by_bruno, {}, ""),
                (S1 + S2 + S3, answer(0, 3, 0), by_bruno, {"again": True}, "s2 s3"),
                (OTHER_S1 + S2 + S3, answer(0, 2, 1, [1, 7]), by_bruno, {"again": True}, "s2 s3"),
                (S1, answer(0, 1, 0), by_bruno, {}, "")):
            with self.subTest(rows=rows, answered=answered, more=more):
                self.assertEqual(self.lodged(rows, answered, before, **more),
                                 {code: ALL[code] for code in wanted.split()})

    def test_a_lodge_of_what_was_recorded_before(self):
        """It is an entry only where the recorder sent it twice, and the record has none before."""
        same, lodged = '{"ok":"same","rev":1}', {"answer": '{"ok":"lodged","rev":1}'}
        lodge = lambda name, answered: (name, "/station/s1/lodge", LODGE_S1, answered)
        for acts, wanted in (
                ([("clara", lodged)], "clara"), ([("clara", {"answer": same})], None),
                ([("clara", {"answer": same, "again": True})], "clara"),
                ([("clara", {"answer": ""})], "clara"), ([("clara", {})], "clara"),
                ([("bruno", lodged), ("clara", {"answer": same, "again": True})], "bruno"),
                ([("bruno", {"answer": same}), ("clara", {"answer": same})], None)):
            with self.subTest(acts=acts):
                it = reading_of(*(lodge(*one) for one in acts))
                found = it.returns.get("s1", tool.Return()).first
                self.assertEqual((found and found[0], it.left), (wanted, 0))


class Slips(Case):
    def test_stations_of_one_slip(self):
        """Those that are closed, of one constituency, by the slips that they have at last."""
        it = reading_of()
        one, other = ("p1", frozenset({(1, 2)})), ("p1", frozenset())
        for code, figures in (("s1", [one]), ("s2", [one, ("p2", one[1])]), ("s3", [other])):
            it.returns[code] = tool.Return()
            for some in figures:
                it.returns[code].move(tool.CLOSED, 1, some)
        said = ["c1: the slip p1 is that of s1, s3"]
        for closed, wanted in ((["s1", "s2", "s3"], said), (["s1", "s2"], []), (["s1"], []),
                               ([], [])):
            with self.subTest(closed=closed):
                self.assertEqual(it.of_one_slip(closed), wanted)
        it.home["s3"] = {"code": "c2"}
        self.assertEqual(it.of_one_slip(["s1", "s2", "s3"]), [])
        # A return whose figures nobody knows has no slip that is known.
        it.home["s3"], it.returns["s3"] = it.home["s1"], tool.Return()
        it.returns["s3"].move(tool.CLOSED, 1)
        self.assertEqual(it.of_one_slip(["s1", "s2", "s3"]), [])


class PastTheRecord(SiteCase):
    def test_an_import_while_the_office_was_stopped(self):
        """Of a return that came so nobody knows who entered it, nor what it was: neither the acts
        nor the doubles say so, and `entries` names it. What the clerk's file lodged is hers."""
        new(THREE_STATIONS)
        Path("recorder").mkdir()
        Path("past.csv").write_text(HEADER + S1)
        ran(PROGRAM, "import", "--db", "office.db", "--con", "c1", "--csv", "past.csv")
        desk = Office("office.db", free_port())
        self.addCleanup(desk.end)
        desk.start()
        with recorder_alone(desk.port):
            for name, path, body in (
                    ("clara", "/con/c1/import", (HEADER + OTHER_S1 + S2 + S3).encode()),
                    ("bruno", "/station/s1/query", {"rev": 1, "note": "10?"}),
                    ("bruno", "/station/s1/correct", {"rev": 2} | LODGE_S1 | {"votes": [12, 20]}),
                    ("bruno", "/station/s1/close", {"rev": 3}),
                    ("sara", "/station/s2/confirm", {"rev": 1} | LODGED | {
                        "slip": "p2", "votes": [30, 40]}),
                    ("bruno", "/station/s3/close", {"rev": 1}),
                    ("berta", "/con/c1/certify", {"edition": 1})):
                sent = body if isinstance(body, bytes) else json.dumps(body).encode()
                self.assertEqual(command(path, sent, name), 200)
        self.assertEqual(backup("office.db", "copies", "commands.log")[0], 0)
        [copy] = Path("copies").glob("*.db")
        papers("acts", copy, "out", "--record", "commands.log")
        count = paper("out", "act-count-*")
        self.assertIn("Stations whose acts are not all in the record of commands: s1. ", count.text)
        self.assertEqual([row[2] for row in count.rows if "Return of station s1 corrected" in row],
                         ["not in the record of commands"])
        papers("doubles", copy, "out", "--record", "commands.log")
        text = paper("out", "doubles-*").text
        for begins in ("First entry not in the record of commands Closed by not in the record of "
                       "commands", "First entry clara, .* Second entry sara, ",
                       "First entry clara, .* Closed by bruno, "):
            self.assertRegex(text, begins)
        found = tools.run([DEPLOY / "entries", "setup.toml", "--office", copy],
                          input=Path("commands.log").read_bytes(), capture_output=True,
                          timeout=PATIENCE)
        self.assertEqual((found.returncode, found.stdout.decode().splitlines()), (1, [
            "s1: the office has it at revision 4, and no acts of this record left it so",
            "closed 3, of these by a second entry 1, to look at 1"]))
