"""Commands of a record whose answer nobody knows, as `entries` and the papers read them: each is
taken as done where a later answer bears that out, and no other act is passed over by it.

The acts are read from lines by hand; and from records at random, of an office that the model is.
Nothing is started.
"""

import contextlib
import io
import json
import random
from pathlib import Path
from types import SimpleNamespace
from unittest import mock

from tests.deploy.test_replay_at_random import HOMES, SETUP, command_to
from tests.support import model
from tests.support.case import Case
from tests.support.record import LODGED, a_command, chained
from tests.support.safeguards import TWO_TOWNS
from tests.support.scripts import loaded, module

tool, data = loaded("entries"), module("papers_data")
TOWNS = tool.cons_of(TWO_TOWNS)
FIGURES = "p1", frozenset({(1, 1), (2, 2)})
HEAD = "station,slip,blank,spoiled,A,B\n"
UNKNOWN = "nobody knows whether it was done"
STATUSES = {"received": 1, "queried": 2, "corrected": 3, "closed": 4}
# The answers to commands that were done, and to some that were refused.
ONE, SAME = {"ok": "lodged", "rev": 1}, {"ok": "same", "rev": 1}
moved = "{{\"ok\":\"moved\",\"rev\":{}}}".format
edition = "{{\"ok\":\"edition\",\"edition\":{}}}".format
NO_RETURN = '{"refused":8,"word":"no_return"}'
stale = "{{\"now\":{},\"refused\":11,\"word\":\"stale\"}}".format


def lines_of(*acts):
    """A record of acts: each a name, a path, a body, and its answer; without one where it is None,
    with one that says nothing where it is a number, which is its status then."""
    lines = []
    for name, path, body, answer in acts:
        body = body if isinstance(body, str) else json.dumps(body)
        lines.append(a_command(body, path) | {"name": name})
        if isinstance(answer, int):
            lines.append({"to": len(lines), "status": answer, "answer": ""})
        elif answer:
            said = answer if isinstance(answer, str) else json.dumps(answer)
            status = 404 if said == NO_RETURN else 409 if '"word"' in said else 200
            lines.append({"to": len(lines), "status": status, "answer": said})
    return lines


def looked(lines, copy=None, cons=TOWNS):
    """The lines in which `entries` names something, but for the commands whose answer nobody knows;
    its remarks on these; and the record as it was read."""
    it, said = tool.Reading({"constituency": cons}), io.StringIO()
    given = SimpleNamespace(buffer=io.BytesIO(chained(*lines)))
    with contextlib.redirect_stdout(said), mock.patch.object(tool.sys, "stdin", given):
        faults = tool.read(it, {})
        for command in it.commands.values():
            it.unknown(command)
        for code in it.home:
            if fault := it.returns.get(code, tool.Return()).closed and it.fault(code):
                it.look(f"{code}: {fault}")
        for one in it.certificates:
            it.look(one)
        if copy:
            it.office_number = 1
            it.compare(copy)
        remarks = list(it.taken_as_done())
    named = [line for line in said.getvalue().splitlines() if UNKNOWN not in line]
    return faults + named, remarks, it


def copy_with(returns=(), **other):
    """A copy of the office with these returns, each with its revision, its status and its note."""
    return SimpleNamespace(**{
        "cons": TOWNS, "past": {}, "reasons": {"c1": "", "c2": ""}, "gone": {}, "lots": {},
        "editions": {"c1": (1, False), "c2": (1, False)},
        "returns": {code: (rev, (status, FIGURES)) for code, rev, status, _ in returns},
        "notes": {code: note for code, _, _, note in returns}} | other)


def lodge(answer, name="clara", body=LODGED):
    return name, "/station/t1/lodge", body, answer


def close(rev, answer):
    return "bruno", "/station/t1/close", {"rev": rev}, answer


def query(rev, answer, note="3?"):
    return "bruno", "/station/t1/query", {"rev": rev, "note": note}, answer


def certify(number, answer):
    return "berta", "/con/c2/certify", {"edition": number}, answer


def reopen(number, answer):
    return "berta", "/con/c2/reopen", {"edition": number, "note": "sum"}, answer


def said(line, act, by):
    what, code, name = act
    return (f"line {line}: {what} {code} by {name} (2026-11-26T22:14:{line:02}.000+00:00): taken "
            f"as done, since {by} bears it out")


LODGE_T1 = "lodge", "t1", "clara"


class BorneOut(Case):
    def test_a_return_that_a_later_answer_shows(self):
        """The lost command has lodged it: its name and its time count."""
        other = LODGED | {"votes": [2, 1]}
        done = said(1, LODGE_T1, "line 3")
        for status in (None, 502, 503, 504):
            for acts, remarks in (
                    ([lodge(SAME), close(1, moved(2))], [done]),
                    ([close(1, moved(2))], [done]), ([query(1, moved(2))], [done]),
                    ([lodge(ONE)], []), ([lodge(SAME, body=other)], [])):
                with self.subTest(status=status, acts=acts):
                    lines = lines_of(lodge(status), *acts)
                    # (a lost answer is a line less)
                    wanted = [one.replace("line 3", f"line {3 + (status is not None)}")
                              for one in remarks]
                    self.assertEqual(looked(lines)[:2], ([], wanted))

    def test_who_entered_what_was_lost(self):
        """Both entries of a return count, though the answer to the first or the second is lost."""
        first = "clara", "/station/s1/lodge", LODGED
        second = "sara", "/station/s1/confirm", {"rev": 1} | LODGED
        closed = copy_with([("s1", 2, 4, "")])
        for acts in ([(*first, None), (*first, SAME), (*second, moved(2))],
                     [(*first, ONE), (*second, None), (*second, stale(2))],
                     [(*first, 504), (*second, moved(2))], [(*first, ONE), (*second, 502)]):
            with self.subTest(acts=acts):
                named, remarks, it = looked(lines_of(*acts), closed)
                self.assertEqual((named, len(remarks)), ([], 1))
                known = it.returns["s1"]
                self.assertEqual((known.first[0], known.second[0]), ("clara", "sara"))

    def test_a_file_of_which_a_part_is_shown(self):
        """Each of its stations that had no return has its row, as far as anything shows that."""
        both = HEAD + "s1,p1,0,0,1,2\ns2,p1,0,0,1,2\n"
        counts = {"ok": "import", "bad": 0, "refused": 0, "first": None}
        again = counts | {"lodged": 0, "same": 2, "differs": 0}
        one = counts | {"lodged": 1, "same": 0, "differs": 0}
        differs = one | {"lodged": 0, "differs": 1, "first": [1, 7]}
        lost = "ivo", "/con/c1/import", both, None
        confirm = "sara", "/station/s1/confirm", {"rev": 1} | LODGED, moved(2)
        was = [("s1", 1, 1, ""), ("s2", 1, 1, "")]
        for acts, returns, stations, named in (
                ([("ivo", "/con/c1/import", both, again)], was, 2, 0), ([], was, 2, 0),
                ([confirm], [("s1", 2, 4, ""), was[1]], 2, 0), ([], was[:1], 1, 0),
                # Others were lodged past the record, or a file of others was.
                ([], [("s1", 1, 4, "")], 0, 1),
                # One that was lodged after it shows that the file was not; so does another file.
                ([("clara", "/station/s2/lodge", LODGED, ONE)], was, 0, 1),
                ([("carl", "/con/c1/import", HEAD + "s2,p1,0,0,1,2\n", one)], was, 0, 1),
                # What differs from a row was not lodged by it.
                ([("carl", "/con/c1/import", HEAD + "s1,p1,0,0,1,2\n", differs),
                  ("bruno", "/station/s1/query", {"rev": 1, "note": "3?"}, moved(2)),
                  ("bruno", "/station/s1/correct", {"rev": 2} | LODGED, moved(3))],
                 [("s1", 3, 3, "3?")], 0, 1),
                ([confirm, ("clara", "/station/s2/lodge", LODGED, ONE)],
                 [("s1", 2, 4, ""), was[1]], 1, 1)):
            with self.subTest(acts=acts, returns=returns):
                found, remarks, it = looked(lines_of(lost, *acts), copy_with(returns))
                firsts = [one.first and one.first[0] for one in it.returns.values()]
                self.assertEqual((firsts.count("ivo"), len(found)), (stations, named),
                                 (found, remarks))

    def test_a_file_that_waited_while_another_was_answered(self):
        """The other one was sent before it, and is answered after its line."""
        first, _ = lines_of(("clara", "/station/s1/lodge", LODGED, ONE))
        [lost] = lines_of(("ivo", "/con/c1/import", HEAD + "s1,p1,0,0,1,2\ns2,p1,0,0,1,2\n", None))
        lines = [first, lost, {"to": 1, "status": 200, "answer": json.dumps(ONE)}]
        named, remarks, it = looked(lines, copy_with([("s1", 1, 1, ""), ("s2", 1, 1, "")]))
        self.assertEqual((named, len(remarks)), ([], 1))
        self.assertEqual([it.returns[code].first[0] for code in ("s1", "s2")], ["clara", "ivo"])

    def test_a_file_of_which_nobody_knows_what_it_lodged(self):
        """It may have lodged what the lost command was to lodge."""
        rows = HEAD + "s1,p1,0,0,2,1\ns2,p1,0,0,2,1\ns3,p1,0,0,2,1\n"
        counts = {"ok": "import", "bad": 0, "refused": 0, "lodged": 1, "same": 1, "differs": 1}
        for first in ([2, 7], [3, 7]):
            _, remarks, it = looked(lines_of(
                ("clara", "/station/s1/lodge", LODGED, None),
                ("ivo", "/con/c1/import", rows, counts | {"first": first}),
                ("bruno", "/station/s1/query", {"rev": 1, "note": "3?"}, moved(2))))
            self.assertEqual((remarks, it.returns["s1"].first), ([], None))

    def test_what_was_there_when_a_command_was_sent_again(self):
        """It was done the first time, or a lost command of another name lodged it: then nobody
        knows whose the first entry is."""
        s1 = lambda name, answer, votes=(1, 2): (
            name, "/station/s1/lodge", LODGED | {"votes": votes}, answer)
        row, more = "s1,p1,0,0,1,2\n", "s1,p1,0,0,1,2\ns2,p1,0,0,1,2\n"
        file = lambda name, rows, answer: (name, "/con/c1/import", HEAD + rows, answer)
        counts = {"ok": "import", "bad": 0, "refused": 0, "differs": 0, "first": None}
        there, new = counts | {"lodged": 0, "same": 2}, counts | {"lodged": 2, "same": 0}
        close = "carl", "/station/s1/close", {"rev": 1}, NO_RETURN
        for before, last, firsts in (
                ([s1("carl", 504)], s1("clara", SAME), [None]),
                ([s1("carl", None)], s1("clara", SAME), [None]),
                ([file("carl", row, 502)], s1("clara", SAME), [None]),
                ([s1("clara", 504), s1("carl", 504)], s1("clara", SAME), [None]),
                ([s1("carl", 504)], file("clara", more, there), [None, "clara"]),
                ([file("carl", row, None)], file("clara", more, there), [None, "clara"]),
                # No such command is there; or it was not done, as its figures or an answer show.
                ([], s1("clara", SAME), ["clara"]),
                ([s1("clara", 504)], s1("clara", SAME), ["clara"]),
                ([s1("carl", 504, (2, 1))], s1("clara", SAME), ["clara"]),
                ([s1("carl", 504), close], s1("clara", SAME), ["clara"]),
                ([s1("carl", 504)], s1("clara", ONE), ["clara"]),
                ([s1("carl", 504)], file("clara", more, new), ["clara"] * 2),
                ([file("clara", row, 504)], file("clara", more, there), ["clara"] * 2),
                # The record says who lodged it.
                ([s1("ivo", ONE), s1("carl", 504)], s1("clara", SAME), ["ivo"])):
            with self.subTest(before=before, last=last):
                lines = lines_of(*before, last)
                lines[-1]["again"] = True
                number = len(lines)
                confirm, _ = lines_of(("sara", "/station/s1/confirm", {"rev": 1} | LODGED, 1))
                lines += [confirm, {"to": number + 1, "status": 200, "answer": moved(2)}]
                named, remarks, it = looked(lines)
                found = [it.returns[code] for code in ("s1", "s2") if code in it.returns]
                self.assertEqual([one.first and one.first[0] for one in found], firsts)
                self.assertEqual([one.addresses[0] is None for one in found],
                                 [one is None for one in firsts])
                self.assertEqual((len(named), remarks), (firsts.count(None), []))
                self.assertTrue(all(one.startswith("s1: its second entry is by sara")
                                    and one.endswith("and its first is not in this record")
                                    for one in named), named)

    def test_a_return_past_the_record_that_a_file_shows(self):
        """It is nobody's: no command that is lost later lodged it. Where one was lost before, and
        leads there alone, it did."""
        lodged = lambda name, answer, code="s1", votes=(1, 2): (
            name, f"/station/{code}/lodge", LODGED | {"votes": votes}, answer)
        row = "{},p1,0,0,{},{}\n".format
        s1, s2, other = row("s1", 1, 2), row("s2", 1, 2), row("s1", 2, 1)
        counts = {"ok": "import", "bad": 0, "refused": 0, "lodged": 0, "same": 0, "differs": 0,
                  "first": None}
        file = lambda rows, **answer: ("ivo", "/con/c1/import", HEAD + rows, counts | answer)
        differs = '{"refused":7,"rev":1,"word":"differs"}'
        lost, same = lodged("dana", 504), file(s1, same=1)
        confirm = "sara", "/station/s1/confirm", {"rev": 1} | LODGED, moved(2)
        for acts, first, remarks in (
                # An answer before the lost command shows it.
                ([same, lost], None, 0), ([file(other, differs=1, first=[1, 7]), lost], None, 0),
                ([file(s1 + s2, same=1, differs=1, first=[2, 7]), lost], None, 0),
                ([lodged("carl", SAME), lost, same], None, 0),
                ([lodged("carl", SAME), lost, file(s1 + s2, same=1, lodged=1)], None, 0),
                ([lodged("clara", None), lodged("anna", None), lodged("carl", SAME), lost, same],
                 None, 0),
                # Two lead to the other station, or to this one.
                ([lodged("clara", None, "s2"), lodged("anna", None, "s2"), lost,
                  file(s1 + s2, lodged=1, same=1)], None, 0),
                ([lodged("clara", None), lost, same], None, 0),
                ([lost, same], "dana", 1), ([lost, lost, same], "dana", 1),
                ([lodged("clara", None, votes=(2, 1)), lost, same], "dana", 1),
                ([lost, file(s1 + s2, lodged=1, same=1)], "dana", 1),
                ([lost, file(other, differs=1, first=[1, 7])], "dana", 1),
                # A later row of a station differs from the first one of the file.
                ([file(s1 + other, lodged=1, differs=1, first=[2, 7])], "ivo", 0)):
            with self.subTest(acts=acts):
                named, found, it = looked(lines_of(*acts, confirm))
                known = it.returns["s1"].first
                self.assertEqual((known and known[0], len(found), len(named)),
                                 (first, remarks, first is None))
        # Of a return that the record has, a later answer says which of two corrections was done.
        correct = lambda name, votes: (
            name, "/station/s1/correct", {"rev": 2} | LODGED | {"votes": votes}, None)
        named, found, it = looked(lines_of(
            lodged("clara", ONE),
            ("bruno", "/station/s1/query", {"rev": 1, "note": "3?"}, moved(2)),
            correct("carl", (2, 1)), correct("dana", (1, 1)),
            file(s1, differs=1, first=[1, 7]),
            ("sara", "/station/s1/confirm", {"rev": 3} | LODGED | {"votes": (2, 1)}, moved(4))))
        self.assertEqual((named, len(found), it.returns["s1"].first[0]), ([], 1, "carl"))
        # A return past the record is not hers either whose lodge was the same, sent again.
        lines = lines_of(lodged("carl", differs, votes=(2, 1)), lodged("dana", SAME))
        lines[-1]["again"] = True
        self.assertIsNone(looked(lines)[2].returns["s1"].first)
        # What a file lodged is no return past the record: a lost command over it may be done.
        _, remarks, it = looked(lines_of(
            file(s1 + other, lodged=1, differs=1, first=[2, 7]), (*confirm[:3], None),
            ("bruno", "/station/s1/query", {"rev": 2, "note": "3?"}, moved(3))))
        self.assertEqual((len(remarks), len(it.returns["s1"].revisions)), (1, 3))

    def test_what_a_lost_certificate_or_reopening_led_to(self):
        """A later edition bears it out, or an answer that the constituency is certified."""
        begin = [lodge(ONE), close(1, moved(2))]
        done = "certify", "c2", "berta"
        back = "reopen", "c2", "berta"
        for acts, remarks in (
                ([certify(1, 503), reopen(2, edition(3))], [said(5, done, "line 8")]),
                ([certify(1, None), certify(1, '{"refused":9,"word":"certified"}')],
                 [said(5, done, "line 7")]),
                ([certify(1, edition(2)), reopen(2, None), query(2, moved(3))],
                 [said(7, back, "line 9")]),
                ([certify(1, None), certify(1, '{"refused":19,"word":"lot_missing"}'),
                  reopen(2, edition(3))], [])):
            with self.subTest(acts=acts):
                named, found, _ = looked(lines_of(*begin, *acts))
                self.assertEqual((named, found), ([], remarks))

    def test_what_the_copy_alone_shows(self):
        """It may be the last command of its place."""
        begin, gone = [lodge(ONE), close(1, moved(2)), certify(1, edition(2))], ("c2", 2, 1)
        vacate = "berta", "/con/c2/vacate", {"list": "B", "place": 1, "note": "died"}, None
        closed, editions = [("t1", 2, 4, "")], {"c1": (1, False), "c2": (2, True)}
        for acts, copy in (
                ([begin[0], close(1, 502)], copy_with(closed)),
                ([*begin[:2], certify(1, 504)], copy_with(closed, editions=editions)),
                ([*begin, vacate], copy_with(closed, editions=editions, gone={gone: "died"}))):
            with self.subTest(acts=acts):
                named, remarks, _ = looked(lines_of(*acts), copy)
                self.assertEqual((named, len(remarks)), ([], 1))
                self.assertTrue(remarks[0].endswith("since the copy bears it out"), remarks)

    def test_a_copy_from_between_the_command_and_its_answer(self):
        """It may have been made before the lost command was done, or after it."""
        acts = [lodge(ONE), close(1, 504), ("sara", "/station/s1/lodge", LODGED, ONE),
                query(2, moved(3)), close(3, stale(3))]
        for returns in ([("t1", 1, 1, ""), ("s1", 1, 1, "")], [("t1", 2, 4, ""), ("s1", 1, 1, "")],
                        [("t1", 1, 1, "")], [("t1", 2, 4, "")]):
            with self.subTest(returns=returns):
                self.assertEqual(looked(lines_of(*acts), copy_with(returns))[0], [])


class NotBorneOut(Case):
    NEVER = "t1: the office has it at revision {}, and no acts of this record left it so"

    def test_where_two_fit_or_none(self):
        """Or where the office has something else than the command would have left."""
        other, second = LODGED | {"votes": [2, 1]}, ("carl", "/station/t1/lodge", LODGED)
        for acts, copy, number in (
                # By two names, of whom either may have lodged it.
                ([lodge(None), (*second, 503), close(1, moved(2))], [("t1", 2, 4, "")], 2),
                ([lodge(None, body=other)], [("t1", 1, 1, "")], 1),
                ([lodge(ONE), query(1, None)], [("t1", 2, 4, "")], 2),
                ([lodge(ONE), close(1, None)], [("t1", 3, 4, "3?")], 3),
                # Somebody closed it at the desk; the query that was lost came too late.
                ([lodge(ONE), query(1, None), query(1, stale(2)), query(2, moved(3))],
                 [("t1", 3, 2, "3?")], 3),
                # It was not done: the answer after it shows the return as it was before.
                ([lodge(ONE), close(1, 502), close(7, stale(1)), query(2, moved(3))],
                 [("t1", 3, 2, "3?")], 3),
                ([lodge(ONE), close(1, moved(2)), query(2, 503), certify(1, edition(2)),
                  reopen(2, edition(3)), ("carl", "/station/t1/correct", {"rev": 3} | LODGED,
                                          moved(4))], [("t1", 4, 3, "3?")], 4)):
            with self.subTest(acts=acts):
                editions = {"c1": (1, False), "c2": (3 if len(acts) == 6 else 1, False)}
                reasons = {"c1": "", "c2": "sum" if len(acts) == 6 else ""}
                past = {"c2": {2: {1: 1, 2: 2}}} if len(acts) == 6 else {}
                named, remarks, _ = looked(lines_of(*acts), copy_with(
                    copy, editions=editions, reasons=reasons, past=past))
                self.assertEqual((named, remarks), ([self.NEVER.format(number)], []))

    def test_acts_by_hand_beside_commands_that_were_refused(self):
        """The answer to a refusal is lost too: what was done at the desk is named all the same."""
        begin = [lodge(ONE), close(1, moved(2)), certify(1, edition(2))]
        open_again = {"editions": {"c1": (1, False), "c2": (3, False)},
                      "past": {"c2": {2: {1: 1, 2: 2}}}}
        sent = lambda rev, answer: ("carl", "/station/t1/correct", {"rev": rev} | LODGED, answer)
        never = "{}: the office has it {}, and no acts of this record left it so".format
        for acts, returns, other, wanted in (
                # Certified, so that it was not queried; reopened and queried at the desk.
                ([*begin, query(2, None), sent(3, moved(4))], [("t1", 4, 3, "3?")], open_again,
                 [never("t1", "at revision 4"), never("c2", "not certified at edition 3")]),
                # Not closed, so that it was not certified; closed and certified at the desk.
                ([lodge(ONE), certify(1, None), reopen(2, edition(3))], [("t1", 2, 4, "")],
                 open_again | {"reasons": {"c1": "", "c2": "sum"}},
                 [never("t1", "at revision 2"), never("c2", "not certified at edition 3")]),
                # Where one entry closes nothing; confirmed at the desk.
                ([("clara", "/station/s1/lodge", LODGED, ONE),
                  ("bruno", "/station/s1/close", {"rev": 1}, 504)], [("s1", 2, 4, "")], {},
                 [never("s1", "at revision 2")]),
                # Closed at the desk; and closed later over a revision that was not the last.
                ([lodge(ONE), query(2, moved(3)), sent(3, moved(4)), close(3, None),
                  query(4, moved(5))], [("t1", 5, 2, "3?")], {}, [never("t1", "at revision 5")])):
            with self.subTest(acts=acts):
                named, remarks, _ = looked(lines_of(*acts), copy_with(returns, **other))
                self.assertEqual((named, remarks), (wanted, []))

    def test_one_name_that_sends_again(self):
        named, remarks, it = looked(lines_of(lodge(503), lodge(503), close(1, moved(2))),
                                    copy_with([("t1", 2, 4, "")]))
        self.assertEqual((named, remarks), ([], [said(1, LODGE_T1, "line 6")]))
        self.assertEqual(it.returns["t1"].first, ("clara", "2026-11-26T22:14:01.000+00:00"))

    def test_one_name_that_sends_the_same_figures_otherwise(self):
        """They are the same return: in another file, or with the keys in another order."""
        files = [("clara", "/con/c2/import", HEAD + rows, 504)
                 for rows in ("t1,p1,0,0,1,2\n", "t9,p1,0,0,1,2\nt1,p1,0,0,1,2\n")]
        keys = [lodge(503), lodge(503, body=dict(reversed(LODGED.items())))]
        for acts in (files, keys):
            with self.subTest(acts=acts):
                named, remarks, it = looked(lines_of(*acts, close(1, moved(2))),
                                            copy_with([("t1", 2, 4, "")]))
                self.assertEqual((named, len(remarks)), ([], 1))
                self.assertEqual(it.returns["t1"].first[0], "clara")

    def test_one_name_that_asks_for_different_things(self):
        """Its queries have other notes: nobody knows which of them was done."""
        lines = lines_of(lodge(ONE), query(1, None), query(1, 504, "8?"), close(3, stale(2)),
                         ("clara", "/station/t1/correct", {"rev": 2} | LODGED, moved(3)))
        named, remarks, _ = looked(lines, copy_with([("t1", 3, 3, "8?")]))
        self.assertEqual((named, remarks), ([self.NEVER.format(3)], []))

    def test_what_was_lodged_by_hand_after_an_answer_that_there_was_nothing(self):
        """A lost command that was sent before the answer was not done, and no lodge is its work."""
        for lost in (None, 504):
            with self.subTest(lost=lost):
                named, remarks, it = looked(lines_of(lodge(lost), close(1, NO_RETURN)),
                                            copy_with([("t1", 1, 1, "")]))
                self.assertEqual((named, remarks, it.returns), ([self.NEVER.format(1)], [], {}))

    def test_bodies_and_answers_that_nobody_can_read(self):
        for body, answer in (("", moved(2)), ("[]", moved(2)), ("{", moved(2)), (LODGED, "?"),
                             (LODGED, '{"ok":"moved"}'), (LODGED, '{"ok":"moved","rev":"2"}'),
                             ({"slip": [], "votes": 5}, moved(2))):
            with self.subTest(body=body, answer=answer):
                _, remarks, _ = looked(lines_of(lodge(None, body=body), close(1, answer)))
                self.assertEqual(remarks, [])

    def test_a_slip_that_is_no_text(self):
        """No office takes one, so it is no figures of a return."""
        body = {"slip": [1], "votes": [1, 2], "blank": 0, "spoiled": 0}
        figures_of = module("record_commands").figures_of
        self.assertIsNone(figures_of(json.dumps(body)))
        self.assertIsNotNone(figures_of(json.dumps(body | {"slip": "p1"})))


class Papers(Case):
    def test_who_entered_a_return(self):
        """Also where an answer was lost. Where it was another return, nobody is said to have
        entered it, and the paper is made."""
        confirm = "sara", "/station/t1/confirm", {"rev": 1} | LODGED
        for votes, first, second, wanted in (
                ([1, 2], None, moved(2), "clara"), ([1, 2], 502, moved(2), "clara"),
                ([1, 2], ONE, None, "clara"), ([1, 2], ONE, moved(2), "clara"),
                ([2, 1], 504, close(1, moved(2)), None)):
            with self.subTest(votes=votes, first=first, second=second):
                con = data.Con(TOWNS[1], returns=[data.Return("t1", 2, "p1", 4, "", 0, 0, [1, 2])])
                Path("commands.log").write_bytes(chained(*lines_of(
                    lodge(first, body=LODGED | {"votes": votes}),
                    second if wanted is None else (*confirm, second))))
                record = data.read_record(Path("commands.log"), TWO_TOWNS)
                record.meet(con)
                said = [one and one[0] for one in record.typed(con.returns[0])[:2]]
                self.assertEqual(said, [wanted, wanted and "sara"])


def copy_of(office):
    """A copy of the model's office."""
    found = copy_with(cons=CONS, editions={}, reasons={}, lots={}, past={})
    for con in office.cons.values():
        found.editions[con.code] = con.edition, con.certified is not None
        found.reasons[con.code] = con.note
        for code, it in con.returns.items():
            numbers = tool.figures_of(json.dumps(it))
            found.returns[code] = it["rev"], (STATUSES[it["status"]], numbers)
            found.notes[code] = it["note"]
        found.gone |= {(con.code, n + 1, place): note for (n, place), note in con.gone.items()}
        found.lots |= {con.code: [n + 1 for n in con.lot]} if con.lot else {}
        found.past |= {con.code: {at: dict(enumerate(seats, 1)) for at, seats in con.past.items()}
                       } if con.past else {}
    return found


CONS = [con | {"rule": {rule["code"]: rule for rule in SETUP["profile"]}[con["profile"]]}
        for con in SETUP["constituency"]]
NAMES = {"lodge": "clara", "confirm": "sara", "import": "ivo"}


def step(target, body):
    """The parts by which an act is the same step as another: where, what, and at which number; of
    a first entry only where."""
    _, _, code, act = target.split("/")
    found = json.loads(body)
    number = found.get("rev", found.get("edition", (found.get("list"), found.get("place"))))
    return code, act, number if act != "lodge" else None


class Evening:
    """An evening at random: its record, what was lost of it, and what was done past it."""

    def __init__(self, chance, past, most):
        self.office, self.lines, self.lost, self.past = model.Office(SETUP), [], [], []
        again = []
        for _ in range(chance.randint(3, 30)):
            if chance.random() < past:
                self.by_hand(*command_to(self.office, chance))
                continue
            # Sometimes two ask at once, and the second may be done first.
            asked = [again.pop() if again and chance.random() < 0.6
                     else command_to(self.office, chance) for _ in range(chance.choice((1, 1, 2)))]
            numbers = range(len(self.lines) + 1, len(self.lines) + 1 + len(asked))
            self.lines += [a_command(body, target) | {
                "name": NAMES.get(target.split("/")[3], "berta")} for target, body in asked]
            for number, one in chance.sample([*zip(numbers, asked)], len(asked)):
                if len(self.lost) < most and chance.random() < 0.15:
                    self.lost.append(one)
                    again = [one]
                    self.lose(number, one, chance)
                else:
                    status, answer = self.office.ask("POST", *one)
                    self.lines.append({"to": number, "status": status, "answer": answer})

    def by_hand(self, target, body):
        if not target.endswith("import"):
            status, answer = self.office.ask("POST", target, body)
            self.past += [(target, body)] if status == 200 and '"same"' not in answer else []

    def lose(self, number, one, chance):
        if chance.random() < 0.6:
            self.office.ask("POST", *one)
        if chance.random() < 0.6:
            self.lines.append({"to": number, "status": chance.choice((None, 502, 503, 504)),
                               "answer": ""})


class AtRandom(Case):
    EVENINGS = 400

    def test_acts_past_the_record_are_named(self):
        """Each, unless a lost command of the record is the same step; and no others, where every
        answer is known. Of one lost answer nearly all is borne out."""
        borne_out, named_of_one, ones = 0, 0, 0
        for seed in range(self.EVENINGS):
            chance = random.Random(seed)
            past, most = chance.choice((0, 0, 0.1)), chance.choice((0, 1, 1, 4))
            evening = Evening(chance, past, most)
            named, remarks, _ = looked(evening.lines, copy_of(evening.office), CONS)
            places = {line.split(":")[0].split(",")[0] for line in named}
            files = [body for target, body in evening.lost if target.endswith("import")]
            steps = [step(*one) for one in evening.lost if not one[0].endswith("import")]
            with self.subTest(seed=seed, named=named, remarks=remarks):
                for one in evening.past:
                    code, act, _ = step(*one)
                    of_file = act == "lodge" and any(f"\n{code}," in body for body in files)
                    self.assertTrue(code in places or step(*one) in steps or of_file, one)
                if not evening.lost and not evening.past:
                    self.assertEqual((named, remarks), ([], []))
            borne_out += len(remarks)
            if len(evening.lost) == 1 and not evening.past:
                ones, named_of_one = ones + 1, named_of_one + bool(named)
        self.assertGreater(borne_out, 50)
        self.assertLess(named_of_one, ones / 50, (named_of_one, ones))
