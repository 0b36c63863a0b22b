"""A record of commands beside a copy of an office, as the papers read both: which of them is older,
and what the one has and the other lacks.

The record has two returns, the certificate of edition 2, and what follows; the copy is made by
hand. Nothing is started: test_papers_of_the_record has the papers.
"""

import json
from pathlib import Path

from tests.support.case import Case
from tests.support.papers import con_of
from tests.support.scripts import module

data, forms_of = module("papers_data"), module("papers_forms")
# As con_of has them.
SLIPS = {"s1": {"slip": "p1", "votes": [3, 2], "blank": 1, "spoiled": 2},
         "s2": {"slip": "p2", "votes": [4, 1], "blank": 1, "spoiled": 2}}
CERTIFY = ("berta", "/con/c1/certify", {"edition": 1})
FIRST = (("clara", "/station/s1/lodge", SLIPS["s1"]), ("bruno", "/station/s1/close", {"rev": 1}),
         ("carla", "/station/s2/lodge", SLIPS["s2"]),
         ("sara", "/station/s2/confirm", {"rev": 1, **SLIPS["s2"]}))
# Three seats by D'Hondt: A has 7 votes and B 3; 7, 3.5 and 3 win.
GIVEN = {1: 2, 2: 1}
QUERY = ("clara", "/station/s1/query", {"rev": 2, "note": "3 or 8?"})
REOPEN = ("berta", "/con/c1/reopen", {"edition": 2, "note": "recount"})
AGAIN = ("berta", "/con/c1/certify", {"edition": 3})


def vacate(code, place, note="died"):
    return ("berta", "/con/c1/vacate", {"list": code, "place": place, "note": note})


def draw(*codes):
    return ("berta", "/con/c1/draw", {"edition": 1, "order": codes})


def record_of(con, *acts):
    """A record in which these were done, each a minute after the one before; some say what was
    answered, and one that says None has no answer there."""
    found = data.Record({"constituency": [con.setup]})
    found.answered = {2 * n + 1 for n, act in enumerate(acts) if act[3:] != (None,)}
    for n, (name, path, body, *answer) in enumerate(acts):
        at = f"2026-11-29T20:{n:02}:00+00:00"
        for number, line in ((2 * n + 1, {
                "name": name, "role": "clerk", "office": 1, "method": "POST", "path": path,
                "body": body if isinstance(body, str) else json.dumps(body)}), (2 * n + 2, {
                    "to": 2 * n + 1, "status": 200, "answer": json.dumps(*answer or [{}])})
                )[:1 if answer == [None] else 2]:
            found.take(number, json.dumps({"n": number, "time": at} | line))
    return found


def tie(**how):
    """A constituency of one seat, for which two lists have as many votes."""
    return con_of(votes=((5, 5), (5, 5)), seats=1, **({"edition": 2} | how))


# The returns of that one.
TIED = [(name, path, body | {"votes": [5, 5]} if "votes" in body else body)
        for name, path, body in FIRST]


def certified(**how):
    return con_of(**({"edition": 2, "certified": True, "given": GIVEN} | how))


class Meet(Case):
    def check(self, wanted, con, *acts):
        """The record is met, or refused: this key, and what it is about."""
        record = record_of(con, *acts)
        self.assertEqual(record.left, 0)
        if wanted is None:
            record.meet(con)
            return
        with self.assertRaises(data.Refused) as found:
            record.meet(con)
        self.assertEqual((found.exception.key, found.exception.values["what"]), wanted)

    def test_returns(self):
        """The copy has as many revisions as the record at least, and the same one where it has as
        many."""
        for place, change, wanted in (
                (0, {}, None), (0, {"revision": 1}, ("copy_is_older", "s1")),
                (1, {"revision": 1}, ("copy_is_older", "s2")), (0, {"revision": 3}, None),
                (0, {"revision": 3, "slip": "p9"}, None),
                (0, {"slip": "p9"}, ("other_record", "s1")),
                (1, {"votes": [4, 2]}, ("other_record", "s2")),
                (0, {"blank": 0}, ("other_record", "s1")),
                (0, {"spoiled": 3}, ("other_record", "s1")),
                (0, {"status": 3}, ("other_record", "s1"))):
            with self.subTest(place=place, change=change):
                con = certified()
                for name, value in change.items():
                    setattr(con.returns[place], name, value)
                self.check(wanted, con, *FIRST, CERTIFY)
        lacks = certified()
        del lacks.returns[0]
        self.check(("copy_is_older", "s1"), lacks, *FIRST, CERTIFY)
        self.check(("copy_is_older", "s1"), lacks, FIRST[0])
        # What the record lacks it cannot contradict.
        self.check(None, certified(), *FIRST[:2], CERTIFY)

    def test_a_return_that_was_corrected(self):
        """Its last figures count, and not those before."""
        body = {"rev": 3, **SLIPS["s1"], "slip": "p9"}
        acts = (*FIRST, QUERY, ("clara", "/station/s1/correct", body),
                ("bruno", "/station/s1/close", {"rev": 4}))
        for slip, wanted in (("p9", None), ("p1", ("other_record", "s1"))):
            with self.subTest(slip=slip):
                con = con_of(edition=1)
                con.returns[0].revision, con.returns[0].slip = 5, slip
                con.returns[0].note = "3 or 8?"
                self.check(wanted, con, *acts)

    def test_editions_and_certificates(self):
        for edition, is_certified, wanted in (
                (1, False, ("copy_is_older", "c1")), (2, True, None),
                (2, False, ("other_record", "c1")), (3, True, None), (3, False, None)):
            with self.subTest(edition=edition, is_certified=is_certified):
                self.check(wanted, con_of(edition=edition, certified=is_certified), *FIRST, CERTIFY)

    def test_who_is_gone(self):
        """Another reason is another record; who is gone by no act of the record is none."""
        for acts, gone, wanted in (
                ([vacate("A", 1)], {(1, 1): "died"}, None),
                ([vacate("A", 1)], {}, ("copy_is_older", "c1")),
                ([vacate("A", 1)], {(1, 2): "died"}, ("copy_is_older", "c1")),
                ([vacate("A", 1)], {(1, 1): "resigned"}, ("other_record", "c1")),
                ([vacate("A", 1)], {(1, 1): "died", (2, 1): "x"}, None),
                ([], {(2, 1): "x"}, None)):
            with self.subTest(acts=acts, gone=gone):
                self.check(wanted, certified(gone=gone), *FIRST, CERTIFY, *acts)

    def test_withdrawn_certificates(self):
        """With the seats that the returns and the lot gave."""
        for edition, past, wanted in (
                (4, {2: GIVEN}, None), (4, {}, ("other_record", "c1")),
                (4, {2: {1: 1, 2: 2}}, ("other_record", "c1")),
                (4, {2: GIVEN, 3: GIVEN}, ("other_record", "c1")), (5, {}, None)):
            with self.subTest(edition=edition, past=past):
                con = certified(edition=edition, past=past, note="recount")
                self.check(wanted, con, *FIRST, CERTIFY, REOPEN, AGAIN)

    def test_lots(self):
        """That of the copy is the record's last one. A query that the record lacks may have removed
        it, and so may an edition."""
        for how, acts, wanted in (
                ({"lot": [2, 1]}, [draw("B", "A")], None),
                ({"lot": [1, 2]}, [draw("B", "A")], ("other_record", "c1")),
                ({"lot": []}, [draw("B", "A")], ("other_record", "c1")),
                ({"lot": [2, 1], "edition": 1}, [], ("other_record", "c1")),
                ({"lot": [1, 2], "edition": 3}, [draw("B", "A")], None),
                ({"lot": [2, 1], "edition": 3}, [draw("A", "B"), draw("B", "A")], None)):
            with self.subTest(how=how, acts=acts):
                self.check(wanted, tie(**how), *TIED, *acts)
        for lot, wanted in (([], None), ([2, 1], None), ([1, 2], ("other_record", "c1"))):
            with self.subTest(lot=lot):
                con = tie(lot=lot)
                con.returns[0].revision = 3
                self.check(wanted, con, *TIED, draw("B", "A"))


class Lacks(Case):
    def test_returns_and_editions(self):
        for acts, lost, lacks in (((*FIRST, CERTIFY), [], False), (FIRST, [], True),
                                  ((*FIRST[:3], CERTIFY), ["s2"], False),
                                  ((*FIRST[:1], CERTIFY), ["s1", "s2"], False)):
            with self.subTest(lost=lost):
                con = certified()
                record = record_of(con, *acts)
                self.assertEqual((record.lost_of(con), record.lacks_edition_of(con)), (lost, lacks))

    def test_who_entered_a_return(self):
        """First, and a second time or as it was closed; nobody where an act is not there."""
        con = certified()
        record = record_of(con, *FIRST)
        self.assertEqual([record.typed(one) for one in con.returns], [
            (("clara", "2026-11-29T20:00:00+00:00"), ("bruno", "2026-11-29T20:01:00+00:00"), False),
            (("carla", "2026-11-29T20:02:00+00:00"), ("sara", "2026-11-29T20:03:00+00:00"), True)])
        record = record_of(con, *FIRST[:1])
        self.assertEqual([record.typed(one) for one in con.returns], [(None, None, False)] * 2)
        # Of what was confirmed last by the record that lacks an act, it is known that it was.
        record = record_of(con, *FIRST[:2], FIRST[3])
        self.assertEqual([record.typed(one)[2] for one in con.returns], [False, True])
        self.assertEqual(record.typed(con.returns[1])[:2], (None, None))

    def test_who_entered_a_return_of_an_office_that_was_put_back(self):
        """Whoever lodged it last."""
        con = certified()
        con.returns[0].note, (clara, closed, *others) = "3 or 8?", FIRST
        carl = ("carl", *clara[1:], {"ok": "lodged", "rev": 1})
        query = (*QUERY, {"ok": "moved", "rev": 3})
        record = record_of(con, clara, closed, query, *others, carl, closed)
        self.assertEqual((record.left, record.typed(con.returns[0])), (0, (
            ("carl", "2026-11-29T20:05:00+00:00"), ("bruno", "2026-11-29T20:06:00+00:00"), False)))

    def test_what_was_undone_as_the_office_was_put_back(self):
        """It is no incident: neither a query nor a correction of a return after the revision to
        which this went back. What was done before it, and since, is one."""
        con, (clara, closed, *others) = certified(), FIRST
        moved = lambda path, rev, name, **more: (
            name, f"/station/s1/{path}", {"rev": rev} | more, {"ok": "moved", "rev": rev + 1})
        query, again = (moved("query", 2, name, note="3 or 8?") for name in ("clara", "carl"))
        correct, later = (moved("correct", 3, name, **SLIPS["s1"]) for name in ("clara", "carl"))
        lodge = *clara[:3], {"ok": "lodged", "rev": 1}
        file = ("ivo", "/con/c1/import", "station,slip,blank,spoiled,A,B\ns1,p1,1,2,3,2\n",
                {"ok": "import", "bad": 0, "refused": 0, "lodged": 1, "same": 0, "differs": 0,
                 "first": None})
        for acts, queries, corrections in (
                ([query, correct], ["clara"], ["clara"]),
                ([query, again], ["carl"], []),
                ([query, correct, later], ["clara"], ["carl"]),
                ([query, correct, again, later], ["carl"], ["carl"]),
                ([query, correct, lodge], [], []), ([query, correct, file], [], []),
                ([query, correct, lodge, closed, again], ["carl"], []),
                # A lost query is taken as done by the correction, and undone with it.
                ([(*query[:3], None), correct], ["clara"], ["clara"]),
                ([(*query[:3], None), correct, again], ["carl"], [])):
            with self.subTest(acts=acts):
                record = record_of(con, clara, closed, *others, *acts)
                self.assertEqual([[one.name for one in record.events_of(con, what)]
                                  for what in ("query", "correct")], [queries, corrections])

    def test_the_figures_before_a_correction_as_the_office_was_put_back(self):
        """Those of the revision to which it went back; of a return that came past the record
        nobody knows them."""
        slips = [SLIPS["s1"] | {"slip": slip} for slip in ("p1", "p7", "p8")]
        lodge = ("clara", "/station/s1/lodge", slips[0], {"ok": "lodged", "rev": 1})
        acts = [("clara", f"/station/s1/{path}", {"rev": rev} | more, {"ok": "moved",
                                                                      "rev": rev + 1})
                for path, rev, more in (("query", 1, {"note": "3 or 8?"}), ("correct", 2, slips[1]),
                                        ("correct", 2, slips[2]))]
        for before, wanted in (([lodge], "p1"), ([], None)):
            with self.subTest(before=before):
                record = record_of(con_of(), *before, *acts)
                [last] = [one for one in record.corrections if one == 2 * len([*before, *acts]) - 1]
                found, after = record.corrections[last]
                self.assertEqual((found and found[0], after[0]), (wanted, "p8"))

    def test_what_a_file_lodged_otherwise_as_the_office_was_put_back(self):
        """Of a return that may have other figures since then the record lacks an act, and nobody
        knows the figures before its correction. One that the file leaves as it was stays."""
        con, (clara, _, carla, sara) = con_of(edition=1), FIRST
        con.returns[0].revision, con.returns[0].note = 4, "3 or 8?"
        query = ("ivo", "/station/s1/query", {"rev": 1, "note": "3 or 8?"})
        correct = ("ivo", "/station/s1/correct", {"rev": 2, **SLIPS["s1"]})
        last = ("bruno", "/station/s1/close", {"rev": 3})
        for row, counts, lost, before, first in (
                ("s1,p9,1,2,2,3", {"lodged": 1, "same": 1}, ["s1"], None, None),
                ("s1,p1,1,2,3,2", {"lodged": 1, "same": 1}, [], "p1", None),
                # What differs was there, and all else was lodged.
                ("s1,p9,1,2,2,3", {"lodged": 1, "differs": 1, "first": [1, 7]}, [], "p1",
                 ("ivo", "2026-11-29T20:02:00+00:00"))):
            with self.subTest(row=row, counts=counts):
                file = ("ivo", "/con/c1/import",
                        f"station,slip,blank,spoiled,A,B\n{row}\ns2,p2,1,2,4,1\n",
                        {"ok": "import", "bad": 0, "refused": 0, "same": 0, "differs": 0,
                         "first": None} | counts)
                record = record_of(con, clara, carla, file, sara, query, correct, last)
                self.assertEqual((record.lost_of(con), record.typed(con.returns[1])[0]),
                                 (lost, first))
                [(found, _)] = record.corrections.values()
                self.assertEqual(found and found[0], before)
                record.meet(con)

    def test_incidents(self):
        """Those of a constituency and those of its stations, in their order; what is no command of
        this office is none."""
        con = certified()
        correct = ("clara", "/station/s1/correct", {"rev": 3, **SLIPS["s1"], "blank": 0})
        record = record_of(con, *FIRST, CERTIFY, REOPEN, QUERY, correct, draw("B", "A"))
        self.assertEqual(
            {what: [(one.code, one.name) for one in record.events_of(con, what)]
             for what in ("query", "correct", "reopen", "draw", "close")},
            {"query": [("s1", "clara")], "correct": [("s1", "clara")], "reopen": [("c1", "berta")],
             "draw": [("c1", "berta")], "close": []})
        [(before, after)] = record.corrections.values()
        self.assertEqual([(slip, dict(items)) for slip, items in (before, after)], [
            ("p1", {0: 1, 1: 3, 2: 2, 61: 2}), ("p1", {1: 3, 2: 2, 61: 2})])
        self.assertEqual(data.note_of(record.events_of(con, "query")[0]), "3 or 8?")
        # Of a correction that names another revision than the record's last one nobody knows what
        # it changed: an act before it went past the record.
        for body in (correct[2] | {"rev": 5}, correct[2] | {"rev": 2}):
            [(before, after)] = record_of(con, *FIRST, QUERY, (*correct[:2], body)
                                          ).corrections.values()
            self.assertEqual((before, dict(after[1])), (None, {1: 3, 2: 2, 61: 2}))
        wrong = record_of(con, *[("clara", "/station/s9/query", {"rev": 1, "note": ""})] * 2)
        self.assertEqual((wrong.left, wrong.events), (2, {}))

    def test_incidents_that_no_office_has(self):
        """A query or a reopening without a note that is a text is none, and stops no paper."""
        con = certified()
        for body in ({"rev": 2}, {"note": None}, {"note": 5}, {"note": ["x"]}, [], 5, "note"):
            with self.subTest(body=body):
                record = record_of(con, *FIRST, (*QUERY[:2], body), (*REOPEN[:2], body))
                self.assertEqual(forms_of.incidents(forms_of.Forms(None, "en", False), con, record),
                                 [])

    def test_who_is_gone_since_a_certificate(self):
        """By the record, where it has all of the editions and of the vacancies; without it nobody
        knows once a certificate was withdrawn."""
        acts = (*FIRST, CERTIFY, vacate("A", 1), REOPEN, AGAIN, vacate("B", 1))
        gone, past = {(1, 1): "died", (2, 1): "died"}, {2: GIVEN}
        con = certified(edition=4, gone=gone, past=past)
        self.assertEqual(data.gone_since(con, record_of(con, *acts)), {(2, 1)})
        self.assertEqual(data.gone_since(con, record_of(con, *acts[:-2])), None)
        self.assertEqual(data.gone_since(con, record_of(con, *acts[:5], *acts[6:])), None)
        self.assertEqual(data.gone_since(con, None), None)
        first = certified(gone=gone)
        self.assertEqual(data.gone_since(first, None), {(1, 1), (2, 1)})
        none = certified(edition=4, past=past)
        self.assertEqual(data.gone_since(none, None), set())

    def test_who_is_gone_by_an_act_whose_answer_was_lost(self):
        """The copy says that he is gone, and nobody whether that was before the certificate: he is
        not named as elected."""
        lost = (*vacate("A", 1), None)
        con = certified(edition=4, gone={(1, 1): "died"}, past={2: GIVEN}, note="recount")
        for acts, wanted in (((lost, REOPEN, AGAIN), None), ((REOPEN, AGAIN, lost), {(1, 1)})):
            with self.subTest(acts=acts):
                record = record_of(con, *FIRST, CERTIFY, *acts)
                record.meet(con)
                self.assertEqual(data.gone_since(con, record), wanted)

    def test_a_setup_that_has_each_constituency_of_a_copy(self):
        cons = [{"code": code, "name": f"Town {code}", "entry": "double"} for code in "abc"]
        older = [{"code": con["code"], "name": con["name"]} for con in cons]
        file = Path("setup.json")
        for known, of_copy, has_all in (
                (cons, cons[:2], True), (cons[1:], cons[:2], False), (cons[:1], cons[:2], False),
                (older, cons, True), ([*older[:1], *cons[1:]], cons, True),
                (cons, [cons[0] | {"name": "Other"}, cons[1]], False)):
            with self.subTest(known=known, of_copy=of_copy):
                file.write_text(json.dumps(known), encoding="utf-8")
                self.assertEqual(data.of_whole(file, of_copy), has_all)

    def test_who_is_gone_by_no_act(self):
        con = certified(gone={(2, 2): "x", (1, 1): "died", (1, 2): "x"})
        record = record_of(con, *FIRST, CERTIFY, vacate("A", 1))
        self.assertEqual(record.lost_gone_of(con), [(1, 2), (2, 2)])


class Said(Case):
    """The texts of papers that a record decides."""

    def forms(self):
        return forms_of.Forms(None, "en", False)

    def test_when_a_lot_was_recorded(self):
        """The last one of the record, where it is that of the copy: each act is a minute later.
        Where a return was queried and an edition came past the record, the same order may have been
        drawn again, and nobody knows when; a query or an edition alone draws nothing."""
        for acts, edition, revision, minute in (
                ([draw("B", "A")], 2, 2, "20:04"),
                ([draw("A", "B"), draw("B", "A")], 2, 2, "20:05"),
                ([draw("B", "A"), draw("A", "B")], 2, 2, None), ([], 2, 2, None),
                ([draw("B", "A")], 3, 2, "20:04"), ([draw("B", "A")], 2, 5, "20:04"),
                ([draw("B", "A")], 3, 5, None)):
            with self.subTest(acts=acts, edition=edition, revision=revision):
                con = tie(lot=[2, 1], edition=edition)
                con.returns[0].revision = revision
                drawn, *when = forms_of.lot(self.forms(), con, record_of(con, *TIED, *acts))
                self.assertTrue(drawn.endswith("1. B, 2. A."), drawn)
                self.assertEqual(when, [f"The lot was recorded on 29 November 2026, {minute} "
                                        "(+00:00)."] if minute else [])

    def test_incidents_in_their_order(self):
        """Of the record; of the copy what the record lacks, without its moment."""
        correct = ("bruno", "/station/s1/correct", {"rev": 3, **SLIPS["s1"], "blank": 0})
        acts = (*FIRST, draw("B", "A"), QUERY, correct, REOPEN)
        when = "29 November 2026, 20:0{} (+00:00)"
        found = [("Lot recorded", "1. B, 2. A", "berta, " + when.format(4)),
                 ("Return of station s1 queried", "3 or 8?", "clara, " + when.format(5)),
                 ("Return of station s1 corrected", "blank: 1 became 0",
                  "bruno, " + when.format(6)),
                 ("Result reopened, and its proclamation withdrawn", "recount",
                  "berta, " + when.format(7))]
        for note, reason, more in (
                ("3 or 8?", "recount", []), ("", "", []),
                ("other", "recount", [("Return of station s1 queried", "other", None)]),
                ("3 or 8?", "other", [("Result reopened, and its proclamation withdrawn", "other",
                                       None)])):
            with self.subTest(note=note, reason=reason):
                con = con_of(note=reason)
                con.returns[0].note = note
                self.assertEqual(forms_of.incidents(self.forms(), con, record_of(con, *acts)),
                                 found + more)

    def test_acts_that_a_record_lacks(self):
        con = certified(gone={(1, 2): "x", (2, 1): "x"})
        nothing = {"lost": "", "lost_edition": "", "lost_gone": ""}
        self.assertEqual(forms_of.lost(self.forms(), con, None), nothing)
        self.assertEqual(forms_of.lost(self.forms(), con, record_of(
            con, *FIRST, CERTIFY, vacate("A", 2), vacate("B", 1))), nothing)
        self.assertEqual(forms_of.lost(self.forms(), con, record_of(con, *FIRST[:1])), {
            "lost": "s1, s2", "lost_edition": "2", "lost_gone": "A 2, B 1"})
