"""The requests of the clerks' page: which, when, and how it goes on after each answer.

The page is opened as a file, before an office that answers as a test says.
"""

import hashlib
import json

from tests.support.case import Case, needs
from tests.support.page_alone import (
    NO_RETURN, NOW, SETUP, SLIP, TYPED, page_alone, recorded, result,
)
from tests.support.typed_slips import ENTER

NO_ANSWER = "There was no answer. It may have been done."
UNSEEN = "What the office has now is not known: it did not answer. Ask it again."
MAY_NOT = "Your name may not do this."
UNKNOWN = "The file setup.json has no station of this code."
# What is asked at the beginning, and what is seen by then.
FILES = ["HEAD /clerk.html", "GET /setup.json", "GET /site.json"]
FIRST = """return [element('person').textContent,
  [...document.querySelectorAll('section')].filter((e) => !e.hidden).map((e) => e.id).join(' '),
  [...element('con').options].map((e) => e.value).join(' '), element('con').value,
  element('station').value, element('station').readOnly]"""
ALL, OWN = "choice of-station of-con", "of-station"
BEGINNINGS = (
    ("clerk", "clara", "", {}, ["clara, clerk", ALL, "c1 c2", "c1", "", False], "station"),
    ("second", "sara", "", {}, ["sara, second entry", "choice of-station", "c1 c2", "c1", "",
                                False], "station"),
    ("board", "berta", "", {}, ["berta, board", ALL, "c1 c2", "c1", "", False], "BODY"),
    ("station", "s1", "", {}, ["s1, station", OWN, "c1 c2", "c1", "s1", True], "lodge slip"),
    ("guest", "nora", "", {}, ["nora, guest", OWN, "c1 c2", "c1", "", False], "BODY"),
    # A link names a station of any constituency; what is no code of one is no station.
    ("clerk", "clara", "#t1", {}, ["clara, clerk", ALL, "c1 c2", "c2", "t1", False], "lodge slip"),
    ("clerk", "clara", "#t2", {}, ["clara, clerk", ALL, "c1 c2", "c1", "", False], "station"),
    ("board", "berta", "#t1", {}, ["berta, board", ALL, "c1 c2", "c2", "t1", False], "station"),
    # A name that is bound to constituencies has no other.
    ("clerk", "carla", "", {"X-Office-Bound-To": "c2 "},
     ["carla, clerk", ALL, "c2", "c2", "", False], "station"),
)
OF_PORT = {**result(con="c2", stations=1, received=0, closed=0, lists=[{"votes": 0, "seats": 0}])}
# The words with which the office refuses a slip, and the field to look at then.
REFUSED = (
    (409, {"word": "certified"}, "BUTTON"), (400, {"word": "bad_body"}, "lodge slip"),
    (409, {"word": "too_many_votes"}, "lodge total"), (400, {"word": "bad_counts"}, "BUTTON"),
)
RECEIPT = ("return [...document.querySelectorAll('#receipt tr')].map((row) => "
           "[...row.children].map((e) => e.textContent))")
LISTED = ("return [...document.querySelectorAll('#open-stations details')].map((e) => "
          "[e.querySelector('summary').textContent, [...e.querySelectorAll('a')]"
          ".map((a) => a.textContent).join(' '), e.open])")
TABLE = """STATIONS c1 Twin Town
stations 5 missing 1 closed 3
s1                  1000 -
s2                  1000 received     1 p2                   191       2       1
s3                  1000 closed       2 p3                   191       2       1
s4                  1000 closed       3 p4                   191       2       1
s5                  1000 closed       2 p5                   191       2       1
"""


class Requests(Case):
    may_leave_files = True

    @needs("chromium")
    def test_the_beginning(self):
        with page_alone() as page:
            for role, name, link, head, wanted, focus in BEGINNINGS:
                with self.subTest(role=role, link=link, head=head):
                    seen = page.open(role, name, {"GET /now/con/c2/result": [[200, OF_PORT]],
                                                  "GET /now/station/t1": [NO_RETURN]},
                                     link, head=head)
                    self.assertEqual((page.run(FIRST), seen["said"], seen["focus"]),
                                     (wanted, NOW, focus))
                    station = wanted[4]
                    # (whose page it is, is not known before)
                    self.assertEqual(page.run("return office.asked.map((one) => one[4])"),
                                     [None] * 3 + [name] * (2 if wanted[4] else 1))
                    self.assertEqual(page.asked(), [
                        *FILES, f"GET /now/con/{wanted[3]}/result",
                        *([f"GET /now/station/{station}"] if station else [])])
            # The code of a slip has 1 to 16 letters, digits and two signs.
            found = page.run("""const { slip } = element('lodge').elements;
              return ['7', 'Ab-9_zZ0', 'a'.repeat(16), 'a'.repeat(17), 'é'].map((value) => {
                slip.value = value; return slip.validity.patternMismatch; })""")
            self.assertEqual(found, [False, False, False, True, True])
            self.assertEqual(page.run("const { slip } = element('confirm').elements; "
                                      "return [slip.maxLength, slip.spellcheck]"), [16, False])
            # A figure has 1 to 9 digits, and none may be left out.
            found = page.run("""const field = element('lodge').querySelector('.counts input');
              return ['', '0', '9', '123456789', '1234567890', '1.0'].map((value) => {
                field.value = value;
                return [field.validity.valueMissing, field.validity.patternMismatch]; })""")
            self.assertEqual(found, [[True, False], *[[False, False]] * 3, *[[False, True]] * 2])
            page.run("element('lodge').reset()")
            for words, more in (
                    ("The file setup.json is not there.", {"answers": {"GET /setup.json":
                                                                       [[404, ""]]}}),
                    ("This name may act in no constituency", {"head": {"X-Office-Bound-To": " "}}),
                    ("This name may act in no constituency", {"head": {"X-Office-Bound-To": "c9"}}),
                    (UNKNOWN, {"role": "station", "name": "s9"})):
                with self.subTest(words=words, more=more):
                    self.assertTrue(page.open(**more)["alert"].startswith(words))
                    self.assertEqual(page.asked(), FILES)
            self.assertEqual(page.run("return element('station').value"), "s9")
            # Without what says whose the page is, or what is elected, it does nothing.
            for asked in FILES[:2]:
                for answer in ([0], [429, ""], [502, ""]):
                    with self.subTest(asked=asked, answer=answer):
                        seen = page.open("second", "sara", {asked: [answer]})
                        self.assertEqual(
                            (seen["alert"], seen["forms"], page.run(
                                "return element('person').textContent")),
                            ("The page did not get all that it needs. Load it again.", [], ""))
                        self.assertEqual(page.asked(), FILES)
                        # No button is there but the log out, which forgets what each name typed
                        # where it is not known whose the page is.
                        self.assertEqual(page.run(
                            "localStorage.setItem('office h clara s1 lodge', JSON.stringify({ "
                            "time: Date.now() })); return [[...document.querySelectorAll('button')]"
                            ".filter((one) => one.getClientRects().length).map(({ id }) => id), "
                            "(dropDrafts(person.name), localStorage.length)]"),
                            [["logout"], 0])
                        page.run("localStorage.clear()")

    @needs("chromium")
    def test_what_goes_wrong_when_it_looks(self):
        ok, result_of = {"GET /now/station/s1": [[200, recorded()]]}, "GET /now/con/c1/result"
        known = [200, recorded(station="s9")]
        with page_alone() as page:
            # Before the results are public a station sees its own return alone, which is no fault.
            for role, answers, said in (
                    ("station", {result_of: [[403, ""]]}, NOW),
                    ("station", {result_of: [[502, ""]]}, UNSEEN),
                    ("station", {"GET /now/station/s1": [[502, ""]]}, UNSEEN),
                    ("clerk", {result_of: [[403, ""]]}, MAY_NOT),
                    ("clerk", {result_of: [[0]]}, UNSEEN),
                    # (of a type that is JSON, and without a text)
                    ("clerk", {result_of: [[403, "", {"Content-Type": "application/json"}]]},
                     MAY_NOT),
                    ("second", {result_of: [[502, ""]]}, UNSEEN),
                    ("second", {result_of: [[404, {"word": "no_constituency"}]]},
                     "The office has no constituency of this code.")):
                with self.subTest(role=role, answers=answers):
                    seen = page.open(role, "s1" if role == "station" else "nora", ok | answers)
                    text = seen["said"] or seen["alert"]
                    self.assertTrue(text.strip().startswith(said), text)
                    self.assertEqual((bool(seen["alert"]), seen["kind"]),
                                     (said != NOW, "refused" if said != NOW else ""))
                    self.assertEqual([one for one in page.asked() if "progress" in one], [])
            for code, answer, said, forms in (
                    ("s1", NO_RETURN, NOW, ["lodge", "import"]),
                    ("s1", [200, recorded()], NOW, ["close", "query", "import"]),
                    ("s1", [404, {"word": "no_station"}],
                     "The office has no station of this code.", ["import"]),
                    ("s1", [502, ""], UNSEEN, ["import"]),
                    ("s9", known, UNKNOWN, ["import"]), ("s9", NO_RETURN, UNKNOWN, ["import"]),
                    ("s9", [404, {"word": "no_station"}],
                     "The office has no station of this code.", ["import"])):
                with self.subTest(code=code, answer=answer):
                    page.open(answers={f"GET /now/station/{code}": [answer]})
                    seen = page.station(code)
                    text = seen["said"] or seen["alert"]
                    self.assertTrue(text.strip().startswith(said), text)
                    self.assertEqual(seen["forms"], forms)
            # Where the names of constituencies differ from all that the office has, both are said.
            page.open(answers={"GET /now/station/s9": [known]})
            page.tell({result_of: [[502, ""]]})
            alert = page.station("s9")["alert"].strip()
            self.assertTrue(alert.startswith(UNSEEN) and UNKNOWN in alert, alert)

    @needs("chromium")
    def test_a_first_entry(self):
        """The slip is sent, and each answer leads somebody to where to go on."""
        lodge, again = "POST /station/s1/lodge", "GET /now/station/s1"
        sent = f"{lodge} {json.dumps(SLIP, separators=(',', ':'))}"
        draft = "return localStorage.length"
        with page_alone() as page:
            page.open()
            seen = page.station("s1")
            self.assertEqual((seen["focus"], seen["forms"]), ("lodge slip", ["lodge", "import"]))
            page.run("office.asked.length = 0; office.fields('lodge')[0].dispatchEvent("
                     "new Event('input', { bubbles: true }))")
            # What is refused stays, and so does its draft; there is no receipt.
            for status, value, focus in REFUSED:
                with self.subTest(value=value):
                    page.tell({lodge: [[status, value]]})
                    seen = page.send("lodge", *TYPED)
                    self.assertEqual((seen["kind"], seen["said"], page.run(
                        "return [office.typed('lodge'), element('receipt').hidden]"),
                        page.run(draft)), ("refused", "", [TYPED, True], 1))
                    self.assertEqual(seen["focus"], focus)
            self.assertEqual(page.asked(),
                             [sent, "GET /now/con/c1/result", again] * len(REFUSED))
            # Of figures that are too high the first that is goes with it.
            self.assertEqual(page.run("""const form = element('lodge');
              office.fill('lodge', ['p1', '1000000', '1000001', '1', '1']);
              focusOn(form, 'bad_counts');
              return office.fields('lodge').indexOf(document.activeElement)"""), 2)
            # An answer that was lost: what is recorded now decides.
            for recorded_now, typed in (([502, ""], TYPED), (NO_RETURN, TYPED),
                                        ([200, recorded(votes=[201, 99])], TYPED),
                                        ([200, recorded(slip="p2")], TYPED),
                                        ([200, recorded()], [""] * 6)):
                with self.subTest(recorded=recorded_now):
                    page.open(answers={lodge: [[0]], again: [NO_RETURN, recorded_now]})
                    page.station("s1")
                    seen = page.send("lodge", *TYPED)
                    self.assertTrue(seen["alert"].startswith(NO_ANSWER))
                    self.assertEqual(page.run("return office.typed('lodge')"), typed)
            # One that was refused keeps what was typed, though the same is recorded.
            page.open(answers={lodge: [[409, {"word": "certified"}]],
                               again: [NO_RETURN, [200, recorded()]]})
            page.station("s1")
            page.send("lodge", *TYPED)
            self.assertEqual(page.run("return office.typed('lodge')"), TYPED)
            # One that is accepted: the form is empty, the draft is gone, and the next station is to
            # be typed.
            page.open(answers={lodge: [[200, {"ok": "lodged", "rev": 1}]],
                               again: [NO_RETURN, [200, recorded()]]})
            page.station("s1")
            page.run("office.asked.length = 0; office.fields('lodge')[0].dispatchEvent("
                     "new Event('input', { bubbles: true }))")
            self.assertEqual(page.run(draft), 1)
            seen = page.send("lodge", *TYPED)
            self.assertEqual(seen, {"said": "Lodged.", "alert": "", "kind": "done",
                                    "focus": "station", "forms": ["close", "query", "import"]})
            self.assertEqual(page.run("return [office.typed('lodge'), localStorage.length, "
                                      "element('receipt').hidden, element('receipt').open]"),
                             [[""] * 6, 0, False, False])
            self.assertEqual([row[:2] for row in page.run(RECEIPT)][:-1], [
                ["Station", "s1"], ["Constituency", "Twin Town (c1)"], ["Done", "Lodged."],
                ["Slip", "p1"], ["By", "clara, clerk"]])
            # All that is asked has the SHA-256 of the setup that the page has, and the name that it
            # shows.
            asked = page.run("return office.asked")
            wanted = hashlib.sha256(json.dumps(SETUP, separators=(",", ":")).encode()).hexdigest()
            self.assertEqual([one[3:5] for one in asked],
                             [[wanted, "clara"]] * 3)
            # And a command has numbers that no other one has.
            page.run("element('query').elements.note.value = 'x'")
            page.does("element('query').requestSubmit()")
            onces = [one[5] for one in page.run("return office.asked")]
            self.assertEqual(onces[1:3] + onces[4:], [None] * 4)
            self.assertNotEqual(onces[0], onces[3])
            for once in onces[::3]:
                self.assertRegex(once, r"\A\d{1,10}(-\d{1,10}){3}\Z")
            # What was recorded already was sent twice: nobody has compared anything.
            page.open(answers={lodge: [[200, {"ok": "same", "rev": 1}]],
                               again: [NO_RETURN, [200, recorded()]]})
            page.station("s1")
            self.assertEqual([page.send("lodge", *TYPED)[key] for key in ("said", "kind")],
                             ["The same was recorded already.", "done"])
            self.assertIn(["Done", "The same was recorded already."], page.run(RECEIPT))

    @needs("chromium")
    def test_a_page_that_is_old(self):
        """Of another name, or of another setup: it says so once, and a draft stays."""
        lodge, draft = "POST /station/s1/lodge", "return Object.values(localStorage)"
        with page_alone() as page:
            page.open(answers={lodge: [[412, ""]]})
            page.station("s1")
            page.run("office.fill('lodge', arguments[0]); office.fields('lodge')[0].dispatchEvent("
                     "new Event('input', { bubbles: true }))", TYPED)
            before = page.run(draft)
            seen = page.send("lodge", *TYPED)
            self.assertTrue(seen["alert"].startswith(
                "Nothing was done: this page was loaded under another name"), seen)
            self.assertEqual((page.run("return office.typed('lodge')"), page.run(draft),
                              page.run("return element('receipt').hidden")),
                             (TYPED, before, True))
            self.assertEqual(len(before), 1)
            # Nothing is shown of an office whose lists may be in another order.
            old = [[409, ""]]
            page.tell({lodge: old, "GET /now/con/c1/result": old, "GET /now/station/s1": old})
            for seen, begins in ((page.send("lodge", *TYPED), "Nothing was done: the"),
                                 (page.does("element('again').click()"), "The")):
                self.assertEqual(seen["alert"].strip(), (
                    f"{begins} setup is another one since this page was loaded. Load the page "
                    "again; lists may be in another order."))
                self.assertEqual((seen["forms"], page.run(
                    "return ['view', 'return'].map((id) => element(id).textContent)")),
                    ([], ["", ""]))

    @needs("chromium")
    def test_a_look_that_was_lost_after_a_command(self):
        """It is said of the look, and not that what was done or refused may have been done; of a
        command whose answer was lost it is said once."""
        lodge, looks = "POST /station/s1/lodge", ("GET /now/con/c1/result", "GET /now/station/s1")
        with page_alone() as page:
            for answer, said in (([200, {"ok": "lodged", "rev": 1}], f"Lodged. {UNSEEN}"),
                                 ([429, ""], "Too many requests came from here in a short time. "
                                  f"Wait a moment, and do it again. {UNSEEN}"),
                                 ([0, ""], f"{NO_ANSWER} Look at what is shown once the office "
                                  "answers, or send it again: nothing is done twice.")):
                for lost in ([0, ""], [502, ""], [504, ""]):
                    with self.subTest(answer=answer, lost=lost):
                        page.open(answers={lodge: [answer]})
                        page.station("s1")
                        page.tell({look: [lost] for look in looks})
                        seen = page.send("lodge", *TYPED)
                        self.assertEqual(seen["said"] or seen["alert"], said)
                        self.assertEqual(page.does("element('again').click()")["alert"].strip(),
                                         UNSEEN)
            # A slip that is typed to be compared waits for a look too.
            page.open(answers={looks[1]: [[200, recorded()]]})
            page.station("s1")
            page.does("element('compare').click()")
            page.tell({looks[1]: [[0, ""]]})
            self.assertNotIn("lodge", page.does("element('again').click()")["forms"])
            page.tell({looks[1]: [[200, recorded()]]})
            self.assertIn("lodge", page.does("element('again').click()")["forms"])

    @needs("chromium")
    def test_a_slip_that_is_typed_again(self):
        """To be compared: the page says that both are the same, and shows what is recorded."""
        with page_alone() as page:
            page.open(answers={"GET /now/station/s1": [[200, recorded()]],
                               "POST /station/s1/lodge": [[200, {"ok": "same", "rev": 1}]]})
            page.station("s1")
            shown = "return [...document.querySelectorAll('#return tr')].length"
            self.assertEqual(page.run(shown), 6)
            self.assertEqual(page.does("element('compare').click()")["forms"],
                             ["lodge", "import"])
            self.assertEqual(page.run(shown), 0)
            # It is kept nowhere.
            page.run("office.fields('lodge')[0].dispatchEvent(new Event('input', "
                     "{ bubbles: true }))")
            self.assertEqual(page.run("return localStorage.length"), 0)
            seen = page.send("lodge", *TYPED)
            self.assertEqual((seen["said"], seen["forms"], page.run(shown)),
                             ("Both entries are the same.", ["close", "query", "import"], 6))

    @needs("chromium")
    def test_a_slip_whose_answer_was_lost(self):
        """Once it is known to be recorded the form is empty: it is neither compared nor sent."""
        at, lodge, lost = "GET /now/station/s1", "POST /station/s1/lodge", [[0]]
        typed, compare = "return office.typed('lodge')", "element('compare').click()"
        with page_alone() as page:
            for now, left in ((recorded(), [""] * 6), (recorded(slip="p2"), TYPED)):
                with self.subTest(now=now):
                    page.open(answers={"GET /now/station/s2": [NO_RETURN]})
                    page.station("s1")
                    page.tell({lodge: lost, at: lost, "GET /now/con/c1/result": lost})
                    page.send("lodge", *TYPED)
                    self.assertEqual(page.run(typed), TYPED)
                    page.tell({at: [[200, now]], "GET /now/con/c1/result": [[200, result()]]})
                    page.does("element('again').click()")
                    self.assertEqual(page.run(typed), left)
                    # Who compares looks at the paper again, whatever was typed before.
                    self.assertIn("lodge", page.does(compare)["forms"])
                    self.assertEqual(page.run(typed), [""] * 6)
                    page.station("s2")
                    self.assertEqual(page.run("return office.questions"), [])

    @needs("chromium")
    def test_who_types_on_after_a_slip_without_an_answer(self):
        """Nothing of the next papers is taken: each Enter sends the slip again, as it was typed."""
        at, entry = "GET /now/station/s1", {"GET /now/con/c1/result": [[200, result(
            entry="double")]]}
        with page_alone() as page:
            for role, form in (("clerk", "lodge"), ("second", "confirm"), ("clerk", "correct")):
                target, now = f"POST /station/s1/{form}", [200, recorded("queried", slip="p2")]
                for answer in ([0, ""], [502, ""], [503, {"word": "unavailable"}], [504, ""],
                               [429, ""]):
                    with self.subTest(form=form, answer=answer):
                        page.open(role, "nora", entry | {target: [answer], at: [
                            now if form == "correct" else NO_RETURN]})
                        page.run("localStorage.clear()")
                        page.station("s1")
                        page.asked()
                        page.it.keys(*[f"{one}{ENTER}" for one in TYPED])
                        for keys in (ENTER, f"5{ENTER}", f"104{ENTER}", f"50{ENTER}", f"1{ENTER}",
                                     f"1{ENTER}", f"156{ENTER}"):
                            self.assertEqual(page.settled()["focus"], "BUTTON")
                            self.assertEqual(page.run("return office.typed(arguments[0])", form),
                                             TYPED)
                            page.it.keys(keys)
                        page.settled()
                        sent = [one for one in page.asked() if "POST" in one]
                        self.assertEqual((len(sent), len(set(sent))), (8, 1))

    @needs("chromium")
    def test_a_second_entry(self):
        """It is of the revision that an answer named last, and nothing is asked of the return."""
        confirm = "POST /station/s1/confirm"
        stale = [409, {"word": "stale", "now": 3}]
        with page_alone() as page:
            page.open("second", "sara", {"GET /site.json": [[200, {}]]})
            page.asked()
            seen = page.station("s1")
            self.assertEqual((seen["focus"], seen["forms"], page.asked()),
                             ("confirm slip", ["confirm", "query"], ["GET /now/con/c1/result"]))
            revisions = []
            # (an answer without a revision changes none)
            for answer in (stale, [502, ""], [409, {"word": "wrong_status", "status": "queried",
                                                    "rev": 5}], [200, {"ok": "moved", "rev": 6}],
                           [409, {"word": "wrong_status", "status": "closed"}]):
                page.tell({confirm: [answer]})
                seen = page.send("confirm", *TYPED)
                said = (seen["said"] or seen["alert"]).split(":")[0].split(".")[0]
                revisions.append((json.loads(page.asked()[0].split(" ")[2])["rev"], said,
                                  seen["focus"], page.run("return office.typed('confirm')[0]"),
                                  page.run("return element('confirm-rev').textContent")))
            now = "It is compared with the return as it was changed last."
            self.assertEqual(revisions, [
                (1, "The return was queried, corrected or closed meanwhile", "BUTTON", "p1", now),
                (3, "The office does not answer now", "BUTTON", "p1", now),
                (3, "The return is queried", "BUTTON", "p1", now),
                (5, "Both entries are the same", "station", "", now),
                (6, "The return is closed already", "BUTTON", "p1", now)])
            self.assertIn(["By", "sara, second entry"], page.run(RECEIPT))
            page.open("second", "sara", {confirm: [[409, {"word": "stale", "now": 2}]]})
            for said in ("It is compared with the first entry.", now):
                page.station("s1")
                self.assertEqual(page.run("return element('confirm-rev').textContent"), said)
                page.send("confirm", *TYPED)
            # A query that is sent again is compared with nothing.
            page.tell({"POST /station/s1/query": [stale]})
            page.run("element('query').elements.note.value = 'sum'")
            self.assertTrue(page.send("query")["alert"].endswith(
                "Before you query the return again, look at who did what to this station."))

    @needs("chromium")
    def test_what_a_clerk_sends(self):
        """A return is closed, queried and corrected at the revision that is shown."""
        at, moved = "GET /now/station/s1", [200, {"ok": "moved", "rev": 2}]
        rows = (("close", recorded(), [], "closed", '{"rev":1}', True),
                ("query", recorded(), [], "queried", '{"rev":1,"note":"71?"}', False),
                ("correct", recorded("queried", rev=2, note="71?"), TYPED, "corrected",
                 '{"rev":2,"slip":"p1","votes":[200,100],"blank":2,"spoiled":1}', False))
        receipts = {"close": [["Slip", "p1"], ["A Alpha", "200"], ["B Beta", "100"],
                              ["Blank", "2"], ["Spoiled", "1"], ["Total", "303"]],
                    "query": [["Note", "71?"]], "correct": [["Slip", "p1"]]}
        with page_alone() as page:
            for form, before, typed, then, body, is_open in rows:
                with self.subTest(form=form):
                    page.open(answers={at: [[200, before]], f"POST /station/s1/{form}": [moved]})
                    page.station("s1")
                    page.run("office.asked.length = 0; for (const field of document"
                             ".querySelectorAll('.note input')) field.value = '71?'")
                    page.tell({at: [[200, recorded(then, rev=2)]]})
                    seen = page.send(form, *typed)
                    self.assertEqual((seen["said"], seen["kind"], page.asked()[0]),
                                     ("Done.", "done", f"POST /station/s1/{form} {body}"))
                    self.assertEqual(page.run(RECEIPT)[2:-2], receipts[form])
                    self.assertEqual(page.run("return [element('receipt').open, office.questions]"),
                                     [is_open, ["Close the return of s1?"] * (form == "close")])
            # Who says no to the question, or typed another total, sends nothing.
            page.open(answers={at: [[200, recorded()]]})
            page.station("s1")
            page.run("office.yes = false; office.asked.length = 0")
            self.assertEqual((page.send("close")["said"], page.asked()), (NOW, []))
            page.tell({at: [[200, recorded("queried", rev=2)]]})
            page.station("s1")
            page.asked()
            self.assertEqual((page.send("correct", *TYPED[:-1], "302")["kind"], page.asked()),
                             ("refused", []))
            self.assertEqual(page.send("correct", *TYPED)["kind"], "refused")
            self.assertEqual(page.asked()[0].split(" {")[0], "POST /station/s1/correct")
            page.open("second", "sara")
            page.station("s1")
            page.asked()
            self.assertEqual((page.send("confirm", *TYPED[:-1], "302")["kind"], page.asked()),
                             ("refused", []))
            # A query takes what was typed to be compared with it.
            page.open("second", "sara", {"POST /station/s1/query": [[409, {"word": "stale"}]]})
            page.station("s1")
            page.run("office.fill('confirm', arguments[0]); "
                     "element('query').elements.note.value = '71?'", TYPED)
            page.send("query")
            self.assertEqual(page.run("return office.typed('confirm')"), TYPED)
            page.tell({"POST /station/s1/query": [moved]})
            page.send("query")
            self.assertEqual(page.run("return office.typed('confirm')"), [""] * 6)

    @needs("chromium")
    def test_while_it_waits(self):
        """Nothing can be pressed while the office has not answered, and what had the focus has it
        again."""
        parts = ("return [...document.querySelectorAll('fieldset, button, #con, #station')]"
                 ".filter((e) => e.disabled).length")
        ways = {"again": NOW, "find": "Stations that are not closed: 2. They are listed below.",
                "who": "The history of station s1 is shown.",
                "list-waiting": "Returns that wait: 1. Below are those that differ or are queried,"
                                " and then those that wait longest."}
        histories = [[200, {"whole": True, "commands": []}]]
        with page_alone() as page:
            page.open(answers={
                "GET /now/station/s1": [[200, recorded()]],
                "GET /now/station/s1/history": histories, "GET /now/station/s2/history": histories,
                "GET /now/con/c1/stations": [[200, TABLE]]})
            page.station("s1")
            many = page.run("return document.querySelectorAll("
                            "'fieldset, button, #con, #station').length")
            for button, said in ways.items():
                with self.subTest(button=button):
                    page.run("office.isHeld = true; element(arguments[0]).focus(); "
                             "element(arguments[0]).click()", button)
                    self.assertEqual((page.run(parts), page.run("return busy")), (many, True))
                    # Nor is a form sent, or another station chosen.
                    page.run("office.before = office.asked.length; element('query').elements.note"
                             ".value = 'x'; element('query').dispatchEvent(new Event('submit', "
                             "{ cancelable: true })); element('station').value = 's2'; "
                             "element('station').dispatchEvent(new Event('change')); "
                             "element('station').value = 's1'; element('query').reset()")
                    self.assertTrue(page.run("return office.before === office.asked.length"))
                    page.run("office.isHeld = false")
                    seen = page.settled()
                    self.assertEqual((page.run(parts), seen["focus"], seen["said"]),
                                     (0, button, said))
            # A command says that it was sent.
            page.run("office.isHeld = true; element('close').requestSubmit()")
            self.assertEqual([page.run(parts), page.run("return office.seen().said")],
                             [many, "Sent; the office has not answered yet."])
            page.run("office.isHeld = false")
            self.assertEqual(page.settled()["alert"],
                             "The office has nothing of this code. Codes are 1 to 16 letters "
                             "without accents, digits, - and _.")
            self.assertEqual(page.run(parts), 0)

    @needs("chromium")
    def test_the_list_of_stations(self):
        lodge, table = "POST /station/s1/lodge", "GET /now/con/c1/stations"
        none, received = ["Without a return: 1", "s1", True], ["Received, to be closed: 1", "s2",
                                                               True]
        with page_alone() as page:
            page.open(answers={lodge: [[409, {"word": "certified"}]]})
            page.station("s1")
            self.assertEqual(page.run(LISTED), [])
            # Without an answer there is no list, and it is not asked for with each look.
            seen = page.does("element('find').click()")
            self.assertEqual((seen["kind"], page.run(LISTED)), ("refused", []))
            page.asked()
            page.does("element('again').click()")
            self.assertNotIn(table, page.asked())
            page.tell({table: [[200, TABLE]]})
            seen = page.does("element('find').click()")
            self.assertEqual((seen["said"], seen["kind"], page.run(LISTED)), (
                "Stations that are not closed: 2. They are listed below.", "", [none, received]))
            # From then on each look renews it; where that is not answered, it has what this page
            # did.
            page.asked()
            page.does("element('again').click()")
            self.assertIn(table, page.asked())
            page.tell({table: [[502, ""]]})
            page.send("lodge", *TYPED)
            self.assertEqual(page.run(LISTED), [none, received])
            page.tell({lodge: [[200, {"ok": "lodged", "rev": 1}]]})
            page.send("lodge", *TYPED)
            self.assertEqual(page.run(LISTED), [["Received, to be closed: 2", "s1 s2", True]])
            page.tell({"GET /now/con/c1/result": [[502, ""]]})
            page.asked()
            page.does("element('again').click()")
            self.assertNotIn(table, page.asked())
            # Fifty are listed, more are folded up, and stay as somebody left them.
            head = "STATIONS c1 Twin Town\nstations 51\n"
            for many, is_open in ((50, True), (51, True), (50, True)):
                rows = "".join(f"x{n} 300 -\n" for n in range(many))
                page.tell({table: [[200, head + rows]]})
                page.does("element('find').click()")
                self.assertEqual([row[2] for row in page.run(LISTED)], [is_open])
            page.does("element('open-stations').replaceChildren()")
            page.tell({table: [[200, head + "".join(f"x{n} 300 -\n" for n in range(51))]]})
            page.does("element('find').click()")
            self.assertEqual([row[2] for row in page.run(LISTED)], [False])
            page.run("document.querySelector('#open-stations details').open = true")
            page.does("element('find').click()")
            self.assertEqual([row[2] for row in page.run(LISTED)], [True])
            # It is not that of another constituency, nor is one that comes too late.
            page.tell({"GET /now/con/c2/result": [[200, OF_PORT]]})
            page.does("element('con').value = 'c2'; element('con').dispatchEvent("
                      "new Event('change'))")
            self.assertEqual(page.run(LISTED), [])
            found = page.run("""office.isHeld = true; const asked = listStations();
              shown.con = 'c1'; office.isHeld = false;
              office.answers['GET /now/con/c2/stations'] = [[200, 'a\\nb\\nt1 10 -\\n']];
              return asked.then(() => listed.length)""")
            self.assertEqual(found, 0)

    @needs("chromium")
    def test_a_revision_that_the_list_names(self):
        """Who enters slips a second time learns it from the list, once the page has shown that; and
        does not ask for the list by choosing a station, though some were corrected."""
        with page_alone() as page:
            page.open("second", "sara", {
                "GET /now/con/c1/result": [[200, result(queried=1, corrected=1, closed=0)]],
                "GET /now/con/c1/stations": [[200, TABLE.replace("s2                  1000 "
                                                                 "received     1",
                                                                 "s2 1000 corrected 7")]]})
            page.asked()
            page.station("s2")
            self.assertEqual(page.asked(), ["GET /now/con/c1/result"])
            self.assertEqual(page.run("return element('confirm-rev').textContent"),
                             "It is compared with the first entry.")
            page.run("return listStations()")
            page.station("s2")
            self.assertEqual(page.run("return element('confirm-rev').textContent"),
                             "It is compared with the return as it was changed last.")
            page.asked()
            page.send("confirm", *TYPED)
            self.assertEqual(page.asked()[0].split(",")[0], 'POST /station/s2/confirm {"rev":7')
            # One without a revision is that of before.
            page.run("revisions.s1 = 4")
            page.station("s1")
            page.asked()
            page.run("for (const form of document.forms) form.reset()")
            page.send("confirm", *TYPED)
            self.assertEqual(page.asked()[0].split(",")[0], 'POST /station/s1/confirm {"rev":4')

    @needs("chromium")
    def test_names_that_come_later(self):
        """They are asked for again once a minute is over, until they are there."""
        site, now = "GET /site.json", 1_795_986_300_000
        with page_alone() as page:
            for answer in ([404, {"word": "no_route"}], [200, ""]):
                page.open(answers={site: [answer]}, now=now)
                page.asked()
                for seconds, is_asked in ((59.999, False), (60, True), (119.999, False)):
                    with self.subTest(answer=answer, seconds=seconds):
                        page.run("office.now = arguments[0]", now + seconds * 1000)
                        page.does("element('again').click()")
                        self.assertEqual(site in page.asked(), is_asked)
            names = {"stations": {"s1": {"name": "Hall", "place": "Main \u202eStreet 1"}}}
            page.tell({site: [[200, names]]})
            page.run("office.now = arguments[0]", now + 120_000)
            page.station("s1")
            self.assertIn(site, page.asked())
            self.assertEqual(page.run("return [...element('place').children].map((e) => "
                                      "e.textContent)"),
                             ["s1", "Hall", "Main Street 1", "1,000 electors"])
            page.run("office.now = arguments[0]", now + 10 ** 9)
            page.does("element('again').click()")
            self.assertNotIn(site, page.asked())

    @needs("chromium")
    def test_what_is_learned_of_closed_returns(self):
        """Each row of the constituency's lists that has votes counts; it is asked for again at
        twice as many."""
        file, view = "GET /stations-c1-open.csv", "GET /now/con/c1/result"
        head = "station,slip,blank,spoiled,A,B\n"
        rows = "s1,p1,7,7,200,100\ns2,p2,7,7,0,100\ns3,p3,7,7,100,0\ns4,p4,7,7,1,1\n"
        others = "s5,p5,7,7,0,0\ns6,p6,7,7,1\ns7,p7,7,7,1,x\ns8,p8,7,7,1,2,3\n"
        learned = "return [learned.con, learned.closed, learned.spreads.length]"
        with page_alone() as page:
            page.open(answers={file: [[200, head + rows + others]],
                               view: [[200, result(closed=10)]]})
            self.assertIn(file, page.asked())
            self.assertEqual(page.run(learned), ["c1", 4, 2])
            for closed, is_asked in ((9, False), (10, True)):
                page.tell({view: [[200, result(closed=closed)]]})
                page.does("element('again').click()")
                self.assertEqual(file in page.asked(), is_asked)
            # Where it is not answered, what was learned of this constituency stays.
            page.tell({file: [[404, ""]]})
            page.does("element('again').click()")
            self.assertEqual(page.run(learned), ["c1", 10, 2])
            page.does("element('again').click()")
            page.asked()
            page.tell({"GET /now/con/c2/result": [[200, result(con="c2", closed=10, lists=[
                {"votes": 10, "seats": 0}])]]})
            page.does("element('con').value = 'c2'; element('con').dispatchEvent("
                      "new Event('change'))")
            self.assertIn("GET /stations-c2-open.csv", page.asked())
            self.assertEqual(page.run(learned), ["c2", 10, 0])
            # What comes too late is of no constituency that is shown.
            page.tell({file: [[200, head + rows]]})
            found = page.run("""shown.con = 'c1'; shown.view = { closed: 10 }; office.isHeld = true;
              const done = learn(); shown.con = 'c2'; office.isHeld = false;
              return done.then(() => learned.spreads.length)""")
            self.assertEqual(found, 0)
            # Where no return can be used none is known.
            page.tell({file: [[200, head]], view: [[200, result(closed=20)]]})
            page.does("element('con').value = 'c1'; element('con').dispatchEvent("
                      "new Event('change'))")
            self.assertEqual(page.run(learned), ["c1", 0, 0])
