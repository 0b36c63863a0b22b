"""Acts of the board, files, histories and what waits in the clerks' page.

The page is opened as a file, before an office that answers as a test says.
"""

import json

from tests.support.case import Case, needs
from tests.support.page_alone import NOW, page_alone, recorded, result
from tests.support.typed_slips import ENTER, TAB

UNSEEN = "What the office has now is not known: it did not answer. Ask it again."
VIEW, AGAIN = "GET /now/con/c1/result", "element('again').click()"
CLOSED = result(closed=4, received=0)
LOT = result(closed=4, received=0, status="lot", question=1, group=["A", "B"])
CERTIFIED = result(closed=4, received=0, certified=True, status="certified", edition=5,
                   holders=[["A", 1, "Ana"], ["A", 2, "Abel"], ["B", None, None]])
CHOSEN = ("const all = [...element('order').querySelectorAll('select')]; all.forEach((e, place) => "
          "{ e.value = arguments[0][place]; }); ")
RECEIPT = ("return element('receipt').hidden ? null : [...document.querySelectorAll('#receipt tr')]"
           ".map((row) => [...row.children].map((e) => e.textContent)).slice(1, -2)")
TEXTS = "return [...document.querySelectorAll(arguments[0])].map((e) => e.textContent)"
HISTORY = "GET /now/station/{}/history"
# The file of a clerk: its fifth line is a row that goes over two lines.
FILE = 'station,slip,blank,spoiled,A,B\ns1,p1,0,0,1,1\n\ns2,p2,0,0,1,1\n"s3\n",p3,0,x,1,1\ns4,,0\n'
TRIAL = ("lodged 1\nsame 2\ndiffers 3\nrefused 1200\nbad 5\nfirst 2 7\n"
         "row 2 7 differs s2\nrow 3 0 bad_number spoiled\nrow 4 0 fields 3\nrow 9 6 too_many_votes "
         "s4\nrow 10 4 bad_counts s1\n")
REASONS = ["Line 4: station s2: another return of its station is recorded. s2,p2,0,0,1,1",
           "Line 5: under spoiled there is no whole number of 1 to 9 digits. "
           '"s3 ",p3,0,x,1,1', "Line 7: it has 3 fields, and the header has 6. s4,,0",
           "Line 10: station s4: its votes are more than the station has electors and agents.",
           "Line 11: station s1: a number is above 1,000,000."]
GIVE = """const data = new DataTransfer(), { file } = element('import').elements;
  data.items.add(new File([arguments[0]], 'rows.csv')); file.files = data.files;
  file.dispatchEvent(new Event('change', { bubbles: true }));"""
IMPORT = "element('trial-import').focus(); element('trial-import').click()"


def command(n, act, answer, name="clara", role="clerk", status=200, **body):
    return {"n": n, "time": f"2026-11-29T21:{n:02}:00.000+00:00", "name": name, "role": role,
            "act": act, "status": status, "body": json.dumps(body), "answer": json.dumps(answer)}


class Acts(Case):
    may_leave_files = True

    @needs("chromium")
    def test_a_certificate(self):
        """It is asked for with the figures that are shown, once they are those of the office."""
        certify, done = "POST /con/c1/certify", [200, {"ok": "moved", "edition": 5}]
        seats = [["A Alpha", "400 votes, 2 seats"], ["B Beta", "200 votes, 1 seat"]]
        changed = "Nothing was sent: the figures of the constituency have changed since this page"
        with page_alone() as page:
            # The answers when it looks before and after, what is sent, and what is said then.
            for yes, views, answer, sent, said, kind, rows in (
                    (False, [CLOSED], done, 0, NOW, "", None),
                    (True, [result(closed=3)], done, 0, changed, "look", None),
                    (True, [[502, ""]], done, 0, UNSEEN, "look", None),
                    (True, [CLOSED, CERTIFIED], done, 1, "Done.", "done", seats),
                    (True, [CLOSED, CERTIFIED | {"edition": 7}], done, 1, "Done.", "done", []),
                    (True, [CLOSED, CLOSED | {"edition": 5}], done, 1, "Done.", "done", []),
                    (True, [CLOSED, [502, ""]], done, 1, "Done.", "done", []),
                    (True, [CLOSED, CLOSED], [409, {"word": "not_all_closed", "left": 1}], 1,
                     "Stations whose return is not closed: 1. Close them first.", "refused", None),
                    (True, [CLOSED, LOT], [409, {"word": "lot_missing", "seats": 2,
                                                 "group": ["A", "B"]}], 1,
                     "A lot is needed among A, B, for 2 seats. Draw it, and record it below.",
                     "look", None),
                    (True, [CLOSED, CLOSED], [202, {"until": "2026-11-29T21:00:00+00:00",
                                                    "others": []}], 1,
                     "Recorded, and not done yet: it waits until November 29, 2026 at 9:00:00 "
                     "PM UTC for another name", "look", None)):
                with self.subTest(views=views, answer=answer, yes=yes):
                    page.open("board", "berta", {VIEW: [[200, CLOSED]], certify: [answer]})
                    page.run("office.yes = arguments[0]; office.asked.length = 0", yes)
                    page.tell({VIEW: [one if isinstance(one, list) else [200, one]
                                      for one in views]})
                    seen = page.send("certify")
                    # (before PM is one of two kinds of space)
                    text = (seen["said"] or seen["alert"]).replace("\u202f", " ")
                    self.assertTrue(text.startswith(said), text)
                    asked = page.asked()
                    self.assertEqual(
                        ([one for one in asked if "POST" in one], len(asked)),
                        ([f'{certify} {{"edition":4}}'] * sent, yes + 2 * sent))
                    self.assertEqual((seen["kind"], page.run(RECEIPT)), (
                        kind, rows))
                    self.assertEqual(page.run("return office.questions"), ["Certify Twin Town?"])
                    # What somebody did is read next, where its form is gone.
                    if views[-1] == CERTIFIED:
                        self.assertEqual((seen["focus"], seen["forms"]),
                                         ("SUMMARY", ["vacate", "reopen"]))
                    elif views[-1] == CLOSED:
                        self.assertEqual(seen["focus"], "BUTTON")

            # Nothing can be pressed while it looks whether the figures are still those.
            page.open("board", "berta", {VIEW: [[200, CLOSED]], certify: [done]})
            page.run("office.isHeld = true; element('certify').requestSubmit()")
            self.assertTrue(page.run("return busy && element('con').disabled"))
            page.run("office.isHeld = false")
            self.assertEqual(page.settled()["said"], "Done.")

    @needs("chromium")
    def test_a_lot(self):
        """It is offered where the votes of all returns need it, and to the board alone."""
        draw, needed = "POST /con/c1/draw", "A lot is needed among A, B, for one seat."
        with page_alone() as page:
            page.open("clerk", "clara", {VIEW: [[200, LOT]]})
            self.assertEqual(page.run(TEXTS, "#view .look"), [])
            page.open("board", "berta", {VIEW: [[200, LOT]]})
            self.assertEqual(page.settled()["forms"], ["certify", "draw"])
            self.assertTrue(page.run(TEXTS, "#view .look")[0].startswith(needed))
            self.assertEqual(page.run(TEXTS, "#draw-help"), [
                "Lists of the lot: A, B. Enter them in the order drawn."])
            # A return was queried meanwhile: nothing is to be drawn yet.
            page.tell({VIEW: [[200, LOT | {"closed": 3, "queried": 1}]]})
            self.assertEqual((page.does(AGAIN)["forms"], page.run(TEXTS, "#view .look")),
                             (["certify"], []))
            page.tell({VIEW: [[200, LOT]], draw: [[400, {"word": "lot_wrong_group",
                                                         "group": ["A", "B"]}]]})
            page.does(AGAIN)
            # Each place has to be chosen; an order that was chosen and not sent goes with a yes.
            page.asked()
            page.run(CHOSEN, ["B", ""])
            self.assertEqual((page.send("draw")["said"], page.asked()), (NOW, []))
            self.assertEqual(page.run("return [...element('order').querySelectorAll('select')]"
                                      ".map((e) => e.validationMessage)"),
                             ["", "Nothing is chosen here."])
            leaves = "return dispatchEvent(new Event('beforeunload', { cancelable: true }))"
            self.assertFalse(page.run(leaves))
            page.run(CHOSEN, ["B", "B"])
            seen = page.send("draw")
            self.assertEqual((seen["alert"], seen["kind"], seen["focus"], page.asked()[0]), (
                "The lot has to name each of these lists once and no other: A, B.", "refused",
                "SELECT", f'{draw} {{"edition":4,"order":["B","B"]}}'))
            # What was chosen stays, as long as the lot is among the same lists.
            orders = "return [...element('order').querySelectorAll('select')].map((e) => e.value)"
            self.assertEqual(page.run(orders), ["B", "B"])
            page.tell({draw: [[202, {"until": "2026-11-29T21:00:00+00:00", "others": [
                {"name": "simon", "act": "draw", "body": '{"order":["A","B"]}'}]}]]})
            page.run(CHOSEN, ["B", "A"])
            seen = page.send("draw")
            self.assertEqual((seen["kind"], page.run(RECEIPT)), ("look", None))
            self.assertTrue(seen["said"].endswith(
                "Waiting too, by simon: Record the lot: A, B."), seen["said"])
            page.run(CHOSEN, ["B", "A"])
            page.tell({VIEW: [[200, CLOSED | {"lot": ["B", "A"], "edition": 5}]],
                       draw: [[200, {"ok": "moved", "edition": 5}]]})
            seen = page.send("draw")
            self.assertEqual((seen["said"], seen["kind"], seen["focus"], page.run(RECEIPT)), (
                "Done.", "done", "SUMMARY", [["Order", "B, A"]]))
            self.assertIn("All returns are closed. Lot: B, A.", page.run(TEXTS, "#view p")[0])
            self.assertTrue(page.run(leaves))
            page.tell({VIEW: [[200, LOT | {"group": ["B", "A"]}]]})
            page.does(AGAIN)
            self.assertEqual(page.run(orders), ["", ""])

    @needs("chromium")
    def test_a_lot_and_a_reopening_whose_answers_were_lost(self):
        """The next lot or reopening finds its form empty."""
        orders = "return [...element('order').querySelectorAll('select')].map((e) => e.value)"
        note = "return element('reopen').elements.note.value"
        with page_alone() as page:
            # After the command it sees the lot, or nothing, or that a return was queried already.
            lot, void = CLOSED | {"lot": ["B", "A"], "edition": 5}, LOT | {"edition": 5}
            for before in ([200, lot], [502, ""], [200, LOT | {"edition": 5, "closed": 3}]):
                with self.subTest(before=before):
                    page.open("board", "berta", {VIEW: [[200, LOT], before],
                                                 "POST /con/c1/draw": [[0, ""]]})
                    page.run(CHOSEN, ["B", "A"])
                    page.send("draw")
                    page.tell({VIEW: [[200, void]]})
                    self.assertEqual((page.does(AGAIN)["forms"], page.run(orders)),
                                     (["certify", "draw"], ["", ""]))
            # One that was not done stays chosen.
            page.open("board", "berta", {VIEW: [[200, LOT]], "POST /con/c1/draw": [[0, ""]]})
            page.run(CHOSEN, ["B", "A"])
            page.send("draw")
            self.assertEqual(page.run(orders), ["B", "A"])
            for view, typed in ((CLOSED | {"edition": 6}, ""), (CERTIFIED, "sum")):
                page.open("board", "berta", {VIEW: [[200, CERTIFIED], [200, view]],
                                             "POST /con/c1/reopen": [[0, ""]]})
                page.run("element('reopen').elements.note.value = 'sum'")
                page.send("reopen")
                self.assertEqual(page.run(note), typed)

    @needs("chromium")
    def test_a_lot_and_a_reopening_that_somebody_else_did(self):
        """The reason of a reopening stays as long as there is a certificate; an order of lists as
        long as it may be that of the lot."""
        orders = "return [...element('order').querySelectorAll('select')].map((e) => e.value)"
        note = "return element('reopen').elements.note.value"
        with page_alone() as page:
            for edition, answer in ((7, [409, {"word": "stale", "now": 7}]), (7, [502, ""]),
                                    (5, [429, ""])):
                with self.subTest(answer=answer):
                    page.open("board", "berta", {
                        VIEW: [[200, CERTIFIED], [200, CERTIFIED | {"edition": edition}]],
                        "POST /con/c1/reopen": [answer]})
                    page.run("element('reopen').elements.note.value = 'sum'")
                    page.send("reopen")
                    self.assertEqual(page.run(note), "sum")
                    page.does(AGAIN)
                    self.assertEqual(page.run(note), "sum")
            page.tell({VIEW: [[200, CLOSED | {"edition": 6}]]})
            page.does(AGAIN)
            self.assertEqual(page.run(note), "")
            for views, left in (([LOT], "B"), ([LOT | {"blank": 4}], "B"),
                                ([LOT | {"closed": 3, "queried": 1}, LOT], ""),
                                ([LOT | {"edition": 6}], "")):
                with self.subTest(views=views):
                    page.open("board", "berta", {VIEW: [[200, LOT]]})
                    page.run(CHOSEN, ["B", "A"])
                    for view in views:
                        page.tell({VIEW: [[200, view]]})
                        page.does(AGAIN)
                    self.assertEqual(page.run(orders)[0], left)

    @needs("chromium")
    def test_a_reopening_and_a_vacancy(self):
        with page_alone() as page:
            for form, question, sent, answer, said, rows in (
                    ("reopen", "Withdraw the certificate of Twin Town?",
                     '{"edition":5,"note":"sum"}', {"ok": "moved", "edition": 6}, "Done.", []),
                    ("vacate", "Abel (A) is gone?", '{"list":"A","place":2,"note":"sum"}',
                     {"ok": "vacated", "next": None}, "Done: nobody moves in, the seat is empty.",
                     [["Gone", "Abel, A, place 2"]]),
                    ("vacate", "Abel (A) is gone?", '{"list":"A","place":2,"note":"sum"}',
                     {"ok": "vacated", "next": 1}, "Done: Ana moves in, place 1.",
                     [["Gone", "Abel, A, place 2"]])):
                with self.subTest(form=form, answer=answer):
                    page.open("board", "berta", {VIEW: [[200, CERTIFIED]],
                                                 f"POST /con/c1/{form}": [[200, answer]]})
                    self.assertEqual(page.run("return [...element('vacate').elements.holder"
                                              ".options].map((e) => e.textContent)"),
                                     ["", "A, place 1: Ana", "A, place 2: Abel"])
                    page.asked()
                    page.run("const { elements } = element(arguments[0]); "
                             "elements.note.value = 'sum'; office.yes = false; "
                             "if (elements.holder) elements.holder.selectedIndex = 2", form)
                    page.send(form)
                    self.assertEqual(page.asked(), [])
                    page.run("office.yes = true")
                    seen = page.send(form)
                    self.assertEqual((page.asked()[0], seen["said"], seen["kind"]),
                                     (f"POST /con/c1/{form} {sent}", said, "done"))
                    self.assertEqual(page.run("return office.questions"), [question] * 2)
                    done = [] if said == "Done." else [["Done", said]]
                    self.assertEqual(page.run(RECEIPT), [*done, *rows, ["Note", "sum"]][
                        0 if said == "Done." else 0:])
                    self.assertEqual(page.run("return element('receipt').open"), True)

    @needs("chromium")
    def test_who_is_chosen_as_gone(self):
        """Nobody, until somebody chooses; and then the same holder, whatever the office answers. In
        the place of one who is no holder any more nobody is chosen, and nothing is sent."""
        vacate, lost = "POST /con/c1/vacate", [[502, ""]]
        held = CERTIFIED | {"holders": [["A", 1, "Ana"], ["A", 2, "Abel"], ["B", 1, "Bea"]]}
        chosen = ("const { holder, note } = element('vacate').elements; "
                  "return [holder.selectedOptions[0].textContent, note.value]")
        missing = "return element('vacate').elements.holder.validationMessage"
        bea = ["B, place 1: Bea", "resigned"]
        choose = ("const { holder, note } = element('vacate').elements; note.value = 'resigned'; "
                  "holder.selectedIndex = arguments[0]")
        with page_alone() as page:
            def sends_nothing():
                page.asked()
                page.run("office.questions.length = 0")
                page.send("vacate")
                self.assertEqual((page.asked(), page.run("return office.questions"),
                                  page.run(chosen), page.run(missing)),
                                 ([], [], ["", "resigned"], "Nothing is chosen here."))

            page.open("board", "berta", {VIEW: [[200, held]]})
            page.run(choose, 0)
            sends_nothing()
            page.run(choose, 3)
            for answer in ([0, ""], [502, ""], [503, {"word": "unavailable"}], [429, ""],
                           [412, ""], [409, {"word": "not_certified"}]):
                for view in ([[200, held]], lost):
                    with self.subTest(answer=answer, view=view):
                        page.tell({vacate: [answer], VIEW: view})
                        page.send("vacate")
                        self.assertEqual(page.run("return office.questions.splice(0)"),
                                         ["Bea (B) is gone?"])
                        self.assertEqual(page.run(chosen), bea)
                        page.tell({VIEW: [[200, held]]})
                        self.assertEqual(page.does(AGAIN)["forms"], ["vacate", "reopen"])
                        self.assertEqual(page.run(chosen), bea)
            # Its answer was lost, and it was done; nobody is chosen in the place of Bea.
            page.tell({vacate: [[0, ""]],
                       VIEW: [[200, held | {"holders": held["holders"][:2], "gone": [
                           ["B", 1, "resigned"]]}]]})
            page.send("vacate")
            sends_nothing()
            # Nor is anybody in another constituency, or once it was sent.
            page.tell({VIEW: [[200, held]], "GET /now/con/c2/result": [[200, CERTIFIED | {
                "con": "c2", "lists": [{"votes": 9, "seats": 1}], "holders": [["B", 1, "Bea"]]}]]})
            page.does(AGAIN)
            page.run(choose, 3)
            page.does("element('con').value = 'c2'; element('con').dispatchEvent("
                      "new Event('change'))")
            self.assertEqual(page.run(chosen), ["", ""])
            page.open("board", "berta", {VIEW: [[200, held]], vacate: [[202, {
                "until": "2026-11-29T21:00:00+00:00", "others": []}]]})
            page.run(choose, 3)
            page.send("vacate")
            self.assertEqual(page.run(chosen), ["", ""])

    @needs("chromium")
    def test_a_file(self):
        trial, imported = "POST /con/c1/trial", "POST /con/c1/import"
        done = {"ok": "import", "lodged": 1, "same": 2, "differs": 0, "refused": 0, "bad": 0,
                "first": None}
        shown = "return element('trial').hidden"
        with page_alone() as page:
            page.open(answers={trial: [[400, {"word": "bad_header"}]]})
            page.run(GIVE, FILE)
            seen = page.send("import")
            self.assertEqual((seen["kind"], seen["alert"][:31], seen["focus"], page.run(shown)),
                             ("refused", "The first line of the file is n", "BUTTON", True))
            page.tell({trial: [[200, TRIAL]], imported: [[200, done]]})
            page.asked()
            seen = page.send("import")
            self.assertEqual((seen["said"], seen["kind"], seen["focus"], page.asked()), (
                "This is what an import of this file would come to now.", "", "trial-figures",
                [f"{trial} rows.csv"]))
            self.assertFalse(page.run(shown))
            self.assertEqual(page.run(TEXTS, "#trial td"), ["1", "2", "3", "1,200", "5"])
            self.assertEqual(page.run(TEXTS, "#trial li"), REASONS)
            # Another file that was chosen by the same name is tried too, and what was tried is
            # imported; one that cannot be read is said to be so.
            page.run(GIVE.replace("file.dispatchEvent", "void"), FILE)
            page.tell({trial: [[200, TRIAL], [200, TRIAL]]})
            page.does(IMPORT)
            self.assertEqual((page.asked(), page.run(shown)), ([f"{trial} rows.csv"], False))
            # Once it was sent, the figures of the trial say nothing any more.
            for answer in ([0, ""], [502, ""], [503, {"word": "unavailable"}]):
                page.tell({imported: [answer]})
                seen = page.does(IMPORT)
                self.assertEqual((page.asked()[0], page.run(shown), seen["kind"], seen["focus"]), (
                    f"{imported} rows.csv", True, "refused", "BUTTON"))
                page.send("import")
                self.assertEqual((page.asked(), page.run(shown)), ([f"{trial} rows.csv"], False))
            page.tell({imported: [[200, done]]})
            # Of one that is tried once more, and refused, nothing is left to import.
            page.tell({trial: [[429, ""]]})
            page.send("import")
            self.assertEqual((page.asked(), page.run(shown)), ([f"{trial} rows.csv"], True))
            page.tell({trial: [[200, TRIAL]]})
            page.send("import")
            page.asked()
            page.run("const [file] = document.querySelector('#import [type=file]').files;"
                     "file.arrayBuffer = () => Promise.reject(new DOMException('gone'));"
                     "document.querySelector('#import').dispatchEvent(new Event('cancel'));")
            seen = page.send("import")
            self.assertEqual((page.asked(), seen["kind"], seen["alert"][:26], page.run(shown)),
                             ([], "refused", "This file was changed, or ", True))
            # Each thing that was not accepted is to be looked at, of whatever kind.
            for more, said, kind in (
                    ({}, "", "done"), ({"differs": 1, "first": [2, 7]},
                                       " The first that was not accepted is line 4 of the file: "
                                       "station s2: another return of its station is recorded.",
                                       "look"),
                    ({"refused": 1, "first": [1, 6]},
                     " The first that was not accepted is line 2 of the file: its votes are more "
                     "than the station has electors and agents.", "look"),
                    *(({"bad": 1, "first": [11, number]}, " The first that was not accepted is "
                       f"line 12 of the file: {reason}.", "look") for number, reason in (
                           (0, "it cannot be read, or its station is not one of this "
                            "constituency"), (4, "a number is above 1,000,000"),
                           (7, "another return of its station is recorded"), (9, "reason 9"))),
                    ({"differs": 1, "refused": 1, "bad": 0, "first": None}, "", "look"),
                    ({"differs": 0, "refused": 1, "bad": 1, "first": None}, "", "look")):
                with self.subTest(more=more):
                    page.run(GIVE, FILE)
                    page.send("import")
                    page.tell({imported: [[200, done | more]]})
                    page.asked()
                    seen = page.does(IMPORT)
                    value = done | more
                    self.assertEqual((seen["said"], seen["kind"], seen["focus"], page.asked()[0]), (
                        f"Lodged 1, the same 2, differing {value['differs']}, refused "
                        f"{value['refused']}, unreadable {value['bad']}.{said}", kind, "SUMMARY",
                        f"{imported} rows.csv"))
                    self.assertTrue(page.run(shown))
            self.assertEqual(page.run(TEXTS, "#not-accepted h3, #not-accepted li"),
                             ["Lines of rows.csv that were not accepted", *REASONS])
            size = len(FILE)
            self.assertEqual(page.run(RECEIPT)[1:], [
                ["File", f"rows.csv, {size} bytes"],
                *[[f"Line {line}", reason.split(": ", 1)[1].split(". ")[0].rstrip(".")]
                  for line, reason in zip((4, 5, 7, 10, 11), REASONS)]])
            self.assertTrue(page.run("return element('receipt').open"))
            # Fields may be separated in another way, and no row is shown longer than 60 letters.
            page.tell({f"{trial}/semicolon": [[200, TRIAL[:TRIAL.index("row 3")]]]})
            page.run(GIVE, FILE.replace("s2,p2", "s2," + "p" * 70))
            page.run("element('import').elements.separator.value = '/semicolon'")
            page.asked()
            page.send("import")
            self.assertEqual(page.asked(), [f"{trial}/semicolon rows.csv"])
            self.assertEqual(page.run(TEXTS, "#trial li code"), ["s2," + "p" * 57])
            # Where nothing was refused the list of before is gone.
            page.tell({f"{trial}/semicolon": [[200, TRIAL[:TRIAL.index("row")]]],
                       f"{imported}/semicolon": [[200, done]]})
            page.run(GIVE, FILE)
            page.send("import")
            page.does(IMPORT)
            self.assertEqual(page.run(TEXTS, "#not-accepted *"), [])

    @needs("chromium")
    def test_a_button_that_is_pressed_twice(self):
        """Nobody has seen the trial by then: the file is tried, and not imported. By keys alone it
        is imported with the next button."""
        trial, imported = "POST /con/c1/trial", "POST /con/c1/import"
        done = {"ok": "import", "lodged": 1, "same": 2, "differs": 0, "refused": 0, "bad": 0,
                "first": None}
        figures = TRIAL[:TRIAL.index("row")]
        mouse = [{"type": kind, "button": 0} for kind in ("pointerDown", "pointerUp")]
        enter = [{"type": kind, "value": ENTER} for kind in ("keyDown", "keyUp")]
        later = {"type": "pause", "duration": 150}
        at = """const e = document.querySelector('#import fieldset > button'); e.focus();
          e.scrollIntoView({ block: arguments[0] }); const [box] = e.getClientRects();
          return [Math.floor(box.x + box.width / 2), Math.floor(box.y + box.height / 2)]"""
        under = ("return element('trial-import').contains("
                 "document.elementFromPoint(...arguments))")
        with page_alone() as page:
            page.open(answers={imported: [[200, done]]})

            def tries(kind, actions, block, text):
                page.run("element('import').reset()")
                page.run(GIVE, FILE)
                page.tell({trial: [[200, text]]})
                page.asked()
                x, y = page.run(at, block)
                if kind == "pointer":
                    actions = [{"type": "pointerMove", "x": x, "y": y}, *actions]
                page.it.act(kind, actions)
                seen = page.settled()
                self.assertEqual((set(page.asked()), seen["said"], page.run(under, x, y)), (
                    {f"{trial} rows.csv"},
                    "This is what an import of this file would come to now.", False))

            for width, height in ((1200, 800), (360, 640)):
                page.it.size(width, height)
                for block in ("start", "center", "end"):
                    for rows in (0, 1, 5):
                        with self.subTest(width=width, block=block, rows=rows):
                            text = figures + "row 2 7 differs s2\n" * rows
                            tries("pointer", [*mouse, later, *mouse], block, text)
            for actions in ([*enter, later, *enter], [enter[0], later] * 5 + [enter[1]]):
                with self.subTest(actions=actions):
                    tries("key", actions, "center", TRIAL)
                    self.assertEqual(page.settled()["focus"], "trial-figures")
            # The figures are read aloud, and the question.
            self.assertIn(("group", "Lodged 1 The same 2 Differing 3 Refused 1,200 Unreadable 5 "
                           "Nothing is lodged yet. Import this file into Twin Town?"),
                          page.it.named("group"))
            # Enter in the form is the button that tries, also while the trial is shown.
            page.it.command("Emulation.clearDeviceMetricsOverride")
            page.does("element('import').requestSubmit()")
            self.assertEqual(page.asked(), [f"{trial} rows.csv"])
            page.it.keys(TAB)
            self.assertEqual(page.settled()["focus"], "trial-import")
            page.it.keys(ENTER)
            self.assertEqual((page.settled()["said"][:9], page.asked()[0]),
                             ("Lodged 1,", f"{imported} rows.csv"))

    @needs("chromium")
    def test_a_receipt_of_an_earlier_command(self):
        """It is not under what is said of a later one that was not done."""
        vacate, reopen = "POST /con/c1/vacate", "POST /con/c1/reopen"
        shown = ("const { hidden, open } = element('receipt'); return [hidden, open, "
                 "element('receipt').querySelector('summary').textContent]")
        choose = ("const { holder, note } = element('vacate').elements; note.value = 'resigned'; "
                  "holder.selectedIndex = 1; element('reopen').elements.note.value = 'sum'")
        with page_alone() as page:
            for answer, kind in (([0, ""], "refused"), ([409, {"word": "not_holder"}], "refused"),
                                 ([202, {"until": "2026-11-29T21:00:00+00:00", "others": []}],
                                  "look")):
                with self.subTest(answer=answer):
                    page.open("board", "berta", {VIEW: [[200, CERTIFIED]], vacate: [answer],
                                                 reopen: [[200, {"ok": "moved", "edition": 6}]]})
                    page.run(choose)
                    page.send("reopen")
                    withdrawn = "Receipt: a certificate withdrawn"
                    self.assertEqual(page.run(shown), [False, True, withdrawn])
                    page.run("office.isHeld = true; element('vacate').requestSubmit()")
                    self.assertFalse(page.run(shown)[1])
                    page.run("office.isHeld = false")
                    self.assertEqual((page.settled()["kind"], page.run(shown)[0]), (kind, True))
                    # One that is done has its own.
                    page.tell({vacate: [[200, {"ok": "vacated", "next": None}]]})
                    page.run(choose)
                    page.send("vacate")
                    self.assertEqual(page.run(shown), [False, True, "Receipt: a holder gone"])

    @needs("chromium")
    def test_a_history(self):
        at, many = HISTORY.format("s1"), [1] * 61
        with page_alone() as page:
            page.open(answers={"GET /now/station/s1": [[200, recorded()]], at: [[403, ""]]})
            page.station("s1")
            page.asked()
            seen = page.does("element('who').click()")
            self.assertEqual((seen["alert"], seen["kind"], page.run(TEXTS, "#history *"),
                              page.asked()), ("Your name may not do this.", "refused", [], [at]))
            for whole, commands, words in (
                    (True, [], "Nothing was done to station s1."),
                    (True, [command(1, "lodge", {})], "Station s1:"),
                    (False, [command(1, "lodge", {})], "Station s1, the last of what was done:")):
                page.tell({at: [[200, {"whole": whole, "commands": commands}]]})
                seen = page.does("element('who').click()")
                self.assertEqual((seen["said"], seen["kind"], page.run(TEXTS, "#history p")),
                                 ("The history of station s1 is shown.", "", [words]))
            rows = (
                (command(1, "lodge", {}, slip="a" * 16, votes=[1, 2, 3], blank=0, spoiled=1),
                 f"(clerk) entered it: slip {'a' * 16}, A 1, B 2, ? 3, blank 0, spoiled 1. Done."),
                (command(1, "lodge", {}, slip="a" * 17, votes=[-1, 0], blank=1.5, spoiled=1),
                 "(clerk) entered it: A ?, B 0. Done."),
                (command(1, "lodge", {}, votes=many), "(clerk) entered it: A 1, B 1, " + ", ".join(
                    ["? 1"] * 58) + ". Done."),
                (command(1, "lodge", {}, blank=1, spoiled=-1, slip=7, note=8),
                 "(clerk) entered it. Done."),
                (command(1, "query", {}, note="x" * 201),
                 f"(clerk) queried it: “{'x' * 200}”. Done."),
                (command(1, "dance", {}, role="guest", order=["A"] * 60 + ["B"]),
                 "(guest) dance: " + ", ".join(["A"] * 60) + ". Done."),
                (command(1, "vacate", {}, list="A", place=2), "(clerk) vacate: A 2. Done."),
                (command(1, "vacate", {}, list="A", place=-2), "(clerk) vacate. Done."),
                (command(1, "close", {"ok": "same"}), "(clerk) closed it. The same was recorded "
                 "already."),
                (command(1, "close", {"word": "exhausted"}, status=409),
                 "(clerk) closed it. It was refused: No further change is possible: it was "
                 "changed 9,999 times."),
                (command(1, "import", {"ok": "import", "lodged": 1, "same": 2, "differs": 3,
                                       "refused": 4}), "(clerk) imported a file that has it. It "
                 "lodged 1; the same 2, differing 3, refused 4."))
            page.tell({at: [[200, {"whole": True, "commands": [one for one, _ in rows]}]]})
            page.does("element('who').click()")
            self.assertEqual([one.split(" clara ")[1] for one in page.run(TEXTS, "#history li")],
                             [wanted for _, wanted in rows])

    @needs("chromium")
    def test_what_waits(self):
        """Returns that differ come first, then those that are queried, and the rest by when they
        were last changed."""
        table, typed = "GET /now/con/c1/stations", "GET /now/con/c1/typed"
        rows = "".join(f"{code} 1000 {status}\n" for code, status in (
            ("a0", "-"), ("a1", "received 1"), ("a2", "queried 2"), ("a3", "received 1"),
            ("a4", "corrected 3"), ("a5", "received 1"), ("a6", "closed 2")))
        lodged = {"ok": "lodged", "rev": 1}
        histories = {
            "a1": [command(5, "lodge", lodged)],
            "a2": [command(1, "lodge", lodged), command(9, "query", {}, "sara", note="71?")],
            "a3": [command(7, "lodge", lodged),
                   command(8, "confirm", {"word": "differs"}, status=409)],
            "a4": [command(3, "correct", {})], "a5": []}
        one = {"name": "nora", "role": "guest", "lodge": 1031, "confirm": 0, "correct": 2}
        given = {"con": "c1", "since": "2026-11-29T21:02:00+00:00", "names": [one]}
        click = "element('list-waiting').click()"
        # 29 November 2026, 21:05, in milliseconds.
        now = 1_795_986_300_000
        with page_alone() as page:
            page.open("board", "berta", {
                table: [[200, f"STATIONS c1 Twin Town\nstations 7\n{rows}"]], typed: [[200, given]],
                **{HISTORY.format(code): [[200, {"whole": True, "commands": commands}]]
                   for code, commands in histories.items()}}, now=now)
            page.asked()
            seen = page.does(click)
            self.assertEqual(page.asked(), [table, typed, *[
                HISTORY.format(code) for code in histories]])
            self.assertEqual((seen["said"], seen["kind"]), (
                "Returns that wait: 5. Below are those that differ or are queried, and then those "
                "that wait longest.", ""))
            self.assertEqual(page.run(TEXTS, "#waiting li"), [
                "a3: the second entry differs; received, by clara, since 21:07",
                "a2: queried, by sara, since 21:09: “71?”",
                "a4: corrected, by clara, since 21:03", "a1: received, by clara, since 21:05",
                "a5: received"])
            self.assertEqual(page.run(TEXTS, "#waiting h3, #waiting p"),
                             ["What differs, and what waits, at 21:05"])
            self.assertEqual(page.run(TEXTS, "#waiting tbody tr > *"),
                             ["nora, guest", "1,031", "0", "2"])
            # How fast returns are closed is said from the first minute on, of this constituency.
            page.tell({VIEW: [[200, result(closed=5)]], typed: [[200, given | {"names": []}]]})
            page.run("office.now += 90_000")
            page.does(AGAIN)
            page.does(click)
            self.assertEqual(page.run(TEXTS, "#waiting p"), [
                "Closed in the last 2 minutes: 3, which is 120 an hour.",
                "Nothing was typed since 21:02, in the last hour."])
            page.tell({VIEW: [[502, ""]], typed: [[502, ""]]})
            page.does(AGAIN)
            page.does(click)
            self.assertEqual(page.run(TEXTS, "#waiting p"),
                             ["Closed in the last 2 minutes: 3, which is 120 an hour."])
            # Where the list is not answered nothing else is asked, and what was shown stays.
            page.tell({table: [[502, ""]]})
            page.asked()
            seen = page.does(click)
            self.assertEqual((seen["alert"].startswith(UNSEEN), page.asked(), len(page.run(
                TEXTS, "#waiting li"))), (True, [table, typed], 5))
            # Of another constituency there is nothing.
            page.tell({"GET /now/con/c2/result": [[200, result(con="c2", lists=[
                {"votes": 0, "seats": 0}])]], VIEW: [[200, result(closed=9)]],
                table: [[200, "STATIONS c1 Twin Town\nstations 0\n"]]})
            for con in ("c2", "c1"):
                page.does("element('con').value = arguments[0]; element('con').dispatchEvent("
                          "new Event('change'))", con)
                self.assertEqual(page.run(TEXTS, "#waiting *"), [])
            page.does(click)
            self.assertEqual(page.run(TEXTS, "#waiting p"), [])
            # Of many sixty are looked at. The page says to a clerk that the board sees more names.
            many = [f"x{n}" for n in range(61)]
            rows = "".join(f"{code} 1000 received 1\n" for code in many)
            page.open(answers={table: [[200, f"a\nb\n{rows}"]], typed: [[200, given]], **{
                HISTORY.format(code): [[200, {"whole": True, "commands": []}]] for code in many}})
            page.does(click)
            self.assertEqual((len(page.run(TEXTS, "#waiting li")), page.run(TEXTS, "#waiting p")),
                             (60, ["And 1 more.", "The board sees these figures of every name."]))
            page.tell({table: [[200, f"a\nb\n{rows[:-len('x60 1000 received 1') - 1]}"]],
                       HISTORY.format("x7"): [[429, ""]]})
            alert = page.does(click)["alert"]
            self.assertTrue(alert.startswith("Too many requests came from here"), alert)
            self.assertEqual((len(page.run(TEXTS, "#waiting li")), page.run(TEXTS, "#waiting p")),
                             (60, ["The board sees these figures of every name."]))
