"""The forms of the clerks' page: which are shown, what they say, and what is typed into them.

The page is opened as a file, before an office that answers as a test says.
"""

import json

from tests.support.case import Case, needs
from tests.support.page_alone import LISTS, NO_RETURN, NOW, TYPED, page_alone, recorded, result
from tests.support.typed_slips import ENTER, TAB

VIEW, OF_S1, AGAIN = "GET /now/con/c1/result", "GET /now/station/s1", "element('again').click()"
LODGE, CONFIRM = "POST /station/s1/lodge", "POST /station/s1/confirm"
TEXTS = "return [...document.querySelectorAll(arguments[0])].map((e) => e.textContent)"
SHOWN = "return Boolean(element(arguments[0]).getClientRects().length)"
STATUSES = ("none", "received", "queried", "corrected", "closed")
# The forms of a return that each sees, by what the return is; and where it may be compared.
FORMS = (
    ("clerk", "single", ("lodge", "close query", "correct", "close query", "query")),
    ("clerk", "double", ("lodge", "query", "correct", "query", "query")),
    ("station", "single", ("lodge", "", "", "", "")),
    ("board", "single", ("",) * 5),
    ("second", "double", ("confirm query",) * 5),
)
COMPARED = {"single": [False, True, False, True, True], "double": [False] * 5}
DIFFERS = [409, {"refused": 7, "rev": 1, "word": "differs"}]
# Presses a key in a field of the slip: whether the page takes it, and the field that it leads to.
KEY = """const [id, place, value, key] = arguments, fields = office.fields(id);
  if (value !== null) fields[place].value = value;
  fields[place].dispatchEvent(new Event("input", { bubbles: true }));
  fields[place].focus();
  const isTaken = !fields[place].dispatchEvent(new KeyboardEvent("keydown",
    { key, bubbles: true, cancelable: true }));
  return [isTaken, fields.indexOf(document.activeElement)];"""
INPUT = ("office.fields(arguments[0])[arguments[1]].dispatchEvent(new Event('input', "
         "{ bubbles: true }))")
# Presses a key in the field of the station.
STATION_KEY = """const field = element('station'), { key = 'Enter', repeat = false, value } =
    arguments[0];
  if (value !== undefined) field.value = value;
  office.isTaken = !field.dispatchEvent(new KeyboardEvent('keydown', { key, repeat,
    bubbles: true, cancelable: true }));"""


def status_of(status):
    return NO_RETURN if status == "none" else [200, recorded(status)]


class Forms(Case):
    may_leave_files = True

    @needs("chromium")
    def test_which_are_shown(self):
        with page_alone() as page:
            for role, entry, wanted in FORMS:
                page.open(role, "s1" if role == "station" else "nora")
                page.station("s1")
                for status, forms in zip(STATUSES, wanted):
                    with self.subTest(role=role, entry=entry, status=status):
                        page.tell({VIEW: [[200, result(entry=entry)]], OF_S1: [status_of(status)]})
                        seen = page.does(AGAIN)["forms"]
                        self.assertEqual([one for one in seen if one not in ("import", "certify")],
                                         forms.split())
                        self.assertEqual(page.run(SHOWN, "compare"), role != "second" and COMPARED[
                            entry][STATUSES.index(status)])
                        self.assertEqual(page.run(SHOWN, "who"), role != "station")
                        self.assertFalse(page.run(SHOWN, "retry"))
                        self.assertEqual(len(page.run(TEXTS, "#return tr")),
                                         0 if role == "second" or status == "none" else 6)
                # Of what is certified, or where its state is not known, nothing is changed.
                for view in ([200, result(certified=True, closed=4, entry=entry)], [502, ""]):
                    for status in ("none", "received", "queried", "closed"):
                        with self.subTest(role=role, view=view, status=status):
                            page.tell({VIEW: [view], OF_S1: [status_of(status)]})
                            seen = page.does(AGAIN)["forms"]
                            self.assertEqual(
                                [one for one in seen if one not in ("import", "reopen")],
                                ["lodge"] if status == "none" and role in ("clerk", "station")
                                else [])
            # Where a station's own return cannot be read, it may ask again.
            page.open("station", "s1", {OF_S1: [[502, ""]]})
            self.assertEqual([page.run(SHOWN, one) for one in ("retry", "who", "compare")],
                             [True, False, False])
            page.tell({OF_S1: [NO_RETURN]})
            seen = page.does("element('retry').click()")
            self.assertEqual((seen["said"], seen["forms"]), (NOW, ["lodge"]))
            page.open("clerk", "clara", {OF_S1: [[502, ""]]})
            page.station("s1")
            self.assertEqual([page.run(SHOWN, one) for one in ("retry", "who", "compare")],
                             [False] * 3)

    @needs("chromium")
    def test_what_they_say(self):
        title = "return [element('lodge-title'), element('lodge-help'), element('compare'), " \
            "element('lodge').querySelector('fieldset > button')].map((e) => e.textContent)"
        site = {"stations": {"s2": {"name": "Hall", "place": "Main Street 1"}, "s3": {}}}
        with page_alone() as page:
            page.open(answers={OF_S1: [[200, recorded(note="71?")]],
                               "GET /site.json": [[200, site]]})
            self.assertEqual(page.run(TEXTS, "#place *"), [])
            page.station("s1")
            self.assertEqual(page.run(TEXTS, "#return p"), ["Station s1: received. Note: 71?"])
            self.assertEqual(page.run("return [...document.querySelectorAll('#return td')].map("
                                      "(e) => [e.textContent, e.className])"), [
                ["p1", ""], *[[one, "number"] for one in ("200", "100", "2", "1", "303")]])
            self.assertEqual(page.run(title), [
                "Lodge the return", "", "Enter the slip again, to compare", "Lodge this return"])
            seen = page.does("element('compare').click()")
            self.assertEqual((seen["focus"], seen["forms"], page.run(title)), (
                "lodge slip", ["lodge", "import"], [
                    "Enter the slip a second time",
                    "The office says whether both entries are the same. Nothing changes.",
                    "Show what is recorded", "Compare with what is recorded"]))
            page.does("element('compare').click()")
            self.assertEqual(len(page.run(TEXTS, "#return tr")), 6)
            # The station with its name, its place and who votes there.
            for code, lines in (("s1", ["s1", "1,000 electors"]), ("s3", ["s3", "1,000 electors"]),
                                ("s2", ["s2", "Hall", "Main Street 1",
                                        "1,200 electors, 12 agents"]), ("s9", [])):
                page.station(code)
                self.assertEqual(page.run(TEXTS, "#place *"), lines)
            # The constituency.
            lists = [["A Alpha", "400 votes"], ["B Beta", "200 votes"], ["Blank", "3 votes"],
                     ["Spoiled", "1 vote"]]
            rows = ("return [...document.querySelectorAll('#view tr')].map((row) => "
                    "[...row.children].map((e) => e.textContent))")
            buttons = "return ['find', 'list-waiting'].map((one) => !element(one).hidden)"
            missing = "For a certificate 2 of 4 returns still have to be closed."
            for view, words, shown in (
                    (result(), [f"Twin Town: not certified. {missing}"], [True, True]),
                    (result(closed=4), ["Twin Town: not certified. All returns are closed."],
                     [False, True]),
                    (result(closed=4, certified=True), ["Twin Town: certified."], [False, False]),
                    (result(closed=3, certified=True), ["Twin Town: certified."], [True, False]),
                    (result(note="sum", gone=[["A", 2, "moved"]]),
                     [f"Twin Town: not certified. {missing} Note of the last reopening: sum",
                      "Gone: A, place 2: moved"], [True, True])):
                with self.subTest(view=view):
                    page.tell({VIEW: [[200, view]]})
                    page.does(AGAIN)
                    self.assertEqual((page.run(TEXTS, "#view p"), page.run(buttons)),
                                     (words, shown))
                    if not view["certified"]:
                        self.assertEqual(page.run(rows), lists)
            page.tell({VIEW: [[502, ""]]})
            page.does(AGAIN)
            self.assertEqual((page.run(TEXTS, "#view *"), page.run(buttons),
                              page.run(TEXTS, "#progress-line")), ([], [False, False], [""]))
            counted = "2 of 4 stations closed; without a return 1, received 1, queried 0, " \
                "corrected 0."
            waiting = " Waiting for their second entry: 1."
            for entry, line in (("single", counted), ("double", counted + waiting)):
                page.tell({VIEW: [[200, result(entry=entry)]]})
                page.does(AGAIN)
                self.assertEqual(page.run(TEXTS, "#progress-line"), [line])
            # A return that is to be corrected, and one that is to be looked at.
            page.tell({OF_S1: [[200, recorded("queried", rev=2)]]})
            self.assertEqual(page.station("s1")["focus"], "correct slip")
            page.open("board", "berta")
            self.assertEqual(page.station("s1")["focus"], "station")

    @needs("chromium")
    def test_keys(self):
        with page_alone() as page:
            page.open()
            page.station("s1")
            for place, value, key, wanted in (
                    (0, None, "ArrowDown", [True, 1]), (3, None, "ArrowUp", [True, 2]),
                    (0, None, "ArrowUp", [True, 0]), (5, None, "ArrowDown", [True, 5]),
                    (0, "", "Enter", [True, 0]), (0, "p1", "Enter", [True, 1]),
                    (1, "", "Enter", [True, 1]), (1, "x", "Enter", [True, 1]),
                    (1, "7", "Enter", [True, 2]), (4, "7", "Enter", [True, 5]),
                    (5, "7", "Enter", [False, 5]), (2, "7", "a", [False, 2]),
                    # The code of another station is no slip; of this one it may be.
                    (0, "s2", "Enter", [True, 0]), (0, "s2", "ArrowDown", [True, 1]),
                    (1, "7", "Enter", [True, 2]), (0, "S-1", "Enter", [True, 1]),
                    (0, "T1", "Enter", [True, 0])):
                with self.subTest(place=place, value=value, key=key):
                    self.assertEqual(page.run(KEY, "lodge", place, value, key), wanted)
            self.assertTrue(page.settled()["alert"].startswith(
                "T1 is the code of a station, and not of a slip. You are at station s1"))
            self.assertEqual(page.run("return getSelection().toString()"), "T1")
            # On a button Enter presses it.
            self.assertFalse(page.run(
                "return !element('lodge').querySelector('fieldset > button').dispatchEvent(new "
                "KeyboardEvent('keydown', { key: 'Enter', bubbles: true, cancelable: true }))"))
            # A slip that is a station's is not sent either.
            page.asked()
            page.send("lodge", "s2", *TYPED[1:])
            self.assertEqual(page.asked(), [])
            self.assertEqual(page.run("shown.station = null; return isStation('s1')"), True)
            page.run("shown.station = 's1'; element('lodge').reset()")
            # The page says itself what a field lacks, and no longer once something is typed.
            message = ("const field = office.fields('lodge')[arguments[0]]; field.value = "
                       "arguments[1]; field.placeholder = arguments[2]; field.reportValidity(); "
                       "return field.validationMessage")
            for place, value, proposed, said in (
                    (0, "", "", "This field is empty."), (1, "", "r10", "This field is empty."),
                    (0, "", "r10", "Type at least the last figure of the slip’s code, from the "
                     "paper."), (1, "x", "", "What this field takes: digits alone."),
                    (0, "é", "", "What this field takes: 1 to 16 letters without accents, digits, "
                     "- and _."), (1, "7", "", "")):
                with self.subTest(place=place, value=value, proposed=proposed):
                    self.assertEqual(page.run(message, place, value, proposed), said)
            for event in ("input", "click"):
                page.run(message, 2, "", "")
                self.assertEqual(page.run(
                    "office.fields('lodge')[1].dispatchEvent(new Event(arguments[0], "
                    "{ bubbles: true })); return office.fields('lodge')[2].validationMessage ==="
                    " 'This field is empty.'", event), False)

    @needs("chromium")
    def test_a_wrong_total_of_a_slip_that_is_entered_twice(self):
        """Who types on without looking up replaces the total alone, which is never right then."""
        with page_alone() as page:
            page.open(answers={"GET /now/con/c1/result": [[200, result(entry="double")]]})
            page.station("s1")
            page.asked()
            self.assertEqual(page.send("lodge", *TYPED[:5], "302")["focus"], "lodge total")
            for keys in ("5", "104", "50", "1", "1", "156"):
                page.it.keys(f"{keys}{ENTER}")
                self.assertEqual(page.settled()["focus"], "lodge total")
                self.assertEqual(page.run("return office.typed('lodge')"), [*TYPED[:5], keys])
            self.assertEqual([one for one in page.asked() if "POST" in one], [])

    @needs("chromium")
    def test_what_is_looked_at_before_it_is_sent(self):
        """The total, and what is unusual: its field has the focus, and says why."""
        state = ("const total = office.fields('lodge')[5]; return [total.ariaInvalid, total"
                 ".getAttribute('aria-errormessage'), [...document.querySelectorAll("
                 "'#lodge .fault')].map((e) => [e.id, e.textContent]), "
                 "office.fields('lodge').indexOf(document.activeElement)]")
        boxes = ("return [...document.querySelectorAll('#lodge .warning')].map((e) => ["
                 "e.querySelector('span').textContent, e.querySelector('input').checked])")
        fault = [["lodge-fault", "The figures above add up to 303."]]
        blank = "More than 5 per cent of all votes are blank."
        few, all_of = ("Less than 20 per cent of the 1,000 electors.",
                       "More than 95 per cent of the 1,000 electors.")
        with page_alone() as page:
            page.open(answers={LODGE: [[409, {"word": "certified"}]]})
            page.station("s1")
            page.asked()
            for total, typed in (("302", "302"), ("304", "304")):
                seen = page.send("lodge", *TYPED[:5], total)
                self.assertEqual((seen["alert"], page.run(state)), (
                    "Nothing was sent: the figures add up to 303, and the total that was typed is "
                    f"{typed}. Compare each with the slip, from the top.",
                    ["true", "lodge-fault", fault, 1]))
            self.assertEqual(page.asked(), [])
            page.send("lodge", *TYPED)
            self.assertEqual(page.run(state)[:3], ["false", None, []])
            page.send("lodge", *TYPED[:5], "1")
            page.run("element('lodge').reset()")
            self.assertEqual(page.run(state)[2], [])
            # What is unusual is sent once somebody says of each figure that the paper says so.
            page.asked()
            unusual = "Nothing was sent yet: {} unusual. Look at the slip again;"
            for values, number, found, focus in (
                    (["p1", 90, 60, 2, 1, 153], "a figure is", [few], "lodge total"),
                    (["p1", 600, 355, 2, 1, 958], "a figure is", [all_of], "lodge total"),
                    (["p1", 90, 60, 20, 10, 180], "3 figures are",
                     [blank, blank.replace("blank", "spoiled"), few], "lodge blank")):
                with self.subTest(values=values):
                    seen = page.send("lodge", *values)
                    self.assertTrue(seen["alert"].startswith(unusual.format(number)))
                    self.assertEqual((page.run(boxes), seen["focus"]),
                                     ([[one, False] for one in found], focus))
                    page.run("document.querySelector('#lodge .warning input').click()")
            described = "return document.getElementById(office.fields('lodge')[3].getAttribute(" \
                "'aria-describedby')).textContent"
            self.assertEqual(page.run(described), blank)
            # A tick stays as long as its figure is what it was; others than its own take none.
            seen = page.send("lodge")
            self.assertTrue(seen["alert"].startswith(unusual.format("2 figures are")))
            self.assertEqual([one for _, one in page.run(boxes)], [True, False, False])
            for place, left in ((0, 3), (1, 3), (4, 2), (3, 1)):
                page.run(INPUT, "lodge", place)
                self.assertEqual(len(page.run(boxes)), left)
            self.assertEqual(page.asked(), [])
            page.send("lodge")
            page.run("document.querySelectorAll('#lodge .warning input').forEach((e) => "
                     "e.checked || e.click())")
            self.assertEqual([one for _, one in page.run(boxes)], [True] * 3)
            page.send("lodge")
            self.assertEqual(page.asked()[0].split(" {")[0], LODGE)
            # What is usual again is no longer warned of.
            page.send("lodge", *TYPED)
            self.assertEqual(page.run(boxes), [])
            page.send("lodge", "p1", 90, 60, 2, 1, 153)
            page.run("element('lodge').reset()")
            self.assertEqual(page.run(boxes), [])

    @needs("chromium")
    def test_shares_that_are_unusual(self):
        """A figure is looked at where it is far from its list's share: at the last election, or in
        the constituency once three returns are closed."""
        boxes = "return [...document.querySelectorAll('#lodge .warning span')].map((e) => " \
            "[e.closest('.counts > div').querySelector('span').textContent, e.textContent])"
        before, so_far = "at the last election.", "in the constituency so far."
        alpha, beta = "A Alpha", "B Beta"
        fits = "Exchanged with the figure of {} it would fit."
        former = {"former": {"c1": {"A": 70, "B": 30}}}
        with page_alone() as page:
            # After a former result 70 of 100 votes are expected for A; of what is closed two
            # thirds. The spread of one closed return is wide; one that is known is 0.1 here.
            for site, closed, spread, votes, wanted in (
                    (former, 2, None, (3, 297), [[alpha, f"Far less than its share {before}"]]),
                    (former, 2, None, (299, 1), [[beta, f"Far less than its share {before}"]]),
                    (former, 3, None, (3, 297), [[alpha, f"Far less than its share {so_far}"]]),
                    ({"former": {"c1": {"B": 30}}}, 2, None, (3, 297), []),
                    ({}, 2, None, (3, 297), [[alpha, f"Far less than its share {so_far}"]]),
                    ({}, 0, None, (3, 297), []), ({}, 100, "c2", (100, 200), []),
                    ({}, 100, "c1", (100, 200), [
                        [alpha, f"Far less than its share {so_far} {fits.format('B')}"],
                        [beta, f"Far more than its share {so_far} {fits.format('A')}"]])):
                with self.subTest(site=site, closed=closed, spread=spread, votes=votes):
                    page.open(answers={"GET /site.json": [[200, site]],
                                       VIEW: [[200, result(closed=closed)]]})
                    page.station("s1")
                    page.run("learned = { con: arguments[0], closed: 500, spreads: [0.1, 0.1] }",
                             spread)
                    page.send("lodge", "p1", *votes, 0, 0, 300)
                    self.assertEqual(page.run(boxes), wanted)
            # Where the result is not known either nothing is expected.
            page.open(answers={VIEW: [[502, ""]]})
            page.station("s1")
            page.send("lodge", "p1", 3, 297, 0, 0, 300)
            self.assertEqual(page.run(boxes), [])

    @needs("chromium")
    def test_a_slip_that_differs(self):
        """The page stops, until somebody says what to do: to compare it, or the next one."""
        state = ("return [element('stopped').open, element('stopped-said').textContent.slice(-25)"
                 ", element('stopped-next').hidden, office.typed(arguments[0])]")
        compare, after = "element('stopped-compare').click()", "element('stopped-next').click()"
        cancel = "element('stopped').dispatchEvent(new Event('cancel', { cancelable: true }))"
        cases = (("clerk", LODGE, "none", compare, "lodge slip", TYPED),
                 ("clerk", LODGE, "received", compare, "return", TYPED),
                 ("clerk", LODGE, "none", after, "station", [""] * 6),
                 ("clerk", LODGE, "none", cancel, "station", [""] * 6),
                 ("second", CONFIRM, "none", compare, "confirm slip", TYPED),
                 ("station", LODGE, "none", cancel, "lodge slip", TYPED),
                 ("station", LODGE, "received", compare, "station", TYPED))
        with page_alone() as page:
            for role, target, then, act, focus, typed in cases:
                with self.subTest(role=role, then=then, act=act):
                    form = target.split("/")[-1]
                    page.open(role, "s1" if role == "station" else "nora",
                              {target: [DIFFERS], OF_S1: [NO_RETURN, status_of(then)]})
                    if role != "station":
                        page.station("s1")
                    page.run(f"localStorage.clear(); {INPUT}", form, 0)
                    kept = page.run("return localStorage.length")
                    self.assertEqual(kept, role != "second")
                    seen = page.send(form, *TYPED)
                    said = {"second": "rrects it from the paper.", "clerk":
                            "ng, query and correct it."}.get(role, "ice: a clerk corrects it.")
                    self.assertEqual((page.run(state, form), seen["focus"]), (
                        [True, said, role == "station", TYPED], "stopped-compare"))
                    # Enter presses the button only once the page has said that it takes nothing.
                    self.assertEqual([page.run(
                        "return element('stopped').dispatchEvent(new KeyboardEvent('keydown', "
                        "{ key: 'Enter', repeat: arguments[0], cancelable: true }))", held)
                                      for held in (False, True, False)], [False, False, True])
                    seen = page.does(act)
                    self.assertEqual((page.run(state, form)[0], seen["focus"],
                                      page.run(state, form)[3]), (False, focus, typed))
                    self.assertEqual(page.run("return localStorage.length"),
                                     0 if typed != TYPED else kept)

    @needs("chromium")
    def test_a_slip_that_differs_and_the_next_one(self):
        """Who types on from the next paper presses and sends nothing, also where the return of
        somebody else is shown by then."""
        state = "return [element('stopped').open, element('query').elements.note.value]"
        with page_alone() as page:
            page.open(answers={LODGE: [DIFFERS], OF_S1: [NO_RETURN, status_of("received")]})
            page.station("s1")
            page.send("lodge", *TYPED)
            page.asked()
            for keys, is_open, focus in ((ENTER, True, "stopped-compare"),
                                         (f"5{ENTER}200{ENTER}", True, "stopped-compare"),
                                         (ENTER, False, "return"),
                                         (f"5{ENTER}200{ENTER}", False, "return")):
                page.it.keys(keys)
                self.assertEqual((page.settled()["focus"], page.run(state), page.asked()),
                                 (focus, [is_open, ""], []))
            # The query comes next, for who wants it.
            page.it.keys(TAB, TAB, "5", ENTER)
            page.settled()
            self.assertEqual(page.asked()[0], 'POST /station/s1/query {"rev":1,"note":"5"}')

    @needs("chromium")
    def test_the_codes_of_stations(self):
        """As they are typed: in other capitals, without hyphens or zeros, or their end alone."""
        codes = ["46-001-05-A", "46-001-05-B", "46-001-15-A", "46-002-01-A", "s1", "x_19", "k-6",
                 "k-7", "k-8-A", "k-9-A", "k-10-A"]
        setup = [{"code": "c1", "name": "Twin Town", "seats": 3, "lists": LISTS,
                  "stations": [{"code": code, "electors": 300} for code in codes]},
                 {"code": "c2", "name": "Port", "seats": 3, "lists": LISTS,
                  "stations": [{"code": code, "electors": 300} for code in ("S1", "s-1-9")]}]
        ends = [code for code in codes if code.endswith("-A")]
        rows = (("s1", ["s1"]), ("S1", ["S1"]), ("S-1", ["s1", "S1"]), ("46 001 05 a", codes[:1]),
                ("5a", codes[:1]), ("05b", codes[1:2]), ("005b", codes[1:2]), ("15A", codes[2:3]),
                ("1a", [codes[3]]), ("01a", [codes[3]]), ("19", ["x_19"]), ("9", ["x_19"]),
                ("s19", ["s-1-9"]), ("-", ["-"]), ("", [""]), ("zz", ["zz"]), ("a", ends),
                ("0", ["0"]))
        with page_alone() as page:
            page.open(setup=setup, answers={f"GET /now/station/{code}": [NO_RETURN]
                                            for code in [*codes, "S1"]})
            for typed, wanted in rows:
                with self.subTest(typed=typed):
                    self.assertEqual(page.run("return meant(arguments[0])", typed), wanted)
            # Where several are meant the first five are said, and none is chosen.
            page.asked()
            seen = page.station(" a ")
            self.assertEqual((seen["alert"], page.asked()), (
                f"Several stations are meant by a: {', '.join(ends[:5])}. Type more of the code.",
                []))
            self.assertEqual(page.run("return [element('station').selectionStart, "
                                      "element('station').selectionEnd]"), [0, 3])
            page.tell({"GET /now/con/c2/result": [[200, result(con="c2")]]})
            chosen = "return [element('con').value, element('station').value]"
            for typed, wanted in ((" 5a ", ["c1", codes[0]]), ("s-19", ["c2", "s-1-9"]),
                                  ("zz", ["c2", "zz"])):
                page.station(typed)
                self.assertEqual(page.run(chosen), wanted)

    @needs("chromium")
    def test_what_was_typed_and_not_sent(self):
        """It goes with a yes alone; with a no all is as it was."""
        chosen = "return [element('con').value, element('station').value, office.typed('lodge')[0]]"
        with page_alone() as page:
            page.open(answers={"GET /now/station/s2": [NO_RETURN],
                               "GET /now/con/c2/result": [[200, result(con="c2", lists=[
                                   {"votes": 0, "seats": 0}])]]})
            page.station("s1")
            page.run("office.yes = false; office.fill('lodge', ['p1']); office.asked.length = 0")
            page.station("s2")
            self.assertEqual((page.run(chosen), page.asked()), (["c1", "s1", "p1"], []))
            con = "element('con').value = 'c2'; element('con').dispatchEvent(new Event('change'))"
            page.does(con)
            self.assertEqual((page.run(chosen), page.asked()), (["c1", "s1", "p1"], []))
            page.run("element('logout').click()")
            self.assertEqual(page.run("return office.questions.splice(0)"),
                             ["What you typed for s1 was not sent. Leave it?"] * 3)
            page.run(f"office.yes = true; {INPUT}", "lodge", 0)
            page.station("s2")
            self.assertEqual((page.run(chosen), page.run("return localStorage.length")),
                             (["c1", "s2", ""], 0))
            page.does("office.fill('lodge', ['p2'])")
            page.does(con)
            self.assertEqual(page.run(chosen), ["c2", "", ""])
            # Where nothing was typed nobody is asked; a choice of no station is one of none.
            page.does("element('con').value = 'c1'; element('con').dispatchEvent(new "
                      "Event('change'))")
            self.assertEqual(len(page.run("return office.questions.splice(0)")), 2)
            page.does("element('import').elements.separator.value = '/semicolon'; element('query')"
                      ".elements.note.value = 'x'; office.yes = false")
            page.does(con)
            self.assertEqual((page.run(chosen)[:2], page.run("return office.questions")),
                             (["c1", ""], ["What you typed for Twin Town was not sent. Leave it?"]))

    @needs("chromium")
    def test_keys_at_the_station(self):
        """Enter takes what was typed, and the proposed station where nothing was."""
        state = ("return [office.isTaken, shown.station, office.asked.splice(0).some("
                 "([, target]) => target.includes('/result'))]")
        with page_alone() as page:
            page.open(answers={f"GET /now/station/{code}": [NO_RETURN] for code in ("s2", "s3")})
            page.station("s1")
            page.asked()
            for event, proposed, wanted in (
                    ({"key": "a", "value": "s2"}, "", [False, "s1", False]),
                    ({"value": " s2 "}, "", [True, "s2", True]),
                    ({"value": "s2"}, "s3", [True, "s2", True]),
                    ({"value": "", "repeat": True}, "s3", [True, "s2", False]),
                    ({"value": ""}, "s3", [True, "s3", True]),
                    ({"value": ""}, "", [True, None, True])):
                with self.subTest(event=event, proposed=proposed):
                    page.run("element('station').placeholder = arguments[0]", proposed)
                    page.does(STATION_KEY, event)
                    self.assertEqual(page.run(state), wanted)
            page.run("busy = true; element('station').placeholder = 's3'")
            page.run(STATION_KEY, {"value": ""})
            self.assertEqual(page.run(state), [True, None, False])
            page.open("station", "s1")
            page.does(STATION_KEY, {})
            self.assertEqual(page.run(state)[0], False)

    @needs("chromium")
    def test_the_next_paper(self):
        """Where slips are entered twice, the next station without a return is proposed, and its
        slip has to follow on the one before."""
        proposed = ("return [element('station').placeholder, element('proposed').textContent, "
                    "office.fields('lodge')[0].placeholder, element('lodge-help').textContent]")
        next_of = "The next without a return: {}. If the paper has this code, press Enter."
        codes = ("s1", "s2", "s3", "s4")

        def opened(page, role="clerk", entry="double", returns=()):
            page.open(role, "s1" if role == "station" else "clara", {
                VIEW: [[200, result(entry=entry)]],
                **{f"POST /station/{code}/lodge": [[200, {"ok": "lodged", "rev": 1}]]
                   for code in codes},
                **{f"GET /now/station/{code}": [[200, recorded(station=code)]
                                                if code in returns else NO_RETURN]
                   for code in codes}})

        def lodges(page, code, slip):
            page.station(code)
            page.tell({f"GET /now/station/{code}": [[200, recorded(station=code)]]})
            return page.send("lodge", slip, *TYPED[1:])

        site = {"stations": {"s3": {"name": "Hall"}}}
        with page_alone() as page:
            opened(page, returns=("s2",))
            page.tell({"GET /site.json": [[200, site]]})
            page.run("siteAgain = 0")
            # That of s2 was seen to be there, and s3 to be not.
            page.station("s2")
            page.station("s3")
            self.assertEqual(page.run(proposed), ["", "", "", ""])
            lodges(page, "s1", "r8")
            self.assertEqual(page.run(proposed)[:2], ["s3", next_of.format("s3, Hall")])
            page.does(STATION_KEY, {"value": ""})
            self.assertEqual(page.run(proposed), ["", "", "", ""])
            page.tell({"GET /now/station/s3": [[200, recorded(station="s3")]]})
            page.send("lodge", "r9", *TYPED[1:])
            self.assertEqual(page.run(proposed)[:2], ["s4", next_of.format("s4")])
            page.does(STATION_KEY, {"value": ""})
            self.assertEqual(page.run(proposed)[2:], [
                "r10", "The next would be r10. Type the last figure that the paper has."])
            # A slip that does not follow is typed twice.
            jumps = "Slip {} is not the next one, which would be r10: is a paper missing? Compare" \
                " station s4 with the paper. If both are right, press Enter again."
            for typed, slip, at in (("2", "r12", 0), ("r20", "r20", 0), ("r20", "r20", 1),
                                    ("2", "r12", 0), ("0", "r10", 1), ("r12", "r12", 1)):
                with self.subTest(typed=typed):
                    page.run("say('')")
                    self.assertEqual(page.run(KEY, "lodge", 0, typed, "Enter"), [True, at])
                    self.assertEqual((page.run("return office.typed('lodge')[0]"),
                                      page.settled()["alert"]),
                                     (slip, "" if at else jumps.format(slip)))
            # Where the page did not propose the station, any slip may follow.
            page.tell({"GET /now/station/s4": [NO_RETURN]})
            page.run("for (const form of document.forms) form.reset()")
            page.station("s4")
            self.assertEqual(page.run(KEY, "lodge", 0, "r77", "Enter"), [True, 1])
            # Nor is a pile in order any more after two that did not follow, until one does.
            for slips, at in (("r1 r2 r4", 0), ("r1 r2 r4 r7", 1), ("r1 r2 r4 r7 r8", 0)):
                page.run("element('lodge').reset(); pile = { con: null }; shown.isProposed = true;"
                         " shown.jumped = null; for (const slip of arguments[0].split(' ')) "
                         "putOnPile('s1', slip)", slips)
                self.assertEqual(page.run(KEY, "lodge", 0, "r77", "Enter"), [True, at])
            # A correction has the slip that its paper has.
            page.run("element('lodge').reset(); shown.jumped = null")
            self.assertEqual(page.run("const form = element('correct'); form.elements.slip.value ="
                                      " '7'; return [fits(form), form.elements.slip.value]"),
                             [True, "7"])
            page.run("element('correct').reset()")
            # Of another constituency there is no pile, nor where slips are entered once, nor for
            # another role.
            for role, entry in (("clerk", "single"), ("station", "double")):
                opened(page, role, entry)
                lodges(page, "s1", "r8")
                self.assertEqual(page.run(proposed)[0], "")
            # One that is compared is none of the pile; the way of the pile may be the other.
            opened(page)
            lodges(page, "s3", "r9")
            lodges(page, "s2", "r8")
            self.assertEqual(page.run(proposed)[0], "s1")
            page.station("s4")
            self.assertEqual(page.run(proposed)[2], "r7")
            page.run("shown.again = true; proposeSlip()")
            self.assertEqual(page.run(proposed)[2:], [
                "", "The office says whether both entries are the same. Nothing changes."])
            page.run("shown.again = false; pile.con = 'c2'; proposeSlip()")
            self.assertEqual(page.run(proposed)[2], "")
            # The next slip after some, and the one that is meant by an end.
            for slips, wanted, ends in (
                    (("a-001", "a-000"), "a-000", {}), (("x", "y"), "", {}),
                    (("1999999999", "2000000000"), "", {}), (("099", "100"), "101", {"98": "098"}),
                    (("r108", "r109"), "r110", {"99": "r99", "207": "r207", "4000": "4000"}),
                    (("998", "999"), "1000", {"001": "001", "0": "1000", "1002": "1002"}),
                    (("0998", "0999"), "1000", {"9": "0999", "11": "1011"}),
                    (("a-003", "a-002"), "a-001", {"0": "a-000", "9": "a-009", "x": "x"}),
                    (("r1", "r2", "r4"), "r5", {"9": "r9"}), (("r1", "r2", "s3"), "", {}),
                    (("s1", "r1", "r3"), "", {}), (("r4", "r3"), "r2", {"8": "r8"}),
                    (("r107", "r108"), "r109", {"1": "r111", "3": "r113", "8": "r108"})):
                with self.subTest(slips=slips):
                    page.run("pile = { con: null }; for (const slip of arguments[0]) "
                             "putOnPile('s1', slip)", slips)
                    self.assertEqual(page.run("return proposedSlip()"), wanted)
                    self.assertEqual({end: page.run("return slipMeant(arguments[0])", end)
                                      for end in ends}, ends)
            # Nothing is before the first of the list, and a refused slip is none of the pile.
            opened(page)
            lodges(page, "s2", "r2")
            lodges(page, "s1", "r1")
            self.assertEqual(page.run(proposed)[0], "")
            page.tell({"POST /station/s3/lodge": [[409, {"word": "certified"}]]})
            lodges(page, "s3", "r5")
            self.assertEqual(page.run("return pile.stations"), ["s1", "s2"])

    @needs("chromium")
    def test_drafts(self):
        """Figures that were typed are kept for their name and station, a day long."""
        day = 86_400_000
        now, typed = 1_795_986_300_000, ["p1", "20", "", "", "", ""]
        with page_alone() as page:
            page.open(now=now)
            page.station("s1")
            page.run(f"localStorage.clear(); office.fill('lodge', ['p1', '20']); {INPUT}",
                     "lodge", 0)
            key, = page.run("return Object.keys(localStorage)")
            self.assertRegex(key, "^office [0-9a-f]{16} clara s1 lodge$")
            self.assertEqual(json.loads(page.run("return localStorage.getItem(arguments[0])", key)),
                             {"time": now, "typed": typed})
            said = "This was typed before, until November 29, 2026 at 9:05:00 PM UTC, and not sent."
            for time, kept, is_brought in (
                    (now + day, {"time": now, "typed": typed}, True),
                    (now + day + 1, {"time": now, "typed": typed}, False),
                    (now, {"time": now, "typed": typed[1:]}, False),
                    (now, {"time": now, "typed": "p1"}, False)):
                with self.subTest(time=time, kept=kept):
                    page.run("for (const form of document.forms) form.reset(); office.now = "
                             "arguments[0]; localStorage.setItem(arguments[1], arguments[2])",
                             time, key, json.dumps(kept))
                    page.does(AGAIN)
                    self.assertEqual(page.run("return office.typed('lodge')"),
                                     typed if is_brought else [""] * 6)
                    line = " ".join(page.run(TEXTS, "#return .look")).replace("\u202f", " ")
                    self.assertEqual(line.startswith(said), is_brought, line)
            # Those that are older are forgotten at the next start, and not those of a day.
            for age, left in ((day, 1), (day + 1, 0)):
                page.run("localStorage.setItem(arguments[0], arguments[1])", key,
                         json.dumps({"time": now, "typed": typed}))
                page.does("office.now = arguments[0]; await begin()", now + age)
                self.assertEqual(page.run("return localStorage.length"), left)
            # A correction is kept too; a second entry is not.
            page.open(answers={OF_S1: [[200, recorded("queried", rev=2)]]})
            page.station("s1")
            page.run(INPUT, "correct", 0)
            self.assertEqual(page.run("return Object.keys(localStorage)[0].split(' ')[4]"),
                             "correct")
            # It is one of this revision alone: a later query is of other figures.
            page.run(f"office.fill('correct', ['p1', '20']); {INPUT}", "correct", 0)
            for rev, brought in ((2, typed), (5, [""] * 6)):
                page.open(answers={OF_S1: [[200, recorded("queried", rev=rev)]]})
                page.station("s1")
                self.assertEqual(page.run("return office.typed('correct')"), brought)
                self.assertEqual(len(page.run(TEXTS, "#return .look")), int(brought == typed))
            page.run("localStorage.clear()")
            page.open("second", "sara")
            page.station("s1")
            page.run(INPUT, "confirm", 0)
            self.assertEqual(page.run("return localStorage.length"), 0)

    @needs("chromium")
    def test_the_end(self):
        """Who logs out gives the browser another name; where it keeps the old one, the page says
        so."""
        office = """window.print = () => { office.isPrinted = true; };
            window.XMLHttpRequest = class extends EventTarget {
              open(...words) { office.opened = words; }
              send() { this.status = office.status; this.dispatchEvent(new Event('loadend')); } };
            office.status = arguments[0]; element('logout').click();"""
        with page_alone() as page:
            page.open()
            page.run(office, 401)
            self.assertEqual((page.settled()["alert"], page.run("return office.opened")), (
                "This browser keeps your name and password: close all its windows.",
                ["GET", "/logout", True, "logout", "logout"]))
            page.run("element('print').click()")
            self.assertTrue(page.run("return office.isPrinted"))
            page.run(office, 204)
            self.assertEqual(page.run("return [...document.body.children].map((e) => "
                                      "e.textContent)"),
                             ["You are logged out",
                              "This browser asks for a name and a password again.",
                              "Log in again"])
