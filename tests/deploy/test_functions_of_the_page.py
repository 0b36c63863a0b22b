"""Functions of the clerks' page, each at the edges of what it tells apart.

The page is opened as a file, without an office.
"""

from tests.support import browser
from tests.support.case import Case, needs
from tests.support.rounds import DEPLOY

# What an answer with each status says, where it has no word of its own.
STATUSES = {
    0: "There was no answer. It may have been done.",
    401: "The office does not know this name and password.",
    403: "Your name may not do this.",
    404: "The office has nothing of this code.",
    409: "Nothing was done: the setup is another one since this page was loaded.",
    413: "This is more than 1,048,576 bytes.",
    429: "Too many requests came from here in a short time.",
    502: "The office does not answer now. It may have been done.",
    504: "The office took too long to answer. It may have been done.",
}
# How a history speaks of the outcome of a command.
OUTCOMES = {
    None: "Nobody knows whether it was done.", 502: "Nobody knows whether it was done.",
    503: "Nobody knows whether it was done.", 504: "Nobody knows whether it was done.",
    403: "It was refused: the name may not do it.", 400: "It was refused.", 200: "Done."}
# The votes of a slip, and which of its figures are far off, of lists with as many votes each and a
# variance of 0.04. With 100 votes for each other list 100.5 are expected, and the deviation is the
# root of 0.04 + 1 / 100.5, which is 0.2235: 209 are 3.29 of it, 210 are 3.31, 48 are 3.26 below,
# and 47 are 3.35. The size is that of the list in the middle as soon as there are three.
FAR_OFF = (
    ([100, 100, 100, 209], []), ([100, 100, 100, 210], [[3, True]]),
    ([100, 100, 100, 48], []), ([100, 100, 100, 47], [[3, False]]),
    ([100, 100, 300], [[2, True]]), ([100, 300], []),
)
# The same of other shares and variances, of a list without a share, of small numbers, and of
# figures that would fit the list beside them.
EXCHANGED = (
    ([30, 50, 4, 11], [None, 0.3, 0.2, 0.1], 0.04, [[2, False, 3], [3, False, 2]]),
    ([12, 3, 0, 2, 8], [0.2] * 5, 0.09, []),
    ([12, 0, 1, 0], [0.6, 0.3, 0.05, 0.05], 0.04, [[1, False, 2], [2, True, 1]]),
    ([0, 1, 15, 1], [0.6, 0.3, 0.05, 0.05], 0.04,
     [[0, False, None], [1, False, 2], [2, True, 1]]),
    ([3, 18, 3, 2, 1], [0.4, 0.3, 0.15, None, 0.05], 0.04, []),
    # Lists of which five votes are expected count for the size of a return: here by the list in the
    # middle it is 1,000. With one vote less they do not, and it has the votes that there are.
    ([50, 50, 0], [0.05, 0.05, 0.9], 0.04, [[2, False, None]]),
    ([49, 50, 0], [0.05, 0.05, 0.9], 0.04, [[0, True, None], [1, True, None], [2, False, None]]),
)
# What is expected after votes and closed returns, of a former result and of known spreads: whether
# by the former one, and share and variance of each list. Of a former result the variance is that of
# 0.6. Of n closed returns it is that of the list's spread, or of 0.5, times 1 + 1 / n.
EXPECTED = (
    ([30, 70], 4, [0, 0], [], [False, [0.3, 0.3125], [0.7, 0.3125]]),
    ([30, 70], 4, [60, 40], [0.2], [False, [0.3, 0.05], [0.7, 0.3125]]),
    ([30, 70], 2, [60, None], [], [True, [1, 0.36], None]),
    ([30, 70], 1, [0, 0], [], [False, [0.3, 0.5], [0.7, 0.5]]),
    ([30, 70], 1, [1, 0], [], [True, [1, 0.36], [0, 0.36]]),
    ([30, 70], 1, [None, None], [], [False, [0.3, 0.5], [0.7, 0.5]]),
    ([0, 0], 4, [0, 0], [], None), ([30, 70], 0, [0, 0], [], None),
)
# Closed returns, and the spread of each list over them. Of the first pair 0.2 of 10 votes and a
# half, 2.5, are expected of A: of 1.5 and 3.5 the squares of the logarithms are 0.261 and 0.113,
# less 1 / 2.5 each. With 8 times 0.25 that is 1.574 of 10, of which the root is 0.3968.
SPREADS = (
    ([[1, 9], [3, 7]], [0.3968, 0.4234]), ([[1000, 0], [0, 1000]], [0.8047, 0.8047]),
    ([[100, 100]] * 200, [0.1, 0.1]), ([[100, 100]], [0.4702, 0.4702]), ([], []),
)

# A constituency as setup.json has it, and a name of the board.
KNOWN = """
  setup = [{ code: "c1", name: "Twin Town", seats: 3,
             lists: [{ code: "A", name: "Alpha", candidates: ["Ana", "Abel"] },
                     { code: "B", name: "Beta", candidates: ["Bea"] }],
             stations: [{ code: "s1", electors: 1000 }, { code: "s2", electors: 1000 }] },
           { code: "c2", name: "Port", seats: 1, lists: [{ code: "A", name: "Alpha" }],
             stations: [{ code: "t1", electors: 10 }] }];
  person = { name: "berta", role: "board" };
  shown = { con: "c1", view: null, station: "s1", found: null };
"""
# Slips at a station of 1,000 electors, and what is unusual in them. 20 of 400 are 5 per cent
# exactly; 200 and 950 are 20 and 95 per cent of the electors.
UNUSUAL = (
    ([190, 190], 20, 0, []),
    ([190, 190], 21, 0, [["blank", "More than 5 per cent of all votes are blank."]]),
    ([190, 190], 0, 20, []),
    ([190, 190], 0, 21, [["spoiled", "More than 5 per cent of all votes are spoiled."]]),
    ([100, 100], 0, 0, []),
    ([100, 99], 0, 0, [["total", "Less than 20 per cent of the 1,000 electors."]]),
    ([475, 475], 0, 0, []),
    ([475, 476], 0, 0, [["total", "More than 95 per cent of the 1,000 electors."]]),
    ([500, 500], 0, 0, [["total", "More than 95 per cent of the 1,000 electors."]]),
    ([500, 501], 0, 0, []),
)
FORM = """const form = document.createElement("form"), [votes, blank, spoiled] = arguments;
for (const [name, value] of [["slip", "p1"], ...votes.map((many) => ["votes", many]),
                             ["blank", blank], ["spoiled", spoiled], ["total", ""]])
  form.append(Object.assign(document.createElement("input"), { name, value }));
return unusual(form).map(({ field, text }) => [field ? field.name : null, text]);"""
# A result of the office with 7 stations, of which one has no return.
RESULT = """({ con: "c1", stations: 7, received: 1, queried: 2, corrected: 1, closed: 2, edition: 4,
  certified: true, lot: [], note: "", blank: 0, spoiled: 0, gone: [],
  lists: [{ votes: 30, seats: 2 }, { votes: 20, seats: 1 }],
  holders: [["A", 2, "Abel"], ["B", 0, ""]] })"""
# Commands as a history has them, and the last one that changed a return, and whether a second entry
# after it was another one.
DIFFERS = '{"word":"differs"}'
HISTORIES = (
    ([], [None, False]),
    ([(1, "lodge", 200, '{"ok":"lodged"}'), (2, "lodge", 200, '{"ok":"same"}')], [1, False]),
    ([(1, "lodge", 200, '{"ok":"lodged"}'), (2, "query", 409, '{"word":"stale"}')], [1, False]),
    ([(1, "lodge", 200, '{"ok":"lodged"}'), (2, "confirm", 409, DIFFERS)], [1, True]),
    ([(1, "lodge", 200, '{"ok":"lodged"}'), (2, "lodge", 409, DIFFERS)], [1, False]),
    ([(1, "confirm", 409, DIFFERS), (2, "correct", 200, '{"ok":"corrected"}')], [2, False]),
)

# An office that answers with a result and with a return that are given, and what was asked of it.
OFFICE = """
  const [role, station, result, status] = arguments, asked = [];
  ask = async (method, target) => {
    asked.push(target.split("/").at(-1));
    return { ok: true, status: 200, text: "", value: target.endsWith("/result")
      ? { con: "c1", stations: 20, received: 1, queried: 0, corrected: 0, closed: 20, edition: 4,
          certified: false, entry: "single", lot: [], note: "", blank: 0, spoiled: 0, gone: [],
          lists: [{ votes: 30, seats: 2 }, { votes: 20, seats: 1 }], holders: [],
          status: "lot", question: 1, group: ["A", "B"], ...result }
      : { station, status, rev: 1, slip: "p1", votes: [1, 2], blank: 0, spoiled: 0, note: "" } };
  };
  person = { name: "clara", role };
  shown = { con: "c1", view: null, station, found: null };
  learned = { con: null, closed: 0, spreads: [] };
  return look().then(() => ({
    asked, lot: (lotNeeded(shown.view) || { group: null }).group,
    found: shown.found && shown.found.status,
    waits: element("return").textContent.includes("It waits for its second entry"),
    compares: !element("compare").hidden }));
"""


# The same office where it has no result for a name.
HIDDEN = """
  const [role, away] = arguments, asked = [], texts = { progress:
    "c11                   9      9      0      0      0      0      1 open\\n" +
    "c1                   20      3      5      1      1     10      4 open\\n" };
  ask = async (method, target) => {
    const what = target.split("/").at(-1);
    asked.push(what);
    return what === away ? { ok: false, status: 502, text: "", value: null }
      : what === "result" ? { ok: false, status: 404, text: "", value: null }
      : { ok: true, status: 200, text: texts[what] || "", value: what === "c1"
        ? { blank: 1, certified: false, closed: 10, con: "c1", edition: 4, entry: "double",
            gone: [{ list: "A", note: "resigned", place: 2 }], lot: [], note: "", seats: [],
            spoiled: 2, stations: 20, votes: [30, 20] }
        : { station: "s1", status: "received", rev: 1, slip: "p1", votes: [1, 2], blank: 0,
            spoiled: 0, note: "" } };
  };
  person = { name: "clara", role };
  shown = { con: "c1", view: null, station: "s1", found: null };
  return look().then((trouble) => ({ trouble, asked: asked.slice(0, 4),
    progress: element("progress-line").textContent, view: shown.view && [
      shown.view.edition, shown.view.certified, shown.view.entry, shown.view.votes,
      shown.view.missing, shown.view.queried + shown.view.corrected, shown.view.gone.length] }));
"""
VIEW = [4, False, "double", [30, 20], 3, 2, 1]
COUNTED = ("10 of 20 stations closed; without a return 3, received 5, queried 1, corrected 1. "
           "Waiting for their second entry: 6.")


class Functions(Case):
    may_leave_files = True

    @needs("chromium")
    def test_at_their_edges(self):
        with browser.tab() as it:
            it.open((DEPLOY / "www/clerk.html").as_uri())
            for status, said in STATUSES.items():
                with self.subTest(status=status):
                    found = it.run("return sentence({ status: arguments[0], value: null })", status)
                    self.assertTrue(found.startswith(said), found)
            for status, said in OUTCOMES.items():
                with self.subTest(outcome=status):
                    found = it.run("return outcome(arguments[0], {})", status)
                    self.assertEqual(found, said)
            # A vacancy that waits for a second name is said with who is gone.
            waiting = {"until": "2026-11-29T22:00:00+01:00", "others": [
                {"name": "simon", "act": "vacate",
                 "body": '{"list":"A","place":2,"note":"resigned"}'}]}
            found = it.run(f"{KNOWN} return waitsFor(arguments[0])", waiting)
            self.assertIn("Waiting too, by simon: A holder leaves: A 2, ", found)
            self.assertIn("resigned", found)
            self.assertIn("or a lot is recorded there, or a certificate given or withdrawn, both "
                          "names have to ask again", found)
            self.assertNotIn("asked for the same before", found)
            for changed, why in (("return", "a return of the constituency has changed since"),
                                 ("edition", "a lot was recorded, or a certificate given or"),
                                 ("unknown", "nobody knows whether a later request was done"),
                                 (None, "nobody knows whether a later request was done")):
                found = it.run(f"{KNOWN} return waitsFor(arguments[0])", waiting | {"too_early": [
                    {"name": "berta", "time": "2026-11-29T21:00:00+01:00", "changed": changed}]})
                self.assertIn("berta asked for the same before (", found)
                self.assertIn(f"no longer counts: {'since then ' * (changed == 'edition')}{why}",
                              found)
                self.assertIn("have berta ask again", found)
            # The former result counts as long as less than three stations are closed.
            for closed, is_former in ((0, True), (2, True), (3, False), (4, False)):
                with self.subTest(closed=closed):
                    found = it.run("return expectation([30, 70], arguments[0], [60, 40], [])",
                                   closed)
                    self.assertEqual(found["isFormer"], is_former)
                    self.assertEqual([one["share"] for one in found["lists"]],
                                     [0.6, 0.4] if is_former else [0.3, 0.7])
            for votes, wanted in FAR_OFF:
                with self.subTest(votes=votes):
                    found = it.run(
                        "const [votes] = arguments; return farOff(votes, votes.map(() => "
                        "({ share: 1 / votes.length, variance: 0.04 })))", votes)
                    self.assertEqual([[one["place"], one["isMore"]] for one in found], wanted)
            for votes, shares, variance, wanted in EXCHANGED:
                with self.subTest(votes=votes, shares=shares):
                    found = it.run(
                        "const [votes, shares, variance] = arguments; return farOff(votes, shares"
                        ".map((share) => share === null ? null : { share, variance }))",
                        votes, shares, variance)
                    self.assertEqual([[one["place"], one["isMore"], one.get("other")]
                                      for one in found], wanted)
            for votes, closed, former, spreads, wanted in EXPECTED:
                with self.subTest(votes=votes, closed=closed, former=former):
                    found = it.run(
                        "const it = expectation(...arguments), round = (one) => "
                        "Math.round(one * 1e4) / 1e4; return it && [it.isFormer, ...it.lists.map("
                        "(one) => one && [round(one.share), round(one.variance)])]",
                        votes, closed, former, spreads)
                    self.assertEqual(found, wanted)
            for returns, wanted in SPREADS:
                with self.subTest(returns=returns):
                    self.assertEqual([round(one, 4) for one in it.run(
                        "return spreadsOf(arguments[0])", returns)], wanted)
            # How fast stations are closed is said from the first whole minute on.
            for seconds, said in ((59, []), (60, ["1 minutes: 2, which is 120 an hour."]),
                                  (90, ["2 minutes: 2, which is 80 an hour."])):
                with self.subTest(seconds=seconds):
                    found = it.run(
                        "closings = [{ time: 0, closed: 3 }, { time: arguments[0] * 1000, "
                        "closed: 5 }]; return pace().map((one) => one.textContent)", seconds)
                    self.assertEqual(found, [f"Closed in the last {one}" for one in said])
            # What waits where who did what could not be read: what differs there is not known.
            for status, wanted in (
                    (200, ["", "Returns that wait: 1. Below are those that differ or are queried, "
                           "and then those that wait longest."]),
                    (429, [f"{STATUSES[429]} Wait a moment, and do it again.", ""])):
                with self.subTest(status=status):
                    found = it.run(
                        f"{KNOWN} const [status] = arguments, asked = [ask, listStations]; "
                        "listStations = async () => { "
                        "listed = [{ code: 's1', status: 'recorded' }]; return { ok: true }; }; "
                        "ask = async (method, target) => target.endsWith('typed') ? { ok: false } "
                        ": { ok: status === 200, status, value: null }; "
                        "return showWaiting().then(() => { [ask, listStations] = asked; return "
                        "['alert', 'status'].map((one) => element(one).textContent); })", status)
                    self.assertEqual(found, wanted)
            # What others typed is shown where it is a text.
            self.assertEqual([it.run("return saidOf(arguments[0])", {"note": note})
                              for note in ({"toString": 1, "valueOf": 1}, ["a"], 7, "")], [""] * 4)
            self.assertIn("torn", it.run("return saidOf(arguments[0])", {"note": "torn"}))
            # A receipt has what was sent, whatever is recorded or can be read by then.
            for form, then, has, has_not in (
                    ("close", "{ ...given, votes: [1, 39] }", ["20"], ["39"]),
                    ("close", "null", ["20"], []), ("lodge", "null", ["p7"], ["p1"])):
                with self.subTest(form=form, then=then):
                    text, is_busy = it.run(
                        f"""{KNOWN} const [form] = arguments, kept = [ask, look, window.confirm];
                        const given = {{ station: "s1", rev: 2, slip: "p1", votes: [20, 20],
                          blank: 0, spoiled: 0, status: "received" }};
                        shown.found = given; showConstituency(); window.confirm = () => true;
                        look = async () => {{ shown.found = {then}; return ""; }};
                        ask = async () => ({{ ok: true, status: 200, value: {{ rev: 3 }} }});
                        for (const one of element(form).querySelectorAll("input")) one.value =
                          one.name === "slip" ? "p7" : one.name === "total" ? "400" :
                          one.name === "votes" ? "200" : "0";
                        element(form).dispatchEvent(new Event("submit", {{ cancelable: true }}));
                        return new Promise((done) => setTimeout(() => {{
                          [ask, look, window.confirm] = kept;
                          // (without the moment, the last row)
                          const rows = [...element("receipt").querySelectorAll("tr")].slice(0, -1);
                          done([rows.map((row) => row.textContent).join(), busy]);
                        }}, 200));""", form)
                    self.assertFalse(is_busy)
                    self.assertEqual([one for one in has if one not in text], [], text)
                    self.assertEqual([one for one in has_not if one in text], [], text)
            # The closed returns are learned from ten on, at twice as many again, and from 300 on
            # no more.
            for before, closed, is_asked in ((0, 9, False), (0, 10, True), (10, 19, False),
                                             (10, 20, True), (299, 598, True), (300, 600, False)):
                with self.subTest(before=before, closed=closed):
                    found = it.run(
                        f"{KNOWN} const [before, closed] = arguments, kept = ask; let many = 0; "
                        "learned = { con: 'c1', closed: before, spreads: [] }; "
                        "shown.view = { certified: false, closed }; "
                        "ask = async () => { many += 1; return { ok: false }; }; "
                        "return learn().then(() => { ask = kept; return many; })", before, closed)
                    self.assertEqual(found, is_asked)
            # Names of stations and the former result are each there or not.
            for value in ({"stations": {"s1": {"name": "Hall", "place": ""}}},
                          {"former": {"c1": {"A": 60}}}, {}):
                with self.subTest(value=value):
                    found = it.run(
                        "const [value] = arguments, asked = ask; siteAgain = 0; "
                        "ask = async () => ({ ok: true, value }); "
                        "return learnSite().then(() => { ask = asked; return known; })", value)
                    self.assertEqual([sorted(found[of]) for of in ("stations", "former")],
                                     [sorted(value.get(of, {})) for of in ("stations", "former")])
            # A history has its moments as the page has others, whatever zone the server is in.
            found = it.run(
                f"{KNOWN} const asked = ask; "
                "ask = async () => ({ ok: true, value: { whole: true, commands: [ "
                "{ time: '2026-11-29T21:14:00.120+05:45', name: 'clara', role: 'clerk', "
                "act: 'close', status: 200, answer: '{}' }] } }); "
                "return showHistory().then(() => { ask = asked; "
                "return [document.querySelector('#history time').textContent, "
                "moment(Date.UTC(2026, 10, 29, 15, 29))]; })")
            self.assertEqual(found[0], found[1])
            # A row in quotes goes over as many lines as it takes to close them.
            for separator, text, wanted in (
                    (",", 'a,"b\nc"\n\nd,"e""f"\n"g\nh\ni",j\nk\n',
                     [(1, 'a,"b c"'), (4, 'd,"e""f"'), (5, '"g h i",j'), (8, "k")]),
                    # One of blanks is a row; a quote within a field, or after one, is none more.
                    (",", "a\n \nb\n", [(1, "a"), (2, " "), (3, "b")]),
                    (",", 'a,p"1\nb,"c"d"\ne', [(1, 'a,p"1'), (2, 'b,"c"d"'), (3, "e")]),
                    (",", 'a;"b\nc";d', [(1, 'a;"b'), (2, 'c";d')]),
                    (";", 'a;"b\nc";d', [(1, 'a;"b c";d')]),
                    (",", 'a,"""b\n,""c""\n"",d"\ne', [(1, 'a,"""b ,""c"" "",d"'), (4, "e")]),
                    (",", "\n\r\na\r\rb\r\n\nc", [(3, "a"), (5, "b"), (7, "c")])):
                with self.subTest(separator=separator, text=text):
                    found = it.run("return rowsOfFile(arguments[0], arguments[1])", text, separator)
                    self.assertEqual([(row["line"], row["text"]) for row in found], wanted)

    @needs("chromium")
    def test_with_a_setup(self):
        with browser.tab() as it:
            it.open((DEPLOY / "www/clerk.html").as_uri())
            it.run(KNOWN)
            for votes, blank, spoiled, wanted in UNUSUAL:
                with self.subTest(votes=votes, blank=blank, spoiled=spoiled):
                    self.assertEqual(it.run(FORM, votes, blank, spoiled), wanted)
            self.assertEqual(
                it.run("return sentence({ status: 409, value: { word: 'stale', rev: 2 } })"),
                "Somebody was here before you. Look at what is shown now, and decide again.")
            self.assertEqual(it.run("return CAUSES.fields(5)"),
                             "it has 5 fields, and the header has 6")
            self.assertEqual(it.run("return ['s2', 't1', 's9'].map((code) => "
                                    "(homeOf(code) || { code: null }).code)"), ["c1", "c2", None])
            # Of a return that is not seen its revision is known, or it is the first.
            it.run("revisions.s2 = 3")
            self.assertEqual(it.run("return ['s1', 's2', 's9'].map(unseen)"), [
                {"ok": True, "value": {"station": "s1", "rev": 1, "status": ""}},
                {"ok": True, "value": {"station": "s2", "rev": 3, "status": ""}},
                {"ok": False, "value": {"word": "no_station"}}])
            found = it.run(f"return viewOf({RESULT})")
            self.assertEqual((found["missing"], found["votes"], found["seats"], found["holders"]),
                             (1, [30, 20], [2, 1], [{"list": "A", "place": 2, "name": "Abel"}]))
            for commands, wanted in HISTORIES:
                with self.subTest(commands=commands):
                    found = it.run("const { last, isOther } = lastOf(arguments[0]); "
                                   "return [last ? last.n : null, isOther]",
                                   [dict(zip(("n", "act", "status", "answer"), one))
                                    for one in commands])
                    self.assertEqual(found, wanted)
            self.assertRegex(it.run("return hourOf('2026-11-29T20:05:00+00:00')"), r"\d:05\b")
            # Of a certificate whose seats nobody holds any more none can be given up.
            forms = ("certify", "draw", "vacate", "reopen")
            for is_certified, holders, wanted in (
                    (False, [], ["certify"]), (True, [{}], ["vacate", "reopen"]),
                    (True, [], ["reopen"])):
                with self.subTest(certified=is_certified, holders=holders):
                    it.run(f"shown.view = {{ ...viewOf({RESULT}), certified: arguments[0], "
                           "holders: arguments[1] }; showView()", is_certified, holders)
                    self.assertEqual([form for form in forms
                                      if it.run("return !element(arguments[0]).hidden", form)],
                                     wanted)
            # The lists of a lot are asked for from the first place on.
            it.run("showDraw({ group: ['A', 'B'], seats: 1 })")
            self.assertEqual(it.run("return [...element('order').children].map((one) => "
                                    "one.firstChild.textContent)"), ["Place 1 ", "Place 2 "])

    @needs("chromium")
    def test_in_spanish(self):
        """Numbers, plurals and the states of a return are those of the page's language; what has
        no text there is shown as it is."""
        with browser.tab() as it:
            it.open((DEPLOY / "www/clerk_es.html").as_uri())
            self.assertEqual(it.run("return ['closed', 'lost'].map(stateOf)"), ["cerrada", "lost"])
            self.assertEqual(it.run("return [1234, '1234'].map(shownAs)"), ["1.234", "1234"])
            # (a million is of a form that few languages have, and none of these texts)
            self.assertEqual(it.run("return [1, 2, 1000000].map((many) => "
                                    "plural(many, { one: 'acta', other: 'actas' }))"),
                             ["acta", "actas", "actas"])
            # What is missing is a choice, or a text.
            self.assertEqual(it.run("""
              return [['vacate', 'holder'], ['import', 'file'], ['vacate', 'note']].map(
                ([form, name]) => {
                  const field = element(form).elements[name];
                  field.reportValidity();
                  return field.validationMessage; })"""),
                             [*["Aquí no se ha elegido nada."] * 2, "Este campo está vacío."])

    @needs("chromium")
    def test_what_is_asked_for_and_shown(self):
        with browser.tab() as it:
            it.open((DEPLOY / "www/clerk.html").as_uri())
            it.run(KNOWN)

            def looked(role, station="s1", of_return="received", **result):
                return it.run(OFFICE, role, station, result, of_return)

            # A lot is known to the board once all is closed, and as long as nothing is certified.
            for role, result, wanted in (
                    ("board", {}, ["A", "B"]), ("board", {"closed": 19}, None),
                    ("board", {"certified": True, "status": "certified"}, None),
                    ("clerk", {}, None), ("board", {"status": "seats"}, None)):
                with self.subTest(role=role, result=result):
                    self.assertEqual(looked(role, **result)["lot"], wanted)
            # A return is shown of a station of this constituency alone.
            self.assertEqual(looked("clerk")["found"], "received")
            self.assertIsNone(looked("clerk", "t1")["found"])
            # Nobody asks for the table of all stations by choosing one.
            for role, station in (("second", "s1"), ("second", ""), ("clerk", "s1"), ("board", "")):
                with self.subTest(role=role, station=station):
                    self.assertNotIn("stations", looked(role, station, queried=1)["asked"])
            # What is usual is learned from ten closed returns on; a station learns nothing.
            for role, result, wanted in (
                    ("clerk", {"closed": 10}, True), ("clerk", {"closed": 9}, False),
                    ("station", {"closed": 10}, False), ("clerk", {"certified": True}, False)):
                with self.subTest(role=role, result=result):
                    self.assertEqual("stations-c1-open.csv" in looked(role, **result)["asked"],
                                     wanted)
            # A return waits for its second entry until it is closed, and is compared in others.
            for entry, status, waits, compares in (
                    ("double", "received", True, False), ("double", "closed", False, False),
                    ("single", "received", False, True), ("single", "closed", False, True),
                    ("single", "queried", False, False), ("single", "corrected", False, True)):
                with self.subTest(entry=entry, status=status):
                    found = looked("clerk", of_return=status, entry=entry)
                    self.assertEqual((found["waits"], found["compares"]), (waits, compares))

    @needs("chromium")
    def test_what_is_shown_where_seats_are_hidden(self):
        """Who enters slips a second time and a station get no result: the page takes the same from
        two other reports."""
        with browser.tab() as it:
            it.open((DEPLOY / "www/clerk.html").as_uri())
            it.run(KNOWN)
            for role, asked, shown in (
                    ("second", ["result", "c1", "progress", "stations-c1-open.csv"], True),
                    ("station", ["result", "s1", "c1", "progress"], True),
                    ("clerk", ["result", "s1"], False), ("board", ["result", "s1"], False)):
                with self.subTest(role=role):
                    found = it.run(HIDDEN, role)
                    self.assertEqual(found["asked"], asked)
                    self.assertEqual((found["view"], found["progress"]), (VIEW, COUNTED) if shown
                                     else (None, ""))
            # Where one of the two is not answered there is no view, and the page says so.
            self.assertTrue(it.run(HIDDEN, "second", "progress")["trouble"].startswith(
                " What the office has now is not known: it did not answer."))

    @needs("chromium")
    def test_drafts_that_are_forgotten(self):
        """At each start those of more than a day ago, of whatever name, and at log out all of the
        name; nothing else that the browser keeps."""
        left = "return Object.keys(localStorage).sort()"
        with browser.tab() as it:
            page = (DEPLOY / "www/clerk.html").as_uri()
            it.open(page)
            it.run("""localStorage.clear();
              for (const [key, hours] of Object.entries({
                "office x clara s1 lodge": 23, "office x clara s2 lodge": 25,
                "office  berta s1 correct": 1, "office x berta s2 lodge": 25, "another": 25 }))
                localStorage.setItem(key, JSON.stringify({
                  time: Date.now() - hours * 3_600_000, typed: ["r1"] }));
              localStorage.setItem("office x clara s3 lodge", "{");""")
            it.open(page)
            self.assertEqual(it.run(left), ["another", "office  berta s1 correct",
                                            "office x clara s1 lodge"])
            it.run(KNOWN + "element('logout').click();")
            self.assertEqual(it.run(left), ["another", "office x clara s1 lodge"])

    @needs("chromium")
    def test_keys_links_and_drafts(self):
        with browser.tab() as it:
            it.open((DEPLOY / "www/clerk.html").as_uri())
            it.run(KNOWN)
            # Who types on while the page stops for a difference types nothing, and the end of that
            # presses no button.
            it.run("stopped = { form: element('lodge'), typed: false }")
            for key, is_taken in (("Enter", False), ("Shift", False), ("7", True), ("Enter", True),
                                  ("Enter", False), ("7", True), (" ", True), (" ", False)):
                with self.subTest(key=key):
                    self.assertEqual(it.run(
                        "return !element('stopped').dispatchEvent(new KeyboardEvent('keydown', "
                        "{ key: arguments[0], cancelable: true }))", key), is_taken)
            # A link of the list is followed by the page, and in another window by the browser.
            for key, is_taken in ((None, True), ("ctrlKey", False), ("metaKey", False),
                                  ("shiftKey", False)):
                with self.subTest(key=key):
                    self.assertEqual(it.run(
                        "busy = true; const link = made('a', 's1'), "
                        "more = arguments[0] ? { [arguments[0]]: true } : {}; "
                        "element('waiting').replaceChildren(link); let isTaken; "
                        "const look = (event) => { isTaken = event.defaultPrevented; "
                        "event.preventDefault(); }; document.addEventListener('click', look); "
                        "link.dispatchEvent(new MouseEvent('click', "
                        "{ bubbles: true, cancelable: true, ...more })); "
                        "document.removeEventListener('click', look); return isTaken", key),
                        is_taken)
            # A draft is brought into an empty form that is shown, and into no second typing.
            for is_hidden, again, typed, wanted in (
                    (False, False, "", "p7"), (True, False, "", ""), (False, True, "", ""),
                    (False, False, "p8", "p8")):
                with self.subTest(hidden=is_hidden, again=again, typed=typed):
                    self.assertEqual(it.run(
                        "const [isHidden, again, typed] = arguments, form = element('lodge'); "
                        "form.reset(); form.elements.slip.value = 'p7'; form.hidden = false; "
                        "shown.again = false; shown.found = {}; "
                        "keepDraft({ currentTarget: form }); form.reset(); "
                        "form.elements.slip.value = typed; form.hidden = isHidden; "
                        "shown.again = again; bringDraft(); return form.elements.slip.value",
                        is_hidden, again, typed), wanted)
