"""The second entry in the clerks' page."""

import json

from tests.support import browser
from tests.support.case import needs
from tests.support.clerks import (
    SLIP, TWICE, choose_con, choose_station, choose_station_again, claras_page, clerks_browser,
    compare, enter, focused, forms, office_with_a_second, post, receipt, said, shown, unspoken,
)
from tests.support.office import with_stations
from tests.support.shown import shows_well
from tests.support.site import SiteCase

DIFFERS = ("The first entry says something else. Compare the slip’s code and each of your figures "
           "with the paper, from the top. If the paper says all that you typed, query the return: "
           "a clerk corrects it from the paper.")
# The groups of the stations that are not closed: head, codes of the links, whether it is unfolded.
OPEN = """return [...document.querySelectorAll('#open-stations details')]
    .map((e) => [e.firstChild.textContent,
                 [...e.querySelectorAll('a')].map((a) => a.textContent), e.open])"""
ENTER, TAB = "\ue007", "\ue004"


def press_keys(it, *keys):
    """Presses keys, each where the focus is by then."""
    for key in keys:
        found = it.of_session("GET", "/element/active")[browser.KEY]
        it.of_session("POST", f"/element/{found}/value", {"text": key})


class SecondEntry(SiteCase):
    @needs("chromium", "nginx", "openssl")
    def test_a_page_whose_browser_has_another_name_by_now(self):
        """It was opened by a clerk, and the browser gives the password of a second: nothing is
        done, what was typed stays, and the page says so. Of a page that sends no name, as an older
        one, the recorder refuses the lodge, by an answer without a text."""
        with office_with_a_second(TWICE) as (_, front), clerks_browser(front, "bruno") as it:
            choose_station(it, "s1")
            it.command("Network.setExtraHTTPHeaders",
                       headers={"Authorization": front.authorization("sara")})
            enter(it, "lodge", SLIP)
            said(it, "this page was loaded under another name")
            self.assertEqual(it.run("return [element('lodge').elements.slip.value, "
                                    "Object.keys(localStorage).length]"), ["p1", 1])
            self.assertEqual(front.lines(), [])
            it.run("person.name = ''; shown.found = { station: 's1', status: 'none' }; "
                   "showReturn()")
            it.click("#lodge button")
            said(it, "Your name may not do this.")
            self.assertNotIn("may have been done", it.text("#said"))
            self.assertEqual([(line["name"], line["status"]) for line in front.record(1)],
                             [("sara", 403)])

    @needs("chromium", "nginx", "openssl")
    def test_a_page_of_a_second_whose_browser_is_a_clerks_by_now(self):
        """Nothing of the first entry is shown on it: not who did what to the station, nor what
        waits."""
        with office_with_a_second(TWICE) as (_, front), clerks_browser(front, "sara") as it:
            self.assertEqual(front.ask("POST", "/station/s1/lodge", SLIP, "clara").status, 200)
            choose_station(it, "s1")
            it.click("#who")
            said(it, "The history of station s1 is shown.")
            self.assertNotIn("p1", it.text("#history"))
            it.run("element('history').replaceChildren()")
            it.command("Network.setExtraHTTPHeaders",
                       headers={"Authorization": front.authorization("clara")})
            for button in ("who", "find", "again"):
                with self.subTest(button=button):
                    it.run("say('')")
                    it.click(f"#{button}")
                    said(it, "his page was loaded under another name")
                    self.assertEqual([it.text(f"#{one}") for one in (
                        "history", "waiting", "return", "view", "open-stations")], [""] * 5)

    @needs("chromium", "nginx", "openssl")
    def test_a_second_entry(self):
        """Wrong, of another slip, right, and sent twice: the page says what it is, and asks for no
        return."""
        with office_with_a_second(TWICE) as (desk, front):
            post(desk, "/station/s1/lodge", SLIP)
            with clerks_browser(front, "sara") as it:
                self.assertEqual((it.text("#person"), forms(it), it.visible("#of-con")),
                                 ("sara, second entry", [], False))
                choose_station(it, "s1")
                self.assertEqual((forms(it), it.text("#return"), it.text("#place"), focused(it)[0]),
                                 (["confirm", "query"], "", "s1\n300 electors", "slip"))
                self.assertEqual(unspoken(it), [])
                for wrong in ({"votes": [120, 17]}, {"slip": "p2"}, {"blank": 1, "spoiled": 2}):
                    with self.subTest(wrong=wrong):
                        enter(it, "confirm", SLIP | wrong)
                        compare(it, DIFFERS)
                        # The figures that were typed are there, the office has what it had, and
                        # there is no receipt.
                        self.assertEqual(
                            (it.text("#alert"), focused(it)[0], it.visible("#receipt")),
                            (DIFFERS, "slip", False))
                        self.assertEqual(it.run("return document.querySelector('#confirm "
                                                "input[name=slip]').value"), (SLIP | wrong)["slip"])
                        self.assertEqual(
                            shown(desk, "s1"),
                            {"station": "s1", **SLIP, "rev": 1, "status": "received", "note": ""})
                enter(it, "confirm", SLIP)
                said(it, "Both entries are the same: the return is closed.")
                self.assertEqual((shown(desk, "s1")["status"], it.text("#alert"), focused(it)[0]),
                                 ("closed", "", "station"))
                it.click("#receipt summary")
                found = receipt(it)
                wanted = {"Station": "s1", "Slip": "p1", "A Alpha": "120", "B Beta": "71",
                          "Blank": "2", "Spoiled": "1", "Total": "194", "By": "sara, second entry"}
                self.assertEqual({name: found.get(name) for name in wanted}, wanted)
                # Again, by a page that knows the revision from before, and by one that does not.
                enter(it, "confirm", SLIP)
                said(it, "The return is closed already: nothing is left to do.")
                it.run("document.getElementById('confirm').reset()")
                it.open(it.run("return location.href"))
                said(it, "This is what the office has now.")
                choose_station(it, "s1")
                enter(it, "confirm", SLIP)
                said(it, "If this is the slip that counts, send it again")
                self.assertEqual(it.text("#confirm-rev"),
                                 "It is compared with the return as it was changed last.")
                it.click("#confirm button")
                said(it, "The return is closed already")
                choose_station_again(it, "s2")
                enter(it, "confirm", SLIP)
                said(it,
                     "This station has no return yet: its slip has to be entered by a clerk first.")
                choose_station_again(it, "s9", "The office has no station of this code.")
                self.assertEqual(forms(it), [])
                asked_for = it.run("return performance.getEntriesByType('resource').map((one) => "
                                   "new URL(one.name).pathname)")
                self.assertEqual([one for one in asked_for if "/station/" in one
                                  and not one.endswith("/confirm")], [])
            closed = [(line["name"], line["role"], line["status"]) for line in front.record(8)
                      if line["path"].endswith("/confirm")]
            self.assertEqual(
                closed,
                [("sara", "second", status) for status in (409, 409, 409, 200, 409, 409, 409, 404)])

    @needs("chromium", "nginx", "openssl")
    def test_a_second_entry_of_a_queried_return(self):
        """The second clerk queries what differs; what is queried waits for its correction, which is
        then confirmed as it is."""
        with office_with_a_second(TWICE) as (desk, front):
            post(desk, "/station/s1/lodge", SLIP | {"votes": [120, 17]})
            with clerks_browser(front, "sara") as it:
                choose_station(it, "s1")
                enter(it, "confirm", SLIP)
                compare(it, DIFFERS)
                it.type("#query input[name=note]", "second entry: the slip says 71 for B")
                it.click("#query button")
                said(it, "Done.")
                self.assertEqual((shown(desk, "s1")["status"], shown(desk, "s1")["note"]),
                                 ("queried", "second entry: the slip says 71 for B"))
                enter(it, "confirm", SLIP)
                said(it,
                     "The return is queried: put its slip aside until a clerk has corrected it "
                     "from the paper.")
                post(desk, "/station/s1/correct", {"rev": 2, **SLIP})
                it.click("#confirm button")
                said(it, "it is compared with what is recorded now.")
                it.click("#confirm button")
                said(it, "Both entries are the same: the return is closed.")
            self.assertEqual((shown(desk, "s1")["status"], shown(desk, "s1")["rev"]), ("closed", 4))

    @needs("chromium", "nginx", "openssl")
    def test_a_second_entry_of_another_constituency(self):
        """The form has the lists of the station's own constituency; where one entry is enough a
        second closes as well."""
        with office_with_a_second(TWICE) as (desk, front):
            port_slip = {"slip": "q1", "votes": [30, 10, 5], "blank": 0, "spoiled": 1}
            post(desk, "/station/t1/lodge", port_slip)
            post(desk, "/station/u1/lodge", SLIP)
            with clerks_browser(front, "sara") as it:
                heads = ("return [...document.querySelectorAll('#confirm .counts span')].map((e) "
                         "=> e.textContent)")
                last = ["Blank", "Spoiled", "Total of all these on the slip"]
                self.assertEqual(it.run(heads), ["A Alpha", "B Beta", *last])
                choose_station(it, "t1")
                self.assertEqual(
                    (it.run("return document.getElementById('con').value"), it.run(heads)),
                    ("c2", ["B Beta", "C Gamma", "D Delta", *last]))
                enter(it, "confirm", port_slip | {"votes": [10, 30, 5]})
                compare(it, DIFFERS)
                enter(it, "confirm", port_slip)
                said(it, "the return is closed.")
                choose_station(it, "u1")
                enter(it, "confirm", SLIP)
                said(it, "the return is closed.")
            self.assertEqual([shown(desk, code)["status"] for code in ("t1", "u1")], ["closed"] * 2)

    @needs("chromium", "nginx", "openssl")
    def test_the_stations_that_are_not_closed(self):
        """Both clerks see which they are, as links, after one request and by keys alone; the first
        is offered no closing, and no form that shows figures is there twice."""
        with office_with_a_second(TWICE) as (desk, front):
            for code in ("s1", "s2", "s3", "s4"):
                post(desk, f"/station/{code}/lodge", SLIP)
            for code in ("s3", "s4"):
                post(desk, f"/station/{code}/query", {"rev": 1, "note": "smudged"})
            post(desk, "/station/s4/correct", {"rev": 2, **SLIP})
            post(desk, "/station/s1/confirm", {"rev": 1, **SLIP})
            self.assertEqual(post(desk, "/station/s2/close", {"rev": 1}, 409),
                             {"refused": 24, "word": "not_confirmed"})
            wanted = [["Without a return: 2", ["s5", "s6"], True],
                      ["Received, waiting for their second entry: 1", ["s2"], True],
                      ["Queried, to be corrected: 1", ["s3"], True],
                      ["Corrected, waiting for their second entry: 1", ["s4"], True]]
            for name in ("clara", "sara"):
                with self.subTest(name=name):
                    with clerks_browser(front, name) as it:
                        self.assertEqual(it.text("#progress-line"),
                                         "1 of 6 stations closed; without a return 2, received 1, "
                                         "queried 1, corrected 1. "
                                         "Waiting for their second entry: 2.")
                        it.run("performance.clearResourceTimings(); "
                               "document.getElementById('find').focus()")
                        press_keys(it, ENTER)
                        said(it, "Stations that are not closed: 5. They are listed below.")
                        self.assertEqual((it.run(OPEN), focused(it)[0], unspoken(it)),
                                         (wanted, "find", []))
                        asked_for = it.run(
                            "return performance.getEntriesByType('resource')"
                            ".map((one) => new URL(one.name).pathname)")
                        self.assertEqual(asked_for, ["/now/con/c1/stations"])
                        # Over the heads of four groups and the links of three.
                        press_keys(it, *[TAB] * 9)
                        self.assertEqual(it.run("return document.activeElement.textContent"), "s4")
                        press_keys(it, ENTER)
                        said(it, "This is what the office has now.")
                        self.assertEqual(it.run("return document.getElementById('station').value"),
                                         "s4")
                        if name == "clara":
                            self.assertEqual((forms(it), it.visible("#compare")),
                                             (["query", "import"], False))
                            self.assertIn(
                                "It waits for its second entry: somebody else types the slip again",
                                it.text("#return"))
                        else:
                            # The list said which revision it has.
                            self.assertEqual(
                                (it.text("#confirm-rev"), focused(it)[0]),
                                ("It is compared with the return as it was changed last.", "slip"))
                            enter(it, "confirm", SLIP)
                            said(it, "the return is closed.")
                            self.assertEqual(it.run(OPEN), wanted[:3])
                            shows_well(it, "second")
                            # They are not those of another constituency.
                            choose_con(it, "c2")
                            self.assertEqual(it.run(OPEN), [])

    @needs("chromium", "nginx", "openssl")
    def test_many_stations_that_are_not_closed(self):
        """A group of many is folded up until somebody opens it, and is then as it was left; a link
        that is opened in another window is the page with that station; where the office does not
        answer nothing is listed."""
        with claras_page(with_stations(52)) as (desk, front, it):
            many = [f"s{n}" for n in range(1, 53)]
            it.click("#find")
            said(it, "Stations that are not closed: 52. They are listed below.")
            self.assertEqual(it.run(OPEN), [["Without a return: 52", many, False]])
            press_keys(it, TAB, TAB)
            self.assertEqual(focused(it)[0], "station")
            it.click("#open-stations summary")
            it.click("#open-stations a")
            said(it, "This is what the office has now.")
            enter(it, "lodge", SLIP)
            said(it, "Lodged.")
            self.assertEqual(it.run(OPEN), [["Without a return: 51", many[1:], True],
                                            ["Received, to be closed: 1", ["s1"], True]])
            it.click("#open-stations summary")
            it.click("#find")
            said(it, "Stations that are not closed: 52.")
            self.assertEqual([one[2] for one in it.run(OPEN)], [False, True])
            it.open(it.run(
                "return document.querySelector('#open-stations details:last-child a').href"))
            it.of_session("POST", "/refresh", {})
            said(it, "This is what the office has now.")
            self.assertEqual((it.run("return document.getElementById('station').value"), forms(it)),
                             ("s1", ["close", "query", "import"]))
            desk.end()
            front.end_recorder()
            front.end_reader()
            it.click("#find")
            unknown = "What the office has now is not known: it did not answer."
            said(it, unknown)
            self.assertEqual((it.run(OPEN), it.text("#alert").startswith(unknown)), ([], True))

    @needs("nginx", "openssl")
    def test_which_stations_wait_and_not_what_their_slips_say(self):
        """Past the cache clerks and the board are shown the table of stations as the desk has it,
        and whoever enters slips a second time the same up to the revisions, whatever a client says
        of its role."""
        setup = TWICE.replace("Twin Town", "12 towns 3 closed 4 p1")
        with office_with_a_second(setup) as (desk, front):
            front.name("stations", "s1")
            post(desk, "/station/s1/lodge", SLIP)
            post(desk, "/station/s2/lodge", SLIP | {"slip": "2", "votes": [3, 4]})
            post(desk, "/station/s2/query", {"rev": 1, "note": "smudged"})
            rest = "".join(f"s{n}                   300 -\n" for n in range(3, 7))
            head = "STATIONS c1 12 towns 3 closed 4 p1\nstations 6 missing 4 closed 0\n"
            whole = (
                f"{head}"
                "s1                   300 received     1 p1                   191       2       1\n"
                "s2                   300 queried      2 2                      7       2       1\n"
                f"{rest}")
            bare = (f"{head}"
                    "s1                   300 received     1\n"
                    f"s2                   300 queried      2\n{rest}")
            target = "/now/con/c1/stations"
            self.assertEqual(front.ask("GET", target, name="s1").status, 403)
            for name, text in (("clara", whole), ("berta", whole), ("sara", bare)):
                with self.subTest(name=name, text=text):
                    for headers in ({}, {"Office-Role": "clerk", "Office-Allowed": "1"}):
                        with self.subTest(headers=headers):
                            found = front.ask("GET", target, name=name, headers=headers)
                            self.assertEqual(
                                (found.status, found.body.decode(), found.head["Content-Type"]),
                                (200, text, "text/plain; charset=utf-8"))

            def ask(method, target, name, **more):
                return front.ask(method, target, name=name, **more).status

            self.assertEqual([ask("GET", target, None), ask("GET", target, "clara", password="x"),
                              ask("POST", target, "clara"), ask("HEAD", target, "clara"),
                              ask("GET", f"{target}?x", "clara"),
                              ask("GET", target, "clara", headers={"Sec-Fetch-Site": "cross-site"}),
                              ask("GET", "/stations/c1", "clara")],
                             [401, 401, 405, 405, 404, 403, 404])
            for name in ("clara", "sara"):
                with self.subTest(name=name):
                    found = front.ask("GET", "/now/con/c9/stations", name=name)
                    self.assertEqual((found.status, json.loads(found.body)),
                                     (404, {"refused": 2, "word": "no_constituency"}))
            self.assertEqual(front.lines(), [])
