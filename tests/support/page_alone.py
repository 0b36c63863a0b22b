"""The clerks' page opened as a file, before an office that answers as a test says."""

import contextlib
import json

from tests.support import browser
from tests.support.rounds import DEPLOY
from tests.support.scripts import in_page

OFFICE = in_page("office_of_a_test.js")
LISTS = [{"code": "A", "name": "Alpha", "candidates": ["Ana", "Abel"]},
         {"code": "B", "name": "Beta", "candidates": ["Bea"]}]
# Two constituencies. Of s2 the agents vote too.
SETUP = [
    {"code": "c1", "name": "Twin Town", "seats": 3, "lists": LISTS, "stations": [
        {"code": "s1", "electors": 1000}, {"code": "s2", "electors": 1200, "agents": 12},
        {"code": "s3", "electors": 1000}, {"code": "s4", "electors": 1000}]},
    {"code": "c2", "name": "Port", "seats": 1, "lists": LISTS[1:],
     "stations": [{"code": "t1", "electors": 10}]}]
SLIP = {"slip": "p1", "votes": [200, 100], "blank": 2, "spoiled": 1}
TYPED = ["p1", "200", "100", "2", "1", "303"]
NOW = "This is what the office has now."


def result(**other):
    """A result of c1: of its four stations one is without a return, one is received, and two are
    closed."""
    return {"con": "c1", "stations": 4, "received": 1, "queried": 0, "corrected": 0, "closed": 2,
            "edition": 4, "certified": False, "entry": "single", "lot": [], "note": "",
            "blank": 3, "spoiled": 1, "gone": [], "holders": [], "status": "seats",
            "lists": [{"votes": 400, "seats": 2}, {"votes": 200, "seats": 1}], **other}


def recorded(status="received", station="s1", rev=1, **other):
    return {"station": station, "status": status, "rev": rev, "note": "", **SLIP, **other}


NO_RETURN = [404, {"refused": 8, "word": "no_return"}]


class Page:
    """The page in a browser, and what the office answers it."""

    def __init__(self, it):
        self.it, self.script, self.run, self.times = it, None, it.run, 0

    def open(self, role="clerk", name="clara", answers=None, link="", setup=SETUP, head=None,
             now=None):
        """Opens the page again, for a name; returns what is seen once it has come to rest."""
        given = {"HEAD /clerk.html": [[200, "", {"X-Office-Name": name, "X-Office-Role": role}
                                      | (head or {})]],
                "GET /setup.json": [[200, setup]], "GET /now/con/c1/result": [[200, result()]],
                "GET /site.json": [[404, ""]], "GET /now/station/s1": [NO_RETURN]} | (answers or {})
        if self.script:
            self.it.command("Page.removeScriptToEvaluateOnNewDocument", identifier=self.script)
        self.script = self.it.command(
            "Page.addScriptToEvaluateOnNewDocument",
            source=f"{OFFICE}; office.now = {json.dumps(now)}; "
                   f"office.answers = {json.dumps(given)}")["identifier"]
        # (what was typed and not sent asks nobody)
        self.run("for (const form of document.forms) form.reset()")
        # (another address, so that it is loaded again)
        self.times += 1
        self.it.open(f"{(DEPLOY / 'www/clerk.html').as_uri()}?{self.times}{link}")
        return self.settled()

    def settled(self):
        """Waits until the page has come to rest; returns what is seen then."""
        return self.run("return office.settled().then(office.seen)")

    def does(self, script, *arguments):
        """Runs this script; returns what is seen after it."""
        return self.run(f"const act = async (...arguments) => {{ {script} }}; return act("
                        "...arguments).then(office.settled).then(office.seen)", *arguments)

    def tell(self, answers):
        """Says what the office answers from now on."""
        # (as a text, in which the keys keep their order)
        self.run("Object.assign(office.answers, JSON.parse(arguments[0]))", json.dumps(answers))

    def station(self, code):
        """Chooses a station by its code."""
        return self.does("element('station').value = arguments[0]; "
                         "element('station').dispatchEvent(new Event('change'))", code)

    def send(self, form, *values):
        """Types values into the fields of a slip, and presses the button of its form."""
        return self.does("office.fill(arguments[0], arguments[1]); const button = document"
                         ".querySelector(`#${arguments[0]} fieldset > button`); button.focus(); "
                         "button.click()", form, list(map(str, values)))

    def asked(self):
        """The requests since the last call: method, target, and what was sent."""
        found = self.run("return office.asked.splice(0)")
        return [f"{method} {target}" if sent is None else f"{method} {target} {sent}"
                for method, target, sent, *_ in found]


@contextlib.contextmanager
def page_alone():
    with browser.tab() as it:
        it.command("Emulation.setTimezoneOverride", timezoneId="UTC")
        yield Page(it)
