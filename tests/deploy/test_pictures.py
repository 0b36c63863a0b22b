"""The pages beside stored pictures of them, and by keys alone.

The pages are those of an invented election, without an office. The press pages are made of the
model of an office (tests/support/model.py), and the clerks' page asks that model.

A test of pictures is skipped where Chromium, its driver or the fonts DejaVu Sans and DejaVu Sans
Mono are missing.
"""

import json
import tempfile
from pathlib import Path

from tests.support import browser
from tests.support.case import Case, needs
from tests.support.desks import modelled
from tests.support.pages import press
from tests.support.pictures import (
    CELL, MOST, READY, STORE, STORED, against, all_pages, apart, as_picture, chromium,
    clerks_pages, clerks_site, draw, office_of, opened, press_pages, read_picture, unless_it_hangs,
)
from tests.support.scripts import in_page
from tests.support.shown import PICTURES
from tests.support.site import BOTH

# Faults of a page: the page, the view that has to show it, and a style that makes it.
FAULTS = {
    "a column of a table is not there": ("constituency", "desk",
                                         ".n2 tr > :nth-child(3) { display: none; }"),
    "the paper is light in the dark": ("constituency", "desk-dark",
                                       ":root { --paper: #fbfaf7 !important; }"),
    "no half circle": ("constituency", "desk", ".seats svg { visibility: hidden; }"),
    "a list has the colour of another": ("constituency", "phone",
                                         ".list-HAYA { --light: #12538c !important; }"),
    "the line of the majority is elsewhere": ("first", "desk",
                                              ".majority { transform: rotate(12deg); }"),
    "no line of the threshold": ("constituency", "desk", ".track .threshold { display: none; }"),
    "a text goes beyond the phone": ("constituency", "phone",
                                     "th, td, p { white-space: nowrap !important; }"),
    "a table is cut off": ("stations", "phone", ".scroll { width: 300px; }"),
    "a search on paper": ("stations", "print", ".search { display: block !important; }"),
    "figures in a zigzag": ("unusual", "desk",
                            ".counts { display: flex; flex-wrap: wrap; max-width: none; }"),
    "no edge of a refusal": ("unusual", "desk", "#said { border-left-width: 1px !important; }"),
    "a button like its ground": ("second", "desk",
                                 "#confirm button { background: none !important; }"),
}
# Styles that are no fault: letters a little fatter, or a third of a point elsewhere.
LIKE = ("body { -webkit-text-stroke: .1px; }", "body { transform: translate(.3px, .3px); }")


def try_faults(it, page, seen, tried):
    for words, (of_page, view, style) in FAULTS.items():
        if of_page == page:
            seen[words] = len(apart(draw(it, view, style)[0],
                                    read_picture((STORED / f"{page}-{view}.png").read_bytes())))
            tried.add(words)
    if page in ("constituency", "unusual"):
        for style in LIKE:
            seen[f"{page}: {style}"] = len(apart(
                draw(it, "desk", style)[0],
                read_picture((STORED / f"{page}-desk.png").read_bytes())))


TAB, ENTER = "\ue004", "\ue007"


FOCUS = in_page("focus.js")


class Pictures(Case):
    @needs("chromium")
    @unless_it_hangs
    def test_the_pages_as_pictures(self):
        """Each page in each of its views is as it is stored."""
        names = set()
        with chromium() as it:
            for page, views in all_pages(it):
                for view in views:
                    found, shot = draw(it, view)
                    name = f"{page}-{view}.png"
                    names.add(name)
                    if PICTURES:
                        PICTURES.mkdir(parents=True, exist_ok=True)
                        (PICTURES / name).write_bytes(shot)
                    if STORE:
                        STORED.mkdir(exist_ok=True)
                        (STORED / name).write_bytes(as_picture(*found))
                    cells = against(name, found)
                    for _ in range(2):
                        # On a machine that has much else to do a part may not be drawn yet.
                        if len(cells) > MOST:
                            found, shot = draw(it, view)
                            cells = against(name, found)
                    with self.subTest(name=name):
                        if len(cells) > MOST:
                            (Path(tempfile.gettempdir()) / name).write_bytes(shot)
                            first = [(CELL * row, CELL * column) for row, column in cells[:3]]
                            self.fail(f"{len(cells)} cells are apart, the first {first} from the "
                                      f"top left; it is in {tempfile.gettempdir()}. Look at it "
                                      "before you store it")
        self.assertEqual(sorted(file.name for file in STORED.iterdir()), sorted(names))
        self.assertEqual([name for name in names if (STORED / name).stat().st_size > 16_384], [])

    @needs("chromium")
    @unless_it_hangs
    def test_faults_that_the_pictures_show(self):
        """A page with a fault differs from its picture, and one that is drawn with other edges of
        its letters does not."""
        seen, tried = {}, set()
        with chromium() as it:
            press_pages()
            pages = {"constituency": "con-montehondo", "first": "index",
                     "stations": "stations-montehondo-1"}
            for page, file in pages.items():
                it.open((Path.cwd() / f"pages/{file}.html").as_uri())
                try_faults(it, page, seen, tried)
            for page, _ in clerks_pages(it):
                try_faults(it, page, seen, tried)
        self.assertEqual(tried, set(FAULTS))
        print(seen)
        for words, many in seen.items():
            with self.subTest(words=words, many=many):
                self.assertEqual(many > MOST, words in FAULTS)

    def tabbed(self, it, wanted, most=60):
        """Presses the tab key until this has the focus; each stop is seen. The stops."""
        stops = []
        while not stops or stops[-1] != wanted:
            self.assertLess(len(stops), most, f"{wanted} is not reached by keys: {stops}")
            it.keys(TAB)
            name, outlined, inside = it.run(FOCUS)
            self.assertEqual((outlined, inside), (True, True), name)
            stops.append(name)
        return stops

    @needs("chromium")
    def test_the_clerks_page_by_keys_alone(self):
        """A slip is lodged and its return closed, a constituency certified, and everybody logged
        out, without a mouse."""
        Path("setup.toml").write_text(BOTH, encoding="utf-8")
        office = office_of(BOTH)
        with modelled(BOTH) as (_, port):
            press(port, "--setup", "setup.toml")
        with browser.tab() as it:
            with clerks_site(office, "clara", "clerk") as address:
                opened(it, address)
                it.size(1280, 900)
                # It is where somebody types first.
                self.assertEqual(it.run("return document.activeElement.id"), "station")
                it.keys("s1", TAB)
                it.wait("return document.activeElement.name === 'slip'")
                it.keys("p1", TAB, "100", TAB, "99", TAB, "1", TAB, "0", TAB, "200", ENTER)
                it.wait(READY, "Lodged.")
                it.wait("return document.activeElement.id === 'station'")
                self.tabbed(it, "Close this return")
                it.keys(ENTER)
                self.assertEqual(it.accept(), "Close the return of s1?")
                it.wait(READY, "Done.")
                it.wait("return document.activeElement.id === 'station'")
                self.tabbed(it, "logout")
                it.keys(ENTER)
                it.wait("return document.querySelector('h1').textContent === 'You are logged out'")
                self.assertEqual(it.run("return document.querySelectorAll('button, input').length"),
                                 0)
            with clerks_site(office, "berta", "board") as address:
                opened(it, address)
                self.tabbed(it, "con")
                it.keys("T")
                it.wait("return document.getElementById('con').value === 'c1'")
                it.wait(READY, "This is what the office has now.")
                self.tabbed(it, "Certify this constituency")
                it.keys(ENTER)
                self.assertEqual(it.accept(), "Certify Twin Town?")
                it.wait(READY, "Done.")
                # Its form is gone, and its receipt is what is to be read.
                it.wait("return document.activeElement.textContent === 'Receipt: a certificate'")
        self.assertEqual((json.loads(office.ask("GET", "/station/s1")[1])["votes"],
                          json.loads(office.ask("GET", "/con/c1")[1])["seats"]),
                         ([100, 99], [2, 1]))

    @needs("chromium")
    def test_the_press_pages_by_keys_alone(self):
        """Each link, field and table that can be moved is reached in the order of the page, and is
        seen when it is; nothing holds the focus."""
        press_pages()
        with browser.tab() as it:
            for width in (1280, 390):
                with self.subTest(width=width):
                    for file in ("index", "con-montehondo", "stations-montehondo-1", "count"):
                        with self.subTest(file=file):
                            it.open((Path.cwd() / f"pages/{file}.html").as_uri())
                            it.size(width, 900)
                            stops = self.tabbed(it, "", 90)
                            links = it.run("return [...document.querySelectorAll('a[href], "
                                           "input')].filter((e) => "
                                           "e.getClientRects().length).map((e) => "
                                           "e.textContent.trim() || e.tagName)")
                            self.assertEqual([stop for stop in stops if stop in links],
                                             [link for link in links])
