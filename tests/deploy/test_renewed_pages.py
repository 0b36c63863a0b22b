"""The search of the first page and the page that renews itself, in a browser."""

import contextlib
from pathlib import Path

from tests.deploy.test_places import PLACES
from tests.deploy.test_shown_pages import web_server
from tests.support import browser
from tests.support.case import needs
from tests.support.countries import four
from tests.support.desks import done, modelled
from tests.support.office import with_stations
from tests.support.pages import press, site_folder
from tests.support.site import SiteCase

FOUND = ("return [...document.querySelectorAll('.found a')].map((e) => [e.textContent, "
         "e.getAttribute('href')])")
KNOWN = """const known = [localStorage.getItem("a"), document.cookie, document.hidden,
  document.hasFocus()];
localStorage.setItem("a", "b");
document.cookie = "c=d";
return known;"""
SAID = "return document.querySelector('.renew output').textContent.includes(arguments[0])"


@contextlib.contextmanager
def certified_pages():
    """An office whose constituency is certified, on its port, a tab, and the site of its pages."""
    Path("setup.toml").write_text(with_stations(1), encoding="utf-8")
    with modelled(with_stations(1)) as (office, port), browser.tab() as it, \
            web_server(Path.cwd()) as site:
        done(office, "/station/s1/lodge",
             {"slip": "p1", "votes": [20, 10], "blank": 0, "spoiled": 0})
        done(office, "/station/s1/close", {"rev": 1})
        done(office, "/con/c1/certify", {"edition": 1})
        press(port, "--setup", "setup.toml")
        yield office, port, it, site


class RenewedPages(SiteCase):
    @needs("chromium")
    def test_what_the_first_page_finds(self):
        """Constituencies, towns and stations, whatever the accents and the case; the row of a
        station is shown. Without scripts there is no field."""
        with four() as (_, port):
            press(port, "--setup", "setup.toml", *site_folder(stations=PLACES), folder="four")
        with browser.tab() as it, web_server(Path.cwd()) as site:
            for typed, wanted in (
                ("OEST", [["Óeste <3>", "con-oeste.html"]]),
                ("alcaniz", [["Alcañiz", "place-este-1.html"]]),
                ("ribera", [["Ribera", "place-norte-1.html"], ["Ribera", "place-sur-1.html"]]),
                ("n1", [["n1 School <old>, hall", "stations-norte-1.html#n1"]])):
                with self.subTest(typed=typed):
                    it.open(f"{site}/four/index.html")
                    it.type(".find input", typed)
                    it.wait("return document.querySelector('.found a')")
                    self.assertEqual((it.run(FOUND), it.text(".find output")),
                                     (wanted, str(len(wanted))))
            it.type(".find input", "n1\ue007")
            it.wait("return location.hash === '#n1'")
            self.assertEqual(it.run("return document.querySelector(':target th').innerText"),
                             "n1 School <old>, hall")
            it.open(f"{site}/four/index.html")
            it.type(".find input", "nowhere")
            it.wait("return document.querySelector('.find output').textContent.startsWith('none')")
            it.command("Emulation.setScriptExecutionDisabled", value=True)
            it.open(f"{site}/four/index.html")
            self.assertEqual((it.visible(".find"), it.visible(".renew")), (False, False))

    @needs("chromium")
    def test_a_page_that_renews_itself(self):
        """It shows each change, and says so; the focus stays. Once somebody does not want it,
        nothing changes, on other pages too."""
        with four() as (office, port), browser.tab() as it:
            press(port, "--setup", "setup.toml")
            with web_server(Path.cwd()) as site:
                it.open(f"{site}/pages/con-oeste.html")
                it.run("document.querySelector('main a').focus()")
                done(office, "/station/o2/lodge",
                     {"slip": "p2", "votes": [0, 0, 1], "blank": 0, "spoiled": 0})
                done(office, "/station/o2/close", {"rev": 1})
                press(port, "--setup", "setup.toml")
                it.run("document.dispatchEvent(new Event('visibilitychange'))")
                it.wait(SAID, "Something changed")
                self.assertIn("All 2 polling stations are counted.", it.text("header .counted"))
                self.assertEqual(it.run("return document.activeElement.tagName"), "A")
                it.click(".renew input")
                done(office, "/con/oeste/certify", {"edition": 1})
                press(port, "--setup", "setup.toml")
                it.run("document.dispatchEvent(new Event('visibilitychange'))")
                self.assertIn("no certificate yet", it.text("header .state"))
                it.open(f"{site}/pages/con-norte.html")
                self.assertFalse(it.run("return document.querySelector('.renew input').checked"))
                it.open(f"{site}/pages/con-oeste.html")
                it.click(".renew input")
                it.wait("return document.querySelector('.renew input').checked")
            # The site is gone. (What the page asked for before may come later than this.)
            it.wait(f"document.dispatchEvent(new Event('visibilitychange')); {SAID}",
                    "The site was not reached")

    @needs("chromium")
    def test_a_page_that_is_taken_away(self):
        """Its title stays, with the way to all results, and nothing else: its certificate may be
        withdrawn. Once the page is there again it is shown."""
        with certified_pages() as (office, port, it, site):
            it.open(f"{site}/pages/elected-1.html")
            self.assertIn("Final", it.text("header .state"))
            done(office, "/con/c1/reopen", {"edition": 2, "note": "mistake"})
            press(port, "--setup", "setup.toml")
            it.run("document.dispatchEvent(new Event('visibilitychange'))")
            it.wait(SAID, "no longer there")
            self.assertEqual(it.text("header").split("\n"), ["All results", "The elected"])
            self.assertEqual(it.text("main"), "")
            done(office, "/con/c1/certify", {"edition": 3})
            press(port, "--setup", "setup.toml")
            it.run("document.dispatchEvent(new Event('visibilitychange'))")
            it.wait(SAID, "Something changed")
            self.assertIn("Final", it.text("header .state"))
            self.assertNotEqual(it.text("main"), "")

    @needs("chromium")
    def test_a_first_page_that_is_taken_away(self):
        """Also under the address of its folder, for which the site answers 403. The page stays
        where an answer is not about it: who asks has to wait, or the site is broken."""
        Path("setup.toml").write_text(with_stations(1), encoding="utf-8")
        with modelled(with_stations(1)) as (_, port), browser.tab() as it, \
                web_server(Path.cwd()) as site:
            press(port, "--setup", "setup.toml")
            it.open(f"{site}/pages/")
            renew = "document.dispatchEvent(new Event('visibilitychange'))"
            for status in (401, 429, 500, 503):
                with self.subTest(status=status):
                    it.run("document.querySelector('.renew output').textContent = ''; window.fetch "
                           f"= async () => new Response('<p>busy</p>', {{status: {status}}})")
                    it.run(renew)
                    it.wait(SAID, "The site was not reached")
                    self.assertIn("Not final", it.text("header"))
            it.open(f"{site}/pages/")
            Path("pages/index.html").unlink()
            it.run(renew)
            it.wait(SAID, "no longer there")
            self.assertNotIn("Not final", it.text("header"))
            self.assertEqual(it.text("main"), "")

    @needs("chromium")
    def test_a_page_on_which_something_is_selected(self):
        """It stays as it is, and says that something changed: its certificate may be withdrawn. An
        answer that is late does not take the place of a later one."""
        renew = "document.dispatchEvent(new Event('visibilitychange'))"
        with certified_pages() as (office, port, it, site):
            it.open(f"{site}/pages/con-c1.html")
            it.run("getSelection().selectAllChildren(document.querySelector('h1'))")
            done(office, "/con/c1/reopen", {"edition": 2, "note": "mistake"})
            final, page = Path("pages/con-c1.html").read_bytes(), Path("pages/con-c1.html")
            press(port, "--setup", "setup.toml")
            withdrawn = page.read_bytes()
            it.run(renew)
            it.wait(SAID, "Something changed; clear the selection or search to see it.")
            self.assertIn("Final", it.text("header .state"))
            page.unlink()
            it.run("document.querySelector('.renew output').textContent = ''")
            it.run(renew)
            it.wait(SAID, "Something changed; clear")
            page.write_bytes(withdrawn)
            it.run("getSelection().removeAllRanges()")
            it.run(renew)
            it.wait(SAID, "Something changed: renewed")
            self.assertIn("Not final", it.text("header .state"))
            page.write_bytes(final)
            it.run("const real = window.fetch; window.late = []; window.fetch = async (...of) => {"
                   "const text = await (await real(...of)).text();"
                   "await new Promise((go) => window.late.push(go)); return new Response(text); }")
            it.run(renew)
            it.wait("return window.late.length === 1")
            page.write_bytes(withdrawn.replace(b"<main>", b"<main><p>Later</p>"))
            it.run(renew)
            it.wait("return window.late.length === 2")
            it.run("window.late[1]()")
            it.wait("return document.querySelector('main').textContent.includes('Later')")
            it.run("window.late[0]()")
            it.wait("return new Promise((go) => setTimeout(() => go(true), 200))")
            self.assertIn("Later", it.text("main"))
            self.assertIn("Not final", it.text("header .state"))

    @needs("chromium")
    def test_a_page_that_became_old_while_something_is_selected(self):
        """Its header is renewed, with a line that says how old it is, or with its state; and a
        selection in a header that is as it was stays. Once nothing differs it says nothing more
        of a change. A page that is gone says so, whatever is selected."""
        renew = "document.dispatchEvent(new Event('visibilitychange'))"
        select = "getSelection().selectAllChildren(document.querySelector('{}'))"
        typed = "document.querySelector('.search input').value = 'A'"
        output = "document.querySelector('.renew output').textContent"
        header = "return document.querySelector('header').textContent.includes(arguments[0])"
        kept = "Something changed; clear the selection or search to see it."
        with certified_pages() as (office, port, it, site):
            for name, act in (("con-c1.html", select.format("main")), ("elected-1.html", typed)):
                with self.subTest(name=name):
                    page = Path("pages", name)
                    it.open(f"{site}/pages/{name}")
                    it.run(act)
                    press(1, "--setup", "setup.toml", status=1)
                    it.run(renew)
                    it.wait(header, "This page could not be renewed")
                    press(port, "--setup", "setup.toml")
                    new = page.read_bytes()
                    page.write_bytes(new.replace(b">Final: ", b">Not final: ", 1))
                    it.run(renew)
                    it.wait(header, "Not final: ")
                    page.write_bytes(new.replace(b"<main>", b"<main>Later"))
                    it.run(renew)
                    it.wait(f"return {output} === arguments[0]", kept)
                    self.assertNotIn("Later", it.text("main"))
                    page.write_bytes(new)
                    it.run(renew)
                    it.wait(f"return {output} === ''")
                    self.assertIn("Final: ", it.text("header .state"))
            it.open(f"{site}/pages/con-c1.html")
            it.run(select.format("h1"))
            it.run(f"{output} = arguments[0]; {renew}", kept)
            it.wait(f"return {output} === ''")
            self.assertEqual(it.run("return getSelection().toString().trim()"), it.text("h1"))
            page = Path("pages/con-c1.html")
            page.unlink()
            it.run("getSelection().removeAllRanges()")
            it.run(renew)
            it.wait(SAID, "no longer there")
            it.run(f"{select.format('h1')}; {output} = ''; {renew}")
            it.wait(SAID, "no longer there")

    @needs("chromium")
    def test_a_browser_that_a_test_used_before(self):
        """It has one tab, which is the one that is looked at, and knows nothing of what pages
        stored before: those of other sites, and those of the same one."""
        Path("page.html").write_text("<title>A page</title>", encoding="utf-8")
        sessions = set()
        with web_server(Path.cwd()) as site:
            for another in (True, False, False):
                with browser.tab() as it:
                    sessions.add(it.session)
                    self.assertEqual(len(it.of_session("GET", "/window/handles")), 1)
                    it.open(f"{site}/page.html")
                    self.assertEqual([it.run(KNOWN), it.run(KNOWN)],
                                     [[None, "", False, True], ["b", "c=d", False, True]])
                    if another:
                        it.of_session("POST", "/window/new", {"type": "tab"})
        self.assertEqual(len(sessions), 1)
