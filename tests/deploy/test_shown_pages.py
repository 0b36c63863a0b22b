"""The press pages in a browser."""

import contextlib
import functools
import http.server
import threading
from pathlib import Path

from tests.support import browser
from tests.support.case import ROOT, needs
from tests.support.countries import FOUR_BEFORE, four, many_stations, sixty_lists
from tests.support.desks import answering_desk, done, modelled
from tests.support.pages import REOPENED, TWIN, press, site_folder
from tests.support.scripts import in_page
from tests.support.shown import PICTURES, SHOWN_WRONG, shows_well
from tests.support.site import EXAMPLES, STATIONS, SiteCase

DRAWN_WRONG = in_page("drawn_wrong.js")
# Paragraphs whose letters are smaller than those of the captions.
SMALLER = """const size = (e) => parseFloat(getComputedStyle(e).fontSize);
const caption = document.querySelector("caption");
return caption ? [...document.querySelectorAll("main p")].filter((e) => size(e) < size(caption)
  && e.getClientRects().length).map((e) => e.textContent) : [];"""
# Whether each of these parts has a colour of its own on the page.
SEEN = """const paper = getComputedStyle(document.body).backgroundColor;
return [[".length"], [".progress i"], [".code", "::before"]].map(([part, ...at]) => {
  const own = getComputedStyle(document.querySelector(part), ...at).backgroundColor;
  return own !== paper && own !== "rgba(0, 0, 0, 0)"; });"""


@contextlib.contextmanager
def web_server(folder):
    """A web server of the files of a folder, without any headers of its own; its address."""
    class Quiet(http.server.SimpleHTTPRequestHandler):
        def log_message(self, *_):
            pass

        def send_head(self):
            # A file of the same second is not taken for the one before.
            del self.headers["If-Modified-Since"]
            return super().send_head()

        def list_directory(self, path):
            # (as the proxy answers for a folder without its first page)
            self.send_error(403)

    with http.server.ThreadingHTTPServer(("127.0.0.1", 0),
                                         functools.partial(Quiet, directory=folder)) as server:
        threading.Thread(target=server.serve_forever, daemon=True).start()
        yield f"http://127.0.0.1:{server.server_port}"
        server.shutdown()


def erase(it, typed):
    """The backspace key, for each letter that was typed into the search."""
    it.of_session("POST", f"/element/{it.find('.search input')}/value",
                  {"text": "\ue003" * len(typed)})


class ShownPages(SiteCase):
    def printed_well(self, it, name):
        """On paper, A4 within its margins, nothing is wider than the sheet, and the paper is white,
        in the dark too."""
        it.size(718, 1000)
        it.command("Emulation.setEmulatedMedia", media="print",
                   features=[{"name": "prefers-color-scheme", "value": "dark"}])
        self.assertEqual(it.run(SHOWN_WRONG), [], name)
        cut = ("return [...document.querySelectorAll('.scroll')].filter((e) => "
               "getComputedStyle(e).overflowX !== 'visible').length")
        self.assertEqual(it.run(cut), 0, name)
        self.assertEqual(it.run("return [getComputedStyle(document.body).backgroundColor, "
                                "document.querySelectorAll('.search').length && "
                                "document.querySelector('.search').getClientRects().length]"),
                         ["rgb(255, 255, 255)", 0], name)
        self.assertEqual(it.run(SMALLER), [], name)
        if PICTURES:
            it.picture(PICTURES / f"{name}-print.png", True)
        it.command("Emulation.setEmulatedMedia", media="", features=[])

    def drawn_well(self, it, name):
        for width, dark in ((320, False), (1280, True)):
            it.size(width, 900, dark)
            self.assertEqual(it.run(DRAWN_WRONG), [], (name, width))

    @needs("chromium")
    def test_how_the_press_pages_are_shown(self):
        with browser.tab() as it:
            for name, answers in (("certified", TWIN), ("reopened", REOPENED),
                                  ("sixty-lists", sixty_lists())):
                with self.subTest(name=name, answers=answers):
                    with answering_desk(answers) as (port, _):
                        press(port, folder=name)
                    for file in (
                        "con-c1", "index", "count",
                        *(["details-c1-1", "details-c1-3"] if name == "sixty-lists" else [])):
                        with self.subTest(file=file):
                            it.open((Path.cwd() / name / f"{file}.html").as_uri())
                            shows_well(it, f"{name}-{file}", whole=name != "sixty-lists")
                            self.drawn_well(it, f"{name}-{file}")
                            self.printed_well(it, f"{name}-{file}")
            drawn = ('<svg xmlns="http://www.w3.org/2000/svg" viewBox="0 0 9 6"><path id="norte" '
                     'd="M0 0H4V4Z"/><path id="oeste" d="M4 0h3v3z"/></svg>')
            with four() as (_, port):
                press(port, "--setup", "setup.toml",
                      *site_folder(map=drawn, before=FOUR_BEFORE, site='language = "es"\n'),
                      folder="four")
            for file in ("index", "count", "con-norte", "con-oeste", "stations-norte-1"):
                with self.subTest(file=file):
                    it.open((Path.cwd() / f"four/{file}.html").as_uri())
                    shows_well(it, f"four-{file}")
                    self.drawn_well(it, f"four-{file}")
                    self.printed_well(it, f"four-{file}")
            with modelled(EXAMPLES) as (office, port):
                done(office, "/con/montehondo/import",
                     (ROOT / "examples/returns.csv").read_text(encoding="utf-8"))
                done(office, f"/station/{STATIONS[0]}/close", {"rev": 1})
                press(port, folder="codes")
            it.open((Path.cwd() / "codes/index.html").as_uri())
            shows_well(it, "codes-index")
            self.drawn_well(it, "codes-index")
            it.open((Path.cwd() / "certified/con-c1.html").as_uri())
            # Each dot and each bar has the colour of its list, and a bar's length is its share.
            self.assertEqual(it.run("return new Set([...document.querySelectorAll('.seats "
                                    "path')].map((c) => getComputedStyle(c).stroke)).size"), 2)
            self.assertEqual(it.run("const [a, b] = document.querySelectorAll('.length'); return "
                                    "[a, b].map((e) => e.getBoundingClientRect().width > 100)"),
                             [True] * 2)

    @needs("chromium")
    def test_colours_that_a_reader_forces(self):
        """Bars, how much is counted and the colours of the lists are seen, light and dark."""
        with answering_desk(TWIN) as (port, _):
            press(port)
        with browser.tab() as it:
            it.open((Path.cwd() / "pages/con-c1.html").as_uri())
            for colours in ("light", "dark"):
                it.command("Emulation.setEmulatedMedia", media="", features=[
                    {"name": "forced-colors", "value": "active"},
                    {"name": "prefers-color-scheme", "value": colours}])
                self.assertEqual((colours, it.run(SEEN)), (colours, [True] * 3))

    @needs("chromium")
    def test_the_search_of_the_press_pages(self):
        """It leaves the rows with what is typed, whatever the accents and the case, and takes those
        of further pages with them. Without scripts every row is there, and no field."""
        heads = ("return [...document.querySelectorAll('.searched tbody th')].map((e) => "
                 "e.innerText.split('\\n')[0])")
        with four() as (_, port):
            press(port, "--setup", "setup.toml", folder="four")
        many_stations()
        with browser.tab() as it, web_server(Path.cwd()) as site:
            it.open(f"{site}/four/elected-1.html")
            elected = ["B1", "B2", "A1", "A2", "B1"]
            self.assertEqual(it.run(heads), elected)
            for typed, found in (("NÓRTE", ["A1", "A2", "B1"]), ("beta", []), ("a2", ["A2"])):
                with self.subTest(typed=typed, found=found):
                    it.type(".search input", typed)
                    self.assertEqual((it.run(heads), it.text(".search output")),
                                     (found, str(len(found))))
            erase(it, "a2")
            self.assertEqual((it.run(heads), it.text(".search output")), (elected, ""))
            it.open(f"{site}/many/stations-c1-2.html")
            own = it.run(heads)
            self.assertEqual((own[0] > "s1", "s7" in own), (True, False))
            it.type(".search input", "s99")
            it.wait("return document.querySelector('.search output').textContent === '11'")
            self.assertEqual(it.run(heads), ["s99", *(f"s{n}" for n in range(990, 1000))])
            erase(it, "s99")
            it.wait("return document.querySelector('.search output').textContent === ''")
            self.assertEqual(it.run(heads), own)
            it.command("Emulation.setScriptExecutionDisabled", value=True)
            it.open(f"{site}/four/elected-1.html")
            self.assertEqual((it.run(heads), it.visible(".search")), (elected, False))

    @needs("chromium")
    def test_a_search_whose_pages_do_not_come(self):
        """They are asked for again with the next letter: no row is left out for good."""
        refuse = """window.asked = fetch;
          window.fetch = () => arguments[0] ? Promise.reject(new TypeError("no answer"))
            : Promise.resolve(new Response("Too many", { status: 429 }));"""
        with four() as (_, port):
            press(port, "--setup", "setup.toml", folder="four")
        many_stations()
        with browser.tab() as it, web_server(Path.cwd()) as site:
            for is_lost in (False, True):
                with self.subTest(is_lost=is_lost):
                    it.open(f"{site}/many/stations-c1-2.html")
                    it.run(refuse, is_lost)
                    it.type(".search input", "s9")
                    it.wait("return document.querySelector('.search output').textContent")
                    it.run("window.fetch = window.asked")
                    it.type(".search input", "s99")
                    it.wait("return document.querySelector('.search output').textContent === '11'")
                    it.open(f"{site}/four/index.html")
                    it.run(refuse, is_lost)
                    it.type(".find input", "oes")
                    it.run("window.fetch = window.asked")
                    it.type(".find input", "oest")
                    it.wait("return document.querySelector('.find output').textContent === '1'")
