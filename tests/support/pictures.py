"""Pictures of pages: drawn, as PNG, and beside stored ones.

Chromium draws each page on a desk and on a phone, light and dark, and some as they are printed. All
is drawn in DejaVu fonts, so that the fonts of the machine do not matter.

A picture in tests/pictures/ has a point for each cell of 16 by 16 points of the page, with the mean
of its colours. Another build of Chromium may draw a little differently, which is allowed; a block
that moved is not.
"""

import base64
import contextlib
import functools
import http.server
import math
import os
import struct
import threading
import tomllib
import unittest
import zlib
from pathlib import Path

from tests.support import browser, model
from tests.support.case import ROOT
from tests.support.countries import invented_country
from tests.support.desks import answer_of, done, modelled
from tests.support.pages import press
from tests.support.scripts import in_page
from tests.support.site import EXAMPLES, LATE, STATIONS, same

STORED = ROOT / "tests/pictures"
# Whether the pictures are stored again.
STORE = bool(os.environ.get("OFFICE_STORE_PICTURES"))
# Points of a cell's side; how far the mean of a colour, of 255, may be from the stored one; and how
# many cells of a picture may be further from it, each of which a moved line has.
CELL, APART, MOST = 16, 10, 4
# How a page is drawn: width, in the dark, and printed, as wide as A4 within its margins.
VIEWS = {"desk": (1280, False, False), "desk-dark": (1280, True, False),
         "phone": (390, False, False), "phone-dark": (390, True, False), "print": (718, True, True)}
SCREENS = ("desk", "desk-dark", "phone", "phone-dark")


def as_picture(columns, rows, points):
    """A PNG of these points, three bytes each."""
    def part(kind, data):
        end = struct.pack(">I", zlib.crc32(kind + data))
        return struct.pack(">I", len(data)) + kind + data + end

    lines = b"".join(b"\0" + points[row * columns * 3:(row + 1) * columns * 3]
                     for row in range(rows))
    return (b"\x89PNG\r\n\x1a\n"
            + part(b"IHDR", struct.pack(">IIBBBBB", columns, rows, 8, 2, 0, 0, 0))
            + part(b"IDAT", zlib.compress(lines, 9)) + part(b"IEND", b""))


def read_picture(png):
    """Columns, rows and points of such a PNG."""
    parts, at = {}, 8
    while at < len(png):
        length, kind = struct.unpack(">I4s", png[at:at + 8])
        parts[kind], at = png[at + 8:at + 8 + length], at + length + 12
    columns, rows = struct.unpack(">II", parts[b"IHDR"][:8])
    lines, wide = zlib.decompress(parts[b"IDAT"]), columns * 3 + 1
    same({lines[row * wide] for row in range(rows)}, {0})
    return columns, rows, b"".join(lines[row * wide + 1:(row + 1) * wide] for row in range(rows))


def apart(found, stored):
    """The cells of two pictures that are further from each other than is allowed, by row and
    column: what one of them lacks too."""
    (columns, rows, points), (wide, high, others) = found, stored
    cells = []
    for row in range(max(rows, high)):
        for column in range(max(columns, wide)):
            inside = row < min(rows, high) and column < min(columns, wide)
            one, other = (row * columns + column) * 3, (row * wide + column) * 3
            if not inside or max(abs(points[one + n] - others[other + n])
                                 for n in range(3)) > APART:
                cells.append((row, column))
    return cells


# One moment in the place of all, and the fonts.
STILL, FONTS = in_page("still.js"), in_page("fonts.css")
MEANS = in_page("means.js")
# The only fonts that the browser is given, and how it draws them, whatever else is on the machine.
DEJAVU = in_page("fonts.conf")
WIDTH = in_page("text_width.js")


@contextlib.contextmanager
def chromium():
    """A browser that draws the same on each machine, as far as it can."""
    Path("fonts.conf").write_text(DEJAVU, encoding="utf-8")
    with browser.browser(Path.cwd(), "--force-color-profile=srgb", "--font-render-hinting=none",
                         "--disable-lcd-text", "--force-device-scale-factor=1", "--lang=en-US",
                         FONTCONFIG_FILE=str(Path("fonts.conf").resolve())) as it:
        # Of DejaVu Sans an M has 1,767 of 2,048 parts and an i 569; of its Mono each has 1,233.
        for font, wanted in (("DejaVu Sans", round(100 * (1767 + 569) / 2048)),
                             ("DejaVu Sans Mono", round(100 * 2 * 1233 / 2048))):
            if it.run(WIDTH, font, "Mi") != wanted:
                raise unittest.SkipTest(f"the font {font} is not there")
        it.patience = 120
        yield it


def drawn(it):
    """A picture of the window, as base64, once two that follow one another are the same: in the
    first a part may not be drawn yet."""
    shots = []
    while len(shots) < 2 or shots[-1] != shots[-2]:
        assert len(shots) < 20, "each picture of the page is another one"
        if shots:
            it.run_later("requestAnimationFrame(() => requestAnimationFrame(arguments[0]))")
        shots.append(it.command("Page.captureScreenshot", format="png")["data"])
    return shots[-1]


def unless_it_hangs(test):
    """A test that is made again, up to three times, where Chromium gives no picture at all, as it
    may on a machine that has much else to do."""
    @functools.wraps(test)
    def run(self):
        for left in (2, 1, 0):
            try:
                return test(self)
            except TimeoutError:
                if not left:
                    raise
                print("Chromium does not answer: again", flush=True)
    return run


def draw(it, view, style=""):
    """The page as it is shown in a view, all of it, as means of cells; and the picture itself."""
    width, dark, printed = VIEWS[view]
    it.run(STILL, FONTS + style)
    it.size(width, 300, dark)
    if printed:
        it.command("Emulation.setEmulatedMedia", media="print",
                   features=[{"name": "prefers-color-scheme", "value": "dark"}])
    height = it.run("return document.documentElement.scrollHeight")
    it.command("Emulation.setDeviceMetricsOverride", width=width, height=height,
               deviceScaleFactor=1, mobile=False)
    it.run("scrollTo(0, 0)")
    shot = drawn(it)
    columns, rows, means = it.run_later(MEANS, shot, CELL)
    same((columns, rows), (math.ceil(width / CELL), math.ceil(height / CELL)))
    it.command("Emulation.setEmulatedMedia", media="", features=[])
    it.run("[...document.head.querySelectorAll('style')].at(-1).remove()")
    return (columns, rows, bytes(means)), base64.b64decode(shot)


def counted(office, close=STATIONS, certified=False):
    """A model of an office, with the returns of the examples, of which these are closed."""
    done(office, "/con/montehondo/import",
         (ROOT / "examples/returns.csv").read_text(encoding="utf-8"))
    if certified:
        for station, lodged in LATE.items():
            done(office, f"/station/{station}/lodge", lodged)
    for station in close:
        done(office, f"/station/{station}/close", {"rev": 1})
    if certified:
        done(office, "/con/montehondo/certify", {"edition": 1})
    return office


def press_pages():
    """The pages of Montehondo, in the folder `pages`."""
    Path("setup.toml").write_text(EXAMPLES, encoding="utf-8")
    with modelled(EXAMPLES) as (office, port):
        counted(office, certified=True)
        press(port, "--setup", "setup.toml", "--site", str(ROOT / "examples/site"))


def office_of(setup):
    return model.Office(tomllib.loads(setup))


HISTORY = {"whole": True, "commands": [
    {"n": 1, "time": "2026-11-29T21:02:00.000+01:00", "name": "clara", "role": "clerk",
     "act": "lodge", "status": 200,
     "body": '{"slip":"r101","votes":[120,85,40,22,5],"blank":4,"spoiled":2}',
     "answer": '{"ok":"lodged","rev":1}'},
    {"n": 3, "time": "2026-11-29T21:05:00.000+01:00", "name": "sara", "role": "second",
     "act": "confirm", "status": 409,
     "body": '{"rev":1,"slip":"r101","votes":[120,58,40,22,5],"blank":4,"spoiled":2}',
     "answer": '{"refused":7,"word":"differs"}'}]}

TYPED = {"con": "c1", "since": "2026-11-29T21:02:00+01:00", "names": [
    {"name": "clara", "role": "clerk", "lodge": 1031, "confirm": 0, "correct": 2},
    {"name": "sara", "role": "second", "lodge": 0, "confirm": 29, "correct": 0}]}


@contextlib.contextmanager
def clerks_site(office, name, role, histories=None):
    """The clerks' page of somebody, before the model of an office in place of proxy and program;
    its address. The histories are those of their stations, or else all the same."""
    class Site(http.server.BaseHTTPRequestHandler):
        def log_message(self, *_):
            pass

        def answered(self):
            target, body = self.path.removeprefix("/now"), self.rfile.read(int(
                self.headers["Content-Length"] or 0)).decode()
            files = {"/clerk.html": ("text/html; charset=utf-8", ROOT / "deploy/www/clerk.html"),
                     "/setup.json": ("application/json", Path("pages/setup.json"))}
            if Path("pages/site.json").exists():
                files["/site.json"] = ("application/json", Path("pages/site.json"))
            if target in files:
                kind, file = files[target]
                head = (f"HTTP/1.0 200 X\r\nContent-Type: {kind}\r\nX-Office-Name: {name}\r\n"
                        f"X-Office-Role: {role}\r\n\r\n")
                self.wfile.write(head.encode()
                                 + (file.read_bytes() if self.command == "GET" else b""))
            elif target == "/logout":
                self.wfile.write(b"HTTP/1.0 204 X\r\n\r\n")
            else:
                # (the recorder answers a clerk of itself alone)
                own = TYPED | {"names": [one for one in TYPED["names"]
                                         if role == "board" or one["name"] == name]}
                station = target.removeprefix("/station/").removesuffix("/history")
                history = (histories or {}).get(station, HISTORY)
                self.wfile.write(answer_of(history if target.endswith("/history")
                                           else own if target.endswith("/typed")
                                           else office.ask(self.command, target, body)))

        do_GET = do_HEAD = do_POST = answered

    with http.server.ThreadingHTTPServer(("127.0.0.1", 0), Site) as server:
        threading.Thread(target=server.serve_forever, daemon=True).start()
        yield f"http://127.0.0.1:{server.server_port}/clerk.html"
        server.shutdown()


READY = ("return document.getElementById('said').textContent.includes(arguments[0]) && "
         "!document.getElementById('again').disabled")


def opened(it, address, station=None):
    it.open(address)
    it.wait(READY, "This is what the office has now.")
    if station:
        it.run("const e = document.getElementById('station'); e.value = arguments[0]; "
               "e.dispatchEvent(new Event('change'))", station)
        it.wait(READY, "This is what the office has now.")
        it.wait("return document.getElementById('station').value === arguments[0]", station)


def clerks_pages(it):
    """The clerks' page as those see it who have a name: what it is called, the views, once each is
    shown."""
    some = [station for station in STATIONS if station not in LATE][:9]
    with clerks_site(counted(office_of(EXAMPLES), some), "clara", "clerk") as address:
        opened(it, address, "04-002-B")
        it.click("#who")
        it.wait(READY, "The history of station 04-002-B is shown.")
        yield "clerk", SCREENS
        # Two figures are exchanged.
        opened(it, address, "04-001-B")
        slip = ("r213", 68, 60, 44, 2, 17, 2, 1, 194)
        it.run("[...document.querySelectorAll('#lodge input')].forEach((e, n) => { e.value = "
               "arguments[0][n]; })", slip)
        it.click("#lodge button")
        it.wait("return document.querySelector('#lodge .warning')")
        yield "unusual", SCREENS
        it.run("document.getElementById('lodge').reset()")
    double = EXAMPLES.replace('profile = "loreg"\n', 'profile = "loreg"\nentry = "double"\n')
    with clerks_site(counted(office_of(double), ()), "sara", "second") as address:
        opened(it, address, "04-002-B")
        yield "second", SCREENS
    with clerks_site(counted(office_of(EXAMPLES), certified=True), "berta", "board") as address:
        opened(it, address)
        it.run("Object.defineProperty(Intl.DateTimeFormat.prototype, 'format', "
               "{ value: () => 'Sun Nov 29 2026 21:14:00 GMT+0100' })")
        yield "board", SCREENS
        it.type("#reopen input[name=note]", "a recount")
        it.click("#reopen button")
        it.accept()
        it.wait(READY, "Done.")
        yield "receipt", ("desk", "print")
    with clerks_site(counted(office_of(EXAMPLES), ()), "04-001-B", "station") as address:
        opened(it, address)
        yield "station", SCREENS


def all_pages(it):
    """Each page, once it is shown, with the views of it."""
    press_pages()
    invented_country()
    for name, file, views in (("national", "country/index", (*SCREENS, "print")),
                              ("count", "country/count", ("desk", "phone-dark")),
                              ("constituency", "pages/con-montehondo", (*SCREENS, "print")),
                              ("first", "pages/index", ("desk", "phone-dark")),
                              ("stations", "pages/stations-montehondo-1", (*SCREENS, "print"))):
        it.open((Path.cwd() / f"{file}.html").as_uri())
        yield name, views
    yield from clerks_pages(it)


def against(name, found):
    """The cells of a page that are apart from its stored picture: all, where there is none."""
    return apart(
        found,
        read_picture((STORED / name).read_bytes()) if (STORED / name).exists() else (0, 0, b""))
