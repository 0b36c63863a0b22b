"""Chromium without a window, driven over the WebDriver protocol (W3C) with Python alone."""

import atexit
import base64
import contextlib
import http.client
import json
import os
import shutil
import signal
import subprocess
import tempfile
import time

from tests.support.running import PATIENCE, free_port
from tests.support.site import NAME

DRIVER = shutil.which("chromedriver")
CHROMIUM = shutil.which("chromium") or shutil.which("chromium-browser")
# The name of an element's number in the protocol.
KEY = "element-6066-11e4-a52e-4f735466cecf"
# Where the middle of a part is. It is brought to the middle of the window before where it is
# outside, or where another one is over it, as a line that stays at the top.
MIDDLE = """const [css] = arguments, e = document.querySelector(css);
const middle = () => { const [box] = e.getClientRects();
  return [Math.floor(box.x + box.width / 2), Math.floor(box.y + box.height / 2)]; };
const isFree = () => e.contains(document.elementFromPoint(...middle()));
if (!isFree()) e.scrollIntoView({ block: "center" });
if (!isFree()) throw new Error(`another part is over ${css}`);
return middle();"""
# Goes to a field, of which all is selected.
FIELD = """const [css] = arguments, e = document.querySelector(css);
e.focus();
e.select();
if (document.activeElement !== e) throw new Error(`${css} takes no keys`);"""
DELETE = "\ue017"


class Failed(Exception):
    """The browser could not do what it was asked to."""


class Browser:
    def __init__(self, port, session=None):
        self.session, self.patience = session, PATIENCE
        self.connection = http.client.HTTPConnection("127.0.0.1", port)

    def ask(self, method, path, body=None):
        self.connection.timeout = self.patience
        if self.connection.sock:
            self.connection.sock.settimeout(self.patience)
        try:
            self.connection.request(method, path, None if body is None else json.dumps(body),
                                    {"Content-Type": "application/json"})
            answer = self.connection.getresponse()
            value = json.loads(answer.read())["value"]
        except BaseException:
            # (what comes later is no answer to the next question)
            self.connection.close()
            raise
        if answer.status != 200:
            raise Failed(f"{path}: {value['error']}: {value['message'].splitlines()[0]}")
        return value

    def of_session(self, method, path, body=None):
        return self.ask(method, f"/session/{self.session}{path}", body)

    def go_to(self, window):
        """Goes to a window or a tab, which is what all else is asked of from then on."""
        self.of_session("POST", "/window", {"handle": window})

    def open(self, url):
        self.of_session("POST", "/url", {"url": url})

    def run(self, script, *arguments):
        """Runs the body of a function in the page: the value that it returns."""
        return self.of_session("POST", "/execute/sync", {"script": script, "args": list(arguments)})

    def run_later(self, script, *arguments):
        """Runs the body of a function: the value that it gives to its last argument, a function."""
        return self.of_session("POST", "/execute/async",
                               {"script": script, "args": list(arguments)})

    def command(self, name, **parameters):
        """A command of the browser's own protocol."""
        return self.of_session("POST", "/goog/cdp/execute", {"cmd": name, "params": parameters})

    def find(self, css):
        return self.of_session("POST", "/element", {"using": "css selector", "value": css})[KEY]

    def act(self, kind, actions):
        """Lets a keyboard or a mouse do this, one after the other."""
        self.of_session("POST", "/actions",
                        {"actions": [{"type": kind, "id": kind, "actions": actions}]})

    def keys(self, *pressed):
        """Presses keys, one after the other, as a keyboard does."""
        self.act("key", [{"type": kind, "value": key} for key in "".join(pressed)
                         for kind in ("keyDown", "keyUp")])

    def click(self, css):
        """Presses a part. One that is not seen is brought to the middle of the window before, as
        somebody who presses it does."""
        x, y = self.run(MIDDLE, css)
        self.act("pointer", [{"type": "pointerMove", "x": x, "y": y},
                             {"type": "pointerDown", "button": 0},
                             {"type": "pointerUp", "button": 0}])

    def type(self, css, text):
        """Types a text into a field, in the place of what is there."""
        self.run(FIELD, css)
        self.keys(text or DELETE)

    def text(self, css):
        return self.of_session("GET", f"/element/{self.find(css)}/text")

    def visible(self, css):
        return self.run("const e = document.querySelector(arguments[0]); return Boolean(e && "
                        "e.getClientRects().length)", css)

    def accept(self):
        """Answers the page's question with yes, once it asks; the question."""
        text = self.question()
        self.of_session("POST", "/alert/accept", {})
        return text

    def dismiss(self):
        """Answers the page's question with no, once it asks; the question."""
        text = self.question()
        self.of_session("POST", "/alert/dismiss", {})
        return text

    def question(self, seconds=PATIENCE):
        end = time.monotonic() + seconds
        while not self.asked():
            if time.monotonic() > end:
                raise Failed("the page asks nothing")
            time.sleep(0.05)
        return self.of_session("GET", "/alert/text")

    def asked(self):
        """Whether the page asks a question."""
        try:
            return bool(self.of_session("GET", "/alert/text"))
        except Failed:
            return False

    def wait(self, script, *arguments, seconds=PATIENCE):
        """Waits until a function's body returns something that is true."""
        end = time.monotonic() + seconds
        while not (found := self.run(script, *arguments)):
            if time.monotonic() > end:
                raise Failed(f"waited for {script} {arguments}")
            time.sleep(0.05)
        return found

    def named(self, *roles):
        """The parts of these roles in what the browser tells a screen reader: each with its role
        and its name."""
        found = self.command("Accessibility.getFullAXTree")["nodes"]
        return [(one["role"]["value"], one.get("name", {}).get("value", "")) for one in found
                if not one["ignored"] and one["role"]["value"] in roles]

    def size(self, width, height, dark=False):
        """The size of the page's window, and its colours."""
        self.command("Emulation.setDeviceMetricsOverride", width=width, height=height,
                     deviceScaleFactor=1, mobile=False)
        self.command(
            "Emulation.setEmulatedMedia",
            features=[{"name": "prefers-color-scheme", "value": "dark" if dark else "light"}])

    def picture(self, file, whole=False):
        shot = self.command("Page.captureScreenshot", format="png", captureBeyondViewport=whole)
        file.write_bytes(base64.b64decode(shot["data"]))


# The browsers that no test uses now, each with what ends it.
IDLE = []


def for_tabs():
    """A browser for tests that come one after the other, and what ends it: at the latest, the end
    of the suite."""
    held = contextlib.ExitStack()
    folder = held.enter_context(
        tempfile.TemporaryDirectory(prefix="office-browser-", ignore_cleanup_errors=True))
    it = held.enter_context(browser(folder, f"--host-resolver-rules=MAP {NAME} 127.0.0.1"))
    atexit.register(held.close)
    return it, held


@contextlib.contextmanager
def tab():
    """A browser of one tab, in which nothing is stored, and which finds the tests' site on this
    machine.

    To start a browser takes a slow processor two seconds. So one that a test has left is used
    again, unless that test failed. Two at once are two browsers.
    """
    it, held = IDLE.pop() if IDLE else for_tabs()
    with contextlib.ExitStack() as unless_well:
        unless_well.callback(held.close)
        yield it
        # What its pages stored, of all sites, and what it kept of their files.
        it.command("Storage.clearDataForOrigin", origin="*", storageTypes="all")
        it.command("Network.clearBrowserCache")
        old = it.of_session("GET", "/window/handles")
        new = it.of_session("POST", "/window/new", {"type": "tab"})["handle"]
        for window in old:
            it.go_to(window)
            it.of_session("DELETE", "/window")
        it.go_to(new)
        it.command("Page.bringToFront")
        unless_well.pop_all()
    IDLE.append((it, held))


@contextlib.contextmanager
def browser(folder, *words, **environment):
    """A browser with a profile of its own in the folder, and this added to its environment; it is
    ended at the end."""
    port = free_port()
    # Both keep files in the folder of temporary files, here the given folder.
    driver = subprocess.Popen(
        [DRIVER, f"--port={port}"], stdout=subprocess.DEVNULL, stderr=subprocess.DEVNULL,
        env={**os.environ, "TMPDIR": str(folder), "HOME": str(folder), **environment},
        start_new_session=True)
    it = Browser(port)
    try:
        wait_for_driver(it)
        it.session = it.ask("POST", "/session", capabilities(words))["sessionId"]
        yield it
    finally:
        if it.session:
            # (one that does not answer is ended all the same)
            it.patience = 20
            with contextlib.suppress(Exception):
                it.of_session("DELETE", "")
        # The browser too, where it was started and no session of it is known.
        os.killpg(driver.pid, signal.SIGTERM)
        driver.wait(timeout=PATIENCE)
        it.connection.close()


def capabilities(words):
    # As root Chromium has no sandbox of its own; the pages here are this repository's.
    arguments = ["--headless=new", "--no-sandbox", "--disable-gpu", "--disable-dev-shm-usage",
                 "--hide-scrollbars", "--no-first-run", "--disable-background-networking", *words]
    options = {"binary": CHROMIUM, "args": arguments}
    always = {"browserName": "chrome", "acceptInsecureCerts": True, "goog:chromeOptions": options,
              "timeouts": {"script": PATIENCE * 1000}, "unhandledPromptBehavior": "ignore"}
    return {"capabilities": {"alwaysMatch": always}}


def wait_for_driver(it):
    end = time.monotonic() + PATIENCE
    while True:
        try:
            return it.ask("GET", "/status")
        except OSError:
            if time.monotonic() > end:
                raise
            time.sleep(0.05)
