"""The press pages of the first election, beside those of tests/pages/."""

import os
import re
import subprocess
import tempfile
from pathlib import Path

from tests.support.case import PROGRAM, ROOT
from tests.support.pages import page_of, press, read
from tests.support.running import PATIENCE
from tests.support.site import EXAMPLES, SiteCase, readme_election, serving


def without_time(text):
    """A page or a file without the moment it is of, and without its style and its script."""
    text = re.sub(r"(?<=sha256-)[\w+/=]+", "",
                  re.sub(r"<(style|script)>.*?</\1>", r"<\1></\1>", text, flags=re.S))
    text = re.sub(r"<time [^>]*>[^<]*</time>(, \d+ \w+ earlier)?", "<time></time>", text)
    return re.sub(r'"time": "[^"]*"', '"time": ""', re.sub(r"<updated>[^<]*<", "<updated><", text))


class FirstElection(SiteCase):
    def test_the_pages_of_the_first_election(self):
        """They are those of tests/pages/, whose numbers are those of examples/README.md."""
        with serving(EXAMPLES) as desk:
            readme_election(desk)
            press(desk.port, "--setup", "setup.toml", "--site", str(ROOT / "examples/site"))
        stored = {file.name: file.read_text(encoding="utf-8")
                  for file in (ROOT / "tests/pages").iterdir()}
        found = {name: without_time(read(name)) for name in os.listdir("pages")
                 if not name.endswith(".gz")
                 and not name.startswith(".") and name not in ("manifest.json", "openapi.json")}
        self.assertEqual(sorted(found), sorted(stored))
        for name, text in found.items():
            with self.subTest(name=name):
                if name.endswith(".html"):
                    page_of(name)
                if text != stored[name]:
                    Path(tempfile.gettempdir(), name).write_text(text, encoding="utf-8")
                    self.fail(f"it differs from tests/pages/{name}, and is in "
                              f"{tempfile.gettempdir()}. Look at it before you store it")
        # By hand, in examples/README.md.
        self.assertEqual(page_of("con-montehondo.html").tables["Votes of each list"][1:], [
            ["ROBLE Lista del Roble", "1,235", "35.58% +0.99", "yes"],
            ["ENCINA Lista de la Encina", "1,134", "32.67% −5.38", "yes"],
            ["HAYA Lista del Haya", "694", "19.99% +3.64", "yes"],
            ["SAUCE Lista del Sauce", "299", "8.61% +0.75", "yes"],
            ["OLIVO Lista del Olivo", "65", "1.87% −0.02", "no"],
            ["Blank votes", "44", "1.27%", "–"]])
        self.assertEqual(page_of("con-montehondo.html").tables["Quotients of each list"][1:], [
            ["ROBLE", "1,235 ★ won", "617 ★ won", "411 ★ won", "308 ★ won", "247"],
            ["ENCINA", "1,134 ★ won", "567 ★ won", "378 ★ won", "283", "226"],
            ["HAYA", "694 ★ won", "347 ★ won", "231", "173", "138"],
            ["SAUCE", "299", "149", "99", "74", "59"]])
        # The office's own check adds up the published file: all rows lodged, and the votes of
        # above.
        checked = subprocess.run([PROGRAM, "check"], input=read("stations-montehondo-2.csv"),
                                 capture_output=True, text=True, timeout=PATIENCE)
        self.assertEqual(checked.stdout,
                         "lodged 15\nsame 0\ndiffers 0\nrefused 0\nbad 0\nfirst -\n"
                         "blank 44\nspoiled 22\n"
                         "ROBLE 1235\nENCINA 1134\nHAYA 694\nSAUCE 299\nOLIVO 65\n")
