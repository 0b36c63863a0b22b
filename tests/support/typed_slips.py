"""Slips typed into the clerks' page by keys alone, before the model of an office."""

import contextlib
import os
import shutil
import tomllib
from pathlib import Path

from tests.support import pictures
from tests.support.case import ROOT, Case
from tests.support.clerks import said
from tests.support.desks import modelled
from tests.support.model import Office
from tests.support.office import PROFILE, constituency, party_list, station
from tests.support.pages import press
from tests.support.rounds import DEPLOY

TEXTS = {language: tomllib.loads((DEPLOY / f"clerk/texts_{language}.toml").read_text("utf-8"))
         for language in ("en", "es")}
PAGES = {"en": "clerk.html", "es": "clerk_es.html"}
ENTER, ESCAPE, DOWN, UP, TAB = "\ue007", "\ue00c", "\ue015", "\ue013", "\ue004"
CODES = ["46-001-05-A", "46-001-05-B", "46-001-15-A", "46-002-01-A"]
LISTS = [(f"L{n}", f"List {n}", f"Name {n}") for n in range(1, 9)]


def setup_of(entry="double", codes=CODES):
    """A constituency of eight lists with these stations, and one of another town."""
    lists = "".join(party_list(*one) for one in LISTS)
    return (PROFILE + constituency("c1", "Xàtiva", 5, "d0") + f'entry = "{entry}"\n' + lists
            + "".join(station(code, 651) for code in codes) + constituency("c2", "Port", 1, "d0")
            + lists + station("s9", 300))


FIGURES = [120, 85, 60, 41, 30, 12, 7, 3]
LODGED = {"slip": "r101", "votes": FIGURES, "blank": 4, "spoiled": 2}
TYPED = [*map(str, FIGURES), "4", "2", str(sum(FIGURES) + 6)]
# The values of a form's fields, and the name of the field that has the focus.
VALUES = ("return [...document.querySelectorAll('#' + arguments[0] + ' input')]"
          ".filter((e) => e.type !== 'checkbox').map((e) => e.value)")
FIELD = "const e = document.activeElement; return e.name || e.id"


def place(text, **values):
    """A text of the page with its places filled in."""
    return text.format(**values)


class TypedCase(Case):
    """A case whose pages are those of a site before the model of an office."""

    may_leave_files = True

    def setUp(self):
        super().setUp()
        self.addCleanup(setattr, pictures, "ROOT", ROOT)
        os.makedirs("deploy/www")
        pictures.ROOT = Path.cwd()

    def published(self, setup, **files):
        """The files of a site before the page, by the names of those in its folder."""
        shutil.rmtree("pages", ignore_errors=True)
        Path("site").mkdir(exist_ok=True)
        for name, text in files.items():
            Path("site", f"{name}.csv").write_text(text, encoding="utf-8")
        Path("setup.toml").write_text(setup, encoding="utf-8")
        with modelled(setup) as (_, port):
            press(port, "--setup", "setup.toml", "--site", "site")
        return Office(tomllib.loads(setup))

    @contextlib.contextmanager
    def page(self, it, language, office, name="clara", role="clerk", histories=None):
        """The page in a language, once it says that it is up to date; its texts."""
        shutil.copy(DEPLOY / "www" / PAGES[language], "deploy/www/clerk.html")
        texts = TEXTS[language]
        with pictures.clerks_site(office, name, role, histories) as address:
            it.open(address)
            said(it, texts["now"])
            yield texts
            # (what was typed and not sent asks nobody whether to go)
            it.run("document.querySelectorAll('form').forEach((form) => form.reset())")
