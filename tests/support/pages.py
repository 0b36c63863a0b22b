"""The press pages: what they are made of, and what is on them."""

import base64
import hashlib
import html.parser
import re
import sys
from pathlib import Path

from tests.support import tools
from tests.support.running import PATIENCE
from tests.support.site import DEPLOY, same

# The bytes of the largest page.
PAGE_BYTES = 60_000
# The result of Twin Town, certified with the lot B, A: that of docs/FORMATS.md.
RESULT = {
    "awards": [["B", 1, 100, 1], ["A", 1, 100, 1], ["B", 2, 100, 2]], "base": "valid", "blank": 0,
    "certified": True, "closed": 1, "con": "c1", "corrected": 0, "edition": 3, "entry": "single",
    "gone": [], "group": [], "holders": [["A", 1, "Ana"], ["B", 1, "Bea"], ["B", None, None]],
    "lists": [{"code": "A", "eligible": True, "name": "Alpha", "provisional": 1, "seats": 1,
               "short": 1, "votes": 100},
              {"code": "B", "eligible": True, "name": "Beta", "provisional": 2, "seats": 2,
               "short": 200, "votes": 100}],
    "lot": ["B", "A"], "lot_rule": "fixed", "method": "dhondt", "name": "Twin Town", "note": "",
    "past": [], "queried": 0, "question": 0, "quota": [], "received": 0, "seats": 3, "spoiled": 0,
    "stations": 1, "status": "certified", "threshold": 0}


def with_lists(result, **columns):
    """A result whose lists have these values under these names, in their order."""
    return result | {"lists": [row | {key: values[n] for key, values in columns.items()}
                               for n, row in enumerate(result["lists"])]}


def view_of(result):
    """The view that GET /con/CODE shows of a constituency with this result."""
    keys = ("blank", "certified", "closed", "con", "edition", "lot", "note", "spoiled", "stations")
    return {key: result[key] for key in keys} | {
        "gone": [{"list": code, "note": note, "place": place}
                 for code, place, note in result["gone"]],
        "seats": [row["seats"] for row in result["lists"]] if result["certified"] else [],
        "votes": [row["votes"] for row in result["lists"]],
        **({"entry": "double"} if result["entry"] == "double" else {})}


def results_of(*results):
    """The answers of a desk that has these results, but for those on stations."""
    return {"/results": list(results), **{f"/con/{result['con']}/result": result
                                          for result in results},
            **{f"/con/{result['con']}": view_of(result) for result in results}}


def renamed(answers, names):
    """These answers of a desk with other names in its results."""
    def other(value):
        if isinstance(value, dict):
            return {key: other(one) for key, one in value.items()}
        if isinstance(value, list):
            return [other(one) for one in value]
        return names.get(value, value) if isinstance(value, str) else value

    return answers | results_of(*other(answers["/results"]))


# The answers of a desk for Twin Town; and once its certificate is withdrawn.
TWIN = results_of(RESULT) | {
    "/con/c1/stations": (
        "STATIONS c1 Twin Town\nstations 1 missing 0 closed 1\n"
        "s1                   300 closed       2 p1                   200       0       0\n"),
    "/con/c1/returns": "station,slip,blank,spoiled,A,B\ns1,p1,0,0,100,100\n",
}
OF_STATIONS = ("/con/c1/stations", "/con/c1/returns")
WITHDRAWN = with_lists(RESULT, seats=[None, None]) | {
    "certified": False, "edition": 4, "note": "a <recount>", "status": "open", "holders": [],
    "past": [{"edition": 3, "seats": [1, 2]}]}
REOPENED = TWIN | results_of(WITHDRAWN)


def press(port, *words, folder="pages", status=0):
    """Runs press.py once; its last line."""
    done = tools.run(
        [sys.executable, DEPLOY / "press.py", f"http://127.0.0.1:{port}", folder, *words],
        capture_output=True, text=True, timeout=PATIENCE)
    assert done.returncode == status, f"status {done.returncode}: {done.stdout}{done.stderr}"
    return done.stdout.splitlines()[-1]


def read(name, folder="pages"):
    return Path(folder, name).read_text(encoding="utf-8")


class Page(html.parser.HTMLParser):
    """A page's tables by their captions, and what is wrong with it."""

    VOID = {"meta", "link", "br", "hr", "img", "input", "base"}

    def __init__(self, text):
        super().__init__()
        self.open, self.wrong, self.tables, self.all_tables, self.ids = [], [], {}, [], set()
        # Those of the sections before.
        self.figures = self.of_figures = self.of_tables = 0
        self.caption, self.cells, self.row = None, None, None
        self.policy, self.scripts = "", 0
        self.feed(text)
        self.close()
        self.wrong += [f"{tag} is not closed" for tag in self.open]

    def handle_starttag(self, tag, attributes):
        attributes = dict(attributes)
        if tag not in self.VOID:
            self.open.append(tag)
        self.look(tag, attributes)
        if tag == "table":
            self.caption, self.cells = "", []
        elif tag == "tr" and self.cells is not None:
            self.cells.append([])
        elif tag in ("td", "th") and self.cells is not None:
            self.cells[-1].append("")

    def handle_startendtag(self, tag, attributes):
        self.look(tag, dict(attributes))

    def look(self, tag, attributes):
        """Looks for attributes that no element may have, and for those that a picture needs."""
        if tag == "script":
            self.scripts += 1
        if tag == "meta" and attributes.get("http-equiv") == "Content-Security-Policy":
            self.policy = attributes["content"]
        if any(name.startswith("on") for name in attributes):
            self.wrong.append(f"{tag}: a script")
        self.wrong += [f"{tag}: {value}" for name, value in attributes.items()
                       if name in ("href", "src") and re.match(r"\w+:|//", value)]
        if "id" in attributes:
            if attributes["id"] in self.ids:
                self.wrong.append(f"id {attributes['id']} twice")
            self.ids.add(attributes["id"])
        if tag == "figure":
            self.figures += 1
            if not attributes.get("aria-label"):
                self.wrong.append("a figure without a label")
        if tag == "svg" and "figure" not in self.open:
            self.wrong.append("a picture outside a figure")

    def handle_endtag(self, tag):
        if not self.open or self.open.pop() != tag:
            self.wrong.append(f"{tag} is closed and not open")
        if tag == "table":
            # (whatever the width of a space, and whether a line may end there)
            self.tables[self.caption] = [[" ".join(cell.split()) for cell in row]
                                         for row in self.cells]
            self.all_tables.append((self.caption, self.tables[self.caption]))
            self.cells = None
        if tag == "section":
            if self.figures > self.of_figures and len(self.all_tables) == self.of_tables:
                self.wrong.append("a figure without its table")
            self.of_figures, self.of_tables = self.figures, len(self.all_tables)

    def handle_data(self, data):
        if self.open[-1:] == ["script"]:
            if f"script-src 'sha256-{sha256_in_base64(data)}'" not in self.policy:
                self.wrong.append("a script that the policy does not name")
        if self.cells is None:
            return
        if "caption" in self.open:
            self.caption += data
        elif self.cells and self.cells[-1]:
            self.cells[-1][-1] += data


def sha256_in_base64(text):
    return base64.b64encode(hashlib.sha256(text.encode()).digest()).decode()


def page_of(name, folder="pages"):
    """A page that is well formed, below 60 kB, has no address elsewhere, and a table for each
    picture. It has one script, which the policy names, and some have a search."""
    text = read(name, folder)
    page = Page(text)
    same(page.wrong, [])
    searches = bool(re.match(r"index\.|stations-|cons-|places-|elected", name))
    same((page.scripts, text.count('type="search"')),
         (int(not name.startswith("embed")), int(searches)))
    assert page.policy.startswith("default-src 'none'; style-src 'unsafe-inline'"), page.policy
    assert len(text.encode()) < PAGE_BYTES, f"{name}: {len(text.encode())} bytes"
    return page


def site_folder(**files):
    """A folder of a site with these files."""
    folder = Path("site")
    folder.mkdir(exist_ok=True)
    for name, text in files.items():
        kind = {"site": "toml", "map": "svg"}.get(name, "csv")
        (folder / f"{name}.{kind}").write_text(text, encoding="utf-8")
    return "--site", str(folder)


def shown_text(text):
    """The text of a page, without its marks."""
    return re.sub(r"\s+", " ", re.sub(r"<(style|script)>.*?</\1>|<[^>]*>", "", text, flags=re.S))
