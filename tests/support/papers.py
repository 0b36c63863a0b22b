"""Copies of databases, records of commands and papers, for tests of `deploy/papers`.

A copy is examples/montehondo.db, which the program made, with rows as the office would have them
after other commands.
"""

import contextlib
import hashlib
import json
import re
import shutil
import sqlite3
import subprocess
import unicodedata
from html.parser import HTMLParser
from pathlib import Path

from tests.support import tools
from tests.support.case import ROOT
from tests.support.office import party_list, station
from tests.support.record import chained
from tests.support.running import PATIENCE
from tests.support.scripts import module
from tests.support.site import DEPLOY, EXAMPLES, SiteCase

COPY = "copy.db"
CON = "montehondo"
RETURNS = ROOT / "examples/stations-montehondo-2.csv"
HASH = hashlib.sha256(RETURNS.read_bytes()).hexdigest()
# 1,235 of 3,471 are 35.58.. per cent, and so on.
LISTS = [["1", "ROBLE", "Lista del Roble", "1,235", "35.58 %", "4"],
         ["2", "ENCINA", "Lista de la Encina", "1,134", "32.67 %", "3"],
         ["3", "HAYA", "Lista del Haya", "694", "19.99 %", "2"],
         ["4", "SAUCE", "Lista del Sauce", "299", "8.61 %", "0"],
         ["5", "OLIVO", "Lista del Olivo", "65", "1.87 %", "0"]]
ELECTED = [["1", "Lista del Roble", "1", "Aurora Peral"],
           ["2", "Lista del Roble", "2", "Bruno Salcedo"],
           ["3", "Lista del Roble", "3", "Celia Monte"],
           ["4", "Lista del Roble", "4", "Damián Otero"],
           ["5", "Lista de la Encina", "1", "Elvira Cano"],
           ["6", "Lista de la Encina", "2", "Fermín Lara"],
           ["7", "Lista de la Encina", "3", "Gloria Vado"],
           ["8", "Lista del Haya", "1", "Inés Campo"],
           ["9", "Lista del Haya", "2", "Julián Prado"]]
BOARD = """title = "Election of Montehondo"
date = 2026-11-29
authority = "Board of Montehondo"
place = "Montehondo"

[[board]]
name = "Amparo Sanz"
role = "president"

[[board]]
name = "Carmen Soler"
role = "member"

[[board]]
name = "Diego Luna"
role = "Observer"
con = "montehondo"

[[board]]
name = "Nobody Here"
role = "member"
con = "elsewhere"

[[board]]
name = "Eva Cid"
role = "secretary"
"""


def copy_of(*statements, file=COPY):
    """Montehondo's database with these statements done, each a text or a text with its values."""
    shutil.copyfile(ROOT / "examples/montehondo.db", file)
    with contextlib.closing(sqlite3.connect(file)) as it:
        for one in statements:
            it.execute(*([one] if isinstance(one, str) else one))
        it.commit()
    return file


def setup_with(old, new):
    """A statement that changes the setup's text."""
    return "UPDATE setup SET text = replace(text, ?, ?)", (old, new)


def slip_of(station, votes, blank, spoiled):
    """Statements that give a closed return other numbers."""
    numbers = {0: blank, 61: spoiled, **dict(enumerate(votes, 1))}
    found = []
    for item, n in numbers.items():
        found.append(("UPDATE totals SET n = n + ? - (SELECT n FROM counts WHERE station = ? AND "
                      "item = ?) WHERE item = ?", (n, station, item, item)))
        found.append(("UPDATE counts SET n = ? WHERE station = ? AND item = ?", (n, station, item)))
    return found


def taken_out(station, status=1):
    """Statements that open a return: it counts no more, and there is no certificate."""
    return [("UPDATE totals SET n = totals.n - (SELECT n FROM counts WHERE station = ? AND "
             "counts.item = totals.item)", (station,)),
            ("UPDATE returns SET status = ?, rev = 1 WHERE station = ?", (status, station)),
            "UPDATE cons SET certified = 0, edition = 1", "DELETE FROM seats"]


# The last two returns as docs/GUIDE.md has them: ROBLE and ENCINA have 1,160 votes each.
TIE = [*slip_of("04-001-B", [20, 71, 15, 2, 1], 2, 1),
       *slip_of("04-002-A", [18, 63, 9, 1, 0], 0, 0)]
DRAWN = [*TIE, "INSERT INTO lots VALUES ('montehondo', 1, 2), ('montehondo', 2, 1)",
         "UPDATE cons SET edition = 3", "UPDATE seats SET n = 3 WHERE list = 1",
         "UPDATE seats SET n = 4 WHERE list = 2"]
NOT_DRAWN = [*TIE, "UPDATE cons SET certified = 0, edition = 1", "DELETE FROM seats"]


# Returns of the constituency are entered twice.
TWICE = setup_with("seats = 9", 'seats = 9\nentry = "double"')


def large(lists, stations):
    """Statements that make a constituency of lists and stations with long names, all of them closed
    and none certified."""
    places = range(1, lists + 1)
    text = EXAMPLES.partition("[[constituency.list]]")[0]
    text += "".join(party_list(f"LIST-OF-MANY-{n:02}",
                               f"Union of all the parties of the county no{n:02}", "Ana")
                    for n in places)
    text += "".join(station(f"s{n:02}", 2000) for n in range(1, stations + 1))
    votes = {0: 1, **{n: 9 + 400 // n for n in places}, 61: 2}
    votes = {item: n if item < 4 or item == 61 else 5 for item, n in votes.items()}
    found = [f"DELETE FROM {table}" for table in ("returns", "counts", "totals", "seats")]
    found += [("UPDATE setup SET text = ?", (text,)), "UPDATE cons SET certified = 0, edition = 1"]
    for n in range(1, stations + 1):
        found.append(("INSERT INTO returns VALUES (?, ?, 2, ?, 4, '')", (f"s{n:02}", CON, f"p{n}")))
        found += [("INSERT INTO counts VALUES (?, ?, ?)", (f"s{n:02}", *row))
                  for row in votes.items()]
    return found + [("INSERT INTO totals VALUES (?, ?, ?)", (CON, item, n * stations))
                    for item, n in votes.items()]


# ---- a constituency that is made by hand

RULE = {"code": "p", "method": "dhondt", "threshold": 0, "base": "valid"}
PEOPLE = {"A": ["Ana", "Abel"], "B": ["Bea", "Bo"]}


def con_of(votes=((3, 2), (4, 1)), lists=None, seats=3, rule=(), agents=0, status=4, blank=1,
           **more):
    """A constituency of 10 electors in each station: the first may have agents. Each return has so
    many blank votes, and two spoiled ones."""
    lists = lists or ["A", "B"][:len(votes[0])]
    stations = [{"code": f"s{n}", "electors": 10} for n in range(1, len(votes) + 1)]
    if agents:
        stations[0]["agents"] = agents
    setup = {"code": "c1", "name": "Twin Town", "seats": seats, "rule": RULE | dict(rule),
             "station": stations, "list": [
                 {"code": code, "name": f"List {code}",
                  "candidates": PEOPLE.get(code, ["Eva", "Ivo"])} for code in lists]}
    data = module("papers_data")
    returns = [data.Return(station["code"], 2, f"p{n}", status, "", blank, 2, list(row))
               for n, (station, row) in enumerate(zip(stations, votes), 1)]
    return data.Con(setup, returns=returns, **more)


# ---- running it


def papers(*words, status=0, program=DEPLOY / "papers", **how):
    """Runs the tool; what it says on both streams."""
    done = tools.run([program, *words], capture_output=True, text=True, timeout=PATIENCE,
                     check=False, **how)
    assert (done.returncode, "Traceback" in done.stderr) == (status, False), (
        f"status {done.returncode}, wanted {status}: {done.stdout}{done.stderr}")
    return done.stdout, done.stderr


class OfPapers(SiteCase):
    of_the_program = False

    def assert_has(self, found, *rows):
        for row in rows:
            with self.subTest(row=row):
                self.assertIn(row, found.rows)

    def refuses(self, said, *words, copy=COPY, status=1):
        """The tool says this in one line, and nothing is written."""
        out, error = papers(words[0], copy, "out", *words[1:], status=status)
        self.assertEqual((out, error.count("\n"), said in error), ("", 1, True), error)
        self.assertFalse(Path("out").exists())


class Paper(HTMLParser):
    """A page as rows of cells, and as words, without marks of direction; and what is open at its
    end."""

    VOID, INLINE = {"meta", "br", "img"}, {"bdi", "b", "i", "span"}

    def __init__(self, text):
        super().__init__()
        self.rows, self.open, self.words, self.tags = [], [], [], set()
        self.feed(text)
        self.close()
        self.text = " ".join("".join(self.words).split())

    def handle_starttag(self, tag, attributes):
        self.tags.add(tag)
        self.words += [] if tag in self.INLINE else [" "]
        if tag not in self.VOID:
            self.open.append(tag)
        if tag == "tr":
            self.rows.append([])
        if tag in ("td", "th"):
            self.rows[-1].append("")

    def handle_endtag(self, tag):
        assert self.open.pop() == tag, tag
        self.words += [] if tag in self.INLINE else [" "]

    def handle_data(self, text):
        if "style" in self.open or "title" in self.open:
            return
        said = "".join(c for c in text if unicodedata.category(c) != "Cf")
        self.words.append(said)
        if {"td", "th"} & set(self.open):
            self.rows[-1][-1] = " ".join(f"{self.rows[-1][-1]}{said}".split())


def paper(folder, pattern):
    """The one paper of a folder with such a name."""
    [file] = Path(folder).glob(pattern)
    found = Paper(file.read_text(encoding="utf-8"))
    assert found.open == [], found.open
    return found


def margin(page, place):
    """The text that a page has in a place of its margins; numbers of pages are # there."""
    found = re.search(rf"@{place} {{ content: (.*?);", page)[1]
    said = re.sub(r'counter\(\w+\)', '"#"', found)
    return re.sub(r"\\([0-9a-f]+) ", lambda one: chr(int(one[1], 16)),
                  "".join(re.findall('"([^"]*)"', said)))


# ---- sheets


class Sheet:
    """A page of a PDF: its text, its height, its words, each with where it ends below, in points,
    and its grey pixels."""

    def __init__(self, text, height, words, pixels):
        self.text, self.height, self.words, self.pixels = text, height, words, pixels

    def has_white_edges(self):
        """Whether nothing is drawn in twelve millimetres at the left and at the right."""
        columns, rows, grey = self.pixels
        edge = int(12 / 25.4 * 72)
        return all(set(grey[row * columns + place:row * columns + place + edge]) <= {255}
                   for row in range(rows) for place in (0, columns - edge))


def pixels_of(file):
    """The columns, the rows and the grey values of a PGM file."""
    _, size, _, grey = file.read_bytes().split(b"\n", 3)
    columns, rows = map(int, size.split())
    return columns, rows, grey


def printed(file):
    """The sheets of a PDF."""
    def output(*words):
        return subprocess.run(words, capture_output=True, text=True, timeout=PATIENCE,
                              check=True).stdout

    texts = output("pdftotext", "-layout", file, "-").split("\f")[:-1]
    boxes = re.findall(r'<page width="[\d.]+" height="([\d.]+)">(.*?)</page>',
                       output("pdftotext", "-bbox", file, "-"), re.S)
    subprocess.run(["pdftoppm", "-gray", "-r", "72", file, "sheet"], check=True, timeout=PATIENCE)
    pictures = sorted(Path().glob("sheet-*.pgm"))
    found = []
    for text, (height, words), picture in zip(texts, boxes, pictures):
        places = [(word, float(bottom)) for bottom, word in re.findall(
            r'yMax="([\d.]+)">(.*?)</word>', words)]
        found.append(Sheet(text, float(height), places, pixels_of(picture)))
        picture.unlink()
    return found


# The points from the foot of a sheet to the lowest row.
FOOT = 24 / 25.4 * 72


def rows_in(sheet, first, end=r"end\d\d"):
    """The rows of a sheet that begin with such a word, each with the word of such an end that
    follows before the next row begins; both whole above the foot."""
    found = []
    for word, bottom in sheet.words:
        if bottom > sheet.height - FOOT + 1:
            continue
        if re.fullmatch(first, word):
            found.append((word, ""))
        elif found and not found[-1][1] and re.fullmatch(end, word):
            found[-1] = (found[-1][0], word)
    return found


# ---- records


def recorded(copy=COPY, second=None, also=(), setup=None):
    """A record that leads to the returns of a copy: each lodged by clara, and closed by bruno, or
    confirmed by a second; then the certificate by berta, and what comes after. It may begin with
    the hash of a setup."""
    with contextlib.closing(sqlite3.connect(copy)) as it:
        rows = it.execute("SELECT station, slip FROM returns ORDER BY rowid").fetchall()
        slips = {station: dict(it.execute("SELECT item, n FROM counts WHERE station = ?",
                                          (station,))) for station, _ in rows}
    entries = [{"setup": setup}] if setup else []
    for station, slip in rows:
        numbers = slips[station]
        body = {"slip": slip, "votes": [numbers[n] for n in range(1, len(numbers) - 1)],
                "blank": numbers[0], "spoiled": numbers[61]}
        entries += done("clara", f"/station/{station}/lodge", body)
        if second:
            entries += done(second, f"/station/{station}/confirm", {"rev": 1, **body})
        else:
            entries += done("bruno", f"/station/{station}/close", {"rev": 1})
    entries += done("berta", f"/con/{CON}/certify", {"edition": 1})
    for one in also:
        entries += one
    lines = []
    for one in entries:
        lines.append(one | {"to": len(lines)} if "status" in one else one)
    Path("commands.log").write_bytes(chained(*lines))
    return "commands.log"


def done(name, path, body, status=200):
    """A command that was done, and its answer."""
    return [{"name": name, "role": "clerk", "address": "192.0.2.7", "office": 1, "method": "POST",
             "path": path, "body": json.dumps(body)}, {"status": status, "answer": "{}"}]
