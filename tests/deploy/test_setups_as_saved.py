"""A setup as editors save it: each tool of `deploy/` reads it as the office does, or refuses it."""

import json
import os
import sys
from pathlib import Path

from tests.support import tools
from tests.support.case import Case
from tests.support.office import DOUBLE, LISTS, PROFILE, constituency, station
from tests.support.running import PATIENCE
from tests.support.scripts import loaded
from tests.support.site import DEPLOY

PLAIN = (
    PROFILE + constituency("c1", "Twin Town", 3, "d0") + LISTS + station("s1")
    + constituency("c2", "Puerto Ñandú", 3, "d0") + DOUBLE + LISTS + station("t1")
)
MARK = "\ufeff"
FORMS = {
    "LF": PLAIN,
    "CR LF": PLAIN.replace("\n", "\r\n"),
    "a mark": MARK + PLAIN,
    "a mark and CR LF": MARK + PLAIN.replace("\n", "\r\n"),
    "tabs": PLAIN.replace(" = ", "\t=\t").replace("\ncode", "\n\tcode"),
    "single quotes": PLAIN.replace('"', "'"),
    "keys in quotes": PLAIN.replace("code =", '"code" ='),
    "escapes": PLAIN.replace("Ñ", "\\u00d1").replace("Ana", "\\U00000041na"),
    "comments": PLAIN.replace("\n[[", " # so\r\n#\r\n[["),
    "no last line end": PLAIN.rstrip("\n"),
    "white space between tables": PLAIN.replace("\n\n", "\r\n \t\r\n\n"),
}
OTHERS = {
    "UTF-16": PLAIN.encode("utf-16"), "Latin-1": PLAIN.encode("latin-1"),
    "CR": PLAIN.replace("\n", "\r").encode(), "two marks": (2 * MARK + PLAIN).encode(),
    "cut": PLAIN.encode()[:-5],
}


def run(name, *words, text=b""):
    environment = {**os.environ, "PASSWORDS": "names", "SETUP": "setup.toml"}
    done = tools.run([sys.executable, DEPLOY / name, *words], input=text, env=environment,
                     capture_output=True, timeout=PATIENCE)
    return done.returncode, done.stdout.decode(), done.stderr.decode()


class Setups(Case):
    def setUp(self):
        super().setUp()
        Path("names").mkdir()
        Path("names/staff.conf").write_text("ana clerk;\n", encoding="utf-8")
        Path("returns").mkdir()
        for file, code in (("closed.csv", "s1"), ("returns/c1.csv", "s1"),
                           ("returns/c2.csv", "t1")):
            Path(file).write_text(f"station,slip,blank,spoiled,A,B\n{code},p,0,0,60,20\n",
                                  encoding="utf-8")

    def test_forms_that_are_read(self):
        for number, (name, text) in enumerate(FORMS.items()):
            with self.subTest(name=name):
                Path("setup.toml").write_bytes(text.encode())
                self.assertEqual(run("setup-json", "setup.toml", "."), (0, *self.of_json()))
                shown = json.loads(Path("setup.json").read_text(encoding="utf-8"))
                self.assertEqual(
                    [(con["code"], con["name"], [one["code"] for one in con["stations"]])
                     for con in shown],
                    [("c1", "Twin Town", ["s1"]), ("c2", "Puerto Ñandú", ["t1"])])
                self.assertEqual(run("entries", "setup.toml"),
                                 (0, "closed 0, of these by a second entry 0, to look at 0\n", ""))
                self.assertEqual(run("password", "bind", "ana", "c2"), (0, "ana: clerk, c2\n", ""))
                self.assertEqual(run("password", "stations", "--all")[0], 0)
                plan = run("audit.py", "plan", "--setup", "setup.toml", "--returns", "closed.csv",
                           "--risk", "5")
                self.assertEqual((plan[0], plan[2]), (0, ""))
                counted = run("../examples/recount.py", "--setup", "setup.toml", "--returns",
                              "returns")
                self.assertEqual((counted[0], counted[2]), (0, ""))
                self.assertEqual(run("split", "setup.toml", "2", f"parts-{number}")[0], 0)
                codes = []
                for part in (1, 2):
                    file = Path(f"parts-{number}/setup-{part}.toml")
                    self.assertEqual(run("setup-json", file, ".")[0], 0)
                    [con] = json.loads(Path("setup.json").read_text(encoding="utf-8"))
                    codes.append(con["code"])
                self.assertEqual(sorted(codes), ["c1", "c2"])
                desk = loaded("desk")
                given = type("Given", (), {})
                given.setup, given.people = Path("setup.toml"), [("clerk", "s1")]
                self.assertRaisesRegex(desk.Fault, "is the code of a station", desk.check_names,
                                       given)

    def of_json(self):
        """The output of the tool is the same for each form."""
        found = run("setup-json", "setup.toml", ".")[1:]
        self.first = getattr(self, "first", found)
        return self.first

    def test_forms_that_are_refused(self):
        """With one line, and nothing written."""
        for name, data in OTHERS.items():
            with self.subTest(name=name):
                Path("setup.toml").write_bytes(data)
                before = sorted(os.listdir("."))
                for words in (("setup-json", "setup.toml", "."), ("entries", "setup.toml"),
                              ("password", "stations", "--all"), ("password", "bind", "ana", "c1"),
                              ("split", "setup.toml", "1", "parts"),
                              ("audit.py", "plan", "--setup", "setup.toml", "--returns",
                               "closed.csv", "--risk", "5"),
                              ("../examples/recount.py", "--setup", "setup.toml", "--returns",
                               "returns")):
                    status, printed, said = run(*words)
                    self.assertIn(status, (1, 2), words)
                    self.assertEqual((printed, said.count("\n")), ("", 1), (words, said))
                self.assertEqual(sorted(os.listdir(".")), before)
                self.assertEqual(Path("names/staff.conf").read_text(), "ana clerk;\n")
