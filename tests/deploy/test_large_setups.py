"""Setups of large constituencies and of stations with agents, as the tools of deploy read them.

    python3 tests/deploy/test_large_setups.py

With OFFICE_PROGRAM, the path of a built program, it reads the divided setups too.
"""

import contextlib
import importlib.machinery
import importlib.util
import io
import json
import os
import re
import sys
import tempfile
import unittest
from pathlib import Path
from unittest import mock

from tests.support import tools
from tests.support.record import chained

ROOT = Path(__file__).resolve().parents[2]
sys.dont_write_bytecode = True


def loaded(path):
    """A program of the folder deploy as a module."""
    sys.path.insert(0, str(path.parent))
    loader = importlib.machinery.SourceFileLoader(f"deploy_{path.name}", str(path))
    module = importlib.util.module_from_spec(importlib.util.spec_from_loader(loader.name, loader))
    loader.exec_module(module)
    return module


SPLIT = loaded(ROOT / "deploy/split")
PROGRAM = os.environ.get("OFFICE_PROGRAM")
PROFILE = '[[profile]]\ncode = "p"\nmethod = "dhondt"\nthreshold = 0\nbase = "valid"\n'
LISTS = "".join(
    f'\n[[constituency.list]]\ncode = "{code}"\nname = "{name}"\ncandidates = ["{who}"]\n'
    for code, name, who in (("A", "Alpha", "Ana"), ("B", "Beta", "Bea"))
)


def constituency(code, *stations, more="", lists=LISTS):
    """A constituency of one seat: its stations are codes of 300 electors each, or lines."""
    lines = [f'code = "{one}"\nelectors = 300\n' if "=" not in one else one for one in stations]
    return (
        f'\n[[constituency]]\ncode = "{code}"\nname = "Town {code}"\nseats = 1\nprofile ='
        f' "p"\n{more}{lists}' + "".join(f"\n[[constituency.station]]\n{one}" for one in lines)
    )


TWO = PROFILE + constituency("c1", "s1", "s2") + constituency("c2", "s3")
# Edits of the two constituencies, each of the first place that has the text, with what is refused.
REFUSED = [
    (
        'code = "c2"',
        'code = "c1"',
        "constituency 2: constituency c1 comes twice, first at constituency 1 c1",
    ),
    (
        'code = "c2"',
        'code = "C1"',
        "constituency C1 and c1 at constituency 1 c1 differ in capitals alone",
    ),
    (
        'code = "s3"',
        'code = "s1"',
        "station s1 comes twice, first at constituency 1 c1, station 1 s1",
    ),
    ('code = "s3"', 'code = "S1"', "differ in capitals alone, which the proxy does not tell apart"),
    ('code = "s3"', 'code = "s 3"', "'s 3' is no code"),
    ('code = "B"', 'code = "A"', "constituency 1 c1, list 2: list A comes twice"),
    ("electors = 300", "electors = 0", "constituency 1 c1, station 1 s1: electors is 0"),
    ("electors = 300", "electors = 1000001", "electors is 1000001"),
    ("electors = 300", "electors = true", "electors is True"),
    ("electors = 300", "", "electors is missing"),
    (
        "electors = 300",
        "electors = 300\nagents = 1001",
        "agents is 1001, and not a number from 0 to 1,000",
    ),
    ("electors = 300", "electors = 300\nagents = -1", "agents is -1"),
    (
        "electors = 300",
        "electors = 999999\nagents = 2",
        "electors and agents are more than 1,000,000",
    ),
    ("seats = 1", "seats = 501", "seats is 501"),
    ("seats = 1", 'seats = "1"', "seats is '1'"),
    ('profile = "p"', 'profile = "q"', "there is no profile 'q'"),
    ('profile = "p"', 'profile = "p"\nsize = "huge"', "size is 'huge', and none of normal, large"),
    ('profile = "p"', 'profile = "p"\nsize = 1', "size is 1"),
    ('profile = "p"', 'profile = "p"\nentry = "triple"', "entry is 'triple'"),
    ('name = "Town c1"', f'name = "{"x" * 81}"', "not a name of 1 to 80 bytes"),
    ('candidates = ["Ana"]', "candidates = []", "candidates is no array of names"),
    (
        'candidates = ["Ana"]',
        f"candidates = {json.dumps(['x'] * 1001)}",
        "1,001 of candidates, and 1,000 is the limit",
    ),
    ('candidates = ["Ana"]', 'candidates = [""]', "candidates is ''"),
    ('method = "dhondt"', 'method = "droop"', "profile 1 p: method is 'droop'"),
    ("threshold = 0", "threshold = 10001", "threshold is 10001"),
    ('base = "valid"', "", "base is missing"),
    ('base = "valid"', 'base = "valid"\nlot = "coin"', "lot is 'coin'"),
    ("[[profile]]", "[[rule]]", "profile is missing"),
]


class Case(unittest.TestCase):
    maxDiff = None

    def setUp(self):
        folder = tempfile.TemporaryDirectory(prefix="office-large-")
        self.addCleanup(folder.cleanup)
        self.folder = Path(folder.name)

    def ran(self, *words, status=0, given=None):
        """Runs a program: its standard output, and its standard error."""
        done = tools.run(
            list(map(str, words)),
            input=given,
            capture_output=True,
            text=True,
            timeout=600,
            cwd=self.folder,
        )
        self.assertEqual(done.returncode, status, done.stdout + done.stderr)
        return done.stdout, done.stderr

    def write(self, text, name="setup.toml"):
        (self.folder / name).write_text(text, encoding="utf-8")

    def split(self, offices, status=0):
        """Divides the setup, in this process: its standard output, or else its standard error."""
        out, said = io.StringIO(), io.StringIO()
        words = ["split", self.folder / "setup.toml", offices, self.folder / "parts"]
        with (
            mock.patch("sys.argv", [*map(str, words)]),
            contextlib.redirect_stdout(out),
            contextlib.redirect_stderr(said),
        ):
            self.assertEqual(SPLIT.main(), status, said.getvalue())
        out, said = out.getvalue(), said.getvalue()
        if status:
            self.assertFalse((self.folder / "parts").exists())
        return said if status else out

    def codes(self, office):
        text = (self.folder / f"parts/setup-{office}.toml").read_text(encoding="utf-8")
        return re.findall('^code = "(c[0-9]+)"', text, re.M)


class Divided(Case):
    def test_what_cannot_be_kept_is_refused_with_the_reason(self):
        for old, new, said in REFUSED:
            with self.subTest(old=old, new=new):
                text = TWO.replace(old, new, 1)
                self.assertNotEqual(text, TWO)
                self.write(text)
                self.assertIn(said, self.split(2, status=1))

    def test_arrays_above_their_limits(self):
        lists = "".join(
            f'\n[[constituency.list]]\ncode = "L{n}"\nname = "List"\ncandidates = ["Ana"]\n'
            for n in range(61)
        )
        stations = [f"s{n}" for n in range(5001)]
        for text, said in (
            (constituency("c1", "s1", lists=lists), "61 of list, and 60 is the limit"),
            (constituency("c1", *stations), "5,001 of station, and 5,000 is the limit"),
            (
                constituency("c1", *(f"s{n}" for n in range(20_001)), more='size = "large"\n'),
                "20,001 of station",
            ),
            (
                "".join(
                    f'\n[[profile]]\ncode = "p{n}"\nmethod = "hare"\nthreshold = 0\nbase ='
                    ' "lists"\n'
                    for n in range(200)
                )
                + constituency("c1", "s1"),
                "201 of profile",
            ),
        ):
            with self.subTest(said=said):
                self.write(PROFILE + text)
                self.assertIn(said, self.split(1, status=1))
        self.write(PROFILE + constituency("c1", *stations, more='size = "large"\n'))
        self.assertEqual(self.split(1), "office 1: 1 constituency, 5001 stations\n")

    def test_the_sum_of_a_large_constituency(self):
        """5,000 times a million is the limit."""
        stations = [f'code = "s{n}"\nelectors = 999999\nagents = 1\n' for n in range(5001)]
        self.write(PROFILE + constituency("c1", *stations, more='size = "large"\n'))
        self.assertIn(
            "electors and agents of all stations are more than 5,000,000,000",
            self.split(1, status=1),
        )
        self.write(PROFILE + constituency("c1", *stations[:5000], more='size = "large"\n'))
        self.split(1)

    def test_no_office_has_more_constituencies_than_it_takes(self):
        """One of 500 stations and 399 of one: by stations alone the second office would get 399."""
        self.write(
            PROFILE
            + constituency("c0", *(f"s{n}" for n in range(500)))
            + "".join(constituency(f"c{n}", f"t{n}") for n in range(1, 400))
        )
        said = self.split(2)
        self.assertEqual(
            said,
            (
                "office 1: 200 constituencies, 699 stations\noffice 2: 200 constituencies, 200"
                " stations\n"
            ),
        )
        found = self.codes(1) + self.codes(2)
        self.assertEqual(sorted(found), sorted(f"c{n}" for n in range(400)))
        self.assertIn("c0", self.codes(1))

    def test_too_many_constituencies(self):
        self.write(PROFILE + "".join(constituency(f"c{n}", f"t{n}") for n in range(401)))
        said = self.split(2, status=1)
        self.assertIn("401 constituencies", said)
        self.assertIn(
            (
                "too many for 2 offices: each takes 200 constituencies and 8,388,608 bytes; 3"
                " offices are enough"
            ),
            said,
        )

    def test_no_office_has_a_longer_text_than_it_takes(self):
        def long(code, many):
            return constituency(code, f"s-{code}", more=f'x_note = "{"n" * many}"\n')

        self.write(PROFILE + long("c1", 5_000_000) + long("c2", 5_000_000) + long("c3", 3_000_000))
        self.assertIn("2 offices are enough", self.split(1, status=1))
        self.split(2)
        self.assertTrue(
            all((self.folder / f"parts/setup-{n}.toml").stat().st_size <= 8_388_608 for n in (1, 2))
        )
        self.write(PROFILE + long("c1", 8_388_608) + long("c2", 1))
        (self.folder / "parts").rename(self.folder / "before")
        self.assertIn(
            "constituency c1 and what comes before the constituencies have ",
            self.split(2, status=1),
        )

    def test_profiles_after_the_constituencies_belong_to_no_part(self):
        self.write(TWO.removeprefix(PROFILE) + PROFILE)
        self.assertIn(
            "the profiles have to come before the constituencies", self.split(2, status=1)
        )

    def test_a_folder_of_another_division(self):
        self.write(TWO)
        self.split(2)
        done = tools.run(
            [ROOT / "deploy/split", "setup.toml", "1", "parts"],
            capture_output=True,
            text=True,
            cwd=self.folder,
        )
        self.assertEqual((done.returncode, done.stdout), (1, ""))
        self.assertIn("setup-2.toml of another division", done.stderr)
        self.assertEqual(
            self.split(2),
            "office 1: 1 constituency, 2 stations\noffice 2: 1 constituency, 1 station\n",
        )
        self.assertFalse(
            [name for name in os.listdir(self.folder / "parts") if name.startswith(".")]
        )

    def test_statuses(self):
        self.split(2, status=3)
        self.write("[")
        self.split(2, status=1)
        for words in (["setup.toml", "0", "parts"], ["setup.toml", "100", "parts"], ["setup.toml"]):
            self.ran(ROOT / "deploy/split", *words, status=2)
        self.assertIn(
            "deploy/split setup.toml 3 parts", self.ran(ROOT / "deploy/split", "--help")[0]
        )

    def test_the_program_reads_each_part(self):
        if not PROGRAM:
            self.skipTest("OFFICE_PROGRAM is not set")
        self.write(PROFILE + "".join(constituency(f"c{n}", f"t{n}") for n in range(201)))
        self.split(2)
        for office, number in ((1, 101), (2, 100)):
            out, _ = self.ran(
                PROGRAM, "new", "--db", f"{office}.db", "--setup", f"parts/setup-{office}.toml"
            )
            self.assertEqual(out, f"constituencies {number}\n")


# A station of five electors at which two agents may vote too, and one without any.
AGENTS = PROFILE + constituency(
    "c1",
    'code = "s1"\nelectors = 5\nagents = 2\n',
    'code = "s2"\nelectors = 9\nagents = 0\n',
    more='size = "large"\n',
)


class Agents(Case):
    def returns(self, *rows, name="c1.csv"):
        self.write("".join(f"{row}\n" for row in ("station,slip,blank,spoiled,A,B", *rows)), name)

    def test_the_pages_have_them_and_electors_are_electors(self):
        self.write(AGENTS)
        self.ran(ROOT / "deploy/setup-json", "setup.toml", ".")
        [con] = json.loads((self.folder / "setup.json").read_text(encoding="utf-8"))
        self.assertEqual(
            con["stations"],
            [{"code": "s1", "electors": 5, "agents": 2}, {"code": "s2", "electors": 9}],
        )
        self.assertNotIn("size", con)

    def test_the_published_schema_knows_them(self):
        code = "import press_data, json; print(json.dumps(press_data.SCHEMAS['setup'][1]))"
        out, _ = self.ran(
            sys.executable,
            "-B",
            "-c",
            f"import sys; sys.path.insert(0, {str(ROOT / 'deploy')!r}); {code}",
        )
        station = json.loads(out)["items"]["properties"]["stations"]["items"]
        self.assertEqual(
            (sorted(station["properties"]), station["required"]),
            (["agents", "code", "electors"], ["code", "electors"]),
        )

    def test_an_audit_is_bounded_by_electors_and_agents(self):
        """Five electors and two agents leave as much room for errors as seven electors."""
        self.write(AGENTS)
        self.returns("s1,p1,0,0,5,2", "s2,p2,0,0,4,0")
        out, _ = self.ran(
            sys.executable,
            ROOT / "deploy/audit.py",
            "plan",
            "--setup",
            "setup.toml",
            "--returns",
            "c1.csv",
            "--risk",
            5,
        )
        self.assertIn(
            "2 stations, all closed, with 14 electors and 2 agents; 11 votes for lists", out
        )
        bounds = re.findall(r"U = ([0-9.]+)", out)
        self.write(
            AGENTS.replace("agents = 2\n", "").replace("electors = 5\n", "electors = 7\n"),
            "seven.toml",
        )
        out, _ = self.ran(
            sys.executable,
            ROOT / "deploy/audit.py",
            "plan",
            "--setup",
            "seven.toml",
            "--returns",
            "c1.csv",
            "--risk",
            5,
        )
        self.assertEqual(re.findall(r"U = ([0-9.]+)", out), bounds)
        self.returns("s1,p1,0,0,5,3", "s2,p2,0,0,4,0")
        _, said = self.ran(
            sys.executable,
            ROOT / "deploy/audit.py",
            "plan",
            "--setup",
            "setup.toml",
            "--returns",
            "c1.csv",
            "--risk",
            5,
            status=2,
        )
        self.assertIn("8 papers of station s1, which has 5 electors and 2 agents", said)
        self.ran(ROOT / "deploy/setup-json", "setup.toml", ".")
        self.ran(
            sys.executable,
            ROOT / "deploy/audit.py",
            "plan",
            "--setup",
            "setup.json",
            "--returns",
            "c1.csv",
            "--risk",
            5,
            status=2,
        )

    def test_an_entry_by_an_import_counts_where_the_office_lodged_it(self):
        """Seven votes of s1 are lodged. Ten of s2, which has no agents, are not."""
        self.write(AGENTS)
        body = "station,slip,blank,spoiled,A,B\ns1,p1,0,0,5,2\ns2,p2,0,0,9,1\n"
        lines = [
            {
                "n": 1,
                "time": "2027-05-23T21:00:00+02:00",
                "name": "clara",
                "role": "clerk",
                "method": "POST",
                "path": "/con/c1/import",
                "body": body,
            },
            {"to": 1, "status": 200},
        ]
        for n, code in ((3, "s1"), (5, "s2")):
            lines += [
                {
                    "n": n,
                    "time": "2027-05-23T22:00:00+02:00",
                    "name": "sam",
                    "role": "second",
                    "method": "POST",
                    "path": f"/station/{code}/confirm",
                    "body": "{}",
                },
                {"to": n, "status": 200},
            ]
        record = chained(*lines).decode()
        out, _ = self.ran(ROOT / "deploy/entries", "setup.toml", given=record, status=1)
        self.assertEqual(
            out,
            (
                "s2: its second entry is by sam (2027-05-23T22:00:00+02:00), and its first is not"
                " in this record\nclosed 2, of these by a second entry 2, to look at 1\n"
            ),
        )


if __name__ == "__main__":
    unittest.main()
