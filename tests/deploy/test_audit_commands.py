"""The commands of the audit of seats against papers."""

import hashlib
import json
import random
import re
import resource
import shutil
import subprocess
import sys
from pathlib import Path

from tests.support.audits import SEED, audit
from tests.support.case import ROOT, Case
from tests.support.desk import Desk
from tests.support.office import constituency, party_list, profile, station
from tests.support.program import Ran, write
from tests.support.running import PATIENCE, free_port, tries

SETUP = (profile("d0") + constituency("c1", "Town", 3, "d0") + party_list("A", "Alpha", "Ana")
         + party_list("B", "Beta", "Bea") + "".join(station(f"s{n}", 100) for n in (1, 2, 3)))
RETURNS = "station,slip,blank,spoiled,A,B\ns1,p1,0,0,60,20\ns2,p2,0,0,50,30\ns3,p3,0,0,10,30\n"
DRAWN = "station,drawn,blank,spoiled,A,B\n"
GIVEN = "--setup setup.toml --returns returns.csv"


def given(papers="", setup=SETUP, returns=RETURNS):
    write("setup.toml", setup)
    write("returns.csv", returns)
    write("papers.csv", papers)


def run(words):
    return audit(*words.split())


# Papers that are wrong in some way, and the fault that is printed.
PAPERS = """
s1,3,0,0,60,20/s2,1,0,0,50,30/s9,1,0,0,1,1 => papers.csv, line 4: c1 has no station 's9'
s1,3,0,0,60,20/s1,2,0,0,50,30 => papers.csv, line 3: station s1 comes twice
s1,3,0,0,60,41 => papers.csv, line 2: 101 papers of station s1, which has 100 electors
s1,3,40,40,20,1 => papers.csv, line 2: 101 papers of station s1, which has 100 electors
s1,3,0,0,60 => papers.csv, line 2: 5 fields, where the header has 6
s1,3,0,0,60,-1 => papers.csv, line 2: '-1' of station s1 is not a number
s1,3,0,0,60, => papers.csv, line 2: '' of station s1 is not a number
s1,3,0,0,60,2.0 => papers.csv, line 2: '2.0' of station s1 is not a number
s1,three,0,0,60,20 => papers.csv: 'three' is not a number (drawn of station s1)
s3,1,0,0,10,30 => papers.csv: station s3 is drawn 0 times in 1 draw, and the file says 1
s2,2,0,0,50,30 => papers.csv: station s2 is drawn 0 times in 2 draws, and the file says 2
s1,2,0,0,60,20/s2,2,0,0,50,30 => papers.csv: station s1 is drawn 3 times \
in 4 draws, and the file says 2
"""
# Wrong command lines and wrong files, and the fault that is printed.
WORDS = [
    (f"plan {GIVEN} --risk 0", "a limit is a number of per cent above 0 and below 100"),
    (f"plan {GIVEN} --risk 100", "a limit is a number of per cent above 0 and below 100"),
    (f"plan {GIVEN} --risk -5", "a limit is a number of per cent above 0 and below 100"),
    (f"plan {GIVEN} --risk five", "a limit is a number of per cent above 0 and below 100"),
    (f"plan {GIVEN} --risk 5 --con c2", "returns.csv: these are the returns of c1"),
    ("plan --setup setup.toml --returns returns.csv returns.csv --risk 5",
     "returns.csv: the returns of c1 come twice"),
    ("", "the following arguments are required: plan, draw or assess"),
    (f"draw {GIVEN} --seed 3141592653589793238x --draws 5", "a seed is 20 digits"),
    (f"draw {GIVEN} --seed 314 --draws 5", "a seed is 20 digits"),
    (f"draw {GIVEN} --seed {SEED} --draws 0", "from 1 to 999999 draws"),
    (f"draw {GIVEN} --draws 5", "a draw needs --seed"),
    (f"draw {GIVEN} --seed {SEED}", "one of the arguments --draws --all is required"),
    ("plan --setup none.toml --returns returns.csv --risk 5", "FileNotFoundError: "),
    ("plan --setup returns.csv --returns returns.csv --risk 5", "TOMLDecodeError: "),
]
# Returns that are no published ones of the setup.
SPOILED = """
s3,p3,0,0,10,30 =>  => returns.csv: not all returns of c1 are closed: 1 are not in it, s3 first
s2,p2,0,0,50,30 => s1,p1,0,0,60,20 => returns.csv, line 3: station s1 comes twice
s3,p3,0,0,10,30 => s4,p3,0,0,10,30 => returns.csv, line 4: c1 has no station 's4'
s1,p1,0,0,60,20 => s0,p1,0,0,60,20 => returns.csv, line 2: the setup has no station 's0'
s2,p2,0,0,50,30 => s2,p2,0,0,50,51 => returns.csv, line 3: 101 papers of station \
s2, which has 100 electors
s2,p2,0,0,50,30 => s2,p2,0,0,,30 => returns.csv, line 3: '' of station s2 is not a number
s2,p2,0,0,50,30 => s2,p2,0,0,0000000050,30 => returns.csv, line 3: '0000000050' of station s2 is \
not a number
spoiled,A,B => spoiled,B,A => returns.csv: the header is not station,slip,blank,spoiled,A,B
"""
# The seconds of the processor that a plan of the whole country may take. On a slow machine: how
# many times as long as Python takes to read the files and to add them up, which is seven or so. (A
# constituency has 1,154 stations: what looks at all of them for each of them takes far more.)
PLAN_SECONDS, AS_READING = 5, 40
READING = """
import csv, sys
for file in sys.argv[1:]:
    with open(file, newline="") as lines:
        _, *rows = csv.reader(lines)
    sums = [sum(map(int, column)) for column in list(zip(*rows))[2:]]
"""


def spent(act):
    """The result of an act, and the seconds of the processor of the programs that it ran."""
    before = resource.getrusage(resource.RUSAGE_CHILDREN)
    found = act()
    after = resource.getrusage(resource.RUSAGE_CHILDREN)
    return found, after.ru_utime + after.ru_stime - before.ru_utime - before.ru_stime


class AuditCommands(Case):
    def test_returns_without_a_certificate(self):
        """All of them are closed: the plan is one, and says that nobody has certified them."""
        given()
        Path("returns.csv").rename("stations-c1-open.csv")
        ran = run("plan --setup setup.toml --returns stations-c1-open.csv --risk 5")
        self.assertEqual((ran.status, ran.out.splitlines()[-1]), (
            0, "stations-c1-open.csv has the returns of no certificate: what is certified may "
               "differ."))
        Path("stations-c1-open.csv").rename("stations-c1-2.csv")
        ran = run("plan --setup setup.toml --returns stations-c1-2.csv --risk 5")
        self.assertRegex(ran.out.splitlines()[-1], "^returns  [0-9a-f]{64}  stations-c1-2.csv$")

    def test_a_plan(self):
        given()
        ran = run(f"plan {GIVEN} --risk 5")
        sums = [hashlib.sha256(text.encode()).hexdigest() for text in (SETUP, RETURNS)]
        self.assertEqual((ran.status, ran.err), (0, ""))
        # 24 draws reach s1 with a chance of 1 - (5/8.5)^24 and so on: nearly all papers.
        for line in ("c1 Town: 3 seats by D'Hondt",
                     "3 stations, all closed, with 300 electors; 200 votes for lists, 0 blank, "
                     "0 spoiled",
                     "  A                         120     2",
                     "            20  A's seat 2 comes before B's seat 2",
                     "  where no paper differs: 24 draws, of some 3 of 3 stations, "
                     "with 200 of 200 papers",
                     "  where 1 vote in 1,000 is recorded wrongly: 25 draws, "
                     "of some 3 of 3 stations, with 200 of 200 papers",
                     "A count of all papers is hardly more work, and leaves no risk.",
                     f"setup    {sums[0]}  setup.toml", f"returns  {sums[1]}  returns.csv"):
            with self.subTest(line=line):
                self.assertIn(line, ran.out.splitlines(), (line, ran.out))
        self.assertIn("U = 8.500000.", ran.out)

    def test_a_draw(self):
        given()
        wanted = DRAWN + "s1,3,,,,\ns2,2,,,,\n"
        self.assertEqual(run(f"draw {GIVEN} --seed {SEED} --draws 5"), Ran(0, wanted, ""))
        # Counted papers stay in it, a semicolon is a comma, and a row of nothing else is none.
        write("papers.csv",
              wanted.replace("s2,2,,,,", "s2,2,1,2,33,44").replace(",", ";") + ";;;;;\n")
        self.assertEqual(run(f"draw {GIVEN} --seed {SEED} --draws 6 --papers papers.csv"),
                         Ran(0, DRAWN + "s1,3,,,,\ns2,2,1,2,33,44\ns3,1,,,,\n", ""))
        self.assertEqual(run(f"draw {GIVEN} --all --papers papers.csv"),
                         Ran(0, DRAWN + "s1,0,,,,\ns2,0,1,2,33,44\ns3,0,,,,\n", ""))

    def assessed(self, papers, status, *wanted, risk=5):
        given(DRAWN + papers)
        ran = run(f"assess {GIVEN} --seed {SEED} --risk {risk} --papers papers.csv")
        self.assertEqual((ran.status, ran.err), (status, ""))
        for line in wanted:
            self.assertIn(line, ran.out.splitlines(), (line, ran.out))
        return ran.out

    def test_an_assessment(self):
        # 15 / 17 a draw without an error: 0.88236, 0.77855, 0.68696, 0.60615, 0.53484, rounded up.
        out = self.assessed("s1,3,0,0,60,20\ns2,2,0,0,50,30\n", 1,
                            f"seed {SEED}, a limit of 5 per cent, U = 8.500000",
                            "       1 s1                   3.500000     0.000000     88.24",
                            "       2 s1                   3.500000     0.000000     77.86",
                            "       3 s2                   3.000000     0.000000     68.70",
                            "       4 s1                   3.500000     0.000000     60.62",
                            "       5 s2                   3.000000     0.000000     53.49")
        # (15/17)^24 is below 5 per cent: 19 more.
        self.assertIn(
            "Not confirmed. Expected where no other paper differs, beside these: 19 draws,", out)
        # With a limit of 60 per cent five draws are enough, and four with 61.
        self.assessed("s1,3,0,0,60,20\ns2,2,0,0,50,30\n", 0, "Confirmed at a limit of 60 per cent.",
                      risk=60)
        self.assessed("s1,3,0,0,60,20\ns2,1,0,0,50,30\n", 0,
                      "Confirmed at a limit of 60.7 per cent.", risk="60.7")
        self.assessed("s1,3,0,0,60,20\ns2,1,0,0,50,30\n", 1, risk="60.6")
        # Two votes for A in s3, the sixth draw, are B's: 0.53484 x 300 / 323 = 0.49676.
        self.assessed("s1,3,0,0,60,20\ns2,2,0,0,50,30\ns3,1,,,,\n", 1,
                      "The papers of s3, draw 6, are not counted: no later draw is looked at.")
        out = self.assessed("s1,0,0,0,60,20\ns2,0,0,0,50,30\ns3,0,0,0,8,32\n", 0,
                            "All papers are counted:", "The papers give the same seats.")
        self.assertEqual(out.count("  A                         118     2"), 1)
        self.assessed("s1,0,0,0,0,80\ns2,0,0,0,50,30\ns3,0,0,0,10,30\n", 1,
                      "The papers give other seats.")
        self.assessed("s1,0,0,0,40,20\ns2,0,0,0,50,50\ns3,0,0,0,10,30\n", 1,
                      "A lot has to decide between A's seat 2 and B's seat 2: the votes of the "
                      "two are equal.",
                      "By the returns no such lot decides: correct them, and certify again.")
        # Everybody in s2 voted for B: (2 x 50 - 2 x 30 + 2 x 100) / 80 is its bound.
        self.assessed("s1,2,0,0,60,20\ns2,1,0,0,0,100\n", 1,
                      "       3 s2                   3.000000     3.000000         -  A 50 on "
                      "paper 0, B 30 on paper 100",
                      "The papers of s2 differ as much as they can. No further draw makes that "
                      "good: count all papers.")

    def test_a_lot(self):
        """Two lists of 100 votes, and three seats: a lot decided which has the second."""
        given(returns="station,slip,blank,spoiled,A,B\ns1,p1,0,0,50,20\ns2,p2,0,0,50,30\n"
              "s3,p3,0,0,0,50\n")
        ran = run(f"plan {GIVEN} --risk 5")
        self.assertEqual((ran.status, ran.err), (0, ""))
        self.assertIn(
            "A lot decided between A's seat 2 and B's seat 2: the votes of the two are equal.\n",
            ran.out)
        self.assertIn("No sample can confirm what a lot decided: count all papers.\n", ran.out)
        self.assertNotIn("U =", ran.out)
        self.assertEqual(run(f"draw {GIVEN} --seed {SEED} --draws 5"),
                         Ran(2, "",
                             "audit.py: no station is drawn: a lot decided a seat, so all papers "
                             "are counted (--all)\n"))
        self.assertEqual(run(f"draw {GIVEN} --all").out, DRAWN + "s1,0,,,,\ns2,0,,,,\ns3,0,,,,\n")

    def test_whose_seats_a_lot_decided(self):
        """Of five seats by D'Hondt A, with 150 votes, has three, and B, with 100, one: of C and D,
        with 50 each, one has the fifth. E has too few votes to take part."""
        setup = (profile("d5", threshold=500) + constituency("c1", "Town", 5, "d5")
                 + "".join(party_list(code, code, "Ana") for code in "ABCDE") + station("s1", 400))
        for seats, wanted in ((5, ["3", "1", "lot", "lot", "0"]), (6, ["3", "1", "1", "1", "0"])):
            with self.subTest(seats=seats, wanted=wanted):
                given(setup=setup.replace("seats = 5", f"seats = {seats}"),
                      returns="station,slip,blank,spoiled,A,B,C,D,E\ns1,p1,0,0,150,99,50,50,5\n")
                ran = run(f"plan {GIVEN} --risk 5")
                self.assertEqual(
                    (ran.status, ran.err, re.findall(r"^  ([A-E]) +\d+ +(\w+)", ran.out, re.M)),
                    (0, "", list(zip("ABCDE", wanted))))
        # (of six seats nobody's lot is needed)
        self.assertNotIn("lot", ran.out)

    def unusable(self, ran, words):
        self.assertEqual(ran.status, 2, (ran, words))
        self.assertFalse(ran.out, (ran, words))
        self.assertIn(words, ran.err.splitlines()[-1], (ran, words))

    def test_what_cannot_be_used(self):
        for line in PAPERS.strip().split("\n"):
            rows, words = line.split(" => ")
            given(DRAWN + rows.replace("/", "\n") + "\n")
            ran = run(f"assess {GIVEN} --seed {SEED} --risk 5 --papers papers.csv")
            self.assertEqual((ran.status, ran.err), (2, f"audit.py: {words}\n"))
        given("station,slip,blank,spoiled,A,B\ns1,3,0,0,60,20\n")
        self.unusable(run(f"assess {GIVEN} --seed {SEED} --risk 5 --papers papers.csv"),
                      "papers.csv: the header is not station,drawn,blank,spoiled,A,B")
        given(DRAWN)
        self.unusable(run(f"assess {GIVEN} --seed {SEED} --risk 5 --papers papers.csv"),
                      "papers.csv: there are no rows in it")
        for words, said in WORDS:
            with self.subTest(words=words, said=said):
                given()
                self.unusable(run(words), said)

    def test_returns_that_cannot_be_used(self):
        for line in SPOILED.strip().split("\n"):
            old, new, words = (part.strip() for part in line.split("=>"))
            self.assertIn(old, RETURNS)
            given(returns=RETURNS.replace(old, new, 1))
            self.assertEqual(run(f"plan {GIVEN} --risk 5"), Ran(2, "", f"audit.py: {words}\n"))
        given(returns=re.sub(r"\d+,\d+\n", "0,0\n", RETURNS))
        self.assertEqual(run(f"plan {GIVEN} --risk 5"),
                         Ran(2, "", "audit.py: c1: no list takes part\n"))

    def test_keys_that_mean_nothing(self):
        """Those of a constituency that are named like a rule's change nothing, as in the office."""
        given(returns=RETURNS)
        plan = run(f"plan {GIVEN} --risk 5")
        text = Path("setup.toml").read_text(encoding="utf-8")
        for key in ('method = "hare"', "threshold = 5000", 'base = "lists"'):
            Path("setup.toml").write_text(text.replace("seats = ", f"{key}\nseats = ", 1))
            said = run(f"plan {GIVEN} --risk 5")
            # (the last lines are the hashes of the files)
            self.assertEqual(said.out.splitlines()[:-2], plan.out.splitlines()[:-2])
            self.assertEqual(said.status, 0)

    def test_the_files_that_an_office_publishes(self):
        """The pages of an office have what a plan needs, and it is what the example has."""
        shutil.copy(ROOT / "examples/montehondo.db", "office.db")
        desk = Desk("office.db", 1000, free_port())
        words = [sys.executable, ROOT / "deploy/press.py", f"http://127.0.0.1:{desk.port}", "pages",
                 "--setup", ROOT / "examples/setup.toml"]
        subprocess.run(words, check=True, capture_output=True, timeout=PATIENCE)
        desk.process.terminate()
        desk.process.communicate(timeout=PATIENCE)
        published = Path("pages/stations-montehondo-2.csv")
        self.assertEqual(published.read_text(),
                         (ROOT / "examples/stations-montehondo-2.csv").read_text())
        plans = [audit("plan", "--setup", setup, "--returns", published, "--con", "montehondo",
                       "--risk", 5) for setup in ("pages/setup.json", ROOT / "examples/setup.toml")]
        self.assertEqual([(ran.status, ran.err) for ran in plans], [(0, "")] * 2)
        lines = [[line for line in ran.out.splitlines() if not line.startswith("setup")]
                 for ran in plans]
        self.assertEqual(lines[0], lines[1], lines)
        self.assertGreater(len(lines[0]), 10, lines)

    def test_a_country_of_60008_stations(self):
        """Of 52 constituencies with twelve lists each, from the published files."""
        made, entries, codes = random.Random(52), [], [f"L{n}" for n in range(12)]
        for c in range(1, 53):
            stations = [{"code": f"s{c}-{n}", "electors": made.randint(400, 900)}
                        for n in range(1154)]
            entries.append({
                "code": f"c{c}", "name": f"Province {c}", "seats": 7, "method": "dhondt",
                "threshold": 300, "base": "valid",
                "lists": [{"code": code, "name": code, "candidates": ["Ana"]} for code in codes],
                "stations": stations})
            rows = "".join(f"{it['code']},p1,3,2,"
                           f"{','.join(str(made.randint(0, 200 // (n + 2))) for n in range(12))}\n"
                           for it in stations)
            write(f"stations-c{c}-2.csv", f"station,slip,blank,spoiled,{','.join(codes)}\n{rows}")
        write("setup.json", json.dumps(entries))
        files = [f"stations-c{c}-2.csv" for c in range(1, 53)]

        def planned():
            ran, took = spent(lambda: audit("plan", "--setup", "setup.json", "--risk", 5,
                                            "--returns", *files, run=subprocess.run))
            self.assertEqual((ran.status, ran.err), (0, ""))
            self.assertEqual((ran.out.count("1,154 stations, all closed"),
                              ran.out.count("where no paper differs: ")), (52, 52))
            _, reading = spent(lambda: subprocess.run([sys.executable, "-c", READING, *files],
                                                      check=True))
            print(f"a plan of {52 * 1154} stations took {took:.1f} s of the processor, and to read "
                  f"the files {reading:.2f} s")
            self.assertLess(took, max(PLAN_SECONDS, AS_READING * reading), reading)

        tries(planned)

    def test_the_example_prints_what_its_page_says(self):
        """Each command of examples/audit.md, in its order, and what it prints."""
        text = (ROOT / "examples/audit.md").read_text(encoding="utf-8")
        blocks = re.findall(r"((?:^    .*\n)+)", text, re.M)
        steps = [step for block in blocks
                 for step in re.split(r"(?m)^(?=\$ )", re.sub("(?m)^    ", "", block))
                 if step.startswith("$ ")]
        Path("examples").symlink_to(ROOT / "examples")
        Path("deploy").symlink_to(ROOT / "deploy")
        self.assertGreater(len(steps), 5, steps)
        for step in steps:
            command, _, wanted = step[2:].partition("\n")
            ran = subprocess.run(["bash", "-c", command], capture_output=True, text=True,
                                 timeout=PATIENCE)
            self.assertEqual(ran.stdout + ran.stderr, wanted, command)
