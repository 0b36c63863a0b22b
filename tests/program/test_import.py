"""`office import`, and imports over HTTP."""

import os
import shutil
import subprocess
import time
import tomllib
from pathlib import Path

from tests.support import model
from tests.support.case import PROGRAM
from tests.support.desk import serving
from tests.support.office import RETURNS, SETUP, THREE_STATIONS, station
from tests.support.program import (
    ProgramCase,
    Ran,
    failed,
    imports,
    new,
    office,
    only,
    recount,
    refused,
    rows,
    show,
    write,
)
from tests.support.running import PATIENCE


def quoted(text):
    return "".join(
        ",".join(f'"{field}"' for field in line.split(",")) + "\n" for line in text.splitlines()
    )


TOWNS = SETUP + SETUP[SETUP.index("[[constituency]]") :].replace("c1", "c2").replace(
    "s1", "t1"
).replace("Twin Town", "Other Town")


NOT_LODGED = """\
s1,p1,0,0,11,20
s2,p2,0,0,1000001,0
s2,p2,0,0,200,101
zz,p2,0,0,x,1
s 2,p2,0,0,1,1
s2,p 2,x,0,1,1
s2,p2,x,,1,1
s2,p2,0,,1,x
s2,p2,0,0,1,x
s2,p2
"""


THEIR_LINES = """\
row 3 7 differs s1
row 4 4 bad_counts s2
row 5 6 too_many_votes s2
row 6 0 no_station
row 7 0 bad_station
row 8 0 bad_slip
row 9 0 bad_number blank
row 10 0 bad_number spoiled
row 11 0 bad_number B
row 12 0 fields 2
"""


class Import(ProgramCase):
    def test_an_import_is_counted(self):
        new(THREE_STATIONS)
        imports({"lodged": 3}, RETURNS)
        only("office.db")
        imports({"same": 3}, RETURNS)
        before = rows()
        imports({"same": 2, "differs": 1, "first": "2 7"}, RETURNS.replace("30,40", "31,40"))
        self.assertEqual(rows(), before)
        self.assertEqual(
            before["counts"],
            sorted(
                (station, item, n)
                for station, counts in (
                    ("s1", (0, 10, 20, 0)),
                    ("s2", (1, 30, 40, 0)),
                    ("s3", (0, 50, 60, 2)),
                )
                for item, n in zip((0, 1, 2, 61), counts)
            ),
        )
        self.assertEqual(before["returns"], [(f"s{n}", "c1", 1, f"p{n}", 1, "") for n in (1, 2, 3)])
        recount()

    def test_a_bad_row_is_passed_over(self):
        new(THREE_STATIONS)
        imports({"lodged": 2, "bad": 1, "first": "2 0"}, RETURNS.replace("30,40", "x,40"))
        self.assertEqual([row[0] for row in rows()["returns"]], ["s1", "s3"])

    def test_texts_as_programs_save_them(self):
        """Each has the same three returns: with semicolons, ends of lines as of other systems,
        quotes, a byte order mark, no last line end.
        """
        new(THREE_STATIONS, "new.db")
        mark = "\ufeff"
        commas = (
            RETURNS,
            RETURNS.replace("\n", "\r\n"),
            RETURNS.replace("\n", "\r"),
            RETURNS.replace("\n", "\n\r\n"),
            RETURNS.rstrip(),
            mark + RETURNS,
            quoted(RETURNS),
            quoted(RETURNS).rstrip(),
            mark + quoted(RETURNS).replace("\n", "\r\n"),
            RETURNS.replace("s2,p2", 's2,"p2"'),
            RETURNS.replace("30,40", "030,000000040"),
        )
        lodged = '{"bad":0,"differs":0,"first":null,"lodged":3,"ok":"import","refused":0,"same":0}'
        wanted = None
        for text in commas:
            for given, flags, path in (
                (text, (), "import"),
                (text.replace(",", ";"), ("--semicolon",), "import/semicolon"),
            ):
                with self.subTest(given=given, flags=flags, path=path):
                    shutil.copy("new.db", "office.db")
                    imports({"lodged": 3}, given, flags=flags)
                    wanted = wanted or rows()
                    self.assertEqual(rows(), wanted)
                    shutil.copy("new.db", "served.db")
                    with serving("served.db", 1) as desk:
                        self.assertEqual(
                            desk.ask("POST", f"/con/c1/{path}", given.encode())[::2], (200, lodged)
                        )
                    self.assertEqual(rows("served.db"), wanted)

    def test_an_import_is_into_the_constituency_that_is_named(self):
        """Two have the same lists. A station of the other one makes a row bad."""
        new(TOWNS, "new.db", constituencies=2)
        header = RETURNS.splitlines()[0]
        text = f"{header}\nt1,p1,0,0,10,20\ns1,p2,1,0,30,40\n"
        for con, station, first in (("c1", "s1", "1 0"), ("c2", "t1", "2 0")):
            with self.subTest(con=con, station=station, first=first):
                for given, flags, path, other in (
                    (text, (), "import", "/semicolon"),
                    (text.replace(",", ";"), ("--semicolon",), "import/semicolon", ""),
                ):
                    with self.subTest(given=given, flags=flags, path=path, other=other):
                        shutil.copy("new.db", "office.db")
                        imports({"lodged": 1, "bad": 1, "first": first}, given, con, flags=flags)
                        self.assertEqual([row[:2] for row in rows()["returns"]], [(station, con)])
                        shutil.copy("new.db", "served.db")
                        with serving("served.db", 2) as desk:
                            counts = (
                                '{"bad":1,"differs":0,"first":[%s],"lodged":1,"ok":"import",'
                                '"refused":0,"same":0}'
                                % first.replace(" ", ",")
                            )
                            self.assertEqual(
                                desk.ask("POST", f"/con/{con}/{path}", given)[::2], (200, counts)
                            )
                            self.assertEqual(
                                desk.ask("POST", f"/con/{con}/import{other}", given)[::2],
                                (400, '{"word":"bad_header"}'),
                            )
                        self.assertEqual(rows("served.db"), rows())
                # With the wrong separator the header has one field.
                for given, flags in ((text, ("--semicolon",)), (text.replace(",", ";"), ())):
                    with self.subTest(given=given, flags=flags):
                        write("returns.csv", given)
                        refused(
                            "bad_header",
                            "import",
                            "--db",
                            "office.db",
                            "--con",
                            con,
                            "--csv",
                            "returns.csv",
                            *flags,
                        )

    def test_an_import_of_twenty_thousand_rows(self):
        """The most that are taken, with the one good row in front or at the end, and one more."""
        header, row = RETURNS.splitlines(keepends=True)[:2]
        bad = "s9,p9,0,0,10,20\n" * 19999
        for text, first in (
            (header + row + bad, "2 0"),
            (header + bad + row, "1 0"),
            (header + bad + row.rstrip(), "1 0"),
        ):
            with self.subTest(text=text, first=first):
                new(THREE_STATIONS)
                imports({"lodged": 1, "bad": 19999, "first": first}, text)
                self.assertEqual([row[0] for row in rows()["returns"]], ["s1"])
                os.remove("office.db")
        new(THREE_STATIONS)
        before = rows()
        for text in (
            header + row + bad + "x\n",
            header + row * 20001,
            quoted(header + row * 20001),
        ):
            with self.subTest(text=text):
                write("returns.csv", text)
                refused(
                    "too_long", "import", "--db", "office.db", "--con", "c1", "--csv", "returns.csv"
                )
                self.assertEqual(rows(), before)

    def test_an_import_names_its_rows(self):
        """Each that is neither lodged nor the same, after the six lines; with semicolons too, and
        with a fault none.
        """
        header, row = RETURNS.splitlines(keepends=True)[:2]
        text = header + row * 2 + NOT_LODGED
        for given, flags in (
            (text, ("--rows",)),
            (text.replace(",", ";"), ("--rows", "--semicolon")),
        ):
            with self.subTest(given=given, flags=flags):
                new(THREE_STATIONS)
                command = ("import", "--db", "office.db", "--con", "c1", "--csv", "returns.csv")
                write("returns.csv", given)
                counts = "differs 1\nrefused 2\nbad 7\nfirst 3 7\n"
                self.assertEqual(
                    office(*command, *flags),
                    Ran(0, "lodged 1\nsame 1\n" + counts + THEIR_LINES, ""),
                )
                self.assertEqual(
                    office(*command, *flags[1:]), Ran(0, "lodged 0\nsame 2\n" + counts, "")
                )
                self.assertEqual([row[0] for row in rows()["returns"]], ["s1"])
                write("returns.csv", header + row)
                self.assertEqual(
                    office(*command, "--rows"),
                    Ran(0, "lodged 0\nsame 1\ndiffers 0\nrefused 0\nbad 0\nfirst -\n", ""),
                )
                os.remove("office.db")
        new(THREE_STATIONS)
        write("returns.csv", header + "s3,p3,0,0,1,2\n")
        self.assertEqual(office(*command, "--rows").status, 0)
        for row, counts, cause in (
            ("x", "differs 0\nrefused 0\nbad 20000\nfirst 1 0\n", "0 fields 1"),
            (
                "s1,p1,0,0,300,1",
                "differs 0\nrefused 20000\nbad 0\nfirst 1 6\n",
                "6 too_many_votes s1",
            ),
            ("s3,p4,0,0,1,2", "differs 20000\nrefused 0\nbad 0\nfirst 1 7\n", "7 differs s3"),
        ):
            with self.subTest(row=row, counts=counts, cause=cause):
                write("returns.csv", header + f"{row}\n" * 20000)
                lines = "".join(f"row {n} {cause}\n" for n in range(1, 20001))
                self.assertEqual(
                    office(*command, "--rows"), Ran(0, "lodged 0\nsame 0\n" + counts + lines, "")
                )
        # A row as long as a text may be, of separators alone.
        write("returns.csv", header + "," * (16777216 - len(header)))
        counts = "lodged 0\nsame 0\ndiffers 0\nrefused 0\nbad 1\nfirst 1 0\n"
        self.assertEqual(
            office(*command, "--rows"),
            Ran(0, counts + f"row 1 0 fields {16777217 - len(header)}\n", ""),
        )
        write("returns.csv", header + "x\n" * 20001)
        refused("too_long", *command, "--rows")

    def test_imports_that_change_nothing(self):
        new(THREE_STATIONS)
        before = rows()
        import_into = ("import", "--db", "office.db", "--con")
        write("returns.csv", RETURNS)
        refused("no_constituency", *import_into, "zz", "--csv", "returns.csv")
        refused("no_constituency", *import_into, "no code", "--csv", "nowhere.csv")
        failed("file", *import_into, "c1", "--csv", "nowhere.csv")
        os.mkdir("folder")
        failed("read", *import_into, "c1", "--csv", "folder")
        for text, word in (
            ("", "bad_header"),
            ("\n\r\n", "bad_header"),
            ("\ufeff", "bad_header"),
            (RETURNS.replace("A,B", "B,A"), "bad_header"),
            (RETURNS + "x\n" * 19998, "too_long"),
            (RETURNS + "x" * 16777216, "too_long"),
        ):
            with self.subTest(text=text, word=word):
                write("returns.csv", text)
                refused(word, *import_into, "c1", "--csv", "returns.csv")
        self.assertEqual(rows(), before)
        only("folder", "office.db")

    def test_an_import_that_is_killed(self):
        """It lodges all of its rows or none, and the file opens again."""
        stations = "".join(
            f'\n[[constituency.station]]\ncode = "t{n}"\nelectors = 300\n' for n in range(2000)
        )
        new(SETUP + stations)
        shutil.copy("office.db", "good.db")
        text = "station,slip,blank,spoiled,A,B\n" + "".join(
            f"t{n},p,0,0,1,2\n" for n in range(2000)
        )
        write("returns.csv", text)
        words = [PROGRAM, "import", "--db", "office.db", "--con", "c1", "--csv", "returns.csv"]
        began = time.monotonic()
        subprocess.run(words, check=True, capture_output=True, timeout=PATIENCE)
        whole = time.monotonic() - began
        found = set()
        for turn in range(10):
            shutil.copy("good.db", "office.db")
            for log in Path(".").glob("office.db-*"):
                log.unlink()
            process = subprocess.Popen(words, stdout=subprocess.DEVNULL, stderr=subprocess.DEVNULL)
            time.sleep(whole * (turn + 1) / 11)
            process.kill()
            process.wait()
            ran = show("progress", con=None)
            self.assertEqual(ran.status, 0)
            found.add(len(rows()["returns"]))
        self.assertLessEqual(found, {0, 2000})

    def test_an_import_over_http(self):
        stations = "".join(
            f'\n[[constituency.station]]\ncode = "t{n}"\nelectors = 300\n' for n in range(4999)
        )
        new(SETUP + stations)
        text = "station,slip,blank,spoiled,A,B\ns1,p,0,0,1,2\n" + "".join(
            f"t{n},p,0,0,1,2\n" for n in range(4999)
        )
        with serving("office.db", 4) as desk:
            counts = (
                '{"bad":0,"differs":0,"first":null,"lodged":%d,"ok":"import","refused":0,"same":%d}'
            )
            self.assertEqual(
                desk.ask("POST", "/con/c1/import", text)[::2], (200, counts % (5000, 0))
            )
            self.assertEqual(
                desk.ask("POST", "/con/c1/import/semicolon", text.replace(",", ";"))[::2],
                (200, counts % (0, 5000)),
            )
            self.assertEqual(
                desk.ask("POST", "/con/c1/import", "x")[::2], (400, '{"word":"bad_header"}')
            )
            desk.get(
                "/progress",
                "c1                 5000      0   5000      0      0      0      1 open\n",
            )

    def test_an_import_that_lodges_nothing_writes_nothing(self):
        """Its rows are the same, differ, are refused or bad: the log stays byte for byte."""
        new(THREE_STATIONS)
        counts = (
            '{"bad":%d,"differs":%d,"first":%s,"lodged":0,"ok":"import","refused":%d,"same":%d}'
        )
        with serving("office.db", 6) as desk:
            self.assertEqual(desk.ask("POST", "/con/c1/import", RETURNS)[0], 200)
            log = Path("office.db-wal").read_bytes()
            for old, row, answer in (
                ("", "", (0, 0, "null", 0, 3)),
                ("30,40", "31,40", (0, 1, "[2,7]", 0, 2)),
                ("30,40", "300,40", (0, 0, "[2,6]", 1, 2)),
                ("30,40", "x,40", (1, 0, "[2,0]", 0, 2)),
            ):
                with self.subTest(old=old, row=row, answer=answer):
                    self.assertEqual(
                        desk.ask("POST", "/con/c1/import", RETURNS.replace(old, row))[::2],
                        (200, counts % answer),
                    )
                    assert log and log == Path("office.db-wal").read_bytes()
            # (after the last answer the office is closed, and its log removed)
            self.assertEqual(desk.ask("GET", "/progress")[0], 200)

    def test_a_trial_of_an_import(self):
        """It is answered as by the plain office, and as the import is then answered; it changes no
        byte of the files.
        """
        new(THREE_STATIONS)
        plain = model.Office(tomllib.loads(THREE_STATIONS))
        header = RETURNS.splitlines(keepends=True)[0]
        texts = (
            RETURNS,
            RETURNS.replace("30,40", "31,40"),
            header,
            header + "s1,p1,0,0,10,20\ns1,p1,0,0,10,21\ns2,p2,0,0,200,101\nt1,p1,0,0,1,1\n",
            header
            + "?,p1,0,0,1,1\ns3,,0,0,1,1\ns3,p3,0,0,1\n"
            + "s3,p3,x,y,1,1\ns3,p3,0,-1,1,1\ns3,p3,0,0,1,\n",
            header + "x\n" * 19999 + "x" * 1000000 + "\n",
        )
        with serving("office.db", 6 * len(texts) + 8) as desk:
            for text in texts:
                with self.subTest(text=text):
                    log = Path("office.db-wal")
                    before = log.read_bytes() if log.exists() else b""
                    semicolons = text.replace(",", ";")
                    status, tried = plain.ask("POST", "/con/c1/trial", text)
                    for path, body in (
                        ("trial", text),
                        ("trial/semicolon", semicolons),
                        ("trial", text),
                    ):
                        with self.subTest(path=path, body=body):
                            found = desk.ask("POST", f"/con/c1/{path}", body)
                            self.assertEqual(
                                (found[0], found[1]["Content-Type"], found[2]),
                                (status, "text/plain; charset=utf-8", tried),
                            )
                    self.assertEqual(
                        desk.ask("POST", "/con/c1/trial", semicolons)[::2],
                        (400, '{"word":"bad_header"}'),
                    )
                    self.assertEqual(
                        desk.ask("GET", "/con/c1/returns")[::2], plain.ask("GET", "/con/c1/returns")
                    )
                    self.assertEqual(log.read_bytes() if log.exists() else b"", before)
                    self.assertEqual(
                        desk.ask("POST", "/con/c1/import", text)[::2],
                        plain.ask("POST", "/con/c1/import", text),
                    )
            too_long = header + "x\n" * 20001
            self.assertEqual(
                desk.ask("POST", "/con/c1/trial", too_long)[::2], (400, '{"word":"too_long"}')
            )
            for path in ("trial", "trial/semicolon", "import", "import/semicolon"):
                with self.subTest(path=path):
                    self.assertEqual(
                        desk.ask("POST", f"/con/c1/{path}", "")[::2], (400, '{"word":"bad_header"}')
                    )
            self.assertEqual(
                desk.ask("POST", "/con/zz/trial", RETURNS)[::2],
                (404, '{"refused":2,"word":"no_constituency"}'),
            )
            self.assertEqual(desk.ask("GET", "/con/c1/trial")[::2], (405, '{"word":"no_method"}'))
            self.assertEqual(
                desk.ask("GET", "/con/c1/returns")[::2], plain.ask("GET", "/con/c1/returns")
            )

    def test_an_import_of_the_longest_body(self):
        """Of 1,048,576 bytes, with 20,000 rows: each of 5,000 returns comes four times."""
        new(SETUP.replace("s1", "s0") + "".join(station(f"s{n}") for n in range(1, 5000)))
        rows_of_all = "".join(
            f"s{n},p-{n:014},000000,000000,000001,{n % 300:06}\n" for n in range(5000)
        )
        text = ("station,slip,blank,spoiled,A,B\n" + rows_of_all * 4).ljust(1048576, "\n")
        self.assertEqual(len(text), 1048576)
        with serving("office.db", 3) as desk:
            counts = (
                '{"bad":0,"differs":0,"first":null,"lodged":%d,"ok":"import","refused":0,"same":%d}'
            )
            self.assertEqual(
                desk.ask("POST", "/con/c1/import", text)[::2], (200, counts % (5000, 15000))
            )
            self.assertEqual(
                desk.ask("POST", "/con/c1/import", text)[::2], (200, counts % (0, 20000))
            )
            desk.get(
                "/progress",
                "c1                 5000      0   5000      0      0      0      1 open\n",
            )
