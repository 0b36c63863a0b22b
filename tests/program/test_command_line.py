"""Command lines, help, and standard streams."""

import json
import os
import socket
import subprocess

from tests.support.case import PROGRAM, ROOT
from tests.support.desk import answering, reset
from tests.support.office import RETURNS, THREE_STATIONS
from tests.support.program import (
    STARTED,
    ProgramCase,
    Ran,
    check,
    done,
    failed,
    new,
    office,
    only,
    refused,
    rows,
    show,
    shows,
    write,
)
from tests.support.running import PATIENCE, free_port
from tests.support.twin_town import PROGRESS


# Command lines that ask for nothing that can be done, by how the error begins.
WRONG = {
    "error: the following required arguments were not provided:": (
        "new",
        "new --db a",
        "new --setup s",
        "import --con c --csv r",
        "import --db a --csv r",
        "import --db a --con c",
        "show --db a",
        "show --report tally",
        "show --report tally --con c",
        "show --db a --con c",
        "serve --db a --port 8080",
        "serve --db a --count 1",
        "serve --port 8080 --count 1",
        "allot --seats 8",
        "allot --method hare",
        "recount --setup s",
        "recount --con c",
    ),
    "error: invalid value ": (
        "show --db a --report nonesuch --con c",
        "show --db a --report Tally --con c",
        "serve --db a --port 0 --count 1",
        "serve --db a --port 65536 --count 1",
        "serve --db a --port x --count 1",
        "serve --db a --port 8080 --count 0",
        "serve --db a --port 8080 --count 1000001",
    ),
    "error: a value is required for '--setup <FILE>' but none was supplied": (
        "new --db a --setup",
    ),
    "error: unexpected value 'yes' for '--semicolon' found": ("check --semicolon=yes",),
    "error: the argument '--semicolon' cannot be used multiple times": (
        "check --semicolon --semicolon",
    ),
    "error: the argument '--db <FILE>' cannot be used multiple times": (
        "new --db a --db b --setup s",
    ),
    "error: unexpected argument ": (
        "check extra",
        "--semicolon check",
        "new --semicolon",
        "new --rows",
        "new --db a --setup b extra",
        "import --db a --con -x --csv r",
    ),
}


UNKNOWN = (
    "error: unrecognized subcommand 'frobnicate'\n\nUsage: {} <COMMAND>\n\nFor more information,"
    " try '--help'.\n"
)


# The rows of the examples that are not lodged, as `examples/README.md` has them.
NAMED = """\
row 11 7 differs 01-002-A
row 13 4 bad_counts 03-003-A
row 14 0 bad_number HAYA
row 15 0 fields 8
row 16 7 differs 03-001-B
row 17 6 too_many_votes 04-002-A
"""


class CommandLine(ProgramCase):
    def test_command_lines_that_are_wrong(self):
        for error, lines in WRONG.items():
            for line in lines:
                with self.subTest(error=error, line=line):
                    ran = office(*line.split())
                    assert ran.status == 2 and not ran.out and ran.err.startswith(error), ran
        self.assertEqual(office("frobnicate"), Ran(2, "", UNKNOWN.format(PROGRAM.name)))
        only()

    def test_command_lines_that_ask_for_help(self):
        for line in (
            "",
            "--help",
            "-h",
            "help",
            "help check",
            "help serve",
            "check --help",
            "allot --help",
            "recount --help",
            "new --help",
            "import --help",
            "show --help",
            "serve --help",
        ):
            with self.subTest(line=line):
                ran = office(*line.split())
                assert (
                    ran.status == 2
                    and not ran.out
                    and f"Usage: {PROGRAM.name}" in ran.err
                    and not ran.err.startswith("error")
                ), ran
        self.assertEqual(office("--version"), Ran(2, "", "office 0.1.0\n"))
        only()

    def test_arguments_in_any_order_and_form(self):
        write("setup.toml", THREE_STATIONS)
        done("constituencies 1\n", "new", "--setup=setup.toml", "--db=office.db")
        write("returns.csv", RETURNS.replace(",", ";"))
        counts = "lodged 3\nsame 0\ndiffers 0\nrefused 0\nbad 0\nfirst -\n"
        done(counts, *"import --semicolon --csv returns.csv --con c1 --db office.db".split())
        for report in ("progress", "country", "results"):
            with self.subTest(report=report):
                self.assertEqual(show(report), show(report, con=None))
        # The office is opened before the port, so that no server begins here.
        for numbers in ("--count 1000000 --port 65535", "--port 1 --count 1"):
            with self.subTest(numbers=numbers):
                refused("no_tables", "serve", *numbers.split(), "--db", "nowhere.db")
        only("office.db")

    def test_codes_that_begin_with_a_dash(self):
        new()
        write("returns.csv", RETURNS)
        refused("no_constituency", "show", "--db", "office.db", "--report", "tally", "--con=-x")
        refused(
            "no_constituency", "import", "--db", "office.db", "--con=-x", "--csv", "returns.csv"
        )
        self.assertEqual(show("tally", con="-x").status, 2)

    def test_arguments_that_are_no_text(self):
        ran = subprocess.run(
            [PROGRAM, "show", b"--db", b"\xff"], capture_output=True, timeout=PATIENCE
        )
        self.assertEqual(
            (ran.returncode, ran.stdout, ran.stderr),
            (2, b"", b"error: the arguments are not all UTF-8 text\n"),
        )

    def test_arguments_that_are_long(self):
        """As long as the system lets an argument be, and as many as a long line of a shell has."""
        new()
        word = "x" * 131000
        for line in (
            ("show", "--report", "tally", f"--con={word}"),
            ("import", "--csv", "returns.csv", f"--con={word}"),
        ):
            with self.subTest(line=line):
                refused("no_constituency", *line, "--db", "office.db")
        failed("file", "import", "--db", "office.db", "--con", "c1", "--csv", word)
        failed("file", "new", "--db", "other.db", "--setup", word)
        for line in (("show", "--report", "progress"), ("serve", "--port", "8080", "--count", "1")):
            with self.subTest(line=line):
                failed("store", *line, "--db", word)
        for line, error in (
            ((word,), "error: unrecognized subcommand '"),
            (("check", word), "error: unexpected argument '"),
            (("check", "--" + word), "error: unexpected argument '"),
            (("check", *["x"] * 100000), "error: unexpected argument '"),
            (("show", "--db", "office.db", "--report", word), "error: invalid value '"),
        ):
            with self.subTest(line=line, error=error):
                ran = office(*line)
                assert ran.status == 2 and not ran.out and ran.err.startswith(error), (
                    ran.status,
                    ran.err[:200],
                )
        only("office.db")

    def test_the_check_of_the_examples(self):
        returns = (ROOT / "examples/returns.csv").read_text(encoding="utf-8")
        wanted = (ROOT / "examples/returns.txt").read_text(encoding="utf-8")
        self.assertEqual(office("check", given=returns), Ran(0, wanted, ""))
        self.assertEqual(
            office("check", "--semicolon", given=returns.replace(",", ";")), Ran(0, wanted, "")
        )
        self.assertEqual(office("check", "--rows", given=returns), Ran(0, wanted + NAMED, ""))
        self.assertEqual(
            office("check", "--rows", "--semicolon", given=returns.replace(",", ";")),
            Ran(0, wanted + NAMED, ""),
        )
        only()

    def test_a_check_over_streams_that_fail(self):
        """The first read fails, or one in the middle, or a write: the status says so, also where
        standard error takes nothing.
        """
        returns = (ROOT / "examples/returns.csv").read_bytes()
        os.mkdir("folder")
        folder = os.open("folder", os.O_RDONLY)
        self.assertEqual(check(folder), (3, b"", b"failed: read\n"))
        os.close(folder)
        with socket.create_server(("127.0.0.1", 0)) as listener:
            there = socket.create_connection(listener.getsockname(), timeout=PATIENCE)
            here, _ = listener.accept()
            there.sendall(returns[: len(returns) // 2])
            reset(there)
            self.assertEqual(check(here), (3, b"", b"failed: read\n"))
            here.close()
        with open("/dev/full", "wb") as full:
            self.assertEqual(check(returns, stdout=full), (3, None, b"failed: write\n"))
            self.assertEqual(check(b"", stderr=full), (1, b"", None))
            self.assertEqual(
                subprocess.run(
                    [PROGRAM], stderr=full, stdout=subprocess.PIPE, timeout=PATIENCE
                ).returncode,
                2,
            )
        only("folder")

    def test_standard_streams_that_are_closed(self):
        """A reader that goes after the first bytes, and each stream closed from the beginning: no
        file is written to in its place.
        """
        returns = "station,slip,blank,spoiled,A,B\n" + "x\n" * 20000
        write("returns.csv", returns)
        with open("returns.csv", "rb") as given:
            ran = subprocess.Popen(
                [PROGRAM, "check", "--rows"],
                stdin=given,
                stdout=subprocess.PIPE,
                stderr=subprocess.PIPE,
            )
            STARTED.append(ran)
            self.assertEqual(ran.stdout.read(9), b"lodged 0\n")
            ran.stdout.close()
            self.assertEqual((ran.stderr.read(), ran.wait(PATIENCE)), (b"failed: write\n", 3))
        new()
        for words, closed, status, errors in (
            (("check",), "<&-", 3, b"failed: read\n"),
            (("check",), ">&-", 3, b"failed: write\n"),
            (("show", "--report", "progress"), ">&-", 3, b"failed: write\n"),
            (("import", "--con", "c1", "--csv", "returns.csv"), ">&-", 3, b"failed: write\n"),
            (("import", "--con", "c1", "--csv", "nowhere.csv"), "2>&-", 3, b""),
            (("import", "--con", "c1", "--csv", "returns.csv"), "<&- >&- 2>&-", 3, b""),
        ):
            with self.subTest(words=words, closed=closed, status=status, errors=errors):
                db = ["--db", "office.db"] if words != ("check",) else []
                line = " ".join(["exec", str(PROGRAM), *words, *db, closed])
                ran = subprocess.run(
                    ["bash", "-c", line],
                    input=RETURNS.encode(),
                    capture_output=True,
                    timeout=PATIENCE,
                )
                self.assertEqual(
                    (ran.returncode, ran.stdout, ran.stderr), (status, b"", errors), line
                )
                shows("progress", PROGRESS, con=None)
        port = free_port()
        line = f"exec {PROGRAM} serve --db office.db --port {port} --count 2 <&- >&- 2>&-"
        ran = subprocess.Popen(["bash", "-c", line], stdin=subprocess.DEVNULL)
        STARTED.append(ran)
        for text in ("lodged", "same"):
            connection = answering(port)
            connection.request(
                "POST",
                "/station/s1/lodge",
                json.dumps({"slip": "p1", "votes": [100, 100], "blank": 0, "spoiled": 0}),
            )
            self.assertEqual(json.loads(connection.getresponse().read()), {"ok": text, "rev": 1})
            connection.close()
        self.assertEqual(ran.wait(PATIENCE), 3)
        shows(
            "progress",
            "c1                    1      0      1      0      0      0      1 open\n",
            con=None,
        )
        only("office.db")

    def test_a_check_of_too_many_rows(self):
        self.assertEqual(
            office("check", given="station,slip,blank,spoiled,A\n" + "x\n" * 20001),
            Ran(1, "", "refused: too_long\n"),
        )

    def test_a_report_of_a_constituency_wants_one(self):
        for report in (
            "tally",
            "seats",
            "quotients",
            "awards",
            "quota",
            "holders",
            "past",
            "provisional",
            "short",
            "stations",
            "returns",
        ):
            with self.subTest(report=report):
                self.assertEqual(show(report, con=None), Ran(2, "", "missing --con\n"))
        only()

    def test_help_of_each_command_names_its_arguments(self):
        for command, names in (
            ("check", ("--semicolon", "--rows")),
            ("allot", ("--seats", "--method", "--threshold", "--base", "--blank", "--lot")),
            ("allot", ("--alternating", "--awards", "--semicolon")),
            ("recount", ("--setup", "--con", "--without", "--lot", "--awards", "--decisive")),
            ("new", ("--db", "--setup")),
            ("import", ("--db", "--con", "--csv", "--semicolon", "--rows")),
            ("show", ("--db", "--report", "--con", "progress")),
            ("serve", ("--db", "--port", "--count")),
        ):
            with self.subTest(command=command, names=names):
                text = office(command, "--help").err
                assert all(name in text for name in names), text
                self.assertLessEqual(max(map(len, text.splitlines())), 80)
        reports = " ".join(office("show", "--help").err.split())
        for said in (
            "country the seats and votes of each list over all constituencies result",
            "results the results of all constituencies, as a JSON array --con",
            "returns the returns as CSV, which 'office import' takes",
        ):
            with self.subTest(said=said):
                self.assertIn(said, reports)

    def test_an_output_that_takes_nothing(self):
        new(THREE_STATIONS)
        write("returns.csv", RETURNS)
        with open("/dev/full", "w", encoding="utf-8") as full:
            words = [PROGRAM, "import", "--db", "office.db", "--con", "c1", "--csv", "returns.csv"]
            ran = subprocess.run(words, stdout=full, stderr=subprocess.PIPE, timeout=PATIENCE)
        self.assertEqual((ran.returncode, ran.stderr), (3, b"failed: write\n"))
        self.assertEqual(len(rows()["returns"]), 3)
        only("office.db")
