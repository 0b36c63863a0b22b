"""`office check`: the text that it writes of a file of returns, and which files it refuses.

In tables of rows and headers `/` stands for a line feed, `~` for a carriage return, and `!` and `?`
for bytes that no text in UTF-8 has there."""

import contextlib
import resource
import subprocess

from tests.support.case import PROGRAM
from tests.support.program import ProgramCase, Ran, lines_of, same
from tests.support.running import PATIENCE


HEADER = "station,slip,blank,spoiled,A,B\n"


ROW = "s,p,0,0,1,2\n"


NAMES = ("lodged", "same", "differs", "refused", "bad", "first", "blank", "spoiled")


EXAMPLE = """\
station,slip,blank,spoiled,A,B
s1,p1,2,1,50,40
s2,p2,0,0,30,60
s1,p1,2,1,50,40
s2,p2,0,0,31,60
s3,p3,0,0,x,5
s4,p4,0,0,900000,200000
"""


EXAMPLE_COUNTS = "2, 1, 1, 1, 1, 4 7, 2, 1, 80, 100"


# No row, and numbers.
NUMBERS = """
 = 0, 0, 0, 0, 0, -, 0, 0, 0, 0
s,p,0,0,000000001,000000002/ = 1, 0, 0, 0, 0, -, 0, 0, 1, 2
s,p,0,0,123456789,2/ = 0, 0, 0, 1, 0, 1 4, 0, 0, 0, 0
s,p,0,0,1234567890,2/ = 0, 0, 0, 0, 1, 1 0, 0, 0, 0, 0
s,p,0,0,0000000001,2/ = 0, 0, 0, 0, 1, 1 0, 0, 0, 0, 0
s,p,0,0,,2/ = 0, 0, 0, 0, 1, 1 0, 0, 0, 0, 0
s,p,0,0,+1,2/ = 0, 0, 0, 0, 1, 1 0, 0, 0, 0, 0
s,p,0,0, 1,2/ = 0, 0, 0, 0, 1, 1 0, 0, 0, 0, 0
s,p,x,0,1,2/ = 0, 0, 0, 0, 1, 1 0, 0, 0, 0, 0
s,p,0,x,1,2/ = 0, 0, 0, 0, 1, 1 0, 0, 0, 0, 0
"""


CODES = """
ABCDEFGHIJKLMNOP,p,3,4,1,2/ = 1, 0, 0, 0, 0, -, 3, 4, 1, 2
ABCDEFGHIJKLMNOPQ,p,3,4,1,2/ = 0, 0, 0, 0, 1, 1 0, 0, 0, 0, 0
s,A-Z_a-z_01234567,3,4,1,2/ = 1, 0, 0, 0, 0, -, 3, 4, 1, 2
s,A-Z_a-z_012345678,3,4,1,2/ = 0, 0, 0, 0, 1, 1 0, 0, 0, 0, 0
,p,0,0,1,2/ = 0, 0, 0, 0, 1, 1 0, 0, 0, 0, 0
s,,0,0,1,2/ = 0, 0, 0, 0, 1, 1 0, 0, 0, 0, 0
!,p,0,0,1,2/s,p,0,0,?,2/s,p,0,0,1,2/ = 1, 0, 0, 0, 2, 1 0, 0, 0, 1, 2
"""


# Fields and lines.
LINES = """
s,p,0,0,1/ = 0, 0, 0, 0, 1, 1 0, 0, 0, 0, 0
s,p,0,0,1,2,3/ = 0, 0, 0, 0, 1, 1 0, 0, 0, 0, 0
""/ = 0, 0, 0, 0, 1, 1 0, 0, 0, 0, 0
s;p;0;0;1;2/ = 0, 0, 0, 0, 1, 1 0, 0, 0, 0, 0
//~//s,p,0,0,1,2// = 1, 0, 0, 0, 0, -, 0, 0, 1, 2
//x/ = 0, 0, 0, 0, 1, 1 0, 0, 0, 0, 0
s,p,0,0,1,2 = 1, 0, 0, 0, 0, -, 0, 0, 1, 2
s,p,0,0,1,2~t,p,0,0,1,2~/u,p,0,0,1,2/ = 3, 0, 0, 0, 0, -, 0, 0, 3, 6
"s","p","0","0","1","2"/ = 1, 0, 0, 0, 0, -, 0, 0, 1, 2
s,p,0,0,1,"2 = 1, 0, 0, 0, 0, -, 0, 0, 1, 2
s,p,0,0,1,"2/ = 0, 0, 0, 0, 1, 1 0, 0, 0, 0, 0
"""


# The answers to a Lodge.
ANSWERS = """
s,p,0,0,1000000,0/ = 1, 0, 0, 0, 0, -, 0, 0, 1000000, 0
s,p,0,0,1000001,0/ = 0, 0, 0, 1, 0, 1 4, 0, 0, 0, 0
s,p,1000001,0,0,0/ = 0, 0, 0, 1, 0, 1 4, 0, 0, 0, 0
s,p,0,1000001,0,0/ = 0, 0, 0, 1, 0, 1 4, 0, 0, 0, 0
s,p,1,0,999999,1/ = 0, 0, 0, 1, 0, 1 6, 0, 0, 0, 0
s,p,0,1,999999,1/ = 0, 0, 0, 1, 0, 1 6, 0, 0, 0, 0
s,p,0,0,1000001,0/s,p,1,0,0,0/s,p,1,0,0,0/s,q,1,0,0,0/s,p,0,1,0,0/ = 1, 1, 2, 1, 0, 1 4, 1, 0, 0, 0
s,p,0,0,1,2/s,p,0,0,2,1/S,p,0,0,1,2/ = 2, 0, 1, 0, 0, 2 7, 0, 0, 2, 4
s,p,0,0,1,2/s,p,0,0,1,2/x/s,q,0,0,1,2/ = 1, 1, 1, 0, 1, 3 0, 0, 0, 1, 2
"""


EXAMPLE_NAMED = """\
row 4 7 differs s2
row 5 0 bad_number A
row 6 6 too_many_votes s4
"""


# Rows, and the lines that name them: what was neither lodged nor the same, with the first cause.
NAMED = """
 =
s,p,0,0,1,2/s,p,0,0,1,2/t,p,0,0,1,2/ =
""/ = row 1 0 fields 1
s,p,0,0/ = row 1 0 fields 4
s,p,0,0,1/ = row 1 0 fields 5
s,p,0,0,1,2,3/ = row 1 0 fields 7
,,x,x,x/ = row 1 0 fields 5
,,x,x,x,x/ = row 1 0 bad_station
s t,p,0,0,1,2/ = row 1 0 bad_station
s,,x,x,x,x/ = row 1 0 bad_slip
s,p,x,x,x,x/ = row 1 0 bad_number blank
s,p,0,x,x,x/ = row 1 0 bad_number spoiled
s,p,0,0,x,x/ = row 1 0 bad_number A
s,p,0,0,1,x/ = row 1 0 bad_number B
s,p,1234567890,0,1,2/ = row 1 0 bad_number blank
s,p,0,0,1000001,0/ = row 1 4 bad_counts s
s,p,0,0,1000001,x/ = row 1 0 bad_number B
s,p,1000000,1,0,0/ = row 1 6 too_many_votes s
s,p,0,0,1,2/s,q,0,0,1,2/ = row 2 7 differs s
s,p,0,0,1,2/s,q,0,0,1000001,2/s,p,0,0,1,2/x/s,p,0,0,1,3/t,p,0,0,1,2/ = row 2 4 bad_counts s/row 4 0
    fields 1/row 5 7 differs s
"""


# Headers: with the row below each is good or bad. `^` stands for a byte order mark.
HEADERS = """
good station,slip,blank,spoiled,A,B/
good /~/station,slip,blank,spoiled,A,B~
good "station","slip","blank","spoiled","A","B"~/
good ^station,slip,blank,spoiled,A,B/
bad ^^station,slip,blank,spoiled,A,B/
good station,slip,blank,spoiled,A,ABCDEFGHIJKLMNOP/
bad station,slip,blank,spoiled,A,ABCDEFGHIJKLMNOPQ/
bad station,slip,blank,spoiled,A,A/
good station,slip,blank,spoiled,a,A/
bad station,slip,blank,spoiled,A,/
bad station,slip,blank,spoiled,A,B C/
bad station,slip,blank,spoiled/
bad station,slip,blank/
bad station,slip,spoiled,blank,A,B/
bad slip,station,blank,spoiled,A,B/
bad Station,slip,blank,spoiled,A,B/
bad  station,slip,blank,spoiled,A,B/
bad station;slip;blank;spoiled;A;B/
bad ""/
bad station,slip,blank,spoiled,A,"B/
"""


def meant(text):
    text = text.replace("/", "\n").replace("~", "\r").replace("^", "\ufeff").encode()
    return text.replace(b"!", b"\xff").replace(b"?", b"\xc3")


def check(text, *flags):
    text = text if isinstance(text, bytes) else text.encode()
    ran = subprocess.run(
        [PROGRAM, "check", *flags], input=text, capture_output=True, timeout=PATIENCE
    )
    return Ran(ran.returncode, ran.stdout.decode(), ran.stderr.decode())


def named(text, wanted, *flags):
    """The lines of the rows are these, after the text that comes without them; the first is that of
    `first`.
    """
    ran, plain = check(text, "--rows", *flags), check(text, *flags)
    compared(text, ran, Ran(0, plain.out + wanted, ""))
    first = plain.out.split("first ")[1].split("\n")[0]
    assert (first == "-") == (wanted == "") and (
        not wanted or wanted.startswith(f"row {first} ")
    ), (text, first, wanted)


def compared(text, ran, wanted):
    same(ran, wanted, text[:200])


def counted(text, numbers, *flags, lists=("A", "B")):
    lines = zip(NAMES + tuple(lists), numbers.split(", "), strict=True)
    compared(
        text,
        check(text, *flags),
        Ran(0, "".join(f"{name} {number}\n" for name, number in lines), ""),
    )


def refused(text, word, *flags):
    compared(text, check(text, *flags), Ran(1, "", f"refused: {word}\n"))


def answered_before_its_end(text):
    """The answer of a check to a text that goes on: nothing follows, and its pipe stays open."""
    pipes = {"stdin": subprocess.PIPE, "stdout": subprocess.PIPE, "stderr": subprocess.PIPE}
    with subprocess.Popen([PROGRAM, "check"], bufsize=0, **pipes) as ran:
        try:
            with contextlib.suppress(BrokenPipeError):
                ran.stdin.write(text.encode())
            return Ran(ran.wait(PATIENCE), ran.stdout.read().decode(), ran.stderr.read().decode())
        except subprocess.TimeoutExpired:
            raise AssertionError("it waits for the end of the text") from None
        finally:
            ran.kill()


class Check(ProgramCase):
    def test_rows_and_what_is_counted_of_them(self):
        for table in (NUMBERS, CODES, LINES, ANSWERS):
            for line in lines_of(table):
                with self.subTest(line=line):
                    text, numbers = line.split(" = ")
                    counted(HEADER.encode() + meant(text), numbers)

    def test_the_worked_example(self):
        counted(EXAMPLE, EXAMPLE_COUNTS)
        named(EXAMPLE, EXAMPLE_NAMED)
        named(EXAMPLE.replace(",", ";"), EXAMPLE_NAMED, "--semicolon")

    def test_rows_that_are_named(self):
        for line in lines_of(NAMED):
            with self.subTest(line=line):
                text, wanted = line.split(" =")
                named(
                    HEADER.encode() + meant(text),
                    "".join(f"{row}\n" for row in wanted.strip().split("/") if row),
                )

    def test_lists_that_are_called_as_other_columns_are(self):
        named(
            "station,slip,blank,spoiled,spoiled,blank\ns,p,0,0,x,1\nt,p,0,0,1,x\nu,p,x,0,1,1\n",
            "row 1 0 bad_number spoiled\nrow 2 0 bad_number blank\nrow 3 0 bad_number blank\n",
        )

    def test_a_text_that_is_refused_names_no_row(self):
        refused("x\n", "bad_header", "--rows")
        refused(HEADER + "x\n" * 20001, "too_long", "--rows")

    def test_headers(self):
        for line in lines_of(HEADERS):
            with self.subTest(line=line):
                word, header = line.split(" ", 1)
                text = meant(header) + ROW.encode()
                if word == "good":
                    ran = check(text)
                    assert ran.status == 0 and ran.out.startswith("lodged 1\n") and not ran.err, ran
                else:
                    refused(text, "bad_header")

    def test_a_text_without_a_record_has_no_header(self):
        for text in ("", "\n", "\r\n\n", "\ufeff"):
            with self.subTest(text=text):
                refused(text, "bad_header")

    def test_sixty_lists_and_one_more(self):
        codes = [f"L{n}" for n in range(61)]
        fixed = "station,slip,blank,spoiled,"
        counted(
            fixed + ",".join(codes[:60]), "0, 0, 0, 0, 0, -, 0, 0" + ", 0" * 60, lists=codes[:60]
        )
        refused(fixed + ",".join(codes), "bad_header")

    def test_semicolons(self):
        counted(
            "station;slip;blank;spoiled;A;B\ns;p;3;4;1;2\nt,p,3,4,1,2\n",
            "1, 0, 0, 0, 1, 2 0, 3, 4, 1, 2",
            "--semicolon",
        )
        refused(EXAMPLE, "bad_header", "--semicolon")

    def test_twenty_thousand_rows_and_one_more(self):
        most = HEADER + "x\n" * 19999 + ROW
        counted(most, "1, 0, 0, 0, 19999, 1 0, 0, 0, 1, 2")
        named(most, "".join(f"row {n} 0 fields 1\n" for n in range(1, 20000)))
        refused(most + "x", "too_long")
        refused(most + "x\n", "bad_header", "--semicolon")

    def test_twenty_thousand_rows_that_are_named(self):
        """The longest lines: of codes of sixteen characters, of a return that is refused, of one
        that differs, and of a number of the last list.
        """
        header = "station,slip,blank,spoiled,ABCDEFGHIJKLMNOP,QRSTUVWXYZ-_0123\n"
        for row, numbers, cause in (
            ("S{:015},p,0,0,1000000,1", "0, 0, 0, 20000, 0, 1 6", "6 too_many_votes S{:015}"),
            ("S{:015},p,0,0,1,x", "0, 0, 0, 0, 20000, 1 0", "0 bad_number QRSTUVWXYZ-_0123"),
        ):
            with self.subTest(row=row, numbers=numbers, cause=cause):
                text = header + "".join(row.format(n) + "\n" for n in range(20000))
                counted(
                    text, numbers + ", 0, 0, 0, 0", lists=("ABCDEFGHIJKLMNOP", "QRSTUVWXYZ-_0123")
                )
                named(text, "".join(f"row {n + 1} {cause.format(n)}\n" for n in range(20000)))
        text = HEADER + "ABCDEFGHIJKLMNOP,p,0,0,1,2\n" + "ABCDEFGHIJKLMNOP,q,0,0,1,2\n" * 19999
        counted(text, "1, 0, 19999, 0, 0, 2 7, 0, 0, 1, 2")
        named(text, "".join(f"row {n} 7 differs ABCDEFGHIJKLMNOP\n" for n in range(2, 20001)))

    def test_as_many_votes_as_a_text_may_have(self):
        """Sixteen mebibytes with 20,000 returns for sixty lists, each of a million votes: blank
        ones, spoiled ones, or for a list.
        """
        codes = [f"L{n:015}" for n in range(60)]
        header = ",".join(["station", "slip", "blank", "spoiled", *codes]) + "\n"
        for place in (0, 1, 2, 61):
            with self.subTest(place=place):
                numbers, sums = [0] * 62, [0] * 62
                numbers[place], sums[place] = 1000000, 20000000000
                votes = ",".join(f"{n:09}" for n in numbers)
                text = header + "".join(f"S{n:015},P{n:015},{votes}\n" for n in range(20000))
                assert 13000000 < len(text) <= 16777216, len(text)
                counted(
                    text.ljust(16777216, "\n"),
                    ", ".join(["20000, 0, 0, 0, 0, -", *map(str, sums)]),
                    lists=codes,
                )

    def test_the_longest_record(self):
        """One row that fills sixteen mebibytes: of letters, of separators, of line ends and of
        quotes within quotes. So may the header.
        """
        most = 16777216 - len(HEADER)
        for record, fields in (
            ("x" * most, 1),
            ("," * most, most + 1),
            ('"' + "\n" * (most - 2) + '"', 1),
            ('"' * (most // 2 * 2), 1),
        ):
            with self.subTest(record=record, fields=fields):
                named(HEADER + record, f"row 1 0 fields {fields}\n")
        for header in (
            "x" * 16777216,
            "," * 16777216,
            HEADER.rstrip() + "," * (16777217 - len(HEADER)),
        ):
            with self.subTest(header=header):
                refused(header, "bad_header")

    def test_sixteen_mebibytes_and_one_more(self):
        counted(EXAMPLE.ljust(16777216, "\n"), EXAMPLE_COUNTS)
        refused(EXAMPLE.ljust(16777217, "\n"), "too_long")
        refused(EXAMPLE.ljust(16777217, "\n"), "bad_header", "--semicolon")
        # A header that goes on past the limit is not looked at.
        refused("x" * 16777217, "too_long")

    def test_lines_within_quotes_where_the_input_is_cut(self):
        # Records with line ends in quotes, and one that is longer than what is read at once, after
        # this many empty lines.
        for empty in range(20):
            text = (
                HEADER + "\n" * empty + '"xxxxxxxx\n\nxxxxxx"\r' * 18000 + "x" * 800000 + "\n" + ROW
            )
            counted(text, "1, 0, 0, 0, 18001, 1 0, 0, 0, 1, 2")

    def test_rows_after_a_long_record(self):
        # The text after a record longer than what is read at once is held in parts; a part may
        # end anywhere in a row.
        count = 19000
        rows = "".join(
            f"station-{n:08d},slip-{n:011d},000000000,000000000,000000001,000000002\n"
            for n in range(count)
        )
        for longer in range(15):
            text = HEADER + '"' + "x\n" * 150000 + "x" * 5 * longer + '"\n' + rows
            counted(text, f"{count}, 0, 0, 0, 1, 1 0, 0, 0, {count}, {2 * count}")

    def test_too_many_rows_are_known_before_the_text_ends(self):
        # The 262,144 bytes that are held first end in a row or, then, in a field in quotes with
        # line ends, of a record that is no longer than a piece. What follows is read by pieces all
        # the same.
        rows = ("x" * 39 + "\n") * 40000
        front = HEADER + ("x" * 9999 + "\n") * 25
        for cut in ("", '"' + "x\n" * 10000 + '"\n'):
            with self.subTest(cut=cut):
                text = front + cut + rows
                compared(text, answered_before_its_end(text), Ran(1, "", "refused: too_long\n"))

    def test_a_small_memory(self):
        """A text of sixteen mebibytes is not held whole, also where lines end within quotes."""

        def limited():
            resource.setrlimit(resource.RLIMIT_AS, (12 * 1024 * 1024, 12 * 1024 * 1024))

        good = HEADER + "".join(f"s{n},p,0,0,1,2\n" for n in range(10000))
        for row in (
            '"xxxxxxxx\n\nxxxxxx",' + "y" * 1500 + "\n",
            "x" * 1600 + "\n",
            '"' + "x\n" * 800 + '"\n',
        ):
            with self.subTest(row=row):
                text = good + row * 10000
                assert 15000000 < len(text) <= 16777216, len(text)
                words = [PROGRAM, "check"]
                ran = subprocess.run(
                    words,
                    input=text.encode(),
                    capture_output=True,
                    timeout=PATIENCE,
                    env={},
                    preexec_fn=limited,
                )
                found = Ran(ran.returncode, ran.stdout.decode(), ran.stderr.decode())
                numbers = zip(
                    NAMES + ("A", "B"),
                    ("10000", "0", "0", "0", "10000", "10001 0", "0", "0", "10000", "20000"),
                    strict=True,
                )
                compared(
                    text,
                    found,
                    Ran(0, "".join(f"{name} {number}\n" for name, number in numbers), ""),
                )

    def test_a_small_stack(self):
        def limited():
            resource.setrlimit(resource.RLIMIT_STACK, (76 * 1024, 76 * 1024))

        for text, status in ((EXAMPLE, 0), ('"' + "x" * 2000000, 1), ('"' + "x\n" * 1000000, 1)):
            with self.subTest(text=text, status=status):
                words = [PROGRAM, "check"]
                ran = subprocess.run(
                    words,
                    input=text.encode(),
                    capture_output=True,
                    timeout=PATIENCE,
                    env={},
                    preexec_fn=limited,
                )
                self.assertEqual(ran.returncode, status)
