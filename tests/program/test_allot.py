"""`office allot`: the text that it writes of the votes of lists, and what it refuses.

The seats, votes short and next lists are those of the law's own example, or worked out by hand.
"""

import contextlib
import os
import socket
import subprocess

from tests.support.case import PROGRAM, ROOT
from tests.support.desk import reset
from tests.support.program import ProgramCase, Ran, lines_of, only, same
from tests.support.running import PATIENCE


HEADER = "list,votes\n"


# LOREG article 163.1 c) prints these votes as its example, for eight seats.
LAW = HEADER + "A,168000\nB,104000\nC,72000\nD,64000\nE,40000\nF,32000\n"


LAW_WORDS = ("--seats", "8", "--threshold", "300")


TWO_EQUAL = HEADER + "A,100\nB,100\n"


THREE_EQUAL = HEADER + "B,100\nA,100\nC,100\n"


TWO_APART = HEADER + "A,10\nB,20\n"


LAW_BY_DHONDT = """\
ALLOT dhondt seats 8
threshold 300 base valid rule fixed
lot -
valid 480000 blank 0
A                     168000   35.00 in      4       92000
B                     104000   21.66 in      2       22001
C                      72000   15.00 in      1       12001
D                      64000   13.33 in      1       20001
E                      40000    8.33 in      0        2001
F                      32000    6.66 in      0       10001
total                 480000                 8
next E
"""


# The quota is 60,000 votes. The whole quotas are 2, 1, 1, 1, 0 and 0; what they leave of the votes
# times eight is 384000, 352000, 96000, 32000, 320000 and 256000.
LAW_BY_HARE = """\
ALLOT hare seats 8
threshold 300 base valid rule fixed
lot -
valid 480000 blank 0
A                     168000   35.00 in      3
B                     104000   21.66 in      2
C                      72000   15.00 in      1
D                      64000   13.33 in      1
E                      40000    8.33 in      1
F                      32000    6.66 in      0
total                 480000                 8
"""


LAW_QUOTAS = """\
votes 480000 seats 8
A                     168000    2          384000    3
B                     104000    1          352000    2
C                      72000    1           96000    1
D                      64000    1           32000    1
E                      40000    0          320000    1
F                      32000    0          256000    0
"""


LAW_AWARDS = """\
   1 A                  1        168000     1      168000
   2 B                  1        104000     1      104000
   3 A                  2        168000     2       84000
   4 C                  1         72000     1       72000
   5 D                  1         64000     1       64000
   6 A                  3        168000     3       56000
   7 B                  2        104000     2       52000
   8 A                  4        168000     4       42000
"""


# Three seats for two lists with equal votes. The first quotients are 100, the second ones 50: B is
# first by lot, and has the third seat too. With 200 votes more its third quotient would be 100, as
# A's first is, and it would have more votes; with one more A's second would be above B's.
BY_LOT = """\
ALLOT dhondt seats 3
threshold 0 base valid rule fixed
lot B A
valid 200 blank 0
A                        100   50.00 in      1           1
B                        100   50.00 in      2         200
total                    200                 3
next A
   1 B                  1           100     1         100
   2 A                  1           100     1         100
   3 B                  2           100     2          50
"""


# Their second seats are even ones: there the order is turned round, and A has the third seat.
BY_LOT_IN_TURN = """\
ALLOT dhondt seats 3
threshold 0 base valid rule alternating
lot B A
valid 200 blank 0
A                        100   50.00 in      2         200
B                        100   50.00 in      1           1
total                    200                 3
next B
   1 B                  1           100     1         100
   2 A                  1           100     1         100
   3 A                  2           100     2          50
"""


# 1,000 of 20,000 valid votes are 5 per cent. A has all seats, and could gain none.
BELOW_TEN_PER_CENT = """\
ALLOT dhondt seats 9
threshold 1000 base valid rule fixed
lot -
valid 20000 blank 10000
A                       9000   45.00 in      9           -
B                       1000    5.00 out     0           -
total                  10000                 9
next A
"""


# Of the votes of the lists alone they are 10 per cent. A's ninth quotient is 1,000, as B's first
# is, and A has more votes.
TEN_PER_CENT = """\
ALLOT dhondt seats 9
threshold 1000 base lists rule fixed
lot -
valid 20000 blank 10000
A                       9000   90.00 in      9           -
B                       1000   10.00 in      0           1
total                  10000                 9
next B
"""


# B has 2.9 per cent of the valid votes, which is below the threshold. Its first quotient would be
# 29; A's forty-first is less than 22.
NONE_NEXT_BUT_THE_SECOND = """\
ALLOT dhondt seats 40
threshold 300 base valid rule fixed
lot -
valid 1000 blank 71
B                         29    2.90 out     0           -
A                        900   90.00 in     40           -
total                    929                40
next A
"""


# Rows below the header, and why two seats by D'Hondt are refused. `/` stands for a line feed.
REFUSED = """
 = no_list
/// = no_list
A,0/ = no_eligible
A,5000000001/ = bad_row 1 bad_number
A,9999999999/ = bad_row 1 bad_number
A,x/ = bad_row 1 bad_number
A,-1/ = bad_row 1 bad_number
A,+1/ = bad_row 1 bad_number
A, 1/ = bad_row 1 bad_number
A,1.0/ = bad_row 1 bad_number
A,/ = bad_row 1 bad_number
A,00000000001/ = bad_row 1 bad_number
A,1/A,2/ = bad_row 2 duplicate A
A,1/A,x/ = bad_row 2 duplicate A
A,1/B/ = bad_row 2 fields 1
A,1/B,2,3/ = bad_row 2 fields 3
A,1/B,2,/ = bad_row 2 fields 3
A;1/ = bad_row 1 fields 1
""/ = bad_row 1 fields 1
A B,x/ = bad_row 1 bad_list
!,x/ = bad_row 1 bad_list
,1/ = bad_row 1 bad_list
ABCDEFGHIJKLMNOPQ,1/ = bad_row 1 bad_list
A,x/A,x/ = bad_row 1 bad_number
A,1/B,x/C/ = bad_row 2 bad_number
A,5000000000/B,1/ = too_many_votes
A,5000000000/B,5000000000/C,5000000000/ = too_many_votes
A,5000000000/B,1/B,1/ = bad_row 3 duplicate B
"""


ACCEPTED = """
A,1
/A,0000000001/
"A","1"/
A,1~/~/
A,1~
ABCDEFGHIJKLMNOP,5000000000/
-a_Z9,1/B,0/
"""


# Headers: with the row below each is good or bad. `^` stands for a byte order mark.
HEADERS = """
good list,votes/
good /~/list,votes~
good "list","votes"/
good ^list,votes/
bad ^^list,votes/
bad votes,list/
bad list/
bad list,votes,/
bad List,votes/
bad list, votes/
bad list;votes/
bad ""/
bad A,1/
"""


# The votes of lists with codes in this order, the seats, and what a lot comes to.
LOTS = """
A=100 B=100; 3; none = lot_missing 1 A B
B=100 A=100; 3; none = lot_missing 1 B A
A=100 C=200 B=100; 3; none = lot_missing 1 A B
B=100 A=100 C=100; 2; none = lot_missing 2 B A C
A=100 B=100; 3; A = wrong_lot
A=100 B=100; 3; B,C = wrong_lot
A=100 B=100; 3; A,B,C = wrong_lot
A=100 B=100; 3; A,A = wrong_lot
A=100 B=100; 3; A,B,A = wrong_lot
A=100 B=100; 3; A,B, = wrong_lot
A=100 B=100; 3; ,A,B = wrong_lot
A=100 B=100; 3; A,,B = wrong_lot
A=100 B=100; 3;  = wrong_lot
A=100 B=100; 3; A;B = wrong_lot
A=100 B=100; 3; A, B = wrong_lot
A=100 B=100; 3; a,b = wrong_lot
A=100 C=200 B=100; 3; A,B,C = wrong_lot
A=100 B=100; 2; A,B = wrong_lot
A=100 B=100; 2;  = wrong_lot
A=1 B=2; 1; B,A = wrong_lot
A=0 B=0; 1; none = no_eligible
A=0 B=0; 1; A,B = no_eligible
A=0 B=0; 1; C = no_eligible
"""


# Options after `allot --method dhondt`, which ask for nothing that can be done.
WRONG = """
--threshold 300
--seats
--seats 0
--seats 501
--seats x
--seats=
--seats=-1
--seats 8.0
--seats 18446744073709551624
--seats 8 --seats 8
--seats 8 --method hare
--seats 8 --threshold 10001
--seats 8 --threshold=-1
--seats 8 --threshold x
--seats 8 --threshold=
--seats 8 --threshold 18446744073709551616
--seats 8 --threshold 3 --threshold 3
--seats 8 --blank 5000000001
--seats 8 --blank=-1
--seats 8 --blank x
--seats 8 --blank 1 --blank 1
--seats 8 --base all
--seats 8 --base Valid
--seats 8 --base=
--seats 8 --base valid --base valid
--seats 8 --lot
--seats 8 --lot -x,y
--seats 8 --lot A --lot B
--seats 8 --lot A B
--seats 8 --alternating --alternating
--seats 8 --awards --awards
--seats 8 --awards=yes
--seats 8 --semicolon --semicolon
--seats 8 --rows
--seats 8 votes.csv
"""


MEGABYTE = 1_048_576


def meant(text):
    text = text.replace("/", "\n").replace("~", "\r").replace("^", "\ufeff").encode()
    return text.replace(b"!", b"\xff")


def allot(*words, given=LAW, method="dhondt", **streams):
    """The outcome of one allotment of a text or a stream."""
    text = given.encode() if isinstance(given, str) else given
    ran = subprocess.run(
        [PROGRAM, "allot", "--method", method, *words],
        **({"input": text} if isinstance(text, bytes) else {"stdin": text}),
        **{"stdout": subprocess.PIPE, "stderr": subprocess.PIPE, **streams},
        timeout=PATIENCE,
    )
    return Ran(ran.returncode, (ran.stdout or b"").decode(), (ran.stderr or b"").decode())


def writes(text, *words, **how):
    same(allot(*words, **how), Ran(0, text, ""), words)


def refused(word, *words, **how):
    same(allot(*words, **how), Ran(1, "", f"refused: {word}\n"), words)


def votes_of(lists):
    """The text of votes that `A=1 B=2` stands for."""
    return HEADER + "".join(f"{row.replace('=', ',')}\n" for row in lists.split())


def seats_of(ran, lists):
    """The seats of each list, in a text of this many lists."""
    same((ran.status, ran.err), (0, ""))
    return [int(line[41:46]) for line in ran.out.splitlines()[4 : 4 + lists]]


class Texts(ProgramCase):
    def test_the_example_of_the_law(self):
        writes(LAW_BY_DHONDT, *LAW_WORDS)
        writes(LAW_BY_HARE, *LAW_WORDS, method="hare")
        self.assertEqual((ROOT / "examples/votes.csv").read_text(encoding="utf-8"), LAW)
        only()

    def test_the_awards_and_the_quotas(self):
        writes(LAW_BY_DHONDT + LAW_AWARDS, *LAW_WORDS, "--awards")
        writes(LAW_BY_HARE + LAW_QUOTAS, *LAW_WORDS, "--awards", method="hare")

    def test_the_four_methods(self):
        """53, 24 and 23 votes get 2, 0 and 0 of two seats, or 1, 1 and 0."""
        for method, law, small in (
            ("dhondt", [4, 2, 1, 1, 0, 0], [2, 0, 0]),
            ("sainte-lague", [3, 2, 1, 1, 1, 0], [1, 1, 0]),
            ("modified-sainte-lague", [3, 2, 1, 1, 1, 0], [2, 0, 0]),
            ("hare", [3, 2, 1, 1, 1, 0], [1, 1, 0]),
        ):
            with self.subTest(method=method):
                ran = allot("--seats", "8", method=method)
                self.assertEqual(ran.out.splitlines()[0], f"ALLOT {method} seats 8")
                self.assertEqual(seats_of(ran, 6), law)
                ran = allot("--seats", "2", given=votes_of("A=53 B=24 C=23"), method=method)
                self.assertEqual(seats_of(ran, 3), small)

    def test_a_lot_that_was_drawn(self):
        writes(BY_LOT, "--seats", "3", "--lot", "B,A", "--awards", given=TWO_EQUAL)
        words = ("--seats", "3", "--lot", "B,A", "--awards", "--alternating")
        writes(BY_LOT_IN_TURN, *words, given=TWO_EQUAL)
        ran = allot("--seats", "2", "--lot", "C,A,B", given=THREE_EQUAL)
        self.assertEqual(seats_of(ran, 3), [0, 1, 1])
        self.assertEqual(ran.out.splitlines()[2], "lot C A B")

    def test_a_lot_of_a_code_that_begins_with_a_dash(self):
        ran = allot("--seats", "1", "--lot=-x,y", given=votes_of("-x=1 y=1"))
        self.assertEqual(seats_of(ran, 2), [1, 0])
        self.assertEqual(ran.out.splitlines()[2], "lot -x y")

    def test_the_base_of_the_threshold(self):
        given = votes_of("A=9000 B=1000")
        words = ("--seats", "9", "--threshold", "1000", "--blank", "10000")
        writes(BELOW_TEN_PER_CENT, *words, given=given)
        writes(BELOW_TEN_PER_CENT, *words, "--base", "valid", given=given)
        writes(TEN_PER_CENT, *words, "--base", "lists", given=given)

    def test_which_list_is_next(self):
        # After one seat B's second quotient is 10, as A's first is, and B has more votes.
        for seats, wanted in (("1", "next B"), ("2", "next A"), ("3", "next B")):
            with self.subTest(seats=seats):
                ran = allot("--seats", seats, given=TWO_APART)
                self.assertEqual(ran.out.splitlines()[-1], wanted)
        self.assertEqual(allot("--seats", "2", given=TWO_EQUAL).out.splitlines()[-1], "next -")
        ran = allot("--seats", "2", given=votes_of("A=1"))
        self.assertEqual(ran.out.splitlines()[-1], "next A")
        words = ("--seats", "40", "--threshold", "300", "--blank", "71")
        writes(NONE_NEXT_BUT_THE_SECOND, *words, given=votes_of("B=29 A=900"))

    def test_how_a_text_may_be_written(self):
        text = LAW.replace(",", ";").replace("A;", '"A";').replace("\n", "\r\n")
        writes(LAW_BY_DHONDT, *LAW_WORDS, "--semicolon", given="\ufeff" + text)
        for rows in lines_of(ACCEPTED):
            with self.subTest(rows=rows):
                ran = allot("--seats", "2", given=HEADER.encode() + meant(rows))
                self.assertEqual((ran.status, ran.err), (0, ""))
        for line in lines_of(HEADERS):
            with self.subTest(line=line):
                word, header = line.split(" ", 1)
                ran = allot("--seats", "2", given=meant(header) + b"A,1\n")
                wanted = (0, "") if word == "good" else (1, "refused: bad_header\n")
                self.assertEqual((ran.status, ran.err), wanted)

    def test_sixty_lists_and_five_hundred_seats(self):
        """Of sixty lists with one vote each has one of sixty seats. With one vote more, its second
        quotient would be 1, as the first of each other is, and it would have more votes.
        """
        codes = [f"L{n}" for n in range(1, 61)]
        rows = "".join(f"{code:<16}{1:>12}{'1.66':>8} in  {1:>5}{1:>12}\n" for code in codes)
        writes(
            "ALLOT dhondt seats 60\nthreshold 0 base valid rule fixed\nlot -\nvalid 60 blank 0\n"
            + rows
            + f"{'total':<16}{60:>12}{60:>18}\nnext -\n",
            "--seats",
            "60",
            given=votes_of(" ".join(f"{code}=1" for code in codes)),
        )
        # The first of two has all of 500 seats: its last quotient is nearly 10,000,000.
        ran = allot("--seats", "500", "--awards", given=votes_of("A=4999999999 B=1"))
        self.assertEqual(seats_of(ran, 2), [500, 0])
        self.assertEqual(len(ran.out.splitlines()), 8 + 500)


class Limits(ProgramCase):
    def test_the_limits_of_each_option(self):
        one, large = votes_of("A=1"), votes_of("A=5000000000")
        whole = "threshold 10000 base valid rule fixed"
        for words, given, line, wanted in (
            (("--seats", "1"), one, 0, "ALLOT dhondt seats 1"),
            (("--seats", "500"), one, 0, "ALLOT dhondt seats 500"),
            (("--seats", "+8"), one, 0, "ALLOT dhondt seats 8"),
            (("--seats=008",), one, 0, "ALLOT dhondt seats 8"),
            (("--seats", "8", "--threshold", "0"), one, 1, "threshold 0 base valid rule fixed"),
            (("--seats", "8", "--threshold", "10000"), one, 1, whole),
            (("--seats", "8", "--base", "lists"), one, 1, "threshold 0 base lists rule fixed"),
            (("--seats", "8", "--blank", "0"), large, 3, "valid 5000000000 blank 0"),
            (("--seats=8", "--blank=4999999999"), one, 3, "valid 5000000000 blank 4999999999"),
        ):
            with self.subTest(words=words):
                ran = allot(*words, given=given)
                self.assertEqual((ran.status, ran.err), (0, ""))
                self.assertEqual(ran.out.splitlines()[line], wanted)
        refused("too_many_votes", "--seats", "2", "--blank", "1", given=large)
        refused("too_many_votes", "--seats", "2", "--blank", "5000000000", given=one)
        refused("no_eligible", "--seats", "2", "--blank", "5000000000", given=votes_of("A=0"))
        refused("no_eligible", "--seats", "2", "--threshold", "10000", given=TWO_EQUAL)

    def test_command_lines_that_are_wrong(self):
        for line in lines_of(WRONG):
            with self.subTest(line=line):
                ran = allot(*line.split())
                assert ran.status == 2 and not ran.out and ran.err.startswith("error: "), ran
        for method in ("imperiali", "DHondt", "dhondt,hare", ""):
            with self.subTest(method=method):
                ran = allot("--seats", "8", method=method)
                assert ran.status == 2 and not ran.out and ran.err.startswith("error: "), ran
        only()

    def test_a_word_that_names_no_method_or_base(self):
        methods = "  [possible values: dhondt, sainte-lague, modified-sainte-lague, hare]\n"
        error = "error: invalid value 'x' for '--{} <WORD>'\n{}"
        ran = allot("--seats", "8", method="x")
        assert ran.err.startswith(error.format("method", methods)), ran
        ran = allot("--seats", "8", "--base", "x")
        assert ran.err.startswith(error.format("base", "  [possible values: valid, lists]\n")), ran

    def test_sixty_lists_and_one_more(self):
        rows = "".join(f"L{n},1\n" for n in range(60))
        self.assertEqual(allot("--seats", "60", given=HEADER + rows).status, 0)
        # Whatever the 61st row has; but a row that is bad comes first where it is before.
        for more in ("L60,1\n", "L0,1\n", "x\n", ",", "x"):
            with self.subTest(more=more):
                refused("too_many_lists", "--seats", "60", given=HEADER + rows + more)
        rows = rows.removesuffix("L59,1\n") + "x\n" * 3
        refused("bad_row 60 fields 1", "--seats", "60", given=HEADER + rows)

    def test_a_text_as_long_as_it_may_be(self):
        writes(LAW_BY_DHONDT, *LAW_WORDS, given=LAW.ljust(MEGABYTE, "\n"))
        refused("too_long", *LAW_WORDS, given=LAW.ljust(MEGABYTE + 1, "\n"))
        # A fault before the limit comes first; a record that goes on past it is not read.
        for text, word in (
            ("x\n" + "x" * MEGABYTE, "bad_header"),
            (HEADER + "x\n" + "x" * MEGABYTE, "bad_row 1 fields 1"),
            (HEADER + "A,1\n" + "x" * MEGABYTE, "too_long"),
            ("x" * (MEGABYTE + 1), "too_long"),
        ):
            with self.subTest(word=word, text=text):
                refused(word, *LAW_WORDS, given=text)


class Refusals(ProgramCase):
    def test_texts_that_are_no_votes(self):
        for line in lines_of(REFUSED):
            with self.subTest(line=line):
                rows, word = line.split(" = ")
                refused(word, "--seats", "2", given=HEADER.encode() + meant(rows))
        for text in ("", "\n", "\r\n\n", "\ufeff"):
            with self.subTest(text=text):
                refused("bad_header", "--seats", "2", given=text)

    def test_lots(self):
        for line in lines_of(LOTS):
            with self.subTest(line=line):
                asked, word = line.rsplit(" = ", 1)
                lists, seats, lot = asked.split("; ", 2)
                words = [] if lot == "none" else [f"--lot={lot}"]
                refused(word, "--seats", seats, *words, given=votes_of(lists))

    def test_a_lot_among_sixty_lists(self):
        """Of 59 seats none is decided; of 61 each list has one, and a lot decides the last."""
        codes = [f"L{n:015}" for n in range(1, 61)]
        given = votes_of(" ".join(f"{code}=7" for code in codes))
        for seats, question in (("59", 59), ("61", 1), ("119", 59)):
            with self.subTest(seats=seats):
                refused(f"lot_missing {question} {' '.join(codes)}", "--seats", seats, given=given)
        lot = ",".join(codes[::-1])
        ran = allot("--seats", "61", "--lot", lot, given=given)
        self.assertEqual(seats_of(ran, 60), [1] * 59 + [2])
        self.assertEqual(ran.out.splitlines()[2], f"lot {lot.replace(',', ' ')}")


class Streams(ProgramCase):
    def test_streams_that_fail(self):
        """The first read fails, or one in the middle, or a write: the status says so, also where
        standard error takes nothing. What is wrong in the bytes before a failed read comes first.
        """
        failed = Ran(3, "", "failed: read\n")
        os.mkdir("folder")
        folder = os.open("folder", os.O_RDONLY)
        self.assertEqual(allot(*LAW_WORDS, given=folder), failed)
        os.close(folder)
        for text, wanted in (
            (LAW[:30], failed),
            (HEADER, failed),
            (HEADER + "\n\n", failed),
            ("votes,list\nA", Ran(1, "", "refused: bad_header\n")),
            (HEADER + "A,x\nB", Ran(1, "", "refused: bad_row 1 bad_number\n")),
            ("votes,list", failed),
        ):
            with self.subTest(text=text), contextlib.ExitStack() as opened:
                listener = opened.enter_context(socket.create_server(("127.0.0.1", 0)))
                there = socket.create_connection(listener.getsockname(), timeout=PATIENCE)
                here = opened.enter_context(listener.accept()[0])
                there.sendall(text.encode())
                reset(there)
                self.assertEqual(allot(*LAW_WORDS, given=here), wanted)
        with open("/dev/full", "wb") as full:
            self.assertEqual(allot(*LAW_WORDS, stdout=full), Ran(3, "", "failed: write\n"))
            self.assertEqual(allot(*LAW_WORDS, given="", stderr=full), Ran(1, "", ""))
        only("folder")

    def test_standard_streams_that_are_closed(self):
        for closed, errors in (
            ("<&-", "failed: read\n"),
            (">&-", "failed: write\n"),
            ("2>&- >&-", ""),
        ):
            with self.subTest(closed=closed):
                ran = subprocess.run(
                    ["bash", "-c", f"exec {PROGRAM} allot --seats 8 --method dhondt {closed}"],
                    input=LAW,
                    capture_output=True,
                    text=True,
                    timeout=PATIENCE,
                )
                self.assertEqual((ran.returncode, ran.stdout, ran.stderr), (3, "", errors))
        only()
