"""`office recount`: the text that it writes of a file of returns, and what it refuses.

The numbers are worked out by hand, or are those of the certified office of README.
"""

import contextlib
import os
import shutil
import socket
import subprocess

from tests.support.case import PROGRAM, ROOT
from tests.support.desk import reset
from tests.support.office import (
    DOUBLE,
    LISTS,
    PROFILE,
    RETURNS,
    SETUP,
    THREE_STATIONS,
    constituency,
    party_list,
    profile,
    station,
)
from tests.support.program import ProgramCase, Ran, lines_of, office, only, same, write
from tests.support.running import PATIENCE


HEADER = "station,slip,blank,spoiled,A,B\n"


# Two of the rows are of stations that the constituency does not have.
TWIN_TOWN = """\
RECOUNT c1 Twin Town
stations 1 counted 1 without 0
passed 2
method dhondt seats 3
threshold 0 base valid rule fixed
lot -
valid 30 blank 0 spoiled 0
A                         10   33.33 in      1          11 Alpha
B                         20   66.66 in      2          10 Beta
total                     30                 3
next B
"""


TWIN_TOWN_AWARDS = """\
   1 B                  1            20     1          20
   2 B                  2            20     2          10
   3 A                  1            10     1          10
"""


# One seat, and three stations. Without s1 the lists have 6 and 10 votes; without s2 11 and 6,
# without s3 15 and 14.
ONE_SEAT = (
    PROFILE
    + constituency("c1", "One", 1, "d0")
    + LISTS
    + station("s1")
    + station("s2")
    + station("s3")
)


ONE_SEAT_RETURNS = HEADER + "s1,p1,0,0,10,5\ns2,p2,0,0,5,9\ns3,p3,0,0,1,1\n"


ONE_SEAT_TEXT = """\
RECOUNT c1 One
stations 3 counted 3 without 0
passed 0
method dhondt seats 1
threshold 0 base valid rule fixed
lot -
valid 31 blank 0 spoiled 0
A                         16   51.61 in      1           - Alpha
B                         15   48.38 in      0           2 Beta
total                     31                 1
next B
decisive s1
"""


# Rows below the header, which are counted of s1, s2 and s3: how many are counted, how many are
# passed, and how many votes, blank and spoiled ones come of it. `/` stands for a line feed.
COUNTED = """
s1,p1,0,0,10,20/ = 1 0 30 0 0
s1,p1,1,2,10,20/ = 1 0 31 1 2
s1,p1,0,0,10,20/s1,p1,0,0,10,20/ = 1 1 30 0 0
s1,p1,0,0,10,20/s1,p2,0,0,10,20/ = 1 1 30 0 0
s1,p1,0,0,10,20/s1,p1,0,0,20,10/ = 1 1 30 0 0
s1,p1,0,0,300,1/s1,p1,0,0,10,20/ = 1 1 30 0 0
s1,p1,0,0,10,1000001/s1,p1,0,0,10,20/ = 1 1 30 0 0
s1,p1,0,0,x,20/s1,p1,0,0,10,20/ = 1 1 30 0 0
s1,p1,0,0,10/s1,p1,0,0,10,20/ = 1 1 30 0 0
s1,p 1,0,0,10,20/s1,p1,0,0,10,20/ = 1 1 30 0 0
s9,p1,0,0,10,20/s1,p1,0,0,10,20/ = 1 1 30 0 0
s2,p1,0,0,1,2/s1,p1,0,0,10,20/ = 2 0 33 0 0
"""


# Rows below the header, where s1 is left out.
LEFT_OUT = """
s2,p1,0,0,10,20/s1,p1,0,0,10,20/ = 1 0 30 0 0
s2,p1,0,0,10,20/s1,p1,0,0,300,1/ = 1 0 30 0 0
s2,p1,0,0,10,20/s1,p1,0,0,1,1/s1,p2,0,0,1,2/ = 1 0 30 0 0
s2,p1,0,0,10,20/s1,p1,0,0,x,1/ = 1 1 30 0 0
s2,p1,0,0,10,20/s1,p1,0,0,1/ = 1 1 30 0 0
s2,p1,0,0,10,20/s1,p 1,0,0,1,1/ = 1 1 30 0 0
s2,p1,0,0,10,20/s2,p1,0,0,10,20/ = 1 1 30 0 0
"""


# Two lists share 21 seats. With the 40 blank votes of s2 the 3 votes of B are 2.88 per cent of 104,
# and below the threshold. Without them they are 4.68 per cent of 64: B's first quotient is 3, as
# A's twentieth is, and A's twenty-first less. Without s3 they are 2.91 per cent of 103.
BLANK_SETUP = (
    profile("d0", threshold=300)
    + constituency("c1", "Blank", 21, "d0")
    + LISTS
    + station("s1")
    + station("s2")
    + station("s3")
)


BLANK_RETURNS = HEADER + "s1,p1,0,0,60,3\ns2,p2,40,0,0,0\ns3,p3,1,5,0,0\n"


BLANK_TEXT = """\
RECOUNT c1 Blank
stations 3 counted 3 without 0
passed 0
method dhondt seats 21
threshold 300 base valid rule fixed
lot -
valid 104 blank 41 spoiled 5
A                         60   57.69 in     21           - Alpha
B                          3    2.88 out     0           - Beta
total                     63                21
next A
"""


# Two seats by Hare. Of 4 votes B's one leaves a remainder of 2, and so do C's three above the quota
# of 2: C has more votes, and both seats. Without s2 each list has a vote, which is the quota.
# Without s1 C has all votes.
HARE_SETUP = (
    profile("d0", "hare")
    + constituency("c1", "Hare", 2, "d0")
    + party_list("B", "Beta", "Bea")
    + party_list("C", "Gamma", "Cleo")
    + station("s1")
    + station("s2")
)


HARE_RETURNS = "station,slip,blank,spoiled,B,C\ns1,p1,0,0,1,1\ns2,p2,0,0,0,2\n"


HARE_TEXT = """\
RECOUNT c1 Hare
stations 2 counted 2 without 0
passed 0
method hare seats 2
threshold 0 base valid rule fixed
lot -
valid 4 blank 0 spoiled 0
B                          1   25.00 in      0 Beta
C                          3   75.00 in      2 Gamma
total                      4                 2
decisive s2
"""


# Options after `recount`, which ask for nothing that can be done.
WRONG = """
--setup a.toml
--con c1
--setup a.toml --con
--setup a.toml --con -c1
--setup a.toml --con c1 --con c1
--setup a.toml --setup a.toml --con c1
--setup a.toml --con c1 --without
--setup a.toml --con c1 --without -x
--setup a.toml --con c1 --without s1 --without s2
--setup a.toml --con c1 --lot A --lot B
--setup a.toml --con c1 --awards --awards
--setup a.toml --con c1 --decisive --decisive
--setup a.toml --con c1 --decisive=yes
--setup a.toml --con c1 --semicolon --semicolon
--setup a.toml --con c1 --rows
--setup a.toml --con c1 returns.csv
"""


# What `--without` names, and the refusal.
NO_STATIONS = """
s9 = no_station s9
s1,s9,s8 = no_station s9
s1,s9,! = no_station s9
!,s9 = no_station
s1, s2 = no_station
s1,,s2 = no_station
 = no_station
, = no_station
S1 = no_station S1
ABCDEFGHIJKLMNOPQ = no_station
"""


def recount(*words, setup=THREE_STATIONS, con="c1", given=RETURNS, **streams):
    """The outcome of one recount of a text or a stream."""
    if setup is not None:
        write("setup.toml", setup)
    text = given.encode() if isinstance(given, str) else given
    ran = subprocess.run(
        [PROGRAM, "recount", "--setup", "setup.toml", f"--con={con}", *words],
        **({"input": text} if isinstance(text, bytes) else {"stdin": text}),
        **{"stdout": subprocess.PIPE, "stderr": subprocess.PIPE, **streams},
        timeout=PATIENCE,
    )
    return Ran(ran.returncode, (ran.stdout or b"").decode(), (ran.stderr or b"").decode())


def refused(word, *words, **how):
    same(recount(*words, **how), Ran(1, "", f"refused: {word}\n"), words)


def padded(text):
    """A part of a setup, with a comment at its end, so that it has a multiple of 64 bytes."""
    return text + "#" * (63 - len(text) % 64) + "\n"


def numbers_of(ran):
    """How many returns are counted, how many rows are passed, and the votes."""
    same((ran.status, ran.err), (0, ""))
    lines = [line.split() for line in ran.out.splitlines()]
    return [*(int(it) for it in (lines[1][3], lines[2][1])), *map(int, lines[6][1::2])]


class Texts(ProgramCase):
    def test_the_constituency_of_the_formats(self):
        same(recount(setup=SETUP), Ran(0, TWIN_TOWN, ""))
        same(recount("--awards", setup=SETUP), Ran(0, TWIN_TOWN + TWIN_TOWN_AWARDS, ""))
        text = RETURNS.replace(",", ";").replace("\n", "\r\n")
        same(recount("--semicolon", setup=SETUP, given="\ufeff" + text), Ran(0, TWIN_TOWN, ""))
        only()

    def test_the_certified_office_of_the_first_page(self):
        """Its seats are those that it certified, and one station is decisive."""
        shutil.copy(ROOT / "examples/montehondo.db", "montehondo.db")
        shutil.copy(ROOT / "examples/setup.toml", "setup.toml")
        words = ("show", "--db", "montehondo.db", "--con", "montehondo", "--report")
        returns = office(*words, "returns")
        same((returns.status, returns.err), (0, ""))
        ran = recount("--decisive", setup=None, con="montehondo", given=returns.out)
        same((ran.status, ran.err), (0, ""))
        lines = ran.out.splitlines()
        self.assertEqual(lines[0], "RECOUNT montehondo Montehondo")
        self.assertEqual(lines[1:3], ["stations 15 counted 15 without 0", "passed 0"])
        seats = [line.split()[:2] for line in office(*words, "seats").out.splitlines()[2:7]]
        self.assertEqual([line.split()[0] for line in lines[7:12]], [code for code, _ in seats])
        self.assertEqual([int(line[41:46]) for line in lines[7:12]], [4, 3, 2, 0, 0])
        self.assertEqual([int(number) for _, number in seats], [4, 3, 2, 0, 0])
        self.assertEqual(lines[14:], ["decisive 04-002-A"])
        ran = recount("--awards", setup=None, con="montehondo", given=returns.out)
        awards = office(*words, "awards").out.splitlines()[1:]
        self.assertEqual(ran.out.splitlines()[14:], awards)

    def test_a_decisive_station(self):
        ran = recount("--decisive", setup=ONE_SEAT, given=ONE_SEAT_RETURNS)
        same(ran, Ran(0, ONE_SEAT_TEXT, ""))
        # Without the only return no list is eligible.
        ran = recount("--decisive", setup=SETUP)
        same(ran, Ran(0, TWIN_TOWN + "decisive s1\n", ""))
        # Under a lot the seats are one of the two allotments that the votes of s1 allow, and of s2.
        rows = "s1,p1,0,0,100,100\ns2,p2,0,0,50,50\n"
        ran = recount("--decisive", "--lot", "B,A", given=HEADER + rows)
        self.assertEqual((ran.status, ran.out.splitlines()[-1]), (0, "next A"))

    def test_a_station_whose_blank_votes_are_decisive(self):
        ran = recount("--decisive", setup=BLANK_SETUP, given=BLANK_RETURNS)
        same(ran, Ran(0, BLANK_TEXT + "decisive s1\ndecisive s2\n", ""))
        ran = recount("--without", "s2", setup=BLANK_SETUP, given=BLANK_RETURNS)
        self.assertEqual([int(line[41:46]) for line in ran.out.splitlines()[7:9]], [20, 1])

    def test_a_station_that_is_decisive_by_quotas(self):
        ran = recount("--decisive", setup=HARE_SETUP, given=HARE_RETURNS)
        same(ran, Ran(0, HARE_TEXT, ""))
        for station_, seats in (("s1", [0, 2]), ("s2", [1, 1])):
            with self.subTest(without=station_):
                ran = recount("--without", station_, setup=HARE_SETUP, given=HARE_RETURNS)
                lines = ran.out.splitlines()[7:9]
                self.assertEqual([int(line[41:46]) for line in lines], seats)

    def test_seats_by_quotas(self):
        setup = profile("d0", "hare") + SETUP.removeprefix(PROFILE)
        ran = recount("--awards", setup=setup)
        self.assertEqual(
            ran.out.splitlines()[7:],
            [
                "A                         10   33.33 in      1 Alpha",
                "B                         20   66.66 in      2 Beta",
                "total                     30                 3",
                "votes 30 seats 3",
                "A                         10    1               0    1",
                "B                         20    2               0    2",
            ],
        )

    def test_a_return_that_is_entered_twice_is_counted_as_it_comes(self):
        con = constituency("c1", "Twin Town", 3, "d0")
        setup = THREE_STATIONS.replace(con, con + DOUBLE)
        self.assertEqual(numbers_of(recount(setup=setup)), [3, 0, 211, 1, 2])


class Counted(ProgramCase):
    def test_which_rows_are_counted(self):
        for line in lines_of(COUNTED):
            with self.subTest(line=line):
                rows, numbers = line.replace("/", "\n").split(" = ")
                wanted = [int(it) for it in numbers.split()]
                self.assertEqual(numbers_of(recount(given=HEADER + rows)), wanted)

    def test_stations_that_are_left_out(self):
        for line in lines_of(LEFT_OUT):
            with self.subTest(line=line):
                rows, numbers = line.replace("/", "\n").split(" = ")
                wanted = [int(it) for it in numbers.split()]
                self.assertEqual(
                    numbers_of(recount("--without", "s1", given=HEADER + rows)), wanted
                )
        # A station that is named twice is one, and so is one without a row.
        for names, line in (
            ("s1", "stations 3 counted 2 without 1"),
            ("s1,s1", "stations 3 counted 2 without 1"),
            ("s3,s1,s3", "stations 3 counted 1 without 2"),
        ):
            with self.subTest(names=names):
                ran = recount("--without", names)
                self.assertEqual(ran.out.splitlines()[1], line)
        ran = recount("--without", "s3", given=HEADER + "s1,p1,0,0,10,20\n")
        self.assertEqual(ran.out.splitlines()[1], "stations 3 counted 1 without 1")

    def test_codes_that_begin_with_a_dash(self):
        lists = party_list("-x", "Alpha", "Ana") + party_list("y", "Beta", "Bea")
        setup = PROFILE + constituency("-c", "Dash", 1, "d0") + lists + station("-s") + station("t")
        given = "station,slip,blank,spoiled,-x,y\n-s,p1,0,0,9,1\nt,p2,0,0,1,1\n"
        ran = recount("--without=-s,-s", "--lot=-x,y", setup=setup, con="-c", given=given)
        self.assertEqual((ran.status, ran.out.splitlines()[5]), (0, "lot -x y"))
        self.assertEqual(ran.out.splitlines()[1], "stations 2 counted 1 without 1")


class Setups(ProgramCase):
    def test_a_setup_in_another_folder(self):
        """The one that is named is read, and not one of its name in the current folder."""
        os.mkdir("folder")
        write("folder/setup.toml", SETUP)
        other = party_list("C", "Gamma", "Cleo") + party_list("D", "Delta", "Dora")
        write("setup.toml", SETUP.replace(LISTS, other))
        for path in ("folder/setup.toml", os.path.abspath("folder/setup.toml")):
            with self.subTest(path=path):
                ran = office("recount", "--setup", path, "--con", "c1", given=RETURNS)
                same(ran, Ran(0, TWIN_TOWN, ""))
        ran = office("recount", "--setup", "setup.toml", "--con", "c1", given=RETURNS)
        same(ran, Ran(1, "", "refused: bad_header\n"))

    def test_a_setup_of_many_stations(self):
        """Each part of it that is a multiple of 64 bytes, and has a station, is a setup too.

        A has the one seat with the votes of the first station alone, and B with those of the last.
        """
        setup = padded(PROFILE + constituency("c1", "Long", 1, "d0") + LISTS)
        setup += "".join(padded(station(f"s{n:04}")) for n in range(1, 2001))
        self.assertGreater(len(setup), 100_000)
        given = HEADER + "s0001,p1,0,0,10,5\ns2000,p2,0,0,1,100\n"
        lines = recount("--decisive", setup=setup, given=given).out.splitlines()
        self.assertEqual(lines[1:3], ["stations 2000 counted 2 without 0", "passed 0"])
        self.assertEqual([int(line[41:46]) for line in lines[7:9]], [0, 1])
        self.assertEqual(lines[11:], ["decisive s2000"])
        cut = setup[: 64 * 1024]
        ran = recount("--decisive", setup=cut, given=given)
        self.assertEqual(ran.out.splitlines()[2:3], ["passed 1"])

    def test_a_large_constituency(self):
        """One of more than 5,000 stations, the last of which decides the seat."""
        head = PROFILE + constituency("c1", "Large", 1, "d0") + 'size = "large"\n' + LISTS
        setup = head + "".join(station(f"s{n}") for n in range(1, 5002))
        given = HEADER + "s1,p1,0,0,10,5\ns5001,p2,0,0,1,100\n"
        lines = recount("--decisive", setup=setup, given=given).out.splitlines()
        self.assertEqual(lines[1:3], ["stations 5001 counted 2 without 0", "passed 0"])
        self.assertEqual([int(line[41:46]) for line in lines[7:9]], [0, 1])
        self.assertEqual(lines[11:], ["decisive s5001"])


class Refusals(ProgramCase):
    def test_command_lines_that_are_wrong(self):
        for line in lines_of(WRONG):
            with self.subTest(line=line):
                ran = office("recount", *line.split())
                assert ran.status == 2 and not ran.out and ran.err.startswith("error: "), ran
        only()

    def test_stations_that_the_constituency_does_not_have(self):
        for line in lines_of(NO_STATIONS):
            with self.subTest(line=line):
                names, word = line.split(" = ")
                refused(word, f"--without={names}")

    def test_the_order_of_what_goes_wrong(self):
        """Each of these has what is below it wrong too."""
        bad = "station,slip,blank,spoiled,B,A\n"
        zero = HEADER + "s1,p1,0,0,0,0\n"
        self.assertEqual(
            recount("--without", "s9", setup=None, con="c9", given=bad),
            Ran(3, "", "failed: file\n"),
        )
        setup = THREE_STATIONS.replace("seats = 3", "seats = 0")
        self.assertEqual(
            recount("--without", "s9", setup=setup, con="c9", given=bad),
            Ran(1, "", "refused: bad_value seats\nat constituency 1 c1\n"),
        )
        refused("no_constituency", "--without", "s9", con="c9", given=bad)
        refused("no_constituency", "--without", "s9", con="", given=bad)
        refused("no_station s9", "--without", "s9", given=bad)
        refused("bad_header", "--lot", "A,B", given=bad)
        refused("bad_header", given="")
        refused("too_long", "--lot", "A,B", given=zero + "s1,p1,0,0,0,0\n" * 20000)
        refused("no_eligible", "--lot", "A,B", given=zero)
        refused("no_eligible", given=HEADER)
        refused("lot_missing 1 A B", given=HEADER + "s1,p1,0,0,10,10\n")
        refused("wrong_lot", "--lot", "A", given=HEADER + "s1,p1,0,0,10,10\n")
        refused("wrong_lot", "--lot", "A,C", given=HEADER + "s1,p1,0,0,10,10\n")
        refused("wrong_lot", "--lot", "A,B", given=HEADER + "s1,p1,0,0,10,20\n")
        refused("wrong_lot", "--lot=", given=HEADER + "s1,p1,0,0,10,20\n")


    def test_a_lot_among_sixty_lists(self):
        """Of 59 seats none is decided; of 61 each list has one, and a lot decides the last."""
        codes = [f"L{n:015}" for n in range(1, 61)]
        lists = "".join(party_list(code, f"List {code}", "x") for code in codes)
        given = f"station,slip,blank,spoiled,{','.join(codes)}\ns1,p1,0,0{',7' * 60}\n"
        for seats, question in ((59, 59), (61, 1)):
            with self.subTest(seats=seats):
                setup = PROFILE + constituency("c1", "Sixty", seats, "d0") + lists
                setup += station("s1", 420)
                word = f"lot_missing {question} {' '.join(codes)}"
                refused(word, setup=setup, given=given)
                ran = recount("--lot", ",".join(codes[::-1]), setup=setup, given=given)
                won = [int(line[41:46]) for line in ran.out.splitlines()[7:67]]
                self.assertEqual(won, [0] + [1] * 59 if seats == 59 else [1] * 59 + [2])


class Streams(ProgramCase):
    def test_streams_that_fail(self):
        """The first read fails, or one in the middle, or a write: the status says so, also where
        standard error takes nothing. What is wrong before it comes first.
        """
        failed = Ran(3, "", "failed: read\n")
        os.mkdir("folder")
        folder = os.open("folder", os.O_RDONLY)
        self.assertEqual(recount(given=folder), failed)
        self.assertEqual(recount(con="c9", given=folder).err, "refused: no_constituency\n")
        self.assertEqual(
            recount("--without", "s9", given=folder).err, "refused: no_station s9\n"
        )
        os.close(folder)
        for text, wanted in (
            (RETURNS[:50], failed),
            (HEADER, failed),
            ("slip\nA", Ran(1, "", "refused: bad_header\n")),
            ("slip", failed),
        ):
            with self.subTest(text=text), contextlib.ExitStack() as opened:
                listener = opened.enter_context(socket.create_server(("127.0.0.1", 0)))
                there = socket.create_connection(listener.getsockname(), timeout=PATIENCE)
                here = opened.enter_context(listener.accept()[0])
                there.sendall(text.encode())
                reset(there)
                self.assertEqual(recount(given=here), wanted)
        with open("/dev/full", "wb") as full:
            self.assertEqual(recount(stdout=full), Ran(3, "", "failed: write\n"))
            self.assertEqual(recount(given="", stderr=full), Ran(1, "", ""))
        only("folder")

    def test_a_setup_that_cannot_be_read(self):
        os.mkdir("setup.toml")
        ran = recount(setup=None)
        assert ran.status == 3 and not ran.out and ran.err in ("failed: file\n", "failed: read\n")
