"""Constituencies of up to 20,000 stations, and the sum of their electors and agents."""

from tests.program.test_setup import comes_to
from tests.support.office import CONSTITUENCY, PROFILE
from tests.support.program import ProgramCase, Ran, done, office, same, write

LISTS = 'list = [{code = "A", name = "Alpha", candidates = ["Ana"]}]\n'
LARGE, NORMAL, ABSENT = 'size = "large"\n', 'size = "normal"\n', ""
TOO_MANY = "over_limit station / at constituency 1 c1"
TOO_GREAT = "over_limit electors / at constituency 1 c1"

# The size of a constituency; rows of a number of stations with their electors and agents; what
# `office new` comes to.
SIZES = (
    (ABSENT, [(5_001, 1, 0)], TOO_MANY),
    (NORMAL, [(5_001, 1, 0)], TOO_MANY),
    (LARGE, [(5_001, 1, 0)], "read"),
    (LARGE, [(20_000, 1, 0)], "read"),
    (LARGE, [(20_001, 1, 0)], TOO_MANY),
    (ABSENT, [(5_000, 1_000_000, 0)], "read"),
    (LARGE, [(5_000, 1_000_000, 0)], "read"),
    (LARGE, [(5_001, 1_000_000, 0)], TOO_GREAT),
    (LARGE, [(5_000, 999_999, 0), (1, 5_000, 0)], "read"),
    (LARGE, [(5_000, 999_999, 0), (1, 5_001, 0)], TOO_GREAT),
    (LARGE, [(5_000, 999_999, 0), (1, 4_000, 1_000)], "read"),
    (LARGE, [(5_000, 999_999, 0), (1, 4_001, 1_000)], TOO_GREAT),
)


def stations(rows):
    """The array of stations that rows of a number, electors and agents describe."""
    each = [(electors, agents) for count, electors, agents in rows for _ in range(count)]
    return "station = [" + ",".join(
        f'{{code="s{number}",electors={electors}{f",agents={agents}" if agents else ""}}}'
        for number, (electors, agents) in enumerate(each, 1)
    ) + "]\n"


class Size(ProgramCase):
    def test_a_large_constituency_has_20000_stations_at_most(self):
        for size, rows, word in SIZES:
            with self.subTest(size=size, rows=rows):
                comes_to(word, PROFILE + CONSTITUENCY + size + LISTS + stations(rows))

    def test_the_sum_is_looked_at_after_the_stations_and_before_the_next_constituency(self):
        first = PROFILE + CONSTITUENCY + LARGE + LISTS
        many = (5_001, 1_000_000, 0)
        comes_to(
            "bad_value electors / at constituency 1 c1, station 5002 s5002",
            first + stations([many, (1, 0, 0)]),
        )
        comes_to(TOO_GREAT, first + stations([many]) + "[[constituency]]\n")

    def test_agents_vote_where_they_serve_and_are_no_electors(self):
        text = PROFILE + CONSTITUENCY + LISTS.replace("}]", '}, {code = "B", name = "Beta", '
            'candidates = ["Bea"]}]') + stations([(2, 300, 2)])
        write("setup.toml", text)
        done("constituencies 1\n", "new", "--db", "office.db", "--setup", "setup.toml")
        write("returns.csv", "station,slip,blank,spoiled,A,B\n"
            "s1,p1,1,1,150,150\ns2,p2,1,2,150,150\n")
        done(
            "lodged 1\nsame 0\ndiffers 0\nrefused 1\nbad 0\nfirst 2 6\n",
            "import", "--db", "office.db", "--con", "c1", "--csv", "returns.csv",
        )
        same(
            office("show", "--db", "office.db", "--report", "stations", "--con", "c1"),
            Ran(0, "STATIONS c1 Twin Town\nstations 2 missing 1 closed 0\n"
                f"{'s1':16}{300:8} {'received':9}{1:5} {'p1':16}{300:8}{1:8}{1:8}\n"
                f"{'s2':16}{300:8} -\n", ""),
        )
