"""The sample office of tests and measurements: Twin Town of docs/FORMATS.md.

Other setups are made of the same tables.
"""


def profile(code, method="dhondt", threshold=0, base="valid"):
    return (
        f'[[profile]]\ncode = "{code}"\nmethod = "{method}"\n'
        f'threshold = {threshold}\nbase = "{base}"\n'
    )


def constituency(code, name, seats, of_profile):
    """A constituency without its lists and stations, which follow."""
    return (
        f'\n[[constituency]]\ncode = "{code}"\nname = "{name}"\n'
        f'seats = {seats}\nprofile = "{of_profile}"\n'
    )


def party_list(code, name, *candidates):
    names = ", ".join(f'"{candidate}"' for candidate in candidates)
    return f'\n[[constituency.list]]\ncode = "{code}"\nname = "{name}"\ncandidates = [{names}]\n'


def station(code, electors=300):
    return f'\n[[constituency.station]]\ncode = "{code}"\nelectors = {electors}\n'


PROFILE = profile("d0")
CONSTITUENCY = constituency("c1", "Twin Town", 3, "d0")
# Follows a constituency whose returns are entered twice.
DOUBLE = 'entry = "double"\n'
LISTS = party_list("A", "Alpha", "Ana", "Abel") + party_list("B", "Beta", "Bea")


def with_stations(count, electors=300):
    """The setup of Twin Town with stations s1, s2, .."""
    stations = "".join(station(f"s{n}", electors) for n in range(1, count + 1))
    return PROFILE + CONSTITUENCY + LISTS + stations


SETUP = with_stations(1)
THREE_STATIONS = with_stations(3)
RETURNS = "station,slip,blank,spoiled,A,B\ns1,p1,0,0,10,20\ns2,p2,1,0,30,40\ns3,p3,0,2,50,60\n"

# The tables of an office's database.
TABLES = ("setup", "returns", "counts", "cons", "lots", "seats", "gone", "totals", "past")
