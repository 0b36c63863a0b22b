"""The files of Spain's ministry of the interior (infoelectoral): 03 the lists, 09 the stations
(mesas), 10 their votes; as remembered. A line has fields of fixed width, and no comment."""

import csv
import io
import re
from collections import Counter, defaultdict

from export_data import Refused, Unusable

# The fields that name a station, with their widths: the ministry's codes of communities, and those
# of the statistical institute below.
KEY = {"community": 2, "province": 2, "municipality": 3, "district": 2, "section": 4, "table": 1}
NUMBERS, LISTS, INITIALS, NAMES = 7, 6, 50, 150
FILES = ("lists", "tables", "votes")
ENCODING, END = "iso-8859-1", "\r\n"
# The letters of a field: those of the encoding that are not controls.
OTHER = re.compile("[^\x20-\x7e\xa0-\xff]")
# Of an election in one round.
ROUND = "1"
VALUES = {"section": "[0-9]{3}[A-Z0-9]?", "table": "[A-Z]"}


# ---- fields


def of_digits(number, width, what):
    if len(found := str(number).zfill(width)) > width:
        raise Refused("too_wide", what=what, value=number, length=len(found), width=width)
    return found


def of_letters(value, width, what):
    """A text, filled up with spaces: none is cut, since two names may begin alike."""
    if found := OTHER.search(value):
        raise Refused("no_letter", what=what, value=value, letter=f"U+{ord(found[0]):04X}")
    if len(value) > width:
        raise Refused("too_wide", what=what, value=value, length=len(value), width=width)
    return value.ljust(width)


def of_key(row, file):
    """The fields that name a station. Zeros in front, which a spreadsheet drops, are put back."""
    found = []
    for name, width in KEY.items():
        given = (row[name] or "").strip()
        value = given and given.zfill(3 if name == "section" else width)
        if not re.fullmatch(VALUES.get(name, f"[0-9]{{{width}}}"), value):
            raise Refused("code", file=file, station=row["station"], column=name, value=repr(given))
        found.append(value.ljust(width))
    return "".join(found)


def read_rows(file):
    """The rows of a table, with commas or semicolons, that has the columns of a key."""
    try:
        text = file.read_text(encoding="utf-8-sig")
        separator = ";" if ";" in text.partition("\n")[0] else ","
        columns, *rows = csv.reader(io.StringIO(text, newline=""), delimiter=separator)
    except OSError as error:
        raise Unusable("no_file", file=file, error=error.strerror) from error
    except (ValueError, csv.Error) as error:
        raise Unusable("unreadable", file=file, error=error) from error
    if lost := {"station", *KEY} - {*columns}:
        raise Unusable("no_column", file=file, columns=", ".join(sorted(lost)))
    empty = dict.fromkeys(columns, "")
    return [empty | dict(zip(columns, row)) for row in rows if row]


def read_keys(file, election):
    """The fields of each station, from a table with a row for each."""
    found, of_station, home = {}, {}, {}
    for row in read_rows(file):
        if row["station"] in found:
            raise Refused("row_twice", file=file, station=row["station"])
        found[row["station"]] = row
    for code in (station["code"] for con in election.cons for station in con.stations):
        if code not in found:
            raise Refused("no_code", file=file, station=code)
        of_station[code] = of_key(found[code], file)
        if (other := home.setdefault(of_station[code], code)) != code:
            raise Refused("code_twice", file=file, station=code, other=other)
    return of_station


# ---- writing


def numbers_of(election):
    """A number for each list with its name. The first one of a code is the head of the others."""
    found = {}
    for con in election.cons:
        for one in con.lists:
            found.setdefault((one["code"], one["name"]), len(found) + 1)
    return found


def of_lists(numbers, head):
    """File 03."""
    heads = {}
    for (code, name), number in numbers.items():
        first = of_digits(heads.setdefault(code, number), LISTS, code)
        yield (head + of_digits(number, LISTS, code) + of_letters(code, INITIALS, code)
               + of_letters(name, NAMES, code) + first * 3)


def of_tables(election, keys, head):
    """File 09. The roll is that of the setup twice. Those who vote as foreign residents, the two
    counts during the day and referendums are 0."""
    for con in election.cons:
        electors = {station["code"]: station["electors"] for station in con.stations}
        for code, one in con.returns.items():
            row = (electors[code], electors[code], 0, 0, 0, 0, one.blank, one.spoiled,
                   sum(one.votes), 0, 0)
            yield (head + ROUND + keys[code] + "".join(of_digits(n, NUMBERS, code) for n in row)
                   + ("S" if con.certified else "N"))


def of_votes(election, keys, numbers, head):
    """File 10."""
    for con in election.cons:
        of_list = [of_digits(numbers[one["code"], one["name"]], LISTS, one["code"])
                   for one in con.lists]
        for code, one in con.returns.items():
            for number, votes in zip(of_list, one.votes):
                yield (head + ROUND + keys[code] + number + of_digits(votes, NUMBERS, code))


def files(election, keys, kind):
    """The name and the content of each of the three files."""
    head, numbers = f"{kind}{election.day:%Y%m}", numbers_of(election)
    rows = {"lists": ("03", of_lists(numbers, head)),
            "tables": ("09", of_tables(election, keys, head)),
            "votes": ("10", of_votes(election, keys, numbers, head))}
    return {what: (f"{number}{kind}{election.day:%y%m}.DAT",
                   "".join(row + END for row in of_file).encode(ENCODING))
            for what, (number, of_file) in rows.items()}


# ---- reading them again


def sums_in(lists, tables, votes, election, keys):
    """The sums of each constituency in the three files."""
    home = {keys[code]: con.code for con in election.cons for code in con.returns}
    codes = {row[8:14]: row[14:64].rstrip() for row in rows_of(lists, 232)}
    found = defaultdict(Counter)
    for row in rows_of(tables, 101):
        sums = found[home[row[9:23]]]
        sums["closed", ""] += 1
        sums["blank", ""] += int(row[65:72])
        sums["spoiled", ""] += int(row[72:79])
        sums["valid", ""] += int(row[65:72]) + int(row[79:86])
    for row in rows_of(votes, 36):
        found[home[row[9:23]]]["votes", codes[row[23:29]]] += int(row[29:36])
    return found


def rows_of(data, width):
    rows = data.decode(ENCODING).split(END)[:-1]
    if any(len(row) != width for row in rows):
        raise ValueError(f"a line without {width} characters")
    return rows
