"""The tables of `setup-from-tables`: CSV files of any usual encoding and separator.

Their columns are called as `columns.toml` says."""

import codecs
import csv
import io
import re
import tomllib
import unicodedata
from dataclasses import dataclass, field
from pathlib import Path

from odd_names import BLANK

HERE = Path(__file__).resolve().parent
LANGUAGES = ("en", "es")
MARKS = (
    (codecs.BOM_UTF8, "utf-8"),
    (codecs.BOM_UTF16_LE, "utf-16-le"),
    (codecs.BOM_UTF16_BE, "utf-16-be"),
)
SEPARATORS = {";": "semicolons", ",": "commas", "\t": "tabs", "|": "bars"}
# The columns that each table may have, by what they mean.
FIELDS = {
    "constituencies": ("code", "name", "seats", "profile", "size", "entry"),
    "lists": ("constituency", "code", "party", "name", "order"),
    "candidates": ("constituency", "list", "order", "kind", "name", "person"),
    "stations": ("constituency", "code", "electors", "agents"),
}
COMPARED = ("lists", "candidates", "substitutes", "stations", "electors", "agents", "seats")
NEEDED = {
    "constituencies": ("name", "seats"),
    "lists": ("name",),
    "candidates": ("list", "name"),
    "stations": ("electors",),
}
OF_A_TABLE = {
    "constituencies": ("file", "drop"),
    "lists": ("file", "drop"),
    "candidates": ("file", "keep"),
    "stations": ("file", "drop"),
}
# Letters that are not a letter with a mark, and what codes and keys have in their place.
LETTERS = str.maketrans(
    {"œ": "oe", "æ": "ae", "ø": "o", "ł": "l", "đ": "d", "ð": "d", "þ": "th", "ß": "ss"}
    | {"ı": "i", "ħ": "h", "ŧ": "t", "ŋ": "ng", "ĸ": "k", "ə": "e", "ſ": "s"}
)
# Signs that are written in several ways.
SIGNS = str.maketrans(
    dict.fromkeys("‐‑‒–—―−", "-") | dict.fromkeys("‘’´`ʼ", "'") | dict.fromkeys("“”«»", '"')
)
# UTF-8 that was read as Windows-1252: a capital letter of it, and one of the signs after 7F.
GARBLED = re.compile("[ÃÂ][\x80-\xbfŒœŠšŸŽžƒˆ˜–—‘’‚“”„†‡•…‰‹›€™]")
# What MS-DOS (code pages 850 and 437) or an old Macintosh wrote, read as Windows-1252: signs where
# no name has them, as in `Mu¤oz`, `Ram¢n` and `InŽs`. Between letters a dash, an apostrophe, dots
# and € may be meant.
MISREAD_SIGNS = re.compile("[¡¢£¤¥¦§µƒˆ˜‚„”†‡‰‹ŠŽŒŸ™]")
LETTER, SMALL = "[A-Za-zÀ-ÖØ-öø-ÿŒœŠšŸŽž]", "[a-zß-öø-ÿœšž]"
MISREAD = re.compile(
    f"{LETTER}[¢£¤¥¦§‚ƒˆ‰˜]|[¤¥ƒˆ]{LETTER}|µ{LETTER}{LETTER}|^[^¡]*{LETTER}¡"
    f"|{LETTER}[†‡]{LETTER}|{SMALL}[ŠŽŒŸ]|{LETTER}[ŠŽŒŸ™„]{SMALL}"
    f"|^[^“„]*{LETTER}”{SMALL}|^[^›]*{LETTER}‹{SMALL}[^›]*$"
)
# (a small á of MS-DOS is a space here)
BETWEEN_LETTERS = re.compile(f"{LETTER}+\xa0{SMALL}+")


class Texts:
    """The sentences of one language, from `setup_tables_en.toml` and the others."""

    def __init__(self, language):
        file = HERE / f"setup_tables_{language}.toml"
        self.found = tomllib.loads(file.read_text(encoding="utf-8"))

    def say(self, key, /, **given):
        return self.found[key].format(**{name: shown(value) for name, value in given.items()})


class Number(int):
    """A number of a sentence. `{number:seat|seats}` is the word that goes with it."""

    def __format__(self, words):
        if "|" not in words:
            return str(int(self))
        one, more = words.split("|")
        return one if self == 1 else more


def shown(value):
    """A value as a terminal may show it: without control characters, and not too long."""
    if isinstance(value, int):
        return Number(value)
    text = "".join(c if c.isprintable() else f"\\u{ord(c):04x}" for c in str(value))
    return text if len(text) <= 120 else text[:117] + "..."


class Faults:
    """The faults of the tables, each with its file and its row, as a spreadsheet counts."""

    def __init__(self, texts):
        self.texts, self.found = texts, []
        self.is_file_missing = False

    def add(self, file, row, key, /, **given):
        said = self.texts.say(key, **given)
        place = f"{file}, {self.texts.say('row', row=row)}" if row else file
        self.found.append(f"{shown(place)}: {said}")


class Stopped(Exception):
    """A table or `columns.toml` has a fault after which nothing more can be read."""


@dataclass
class Row:
    table: "Table"
    number: int
    cells: list

    def fault(self, key, /, **given):
        self.table.faults.add(self.table.file, self.number, key, **given)


@dataclass
class Table:
    """A table whose header and rows have been read."""

    name: str
    file: str
    columns: dict  # `columns.toml` on this table
    faults: Faults
    header: list = field(default_factory=list)
    rows: list = field(default_factory=list)
    said: dict = field(default_factory=dict)  # encoding, separator and line ends
    used: set = field(default_factory=set)  # places of columns that have a meaning here
    places: dict = field(default_factory=dict)  # of the parts of each field
    is_guessed: bool = False  # whether it is Windows-1252 because it is not UTF-8
    separator: str = ""
    broken: set = field(default_factory=set)  # numbers of rows with a line break in a cell
    notes: dict = field(default_factory=dict)  # the first of each kind and column

    def has(self, name):
        return name in self.places

    def note(self, key, /, column=None, **given):
        said = self.faults.texts.say(key, file=self.file, column=column, **given)
        self.notes.setdefault((key, column), said)

    def value(self, row, name):
        """The cell of a field, or those of its columns with a space between; empty without any."""
        return " ".join(text for text, _ in self.cells(row, name) if text)

    def code(self, row, name):
        """The cells of a code without spaces between; empty where one of them is."""
        found = list(self.cells(row, name))
        return "".join(text for text, _ in found) if all(text for text, _ in found) else ""

    def cells(self, row, name):
        """The text of each part of a field, and its column."""
        for place, digits, column in self.places.get(name, ()):
            cell = column if place is None else row.cells[place]
            is_padded = digits and cell.isascii() and cell.isdigit()
            yield (cell.zfill(digits) if is_padded else cell), column


# ---- reading


def folded(text):
    """A text without accents, in small letters: what a person takes for the same."""
    letters = unicodedata.normalize("NFKD", text)
    return " ".join("".join(c for c in letters if not unicodedata.combining(c)).casefold().split())


def plain(text):
    """A text in small letters without accents, of the letters from a to z as far as it can be."""
    return folded(text).translate(LETTERS)


def party_key(text):
    """All letters and signs of a party but for accents, capitals and the spaces around signs.
    Parties whose keys differ are never taken for one."""
    return re.sub(r" ?([^\w\s]) ?", r"\1", folded(text.translate(SIGNS)))


def identity(text):
    """The letters and digits of a text, of any alphabet, with dashes between them; perhaps none."""
    return re.sub(r"[\W_]+", "-", plain(text)).strip("-")


def code_letters(text):
    """Those of them that a code may have, in small letters; perhaps none."""
    return re.sub("[^a-z0-9]+", "-", plain(text)).strip("-")


def words_of(name):
    """The words of a name without accents, capitals and signs, in an order of their own."""
    return " ".join(sorted(identity(name).split("-"))) or folded(name)


def cleaned(cell):
    """A cell with one space for each row of spaces, line breaks among them."""
    if cell.isascii() and cell.isalnum():
        return cell
    return unicodedata.normalize("NFC", " ".join(cell.split()))


def strange(cell, is_guessed=False):
    """Why the letters of a cell cannot be meant, with the one that shows it."""
    if cell.isascii() and cell.isprintable():
        return None
    for letter in "" if cell.isprintable() and "\ufffd" not in cell else cell:
        if unicodedata.category(letter) in ("Cc", "Cf", "Cn", "Co", "Cs"):
            return "invisible", f"U+{ord(letter):04X}"
        if letter == "\ufffd":
            return "lost", "U+FFFD"
    if found := BLANK.search(cell):
        return "invisible", f"U+{ord(found[0]):04X}"
    if GARBLED.search(cell):
        return "garbled", cell
    is_misread = is_guessed and MISREAD_SIGNS.search(cell) and MISREAD.search(cell)
    return ("misread", cell) if is_misread else None


def decoded(table, data, asked, otherwise):
    """The text of a file, by the encoding that was asked for, or else by a guess: UTF-8, and where
    it is not, `otherwise`."""
    mark, encoding = next(((m, e) for m, e in MARKS if data.startswith(m)), (b"", asked or "utf-8"))
    try:
        text, name = data[len(mark) :].decode(encoding), encoding.upper()
        if not (mark or asked) and data.isascii():
            name = "ASCII"
    except UnicodeDecodeError as error:
        text = second_guess(table, data, mark or asked, encoding, otherwise, error)
        name = called(otherwise)
        table.is_guessed = otherwise == "cp1252"
    if "\0" in text:
        row = 1 + text[: text.index("\0")].count("\n")
        table.faults.add(table.file, row, "nul")
        raise Stopped
    if table.is_guessed and "\xa0" in text and (found := BETWEEN_LETTERS.search(text)):
        row = 1 + max(map(text[: found.start()].count, "\r\n"))
        table.note("no_break", row=row, text=found[0].replace("\xa0", "_"))
    table.said["encoding"] = table.faults.texts.say("marked", encoding=name) if mark else name
    return text


def called(encoding):
    return "Windows-1252" if encoding == "cp1252" else encoding.upper()


def second_guess(table, data, is_known, encoding, otherwise, error):
    try:
        if not is_known:
            encoding = otherwise
            return data.decode(encoding)
    except UnicodeDecodeError as second:
        error = second
    row, byte = 1 + error.object[: error.start].count(b"\n"), f"{error.object[error.start]:02X}"
    table.faults.add(table.file, row, "encoding", byte=byte, encoding=called(encoding))
    raise Stopped from None


def line_ends(text):
    both = text.count("\r\n")
    found = {"CRLF": both, "LF": text.count("\n") - both, "CR": text.count("\r") - both}
    return max(found, key=found.get) if any(found.values()) else "-"


def records(table, text, separator):
    """The records of a CSV with their numbers: the rows as a spreadsheet shows them."""
    reader = csv.reader(io.StringIO(text, newline=""), delimiter=separator, strict=True)
    number = lines = 0
    try:
        for number, record in enumerate(reader, 1):
            if reader.line_num > lines + 1:
                table.broken.add(number)
            lines = reader.line_num
            if any(cell.strip() for cell in record):
                yield number, record
    except csv.Error as error:
        table.faults.add(table.file, number + 1, "csv", error=error)
        raise Stopped from None


def separator_of(text):
    """The separator that divides the first line into the most cells."""
    first = next((line for line in text.splitlines() if line.strip()), "")
    return max(SEPARATORS, key=first.count)


def read_table(name, folder, columns, encoding, faults, fields=None, otherwise="cp1252"):
    """A table of the folder: None where it cannot be read, with the fault. Without an encoding it
    is guessed: UTF-8, or else `otherwise`."""
    table = Table(name, columns.get("file", f"{name}.csv"), columns, faults)
    try:
        data = (folder / table.file).read_bytes()
    except FileNotFoundError:
        faults.add(table.file, None, "no_file")
        faults.is_file_missing = True
        return None
    try:
        text = decoded(table, data, encoding, otherwise)
        table.separator = separator = separator_of(text)
        found = list(records(table, text, separator))
        if not found:
            faults.add(table.file, 1, "no_header")
            raise Stopped
        table.said |= {
            "separator": faults.texts.say(SEPARATORS[separator]),
            "ends": line_ends(text),
        }
        table.header = [cleaned(cell) for cell in found[0][1]]
        for column in table.header:
            if wrong := strange(column, table.is_guessed):
                faults.add(table.file, found[0][0], wrong[0], column=column, letter=wrong[1])
                raise Stopped
        find_columns(table, fields or FIELDS[name], found[0][0])
    except Stopped:
        return None
    table.rows = [row for number, cells in found[1:] if (row := row_of(table, number, cells))]
    if len(found) == 1:
        faults.add(table.file, found[0][0], "no_rows")
    return table


def row_of(table, number, cells):
    """A row with as many cells as the header has; None, with its fault, where that cannot be."""
    row, width = Row(table, number, [cleaned(cell) for cell in cells]), len(table.header)
    if len(cells) < width or any(row.cells[width:]):
        row.fault("cells", cells=len(cells), header=width)
        return None
    for place, cell in enumerate(row.cells[:width]):
        if wrong := strange(cell, table.is_guessed):
            row.fault(wrong[0], column=table.header[place], letter=wrong[1])
            return None
    if number in table.broken:
        look_for_rows(row, cells)
    return row


def look_for_rows(row, cells):
    """Finds rows within a cell, between a quote that opens one row and a quote that closes another.
    Lines with as many separators as rows have are a fault. Where a text could have them they are
    noted, as the first of any other separators after a line break."""
    table, last = row.table, len(cells) - 1
    for place, cell in enumerate(cells[: len(table.header)]):
        lines = re.split("\r\n|\r|\n", cell)
        counts = [line.count(table.separator) for line in lines]
        if not any(counts[1:]):
            continue
        are_rows = counts == [last - place, *[last] * (len(lines) - 2), place]
        if are_rows and (place in table.used or last > 2):
            row.fault("rows_in_cell", column=table.header[place], lines=len(lines))
        else:
            table.note("separator_in_cell", table.header[place], row=row.number)


# ---- columns


def find_columns(table, fields, row):
    """Finds the column, or the columns, of each field of a table."""
    where = {}
    for place, column in enumerate(table.header):
        if column and where.setdefault(column.casefold(), place) != place:
            table.faults.add(table.file, row, "column_twice", column=column)
            raise Stopped
    is_complete = True
    for name in fields:
        asked = table.columns.get(name)
        if asked is None and name.casefold() in where:
            asked = name
        if asked is None and name not in NEEDED.get(table.name, ()):
            continue
        table.places[name] = parts_of(name if asked is None else asked, where)
        for place, _, column in table.places[name]:
            if place is None and is_column(column):
                table.faults.add(
                    table.file,
                    row,
                    "no_column",
                    column=column,
                    field=name,
                    header=" | ".join(table.header),
                )
                is_complete = False
    if not is_complete:
        raise Stopped
    table.used = {place for parts in table.places.values() for place, _, _ in parts}


def is_column(text):
    """Whether a part of a field names a column; what has no letter and no digit is itself."""
    return any(c.isalnum() for c in text)


def parts_of(asked, where):
    """The parts of a field: the place of a column with its least digits, or a text."""
    parts = []
    for part in asked if isinstance(asked, list) else [asked]:
        part = part if isinstance(part, dict) else {"column": part}
        column = part["column"]
        place = where.get(cleaned(column).casefold()) if is_column(column) else None
        parts.append((place, part.get("digits", 0), column))
    return parts


def note_no_columns(table):
    """Notes each column of `drop` and `keep` that the table does not have."""
    for key in ("drop", "keep"):
        for column in table.columns.get(key, ()):
            if cleaned(column).casefold() not in map(str.casefold, table.header):
                table.note("column_unused", column, table=table.name, key=key)


def other_columns(table):
    """The columns without a meaning here: their places, and the keys that keep them in a setup."""

    def asked(key):
        return {cleaned(column).casefold() for column in table.columns.get(key, ())}

    found, keys = [], set()
    for place, column in enumerate(table.header):
        is_dropped = column.casefold() in asked("drop")
        is_kept = "keep" not in OF_A_TABLE[table.name] or column.casefold() in asked("keep")
        if (
            place in table.used
            and column.casefold() not in asked("keep")
            or not column
            or is_dropped
            or not is_kept
        ):
            continue
        words = re.sub("[^a-z0-9]+", "_", plain(column)).strip("_").removeprefix("x_")
        base = key = f"x_{words or f'column_{place + 1}'}"
        while key in keys:
            base, key = key, f"{base}_{place + 1}"
        keys.add(key)
        found.append((place, key))
    return found


# ---- columns.toml


def read_columns(folder, faults, language=None):
    """The contents of `columns.toml`; without the file, nothing. Faults are in its language, unless
    another is asked for."""
    file = folder / "columns.toml"
    if not file.exists():
        return {}
    try:
        found = tomllib.loads(file.read_bytes().decode("utf-8-sig"))
    except (ValueError, RecursionError) as error:
        faults.add("columns.toml", None, "not_toml", error=error)
        raise Stopped from None
    if not language and found.get("language") in LANGUAGES:
        faults.texts = Texts(found["language"])
    before = len(faults.found)
    for key, value in found.items():
        check_key(key, value, faults)
    if len(faults.found) > before:
        raise Stopped
    return found


def check_key(key, value, faults):
    """Each key of `columns.toml` is known, and has a value of its kind."""
    if key in FIELDS or key == "compare":
        fields = FIELDS.get(key, ("constituency", *COMPARED))
        kinds = dict.fromkeys(fields, is_column_value) | {
            name: is_file_name if name == "file" else are_texts for name in OF_A_TABLE.get(key, ())
        }
    else:
        kinds = KINDS.get(key)
    if kinds is None:
        faults.add("columns.toml", None, "unknown_key", key=key)
    elif not isinstance(kinds, dict):
        if not kinds(value):
            faults.add("columns.toml", None, "bad_key", key=key)
    elif not isinstance(value, dict):
        faults.add("columns.toml", None, "bad_key", key=key)
    else:
        for name, one in value.items():
            if name not in kinds and kinds is not CODES:
                faults.add("columns.toml", None, "unknown_key", key=f"{key}.{name}")
            elif not kinds.get(name, is_text)(one):
                faults.add("columns.toml", None, "bad_key", key=f"{key}.{name}")


def is_text(value):
    return isinstance(value, str)


def are_texts(value):
    return isinstance(value, list) and all(map(is_text, value))


def is_file_name(value):
    return is_text(value) and re.fullmatch(r"[^/\\\0]+", value) is not None


def is_column_value(value):
    if isinstance(value, list):
        return (
            bool(value)
            and not any(isinstance(one, list) for one in value)
            and all(map(is_column_value, value))
        )
    if isinstance(value, dict):
        digits = value.get("digits", 0)
        return (
            is_text(value.get("column"))
            and type(digits) is int
            and 0 <= digits <= 16
            and set(value) <= {"column", "digits"}
        )
    return is_text(value)


def is_encoding(value):
    try:
        return is_text(value) and codecs.lookup(value)._is_text_encoding
    except (LookupError, ValueError):
        return False


def is_range(value):
    return (
        isinstance(value, list)
        and len(value) == 2
        and all(type(one) is int for one in value)
        and 0 <= value[0] <= value[1]
    )


CODES = {}
KINDS = {
    "language": lambda value: value in LANGUAGES,
    "encoding": is_encoding,
    "comment": is_text,
    "profile": lambda value: isinstance(value, list),
    "codes": CODES,
    "rules": {
        "candidates": lambda value: value in ("seats", "seats or more", "any"),
        "substitutes": is_range,
        "namesakes": are_texts,
        "candidate_words": are_texts,
        "substitute_words": are_texts,
    },
}
