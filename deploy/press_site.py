"""The settings that an office has for its pages, in a folder of its own: title and language, colours of lists,
names of stations, a former result, a map, a logo, a style, templates. Each may be missing."""

import base64
import csv
import io
import re
import sys
import tomllib
import xml.etree.ElementTree as ET
from collections import defaultdict
from contextlib import suppress
from datetime import date, datetime
from functools import cache
from pathlib import Path
from zoneinfo import ZoneInfo, ZoneInfoNotFoundError

import press_data
from press_templates import Markup, TemplateError, Templates

# Of a name that is too long its own limit is said.
csv.field_size_limit(sys.maxsize)
# The tracks of press.css, light and dark: what is on them has more contrast with any other ground.
TRACKS = ("#eceae4", "#2a2e36")
# The least contrast of a colour with the ground, and with that of a neighbour in a half circle.
FROM_GROUND, FROM_NEIGHBOUR = 3, 1.5
# Colours of lists, light and dark, in the order in which the lists are met: one beyond them has
# one of them again.
PALETTE = (("#0f4775", "#2f7dc0"), ("#cc5f20", "#ffc08a"), ("#14532d", "#2f8a55"),
           ("#b0598a", "#ffb9df"), ("#4a2373", "#8f63c4"), ("#9a6e14", "#f7d774"),
           ("#0b4a52", "#1a868f"), ("#d45252", "#ffbdb5"), ("#5c3415", "#a06a3f"),
           ("#5f7d22", "#d3e68a"), ("#731840", "#c4527f"), ("#4f7aa3", "#b9dcff"))
# Each language has a file beside this one.
LANGUAGES = {file.stem.removeprefix("press_"): file
             for file in Path(__file__).resolve().parent.glob("press_*.toml")}
ABOUT = {"title": str, "date": date, "authority": str, "licence": str, "language": str,
         "contact": str, "accessibility": str, "place": str, "board": list, "timezone": str,
         "provisional": bool, "languages": list,
         "address": str}
# The name of a table of texts: papers may have a language that the pages have not.
LANGUAGE_NAME = "[a-z]{2,3}([-_][A-Za-z0-9]+)*"
# What is of the whole site: the table of a language does not have it.
WHOLE = {"language", "languages", "provisional", "timezone"}
# What to write in the place of a value of another kind.
WANTED = {str: 'a text in quotes, such as "Montehondo"', date: "a day such as 2026-11-29",
          list: "tables [[board]], each with a name and a role, or languages such as [\"es\"]",
          bool: "true or false"}
# Letters of a name of a station or of a place: a row has to have room on a page.
LONGEST_NAME = 300
# Bytes of a logo, which is in each page.
LOGO_ROOM = 6_000
# Bytes of a map, which is in the first page.
MAP_ROOM = 100_000
SHAPES = {"svg", "g", "path", "polygon", "polyline", "rect", "circle", "ellipse", "line", "text"}
# How many of them may be within one another.
DEEPEST = 30
PLACES = {"viewBox", "d", "points", "x", "y", "width", "height", "cx", "cy", "r", "rx", "ry",
          "x1", "y1", "x2", "y2", "transform", "font-size", "text-anchor"}


class Wrong(Exception):
    """A file of the folder, or the setup, is not what it has to be."""


def read_setup(file):
    """The setup of the office, as the pages need it."""
    try:
        return press_data.read_setup(file)
    except OSError as error:
        raise Wrong(f"{file}: {error.strerror}") from error
    except ValueError as error:
        raise Wrong(f"{file}: {error}") from error
    except (KeyError, TypeError, AttributeError, RecursionError) as error:
        raise Wrong(f"{file}: no setup of an office: {error!r}") from error


def fault_of(error):
    """A template's fault in a line."""
    place = f"{error.name}, line {error.lineno}: " if hasattr(error, "lineno") else ""
    return place + (error.message or type(error).__name__)


# ---- colours


def light_of(colour):
    """The relative luminance of a colour, after WCAG 2."""
    parts = [int(colour[place:place + 2], 16) / 255 for place in (1, 3, 5)]
    red, green, blue = (part / 12.92 if part <= 0.04045 else ((part + 0.055) / 1.055) ** 2.4
                        for part in parts)
    return 0.2126 * red + 0.7152 * green + 0.0722 * blue


def contrast(one, other):
    low, high = sorted((light_of(one), light_of(other)))
    return (high + 0.05) / (low + 0.05)


def readable(colour, ground):
    """The colour, as much darker or lighter as its contrast with the ground needs."""
    end = 0 if light_of(ground) > 0.5 else 255
    parts = [int(colour[place:place + 2], 16) for place in (1, 3, 5)]
    for step in range(21):
        found = "#" + "".join(f"{round(part + (end - part) * step / 20):02x}" for part in parts)
        if contrast(found, ground) >= FROM_GROUND:
            return found
    raise ValueError(colour)


def like(one, other):
    """Whether two lists' colours, light or dark, are too much alike to be neighbours."""
    return any(contrast(a, b) < FROM_NEIGHBOUR for a, b in zip(one, other))


# ---- the files of the folder


def text_of(file):
    """The text of a file; nothing where there is none."""
    try:
        return file.read_text(encoding="utf-8-sig") if file.exists() else ""
    except UnicodeDecodeError as error:
        raise Wrong(f"{file}: not UTF-8") from error


def rows_of(file, *columns):
    """The rows of a CSV file by the names of its columns, which has to have these."""
    if not file.exists():
        return []
    reader = csv.DictReader(io.StringIO(text_of(file), newline=""), restval="")
    if lost := [column for column in columns if column not in (reader.fieldnames or ())]:
        raise Wrong(f"{file}: no column {', '.join(lost)}")
    return list(reader)


def read_about(file):
    try:
        about = tomllib.loads(text_of(file))
    except (ValueError, RecursionError) as error:
        raise Wrong(f"{file}: {error}") from error
    if "date" in about:
        about["date"] = day_of(about["date"])
    check_values(file, about)
    check_languages(file, [about.get("language", "en"), *about.get("languages", ())])
    for key in about:
        if key in LANGUAGES or re.fullmatch(LANGUAGE_NAME, key):
            check_texts(file, key, about[key])
        elif key not in ABOUT:
            raise Wrong(f"{file}: no key is called {key!r}")
    return about


def check_texts(file, language, own):
    """The table of a language has texts alone. Values are those of languages that the pages have."""
    if language in LANGUAGES:
        check_values(file, own)
    elif not isinstance(own, dict):
        raise Wrong(f"{file}: {language} is {own!r}, and no table of texts of a language")
    for key in own:
        if key in WHOLE:
            raise Wrong(f"{file}: {key} is of all languages, not of [{language}] alone")
        if key not in ABOUT:
            raise Wrong(f"{file}: no key of [{language}] is called {key!r}")


def check_values(file, about):
    """Each value is what it has to be; in the table of a language too."""
    check_kinds(file, about)
    try:
        ZoneInfo(about.get("timezone", "UTC"))
    except (ZoneInfoNotFoundError, ValueError, OSError) as error:
        raise Wrong(f"{file}: no time zone {about['timezone']!r}") from error
    if not re.fullmatch(r"https?://\S+|[\w.-]+|", about.get("accessibility", "")):
        raise Wrong(f"{file}: accessibility is not an address such as https://example.org/access")
    if not re.fullmatch(r"(https?://[^\s?#]+[^\s?#/])?", about.get("address", "")):
        raise Wrong(f"{file}: address is not one such as https://results.example.org")
    for member in about.get("board", ()):
        if not is_member(member):
            raise Wrong(f"{file}: board is not tables, each with a name and a role")


def check_kinds(file, about):
    """Each value is of its kind."""
    if not isinstance(about, dict):
        raise Wrong(f"{file}: {about!r} is no table of texts of a language")
    for key, kind in ABOUT.items():
        if key in about and not isinstance(about[key], kind):
            raise Wrong(f"{file}: {key} is {about[key]!r}: write {WANTED[kind]}")


def check_languages(file, languages):
    """Each language has texts, and is named once."""
    for place, language in enumerate(languages):
        if not isinstance(language, str) or language not in LANGUAGES:
            raise Wrong(f"{file}: no texts of the language {language!r}")
        if language in languages[:place]:
            raise Wrong(f"{file}: the language {language!r} is named twice")


def day_of(value):
    """The day of a value of TOML, in quotes or without; any other value as it is."""
    if isinstance(value, datetime):
        return value.date()
    if isinstance(value, str) and re.fullmatch(r"\d{4}-\d{2}-\d{2}", value.strip(), re.ASCII):
        with suppress(ValueError):
            return date.fromisoformat(value.strip())
    return value


def is_member(member):
    """A member of the board: a name and a role, and perhaps the constituency of the board."""
    return (isinstance(member, dict) and {"name", "role"} <= member.keys() <= {"name", "role", "con"}
            and all(isinstance(value, str) and value for value in member.values()))


def read_colours(file):
    found = {}
    for row in rows_of(file, "list", "colour"):
        if not re.fullmatch("#[0-9a-fA-F]{6}", row["colour"]):
            raise Wrong(f"{file}: {row['list']}: not a colour such as #12538c")
        found[row["list"]] = tuple(readable(row["colour"], ground) for ground in TRACKS)
    return found


def read_stations(file):
    """The names of stations, and perhaps of their places."""
    rows = rows_of(file, "station", "name")
    for row in rows:
        if max(len(row["name"]), len(row.get("place") or "")) > LONGEST_NAME:
            raise Wrong(f"{file}: {row['station']}: a name of more than {LONGEST_NAME} letters")
    return rows


def read_former(file):
    """A former result: per constituency its lists' votes and seats, and its valid votes where the
    file has them."""
    found = defaultdict(lambda: {"valid": None, "votes": {}, "seats": {}})
    for row in rows_of(file, "con", "list", "votes", "seats"):
        con = found[row["con"]]
        try:
            con["votes"][row["list"]] = int(row["votes"])
            con["seats"][row["list"]] = int(row["seats"])
            con["valid"] = int(row["valid"]) if row.get("valid") else None
        except ValueError as error:
            raise Wrong(f"{file}: {row['con']}, {row['list']}: {error}") from error
    return dict(found)


def read_map(file):
    """The shapes of a map, and nothing else that may be in it."""
    if not file.exists():
        return None
    text = text_of(file)
    if len(text.encode()) > MAP_ROOM:
        raise Wrong(f"{file}: more than {MAP_ROOM} bytes, which a map may have")
    try:
        return shapes(file, ET.fromstring(text))
    except ET.ParseError as error:
        raise Wrong(f"{file}: {error}") from error


def shapes(file, element, left=DEEPEST):
    if not left:
        raise Wrong(f"{file}: more than {DEEPEST} groups within one another")
    kind = element.tag.rpartition("}")[2]
    if kind not in SHAPES:
        return None
    places = {name: value for name, value in element.attrib.items() if name in PLACES}
    inner = [found for child in element if (found := shapes(file, child, left - 1))]
    text = (element.text or "").strip() if kind == "text" else ""
    return kind, element.get("id"), places, inner, text


def read_logo(file):
    """The logo as an address that has all of it; nothing where there is none."""
    if not file.exists():
        return None
    data = file.read_bytes()
    if len(data) > LOGO_ROOM:
        raise Wrong(f"{file}: {len(data)} bytes, and a logo may have {LOGO_ROOM}")
    return f"data:image/svg+xml;base64,{base64.b64encode(data).decode()}"


def read_style(file):
    text = text_of(file)
    if "</" in text:
        raise Wrong(f"{file}: a style has no </")
    return text


@cache
def words_of(language):
    return tomllib.loads(LANGUAGES[language].read_text(encoding="utf-8"))


class Site:
    """The settings of the folder, with the words of its language, or of another one that it names:
    then `first` is the site of its language, and its pages are in a folder of their own."""

    def __init__(self, folder=None, language=None, first=None):
        folder = folder or Path("/nonexistent")
        self.about = read_about(folder / "site.toml")
        self.language = language or self.about.get("language", "en")
        self.about |= self.about.get(self.language, {})
        self.languages = [self.about.get("language", "en"), *self.about.get("languages", ())]
        # Where a page finds the files that are of all languages.
        self.data = "../" if first else ""
        # Whether seats may be shown before they are certified.
        self.provisional = self.about.get("provisional", True)
        # The zone of the times on the pages of every language; None is that of the server.
        self.zone = ZoneInfo(self.about["timezone"]) if "timezone" in self.about else None
        self.words = words_of(self.language)
        self.colours = read_colours(folder / "colours.csv")
        stations = read_stations(folder / "stations.csv")
        self.names = {row["station"]: row["name"] for row in stations}
        self.places = {row["station"]: row["place"] for row in stations if row.get("place")}
        self.former = read_former(folder / "before.csv")
        self.map = read_map(folder / "map.svg")
        self.logo = read_logo(folder / "logo.svg")
        self.met = first.met if first else {}
        self.templates = Templates(
            folder / "templates", read_style(folder / "site.css"), site=self, say=self.said,
            number=self.number, per_cent=self.per_cent,
            about={key: self.about.get(key) for key in ABOUT})
        try:
            self.templates.check()
        except TemplateError as error:
            raise Wrong(f"{folder / 'templates'}: {fault_of(error)}") from error
        self.others = [] if first else [Site(folder, one, self) for one in self.languages[1:]]

    def editions(self, folder):
        """The site of each language, with the folder of its pages."""
        return [(self, folder), *((other, folder / other.language) for other in self.others)]

    def in_languages(self, name):
        """Links to a page in each language: language, its name in it, and the address, which is
        None for that of this page."""
        for place, language in enumerate(self.languages):
            to = name if not place else f"{language}/{name}"
            yield (language, words_of(language)["language_name"],
                   None if language == self.language else self.data + to)

    def for_clerks(self):
        """Names of stations and a former result, as the clerks' page has them; None where the
        folder has neither."""
        stations = {code: {"name": name, "place": self.places.get(code, "")}
                    for code, name in self.names.items()}
        former = {con: found["votes"] for con, found in self.former.items()}
        return {"stations": stations, "former": former} if stations or former else None

    def meet(self, codes):
        """Gives each list that was not met before a place among the colours."""
        for code in codes:
            self.met.setdefault(code, len(self.met))

    def colours_of(self, code):
        """A list's colours, light and dark."""
        return self.colours.get(code) or PALETTE[self.met.get(code, 0) % len(PALETTE)]

    def colours_in(self, codes):
        """Lists with their colours, light and dark."""
        return [(code, *self.colours_of(code)) for code in codes]

    # ---- words

    def form_of(self, key, values):
        """The text of a key; of one that has two, that for one thing or that for `many` of them,
        whose number is in its place {number}."""
        text = self.words[key]
        if isinstance(text, str):
            return text, values
        return text[values["many"] != 1], {"number": self.number(values["many"])} | values

    def say(self, key, **values):
        text, values = self.form_of(key, values)
        return text.format(**values)

    def said(self, key, **values):
        """The text as a part of a page: escaped, but for values that templates made."""
        text, values = self.form_of(key, values)
        return Markup.escape(text).format(**values)

    def listed(self, names, word="and", vowel=("and_before_i", r"[ií](?![aeoáéó])")):
        """Names one after the other, the last after the word for `and`, which is another one before
        this vowel."""
        *first, last = names
        if not first:
            return last
        before, letter = vowel
        word = before if re.match(rf"\W*h?{letter}", str(last), re.I) else word
        joined = Markup(", ").join(first) if isinstance(last, Markup) else ", ".join(first)
        return joined + self.words[word] + last

    def one_of(self, names):
        """Names of which one is meant, the last after the word for `or`."""
        return self.listed(names, "or", ("or_before_o", "[oó]"))

    def number(self, value):
        return str(value) if value < 1000 else f"{value:,}".replace(",", self.words["thousands"])

    def decimal(self, text):
        return text.replace(".", self.words["point"])

    def per_cent(self, hundredths):
        return self.decimal(f"{hundredths // 100}.{hundredths % 100:02}")

    def share(self, hundredths):
        """A share with its unit."""
        return self.say("share_unit", share=self.per_cent(hundredths))

    def change(self, value, written):
        """A change with its sign."""
        return "±0" if not value else ("+" if value > 0 else "−") + written(abs(value))

    def day(self, day):
        month = self.words["months"][day.month - 1]
        return self.say("day", day=day.day, month=month, year=day.year)

    def here(self, moment):
        """A moment in the zone of the site; in that of the server where the site has none, whatever
        zone it was written in."""
        return moment.astimezone(self.zone)

    def moment(self, moment):
        """A moment in the zone of the site, to the minute: each page writes it so."""
        return f"{self.day(self.here(moment))}, {self.hour(moment)}"

    def hour(self, moment):
        """The hour of a moment, as `moment` has it. A zone without a name has its difference."""
        here = self.here(moment)
        zone = here.strftime("%Z")
        return f"{here.strftime('%H:%M')} {zone if zone[:1].isalpha() else f'UTC{zone}'}"

    def change_said(self, since_said, since, now):
        """When something changed last, and how long ago that was, if it was a second ago or more."""
        if (now - since).total_seconds() < 1:
            return self.said("last_change_now", moment=since_said)
        return self.said("last_change", moment=since_said, age=self.age_of(since, now))

    def age_of(self, since, now):
        return self.age(max((now - since).total_seconds(), 0))

    def age(self, seconds):
        for size, unit in ((86400, "days"), (3600, "hours"), (60, "minutes"), (1, "seconds")):
            if seconds >= size or unit == "seconds":
                many = int(seconds // size)
                one, more = self.words[unit]
                return f"{many} {one if many == 1 else more}"


def without_folder(language):
    """A site in this language that has no folder, with those of all others, in English where the
    language has no texts."""
    sites = {}
    for one in LANGUAGES:
        # (a board's own texts may be the fault)
        with suppress(OSError, ValueError, TypeError, LookupError):
            sites[one] = Site(language=one)
    first = sites.get(language) or sites["en"]
    first.others = [site for site in sites.values() if site is not first]
    return first
