#!/usr/bin/env python3
"""Writes the pages for the press and the public from what an office answers.

    python3 deploy/press.py http://127.0.0.1:8080 [ADDRESS..] FOLDER [--every SECONDS] [--setup FILE] [--head FILE] [--site FOLDER]

It asks the office by GET alone, once a round for the results of all constituencies, and writes into FOLDER: index.html, what
they are together; count.html, how far the count is; a page for each constituency and for each list, and small ones for other
sites; the elected; and the same numbers as CSV and JSON. Where there are several offices the pages are those of all. With the
setup file it also writes setup.json, which the clerks' page reads, has turnout, names the candidates who are gone, and writes for
each certificate the returns of its stations, as one CSV and as pages; where there is no certificate, those that are closed so far.
The setup has to be that of the offices together. A constituency that two of them have, that is missing or unknown, or that is not
as the setup has it is named on standard error, and the pages of all stay as they were. With the head that the recorder writes,
each round shows how long the record of commands is and the hash of its last line, and record.csv keeps what was shown. The folder
of the site says what the pages are called, in which language, and more (press_site.py). manifest.json has the hash of each file,
feed.atom what was certified, withdrawn and vacated, and datapackage.json, the schemas and openapi.json say what the files have.

The pages are made by press_pages.py, the other files by press_data.py. A page is written when something on it changes, and
those of the country and of the count in each round. The stations of a constituency are asked for once a certificate; without
one where something of it has changed, and once a minute. With --every a round waits for them for half a second and one answer,
and the others are asked for in later rounds, those first that waited longest. If that answer takes longer, as that of a large
constituency, the rounds after it wait less. A file is written beside and renamed, so nobody reads half of one, and once more
compressed. One that somebody else changed or removed is named on standard error and made again in the next round; a folder
in its place is named and stays. Where the office does not answer, or not what can be used, the page that was there stays, with a
line that says how old it is. With --every it goes on until it is ended, also after a round that a full disk ended. Each round
prints a line, with how many GETs it took; the status is 1 where the last one failed in part, or its head or its record of commands
cannot be used. Python 3.11 or later.
"""

import argparse
import contextlib
import csv
import math
import re
import signal
import sys
import time
from dataclasses import dataclass, field
from datetime import datetime
from functools import partial
from pathlib import Path

from press_data import (OPEN, STATION, acts_of, adds_up, con_csv, con_json, datapackage, feed, index_csv, index_json, json_text,
                        manifest, put_head, results_csv, returns_csv, returns_in, said_before, schemas)
from press_country import together
from press_embed import con_embedded, country_embedded, withdrawn_embedded
from press_files import (allow_provisional, are_withdrawn, begun, changed, forget, is_folder, is_known, keep_room, make_folder,
                         moment_in, on_disk, published, put, put_bytes, remove, remove_folder, repair, restore, text_of, unless_full,
                         use_room, withdraw_holders, withdraw_of_all, withdraw_of_con)
from press_image import shared_image
from press_lists import elected_csv, elected_pages, list_pages
from press_offices import Office, OtherSetup, compare_stations, results_of
from press_pages import aged, con_bodies, con_page, count_pages, details_page, index_pages, unaged, withdrawn_page
from press_parts import AGE
from press_places import find_json, places_csv
from press_results import NoAnswer, certificate_of, read_stations, without_provisional
from press_site import LANGUAGES, Site, Wrong, fault_of, read_setup, without_folder
from press_stations import electors_counted, left_as_they_are, places_pages, stations_pages
from press_templates import TemplateError

# The files and the routes of the site, for programs.
ROUTES = Path(__file__).resolve().with_name("openapi.json")
# Stations that change while they are asked for are asked for again, so often.
TRIES = 3
# How many files that somebody else changed a round names.
MOST_NAMED = 20
# Where there is no certificate the stations are asked for again after this many seconds, though no
# number is another one: two changes may leave each as it was. A round of --every asks for stations
# as long as it waited less than so long for them: the office answers nobody else meanwhile. A round
# that waited longer leaves less to those after it, at most ten of them: an answer may also be late
# since the office was at an import.
AGAIN, STATIONS, MOST_OWED = 60, 0.5, 5.0


# ---- files


# Where a file says its moment. No title or name can say it there: in these places each is escaped.
MOMENTS = {".json": '"time": "([^"]+)"', ".atom": "<updated>([^<]+)<", ".html": '<time datetime="([^"]+)">'}


def put_dated(folder, name, write, moment):
    """Writes a file that says its moment, by a function of the moment. One that says the same of an earlier moment keeps that. The
    moment that it says."""
    before = text_of(folder / name)
    since = min(moment_in(MOMENTS[Path(name).suffix], before) or moment, moment)
    text = write(since)
    if text != unaged(before):
        since, text = moment, write(moment)
    put(folder, name, text)
    return since


def con_of(page):
    """The constituency that a page is of, by its name, or None."""
    found = re.fullmatch(r"(?:con|embed)-([\w-]+)\.html|(?:details|stations|places?)-([\w-]+)-\d+\.html", page)
    return found and (found[1] or found[2])


def withdraw(folder, site, codes):
    """Of a constituency that is none of these, as of an election before: its pages say that they are withdrawn, for whoever has their
    address, and its files for programs are removed. A page that this program did not make is left."""
    moment, gone = datetime.now().astimezone(), set()
    for one, into in site.editions(folder):
        for page in into.glob("*.html"):
            code = con_of(page.name)
            if code and code not in codes and is_ours(page):
                gone.add(code)
                put_dated(into, page.name, withdrawn_embedded(one) if page.name.startswith("embed-") else withdrawn_page(one), moment)
    for code in gone:
        returns = re.compile(rf"stations-{re.escape(code)}-(\d+|{OPEN})\.csv")
        names = [file.name for file in folder.glob("stations-*.csv") if returns.fullmatch(file.name)]
        for name in (f"con-{code}.csv", f"con-{code}.json", f"places-{code}.csv", *names):
            remove(folder, name)


def remove_languages(folder, site):
    """Removes the pages of each language that the site no longer has beside its own: nobody would renew them."""
    for language in LANGUAGES.keys() - {one.language for one in site.others}:
        remove_folder(folder / language)


def is_ours(page):
    """Whether this program made a page: the folder may have others of the board's, in any encoding."""
    return is_known(page) or AGE[0] in text_of(page)


# ---- the returns of stations


def of_setup(target, found, wanted):
    """Fails where the stations or lists are other ones than the setup's."""
    if list(found) != list(wanted):
        raise NoAnswer(f"{target}: other stations or lists than those of the setup")


def returns_of(office, code, entry):
    """The rows of the returns that are recorded."""
    target = f"/con/{code}/returns"
    columns, returns = returns_in(office.text(target))
    of_setup(target, columns, [*STATION, *(row["code"] for row in entry["lists"])])
    return returns


def certified_returns(office, code, view, entry):
    """The returns of a certificate as CSV; None where they are of another moment: the next round asks for them again."""
    returns = returns_of(office, code, entry)
    text = returns_csv([row["code"] for row in entry["lists"]], returns)
    if not adds_up(text, view) or office.json(f"/con/{code}")["edition"] != view["edition"]:
        return None
    of_setup(f"/con/{code}/returns", (row[0] for row in returns), (station["code"] for station in entry["stations"]))
    return text


def closed_returns(office, code, stations, entry):
    """Of stations as they are the closed returns as CSV; None where one of these is another one by now."""
    closed = {station: found[1] for station, found in stations.items() if found and found[0] == "closed"}
    rows = {row[0]: row for row in returns_of(office, code, entry)} if closed else {}
    for station, said in closed.items():
        if station not in rows:
            return None
        _, slip, blank, spoiled, *votes = rows[station]
        if [slip, sum(map(int, votes)), int(blank), int(spoiled)] != said:
            return None
    return returns_csv([row["code"] for row in entry["lists"]], [rows[station] for station in closed])


def stations_of(office, code, before, entry):
    """The table of stations; where it is not what it was before, what it says too, and the closed returns as CSV, with its slips
    and its sums."""
    for again in range(TRIES):
        if again:
            time.sleep(1.1)
        text = office.text(f"/con/{code}/stations")
        if text == before:
            return text, None, None
        compare_stations(office, code, entry, text)
        stations = read_stations(text)
        closed = closed_returns(office, code, stations, entry)
        if closed is not None:
            return text, stations, closed
    raise NoAnswer(f"/con/{code}/stations: they change while they are asked for")


def write_returns(office, folder, code, con, entry, seen, may_ask):
    """The returns of a certificate's stations, once an edition; the files of certificates that are there, by edition.

    A file of an edition that has no certificate is removed, and one whose sums are not those of the certificate is written again:
    they are of an office that was replaced by a copy from before. One that was there before this program started is compared once
    with what the office says: two of its stations may have been exchanged."""
    view = con["view"]
    edition = view["edition"] if view["certified"] else None
    names = [re.fullmatch(rf"stations-{re.escape(code)}-(\d+)\.csv", file.name) for file in folder.iterdir()]
    files = {int(found[1]): found[0] for found in names if found}
    for old in set(files) - {edition, *(past["edition"] for past in con["past"])}:
        remove(folder, files.pop(old))
    if edition in files and not adds_up(text_of(folder / files[edition]), view):
        del files[edition]
    if edition and entry and may_ask and (edition not in files or seen.compared.get(code) != edition):
        name, text = f"stations-{code}-{edition}.csv", certified_returns(office, code, view, entry)
        if text is not None:
            if name in files.values() and text_of(folder / name) != text:
                print(f"failed: {folder / name}: somebody else changed it, and pages were made of it", file=sys.stderr)
                seen.written.pop(code, None)
            put(folder, name, text)
            files[edition], seen.compared[code] = name, edition
        elif edition not in files:
            remove(folder, name)
    files = {of: name for of, name in files.items() if on_disk(folder / name)}
    for name in files.values():
        if not (is_known(folder / name) and is_known(folder / f"{name}.gz")) and (text := text_of(folder / name)):
            put(folder, name, text)
    return files


def open_file(code):
    return f"stations-{code}-{OPEN}.csv"


def has_open(row):
    """Whether a constituency has returns and no certificate, so that its table of stations is read, by its progress."""
    return not row["certified"] and row["missing"] < row["stations"]


def write_open(office, folder, site, code, con, entry, seen, may_ask):
    """The stations of a constituency without a certificate as they are, where they are to be asked for; the file of the closed
    returns that is there, or none."""
    row, name, now = con["progress"], open_file(code), time.monotonic()
    key = row, con["view"]
    if not entry or not has_open(row):
        seen.stations.pop(code, None)
        return {}
    before, since, text = seen.stations[code] if code in seen.stations and on_disk(folder / name) else (None, 0, None)
    if may_ask and (before != key or now - since > AGAIN):
        # (pages of the table have these numbers too: it is read where they alone are others)
        text, stations, closed = stations_of(office, code, text if before == key else None, entry)
        if stations:
            put(folder, name, closed)
            seen.written.pop(code, None)
            seen.lists.pop(code, None)
        if stations and on_disk(folder / name):
            states = {station: found[0] if found else "missing" for station, found in stations.items()}
            write_stations(folder, site, code, con, entry, seen, name, states)
        seen.stations[code] = key, now, text
    return {OPEN: name} if on_disk(folder / name) else {}


def write_stations(folder, site, code, con, entry, seen, file, states=None):
    """Writes the pages of the stations and of the places from a file of returns; without one no station is closed."""
    text = text_of(folder / file) if file else ""
    for one, into in site.editions(folder):
        pages, seen.starts[one.language, code] = stations_pages(one, code, con, entry, text, states) if file else ([], [])
        write_parts(into, f"stations-{code}", pages, seen.asked)
        of_each, of_table, places = places_pages(one, code, con, entry, text, states)
        of_each = left_as_they_are(into, f"place-{code}", of_each, seen.places.setdefault(code, {}))
        write_parts(into, f"place-{code}", of_each, seen.asked)
        write_parts(into, f"places-{code}", of_table, seen.asked)
    if places:
        put(folder, f"places-{code}.csv", places_csv(con, places))
    else:
        remove(folder, f"places-{code}.csv")


def write_parts(folder, name, pages, moment):
    """Writes pages that follow one another, each a text, a function of its moment, or None where it stays as it is, and removes those
    that this program made before and that are not of them."""
    for place, one in enumerate(pages, 1):
        if one is None:
            continue
        if callable(one):
            put_dated(folder, f"{name}-{place}.html", one, moment)
        else:
            put(folder, f"{name}-{place}.html", one)
    for page in folder.glob(f"{name}-*.html"):
        place = re.fullmatch(rf"{re.escape(name)}-(\d+)\.html", page.name)
        if place and int(place[1]) > len(pages) and is_ours(page):
            remove(folder, page.name)


# ---- rounds


@dataclass
class Seen:
    """The state of an election as it was seen: its constituencies, and of each what was written last, and the moment that its page says; of one
    without a certificate its stations, and when they were asked for; of each the electors of the stations that are counted, and the
    places of those with which its pages of stations begin; the constituencies of which the pages of lists were made; in each language, of
    which beginnings find.json was made; of each what the page of each place shows; the edition of each whose file of returns was
    compared with the office; the seconds that the last round left for stations, fewer than none where it waited longer; whether setup.json
    was written; and the moment at which the offices were asked last, which the pages say: what they answered may be others' by then."""
    cons: dict = field(default_factory=dict)
    written: dict = field(default_factory=dict)
    moments: dict = field(default_factory=dict)
    stations: dict = field(default_factory=dict)
    electors: dict = field(default_factory=dict)
    starts: dict = field(default_factory=dict)
    lists: dict = field(default_factory=dict)
    found: dict = field(default_factory=dict)
    places: dict = field(default_factory=dict)
    compared: dict = field(default_factory=dict)
    left: float = 0.0
    has_setup: bool = False
    asked: datetime = None

    def forget(self):
        """Each file is made again in the next round."""
        self.has_setup = False
        for known in (self.written, self.stations, self.lists, self.found, self.places, self.compared):
            known.clear()


def write_con(folder, site, code, con, entry, returns, seen):
    """Writes the files of a constituency, where something of it has changed."""
    if seen.written.get(code) == returns and con is seen.cons.get(code):
        return
    row, now = con["progress"], seen.asked
    electors = seen.electors[code] = electors_counted(folder, con, entry, returns)
    if OPEN not in returns:
        file = returns.get(row["edition"]) if row["certified"] and entry else None
        if file or not con["tally"]["closed"] or not entry:
            write_stations(folder, site, code, con, entry, seen, file)
        remove(folder, open_file(code))
    has_places = bool(on_disk(folder / f"places-{code}-1.html"))
    moments = []
    for one, into in site.editions(folder):
        body, *more = con_bodies(one, code, con, row, entry, returns, electors, has_places)
        moments.append(put_dated(into, f"con-{code}.html", partial(con_page, one, con, row, body), now))
        put_dated(into, f"embed-{code}.html", con_embedded(one, code, con, head_of(body)), now)
        write_parts(into, f"details-{code}", [partial(details_page, one, code, con, row, of_page) for of_page in more], now)
    # (of a table and its JSON file the JSON is first: by that they are withdrawn)
    put_dated(folder, f"con-{code}.json", lambda moment: con_json(con, moment), now)
    put(folder, f"con-{code}.csv", con_csv(con))
    remove(folder, begun(code))
    seen.cons[code], seen.written[code], seen.moments[code] = con, returns, moments[0]


def write_index(folder, site, cons, setup, electors, seen, head):
    """Writes the files of all constituencies; `electors` are those of the stations that are counted, by constituency."""
    moment, changed = seen.asked, max((seen.moments[code] for code in cons if code in seen.moments), default=None)
    for one, into in site.editions(folder):
        first, *more = index_pages(one, cons, setup, moment, changed, electors)
        put(into, "index.html", first)
        write_parts(into, "cons", more, moment)
        first, *more = count_pages(one, cons, moment, changed, head)
        put(into, "count.html", first)
        write_parts(into, "count", more, moment)
        starts = {code: seen.starts.get((one.language, code), []) for code in cons}
        if seen.found.get(one.language) != starts:
            put(into, "find.json", find_json(cons, setup, one, starts))
            seen.found[one.language] = starts
    progress = [con["progress"] for con in cons.values()]
    put_dated(folder, "index.json", lambda since: index_json(progress, since), moment)
    put(folder, "index.csv", index_csv(progress))
    put(folder, "results.csv", results_csv(cons, setup))


def head_of(body):
    """The lines under the title, of the parts of a page."""
    return {key: body[key] for key in ("headline", "counted_line", "outlook")}


def write_lists(folder, site, cons, electors, seen):
    """Writes the page of each list, those of the elected and the part of the country for other sites, where a constituency has
    changed: shares are of the country."""
    if len(cons) == len(seen.lists) and all(con is seen.lists.get(code) for code, con in cons.items()):
        return
    country, moment = together(cons, electors), seen.asked
    if site.about.get("address"):
        put_bytes(folder / "share.png", shared_image(site, country))
    codes = {party.code for party in country.parties}
    for one, into in site.editions(folder):
        put_dated(into, "embed.html", country_embedded(one, country, cons), moment)
        for party in country.parties:
            first, *more = list_pages(one, country, party, cons)
            put_dated(into, f"list-{party.code}.html", first, moment)
            write_parts(into, f"lists-{party.code}", more, moment)
        for page in into.glob("list*-*.html"):
            found = re.fullmatch(r"list-(.+)|lists-(.+)-\d+", page.stem)
            if found and not {found[1], found[2]} & codes and is_ours(page):
                remove(into, page.name)
        write_parts(into, "elected", elected_pages(one, country, cons), moment)
    put(folder, "elected.csv", elected_csv(cons))
    remove(folder, begun(None))
    seen.lists = dict(cons)


def write_about(folder, site, cons, codes, setup, seen, head, is_whole):
    """Writes the feed, after these constituencies, and what describes the other files. The codes are those of all constituencies,
    where they are known. The round is whole where each of these was written."""
    moment, (known, has_others) = seen.asked, said_before(text_of(folder / "feed.atom"))
    if has_others:
        print(f"failed: {folder / 'feed.atom'}: what is none of the entries of these pages is left out", file=sys.stderr)
    put_dated(folder, "feed.atom", lambda since: feed(known, cons, codes, setup, site, since), moment)
    for name, text in {"openapi.json": text_of(ROUTES), **schemas()}.items():
        put(folder, name, text)
    put(folder, "datapackage.json", datapackage(published(folder), seen.cons, site))
    pages = [file for _, into in site.editions(folder) for file in published(into, "manifest.json")]
    put(folder, "manifest.json", manifest(pages, head, moment, folder, is_whole))


class Round:
    """One round over the constituencies, after what was seen in the ones before. Stations are asked for until the answers took this
    many seconds."""

    def __init__(self, folder, site, setup, seen, seconds):
        self.folder, self.site, self.setup, self.seen, self.seconds = folder, site, setup, seen, seconds
        # By constituency its office, what it is, and the files of returns that are there.
        self.offices, self.cons, self.files = {}, {}, {}
        self.failures, self.failed, self.later, self.whole = [], set(), set(), False

    def ask(self, offices):
        """Asks the offices for the results of all constituencies."""
        before, self.seen.asked = self.seen.asked, datetime.now().astimezone()
        if before and before > self.seen.asked:
            # The clock was ahead, and is right by now: what is dated after this is made again.
            self.seen.forget()
            self.seen.moments.clear()
        found, self.failures = results_of(offices, self.setup)
        self.whole = not self.failures
        self.offices = {code: office for code, (office, _) in found.items()}
        if not self.site.provisional:
            found = {code: (office, without_provisional(con)) for code, (office, con) in found.items()}
        self.cons = {code: self.as_before(code, con) for code, (_, con) in found.items()}
        for con in self.cons.values():
            self.site.meet(row["code"] for row in con["tally"]["lists"])

    def as_before(self, code, con):
        """A constituency as it is: the object of before, where it is equal."""
        before = self.seen.cons.get(code)
        return before if before == con else con

    def leave_as_it_is(self):
        """A file of all offices has all of them, or stays as it is."""
        self.whole = False
        pages = [(site, page) for site, page in self.pages() if con_of(page.name) not in self.cons]
        for site, page in pages:
            self.mark_old(site, page)
        self.failures[-1] += f"; left as they are: {len(pages)} pages"

    def pages(self):
        """The pages of this program that are there, each with the site of its language."""
        return [(site, page) for site, into in self.site.editions(self.folder) for page in into.glob("*.html") if is_ours(page)]

    def mark_old(self, site, page):
        """Says on a page how old it is; that of a constituency is written again once there is an answer. One that this program has
        not written is still none of its own: somebody may have changed it before."""
        is_own = is_known(page)
        put(page.parent, page.name, aged(site, text_of(page), datetime.now().astimezone()))
        if not is_own:
            forget(page)
        for known in (self.seen.written, self.seen.stations, self.seen.places):
            known.pop(con_of(page.name), None)
        self.seen.lists.clear()

    def mark_con(self, code):
        """Says on each page of a constituency how old it is."""
        for site, page in self.pages():
            if con_of(page.name) == code:
                self.mark_old(site, page)

    def each(self, act, order=None):
        """Does this for each constituency that has not failed."""
        for code in sorted(self.cons, key=order) if order else self.cons:
            if code in self.failed:
                continue
            try:
                act(code, self.cons[code])
            except NoAnswer as error:
                self.mark_con(code)
                self.failed.add(code)
                self.failures.append(str(error))
                self.offices[code].compared.discard(code)
                if self.whole and isinstance(error, OtherSetup):
                    self.leave_as_it_is()

    def waits(self, code):
        """The order in which stations are asked for: first where pages are of a certificate that is withdrawn, then those of a
        certificate, and then those that waited longest."""
        row = self.cons[code]["progress"]
        is_behind = has_open(row) and self.has_stations(code) and not on_disk(self.folder / open_file(code))
        return not is_behind, not row["certified"], self.seen.stations.get(code, (None, 0))[1]

    def has_stations(self, code):
        """Whether there are pages of the stations of a constituency, of this certificate or of another one."""
        return bool(on_disk(self.folder / f"stations-{code}-1.html"))

    def write_returns(self, code, con):
        office, entry, may_ask = self.offices[code], self.setup.get(code), self.seconds > 0
        before = office.took
        try:
            if code in office.other and not may_ask:
                raise OtherSetup(office.other[code])
            if entry and may_ask and code not in office.compared and not has_open(con["progress"]):
                compare_stations(office, code, entry, office.text(f"/con/{code}/stations"))
            own = f"stations-{code}-{con['view']['edition']}.csv"
            had_own = on_disk(self.folder / own)
            files = write_returns(office, self.folder, code, con, entry, self.seen, may_ask)
            files |= write_open(office, self.folder, self.site, code, con, entry, self.seen, may_ask)
            is_read = own in files.values() or not (con["past"] or had_own) if con["view"]["certified"] else OPEN in files
            if not is_read and self.has_stations(code):
                self.mark_con(code)  # (those of stations and places are of a certificate that is withdrawn)
                remove(self.folder, f"places-{code}.csv")
            if con["view"]["certified"]:
                if not is_read:
                    remove(self.folder, own)  # (of before: a copy from before took the office's place)
                files["acts"] = acts_of(self.folder, code, con["view"]["edition"], files)
            row, seen = con["progress"], self.seen
            if entry and (code not in seen.stations if has_open(row) else row["certified"] and seen.compared.get(code) != row["edition"]):
                self.later.add(code)  # (somebody may have changed its files before the start)
            self.seconds -= office.took - before
        except (ValueError, KeyError, TypeError, IndexError, csv.Error) as error:
            raise NoAnswer(f"/con/{code}/returns: a text that is not of its report: {error!r}") from error
        self.files[code] = files

    def write_con(self, code, con):
        if self.seen.cons.get(code) is not con:
            withdraw_of_con(self.folder, code, certificate_of(con), are_next=True)
        write_con(self.folder, self.site, code, con, self.setup.get(code), self.files[code], self.seen)

    def write_rest(self, head):
        """Writes the files that are of all constituencies."""
        shown = head and self.cons and put_head(self.folder, head, self.failures)
        self.withdraw(self.whole)
        if self.whole:
            if self.setup and not self.seen.has_setup:
                put(self.folder, "setup.json", json_text(list(self.setup.values())))
                self.seen.has_setup = True
            # (of one whose returns could not be read nobody knows whose electors are counted)
            electors = {code: many for code, many in self.seen.electors.items() if code not in self.failed}
            write_index(self.folder, self.site, self.cons, self.setup, electors, self.seen, shown)
            write_lists(self.folder, self.site, self.cons, electors, self.seen)
        if self.cons:
            cons = {code: self.seen.cons[code] for code in self.cons if code not in self.failed}
            codes = list(self.cons) if self.whole else None
            write_about(self.folder, self.site, cons, codes, self.setup, self.seen, shown, self.whole and not self.failed | self.later)

    def withdraw(self, are_next=False):
        """Removes the files for programs that say of a constituency that it is certified as it is no more, or who holds its seats as it
        is no more: of all constituencies, and of one that is not written now. Of one that did not answer nobody knows better, unless it
        is none of the setup. The pages of all may be written next."""
        now = {code: con["view"]["edition"] if con["view"]["certified"] else None for code, con in self.cons.items()}
        withdraw_of_all(self.folder, now, self.setup or None, are_next)
        withdraw_holders(self.folder, elected_csv(self.cons))
        for code, con in self.cons.items():
            if self.seen.cons.get(code) is not con:
                withdraw_of_con(self.folder, code, certificate_of(con))

    def leave_unfinished(self):
        """Whatever ended the round, such as a full disk, no certificate that is withdrawn stays without its age. Says on each page how
        old it is, by the room that was kept for it, and keeps it again. One that cannot say so is removed where it may have such a
        certificate. Nothing vouches for them until a round is whole."""
        use_room(self.folder)
        with contextlib.suppress(OSError):
            remove(self.folder, "manifest.json")
        with contextlib.suppress(Exception):
            self.withdraw()
        for site, page in self.pages():
            with contextlib.suppress(Exception):
                self.mark_old(site, page)
            with contextlib.suppress(OSError):
                if are_withdrawn(self.folder, con_of(page.name)) and text_of(page) == unaged(text_of(page)):
                    remove(page.parent, page.name)
        with contextlib.suppress(OSError):
            keep_room(self.folder)


def seconds_of_round(seen):
    """How many seconds a round of --every may wait for stations."""
    return STATIONS + min(0.0, max(seen.left, -MOST_OWED))


def look_for_changes(folder, site, seen):
    """Says which files somebody else changed or removed, and makes them again. A former certificate's file of returns can be made by
    nobody, and is gone; the feed and the heads that were shown stay, which have moments of before."""
    found = changed(folder)
    for file in found[:MOST_NAMED]:
        print(f"failed: {file}: somebody else changed or removed it", file=sys.stderr)
    if len(found) > MOST_NAMED:
        print(f"failed: {folder}: somebody else changed or removed {len(found) - MOST_NAMED} more files", file=sys.stderr)
    for file in found:
        if file.name not in ("feed.atom", "record.csv") and not is_folder(file):
            remove(file.parent, file.name)
    if found:
        seen.forget()
    if found or not seen.has_setup:
        write_given(folder, site)


def write_given(folder, site):
    """Writes the files of what is given at the start, and makes the folders of other languages."""
    allow_provisional(folder, site.provisional)
    for one in site.others:
        make_folder(folder / one.language)
    if known := site.for_clerks():
        put(folder, "site.json", json_text(known))
    else:
        remove(folder, "site.json")


def write_all(offices, folder, site, setup, seen, head=None, seconds=math.inf):
    """One round; how many pages of constituencies and of the country were written, and what failed."""
    it = Round(folder, site, setup, seen, seconds)
    try:
        it.ask(offices)
        look_for_changes(folder, site, seen)
        keep_room(folder)
        if it.failures:
            it.leave_as_it_is()
        it.each(it.write_returns, it.waits)
        seen.left = it.seconds
        it.each(it.write_con)
        if it.whole and it.cons:
            withdraw(folder, site, {*it.cons, *setup})
        it.write_rest(head)
    except Exception:
        it.leave_unfinished()
        raise
    return len(it.cons) - len(it.failed) + it.whole, it.failures


def begin(folder, site):
    """Makes the folder ready for the pages, and looks at what is in it. What finds no room is written in a round: the room that is kept is
    for the pages."""
    with unless_full():
        write_given(folder, site)
    remove_languages(folder, site)
    restore(folder)
    for _, into in site.editions(folder):
        repair(into)


def end_before_rounds(offices, folder, site):
    """Where the settings or the folder cannot be used: pages say how old they are, in their language and without the folder of the site
    if that is at fault."""
    if not site:
        # Nobody knows whether seats may be shown before they are certified.
        allow_provisional(folder, False)
        language = re.search(r'\blang="([^"]+)"', text_of(folder / "index.html"))
        site = without_folder(language and language[1])
    it = Round(folder, site, {}, Seen(), 0)
    with contextlib.suppress(Exception):
        it.ask(offices)
    it.leave_unfinished()


def main():
    command = argparse.ArgumentParser(description=__doc__.splitlines()[0])
    command.add_argument("office", nargs="+", help="the address of the office, such as http://127.0.0.1:8080")
    command.add_argument("folder", type=Path, help="where the pages are written")
    command.add_argument("--every", type=float, metavar="SECONDS", help="write them again so often, until it is ended")
    command.add_argument("--setup", type=Path, metavar="FILE", help="the setup file of the office, before it was split")
    command.add_argument("--head", type=Path, metavar="FILE", help="what the recorder writes: how long the record is, and its hash")
    command.add_argument("--site", type=Path, metavar="FOLDER", help="what the pages are called, and in which language; colours, names, a map")
    given = command.parse_args()
    given.folder.mkdir(parents=True, exist_ok=True)
    offices, seen, asked, site = [Office(address) for address in given.office], Seen(), 0, None
    try:
        setup = read_setup(given.setup) if given.setup else []
        site = Site(given.site)
        site.meet(row["code"] for entry in setup for row in entry["lists"])
        begin(given.folder, site)
    except Exception as error:
        end_before_rounds(offices, given.folder, site)
        if isinstance(error, Wrong):
            sys.exit(f"failed: {error}")
        if isinstance(error, OSError):
            sys.exit(f"failed: {error.filename or given.folder}: {error.strerror}")
        raise
    entries = {entry["code"]: entry for entry in setup}
    signal.signal(signal.SIGTERM, lambda *_: sys.exit(0))
    while True:
        before, began = asked, time.monotonic()
        try:
            written, failures = write_all(offices, given.folder, site, entries, seen, given.head,
                                          math.inf if given.every is None else seconds_of_round(seen))
        except TemplateError as error:
            sys.exit(f"failed: templates: {fault_of(error)}")
        except OSError as error:
            # As of a full disk: all that may not have been written is written in the next round.
            seen.forget()
            written, failures = 0, [f"{error.filename or given.folder}: {error.strerror}: the round ended there"]
        asked = sum(office.asked for office in offices)
        with unless_full():
            for failure in failures:
                print(f"failed: {failure}", file=sys.stderr)
            print(f"{datetime.now().strftime('%H:%M:%S')} pages {written} failed {len(failures)} GETs {asked - before} "
                  f"in {time.monotonic() - began:.1f} s", flush=True)
        if given.every is None:
            return 1 if failures else 0
        time.sleep(max(0.0, given.every - (time.monotonic() - began)))


if __name__ == "__main__":
    try:
        sys.exit(main())
    except KeyboardInterrupt:
        sys.exit(0)
