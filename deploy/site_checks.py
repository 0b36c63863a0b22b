"""The conditions of a change by office-site: a site's name, its setup, its data, and the names of
its staff. Each is looked at before anything is changed."""

import re
import sqlite3
import time
import tomllib
from contextlib import closing, suppress
from pathlib import Path
from urllib.parse import quote

from chain import has_commands
from site_machine import Fault
from site_places import folders_of, ports_of, sites_of, whose
from staff import posts

# How often a database is looked at that seems to have no setup.
LOOKS = 5
ROLES = ("clerk", "second", "board")
# Names that nginx would read otherwise in staff.conf, and the one by which a browser logs out.
WORDS_OF_PROXY = ("default", "include", "logout")
SHARED = ("staff.conf", "staff.htpasswd", "stations")
# What a computer with an office may have beside the folders of sites: no site has such a name.
NO_SITES = ("ports.nft", "setup.toml", "status.toml", "backup.env", "recorder.env")


# ---- the site


def check_site(machine, site):
    """The name of a new site is that of no file beside the folders of sites."""
    if ports_of(machine, site):
        return
    found = [place for place in folders_of(site)
             if machine.at(place).exists() and not machine.at(place).is_dir()]
    if site in NO_SITES or found:
        place = found[0] if found else f"/etc/office/{site}"
        raise Fault(f"{place} is the place of another file: choose another name for the site")


def check_folders(machine, sites):
    """None of these has the folders of another site, renamed or copied: the proxy would read that
    site's files twice, and start for none."""
    for site in sites:
        if (other := whose(machine, site)) != site:
            raise Fault(f"/etc/office/{site} is a copy of the folder of {other}, or was renamed: "
                        f"move it and /etc/nginx/office/{site} out of /etc/office and "
                        "/etc/nginx/office, to /root for instance")


def check_ports(machine, site):
    """No other site has the same ports, as a copy of its folder in /etc/office has. A folder that
    is another site's by its files keeps no site from going on: check_folders names it."""
    pair = ports_of(machine, site)
    for other in sorted(sites_of(machine)):
        if other != site and ports_of(machine, other) == pair and whose(machine, other) == other:
            raise Fault(f"{site} and {other} have the same ports: one is a copy of the other's "
                        "folder: move it out of /etc/office; or it is of another computer: remove "
                        f"/etc/office/{site}/ports, and it gets free ones")


def check_data(machine, site, begins_again, setup=None):
    """No empty office is made of a site that had one, unless its setup is named: the database is
    perhaps on a file system that is not there now. Nor is one made beside a record with commands,
    or beside the log of another database, which SQLite would take for that of the new one. An
    interrupted --begin-again goes on, which put it aside."""
    folder = machine.at(f"/var/lib/office/{site}")
    record, database = machine.at(f"/var/log/office/{site}/commands.log"), folder / "office.db"
    aside = begun_aside(machine, site)
    if database.exists() or aside and begins_again:
        return
    more = f", or go on with an interrupted office-site --begin-again {site}" if aside else ""
    if has_commands(record):
        raise Fault(f"{record} has commands, and {database} is not there: mount its file system, "
                    f"put it back{more}. If it is lost, leave the record there, and do what "
                    "/usr/share/doc/office/deploy/README.md says of a machine that is lost")
    kept = machine.at(f"/etc/office/{site}/setup.toml")
    if not begins_again and not setup and kept.exists():
        raise Fault(f"{database} is not there: mount its file system, or put it back{more}. For an "
                    f"empty office name the setup: office-site {site} {kept}")
    for log in sorted(folder.glob("office.db-*")):
        raise Fault(f"{log} is of a database that is not there: put that back{more}. If it is "
                    "lost, move this aside")


def begun_aside(machine, site):
    """The name of the folders of a trial that an interrupted --begin-again has put aside by half:
    its database is there, and its record, which goes last, is not."""
    data, records = (machine.at(f"/var/{place}/office/{site}") for place in ("lib", "log"))
    if (data / "office.db").exists():
        return None
    trials = [file.parent.name for file in data.glob("trial-*/office.db")]
    return max((trial for trial in trials if not (records / trial / "commands.log").exists()),
               default=None)


def check_setup(machine, site, file, begins_again=False):
    """The text of the setup that is to be: of a site that has a database, the one of which that was
    made, unless its data is put aside."""
    named = Path(file) if file else machine.at(f"/etc/office/{site}/setup.toml")
    if not file and not named.is_file():
        raise Fault(f"{site} has no setup yet: name one")
    try:
        text = named.read_bytes()
    except OSError as error:
        raise Fault(f"{named}: {error.strerror}") from error
    database = machine.at(f"/var/lib/office/{site}/office.db")
    if database.exists() and not begins_again and not is_setup_of(database, text):
        raise Fault(f"{database} was made of another setup than {named}: put the setup back of "
                    "which it was made, as the database has it (docs/FORMATS.md, The database). "
                    f"For another election office-site --begin-again {site} SETUP puts the data "
                    "aside first")
    return text


def is_setup_of(database, text):
    """Whether a database was made of a setup that says the same. It is read as a file that nobody
    changes, since its setup is never changed: so root makes no log beside it."""
    for left in reversed(range(LOOKS)):
        try:
            with closing(sqlite3.connect(f"file:{quote(str(database))}?immutable=1", uri=True)) as it:
                [[setup]] = it.execute("SELECT text FROM setup")
            break
        except (sqlite3.Error, ValueError) as error:
            # (pages of it are perhaps being written)
            if not left:
                raise Fault(f"{database}: no setup can be read in it: {error}") from error
            time.sleep(0.2)
    if setup.encode() == text:
        return True
    # (comments, spaces and line ends may be others)
    with suppress(ValueError):
        return tomllib.loads(setup.removeprefix("\ufeff")) == tomllib.loads(
            text.decode("utf-8-sig"))
    return False


def check_certificate(machine, site):
    """A site has a certificate with its key, or none of them yet."""
    folder = machine.at(f"/etc/nginx/office/{site}")
    key, file = folder / "key.pem", folder / "certificate.pem"
    if key.exists() != file.exists():
        raise Fault(f"of {key} and {file} one is missing")


# ---- names


def check_names(names):
    """Roles by names, of words such as clerk:ana."""
    found = {}
    for word in names:
        role, _, name = word.partition(":")
        if role not in ROLES or not re.fullmatch("[A-Za-z0-9_-]{1,32}", name):
            raise Fault(f"{word} is no ROLE:NAME: a role is {', '.join(ROLES)}; a name is 1 to 32 "
                        "letters from A to Z and a to z, digits, - and _")
        if name in WORDS_OF_PROXY:
            raise Fault(f"{name} means something else in the files of the proxy: choose another "
                        "name")
        if name.lower() in (other.lower() for other in found):
            raise Fault(f"{name} is there twice: a name has one role")
        found[name] = role
    return found


def roles_in(text):
    return [(name, post.role) for name, post in posts(text).items()]


def check_shared(machine, site, other):
    if other == site or not ports_of(machine, other):
        raise Fault(f"there is no other site {other}")
    for name in SHARED:
        file = machine.at(f"/etc/nginx/office/{site}/{name}")
        if file.exists() and not file.is_symlink():
            raise Fault(f"{site} has names and passwords of its own: {file}")


def check_stations(machine, site, text):
    """No name of the staff is a station of another site that has the same names."""
    def shared(name):
        return machine.at(f"/etc/nginx/office/{name}/staff.conf").resolve()

    taken = {name.lower(): name for name, _ in roles_in(text)}
    for other in sites_of(machine):
        if other == site or shared(other) != shared(site):
            continue
        setup = tomllib.loads(machine.at(f"/etc/office/{other}/setup.toml").read_text("utf-8-sig"))
        for station in (station for con in setup["constituency"] for station in con["station"]):
            if name := taken.get(station["code"].lower()):
                raise Fault(f"{name} is called as a station of {other}, which has the same names "
                            "and passwords: choose another name")
