"""The steps of office-site --restore: a site once more, of a copy of its database and its record,
after its computer or its database was lost. Each condition is looked at before anything is changed.
"""

import grp
import hashlib
import json
import os
import pwd
import re
import shutil
import sqlite3
import subprocess
import tarfile
import time
import urllib.request
import zlib
from contextlib import closing, suppress
from datetime import UTC, datetime, timedelta
from itertools import islice
from pathlib import Path
from tempfile import NamedTemporaryFile, TemporaryDirectory
from typing import NamedTuple
from urllib.parse import quote

from chain import LONGEST_FIRST, hash_of_file, setup_of
from site_checks import is_setup_of
from site_machine import Fault, opened, run
from site_places import board_of, folders_of, ports_of

HERE = Path(__file__).resolve().parent
COPY = re.compile(r"office-([0-9]{8}T[0-9]{6})Z-([0-9]+)\.db")
# So far a line's time may be on the other side of the moment of a copy.
NEAR = timedelta(minutes=1)
PART = 1 << 20


class Kept(NamedTuple):
    """The files of which a site is made again, and the line of the record after which its commands
    are sent again. The archive is named where it is not unpacked yet."""

    copy: Path
    record: Path
    after: int
    setup: bytes
    archive: Path | None


# ---- what has to hold


def kept_of(machine, given):
    """The files that are named, once each is what it has to be."""
    site, copy = given.site, file_of(given.restore)
    log = Path(f"{copy}-wal")
    if log.exists() and log.stat().st_size:
        raise Fault(f"{log} is beside {copy}: that is no copy, but a database with its log")
    archive = file_of(given.archive) if given.archive else None
    if archive:
        check_place(machine, site, archive)
    setup, setup_json = setup_here(machine, site)
    if archive and setup is None:
        setup, setup_json = setup_in(machine, site, archive)
    elif setup is None:
        raise Fault(f"{site} is not set up here: name its archive (--from)")
    else:
        archive = None
    if given.setup:
        setup = file_of(given.setup).read_bytes()
    record = record_of(machine, site, given.record and file_of(given.record))
    check_copy(copy, setup, site)
    check_record(record, setup, setup_json)
    return Kept(copy, record, after_of(copy, record, given.after), setup, archive)


def file_of(name):
    file = Path(name)
    if not file.is_file():
        raise Fault(f"{file} is not there" if not file.exists() else f"{file} is no file")
    return file


def marks_of(site):
    """The file of a site that is being restored, with the SHA-256 of its archive if it has one; and
    that of one that is, and waits for somebody to start the rest."""
    return [f"/etc/office/{site}/{name}" for name in ("restoring", "restored")]


def check_begun(machine, given):
    """Nothing else opens a site whose copy is not complete, or has not been looked at."""
    site = given.site
    begun, done = (machine.at(mark).exists() for mark in marks_of(site))
    if given.restore or not begun and not (done and given.again):
        return
    raise Fault(f"{site} is being restored: go on with office-site --restore. Without "
                f"{marks_of(site)[0]} it starts as it is, and what was answered after the copy is "
                "not all in it" if begun else
                f"{site} was restored: look at it, and start it with office-site {site}")


def check_place(machine, site, archive):
    """Nothing of the site is on this computer, as of a trial, but what an interrupted run has made
    of this archive: it would be mixed with that of the lost one."""
    mark = machine.at(marks_of(site)[0])
    if mark.is_file() and mark.read_text(encoding="utf-8").strip() == hash_of_file(archive):
        return
    units = [f"/etc/systemd/system/{unit.name}" for kind in ("service", "timer") for unit in sorted(
        machine.at("/etc/systemd/system").glob(f"office*@{site}.{kind}*"))]
    found = [place for place in folders_of(site) if machine.at(place).exists()]
    if found := [*found, *units]:
        way = (f"office-site --remove {site}, and then this once more" if ports_of(machine, site)
               else "move all of it away:\n    tar -C / -rf /root/before.tar --remove-files "
               + " ".join(place[1:] for place in found))
        raise Fault(f"this computer has something of {site} already, as of a trial. Where the "
                    f"database alone is lost leave out --from; or else {way}")


def setup_here(machine, site):
    """The setup of a site on this computer, and its setup.json; None for what is not there."""
    places = f"/etc/office/{site}/setup.toml", f"/var/lib/office-site/{site}/setup.json"
    return [machine.at(place).read_bytes() if machine.at(place).is_file() else None
            for place in places]


def members_of(site, archive):
    """The members of an archive that are of a site, by their names: the bytes of a file, or the
    target of a link. It is read to its end, and those of other sites are left out."""
    its = re.escape(site)
    ours = re.compile(rf"(etc/office|etc/nginx/office|var/lib/office-site)/{its}(/|$)"
                      rf"|etc/systemd/system/office[^/@]*(@({its})?\.(service|timer)[^/]*)?(/|$)")
    found = {}
    try:
        with tarfile.open(archive) as files:
            for one in files:
                if ours.match(one.name):
                    found[one.name] = (files.extractfile(one).read() if one.isfile()
                                       else one.linkname)
            # (the checksum of the whole is at its end)
            while files.fileobj.read(PART):
                pass
    except (tarfile.TarError, zlib.error, EOFError, OSError) as error:
        raise Fault(f"{archive} is not whole: {error}") from error
    return found


def setup_in(machine, site, archive):
    """The setup and the setup.json of an archive, which has to have all that a site needs."""
    found = members_of(site, archive)
    for name in found:
        unit = machine.at(f"/{name}")
        if name.startswith("etc/systemd/") and unit.is_file() and unit.read_bytes() != found[name]:
            raise Fault(f"/{name} is another one than in {archive}, and other sites here may need "
                        "it: move it away, or put that one there")
    names = f"etc/nginx/office/{site}/staff.conf"
    for name in (f"etc/office/{site}/setup.toml", names):
        if name not in found:
            raise Fault(f"{archive} lacks {name}")
    if isinstance(found[names], str):
        other = Path(found[names]).parent.name
        if not machine.at(f"/etc/nginx/office/{other}/staff.conf").exists():
            raise Fault(f"{site} has the names of {other}: make that site again first")
    return (found[f"etc/office/{site}/setup.toml"],
            found.get(f"var/lib/office-site/{site}/setup.json"))


def record_of(machine, site, fetched):
    """The record of this computer, or the one that was fetched where that goes on further. Where
    neither begins with the other one is another election's."""
    here = machine.at(f"/var/log/office/{site}/commands.log")
    if here.is_symlink():
        raise Fault(f"{here} is a link: put the file itself there")
    if not here.is_file() or not here.stat().st_size:
        if not fetched:
            raise Fault(f"{here} is not there: mount its file system; or if it is lost, name the "
                        "record that was kept elsewhere (--record)")
        return fetched
    if fetched and not begins(here, fetched):
        if begins(fetched, here):
            return fetched
        raise Fault(f"{here} does not begin with {fetched}: one of the two is of another election "
                    "or was changed. Move that one away; and on another computer than before name "
                    "the archive (--from)")
    return here


def begins(file, other):
    """Whether a file begins with another one."""
    with open(file, "rb") as longer, open(other, "rb") as shorter:
        while part := shorter.read(PART):
            if longer.read(len(part)) != part:
                return False
    return True


def check_copy(copy, setup, site):
    """A copy is a whole database, of this setup."""
    try:
        with closing(sqlite3.connect(f"file:{quote(str(copy))}?immutable=1", uri=True)) as it:
            [said] = it.execute("PRAGMA quick_check").fetchone()
    except sqlite3.Error as error:
        said = error
    if said != "ok":
        raise Fault(f"{copy} is not whole: {said}")
    if not is_setup_of(copy, setup):
        raise Fault(f"{copy} was made of another setup than that of {site}. If it got another one "
                    "since the archive was made, name that one, after the name of the site")


def check_record(record, setup, setup_json):
    """A record does not begin with the hash of another setup. One of two entries that an older
    package began has that of the setup.json that it made."""
    with open(record, "rb") as lines:
        first = lines.readline(LONGEST_FIRST)
    try:
        found = setup_of(json.loads(first))
    except (ValueError, RecursionError):
        found = None
    kept = hashlib.sha256(setup_json or b"").hexdigest()
    if found and found != kept and found != hash_made_of(setup):
        raise Fault(f"{record} is the record of another setup")


def hash_made_of(setup):
    """The hash of the setup.json that this package makes of a setup."""
    with TemporaryDirectory() as folder:
        file = Path(folder, "setup.toml")
        file.write_bytes(setup)
        run(HERE / "setup-json", file, folder, Path(folder, "codes.conf"))
        return hash_of_file(Path(folder, "setup.json"))


def after_of(copy, record, asked):
    """The line after which commands are sent again: the one that is asked for, or the one in the
    name of the copy, if the record had that many lines at the moment there."""
    if asked is not None:
        return asked
    found = COPY.fullmatch(copy.name)
    if not found:
        raise Fault(f"the name of {copy} does not say how many lines the record had: name the last "
                    "line that the copy has (--after). --after 0 sends all, and does nothing twice")
    moment = datetime.strptime(found[1], "%Y%m%dT%H%M%S").replace(tzinfo=UTC)
    lines = int(found[2])
    with open(record, "rb") as file:
        times = [time_of(line) for line in islice(file, lines + 1)]
    if len(times) < lines:
        raise Fault(f"{record} has {len(times)} lines, and the name of {copy} says {lines}: it "
                    f"lacks its end, or is another record. To go on with it say --after {lines}")
    last, following = ([None, *times, None])[lines:lines + 2]
    if last and last > moment + NEAR or following and following < moment - NEAR:
        raise Fault(f"{record} is not the record of {copy}: by their times it did not have {lines} "
                    "lines at that moment. If the clock was put back, and it is the record, say so "
                    f"with --after {lines}")
    return lines


def time_of(line):
    with suppress(ValueError, KeyError, TypeError, RecursionError):
        found = datetime.fromisoformat(json.loads(line)["time"])
        return found if found.tzinfo else None
    return None


# ---- what is done


def restored(machine, given, stop, set_up, load_proxy):
    """A site of a copy and a record; whether all of it is well. The proxy has its hour before the
    office starts, which nobody reaches: the reader and the recorder stay off."""
    site = given.site
    if not machine.has_services:
        raise Fault("--restore starts the office: it is for a computer with services")
    kept = kept_of(machine, given)
    stop(machine, site)
    put(machine, site, kept)
    machine.has_services = False
    set_up(machine, given)
    machine.has_services = True
    machine.systemctl("daemon-reload")
    run("nginx", "-t")
    load_proxy(machine)
    machine.systemctl("reload-or-restart", "office-ports")
    machine.systemctl("start", f"office@{site}")
    desk, _ = ports_of(machine, site)
    await_desk(desk)
    is_well = send_again(machine, site, desk, kept)
    os.replace(*map(machine.at, marks_of(site)))
    hours = machine.text(f"/etc/nginx/office/{site}/embargo.conf")
    hour = re.search(r"for everybody: (.*)\. deploy/embargo", hours)
    print(f"pages and reports are for everybody: {hour[1] if hour else 'at once'}")
    print(f"acts of the board are by {board_of(machine, site)}")
    print(f"nobody reaches the office yet. Then start the rest: office-site {site}")
    return is_well


def await_desk(port):
    """Waits until the desk answers, and prints how far the count is."""
    end = time.monotonic() + 60
    while True:
        try:
            with urllib.request.urlopen(f"http://127.0.0.1:{port}/progress", timeout=10) as said:
                print(said.read().decode(), end="", flush=True)
                return
        except OSError as error:
            if time.monotonic() > end:
                raise Fault(f"the office does not answer: {error}") from error
        time.sleep(0.2)


def put(machine, site, kept):
    """Puts the files of a site into their places. What is left of a database is put aside."""
    mark, _ = marks_of(site)
    if kept.archive:
        machine.folder(f"/etc/office/{site}")
        machine.put(mark, f"{hash_of_file(kept.archive)}\n", is_said=False)
        unpack(machine, site, kept)
    elif not machine.at(mark).exists():
        machine.put(mark, "\n", is_said=False)
    machine.folder(f"/var/log/office/{site}", 0o750, "office-recorder", "office-recorder")
    machine.folder(f"/var/lib/office/{site}", 0o700, "office", "office")
    moment = f"before-{datetime.now():%Y%m%dT%H%M%S.%f}"
    record = f"/var/log/office/{site}/commands.log"
    if kept.record != machine.at(record):
        put_later_aside(machine, site, kept, moment)
        if machine.at(record).exists():
            # (one that only grows is not exchanged)
            subprocess.run(["chattr", "-a", machine.at(record)], stderr=subprocess.DEVNULL)
        take(machine, kept.record, record, 0o640, "office-recorder")
        machine.say("put", f"{kept.record} in the place of {record}")
    else:
        with opened(kept.record, os.O_NOFOLLOW) as descriptor:
            # (root may have put it there; one that only grows lets nobody change its owner)
            if machine.is_real and os.fstat(descriptor).st_uid != pwd.getpwnam(
                    "office-recorder").pw_uid:
                give(machine, descriptor, 0o640, "office-recorder")
    folder = f"/var/lib/office/{site}"
    take(machine, kept.copy, f"{folder}/.restored.db", 0o600, "office")
    machine.put_aside(folder, ("office.db*",), moment, 0o700, "office")
    os.replace(machine.at(f"{folder}/.restored.db"), machine.at(f"{folder}/office.db"))
    machine.say("put", f"{kept.copy} in the place of {folder}/office.db")


def put_later_aside(machine, site, kept, moment):
    """Puts aside whatever knows more lines than the record that was fetched: beside it the recorder
    would do nothing, and each backup would fail."""
    with open(kept.record, "rb") as file:
        lines = sum(1 for _ in file)
    machine.put_aside(f"/var/www/office/{site}", ("record.csv",), f".{moment}", 0o750,
                      "office-press")
    machine.remove(f"/var/lib/office-status/{site}/seen.json")
    copies = machine.at(f"/var/lib/office/{site}/backup").glob("office-*.db")
    later = [file.name for file in copies if not file.samefile(kept.copy)
             and (found := COPY.fullmatch(file.name)) and int(found[2]) > lines]
    machine.put_aside(f"/var/lib/office/{site}/backup", later, moment, 0o750, "office")


def unpack(machine, site, kept):
    """The ports of the lost computer may be another site's here: office-site finds free ones. The
    setup goes last: where it is, all of it is."""
    folder = f"etc/office/{site}"
    left = f"{folder}/setup.toml", f"{folder}/ports", *(mark[1:] for mark in marks_of(site))
    names = [name for name in members_of(site, kept.archive) if name not in left]
    with NamedTemporaryFile("w") as list_of:
        list_of.write("\0".join(names))
        list_of.flush()
        run("tar", "-C", machine.root, "-xf", kept.archive, "--no-recursion", "--null",
            "--verbatim-files-from", "-T", list_of.name)
    os.sync()
    machine.put(f"/{folder}/setup.toml", kept.setup, is_said=False)
    machine.say("unpacked", kept.archive)


def take(machine, file, place, mode, user):
    """Copies a file to its place, beside it first. The folder may be another user's, whose links
    root does not follow."""
    there = machine.at(place)
    beside = there.with_name(f".{there.name}.new")
    beside.unlink(missing_ok=True)
    descriptor = os.open(beside, os.O_WRONLY | os.O_CREAT | os.O_EXCL | os.O_NOFOLLOW, 0o600)
    with open(descriptor, "wb") as copy, open(file, "rb") as data:
        shutil.copyfileobj(data, copy)
        give(machine, descriptor, mode, user)
        copy.flush()
        os.fsync(descriptor)
        if os.stat(beside, follow_symlinks=False).st_ino != os.fstat(descriptor).st_ino:
            raise Fault(f"somebody else writes {beside}")
    os.replace(beside, there)


def give(machine, descriptor, mode, user):
    """Gives a file that is open to a user."""
    if machine.is_real:
        os.fchown(descriptor, pwd.getpwnam(user).pw_uid, grp.getgrnam(user).gr_gid)
    os.fchmod(descriptor, mode)


def send_again(machine, site, desk, kept):
    """Sends the commands of the record to the office; whether none of them is to be looked at."""
    words = (HERE / "replay", "--after", str(kept.after), "--setup",
             machine.at(f"/var/lib/office-site/{site}/setup.json"), f"http://127.0.0.1:{desk}")
    with open(machine.at(f"/var/log/office/{site}/commands.log"), "rb") as record, \
            subprocess.Popen(words, stdin=record, stdout=subprocess.PIPE, text=True,
                             errors="replace") as replay:
        for line in replay.stdout:
            print(line, end="", flush=True)
    if replay.returncode not in (0, 1):
        raise Fault(f"replay ended with status {replay.returncode}: not all was sent")
    return not replay.returncode
