"""The looks of `deploy/status`: each function looks at one part, and returns what it found."""

import base64
import csv
import hashlib
import http.client
import io
import json
import os
import pwd
import re
import shutil
import socket
import ssl
import stat
import subprocess
import sys
import time
from contextlib import closing, suppress
from dataclasses import dataclass, field
from datetime import UTC, datetime
from pathlib import Path

HERE = Path(__file__).resolve().parent
RECOUNTS = (HERE / "recount.py", HERE.parent / "examples/recount.py")
# Seconds that an answer may take, and a day and a megabyte.
PATIENCE, DAY, MEGABYTE = 10, 86_400, 1 << 20
# Where the proxy listens, and the file with the number of its process.
PROXY = ("127.0.0.1", 443)
# How many seconds a moment may be ahead of the clock. One that is farther ahead is from before the
# clock was put back: nobody knows how old it is.
AHEAD = 60
# Bytes of a file of the pages, which their user writes.
LARGEST = 64 * MEGABYTE
# This many of the last acts of each office are compared with what it shows.
LAST = 20
# Of an import this many of its stations, so that what is kept of a look stays small.
MOST_STATIONS = 2_000
# An office passes over a row with a long field, and records the others.
csv.field_size_limit(sys.maxsize)
# The first line of a record has this as the hash of the line before it.
FIRST = "0" * 64
# The name of a copy with how many lines the record had when it was made.
WITH_LINES = re.compile(r"office-[0-9]{8}T[0-9]{6}Z-([0-9]{1,15})\.db")


@dataclass(frozen=True)
class Found:
    """A part, whether it is well, in words, of which office or folder it is, and its numbers."""
    part: str
    is_well: bool
    says: str
    of: str = ""
    numbers: dict = field(default_factory=dict)


class Broken(Exception):
    """The record is not the one that was written."""


class ToSocket(http.client.HTTPConnection):
    """A connection to the socket of the recorder or the reader."""

    def __init__(self, file):
        super().__init__("office", timeout=PATIENCE)
        self.file = file

    def connect(self):
        self.sock = socket.socket(socket.AF_UNIX)
        self.sock.settimeout(self.timeout)
        self.sock.connect(self.file)


class ToProxy(http.client.HTTPConnection):
    """A connection to the proxy under the name of a site."""

    def connect(self):
        self.sock = shown_as(self.host)


def shown_as(site):
    """A connection over TLS to the proxy under the name of a site, whatever its certificate."""
    context = ssl.create_default_context()
    context.check_hostname, context.verify_mode = False, ssl.CERT_NONE
    return context.wrap_socket(socket.create_connection(PROXY, PATIENCE), server_hostname=site)


def answered(connection, target, fields=None):
    """Status of an answer and the seconds that it took; None and the fault where there is none."""
    began = time.monotonic()
    try:
        with closing(connection):
            connection.request("GET", target, headers=fields or {})
            answer = connection.getresponse()
            answer.read()
            return answer.status, time.monotonic() - began
    except (OSError, http.client.HTTPException) as error:
        return None, str(error) or type(error).__name__


def of_answer(part, of, wanted, found):
    status, took = found
    if status is None:
        return Found(part, False, f"it does not answer: {took}", of)
    if status != wanted:
        return Found(part, False, f"it answers with status {status}", of)
    return Found(part, True, f"it answered in {took * 1000:.0f} ms", of, {"answer_seconds": took})


def look_at_desk(address, of):
    """The desk, by the progress of all constituencies."""
    found = answered(http.client.HTTPConnection(address, timeout=PATIENCE), "/progress")
    return of_answer("desk", of, 200, found)


def tried_as(user, address):
    """The end of a connection that another user asks for, in a process of its own: None where
    it is refused, or dropped."""
    host, port = address.rsplit(":", 1)
    uid, reading, writing = pwd.getpwnam(user).pw_uid, *os.pipe()
    child = os.fork()
    if not child:
        said = b"no answer"
        try:
            os.setresuid(uid, uid, uid)
            # The rules ask who made the socket. (That user may perhaps read no module of Python's,
            # as those by which the name of a host is looked up.)
            with socket.socket() as it:
                it.settimeout(PATIENCE)
                it.connect((host, int(port)))
            said = b""
        except (ConnectionRefusedError, TimeoutError):
            said = b"refused"
        except Exception as error:  # whatever it is, the other process says it
            said = f"it cannot be tried as {user}: {error}".encode()
        finally:
            os.write(writing, said)
            os._exit(0)
    os.close(writing)
    with os.fdopen(reading, encoding="utf-8") as it:
        said = it.read()
    os.waitpid(child, 0)
    return None if said == "refused" else said or f"{user} reaches it: its rules are not loaded"


def look_at_port(address, user, rules, of, part="port"):
    """The port of the desk, or that at which the reader answers the press pages: who may not reach
    it is refused. A desk that is not there refuses everybody, and is wrong itself."""
    try:
        if rules and "--open-port" in Path(rules).read_text(encoding="utf-8"):
            return Found(part, True, "every program of this computer reaches it (--open-port)", of)
    except (OSError, ValueError) as error:
        return Found(part, False, f"{rules} cannot be read: {error}", of)
    try:
        fault = tried_as(user, address)
    except KeyError:
        fault = f"there is no user {user}"
    except (OSError, ValueError) as error:
        fault = f"it cannot be tried as {user}: {error}"
    return Found(part, not fault, fault or f"{user} is refused", of)


def look_at_recorder(file, of):
    """The recorder, by a history that is for nobody: it refuses that, and records nothing."""
    fields = {"Office-Allowed": "0", "Office-Role": "nobody"}
    return of_answer("recorder", of, 403, answered(ToSocket(file), "/history/-", fields))


def look_at_reader(file, of):
    """The reader, by the progress that it gets from the desk, at the socket for everybody and at that
    for names. One that is away is not waited for."""
    fields, path = {"Office-Allowed": "1", "Office-Wait": "no"}, Path(file)
    for one in (path, path.with_name(f"{path.stem}-names{path.suffix}")):
        found = of_answer("reader", of, 200, answered(ToSocket(str(one)), "/progress", fields))
        if not found.is_well:
            break
    return found


def spoken(seconds):
    """An age in words."""
    for size, unit in ((DAY, "days"), (3600, "hours"), (60, "minutes")):
        if seconds >= 2 * size:
            return f"{seconds / size:.0f} {unit}"
    return f"{seconds:.0f} second{'' if round(seconds) == 1 else 's'}"


def ahead(age):
    """By how much a moment is ahead of the clock, in words; an empty text where it is not."""
    return f"{spoken(-age)} ahead of the clock, which was put back" if age < -AHEAD else ""


def text_of(file):
    """The text of a file that another user writes: no link, no pipe, which would be waited for, and
    nothing that has no end."""
    with open(os.open(file, os.O_RDONLY | os.O_NOFOLLOW | os.O_NONBLOCK), encoding="utf-8") as it:
        found = os.fstat(it.fileno())
        if not stat.S_ISREG(found.st_mode) or found.st_size > LARGEST:
            raise ValueError(f"no file of at most {LARGEST // MEGABYTE} MB")
        return it.read(LARGEST)


def look_at_pages(folder, most):
    """The press pages, by the moment of their last round."""
    try:
        said = json.loads(text_of(Path(folder) / "manifest.json"))
        age = time.time() - datetime.fromisoformat(said["time"]).timestamp()
    except (OSError, ValueError, KeyError, TypeError, RecursionError) as error:
        return Found("pages", False, f"manifest.json cannot be read: {error}")
    says = ahead(age)
    return Found("pages", age <= most and not says, f"they are {says or spoken(age) + ' old'}",
                 numbers={"age_seconds": age})


def look_at_backup(folder, most, of, seen):
    """The newest copy: when it was last what the database is, and whether it agrees with itself."""
    try:
        copies = sorted(Path(folder).glob("office-*.db"))
        if not copies:
            return Found("backup", False, f"{folder} has no copy", of)
        # (its user could have root wait for a pipe, or read another's file)
        found = copies[-1].lstat()
        if not stat.S_ISREG(found.st_mode):
            raise OSError(f"{copies[-1]} is no file")
        age = time.time() - found.st_mtime
        agrees = does_agree(copies[-1], seen)
    except OSError as error:
        return Found("backup", False, f"the newest copy cannot be read: {error}", of)
    verb = "agrees" if agrees else "does not agree"
    is_ahead = ahead(age)
    says = f"{copies[-1].name} was up to date {is_ahead or spoken(age) + ' ago'}, and {verb}"
    # (of an older package no name has lines)
    lacks_lines = not WITH_LINES.fullmatch(copies[-1].name) and any(
        WITH_LINES.fullmatch(copy.name) for copy in copies)
    if lacks_lines:
        says += "; it was made without the record, which `backup` cannot read"
    numbers = {"age_seconds": age, "agrees": int(agrees)}
    is_well = agrees and age <= most and not is_ahead and not lacks_lines
    return Found("backup", is_well, says, of, numbers)


def does_agree(copy, seen):
    """Whether a recount of a copy agrees; one that was seen to agree is not counted again."""
    with open(copy, "rb") as file:
        found = hashlib.file_digest(file, "sha256").hexdigest()
    agreed = seen.setdefault("agreed", [])
    if found not in agreed:
        recount = next((file for file in RECOUNTS if file.exists()), None)
        if not recount:
            raise FileNotFoundError(f"{RECOUNTS[0]} is not there")
        if subprocess.run([sys.executable, recount, copy], capture_output=True).returncode:
            return False
        # Of each office the newest copy, and some before.
        agreed[:] = [*agreed[-200:], found]
    return True


def elsewhere_in(file):
    """Where copies are sent, by the words of office-backup.service; nothing where they are not."""
    with suppress(FileNotFoundError):
        # (systemd takes the last line)
        text = Path(file).read_text(encoding="utf-8")
        said = ["", *re.findall("^ *ELSEWHERE=(.*)", text, re.M)][-1]
        return said.strip().strip("'\"")
    return ""


def look_at_sent(file, folder, most, of):
    """When the copies and the record were all on the other computer, by the file that send-copies
    leaves beside the copies, and removes where it fails."""
    try:
        there = elsewhere_in(file)
    except (OSError, ValueError) as error:
        return Found("sent", False, f"{file} cannot be read: {error}", of)
    if not there:
        return Found("sent", True, "no copy is sent to another computer", of)
    try:
        age = time.time() - (Path(folder) / ".sent").lstat().st_mtime
    except OSError:
        says = f"not all of it is at {there}: journalctl -u 'office-backup*' says why"
        return Found("sent", False, says, of)
    is_ahead = ahead(age)
    says = f"all of it was at {there} {is_ahead or spoken(age) + ' ago'}"
    return Found("sent", age <= most and not is_ahead, says, of, {"age_seconds": age})


def look_at_room(folder, least):
    """How much is free on the disk of a folder."""
    try:
        free = shutil.disk_usage(folder).free
    except OSError as error:
        return Found("room", False, f"{error}", folder)
    return Found("room", free >= least * MEGABYTE, f"{free // MEGABYTE} MB are free", folder,
                 {"room_bytes": free})


def look_at_certificate(file, days, site=""):
    """How long the certificate of the site is valid yet, and whether the proxy shows it: it goes on
    with the one before until it is told to read the new one."""
    words = ("openssl", "x509", "-enddate", "-noout", "-in", file)
    try:
        done = subprocess.run(words, capture_output=True, text=True)
        end = ssl.cert_time_to_seconds(done.stdout.strip().removeprefix("notAfter="))
    except (OSError, ValueError):
        return Found("certificate", False, f"{file} cannot be read as a certificate")
    left = (end - time.time()) / DAY
    day = datetime.fromtimestamp(end, UTC).date()
    says = f"it ends on {day}" if left > 0 else f"it ended on {day}"
    wrong = not_shown(file, site) if site else ""
    return Found("certificate", left >= days and not wrong, says + wrong,
                 numbers={"certificate_days": left})


def not_shown(file, site):
    """That the proxy does not show this certificate under the name of the site, or nothing."""
    try:
        first = re.search("-----BEGIN (TRUSTED )?CERT.*?-----END[^\n]*", Path(file).read_text("latin-1"), re.S)[0]
        with shown_as(site) as it:
            is_shown = it.getpeercert(binary_form=True) == ssl.PEM_cert_to_DER_cert(first)
    except (OSError, ValueError, TypeError) as error:
        return f"; the proxy does not show it to {site}: {error}"
    return "" if is_shown else "; the proxy shows another one: nginx -t && systemctl reload nginx"


def is_early(text):
    """Whether the hour of embargo.conf is to come: the proxy looks at the same seconds."""
    found = re.search('^ *"~(.*)" office;$', text, re.M)
    return bool(found and re.match(found[1], f"{time.time():.3f}"))


def look_at_hour(file, site):
    """Whether the proxy goes by the hour of this file: it goes on with the one before until it is
    told to read the new one. Before the hour it refuses a table to whoever has no name, and after
    it knows none of a constituency that the setup lacks: no office is asked."""
    try:
        text = Path(file).read_text(encoding="utf-8")
        # (the hour may come meanwhile)
        may_be = {is_early(text)}
        status, said = answered(ToProxy(site), "/con/-")
        may_be.add(is_early(text))
    except (OSError, ValueError, re.error) as error:
        return Found("hour", False, f"{file} cannot be read: {error}")
    if status not in (403, 404):
        wrong = said if status is None else f"it answers with status {status}"
        return Found("hour", False, f"the proxy does not answer as {site}: {wrong}")
    is_closed = status == 403
    says = "nothing is public yet" if is_closed else "everything is public"
    found = re.search(r"for everybody: (.*)\. deploy/embargo", text)
    if found:
        says += f"; by {file}, if the proxy has read it, it is for everybody: {found[1]}"
    if is_closed in may_be:
        return Found("hour", True, says)
    # (whoever has the proxy read a wrong file opens everything)
    return Found("hour", False, f"{says}; the proxy goes by another hour: look at the file, then "
                                "nginx -t && systemctl reload nginx")


# ---- the acts of the record, and the office as it is now


class Acts:
    """The last acts of a record, as far as they were done: of each office the revision of a return
    or the edition of a constituency to which each led, and the line of its answer. Of a vacancy it
    is that the candidate is gone, and of an import how many of these stations had a return after
    it. Those of the last look are among them, since many may have followed since."""

    def __init__(self, before):
        self.before, self.new, self.commands, self.left = before, {}, {}, {}

    def take(self, number, entry):
        """A line of the record. An answer whose command came before the last look is left out."""
        if "to" not in entry:
            if "path" in entry and "status" not in entry:
                self.commands[number] = entry
            return
        command = self.commands.pop(entry["to"], None)
        if not command or entry["status"] != 200:
            return
        target, reached, *more = led_to(command, json.loads(entry["answer"]), number)
        if isinstance(reached, int):
            office = str(command["office"])
            acts = self.new.setdefault(office, {})
            known = acts.pop(target, None) or self.before.get(office, {}).get(target)
            # Less than was reached before: the office was put back, and lacks what is known.
            lacks = known and reached < known[0]
            acts[target] = known if lacks else [reached, number, *more]
            if len(acts) > LAST:
                del acts[next(iter(acts))]

    def of(self, office):
        return self.before.get(office, {}) | self.new.get(office, {})

    def leave(self, office, compared):
        """The office says no more now: those of the last look that were not compared are left."""
        self.left[office] = {target: act for target, act in [*self.of(office).items()][compared:]
                             if target in self.before.get(office, {})}

    def kept(self, lacking):
        """Those to compare at the next look: the last ones, each that an office lacks, and what
        was left, which it may have lacked before."""
        return {office: dict(sorted(self.of(office).items(), key=line_of)[-LAST:])
                | lacking.get(office, {}) | self.left.get(office, {})
                for office in self.before | self.new}


def line_of(act):
    _, (_, line, *_) = act
    return line


def led_to(command, said, number):
    """The state that an act led to, by its answer: of what it is, a number that no later act makes
    smaller, and the stations of an import, which has the number of its line in its name."""
    target = command["path"].rpartition("/")[0]
    if said.get("ok") == "vacated":
        body = json.loads(command["body"])
        return f"{target} {body['list']} {body['place']}", 1
    if said.get("ok") != "import":
        return target, said.get("rev", said.get("edition"))
    codes = codes_in(command)
    stations = list(dict.fromkeys(filter(None, codes)))[:MOST_STATIONS]
    # Each of the others had a return before, or has one now. (A row without a code, as spreadsheets
    # leave them below a table, is bad, and no station's.)
    least = max(0, len(stations) - max(0, said["bad"] - codes.count("")) - said["refused"])
    con = re.match("/con/[^/]+", target)[0]
    return f"{con} import {number}", least or None, stations


def codes_in(command):
    """The code in each row of a file of returns that was imported."""
    body = command.get("body")
    if body is None:
        body = base64.b64decode(command["body_base64"]).decode("utf-8-sig")
    separator = ";" if command["path"].endswith("/semicolon") else ","
    rows = csv.reader(io.StringIO(body.removeprefix("\ufeff"), newline=""), delimiter=separator)
    # (the office passes over blank lines, also above the header)
    return [row[0] for row in rows if row][1:]


def shown_by(address, target, stations=()):
    """The revision of a return, or the edition of a constituency, that an office shows: 0 where it
    has no such return, None where it does not say it now. Of a vacancy 1 where the candidate is
    gone, and of an import how many of these stations have a return."""
    target, *more = target.split(" ")
    is_import = more[:1] == ["import"] and len(more) == 2 and bool(stations)
    try:
        with closing(http.client.HTTPConnection(address, timeout=PATIENCE)) as connection:
            connection.request("GET", f"{target}/stations" if is_import else target)
            answer = connection.getresponse()
            text = answer.read()
            if answer.status == 404:
                return 0
            if is_import:
                return returned(text.decode(), stations) if answer.status == 200 else None
            said = json.loads(text)
            if more:
                return int(any([one["list"], str(one["place"])] == more for one in said["gone"]))
            found = said.get("rev", said.get("edition"))
            return found if isinstance(found, int) else None
    except (OSError, http.client.HTTPException, ValueError, AttributeError, KeyError, TypeError,
            RecursionError):
        return None


def returned(table, stations):
    """How many of these stations have a return, by the report of all stations: after the code, the
    electors and a blank it has a status, or a hyphen."""
    there = {line[:16].strip() for line in table.split("\n")[2:] if line[25:26] not in ("-", "")}
    return len(there & set(stations))


def words_of(target, reached):
    """The state that an act led to, in words."""
    target, *more = target.split(" ")
    if more[:1] == ["import"]:
        return f"{reached} station{'' if reached == 1 else 's'} of a file of {target} had a return"
    if more:
        return f"{' '.join(more)} of {target} was gone"
    return f"{target} came to {reached}"


def look_at_acts(address, number, acts, lacking, of):
    """Whether an office has what it did by the record, which was read before. Revisions and
    editions only grow, no return goes, and who is gone stays so: whatever is done meanwhile, an
    office that shows less was put back to an earlier moment. Of one that says no more in between
    the others are compared at the next look."""
    compared = 0
    for target, (reached, line, *more) in acts.of(number).items():
        if (found := shown_by(address, target, *more)) is None:
            acts.leave(number, compared)
            break
        compared += 1
        if found < reached:
            lacking.setdefault(number, {})[target] = [reached, line, *more]
    if lacks := lacking.get(number):
        target, (reached, line, *_) = min(lacks.items(), key=line_of)
        return Found("acts", False, f"it was put back to an earlier moment: it lacks what line {line} "
                     f"of the record answered, by which {words_of(target, reached)}", of)
    if not compared:
        return Found("acts", False, "it says of none of the last acts of the record now whether it "
                     "has it", of)
    return Found("acts", True, f"of the last acts of the record it has all {compared} that were "
                 "compared", of)


# ---- the record


def most_lines(folders):
    """How many lines the record had by the name of a copy in these folders, and that name: the most
    of all."""
    names = [file.name for folder in folders for file in Path(folder).glob("office-*.db")]
    found = map(WITH_LINES.fullmatch, names)
    return max(((int(one[1]), one[0]) for one in found if one), default=(0, ""))


def look_at_record(file, head, seen, acts=None, copied=(0, "")):
    """Whether the record is whole: what was there at the last look is there as it was, and each
    line after it follows from the one before. By the names of the copies, which were read first, it
    had this many lines before."""
    shown = None
    if head:
        # (where the recorder is away it is named itself)
        with suppress(FileNotFoundError):
            shown = head_in(head)
            if not is_head(shown):
                return Found("record", False, "its head cannot be read")
    before = seen.get("record", {"n": 0, "hash": FIRST, "at": 0})
    try:
        now = followed(file, before, shown, acts)
    except (OSError, Broken, KeyError, TypeError) as error:
        return Found("record", False, str(error))
    seen["record"] = now
    if shown and "fault" in shown:
        return Found("record", False, f"the recorder does no command: {shown['fault']}")
    if copied[0] > now["n"]:
        more, copy = copied
        says = f"it has {now['n']} lines, and had {more} when {copy} was made"
        return Found("record", False, says)
    new = now["n"] - before["n"]
    whole = "its 1 line is" if now["n"] == 1 else f"its {now['n']} lines are"
    return Found("record", True, f"{whole} whole, {new} of {'it' if now['n'] == 1 else 'them'} new",
                 numbers={"record_lines": now["n"]})


def head_in(file):
    """The contents of a file that the recorder writes, or None of what is no head."""
    try:
        return json.loads(text_of(file))
    except FileNotFoundError:
        raise
    except (OSError, ValueError, RecursionError):
        return None


def is_head(shown):
    return isinstance(shown, dict) and isinstance(shown.get("n"), int) and "hash" in shown


def followed(file, before, head, acts=None):
    """The last line of a record: its number, its hash and its place, and the hash of all to its
    end. A Broken names the first line that does not follow from the one before it, from the line on
    that was the last one before."""
    with open(os.open(file, os.O_RDONLY | os.O_NONBLOCK), "rb") as lines:
        if not stat.S_ISREG(os.fstat(lines.fileno()).st_mode):
            raise Broken(f"{file} is no file")
        whole = hashlib.sha256()
        for part in parts_of(lines, before["at"]):
            whole.update(part)
        first = lines.readline() if before["n"] else b""
        if before["n"] and hash_of(first) != before["hash"]:
            raise Broken(f"line {before['n']} is not the one that was seen before, or is gone")
        whole.update(first)
        # (the looks of an older version did not keep it)
        if before.get("all", whole.hexdigest()) != whole.hexdigest():
            raise Broken(f"a line before line {before['n']} is not the one that was seen before")
        now, of_head = followed_on(lines, before, before["at"] + len(first), head, whole, acts)
    if head and head["n"] > now["n"]:
        raise Broken(f"it has {now['n']} lines, and the recorder wrote {head['n']}")
    if head and of_head not in (None, head["hash"]):
        raise Broken(f"line {head['n']} is not the one that the recorder wrote")
    return now


def parts_of(file, size):
    """The next bytes of a file, this many where it has them."""
    while size and (part := file.read(min(size, MEGABYTE))):
        size -= len(part)
        yield part


def followed_on(lines, before, end, head, whole, acts=None):
    """The last of the lines that follow, and the hash of the one that the head names, if it is
    among them. `whole` is the hash of all lines before them, to which they are added."""
    number, last, at, entry = before["n"], before["hash"], before["at"], {}
    of_head = last if head and head["n"] == number else None
    for line in lines:
        if not line.endswith(b"\n"):
            # It is being written.
            break
        number, at, end = number + 1, end, end + len(line)
        whole.update(line)
        entry = entry_of(line)
        # A line that was cut is read by the one after it, which has its hash.
        if entry is not None and (entry.get("n"), entry.get("before")) != (number, last):
            raise Broken(f"line {number} does not follow from the line before it")
        if acts and entry is not None:
            # (what no recorder wrote is no act)
            with suppress(KeyError, ValueError, TypeError, AttributeError, RecursionError,
                          csv.Error):
                acts.take(number, entry)
        last = hash_of(line)
        of_head = last if head and head["n"] == number else of_head
    if entry is None:
        raise Broken(f"line {number} cannot be read")
    return {"n": number, "hash": last, "at": at, "all": whole.hexdigest()}, of_head


def entry_of(line):
    """The contents of a line, or None where it was cut."""
    try:
        entry = json.loads(line)
    except (ValueError, RecursionError):
        return None
    return entry if isinstance(entry, dict) else None


def hash_of(line):
    return hashlib.sha256(line.removesuffix(b"\n")).hexdigest()
