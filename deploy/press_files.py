"""The files that `press.py` writes: each beside and renamed, and the same compressed. It knows how
it left each of them, and so finds what somebody else changed."""

import contextlib
import csv
import errno
import gzip
import hashlib
import io
import json
import os
import re
import shutil
import sqlite3
import stat
import sys
import time
import zlib
from datetime import datetime
from urllib.parse import quote

from press_results import certificate_of

# As each compressed file of ours begins: it has no moment. What a board compressed itself has one.
BEGINS = gzip.compress(b"", 6, mtime=0)[:8]

# The file by which the proxy knows that seats may be shown before they are certified.
PROVISIONAL = ".provisional"

# Seconds that a round takes at most, before it removes a copy of a database that is newer.
LATELY = 120

# A file that keeps some room of the disk, and its bytes: when all else is full, pages can still say
# how old they are.
RESERVE, RESERVED = ".reserve", 4 * 1024 * 1024
FULL = (errno.ENOSPC, errno.EDQUOT)

# The files for programs and the picture that are of all constituencies.
OF_ALL = ("results.csv", "elected.csv", "index.csv", "index.json", "share.png")

# Each file as this program left it, by its whole path: its SHA-256, and what the disk said of it
# then.
LEFT = {}


def compressed_of(data):
    return gzip.compress(data, 6, mtime=0)


def put(folder, name, text):
    """Writes a file, and the same compressed, each beside and renamed. What would be the same stays
    as it is."""
    data = text.encode()
    file, compressed = folder / name, folder / f"{name}.gz"
    if is_known(compressed) and compressed.exists() and is_as(file, data):
        leave(file, data)
        return
    put_bytes(compressed, compressed_of(data))
    try:
        put_bytes(file, data)
    except OSError:
        # (browsers get the compressed one alone: it never says another thing than the file)
        LEFT.pop(compressed.absolute(), None)
        compressed.unlink(missing_ok=True)
        raise


def put_bytes(file, data):
    """Writes a file beside and renames it. What would be the same stays as it is, and a folder in
    its place too."""
    if is_named_folder(file):
        return
    if not is_as(file, data):
        beside = file.with_name(f".{file.name}.new")
        try:
            beside.write_bytes(data)
            os.replace(beside, file)
        except OSError:
            # (half of it would only take room from a full disk)
            beside.unlink(missing_ok=True)
            raise
    leave(file, data)


def is_as(file, data):
    """Whether a file has this content. One that cannot be read, as root's may be, has another, and
    so has a link, which the proxy does not serve."""
    try:
        return on_disk(file) is not None and file.read_bytes() == data
    except OSError:
        return False


def is_folder(file):
    # (of a link that leads where this program may not look even that cannot be asked)
    return not file.is_symlink() and file.is_dir()


def is_named_folder(file):
    """Whether a folder is in the place of a file: nobody knows what is in it, so it is named, and
    stays."""
    if is_folder(file):
        print(f"failed: {file}: a folder is in its place", file=sys.stderr)
    return is_folder(file)


def remove(folder, name):
    for file in (folder / name, folder / f"{name}.gz"):
        if not is_named_folder(file):
            file.unlink(missing_ok=True)
            LEFT.pop(file.absolute(), None)


def remove_folder(folder):
    """Removes a folder of pages, or a link in its place."""
    if is_folder(folder):
        shutil.rmtree(folder)
    elif folder.is_symlink():
        folder.unlink()


def make_folder(folder):
    """A folder of pages, also in the place of a link or a file."""
    if not is_folder(folder):
        folder.unlink(missing_ok=True)
    folder.mkdir(exist_ok=True)


def allow_provisional(folder, is_allowed):
    """Says to the proxy whether seats may be shown before they are certified."""
    if is_allowed:
        put_bytes(folder / PROVISIONAL, b"")
    else:
        remove(folder, PROVISIONAL)


def is_known(file):
    return file.absolute() in LEFT


def forget(file):
    """Knows no more how a file was left, nor its compressed one."""
    for one in (file, file.with_name(f"{file.name}.gz")):
        LEFT.pop(one.absolute(), None)


def leave(file, data):
    """Remembers a file as it is left, with this content."""
    if not is_known(file) or LEFT[file.absolute()][1] != on_disk(file):
        LEFT[file.absolute()] = hashlib.sha256(data).hexdigest(), on_disk(file)


def on_disk(file):
    """The disk's number, size and times of a file: others where somebody wrote it. None of a link,
    a folder, and whatever is no file."""
    try:
        found = os.lstat(file)
    except OSError:
        return None
    is_file = stat.S_ISREG(found.st_mode)
    return (found.st_ino, found.st_size, found.st_mtime_ns, found.st_ctime_ns) if is_file else None


def changed(folder):
    """The files of a folder that somebody else changed or removed since they were left. They are no
    longer known."""
    found = []
    for file, (digest, before) in list(LEFT.items()):
        now = on_disk(file)
        if now == before or not file.is_relative_to(folder.absolute()):
            continue
        if now and hash_of(file) == digest:
            # Another right or another link to it is no other content.
            LEFT[file] = digest, now
        else:
            del LEFT[file]
            found.append(file)
    return found


def hash_of(file):
    """The SHA-256 of a file, or None of one that cannot be read."""
    try:
        return hashlib.sha256(file.read_bytes()).hexdigest()
    except OSError:
        return None


def hash_as_left(file):
    """The SHA-256 of a file as this program left it; of another's as it is, or None."""
    return LEFT[file.absolute()][0] if is_known(file) else hash_of(file)


def vouched(folder, files, is_whole):
    """The SHA-256 of each of these files by its name in the folder, for the manifest.

    Of a file that this program wrote it is that of what was written, and another's has its own. As
    long as no round was whole, another's may be one of ours that somebody changed while this program
    was away: until then only those are there that are as the manifest had them."""
    before, found = manifest_of(folder), {}
    for file in files:
        name, digest = str(file.relative_to(folder)), hash_as_left(file)
        if digest and (is_whole or is_known(file) or before.get(name) == digest):
            found[name] = digest
    return found


def withdraw_of_all(folder, editions, setup, are_next=False):
    """Removes the files for programs of all constituencies, where they say of one of these that it
    is certified as it is no more, or of one that is none of the setup, or where nobody knows what
    they say: pages say how old they are, and these files do not. By constituency the edition that
    is certified, or None; the setup may be None. Pages of these editions may be written next.
    Copies of a database go alike."""
    try:
        cons = json.loads(text_of(folder / "index.json"))["constituencies"]
        before = {con["con"]: con["edition"] for con in cons if con["certified"]}
    except (ValueError, KeyError, TypeError, RecursionError):
        before = None
    if before is None or any(
            editions.get(code, edition) != edition or setup is not None and code not in setup
            for code, edition in before.items()):
        for name in OF_ALL:
            remove(folder, name)
    elif are_next and before != {code: edition for code, edition in editions.items() if edition}:
        put_bytes(folder / begun(None), b"")
    withdraw_databases(folder, editions)


def withdraw_databases(folder, editions):
    """Removes each copy of a database that an office published, and that says of one of these
    constituencies that it is certified as it is no more. By constituency the edition that is
    certified, or None. One that cannot be read is perhaps being put there; and of one that was put
    there lately a round that began before it knows nothing. A link is none: the proxy does not serve
    it."""
    for file in folder.glob("office*.db"):
        if withdrawn_in(file, editions):
            print(f"failed: {file}: a certificate that it has is withdrawn: removed", file=sys.stderr)
            remove(folder, file.name)


def withdrawn_in(file, editions):
    """Whether a copy of a database has a certificate that is withdrawn by these editions."""
    with contextlib.suppress(OSError, sqlite3.Error, ValueError):
        found = os.lstat(file)
        if not stat.S_ISREG(found.st_mode) or 0 <= time.time() - found.st_mtime < LATELY:
            return False
        with contextlib.closing(sqlite3.connect(
                f"file:{quote(str(file.absolute()))}?mode=ro&immutable=1", uri=True)) as it:
            says = it.execute("SELECT con, edition FROM cons WHERE certified").fetchall()
        return any(editions.get(code, edition) != edition for code, edition in says)
    return False


def withdraw_holders(folder, elected):
    """Removes the list of the elected where a constituency has other holders of its seats by this
    text of it, and all files for programs of all constituencies where it has other seats: of the
    same edition, as where a copy from before took the office's place."""
    before, now = rows_by_con(text_of(folder / "elected.csv")), rows_by_con(elected)
    for code in before.keys() & now.keys():
        if before[code] != now[code]:
            seats, seats_now = ([row[:4] for row in rows[code]] for rows in (before, now))
            for name in ("elected.csv",) if seats == seats_now else OF_ALL:
                remove(folder, name)


def rows_by_con(text):
    """The rows of a table by their first field; none where it is no table."""
    found = {}
    with contextlib.suppress(csv.Error):
        for row in csv.reader(io.StringIO(text, newline="")):
            found.setdefault("".join(row[:1]), []).append(row)
    return found


def withdraw_of_con(folder, code, certificate, are_next=False):
    """Removes the files for programs of a constituency that have another certificate than this, or
    of which nobody knows what they say. Pages of this certificate may be written next."""
    try:
        before = certificate_of(json.loads(text_of(folder / f"con-{code}.json")))
    except (ValueError, KeyError, TypeError, RecursionError):
        before = 0  # (which is no certificate)
    if before not in (None, certificate):
        # (the table has no holders)
        has_table = before and certificate and before[:2] == certificate[:2]
        for suffix in ("json",) if has_table else ("csv", "json"):
            remove(folder, f"con-{code}.{suffix}")
    elif are_next and before != certificate:
        put_bytes(folder / begun(code), b"")


def begun(code):
    """A file that is there while pages of a constituency, or those of all, may have a certificate
    that the file for programs lacks, since that is written after them."""
    return f".begun-{code}" if code else ".begun"


def are_withdrawn(folder, code):
    """Whether the pages of a constituency, or those of all, may have a certificate that is
    withdrawn: the file for programs that is written after them is removed, or may lack it."""
    last = f"con-{code}.json" if code else "elected.csv"
    return not on_disk(folder / last) or bool(on_disk(folder / begun(code)))


def keep_room(folder):
    """Keeps some room of the disk. Fails where there is not as much."""
    file = folder / RESERVE
    try:
        if not file.exists() or file.stat().st_size != RESERVED:
            with open(file, "wb") as it:
                os.posix_fallocate(it.fileno(), 0, RESERVED)
    except OSError as error:
        use_room(folder)
        if error.errno in FULL:
            raise


@contextlib.contextmanager
def unless_full():
    """Passes over a fault of a full disk."""
    try:
        yield
    except OSError as error:
        if error.errno not in FULL:
            raise


def use_room(folder):
    with contextlib.suppress(OSError):
        (folder / RESERVE).unlink()


def published(folder, *left):
    """The files of a folder that are for readers, but for those left, and for links, which the proxy
    does not serve."""
    return [file for file in sorted(folder.iterdir()) if on_disk(file) and file.suffix != ".gz"
            and not file.name.startswith(".") and file.name not in left]


def text_of(file):
    """The text of a file of ours, whatever somebody else made of it; an empty one where it cannot be
    read, as from a disk with a fault: then it is written again."""
    with contextlib.suppress(OSError):
        return file.read_text(encoding="utf-8", errors="replace") if file.is_file() else ""
    return ""


def moment_in(pattern, text):
    """The moment that a text says by this pattern; None where it says none, or, since somebody else
    changed it, one that cannot be."""
    found = re.search(pattern, text)
    try:
        moment = datetime.fromisoformat(found[1]) if found else None
        return moment if moment and moment.tzinfo and moment.astimezone() else None
    except (ValueError, OverflowError, OSError):
        return None


def text_of_another(file):
    """The text of a file that another user writes, who could have this program wait for a pipe."""
    with open(os.open(file, os.O_RDONLY | os.O_NONBLOCK), encoding="utf-8") as it:
        if not stat.S_ISREG(os.fstat(it.fileno()).st_mode):
            raise ValueError("it is no file")
        return it.read()


# The file of returns of a certificate, whether it is in force or withdrawn.
RETURNS = re.compile(r"stations-[A-Za-z0-9_-]+-\d+\.csv")


def restore(folder):
    """Says which files of a certificate's returns are no more as the manifest has them, from before
    this program began, and makes each again from the compressed one beside it. Where that one is
    another too, or the disk has no room, both are removed. The office makes that of a certificate
    in force again, and nobody can make that of a withdrawn one."""
    for name, digest in manifest_of(folder).items():
        file, compressed = folder / name, folder / f"{name}.gz"
        if not RETURNS.fullmatch(name) or on_disk(file) and hash_of(file) == digest:
            continue
        print(f"failed: {file}: somebody else changed or removed it", file=sys.stderr)
        data, is_made = None, False
        with contextlib.suppress(OSError):
            data = content_of(compressed.read_bytes()) if on_disk(compressed) else None
        if data is not None and hashlib.sha256(data).hexdigest() == digest:
            with unless_full():
                use_room(folder)
                put_bytes(file, data)
                is_made = True
        if not is_made and not is_folder(file):
            remove(folder, name)


def manifest_of(folder):
    """The hashes of the files of a folder, by its manifest; none where there is no such manifest."""
    try:
        files = json.loads(text_of_another(folder / "manifest.json"))["files"]
        return {name: digest for name, digest in files.items() if isinstance(digest, str)}
    except (OSError, ValueError, KeyError, TypeError, AttributeError, RecursionError):
        return {}


def repair(folder):
    """Makes each compressed file say what the file beside it says, and removes one that is alone.

    The proxy gives a browser the compressed one alone. Whoever was killed between the two left one
    of another moment, and a power cut one without content: it would stay for as long as the other
    one stays as it is."""
    for compressed in folder.glob("*.gz"):
        # (what cannot be read is another one's)
        with contextlib.suppress(OSError):
            if compressed.is_file() and is_ours(compressed):
                repair_one(compressed, compressed.with_suffix(""))


def is_ours(compressed):
    """Whether a compressed file is one of ours, or what was left of one."""
    with open(compressed, "rb") as it:
        begins = it.read(len(BEGINS))
    return BEGINS.startswith(begins) or begins == bytes(len(BEGINS))


def repair_one(compressed, file):
    if not file.is_file():
        compressed.unlink()
    elif content_of(compressed.read_bytes()) != file.read_bytes():
        # (without room for it the proxy gives the file)
        compressed.unlink()
        put_bytes(compressed, compressed_of(file.read_bytes()))


def content_of(data):
    """The content of a compressed file, or None."""
    try:
        return gzip.decompress(data)
    except (OSError, EOFError, zlib.error):
        return None
