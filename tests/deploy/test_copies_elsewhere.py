"""Copies and records that another computer keeps: what its key can do there, and what it cannot.

`restrict` and `command=` are sshd's: here the forced command is given what was asked. That nobody
else writes into a folder of another user is the system's.
"""

import contextlib
import hashlib
import io
import os
import sys
from datetime import datetime
from pathlib import Path
from unittest import mock

from tests.support.case import Case
from tests.support.scripts import loaded

# The first as an older package names it.
COPY, LATER = "office-20261126T221400Z.db", "office-20261126T222400Z-00001234.db"
RECORD = "commands-20261126T220000Z.log"


class Moment(datetime):
    """The moment of a test."""

    @classmethod
    def now(cls, tz=None):
        return cls(2026, 11, 26, 22, 14, 0, 500, tz)


def contents(folder):
    """The bytes of each file of a folder, hidden ones too."""
    return {file.name: file.read_bytes() for file in Path(folder).iterdir()}


class Copies(Case):
    """A folder `kept` on the other computer, whose key may ask keep-copies alone."""

    prefix = "office-copies-"

    def setUp(self):
        super().setUp()
        for folder in ("kept", "copies"):
            Path(folder).mkdir()
        self.keep = loaded("keep-copies")

    def asks(self, asked, data=b""):
        """The answer to the key: status, output and errors."""
        given = io.TextIOWrapper(io.BytesIO(data))
        out, said = io.StringIO(), io.StringIO()
        with (mock.patch.dict(os.environ, SSH_ORIGINAL_COMMAND=asked),
              mock.patch.object(sys, "stdin", given),
              contextlib.redirect_stdout(out), contextlib.redirect_stderr(said)):
            status = self.keep.main(["kept"])
        return status, out.getvalue(), said.getvalue()

    def sends(self):
        """The status and the errors of a send, whose other end is at hand, and what was asked of
        it."""
        send, asked, said = loaded("send-copies"), [], io.StringIO()

        def ask(_, *words, file=None, at=0, size=0):
            asked.append(" ".join(map(str, words)))
            data = Path(file).read_bytes()[at:at + size] if file else b""
            status, out, errors = self.asks(asked[-1], data)
            if status:
                raise send.Failed(errors)
            return out

        send.There.ask = ask
        with contextlib.redirect_stderr(said):
            status = send.main(["commands.log", "copies", "keeper@host.example"])
        return status, said.getvalue(), asked

    def again(self):
        """The status and the errors for another user who keeps it all again."""
        said = io.StringIO()
        with contextlib.redirect_stderr(said):
            status = self.keep.main(["--again", "kept", "again"])
        return status, said.getvalue()

    def test_what_is_sent(self):
        """Each copy once, and of the record what is new; a record that does not go on with the one
        that is kept is kept beside it."""
        Path("copies", COPY).write_bytes(b"a copy")
        Path("commands.log").write_bytes(b"one\n")
        self.assertEqual(self.sends()[:2], (0, ""))
        [record] = (name for name in contents("kept") if name != COPY)
        self.assertRegex(record, r"^commands-\d{8}T\d{6}Z\.log$")
        self.assertEqual(contents("kept"), {COPY: b"a copy", record: b"one\n"})
        # (a name that no record of this second has)
        os.rename(f"kept/{record}", f"kept/{RECORD}")
        Path("copies", LATER).write_bytes(b"a later copy")
        Path("commands.log").write_bytes(b"one\ntwo\n")
        self.assertEqual(self.sends(), (0, "", ["list", f"append {RECORD} 4 4", f"add {LATER} 12"]))
        kept = {COPY: b"a copy", LATER: b"a later copy", RECORD: b"one\ntwo\n"}
        self.assertEqual(contents("kept"), kept)
        self.assertEqual(self.sends(), (0, "", ["list"]))
        for other in (b"ONE\ntwo\nthree\n", b"on"):
            Path("commands.log").write_bytes(other)
            self.assertEqual(self.sends()[:2], (0, ""))
            [begun] = contents("kept").keys() - kept.keys()
            self.assertEqual(contents("kept"), {**kept, begun: other})
            Path("kept", begun).unlink()
        Path("commands.log").unlink()
        Path("copies", COPY).write_bytes(b"another")
        self.assertEqual(self.sends(), (
            1, f"send-copies: {COPY} that is kept there is another one\n", ["list"]))
        self.assertEqual(contents("kept"), kept)

    def test_the_name_of_a_new_record(self):
        """It is later than those that are kept, also where the clock was put back since a trial;
        a name that no moment is later than, which somebody gave, is named."""
        Path("commands.log").write_bytes(b"one\n")
        for trial, name in (("commands-21000101T000000Z.log", "commands-21000101T000001Z.log"),
                            ("commands-99991231T235958Z.log", "commands-99991231T235959Z.log")):
            with self.subTest(trial=trial):
                Path("kept", trial).write_bytes(b"a trial\n")
                self.assertEqual(self.sends(), (
                    0, f"send-copies: {trial} that is kept there is ahead of the clock; the new "
                    f"record is {name}\n", ["list", f"add {name} 4"]))
                self.assertEqual(self.sends(), (0, "", ["list"]))
                Path("kept", name).unlink()
        for last in ("commands-99991231T235959Z.log", "commands-99999999T999999Z.log"):
            with self.subTest(last=last):
                Path("kept", last).write_bytes(b"forged\n")
                status, said, asked = self.sends()
                name = asked[1].split()[1]
                self.assertRegex(name, r"^commands-20\d{6}T\d{6}Z\.log$")
                self.assertEqual((status, said), (
                    1, f"send-copies: {last} that is kept there is ahead of the clock; the new "
                    f"record is {name}, which is not the last one by its name\n"))
                Path("kept", name).unlink()
        # Of the same second: the next one.
        names = loaded("send-copies").name_of_new
        with mock.patch.dict(names.__globals__, datetime=Moment):
            self.assertEqual(names({"commands-20261126T221400Z.log": 1, LATER: 1}),
                             ("commands-20261126T221401Z.log", None))
            self.assertEqual(names({"commands-20261126T221359Z.log": 1}),
                             ("commands-20261126T221400Z.log", None))

    def test_the_record_goes_on_with_the_last_that_it_has(self):
        """Of two that are kept, which are both its beginning, the one with the later name."""
        later = "commands-20261126T230000Z.log"
        Path("kept", RECORD).write_bytes(b"one\n")
        Path("kept", later).write_bytes(b"one\ntwo\n")
        Path("commands.log").write_bytes(b"one\ntwo\nthree\n")
        self.assertEqual(self.sends(), (0, "", ["list", f"append {later} 8 6"]))
        self.assertEqual(contents("kept"), {RECORD: b"one\n", later: b"one\ntwo\nthree\n"})

    def test_what_the_key_cannot_do(self):
        """Overwrite, shorten, remove, rename, read or run anything."""
        Path("kept", COPY).write_bytes(b"a copy")
        Path("kept", RECORD).write_bytes(b"one\ntwo\n")
        Path("kept/link-20261126T221400Z.db").symlink_to(COPY)
        Path("beside").write_bytes(b"beside")
        before = contents("kept")
        for asked, data in (
            (f"add {COPY} 6", b"forged"), (f"add {RECORD} 3", b"ONE"), (f"add {COPY} 0", b""),
            (f"append {RECORD} 0 3", b"ONE"), (f"append {RECORD} 4 3", b"TWO"),
            (f"append {RECORD} 9 3", b"TWO"), (f"append {RECORD} -4 3", b"TWO"),
            (f"append {COPY} 6 3", b"and"), (f"append {RECORD} 8 -8", b""),
            ("append commands-20270101T000000Z.log 0 3", b"new"),
            ("add ../beside 6", b"forged"), ("add ./beside 6", b"forged"),
            (f"add ../kept/{COPY} 6", b"forged"), (f"add {COPY}\n 6", b"forged"),
            (f"add /{COPY} 6", b"forged"), ("add .part-1 6", b"forged"),
            ("add office-20261126T221400Z.db.new 6", b"forged"), ("add keep-copies 6", b"forged"),
            ("add office-20261126T221400Z-.db 6", b"forged"),
            ("add office-20261126T221400Z-1-2.db 6", b"forged"),
            ("add office-20261126T221400Z-1234/../x.db 6", b"forged"),
            # Digits of other scripts, which any list by name has after the others.
            (f"add {LATER} 6".replace("2", "\uff12"), b"forged"),
            (f"add {LATER} \uff16", b"forged"),
            (f"add  {LATER} 6", b"forged"), (f"add {LATER} 6 7", b"forged"),
            (f"add {LATER} 6;rm {COPY}", b"forged"), (f"add {LATER} 9999999999999999", b""),
            (f"rm {COPY}", b""), (f"remove {COPY}", b""), (f"mv {COPY} {LATER}", b""),
            ("rsync --server -vlogDtpre.iLsfxCIvu --delete . .", b""), ("scp -t .", b""),
            ("/usr/lib/openssh/sftp-server", b""), ("sh", b"rm -rf ."), ("list ", b""),
            (f"list {COPY}", b""), (f"cat {COPY}", b""), ("--again . .", b""), ("", b""),
        ):
            with self.subTest(asked=asked):
                status, out, said = self.asks(asked, data)
                self.assertEqual((status, out), (1, ""))
                self.assertTrue(said.startswith("keep-copies: "), said)
                self.assertEqual(contents("kept"), before)
        self.assertEqual(Path("beside").read_bytes(), b"beside")
        # What it may see of what is kept.
        hashed = hashlib.sha256(b"one\ntwo\n").hexdigest()
        self.assertEqual(self.asks("list"), (0, f"{RECORD} 8 {hashed}\n{COPY} 6\n", ""))

    def test_a_connection_that_breaks(self):
        """A file that came in part is not kept; the record goes on with the part that came."""
        Path("kept", RECORD).write_bytes(b"one\n")
        self.assertEqual(self.asks(f"add {COPY} 10", b"half")[:2], (1, ""))
        self.assertEqual(contents("kept"), {RECORD: b"one\n"})
        self.assertEqual(self.asks(f"append {RECORD} 4 10", b"tw")[:2], (1, ""))
        Path("commands.log").write_bytes(b"one\ntwo\nthree\n")
        self.assertEqual(self.sends(), (0, "", ["list", f"append {RECORD} 6 8"]))
        self.assertEqual(contents("kept"), {RECORD: b"one\ntwo\nthree\n"})

    def test_as_many_bytes_as_were_said(self):
        """More is not kept, whatever is read at a time."""
        Path("kept", RECORD).write_bytes(b"one\n")
        for part in (2, 3, 1 << 20):
            with self.subTest(part=part), mock.patch.object(self.keep, "PART", part):
                self.assertEqual(self.asks(f"add {COPY} 6", b"a copy and more"), (0, "", ""))
                self.assertEqual(self.asks(f"append {RECORD} 4 4", b"two\nthree\n"), (0, "", ""))
                self.assertEqual(contents("kept"), {COPY: b"a copy", RECORD: b"one\ntwo\n"})
                hashed = hashlib.sha256(b"one\ntwo\n").hexdigest()
                self.assertEqual(self.asks("list")[1], f"{RECORD} 8 {hashed}\n{COPY} 6\n")
            Path("kept", COPY).unlink()
            Path("kept", RECORD).write_bytes(b"one\n")

    def test_what_is_asked_of_the_other_computer(self):
        """Words in one, and after them the bytes of the file that were said, and no more."""
        send, host = loaded("send-copies"), "keeper@host.example"
        Path("commands.log").write_bytes(b"one\ntwo\nthree\n")
        for part in (3, 1 << 20):
            with self.subTest(part=part), mock.patch.object(send, "PART", part), \
                    mock.patch.dict(os.environ, OFFICE_SSH="sh -c 'echo \"$0: $1\"; cat'"):
                there = send.There(host)
                self.assertEqual(there.ask("list"), f"{host}: list\n")
                self.assertEqual(there.ask("add", RECORD, 7, file="commands.log", size=7),
                                 f"{host}: add {RECORD} 7\none\ntwo")
                self.assertEqual(
                    there.ask("append", RECORD, 4, 6, file="commands.log", at=4, size=6),
                    f"{host}: append {RECORD} 4 6\ntwo\nth")
        with mock.patch.dict(os.environ, OFFICE_SSH="sh -c cat"):
            with self.assertRaisesRegex(send.Failed, "^commands.log is shorter than it was$"):
                send.There(host).ask("add", RECORD, 15, file="commands.log", size=15)
        with mock.patch.dict(os.environ, OFFICE_SSH="sh -c 'exit 3'"):
            with self.assertRaisesRegex(send.Failed, "^list: status 3$"):
                send.There(host).ask("list")

    def test_the_status_of_a_send(self):
        """It is 0 also where there is no record yet, and 1 where something was refused."""
        Path("copies", COPY).write_bytes(b"a copy")
        self.assertEqual(self.sends(), (0, "", ["list", f"add {COPY} 6"]))
        Path("copies", LATER).write_bytes(b"a later copy")
        with mock.patch.object(self.keep, "ROOM", 1 << 60):
            self.assertEqual(self.sends(), (
                1, "send-copies: keep-copies: kept has not room for 12 bytes more\n\n",
                ["list", f"add {LATER} 12"]))
        self.assertEqual(self.sends(), (0, "", ["list", f"add {LATER} 12"]))
        for words in ((), ("commands.log", "copies"), ("a", "b", "c", "d")):
            with self.subTest(words=words), contextlib.redirect_stderr(io.StringIO()) as said:
                self.assertEqual(loaded("send-copies").main(words), 2)
                self.assertTrue(said.getvalue().startswith("usage: send-copies RECORD FOLDER"))

    def test_when_all_of_it_was_sent(self):
        """A file beside the copies has that time, and is gone where not all of it is there: where
        nobody answers, a copy is refused or is another one, or a new record is not the last one."""
        mark = Path("copies/.sent")

        def sent():
            """The status, and whether the time is that of this run; None where there is none."""
            if mark.exists():
                os.utime(mark, (1000, 1000))
            status, _, _ = self.sends()
            return status, mark.stat().st_mtime > 1000 if mark.exists() else None

        Path("copies", COPY).write_bytes(b"a copy")
        Path("commands.log").write_bytes(b"one\n")
        for _ in range(2):
            self.assertEqual(sent(), (0, True))
        Path("kept").rename("away")
        self.assertEqual(sent(), (1, None))
        Path("away").rename("kept")
        self.assertEqual(sent(), (0, True))
        Path("copies", LATER).write_bytes(b"a later copy")
        with mock.patch.object(self.keep, "ROOM", 1 << 60):
            self.assertEqual(sent(), (1, None))
        self.assertEqual(sent(), (0, True))
        Path("copies", LATER).write_bytes(b"another")
        for _ in range(2):
            self.assertEqual(sent(), (1, None))
        Path("copies", LATER).unlink()
        self.assertEqual(sent(), (0, True))
        [record] = Path("kept").glob("commands-*.log")
        record.rename(f"kept/{RECORD}")
        Path("kept/commands-99991231T235959Z.log").write_bytes(b"forged\n")
        Path("commands.log").write_bytes(b"ONE\n")
        self.assertEqual(sent(), (1, None))
        # A run that is ended says nothing.
        self.assertEqual(sent(), (0, True))
        os.utime(mark, (1000, 1000))
        with mock.patch.object(self, "asks", side_effect=KeyboardInterrupt):
            self.assertRaises(KeyboardInterrupt, self.sends)
        self.assertEqual(mark.stat().st_mtime, 1000)

    def test_words_that_it_does_not_know(self):
        for words in ((), ("kept", "kept"), ("--again", "kept"), ("--kept",), ("",) * 4):
            with self.subTest(words=words), contextlib.redirect_stderr(io.StringIO()) as said:
                self.assertEqual(self.keep.main(words), 2)
                self.assertTrue(said.getvalue().startswith("usage: keep-copies FOLDER"))

    def test_a_disk_without_room(self):
        keep = loaded("keep-copies")
        keep.ROOM = 1 << 60
        for act in (lambda: keep.add(Path("kept"), COPY, 1, None),
                    lambda: keep.append(Path("kept"), RECORD, 0, 1, None)):
            self.assertRaises(keep.Refused, act)
        self.assertEqual(contents("kept"), {})

    def test_what_is_kept_again_needs_room_where_it_is_new(self):
        Path("again").mkdir()
        Path("kept", COPY).write_bytes(b"a copy")
        Path("kept", RECORD).write_bytes(b"one\n")
        self.assertEqual(self.again(), (0, ""))
        with mock.patch.object(self.keep, "ROOM", 1 << 60):
            self.assertEqual(self.again(), (0, ""))
            Path("kept", RECORD).write_bytes(b"one\ntwo\n")
            self.assertEqual(self.again(), (
                1, f"keep-copies: {RECORD}: again has not room for 4 bytes more\n"))
        self.assertEqual(contents("again"), {COPY: b"a copy", RECORD: b"one\n"})

    def test_what_another_user_keeps(self):
        """It stays there, whatever the user does to whom it was sent; what was changed is named."""
        Path("again").mkdir()
        Path("kept", COPY).write_bytes(b"a copy")
        Path("kept", LATER).write_bytes(b"a later copy")
        Path("kept", RECORD).write_bytes(b"one\n")
        Path("kept/notes").write_bytes(b"not sent")
        self.assertEqual(self.again(), (0, ""))
        with open(f"kept/{RECORD}", "ab") as it:
            it.write(b"two\n")
        self.assertEqual(self.again(), (0, ""))
        kept = {COPY: b"a copy", LATER: b"a later copy", RECORD: b"one\ntwo\n"}
        self.assertEqual(contents("again"), kept)
        Path("kept", COPY).write_bytes(b"a copy and more")
        self.assertEqual(self.again(), (1, f"keep-copies: {COPY} is longer than it was\n"))
        self.assertEqual(contents("again"), kept)
        Path("kept", COPY).write_bytes(b"forged")
        Path("kept", LATER).unlink()
        Path("kept", RECORD).write_bytes(b"ONE\ntwo\nthree\n")
        self.assertEqual(self.again(), (
            1, f"keep-copies: {RECORD} is not what it was\nkeep-copies: {COPY} is not what it was\n"
            f"keep-copies: {LATER} is gone\n"))
        Path("kept", RECORD).write_bytes(b"one\n")
        Path("kept", COPY).unlink()
        Path("kept", COPY).symlink_to("/etc/passwd")
        os.mkfifo(f"kept/{LATER}")
        self.assertRaises(OSError, self.keep.opened, f"kept/{COPY}")
        self.assertRaises(self.keep.Refused, self.keep.opened, f"kept/{LATER}")
        self.assertEqual(self.again(), (
            1, f"keep-copies: {RECORD}: kept/{RECORD} is shorter than it was\n"
            f"keep-copies: {COPY} is gone\nkeep-copies: {LATER} is gone\n"))
        self.assertEqual(contents("again"), kept)
