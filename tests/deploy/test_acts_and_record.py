"""Acts that went past the record, records that were cut or written again, and what a terminal
would obey."""

import base64
import json
import os
import tracemalloc
from datetime import datetime
from pathlib import Path

from tests.support import tools
from tests.support.case import needs
from tests.support.desks import recording_desk
from tests.support.office import with_stations
from tests.support.record import a_command, chained
from tests.support.running import PATIENCE
from tests.support.safeguards import SLIP, TWO_TOWNS, Safeguards, office_and_site, post, run, site
from tests.support.scripts import loaded, module
from tests.support.site import DEPLOY, SiteCase

chain = module("chain")
press = module("press")
press_pages = module("press_pages")
press_site = module("press_site")
MOMENT = datetime.fromisoformat("2026-11-26T22:14:00+00:00")


def hash_of_line(line):
    return chain.hashlib.sha256(line[:-1]).hexdigest()


def entries(record, *words):
    """The status of entries, and its lines."""
    done = tools.run(
        [DEPLOY / "entries", "setup.toml", *words],
        input=record,
        capture_output=True,
        timeout=PATIENCE,
    )
    assert not done.stderr, done.stderr.decode()
    return done.returncode, done.stdout.decode().splitlines()


def lines_of(commands):
    """A record of commands that were done, each with its answer."""
    lines = []
    for name, path, body, address in commands:
        lines.append(a_command(json.dumps(body), path) | {"name": name, "address": address})
        lines.append({"to": len(lines), "status": 200, "answer": "{}"})
    return chained(*lines)


class Entries(SiteCase):
    @needs("nginx", "openssl")
    def test_an_act_past_the_record_is_named(self):
        """A return, a certificate, a reopening that the office has, and no line of the record."""
        with office_and_site(TWO_TOWNS) as (desk, front):
            for name, target, body in (
                ("clara", "/station/s1/lodge", SLIP),
                ("sara", "/station/s1/confirm", {"rev": 1, **SLIP}),
                ("clara", "/station/s2/lodge", SLIP),
                ("clara", "/station/t1/lodge", SLIP),
                ("sara", "/station/s2/query", {"rev": 1, "note": "smudged"}),
                ("clara", "/station/s2/correct", {"rev": 2, **SLIP, "slip": "p2"}),
                ("clara", "/station/t1/close", {"rev": 1}),
                ("berta", "/con/c2/certify", {"edition": 1}),
            ):
                self.assertEqual(front.ask("POST", target, body, name).status, 200, target)
            front.record(8)
            record = (front.folder / "log/commands.log").read_bytes()
            run("backup", "office.db", "copies")
            past = [
                ("/station/s2/confirm", {"rev": 3, **SLIP, "slip": "p2"}),
                ("/station/s3/lodge", SLIP),
                ("/con/c2/reopen", {"edition": 2, "note": "x"}),
            ]
            self.assertEqual([post(desk, target, body) for target, body in past], [200] * 3)
            run("backup", "office.db", "later")
        [copy], [later] = Path("copies").iterdir(), Path("later").iterdir()
        self.assertEqual(
            entries(record, "--office", copy),
            (0, ["closed 2, of these by a second entry 1, to look at 0"]),
        )
        # The copy is still one file, as the board's papers want it.
        self.assertEqual([file.name for file in Path("copies").iterdir()], [copy.name])
        status, said = entries(record, "--office", later)
        rest = "and no acts of this record left it so"
        self.assertEqual(
            (status, said[:-1]),
            (
                1,
                [
                    f"s2: the office has it at revision 4, {rest}",
                    f"s3: the office has it at revision 1, {rest}",
                    f"c2: the office has it not certified at edition 3, {rest}",
                ],
            ),
        )
        # Without the copy none of that is seen.
        self.assertEqual(entries(record)[0], 0)
        # An older copy is no fault; figures that the record does not have are.
        changed = lines_of(
            [
                ("clara", "/station/s1/lodge", SLIP | {"votes": [71, 120]}, "127.0.0.1"),
                ("sara", "/station/s1/confirm", {}, "127.0.0.2"),
            ]
        )
        self.assertIn(
            f"s1: the office has it at revision 2, {rest}", entries(changed, "--office", copy)[1]
        )

    def test_two_entries_from_one_address(self):
        """A remark, which counts for nothing."""
        Path("setup.toml").write_text(TWO_TOWNS, encoding="utf-8")
        record = lines_of(
            [
                ("clara", "/station/s1/lodge", SLIP, "192.0.2.1"),
                ("sara", "/station/s1/confirm", {}, "192.0.2.1"),
                ("clara", "/station/s2/lodge", SLIP | {"slip": "p2"}, "192.0.2.1"),
                ("sara", "/station/s2/confirm", {}, "192.0.2.2"),
            ]
        )
        last = "closed 2, of these by a second entry 2, to look at 0"
        self.assertEqual(entries(record), (0, [last]))
        self.assertEqual(
            entries(record, "--addresses"),
            (0, ["remark: both entries came from one address: s1", last]),
        )

    def test_a_record_that_is_not_whole(self):
        Path("setup.toml").write_text(TWO_TOWNS, encoding="utf-8")
        record = lines_of(
            [
                ("clara", "/station/s1/lodge", SLIP, "192.0.2.1"),
                ("sara", "/station/s1/confirm", {}, "192.0.2.2"),
            ]
        )
        lines = record.splitlines(keepends=True)
        shown = "time,lines,sha256\n" + "".join(
            f"2026-11-26T22:14:00+00:00,{n},{hash_of_line(lines[n - 1])}\n"
            for n in (2, 4)
        )
        Path("record.csv").write_text(shown, encoding="utf-8")
        self.assertEqual(entries(record, "--shown", "record.csv")[0], 0)
        wrong = {
            "cut": b"".join(lines[:2]),
            "written again": record.replace(b"clara", b"bruno"),
            "without a line": b"".join(lines[1:]),
            "without its hashes": record.replace(b'"before"', b'"beside"'),
        }
        for name, one in wrong.items():
            with self.subTest(name):
                status, said = entries(one, "--shown", "record.csv")
                self.assertEqual(
                    (status, any(line.startswith("the record is not whole: ") for line in said)),
                    (2, True),
                )
        # Written again from the first line to the last it is as good as any, but for what was
        # shown.
        again = lines_of(
            [
                ("bruno", "/station/s1/lodge", SLIP, "192.0.2.1"),
                ("sara", "/station/s1/confirm", {}, "192.0.2.2"),
            ]
        )
        self.assertEqual((entries(again)[0], entries(again, "--shown", "record.csv")[0]), (0, 2))
        # Root reads what the user of the pages has shown: a pipe is not waited for, and is no
        # record in which nothing was shown.
        os.mkfifo("pipe.csv")
        for words in (["entries", "setup.toml"], ["replay", "--check"]):
            with self.subTest(words=words):
                done = tools.run([DEPLOY / words[0], *words[1:], "--shown", "pipe.csv"],
                                 input=record, capture_output=True, timeout=PATIENCE)
                self.assertEqual((done.returncode, done.stdout), (2, b""))
                self.assertIn(b"it is no file", done.stderr)
        # A file with which nothing would be compared is refused, as an answer in its place. A
        # row that was cut while the file was fetched says nothing, and a whole one does.
        for said, text, wanted in (
                (b"no header with lines and sha256", "", 2),
                (b"no header", "<html>401</html>\n", 2),
                (b"no header", shown.partition("\n")[2], 2),
                (b"no row", "time,lines,sha256\n", 2), (b"no row", shown[:60], 2),
                (b"", shown[:-30], 0), (b"", shown[:-66], 0), (b"", shown[:-1], 0),
                (b"", shown[:-2] + "g\n", 1)):
            Path("cut.csv").write_text(text, encoding="utf-8")
            for words in (["entries", "setup.toml"], ["replay", "--check"]):
                with self.subTest(text=text, words=words):
                    done = tools.run([DEPLOY / words[0], *words[1:], "--shown", "cut.csv"],
                                     input=record, capture_output=True, timeout=PATIENCE)
                    self.assertEqual((done.returncode, said in done.stderr),
                                     (2 if wanted and words[0] == "entries" else wanted, True))
        # Nor does root follow a link, or read a file without an end.
        os.symlink("record.csv", "link.csv")
        Path("long.csv").write_bytes(b"time,lines,sha256\n")
        os.truncate("long.csv", (64 << 20) + 1)
        for file, said in (("link.csv", b"symbolic links"),
                           ("long.csv", b"more than 67108864 bytes")):
            for words in (["entries", "setup.toml"], ["replay", "--check"]):
                with self.subTest(file=file, words=words):
                    done = tools.run([DEPLOY / words[0], *words[1:], "--shown", file],
                                     input=record, capture_output=True, timeout=PATIENCE)
                    self.assertEqual((done.returncode, done.stdout), (2, b""))
                    self.assertIn(said, done.stderr)


    def test_a_file_of_zeros(self):
        """It takes no room on the disk, and little memory: no row is read to an end that it has
        not."""
        os.truncate(os.open("zeros.csv", os.O_RDWR | os.O_CREAT), 64 << 20)
        head, longest = "time,lines,sha256\n", f"{'2' * 188},7,{'a' * 64}"
        files = {"long.csv": f"{head}2{longest}\n", "cut.csv": head + "22" + longest,
                 "right.csv": f"{head}{longest}\n"}
        for name, text in files.items():
            Path(name).write_text(text, encoding="utf-8")
        said = "one of its rows has more than 256 characters"
        for name in ("zeros.csv", "long.csv", "cut.csv"):
            with self.subTest(name=name):
                tracemalloc.start()
                with self.assertRaisesRegex(ValueError, said):
                    chain.read_shown(name)
                self.assertLess(tracemalloc.get_traced_memory()[1], 1 << 20)
                tracemalloc.stop()
        self.assertEqual(chain.read_shown("right.csv"), {7: {"a" * 64}})
        for words in (["entries", "setup.toml"], ["replay", "--check"]):
            Path("setup.toml").write_text(TWO_TOWNS, encoding="utf-8")
            done = tools.run([DEPLOY / words[0], *words[1:], "--shown", "zeros.csv"], input=b"",
                             capture_output=True, timeout=PATIENCE)
            self.assertEqual((done.returncode, done.stdout), (2, b""))
            self.assertIn(said.encode(), done.stderr)


class Shown(Safeguards):
    @needs("nginx", "openssl")
    def test_a_recorder_that_finds_another_record_than_was_shown(self):
        """Each command is answered 503 until the list is moved aside; the journal and the head say
        why."""
        Path("setup.toml").write_text(with_stations(3), encoding="utf-8")
        with recording_desk() as (port, messages), site(port) as front:
            log, shown = front.folder / "log/commands.log", front.folder / "record.csv"
            ask = lambda: front.ask("POST", "/station/s1/close", {}, "clara").status
            self.assertEqual([ask() for _ in range(3)], [200] * 3)
            front.record(3)
            whole = log.read_bytes()
            front.end_recorder()
            lines = whole.splitlines(keepends=True)
            rows = "".join(
                f"2026-11-26T22:14:00+00:00,{n},{hash_of_line(lines[n - 1])}\n"
                for n in (3, 7)
            )
            # A row that is half written says nothing.
            shown.write_text(
                f"time,lines,sha256\n{rows}2026-11-26T22:14:00+00:00,9,ab", encoding="utf-8"
            )
            front.recorder_words = ("--shown", shown)
            longer = chained(*[a_command("{}", "/station/s1/close")] * 20)
            for name, record, wanted in (
                ("cut", b"".join(lines[:-2]), 503),
                ("longer, and written again", longer, 503),
                ("as it was", whole, 200),
            ):
                with self.subTest(name):
                    log.write_bytes(record)
                    front.start_recorder()
                    done = len(messages)
                    self.assertEqual((ask(), len(messages) - done), (wanted, int(wanted == 200)))
                    head = json.loads((front.folder / "recorder/head").read_text())
                    self.assertEqual("fault" in head, wanted == 503)
                    front.end_recorder()
            self.assertIn(
                "is not the one that was shown", (front.folder / "log/recorder").read_text()
            )
            log.write_bytes(longer)
            shown.unlink()
            words = f"{shown} has no line that was shown: nobody knows whether {log}, of 20 lines, "
            self.assertNotIn(words, (front.folder / "log/recorder").read_text())
            front.start_recorder()
            self.assertEqual(ask(), 200)
            self.assertIn(words, (front.folder / "log/recorder").read_text())

    def test_the_page_of_the_count_says_so(self):
        site_of = press_site.Site()
        head, before = {
            "n": 2,
            "hash": "a" * 64,
            "time": "2026-11-26T22:14:00+00:00",
        }, "time,lines,sha256\n2026-11-26T22:13:00+00:00,9,bb\n"
        for name, record, text, wanted in (
            ("goes on", head, "", True),
            ("cut", head, before, False),
            ("the recorder says it", head | {"fault": "x"}, "", False),
        ):
            with self.subTest(name):
                Path("pages").mkdir(exist_ok=True)
                Path("pages/record.csv").write_text(text, encoding="utf-8")
                Path("head").write_text(json.dumps(record), encoding="utf-8")
                head_of = press.put_head(Path("pages"), Path("head"), [])
                [found] = press_pages.count_pages(site_of, {}, MOMENT, None, head_of)
                self.assertEqual(
                    ("no line can be changed" in found, "not the record that was shown" in found),
                    (wanted, not wanted),
                )


class Terminal(Safeguards):
    def test_what_a_terminal_obeys_is_in_base64(self):
        recorder = loaded("recorder.py")
        for text in ("plain", "«88» ñ é", "a\tb\r\nc", "\U0001f5f3", ""):
            with self.subTest(text=text):
                self.assertEqual(recorder.text_or_bytes("body", text.encode()), {"body": text})
        for text in ("\x9b31m", "\u202e34", "\x1b[2J", "\u2028", "\u200b", "\x7f", "\x00"):
            with self.subTest(text=text):
                found = recorder.text_or_bytes("body", text.encode())
                self.assertEqual(found, {"body_base64": base64.b64encode(text.encode()).decode()})
                # Who did what to a station shows it all the same.
                command = {
                    "n": 1,
                    "time": "",
                    "name": "",
                    "role": "",
                    "path": "/station/s1/query",
                } | found
                self.assertEqual(recorder.command_of(command)["body"], text)
