"""The command lines of README.md, docs/GUIDE.md and other documents."""

import contextlib
import os
import re
import shutil
import signal
import sqlite3
import subprocess
import sys
from pathlib import Path

from tests.support.case import PROGRAM, ROOT
from tests.support.office import TABLES
from tests.support.program import STARTED, ProgramCase, same
from tests.support.running import PATIENCE, free_port


def replay(text):
    """Each command of a document's text prints what is written under it.

    Blocks that begin with no command are not replayed. A server is in a second terminal, and ends
    where the text says so.
    """
    parts = re.findall(r"(?:^    .*\n)+|.*Press Ctrl-C in the second terminal", text, re.M)
    assert parts, text
    port = str(free_port())
    os.mkdir("bin")
    Path("office").symlink_to(PROGRAM)
    Path("examples").symlink_to(ROOT / "examples")
    if not shutil.which("curl"):
        Path("bin/curl").write_text(f"#!{sys.executable}\n{CURL}")
        os.chmod("bin/curl", 0o755)
    # (under -m a server in the background can be interrupted)
    script, wanted, serves = "set -m\n", [], False
    for part in parts:
        if part.endswith("terminal"):
            assert serves, part
            script += "kill -INT %1 && wait %1; [ $? = 130 ] || exit 99\n"
            serves = False
            continue
        for line in part.replace("8080", port).splitlines() if part.startswith("    $ ") else ():
            line = line[4:]
            if line.startswith("$ ./office serve "):
                assert not serves, line
                script += (
                    f"{line[2:]} 2>said &\nuntil grep -q listening said; do sleep 0.05; done\ncat"
                    " said\n"
                )
                serves = True
            elif line[:2] in ("$ ", "> "):
                script += line[2:] + "\n"
            else:
                wanted.append(line)
    assert not serves, "no text ends the server"
    environment = {**os.environ, "PATH": f"{os.getcwd()}/bin:{os.environ['PATH']}"}
    ran = subprocess.Popen(
        ["bash", "-c", script], stdout=subprocess.PIPE, env=environment, start_new_session=True
    )
    try:
        out, _ = ran.communicate(timeout=PATIENCE)
    finally:
        with contextlib.suppress(ProcessLookupError):
            os.killpg(ran.pid, signal.SIGKILL)
    same((ran.returncode, re.findall(r"\{.*?\}|[^{\n]+", out.decode())), (0, wanted))


def tables_of(file):
    """All rows of each table of a database, and of its schema, in any order."""
    with contextlib.closing(
        sqlite3.connect(f"{Path(file).resolve().as_uri()}?mode=ro&immutable=1", uri=True)
    ) as it:
        schema = it.execute("SELECT type, name, tbl_name, sql FROM sqlite_master").fetchall()
        names = [name for kind, name, _, _ in schema if kind == "table"]
        return {
            "sqlite_master": sorted(schema, key=repr),
            **{name: sorted(it.execute(f"SELECT * FROM {name}")) for name in names},
        }


def command_lines(document):
    """The lines of a document, in blocks and within the text, that begin with the program or the
    recount.
    """
    text = (ROOT / document).read_text(encoding="utf-8")
    found = re.findall(
        (
            r"^    (?:\$ )?((?:\./office|python3 examples/recount\.py)\b.*)|`((?:\./office|python3"
            r" examples/recount\.py)\b[^`]*)`"
        ),
        text,
        re.M,
    )
    # After two spaces a block has words on the line.
    return [re.split(r"  | &$", block or inline)[0] for block, inline in found]


def starts_to_serve(words):
    """A server of a document's line, on a port that is free, is ended once it listens."""
    words = re.sub(r"--port \d+", f"--port {free_port()}", words)
    process = subprocess.Popen(
        ["bash", "-c", "exec " + words], stdout=subprocess.PIPE, stderr=subprocess.PIPE
    )
    STARTED.append(process)
    said = process.stderr.readline().decode()
    process.terminate()
    process.communicate(timeout=PATIENCE)
    assert said.startswith(("listening on ", "refused: ")), (words, said)


# A substitute for `curl -s URL` and `curl -s -d BODY URL`.
CURL = """
import sys, urllib.error, urllib.request
body = sys.argv[3].encode() if sys.argv[2] == "-d" else None
try:
    answer = urllib.request.urlopen("http://" + sys.argv[-1], body)
except urllib.error.HTTPError as refused:
    answer = refused
print(end=answer.read().decode())
"""


class Readme(ProgramCase):
    def test_the_first_election_of_the_readme(self):
        """Each command of README.md prints what is written there, and leaves the database of the
        examples.
        """
        text = (ROOT / "README.md").read_text(encoding="utf-8")
        replay(text[text.index("## A first election") : text.index("## What is proved")])
        found, kept = tables_of("montehondo.db"), tables_of(ROOT / "examples/montehondo.db")
        self.assertEqual(sorted(found), sorted(["sqlite_master", *TABLES]))
        for table in found:
            with self.subTest(table=table):
                self.assertEqual(kept.get(table), found[table])
        self.assertEqual(sorted(kept), sorted(found))
        self.assertLessEqual((ROOT / "examples/montehondo.db").stat().st_size, 75_000)

    def test_the_evening_of_the_guide(self):
        """Each command of docs/GUIDE.md prints what is written there."""
        replay((ROOT / "docs/GUIDE.md").read_text(encoding="utf-8"))

    def test_the_command_lines_of_the_documents(self):
        """Each runs as it is written: none is a wrong command line but those that ask for help, and
        a recount agrees.
        """
        Path("office").symlink_to(PROGRAM)
        Path("examples").symlink_to(ROOT / "examples")
        lines = [
            line
            for document in ("README.md", "docs/FORMATS.md", "examples/README.md")
            for line in command_lines(document)
        ]
        self.assertGreaterEqual(len(lines), 10)
        for line in lines:
            with self.subTest(line=line):
                # (a word of the launcher, which tests/launcher.py tries)
                line = line.replace("./office --unproved ", "./office ")
                # A word in capitals stands for any command, and FILE for a database.
                for command in (
                    ("check", "allot", "new", "import", "show", "serve")
                    if " COMMAND" in line
                    else ("",)
                ):
                    with self.subTest(line=line, command=command):
                        words = line.replace("COMMAND", command)
                        for db in Path(".").glob("*.db"):
                            shutil.copy(db, "FILE")
                        if words.startswith("./office serve") and "--help" not in words:
                            starts_to_serve(words)
                            continue
                        ran = subprocess.run(
                            ["bash", "-c", words],
                            stdin=subprocess.DEVNULL,
                            capture_output=True,
                            text=True,
                            timeout=PATIENCE,
                        )
                        if "--help" in words or words == "./office":
                            assert ran.returncode == 2 and "Usage" in ran.stderr, (words, ran)
                        elif words.startswith("python3"):
                            assert ran.returncode == 0 and ran.stdout.endswith(" agrees\n"), (
                                words,
                                ran,
                            )
                        else:
                            self.assertIn(ran.returncode, (0, 1), words)
