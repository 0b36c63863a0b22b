"""Tables of two constituencies, and a test that makes their setup."""

import contextlib
import importlib.machinery
import importlib.util
import io
import os
import subprocess
import sys
import tempfile
import tomllib
import unittest
from pathlib import Path
from unittest import mock

ROOT = Path(__file__).resolve().parents[2]
PROGRAM = os.environ.get("OFFICE_PROGRAM")
TOOL = ROOT / "deploy/setup-from-tables"
sys.dont_write_bytecode = True


def loaded(path):
    """A program of the folder deploy as a module."""
    sys.path.insert(0, str(path.parent))
    loader = importlib.machinery.SourceFileLoader(path.name.replace("-", "_"), str(path))
    module = importlib.util.module_from_spec(importlib.util.spec_from_loader(loader.name, loader))
    loader.exec_module(module)
    return module


TOOL_MODULE = loaded(TOOL)

COLUMNS = '[rules]\ncandidates = "seats"\nsubstitutes = [1, 2]\n'
# Two constituencies of two lists each. Row 1 is the header.
TABLES = {
    "constituencies.csv": """
code,name,seats
c1,Twin Town,3
c2,Lone Hill,2
""",
    "lists.csv": """
constituency,order,party,name
c1,1,PA,Party A
c1,2,PB,Party B
c2,1,PA,Party A
c2,2,PC,Party C
""",
    "candidates.csv": """
constituency,list,order,kind,name
c1,PA,1,T,Ana Arce
c1,PA,2,T,Abel Aro
c1,PA,3,T,Alba Ais
c1,PA,1,S,Ada Alto
c1,PB,1,T,Bea Bas
c1,PB,2,T,Ben Boj
c1,PB,3,T,Blas Bru
c1,PB,4,S,Bibi Bal
c2,PA,1,T,Aldo Ama
c2,PA,2,T,Alma Ard
c2,PA,1,S,Aura Aza
c2,PC,1,T,Carl Coy
c2,PC,2,T,Cleo Cid
c2,PC,1,S,Cora Cea
""",
    "stations.csv": """
constituency,code,electors,agents
c1,s1,300,2
c1,s2,400,
c2,s3,500,0
""",
}
SETUP = """[[profile]]
code = "loreg"
method = "dhondt"
threshold = 300
base = "valid"

[[constituency]]
code = "c1"
name = "Twin Town"
seats = 3
profile = "loreg"

[[constituency.list]]
code = "PA"
name = "Party A"
candidates = ["Ana Arce", "Abel Aro", "Alba Ais", "Ada Alto"]

[[constituency.list]]
code = "PB"
name = "Party B"
candidates = ["Bea Bas", "Ben Boj", "Blas Bru", "Bibi Bal"]

[[constituency.station]]
code = "s1"
electors = 300
agents = 2

[[constituency.station]]
code = "s2"
electors = 400

[[constituency]]
code = "c2"
name = "Lone Hill"
seats = 2
profile = "loreg"

[[constituency.list]]
code = "PA"
name = "Party A"
candidates = ["Aldo Ama", "Alma Ard", "Aura Aza"]

[[constituency.list]]
code = "PC"
name = "Party C"
candidates = ["Carl Coy", "Cleo Cid", "Cora Cea"]

[[constituency.station]]
code = "s3"
electors = 500
"""


class Case(unittest.TestCase):
    """A test with a folder of tables of its own."""

    maxDiff = None

    def setUp(self):
        folder = tempfile.TemporaryDirectory(prefix="office-tables-")
        self.addCleanup(folder.cleanup)
        self.folder = Path(folder.name)

    def write(self, tables=None, columns=COLUMNS):
        for name, text in (tables or TABLES).items():
            (self.folder / name).write_bytes(text.lstrip("\n").encode())
        (self.folder / "columns.toml").write_text(columns, encoding="utf-8")

    def run_tool(self, *words, status=0, language="en"):
        """Runs the tool, in this process: its standard output and its standard error."""
        out, said = (io.TextIOWrapper(io.BytesIO(), encoding="utf-8") for _ in range(2))
        asked = ["--language", language] if language else []
        command = [str(TOOL), *asked, *map(str, words)]
        with (
            mock.patch("sys.argv", command),
            contextlib.redirect_stdout(out),
            contextlib.redirect_stderr(said),
        ):
            try:
                found = TOOL_MODULE.main()
            except SystemExit as ended:
                found = ended.code
        texts = []
        for stream in (out, said):
            stream.flush()
            texts.append(stream.buffer.getvalue().decode())
        self.assertEqual(found, status, texts[1])
        if status:
            self.assertEqual(texts[0], "")
        return texts

    def made(self, *words):
        return self.run_tool("--rule", "loreg", *words, self.folder)[0]

    def refused(self, *words, status=1):
        """The lines of the faults."""
        said = self.run_tool("--rule", "loreg", *words, self.folder, status=status)[1]
        return said.splitlines()

    def is_read(self, text):
        """The program, where there is one, makes an office of the setup."""
        if not PROGRAM:
            self.skipTest("OFFICE_PROGRAM is not set")
        setup, database = self.folder / "made.toml", self.folder / "made.db"
        setup.write_text(text, encoding="utf-8")
        command = [PROGRAM, "new", "--db", database, "--setup", setup]
        done = subprocess.run(command, capture_output=True, text=True, timeout=600)
        self.assertEqual((done.returncode, done.stderr), (0, ""))
        number = len(tomllib.loads(text)["constituency"])
        self.assertEqual(done.stdout, f"constituencies {number}\n")
