"""The help on all commands, which the launcher prints where no program is built."""

import os
import subprocess

from tests.support.case import PROGRAM, ROOT
from tests.support.program import ProgramCase, same
from tests.support.running import PATIENCE


STORED = ROOT / "docs/help.txt"


class Help(ProgramCase):
    def test_the_stored_help_is_the_programs(self):
        """With OFFICE_STORE_HELP=1 it is stored again."""
        for words in (("--help",), ("-h",), ("help",), ()):
            with self.subTest(words=words):
                ran = subprocess.run(
                    ["office", *words], executable=PROGRAM, capture_output=True, timeout=PATIENCE
                )
                same((ran.returncode, ran.stdout), (2, b""))
                if os.environ.get("OFFICE_STORE_HELP"):
                    STORED.write_bytes(ran.stderr)
                same(ran.stderr.decode(), STORED.read_text(encoding="utf-8"))
