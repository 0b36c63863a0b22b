"""The tools of the tests of the pages: rounds of press.py over offices that do not exist."""

import contextlib
import shutil
import sys
import tempfile
from pathlib import Path

from tests.support import tools
from tests.support.case import ROOT, Case
from tests.support.desks import answering_desk
from tests.support.office import with_stations

DEPLOY = ROOT / "deploy"
# The modules of the pages are tried by themselves too.
sys.path.append(str(DEPLOY))


class OfPages(Case):
    """A test that makes pages of an invented office."""

    def setUp(self):
        super().setUp()
        Path("setup.toml").write_text(with_stations(1), encoding="utf-8")

    def publish(self, answers, site=None, status=0, program=DEPLOY / "press.py", folder="pages"):
        """The lines that a round of press.py wrote on its error stream."""
        words = ["--site", "site"] if self.site_of(site) else []
        with answering_desk(answers) as (port, _):
            done = tools.run(
                [sys.executable, program, f"http://127.0.0.1:{port}", folder, "--setup",
                 "setup.toml", *words], capture_output=True, text=True, timeout=120, check=False)
        self.assertEqual((done.returncode, "Traceback" in done.stderr), (status, False), done)
        return done.stderr

    def site_of(self, files):
        """Makes the folder of the site of these files, which may be in folders."""
        shutil.rmtree("site", ignore_errors=True)
        for name, text in (files or {}).items():
            file = Path("site", name)
            file.parent.mkdir(parents=True, exist_ok=True)
            file.write_bytes(text if isinstance(text, bytes) else text.encode())
        return files is not None

    def pages(self, folder="pages"):
        """The text of each page by its name, but for the parts for other sites."""
        return {file.name: file.read_text(encoding="utf-8")
                for file in sorted(Path(folder).glob("*.html"))
                if not file.name.startswith("embed")}


@contextlib.contextmanager
def copy_of_deploy():
    """A copy of the folder, in which a file may be changed."""
    with tempfile.TemporaryDirectory(prefix="office-deploy-") as folder:
        yield Path(shutil.copytree(DEPLOY, Path(folder, "deploy")))
