"""The launcher's lock, what it leaves of the input, and the order of its sources.

A stub takes the place of `rt`, in a copy of the repository.
"""

import fcntl
import os
import shutil
import subprocess
import time

from tests.support.case import ROOT, Case
from tests.support.running import PATIENCE

PARTS = ("src", "specs", "proofs")
# It reads whatever input it is given, also when it is asked for its version. The program that it
# builds says which build it is of, and then prints its input.
STUB = r"""#!/usr/bin/env bash
here=$(dirname "$0")
cat >"$here/input of $1"
case $1 in
version) echo "stub 1" ;;
all)
    printf '%s\n' "== tally_frac" "logic=proved functions=28 sum=0"
    printf '%s\n' "== summary" "tally_frac: ok"
    ;;
run)
    echo run >>"$here/runs"
    printf '#!/bin/sh\necho "build %s"\nexec cat\n' "$(wc -l <"$here/runs")" >out/tally_office
    chmod +x out/tally_office
    echo "logic=proved functions=28 sum=0" >&2
    ;;
esac
"""
# Sorts names of files by another order where the locale is not that of C, as many locales do.
SORT = """#!/bin/sh
[ "$1" != -z ] || [ "$LC_ALL" = C ] || set -- -r "$@"
exec {} "$@"
"""


class BesideABuild(Case):
    def setUp(self):
        super().setUp()
        os.mkdir("bin")
        os.mkdir("repository")
        for name in ("office", "crates.txt"):
            shutil.copy(ROOT / name, "repository")
        for part in sorted(ROOT.glob("crates/*/*")):
            if part.name in PARTS:
                shutil.copytree(part, "repository" / part.relative_to(ROOT))
        for name, text in (("rt", STUB), ("sort", SORT.format(shutil.which("sort")))):
            with open(f"bin/{name}", "w", encoding="utf-8") as file:
                file.write(text)
            os.chmod(f"bin/{name}", 0o755)

    def start(self, **environment):
        path = f"{os.path.abspath('bin')}:{os.environ['PATH']}"
        ran = subprocess.Popen(
            ["repository/office", "show"],
            stdin=subprocess.PIPE,
            stdout=subprocess.PIPE,
            stderr=subprocess.PIPE,
            text=True,
            env={**os.environ, "PATH": path, **environment},
        )
        self.addCleanup(self.end, ran)
        return ran

    def end(self, ran):
        ran.kill()
        ran.communicate()

    def said(self, text="", **environment):
        """The output of the program for an input, with the build that it is of."""
        ran = self.start(**environment)
        out, errors = ran.communicate(text, timeout=PATIENCE)
        self.assertEqual(ran.returncode, 0, errors)
        return out

    def touch(self):
        """Gives a source another time, and leaves its text."""
        os.utime("repository/crates/tally_frac/src/share.rt", (1, 1))

    def test_the_program_does_not_keep_the_lock(self):
        """While the program of a build runs, another start can build."""
        ran = self.start()
        self.assertEqual(ran.stdout.readline(), "build 1\n")
        with open("repository/crates/tally_office/out/office.lock", "a", encoding="utf-8") as lock:
            fcntl.flock(lock, fcntl.LOCK_EX | fcntl.LOCK_NB)
        self.assertIsNone(ran.poll())

    def test_a_build_waits_for_another(self):
        """Also for longer than the second after which it looks again."""
        os.makedirs("repository/crates/tally_office/out", exist_ok=True)
        with open("repository/crates/tally_office/out/office.lock", "a", encoding="utf-8") as lock:
            fcntl.flock(lock, fcntl.LOCK_EX)
            ran = self.start()
            self.assertIn("another ./office is building", ran.stderr.readline())
            time.sleep(2.5)
            self.assertFalse(os.path.exists("bin/runs"))
        out, errors = ran.communicate("", timeout=PATIENCE)
        self.assertEqual((ran.returncode, out), (0, "build 1\n"), errors)

    def test_the_input_is_the_programs(self):
        """A toolchain that reads its input gets none of it, whether it builds or is asked alone."""
        self.assertEqual(self.said("first\nlast\n"), "build 1\nfirst\nlast\n")
        self.touch()
        self.assertEqual(self.said("first\nlast\n"), "build 1\nfirst\nlast\n")
        for name in ("version", "all"):
            with self.subTest(name=name):
                with open(f"bin/input of {name}", encoding="utf-8") as given:
                    self.assertEqual(given.read(), "")

    def test_the_sources_in_the_order_of_another_locale(self):
        """They are the same sources."""
        locales = ("C", "xx_XX.UTF-8", "C")
        for locale in locales:
            with self.subTest(locale=locale):
                self.assertEqual(self.said(LC_ALL=locale), "build 1\n")
                self.touch()
