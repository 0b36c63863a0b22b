"""Copies of this repository with a stub in the place of `rt`, for tests of the launcher."""

import os
import re
import shutil
import signal
import subprocess
import time
from pathlib import Path

from tests.support.case import ROOT, Case
from tests.support.running import PATIENCE


PARTS = ("src", "specs", "proofs")


NOBODY = 65534


# The stub's `rt all` does what the file `plan` says, and its `rt try` what the file `try` says. Its
# `rt run` notes that it ran and builds a program, which is another one at each build: it prints the
# number of the build, its folder and its arguments, copies its input and ends with status 1; then
# it does what the file `end` says.
STUB = r"""#!/usr/bin/env bash
here=$(dirname "$0")
if [ "$1" = version ]; then
    cat "$here/version"
    exit
fi
echo "$*" >>"$here/calls"
if [ "$1" = all ]; then
    echo $$ >"$here/pid"
    cat >"$here/given"
    { pwd; cat BUILD.bazel src/lib.rt; } >"$here/below"
    . "$here/plan"
    exit
fi
if [ "$1" = try ]; then
    echo $$ >"$here/pid"
    . "$here/try"
fi
echo "$*" >>"$here/runs"
cat >"$here/input"
program=out/$(basename "$PWD")
cat >"$program" <<END
#!/bin/sh
printf '%s\n' "build $(wc -l <"$here/runs")" "\$PWD" "\$@"
cat
echo "an error" >&2
exit 1
END
chmod +x "$program"
echo "logic=proved functions=28 sum=0" >&2
echo "the program's own output"
. "$here/end"
"""


# The output of `rt all check` on a crate that it proves, on one that was proved already, and on
# the library without code that uses them.
PROVED = """
echo "only=0 proved=0"
echo "== tally_frac"
echo "fn tally_frac::share::Share::new: proved"
echo "logic=proved functions=28 sum=0"
echo "== tally_rules"
echo "== below"
echo "logic=proved functions=0 sum=0"
printf '== summary\\ntally_frac: ok\\n'
"""


# Its output where all sources are read in some seconds and a crate is then proved in none.
TIMED = """
sleep {}
echo "only=0 proved=0"
echo "== tally_frac"
echo "logic=proved functions=28 sum=0"
printf '== summary\\ntally_frac: ok\\n'
"""


# The output of `rt try` on a program that refuses a text. For the program's own output there is its
# folder, its arguments and its input.
TRIED = """
printf '%s\\n' "$PWD" "$@"
cat
printf 'refused: bad_header\\nchecked: ended status=1\\n' >&2
printf 'run=ended status=1 runners=1 proved=no\\n' >&2
exit 1
"""


WAITS = "office: another ./office is building the program: waiting for it\n"


def crates_of(program):
    """The crates that a program is made of: its own, those that it uses, and those that they
    use.
    """
    lines = (line.partition(":") for line in (ROOT / "crates.txt").read_text().splitlines())
    uses = {name.strip(): used.split() for name, _, used in lines}
    found, left = set(), [program]
    while left:
        name = left.pop()
        if name in uses and name not in found:
            found.add(name)
            left += uses[name]
    return sorted(found)


NAMES = crates_of("tally_office")


# Those of the program for `check`, `allot` and `recount`.
SMALL = crates_of("tally_office_small")


CRATES = len(NAMES)


FORECAST = ROOT / "bench/time_left.awk"


# A record in which two parts take most of the time.
RECORDED = {
    "reading": 3,
    **{name: 20 for name in NAMES},
    "tally_frac": 1,
    "tally_office": 1200,
    "building": 600,
}


class Copy:
    """A copy of the repository with a stub of `rt`, in a folder whose name has a space."""

    def __init__(self, folder, plan=PROVED):
        self.folder = Path(folder)
        self.root = self.folder / "the office"
        self.bin = self.folder / "bin"
        self.out = self.root / "crates/tally_office/out"
        self.program = self.out / "tally_office"
        self.small = self.root / "crates/tally_office_small/out/tally_office_small"
        self.started = []
        self.root.mkdir(parents=True)
        self.bin.mkdir()
        shutil.copy(ROOT / "office", self.root)
        shutil.copy(ROOT / "crates.txt", self.root)
        (self.root / "docs").mkdir()
        if (ROOT / "docs/help.txt").exists():
            shutil.copy(ROOT / "docs/help.txt", self.root / "docs")
        parts = sorted(part.relative_to(ROOT) for part in ROOT.glob("crates/*/*")
                       if part.name in PARTS)
        # (one program copies these thousands of files in half the time)
        subprocess.run(["cp", "-rp", "--parents", *parts, self.root], cwd=ROOT, check=True)
        self.plan(plan)
        self.tries(TRIED)
        self.end("")
        self.version("stub 1")
        (self.bin / "rt").write_text(STUB)
        (self.bin / "rt").chmod(0o755)

    def plan(self, text):
        (self.bin / "plan").write_text(text)

    def tries(self, text):
        (self.bin / "try").write_text(text)

    def end(self, text):
        (self.bin / "end").write_text(text)

    def version(self, text):
        (self.bin / "version").write_text(text + "\n")

    def record(self, seconds):
        """Gives the copy a record of a build, and what works out from it how long one takes."""
        (self.root / "bench").mkdir()
        shutil.copy(FORECAST, self.root / "bench")
        (self.root / "bench/crate_seconds.txt").write_text(lines_of(seconds))

    def keep(self, crate):
        """Leaves what an earlier build leaves of a crate: its proofs, its library and the stamp of
        that.
        """
        out = self.root / "crates" / crate / "out"
        (out / "incremental").mkdir(parents=True)
        (out / "rlib" / f"{crate}.rlib").mkdir(parents=True)
        (out / "rlib" / "stamp").write_text("a sum")

    def runs(self):
        runs = self.bin / "runs"
        return len(runs.read_text().splitlines()) if runs.exists() else 0

    def calls(self):
        calls = self.bin / "calls"
        return calls.read_text().splitlines() if calls.exists() else []

    def files(self):
        """The contents of the copy of the repository: each file and folder below it, with its size
        and the time of its last change.
        """
        return {
            str(path): (path.stat().st_size, path.stat().st_ctime_ns)
            for path in [self.root, *self.root.rglob("*")]
        }

    def start(self, *words, launcher=None, rt=True, **how):
        path = (
            f"{self.bin if rt is True else rt}:{os.environ['PATH']}"
            if rt
            else path_without_rt(self.folder)
        )
        how = {"cwd": self.folder, "stdin": subprocess.DEVNULL, "start_new_session": True, **how}
        how.update(
            stdout=subprocess.PIPE,
            stderr=subprocess.PIPE,
            text=True,
            env={**os.environ, "PATH": path},
        )
        ran = subprocess.Popen([str(launcher or self.root / "office"), *words], **how)
        self.started.append(ran)
        return ran

    def run(self, *words, **how):
        """Returns the status, the standard output and the standard error of one launch."""
        ran = self.start(*words, **how)
        out, errors = ran.communicate(timeout=PATIENCE)
        return ran.returncode, out, errors

    def wait_for(self, file):
        until = time.monotonic() + PATIENCE
        while not (file.exists() and file.read_text().strip()):
            assert time.monotonic() < until, f"{file.name} did not come"
            time.sleep(0.02)

    def close(self):
        """Ends what is still running: the launchers, and the builds that they began."""
        for ran in self.started:
            if ran.poll() is None:
                ran.terminate()
                try:
                    ran.communicate(timeout=5)
                except subprocess.TimeoutExpired:
                    os.killpg(ran.pid, signal.SIGKILL)
                    ran.communicate()


def lines_of(parts):
    return "# a comment\n" + "".join(f"{name} {said}\n" for name, said in parts.items())


def minutes_in(line):
    """Returns the number of minutes that a line says are left."""
    return int(re.search(r"(?:about|at most) (\d+) min\b", line)[1])


# The commands that the launcher calls.
COMMANDS = "bash sh readlink find sha256sum sort xargs awk head tail sed cat mkdir mv flock setsid"


def path_without_rt(folder):
    """Returns a PATH with the commands that the launcher calls, and no `rt`."""
    found = Path(folder) / "commands"
    if not found.exists():
        found.mkdir()
        for name in COMMANDS.split():
            (found / name).symlink_to(shutil.which(name))
    return str(found)


def is_running(pid):
    """Returns whether there is such a process, other than one that ended and was not waited for."""
    try:
        return Path(f"/proc/{pid}/stat").read_text().rpartition(")")[2].split()[0] != "Z"
    except OSError:
        return False


def ends(pid):
    """Returns whether a process ends long before it would by itself: one that got a signal may need
    a while for it.
    """
    until = time.monotonic() + PATIENCE / 2
    while is_running(pid):
        if time.monotonic() > until:
            return False
        time.sleep(0.02)
    return True


def append(file, text="// changed\n"):
    with file.open("a") as it:
        it.write(text)


class LauncherCase(Case):
    """A test of the launcher of a copy of this repository, which another user may read."""

    prefix = "office launcher "

    def setUp(self):
        super().setUp()
        os.chmod(".", 0o755)
        self.copy = Copy(Path.cwd() / "copy")
        self.addCleanup(self.copy.close)
