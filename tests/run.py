#!/usr/bin/env python3
"""Runs the suites of tests side by side, and says what passed.

    python3 tests/run.py [--store] [NAME..]
    python3 tests/run.py import deploy/test_limits launcher

A name is that of a suite, as `import` for tests/program/test_import.py, or of a folder. `bench`
stands for the parts of bench/ that refuse the program memory. With names only those run. Without
names `rt ci` runs first, and then all.

The longest begin first. Many suites wait most of their time, for a server or a clock. So another
one begins as soon as those that run leave a part of a processor free, up to two for each processor.
What a suite takes, by the clock and of the processors, is in tests/seconds.txt. With --store it is
written there, by a run with one suite for each processor at most.

A suite that says `ALONE = True` measures what other work spoils, or spoils what others measure: it
runs after the others, by itself. A suite that fails runs once more, by itself, since other work on
the machine can spoil what it measures, and the second result counts. Of a suite that fails all that
it printed is shown, both times.
The last line is `N passed, M failed, K skipped`. The status is 0 where nothing failed and nothing
was skipped of tests/program and tests/documents, which need no more than Python and a C compiler.
Where TEST_MINUTES is set and over, another part that has not begun counts as skipped.
"""

import argparse
import os
import re
import signal
import subprocess
import sys
import tempfile
import threading
import time
from concurrent.futures import ThreadPoolExecutor
from dataclasses import dataclass
from pathlib import Path


ROOT = Path(__file__).resolve().parent.parent
SECONDS = ROOT / "tests/seconds.txt"
# The program that `rt ci` builds.
PROGRAM = ROOT / "crates/tally_office/out/tally_office"
# The folders of which no test may be skipped.
NEEDED = ("program", "documents")
# Programs outside of tests/ that are parts too, and refuse the program memory.
MEMORY = (
    ("bench/refused_memory.py", "--every", "5"),
    ("bench/refused_requests.py",),
    ("bench/refused_program.py", "--every", "37"),
)
# The ports that tests listen on. Each place in the line has some of them for itself.
PORTS = range(10_000, 30_000)
COUNTS = re.compile(r"(\d+) passed, (\d+) failed(?:, (\d+) skipped)?")
TEST = re.compile(r"\s*(\w+ \([\w.]+\))")
BEGAN = time.monotonic()


@dataclass
class Part:
    """A suite or another program that says in its last line what passed."""

    name: str
    words: list
    # What it takes by the clock, and of the processors.
    seconds: float = 0
    worked: float = 0
    needed: bool = False
    alone: bool = False

    @property
    def busy(self):
        """How many processors it keeps busy."""
        return self.worked / self.seconds if self.seconds else 1


@dataclass
class Result:
    part: Part
    passed: int = 0
    failed: int = 0
    skipped: int = 0
    text: str = ""
    notes: tuple = ()
    seconds: float = 0
    worked: float = 0


def stored_seconds():
    """The seconds of each part when they were stored: by the clock, and of the processors."""
    if not SECONDS.exists():
        return {}
    rows = (line.split() for line in SECONDS.read_text().splitlines() if not line.startswith("#"))
    return {name: (float(seconds), float(worked)) for name, seconds, worked in rows}


def suites():
    """The suites, each with its seconds; of one that is new they are guessed from its size."""
    stored = stored_seconds()
    for path in sorted(ROOT.glob("tests/*/test_*.py")):
        name = f"{path.parent.name}/{path.stem}"
        text = path.read_text(encoding="utf-8")
        yield Part(
            name,
            [sys.executable, "-m", "unittest", "-v", f"tests.{path.parent.name}.{path.stem}"],
            *stored.get(name, [len(text) / 1000] * 2),
            path.parent.name in NEEDED,
            re.search(r"^ALONE = True$", text, re.M) is not None,
        )


def programs():
    """The parts that are no suites."""
    stored = stored_seconds()
    for words in MEMORY:
        yield Part(words[0], [sys.executable, *words], *stored.get(words[0], (300, 300)))


def named(parts, name):
    """The parts that a name stands for."""
    name = name.removesuffix(".py").removeprefix("tests/").removeprefix("tests.").replace(".", "/")
    of_folder = [part for part in parts if part.name.startswith(f"{name.rstrip('/')}/")]
    folder, _, stem = name.rpartition("/")
    suite = f"/test_{stem.removeprefix('test_')}"
    return of_folder or [
        part
        for part in parts
        if part.name == f"{name}.py" or part.name.endswith(suite) and part.name.startswith(folder)
    ]


def result_of_unittest(part, status, text):
    """The outcome of a suite, by what `unittest -v` printed."""
    failed = set(re.findall(r"^(?:FAIL|ERROR): (\w+ \([\w.]+\)|.*)", text, re.M))
    skipped, last, notes = set(), "", []
    for line in text.splitlines():
        if found := TEST.match(line):
            last = found[1]
        if found := re.search(r"\.\.\. skipped (['\"].*['\"])$", line):
            skipped.add(last)
            notes.append(f"skipped: {last}: {found[1]}")
    ran = re.search(r"^Ran (\d+) tests? in ", text, re.M)
    if not ran:
        return Result(part, failed=1, text=text + f"\nit ended with status {status}\n")
    if status and not failed:
        failed.add(f"status {status}")
    bad = {name for name in failed | skipped if name.startswith("test_")}
    passed = max(0, int(ran[1]) - len(bad))
    return Result(part, passed, len(failed), len(skipped - failed), text, tuple(notes))


def result_of_last_line(part, status, text):
    """The outcome of another program, by its last line."""
    found = COUNTS.fullmatch(text.rstrip("\n").rpartition("\n")[2])
    if not found:
        return Result(part, failed=1, text=text + "\nits last line does not say what passed\n")
    passed, failed, skipped = (int(n or 0) for n in found.groups())
    if status and not failed:
        failed, text = 1, text + f"\nnothing failed, but it ended with status {status}\n"
    return Result(part, passed, failed, skipped, text)


class Runner:
    """Starts parts, and ends those that still run when it is ended itself."""

    def __init__(self, processors, places, minutes):
        self.processors, self.places, self.minutes = processors, places, minutes
        self.lock = threading.RLock()
        self.changed = threading.Condition(self.lock)
        # The places that nobody has, the parts that have one, and the processes of these.
        self.free, self.under_way, self.running = list(range(places)), [], set()
        self.ended = False

    def is_late(self):
        return self.minutes is not None and time.monotonic() - BEGAN >= self.minutes * 60

    def has_room(self):
        """Whether one more may begin: those under way leave a part of a processor free."""
        return bool(self.free) and sum(part.busy for part in self.under_way) < self.processors

    def run(self, part):
        """Runs one part as soon as there is room for it, and prints a line of it."""
        return self.run_first([part])

    def run_first(self, line):
        """Runs the part that is the first in a line when there is room for one."""
        with self.changed:
            self.changed.wait_for(self.has_room)
            part, place = line.pop(0), self.free.pop()
            self.under_way.append(part)
        result = self.result_of(part, place)
        with self.changed:
            self.under_way.remove(part)
            self.free.append(place)
            self.changed.notify_all()
        return result

    def result_of(self, part, place):
        if self.ended:
            return Result(part, failed=1)
        if self.is_late() and not part.needed:
            print(f"test: {part.name}: not run, since {self.minutes} minutes are over", flush=True)
            return Result(part, skipped=1)
        began = time.monotonic()
        status, worked, text = self.output_of(part, place)
        of_unittest = "unittest" in part.words
        result = (result_of_unittest if of_unittest else result_of_last_line)(part, status, text)
        result.seconds, result.worked = time.monotonic() - began, worked
        with self.lock:
            self.report(result)
        return result

    def output_of(self, part, place):
        """The status of a part, its seconds of the processors, and what it prints. It listens on
        ports that no other part has.
        """
        count = len(PORTS) // self.places
        first = PORTS[place * count]
        environment = {**os.environ, "TEST_PORTS": f"{first}-{first + count - 1}"}
        if os.access(PROGRAM, os.X_OK):
            # (suites that need nothing but Python run the program only where it is named)
            environment.setdefault("OFFICE_PROGRAM", str(PROGRAM))
        with tempfile.TemporaryFile() as said:
            ran = subprocess.Popen(
                part.words,
                cwd=ROOT,
                env=environment,
                stdin=subprocess.DEVNULL,
                stdout=said,
                stderr=subprocess.STDOUT,
            )
            with self.lock:
                self.running.add(ran.pid)
            os.waitid(os.P_PID, ran.pid, os.WEXITED | os.WNOWAIT)
            with self.lock:
                self.running.remove(ran.pid)
                _, status, used = os.wait4(ran.pid, 0)
            ran.returncode = os.waitstatus_to_exitcode(status)
            said.seek(0)
            text = said.read().decode(errors="replace")
            return ran.returncode, used.ru_utime + used.ru_stime, text

    def report(self, result):
        if result.failed:
            print(f"---- {result.part.name}\n{result.text.rstrip()}\n----")
        for note in result.notes:
            print(note)
        print(
            (
                f"test: {result.part.name}: {result.passed} passed, {result.failed} failed,"
                f" {result.skipped} skipped, {result.seconds:.0f} s"
            ),
            flush=True,
        )

    def run_all(self, parts):
        """Runs parts side by side, and after them those that need the machine alone."""
        parts = sorted(parts, key=lambda part: (not part.needed, -part.seconds))
        line = [part for part in parts if not part.alone]
        with ThreadPoolExecutor(self.places) as pool:
            results = list(pool.map(self.run_first, [line] * len(line)))
        results = [self.again(result) for result in results]
        return results + [self.again(self.run(part)) for part in parts if part.alone]

    def again(self, result):
        """The result of a suite, of a second run by itself where it failed in the first."""
        if not result.failed or self.ended or "unittest" not in result.part.words:
            return result
        print(f"test: {result.part.name}: once more, by itself", flush=True)
        return self.run(result.part)

    def end(self):
        """Asks what runs to end, and waits for it."""
        self.ended = True
        with self.lock:
            for process in self.running:
                os.kill(process, signal.SIGTERM)


def checks_at_once():
    """How many checks `rt ci` makes at a time: one for each processor with 5 GB of memory."""
    room = re.search(r"MemAvailable:\s+(\d+)", Path("/proc/meminfo").read_text())
    return max(1, min(len(os.sched_getaffinity(0)), int(room[1]) // 5_000_000 if room else 1))


def gate():
    """Runs `rt ci`, and shows what it prints as it comes."""
    # Each check is then made by one job: more jobs within a check cost more than they save.
    environment = {"RT_JOBS": str(checks_at_once()), **os.environ}
    began, lines = time.monotonic(), []
    part = Part("rt ci", ["rt", "ci"])
    try:
        with subprocess.Popen(
            part.words, cwd=ROOT, env=environment, stdout=subprocess.PIPE, stderr=subprocess.STDOUT
        ) as ran:
            for line in ran.stdout:
                lines.append(line.decode(errors="replace"))
                print(lines[-1], end="", flush=True)
        result = result_of_last_line(part, ran.returncode, "".join(lines))
    except FileNotFoundError:
        print("test: the command 'rt' is not on the PATH")
        result = Result(part, failed=1)
    result.seconds = time.monotonic() - began
    minutes, seconds = divmod(round(result.seconds), 60)
    print(f"test: rt ci: {minutes} min {seconds} s", flush=True)
    return result


def store(results):
    """Stores what the parts took that ran, beside what is stored of the others."""
    took = {
        result.part.name: (round(result.seconds, 1), round(result.worked, 1))
        for result in results
        if result.seconds and not result.failed
    }
    stored = stored_seconds() | took
    names = sorted(part.name for part in (*suites(), *programs()) if part.name in stored)
    lines = [f"{name} {stored[name][0]} {stored[name][1]}\n" for name in names]
    title = "# What each part of ./test took: seconds by the clock, and of the processors.\n"
    beside = SECONDS.with_suffix(".new")
    beside.write_text(title + "".join(lines))
    beside.replace(SECONDS)


def asked_for():
    """The words of the command line."""
    parser = argparse.ArgumentParser(
        description=__doc__, formatter_class=argparse.RawDescriptionHelpFormatter
    )
    parser.add_argument("--store", action="store_true", help="store the seconds of each suite")
    parser.add_argument("name", nargs="*", help="a suite or a folder of suites")
    return parser.parse_args()


def main():
    asked = asked_for()
    parts = [*suites(), *programs()]
    if asked.name:
        lost = [name for name in asked.name if not named(parts, name)]
        if lost:
            print(f"test: no such suite: {' '.join(lost)}\n0 passed, {len(lost)} failed, 0 skipped")
            return 1
        chosen = {part.name for name in asked.name for part in named(parts, name)}
        parts = [part for part in parts if part.name in chosen]
        results = []
    else:
        results = [gate()]
    minutes = os.environ.get("TEST_MINUTES")
    processors = len(os.sched_getaffinity(0))
    places = processors if asked.store else 2 * processors
    runner = Runner(processors, places, int(minutes) if minutes else None)
    for number in (signal.SIGINT, signal.SIGTERM, signal.SIGHUP):
        signal.signal(number, lambda *_: runner.end())
    results += runner.run_all(parts)
    if asked.store:
        store(results)
    missed = sum(result.skipped for result in results if result.part.needed)
    if missed:
        print(f"test: {missed} tests of {' and '.join(NEEDED)} were skipped: none of them may be")
    passed, failed, skipped = (
        sum(getattr(result, name) for result in results) for name in ("passed", "failed", "skipped")
    )
    print(f"{passed} passed, {failed} failed, {skipped} skipped")
    return 1 if failed or missed else 0


if __name__ == "__main__":
    sys.exit(main())
