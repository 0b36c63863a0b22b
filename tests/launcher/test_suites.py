"""How tests/run.py runs suites: which begins when, what is stored of each, and whose result counts.

The suites here are programs of a line or two.
"""

import contextlib
import io
import os
import sys
import threading
import time
from pathlib import Path
from unittest import mock

from tests import run
from tests.support.case import Case
from tests.support.running import until


WELL = "\nRan 1 test in 0.1s\n\nOK\n"
FAILED = "\nFAIL: test_it (tests.x.test_y.Y.test_it)\n\nRan 1 test in 0.1s\n\nFAILED (failures=1)\n"


def part(name, seconds=1, worked=1, **more):
    return run.Part(name, ["unittest", name], seconds, worked, **more)


def program(text):
    """A part that is a program in Python, and says in its last line what passed."""
    return run.Part("a program", [sys.executable, "-c", text])


class Noted(run.Runner):
    """Starts nothing: it notes what begins and what runs beside it, and each part ends when it may.
    """

    def __init__(self, *given, texts=(), wait=None):
        super().__init__(*given)
        self.begun, self.most, self.texts, self.wait = [], 0, dict(texts), wait

    def output_of(self, one, place):
        with self.lock:
            self.begun.append(one.name)
            self.most = max(self.most, len(self.under_way))
            beside = [other.name for other in self.under_way if other is not one]
            texts = self.texts.get(one.name, [WELL])
            text = texts.pop(0) if len(texts) > 1 else texts[0]
        if self.wait:
            self.wait(one, beside)
        return int(text != WELL), 1.0, text


class Quiet(Case):
    def setUp(self):
        super().setUp()
        self.said = self.enterContext(contextlib.redirect_stdout(io.StringIO()))


class Order(Quiet):
    def test_the_longest_begin_first_and_those_alone_last(self):
        """In one place; those that may not be skipped come before all others."""
        runner = Noted(1, 1, None)
        runner.run_all([
            part("short", 1), part("alone", 90, alone=True), part("long", 9), part("middle", 5),
            part("needed", 2, needed=True), part("alone too", 3, alone=True)])
        self.assertEqual(
            runner.begun, ["needed", "long", "middle", "short", "alone", "alone too"])

    def test_the_first_in_the_line_is_the_next_to_begin(self):
        """Whoever waits for room takes the first one then, and none was chosen before."""
        runner = Noted(1, 6, None)
        names = [f"s{n:02}" for n in range(40, 0, -1)]
        runner.run_all([part(name, int(name[1:]), 50) for name in reversed(names)])
        self.assertEqual((runner.begun, runner.most), (names, 1))

    def test_nothing_runs_beside_one_that_is_alone(self):
        found = {}
        runner = Noted(4, 6, None, wait=lambda one, beside: found.update({one.name: beside}))
        runner.run_all([part("alone", alone=True)] + [part(f"s{n}", 1, 0) for n in range(5)])
        self.assertEqual((found["alone"], len(found), runner.begun[-1]), ([], 6, "alone"))

    def most_at_once(self, worked, wanted):
        """How many of twelve parts run at once on four processors, where each waits until this many
        do, and a moment longer for one more."""
        runner = Noted(4, 8, None)

        def wait(*_):
            until(lambda: runner.most >= wanted)
            time.sleep(0.05)

        runner.wait = wait
        runner.run_all([part(f"s{n}", 1, worked) for n in range(12)])
        return runner.most

    def test_how_many_run_at_once(self):
        """Suites that keep a processor busy each: one for each of four processors. Those that wait
        a third of the time: six; those that wait half of it, or all of it: eight, for which there
        are places. Of suites that keep three busy a second one begins, since the first leaves one
        free, and no third."""
        for worked, most in ((1, 4), (0.67, 6), (0.5, 8), (0, 8), (3, 2)):
            with self.subTest(worked=worked):
                self.assertEqual(self.most_at_once(worked, most), most)

    def test_a_suite_of_which_nothing_is_stored(self):
        """It counts as one that keeps a processor busy."""
        self.assertEqual((run.Part("new", [], 7, 7).busy, run.Part("new", []).busy), (1, 1))
        with mock.patch.object(run, "SECONDS", Path("nothing.txt")):
            self.assertEqual({one.busy for one in run.suites()}, {1})

    def test_a_suite_that_is_busier_than_the_machine_runs_all_the_same(self):
        runner = Noted(2, 3, None)
        runner.run_all([part("busy", 1, 9), part("other", 1, 9)])
        self.assertEqual((runner.begun, runner.most), (["busy", "other"], 1))


class Results(Quiet):
    def test_a_second_run_counts(self):
        """A suite that fails runs once more when all others have ended; nothing runs a third
        time."""
        runner = Noted(1, 1, None, texts={"once": [FAILED, WELL], "twice": [FAILED]})
        results = runner.run_all([part("once", 3), part("twice", 2), part("well", 1)])
        self.assertEqual(runner.begun, ["once", "twice", "well", "once", "twice"])
        self.assertEqual({one.part.name: (one.passed, one.failed) for one in results},
                         {"once": (1, 0), "twice": (0, 1), "well": (1, 0)})

    def test_what_does_not_begin_once_it_is_late(self):
        """Others count as skipped; what is needed runs."""
        with mock.patch.object(run, "BEGAN", time.monotonic() - 60):
            runner = Noted(1, 1, 1)
            results = runner.run_all([part("other"), part("needed", needed=True)])
        self.assertEqual((runner.begun, [one.skipped for one in results]), (["needed"], [0, 1]))

    def test_what_is_measured_of_a_part(self):
        """The seconds of the processors are those of what it starts, too: here nearly all of
        them."""
        text = ("import subprocess, sys; "
                "subprocess.run([sys.executable, '-c', 'sum(range(10**7))']); "
                "print('3 passed, 0 failed, 2 skipped')")
        found = run.Runner(1, 1, None).run(program(text))
        alone = run.Runner(1, 1, None).run(program("print('1 passed, 0 failed')"))
        self.assertEqual((found.passed, found.failed, found.skipped), (3, 0, 2))
        self.assertGreater(found.seconds, 0)
        self.assertGreater(found.worked, alone.worked + 0.02)

    def test_parts_are_ended_with_the_runner(self):
        """A part that runs is asked to end, and one that waits does not begin."""
        runner = run.Runner(1, 1, None)
        parts = [program("import time; open('begun', 'w').close(); time.sleep(600)"),
                 program("open('second', 'w').close()")]
        for one in parts:
            one.words[2] = f"import os; os.chdir({os.getcwd()!r}); {one.words[2]}"
        results = []
        thread = threading.Thread(target=lambda: results.extend(runner.run_all(parts)))
        thread.start()
        until(lambda: Path("begun").exists())
        runner.end()
        thread.join(60)
        self.assertFalse(thread.is_alive())
        self.assertEqual([one.failed for one in results], [1, 1])
        self.assertFalse(Path("second").exists())


class Names(Case):
    def test_what_a_name_stands_for(self):
        parts = [*run.suites(), *run.programs()]
        memory = [f"bench/refused_{of}.py" for of in ("memory", "requests", "program")]
        for name, wanted in (
            ("import", ["program/test_import"]), ("deploy/limits", ["deploy/test_limits"]),
            ("tests/deploy/test_limits.py", ["deploy/test_limits"]), ("bench", memory),
            ("bench/refused_program.py", memory[2:]), ("nonesuch", []),
        ):
            with self.subTest(name=name):
                self.assertEqual([part.name for part in run.named(parts, name)], wanted)
        found = [part.name for part in run.named(parts, "launcher")]
        self.assertIn("launcher/test_suites", found)
        self.assertEqual({name.split("/")[0] for name in found}, {"launcher"})


class Stored(Quiet):
    def setUp(self):
        super().setUp()
        self.enterContext(mock.patch.object(run, "SECONDS", Path("seconds.txt")))

    def test_what_is_stored(self):
        """Of the suites that ran and did not fail, beside what was stored of others; nothing of
        suites that are there no more."""
        Path("seconds.txt").write_text(
            "# A comment.\nlauncher/test_gone 5.0 5.0\nlauncher/test_speed 6.0 4.0\n"
            "launcher/test_small 7.0 1.0\nlauncher/test_build 8.0 2.0\n")

        def ran(name, seconds, worked, **more):
            return run.Result(part(name), seconds=seconds, worked=worked, **more)

        run.store([ran("launcher/test_speed", 12.345, 3.21), ran("deploy/test_floods", 61, 70.04),
                   ran("launcher/test_build", 99, 99, failed=1), ran("rt ci", 3000, 9000),
                   ran("bench/refused_program.py", 20, 10)])
        self.assertEqual(run.stored_seconds(), {
            "bench/refused_program.py": (20, 10), "deploy/test_floods": (61, 70),
            "launcher/test_build": (8, 2), "launcher/test_small": (7, 1),
            "launcher/test_speed": (12.3, 3.2)})
        found = {one.name: (one.seconds, one.busy) for one in (*run.suites(), *run.programs())}
        self.assertEqual(found["launcher/test_small"], (7, 1 / 7))
        self.assertEqual(found["bench/refused_program.py"], (20, 0.5))
        self.assertEqual(found["bench/refused_memory.py"], (300, 1))
