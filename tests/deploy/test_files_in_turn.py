"""Files that are imported or tried: one at a time, so that other commands wait for one at most, and
have most of the desk's time."""

import concurrent.futures
import contextlib
import statistics
import threading
import time
from types import SimpleNamespace

from tests.support.desks import answer_of, desk_with
from tests.support.recorder import command, recorder_alone
from tests.support.running import PATIENCE, until
from tests.support.safeguards import Safeguards
from tests.support.scripts import loaded

# How long a file takes the desk of a test; another command takes it no time.
SECONDS = 0.2
# The share of what a clerk lodges without files that is lodged among them at least. It is 0.8 here
# and 0.75 by what is left to others; where nothing is left to them, it is less than 0.05.
SHARE = 0.2


class SlowForFiles:
    """In place of the office something that each file holds for a while, and that counts them."""

    def __init__(self):
        self.begun = self.ended = 0

    def answered(self, head, _):
        target = head.split(b" ")[1]
        if b"/import" in target or b"/trial" in target:
            self.begun += 1
            time.sleep(SECONDS)
            self.ended += 1
        return answer_of("{}")


def lodges(seconds, lodge):
    """How many lodges one clerk gives in this time, with a short pause after each."""
    end, given = time.monotonic() + seconds, 0
    while time.monotonic() < end:
        lodge()
        given += 1
        time.sleep(0.02)
    return given


@contextlib.contextmanager
def files_of(name, at_once, give):
    """This many files of a name are always waiting or under way."""
    stop = threading.Event()

    def one_after_the_other(_):
        while not stop.is_set():
            give(name)

    with concurrent.futures.ThreadPoolExecutor(at_once) as threads:
        given = [threads.submit(one_after_the_other, n) for n in range(at_once)]
        try:
            yield
        finally:
            stop.set()
    for one in given:
        one.result()


class Turns(Safeguards):
    def clocked(self):
        """The files of a desk, with a clock that only moves while one is under way or waited for:
        these files, what is done for the given seconds, and the moments at which each began."""
        recorder, clock, began = loaded("recorder.py"), [1000.0], []

        def sleep(seconds):
            clock[0] += seconds

        recorder.time = SimpleNamespace(monotonic=lambda: clock[0], sleep=sleep)
        files = recorder.Files()

        def taking(seconds, other=False):
            def act():
                began.append(round(clock[0] - 1000, 3))
                if other:
                    with files.another():
                        pass
                clock[0] += seconds
                return "done"

            return act

        return files, taking, began, clock

    def test_what_is_left_to_others(self):
        """Three times as long as a file took; nothing where nobody else gives a command."""
        files, taking, began, clock = self.clocked()
        for seconds, other in ((2, False), (2, False), (2, True), (1, True), (12, True), (1, False),
                               (1, False), (1, False)):
            self.assertEqual(files.passed("clara", taking(seconds, other)), "done")
        # (4 + 2 + 6 = 12, 12 + 1 + 3 = 16, 16 + 12 + 36 = 64, then nothing is left to anybody)
        self.assertEqual(began, [0, 2, 4, 12, 16, 64, 65, 66])
        # A command that comes between two files counts too, and one before the last file not.
        with files.another():
            pass
        self.assertEqual(files.passed("clara", taking(1)), "done")
        self.assertEqual(files.passed("clara", taking(1)), "done")
        self.assertEqual(began[8:], [70, 71])
        # A turn that was left to others already is not left to them once more.
        with files.another():
            clock[0] += 2
        files.passed("clara", taking(1))
        self.assertEqual(began[10:], [75])

    def test_what_is_left_to_others_of_a_name(self):
        """After a long file of a name others wait ten seconds at most, and the next one of that
        name three times as long as it took, forty seconds at most."""
        for seconds, other, own in ((2, 8, 8), (5, 15, 20), (12, 22, 48), (30, 40, 70)):
            with self.subTest(seconds=seconds):
                files, taking, began, _ = self.clocked()
                files.passed("bruno", taking(seconds, True))
                files.passed("clara", taking(0))
                files.passed("bruno", taking(0))
                self.assertEqual(began, [0, other, own])

    def test_a_file_among_those_of_another_name(self):
        """It does not wait for a file of a name that has to wait itself."""
        recorder = loaded("recorder.py")
        recorder.REST, recorder.LONGEST_REST = 100, 0.05
        files, order = recorder.Files(), []
        files.passed("bruno", lambda: time.sleep(0.05))
        with files.another():
            pass
        with concurrent.futures.ThreadPoolExecutor(2) as at_once:
            at_once.submit(files.passed, "bruno", lambda: order.append("bruno"))
            until(lambda: files.waiting)
            at_once.submit(files.passed, "clara", lambda: order.append("clara")).result()
            self.assertEqual(order, ["clara"])
        self.assertEqual(order, ["clara", "bruno"])

    def test_a_command_goes_before_each_file_that_waits(self):
        """Those that came before a file's turn are done when it begins; one that came later does
        not hold it up."""
        files, order = loaded("recorder.py").Files(), []
        go_on, last = threading.Event(), threading.Event()

        def other(name, event):
            with files.another():
                event.wait()
                order.append(name)

        with concurrent.futures.ThreadPoolExecutor(3) as at_once, contextlib.ExitStack() as ended:
            # (also where it fails, nothing goes on waiting)
            ended.callback(go_on.set)
            ended.callback(last.set)
            at_once.submit(other, "lodge", go_on)
            until(lambda: files.under_way)
            file = at_once.submit(files.passed, "bruno", lambda: order.append("file"))
            until(lambda: files.waiting and files.waiting[0].before is not None)
            at_once.submit(other, "later", last)
            until(lambda: len(files.under_way) == 2)
            time.sleep(0.1)
            self.assertEqual(order, [])
            go_on.set()
            file.result(PATIENCE)
            last.set()
        self.assertEqual(order, ["lodge", "file", "later"])

    def test_the_share_of_lodges_among_long_files_of_a_name(self):
        """A desk that each file holds for longer than others' files wait at most, as a trial of a
        megabyte may: a clerk lodges at least 0.6 of what is lodged without, in one run."""
        recorder, desk = loaded("recorder.py"), threading.Lock()
        # (as seconds for minutes: a file takes half of one, and others wait an eighth at most)
        recorder.LONGEST_REST, recorder.LONGEST_OF_NAME = 0.125, 2.0
        files = recorder.Files()

        def lodge():
            with files.another(), desk:
                pass

        def try_file(name):
            def held():
                with desk:
                    time.sleep(0.5)

            files.passed(name, held)

        alone = lodges(4, lodge)
        with files_of("bruno", 4, try_file):
            among = lodges(12, lodge) / 3
        print(f"lodges in four seconds: {alone} alone, {among:.0f} among long files")
        self.assertGreater(among, SHARE * alone, (among, alone))

    def test_how_many_may_wait(self):
        """Four of a name, and sixteen of all; the places are free again afterwards, also where one
        has failed."""
        recorder = loaded("recorder.py")
        files, go_on, found = recorder.Files(), threading.Event(), []
        with concurrent.futures.ThreadPoolExecutor(24) as at_once, contextlib.ExitStack() as ended:
            ended.callback(go_on.set)

            def given(name):
                before = files.names.total()
                done = at_once.submit(files.passed, name, go_on.wait)
                until(lambda: files.names.total() > before or done.done())
                found.append((name, done.done() and done.result()))

            for name in 6 * ["clara"] + 5 * ["bruno"] + 4 * ["carla"] + 4 * ["nora"] + ["ana"]:
                given(name)
            go_on.set()
        many = recorder.TOO_MANY
        self.assertEqual(
            [done for _, done in found],
            4 * [False] + 2 * [many] + 4 * [False] + [many] + 8 * [False] + [many])
        self.assertEqual(files.names.total(), 0)
        self.assertRaises(ZeroDivisionError, files.passed, "clara", lambda: 1 / 0)
        self.assertEqual([files.passed("clara", lambda: 7) for _ in range(5)], [7] * 5)


class Commands(Safeguards):
    def test_files_of_one_name_at_once(self):
        """The fifth is answered 429 and not recorded; an import beside a trial waits for it."""
        go_on = threading.Event()

        def held(*_):
            go_on.wait(PATIENCE)
            return answer_of("{}")

        with desk_with(held) as port, recorder_alone(port):
            with concurrent.futures.ThreadPoolExecutor(8) as at_once:
                targets = ["/con/c1/import", "/con/c1/trial", "/con/c2/import/semicolon",
                           "/con/c2/trial/semicolon"] * 2
                given = [at_once.submit(command, target, b"x") for target in targets]
                until(lambda: sum(one.done() for one in given) == 4)
                go_on.set()
            self.assertEqual(sorted(one.result() for one in given), [200] * 4 + [429] * 4)
            # A role that may not give them waits for none, and takes no place.
            go_on.clear()
            with concurrent.futures.ThreadPoolExecutor(4) as at_once:
                given = [at_once.submit(command, "/con/c1/trial", b"x") for _ in range(4)]
                for target in ("/con/c1/import", "/con/c1/trial"):
                    self.assertEqual(command(target, b"x", allowed="0"), 403)
                go_on.set()
                self.assertEqual([one.result() for one in given], [200] * 4)

    def test_lodges_among_files(self):
        """While four files are always waiting, each lodge waits for one at most, and most lodges
        for none: counted at the desk, since a time is longer where the machine is busy."""
        office, waited = SlowForFiles(), []

        def lodge():
            ended = office.ended
            self.assertEqual(command(f"/station/s{len(waited)}/lodge"), 200)
            waited.append(office.begun - ended)

        with desk_with(office.answered) as port, recorder_alone(port):
            alone = lodges(4, lodge)
            self.assertEqual(set(waited), {0})
            waited.clear()
            with files_of("bruno", 4, lambda name: command("/con/c1/trial", b"x", name)):
                among = lodges(12, lodge) / 3
        waited.sort()
        print(f"lodges in four seconds: {alone} alone, {among:.0f} among files; files that a lodge "
              f"waited for: {statistics.mean(waited):.2f}, and {waited[-3:]} at most")
        self.assertGreater(office.ended, 5)
        self.assertEqual(statistics.median(waited), 0, waited)
        # (one may begin before a lodge comes to the desk, and one more before its answer is read)
        self.assertLessEqual(waited[-3], 2, waited)
        self.assertGreater(among, SHARE * alone, (among, alone))
