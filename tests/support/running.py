"""Ports, waiting, measuring and signals, for everything that starts processes."""

import contextlib
import os
import random
import signal
import socket
import time


# How many seconds a test waits for what has to come, on a machine that is slow or busy.
PATIENCE = 600
# The seconds that a usual processor takes for the work of `slowness`.
USUAL = 0.16


def take_signals():
    """Lets signals end this program, as an interrupt does, so that it ends what it started.

    A program in the background may begin with signals ignored, and what it starts then ignores
    them too.
    """
    for number in (signal.SIGINT, signal.SIGTERM, signal.SIGHUP):
        signal.signal(number, signal.default_int_handler)


# The ports to choose from. tests/run.py gives each suite some of its own.
FIRST, LAST = map(int, os.environ.get("TEST_PORTS", "10000-29999").split("-"))
GIVEN = set()


def free_port():
    """A port that is free, another one each time.

    It is none of those that the system gives to whoever connects, so that nobody has it before it
    is listened on.
    """
    while True:
        port = random.randint(FIRST, LAST)
        with contextlib.suppress(OSError), socket.create_server(("127.0.0.1", port)):
            if port not in GIVEN:
                GIVEN.add(port)
                return port


def is_listened_to(path):
    """Whether a program takes connections at a socket of this path, which is there a moment before
    it does.
    """
    with contextlib.suppress(OSError), socket.socket(socket.AF_UNIX) as it:
        it.connect(str(path))
        return True
    return False


def until(true, seconds=PATIENCE):
    """Waits until it is true."""
    end = time.monotonic() + seconds
    while not true():
        assert time.monotonic() < end, "waited in vain"
        time.sleep(0.05)


def tries(measure, times=3):
    """The result of a measurement that other work on the machine can spoil.

    It is made again, up to this number of times, before it fails.
    """
    for left in reversed(range(times)):
        try:
            return measure()
        except AssertionError as missed:
            if not left:
                raise
            print(f"measured again: {missed}", flush=True)


def slowness():
    """How many times as long as usual, at least once, some work takes a processor now."""
    began, found = time.process_time(), {}
    for n in range(1_000_000):
        found[n % 1000] = found.get(n % 1000, 0) + n
    return max(1, (time.process_time() - began) / USUAL)
