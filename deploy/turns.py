"""How many requests each name may have, how what is read of the record takes turns, and that a
command which is sent again has the answer of the first.

recorder.py and reader.py ask it. The proxy has seen the password of each name, so that nobody else
takes its places.
"""

import collections
import contextlib
import threading
import time

# Of a name this many requests for what the record has may wait or be under way, and of all names
# this many. After each turn others have three times as long, this many seconds at most.
READ_OF_NAME, READ, REST, LONGEST_REST = 2, 16, 3, 1.0
# The last answers of a name that are kept, for commands that are sent again.
KEPT_OF_NAME = 8


class Places:
    """The places of requests that wait or are under way: a number for each name, and one for all."""

    def __init__(self, of_name, of_all):
        self.of_name, self.of_all = of_name, of_all
        self.names, self.lock = collections.Counter(), threading.Lock()

    @contextlib.contextmanager
    def taken(self, name):
        """Whether there is a place for a name. It has the place until the context ends."""
        with self.lock:
            # (where half of all are taken a name has two, as many as its page asks for at once)
            of_name = self.of_name if 2 * self.names.total() < self.of_all else min(2, self.of_name)
            is_free = self.names[name] < of_name and self.names.total() < self.of_all
            self.names[name] += is_free
        try:
            yield is_free
        finally:
            with self.lock:
                self.names[name] -= is_free
                if not self.names[name]:
                    del self.names[name]


class Turn:
    """One at a time; after each, others have three times as long."""

    def __init__(self):
        # Whose turn it is, and the moment before which nobody has the next one.
        self.lock, self.moment = threading.Lock(), 0.0

    def __enter__(self):
        self.lock.acquire()
        time.sleep(max(0.0, self.moment - time.monotonic()))
        self.began = time.monotonic()

    def __exit__(self, *_):
        end = time.monotonic()
        self.moment = end + min(REST * (end - self.began), LONGEST_REST)
        self.lock.release()


class Reading:
    """Requests for what the record has: one at a time, while commands have most of the time."""

    def __init__(self):
        self.places, self.turn = Places(READ_OF_NAME, READ), Turn()

    def passed(self, name, act):
        """The value of an act, once it has its turn; None where too many wait."""
        with self.places.taken(name) as has_place:
            if not has_place:
                return None
            with self.turn:
                return act()


class Once:
    """The commands that are under way, and the last answers of each name: a command that is sent
    again has the answer of the first."""

    def __init__(self):
        self.changed, self.under_way, self.kept = threading.Condition(), set(), {}

    def passed(self, name, command, act, is_kept=lambda found: True):
        """The answer to a command of a name. While it is under way already its answer is waited
        for; where that ended without one, or with one that is not kept, it is done again."""
        with self.changed:
            self.changed.wait_for(lambda: (name, command) not in self.under_way)
            kept = self.kept.setdefault(name, {})
            if command in kept:
                return kept[command]
            self.under_way.add((name, command))
        try:
            found = act()
            with self.changed:
                if is_kept(found):
                    kept[command] = found
                if len(kept) > KEPT_OF_NAME:
                    del kept[next(iter(kept))]
            return found
        finally:
            with self.changed:
                self.under_way.remove((name, command))
                self.changed.notify_all()
