"""The costs of requests to a server: processor time, and what it reads of its database."""

import os
import re
import statistics
import time
from pathlib import Path

from tests.support.beside import get, post
from tests.support.desk import serving
from tests.support.program import same


TIMES = 5


# The nanoseconds of the processor that an answer takes at least. Where a virtual machine waits for
# its host, Linux counts fewer, down to none.
FEWEST = 100_000


def has_taken(desk):
    """The nanoseconds of the processor that a server has taken so far."""
    # (the clock of a process, as Linux numbers it: clock_getcpuclockid)
    return time.clock_gettime_ns(~desk.process.pid << 3 | 2)


def spent(desk, *request, times=TIMES, status=200):
    """The nanoseconds of the processor that an answer takes, the median of `times` of this status:
    other work on the machine adds to some.
    """
    took = []
    for _ in range(times):
        before = has_taken(desk)
        same(desk.ask(*request)[0], status, request[:2])
        took.append(has_taken(desk) - before)
    return max(FEWEST, statistics.median(took))


def has_read(desk):
    """The bytes that a server has read so far, as Linux counts them: of its files, not what clients
    send.
    """
    text = Path(f"/proc/{desk.process.pid}/io").read_text(encoding="ascii")
    return int(re.search(r"^rchar: (\d+)$", text, re.M)[1])


def reads_each_return_once(db, con):
    """To publish the returns reads no more than the file has: on any machine some three quarters of
    it, and half as much again as all of it where each return is read twice. It takes less of the
    processor than two openings, and takes some fifth of one. Read for each list it would take
    twelve.
    """
    file = os.path.getsize(db)
    with serving(db, 2 * TIMES) as desk:
        opening = has_taken(desk)
        for report in ("returns", "stations"):
            before = has_read(desk)
            took = spent(desk, *get(f"/con/{con.code}/{report}"))
            read = (has_read(desk) - before) / TIMES
            print(f"the {report}: {read:,.0f} bytes of {file:,}; {took / opening:.2f} openings")
            assert 0 < read <= file, f"the {report}: {read} bytes are read, and {file} are there"
            assert took <= 2 * opening, f"the {report}: {took} ns, and the opening {opening}"


def costs_no_more(what, most, least):
    """It takes at most ten times as much of the processor as the same where there is little.

    Rows that need not be read would take more.
    """
    if os.environ.get("TIMES"):
        print(f"{what:40} {least:14,.0f} {most:14,.0f} {most / least:6.2f}", flush=True)
    assert most <= 10 * least, f"{what}: {most} ns, and {least} where there is little"


def closed_too_late(con):
    """A Close of a revision that is past, or is not there yet: it is refused."""
    station = min(con.electors)
    return post(f"/station/{station}/close", rev=con.returns[station]["rev"] % 2 + 1)


def lodged_again(con):
    station = min(con.electors)
    return post(
        f"/station/{station}/lodge",
        **{key: con.returns[station][key] for key in ("slip", "votes", "blank", "spoiled")},
    )
