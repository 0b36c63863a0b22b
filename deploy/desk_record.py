"""Whether the database that `deploy/desk` opens has what its record leads to."""

import sys

from scripts import script


def others_of(record, setup, address):
    """Each return and each constituency that the office has otherwise than its record, in a line;
    none where the record is of another setup, to which the recorder then adds nothing."""
    replay = script("replay")

    class Compared(replay.Replay):
        def look(self, said):
            """A broken line is no reason to open nothing: `replay --check` names it."""

        def differs(self, place, now):
            """The record of a copy begins in the middle: it says nothing of a constituency that was
            certified before."""
            is_said = place[1] == "station" or place in self.known.own
            return super().differs(place, now) if is_said else None

    desks = {1: address}
    try:
        # (nothing is sent that was answered before this line)
        it = Compared(desks, sys.maxsize, None, {}, replay.Setup(setup, desks))
        with open(record, "rb") as lines:
            for line in lines:
                it.take(line.removesuffix(b"\n"))
    except replay.OtherSetup:
        return []
    it.compare_all()
    return it.others
