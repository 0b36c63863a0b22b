"""Offices of many certificates."""

from tests.support.office import PROFILE, constituency, party_list, station
from tests.support.program import database, new, put


def certificates(count):
    """The report of this many certificates of an office of sixty lists, each of an edition after
    the one before it was opened again.
    """
    lists = "".join(f"{f'L{n}':16}{3 if n == 1 else 0:5} {'n' * 80}\n" for n in range(1, 61))
    return "PAST c1 Twin Town\n" + "".join(
        f"edition {edition}\n{lists}" for edition in range(2, 2 * count + 2, 2)
    )


def reopened(count, db):
    """An office of sixty lists that was reopened so often, and the report of its certificates."""
    lists = "".join(party_list(f"L{n}", "n" * 80, "Ana") for n in range(1, 61))
    new(PROFILE + constituency("c1", "Twin Town", 3, "d0") + lists + station("s1"), db)
    put(
        "past",
        *(
            ("c1", edition, n, 3 if n == 1 else 0)
            for edition in range(2, 2 * count + 2, 2)
            for n in range(1, 61)
        ),
        db=db,
    )
    with database(db) as it:
        it.execute("UPDATE cons SET edition = ?, note = 'recount'", (2 * count + 1,))
    return certificates(count)
