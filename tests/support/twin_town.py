"""Twin Town: the requests of its election, and what reports show of it."""

from tests.support.program import certify, close_return, new


def twin_town(db="office.db"):
    """Twin Town, certified: 100 votes each, and a lot that has B first."""
    new(db=db)
    close_return("s1", "c1", [100, 100], db=db)
    certify("c1", 3, [1, 2], [2, 1], db=db)
    return db


TALLY = """\
TALLY c1 Twin Town
stations 1 closed 1
valid 200 blank 0 spoiled 0
A                        100   50.00 in  Alpha
B                        100   50.00 in  Beta
"""


SEATS = """\
SEATS c1 Twin Town
edition 3
A                   1 Alpha
B                   2 Beta
total               3
"""


QUOTIENTS = """\
QUOTIENTS c1 Twin Town
A               *        100          50          33
B               *        100*         50          33
"""


AWARDS = """\
AWARDS c1 Twin Town
   1 B                  1           100     1         100
   2 A                  1           100     1         100
   3 B                  2           100     2          50
"""


SHORT = """\
SHORT c1 Twin Town
A                   1           1
B                   2         200
"""


HOLDERS = """\
HOLDERS c1 Twin Town
A                   1 Ana
B                   - empty
B                   - empty
"""


PAST = """\
PAST c1 Twin Town
edition 3
A                   1 Alpha
B                   2 Beta
"""


# The provisional seats: without a closed return, with equal votes, with the lot, and certified.
PROVISIONAL_NONE = """\
PROVISIONAL c1 Twin Town
stations 1 closed 0
no_eligible
A                   0 Alpha
B                   0 Beta
total               0
"""


PROVISIONAL_TIED = """\
PROVISIONAL c1 Twin Town
stations 1 closed 1
lot 1 A B
A                   1 Alpha
B                   1 Beta
total               2
"""


PROVISIONAL_OPEN = """\
PROVISIONAL c1 Twin Town
stations 1 closed 1
open
A                   1 Alpha
B                   2 Beta
total               3
"""


PROVISIONAL_CERTIFIED = """\
PROVISIONAL c1 Twin Town
stations 1 closed 1
certified
A                   1 Alpha
B                   2 Beta
total               3
"""


PROGRESS = "c1                    1      1      0      0      0      0      1 open\n"


COUNTRY_OPEN = """\
COUNTRY
constituencies 1 certified 0
stations 1 closed 0
A                     0             0 Alpha
B                     0             0 Beta
total                 0             0
seats 3 majority 2
"""


# A step of a script: the path, the body, and the answer's status and body.
SCRIPT = (
    (
        "/station/s1/lodge",
        {"slip": "p1", "votes": [100, 100], "blank": 0, "spoiled": 0},
        200,
        '{"ok":"lodged","rev":1}',
    ),
    ("/con/c1/certify", {"edition": 1}, 409, '{"left":1,"refused":14,"word":"not_all_closed"}'),
    ("/station/s1/close", {"rev": 1}, 200, '{"ok":"moved","rev":2}'),
    ("/station/s1/close", {"rev": 1}, 409, '{"now":2,"refused":11,"word":"stale"}'),
    (
        "/con/c1/certify",
        {"edition": 1},
        409,
        '{"group":["A","B"],"refused":19,"seats":1,"word":"lot_missing"}',
    ),
    (
        "/con/c1/draw",
        {"edition": 1, "order": ["A"]},
        409,
        '{"group":["A","B"],"refused":18,"word":"lot_wrong_group"}',
    ),
    ("/con/c1/draw", {"edition": 1, "order": ["B", "A"]}, 200, '{"edition":2,"ok":"edition"}'),
    (
        "/con/c1/draw",
        {"edition": 1, "order": ["B", "A"]},
        409,
        '{"now":2,"refused":11,"word":"stale"}',
    ),
    (
        "/con/c1/draw",
        {"edition": 2, "order": ["A", "B"]},
        409,
        '{"refused":16,"word":"lot_stands"}',
    ),
    ("/con/c1/certify", {"edition": 2}, 200, '{"edition":3,"ok":"edition"}'),
    ("/con/c1/certify", {"edition": 2}, 409, '{"refused":9,"word":"certified"}'),
    ("/station/s1/query", {"rev": 2, "note": "sum"}, 409, '{"refused":9,"word":"certified"}'),
    (
        "/con/c1/vacate",
        {"list": "B", "place": 1, "note": "resigned"},
        200,
        '{"next":null,"ok":"vacated"}',
    ),
    (
        "/con/c1/vacate",
        {"list": "B", "place": 1, "note": "resigned"},
        409,
        '{"refused":20,"word":"already_gone"}',
    ),
    (
        "/con/c1/vacate",
        {"list": "A", "place": 2, "note": "moved"},
        409,
        '{"refused":21,"word":"not_holder"}',
    ),
    ("/con/c1/reopen", {"edition": 3, "note": "recount"}, 200, '{"edition":4,"ok":"edition"}'),
    (
        "/con/c1/vacate",
        {"list": "A", "place": 1, "note": "moved"},
        409,
        '{"refused":10,"word":"not_certified"}',
    ),
    ("/station/s1/query", {"rev": 2, "note": "sum"}, 200, '{"ok":"moved","rev":3}'),
    (
        "/station/s1/correct",
        {"rev": 3, "slip": "p2", "votes": [120, 120], "blank": 0, "spoiled": 0},
        200,
        '{"ok":"moved","rev":4}',
    ),
    ("/station/s1/close", {"rev": 4}, 200, '{"ok":"moved","rev":5}'),
    (
        "/con/c1/certify",
        {"edition": 4},
        409,
        '{"group":["A","B"],"refused":19,"seats":1,"word":"lot_missing"}',
    ),
    ("/con/c1/draw", {"edition": 4, "order": ["A", "B"]}, 200, '{"edition":5,"ok":"edition"}'),
    ("/con/c1/certify", {"edition": 5}, 200, '{"edition":6,"ok":"edition"}'),
    (
        "/station/s1/lodge",
        {"slip": "p1", "votes": [100, 100], "blank": 0, "spoiled": 0},
        409,
        '{"refused":7,"rev":5,"word":"differs"}',
    ),
    (
        "/station/s1/lodge",
        {"slip": "p2", "votes": [120, 120], "blank": 0, "spoiled": 0},
        200,
        '{"ok":"same","rev":5}',
    ),
)


LODGE = (
    b"POST /station/s1/lodge HTTP/1.1\r\nContent-Length:"
    b' 51\r\n\r\n{"slip":"p1","votes":[50,40],"blank":2,"spoiled":1}'
)
