"""Names of the staff that are bound to constituencies: they act there, and nowhere else."""

import contextlib
import json
import os
import stat
from pathlib import Path

from tests.support import tools
from tests.support.case import needs
from tests.support.clerks import choose_station, clerks_browser
from tests.support.desks import modelled, recording_desk
from tests.support.office import LISTS, PROFILE, constituency, station
from tests.support.running import PATIENCE
from tests.support.safeguards import Safeguards, WithSetup, run
from tests.support.scripts import module
from tests.support.site import DEPLOY

staff = module("staff")

# In c2 a station is called as one of c1, but for its capitals; c1c1 begins and ends as c1 does.
TOWNS = PROFILE + "".join(
    constituency(con, f"Town {con}", 3, "d0") + LISTS + "".join(map(station, stations))
    for con, stations in (("c1", ("s1", "t1")), ("c2", ("S1", "s2")), ("c1c1", ("s3",)))
)
NAMES = (
    'clara clerk;\nbruno "clerk c1";\ncarla "clerk c2 c1c1";\nnora "clerk ";\nnadia "clerk";\n'
    'berta board;\n'
    'bea "board c1";\nsara second;\nsonia "second c1";\n'
)
# The constituencies in which each may act.
OWN = {
    "clara": ("c1", "c2", "c1c1"),
    "bruno": ("c1",),
    "carla": ("c2", "c1c1"),
    "nora": (),
    "nadia": ("c1", "c2", "c1c1"),
    "berta": ("c1", "c2", "c1c1"),
    "bea": ("c1",),
    "sara": ("c1", "c2", "c1c1"),
    "sonia": ("c1",),
}
HOME = {"s1": "c1", "t1": "c1", "S1": "c2", "s2": "c2", "s3": "c1c1"}
ACTS = {
    "clerk": ("lodge", "query", "correct", "close", "import", "import/semicolon", "trial"),
    "second": ("confirm", "query"),
    "board": ("draw", "certify", "reopen", "vacate"),
}
OF_STATION = ("lodge", "query", "correct", "close", "confirm")
ROLES = {name: post.role for name, post in staff.posts(NAMES).items()}
TABLE = b"STATIONS c1 Town\nstations 1\ns1         300 received     1 p1      191       2       1\n"


@contextlib.contextmanager
def front_of(desk, setup=TOWNS, names=NAMES):
    Path("setup.toml").write_text(setup, encoding="utf-8")
    front = WithSetup(desk)
    front.configure(names)
    try:
        front.start()
        yield front
    finally:
        front.end()


def targets(act):
    """Each target of an act, with its constituency."""
    if act in OF_STATION:
        return [(f"/station/{code}/{act}", con) for code, con in HOME.items()]
    return [(f"/con/{con}/{act}", con) for con in ("c1", "c2", "c1c1")]


class Proxy(Safeguards):
    def address(self):
        """Each request from another address, so that no limit is reached."""
        self.number = getattr(self, "number", 0) + 1
        return f"127.0.{20 + self.number // 250}.{self.number % 250 + 1}"

    @needs("nginx", "openssl")
    def test_each_command_of_each_name(self):
        """As a wrong role: 403, and recorded; a wrong password is 401 everywhere."""
        with recording_desk() as (port, messages), front_of(port) as front:
            wanted = []
            for name, own in OWN.items():
                for target, con in (one for act in ACTS[ROLES[name]] for one in targets(act)):
                    with self.subTest(name=name, target=target):
                        before, status = len(messages), 200 if con in own else 403
                        found = front.ask("POST", target, "{}", name, source=self.address())
                        self.assertEqual(found.status, status)
                        self.assertEqual(len(messages) - before, int(status == 200))
                        if not target.split("/")[3] == "trial":
                            wanted.append((name, target, status))
            recorded = [(one["name"], one["path"], one["status"]) for one in front.record(100)]
            self.assertEqual(recorded, wanted)
            # A station that nobody knows is no bound name's.
            self.assertEqual([front.ask("POST", "/station/zz/lodge", "{}", name).status
                              for name in ("bruno", "nora", "clara")], [403, 403, 200])
            for target in ("/station/s2/lodge", "/station/s1/lodge", "/con/c2/import"):
                with self.subTest(target=target):
                    found = front.ask("POST", target, "{}", "bruno", password="x")
                    self.assertEqual(found.status, 401)

    @needs("nginx", "openssl")
    def test_what_a_bound_name_reads(self):
        """Slips and who did what of its constituencies, by each route; what is for everybody it
        sees everywhere."""
        with recording_desk(TABLE) as (port, _), front_of(port) as front:
            for name, own in OWN.items():
                sees = ROLES[name] != "second"
                for code, con in HOME.items():
                    for target, may in (
                        (f"/station/{code}", sees),
                        (f"/now/station/{code}", sees),
                        (f"/now/station/{code}/history", True),
                    ):
                        with self.subTest(name=name, target=target):
                            # The answer for one name is kept, and no other gets it.
                            found = front.ask("GET", target, name=name, source=self.address())
                            self.assertEqual(found.status, 200 if may and con in own else 403)
                for con in ("c1", "c2", "c1c1"):
                    for target, may in (
                        (f"/con/{con}/stations", sees),
                        (f"/con/{con}/returns", sees),
                        (f"/now/con/{con}/returns", sees),
                        (f"/now/con/{con}/stations", True),
                    ):
                        with self.subTest(name=name, target=target):
                            found = front.ask("GET", target, name=name, source=self.address())
                            self.assertEqual(found.status, 200 if may and con in own else 403)
                    for target in (f"/con/{con}", f"/con/{con}/tally", f"/now/con/{con}/seats",
                                   "/progress", "/now/progress", "/country", "/clerk.html"):
                        with self.subTest(name=name, target=target):
                            found = front.ask("GET", target, name=name, source=self.address())
                            self.assertEqual(found.status, 200)

    @needs("nginx", "openssl")
    def test_what_the_page_gets_to_know(self):
        with recording_desk() as (port, _), front_of(port) as front:
            for name, own in OWN.items():
                with self.subTest(name=name):
                    head = front.ask("HEAD", "/clerk.html", name=name).head
                    bound = head["X-Office-Bound-To"]
                    if name in ("clara", "berta", "sara", "nadia"):
                        self.assertIsNone(bound)
                    else:
                        self.assertEqual(tuple((bound or "").split()), own)
                    self.assertEqual(head["X-Office-Role"], ROLES[name])

    @needs("nginx", "openssl")
    def test_before_the_setup_is_known(self):
        """A bound name acts on no station, since nobody knows whose it is."""
        with recording_desk() as (port, _), front_of(port) as front:
            front.put("codes.conf", (DEPLOY / "nginx/codes.conf").read_text(encoding="utf-8"))
            front.process.terminate()
            front.process.wait()
            front.end_recorder()
            front.end_reader()
            front.start()
            asked = [
                front.ask("POST", target, "{}", name).status
                for name in ("bruno", "clara")
                for target in ("/station/s1/lodge", "/con/c1/import", "/con/c2/import")
            ]
            self.assertEqual(asked, [403, 200, 403, 200, 200, 200])


class Page(Safeguards):
    @needs("chromium", "nginx", "openssl")
    def test_it_shows_what_is_its_own(self):
        with modelled(TOWNS) as (_, port), front_of(port) as front:
            for name in ("carla", "bruno", "clara"):
                with self.subTest(name=name), clerks_browser(front, name) as it:
                    shown = it.run("return [...document.querySelectorAll('#con option')]"
                                   ".map((e) => e.value)")
                    self.assertEqual(tuple(shown), OWN[name])
                    if name == "carla":
                        choose_station(it, "s2")
                        self.assertEqual(it.text("#con option:checked"), "Town c2 (c2)")
            with clerks_browser(front, "nora", "may act in no constituency") as it:
                many = it.run("return document.querySelectorAll('#con option').length")
                self.assertEqual(many, 0)


class Names(Safeguards):
    def password(self, *words, folder="names"):
        done = tools.run(
            [DEPLOY / "password", *words], capture_output=True, text=True, timeout=PATIENCE,
            env={**os.environ, "PASSWORDS": folder, "SETUP": "setup.toml"})
        return done.returncode, done.stdout, done.stderr

    def setUp(self):
        super().setUp()
        Path("setup.toml").write_text(TOWNS, encoding="utf-8")
        Path("names").mkdir()
        self.file = Path("names/staff.conf")
        self.file.write_text(
            '#eva clerk;\nana clerk; # at the desk\n\tanabel  "clerk c1 c2" ;\nberta board;\n',
            encoding="utf-8")
        self.file.chmod(0o644)

    def test_binding_a_name(self):
        """Its line changes and no other; the file has the rights that it had."""
        self.assertEqual(self.password("bind", "ana", "c2", "c1c1", "c2"),
                         (0, "ana: clerk, c2, c1c1\n", ""))
        self.assertEqual(self.file.read_text(), (
            '#eva clerk;\nana "clerk c2 c1c1"; # at the desk\n\tanabel  "clerk c1 c2" ;\n'
            'berta board;\n'))
        self.assertEqual(stat.filemode(self.file.stat().st_mode), "-rw-r--r--")
        self.assertEqual(self.password("names")[1], (
            "ana: clerk, c2, c1c1\nanabel: clerk, c1, c2\nberta: board, everywhere\n"))
        self.assertEqual(self.password("bind", "anabel", "--all")[1], "anabel: clerk, everywhere\n")
        self.assertEqual(self.password("bind", "berta", "c1")[1], "berta: board, c1\n")
        self.assertEqual(self.file.read_text(), (
            '#eva clerk;\nana "clerk c2 c1c1"; # at the desk\n\tanabel  clerk ;\n'
            'berta "board c1";\n'))
        # A bound name gets a password like any other.
        self.assertEqual(self.password("staff", "ana")[0], 0)
        self.assertEqual(sorted(os.listdir("names")),
                         [".staff.lock", "staff.conf", "staff.htpasswd"])

    def test_names_in_lines_that_are_not_read(self):
        """The proxy reads a second name of a line, one in quotes or one of two lines. Such a line
        is named to whoever asks who may act."""
        text = self.file.read_text()
        self.assertEqual(self.password("names")[0], 0)
        for line in ("carl clerk; bea board;", '"bea" board;', "bea", "bea 'board';",
                     "include more.conf;"):
            with self.subTest(line=line):
                self.file.write_text(f"{text}{line}\n", encoding="utf-8")
                status, out, errors = self.password("names")
                self.assertEqual((status, out.count("board"), repr(line) in errors), (1, 1, True))
                self.assertIn("line 5 of names/staff.conf", errors)

    def test_what_cannot_be_bound(self):
        before = self.file.read_text()
        for words, status, why in (
            (("bind", "ana", "c9"), 1, "c9 is not a constituency of setup.toml"),
            (("bind", "ana", "c1", "C2"), 1, "C2 is not a constituency"),
            (("bind", "an", "c1"), 1, "an has no role"),
            (("bind", "s1", "c1"), 1, "s1 has no role"),
            (("bind", "ana"), 2, "usage: "),
            (("bind",), 2, "usage: "),
            (("bind", "a b", "c1"), 2, "usage: "),
            (("bind", "ana", "c 1"), 2, "usage: "),
            (("names", "ana"), 2, "usage: "),
        ):
            with self.subTest(words=words):
                found = self.password(*words)
                self.assertEqual((found[0], found[1], found[2].count("\n")), (status, "", 1))
                self.assertIn(why, found[2])
                self.assertEqual(self.file.read_text(), before)

    def test_a_name_bound_to_what_is_not_there(self):
        """The tool that reads the setup says so, and writes all the same; a station that is called
        as a bound name is refused."""
        self.file.write_text('ana "clerk c1 c7";\nS2x "board c1";\n', encoding="utf-8")
        said = run("setup-json", "setup.toml", ".", "names/codes.conf")[1]
        self.assertEqual(
            said, "ana is bound to c7, which is no constituency of this setup\n")
        self.file.write_text('S2 "board c1";\n', encoding="utf-8")
        said = run("setup-json", "setup.toml", ".", "names/codes.conf", status=1)[1]
        self.assertIn("station s2 is called as one of the staff", said)

    def test_the_station_of_each_constituency(self):
        """As the proxy reads it: names that differ in capitals alone are patterns."""
        text = run("setup-json", "setup.toml", ".")[0]
        homes = text[text.index('map ":$station" $home {'):].partition("}")[0].splitlines()[1:]
        self.assertEqual(homes, [
            "    default $con;", "    : $con;", '    "~^:s1\\z" c1;', "    :t1 c1;",
            '    "~^:S1\\z" c2;', "    :s2 c2;", "    :s3 c1c1;"])
        self.assertEqual(json.loads(Path("setup.json").read_text())[2]["code"], "c1c1")

    def test_posts(self):
        posts = staff.posts(NAMES)
        self.assertEqual(posts["clara"], ("clerk", None))
        self.assertEqual(posts["carla"], ("clerk", ("c2", "c1c1")))
        self.assertEqual((posts["nora"].cons, posts["nora"].words), ((), "clerk, nowhere"))
        self.assertEqual(posts["nadia"].words, "clerk, everywhere")
        for name, post in posts.items():
            said = staff.with_post(f"{name} clerk;\n", name, post)
            self.assertEqual(staff.posts(said), {name: post})
        self.assertEqual(set(staff.posts((DEPLOY / "nginx/staff.conf").read_text())),
                         {"clerk-1", "clerk-2", "second-1", "board-1"})
