"""The files and the words of `deploy/password`, command by command, in a folder of names.

Nothing is started: the words of the tool are read in this process.
"""

import contextlib
import io
import os
import stat
from pathlib import Path
from unittest import mock

from tests.support.case import Case
from tests.support.office import LISTS, PROFILE, constituency, station
from tests.support.scripts import loaded

password = loaded("password")
STAFF = '# our names\nclara clerk;\nclara-2 clerk; # the other\nbea "board c1";\n'
SETUP = PROFILE + "".join(
    constituency(con, f"Town {con}", 3, "d0") + LISTS + "".join(map(station, stations))
    for con, stations in (("c1", ("s1", "s2")), ("c2", ("t1",))))
# Zeros where the tool draws lots. By openssl: the SHA-1 of this password and of eight zero bytes,
# with these after it.
ZEROS = "aaaa-aaaa-aaaa-aaaa-aaaa-aaaa"
HASHED = "{SSHA}B7Pyno2vQwXRhcIh75kSEW7NshwAAAAAAAAAAA==\n"


class Given(Case):
    prefix = "office-given-"

    def setUp(self):
        super().setUp()
        Path("names").mkdir(mode=0o750)
        self.folder = Path("names").resolve()
        self.write("staff.conf", STAFF)
        Path("setup.toml").write_text(SETUP, encoding="utf-8")
        for name, value in (("FOLDER", self.folder), ("SETUP", Path("setup.toml"))):
            patch = mock.patch.object(password, name, value)
            patch.start()
            self.addCleanup(patch.stop)
        self.addCleanup(os.umask, os.umask(0o022))

    def write(self, name, text):
        (self.folder / name).write_text(text, encoding="utf-8")

    def read(self, name):
        return (self.folder / name).read_text(encoding="utf-8")

    def run_tool(self, *words):
        """The status, what is printed, and what is said on standard error."""
        out, said = io.StringIO(), io.StringIO()
        with contextlib.redirect_stdout(out), contextlib.redirect_stderr(said):
            status = password.main(list(words))
        return status, out.getvalue(), said.getvalue()

    def zeros(self, *words):
        """Where each byte that is drawn is zero: how many were drawn, and what run_tool gives."""
        drawn = []

        def token_bytes(number):
            drawn.append(number)
            return bytes(number)

        with mock.patch.object(password.secrets, "token_bytes", token_bytes):
            found = self.run_tool(*words)
        return drawn, found

    def refused(self, said, *words):
        """With a line, and nothing is changed."""
        before = {path: path.read_bytes() for path in self.folder.rglob("*") if path.is_file()
                  and path.name != ".staff.lock"}
        self.assertEqual(self.run_tool(*words), (1, "", f"password: {said}\n"))
        for path, data in before.items():
            self.assertEqual(path.read_bytes(), data)

    # ---- the staff

    def test_the_password_of_one_of_the_staff(self):
        """Of 120 bits and with a salt of 64; it takes the place of the one before."""
        self.assertEqual(self.zeros("staff", "clara"), ([15, 8], (0, f"clara {ZEROS}\n", "")))
        self.assertEqual(self.read("staff.htpasswd"), f"clara:{HASHED}")
        self.write("staff.htpasswd", "bea:1\nCLARA:2\nclara-2:3\nclara:4\n")
        self.assertEqual(self.zeros("staff", "clara")[1][0], 0)
        self.assertEqual(self.read("staff.htpasswd"), f"bea:1\nclara-2:3\nclara:{HASHED}")
        self.assertEqual(stat.filemode((self.folder / "staff.htpasswd").stat().st_mode),
                         "-rw-r-----")
        self.refused(f"nora has no role: write it into {self.folder}/staff.conf first", "staff",
                     "nora")

    def test_whose_the_files_are(self):
        """Of who runs the tool, and of the group of the folder, which is the proxy's."""
        group = os.getgroups()[-1] if os.geteuid() else 33
        os.chown(self.folder, -1, group)
        for words in (("staff", "clara"), ("stations", "--all"), ("bind", "clara", "c1")):
            self.assertEqual(self.run_tool(*words)[0], 0)
        for name in ("staff.htpasswd", "staff.conf", "stations", "stations/s1"):
            with self.subTest(name=name):
                found = (self.folder / name).stat()
                self.assertEqual((found.st_uid, found.st_gid), (os.geteuid(), group))

    # ---- stations

    def test_the_passwords_of_stations(self):
        """Of one, of those that have none yet, of all, in the order of the setup."""
        self.assertEqual(self.zeros("stations", "s2"), ([15, 8], (0, f"s2 {ZEROS}\n", "")))
        self.assertEqual(self.read("stations/s2"), f"s2:{HASHED}")
        self.assertEqual(stat.filemode((self.folder / "stations").stat().st_mode), "drwxr-x---")
        self.assertEqual(self.zeros("stations", "--new")[1],
                         (0, f"s1 {ZEROS}\nt1 {ZEROS}\n", ""))
        self.assertEqual(self.zeros("stations", "--new")[1], (0, "", ""))
        self.write("stations/s2", "as it was")
        self.assertEqual(self.zeros("stations", "--all")[1],
                         (0, f"s1 {ZEROS}\ns2 {ZEROS}\nt1 {ZEROS}\n", ""))
        self.assertEqual(self.read("stations/s2"), f"s2:{HASHED}")
        self.assertEqual(sorted(os.listdir(self.folder / "stations")), ["s1", "s2", "t1"])
        self.refused("s3 is not a station of setup.toml", "stations", "s3")

    def test_a_setup_with_a_code_that_is_a_path(self):
        """None of its stations gets a password; one that is named and has a code does."""
        for code, is_code in (("../s2", False), ("x" * 17, False), ("x" * 16, True)):
            with self.subTest(code=code):
                Path("setup.toml").write_text(SETUP.replace('"s2"', f'"{code}"'), encoding="utf-8")
                if is_code:
                    self.assertEqual(self.zeros("stations", "--all")[1][0], 0)
                    self.assertEqual(self.read(f"stations/{code}"), f"{code}:{HASHED}")
                    continue
                for words in ("--all", "--new"):
                    self.refused(f"setup.toml: {code!r} is no code of a station", "stations", words)
                self.assertEqual(self.zeros("stations", "t1")[1][0], 0)
                self.assertEqual(os.listdir(self.folder / "stations"), ["t1"])

    # ---- where a name may act

    def test_to_bind_a_name(self):
        """To constituencies, each once, or to none; the other lines, the notes and the mode of the
        file stay."""
        (self.folder / "staff.conf").chmod(0o604)
        rows = ((("clara-2", "c2"), "clara-2: clerk, c2", 'clara-2 "clerk c2"; # the other'),
                (("clara-2", "c2", "c1", "c2"), "clara-2: clerk, c2, c1",
                 'clara-2 "clerk c2 c1"; # the other'),
                (("clara-2", "--all"), "clara-2: clerk, everywhere", "clara-2 clerk; # the other"))
        for words, said, line in rows:
            with self.subTest(words=words):
                self.assertEqual(self.run_tool("bind", *words), (0, f"{said}\n", ""))
                self.assertEqual(self.read("staff.conf"),
                                 STAFF.replace("clara-2 clerk; # the other", line))
                self.assertEqual((self.folder / "staff.conf").stat().st_mode & 0o777, 0o604)
        self.refused("c3 is not a constituency of setup.toml", "bind", "clara", "c1", "c3", "c4")
        self.refused(f"nora has no role: write it into {self.folder}/staff.conf first", "bind",
                     "nora", "c1")
        # Where it is to act in each, no setup is asked.
        Path("setup.toml").unlink()
        self.assertEqual(self.run_tool("bind", "bea", "--all")[0], 0)
        self.assertEqual(self.run_tool("bind", "bea", "c1")[0], 1)

    def test_the_names_and_where_they_act(self):
        names = "clara: clerk, everywhere\nclara-2: clerk, everywhere\nbea: board, c1\n"
        self.assertEqual(self.run_tool("names"), (0, names, ""))
        self.write("staff.conf", STAFF + "nora clerk; eva board;\nana board; ivo clerk;\n")
        status, out, said = self.run_tool("names")
        self.assertEqual((status, out), (1, names + "nora: clerk, everywhere\n"
                                                    "ana: board, everywhere\n"))
        self.assertIn(f"line 5 of {self.folder}/staff.conf may have a further name, and is not "
                      "read: 'nora clerk; eva board;'. Write one name a line", said)

    # ---- files that sites share, and words

    def test_files_that_sites_share(self):
        """A link stays one: the file to which it leads is written."""
        other = Path("shared")
        other.mkdir()
        for name in ("staff.conf", "staff.htpasswd"):
            (other / name).write_text(STAFF if name == "staff.conf" else "", encoding="utf-8")
            (self.folder / name).unlink(missing_ok=True)
            (self.folder / name).symlink_to((other / name).resolve())
        self.assertEqual(self.zeros("staff", "bea")[1][0], 0)
        self.assertEqual(self.run_tool("bind", "bea", "c2")[0], 0)
        for name in ("staff.conf", "staff.htpasswd"):
            self.assertTrue((self.folder / name).is_symlink())
        self.assertEqual((other / "staff.htpasswd").read_text(), f"bea:{HASHED}")
        self.assertIn('bea "board c2";', (other / "staff.conf").read_text())

    def test_where_the_files_of_a_site_are(self):
        done = []
        with mock.patch.object(password, "done", done.append):
            self.assertEqual(self.run_tool("--site", "a" * 64, "staff", "clara")[0], 0)
        self.assertEqual(done, [["staff", "clara"]])
        self.assertEqual((password.FOLDER, password.SETUP), (
            Path(f"/etc/nginx/office/{'a' * 64}"), Path(f"/etc/office/{'a' * 64}/setup.toml")))

    def test_words_that_are_wrong(self):
        """The usage is said, with status 2."""
        for words in ((), ("name",), ("names", "x"), ("staff",), ("staff", "clara", "bea"),
                      ("staff", "clara board"), ("staff", ""), ("staff", "x" * 33),
                      ("stations",), ("stations", "s/1"), ("stations", "s1", "s2"), ("bind",),
                      ("bind", "clara"), ("bind", "a b", "c1"),
                      ("bind", "clara", "c1", "c 2"), ("bind", "a b", "--all"),
                      ("--site", "A", "names"), ("--site", "a" * 65, "names"), ("--site",)):
            with self.subTest(words=words):
                status, out, said = self.run_tool(*words)
                self.assertEqual((status, out, said), (2, "", password.USAGE + "\n"))
        for word in ("--help", "-h"):
            status, out, said = self.run_tool(word, "names")
            self.assertEqual((status, out, said), (0, password.__doc__.strip() + "\n", ""))
        self.write("staff.conf", f"{'x' * 32} clerk;\n")
        self.assertEqual(self.zeros("staff", "x" * 32)[1][0], 0)

    def test_files_that_cannot_be_used(self):
        """A line says why, with status 1."""
        for text in ("[[constituency]]\n", "constituency = 3\n", "[", None):
            with self.subTest(text=text):
                Path("setup.toml").unlink(missing_ok=True)
                if text is not None:
                    Path("setup.toml").write_text(text, encoding="utf-8")
                status, out, said = self.run_tool("stations", "--all")
                self.assertEqual((status, out, said.count("\n"), said[:10]),
                                 (1, "", 1, "password: "))
        (self.folder / "staff.conf").unlink()
        self.assertEqual(self.run_tool("names")[0], 1)
