"""The contents of the Debian package, function by function: modes, sizes, texts and times. No
package is built.
"""

import contextlib
import gzip
import hashlib
import io
import os
import stat
import sys
from pathlib import Path
from unittest import mock

from tests.support.case import ROOT, Case
from tests.support.scripts import loaded

ELF = b"\x7fELF" + bytes(14) + bytes([62, 0]) + b"GLIBC_2.4\0GLIBC_2.34\0GLIBC_2.17\0"
MOMENT = 1_764_540_000  # 2025-11-30 22:00:00 UTC
COMMIT = "0123456789abcdef0123456789abcdef01234567"


class OfMakeDeb(Case):
    def setUp(self):
        super().setUp()
        self.deb = loaded("make-deb")

    def build(self, program=ELF, moment=MOMENT):
        return self.deb.Build(COMMIT, "Ana <ana@example.org>", moment, "a kit", "0.1.0+1", program)

    def main(self, *words):
        """The status, what is printed and what is said."""
        printed, said = io.StringIO(), io.StringIO()
        with mock.patch.object(sys, "argv", ["make-deb", *words]), \
                contextlib.redirect_stdout(printed), contextlib.redirect_stderr(said):
            try:
                status = self.deb.main()
            except SystemExit as ended:
                status = ended.code
        return status, printed.getvalue(), said.getvalue()


class Made(OfMakeDeb):
    def given(self, program, differs="", environment="", **words):
        """The build of a program, in a tree of which git says that these files differ."""
        Path("program").write_bytes(program)
        said = {"show": f"{COMMIT}\n{MOMENT}\nAna <ana@example.org>", "status": differs}
        self.deb.git = lambda what, *_: said[what]
        self.deb.ran = lambda *asked: f"{' '.join(asked)} says\n"
        given = self.deb.argparse.Namespace(
            **{"program": Path("program"), "kit": None, "uncommitted": False} | words)
        with mock.patch.dict(os.environ, {"SOURCE_DATE_EPOCH": environment}):
            return self.deb.read_build(given)

    def test_a_build(self):
        """Its version has the commit and its time, or that of the environment, and says whether
        files differ."""
        for words, kit, version, moment in (
                ({}, "rt version says", "20251130220000.01234567", MOMENT),
                ({"kit": "a kit"}, "a kit", "20251130220000.01234567", MOMENT),
                ({"environment": "61"}, "rt version says", "19700101000101.01234567", 61),
                ({"differs": " M deploy/a", "uncommitted": True}, "rt version says",
                 "20251130220000.01234567.uncommitted", MOMENT),
                ({"uncommitted": True}, "rt version says", "20251130220000.01234567", MOMENT)):
            with self.subTest(words=words):
                found = self.given(ELF, **words)
                self.assertEqual(found, self.deb.Build(
                    COMMIT, "Ana <ana@example.org>", moment, kit, f"0.1.0+{version}", ELF))
                self.assertEqual((found.machine, found.sha256),
                                 ("amd64", hashlib.sha256(ELF).hexdigest()))

    def test_programs_of_which_none_is_made(self):
        for program, said in (
                (b"\x7fELG" + ELF[4:], "program is no program for amd64"),
                (ELF[:18] + bytes([183, 0]) + ELF[20:], "program is no program for amd64"),
                (ELF[:18] + bytes([62, 1]) + ELF[20:], "program is no program for amd64"),
                (ELF[:17] + bytes([62, 0, 0]), "program is no program for amd64"),
                (b"", "program is no program for amd64")):
            with self.subTest(program=program), self.assertRaises(self.deb.Fault) as fault:
                self.given(program)
            self.assertEqual(str(fault.exception), said)
        with self.assertRaises(self.deb.Fault) as fault:
            self.given(ELF, differs=" M deploy/a")
        self.assertEqual(str(fault.exception),
                         "files differ from the commit (--uncommitted):\n M deploy/a")

    def test_the_library_that_a_program_needs(self):
        for program, wanted in ((ELF, "2.34"), (b"", None), (b"GLIBC_PRIVATE\0", None),
                                (b"GLIBC_2.9\0GLIBC_2.10.1\0GLIBC_2.10\0", "2.10.1"),
                                (b"GLIBC_2.99x", None)):
            self.assertEqual(self.deb.libc_of(program), wanted)

    def test_what_other_programs_print(self):
        ran, python = self.deb.ran, sys.executable
        self.assertEqual(ran(python, "-c", "print('a')"), "a\n")
        for code, said in (("exit('b')", "b"), ("print('c'); exit(1)", "c")):
            with self.assertRaises(self.deb.Fault) as fault:
                ran(python, "-c", code, "more")
            self.assertEqual(str(fault.exception), f"{python} -c {code}: {said}")
        for program in (ran, self.deb.help_of):
            with self.assertRaisesRegex(self.deb.Fault, "^none(such|such does not run here): No"):
                program("nonesuch")

    def test_what_a_program_says_of_itself(self):
        """On either of its outputs, eighty columns wide."""
        python, helped = sys.executable, self.deb.help_of
        columns = "import os, sys; print(os.environ['COLUMNS'], repr(sys.stdin.read()))"
        for code, said in ((columns, "80 ''"), ("import sys; sys.exit('\\na\\nb\\n')", "a\nb"),
                           ("import sys; print(' c'); sys.exit('d')", " c")):
            self.assertEqual(helped(python, "-c", code), said)
        with self.assertRaisesRegex(self.deb.Fault, "pass says nothing$"):
            helped(python, "-c", "pass")


class Contents(OfMakeDeb):
    def test_a_file_of_deploy(self):
        unit = b"# About it.\n[Unit]\nDescription=An office\n"
        for name, data, place, mode in (
                ("office.service", unit, "lib/systemd/system/office@.service", 0o644),
                ("office-backup.timer", unit, "lib/systemd/system/office-backup@.timer", 0o644),
                ("office.toml", b"a", "usr/lib/office/office.toml", 0o644),
                ("other.service", b"a", "usr/lib/office/other.service", 0o644),
                ("nginx.conf", b"a", "usr/share/office/nginx.conf", 0o644),
                ("status.toml", b"a", "usr/share/office/status.toml", 0o644),
                ("press.py", b"a", "usr/lib/office/press.py", 0o644),
                ("desk", b"#!/usr/bin/env python3\n", "usr/lib/office/desk", 0o755)):
            with self.subTest(name=name):
                [(where, (said, how))] = self.deb.of_deploy(name, data).items()
                self.assertEqual((where, how), (place, mode))
                self.assertEqual(said == data, "@" not in place)

    def test_where_each_file_is(self):
        """Tools run where they are; what is among the documents is for reading."""
        asked = []

        def tracked(*places):
            asked.append(places)
            return [Path(name) for name in (
                ("deploy/desk", "deploy/make-deb", "deploy/README.md", "deploy/office.service",
                 "deploy/templates/page.html", "deploy/www/clerk.html", "deploy/pictures/a.png",
                 "deploy/nginx/policy.conf", "deploy/package/postinst", "deploy/clerk/script.js")
                if places == ("deploy",) else ("README.md", "examples/recount.py"))]

        self.deb.tracked, self.deb.HERE = tracked, ROOT / "deploy"
        self.deb.manuals = lambda _: {"office.1": "one", "office-site.8": "eight"}
        self.deb.ROOT = self.tree()
        found = self.deb.contents(self.build())
        tools, share, documents = "usr/lib/office", "usr/share/office", "usr/share/doc/office"
        modes = {name: mode for name, (_, mode) in found.items()}
        self.assertEqual({name for name, mode in modes.items() if mode == 0o755}, {
            "usr/bin/office", f"{tools}/desk", f"{tools}/recount.py"})
        self.assertEqual({name for name, mode in modes.items() if mode == 0o644}, {
            "lib/systemd/system/office@.service", f"{tools}/templates/page.html",
            f"{share}/www/clerk.html", f"{share}/nginx/policy.conf", f"{share}/ports.nft",
            "lib/systemd/system/office-ports.service", "usr/lib/sysusers.d/office.conf",
            "usr/lib/tmpfiles.d/office.conf", "usr/share/lintian/overrides/office",
            "usr/share/man/man1/office.1.gz", "usr/share/man/man8/office-site.8.gz",
            *(f"{documents}/{name}" for name in (
                "copyright", "README.Debian", "README.md", "examples/recount.py", "BUILD",
                "changelog.gz"))})
        self.assertEqual(found["usr/bin/office"][0], ELF)
        self.assertEqual(found[f"{documents}/BUILD"][0].decode(), (
            f"commit: {COMMIT}\nkit: a kit\nprogram: {hashlib.sha256(ELF).hexdigest()}\n"))
        self.assertEqual(gzip.decompress(found["usr/share/man/man8/office-site.8.gz"][0]), b"eight")
        self.assertEqual(asked[1][:3], ("README.md", "docs", "examples"))

    def tree(self):
        """A tree of the files that are named here."""
        place = Path.cwd() / "tree"
        for name in ("deploy/desk", "deploy/make-deb", "deploy/README.md", "deploy/office.service",
                     "deploy/templates/page.html", "deploy/www/clerk.html", "deploy/pictures/a.png",
                     "deploy/nginx/policy.conf", "deploy/package/postinst",
                     "deploy/clerk/script.js", "README.md", "examples/recount.py"):
            (place / name).parent.mkdir(parents=True, exist_ok=True)
            (place / name).write_text("#!/usr/bin/env python3\n", encoding="utf-8")
        return place

    def test_manual_pages(self):
        """No line of a text is a command of the manual."""
        found = self.deb.manual(self.build(), "office-site", 8, "sets up", {"A-B": ".a\n'b\\c\n-d"},
                                "office(1)")
        self.assertEqual(found, """\
.TH OFFICE-SITE 8 2025-11-30 "office 0.1.0" ""
.SH NAME
office\\-site \\- sets up
.SH "A\\-B"
.nf
\\&.a
\\&'b\\ec
\\-d
.fi
.SH SEE ALSO
office(1)
""")

    def test_what_the_manual_pages_have(self):
        """The words of the program on itself and each of its commands, and of office-site."""
        asked = []

        def helped(*words):
            asked.append([getattr(word, "name", str(word)) for word in words])
            self.assertTrue(words[0] == sys.executable or os.access(words[0], os.X_OK))
            return f"about {' '.join(asked[-1][1:-1]) or 'all'}"

        self.deb.help_of = helped
        found = self.deb.manuals(self.build())
        commands = ("check", "allot", "new", "import", "show", "serve")
        self.assertEqual(asked[:-1], [["office", "--help"],
                                      *(["office", name, "--help"] for name in commands)])
        self.assertEqual(asked[-1][1:], ["office-site", "--help"])
        self.assertEqual(set(found), {"office.1", "office-site.8"})
        text = found["office.1"]
        for head, about in (("DESCRIPTION", "all"),
                            *((f"OFFICE {name.upper()}", name) for name in commands)):
            self.assertIn(f'.SH "{head}"\n.nf\nabout {about}\n.fi\n', text)
        self.assertIn(".TH OFFICE 1 2025-11-30 ", text)
        self.assertIn(".TH OFFICE-SITE 8 2025-11-30 ", found["office-site.8"])
        self.assertIn("office\\-site(8)\n\nThe documents in ", text)

    def test_texts_that_are_compressed(self):
        """As well as it can be, and whatever the time is."""
        text = "ñ" * 1000
        found = self.deb.compressed(text)
        self.assertEqual(gzip.decompress(found).decode(), text)
        # (the time, and that it is the best compression)
        self.assertEqual((found[4:8], found[8]), (bytes(4), 2))

    def test_the_changes(self):
        self.assertEqual(self.deb.changelog(self.build()), (
            f"office (0.1.0+1) unstable; urgency=medium\n\n  * Commit {COMMIT}.\n\n"
            " -- Ana <ana@example.org>  Sun, 30 Nov 2025 22:00:00 +0000\n"))

    def test_the_control_file(self):
        """A file takes each kilobyte that it begins, and one for its name."""
        files = {str(size): (bytes(size), 0o644) for size in (0, 1, 1024, 1025)}
        for program, libc in ((ELF, "libc6 (>= 2.34), "), (ELF[:20], "")):
            said = self.deb.control(self.build(program), files)
            fields = dict(line.split(": ", 1) for line in said.splitlines()
                          if not line.startswith(" "))
            self.assertEqual(fields.pop("Description"),
                             "electoral office for party-list elections")
            self.assertEqual(fields, {
                "Package": "office", "Version": "0.1.0+1", "Architecture": "amd64",
                "Maintainer": "Ana <ana@example.org>", "Installed-Size": "8",
                "Depends": libc + "nginx-light | nginx, nftables, openssl, python3 (>= 3.11), "
                                  "python3-jinja2, systemd (>= 252)",
                "Recommends": "curl, openssh-client, rsync, systemd-timesyncd | time-daemon",
                "Section": "misc", "Priority": "optional", "Office-Commit": COMMIT,
                "Office-Kit": "a kit",
                "Office-Program-SHA256": hashlib.sha256(program).hexdigest()})

    def test_a_folder_of_the_package(self):
        """Each file and folder has its mode, and the time of the commit, also a link."""
        self.deb.contents = lambda _: {"usr/bin/office": (b"1", 0o755), "usr/a": (b"22", 0o644)}
        before = os.umask(0o077)
        try:
            self.deb.stage(Path("all"), self.build())
        finally:
            os.umask(before)
        self.assertEqual(Path("all/DEBIAN/md5sums").read_text(), (
            f"{hashlib.md5(b'22').hexdigest()}  usr/a\n"
            f"{hashlib.md5(b'1').hexdigest()}  usr/bin/office\n"))
        found = {str(file): (stat.filemode(file.lstat().st_mode), file.lstat().st_mtime)
                 for file in (Path("all"), *Path("all").rglob("*"))}
        folder, text, program, link = "drwxr-xr-x", "-rw-r--r--", "-rwxr-xr-x", "lrwxrwxrwx"
        self.assertEqual({name: mode for name, (mode, _) in found.items()}, {
            "all": folder, "all/usr": folder, "all/usr/bin": folder, "all/usr/sbin": folder,
            "all/DEBIAN": folder, "all/usr/bin/office": program, "all/usr/a": text,
            "all/usr/sbin/office-site": link, "all/DEBIAN/md5sums": text,
            "all/DEBIAN/control": text, "all/DEBIAN/postinst": program,
            "all/DEBIAN/prerm": program, "all/DEBIAN/postrm": program})
        self.assertEqual(os.readlink("all/usr/sbin/office-site"), "../lib/office/office-site")
        self.assertEqual({moment for _, moment in found.values()}, {MOMENT})


class Shown(OfMakeDeb):
    def test_a_package_that_is_made(self):
        """In a new folder, or in the place of one that is there."""
        build, asked = self.build(), []
        self.deb.read_build, self.deb.stage = lambda _: build, lambda *_: None

        def ran(*words, env):
            asked.append((words[:-1], env["SOURCE_DATE_EPOCH"]))
            words[-1].write_bytes(b"a package")

        self.deb.ran = ran
        for _ in range(2):
            status, printed, said = self.main("program", "--to", "a/b")
            name = "a/b/office_0.1.0+1_amd64.deb"
            self.assertEqual((status, printed, said), (
                0, f"{hashlib.sha256(b'a package').hexdigest()}  {name}\n", ""))
        self.assertEqual([str(file) for file in Path("a/b").iterdir()], [name])
        self.assertEqual((asked[0][0][0], asked[0][1]), ("dpkg-deb", str(MOMENT)))

    def test_what_a_package_says(self):
        """Its program is counted again, and both places that name it have to say the same."""
        own, other = hashlib.sha256(ELF).hexdigest(), hashlib.sha256(b"").hexdigest()
        text = "commit: {}\nkit: a kit\nprogram: {}\n"
        for named, build, is_well in ((own, text.format(COMMIT, own), True),
                                      (other, text.format(COMMIT, own), False),
                                      (own, text.format(COMMIT, other), False),
                                      (own, text.format("0", own), False),
                                      (other, text.format(COMMIT, other), False),
                                      (own, None, False)):
            with self.subTest(named=named, build=build):
                fields = (f"Package: office\nOffice-Commit: {COMMIT}\nOffice-Kit: a kit\n"
                          f"Office-Program-SHA256: {named}\n")

                def ran(_, what, file, folder=None, fields=fields, build=build):
                    if what == "--field":
                        return fields
                    self.deb.put(Path(folder) / "usr/bin/office", ELF, 0o755)
                    if build is not None:
                        self.deb.put(Path(folder) / "usr/share/doc/office/BUILD", build.encode(),
                                     0o644)
                    return ""

                self.deb.ran = ran
                status, printed, said = self.main("--show", "a.deb")
                self.assertEqual((status, printed), (
                    0 if is_well else 1, "" if build is None else text.format(COMMIT, own)))
                self.assertEqual(said, "" if is_well else (
                    "make-deb: a.deb is no package of an office\n" if build is None else
                    f"make-deb: a.deb names another program: {named}\n"))

    def test_words(self):
        for words in ((), ("program", "--show", "a.deb")):
            status, _, said = self.main(*words)
            self.assertEqual((status, "name a program, or a package to --show" in said), (2, True))
        self.assertEqual(self.main("nonesuch")[0], 1)
