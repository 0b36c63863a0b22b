"""Tests how the clerks' page is built: which language files are refused, and what the page says in
Spanish.

The tests in a browser are skipped where Chromium or its driver is missing.
"""

import base64
import hashlib
import json
import os
import re
import shutil
import subprocess
import sys
import tomllib
from pathlib import Path

from tests.support import pictures
from tests.support.browser import browser
from tests.support.case import ROOT, Case, needs
from tests.support.clerks import choose_station, enter, said
from tests.support.desks import modelled
from tests.support.model import Office
from tests.support.office import with_stations
from tests.support.pages import press
from tests.support.rounds import DEPLOY, copy_of_deploy
from tests.support.scripts import module

page_script = module("page_script")
ENGLISH = (DEPLOY / "clerk/texts_en.toml").read_text(encoding="utf-8")
SPANISH = (DEPLOY / "clerk/texts_es.toml").read_text(encoding="utf-8")


def build(folder, *words):
    """The output of building, and its status."""
    done = subprocess.run([sys.executable, folder / "build-clerk", *words], capture_output=True,
                          text=True, timeout=60, check=False)
    return done.stderr, done.returncode


def script_of(page):
    return re.search("<script>(.*?)</script>", page, re.S)[1]


def sha256_of(text):
    return base64.b64encode(hashlib.sha256(text.encode()).digest()).decode()


class Building(Case):
    def test_the_pages_that_are_kept(self):
        """They are what the parts make."""
        self.assertEqual(build(DEPLOY, "--check"), ("", 0))

    def test_a_page_that_is_not_what_the_parts_make(self):
        with copy_of_deploy() as folder:
            for name in ("www/clerk.html", "www/clerk_es.html", "nginx/policy.conf"):
                with self.subTest(file=name):
                    (folder / name).write_text("altered", encoding="utf-8")
                    said = f"failed: {name}: not what deploy/build-clerk writes\n"
                    self.assertEqual(build(folder, "--check"), (said, 1))
                    self.assertEqual(build(folder), ("", 0))
                    self.assertEqual(build(folder, "--check"), ("", 0))

    def test_the_hashes_of_scripts(self):
        """The policy of each page names its script, and the proxy's that of the press pages."""
        for name in ("clerk.html", "clerk_es.html"):
            page = (DEPLOY / "www" / name).read_text(encoding="utf-8")
            with self.subTest(page=name):
                self.assertIn(f"script-src 'sha256-{sha256_of(script_of(page))}';", page)
        script = (DEPLOY / "templates/page.js").read_text(encoding="utf-8")
        policy = (DEPLOY / "nginx/policy.conf").read_text(encoding="utf-8")
        self.assertIn(f"script-src 'sha256-{sha256_of(page_script.script_of(script))}';", policy)

    def test_a_language_file_that_is_refused(self):
        said = "failed: texts_es.toml: "
        for old, new, words in (
                ('note = "Motivo"\n', "", "it lacks note"),
                ('note = "Motivo"\n', 'note = "Motivo"\nmore = "x"\n', "it has no use for more"),
                ('note = "Motivo"', 'note = "Motivo {note}"', "note has other places than none"),
                ("con la mesa {station}.", "con la mesa {mesa}.", "other places than ['station']"),
                ("está mal, {act}.", "está mal.", "differs has other places than ['act']"),
                ('note = "Motivo"', "note = 3", "note is no text"),
                ('{ one = "1 voto", other', '{ one = 1, other', "votes is no text"),
                ('note = "Motivo"', 'note = "Motivo {"', "note has a brace that is no place"),
                ('note = "Motivo"', 'note = { other = "a", one = "b" }',
                 "note has forms in one language and none in the other"),
                ('{ one = "1 voto", other', '{ some = "1 voto", other', "votes has other forms"),
                ('one = "1 voto", other = "{number} votos"', 'one = "1 voto"',
                 "votes has other forms"),
                ('note = "Motivo"', "note = ", "Invalid value"),
                ('language = "es"', 'language = "en"', "its language is en")):
            with self.subTest(new=new), copy_of_deploy() as folder:
                self.assertIn(old, SPANISH)
                file = folder / "clerk/texts_es.toml"
                file.write_text(SPANISH.replace(old, new), encoding="utf-8")
                before = (folder / "www/clerk_es.html").read_bytes()
                lines, status = build(folder)
                self.assertEqual((status, lines.count("\n")), (1, 1), lines)
                self.assertTrue(lines.startswith(said) and words in lines, lines)
                self.assertEqual((folder / "www/clerk_es.html").read_bytes(), before)

    def test_other_parts_that_are_refused(self):
        for name, old, new, words in (
                ("page.html", "{{ note }}", "{{ nonesuch }}",
                 "page.html: there is no text nonesuch"),
                ("script.js", "T.fill_in", "T.nonesuch", "script.js: there is no text nonesuch"),
                ("script.js", "T.nothing_done({ station })", "T.nothing_done", "other places"),
                ("script.js", "T.fill_in", '""', "texts_en.toml: nobody uses fill_in")):
            with self.subTest(new=new), copy_of_deploy() as folder:
                file = folder / "clerk" / name
                text = file.read_text(encoding="utf-8")
                self.assertIn(old, text)
                file.write_text(text.replace(old, new), encoding="utf-8")
                lines, status = build(folder)
                self.assertEqual((status, words in lines), (1, True), lines)

    def test_a_language_of_a_board(self):
        """One more file is one more language."""
        with copy_of_deploy() as folder:
            self.assertEqual(build(folder, "--language", "eu", "own.html")[1], 1)
            (folder / "clerk/texts_eu.toml").write_text(
                SPANISH.replace('language = "es"', 'language = "eu"'), encoding="utf-8")
            self.assertEqual(build(folder, "--language", "eu", folder / "own.html"), ("", 0))
            self.assertIn('<html lang="eu">', (folder / "own.html").read_text(encoding="utf-8"))
            # A text may have all forms that there are.
            forms = ("zero", "one", "two", "few", "many")
            own = ", ".join(f'{form} = "{form} {{number}}"' for form in forms)
            (folder / "clerk/texts_eu.toml").write_text(
                SPANISH.replace('language = "es"', 'language = "eu"').replace(
                    'votes = { one = "1 voto"', f"votes = {{ {own}"), encoding="utf-8")
            self.assertEqual(build(folder, "--language", "eu", folder / "own.html"), ("", 0))
            self.assertIn("few: `few ${shownAs(", (folder / "own.html").read_text("utf-8"))

    def test_a_text_used_without_blanks(self):
        """A blank more or less makes no other page."""
        with copy_of_deploy() as folder:
            file = folder / "clerk/script.js"
            text, wide = file.read_text(encoding="utf-8"), "T.nothing_done({ station })"
            self.assertIn(wide, text)
            file.write_text(text.replace(wide, "T.nothing_done({station})"), encoding="utf-8")
            self.assertEqual(build(folder, "--check"), ("", 0))

    def test_how_it_is_called(self):
        with copy_of_deploy() as folder:
            for words in (("--language", "es"), ("own.html",), ("--check", "own.html"),
                          ("--check", "--language", "es", "own.html")):
                with self.subTest(words=words):
                    said, status = build(folder, *words)
                    self.assertEqual((status, said.splitlines()[-1]), (
                        2, "build-clerk: error: a language and a file belong together"))
            # A page that is missing is not what it would write either.
            (folder / "www/clerk.html").unlink()
            self.assertEqual(build(folder, "--check"), (
                "failed: www/clerk.html: not what deploy/build-clerk writes\n", 1))

    def test_markup_in_a_text(self):
        """It is text, in the page and in the script."""
        odd = "</script><b>\"'`${alert(1)}&\\\\"
        with copy_of_deploy() as folder:
            text = SPANISH
            for key, before in (("note", "Motivo"), ("now", "Datos al día."),
                                ("nothing_done", "No se ha hecho nada con la mesa ")):
                self.assertIn(f'{key} = "{before}', text)
                text = text.replace(f'{key} = "{before}', f"{key} = {json.dumps(odd)[:-1]}"
                                    .replace("{", "").replace("}", ""))
            (folder / "clerk/texts_es.toml").write_text(text, encoding="utf-8")
            self.assertEqual(build(folder), ("", 0))
            page = (folder / "www/clerk_es.html").read_text(encoding="utf-8")
        self.assertEqual((page.count("</script>"), page.count("<b>")), (1, 0))
        self.assertIn("&lt;/script&gt;&lt;b&gt;&quot;&#x27;`$alert(1)&amp;\\", page)
        self.assertIn(r'"\x3c/script>\x3cb>\"' + r"'`$alert(1)&\\", page)
        self.assertIn(r'`\x3c/script>\x3cb>"' + r"'\`\$alert(1)&\\", page)

    def test_the_words_of_both_pages(self):
        """No text of a language is the same in the other, but for those that are."""
        english, spanish = tomllib.loads(ENGLISH), tomllib.loads(SPANISH)
        self.assertEqual({key for key in english if english[key] == spanish[key]},
                         {"total", "file_value", "votes_and_seats", "con_state"})


class InABrowser(Case):
    may_leave_files = True

    def setUp(self):
        super().setUp()
        self.addCleanup(setattr, pictures, "ROOT", ROOT)
        os.makedirs("deploy/www")
        pictures.ROOT = Path.cwd()

    @needs("chromium")
    def test_a_slip_in_spanish(self):
        shutil.copy(DEPLOY / "www/clerk_es.html", "deploy/www/clerk.html")
        setup = with_stations(1, 9000)
        with modelled(setup) as (_, port):
            Path("setup.toml").write_text(setup, encoding="utf-8")
            press(port, "--setup", "setup.toml")
        office = Office(tomllib.loads(setup))
        with (pictures.clerks_site(office, "clara", "clerk") as address,
              browser(Path.cwd()) as it):
            it.open(address)
            said(it, "Datos al día.")
            self.assertEqual(it.run("return document.documentElement.lang"), "es")
            self.assertEqual(it.text("#person"), "clara, grabador")
            choose_station(it, "s1", "Datos al día.")
            self.assertEqual(it.text("#return"), "La mesa s1 aún no tiene acta.")
            # A field without a figure has a sentence of the page, and none once it has one.
            it.click("#lodge button")
            of_slip = "return document.getElementById('lodge').elements.slip.validationMessage"
            self.assertEqual(it.run(of_slip), "Este campo está vacío.")
            it.type("#lodge input[name=slip]", "á")
            self.assertEqual(it.run(of_slip) in ("", "Utiliza un formato que coincida con el "
                             "solicitado", "Please match the requested format."), True)
            it.click("#lodge button")
            self.assertEqual(it.run(of_slip), "Lo que admite este campo: de 1 a 16 letras sin "
                             "tilde, cifras, - y _.")
            slip = {"slip": "p1", "votes": [12_345 - 8_000, 1], "blank": 0, "spoiled": 0}
            enter(it, "lodge", slip | {"total": 1})
            said(it, "las cifras suman 4.346 y el total tecleado es 1.")
            enter(it, "lodge", slip)
            said(it, "Grabada.")
            self.assertIn("0 votos", it.text("#view"))
            self.assertEqual(it.run("return document.getElementById('receipt').textContent"
                                    ".includes('Justificante: acta grabada')"), True)
            it.click("#who")
            said(it, "Se muestra el historial de la mesa s1.")
