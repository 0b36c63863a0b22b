"""Tests the templates of the press pages: what a board may change, and which faults are named.

The offices do not exist: a small server answers in their place.
"""

import ast
import base64
import re
import subprocess
import sys
from pathlib import Path

from tests.support import tools
from tests.support.case import ROOT
from tests.support.pages import PAGE_BYTES, REOPENED, TWIN, Page
from tests.support.rounds import DEPLOY, OfPages, copy_of_deploy

# The programs that fill templates in.
OF_TEMPLATES = [*DEPLOY.glob("press*.py"), *DEPLOY.glob("papers_*.py"), DEPLOY / "papers"]
LOGO = '<svg xmlns="http://www.w3.org/2000/svg" viewBox="0 0 9 9"><circle r="4"/></svg>'


class OfTheBoard(OfPages):
    """The folder of the site gives the pages another look."""

    def test_a_template_of_the_same_name(self):
        """Each page has the board's; the other templates stay."""
        self.publish(TWIN)
        before = self.pages()
        for name, text, place in (("head.html", '<meta name="theme-color" content="#123">',
                                   "<meta name=\"theme-color\" content=\"#123\"><style>"),
                                  ("top.html", "<p>Board of Twin Town</p>",
                                   "<header><p>Board of Twin Town</p>"),
                                  ("foot.html", "<footer>Ours: {{ about.authority }}</footer>",
                                   "</main>\n<footer>Ours: A &amp; B</footer>")):
            site = {"site.toml": 'authority = "A & B"\n', f"templates/{name}": text}
            self.publish(TWIN, site)
            for page, found in self.pages().items():
                with self.subTest(template=name, page=page):
                    self.assertIn(place, found)
                    self.assertEqual(place in before[page], False)
                    self.assertEqual(found.count("<footer>"), 1)

    def test_a_template_that_keeps_the_page(self):
        """It changes the blocks that it names, and those of one page alone."""
        self.publish(TWIN, {"templates/index.html": (
            '{% extends "office/index.html" %}\n'
            "{% block above %}{{ super() }}<p>The count begins at {{ number(2000) }}.</p>"
            "{% endblock %}\n")})
        pages = self.pages()
        said = "<p>The count begins at 2,000.</p>\n<h1>Results of the election</h1>"
        self.assertEqual([name for name, text in pages.items() if said in text], ["index.html"])
        self.assertIn("<caption>Seats and votes of each list</caption>", pages["index.html"])

    def test_logo_style_contact_and_statement(self):
        """They are in each page, and nothing is asked of another site."""
        site = {"logo.svg": LOGO, "site.css": "/* ours */\nh1 { color: #123456 }\n",
                "site.toml": 'authority = "Board <1>"\ncontact = "count@example.org"\n'
                             'accessibility = "https://example.org/a?b&c"\n'}
        image = base64.b64encode(LOGO.encode()).decode()
        self.publish(TWIN, site)
        for name, text in self.pages().items():
            with self.subTest(page=name):
                self.assertIn(f'<header><p class="logo"><img src="data:image/svg+xml;base64,'
                              f'{image}" alt="Board &lt;1&gt;"></p>\n', text)
                self.assertIn("; img-src data:\">", text)
                self.assertIn("h1 { color: #123456 }\n", text)
                self.assertNotIn("ours", text)
                self.assertIn('<p>Contact: count@example.org · <a href="https://example.org/a?b'
                              '&amp;c">Statement of accessibility</a></p>\n</footer>', text)
                self.assertLess(len(text.encode()), PAGE_BYTES)
        site["site.toml"] = 'language = "es"\naccessibility = "access.html"\n'
        self.publish(TWIN, site)
        self.assertIn('<p><a href="access.html">Declaración de accesibilidad</a></p>',
                      self.pages()["index.html"])

    def test_pages_without_them(self):
        self.publish(TWIN, {})
        for name, text in self.pages().items():
            with self.subTest(page=name):
                self.assertEqual(re.findall("<img|logo\"|Contact|accessibility", text), [])


class Faults(OfPages):
    """Each is a line on the error stream, and status 1."""

    def test_what_is_wrong_in_the_folder(self):
        for name, text, said in (
                ("templates/foot.html", "{% if %}", "templates: foot.html, line 1: "),
                ("templates/own.html", "a\n{{ b", "templates: own.html, line 2: "),
                ("templates/foot.html", "{{ nonesuch }}", "templates: 'nonesuch' is undefined"),
                ("templates/foot.html", '{% include "x.html" %}', "templates: x.html"),
                ("logo.svg", "x" * 6_001, "logo.svg: 6001 bytes, and a logo may have 6000"),
                ("site.css", "</style><script>", "site.css: a style has no </"),
                ("templates/paper.css", b"/* \xff */", "templates: paper.css: not UTF-8"),
                ("templates/foot.html", b"\xff", "templates: foot.html: not UTF-8"),
                ("stations.csv", f"station,name\ns1,{'x' * 131_073}\n",
                 "stations.csv: s1: a name of more than 300 letters"),
                ("site.toml", f"x = {'9' * 4_301}", "site.toml: Exceeds the limit"),
                ("site.toml", 'contact = 3', "site.toml: contact is 3: write a text in quotes"),
                ("site.toml", 'accessibility = "javascript:alert(1)"',
                 "site.toml: accessibility is not an address such as "),
                ("site.toml", "provisonal = false", "site.toml: no key is called 'provisonal'"),
                ("site.toml", "Provisional = false", "site.toml: no key is called 'Provisional'"),
                ("site.toml", "[press]\nprovisional = false",
                 "site.toml: no key is called 'press'"),
                ("site.toml", '[es]\ntitel = "x"', "site.toml: no key of [es] is called 'titel'"),
                ("site.toml", "[nl]\nprovisional = false",
                 "site.toml: provisional is of all languages, not of [nl] alone"),
                ("site.toml", "nl = 3", "site.toml: nl is 3, and no table of texts")):
            with self.subTest(file=name, text=text[:30]):
                lines = self.publish(TWIN, {name: text}, status=1).splitlines()
                self.assertEqual((len(lines), lines[0][:8], said in lines[0]),
                                 (1, "failed: ", True), lines)

    def test_a_template_runs_nothing(self):
        """Whoever may give a page its look runs no program, and reads and writes no file: not as
        the user of the pages, nor as root, who prints the papers."""
        for text, attribute in (
                ('{{ cycler.__init__.__globals__.os.mkdir("run") }}', "__init__"),
                ("{{ say.__globals__ }}", "__globals__"), ("{{ site.__class__ }}", "__class__"),
                ('{{ "{0.__class__}".format(site) }}', "__class__"),
                ('{{ site.templates.environment.compile_templates("run", zip=none) }}',
                 "compile_templates"),
                ('{{ site.templates.own.get_source(none, "foot.html") }}', "get_source")):
            with self.subTest(text=text):
                said = self.publish(TWIN, {"templates/foot.html": text}, status=1)
                self.assertRegex(said, f"^failed: templates: .*'{attribute}'.* unsafe")
                self.site_of({"templates/act_count.html": text})
                done = tools.run(
                    [sys.executable, DEPLOY / "papers", "count", ROOT / "examples/montehondo.db",
                     "acts", "--site", "site"],
                    capture_output=True, text=True, timeout=120, check=False)
                self.assertEqual((done.returncode, done.stdout), (2, ""), done)
                self.assertFalse(Path("run").exists() or Path("acts").exists())

    def test_a_fault_leaves_the_pages_as_they_are(self):
        """But for the line that says how old they are."""
        self.publish(TWIN)
        before = self.pages()
        self.publish(REOPENED, {"templates/base.html": "{{ nonesuch }}"}, status=1)
        aged = {name: re.subn('<p class="old".*?</p>', "", text)
                for name, text in self.pages().items()}
        self.assertEqual(aged, {name: (text, 1) for name, text in before.items()})

    def test_a_python_without_jinja2(self):
        """Which the option -S makes: it has the standard library alone, and setup-json needs no
        more."""
        def ran(name, *words):
            done = subprocess.run([sys.executable, "-S", "-E", DEPLOY / name, *words],
                                  capture_output=True, text=True, timeout=60, check=False)
            return done.returncode, done.stdout, done.stderr

        self.assertEqual(ran("press.py", "http://127.0.0.1:1", "pages"), (
            1, "", "failed: Python lacks the module jinja2: apt-get install python3-jinja2\n"))
        status, said, wrong = ran("setup-json", "setup.toml", ".")
        self.assertEqual((status, wrong), (0, ""))
        self.assertIn("map $http_office_setup $is_other_setup {", said)


class Escaping(OfPages):
    """All that is no template is text."""

    def test_markup_in_the_texts_of_a_language(self):
        with copy_of_deploy() as folder:
            file = folder / "press_en.toml"
            text = file.read_text(encoding="utf-8")
            for old, new in (('seats = "Seats"', 'seats = "<b>Seats</b>"'),
                             ('as_of = "The', 'as_of = "<script>The'),
                             ('bars_said = "Votes', "bars_said = '\"><i>Votes"),
                             ('licence = "Licence', "licence = '& Licence")):
                self.assertIn(old, text)
                key = old.split("=")[0]
                line = next(line for line in text.splitlines() if line.startswith(key))
                value = line.replace(old, new)
                if new.count("'"):
                    value = value.rstrip('"') + "'"
                text = text.replace(line, value)
            file.write_text(text, encoding="utf-8")
            self.publish(TWIN, {"site.toml": 'licence = "<i>"\n'}, program=folder / "press.py")
        pages = self.pages()
        for name, said in (("con-c1.html", "<h2>&lt;b&gt;Seats&lt;/b&gt;</h2>"),
                           ("con-c1.html", "&lt;b&gt;seats&lt;/b&gt;</th>"),
                           ("index.html", "&lt;script&gt;The office’s figures on <time "),
                           ("con-c1.html", 'aria-label="&#34;&gt;&lt;i&gt;Votes as bars'),
                           ("count.html", "&amp; Licence of the data: &lt;i&gt;.")):
            with self.subTest(said=said):
                self.assertIn(said, pages[name])
        for name in pages:
            self.assertEqual(Page(pages[name]).wrong, [])

    def test_no_html_in_python(self):
        """It is in the templates alone, but for patterns of what is read, and the element round a
        name."""
        for file in sorted(OF_TEMPLATES):
            tree = ast.parse(file.read_text(encoding="utf-8"))
            texts = [node.value for node in ast.walk(tree)
                     if isinstance(node, ast.Constant) and isinstance(node.value, str)]
            tags = [text for text in texts if re.search(r"</?[a-z]+\d?( [a-z-]+=|>)", text)]
            with self.subTest(file=file.name):
                wanted = ["<updated>([^<]+)<", r'<time datetime="([^"]+)">', "<bdi>{}</bdi>"]
                self.assertEqual([text for text in tags if text not in wanted], [])

    def test_each_template_is_of_use(self):
        """Each is a page that Python makes, or is part of another."""
        python = "".join(file.read_text(encoding="utf-8") for file in OF_TEMPLATES)
        html = "".join(file.read_text(encoding="utf-8") for file in DEPLOY.glob("templates/*"))
        for file in sorted(Path(DEPLOY, "templates").iterdir()):
            with self.subTest(template=file.name):
                self.assertIn(f'"{file.name}"', python + html)
        for name in re.findall(r"{% macro (\w+)\(", html):
            with self.subTest(macro=name):
                used = re.search(rf"[.({{= ]{name}\(", python + html.replace(
                    f"macro {name}(", ""))
                self.assertTrue(used)

    def test_no_two_templates_say_the_same(self):
        """Seven lines that two of them have are a macro."""
        first = {}
        for file in sorted(DEPLOY.glob("templates/*.html")):
            lines = [line.strip() for line in file.read_text(encoding="utf-8").splitlines()]
            for start in range(len(lines) - 6):
                with self.subTest(template=file.name, line=start + 1):
                    same = tuple(lines[start:start + 7])
                    self.assertEqual(first.setdefault(same, file.name), file.name)
