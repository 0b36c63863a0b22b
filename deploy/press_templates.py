"""The templates of the pages: those of a board's own folder, and for the others those beside this.

A template sees `site`, `about` (the keys of site.toml, None where one is missing), `say` (a text of
the language with its places filled in), `number` and `per_cent`. All that it prints is escaped
unless a template made it: names by the filters `name`, in an element, and `plain_name`, in a title
or a label. One of a board may begin with `{% extends "office/NAME" %}`, and then
changes only the blocks that it names. It cannot run anything, nor read a file.
"""

import re
import sys
from functools import cached_property
from pathlib import Path, PurePath
from types import ModuleType

try:
    from jinja2 import (BaseLoader, ChoiceLoader, Environment, FileSystemLoader, PrefixLoader,
                        StrictUndefined, TemplateError)
    from jinja2.sandbox import SandboxedEnvironment
    from markupsafe import Markup
except ModuleNotFoundError as missing:
    sys.exit(f"failed: Python lacks the module {missing.name}: apt-get install python3-jinja2")

from page_script import hash_of, script_of
from press_names import closed, isolated

# Between these a page says how old it is, where it stays as it was.
AGE = "<!--age-->", "<!--/age-->"
HERE = Path(__file__).resolve().parent
OWN = FileSystemLoader(HERE / "templates")
# Of a style: its comments, and the spaces in front of its lines. Of ours also those that nothing
# needs: a page has room for little more.
LEFT_OUT = re.compile(r"/\*.*?\*/\n?|^ +", re.S | re.M)
NEEDLESS = re.compile(r"(?<=[:;{}]) | (?=\{)|;(?= \})")

__all__ = ["Markup", "TemplateError", "Templates"]


class Closed(SandboxedEnvironment):
    """A template of a board is a text and no program: root prints papers from it. It reaches no
    file, and nothing that reads or writes templates."""

    def is_safe_attribute(self, obj, attr, value):
        is_closed = isinstance(obj, (Environment, BaseLoader, PurePath, ModuleType))
        return not is_closed and super().is_safe_attribute(obj, attr, value)


class Templates:
    """The templates of a site, with those of a folder before the others, and its own style after
    that of all. `words` are what every template sees."""

    def __init__(self, folder, own_style, **words):
        self.own, self.own_style = FileSystemLoader(folder), own_style
        # (without a template of the board none of it is looked for later: ours are quicker alone)
        own = [self.own] if self.own.list_templates() else []
        self.environment = (Closed if own else Environment)(
            loader=ChoiceLoader([*own, OWN, PrefixLoader({"office": OWN})]), autoescape=True,
            undefined=StrictUndefined, trim_blocks=True, lstrip_blocks=True,
            keep_trailing_newline=True)
        self.environment.globals.update(words)
        self.environment.filters |= {"plain_name": isolated, "name": self.name}

    def name(self, text):
        """A name, as an element in which its direction stays."""
        return Markup("<bdi>{}</bdi>").format(closed(text))

    def check(self):
        """Reads each template of the folder, and each style: one that is none raises a TemplateError."""
        for name in self.own.list_templates():
            try:
                self.own.get_source(self.environment, name)
            except UnicodeDecodeError as error:
                raise TemplateError(f"{name}: not UTF-8") from error
            if name.endswith(".html"):
                self.environment.get_template(name)

    def page(self, name, /, **values):
        """The text of a page."""
        empty = {"counted_line": None, "headline": None, "here": None, "outlook": None}
        text = self.environment.get_template(name).render(empty | values)
        # (a board's own template may have no place for the age, by which a page is known as ours)
        return text if AGE[0] in text else text + "".join(AGE)

    def macros(self, name):
        """The macros of a file, as functions."""
        return self.environment.get_template(name).module

    @cached_property
    def parts(self):
        return self.macros("parts.html")

    @cached_property
    def of_con(self):
        return self.macros("con_parts.html")

    @cached_property
    def of_count(self):
        return self.macros("count_parts.html")

    @cached_property
    def of_country(self):
        return self.macros("country_parts.html")

    # ---- what is in each page, so that it can be kept and printed alone

    @cached_property
    def style(self):
        own = LEFT_OUT.sub("", (HERE / "press.css").read_text(encoding="utf-8"))
        return Markup(NEEDLESS.sub("", own) + LEFT_OUT.sub("", self.own_style))

    @cached_property
    def script(self):
        """The only script: it searches, and renews a page."""
        source, *_ = self.environment.loader.get_source(self.environment, "page.js")
        return Markup(script_of(source))

    @cached_property
    def script_hash(self):
        """As the policy of a page names the script."""
        return hash_of(self.script)
