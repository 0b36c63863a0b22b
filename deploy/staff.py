"""The names of the staff, as staff.conf of the proxy has them: a line each, with the role.

A line that has constituencies after the role, in quotes, binds its name to these:

    clerk-3 "clerk montehondo";
"""

import re
from typing import NamedTuple

LINE = re.compile(
    r'^(?P<before>[ \t]*)(?P<name>[^\s#;"]+)(?P<space>[ \t]+)'
    r'(?:(?P<role>\w+)|"(?P<bound_role>\w+)(?P<cons>(?: [A-Za-z0-9_-]+)* *)")(?P<after>[ \t]*;.*)$',
    re.M,
)


class Post(NamedTuple):
    """A role, and the constituencies that a name is bound to: None if it acts in each."""

    role: str
    cons: tuple | None = None

    @property
    def value(self):
        """As staff.conf has it."""
        return self.role if self.cons is None else f'"{self.role} {" ".join(self.cons)}"'

    @property
    def words(self):
        return f"{self.role}, " + ("everywhere" if self.cons is None else ", ".join(self.cons) or "nowhere")


def post_of(found):
    # (the proxy reads a role in quotes, with nothing after it, as one without them)
    if not found["cons"]:
        return Post(found["role"] or found["bound_role"])
    return Post(found["bound_role"], tuple(found["cons"].split()))


def posts(text):
    """Each name with its post."""
    return {found["name"]: post_of(found) for found in LINE.finditer(text)}


def unread(text):
    """The lines in which the proxy may find a name that is not among the posts, by their numbers."""
    found = {}
    for number, line in enumerate(text.splitlines(), 1):
        read = LINE.fullmatch(line)
        rest = read["after"].strip(" \t").removeprefix(";") if read else line
        if rest.strip() and not rest.lstrip().startswith("#"):
            found[number] = line
    return found


def with_post(text, name, post):
    """The text with another post for a name; its other lines and its notes stay."""

    def line(found):
        if found["name"] != name:
            return found[0]
        return found["before"] + name + found["space"] + post.value + found["after"]

    return LINE.sub(line, text)


def board_of(file, con):
    """Whether a name has the role of the board in a constituency now, by a file of names; each name has without one. (The proxy
    reads a name whatever the letters' case.)"""
    if file is None:
        return lambda _: True
    found = posts(file.read_text(encoding="utf-8", errors="replace"))
    named = {name.lower() for name, post in found.items() if post.role == "board" and (post.cons is None or con in post.cons)}
    return lambda name: name.lower() in named
