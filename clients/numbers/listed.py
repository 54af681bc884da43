"""Reads numbers.txt, and makes comments of it."""

import pathlib
import re
import sys
import textwrap
from typing import NamedTuple

HERE = pathlib.Path(__file__).resolve().parent
RELEASE = (HERE.parents[1] / "VERSION").read_text().strip()
RELEASE_COMMENT = "The version of the library and of its clients."
WIDTH = 100
# A line that begins so continues the previous one.
CONTINUED = "\n    "
LINE = re.compile(r"(\w+) (\d+) (\w+)(?: (flag|line_ending|text|html))?(?:: (.*))?")
TITLES = {
    "status": "The status of a call.",
    "rule": "Why events are refused.",
    "kind": "Whether an event begins a node or ends it.",
    "line_ending": "How a line ends.",
    "option": "The numbers of options: `index`, if an option is invalid.",
    "attribute": "The numbers of attributes: `index`, if an attribute is invalid.",
    "name": "The node that an event enters or exits.",
}
MARKDOWN_TITLES = {
    "markdown_status": "Further statuses of calls for Markdown.",
    "markdown_html": "How to treat HTML in a document.",
    "markdown_option": "The numbers of options: `index`, if an option is invalid.",
}


class Entry(NamedTuple):
    """A line of the list; `part` is the comment before it, or empty."""

    group: str
    number: int
    name: str
    type: str
    comment: str
    part: str


def entries():
    """The lines of the list, in their order."""
    part = ""
    found = []
    for line in (HERE / "numbers.txt").read_text().replace(CONTINUED, " ").splitlines():
        if line.startswith("## "):
            part = line[3:]
        elif line and not line.startswith("#"):
            match = LINE.fullmatch(line)
            if match is None:
                sys.exit(f"numbers.txt: can't be read: {line}")
            group, number, name, type_, comment = match.groups(default="")
            found.append(Entry(group, int(number), name, type_, comment, part))
            part = ""
    return found


def of_group(group):
    """The lines of one group."""
    return [entry for entry in entries() if entry.group == group]


def upper(name):
    """A name in capitals, with `_` between its words."""
    return re.sub(r"(?<=[a-z])(?=[A-Z])", "_", name).upper()


def meaning(entry):
    """The meaning of an entry, as a part of a sentence in a string."""
    text = (entry.comment[0].lower() + entry.comment[1:]).rstrip(".")
    return text.replace('"', '\\"')


def commented(text, indent, first, next_, last=""):
    """A comment of as many lines as it needs."""
    room = WIDTH - len(indent) - len(next_) - len(last)
    lines = textwrap.wrap(text, room) or [""]
    lines = [indent + (next_ if at else first) + line for at, line in enumerate(lines)]
    return "\n".join(lines) + last + "\n"
