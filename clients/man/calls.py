#!/usr/bin/env python3
"""Makes the man pages of section 3 from the headers in clients/c.

    clients/man/calls.py FOLDER

Writes into FOLDER a page for each header with calls, made of the comment at its top, and a page for
each call that a user may make, made of the comment before it. A call without a comment is an error.
"""

import pathlib
import re
import sys

HEADERS = pathlib.Path(__file__).resolve().parents[1] / "c"
CALLS = ["bivdrazo.h", "bivdrazo_alloc.h", "bivdrazo_markdown.h", "bivdrazo_types.h"]
# Pages for headers, by their names, with what is said of them in one line.
TOPS = {
    "bivdrazo.h": "the HTML of a Markdown parser's events, for C",
    "bivdrazo_markdown.h": "Markdown to safe HTML, for C",
}
# Parts of other calls, in the headers.
HELPERS = {"answer_memory", "is_too_long", "first_size", "grow", "settle", "markdown_first_size",
           "markdown_alloc_by", "markdown_lines", "markdown_texts"}
CALL = re.compile(r"/\*((?:(?!\*/).)*)\*/\n"
                  r"((?:static inline )?[a-z_0-9 ]+?[ *]+(bivdrazo_\w+)\([^{};]*\))(?:;| \{)\n",
                  re.DOTALL)
DECLARED = re.compile(r"(?m)^(?:static inline )?(?:const )?[a-z]\w* (?:char )?\*?(bivdrazo_\w+)\(")
DATE = "November 30, 2026"
MARKS = {"\\": "\\e", "`": "\\(ga", "'": "\\(aq", "^": "\\(ha", "~": "\\(ti"}


def lines_of(comment):
    """The lines of a comment, without its asterisks."""
    lines = [re.sub(r"^ \* ?|^   (?=\S)", "", line) for line in comment.strip("\n").split("\n")]
    return [line.rstrip() for line in lines]


def quoted(line):
    """A line as roff."""
    line = "".join(MARKS.get(mark, mark) for mark in line)
    return f"\\&{line}" if line.startswith(".") else line


def kind_of(line):
    """What a line of a comment is: code, an item's first or further line, or text."""
    if line.startswith("    "):
        return "code"
    return "item" if line.startswith(" - ") else "more" if line.startswith("   ") else "text"


def blocks(lines):
    """The blocks of a comment: paragraphs, code and lists, as their kinds and lines."""
    found = []
    for line in lines:
        kind = kind_of(line)
        if not line:
            found.append(("none", []))
        elif kind == "item" or not found or found[-1][0] not in (kind, "item"):
            found.append((kind, [line]))
        elif kind == found[-1][0] or kind == "more":
            found[-1][1].append(line)
        else:
            found.append((kind, [line]))
    return [(kind, block) for kind, block in found if block]


def roff(lines):
    """A comment as mdoc."""
    made = []
    for kind, block in blocks(lines):
        if kind == "code":
            made += [".Bd -literal -offset indent", *(quoted(line[4:]) for line in block), ".Ed"]
        elif kind == "item":
            made += [".Bl -bullet -compact", ".It", *(quoted(line[3:]) for line in block), ".El"]
        else:
            made += [".Pp", *(quoted(line.strip()) for line in block)]
    joined = "\n".join(made).replace("\n.El\n.Bl -bullet -compact\n.It", "\n.It")
    return joined.removeprefix(".Pp\n")


def page(name, header, brief, synopsis, description, others):
    """A whole page."""
    listed = " ,\n.Xr ".join(f"{other} 3" for other in others if other != name)
    return "\n".join([
        f".Dd {DATE}", f".Dt {name.upper()} 3", '.Os "Bivdrazo @VERSION@"', ".Sh NAME",
        f".Nm {name}", f".Nd {quoted(brief)}", ".Sh SYNOPSIS", f".In {header}", *synopsis,
        ".Sh DESCRIPTION", description, ".Sh SEE ALSO", f".Xr {listed}", ""])


def sentence(lines):
    """The first sentence of a comment, without its full stop and in one line."""
    text = " ".join(line.strip() for line in lines if line)
    first = re.split(r"[.:;] ", text + " ")[0].rstrip(". ")
    return first[0].lower() + first[1:]


def included(header):
    """The header that a user includes for a header's calls."""
    return header if header in TOPS else "bivdrazo.h"


def calls_of(header):
    """The calls of a header: the name, the declaration and the comment's lines of each."""
    text = (HEADERS / header).read_text(encoding="utf-8")
    found = [(name, declared, lines_of(comment)) for comment, declared, name in CALL.findall(text)]
    declared = set(DECLARED.findall(text))
    missing = declared - {name for name, _, _ in found}
    if missing:
        sys.exit(f"{header}: no comment before {', '.join(sorted(missing))}")
    return [each for each in found if each[0].removeprefix("bivdrazo_") not in HELPERS]


def main(folder):
    """Writes all pages."""
    folder.mkdir(parents=True, exist_ok=True)
    for path in folder.glob("*.3"):
        path.unlink()
    calls = {header: calls_of(header) for header in CALLS}
    for header, brief in TOPS.items():
        text = (HEADERS / header).read_text(encoding="utf-8")
        top = lines_of(re.match(r"/\*(.*?)\*/", text, re.DOTALL)[1])
        names = [name for below, found in calls.items() if included(below) == header
                 for name, _, _ in found]
        (folder / f"{header}.3").write_text(page(header, header, brief, [], roff(top), names))
    for header, found in calls.items():
        for name, declared, lines in found:
            synopsis = [".Bd -literal", re.sub(r"^static inline ", "", declared) + ";", ".Ed"]
            (folder / f"{name}.3").write_text(page(
                name, included(header), sentence(lines), synopsis, roff(lines), list(TOPS)))
    print(f"{len(list(folder.glob('*.3')))} man pages")


if __name__ == "__main__":
    main(pathlib.Path(sys.argv[1]))
