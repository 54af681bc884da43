#!/usr/bin/env python3
"""Reads the output of `mdevents` for known attacks with a real HTML5 parser, html5lib.

    /usr/bin/python3 bench/standard/html5.py PROGRAM

PROGRAM is the built `mdevents`; html5lib comes with Debian's python3-html5lib, or from pip. The
attacks, and the ways in which each enters the text, are in attacks.json; they are cases of
crates/md_cases, with their answers. Each text is read inside a `div` and as a whole page. It
fails, with status 1, on an element, an attribute or a comment that compiled Markdown never has,
and, unless an option allows them, on a link or an image that has another protocol as a browser
reads it.
"""

import json
import pathlib
import re
import subprocess
import sys

import html5lib

ATTACKS = json.loads(pathlib.Path(__file__).with_name("attacks.json").read_text(encoding="utf-8"))

ELEMENTS = {
    name: set()
    for name
    in "blockquote pre p ul em strong del sup table thead tbody tr h1 h3 h4 h5 h6 br hr".split()
} | {
    "code": {"class"},
    "ol": {"start"},
    "li": {"id"},
    "h2": {"id", "class"},
    "th": {"align"},
    "td": {"align"},
    "section": {"data-footnotes", "class"},
    "a": set("href title id class data-footnote-ref data-footnote-backref aria-describedby "
             "aria-label".split()),
    "img": {"src", "alt", "title"},
    "input": {"type", "disabled", "checked"},
}
PROTOCOLS = {
    "href": {"http", "https", "irc", "ircs", "mailto", "xmpp"},
    "src": {"http", "https"},
}
LETS_ANY = "!allow_dangerous_protocol"

DATA = "+Data 0\n-Data [n]\n"


def attacks():
    """Each attack's document and events."""
    return [*ATTACKS["attacks"], ("<" * 9000, DATA)]


def script(lines, text, nodes):
    """The script of a way for an attack, or None if an option would have to contain a line
    feed.
    """
    if "[text]" in lines and "\n" in text:
        return None
    length = str(len(text.encode()))
    lines = lines.replace("[nodes]", nodes).replace("[n]", length).replace("[text]", text)
    return f"{lines}--\n{text}".encode()


def protocol(url):
    """The protocol of a URL as a browser reads it, if it has one."""
    url = re.sub(r"[\t\n\r]", "", url).lstrip("".join(map(chr, range(33))))
    found = re.match(r"([A-Za-z][A-Za-z0-9+.\-]*):", url)
    return found and found[1].lower()


def faults(tree, is_any):
    """The parts of a tree that compiled Markdown never has."""
    for element in tree.iter():
        if not isinstance(element.tag, str):
            yield f"a comment: {element.text!r}"
            continue
        if element.tag not in ELEMENTS:
            yield f"the element {element.tag!r}"
            continue
        for name, value in element.attrib.items():
            if name not in ELEMENTS[element.tag]:
                yield f"the attribute {name!r} of {element.tag!r}"
            if not is_any and name in PROTOCOLS:
                if protocol(value) not in PROTOCOLS[name] | {None}:
                    yield f"the URL {value!r}"


def read(text, is_any):
    """The faults of a text, inside a `div` and as a page."""
    inside = html5lib.parseFragment(text, container="div", namespaceHTMLElements=False)
    body = html5lib.parse(f"<!doctype html><body>{text}", namespaceHTMLElements=False).find("body")
    return [fault for root in (inside, body) for child in root for fault in faults(child, is_any)]


def is_sharp():
    """Whether the reading finds known faults."""
    bad = ["<script>x</script>", "<p onclick='x'>", "<!-- x -->", "<a href='java\nscript:x'>",
           "<img src='irc:x'>"]
    return all(read(text, False) for text in bad) and not read('<p><a href="x:y">a</a></p>', True)


def main():
    program = sys.argv[1]
    assert is_sharp()
    ways, cases = ATTACKS["ways"], attacks()
    count = failures = 0
    for lines in ways:
        for text, nodes in cases:
            source = script(lines, text, nodes)
            if source is None:
                continue
            ran = subprocess.run([program], input=source, capture_output=True, check=False)
            wrong = read(ran.stdout.decode(),
                         LETS_ANY in lines) if ran.returncode == 0 else [ran.stderr.decode()]
            count += 1
            failures += bool(wrong)
            for fault in wrong:
                print(f"{fault}\n  in {ran.stdout[:300]!r}\n  of {source[:300]!r}")
    print(f"{len(cases)} attacks on {len(ways)} ways: {count} texts read, {failures} with faults")
    sys.exit(1 if failures or count == 0 else 0)


if __name__ == "__main__":
    main()
