#!/usr/bin/env python3
"""Compares the library's answer whether a text is safe HTML with a reading by html5lib.

    BIVDRAZO_LIBRARY=.. PYTHONPATH=clients/python safe_reader.py

By html5lib a text is safe if the elements that it makes of it, in a `div`, are written as this text
again, are in the tables below, each at a place that they allow, and have no protocol but the
permitted ones. The texts are random ones of these tables, and the same with a few random changes.
"""

import collections
import random
import re
import sys

import html5lib
from bivdrazo import is_safe_html, markdown_to_html

SEED = 20261130
RANDOM = 6000
CHANGES = 4
SPANS = ("em strong del sup b i u s small sub span kbd samp var q cite abbr dfn ins mark").split()
VOIDS = "br hr wbr img input".split()
# What each kind of content contains: elements with the kind of their own content.
PHRASING = {name: "phrasing" for name in SPANS} | {"code": "text"}
CONTENT = {
    "phrasing": PHRASING | {"a": "link"},
    "link": {name: "link" for name in SPANS} | {"code": "text"},
    "flow": PHRASING | {"a": "link", "ul": "items", "ol": "items", "table": "parts",
                        "pre": "preformatted", "summary": "phrasing"}
    | dict.fromkeys("blockquote section div details figure figcaption".split(), "flow")
    | dict.fromkeys("p h1 h2 h3 h4 h5 h6".split(), "phrasing"),
    "items": {"li": "flow"},
    "parts": dict.fromkeys("thead tbody tfoot".split(), "rows"),
    "rows": {"tr": "cells"},
    "cells": {"th": "phrasing", "td": "phrasing"},
    "preformatted": {"code": "text"},
    "text": {},
}
SHARED = "id title lang dir".split()
ATTRIBUTES = collections.defaultdict(lambda: SHARED) | {
    "section": ["data-footnotes", "class"],
    "input": ["type", "disabled", "checked"],
    "a": ("href class data-footnote-ref data-footnote-backref aria-describedby aria-label rel "
          "name").split() + SHARED,
    "img": "src alt width height align".split() + SHARED,
    "code": ["class"] + SHARED,
    "ol": ["start"] + SHARED,
    "h2": ["class", "align"] + SHARED,
    "details": ["open"] + SHARED,
    "table": ["align", "width"] + SHARED,
} | dict.fromkeys("p div h1 h3 h4 h5 h6".split(), ["align"] + SHARED) | dict.fromkeys(
    "thead tbody tfoot tr".split(), ["align", "valign"] + SHARED) | dict.fromkeys(
    ["th", "td"], "align valign colspan rowspan width height".split() + SHARED)
PROTOCOLS = {"href": "http https irc ircs mailto xmpp".split(), "src": ["http", "https"]}
SPACE = re.compile(r"[ \t\n\f\r]*")
VALUES = ["", "a", "b c", "&quot;", "http://a.b/?c&amp;d", "HTTPS:e", "mailto:f", "irc:g", "/h:i",
          "#j:k", "javascript:l", "&lt;:m", "n o:p", "\n", "\u00e9\U0001fa90", "x" * 40]
WORDS = ["a", " ", "\n", "&amp;", "&lt;", "&gt;", "&quot;", "b c", "d" * 17, "\u00e9",
         "a sentence of some length, as in prose", "\t"]
BROKEN = ["<", ">", '"', "&", "=", "/", " ", "'", "-->", "<!--", "<p>", "</p>", "</div>", "</b>",
          "<a>", "</a>", "&#60;", "&copy;", " onclick=\"f()\"", " href=\"javascript:f()\"",
          "<BR />", "<br>", "<script>", "</script>", "<td>", "<li>", "A", "x"]


def escaped(text):
    """A text, escaped."""
    for character, name in ("&", "amp"), ("<", "lt"), (">", "gt"), ('"', "quot"):
        text = text.replace(character, f"&{name};")
    return text


def has_permitted_protocol(name, value):
    """Whether a URL has no protocol or a permitted one; other attributes have none."""
    protocol = re.match(r"([^:/?#]*):", value)
    return name not in PROTOCOLS or not protocol or protocol[1].lower() in PROTOCOLS[name]


def written(element, content):
    """What an element contains, as it is written; None if something may not stand there."""
    def said(text):
        return content in ("flow", "phrasing", "link", "text") or (
            SPACE.fullmatch(text) and (content != "preformatted" or not text))

    parts = [element.text or ""]
    if not said(parts[0]):
        return None
    parts[0] = escaped(parts[0])
    for child in element:
        name, tail = child.tag, child.tail or ""
        if not isinstance(name, str) or not said(tail):
            return None
        for attribute, value in child.items():
            if attribute not in ATTRIBUTES[name] or not has_permitted_protocol(attribute, value):
                return None
        attributes = "".join(f' {key}="{escaped(value)}"' for key, value in child.items())
        if name in CONTENT[content]:
            inner = written(child, CONTENT[content][name])
            if inner is None:
                return None
            parts.append(f"<{name}{attributes}>{inner}</{name}>")
        elif name in VOIDS and (content == "flow" or content in ("phrasing", "link")
                                and name != "hr"):
            parts.append(f"<{name}{attributes} />")
        else:
            return None
        parts.append(escaped(tail))
    return "".join(parts)


def is_safe(text):
    """Whether a text is safe by html5lib."""
    fragment = html5lib.parseFragment(text, container="div", namespaceHTMLElements=False)
    return written(fragment, "flow") == text


def tag_of(dice, name):
    """A name and random attributes."""
    count = min(len(ATTRIBUTES[name]), dice.choice([0, 0, 0, 1, 2, 9]))
    names = dice.sample(ATTRIBUTES[name], count)
    return name + "".join(f' {each}="{dice.choice(VALUES)}"' for each in names)


def made(dice, content, depth):
    """A random text of these tables, in pieces: tags and texts."""
    pieces = []
    for _ in range(dice.randrange(4 if depth else 1)):
        kind = dice.random()
        if kind < 0.3 and content in ("flow", "phrasing", "link"):
            voids = VOIDS if content == "flow" else [each for each in VOIDS if each != "hr"]
            pieces.append(f"<{tag_of(dice, dice.choice(voids))} />")
        elif kind < 0.5 or not CONTENT[content]:
            has_text = content in ("flow", "phrasing", "link", "text")
            pieces += dice.choices(WORDS, k=dice.randrange(3)) if has_text else (
                ["\n"] if content != "preformatted" else [])
        else:
            name = dice.choice(list(CONTENT[content]))
            inner = made(dice, CONTENT[content][name], depth - 1)
            pieces += [f"<{tag_of(dice, name)}>", *inner, f"</{name}>"]
    return pieces


def changed(dice, pieces):
    """The pieces with a random change: of a piece, or within one."""
    pieces, at = list(pieces), dice.randrange(len(pieces) + 1)
    way = dice.randrange(4)
    if way == 0 or not pieces:
        pieces.insert(at, dice.choice(BROKEN))
    elif way == 1:
        del pieces[at % len(pieces)]
    elif way == 2:
        other = dice.randrange(len(pieces))
        at %= len(pieces)
        pieces[at], pieces[other] = pieces[other], pieces[at]
    else:
        at %= len(pieces)
        place = dice.randrange(len(pieces[at]) + 1)
        pieces[at] = (pieces[at][:place] + dice.choice(["", dice.choice(BROKEN)])
                      + pieces[at][place + dice.randrange(2):])
    return pieces


def texts(dice):
    """Random texts, what random changes make of them, and a compiled document and its parts."""
    for _ in range(RANDOM):
        pieces = made(dice, "flow", 5)
        yield "".join(pieces)
        for _ in range(CHANGES):
            pieces = changed(dice, pieces)
            yield "".join(pieces)
    html = markdown_to_html("# a <b>\n\n- [x] *c* **d** ~e~ [f](g \"h\") ![i](j)\n1. k\n\n|l|m|\n"
                            "|:-:|-|\n|n[^o]|p|\n\n> q  \n> r\n\n```s\nt\n```\n\n---\n\n[^o]: u\n")
    yield from (html[:end] for end in range(len(html) + 1))


def main():
    """Compares all texts."""
    counts = collections.Counter()
    different = []
    for text in texts(random.Random(SEED)):
        expected, found = is_safe(text), is_safe_html(text)
        counts[expected] += 1
        if expected != found:
            different.append((expected, text))
    for expected, text in different[:20]:
        print(f"safe_reader: by html5lib {expected}: {text!r}")
    print(f"safe_reader: {counts[True]} safe texts, {counts[False]} others, "
          f"{len(different)} answers differ")
    return 1 if different or min(counts.values()) < 1000 else 0


if __name__ == "__main__":
    sys.exit(main())
