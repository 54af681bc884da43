"""Compares construction.py with html5lib on random forests, in a div, a td, a list's
item and a section.

trees.py COUNT SEED: every second forest fulfils the content model of
crates/md_safe/specs/Contents.antt without a link in a link, and must be built as its own tree; the
others are changed ones, in which elements may be anywhere. Every fourth is between two pieces of a
template that construction.py doesn't know: html5lib must build the same as for the template alone,
with the forest's own tree in place of the mark. Each forest of the content model is also parsed as
a fragment, as `innerHTML` of one of CONTEXTS does: html5lib must build its own tree. Some links
have a `rel`, and some headings an `id`.
"""

import random
import sys

import construction
import html5lib
from html5lib import html5parser
from html5lib.constants import namespaces

NAMESPACE = "{http://www.w3.org/1999/xhtml}"
# html5lib 1.1 lacks two of the Standard's special elements.
html5parser.specialElements |= {(namespaces["html"], name) for name in ("figcaption", "summary")}
SPANS = ("em strong del sup b i u s small sub span kbd samp var q cite abbr dfn ins mark").split()
PHRASING = {name: "phrasing" for name in SPANS} | {"code": "characters", "a": "linked"}
LINKED = {name: "linked" for name in SPANS} | {"code": "characters"}
BLOCKS = {name: "flow" for name in ("blockquote section div details figure figcaption").split()}
BLOCKS |= {"ul": "items", "ol": "items", "table": "parts", "pre": "preformatted",
           "summary": "phrasing"}
HEADINGS = {f"h{rank}": "phrasing" for rank in range(1, 7)}
MODEL = {
    "flow": PHRASING | BLOCKS | HEADINGS | {"p": "phrasing"},
    "phrasing": PHRASING,
    "linked": LINKED,
    "items": {"li": "flow"},
    "parts": {"thead": "rows", "tbody": "rows", "tfoot": "rows"},
    "rows": {"tr": "cells"},
    "cells": {"th": "phrasing", "td": "phrasing"},
    "preformatted": {"code": "characters"},
    "characters": {},
}
VOIDS = {"flow": ["br", "hr", "img", "input", "wbr"], "phrasing": ["br", "img", "input", "wbr"],
         "linked": ["br", "img", "input", "wbr"]}
ATTRIBUTES = {
    "a": ["href", "id", "name", "rel"], "code": ["class"], "ol": ["start"], "li": ["id"],
    "th": ["align", "colspan"], "td": ["align", "rowspan"], "img": ["src", "alt", "width"],
    "input": ["type", "checked"], "details": ["open"], "div": ["align", "dir"],
    **{f"h{rank}": ["id", "title"] for rank in range(1, 7)},
}
# Texts before a forest, the elements that are open after each, and the insertion mode.
PLACES = {
    "div": ("<!doctype html><body><div id=here>", ["html", "body", "div"], "body"),
    "td": (
        "<!doctype html><body><table><tbody><tr><td id=here>",
        ["html", "body", "table", "tbody", "tr", "td"],
        "cell",
    ),
    "li": ("<!doctype html><body><ul><li id=here>", ["html", "body", "ul", "li"], "body"),
    "section": ("<!doctype html><body><section id=here>", ["html", "body", "section"], "body"),
}
AFTER = "<i id=after></i>"
# Elements into which `innerHTML` inserts a text.
CONTEXTS = ["div", "li", "section", "article", "td", "th", "blockquote", "details", "main", "dd",
            "figure", "aside", "body", "p", "h1", "a", "span", "button", "form"]
# Pieces before and after a text, which is inserted where flow content is allowed.
TEMPLATES = [
    ("<!doctype html><!-- c --><title>a<b</title><script>if (1 < 2) {}</script><div class=c>",
     "</div><p>after <b>it"),
    ("<!doctype html><body><table><caption>c</caption><tr><td>x<td>", "</td><td>y</table>z"),
    ("<ul><li>one<li>", "<li>three</ul>"),
    ("<!doctype html><section><h2>T</h2>", "<footer>f</footer></section>"),
    ("<!doctype html><article><form action='/x'><div>",
     "</div><button>ok</button></form></article>"),
    ("<div><b>x</b>", "<i>y</i></div>"),
    ("<!doctype html><details><summary>s</summary>", "</details><p>z"),
    ("<!doctype html><main><style>p > a {}</style>", "<template><td>x</td></template></main>"),
    ("<!doctype html><p>x<div>", "<p>y</div>"),
    ("<!doctype html><dl><dt>x<dd>", "<dt>y</dl>"),
    ("<!doctype html><svg><foreignObject><div>", "</div></foreignObject></svg><p>z"),
]
MARK = "<hr id=mark>"


def attributes(name):
    """Some of the attributes that a tag may have."""
    values = ["", "x", "checkbox", "y z"]
    return [(key, random.choice(values)) for key in ATTRIBUTES.get(name, [])
            if random.random() < 0.3]


def forest(content, depth, wild):
    """A forest of a content; each node has another content as often as `wild` says."""
    out = []
    for _ in range(random.choice([0, 1, 1, 2, 3]) if depth else random.choice([0, 1])):
        here = random.choice(list(MODEL)) if random.random() < wild else content
        kind = random.random()
        if kind < 0.3:
            if here == "preformatted" or (out and isinstance(out[-1], str)):
                continue
            letters = "\n \t" if here in ("items", "parts", "rows", "cells") else "\n ab&c"
            out.append("".join(random.choice(letters) for _ in range(random.randint(1, 3))))
        elif kind < 0.4 and VOIDS.get(here):
            name = random.choice(VOIDS[here])
            out.append(("void", name, attributes(name)))
        elif MODEL[here] and depth:
            name = random.choice(list(MODEL[here]))
            inner = forest(MODEL[here][name], depth - 1, wild)
            inner = without_line_feeds(inner) if name == "pre" and wild else inner
            out.append(("element", name, attributes(name), inner))
    return out


def without_line_feeds(nodes):
    """A forest whose texts have no line feed, since html5lib also drops others than the one after
    `<pre>`, and in cells none.
    """
    kept = [n.replace("\n", " ") if isinstance(n, str) else n for n in nodes]
    return [n if isinstance(n, str) or n[0] == "void" else (*n[:3], without_line_feeds(n[3]))
            for n in kept]


def tokens(nodes):
    """The tokens of a forest."""
    out = []
    for node in nodes:
        if isinstance(node, str):
            out += [("character", character) for character in node]
        elif node[0] == "void":
            out.append(("start", node[1], node[2]))
        else:
            out += [("start", node[1], node[2]), *tokens(node[3]), ("end", node[1])]
    return out


def escaped(text):
    return text.replace("&", "&amp;")


def written(nodes):
    """A forest as a text."""
    out = ""
    for node in nodes:
        if isinstance(node, str):
            out += escaped(node)
            continue
        tag = "<" + node[1] + "".join(f' {key}="{escaped(value)}"' for key, value in node[2])
        out += tag + (" />" if node[0] == "void" else ">" + written(node[3]) + "</" + node[1] + ">")
    return out


def own_tree(nodes):
    """The tree of a forest's reading."""
    return [n if isinstance(n, str)
            else (n[1], sorted(n[2]), [] if n[0] == "void" else own_tree(n[3])) for n in nodes]


def built_tree(children):
    """The tree that construction.py has built."""
    return [c if isinstance(c, str) else (c[0], sorted(c[1]), built_tree(c[2])) for c in children]


def parsed_tree(element):
    """The tree that html5lib has built, without the marks."""
    out = []

    def add(text):
        if text and out and isinstance(out[-1], str):
            out[-1] += text
        elif text:
            out.append(text)

    add(element.text)
    for child in element:
        if child.get("id") != "after":
            kept = sorted(item for item in child.attrib.items() if item != ("id", "here"))
            out.append((child.tag.replace(NAMESPACE, ""), kept, parsed_tree(child)))
        add(child.tail)
    return out


def differs(nodes, place, is_own):
    """None if both build the same tree, "stuck", or the two trees."""
    before, names, mode = PLACES[place]
    parser = construction.built(mode, names, tokens(nodes))
    if parser is None:
        return "stuck"
    document = html5lib.parse(before + written(nodes) + AFTER)
    depth = len(parser.stack)
    while len(parser.stack) > 1:
        parser.pop()
    ours = built_tree(parser.stack[0].children)[0][2]
    theirs = parsed_tree(document.find(NAMESPACE + "body"))
    if ours != theirs:
        return f"{ours} and {theirs}"
    here = next(element for element in document.iter() if element.get("id") == "here")
    if is_own and (parsed_tree(here) != own_tree(nodes) or depth != len(names)):
        return f"{parsed_tree(here)} is not {own_tree(nodes)}"
    return None


def differs_in_fragment(nodes):
    """None if html5lib builds for a forest, as a fragment, its own tree."""
    context = random.choice(CONTEXTS)
    built = parsed_tree(html5lib.parseFragment(written(nodes), container=context))
    return None if built == own_tree(nodes) else f"{context}: {built} is not {own_tree(nodes)}"


def with_forest(tree, own):
    """A tree in which another one replaces the mark."""
    out = []
    for node in tree:
        if isinstance(node, str):
            out.append(node)
        elif node[0] == "hr" and ("id", "mark") in node[1]:
            out += own
        else:
            out.append((*node[:2], with_forest(node[2], own)))
    return out


def differs_in_template(nodes):
    """None if html5lib builds for a forest in a template the same as for the two separately, or
    both trees.
    """
    before, after = random.choice(TEMPLATES)
    alone = with_forest(parsed_tree(html5lib.parse(before + MARK + after)), own_tree(nodes))
    whole = parsed_tree(html5lib.parse(before + written(nodes) + after))
    return None if whole == alone else f"{before}, {after}: {whole} and {alone}"


def main(count, seed):
    random.seed(seed)
    sys.setrecursionlimit(10000)
    same = own = stuck = between = 0
    for index in range(count):
        place, is_own = random.choice(list(PLACES)), index % 2 == 0
        nodes = forest("flow", random.randint(1, 6), 0 if is_own else 0.3)
        if index % 4 == 0:
            place, found = "template", differs_in_template(nodes)
        else:
            found = differs(nodes, place, is_own)
        if found is None and is_own:
            found = differs_in_fragment(nodes)
        if found == "stuck" and not is_own:
            stuck += 1
        elif found is not None:
            print(f"{place}: {written(nodes)!r}: {found}")
            return 1
        else:
            same += 1
            own += is_own
            between += place == "template"
    print(f"{count} forests: {same} the same, {stuck} stuck; {own} of the content model, "
          "each built as its own tree")
    print(f"{between} of these between two pieces of a template; "
          "each of the content model also as a fragment")
    return 0


if __name__ == "__main__":
    sys.exit(main(int(sys.argv[1]), int(sys.argv[2])))
