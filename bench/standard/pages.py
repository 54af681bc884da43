"""Random documents: pages as `md_page` writes them, changed ones, and joined pieces."""

import html
import random
import re

import texts
import trees

PIECES = [
    *["<!doctype html>", "<html>", "<head>", "<title>", "</title>", "</head>", "<body>", "</body>",
      "</html>", "\n"],
    *[" ", '<meta charset="utf-8" />', "<p>", "</p>", "<em>", "</em>", "<ul>", "<li>", "</ul>",
      "<br />", "<pre>"],
    "</pre>",
    *["a", "b", "&lt;", "</title>", "<table>", "<thead>", "<tr>", "<td>", "</td>", "</tr>",
      "</thead>", "</table>"],
    *["</br>", "</body>", "</html>", "</head>", "\n", "\t", "<head>", "<a>", "</a>", "<h1>",
      "</h1>", "<del>", "</p>"],
]


def page(nodes):
    """A page with a forest, and its expected document."""
    title = texts.pieces(random, texts.ESCAPED, 0, 6)
    head = f'<head><meta charset="utf-8" /><title>{title}</title></head>'
    text = f"<!doctype html>\n<html>{head}<body>{trees.written(nodes)}</body></html>\n"
    said = html.unescape(title.replace("\r\n", "\n").replace("\r", "\n"))
    body = trees.own_tree(nodes)
    body = [*body[:-1], body[-1] + "\n"] if body and isinstance(body[-1], str) else [*body, "\n"]
    meta, told = ("meta", [("charset", "utf-8")], []), ("title", [], [said] if said else [])
    return text, ("html", ("html", [], [("head", [], [meta, told]), ("body", [], body)]))


# There html5lib drops a line feed that isn't directly after `<pre>`, where the Standard
# has it drop none.
DROPPED = re.compile(r"<pre[^>]*>(?!</pre)(<[^>]*>)+\n", re.IGNORECASE)


def made(index, is_browser):
    """The kind of a random document, its text, and its expected tree, if that is known."""
    if index % 2 == 0:
        return "page", *page(trees.forest("flow", random.randint(1, 6), 0))
    while DROPPED.search((one := changed())[1].replace("\r", "\n")) and not is_browser:
        pass
    return one


def changed():
    """A random document that need not be of the content model."""
    kind = random.choice(["page with any elements", "changed page", "pieces"])
    if kind == "pieces":
        return kind, texts.pieces(random, PIECES, 0, 14), None
    text, _ = page(trees.without_line_feeds(trees.forest("flow", random.randint(1, 4), 0.3)))
    return kind, text if kind != "changed page" else texts.changed(random, text, PIECES), None
