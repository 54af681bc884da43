"""Texts and URLs to compare: of the HTML grammar, pages, joined pieces, and changed ones.
"""

import json
import pathlib

ATTACKS = json.loads(pathlib.Path(__file__).with_name("attacks.json").read_text(encoding="utf-8"))

# The attributes that any element of authors may have.
SHARED = ["id", "title", "lang", "dir"]
ELEMENTS = {
    name: SHARED
    for name in "blockquote pre ul li em strong del sup b i u s small sub span kbd samp var q cite "
                "abbr dfn ins mark summary figure figcaption".split()
} | {
    name: ["align", *SHARED] for name in "p div h1 h3 h4 h5 h6".split()
} | {
    name: ["align", "valign", *SHARED] for name in "thead tbody tfoot tr".split()
} | {
    name: ["colspan", "rowspan", "width", "height", "align", "valign", *SHARED]
    for name in ("th", "td")
} | {
    "code": ["class", *SHARED],
    "ol": ["start", *SHARED],
    "h2": ["class", "align", *SHARED],
    "table": ["align", "width", *SHARED],
    "details": ["open", *SHARED],
    "section": ["data-footnotes", "class"],
    "a": ["href", "class", "data-footnote-ref", "data-footnote-backref", "aria-describedby",
          "aria-label", "rel", "name", *SHARED],
}
VOID = {"br": SHARED, "hr": SHARED, "wbr": SHARED,
        "img": ["src", "alt", "width", "height", "align", *SHARED],
        "input": ["type", "disabled", "checked"]}
# Escaped pieces of texts and values.
ESCAPED = [
    *["&amp;", "&lt;", "&gt;", "&quot;", "&amp;amp;", "&amp;#60;", "\r", "\n", "\r\n", "\t", "\f",
      " ", "'", "=", "/", ";"],
    *["#", "a", "Z", "0", "javascript:", "http://x", "é", "☃", "\U0001f600", "\x0b", "\x7f", "\x01",
      "`", "-"],
]
# Pieces of texts that need not be of the grammar.
BROKEN = [
    *["<", ">", "/", "=", '"', "'", "&", "&amp;", "&lt;", "&quot", "a", "B", "href", " ", "\n",
      "\r", "\f", ";", "<a", "</a"],
    *["<IMG ", 'x="', '" ', "é", " x=", "!", "-", "0", "\0", "<svg>", "<Title>", "</tiTle>",
      "</title", "<!docType"],
    *["<!DOCTYPE html>", "<title>", "<img", "/>", "</", "=\"", "<p>", "<br />", "<style>",
      "<select>"],
]
# Pieces of URLs.
URL = [
    *[":", "/", "?", "#", "http", "https", "javascript", "MAILTO", "data", "x", "Z", "+", "-", ".",
      "1", " ", "\t", "\n"],
    *["\r", "\x00", "\x1f", "\x0b", "é", "☃", "%", "&", ";", "\\", "@", "a", "b:c", "irc:", "\x7f",
      "\xa0", "zz", "//"],
]
URLS = [
    *["http://example.org/a?b#c", "https:x", "mailto:a@b", "irc:x", "xmpp:a@b",
      "javascript:alert(1)", "data:text/html,x"],
    *["/a:b", "a/b:c", "?x:y", "#x:y", "vbscript:x", "//h/p", "\x01 javascript:x", "java\tscript:x",
      "file:///x", "1a:b"],
]


def pieces(random, of, least, most):
    """Some joined pieces."""
    return "".join(random.choice(of) for _ in range(random.randint(least, most)))


def attributes(random, listed):
    """Some of the listed attributes, each once."""
    names = random.sample(listed, random.randint(0, len(listed)))
    return "".join(f' {name}="{pieces(random, ESCAPED, 0, 8)}"' for name in names)


def forest(random, depth):
    """A text of the HTML grammar."""
    out, is_after_text = "", False
    for _ in range(random.randint(0, 4)):
        kind = random.randint(0, 3)
        if kind == 0 and not is_after_text:
            out, is_after_text = out + pieces(random, ESCAPED, 1, 8), True
            continue
        is_after_text = False
        if kind == 1 or depth == 0:
            name = random.choice(list(VOID))
            out += f"<{name}{attributes(random, VOID[name])} />"
        else:
            name = random.choice(list(ELEMENTS))
            out += (f"<{name}{attributes(random, ELEMENTS[name])}>{forest(random, depth - 1)}"
                    f"</{name}>")
    return out


def page(random, depth):
    """A page as `md_page` writes it."""
    title, body = pieces(random, ESCAPED, 0, 8), forest(random, depth)
    head = f'<head><meta charset="utf-8" /><title>{title}</title></head>'
    return f"<!doctype html>\n<html>{head}<body>{body}</body></html>\n"


def changed(random, text, of):
    """A text with a few characters removed, doubled, inserted or exchanged."""
    for _ in range(random.randint(1, 3)):
        at = random.randint(0, len(text))
        until = min(len(text), at + random.randint(0, 3))
        put = random.choice(["", random.choice(of), text[at:until] * 2,
                             random.choice(of).swapcase()])
        text = text[:at] + put + text[until:]
    return text


def text(random, depth):
    """One text and its kind."""
    kind = random.choice(["grammar", "page", "pieces", "pieces", "changed grammar", "changed page",
                          "attack"])
    if kind == "pieces":
        return kind, pieces(random, BROKEN, 0, 14)
    if kind == "attack":
        return kind, changed(random, random.choice(ATTACKS["attacks"])[0], BROKEN)
    made = page(random, depth) if kind.endswith("page") else forest(random, depth)
    return kind, changed(random, made, BROKEN) if kind.startswith("changed") else made


def url(random):
    """One URL and its kind."""
    kind = random.choice(["pieces", "changed", "attack"])
    if kind == "pieces":
        return kind, pieces(random, URL, 0, 7)
    if kind == "attack":
        return kind, changed(random, random.choice(ATTACKS["attacks"])[0][:60], URL)
    return kind, changed(random, random.choice(URLS), URL)
