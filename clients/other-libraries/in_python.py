"""Renders documents, or cleans HTML, with one way in Python:

    in_python.py WAY < DOCUMENTS > HTML

DOCUMENTS are frames: a count of bytes in decimal digits, a line feed, the document. The ways are
those of WAYS. bleach permits all elements that the renderers make.
"""

import sys

TAGS = """a blockquote br code dd del div dl dt em h1 h2 h3 h4 h5 h6 hr i img input li ol p pre s
    section span strong sub sup table tbody td th thead tr ul""".split()
ATTRIBUTES = {
    "*": ["class", "id"],
    "a": ["href", "title"],
    "img": ["src", "alt", "title"],
    "input": ["checked", "disabled", "type"],
    "ol": ["start"],
    "td": ["align"],
    "th": ["align"],
}


def bivdrazo():
    """Ours."""
    from bivdrazo import markdown_to_html

    return markdown_to_html


def markdown_it():
    """markdown-it-py, as GFM."""
    from markdown_it import MarkdownIt

    return MarkdownIt("gfm-like").render


def mistune():
    """mistune, with HTML unchanged and the extensions of GFM."""
    import mistune as module

    plugins = ["strikethrough", "footnotes", "table", "url", "task_lists"]
    return module.create_markdown(escape=False, plugins=plugins)


def cmarkgfm():
    """cmarkgfm, cmark-gfm for Python, with HTML unchanged, except by its tag filter."""
    import cmarkgfm as module
    from cmarkgfm.cmark import Options

    options = Options.CMARK_OPT_UNSAFE | Options.CMARK_OPT_FOOTNOTES
    return lambda document: module.github_flavored_markdown_to_html(document, options=options)


def cleaned(way):
    """A way, and bleach behind it."""
    from bleach.sanitizer import Cleaner

    render = way()
    cleaner = Cleaner(tags=TAGS, attributes=ATTRIBUTES)
    return lambda document: cleaner.clean(render(document))


def bivdrazo_clean():
    """Our own cleaner of HTML."""
    from bivdrazo import clean

    return clean


def bleach():
    """bleach alone, which leaves out what isn't allowed, as ours does."""
    from bleach.sanitizer import Cleaner

    return Cleaner(tags=TAGS, attributes=ATTRIBUTES, strip=True).clean


WAYS = {
    "bivdrazo": bivdrazo,
    "markdown-it": markdown_it,
    "mistune": mistune,
    "cmarkgfm": cmarkgfm,
    "markdown-it, bleach": lambda: cleaned(markdown_it),
    "mistune, bleach": lambda: cleaned(mistune),
    "cmarkgfm, bleach": lambda: cleaned(cmarkgfm),
    "bivdrazo-clean": bivdrazo_clean,
    "bleach": bleach,
}


def frames(data):
    """The documents."""
    at = 0
    while at < len(data):
        end = data.index(b"\n", at)
        length = int(data[at:end])
        yield data[end + 1 : end + 1 + length].decode("utf-8")
        at = end + 1 + length


def main():
    """Renders all."""
    render = WAYS[sys.argv[1]]()
    for document in frames(sys.stdin.buffer.read()):
        sys.stdout.write(render(document))


if __name__ == "__main__":
    main()
