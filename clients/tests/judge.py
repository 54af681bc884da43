"""The HTML of cmark-gfm for a document, and the same with the permitted differences.

The judge is cmark-gfm's own parser and its own renderer. Between the two it changes the tree by the
permitted differences, one class after another, and then the text. A class counts if it changes the
text. So each difference is defined exactly: the result must be equal byte for byte.
"""

import itertools
from typing import NamedTuple

from changes import (change_urls, escape_html, with_apostrophes, with_percents, with_tasks,
                     with_utf8, without_protocol)
from cmark import CMARK, parse, render
from footnotes import calls_of, with_footnotes


class Judged(NamedTuple):
    """The HTML of cmark-gfm, the expected HTML, and the classes of differences between the two."""

    plain: bytes
    wanted: bytes
    classes: tuple[str, ...]


TREE_CLASSES = (
    ("html", escape_html),
    ("protocol", lambda root: change_urls(root, without_protocol)),
    ("percent", lambda root: change_urls(root, with_percents)),
)


def judge(document):
    """The HTML of cmark-gfm for a document, and the expected one."""
    root = parse(document)
    texts = [("", render(root))]
    for name, change in TREE_CLASSES:
        change(root)
        texts.append((name, render(root)))
    calls = calls_of(root)
    CMARK.cmark_node_free(root)
    texts.append(("apostrophe", with_apostrophes(texts[-1][1])))
    texts.append(("task", with_tasks(texts[-1][1])))
    texts.append(("utf8", with_utf8(texts[-1][1])))
    texts.append(("footnote", with_footnotes(texts[-1][1], calls)))
    classes = tuple(name for (_, before), (name, text) in itertools.pairwise(texts)
                    if text != before)
    return Judged(texts[0][1], texts[-1][1], classes)
