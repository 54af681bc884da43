"""Footnotes as they are written here, for the judge."""

import ctypes
import re
from typing import NamedTuple
from urllib.parse import quote_from_bytes

from changes import with_percents
from cmark import CMARK, FOOTNOTE_DEFINITION, FOOTNOTE_REFERENCE, nodes

SAFE = "!#$&'()*+,-./:;=?@_~%"  # what stays in a URL beside letters and digits


def unescape(match):
    """The byte of a percent escape that cmark-gfm wrote, or the escape itself where it
    didn't write it.
    """
    byte = bytes.fromhex(match[0][1:].decode())
    return match[0] if byte.isalnum() or byte in SAFE.encode() else byte


def footnote_id(label):
    """A footnote's identifier in a URL: its letters folded."""
    text = re.sub(rb"%[0-9A-F]{2}", unescape, label).decode("utf-8").casefold()
    return with_percents(quote_from_bytes(text.encode(), safe=SAFE).encode(), ())


class Calls(NamedTuple):
    """The calls of footnotes that are in a tree, each as cmark-gfm counts it, in the order
    of the document.

    cmark-gfm drops a footnote that nothing calls only after it has counted the calls in it. So it
    keeps footnotes that are called from there alone, ways back to there, and their numbers.
    """

    # The footnote's number, and the number of this call of it.
    pairs: tuple[tuple[int, int], ...]

    def numbers(self):
        """The numbers of the footnotes that are called, in the order in which they are called."""
        return list(dict.fromkeys(number for number, _ in self.pairs))

    def times(self, number):
        """Which calls of a footnote there are."""
        return sorted(time for called, time in self.pairs if called == number)


def with_call(match, calls):
    """A call of a footnote, as it is written here."""
    label, again, number = match.groups(default=b"-1")
    name = footnote_id(label)
    time = calls.times(int(number)).index(int(again[1:])) + 1
    place = calls.numbers().index(int(number)) + 1
    return (
        b'<sup><a href="#user-content-fn-' + name + b'" id="user-content-fnref-' + name
        + (b"-%d" % time if time > 1 else b"")
        + b'" data-footnote-ref="" aria-describedby="footnote-label">%d</a></sup>' % place
    )


def with_way_back(match, calls):
    """A way back from a footnote, as it is written here; none to a call past those that there are.
    """
    space, label, again, times = match.groups(default=b"")
    if int(times or b"1") > calls:
        return b""
    again_text = b"<sup>" + times + b"</sup>" if again else b""
    return (
        space + b'<a href="#user-content-fnref-' + footnote_id(label) + again
        + b'" data-footnote-backref="" aria-label="Back to content" '
          b'class="data-footnote-backref">\xe2\x86\xa9'
        + again_text + b"</a>"
    )


CALL = re.compile(
    rb'<sup class="footnote-ref"><a href="#fn-([^"]*)" id="fnref-\1(-[0-9]+)?" '
    rb'data-footnote-ref>([0-9]+)</a></sup>'
)
BACK = re.compile(
    rb'( ?)<a href="#fnref-([^"]*?)((?<=.)-[0-9]+)?" class="footnote-backref" '
    rb'data-footnote-backref aria-label="Back to content">\xe2\x86\xa9'
    rb'(?:<sup class="footnote-ref">([0-9]+)</sup>)?</a>'
)
SECTION = b'<section class="footnotes" data-footnotes>\n<ol>\n'
ITEM = b'<li id="fn-'
SECTION_END = b"</ol>\n</section>\n"
SECTION_HERE = (
    b'<section data-footnotes="" class="footnotes">'
    b'<h2 id="footnote-label" class="sr-only">Footnotes</h2>\n<ol>\n'
)


def with_item(item, calls):
    """A footnote, as it is written here, with this number of calls."""
    label, rest = item.split(b'"', 1)
    rest = BACK.sub(lambda match: with_way_back(match, calls), rest)
    return b'<li id="user-content-fn-' + footnote_id(label) + b'"' + rest


def with_footnotes(text, calls):
    """Footnotes with the attributes, the prefix and the numbers that they have here; none
    that nothing calls.
    """
    body, section, notes = text.partition(SECTION)
    items = notes.removesuffix(SECTION_END).split(ITEM)[1:]
    kept = [with_item(items[number - 1], len(calls.times(number))) for number in calls.numbers()]
    text = body + (SECTION_HERE + b"".join(kept) + SECTION_END if kept else b"")
    return CALL.sub(lambda match: with_call(match, calls), text) if section else text


# The offset of the number of a call of its footnote in a node of cmark-gfm 0.29.0.gfm.6.
FOOTNOTE_FIELD = 112


def calls_of(root):
    """The calls of footnotes in a tree; cmark-gfm moves definitions to its end, and loses some line
    numbers before tables.
    """
    found = []
    line = 0
    for node, type_ in nodes(root, (FOOTNOTE_REFERENCE, FOOTNOTE_DEFINITION)):
        own = CMARK.cmark_node_get_start_line(node)
        line = own if type_ == FOOTNOTE_DEFINITION else max(line, own)
        if type_ == FOOTNOTE_REFERENCE:
            time = ctypes.c_int.from_address(node + FOOTNOTE_FIELD).value
            found.append((line, (int(CMARK.cmark_node_get_literal(node)), time)))
    found.sort(key=lambda pair: pair[0])
    return Calls(tuple(pair for _, pair in found))
