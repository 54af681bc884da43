"""Reads HTML with a parser like that of browsers, and lists what isn't permitted in it."""

import re

import html5lib

ELEMENTS = {
    **dict.fromkeys(
        "blockquote pre p ul em strong del sup table thead tbody tr h1 h3 h4 h5 h6 br hr".split(),
        frozenset()
    ),
    "code": {"class"},
    "ol": {"start"},
    "li": {"id"},
    "h2": {"id", "class"},
    "th": {"align"},
    "td": {"align"},
    "section": {"data-footnotes", "class"},
    "a": {
        "href", "title", "id", "class", "data-footnote-ref", "data-footnote-backref",
        "aria-describedby", "aria-label",
    },
    "img": {"src", "alt", "title"},
    "input": {"type", "disabled", "checked"},
}
PROTOCOLS = {
    "href": {"http", "https", "irc", "ircs", "mailto", "xmpp"},
    "src": {"http", "https"},
}
# A browser skips control characters and spaces before a URL, and over tabs and
# line ends in it.
BEFORE_URL = "".join(map(chr, range(33)))
PROTOCOL = re.compile(r"([A-Za-z][A-Za-z0-9+.-]*):")


def protocol_of(url):
    """The protocol of a URL as a browser finds it, in small letters, or None."""
    match = PROTOCOL.match(re.sub("[\t\n\r]", "", url.lstrip(BEFORE_URL)))
    return match[1].lower() if match else None


def fault_of(element):
    """What isn't permitted in an element, or None."""
    if not isinstance(element.tag, str) or element.tag not in ELEMENTS:
        return f"the element {element.tag}"
    for name, value in element.attrib.items():
        if name not in ELEMENTS[element.tag]:
            return f"the attribute {name} of {element.tag}"
        if name in PROTOCOLS and protocol_of(value) not in {None, *PROTOCOLS[name]}:
            return f"the protocol of {name}: {value}"
    return None


def faults(text):
    """The faults of a text: HTML in a page's body that isn't permitted."""
    tree = html5lib.parseFragment(text.decode("utf-8"), treebuilder="etree",
                                  namespaceHTMLElements=False)
    elements = list(tree.iter())[1:]  # the first is the fragment itself
    return [fault for fault in map(fault_of, elements) if fault is not None]
