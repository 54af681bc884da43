"""A reader of HTML with only the elements of compiled Markdown, written independently of the
definitions.
"""

import re

# The attributes that each element and each void tag may have, in their order.
ELEMENTS = dict.fromkeys(["blockquote", "pre", "p", "ul", "em", "strong", "del", "sup", "table",
                          "thead", "tbody", "tr", "h1", "h3", "h4", "h5", "h6"], "") | {
    "code": "class", "ol": "start", "li": "id", "h2": "id class", "th": "align", "td": "align",
    "section": "data-footnotes class",
    "a": "href title id data-footnote-ref data-footnote-backref aria-describedby aria-label class"}
VOID_TAGS = {"br": "", "hr": "", "img": "src alt title", "input": "type disabled checked"}
# The protocols that links may have, and those that images may have.
LINK_PROTOCOLS = b"http https irc ircs mailto xmpp".split()
IMAGE_PROTOCOLS = b"http https".split()
# What a browser drops at the start of an URL, and anywhere in it.
DROPPED = bytes(range(0x21))
DROPPED_ANYWHERE = b"\t\n\r"
# No character that would end it, and each ampersand begins a reference.
PLAIN = r'[^<>"\0&]*(?:&(?:amp|lt|gt|quot);[^<>"\0&]*)*'


def pattern(name, attributes):
    """The inside of a tag: its name, and some of its attributes, each at most once."""
    return name + "".join(f'(?: {attribute}="{PLAIN}")?' for attribute in attributes.split())


PLAIN_TEXT = re.compile(PLAIN)
TAGS = {name: re.compile(pattern(name, attributes)) for name, attributes in ELEMENTS.items()}
VOIDS = {name: re.compile(pattern(name, attributes)) for name, attributes in VOID_TAGS.items()}
LEADING = re.compile(r' (href|src)="([^"]*)"')
IDS = re.compile(r' id="([^"]*)"')

# Texts that aren't such HTML, or that have other protocols.
REFUSED = [
    "<p>", "</p>", "<p></p", "<b></b>", "a & b", '"', "<p><em></p></em>", '<p class="x"></p>',
    '<a href="x" href="y"></a>', "<a href=x></a>", '<a  href="x"></a>',
    '<a href="x"title="y"></a>', '<a title="x" href="y"></a>', '<a ="x"></a>', '<p ="x"></p>',
    '<a></a href="x">', "<br></br>", "<p />", '<a href="javascript:x"></a>',
    '<a href=" \tJava\nScript:x"></a>', '<img src="irc:x" />', '<img src="&quot;:x" />',
    "\0", "&#60;", "a>b", '<a href="&lt;:x"></a>', '<a href="\u212ahttp:x"></a>', "<br>",
    "<img src=\"x\" alt=\"<\" />", '<a href="data:x"></a>', "<p></em>"]
# Texts that are such HTML.
READ = ['a<p>&lt;<a href="http://x?y:z" title=" ">b</a><img src="x/y:z" /></p>\n<hr />', "",
        '<a href=" ht\ttPs:x">a</a>', '<a href="#a:b" id="c"></a>']


def leads_where_it_may(attribute, value):
    """Whether an URL has no protocol or a permitted one, as a browser reads it.

    The characters of references occur in no permitted protocol, and end none, so they aren't
    decoded.
    """
    protocol, colon, _ = value.encode().partition(b":")
    if not colon or any(mark in protocol for mark in b"?#/"):
        return True
    written = protocol.lstrip(DROPPED).translate(None, DROPPED_ANYWHERE).lower()
    return written in (LINK_PROTOCOLS if attribute == "href" else IMAGE_PROTOCOLS)


def is_tag(tags, inside):
    """Whether a text is the inside of one of these tags."""
    name = inside.partition(" ")[0]
    return (name in tags and tags[name].fullmatch(inside) is not None
            and all(leads_where_it_may(*found.groups()) for found in LEADING.finditer(inside)))


def takes_tag(open_names, tag):
    """Reads a tag without its brackets, updates the open elements, and returns whether the tag may
    occur there.
    """
    if tag.startswith("/"):
        return bool(open_names) and open_names.pop() == tag[1:]
    if tag.endswith(" /"):
        return is_tag(VOIDS, tag[:-2])
    open_names.append(tag.partition(" ")[0])
    return is_tag(TAGS, tag)


def is_html(text):
    """Whether a text is such HTML, in which each element ends at a permitted place."""
    before, *pieces = text.split("<")
    open_names = []
    for piece in pieces:
        tag, bracket, after = piece.partition(">")
        if not bracket or not PLAIN_TEXT.fullmatch(after) or not takes_tag(open_names, tag):
            return False
    return PLAIN_TEXT.fullmatch(before) is not None and not open_names


def has_distinct_ids(text):
    """Whether no two ids of such HTML are equal."""
    ids = IDS.findall(text)
    return len(ids) == len(set(ids))


def faults():
    """The faults of the reader itself."""
    return ([f"read: {text!r}" for text in REFUSED if is_html(text)]
            + [f"not read: {text!r}" for text in READ if not is_html(text)])
