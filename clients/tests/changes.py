"""The permitted changes of a tree and of a text, except those of footnotes."""

import codecs
import re

from cmark import CMARK, CUSTOM_BLOCK, HTML_BLOCK, HTML_INLINE, IMAGE, LINK, TEXT, nodes

PROTOCOLS = {
    LINK: ("http", "https", "irc", "ircs", "mailto", "xmpp"),
    IMAGE: ("http", "https"),
}


def escape(text):
    """A text with the four references of HTML."""
    for character, reference in ((b"&", b"&amp;"), (b'"', b"&quot;"), (b"<", b"&lt;"),
                                 (b">", b"&gt;")):
        text = text.replace(character, reference)
    return text


def escape_html(root):
    """HTML of the document becomes text, where cmark-gfm leaves it out."""
    for node, type_ in nodes(root, (HTML_INLINE, HTML_BLOCK)):
        literal = CMARK.cmark_node_get_literal(node)
        if type_ == HTML_INLINE:
            made = CMARK.cmark_node_new(TEXT)
            CMARK.cmark_node_set_literal(made, literal)
        else:
            made = CMARK.cmark_node_new(CUSTOM_BLOCK)
            CMARK.cmark_node_set_on_enter(made, escape(literal.rstrip(b"\r\n")))
        CMARK.cmark_node_replace(node, made)
        CMARK.cmark_node_free(node)


def change_urls(root, change):
    """Each URL of a link or an image becomes what `change` makes of it and of the
    permitted protocols.
    """
    for node, type_ in nodes(root, (LINK, IMAGE)):
        url = CMARK.cmark_node_get_url(node)
        CMARK.cmark_node_set_url(node, change(url, PROTOCOLS[type_]))


def without_protocol(url, protocols):
    """No URL, where its protocol isn't permitted."""
    before, mark, _ = re.split(rb"([:/?#])", url, maxsplit=1) if re.search(rb"[:/?#]",
                                                                           url) else (url, b"", b"")
    return b"" if mark == b":" and before.decode("latin-1").lower() not in protocols else url


def with_percents(url, _protocols):
    """A URL whose percent signs are escaped where two hexadecimal digits don't follow."""
    return re.sub(rb"%(?![0-9A-Fa-f]{2})", b"%25", url)


def with_apostrophes(text):
    """Apostrophes in URLs stay as they are; cmark-gfm writes no such reference elsewhere."""
    return text.replace(b"&#x27;", b"'")


def with_tasks(text):
    """The attributes of a checked task in the other order."""
    return text.replace(
        b'<input type="checkbox" checked="" disabled="" />',
        b'<input type="checkbox" disabled="" checked="" />'
    )


def one_for_each_byte(error):
    """The replacement for bytes that aren't UTF-8: U+FFFD for each."""
    return "\ufffd" * (error.end - error.start), error.end


codecs.register_error("one_for_each_byte", one_for_each_byte)


def with_utf8(text):
    """A text that is UTF-8: cmark-gfm cuts some characters into two."""
    return text.decode("utf-8", "one_for_each_byte").encode("utf-8")
