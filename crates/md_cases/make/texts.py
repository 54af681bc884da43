"""The rules for texts: escaping, URLs and their protocols, the tag filter, references, identifiers.

Written from the rules and apart from the crates (docs/review/DEFINITIONS.md says the same rules), for the
answers of the cases that `bench/cases.py` makes. Nothing here is run by itself.
"""
import re

ESCAPED = {"&": "&amp;", '"': "&quot;", "<": "&lt;", ">": "&gt;"}
REPLACEMENT = "\ufffd"
KEPT = re.compile(r"%[0-9A-Fa-f]{2}|[!#$&-;=?-Z_a-z~]")
LINK_PROTOCOLS = ["http", "https", "irc", "ircs", "mailto", "xmpp"]
IMAGE_PROTOCOLS = ["http", "https"]
FILTERED = "iframe|noembed|noframes|plaintext|script|style|textarea|title|xmp"
FILTERED_TAG = re.compile(rf"<(?=/?(?:{FILTERED})(?:[\t\n\f\r />]|\Z))", re.ASCII | re.IGNORECASE)
NAMES = {"amp": "&", "lt": "<", "gt": ">", "quot": '"', "apos": "'", "colon": ":", "sol": "/",
         "num": "#", "quest": "?"}


def encoded(text, escaped=True):
    """A text as it stands in HTML; where it isn't escaped, NUL alone is replaced."""
    text = text.replace("\0", REPLACEMENT)
    return re.sub('[&"<>]', lambda match: ESCAPED[match.group()], text) if escaped else text


def normalized(url):
    """A URL in which each character that may not stand there is its bytes in hexadecimal digits."""
    made, at = "", 0
    while at < len(url):
        kept = KEPT.match(url, at)
        if kept:
            made, at = made + kept.group(), kept.end()
        else:
            made, at = made + "".join(f"%{byte:02X}" for byte in url[at].encode()), at + 1
    return made


def sanitized(url):
    return encoded(normalized(url))


def permitted(url, protocols):
    """The sanitized URL, or the empty text where it has a protocol that isn't one of these."""
    made = sanitized(url)
    before, colon, _ = made.partition(":")
    if not colon or any(mark in before for mark in "?#/") or before.lower() in protocols:
        return made
    return ""


def filtered(html):
    """HTML in which the `<` of nine tags is escaped."""
    return FILTERED_TAG.sub("&lt;", html)


def referred(marker, value):
    """The character that a reference stands for, by the last of its markers."""
    if marker == "&":
        return NAMES[value]
    code = int(value, 16 if marker == "x" else 10)
    replaced = (code <= 8 or code == 11 or 14 <= code <= 31 or 127 <= code <= 159 or 0xD800 <= code
                <= 0xDFFF
                or 0xFDD0 <= code <= 0xFDEF or code & 0xFFFE == 0xFFFE or code > 0x10FFFF)
    return REPLACEMENT if replaced else chr(code)


def identifier(label):
    """A label as it is compared: one space for white space, none around it, letters folded."""
    return re.sub("[\t\n\r ]+", " ", label).strip(" ").casefold()
