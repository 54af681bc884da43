"""Bare links (GFM 6.9): which text is a link without brackets.

A text is what is searched, of which the part before `low` belongs to other constructs.
"""

from typing import NamedTuple

from gfm.characters import class_after
from gfm.marks import BRACKET, BRACKET_END, COLON, STOP
from gfm.texts import ALPHANUMERIC, LETTERS, begins_with, count_in, get_or, prefix_len

AT, SEMICOLON = b"@;"
ADDRESS_NAME = ALPHANUMERIC | frozenset(b".+-_")
PROTOCOLS = (b"http://", b"https://")


class BareLink(NamedTuple):
    """A bare link: its kind, and its range."""

    kind: str
    start: int
    end: int


def reference_before(link):
    """The length of the character reference that ends with a link's last byte, a `;`; or 1."""
    count = prefix_len(lambda byte: byte in LETTERS, link[-2::-1])
    return count + 2 if count and link[-2 - count:-1 - count] == b"&" else 1


def trimmed_length(link):
    """The length of a link without the marks at its end that belong to the text around it."""
    while link:
        if link[-1] in b"?!.,:*_~'\"":
            link = link[:-1]
        elif link[-1:] == b")" and link.count(b")") > link.count(b"("):
            link = link[:-1]
        elif link[-1] == SEMICOLON:
            link = link[:-reference_before(link)]
        else:
            break
    return len(link)


def link_length(text):
    """The length of a link, up to white space, `<` or a bracket that it doesn't open."""
    depth = 0
    for at, byte in enumerate(text):
        if byte in b" \t\n\r<" or (byte == BRACKET_END and depth == 0):
            return trimmed_length(text[:at])
        depth += (byte == BRACKET) - (byte == BRACKET_END)
    return trimmed_length(text)


def is_domain(text, needs_dot):
    """Whether a text begins with a domain, with no `_` in its last two parts."""
    count = prefix_len(lambda byte: byte in ALPHANUMERIC or byte >= 128 or byte in b"-_.", text)
    parts = text[:count].split(b".")
    return count > 0 and b"_" not in b"".join(parts[-2:]) and (len(parts) > 1 or not needs_dot)


def url_at(text, start, high):
    """The link with a protocol that begins at an index, after no letter."""
    rest = text[start:high]
    protocol = next((word for word in PROTOCOLS if begins_with(rest, word)), None)
    if protocol is None or get_or(text, start - 1, 0) in LETTERS:
        return None
    host = rest[len(protocol):]
    length = link_length(rest)
    if class_after(host) != "word" or not is_domain(host, False) or length <= len(protocol):
        return None
    return BareLink("url", start, start + length)


def www_at(text, start, high):
    """The link that begins with `www.` at an index, after nothing or what may precede it."""
    rest = text[start:high]
    if not begins_with(rest, b"www.") or (start > 0 and text[start - 1] not in b" \t\n\r*_~(["):
        return None
    length = link_length(rest.split(b"\0")[0])
    return BareLink("www", start, start + length) if is_domain(rest, True) and length > 4 else None


def host_length(text):
    """The length of the host of an address at the beginning of a text; 0 if there is none."""
    length = prefix_len(lambda byte: byte in ALPHANUMERIC or byte in b"-_.", text)
    for at in range(length):
        if text[at] == STOP and get_or(text, at + 1, 0) not in ALPHANUMERIC:
            length = at
            break
    host = text[:length]
    return length if STOP in host and host[-1] in LETTERS else 0


def resource_length(text):
    """The length of the resource of an address of XMPP, with its slash; 0 if there is none."""
    count = count_in(ALPHANUMERIC | frozenset(b"@./"), text[1:])
    return trimmed_length(text[1:1 + count]) + 1 if text[:1] == b"/" and count else 0


def has_protocol(head, protocol):
    """Whether a text ends in a protocol, with no letter or digit before it."""
    before = len(head) - len(protocol) - 1
    return head.endswith(protocol) and get_or(head, before, 0) not in ALPHANUMERIC


def address_at(text, low, at, high):
    """The address whose `@` is at an index."""
    start = at - prefix_len(lambda byte: byte in ADDRESS_NAME, text[low:at][::-1])
    rest = text[at + 1:high]
    length = host_length(rest)
    if start == at or not length or rest[length:length + 1] == b"@":
        return None
    end = at + 1 + length
    if has_protocol(text[low:start], b"mailto:"):
        return BareLink("mailto", start - 7, end)
    if has_protocol(text[low:start], b"xmpp:"):
        return BareLink("xmpp", start - 5, end + resource_length(rest[length:]))
    return BareLink("email", start, end)


def bare_link(text, low, at, high):
    """The link whose mark is at an index: `@`, the colon of a URL, or the first stop of `www.`."""
    if text[at] == AT:
        return address_at(text, low, at, high)
    if text[at] == COLON:
        start = at - prefix_len(lambda byte: byte in LETTERS, text[low:at][::-1])
        return url_at(text, start, high)
    return www_at(text, at - 3, high) if text[at] == STOP and at - 3 >= low else None


def bare_links(text, low, high):
    """The links in a part of a text, from left to right."""
    found, at = [], low
    while at < high:
        link = bare_link(text, low, at, high)
        if link is not None:
            found.append(link)
            low = link.end
        at = max(at + 1, low)
    return found
