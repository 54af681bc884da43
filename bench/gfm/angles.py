"""What begins with `<` in a leaf: links in angle brackets (6.8), and HTML (6.10). Each function
returns a length from the `<`, or 0.
"""

from gfm.marks import LESS
from gfm.texts import ALPHANUMERIC, LETTERS, count_in, first_of, is_blank_text, prefix_len

SPACES = b" \t\n"
NAME_BYTES = ALPHANUMERIC | frozenset(b".!#$%&'*+/=?^_`{|}~-")
MOST_OF_PROTOCOL, MOST_OF_PART = 32, 63
OTHERS = ((b"<!--", b"-->"), (b"<?", b"?>"), (b"<![CDATA[", b"]]>"), (b"<!", b">"))


def spaces(text):
    """How many spaces, tabs and line endings begin a text."""
    return count_in(SPACES, text)


def after_value(text):
    """The text after the value of an attribute; None if there is none."""
    if text[:1] in (b'"', b"'"):
        end = text.find(text[:1], 1)
        return None if end < 0 else text[end + 1:]
    count = prefix_len(lambda byte: byte not in b" \t\n\r\"'=<>`", text)
    return text[count:] if count else None


def after_attributes(text):
    """The text after attributes and spaces; None if they are malformed."""
    while True:
        count = spaces(text)
        rest = text[count:]
        if not rest or rest[0] in b"/>":
            return rest or None
        if count == 0 or not (rest[0] in LETTERS or rest[0] in b"_:"):
            return None
        text = rest[count_in(ALPHANUMERIC | frozenset(b"_:.-"), rest):]
        value = text[spaces(text):]
        if value[:1] == b"=":
            text = after_value(value[1 + spaces(value[1:]):])
            if text is None:
                return None


def tag_length(text):
    """The length of an opening or closing tag."""
    is_closing = text[1:2] == b"/"
    rest = text[2:] if is_closing else text[1:]
    if first_of(rest) not in LETTERS:
        return 0
    rest = rest[count_in(ALPHANUMERIC | frozenset(b"-"), rest):]
    rest = rest[spaces(rest):] if is_closing else after_attributes(rest)
    if rest is None:
        return 0
    if not is_closing and rest[:1] == b"/":
        rest = rest[1:]
    return len(text) - len(rest) + 1 if rest[:1] == b">" else 0


def is_tag_alone(text):
    """Whether a line is a tag alone, the seventh beginning of a block of HTML (4.6)."""
    length = tag_length(text) if first_of(text) == LESS else 0
    return length > 0 and is_blank_text(text[length:])


def html_length(text):
    """The length of HTML."""
    if text[1:2] not in (b"!", b"?"):
        return tag_length(text)
    for whole in (b"<!-->", b"<!--->"):
        if text.startswith(whole):
            return len(whole)
    for opening, ending in OTHERS:
        is_declaration = opening == b"<!"
        if text.startswith(opening) and (not is_declaration or first_of(text[2:]) in LETTERS):
            end = text.find(ending, len(opening))
            return 0 if end < 0 else end + len(ending)
    return 0


def url_length(text):
    """The length of a URL in angle brackets."""
    inside = text[1:]
    protocol = inside[:max(0, inside.find(b":"))]
    is_protocol = 2 <= len(protocol) <= MOST_OF_PROTOCOL and protocol[0] in LETTERS \
        and all(byte in ALPHANUMERIC or byte in b"+-." for byte in protocol)
    if not is_protocol:
        return 0
    count = prefix_len(lambda byte: (byte > 32 or byte == 0) and byte not in b"<>\x7f", inside)
    return count + 2 if inside[count:count + 1] == b">" else 0


def is_host(text):
    """Whether a text is a host: parts of 1 to 63 bytes that neither begin nor end with `-`."""
    return all(0 < len(part) <= MOST_OF_PART and part[:1] != b"-" and part[-1:] != b"-"
               for part in text.split(b"."))


def address_length(text):
    """The length of an address in angle brackets."""
    name = count_in(NAME_BYTES, text[1:])
    host = text[2 + name:]
    if not name or text[1 + name:2 + name] != b"@":
        return 0
    count = count_in(ALPHANUMERIC | frozenset(b"-."), host)
    return name + count + 3 if host[count:count + 1] == b">" and is_host(host[:count]) else 0
