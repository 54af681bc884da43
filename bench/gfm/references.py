"""Escapes and character references (6.1, 6.2), and texts in which only these are read."""

import html.entities

from gfm.marks import is_escape
from gfm.texts import ALPHANUMERIC, DIGITS, HEXADECIMAL, count_in

AMPERSAND, SEMICOLON = b"&;"
NAMES = {name[:-1].encode(): text.encode() for name, text in html.entities.html5.items()
         if name.endswith(";")}
MOST_OF_NAME, MOST_DIGITS, MOST_HEXADECIMAL = 31, 7, 6


def body_length(text):
    """The length of what is between the `&` that begins a text and the `;` of a reference."""
    if text[1:3] in (b"#x", b"#X"):
        count = count_in(HEXADECIMAL, text[3:])
        return 2 + count if 0 < count <= MOST_HEXADECIMAL else 0
    if text[1:2] == b"#":
        count = count_in(DIGITS, text[2:])
        return 1 + count if 0 < count <= MOST_DIGITS else 0
    count = count_in(ALPHANUMERIC, text[1:])
    return count if count <= MOST_OF_NAME and text[1:1 + count] in NAMES else 0


def reference_length(text):
    """The length of the character reference that begins a text; 0 if there is none."""
    count = body_length(text) if text[:1] == b"&" else 0
    return count + 2 if count and text[1 + count:2 + count] == b";" else 0


def is_no_character(code):
    """Whether a code is none of a character that a text may have: it is U+FFFD."""
    is_control = code <= 8 or code == 11 or 14 <= code <= 31 or 127 <= code <= 159
    is_surrogate = 0xD800 <= code <= 0xDFFF
    is_noncharacter = 0xFDD0 <= code <= 0xFDEF or code % 0x10000 >= 0xFFFE or code > 0x10FFFF
    return is_control or is_surrogate or is_noncharacter


def decoded_reference(reference):
    """The text of a character reference."""
    name = reference[1:-1]
    if name[:1] != b"#":
        return NAMES[name]
    code = int(name[2:], 16) if name[1:2] in b"xX" else int(name[1:])
    return chr(0xFFFD if is_no_character(code) else code).encode()


def decoded(text, has_escapes=True):
    """A text in which only escapes and references are read: a URL, a title, an info string."""
    found, at = [], 0
    while at < len(text):
        length = reference_length(text[at:at + MOST_OF_NAME + 3]) if text[at] == AMPERSAND else 0
        if has_escapes and is_escape(text, at):
            found.append(text[at + 1:at + 2])
            at += 2
        elif length:
            found.append(decoded_reference(text[at:at + length]))
            at += length
        else:
            found.append(text[at:at + 1])
            at += 1
    return b"".join(found)
