"""Texts: lists of bytes, and the functions of lists that the definitions use.

A text is `bytes`. No line contains a line ending, so in the text of several lines a line feed
stands for each line ending.
"""

import string

SPACE, TAB, LINE_FEED, BACKSLASH = b" \t\n\\"
BYTE_ORDER_MARK = b"\xef\xbb\xbf"
BLANKS = b" \t"
PUNCTUATION = frozenset(string.punctuation.encode())
DIGITS = frozenset(string.digits.encode())
LETTERS = frozenset(string.ascii_letters.encode())
ALPHANUMERIC = LETTERS | DIGITS
HEXADECIMAL = frozenset(string.hexdigits.encode())


def prefix_len(test, text):
    """How many bytes at the beginning of a text pass a test."""
    return next((at for at, byte in enumerate(text) if not test(byte)), len(text))


def count_in(members, text):
    """How many bytes at the beginning of a text are in a set."""
    return len(text) - len(text.lstrip(bytes(members)))


def get_or(text, at, other):
    """The byte at an index, or another one where the text has none."""
    return text[at] if 0 <= at < len(text) else other


def first_of(text):
    """The first byte of a text, or 0."""
    return text[0] if text else 0


def is_blank(byte):
    """Whether a byte is a space or a tab (`Lines.antt`)."""
    return byte in BLANKS


def blanks(text):
    """How many spaces and tabs begin a text (`Leaves.antt`)."""
    return len(text) - len(text.lstrip(BLANKS))


def is_blank_text(text):
    """Whether a text has only spaces and tabs (`Marks.antt`)."""
    return blanks(text) == len(text)


def without_blanks(text):
    """A text without the spaces and tabs at its end (`Leaves.antt`)."""
    return text.rstrip(BLANKS)


def without_first(wanted, text):
    """A text without a byte at its beginning, if it has it (`Leaves.antt`)."""
    return text[1:] if text[:1] == bytes([wanted]) else text


def run_of(byte, text):
    """How many bytes at the beginning of a text are this one (`Marks.antt`)."""
    return len(text) - len(text.lstrip(bytes([byte])))


def begins_with(text, word):
    """Whether a text begins with a word, in any case of its letters (`HtmlBlocks.antt`)."""
    return text[:len(word)].lower() == word


def printed(text):
    """A text in which NUL is U+FFFD (`LinkDefinitions.antt`)."""
    return text.replace(b"\0", "\ufffd".encode())
