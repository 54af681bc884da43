"""The marks of blocks: `Marks.antt`, `Leaves.antt` and `Tables.antt`. A text is the rest of a line
after its indentation, without its ending.
"""

from gfm.texts import BACKSLASH, BLANKS, DIGITS, PUNCTUATION, blanks, count_in, get_or, is_blank
from gfm.texts import is_blank_text, run_of, without_blanks, without_first

HASH, DOLLAR, STAR, PLUS, HYPHEN, STOP = b"#$*+-."
COLON, LESS, EQUALS, GREATER, BRACKET, BRACKET_END = b":<=>[]"
UNDERSCORE, BACKTICK, BAR, TILDE, PARENTHESIS, PARENTHESIS_END = b"_`|~()"


# Marks.antt

def is_apart(text):
    """Whether a text is empty, or begins with a space or a tab."""
    return not text or is_blank(text[0])


def opens_heading(text):
    """Whether a text begins with the number signs of a heading (4.2)."""
    return 0 < run_of(HASH, text) < 7 and is_apart(text[run_of(HASH, text):])


def number_length(text):
    """How many digits begin a text, counted up to nine."""
    return min(9, count_in(DIGITS, text))


def ends_marker(digits, byte):
    """Whether a byte completes an item's marker after so many digits."""
    return byte in (STAR, PLUS, HYPHEN) if digits == 0 else byte in (STOP, PARENTHESIS_END)


def opens_item(text):
    """Whether a text begins with the marker of an item (5.2)."""
    digits = number_length(text)
    return digits < len(text) and ends_marker(digits, text[digits]) and is_apart(text[digits + 1:])


def may_interrupt(text):
    """Whether an item that begins a text may interrupt a paragraph."""
    digits = number_length(text)
    return (digits == 0 or text[:digits] == b"1") and not is_blank_text(text[digits + 1:])


def opens_task(text):
    """Whether a text begins with the box of a task (GFM 5.3)."""
    return text[:1] == b"[" and get_or(text, 1, 0) in b" xX" and text[2:3] == b"]" \
        and get_or(text, 3, 0) in BLANKS


# Leaves.antt

def is_break(mark, text):
    """Whether a text is a thematic break of a mark (4.1)."""
    return all(byte == mark or is_blank(byte) for byte in text) and text.count(mark) > 2


def opens_fence(mark, least, is_last, text):
    """Whether a text begins with so many of a mark, and if `is_last` has none after them."""
    count = run_of(mark, text)
    return count >= least and not (is_last and mark in text[count:])


def opens_code(mark, text):
    """Whether a text opens fenced code (4.5)."""
    return opens_fence(mark, 3, mark == BACKTICK, text)


def opens_math(text):
    """Whether a text begins a block of math: two or more dollar signs, and none after them."""
    return opens_fence(DOLLAR, 2, True, text)


def closes_fence(mark, length, text):
    """Whether a text closes a fence: at least as many of its mark, and then nothing."""
    count = run_of(mark, text)
    return count >= length and is_blank_text(text[count:])


def first_word(text):
    """The word that begins a text after spaces and tabs (`LeafBlocks.antt`)."""
    word = text[blanks(text):]
    return word[:next((at for at, byte in enumerate(word) if is_blank(byte)), len(word))]


def is_underline(mark, text):
    """Whether a text is one or more of a mark, and then only spaces and tabs (4.3)."""
    count = run_of(mark, text)
    return count > 0 and is_blank_text(text[count:])


def heading_content(text):
    """The content of a heading, without blanks and a closing sequence at its end (4.2)."""
    whole = without_blanks(text)
    content = whole.rstrip(b"#")
    return without_blanks(content) if content[-1:] in (b" ", b"\t") else whole


def cells(row):
    """The cells of a delimiter row without its leading bar."""
    found = row.split(b"|")
    return found if found[-1] else found[:-1]


def is_delimiter(cell):
    """Whether a cell is hyphens with or without a colon on each side."""
    marks = without_first(COLON, cell[blanks(cell):])
    count = run_of(HYPHEN, marks)
    return count > 0 and is_blank_text(without_first(COLON, marks[count:]))


def delimiters(text):
    """The cells of a delimiter row."""
    return cells(without_first(BAR, without_blanks(text)))


def is_delimiter_row(text):
    """Whether a text is a delimiter row: delimiters in all cells, and a bar or a colon."""
    found = delimiters(text)
    return bool(found) and all(map(is_delimiter, found)) and (BAR in text or COLON in text)


# Tables.antt

def row_cells(text):
    """The cells of a row (GFM 4.10), each up to a bar without a backslash before it."""
    inside = without_first(BAR, without_blanks(text[blanks(text):]))
    found, start = [], 0
    for at, byte in enumerate(inside):
        if byte == BAR and not (at > start and inside[at - 1] == BACKSLASH):
            found.append(inside[start:at])
            start = at + 1
    return found + ([inside[start:]] if start < len(inside) else [])


def is_escape(text, at):
    """Whether a byte and the next one are an escape (6.1, `Escapes.antt`)."""
    return text[at] == BACKSLASH and get_or(text, at + 1, 0) in PUNCTUATION
