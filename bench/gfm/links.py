"""The parts of links, and definitions of links: `Escapes`, `Texts` and `LinkParts` of md_lines, and
`LinkDefinitions` of md_blocks. A text is what is left of a leaf: its lines without their endings,
of which the first is what is left of the line that is read.
"""

from typing import NamedTuple, Optional

from gfm.marks import BRACKET, BRACKET_END, COLON, GREATER, LESS, PARENTHESIS, PARENTHESIS_END
from gfm.marks import is_escape
from gfm.texts import blanks, is_blank, is_blank_text, printed

MOST_OF_LABEL, MOST_PARENTHESES = 999, 32
QUOTES = b"\"'"


# Escapes.antt

def before_unescaped(test, text):
    """How many bytes come before the first that isn't escaped and passes a test; all if none."""
    at = 0
    while at < len(text) and not test(text[at]):
        at += 2 if is_escape(text, at) else 1
    return min(at, len(text))


# Texts.antt

class Part(NamedTuple):
    """A part of a text, and the text after it."""

    text: tuple
    rest: tuple


def next_is(wanted, text):
    """Whether the next character is this byte of the line (`begins_with`)."""
    return bool(text) and text[0][:1] == bytes([wanted])


def after_next(text):
    """The text after the next byte of the line."""
    return (text[0][1:],) + text[1:]


def begins_with_space(text):
    """Whether a space, a tab or a line ending comes next."""
    return bool(text) and (is_blank(text[0][0]) if text[0] else len(text) > 1)


def after_spaces(text):
    """The text after spaces, tabs and line endings."""
    while len(text) > 1 and is_blank_text(text[0]):
        text = text[1:]
    return (text[0][blanks(text[0]):],) + text[1:] if text else text


def after_line_end(text):
    """The lines after one that has only spaces and tabs left; None if it has more."""
    return text[1:] if text and is_blank_text(text[0]) else None


def until(test, text):
    """The text before the first byte that passes a test and isn't escaped; None without one."""
    for number, line in enumerate(text):
        count = before_unescaped(test, line)
        if count < len(line):
            return Part(text[:number] + (line[:count],), (line[count:],) + text[number + 1:])
    return None


def size(text):
    """How many characters a text has, if a line ending follows each line."""
    return sum(len(line) + 1 for line in text)


# LinkParts.antt

def label_at(text):
    """The label that begins a text, which begins after its `[`, and the text after its `]`."""
    part = until(lambda byte: byte in (BRACKET, BRACKET_END), text)
    if part is None or not next_is(BRACKET_END, part.rest):
        return None
    if size(part.text) > MOST_OF_LABEL + 1 or all(map(is_blank_text, part.text)):
        return None
    return Part(part.text, after_next(part.rest))


class Destination(NamedTuple):
    """A destination, and what is left of its line."""

    text: bytes
    rest: bytes


def is_no_destination(byte):
    """Whether a byte can't be in a destination without angle brackets."""
    return 0 < byte < 33 or byte == 127


def bare_end(line):
    """Where a destination without angle brackets ends in a line; None if it is none."""
    at = opened = 0
    while at < len(line):
        byte = line[at]
        if is_no_destination(byte) or (byte == PARENTHESIS_END and opened == 0):
            break
        opened += (byte == PARENTHESIS) - (byte == PARENTHESIS_END)
        if opened > MOST_PARENTHESES:
            return None
        at += 2 if is_escape(line, at) else 1
    return at if opened == 0 else None


def destination_at(line):
    """The destination that begins a line: in angle brackets, or without them."""
    if line[:1] == b"<":
        inside = line[1:]
        count = before_unescaped(lambda byte: byte in (LESS, GREATER), inside)
        is_pointed = inside[count:count + 1] == b">"
        return Destination(inside[:count], inside[count + 1:]) if is_pointed else None
    count = bare_end(line)
    return None if count is None else Destination(line[:count], line[count:])


def title_at(text):
    """The title that begins a text, and the text after it."""
    if not text or not text[0] or text[0][0] not in QUOTES + b"(":
        return None
    mark = text[0][0]
    close = PARENTHESIS_END if mark == PARENTHESIS else mark
    part = until(lambda byte: byte == close or byte == mark == PARENTHESIS, after_next(text))
    if part is None or not next_is(close, part.rest):
        return None
    return Part(part.text, after_next(part.rest))


# LinkDefinitions.antt

class Target(NamedTuple):
    """What follows a label."""

    destination: bytes
    title: Optional[tuple]
    rest: tuple


class Definition(NamedTuple):
    """A definition, and the lines after it."""

    label: tuple
    destination: bytes
    title: Optional[tuple]
    rest: tuple


def text_form(text):
    """The form in which texts are compared (`Identifier.antt` of md_base); None if not UTF-8."""
    try:
        characters = text.decode("utf-8")
    except UnicodeDecodeError:
        return None
    words = characters.replace("\t", " ").replace("\n", " ").replace("\r", " ").split(" ")
    return " ".join(word for word in words if word).casefold()


def label_form(label):
    """The form in which labels are compared."""
    return text_form(printed(b"\n".join(label)))


def titled(destination, text):
    """What follows a destination: a title after spaces and the end of its line, or that end."""
    if begins_with_space(text):
        title = title_at(after_spaces(text))
        rest = after_line_end(title.rest) if title else None
        if rest is not None:
            return Target(destination, title.text, rest)
    rest = after_line_end(text)
    return None if rest is None else Target(destination, None, rest)


def target_at(text):
    """The text after a label: a colon, a destination, and perhaps a title."""
    if not next_is(COLON, text):
        return None
    inside = after_spaces(after_next(text))
    found = destination_at(inside[0])
    if found is None or (not found.text and not next_is(LESS, inside)):
        return None
    return titled(found.text, (found.rest,) + inside[1:])


def definition_at(text):
    """The definition that begins a text: a label in brackets, and what follows it."""
    label = label_at(after_next(text)) if next_is(BRACKET, text) else None
    target = target_at(label.rest) if label else None
    if target is None or label_form(label.text) is None:
        return None
    return Definition(label.text, *target)


def definitions_of(text):
    """All definitions at the beginning of a text, one after another."""
    found = []
    while text:
        definition = definition_at(text)
        if definition is None:
            break
        found.append(definition)
        text = definition.rest
    return tuple(found)


def defined_lines(lines):
    """How many of a paragraph's first lines are definitions."""
    found = definitions_of(tuple(line.text for line in lines))
    return len(lines) - len(found[-1].rest) if found else 0
