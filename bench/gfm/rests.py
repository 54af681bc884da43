"""The rest of a line by columns (`Rests.antt`): of a tab used in part, spaces are left."""

from typing import NamedTuple

from gfm.texts import SPACE, TAB, blanks, is_blank


class Rest(NamedTuple):
    """What is left of a line, and the column in which it begins.

    `tab` is for the printing of HTML alone, which the definition has not: how many of the spaces at
    the beginning are left of a tab that is used in part.
    """

    column: int
    text: bytes
    tab: int = 0


def width(column, byte):
    """How many columns a byte takes: a tab up to the next multiple of four."""
    return 4 - column % 4 if byte == TAB else 1


def indent(rest):
    """The columns of the spaces and tabs that begin a rest."""
    column = rest.column
    for byte in rest.text[:blanks(rest.text)]:
        column += width(column, byte)
    return column - rest.column


def unindented(rest):
    """The text after them."""
    return rest.text[blanks(rest.text):]


def is_blank_rest(rest):
    """Whether only spaces and tabs are left."""
    return not unindented(rest)


def skipped(columns, rest):
    """The rest after so many columns of spaces and tabs, or after all if there are fewer."""
    column, text, tab = rest
    while columns and text and is_blank(text[0]):
        taken = width(column, text[0])
        if columns < taken:
            left = taken - columns
            return Rest(column + columns, bytes([SPACE]) * left + text[1:], left)
        column, text, columns, tab = column + taken, text[1:], columns - taken, max(0, tab - 1)
    return Rest(column, text, tab)


def passed(count, rest):
    """The rest after the spaces and tabs, and so many bytes, of which each is one column."""
    return Rest(rest.column + indent(rest) + count, unindented(rest)[count:])
