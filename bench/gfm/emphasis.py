"""Emphasis and strikethrough (6.4, GFM 6.5): `Emphasis.antt`, `Openers.antt` and `Pairs.antt` of
md_marks. Items are read from left to right; a run that closes is paired with the nearest one that
opens and fits.
"""

from typing import NamedTuple

from gfm.marks import TILDE, UNDERSCORE


class Char(NamedTuple):
    """A byte of the text, at an index of the leaf."""

    at: int


class Run(NamedTuple):
    """A run of one mark: its bytes without a pair, its length with all, and what it may do."""

    byte: int
    start: int
    end: int
    length: int
    opens: bool
    closes: bool


class Span(NamedTuple):
    """Emphasis, strong or strikethrough: its kind, its marks' indices, and its items."""

    kind: str
    opened: int
    closed: int
    width: int
    items: tuple


def is_flanking(near, far):
    """Whether a run is beside characters of these classes as one that opens, or closes, is."""
    return near != "space" and (near != "punctuation" or far != "word")


def run_at(byte, start, end, before, after):
    """A run between characters of these classes."""
    left, right = is_flanking(after, before), is_flanking(before, after)
    length = end - start
    if byte == UNDERSCORE:
        opens = left and (not right or before == "punctuation")
        closes = right and (not left or after == "punctuation")
        return Run(byte, start, end, length, opens, closes)
    is_short = byte != TILDE or length <= 2
    return Run(byte, start, end, length, left and is_short, right and is_short)


def available(run):
    """How many of its bytes have no pair."""
    return run.end - run.start


def may_pair(opener, closer):
    """Whether a run opens what another one closes: rules 1 to 10 of 6.4."""
    if opener.byte != closer.byte or not opener.opens or not available(opener):
        return False
    if closer.byte == TILDE:
        are_unused = available(opener) == opener.length and available(closer) == closer.length
        return opener.length == closer.length and are_unused
    thirds = (opener.length % 3, closer.length % 3)
    return not (opener.closes or closer.opens) or thirds not in ((1, 2), (2, 1))


def pair_width(opener, closer):
    """How many bytes of each run form a pair."""
    if closer.byte == TILDE:
        return available(opener)
    return 2 if available(opener) > 1 and available(closer) > 1 else 1


def as_text(item):
    """The items of an item without a pair."""
    return tuple(map(Char, range(item.start, item.end))) if isinstance(item, Run) else (item,)


def all_text(items):
    """Items of which no run has a pair any more."""
    return tuple(part for item in items for part in as_text(item))


def nearest(items, closer):
    """The place of the nearest run that fits; None if there is none."""
    return next((at for at in range(len(items) - 1, -1, -1)
                 if isinstance(items[at], Run) and may_pair(items[at], closer)), None)


def paired(items, closer):
    """The items before a run, and what is left of it, after it closed what it may."""
    while closer.closes and available(closer):
        at = nearest(items, closer)
        if at is None:
            break
        opener = items[at]
        width = pair_width(opener, closer)
        kind = "del" if closer.byte == TILDE else "strong" if width == 2 else "em"
        span = Span(kind, opener.end - width, closer.start, width, all_text(items[at + 1:]))
        left = opener._replace(end=opener.end - width)
        items = items[:at] + ([left] if available(left) else []) + [span]
        closer = closer._replace(start=closer.start + width)
    return items, closer


def emphasized(items):
    """Items with their runs paired; a run without a pair is text."""
    done = []
    for item in items:
        if isinstance(item, Run):
            done, left = paired(done, item)
            done.extend([left] if left.opens and available(left) else as_text(left))
        else:
            done.append(item)
    return all_text(done)
