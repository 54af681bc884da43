"""Entries, and the state between two lines: `Entries`, `Stack`, `BlankLines` and `States`.

An entry is the name that `Entries.antt` gives it, and what belongs to it. The definition has only
the number of a paragraph's lines that define links; the state here has their `links` too.
"""

from enum import Enum
from typing import NamedTuple, Optional

from gfm.html_blocks import HtmlKind
from gfm.links import defined_lines, definitions_of
from gfm.texts import is_blank_text


class Line(NamedTuple):
    """A line of a leaf: its text, and its ending, which the last line may lack (2.1).

    `tab` is as in `Rest`, in a line of HTML.
    """

    text: bytes
    ending: bytes = b""
    tab: int = 0


class Entry(NamedTuple):
    """A block: a container has an entry where it begins, and one where it ends; a leaf has one."""

    name: str
    lines: tuple = ()
    number: int = 0
    text: bytes = b""


class ContainerKind(Enum):
    """The kinds of containers."""

    QUOTE = "QuoteBegins"
    ITEM = "ItemBegins"
    ORDERED_LIST = "OrderedListBegins"
    UNORDERED_LIST = "UnorderedListBegins"
    FOOTNOTE_DEFINITION = "FootnoteBegins"


LISTS = (ContainerKind.ORDERED_LIST, ContainerKind.UNORDERED_LIST)


class Open(NamedTuple):
    """An open container."""

    kind: ContainerKind
    indent: int = 0
    marker: int = 0
    has_child: bool = False


class LeafKind(Enum):
    """The kinds of leaves that may be open, with the entries that they become."""

    PARAGRAPH = "Paragraph"
    INDENTED = "IndentedCode"
    FENCED = "FencedCode"
    MATH = "Math"
    HTML = "Html"
    TABLE = "Table"


class Fence(NamedTuple):
    """An opening fence."""

    mark: int
    length: int
    indent: int


class Leaf(NamedTuple):
    """The open leaf and its lines, and what belongs to its kind."""

    kind: LeafKind
    lines: tuple = ()
    fence: Optional[Fence] = None
    info: bytes = b""
    html: Optional[HtmlKind] = None
    columns: int = 0


class State(NamedTuple):
    """The state between two lines.

    `blank` is after a blank line how many containers must stay open for it to count; `lacking` is
    how many cells the rows of all tables lack.
    """

    entries: tuple = ()
    containers: tuple = ()
    leaf: Optional[Leaf] = None
    blank: Optional[int] = None
    lacking: int = 0
    links: tuple = ()


# Stack.antt

def innermost(kinds, containers):
    """Whether the innermost container is of some kinds."""
    return bool(containers) and containers[-1].kind in kinds


def with_child(containers):
    """The containers after the innermost got a child."""
    return containers[:-1] + tuple(one._replace(has_child=True) for one in containers[-1:])


def quotes_depth(containers):
    """How many containers there are up to the innermost quote or footnote; 0 without one."""
    enclosing = (ContainerKind.QUOTE, ContainerKind.FOOTNOTE_DEFINITION)
    return max((at + 1 for at, one in enumerate(containers) if one.kind in enclosing), default=0)


# States.antt

def is_in_paragraph(leaf):
    """Whether a paragraph is open."""
    return leaf is not None and leaf.kind is LeafKind.PARAGRAPH


def with_entries(entries, state):
    """The state with more entries."""
    return state._replace(entries=state.entries + entries)


def with_leaf(leaf, state):
    """The state with another open leaf, or none."""
    return state._replace(leaf=leaf)


def without_blank(state):
    """The state in which no blank line waits."""
    return state._replace(blank=None)


def with_a_child(state):
    """The state whose innermost container has a child."""
    return state._replace(containers=with_child(state.containers))


def opened_in(container, state):
    """The state with another open container."""
    return state._replace(containers=state.containers + (container,))


def with_links(lines, state):
    """The state with the links that the first of some lines define."""
    found = definitions_of(tuple(line.text for line in lines))
    return state._replace(links=state.links + found)


def without_blank_end(lines):
    """Lines without the blank ones at their end."""
    while lines and is_blank_text(lines[-1].text):
        lines = lines[:-1]
    return lines


def blank_counts(state):
    """Whether the blank line before a child counts (5.3)."""
    is_enclosed = state.blank is not None and len(state.containers) >= state.blank
    return is_enclosed and innermost((ContainerKind.ITEM,) + LISTS, state.containers)


def blank_written(state):
    """That blank line, written if it counts."""
    entries = (Entry("Blank"),) if blank_counts(state) else ()
    return without_blank(with_entries(entries, state))


def paragraph_closed(lines, state):
    """A closed paragraph (4.8), the first of whose lines are definitions of links (4.7)."""
    defined = defined_lines(lines)
    state = with_links(lines, state)
    if defined < len(lines):
        return with_entries((Entry("Paragraph", lines[defined:]),), blank_written(state))
    return with_entries((Entry("OnlyDefinitions"),), state)


def leaf_closed(state):
    """The open leaf closed."""
    leaf = state.leaf
    if leaf is None:
        return state
    if leaf.kind is LeafKind.PARAGRAPH:
        return with_leaf(None, paragraph_closed(leaf.lines, state))
    is_indented = leaf.kind is LeafKind.INDENTED
    lines = without_blank_end(leaf.lines) if is_indented else leaf.lines
    return with_leaf(None, with_entries((Entry(leaf.kind.value, lines, 0, leaf.info),), state))


def containers_closed(depth, state):
    """The containers beyond a depth closed."""
    ends = (Entry("ContainerEnds"),) * len(state.containers[depth:])
    return with_entries(ends, state)._replace(containers=state.containers[:depth])


def closed_to(depth, state):
    """The leaf and the containers beyond a depth closed."""
    return containers_closed(depth, leaf_closed(state))


def list_closed(state):
    """The innermost container closed if it is a list (`without_list` of `Stack.antt`)."""
    is_list = innermost(LISTS, state.containers)
    return containers_closed(len(state.containers) - is_list, state)


def room_for_text(depth, state):
    """Ready for a child that is no item: a list that is open at this depth ends (5.3)."""
    return with_a_child(list_closed(closed_to(depth, state)))


def room(depth, state):
    """The same, with the blank line before the child."""
    return blank_written(room_for_text(depth, state))
