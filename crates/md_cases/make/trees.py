"""Trees of events, and the scripts that are written of them.

A tree is written by `node(NAME, PARTS..)` with its parts in order, texts and other nodes. `placed`
gives such trees their places: the texts make the document, and each node stands where its first
part begins and its last one ends. `spread` lets nodes stand over one another: each over the whole
of a text. A node that stands elsewhere is made as `Node`, with both places. The modules of what
nodes are about (`prose`, `raw`, `media`, `tables`, `footnotes`) write the trees. Nothing here is
run by itself.
"""
from typing import NamedTuple


class Node(NamedTuple):
    """A node, and the bytes at which it starts and ends."""
    name: str
    start: int
    end: int
    children: list


class AtEnd(NamedTuple):
    """A tree of nodes that `spread` lets stand at the end of its text."""
    tree: tuple


class Document(NamedTuple):
    """The nodes of a document, and its bytes."""
    nodes: list
    source: bytes


class Case(NamedTuple):
    """What stands in the line before a case, its script, and what it answers, both without their
    last line ending.
    """
    title: str
    script: bytes
    answer: bytes


def node(name, *parts):
    return (name, parts)


def placed(*parts):
    """The document that these parts make, one after another."""
    source = bytearray()

    def place(part):
        if isinstance(part, str):
            source.extend(part.encode())
            return []
        start = len(source)
        children = places(part[1])
        return [Node(part[0], start, len(source), children)]

    def places(some):
        return [made for part in some for made in place(part)]

    return Document(places(parts), bytes(source))


def spread(text, parts):
    """The document of only this text. Each of these nodes that has no place extends over all of it;
    texts among the parts are skipped.
    """
    source = text.encode()

    def place(part, start):
        if isinstance(part, str):
            return []
        if isinstance(part, Node):
            return [part]
        if isinstance(part, AtEnd):
            return place(part.tree, len(source))
        return [Node(part[0], start, len(source), places(part[1], start))]

    def places(some, start):
        return [made for part in some for made in place(part, start)]

    return Document(places(parts, 0), source)


def events(nodes):
    """The lines of these nodes' events, in order."""
    lines = []
    for one in nodes:
        lines += [f"+{one.name} {one.start}", *events(one.children), f"-{one.name} {one.end}"]
    return lines


def script(document, options):
    """The script of a document under options: an option that is on is True, another has its text.
    """
    settings = [f"!{name}" if value is True else f"!{name}={value}"
                for name, value in options.items()]
    return "\n".join(settings + events(document.nodes) + ["--", ""]).encode() + document.source
