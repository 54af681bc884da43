"""The trees of documents that `meaning` goes over, what it knows of a node by those around it, the
rules by name, and pieces that are line endings.
"""
from typing import NamedTuple

# Pieces that are line endings: a needed one is left out where the text so far is
# empty or ends in one.
NEEDED = object()
FORCED = object()
TRANSPARENT = ("SpaceOrTab", "Other1")
# The method that says what a node means, by its name.
RULES = {}


class Around(NamedTuple):
    """What is known of a node by the nodes around it."""
    image: bool = False
    link: bool = False
    table: bool = False
    head: bool = False
    escaped: bool = True
    footnote: bool = False


def meaning_of(*names):
    """Makes a method, whose arguments are a node and its context, the rule of these names."""
    def rule(method):
        RULES.update(dict.fromkeys(names, method))
        return method
    return rule


def spine(node):
    """The nodes in a node, those in transparent ones in their places."""
    return [one for child in node.children
            for one in (spine(child) if child.name in TRANSPARENT else [child])]


def first(node, *names):
    """The first node on the spine with one of these names, or None."""
    return next((one for one in spine(node) if one.name in names), None)


def all_by_exit(nodes):
    """These nodes and all in them, in the order of their exits."""
    return [one for node in nodes for one in [*all_by_exit(node.children), node]]
