"""The options of the program `mdhtml` that the model has."""

from typing import NamedTuple


class Options(NamedTuple):
    """Mirrors `MarkdownOptions`, without those that change what is printed only."""

    math: bool = False
    front_matter: bool = False
    footnotes: bool = True
    tables: bool = True
    bare_links: bool = True
    hard_breaks: bool = False


WORDS = {
    "--math": ("math", True),
    "--front-matter": ("front_matter", True),
    "--no-footnotes": ("footnotes", False),
    "--no-tables": ("tables", False),
    "--no-bare-links": ("bare_links", False),
    "--hard-breaks": ("hard_breaks", True),
    "--html=text": None,
}


def options_of(words):
    """The options that the program's arguments ask for; None if the model lacks one of them."""
    if any(word not in WORDS for word in words):
        return None
    return Options(**dict(WORDS[word] for word in words if WORDS[word]))
