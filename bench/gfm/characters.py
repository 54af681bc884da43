"""Classes of characters, as the rules of emphasis distinguish them (`Characters.antt`)."""

import unicodedata

from gfm.texts import PUNCTUATION


def class_of(character):
    """The class of a character: white space, punctuation, or a part of a word."""
    if ord(character) < 128:
        is_space = character in " \t\n\f\r"
        return "punctuation" if ord(character) in PUNCTUATION else "space" if is_space else "word"
    category = unicodedata.category(character)
    return "space" if category == "Zs" else "punctuation" if category[0] == "P" else "word"


def class_in(text, at):
    """The class of a character of a text; that of white space where there is none."""
    characters = text.decode("utf-8", "replace")
    return class_of(characters[at]) if characters else "space"


def class_after(text):
    """The class of the first character of a text."""
    return class_in(text[:4], 0)


def class_before(text):
    """The class of the last character of a text."""
    return class_in(text[-4:], -1)
