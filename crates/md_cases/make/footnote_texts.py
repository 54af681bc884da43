"""The cases of the group `footnote_texts`: each choice of the options that are texts,
under few flags.

Each document is there under each choice of the texts, with no flag, each flag alone and all flags.
To add an option that is a text, add it to TEXT_OPTIONS of `meaning`, which are in the order of the
cases, with a value at its place in VALUES here, and say there what it does. To add a document,
write a row in `documents`. `bench/cases.py` makes the cases.
"""
from flags import cases_of, choices
from footnotes import call, footnote
from meaning import FLAG_OPTIONS, TEXT_OPTIONS
from media import image
from prose import data, paragraph
from trees import placed

VALUES = ['<&"', "<b", 'x="&<>"', '<i>&"', '"<&']
TEXTS = dict(zip(TEXT_OPTIONS, VALUES, strict=True))


def documents():
    """What each document shows, a comment, and its parts."""
    a, b = call(data("a")), call(data("b"))
    x = footnote(data("a"), paragraph(data("x")))
    return [
        ("each choice of texts",
         "Two calls of a footnote that ends in a paragraph, and one of a footnote that does not",
         [paragraph(a, a, b), x, footnote(data("b"), data("y"))]),
        ("each choice of texts around an image",
         "A call in an image prints nothing, under no prefix",
         [image([data("i"), a], "u"), x]),
        ("each choice of texts without a call", "Where nothing is called no text is printed",
         [paragraph(data("a")), x]),
    ]


def all_options():
    """The options of the cases of a document, in their order."""
    for texts in choices(TEXTS):
        for flags in [[], *[[flag] for flag in FLAG_OPTIONS], FLAG_OPTIONS]:
            yield {flag: True for flag in flags} | {text: TEXTS[text] for text in texts}


def sections():
    """The runs of cases that this makes, each by what its titles begin with."""
    return {"footnote_texts": [case for shown, comment, parts in documents()
                               for case in cases_of("footnote_texts", shown, comment,
                                                    placed(*parts), all_options())]}
