"""The cases of the group `labels`: links and images whose labels are about as long as those that
are copied aside.

The tag before a label is known only after it. A label of at most 512 bytes is copied aside until
the tag is written; before a longer label the tag stays pending. To add a case, write a row in
`rows`. `bench/cases.py` writes the cases.
"""
from meaning import meaning
from media import image, link
from prose import data, paragraph
from trees import Case, placed, script

LENGTHS = range(509, 515)


def letters(length):
    return data("a" * length)


def in_one_another(length, times):
    """Links in one another, of which the innermost has a label of this length."""
    made = letters(length)
    for level in range(times):
        made = link([made], f"u{level}")
    return made


def rows():
    """The title of each case, and what its one paragraph has."""
    made = []
    for length in LENGTHS:
        made += [
            (f"link with a label of {length} bytes", [link([letters(length)], "b")]),
            (f"image with a label of {length} bytes", [image([letters(length)], "b")]),
            (f"link in the label of a link, after text; {length} bytes",
             [link([data("x"), link([letters(length)], "b"), data("y")], "c")]),
            (f"image in the label of a link, before text; {length} bytes",
             [link([image([data("x")], "b"), letters(length)], "c")]),
            (f"three links in one another; {length} bytes", [in_one_another(length, 3), data("z")]),
        ]
    return made + [
        ("image in a link in an image",
         [image([data("a"), link([data("b"), image([data("c")], "d")], "e")], "f")]),
        ("forty links in one another", [in_one_another(1, 40)]),
    ]


def sections():
    """The runs of cases that this makes, each by what its titles begin with."""
    made = []
    for title, parts in rows():
        document = placed(paragraph(*parts))
        made.append(Case(f"labels: {title}", script(document, {}), meaning(document, {}).encode()))
    return {"labels": made}
