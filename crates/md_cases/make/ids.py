"""The cases of the group `ids`: footnotes' ids by number.

To add a case, write a row in `rows`: its title, options besides `gfm_footnote_number_ids`, and the
parts of the document. `bench/cases.py` makes the cases.
"""
from footnotes import call, footnote, footnote_after_a_blank_line
from meaning import meaning
from media import image
from prose import data, ending, paragraph, thematic_break
from tables import table
from trees import Case, placed, script


def note(label, text):
    """A footnote that is one paragraph."""
    return footnote(label, paragraph(data(text)), after="]:")


def ten_with_ten_calls():
    """Ten footnotes with ten calls each: each round begins with the next one, and
    goes on by sevens.
    """
    letters = "abcdefghij"
    calls = [call(letters[(3 + turn + 7 * step) % 10]) for turn in range(10) for step in range(10)]
    return [paragraph(*calls), *[note(letter, letter.upper()) for letter in letters]]


def dropped_cell():
    """A call in a cell past the one column of its table."""
    return [table(call("b"), call("c")), ending(), paragraph(call("d"), call("c")),
            note("b", "x"), note("c", "y"), note("d", "z")]


def under_prefix(prefix):
    return {"gfm_footnote_clobber_prefix": prefix}


def rows():
    """The title of each case, its other options, and its parts."""
    twice = [paragraph(call("b"), call("b")), note("b", "x")]
    return [
        ("footnote", {}, footnote_after_a_blank_line()),
        ("identifier that looks like an occurrence", {},
         [paragraph(call("a"), call("a"), call("a-2")), note("a", "x"), note("a-2", "y")]),
        ("footnotes in the order of their calls", {},
         [paragraph(call("b"), call("a")), note("a", "x"), note("b", "y")]),
        ("ten footnotes with ten calls each", {}, ten_with_ten_calls()),
        ("call in an image (It is counted and prints nothing: a backreference has no target)", {},
         [paragraph(image([data("i"), call("b")], "u"), call("c"), call("b")), note("c", "y"),
          note("b", "x")]),
        ("call in a dropped cell", {}, dropped_cell()),
        ("clobber prefix", under_prefix("a=b&"), twice),
        ("empty clobber prefix", under_prefix(""), twice),
        ("prefix that ends in a number", under_prefix("fn-1"), twice),
        ("first of two footnotes", {},
         [paragraph(call("c"), call("a")), note("a", "x"), note("a", "y"), note("c", "z")]),
        ("identifiers that are empty, a number and no letters of ids", {},
         [paragraph(call("2"), call(""), call("é <"), call("2")), note("", "x"), note("é <", "y"),
          note("2", "z")]),
        ("folded identifier", {}, [paragraph(call("B"), call(" b\t")), note("b", "x")]),
        ("call in a call (The one in the label has the lower number and prints nothing)", {},
         [paragraph(call(call("a"))), note("[^a]", "x"), note("a", "y")]),
        ("call in its own footnote", {},
         [paragraph(call("a")), footnote("a", paragraph(data("x"), call("a")), after="]:")]),
        ("footnote without a call", {}, [paragraph(call("b")), note("a", "x"), note("b", "y")]),
        ("footnote without a paragraph", {},
         [paragraph(call("a"), call("a")),
          footnote("a", thematic_break(), after="]:")]),
    ]


def sections():
    """The runs of cases that this makes, each by what its titles begin with."""
    made = []
    for title, others, parts in rows():
        document, options = placed(*parts), {"gfm_footnote_number_ids": True} | others
        made.append(Case(f"ids: {title}", script(document, options),
                         meaning(document, options).encode()))
    return {"ids": made}
