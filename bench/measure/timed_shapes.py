"""The shapes that bench.py times: each writes a document of size n."""

from functools import partial

from timed_parts import (call, definition, footnote, item_prefix, line, mark, reference, resource,
                         row, section, table)


def realistic(script, n):
    for number in range(n):
        section(script, number)


def unreadable(script, n):
    realistic(script, n)
    script.file.write("no event\n")


def long_text(script, n):
    with script.node("Paragraph"):
        script.leaf("Data", "a<" * (n // 2))


def emphasis_spans(script, n):
    with script.node("Paragraph"):
        for _ in range(n):
            with script.node("Emphasis"):
                script.leaf("Data", "a")


def nested(name, script, n):
    for _ in range(n):
        script.enter(name)
        mark(script, "> ")
    script.leaf("Data", "a")
    script.exit(*[name] * n)


def nested_lists(script, n):
    for _ in range(n):
        script.enter("ListUnordered", "ListItem")
        item_prefix(script)
    with script.node("Paragraph"):
        script.leaf("Data", "a")
    script.exit(*["ListItem", "ListUnordered"] * n)


def nested_media(name, script, n):
    for _ in range(n):
        script.enter(name, "Label")
        script.put("[")
        script.enter("LabelText")
    script.leaf("Data", "a")
    for _ in range(n):
        script.exit("LabelText")
        script.put("]")
        script.exit("Label")
        resource(script, "u")
        script.exit(name)


def uses_and_definitions(script, n, word, use, define):
    """Uses of n identifiers in one paragraph, and after it the definition of each."""
    identifiers = [f"{word} {number:06}" for number in range(n)]
    with script.node("Paragraph"):
        for identifier in identifiers:
            use(script, identifier)
    for identifier in identifiers:
        line(script)
        define(script, identifier)


def reference_on_a_line(script, identifier):
    reference(script, identifier)
    line(script)


def links_to_definitions(script, n):
    uses_and_definitions(script, n, "page", reference_on_a_line, partial(definition, url="u"))


def calls_of_footnotes(script, n):
    uses_and_definitions(script, n, "note", call, partial(footnote, text="a"))


def calls_of_like_footnotes(script, n):
    uses_and_definitions(script, n, "k" * 60, call, partial(footnote, text="a"))


def calls_of_one_footnote(script, n):
    with script.node("Paragraph"):
        for _ in range(n):
            call(script, "note")
    line(script)
    footnote(script, "note", "a")


def wide_table(script, n):
    table(script, n, [["cell"] * n] * 50)


def empty_rows(script, n):
    table(script, n, [[]] * n)


def columns_in_others(script, n):
    with script.node("GfmTable", "GfmTableHead"):
        row(script, [])
        with script.node("GfmTableDelimiterRow"):
            script.enter(*["Other1"] * n)
            for _ in range(n):
                script.exit("Other1")
                script.leaf("GfmTableDelimiterCellValue", "-")


def same_labels(script, n):
    script.put("a" * n)
    for _ in range(n):
        script.index = 0
        script.enter("Link", "Label", "LabelText")
        script.index = n
        script.exit("LabelText", "Label", "Link")
    script.index = 0
    script.enter("Definition", "DefinitionLabelString")
    script.index = n
    script.exit("DefinitionLabelString", "Definition")


def long_destination(script, n):
    with script.node("Paragraph"):
        for _ in range(n):
            reference(script, "page")
    line(script)
    definition(script, "page", "u" * n)


# Each shape's name, its sizes and its maker.


def doubled(*, to, times=1):
    return [to >> time for time in range(times, -1, -1)]


SHAPES = [
    ("realistic document (sections)", [20, 200, 2_000], realistic),
    ("the same, refused as unreadable at its last line", [2_000], unreadable),
    ("one text (bytes)", doubled(to=20_000_000), long_text),
    ("emphasis spans in one paragraph", doubled(to=100_000), emphasis_spans),
    ("wide table of 50 rows (columns)", doubled(to=2_000), wide_table),
    ("nested block quotes", doubled(to=100_000), partial(nested, "BlockQuote")),
    ("nested lists", doubled(to=100_000), nested_lists),
    ("nested emphasis", doubled(to=100_000), partial(nested, "Emphasis")),
    ("nested `Other`", doubled(to=400_000, times=2), partial(nested, "Other1")),
    ("columns, each in one more `Other`", doubled(to=800_000, times=2), columns_in_others),
    ("nested links", doubled(to=100_000, times=3), partial(nested_media, "Link")),
    ("nested images", doubled(to=100_000, times=3), partial(nested_media, "Image")),
    ("links, each to a definition of its own", doubled(to=80_000, times=3), links_to_definitions),
    ("calls, each of a footnote of its own", doubled(to=80_000, times=3), calls_of_footnotes),
    ("the same, their identifiers alike in sixty bytes", doubled(to=80_000, times=2),
     calls_of_like_footnotes),
    ("calls of one footnote", doubled(to=80_000, times=3), calls_of_one_footnote),
    ("n columns and n empty rows", doubled(to=4_000, times=2), empty_rows),
    ("n links to one destination of n bytes", doubled(to=10_000, times=2), long_destination),
    ("n links, the label of each the same n bytes", doubled(to=20_000, times=2), same_labels),
]
