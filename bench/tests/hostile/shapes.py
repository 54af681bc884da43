"""Documents of any number of levels or items, and their expected texts.

A text is built by the rules of HTML for Markdown, independently of the events of its document.
"""

import os
from collections import Counter
from functools import partial

from asking import answers, common_answer, questions, told
from scaled_shapes import SHAPES as SCALED

# The number of levels or items of a shape: for nested nodes each power of two below the greatest,
# since a mutant that reports out of memory beyond some depth fails there.
GREATEST, OF_SIBLINGS = 100_000, 10_000
POWERS = [2**power for power in range(17)]
SMALL = [power for power in POWERS if power <= 1024]
SIZES = {"levels": [*POWERS, GREATEST], "siblings": [*SMALL, OF_SIBLINGS]}
# The distance from item to item out of order; a prime, so that each occurs once.
STRIDE = 7_919
# How many bytes are shown before and after the first one that is wrong.
SHOWN = 60


class Document:
    """A text that is written from start to end, with its events."""

    def __init__(self):
        self.lines = []
        self.texts = []
        self.length = 0

    def add(self, *steps):
        """Adds events, each a sign and a name, and texts between them."""
        lines, texts = [], []
        for step in steps:
            if step[0] in "+-" and step[1:].isalpha():
                lines.append(f"{step} {self.length}\n")
            else:
                texts.append(step)
                self.length += len(step.encode())
        self.lines.append("".join(lines))
        self.texts.append("".join(texts))

    def repeat(self, times, *steps):
        for _ in range(times):
            self.add(*steps)

    def script(self):
        return "".join([*self.lines, "--\n", *self.texts]).encode()


LETTER = ["+Data", "x", "-Data"]
LINE = ["+LineEnding", "\n", "-LineEnding"]


def shuffled(size):
    """The numbers of items, out of order."""
    return [place * STRIDE % size for place in range(size)]


def around(size, opening, middle, closing):
    """Nested nodes."""
    document = Document()
    document.repeat(size, *opening)
    document.add(*middle)
    document.repeat(size, *closing)
    return document


def in_paragraph(size, opening, closing):
    """Nested spans in a paragraph."""
    document = Document()
    document.add("+Paragraph")
    document.repeat(size, *opening)
    document.add(*LETTER)
    document.repeat(size, *closing)
    document.add("-Paragraph")
    return document


def quotes(size):
    opening = ["+BlockQuote", "+BlockQuotePrefix", "> ", "-BlockQuotePrefix"]
    document = around(size, opening, ["+Paragraph", *LETTER, "-Paragraph"], ["-BlockQuote"])
    return document, "<blockquote>\n" * size + "<p>x</p>" + "\n</blockquote>" * size


def lists(size):
    """The innermost item contains a thematic break, which has its own line as a list does."""
    opening = ["+ListUnordered", "+ListItem", "+ListItemPrefix", "+ListItemMarker", "-",
               "-ListItemMarker", "+SpaceOrTab", " ", "-SpaceOrTab", "-ListItemPrefix"]
    document = around(size, opening, ["+ThematicBreak", "***", "-ThematicBreak"],
                      ["-ListItem", "-ListUnordered"])
    return document, "<ul>\n<li>\n" * size + "<hr />" + "\n</li>\n</ul>" * size


def emphasis(size):
    document = in_paragraph(size, ["+Emphasis", "*"], ["*", "-Emphasis"])
    return document, "<p>" + "<em>" * size + "x" + "</em>" * size + "</p>"


def media(size, name, mark):
    """Links or images with a destination, each in the label of the outer one."""
    opening = [f"+{name}", "+Label", mark, "+LabelText"]
    closing = ["-LabelText", "]", "-Label", "+Resource", "(", "+ResourceDestinationString",
               "+Data", "u", "-Data", "-ResourceDestinationString", ")", "-Resource", f"-{name}"]
    return in_paragraph(size, opening, closing)


def links(size):
    return media(size, "Link", "["), "<p>" + '<a href="u">' * size + "x" + "</a>" * size + "</p>"


def images(size):
    """Inside an image only the text of the label is printed."""
    return media(size, "Image", "!["), '<p><img src="u" alt="x" /></p>'


def labelled(name, mark, number):
    """A link without a resource, or a call, whose label is a number."""
    return [f"+{name}", "+Label", mark, "+LabelText", "+Data", f"{number}", "-Data", "-LabelText",
            "]", "-Label", f"-{name}"]


def definitions(size):
    """Definitions, each with a destination of its own, and after them links out of order."""
    document = Document()
    for number in range(size):
        document.add(
            "+Definition", "[", "+DefinitionLabelString", f"{number}", "-DefinitionLabelString",
            "]: ", "+DefinitionDestinationString", "+Data", f"u{number}", "-Data",
            "-DefinitionDestinationString", "-Definition", *LINE)
    document.add("+Paragraph")
    for number in shuffled(size):
        document.add(*labelled("Link", "[", number))
    document.add("-Paragraph")
    text = "".join(f'<a href="u{number}">{number}</a>' for number in shuffled(size))
    return document, f"<p>{text}</p>"


def references(size):
    """A table of names out of order, half of which stand in it again with another text, and a
    reference to each name: the question, the number of events, and the text.
    """
    names = [(f"n{number}", f"t{number}") for number in shuffled(size)]
    document = Document()
    document.add("+Paragraph")
    for number in range(size):
        document.add("+CharacterReferenceMarker", "&", "-CharacterReferenceMarker",
                     "+CharacterReferenceValue", f"n{number}", "-CharacterReferenceValue", ";")
    document.add("-Paragraph")
    text = "<p>" + "".join(f"t{number}" for number in range(size)) + "</p>"
    again = [(name, "again") for name, _ in names[:size // 2]]
    return questions([*names, *again], document.script()), 2 + 4 * size, text.encode()


def footnote(label, text):
    """A footnote on a line of its own."""
    return [*LINE, "+GfmFootnoteDefinition", "+GfmFootnoteDefinitionPrefix", "[^",
            "+GfmFootnoteDefinitionLabelString", label, "-GfmFootnoteDefinitionLabelString", "]: ",
            "-GfmFootnoteDefinitionPrefix", "+Paragraph", "+Data", text, "-Data", "-Paragraph",
            "-GfmFootnoteDefinition"]


def call(label, number, ending=""):
    """The HTML of a call: its occurrence follows its id, from the second one on."""
    return (f'<sup><a href="#user-content-fn-{label}" id="user-content-fnref-{label}{ending}"'
            f' data-footnote-ref="" aria-describedby="footnote-label">{number}</a></sup>')


def way_back(label, ending="", shown=""):
    return (f' <a href="#user-content-fnref-{label}{ending}" data-footnote-backref=""'
            f' aria-label="Back to content" class="data-footnote-backref">↩{shown}</a>')


def section(items):
    """The HTML of a paragraph's end and the footnotes: label, text and backreferences of each."""
    listed = "".join(f'<li id="user-content-fn-{label}">\n<p>{text}{ways}</p>\n</li>\n'
                     for label, text, ways in items)
    return ('</p>\n<section data-footnotes="" class="footnotes"><h2 id="footnote-label"'
            f' class="sr-only">Footnotes</h2>\n<ol>\n{listed}</ol>\n</section>\n')


def footnotes(size):
    """Calls out of order, and after them the footnotes, each with a text of its own: its number is
    the position of its call.
    """
    document = Document()
    document.add("+Paragraph")
    for number in shuffled(size):
        document.add(*labelled("GfmFootnoteCall", "[^", number))
    document.add("-Paragraph")
    for number in range(size):
        document.add(*footnote(f"{number}", f"t{number}"))
    calls = "".join(call(number, place + 1) for place, number in enumerate(shuffled(size)))
    items = [(number, f"t{number}", way_back(number)) for number in shuffled(size)]
    return document, f"<p>{calls}{section(items)}"


def calls_of_one_footnote(size):
    """Each after the first has its occurrence in its id and in its backreference."""
    document = Document()
    document.add("+Paragraph")
    document.repeat(size, "+GfmFootnoteCall", "+Label", "[^", "+LabelText", "a", "-LabelText", "]",
                    "-Label", "-GfmFootnoteCall")
    document.add("-Paragraph", *footnote("a", "t"))
    others = range(2, size + 1)
    calls = call("a", 1) + "".join(call("a", 1, f"-{place}") for place in others)
    ways = way_back("a") + "".join(way_back("a", f"-{place}", f"<sup>{place}</sup>")
                                   for place in others)
    return document, f"<p>{calls}{section([('a', 't', ways)])}"


def written(shape, size):
    """The script of one of the shapes above, and its text."""
    document, text = shape(size)
    return document.script(), text.encode()


def scaled(shape, size):
    """The same for a shape of `scaled_shapes`."""
    lines = shape.opening * size + shape.middle + shape.closing * size + shape.after
    return f"{lines}--\n{shape.document}".encode(), shape.text(size).encode()


OWN = {shape.__name__: partial(written, shape)
       for shape in (quotes, lists, emphasis, links, images, definitions, footnotes,
                     calls_of_one_footnote)}
# The longest come first.
SHAPES = {"names of references": references} | dict(reversed(OWN.items())) | {
    f"{way} of {shape.name}": partial(scaled, shape) for way, shape in SCALED}


def fault(answer, text):
    """The fault of a result that should be a text."""
    if answer == text:
        return None
    at = len(os.path.commonprefix([answer, text]))
    wanted, stands = (some[max(at - SHOWN, 0):at + SHOWN] for some in (text, answer))
    return f"another text, from byte {at} on: wanted {wanted!r}, answered {stands!r}"


def ask_references(programs):
    """The same as `ask` for names of references, which `mdevents` doesn't take."""
    sizes = [*SMALL, GREATEST]
    made = [references(size) for size in sizes]
    said = answers(programs.cases, [(f"names, {size}", given)
                                    for size, (given, _, _) in zip(sizes, made)])
    found = [(size, fault(common_answer(answer, events) or answer, text))
             for size, answer, (_, events, text) in zip(sizes, said, made)]
    return Counter(shapes=len(sizes)), [f"names of references, {size}: {wrong}"
                                        for size, wrong in found if wrong]


def ask(programs, name):
    """How many texts of a shape were tested, and the faults; for the greatest size of the shapes
    above, `mdevents` is tested too.
    """
    if SHAPES[name] is references:
        return ask_references(programs)
    sizes = SIZES.get(name.split()[0], [*SMALL, GREATEST])
    made = [SHAPES[name](size) for size in sizes]
    titles = [f"{name}, {size}" for size in sizes]
    said = answers(programs.cases, [(title, given) for title, (given, _) in zip(titles, made)])
    found = [(title, fault(answer, text)) for title, answer, (_, text) in zip(titles, said, made)]
    if name in OWN:
        given, text = made[-1]
        found.append((f"{titles[-1]} of mdevents", fault(told(given, programs.mdevents), text)))
    return Counter(shapes=len(sizes)), [f"{title}: {wrong}" for title, wrong in found if wrong]
