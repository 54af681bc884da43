"""The shapes that scale.py runs: a script for each name, so many times, and its text."""

from dataclasses import dataclass
from functools import partial


@dataclass(frozen=True)
class Shape:
    """A script of repeated lines, and its expected text for a number of nodes.
    """

    name: str
    opening: str
    closing: str
    text: object  # from the number of nodes to the text
    middle: str = ""
    after: str = ""
    document: str = "a"


def lines(*nodes):
    """The lines of some events, all over the document's first byte: `+` at 0, `-` at 1."""
    return "".join(f"{node} {0 if node[0] == '+' else 1}\n" for node in nodes)


def node(name, *inside):
    """The lines of a node with its content."""
    return lines(f"+{name}") + "".join(inside) + lines(f"-{name}")


def between(opening, middle, closing, n):
    return opening * n + middle + closing * n


def joined(text, n):
    return "\n".join([text] * n)


def repeated(text, n):
    return text * n


# Footnotes, all with the identifier `a`.


def call(k):
    ending = f"-{k}" if k > 1 else ""
    return (
        f'<sup><a href="#user-content-fn-a" id="user-content-fnref-a{ending}" data-footnote-ref=""'
        ' aria-describedby="footnote-label">1</a></sup>'
    )


def way_back(k):
    ending, number = (f"-{k}", f"<sup>{k}</sup>") if k > 1 else ("", "")
    return (
        f'<a href="#user-content-fnref-a{ending}" data-footnote-backref=""'
        f' aria-label="Back to content" class="data-footnote-backref">↩{number}</a>'
    )


def section(n):
    ways = " ".join(map(way_back, range(1, n + 1)))
    return (
        '\n<section data-footnotes="" class="footnotes">'
        '<h2 id="footnote-label" class="sr-only">Footnotes</h2>\n<ol>\n'
        f'<li id="user-content-fn-a">\n{ways}\n</li>\n</ol>\n</section>\n'
    )


def calls_in_one_another(n):
    """The outermost call ends last; the inner ones are counted and not printed."""
    return call(n) + section(n)


def calls_side_by_side(n):
    return "".join(map(call, range(1, n + 1))) + section(n)


LABEL_TEXT = node("LabelText")
FOOTNOTE_PREFIX = node("GfmFootnoteDefinitionPrefix", node("GfmFootnoteDefinitionLabelString"))
FOOTNOTE = node("GfmFootnoteDefinition", FOOTNOTE_PREFIX)
ITEM_PREFIX = node("ListItemPrefix", node("ListItemMarker"))
BREAK = node("ThematicBreak")


def levels_of_media(name, text):
    return Shape(
        name,
        lines(f"+{name}", "+Label", "+LabelText"),
        lines("-LabelText", "-Label") + node("Resource") + lines(f"-{name}"),
        text,
    )


def levels_of_lists(name, tag):
    return Shape(
        name,
        lines(f"+{name}", "+ListItem") + ITEM_PREFIX,
        lines("-ListItem", f"-{name}"),
        partial(between, f"<{tag}>\n<li>\n", "<hr />", f"\n</li>\n</{tag}>"),
        middle=BREAK,
    )


def levels_of_spans(name, tag):
    return Shape(name, lines(f"+{name}"), lines(f"-{name}"),
                 partial(between, f"<{tag}>", "", f"</{tag}>"))


def levels_of_nothing(name):
    return Shape(name, lines(f"+{name}"), lines(f"-{name}"), partial(repeated, ""))


LEVELS = [
    Shape(
        "BlockQuote",
        lines("+BlockQuote"),
        lines("-BlockQuote"),
        lambda n: between("<blockquote>\n", "", "</blockquote>\n", n)[:-1],
    ),
    levels_of_lists("ListUnordered", "ul"),
    levels_of_lists("ListOrdered", "ol"),
    Shape(
        "GfmFootnoteDefinition",
        lines("+GfmFootnoteDefinition") + FOOTNOTE_PREFIX,
        lines("-GfmFootnoteDefinition"),
        partial(repeated, ""),
    ),
    levels_of_spans("Emphasis", "em"),
    levels_of_spans("Strong", "strong"),
    levels_of_spans("GfmStrikethrough", "del"),
    levels_of_media("Link", partial(between, '<a href="">', "", "</a>")),
    levels_of_media("Image", lambda n: '<img src="" alt="" />'),
    Shape(
        "GfmFootnoteCall",
        lines("+GfmFootnoteCall", "+Label", "+LabelText"),
        lines("-LabelText", "-Label", "-GfmFootnoteCall"),
        calls_in_one_another,
        after=FOOTNOTE,
    ),
    levels_of_nothing("Other1"),
    levels_of_nothing("BlockQuotePrefix"),
]


def sibling(name, script, text, document="a", after=""):
    """The same script so many times, and the same text with nothing between."""
    return Shape(name, script, "", partial(repeated, text), document=document, after=after)


def block(name, script, text, document="a"):
    """The same, with a line ending between two texts."""
    return Shape(name, script, "", partial(joined, text), document=document)


def link_to(name, url):
    return sibling(name, node(name), f'<a href="{url}">a</a>')


FENCES = node("CodeFencedFence") * 2
MATH_FENCES = node("MathFlowFence") * 2
HEAD = node("GfmTableHead", node("GfmTableRow"), node("GfmTableDelimiterRow"))
REFERENCE = (node("CharacterReferenceMarker")
             + "+CharacterReferenceValue 0\n-CharacterReferenceValue 2\n")
MEDIA = node("Label", LABEL_TEXT) + node("Resource")

SIBLINGS = [
    sibling("Data", node("Data"), "a"),
    sibling("CharacterEscapeValue", node("CharacterEscapeValue"), "a"),
    sibling("CharacterReferenceValue", REFERENCE, "&lt;", document="lt"),
    sibling("LineEnding", node("LineEnding"), "\n", document="\n"),
    sibling("BlankLineEnding", node("BlankLineEnding"), "", document="\n"),
    sibling("Emphasis", node("Emphasis"), "<em></em>"),
    sibling("Strong", node("Strong"), "<strong></strong>"),
    sibling("GfmStrikethrough", node("GfmStrikethrough"), "<del></del>"),
    sibling("CodeText", node("CodeText"), "<code></code>"),
    sibling("MathText", node("MathText"), '<code class="language-math math-inline"></code>'),
    sibling("HtmlText", node("HtmlText", node("HtmlTextData")), "&lt;", document="<"),
    sibling("Link", node("Link", MEDIA), '<a href=""></a>'),
    sibling("Image", node("Image", MEDIA), '<img src="" alt="" />'),
    Shape(
        "GfmFootnoteCall",
        node("GfmFootnoteCall", node("Label", LABEL_TEXT)),
        "",
        calls_side_by_side,
        after=FOOTNOTE,
    ),
    link_to("AutolinkEmail", "mailto:a"),
    link_to("AutolinkProtocol", "a"),
    link_to("GfmAutolinkLiteralEmail", "mailto:a"),
    link_to("GfmAutolinkLiteralMailto", "a"),
    link_to("GfmAutolinkLiteralProtocol", "a"),
    link_to("GfmAutolinkLiteralWww", "http://a"),
    link_to("GfmAutolinkLiteralXmpp", "a"),
    sibling("HardBreakEscape", node("HardBreakEscape"), "<br />"),
    sibling("HardBreakTrailing", node("HardBreakTrailing"), "<br />"),
    sibling("GfmTaskListItemCheck", node("GfmTaskListItemCheck"),
            '<input type="checkbox" disabled="" />'),
    block("BlockQuote", node("BlockQuote"), "<blockquote>\n</blockquote>"),
    block("ListUnordered", node("ListUnordered", node("ListItem", ITEM_PREFIX)),
          "<ul>\n<li></li>\n</ul>"),
    block("ListOrdered", node("ListOrdered", node("ListItem", ITEM_PREFIX)),
          "<ol>\n<li></li>\n</ol>"),
    block("Paragraph", node("Paragraph"), "<p></p>"),
    block("HeadingAtx", node("HeadingAtx", node("HeadingAtxSequence")), "<h1></h1>"),
    block("HeadingSetextText", node("HeadingSetextText") + node("HeadingSetextUnderlineSequence"),
          "<h1></h1>"),
    block("CodeIndented", node("CodeIndented"), "<pre><code></code></pre>"),
    block("CodeFenced", node("CodeFenced", FENCES), "<pre><code></code></pre>"),
    block(
        "MathFlow",
        node("MathFlow", MATH_FENCES),
        '<pre><code class="language-math math-display"></code></pre>',
    ),
    block("HtmlFlow", node("HtmlFlow", node("HtmlFlowData")), "&lt;", document="<"),
    block("ThematicBreak", BREAK, "<hr />"),
    block("GfmTable", node("GfmTable", HEAD), "<table>\n<thead>\n<tr>\n</tr>\n</thead>\n</table>"),
    sibling("Definition", node("Definition", node("DefinitionLabelString")), ""),
    sibling("GfmFootnoteDefinition", FOOTNOTE, ""),
    sibling("Frontmatter", node("Frontmatter"), ""),
]

SHAPES = [("levels", shape) for shape in LEVELS] + [("siblings", shape) for shape in SIBLINGS]
