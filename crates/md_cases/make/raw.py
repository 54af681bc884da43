"""HTML, code and math, in lines of their own and in texts, and frontmatter: how they are written,
what they mean, and their rows of `flags` and `attacks`.
"""
import texts
from nodes import FORCED, NEEDED, first, meaning_of, spine
from prose import MARKUP, data, ending, paragraph, spaces
from trees import AtEnd, node

INLINE = {"CodeText": "<code>", "MathText": '<code class="language-math math-inline">'}


def html(text=""):
    return node("HtmlFlow", node("HtmlFlowData", text))


def inline_html(text=""):
    return node("HtmlText", node("HtmlTextData", text))


def inline_code(text=""):
    return node("CodeText", "`", node("CodeTextData", text), "`")


def inline_math(text=""):
    return node("MathText", "$", node("MathTextData", text), "$")


def code_fence(*parts):
    return node("CodeFencedFence", "```", *parts)


def math_fence(*parts):
    return node("MathFlowFence", "$$", *parts)


def code_line(text=""):
    return node("CodeFlowChunk", text)


def math_line(text=""):
    return node("MathFlowChunk", text)


class Raw:
    """What these mean, for `Meaning`."""

    @meaning_of("HtmlFlow")
    def html_flow(self, node, around):
        return [NEEDED, *self.all(node.children, around)]

    @meaning_of("HtmlText")
    def html_text(self, node, around):
        return self.all(node.children, around)

    @meaning_of("HtmlFlowData", "HtmlTextData")
    def html(self, node, around):
        stays = "allow_dangerous_html" in self.options
        text = self.source(node)
        if stays and "gfm_tagfilter" in self.options:
            text = texts.filtered(text)
        return [texts.encoded(text, not stays)]

    @meaning_of("CodeTextData", "MathTextData")
    def inline_data(self, node, around):
        return self.plain(node, around)

    @meaning_of(*INLINE)
    def inline(self, node, around):
        text = "".join(" " if one.name == "LineEnding" else self.pieces(one, around)[0]
                       for one in spine(node))
        if around.table:
            text = text.replace("\\|", "|")
        if text.startswith(" ") and text.endswith(" ") and text.strip(" "):
            text = text[1:-1]
        return [text] if around.image else [INLINE[node.name], text, "</code>"]

    @meaning_of("Frontmatter")
    def frontmatter(self, node, around):
        self.slurps = True
        return []

    @meaning_of("CodeFlowChunk", "MathFlowChunk")
    def line(self, node, around):
        return [texts.encoded(self.source(node))]

    @meaning_of("CodeIndented")
    def indented(self, node, around):
        inner = self.all(node.children, around)
        self.slurps = False
        return [NEEDED, "<pre><code>", *inner, *([NEEDED] if first(node, "CodeFlowChunk") else []),
                "</code></pre>"]

    @meaning_of("CodeFenced", "MathFlow")
    def fenced(self, node, around):
        parts = spine(node)
        fences = [one for one in parts if one.name in ("CodeFencedFence", "MathFlowFence")]
        info = first(fences[0], "CodeFencedFenceInfo")
        attribute = ("" if info is None
                     else f' class="language-{self.captured(info.children, around)}"')
        if node.name == "MathFlow":
            attribute = ' class="language-math math-display"'
        self.slurps = True
        inner = self.all([one for one in parts if one not in fences], around)
        self.slurps = False
        if len(fences) == 1 and around.footnote and node.children[-1] is not fences[0]:
            inner += [FORCED]
        chunk = [NEEDED] if first(node, "CodeFlowChunk", "MathFlowChunk") else []
        return [NEEDED, "<pre><code", attribute, ">", *inner, *chunk, "</code></pre>",
                *([NEEDED] if len(fences) == 1 else [])]


def rows_of_html():
    """The rows of `flags::html`."""
    lines = node("HtmlFlow", node("HtmlFlowData", "<b>"), ending(), node("HtmlFlowData", "<xmp>"))
    return [
        ("html on its own line", "", [html(MARKUP)]),
        ("html in a text", "", [paragraph(inline_html(MARKUP))]),
        ("html of a tag that is not filtered", "", [html("<xmpp>")]),
        ("html of lines", "A line ending in HTML stays, and each line is HTML", [lines]),
        ("nul in html", "NUL is replaced in HTML that stays, too",
         [html("\0<b>"), inline_html("\0<b>")]),
        ("text around html", "What stands before and after HTML is escaped",
         [paragraph(data("<xmp>"), inline_html("<xmp>"), data("<xmp>"))]),
        ("text after flow html", "", [html("<b>"), ending(), paragraph(data("<b>"))]),
    ]


def rows_of_code():
    """Rows of `flags::plain`."""
    fence = code_fence(node("CodeFencedFenceInfo", data(MARKUP)), spaces(),
                       node("CodeFencedFenceMeta", data(MARKUP)))
    return [
        ("code in a text", "", [paragraph(inline_code(MARKUP))]),
        ("math in a text", "", [paragraph(inline_math(MARKUP))]),
        ("indented code", "", [node("CodeIndented", spaces("    "), code_line(MARKUP))]),
        ("fenced code", "",
         [node("CodeFenced", fence, ending(), code_line(MARKUP), ending(), code_fence())]),
        ("math on its own lines", "",
         [node("MathFlow", math_fence(node("MathFlowFenceMeta", data(MARKUP))), ending(),
               math_line(MARKUP), ending(), math_fence())]),
    ]


def ways_of_html():
    """Ways of `attacks`, of a text that stands as it is written."""
    return [
        ("html", [], [html()]),
        ("html under the tag filter", ["gfm_tagfilter"], [html()]),
        ("html in a text", [], [paragraph(inline_html())]),
    ]


def ways_of_code():
    """Ways of `attacks`, of a text that stands as it is written."""
    math = node("MathFlow", math_fence(node("MathFlowFenceMeta", data())), math_line(),
                math_fence())
    return [
        ("code and math in a text", [], [inline_code(), inline_math()]),
        ("fenced code", [], [node("CodeFenced", code_fence(), code_line(), code_fence())]),
        ("math on its own lines", [], [math]),
        ("indented code after frontmatter", [],
         [node("Frontmatter"), node("CodeIndented", code_line())]),
    ]


def ways_read(nodes):
    """Ways of `attacks`, of nodes that are data and references."""
    fence = code_fence(node("CodeFencedFenceInfo", *nodes), node("CodeFencedFenceMeta", *nodes))
    return [("info of fenced code", [], [node("CodeFenced", fence, AtEnd(code_fence()))])]
