"""Paragraphs, headings, spans, escaped characters, references, tasks and line endings: how they are
written, what they mean, and their rows of `flags` and `attacks`.
"""
import re

import texts
from nodes import NEEDED, first, meaning_of, spine
from trees import Node, node

SPANS = {"Emphasis": "em", "Strong": "strong", "GfmStrikethrough": "del"}
# The marks of a reference, in their order.
MARKERS = {"CharacterReferenceMarker": "&", "CharacterReferenceMarkerNumeric": "#",
           "CharacterReferenceMarkerHexadecimal": "x"}
MARKUP = '<xmp>&"'


def data(text=""):
    return node("Data", text)


def paragraph(*parts):
    return node("Paragraph", *parts)


def ending(name="LineEnding"):
    return node(name, "\n")


def blank_line():
    return ending("BlankLineEnding")


def thematic_break():
    return node("ThematicBreak", "***")


def spaces(text=" "):
    return node("SpaceOrTab", text)


def escaped(mark=""):
    return node("CharacterEscapeValue", mark)


def emphasis(*parts):
    return node("Emphasis", *parts)


def reference(value, *marks):
    """A character reference with the marks after `&`."""
    return [*[node(name, mark) for name, mark in zip(MARKERS, ("&", *marks))],
            node("CharacterReferenceValue", value), ";"]


def referring(text):
    """The nodes of a text in ASCII, in which each reference is one."""
    nodes, at = [], 0
    for marks, value, plain in re.findall(r"(&#x|&#|&)(\w+);|([^&]+)", text):
        for name, _ in zip(MARKERS, marks):
            nodes.append(Node(name, at, at + 1, []))
            at += 1
        piece = value or plain
        nodes.append(Node("CharacterReferenceValue" if value else "Data", at, at + len(piece), []))
        at += len(piece) + len(";" if value else "")
    return nodes


def task(mark):
    return node("GfmTaskListItemCheck",
                *(["[", node("GfmTaskListItemValueChecked", mark), "]"] if mark else ["[ ]"]))


def is_dropped(node, before):
    """Whether this is a line ending that is dropped, by the name before it: a definition's."""
    return node.name == "LineEnding" and before in ("Definition", "GfmFootnoteDefinition")


class Prose:
    """What these mean, for `Meaning`."""

    def first_ending(self, every, default):
        """The first line ending of a document, or else this one."""
        return next((self.source(one) for one in every
                     if one.name in ("LineEnding", "BlankLineEnding")), default)

    @meaning_of("LineEnding")
    def line_ending(self, node, around):
        slurped, self.slurps = self.slurps, False
        return [] if slurped else [self.source(node)]

    @meaning_of("BlankLineEnding")
    def blank_line_ending(self, node, around):
        self.slurps = False
        return [NEEDED] if node is self.document.nodes[-1] else []

    @meaning_of("Paragraph")
    def paragraph(self, node, around):
        return [NEEDED, "<p>", *self.all(node.children, around), "</p>"]

    @meaning_of("ThematicBreak")
    def thematic_break(self, node, around):
        return [NEEDED, "<hr />"]

    @meaning_of("HeadingAtx")
    def atx(self, node, around):
        mark = first(node, "HeadingAtxSequence")
        rank = mark.end - mark.start
        inner = [self.captured(one.children, around) for one in spine(node)
                 if one.name == "HeadingAtxText"]
        return [NEEDED, f"<h{rank}>", *inner, f"</h{rank}>"]

    @meaning_of("HeadingSetextText")
    def setext(self, node, around):
        self.heading, self.slurps = self.captured(node.children, around), True
        return []

    @meaning_of("HeadingSetextUnderlineSequence")
    def underline(self, node, around):
        rank = 2 if self.document.source[node.start] == ord("-") else 1
        return [NEEDED, f"<h{rank}>", self.heading, f"</h{rank}>"]

    @meaning_of("Data", "CharacterEscapeValue")
    def plain(self, node, around):
        return [texts.encoded(self.source(node), around.escaped)]

    @meaning_of(*MARKERS)
    def reference_marker(self, node, around):
        self.marker = MARKERS[node.name]
        return []

    @meaning_of("CharacterReferenceValue")
    def reference_value(self, node, around):
        return [texts.encoded(texts.referred(self.marker, self.source(node)), around.escaped)]

    @meaning_of(*SPANS)
    def span(self, node, around):
        inner, tag = self.all(node.children, around), SPANS[node.name]
        return inner if around.image else [f"<{tag}>", *inner, f"</{tag}>"]

    @meaning_of("GfmTaskListItemCheck")
    def task(self, node, around):
        disabled = "" if "gfm_task_list_item_checkable" in self.options else 'disabled="" '
        checked = 'checked="" ' if first(node, "GfmTaskListItemValueChecked") else ""
        return [] if around.image else [f'<input type="checkbox" {disabled}{checked}/>']


def rows_of_texts():
    """Rows of `flags::plain`."""
    escapes = [part for mark in '<>&"*' for part in ("\\", escaped(mark))]
    references = [*reference("lt"), *reference("62", "#"), *reference("26", "#", "x"),
                  *reference("quot")]
    return [
        ("data", "", [paragraph(data(MARKUP))]),
        ("escaped characters", "", [paragraph(*escapes)]),
        ("references", "", [paragraph(*references)]),
    ]


def rows_of_headings():
    """Rows of `flags::plain`: headings, and spans."""
    heading = node("HeadingAtx", node("HeadingAtxSequence", "#"), spaces(),
                   node("HeadingAtxText", data(MARKUP)))
    return [
        ("headings", "", [heading, ending(), node("HeadingSetextText", data(MARKUP)), ending(),
                          node("HeadingSetextUnderlineSequence", "-")]),
        ("spans", "", [paragraph(*[node(name, data(MARKUP)) for name in SPANS])]),
    ]


def rows_of_tasks():
    """Rows of `flags::tasks`."""
    return [
        ("task that is done", "", [paragraph(task("x"), data(" a"))]),
        ("task that is open", "", [paragraph(task(""), data(" a"))]),
    ]


def ways_read(nodes):
    """Ways of `attacks`, of nodes that are data and references."""
    heading = node("HeadingAtx", Node("HeadingAtxSequence", 0, 1, []),
                   node("HeadingAtxText", node("Strong", *nodes)))
    return [
        ("paragraph", [], [paragraph(*nodes)]),
        ("strong heading", [], [heading]),
    ]
