"""Footnotes: how they are written, what they mean, and their rows of `attacks`."""
import re

import texts
from media import label
from nodes import FORCED, NEEDED, Around, first, meaning_of
from prose import blank_line, data, ending, paragraph
from trees import node


def call(labelled=""):
    """The call of the footnote with a label, which is a text or a node in the label."""
    return node("GfmFootnoteCall", label("[^", labelled))


def footnote(labelled, *parts, after="]: "):
    """A footnote definition: its label as in a call, and what it has."""
    prefix = node("GfmFootnoteDefinitionPrefix", "[^",
                  node("GfmFootnoteDefinitionLabelString", labelled), after)
    return node("GfmFootnoteDefinition", prefix, *parts)


def footnote_after_a_blank_line():
    """The parts of `a[^b]`, a blank line and `[^b]: c`."""
    return [paragraph(data("a"), call(data("b"))), ending(), blank_line(),
            footnote(data("b"), paragraph(data("c")))]


class Footnotes:
    """What calls and footnotes mean, and the section at the end, for `Meaning`."""

    def count_calls(self, every):
        """Counts the calls of each footnote, and says which of them each call is."""
        for one in every:
            if one.name == "GfmFootnoteCall":
                called = self.identifier(one)
                self.counts[called] = self.counts.get(called, 0) + 1
                self.occurrences[id(one)] = self.counts[called]

    def names(self, identifier):
        """A footnote's number, and what its ids end in."""
        number = list(self.counts).index(identifier) + 1
        return (number, str(number) if "gfm_footnote_number_ids" in self.options
                else texts.sanitized(identifier))

    def option(self, name, default):
        return texts.encoded(self.options.get(name, default))

    def numbered(self, occurrence):
        return (f"-{occurrence}" if occurrence > 1 or "gfm_footnote_number_ids" in self.options
                else "")

    @meaning_of("GfmFootnoteCall")
    def call(self, node, around):
        number, named = self.names(self.identifier(node))
        prefix = self.option("gfm_footnote_clobber_prefix", "user-content-")
        again = self.numbered(self.occurrences[id(node)])
        ids = f'href="#{prefix}fn-{named}" id="{prefix}fnref-{named}{again}"'
        text = (f'<sup><a {ids} data-footnote-ref="" aria-describedby="footnote-label">{number}'
                '</a></sup>')
        return [] if around.image else [text]

    @meaning_of("GfmFootnoteDefinition")
    def footnote(self, node, around):
        named = self.label(first(first(node, "GfmFootnoteDefinitionPrefix"),
                                 "GfmFootnoteDefinitionLabelString"))
        body = self.captured(node.children[1:], Around(footnote=True))
        self.footnotes.setdefault(named, body)
        return []

    def back(self, named, occurrence):
        prefix = self.option("gfm_footnote_clobber_prefix", "user-content-")
        label = self.option("gfm_footnote_back_label", "Back to content")
        text = "↩" if occurrence == 1 else f"↩<sup>{occurrence}</sup>"
        return (f'<a href="#{prefix}fnref-{named}{self.numbered(occurrence)}" '
                f'data-footnote-backref="" aria-label="{label}" class="data-footnote-backref">'
                f'{text}</a>')

    def item(self, identifier):
        named, prefix = self.names(identifier)[1], self.option("gfm_footnote_clobber_prefix",
                                                               "user-content-")
        backs = " ".join(self.back(named, occurrence + 1)
                         for occurrence in range(self.counts[identifier]))
        body = self.footnotes[identifier]
        closed = re.fullmatch(r"(.*)(</p>[\r\n]*)", body, re.DOTALL)
        body = [f"{closed.group(1)} {backs}{closed.group(2)}"] if closed else [body, NEEDED, backs]
        return [FORCED, f'<li id="{prefix}fn-{named}">', FORCED, *body, NEEDED, "</li>"]

    def section(self):
        if not self.counts:
            return []
        tag = self.option("gfm_footnote_label_tag_name", "h2")
        attributes = self.options.get("gfm_footnote_label_attributes", 'class="sr-only"')
        label = self.option("gfm_footnote_label", "Footnotes")
        heading = f'<{tag} id="footnote-label" {attributes}>{label}</{tag}>'
        items = [piece for identifier in self.counts for piece in self.item(identifier)]
        return [NEEDED, f'<section data-footnotes="" class="footnotes">{heading}', FORCED, "<ol>",
                *items,
                FORCED, "</ol>", FORCED, "</section>", FORCED]


def called_footnote(*parts):
    """A footnote that has these parts, and a call of it."""
    return [paragraph(call()), footnote("", *parts)]


def ways_read(nodes):
    """Ways of `attacks`, of nodes that are data and references."""
    return [("footnote", [], called_footnote(paragraph(*nodes)))]
