"""What documents mean: a small model of the rules, for the names that stand in the cases that
`bench/cases.py` makes.

It goes over trees, and was written from the rules (docs/review/DEFINITIONS.md has them) and apart
from the crates, which go over lists of events. The meaning of a name is defined in the module of
its subject: `prose`, `raw`, `media`, `tables` or `footnotes`. A name or an option that none of them
knows is an error: whoever makes a case of one adds a method there, from the rules. Lists and block
quotes have none, so the container around a node is a footnote definition or nothing, and no
paragraph is in a tight list. Nothing here is run by itself.
"""
from footnotes import Footnotes
from media import Media
from nodes import FORCED, NEEDED, RULES, TRANSPARENT, Around, all_by_exit, meaning_of
from prose import Prose, is_dropped
from raw import Raw
from tables import Tables

ENDINGS = {"lf": "\n", "cr": "\r", "crlf": "\r\n"}
# The options: those that are off or on and of which `flags` makes each choice, those that are
# texts, and the others.
FLAG_OPTIONS = ("allow_any_img_src", "allow_dangerous_html", "allow_dangerous_protocol",
                "gfm_task_list_item_checkable",
                "gfm_tagfilter")
RAW_OPTIONS = ("gfm_footnote_label_tag_name", "gfm_footnote_label_attributes")
ESCAPED_OPTIONS = ("gfm_footnote_clobber_prefix", "gfm_footnote_label", "gfm_footnote_back_label")
TEXT_OPTIONS = (ESCAPED_OPTIONS[0], *RAW_OPTIONS, *ESCAPED_OPTIONS[1:])
OPTIONS = (*FLAG_OPTIONS, *TEXT_OPTIONS, "default_line_ending", "gfm_footnote_number_ids")


class Meaning(Prose, Raw, Media, Tables, Footnotes):
    """A document under options. What is asked for of it is `text`."""

    def __init__(self, document, options):
        self.document, self.options = document, options
        unknown = set(options) - set(OPTIONS)
        if unknown:
            raise ValueError(f"the model doesn't know the options {unknown}")
        every = all_by_exit(document.nodes)
        self.ending = self.first_ending(every, ENDINGS[options.get("default_line_ending", "lf")])
        self.slurps, self.marker, self.heading = False, None, None
        self.counts, self.occurrences, self.footnotes = {}, {}, {}
        self.count_calls(every)
        self.definitions = self.defined(every)

    def text(self):
        body = self.all(self.document.nodes, Around())
        return self.laid_out(body + self.section())

    def source(self, node):
        return self.document.source[node.start:node.end].decode()

    def laid_out(self, pieces):
        """The text of some pieces by themselves."""
        made = ""
        for piece in pieces:
            if piece is FORCED or piece is NEEDED and made and made[-1] not in "\r\n":
                made += self.ending
            elif piece is not NEEDED:
                made += piece
        return made

    def captured(self, nodes, around):
        return self.laid_out(self.all(nodes, around))

    def all(self, nodes, around):
        """The pieces of neighbours."""
        pieces, before = [], None
        for node in nodes:
            made = self.pieces(node, around)
            pieces += [] if is_dropped(node, before) else made
            before = node.name
        return pieces

    def pieces(self, node, around):
        """The pieces of a node, by the rule of its name."""
        if node.name not in RULES:
            raise ValueError(f"the model doesn't know the name {node.name}")
        return RULES[node.name](self, node, around)

    @meaning_of(*TRANSPARENT)
    def transparent(self, node, around):
        return self.all(node.children, around)


def meaning(document, options):
    """The text that a document means under options."""
    return Meaning(document, options).text()
