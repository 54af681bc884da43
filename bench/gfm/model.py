"""An executable model of the definition of GFM: Markdown in, HTML out, with HTML as text.

    python3 bench/gfm/model.py [OPTION ..] < DOCUMENT

The options are those of `mdhtml` in options.py. `blocks.py` mirrors the definitions of blocks in
crates/md_blocks/specs, name by name; `inlines.py` reads the inlines of each leaf, and `printing.py`
prints both. It shares no code with the parser. Where the two differ, one of them is wrong:
bench/tests/model.py compares them.
"""

import pathlib
import sys

if __name__ == "__main__":
    sys.path.insert(0, str(pathlib.Path(__file__).resolve().parents[1]))

from gfm.blocks import blocks_of, lines_of
from gfm.footnotes import Footnotes
from gfm.inlines import Context, inlines, links_of
from gfm.links import text_form
from gfm.options import Options, options_of
from gfm.printing import Printer, tree_of


class Parsed:
    """A document whose blocks are read: its tree, and the inlines of its leaves."""

    def __init__(self, options, document):
        entries, definitions = blocks_of(options, document)
        self.ending = next((line.ending for line in lines_of(document) if line.ending), b"\n")
        self.tree = tree_of(entries)
        self.labels = [text_form(entry.text) for entry in entries
                       if entry.name == "FootnoteBegins"]
        self.context = Context(options, links_of(definitions), frozenset(self.labels))
        self.read = {}

    def inlines_of(self, leaf):
        """The inlines of a leaf."""
        if leaf not in self.read:
            self.read[leaf] = inlines(self.context, leaf)
        return self.read[leaf]


def printed(parsed, dropped):
    """The HTML of a document in which some footnotes are dropped, and the footnotes' calls."""
    footnotes = Footnotes(parsed.labels, dropped)
    printer = Printer(parsed, footnotes)
    printer.blocks(parsed.tree)
    printer.begin_line()
    return printer, footnotes


def html_of(document, options=Options()):
    """The HTML of a document, which has its first line ending for each."""
    parsed = Parsed(options, document)
    printer, footnotes = printed(parsed, frozenset())
    if footnotes.uncalled():
        printer, _ = printed(parsed, footnotes.uncalled())
    printer.section()
    return bytes(printer.out)


def main(arguments):
    """Prints the HTML of the document on standard input."""
    options = options_of(arguments)
    if options is None:
        sys.exit("model: it has no such option")
    sys.stdout.buffer.write(html_of(sys.stdin.buffer.read(), options))


if __name__ == "__main__":
    main(sys.argv[1:])
