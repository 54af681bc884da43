"""The HTML of a document's entries. Each line ending is printed as the document's first one."""

import re
from typing import NamedTuple

from gfm import marks
from gfm.inlines import Leaf, leaf_text
from gfm.links import text_form
from gfm.references import decoded
from gfm.states import Entry
from gfm.texts import BLANKS, HEXADECIMAL, printed

HREF = (b"http", b"https", b"irc", b"ircs", b"mailto", b"xmpp")
SRC = (b"http", b"https")
KEPT_IN_URL = frozenset(b"!#$=_~%") | frozenset(range(38, 60)) | frozenset(range(63, 91)) \
    | frozenset(range(97, 123))
CONTAINERS = ("QuoteBegins", "OrderedListBegins", "UnorderedListBegins", "ItemBegins",
              "FootnoteBegins")
UNPRINTED = ("Blank", "OnlyDefinitions")
PERCENT = 37
BEFORE_LINK = {"email": b"mailto:", "www": b"http://"}
FOOTNOTES = (b'<section data-footnotes="" class="footnotes"><h2 id="footnote-label" '
             b'class="sr-only">Footnotes</h2>\n<ol>')


class Block(NamedTuple):
    """An entry, and the blocks in it."""

    entry: Entry
    children: list


def tree_of(entries):
    """Entries as a tree: a list of blocks."""
    stack = [[]]
    for entry in entries:
        if entry.name == "ContainerEnds":
            stack.pop()
            continue
        block = Block(entry, [])
        stack[-1].append(block)
        if entry.name in CONTAINERS:
            stack.append(block.children)
    return stack[0]


def escaped(text):
    """A text as HTML."""
    text = printed(text).replace(b"&", b"&amp;").replace(b"<", b"&lt;").replace(b">", b"&gt;")
    return text.replace(b'"', b"&quot;")


def is_escaped_byte(url, at):
    """Whether a URL has a percent sign and two hexadecimal digits at an index."""
    digits = url[at + 1:at + 3]
    return len(digits) == 2 and all(byte in HEXADECIMAL for byte in digits)


def in_url(url):
    """A text as it may stand in a URL."""
    url = printed(url)
    return b"".join(
        bytes([byte]) if byte in KEPT_IN_URL and (byte != PERCENT or is_escaped_byte(url, at))
        else b"%%%02X" % byte for at, byte in enumerate(url))


def url_of(url, protocols):
    """A URL as the value of an attribute; none if its protocol isn't permitted."""
    kept = in_url(url)
    protocol = re.match(rb"([^?#/:]*):", kept)
    if protocol and protocol[1].lower() not in protocols:
        return b""
    return escaped(kept)


def name_of(form):
    """The name of a footnote in ids, by the form of its label."""
    return escaped(in_url(form.encode()))


def code_text(text, is_cell):
    """The text of code: a space for each line ending, and without one at both ends (6.3)."""
    if is_cell:
        text = text.replace(b"\\|", b"|")
    text = text.replace(b"\n", b" ")
    is_padded = len(text) > 1 and text[:1] == text[-1:] == b" " and text.strip(b" ")
    return text[1:-1] if is_padded else text


class Inlines:
    """Prints the inlines of leaves, with a line ending for each line feed between two lines."""

    def __init__(self, footnotes, ending):
        self.footnotes = footnotes
        self.ending = ending
        self.is_cell = False

    def all(self, nodes, is_alt=False, is_linked=False):
        """The HTML of nodes, in the text of an image or in a link."""
        return b"".join(self.one(node, is_alt, is_linked) for node in nodes)

    def one(self, node, is_alt, is_linked):
        """The HTML of a node."""
        if node.kind in ("text", "html", "ending", "break", "reference"):
            return self.text(node, is_alt)
        if node.kind in ("em", "strong", "del"):
            inner = self.all(node.items, is_alt, is_linked)
            name = node.kind.encode()
            return inner if is_alt else b"<" + name + b">" + inner + b"</" + name + b">"
        if node.kind in ("code", "math"):
            text = escaped(code_text(node.text, self.is_cell))
            name = b' class="language-math math-inline"' if node.kind == "math" else b""
            return text if is_alt else b"<code" + name + b">" + text + b"</code>"
        if node.kind in ("link", "image"):
            return self.resource(node, is_alt, is_linked)
        if node.kind == "call":
            return self.call(node, is_alt, is_linked)
        return self.autolink(node, is_alt, is_linked)

    def text(self, node, is_alt):
        """Text, HTML as text, a line ending, a hard break, or a character reference."""
        if node.kind == "break":
            return b"" if is_alt else b"<br />"
        if node.kind == "ending":
            return self.ending
        if node.kind == "reference":
            return escaped(decoded(node.text, False))
        return escaped(node.text.replace(b"\n", self.ending))

    def resource(self, node, is_alt, is_linked):
        """A link or an image."""
        is_image = node.kind == "image"
        inner = self.all(node.items, is_alt or is_image, is_linked or not is_image)
        if is_alt:
            return inner
        title = (node.title or b"").replace(b"\n", self.ending)
        title = b' title="' + escaped(decoded(title)) + b'"' if title else b""
        url = url_of(decoded(node.text), SRC if is_image else HREF)
        if is_image:
            return b'<img src="' + url + b'" alt="' + inner + b'"' + title + b" />"
        return b'<a href="' + url + b'"' + title + b">" + inner + b"</a>"

    def autolink(self, node, is_alt, is_linked):
        """A link whose destination is its text."""
        text = decoded(node.text, False) if node.kind == "angle-url" else node.text
        if is_alt or is_linked:
            return escaped(text)
        url = url_of(BEFORE_LINK.get(node.kind, b"") + text, HREF)
        return b'<a href="' + url + b'">' + escaped(text) + b"</a>"

    def call(self, node, is_alt, is_linked):
        """A call of a footnote; in a link, and in a dropped footnote, it is text."""
        if is_linked or self.footnotes.is_dropped():
            return escaped(b"[^" + node.text + b"]")
        form = text_form(node.text)
        number, count = self.footnotes.called(form)
        if is_alt:
            return b""
        name = name_of(form)
        suffix = b"-%d" % count if count > 1 else b""
        return (b'<sup><a href="#user-content-fn-%s" id="user-content-fnref-%s%s" '
                b'data-footnote-ref="" aria-describedby="footnote-label">%d</a></sup>'
                % (name, name, suffix, number))


class Printer:
    """Prints blocks; `out` is what is printed so far."""

    def __init__(self, parsed, footnotes):
        self.parsed = parsed
        self.ending = parsed.ending
        self.inlines = Inlines(footnotes, parsed.ending)
        self.footnotes = footnotes
        self.out = bytearray()

    def say(self, text):
        """Prints a text."""
        self.out += text

    def begin_line(self):
        """Prints a line ending, unless a line begins."""
        if self.out and self.out[-1:] not in b"\n\r":
            self.out += self.ending

    def line(self, text):
        """Prints a text that begins a line."""
        self.begin_line()
        self.say(text)

    def leaf(self, text, is_cell=False):
        """Prints the inlines of a leaf."""
        self.inlines.is_cell = is_cell
        self.say(self.inlines.all(self.parsed.inlines_of(Leaf(text, is_cell))))

    def blocks(self, blocks):
        """Prints blocks that are in no item."""
        for block in blocks:
            self.block(block)

    def block(self, block):
        """Prints a block."""
        entry = block.entry
        if entry.name in LEAVES:
            LEAVES[entry.name](self, entry)
        elif entry.name == "QuoteBegins":
            self.line(b"<blockquote>")
            self.begin_line()
            self.blocks(block.children)
            self.line(b"</blockquote>")
        elif entry.name == "FootnoteBegins":
            self.footnote(block)
        elif entry.name not in UNPRINTED:
            self.list(block)

    def paragraph(self, entry):
        """Prints a paragraph that isn't in a tight list."""
        self.line(b"<p>")
        self.leaf(leaf_text(entry.lines))
        self.say(b"</p>")

    def heading(self, entry):
        """Prints a heading."""
        self.line(b"<h%d>" % entry.number)
        self.leaf(leaf_text(entry.lines))
        self.say(b"</h%d>" % entry.number)

    def thematic_break(self, _):
        """Prints a thematic break."""
        self.line(b"<hr />")

    def code(self, entry):
        """Prints code or math, each line with an ending."""
        info = escaped(decoded(entry.text))
        name = b' class="language-' + info + b'"' if info else b""
        if entry.name == "Math":
            name = b' class="language-math math-display"'
        self.line(b"<pre><code" + name + b">")
        self.say(escaped(b"".join(line.text + self.ending for line in entry.lines)))
        self.say(b"</code></pre>")

    def html(self, entry):
        """Prints a block of HTML as text, in which a tab that is used in part is whole."""
        texts = [b"\t" + line.text[line.tab:] if line.tab else line.text for line in entry.lines]
        self.line(escaped(self.ending.join(texts)))

    def table(self, entry):
        """Prints a table."""
        head, delimiters, *rows = entry.lines
        aligns = tuple(map(align_of, marks.delimiters(delimiters.text)))
        self.line(b"<table>")
        self.line(b"<thead>")
        self.row(head, b"th", aligns)
        self.line(b"</thead>")
        if rows:
            self.line(b"<tbody>")
            for row in rows:
                self.row(row, b"td", aligns)
            self.line(b"</tbody>")
        self.line(b"</table>")

    def row(self, line, name, aligns):
        """Prints a row, with as many cells as the table has columns."""
        cells = marks.row_cells(line.text)[:len(aligns)]
        cells += [b""] * (len(aligns) - len(cells))
        self.line(b"<tr>")
        for cell, align in zip(cells, aligns):
            self.line(b"<" + name + align + b">")
            self.leaf(cell.strip(BLANKS), True)
            self.say(b"</" + name + b">")
        self.line(b"</tr>")

    def list(self, block):
        """Prints a list."""
        is_ordered = block.entry.name == "OrderedListBegins"
        is_first = not is_ordered or int(block.entry.text) == 1
        start = b"" if is_first else b' start="%d"' % int(block.entry.text)
        name = b"ol" if is_ordered else b"ul"
        self.line(b"<" + name + start + b">")
        for item in block.children:
            if item.entry.name == "ItemBegins":
                self.item(item, is_loose(block))
        self.line(b"</" + name + b">")

    def item(self, item, is_in_loose):
        """Prints an item of a list."""
        self.line(b"<li>")
        children = [child for child in item.children if child.entry.name not in UNPRINTED]
        is_tight_end, is_first = True, True
        for child in children:
            if child.entry.name == "Paragraph" and not is_in_loose:
                if not is_first:
                    self.begin_line()
                self.leaf(leaf_text(child.entry.lines))
                is_tight_end = True
            elif child.entry.name == "Task":
                self.box(child.entry)
                is_tight_end = not is_in_loose and len(children) == 1
                continue
            else:
                self.block(child)
                is_tight_end = child.entry.name == "FootnoteBegins" and is_tight_end
            is_first = False
        if not is_tight_end:
            self.begin_line()
        self.say(b"</li>")

    def box(self, entry):
        """Prints the box of a task, and the space or tab after it."""
        checked = b'checked="" ' if entry.number else b""
        self.say(b'<input type="checkbox" disabled="" ' + checked + b"/>" + entry.text)

    def footnote(self, block):
        """Keeps the HTML of a footnote for the end."""
        label = text_form(block.entry.text)
        before, self.out = self.out, bytearray()
        self.footnotes.enter(label)
        self.blocks(block.children)
        self.footnotes.exit(label, bytes(self.out))
        self.out = before

    def section(self):
        """Prints the footnotes that are called, in the order of their first calls."""
        notes = self.footnotes.shown()
        if not notes:
            return
        self.line(FOOTNOTES.replace(b"\n", self.ending))
        for note in notes:
            self.line(b'<li id="user-content-fn-%s">' % name_of(note.form))
            self.begin_line()
            self.say(with_ways_back(note, self.ending))
            self.line(b"</li>")
        self.line(b"</ol>")
        self.line(b"</section>")
        self.begin_line()


LEAVES = {
    "Paragraph": Printer.paragraph, "Heading": Printer.heading, "Break": Printer.thematic_break,
    "IndentedCode": Printer.code, "FencedCode": Printer.code, "Math": Printer.code,
    "Html": Printer.html, "Table": Printer.table,
}


def align_of(delimiter):
    """The attribute of a column's cells."""
    cell = delimiter.strip(BLANKS)
    is_left, is_right = cell[:1] == b":", cell[-1:] == b":"
    align = b"center" if is_left and is_right else b"left" if is_left else b"right"
    return b' align="' + align + b'"' if is_left or is_right else b""


def is_loose(block):
    """Whether a list has a blank line between its items or between children of an item (5.3)."""
    items = [item.children for item in block.children]
    return any(child.entry.name == "Blank" for children in [block.children] + items
               for child in children)


def with_ways_back(note, ending):
    """A footnote with a link to each call: at the end of its last paragraph, or after it."""
    ways, name = [], name_of(note.form)
    for count in range(1, note.calls + 1):
        suffix = b"-%d" % count if count > 1 else b""
        mark = b"<sup>%d</sup>" % count if count > 1 else b""
        ways.append(b'<a href="#user-content-fnref-%s%s" data-footnote-backref="" '
                    b'aria-label="Back to content" class="data-footnote-backref">'
                    b"\xe2\x86\xa9%s</a>" % (name, suffix, mark))
    text = note.html.rstrip(b"\r\n")
    if text.endswith(b"</p>"):
        return text[:-len(b"</p>")] + b" " + b" ".join(ways) + b"</p>"
    is_ended = note.html[-1:] in (b"", b"\r", b"\n")
    return note.html + (b"" if is_ended else ending) + b" ".join(ways)
