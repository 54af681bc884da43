"""The blocks of a document as entries, line by line: `Containers`, `LeafBlocks`, `ContainerBlocks`,
`OwnBlocks` and `BlockStructure` of crates/md_blocks/specs.

Each function has the name of the definition that it mirrors. The definition has the number
`defined` of a paragraph's lines that define links as an argument; here it is counted where it is
used.
"""

from typing import NamedTuple, Optional

from gfm import marks
from gfm.angles import is_tag_alone
from gfm.html_blocks import HtmlKind, ends_at_blank_line, html_kind, is_html_end
from gfm.links import defined_lines
from gfm.marks import BACKTICK, BRACKET, DOLLAR, EQUALS, GREATER, HASH, HYPHEN, LESS, STAR, TILDE
from gfm.marks import UNDERSCORE
from gfm.rests import Rest, indent, is_blank_rest, passed, skipped, unindented
from gfm.states import ContainerKind, Entry, Fence, Leaf, LeafKind, Line, Open, State
from gfm.states import blank_written, closed_to, innermost, is_in_paragraph, leaf_closed
from gfm.states import opened_in, paragraph_closed, quotes_depth, room, room_for_text
from gfm.states import with_a_child, with_entries, with_leaf, with_links, without_blank
from gfm.texts import BYTE_ORDER_MARK, SPACE, blanks, first_of, prefix_len, run_of
from gfm.texts import without_blanks

MOST_DEPTH = 96
MOST_LACKING = 1 << 19
MOST_OF_FOOTNOTE_LABEL = 998


# Containers.antt: which open containers a line continues

def quote_continued(rest):
    """A quote goes on after at most three columns, at a `>`, and after it a column of space."""
    if indent(rest) < 4 and unindented(rest)[:1] == b">":
        return skipped(1, passed(1, rest))
    return None


def indented_continued(columns, rest):
    """An item with a child, or a footnote, goes on after so many columns, or in a blank line."""
    if indent(rest) < columns and not is_blank_rest(rest):
        return None
    return skipped(columns, rest)


def continued(container, rest):
    """The rest of the line after what continues a container; None if it doesn't."""
    if container.kind is ContainerKind.QUOTE:
        return quote_continued(rest)
    if container.kind is ContainerKind.ITEM:
        if is_blank_rest(rest) and not container.has_child:
            return None
        return indented_continued(container.indent, rest)
    if container.kind is ContainerKind.FOOTNOTE_DEFINITION:
        return indented_continued(4, rest)
    return rest


def matched(containers, rest):
    """How many of the open containers a line continues, and the rest after them."""
    for count, container in enumerate(containers):
        after = continued(container, rest)
        if after is None:
            return count, rest
        rest = after
    return len(containers), rest


# LeafBlocks.antt

def line_added(line, state):
    """The open leaf gets a line."""
    return with_leaf(state.leaf._replace(lines=state.leaf.lines + (line,)), state)


def break_begun(mark, depth, text, state):
    """4.1 Thematic breaks: at a line of a mark."""
    if not marks.is_break(mark, text):
        return None
    return with_entries((Entry("Break"),), room(depth, state))


def heading_begun(depth, text, state):
    """4.2 ATX headings: at one to six number signs; the content is the text after them."""
    if not marks.opens_heading(text):
        return None
    level = run_of(HASH, text)
    content = marks.heading_content(text[level:])
    line = Line(content[blanks(content):])
    return with_entries((Entry("Heading", (line,), level),), room(depth, state))


def heading_underlined(mark, text, lines, state):
    """4.3 Setext headings: an underline makes a heading of lines, if one is no definition."""
    defined = defined_lines(lines)
    if not marks.is_underline(mark, text) or defined == len(lines):
        return None
    level = 1 if mark == EQUALS else 2
    state = blank_written(with_links(lines, state))
    return with_leaf(None, with_entries((Entry("Heading", lines[defined:], level),), state))


def definitions_taken(lines, state):
    """Where all lines are definitions, the paragraph loses them and goes on."""
    left = Leaf(LeafKind.PARAGRAPH, lines[defined_lines(lines):])
    return with_leaf(left, with_links(lines, state))


def is_indented(leaf):
    """Whether indented code is open."""
    return leaf is not None and leaf.kind is LeafKind.INDENTED


def indented_read(depth, is_whole, rest, ending, state):
    """4.4 Indented code blocks: after four columns, where no paragraph is open."""
    line = Line(skipped(4, rest).text, ending)
    if is_whole and is_indented(state.leaf):
        return without_blank(line_added(line, state))
    return without_blank(with_leaf(Leaf(LeafKind.INDENTED, (line,)), room(depth, state)))


def fence_of(mark, rest):
    """An opening fence."""
    return Fence(mark, run_of(mark, unindented(rest)), indent(rest))


def code_begun(mark, depth, rest, state):
    """4.5 Fenced code blocks: at a fence, after which its first word is kept."""
    text = unindented(rest)
    if not marks.opens_code(mark, text):
        return None
    info = marks.first_word(text[run_of(mark, text):])
    return with_leaf(Leaf(LeafKind.FENCED, (), fence_of(mark, rest), info), room(depth, state))


def fenced_read(fence, rest, ending, state):
    """A line of fenced code, or of math: its closing fence, or a line without indentation."""
    if indent(rest) < 4 and marks.closes_fence(fence.mark, fence.length, unindented(rest)):
        return leaf_closed(state)
    return line_added(Line(skipped(fence.indent, rest).text, ending), state)


def kind_begun(is_alone, text):
    """4.6 HTML blocks: the kind that a text begins; `is_alone` says whether it is a tag alone."""
    return html_kind(text) or (HtmlKind.TAG if is_alone else None)


def html_ended(is_ended, state):
    """HTML after a line that may end it."""
    return leaf_closed(state) if is_ended else state


def html_begun(depth, found, rest, ending, state):
    """A block of HTML of the kind that was found, if any."""
    if found is None:
        return None
    leaf = Leaf(LeafKind.HTML, (Line(rest.text, ending, rest.tab),), html=found)
    return html_ended(is_html_end(found, unindented(rest)), with_leaf(leaf, room(depth, state)))


def html_read(kind, rest, ending, state):
    """A line of HTML, unless it is the blank line that ends it."""
    if is_blank_rest(rest) and ends_at_blank_line(kind):
        return None
    line = Line(rest.text, ending, rest.tab)
    return html_ended(is_html_end(kind, rest.text), line_added(line, state))


def blank_read(depth, is_whole, rest, ending, state):
    """4.9 Blank lines: one continues indented code, and else closes what it doesn't continue."""
    if is_whole and is_indented(state.leaf):
        return line_added(Line(skipped(4, rest).text, ending), state)
    return closed_to(depth, state)


def blank_waits(is_ended, state):
    """A blank line with an ending waits."""
    return state._replace(blank=quotes_depth(state.containers)) if is_ended else state


def is_table(are_read, text, lines):
    """GFM 4.10: whether a delimiter row has as many cells as the line before it."""
    return are_read and marks.is_delimiter_row(text) and bool(lines) \
        and len(marks.row_cells(lines[-1].text)) == len(marks.delimiters(text))


def paragraph_split(lines, state):
    """The lines before the head of a table as a paragraph of their own."""
    state = with_leaf(None, state)
    return paragraph_closed(lines[:-1], state) if len(lines) > 1 else state


def table_begun(are_read, text, ending, lines, state):
    """GFM 4.10 Tables: a delimiter row begins a table, with the line before it as its head."""
    if not is_table(are_read, text, lines):
        return None
    leaf = Leaf(LeafKind.TABLE, (lines[-1], Line(text, ending)),
                columns=len(marks.delimiters(text)))
    return with_leaf(leaf, blank_written(paragraph_split(lines, state)))


def lacking_after(columns, count, lacking):
    """How many cells all rows lack after a row of so many; None if it isn't read."""
    after = lacking + max(0, columns - count)
    return after if count > 0 and after <= MOST_LACKING else None


def row_read(line, state):
    """A row of the open table."""
    leaf = state.leaf
    if leaf is None or leaf.kind is not LeafKind.TABLE:
        return None
    lacking = lacking_after(leaf.columns, len(marks.row_cells(line.text)), state.lacking)
    return None if lacking is None else line_added(line, state)._replace(lacking=lacking)


def text_read(depth, is_whole, line, state):
    """4.8 Paragraphs: a line of text continues the open one, is a row, or begins one."""
    if is_in_paragraph(state.leaf):
        return line_added(line, state)
    longer = row_read(line, state) if is_whole else None
    if longer is not None:
        return longer
    return with_leaf(Leaf(LeafKind.PARAGRAPH, (line,)), room_for_text(depth, state))


# ContainerBlocks.antt

class Begun(NamedTuple):
    """The state after a container has begun, and what is left of the line."""

    state: State
    rest: Rest


def quote_begun(depth, rest, state):
    """5.1 Block quotes: at `>`, and after it a column of space if any."""
    begun = with_entries((Entry("QuoteBegins"),), room(depth, state))
    return Begun(opened_in(Open(ContainerKind.QUOTE), begun), skipped(1, passed(1, rest)))


def list_kind(is_ordered):
    """The kind of a list."""
    return ContainerKind.ORDERED_LIST if is_ordered else ContainerKind.UNORDERED_LIST


def list_begun(depth, is_ordered, number, marker, state):
    """5.3 Lists: an item continues the list that is open at its depth, or begins one."""
    closed = closed_to(depth, state)
    kind = list_kind(is_ordered)
    if innermost((kind,), closed.containers) and closed.containers[-1].marker == marker:
        return blank_written(closed)
    begun = with_entries((Entry(kind.value, text=number),), room(depth, state))
    return opened_in(Open(kind, 0, marker), begun)


def is_padded(rest):
    """5.2 List items: whether text follows the marker after at most four columns."""
    return indent(rest) <= 4 and not is_blank_rest(rest)


def padding(rest):
    """The columns before the text, or one before code or where there is no text."""
    return indent(rest) if is_padded(rest) else 1


def is_task(rest):
    """GFM 5.3 Task list items: whether an item's text begins with a box."""
    return is_padded(rest) and marks.opens_task(unindented(rest))


def task_begun(rest, ending, state):
    """A box; the text after it is a paragraph, whatever it begins with."""
    left = unindented(passed(3, rest))
    box = unindented(rest)[:4]
    task = Entry("Task", number=int(box[1] != SPACE), text=box[3:])
    begun = with_a_child(with_entries((task,), state))
    if not left:
        return begun
    return with_leaf(Leaf(LeafKind.PARAGRAPH, (Line(left, ending),)), begun)


def item_begun(depth, rest, ending, state):
    """An item: the lines that continue it are indented by the columns up to its text."""
    text = unindented(rest)
    digits = marks.number_length(text)
    after = passed(digits + 1, rest)
    item = Open(ContainerKind.ITEM, indent(rest) + digits + 1 + padding(after), text[digits])
    begun = list_begun(depth, digits > 0, text[:digits], text[digits], state)
    begun = opened_in(item, with_entries((Entry("ItemBegins"),), begun))
    if is_task(after):
        return Begun(task_begun(after, ending, begun), Rest(passed(3, after).column, b""))
    return Begun(begun, skipped(padding(after), after))


# OwnBlocks.antt

def after_dollars(text):
    """The text after the fence of math."""
    after = text[run_of(DOLLAR, text):]
    return after[blanks(after):]


def math_begun(depth, rest, ending, state):
    """Math: the text after a fence of dollar signs is its first line."""
    if not marks.opens_math(unindented(rest)):
        return None
    content = after_dollars(unindented(rest))
    lines = (Line(content, ending),) if content else ()
    return with_leaf(Leaf(LeafKind.MATH, lines, fence_of(DOLLAR, rest)), room(depth, state))


def label_length(text):
    """How long the label of a footnote is that begins a text, counted up to 998."""
    return min(MOST_OF_FOOTNOTE_LABEL, prefix_len(lambda byte: byte not in b"][ \t\0", text))


def opens_footnote(text):
    """Whether a text begins the definition of a footnote: `[^`, a label, and `]:`."""
    length = label_length(text[2:])
    return text[:2] == b"[^" and length > 0 and text[2 + length:4 + length] == b"]:"


def footnote_begun(depth, rest, state):
    """The definition of a footnote, and the rest of the line after its mark."""
    text = unindented(rest)
    if not opens_footnote(text):
        return None
    length = label_length(text[2:])
    entry = Entry("FootnoteBegins", text=text[2:2 + length])
    begun = opened_in(Open(ContainerKind.FOOTNOTE_DEFINITION),
                      with_entries((entry,), room(depth, state)))
    return Begun(begun, passed(0, passed(length + 4, rest)))


# BlockStructure.antt

def quote_at(depth, rest, state):
    """5.1: a quote, unless it would be the 97th container that is open."""
    return quote_begun(depth, rest, state) if depth < MOST_DEPTH else None


def footnote_at(are_read, depth, rest, state):
    """The definition of a footnote, where it is read."""
    return footnote_begun(depth, rest, state) if are_read and depth < MOST_DEPTH else None


def begins_item(in_paragraph, text):
    """5.2: whether an item begins, in a paragraph only where it may interrupt that."""
    return marks.opens_item(text) and (not in_paragraph or marks.may_interrupt(text))


def item_at(depth, in_paragraph, rest, ending, state):
    """An item, which with its list is two containers."""
    if depth < MOST_DEPTH - 1 and begins_item(in_paragraph, unindented(rest)):
        return item_begun(depth, rest, ending, state)
    return None


def container_begun(options, depth, in_paragraph, rest, ending, state):
    """5 Container blocks: the one that begins at a text, by its first byte."""
    first = first_of(unindented(rest))
    if first == GREATER:
        return quote_at(depth, rest, state)
    if first == BRACKET:
        return footnote_at(options.footnotes, depth, rest, state)
    return item_at(depth, in_paragraph, rest, ending, state)


def paragraph_lines(leaf):
    """The lines of the open paragraph."""
    return leaf.lines if is_in_paragraph(leaf) else ()


def may_underline(in_paragraph, mark):
    """4.3: whether a text that begins with a byte may underline the paragraph."""
    return in_paragraph and mark in (EQUALS, HYPHEN)


def unless_underlined(in_paragraph, rest, state):
    """The state where the line makes no heading: an underlined paragraph loses definitions."""
    text = unindented(rest)
    mark = first_of(text)
    if may_underline(in_paragraph, mark) and marks.is_underline(mark, text):
        return definitions_taken(paragraph_lines(state.leaf), state)
    return state


def break_at(depth, text, state):
    """4.1: a thematic break, at one of its marks."""
    mark = first_of(text)
    return break_begun(mark, depth, text, state) if mark in (STAR, HYPHEN, UNDERSCORE) else None


def marks_begun(depth, in_paragraph, rest, state):
    """4.3, 4.1: the underline of a heading, or else a thematic break."""
    text = unindented(rest)
    mark = first_of(text)
    if may_underline(in_paragraph, mark):
        heading = heading_underlined(mark, text, paragraph_lines(state.leaf), state)
        if heading is not None:
            return heading
        return break_at(depth, text, unless_underlined(in_paragraph, rest, state))
    return break_at(depth, text, state)


def leaf_begun(options, depth, in_paragraph, rest, ending, state):
    """4 Leaf blocks: the one that begins at a text, by its first byte."""
    text = unindented(rest)
    first = first_of(text)
    if first == HASH:
        return heading_begun(depth, text, state)
    if first in (BACKTICK, TILDE):
        return code_begun(first, depth, rest, state)
    if first == DOLLAR:
        return math_begun(depth, rest, ending, state) if options.math else None
    if first == LESS:
        is_alone = not in_paragraph and is_tag_alone(text)
        return html_begun(depth, kind_begun(is_alone, text), rest, ending, state)
    return marks_begun(depth, in_paragraph, rest, state)


def text_begun(options, depth, is_whole, rest, ending, state):
    """4.8, GFM 4.10: text where no other block begins: a table begins, or it is read."""
    text = unindented(rest)
    if is_whole and is_in_paragraph(state.leaf):
        table = table_begun(options.tables, text, ending, paragraph_lines(state.leaf), state)
        if table is not None:
            return table
    return text_read(depth, is_whole, Line(text, ending), state)


def deep_read(depth, is_whole, rest, ending, state):
    """4.4: text after four columns or more is code, unless a paragraph is open."""
    if is_in_paragraph(state.leaf):
        return text_read(depth, is_whole, Line(unindented(rest), ending), state)
    return indented_read(depth, is_whole, rest, ending, state)


class Step(NamedTuple):
    """What a text does: it ends the line in a state, or goes on with a rest of the line."""

    state: State
    rest: Optional[Rest] = None


def block_begun(options, depth, is_whole, rest, ending, state):
    """The block at the text that is left of a line."""
    in_paragraph = is_whole and is_in_paragraph(state.leaf)
    leaf = leaf_begun(options, depth, in_paragraph, rest, ending, state)
    if leaf is not None:
        return Step(without_blank(leaf))
    left = unless_underlined(in_paragraph, rest, state)
    container = container_begun(options, depth, in_paragraph, rest, ending, left)
    if container is not None:
        return Step(*container)
    return Step(text_begun(options, depth, is_whole, rest, ending, left))


def step_read(options, depth, is_whole, rest, ending, state):
    """The block at what is left of a line, which may be deep."""
    if indent(rest) < 4:
        return block_begun(options, depth, is_whole, rest, ending, state)
    return Step(deep_read(depth, is_whole, rest, ending, state))


def blank_or(depth, is_whole, has_begun, rest, ending, state):
    """A blank rest of a line: a blank line, if no container begins in the line."""
    if has_begun:
        return state
    return blank_waits(bool(ending), blank_read(depth, is_whole, rest, ending, state))


def begun(options, depth, is_whole, rest, ending, state):
    """The blocks of a line after what it continues: containers, and then what ends the line."""
    has_begun = False
    while not is_blank_rest(rest):
        step = step_read(options, depth, is_whole, rest, ending, state)
        if step.rest is None:
            return step.state
        has_begun, state, rest = True, step.state, step.rest
        depth = len(state.containers)
    return blank_or(depth, is_whole, has_begun, rest, ending, state)


def leaf_continued(rest, ending, state):
    """4.5, 4.6: a line of fenced code, of math or of HTML, if it belongs to that."""
    leaf = state.leaf
    if leaf is None:
        return None
    if leaf.kind in (LeafKind.FENCED, LeafKind.MATH):
        return fenced_read(leaf.fence, rest, ending, state)
    return html_read(leaf.html, rest, ending, state) if leaf.kind is LeafKind.HTML else None


def line_after(options, depth, is_whole, rest, ending, state):
    """A line after so many open containers (steps 2 and 3)."""
    longer = leaf_continued(rest, ending, state) if is_whole else None
    if longer is not None:
        return longer
    return begun(options, depth, is_whole, rest, ending, state)


def line_read(options, line, state):
    """A line: it continues open containers (step 1), and is read after them."""
    count, rest = matched(state.containers, Rest(0, line.text))
    is_whole = count == len(state.containers)
    return line_after(options, count, is_whole, rest, line.ending, state)


# The whole document

def lines_of(document):
    """The lines of a document (2.1), each with its ending: LF, CR LF, CR, or none at the end."""
    found = []
    for line in document.splitlines(keepends=True):
        text = line.rstrip(b"\r\n")
        found.append(Line(text, line[len(text):]))
    return found


def front_matter_length(lines):
    """How many lines the front matter has, with its two fences; 0 if there is none."""
    fences = [at for at, line in enumerate(lines) if without_blanks(line.text) == b"---"]
    return fences[1] + 1 if len(fences) > 1 and fences[0] == 0 else 0


def blocks_of(options, document):
    """The entries of a document, and the definitions of its links."""
    lines = lines_of(document.removeprefix(BYTE_ORDER_MARK))
    state = State()
    for line in lines[front_matter_length(lines) if options.front_matter else 0:]:
        state = line_read(options, line, state)
    state = closed_to(0, state)
    return state.entries, state.links
