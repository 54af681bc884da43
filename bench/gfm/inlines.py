"""The inlines of a leaf: its text is read from left to right with a stack of open brackets. What
binds closest is read first; a link or an image ends at a `]`, and its items are then paired; those
outside of brackets are paired at the end. Bare links are found where no bracket is open that may
begin a link, and at the end in what is text.
"""

from typing import NamedTuple, Optional

from gfm.angles import address_length, html_length, url_length
from gfm.bare_links import bare_links, url_at, www_at
from gfm.characters import class_after, class_before
from gfm.emphasis import Char, Span, emphasized, run_at
from gfm.links import MOST_OF_LABEL, after_next, after_spaces, begins_with_space
from gfm.links import destination_at, label_at, label_form, next_is, size, text_form, title_at
from gfm.marks import BACKTICK, BRACKET, BRACKET_END, DOLLAR, LESS, PARENTHESIS, PARENTHESIS_END
from gfm.marks import STAR, TILDE, UNDERSCORE, is_escape
from gfm.options import Options
from gfm.references import AMPERSAND, reference_length
from gfm.texts import ALPHANUMERIC, BACKSLASH, BLANKS, LINE_FEED, blanks, get_or
from gfm.texts import printed, run_of, without_blanks

MOST_OPEN = 32
MOST_SPANS = 32
EXCLAMATION = 33


class Node(NamedTuple):
    """What isn't text: its kind, its text or destination, its items, and the title of a link."""

    kind: str
    text: bytes = b""
    items: tuple = ()
    title: Optional[bytes] = None


class Bracket(NamedTuple):
    """An open bracket: where it begins and where the text after it does, and its items.

    It is active until a link after it ends; `has_bracket` says whether another one is in it.
    """

    start: int
    inside: int
    items: tuple = ()
    is_active: bool = True
    has_bracket: bool = False

    def is_image(self):
        """Whether it may begin an image."""
        return self.inside - self.start == 2


class Context(NamedTuple):
    """What all leaves share: the options, the targets of links, and the labels of footnotes."""

    options: Options
    links: dict
    footnotes: frozenset


class Leaf(NamedTuple):
    """The text of a leaf, with a line feed for each line ending, and whether it is a cell."""

    text: bytes
    is_cell: bool = False


class Reading(NamedTuple):
    """The items outside of all brackets, the open brackets, and how many more are text."""

    items: tuple = ()
    brackets: tuple = ()
    deeper: int = 0


def added(items, state):
    """The state with more items in the innermost bracket."""
    if not state.brackets:
        return state._replace(items=state.items + items)
    last = state.brackets[-1]
    longer = last._replace(items=last.items + items)
    return state._replace(brackets=state.brackets[:-1] + (longer,))


def chars(start, end):
    """The bytes between two indices as text."""
    return tuple(map(Char, range(start, end)))


def is_in_link(state):
    """Whether a bracket is open that may begin a link."""
    return any(bracket.is_active for bracket in state.brackets)


# Each construct of a text: what is read at an index, as items and the index after it

def code_end(text, at):
    """The index where code ends that begins at backticks; None if it doesn't end."""
    length = run_of(BACKTICK, text[at:])
    at += length
    while at < len(text):
        count = max(1, run_of(BACKTICK, text[at:]))
        if text[at] == BACKTICK and count == length:
            return at
        at += count
    return None


def code_read(text, at):
    """6.3 Code spans."""
    length = run_of(BACKTICK, text[at:])
    end = code_end(text, at)
    if end is None:
        return chars(at, at + length), at + length
    return (Node("code", text[at + length:end]),), end + length


def may_begin_math(text, at, length):
    """Whether math may begin with a run of dollar signs."""
    follows = text[at + length:at + length + 1]
    return length == 2 or (length == 1 and follows not in (b"", b" ", b"\t", b"\n"))


def may_end_math(text, at, is_double):
    """Whether math may end at a dollar sign: one has no space before it, and no word after it."""
    is_word = get_or(text, at + 1, 0) in ALPHANUMERIC
    return is_double or (text[at - 1] not in b" \t\n\\" and not is_word)


def math_end(text, at, length):
    """The index where math ends that begins before an index; None if it doesn't end."""
    start = at
    while at < len(text):
        count = max(1, run_of(DOLLAR, text[at:]))
        is_end = text[at] == DOLLAR and count == length and at > start
        if is_end and may_end_math(text, at, length == 2):
            return at
        at += count
    return None


def math_read(text, at):
    """Math, by the parser's own rule."""
    length = run_of(DOLLAR, text[at:])
    may_begin = may_begin_math(text, at, length)
    end = math_end(text, at + length, length) if may_begin else None
    if end is None:
        return chars(at, at + length), at + length
    return (Node("math", text[at + length:end]),), end + length


def escape_read(leaf, at):
    """6.1 Backslash escapes; in a cell a bar has a backslash more. A hard break (6.11)."""
    text = leaf.text
    if text[at + 1:at + 2] == b"\n":
        return (Node("break"), Node("ending")), at + 2
    after = at + 2 if leaf.is_cell and text.startswith(b"\\\\|", at) else at + 1
    return chars(after, after + 1), after + 1


def angle_read(text, at):
    """6.8 Autolinks, and 6.10 Raw HTML."""
    rest = text[at:]
    for kind, length in (("angle-url", url_length(rest)), ("email", address_length(rest))):
        if length:
            return (Node(kind, rest[1:length - 1]),), at + length
    length = html_length(rest)
    if length:
        return (Node("html", rest[:length]),), at + length
    return None


def run_read(text, at):
    """6.4 Emphasis: a run of one mark."""
    end = at + run_of(text[at], text[at:])
    run = run_at(text[at], at, end, class_before(text[:at]), class_after(text[end:]))
    return ((run,) if run.opens or run.closes else chars(at, end)), end


def spaces_read(options, text, at):
    """6.11, 6.12: a line ending with the spaces before it, of which two make a hard break."""
    end = at + blanks(text[at:])
    if text[end:end + 1] != b"\n":
        return chars(at, end), end
    is_hard = options.hard_breaks or text[at:end].endswith(b"  ")
    return ((Node("break"),) if is_hard else ()) + (Node("ending"),), end + 1


def simple_read(options, leaf, at):
    """What an index begins that brackets don't change; None if it is text."""
    text, byte = leaf.text, leaf.text[at]
    if byte in BLANKS or byte == LINE_FEED:
        return spaces_read(options, text, at)
    if byte == BACKSLASH and (is_escape(text, at) or text[at + 1:at + 2] == b"\n"):
        return escape_read(leaf, at)
    if byte == BACKTICK:
        return code_read(text, at)
    if byte == DOLLAR and options.math:
        return math_read(text, at)
    if byte == AMPERSAND:
        length = reference_length(text[at:])
        return ((Node("reference", text[at:at + length]),), at + length) if length else None
    if byte == LESS:
        return angle_read(text, at)
    return run_read(text, at) if byte in (STAR, UNDERSCORE, TILDE) else None


# 6.6 Links, 6.7 Images

def resource_at(text):
    """A destination and a title in parentheses, and the text after them; None without."""
    if not next_is(PARENTHESIS, text):
        return None
    inside = after_spaces(after_next(text))
    found = destination_at(inside[0])
    if found is None:
        return None
    rest = (found.rest,) + inside[1:]
    title = title_at(after_spaces(rest)) if begins_with_space(rest) else None
    rest = after_spaces(title.rest if title else rest)
    target = (found.text, b"\n".join(title.text) if title else None)
    return (target, after_next(rest)) if next_is(PARENTHESIS_END, rest) else None


def target_of(context, bracket, content, after):
    """The target of a bracket that ends before a text, and the text after it; None without."""
    resource = resource_at(after)
    if resource:
        return resource
    is_collapsed = after[0][:2] == b"[]"
    full = label_at(after_next(after)) if next_is(BRACKET, after) and not is_collapsed else None
    if full:
        form = label_form(full.text)
        return (context.links[form], full.rest) if form in context.links else None
    form = text_form(printed(content))
    if bracket.has_bracket or len(content) > MOST_OF_LABEL or form not in context.links:
        return None
    return context.links[form], (after[0][2:],) + after[1:] if is_collapsed else after


def bracket_opened(text, at, state):
    """A bracket that opens; too deep it is text."""
    inside = at + (2 if text[at] == EXCLAMATION else 1)
    if len(state.brackets) >= MOST_OPEN:
        return added(chars(at, inside), state._replace(deeper=state.deeper + 1)), inside
    marked = tuple(one._replace(has_bracket=True) for one in state.brackets[-1:])
    brackets = state.brackets[:-1] + marked + (Bracket(at, inside),)
    return state._replace(brackets=brackets), inside


def calls_footnote(context, bracket, content):
    """Whether a bracket's content calls a footnote."""
    may_be = content[:1] == b"^" and len(content) <= MOST_OF_LABEL and not bracket.has_bracket
    return may_be and b"\n" not in content and text_form(content[1:]) in context.footnotes


def bracket_closed(context, text, at, state):
    """A `]`: with the nearest open bracket it is a call, a link or an image, or else text."""
    plain = chars(at, at + 1)
    if state.deeper:
        return added(plain, state._replace(deeper=state.deeper - 1)), at + 1
    if not state.brackets:
        return added(plain, state), at + 1
    bracket = state.brackets[-1]
    outer = state._replace(brackets=state.brackets[:-1])
    content = text[bracket.inside:at]
    as_text = chars(bracket.start, bracket.inside) + bracket.items + plain
    if not bracket.is_image() and not bracket.is_active:
        return added(as_text, outer), at + 1
    if calls_footnote(context, bracket, content):
        before = chars(bracket.start, bracket.inside - 1)
        return added(before + (Node("call", content[1:]),), outer), at + 1
    found = target_of(context, bracket, content, tuple(text[at + 1:].split(b"\n")))
    if found is None:
        return added(as_text, outer), at + 1
    (destination, title), rest = found
    kind = "image" if bracket.is_image() else "link"
    if kind == "link":
        inactive = tuple(one._replace(is_active=False) for one in outer.brackets)
        outer = outer._replace(brackets=inactive)
    node = Node(kind, destination, emphasized(bracket.items), title)
    return added((node,), outer), len(text) - size(rest) + 1


def one_read(context, leaf, at, state):
    """What an index begins: the state after it, and the index after it."""
    text = leaf.text
    simple = simple_read(context.options, leaf, at)
    if simple is not None:
        return added(simple[0], state), simple[1]
    if text[at] == BRACKET or text[at:at + 2] == b"![":
        return bracket_opened(text, at, state)
    if text[at] == BRACKET_END:
        return bracket_closed(context, text, at, state)
    if context.options.bare_links and not is_in_link(state):
        high = len(text)
        link = url_at(text, at, high) or www_at(text, at, high)
        if link is not None:
            return added((Node(link.kind, text[at:link.end]),), state), link.end
    return added(chars(at, at + 1), state), at + 1


# Bare links in what remained text, and the limit on depth

def unnested(items, spans):
    """Items in which a span is text that so many others enclose."""
    if spans < MOST_SPANS:
        return items
    found = ()
    for item in items:
        if isinstance(item, Span):
            found += chars(item.opened, item.opened + item.width) + unnested(item.items, spans)
            found += chars(item.closed, item.closed + item.width)
        else:
            found += (item,)
    return found


def text_nodes(text, start, end, has_links):
    """The nodes of a text between two indices, with the bare links in it."""
    nodes, at = (), start
    for link in bare_links(text, start, end) if has_links else ():
        nodes += (Node("text", text[at:link.start]), Node(link.kind, text[link.start:link.end]))
        at = link.end
    return nodes + (Node("text", text[at:end]),)


def finished(text, items, spans, has_links):
    """Items as nodes: text with its bare links, and no span that is nested too deep."""
    nodes, start, end = (), 0, 0
    for item in unnested(items, spans) + (None,):
        if isinstance(item, Char) and item.at == end:
            end += 1
            continue
        if start < end:
            nodes += text_nodes(text, start, end, has_links)
        start = end = 0
        if isinstance(item, Char):
            start, end = item.at, item.at + 1
        elif isinstance(item, Span):
            nodes += (Node(item.kind, items=finished(text, item.items, spans + 1, has_links)),)
        elif item is not None:
            inner = finished(text, item.items, spans, False)
            nodes += (item._replace(items=inner),)
    return nodes


def leaf_text(lines):
    """The text of a leaf's lines, without the spaces and tabs at its end."""
    return without_blanks(b"\n".join(line.text for line in lines))


def inlines(context, leaf):
    """The inlines of a leaf as nodes."""
    state, at = Reading(), 0
    while at < len(leaf.text):
        state, at = one_read(context, leaf, at, state)
    items = state.items
    for bracket in state.brackets:
        items += chars(bracket.start, bracket.inside) + bracket.items
    return finished(leaf.text, emphasized(items), 0, context.options.bare_links)


def links_of(definitions):
    """The targets of links by their labels; the first definition of a label is the one."""
    links = {}
    for definition in definitions:
        title = None if definition.title is None else b"\n".join(definition.title)
        links.setdefault(label_form(definition.label), (definition.destination, title))
    return links
