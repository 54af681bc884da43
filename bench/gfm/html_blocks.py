"""Which texts begin a block of HTML, and which lines end one (4.6, `HtmlBlocks.antt`)."""

from enum import Enum

from gfm.texts import ALPHANUMERIC, LETTERS, begins_with, count_in, get_or


class HtmlKind(Enum):
    """The seven kinds."""

    RAW = 1
    COMMENT = 2
    INSTRUCTION = 3
    DECLARATION = 4
    DATA = 5
    BLOCK = 6
    TAG = 7


RAW_NAMES = (b"script", b"pre", b"style", b"textarea")
BLOCK_NAMES = frozenset(
    b"p dd dl dt h1 h2 h3 h4 h5 h6 hr li ol td th tr ul col dir div nav base body form head html "
    b"link main menu aside frame param table tbody tfoot thead title track center dialog figure "
    b"footer header iframe legend option source address article caption details section summary "
    b"basefont colgroup fieldset frameset menuitem noframes optgroup blockquote figcaption"
    .split())
ENDS = {
    HtmlKind.RAW: tuple(b"</" + name + b">" for name in RAW_NAMES),
    HtmlKind.COMMENT: (b"-->",),
    HtmlKind.INSTRUCTION: (b"?>",),
    HtmlKind.DECLARATION: (b">",),
    HtmlKind.DATA: (b"]]>",),
}


def ends_name(text):
    """Whether a text begins with a space, a tab or `>`, or is empty."""
    return not text or text[0] in b" \t>"


def named_kind(is_closing, name, after):
    """The kind that a tag begins: whether it closes, its name, and what follows that."""
    if ends_name(after) and not is_closing and name.lower() in RAW_NAMES:
        return HtmlKind.RAW
    if (ends_name(after) or after[:2] == b"/>") and name.lower() in BLOCK_NAMES:
        return HtmlKind.BLOCK
    return None


def tag_kind(text):
    """The kind of the block that a tag begins, whose name follows `<` or `</`."""
    is_closing = text[:2] == b"</"
    inside = text[2:] if is_closing else text[1:]
    length = count_in(ALPHANUMERIC, inside)
    return named_kind(is_closing, inside[:length], inside[length:])


def html_kind(text):
    """The kind that a text at a `<` begins; `None` if it is text, or a tag of another name."""
    for opening, kind in ((b"<!--", HtmlKind.COMMENT), (b"<?", HtmlKind.INSTRUCTION),
                          (b"<![CDATA[", HtmlKind.DATA)):
        if text.startswith(opening):
            return kind
    if text.startswith(b"<!"):
        return HtmlKind.DECLARATION if get_or(text, 2, 0) in LETTERS else None
    return tag_kind(text)


def is_html_end(kind, line):
    """Whether a line ends a block of a kind: it has what ends one."""
    return any(begins_with(line[at:], end) for end in ENDS.get(kind, ())
               for at in range(len(line)))


def ends_at_blank_line(kind):
    """Whether a blank line ends a block of a kind."""
    return kind in (HtmlKind.BLOCK, HtmlKind.TAG)
