"""The grammar of events, as the parts from which each node is generated.

A pending part of a tree is a pair: its kind, and the arguments of that. The kinds: a `node` whose
position isn't read, with its own parts; a `leaf`, whose text is one of some; `naming`, a node whose
position is that of one of some identifiers, with its own parts; a `reference`, the value of one by
its name; a `mark` of a heading; `all` of some parts; `perhaps` all of them; `any` number of them,
in any order; `many` nodes of a class, or `one`; and the `end` of the innermost node.
"""


def node(name, *parts):
    return "node", (name, parts)


def leaf(name, texts):
    return "leaf", (name, texts)


def naming(name, identifiers, *parts):
    return "naming", (name, identifiers, parts)


def of_all(*parts):
    return "all", parts


def perhaps(*parts):
    return "perhaps", parts


def any_of(*parts):
    return "any", parts


def many(name):
    return "many", name


def one(name):
    return "one", name


REFERENCE, MARK, END = ("reference", None), ("mark", None), ("end", None)

# The beginning of each document, for identifiers: `a`, `A`, `ß`, `SS`, and two spellings of
# `x y`.
PREAMBLE = "aA\u00dfSSx  y X\tY "
# The identifiers in it, and the empty one; those of `DIFFERENT` differ.
IDENTIFIERS = [(0, 1), (1, 2), (2, 4), (4, 6), (6, 10), (10, 15), (0, 0)]
DIFFERENT = [(0, 1), (2, 4), (6, 10), (0, 0)]
TEXTS = [
    "", "a", " ", "</p>", "<script>", '" onload="x', "'><img src=x>", "&", "&lt;", "javascript:x",
    "java\tscript:x", "\u0001javascript:x", "http://x?y=<z>", "HTTPS:x", "irc:x",
    "data:text/html,x", ":", "a@b", "\0", "%", "%4", "\\|", "a\nb\r", "\u00e9\U0001fa90\u2028"]
ENDINGS = ["\n", "\r", "\r\n"]
# Numbers of lists.
NUMBERS = ["0", "1", "007", "12", "4294967295"]
# Numbers of characters: of an angle bracket, a colon, NUL, a surrogate, one that is none, the
# greatest; and of a quote, a letter, a planet, one that is none.
DECIMALS = ["60", "0058", "0", "55296", "128", "4294967295"]
HEXADECIMALS = ["22", "4a", "1FA90", "fffe"]
UNDERLINES = ["=", "--", "x"]
# Marks of headings, each with the columns of its start and its end; none is longer than six.
MARKS = [("#", 0, 0), ("######", 0, 0), ("##", 2, 3), ("#", 0, 4), ("", 1, 0), ("x y", 4, 1)]
# Transparent names, except the one that has no children.
WRAPPERS = ["Other0", "Other7", "Other65535", "BlockQuotePrefix"]

LINE, BLANK = leaf("LineEnding", ENDINGS), leaf("BlankLineEnding", ENDINGS)
LINES = any_of(LINE)

# The names that a line may contain.

REFERENCE_MARKER = node("CharacterReferenceMarker")
NUMERIC = node("CharacterReferenceMarkerNumeric")
HEXADECIMAL = node("CharacterReferenceMarkerHexadecimal")
LABEL_TEXT = naming("LabelText", IDENTIFIERS, many("phrasing"))
LABEL = node("Label", many("phrasing"), perhaps(LABEL_TEXT), many("phrasing"))
NAMED_LABEL = node("Label", many("phrasing"), LABEL_TEXT, many("phrasing"))
RESOURCE = node("Resource", LINES,
                perhaps(node("ResourceDestinationString", many("strings"))), LINES,
                perhaps(node("ResourceTitleString", many("strings"))), LINES)
REFERENCE_STRING = naming("ReferenceString", IDENTIFIERS, many("strings"))
AUTOLINKS = ["AutolinkEmail", "AutolinkProtocol", "GfmAutolinkLiteralEmail",
             "GfmAutolinkLiteralMailto", "GfmAutolinkLiteralProtocol", "GfmAutolinkLiteralWww",
             "GfmAutolinkLiteralXmpp"]
STRINGS = [
    leaf("Data", TEXTS), leaf("Data", TEXTS), leaf("CharacterEscapeValue", TEXTS),
    of_all(REFERENCE_MARKER, REFERENCE),
    of_all(REFERENCE_MARKER, NUMERIC, leaf("CharacterReferenceValue", DECIMALS)),
    of_all(REFERENCE_MARKER, NUMERIC, HEXADECIMAL, leaf("CharacterReferenceValue", HEXADECIMALS)),
    LINE]
PHRASING = [
    one("strings"), one("strings"), one("strings"),
    *(node(name, many("phrasing")) for name in ("Emphasis", "Strong", "GfmStrikethrough")),
    *(node(name, any_of(leaf(f"{name}Data", TEXTS), LINE))
      for name in ("CodeText", "MathText", "HtmlText")),
    *(node(name, *parts) for name in ("Link", "Image")
      for parts in ((LABEL, RESOURCE), (LABEL, REFERENCE_STRING), (NAMED_LABEL,))),
    node("GfmFootnoteCall", NAMED_LABEL),
    *(leaf(name, TEXTS) for name in AUTOLINKS),
    node("HardBreakEscape"), node("HardBreakTrailing"),
    node("GfmTaskListItemCheck", perhaps(node("GfmTaskListItemValueChecked")))]

# The names that a document, and a container of blocks, may contain.

DESTINATION = node("DefinitionDestinationString", many("strings"))
TITLE = node("DefinitionTitleString", many("strings"))
MARKER = node("ListItemMarker")
BULLET_ITEM = node("ListItem", node("ListItemPrefix", MARKER), many("flow"))


def item(numbers):
    """An item of an ordered list whose value, if it has one, is one of these."""
    prefix = node("ListItemPrefix", perhaps(leaf("ListItemValue", numbers)), MARKER)
    return node("ListItem", prefix, many("flow"))


def footnote(identifiers, *parts):
    """A footnote with one of these identifiers."""
    label = naming("GfmFootnoteDefinitionLabelString", identifiers, *parts)
    return node("GfmFootnoteDefinition", node("GfmFootnoteDefinitionPrefix", label), many("flow"))


def chunks(name):
    return any_of(leaf(name, TEXTS), LINE, BLANK)


ROW = node("GfmTableRow", any_of(node("GfmTableCell", many("phrasing"))))
COLUMN = node("GfmTableDelimiterCellValue", any_of(node("GfmTableDelimiterMarker")))
HEAD = node("GfmTableHead", ROW, LINES, node("GfmTableDelimiterRow", any_of(COLUMN)), LINES)
BODY = node("GfmTableBody", any_of(ROW, LINE))
PLAIN = [
    one("phrasing"), one("phrasing"), BLANK,
    node("Paragraph", many("phrasing")), node("Paragraph", many("phrasing")),
    node("Paragraph", many("strings")), node("ThematicBreak"), node("Frontmatter", LINES)]
CONTAINERS = [
    node("BlockQuote", many("flow")),
    node("ListUnordered", BULLET_ITEM, any_of(BULLET_ITEM, LINE, BLANK)),
    node("ListOrdered", item(NUMBERS), any_of(item(TEXTS), LINE, BLANK)),
    node("HeadingAtx", MARK, any_of(MARK, node("HeadingAtxText", many("phrasing")))),
    of_all(node("HeadingSetextText", many("phrasing")), LINES,
           leaf("HeadingSetextUnderlineSequence", UNDERLINES))]
CODE = [
    node("CodeIndented", chunks("CodeFlowChunk")),
    node("CodeFenced",
         node("CodeFencedFence", perhaps(node("CodeFencedFenceInfo", many("strings"))),
              perhaps(node("CodeFencedFenceMeta", many("strings")))),
         chunks("CodeFlowChunk"), perhaps(node("CodeFencedFence"))),
    node("MathFlow",
         node("MathFlowFence", perhaps(node("MathFlowFenceMeta", many("strings")))),
         chunks("MathFlowChunk"), perhaps(node("MathFlowFence"))),
    node("HtmlFlow", chunks("HtmlFlowData"))]
NOTES = [
    node("GfmTable", HEAD, LINES, perhaps(BODY, LINES)),
    node("Definition", naming("DefinitionLabelString", IDENTIFIERS, many("strings")), LINES,
         perhaps(DESTINATION), LINES, perhaps(TITLE), LINES),
    footnote(IDENTIFIERS, many("strings"))]
FLOW = [*[one("plain")] * 3, *[one("containers")] * 2, *[one("code")] * 2, one("notes")]

# The nodes of each class.
CLASSES = {"strings": STRINGS, "phrasing": PHRASING, "flow": FLOW, "plain": PLAIN,
           "containers": CONTAINERS, "code": CODE, "notes": NOTES}

# A definition and a footnote for each identifier, and the other parts of a document.
DEFINITIONS = [
    *(node("Definition", naming("DefinitionLabelString", [place]), *parts)
      for place, parts in zip(DIFFERENT, [(DESTINATION,), (TITLE,), (DESTINATION, TITLE), ()])),
    *(footnote([place]) for place in DIFFERENT)]
OTHERS = [many("flow")] * 6
