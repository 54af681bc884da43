"""The cases of the group `cuts`: scripts that are cut at each byte, and one with each event
left out or twice.

What a cut script answers is found by a reader of lines written for these scripts alone: the first
line that can't be read, else the first place past the document's end, else the meaning. The first
event out of order is found by a walk over the order of names in the table. To cut another script,
add it to `sections`; to take another name into the table, give it a pattern in PATTERNS.
`bench/cases.py` makes the cases.
"""
import re

from footnotes import call, footnote, footnote_after_a_blank_line
from meaning import meaning
from prose import blank_line, data, ending, paragraph, thematic_break
from tables import table
from trees import Case, Document, events, placed, script

LINE = re.compile(rb"[+-][A-Za-z]+ [0-9]{1,9}")
READ = ("Data", "LineEnding", "BlankLineEnding", "LabelText", "GfmFootnoteDefinitionLabelString")
STRING = ("Data", "LineEnding")
PHRASING = (*STRING, "GfmFootnoteCall")
FLOW = (*PHRASING, "BlankLineEnding", "Paragraph", "GfmTable", "GfmFootnoteDefinition")
MANY, ONCE, MAYBE = "many", "once", "maybe"
ENDINGS = (MANY, ("LineEnding",))
PATTERNS = {
    "Document": [(MANY, FLOW)],
    "GfmTable": [(ONCE, ("GfmTableHead",)), ENDINGS, (MAYBE, ("GfmTableBody",)), ENDINGS],
    "GfmTableHead": [(ONCE, ("GfmTableRow",)), ENDINGS, (ONCE, ("GfmTableDelimiterRow",)), ENDINGS],
    "GfmTableBody": [(MANY, ("GfmTableRow", "LineEnding"))],
    "GfmTableRow": [(MANY, ("GfmTableCell",))],
    "GfmTableCell": [(MANY, PHRASING)],
    "GfmTableDelimiterRow": [(MANY, ("GfmTableDelimiterCellValue",))],
    "GfmTableDelimiterCellValue": [(MANY, ("GfmTableDelimiterMarker",))],
    "GfmFootnoteCall": [(ONCE, ("Label",))],
    "Label": [(MANY, PHRASING), (ONCE, ("LabelText",)), (MANY, PHRASING)],
    "LabelText": [(MANY, PHRASING)],
    "GfmFootnoteDefinition": [(ONCE, ("GfmFootnoteDefinitionPrefix",)), (MANY, FLOW)],
    "GfmFootnoteDefinitionPrefix": [(ONCE, ("GfmFootnoteDefinitionLabelString",))],
    "GfmFootnoteDefinitionLabelString": [(MANY, STRING)],
    "Paragraph": [(MANY, PHRASING)],
    "Data": [], "LineEnding": [], "BlankLineEnding": [],
}


def first_unreadable(source):
    """The number of the first line before `--` that can't be read, or None."""
    lines = source.split(b"\n")
    for number, line in enumerate(lines, 1):
        if line == b"--":
            return None
        if not LINE.fullmatch(line):
            return number
    return len(lines) + 1


def first_past(lines, size):
    """The index of the first event that exits a node whose text is read, past the
    document's end, or None.
    """
    for index, line in enumerate(lines):
        name, end = line[1:].split(" ")
        if line.startswith("-") and name in READ and int(end) > size:
            return index
    return None


def after(pattern, place, name):
    """The place in a pattern after a name, or None."""
    for at in range(place, len(pattern)):
        kind, names = pattern[at]
        if name in names:
            return at if kind == MANY else at + 1
        if kind == ONCE:
            return None
    return None


def may_end(pattern, place):
    return all(kind != ONCE for kind, _ in pattern[place:])


def first_out_of_order(lines):
    """The index of the first event that no tree of these patterns has after those before it."""
    open_nodes = [["Document", 0]]
    for index, line in enumerate(lines):
        name = line[1:].split(" ")[0]
        above, place = open_nodes[-1]
        if line.startswith("+"):
            following = after(PATTERNS[above], place, name)
            if following is None:
                return index
            open_nodes[-1][1] = following
            open_nodes.append([name, 0])
        elif above == name and may_end(PATTERNS[name], place):
            open_nodes.pop()
        else:
            return index
    return len(lines)


def answer(document, source):
    """What a script of this document answers that is cut to these bytes."""
    unreadable = first_unreadable(source)
    if unreadable is not None:
        return f"! line {unreadable}: unreadable"
    cut = Document(document.nodes, source.partition(b"\n--\n")[2])
    past = first_past(events(cut.nodes), len(cut.source))
    return meaning(cut, {}) if past is None else f"! event {past}: Place"


def cut_at(name, document, at):
    source = script(document, {})[:at]
    return Case(f"cuts: {name} cut at byte {at}", source, answer(document, source).encode())


def changed(document):
    """The cases of a document with each event left out, and twice."""
    lines, made = events(document.nodes), []
    for index, line in enumerate(lines):
        for title, others in ((f"without event {index}", []),
                              (f"with event {index} twice", [line, line])):
            some = lines[:index] + others + lines[index + 1:]
            source = "\n".join(some + ["--", ""]).encode() + document.source
            made.append(Case(f"cuts: table {title}", source,
                             f"! event {first_out_of_order(some)}: Order".encode()))
    return made


def sections():
    """The runs of cases that this makes, each by what its titles begin with."""
    rule = placed(thematic_break())
    note = placed(*footnote_after_a_blank_line())
    dropped = placed(table(data("b"), call(data("c"))), ending(), blank_line(),
                     footnote(data("c"), paragraph(data("d"))))
    whole = script(note, {})
    # That a script may end with `--` is shown by the break, and its document is the same
    # at the next byte.
    bare = whole.index(b"\n--\n") + len(b"\n--")
    return {"cuts": [
        *[cut_at("break", rule, at) for at in range(len(script(rule, {})) + 1)],
        *[cut_at("footnote", note, at) for at in range(len(whole)) if at != bare],
        Case("cuts: footnote", whole, answer(note, whole).encode()),
        *changed(dropped),
    ]}
