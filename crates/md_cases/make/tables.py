"""Tables: how they are written, what they mean, and their rows of `flags` and `attacks`."""
from nodes import NEEDED, first, meaning_of, spine
from prose import MARKUP, data, ending
from trees import AtEnd, node


def cell(*parts):
    return node("GfmTableCell", *parts)


def row(*parts):
    return node("GfmTableRow", *parts)


def head(*parts):
    return node("GfmTableHead", *parts)


def delimiter(*parts):
    """The delimiter row of a table with one column."""
    return node("GfmTableDelimiterRow", "|", node("GfmTableDelimiterCellValue", *parts), "|")


def body(*parts):
    return node("GfmTableBody", *parts)


def table(kept, dropped):
    """A table of one column with `a` in its head, and a row of two cells, of which the
    second is dropped.
    """
    return node("GfmTable", head(row(cell("|", data("a"), "|")), ending(), delimiter("-")),
                ending(), body(row(cell("|", kept), cell("|", dropped, "|"))))


def aligned(value):
    """The attribute of a column, by whether the first and the last child of its delimiter's
    value is a marker.
    """
    marks = [bool(value.children) and value.children[at].name == "GfmTableDelimiterMarker"
             for at in (0, -1)]
    side = {(True, True): "center", (True, False): "left", (False, True): "right"}.get(tuple(marks))
    return f' align="{side}"' if side else ""


class Tables:
    """What tables mean, for `Meaning`."""

    @meaning_of("GfmTable")
    def table(self, node, around):
        delimiters = spine(first(first(node, "GfmTableHead"), "GfmTableDelimiterRow"))
        self.columns = [aligned(one) for one in delimiters
                        if one.name == "GfmTableDelimiterCellValue"]
        return [NEEDED, "<table>", *self.all(node.children, around._replace(table=True)), NEEDED,
                "</table>"]

    @meaning_of("GfmTableHead")
    def table_head(self, node, around):
        return [NEEDED, "<thead>", *self.all(node.children, around._replace(head=True)), NEEDED,
                "</thead>"]

    @meaning_of("GfmTableDelimiterRow")
    def table_delimiter(self, node, around):
        return []

    @meaning_of("GfmTableBody")
    def table_body(self, node, around):
        return ["<tbody>", *self.all(node.children, around), NEEDED, "</tbody>"]

    @meaning_of("GfmTableRow")
    def table_row(self, node, around):
        tag, pieces = "th" if around.head else "td", []
        cells = [self.captured([one], around) for one in spine(node) if one.name == "GfmTableCell"]
        for column, attribute in enumerate(self.columns):
            text = cells[column] if column < len(cells) else ""
            pieces += [NEEDED, f"<{tag}{attribute}>{text}</{tag}>"]
        return [NEEDED, "<tr>", *pieces, NEEDED, "</tr>"]

    @meaning_of("GfmTableCell")
    def table_cell(self, node, around):
        return self.all(node.children, around)


def rows():
    """A row of `flags::plain`: the delimiter contains a transparent node."""
    marked = row(cell("|", data(MARKUP)), "|")
    return [("cells", "", [node("GfmTable", head(marked, ending(), delimiter(node("Other1", "-"))),
                                ending(), body(marked))])]


def ways_read(nodes):
    """Ways of `attacks`, of nodes that are data and references."""
    return [("cell", [], [node("GfmTable", head(row(cell(*nodes)), AtEnd(delimiter())))])]
