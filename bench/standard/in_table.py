"""The insertion modes of tables, as in InTable."""

from in_body import InBody
from stack import CELLS, MARKER, PARTS, SECTIONS, TABLE_SCOPE, Stuck


class InTable(InBody):
    """What a token does in a table, its parts and its cells."""

    def back_to(self, *names):
        self.pop_while(lambda node: node.name not in ("template", "html") + names)

    def mode_for(self):
        for node in reversed(self.stack):
            if node.name in CELLS:
                return "cell"
            if node.name == "tr":
                return "row"
            if node.name in SECTIONS:
                return "table body"
            if node.name == "table":
                return "table"
        return "body"

    def start_in_table(self, name, attributes):
        if name not in SECTIONS:
            raise Stuck
        self.back_to("table")
        self.insert(name, attributes)
        self.mode = "table body"

    def end_in_table(self, name):
        if name == "table":
            if self.named(TABLE_SCOPE, name):
                self.pop_until(lambda node: node.name == name)
                self.mode = self.mode_for()
        elif name not in PARTS:
            raise Stuck

    def start_in_table_body(self, name, attributes):
        if name != "tr":
            raise Stuck
        self.back_to(*SECTIONS)
        self.insert(name, attributes)
        self.mode = "row"

    def end_in_table_body(self, name):
        if name in SECTIONS:
            if self.named(TABLE_SCOPE, name):
                self.back_to(*SECTIONS)
                self.pop()
                self.mode = "table"
        elif name != "tr" and name not in CELLS:
            raise Stuck

    def start_in_row(self, name, attributes):
        if name not in CELLS:
            raise Stuck
        self.back_to("tr")
        self.insert(name, attributes)
        self.mode = "cell"
        self.active.append(MARKER)

    def end_in_row(self, name):
        if name == "tr":
            if self.named(TABLE_SCOPE, name):
                self.back_to("tr")
                self.pop()
                self.mode = "table body"
        elif name not in CELLS:
            raise Stuck

    def start_in_cell(self, name, attributes):
        if name in PARTS:
            raise Stuck
        self.start_in_body(name, attributes)

    def end_in_cell(self, name):
        if name in CELLS:
            if self.named(TABLE_SCOPE, name):
                self.imply_except("")
                self.pop_until(lambda node: node.name == name)
                while self.active and self.active.pop() is not MARKER:
                    pass
                self.mode = "row"
        elif name in ("table", "tr") or name in SECTIONS:
            if self.named(TABLE_SCOPE, name):
                raise Stuck
        else:
            self.end_in_body(name)

    def character_in_table(self, character):
        if self.stack[-1].name not in ("table", "tbody", "template", "tfoot", "thead", "tr"):
            raise Stuck
        self.mode, self.pending = (self.mode,), character

    character_in_table_body = character_in_row = character_in_table
