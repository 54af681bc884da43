"""The insertion mode "in body", as in InBody."""

from stack import (ANY_SCOPE, BLOCKS, BUTTON_SCOPE, FORMATTING, HEADINGS, IMPLIED, LIST_ITEM_SCOPE,
                   ORDINARY, PARTS, SPECIAL, Stack, Stuck)


class InBody(Stack):
    """What a token does in a body."""

    def imply_except(self, name):
        self.pop_while(lambda node: node.name in IMPLIED and node.name != name)

    def close_p(self):
        if self.named(BUTTON_SCOPE, "p"):
            self.imply_except("p")
            self.pop_until(lambda node: node.name == "p")

    def insert_block(self, name, attributes):
        self.close_p()
        self.insert(name, attributes)

    def has_item(self):
        for node in reversed(self.stack):
            if node.name == "li":
                return True
            if node.name in SPECIAL and node.name not in ("address", "div", "p"):
                return False
        return False

    def insert_formatting(self, name, attributes):
        self.reconstruct()
        self.push(self.created, name, attributes)
        self.insert(name, attributes)

    def insert_void(self, name, attributes):
        self.insert(name, attributes)
        self.pop()

    def start_in_body(self, name, attributes):
        if name in BLOCKS or name == "p":
            self.insert_block(name, attributes)
        elif name in HEADINGS:
            self.close_p()
            if self.stack[-1].name in HEADINGS:
                self.pop()
            self.insert(name, attributes)
        elif name == "pre":
            self.insert_block(name, attributes)
            self.skips = True
        elif name == "li":
            if self.has_item():
                self.imply_except("li")
                self.pop_until(lambda node: node.name == "li")
            self.insert_block(name, attributes)
        elif name == "a":
            if self.last_active("a") is not None:
                raise Stuck
            self.insert_formatting(name, attributes)
        elif name in FORMATTING:
            self.insert_formatting(name, attributes)
        elif name == "table":
            if self.named(BUTTON_SCOPE, "p"):
                raise Stuck
            self.insert(name, attributes)
            self.mode = "table"
        elif name in ("br", "img", "input", "wbr"):
            self.reconstruct()
            self.insert_void(name, attributes)
        elif name == "hr":
            self.close_p()
            self.insert_void(name, attributes)
        elif name in PARTS:
            pass
        elif name in ORDINARY:
            self.reconstruct()
            self.insert(name, attributes)
        else:
            raise Stuck

    def end_in_body(self, name):
        if name in BLOCKS or name == "pre":
            if self.named(ANY_SCOPE, name):
                self.imply_except("")
                self.pop_until(lambda node: node.name == name)
        elif name == "p":
            if self.named(BUTTON_SCOPE, "p"):
                self.close_p()
            else:
                self.insert_void("p", [])
        elif name == "li":
            if self.named(LIST_ITEM_SCOPE, "li"):
                self.imply_except("li")
                self.pop_until(lambda node: node.name == "li")
        elif name in HEADINGS:
            if self.named(ANY_SCOPE, *HEADINGS):
                self.imply_except("")
                self.pop_until(lambda node: node.name in HEADINGS)
        elif name in FORMATTING or name == "a":
            self.end_formatting(name)
        elif name in ORDINARY or name == "table" or name in PARTS:
            self.end_other(name)
        elif name in ("body", "html") and self.mode == "body":
            if self.named(ANY_SCOPE, "body"):
                self.mode = "after after body" if name == "html" else "after body"
        else:
            raise Stuck

    def character_in_body(self, character):
        self.reconstruct()
        self.say(character)

    character_in_cell = character_in_body
