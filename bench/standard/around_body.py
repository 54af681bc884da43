"""The insertion modes before the body and after it, as in AroundBody."""

from in_table import InTable
from stack import CLOSING, SPACE, Stuck


class AroundBody(InTable):
    """What a token does outside the body, in a title too."""

    def enter(self, mode, name, attributes):
        self.mode = mode
        self.insert(name, attributes)

    def leave(self, mode):
        self.mode = mode
        self.pop()

    def with_root(self):
        self.enter("before head", "html", [])

    def with_head(self):
        self.enter("head", "head", [])

    def without_head(self):
        self.leave("after head")

    def with_body(self):
        self.enter("body", "body", [])

    def start_in_after_head(self, name, attributes):
        if name == "body":
            return self.enter("body", name, attributes)
        self.with_body()
        return self.start_in_body(name, attributes)

    def start_in_head(self, name, attributes):
        if name == "meta":
            return self.insert_void(name, attributes)
        if name == "title":
            self.original = self.mode
            return self.enter("text", name, attributes)
        self.without_head()
        return self.start_in_after_head(name, attributes)

    def start_in_before_head(self, name, attributes):
        if name == "head":
            return self.enter("head", name, attributes)
        self.with_head()
        return self.start_in_head(name, attributes)

    def start_in_before_html(self, name, attributes):
        if name == "html":
            return self.enter("before head", name, attributes)
        self.with_root()
        return self.start_in_before_head(name, attributes)

    start_in_initial = start_in_before_html

    def start_in_after_body(self, name, attributes):
        self.mode = "body"
        self.start_in_body(name, attributes)

    start_in_after_after_body = start_in_after_body

    def end_in_after_head(self, name):
        if name in CLOSING:
            self.with_body()
            self.end_in_body(name)

    def end_in_head(self, name):
        if name == "head":
            self.without_head()
        elif name in CLOSING:
            self.without_head()
            self.end_in_after_head(name)

    def end_in_text(self, _name):
        self.leave(self.original)

    def end_in_before_head(self, name):
        if name == "head" or name in CLOSING:
            self.with_head()
            self.end_in_head(name)

    def end_in_before_html(self, name):
        if name == "head" or name in CLOSING:
            self.with_root()
            self.end_in_before_head(name)

    def end_in_initial(self, name):
        self.mode = "before html"
        self.end_in_before_html(name)

    def end_in_after_after_body(self, name):
        self.mode = "body"
        self.end_in_body(name)

    def end_in_after_body(self, name):
        if name == "html":
            self.mode = "after after body"
        else:
            self.end_in_after_after_body(name)

    def start_in_text(self, _name, _attributes):
        raise Stuck

    def character_in_after_head(self, character):
        if character in SPACE:
            return self.say(character)
        self.with_body()
        return self.character_in_body(character)

    def character_in_head(self, character):
        if character in SPACE:
            return self.say(character)
        self.without_head()
        return self.character_in_after_head(character)

    def character_in_text(self, character):
        self.say(character)

    def character_in_before_head(self, character):
        if character not in SPACE:
            self.with_head()
            self.character_in_head(character)

    def character_in_before_html(self, character):
        if character not in SPACE:
            self.with_root()
            self.character_in_before_head(character)

    def character_in_initial(self, character):
        if character not in SPACE:
            self.mode = "before html"
            self.character_in_before_html(character)

    def character_in_after_body(self, character):
        if character not in SPACE:
            self.mode = "body"
        self.character_in_body(character)

    character_in_after_after_body = character_in_after_body
