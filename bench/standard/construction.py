"""crates/md_safe/specs once more in Python, by hand: tree construction of tokens, None
if it is stuck.
"""

from around_body import AroundBody
from stack import MARKER, SPACE, Open, Stuck


class Parser(AroundBody):
    """The actions at a token, and at the end of file."""

    def stop(self):
        """The end of file."""
        if self.mode == "text":
            raise Stuck
        if isinstance(self.mode, tuple):
            self.end_table_text()
        if self.mode in ("initial", "before html"):
            self.with_root()
        if self.mode == "before head":
            self.with_head()
        if self.mode == "head":
            self.without_head()
        if self.mode == "after head":
            self.with_body()
        while len(self.stack) > 1:
            self.pop()

    def end_table_text(self):
        if self.pending.strip(SPACE):
            raise Stuck
        for character in self.pending:
            self.say(character)
        self.mode, self.pending = self.mode[0], ""

    def step(self, token):
        kind = token[0]
        if kind == "character":
            skips, self.skips = self.skips, False
            if token[1] == "\0":
                raise Stuck
            if skips and token[1] == "\n":
                return
            if isinstance(self.mode, tuple):
                self.pending += token[1]
                return
        self.skips = False
        if isinstance(self.mode, tuple):
            self.end_table_text()
        getattr(self, kind + "_in_" + self.mode.replace(" ", "_"))(*token[1:])


def built(mode, names, tokens):
    """The children of the innermost of some open elements after these tokens, and the parser."""
    parser = Parser(mode, [Open(i, name, []) for i, name in enumerate(names)])
    if mode == "cell":
        parser.active.append(MARKER)
    try:
        for token in tokens:
            parser.step(token)
    except Stuck:
        return None
    return parser


def document(tokens):
    """The name of the doctype, None if there is none, and the root, for the tokens of a document.
    """
    parser, doctype = Parser("initial", []), None
    try:
        for token in tokens:
            if token[0] == "doctype":
                if parser.mode != "initial" or token[1] != "html":
                    raise Stuck
                parser.mode, doctype = "before html", token[1]
            elif token[0] == "eof":
                parser.stop()
                root = parser.stack[0]
                return doctype, (root.name, root.attributes, root.children)
            else:
                parser.step(token)
    except Stuck:
        return None
    return None
