"""crates/md_safe/specs once more in Python, by hand: the stack of open elements and the list of
active formatting elements, as in Stack and Formatting.
"""

SPECIAL = set("address applet area article aside base basefont bgsound blockquote body br".split())
SPECIAL |= set("button caption center col colgroup dd details dir div dl dt embed fieldset".split())
SPECIAL |= set("figcaption figure footer form frame frameset h1 h2 h3 h4 h5 h6 head header".split())
SPECIAL |= set("hgroup hr html iframe img input keygen li link listing main marquee menu".split())
SPECIAL |= set("meta nav noembed noframes noscript object ol p param plaintext pre script".split())
SPECIAL |= set("search section select source style summary table tbody td template".split())
SPECIAL |= {"textarea"}
SPECIAL |= set("tfoot th thead title tr track ul wbr xmp".split())
ANY_SCOPE = set("applet caption html table td th marquee object select template".split())
LIST_ITEM_SCOPE = ANY_SCOPE | {"ol", "ul"}
BUTTON_SCOPE = ANY_SCOPE | {"button"}
TABLE_SCOPE = {"html", "table", "template"}
IMPLIED = set("dd dt li optgroup option p rb rp rt rtc".split())
HEADINGS = set("h1 h2 h3 h4 h5 h6".split())
BLOCKS = set("blockquote ol section ul div details summary figure figcaption".split())
FORMATTING = set("code em strong b i u s small".split())
ORDINARY = set("del sup sub span kbd samp var q cite abbr dfn ins mark".split())
SECTIONS, CELLS = {"tbody", "thead", "tfoot"}, {"td", "th"}
PARTS = {"tr"} | CELLS | SECTIONS
CLOSING = {"body", "html", "br"}
SPACE = "\t\n\x0c\r "
MARKER = None


class Stuck(Exception):
    """A transition that isn't written out."""


class Open:
    def __init__(self, identity, name, attributes):
        self.identity, self.name, self.attributes, self.children = identity, name, attributes, []


class Stack:
    """The current node and the last entry come last here."""

    def __init__(self, mode, stack):
        self.mode, self.stack, self.active, self.created = mode, stack, [], 100
        self.pending, self.skips, self.original = "", False, None

    def has(self, ends, test):
        for node in reversed(self.stack):
            if test(node):
                return True
            if node.name in ends:
                return False
        return False

    def named(self, ends, *names):
        return self.has(ends, lambda node: node.name in names)

    def pop(self):
        if len(self.stack) > 1:
            node = self.stack.pop()
            self.stack[-1].children.append((node.name, node.attributes, node.children))

    def pop_while(self, test):
        while test(self.stack[-1]):
            self.pop()

    def pop_until(self, test):
        while True:
            found = test(self.stack[-1])
            self.pop()
            if found:
                return

    def insert(self, name, attributes):
        self.stack.append(Open(self.created, name, attributes))
        self.created += 1

    def say(self, character):
        children = self.stack[-1].children
        if children and isinstance(children[-1], str):
            children[-1] += character
        else:
            children.append(character)

    # the list of active formatting elements

    def is_open(self, identity):
        return any(node.identity == identity for node in self.stack)

    def reconstruct(self):
        if self.active and self.active[-1] is not MARKER and not self.is_open(self.active[-1][0]):
            raise Stuck

    def after_marker(self):
        entries = []
        for entry in reversed(self.active):
            if entry is MARKER:
                break
            entries.append(entry)
        return entries

    def push(self, identity, name, attributes):
        same = [e for e in self.after_marker()
                if e[1] == name and sorted(e[2]) == sorted(attributes)]
        if len(same) > 2:
            self.active.remove(same[-1])
        self.active.append((identity, name, attributes))

    def last_active(self, name):
        return next((e[0] for e in self.after_marker() if e[1] == name), None)

    def without(self, identity):
        self.active = [e for e in self.active if e is MARKER or e[0] != identity]

    def end_other(self, name):
        if self.stack[-1].name == name:
            self.pop()
        elif self.stack[-1].name not in SPECIAL:
            raise Stuck

    def end_formatting(self, name):
        node = self.stack[-1]
        if node.name == name and not any(e is not MARKER and e[0] == node.identity
                                         for e in self.active):
            return self.pop()
        identity = self.last_active(name)
        if identity is None:
            return self.end_other(name)
        is_it = lambda node: node.identity == identity
        if not self.is_open(identity):
            return self.without(identity)
        if not self.has(ANY_SCOPE, is_it):
            return None
        at = max(i for i, node in enumerate(self.stack) if is_it(node))
        if any(node.name in SPECIAL for node in self.stack[at:]):
            raise Stuck
        self.pop_until(is_it)
        return self.without(identity)
