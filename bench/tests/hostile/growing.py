"""Generates random trees of the grammar, as their events and the bytes of their documents.
"""

from grammar import (CLASSES, DEFINITIONS, END, MARKS, OTHERS, PREAMBLE, WRAPPERS)

# The maximum number of nodes of a tree in addition to the required ones.
ROOM = 60
# Bytes that belong to no text, most of them not UTF-8.
JUNK = [b"\xff", b"\xc3\x28", b"\n", b"\xf0\x9f"]
# Indices of points that aren't read.
FAR = [0, 7, 999_999_999]


class Random:
    """Numbers that look random and are the same in each run."""

    def __init__(self, seed):
        self.state = seed

    def below(self, limit):
        """A number below a limit, or 0 where the limit is 0."""
        self.state = (self.state * 6_364_136_223_846_793_005
                      + 1_442_695_040_888_963_407) % 2**64
        return (self.state >> 33) % max(limit, 1)

    def once_in(self, times):
        """True once in so many times."""
        return self.below(times) == 0

    def pick(self, items):
        return items[self.below(len(items))]


class Tree:
    """The events of a tree, each a sign, a name, an index and columns, and its document."""

    def __init__(self, seed, references):
        self.events = []
        self.document = bytearray(PREAMBLE.encode())
        self.references = references
        self.random = Random(seed)
        # The pending parts, the next one last, and the ends of the open nodes.
        self.parts = []
        self.ends = []
        self.room = ROOM
        is_defined_first = self.random.once_in(2)
        self.plan([*DEFINITIONS, *OTHERS] if is_defined_first else [*OTHERS, *DEFINITIONS])
        while self.parts:
            self.step(self.parts.pop())

    def plan(self, parts):
        """Plans some parts, the first of them next."""
        self.parts.extend(reversed(parts))

    def step(self, part):
        if part == END:
            self.end()
        elif self.random.once_in(12):
            self.wrap(part)
        else:
            getattr(self, f"grow_{part[0]}")(part)

    def end(self):
        """Ends the innermost open node, whose last child may be a transparent node, if any may.
        """
        name, index, columns = self.ends.pop()
        if name not in ("LineEnding", "BlankLineEnding") and self.random.once_in(16):
            (start, before), (end, after) = self.free_places()
            self.events += [("+", "SpaceOrTab", start, before), ("-", "SpaceOrTab", end, after)]
        self.events.append(("-", name, index, columns))

    def wrap(self, part):
        """Adds a transparent node before a part, around it, or around it and the next one.
        """
        self.open(self.random.pick(WRAPPERS), self.free_places())
        way = self.random.below(3)
        following = [self.parts.pop()] if way == 2 and self.parts else []
        self.plan([END, part] if way == 0 else [part, *following, END])

    def open(self, name, places, parts=None):
        """Starts a node, and plans its parts, if they are given, and its end."""
        (start, before), end = places
        self.ends.append((name, *end))
        self.events.append(("+", name, start, before))
        if parts is not None:
            self.plan([*parts, END])

    def grow_node(self, part):
        name, parts = part[1]
        self.open(name, self.free_places(), parts)

    def grow_naming(self, part):
        name, identifiers, parts = part[1]
        start, end = self.random.pick(identifiers)
        self.open(name, ((start, self.random.below(9)), (end, self.random.below(9))), parts)

    def grow_leaf(self, part):
        name, texts = part[1]
        text = self.random.pick(texts)
        self.leaf(name, text, self.columns(), self.columns())

    def grow_reference(self, _):
        self.leaf("CharacterReferenceValue", self.random.pick(self.references), 0, 0)

    def grow_mark(self, _):
        self.leaf("HeadingAtxSequence", *self.random.pick(MARKS))

    def grow_all(self, part):
        self.plan(part[1])

    def grow_perhaps(self, part):
        if self.random.once_in(2):
            self.plan(part[1])

    def grow_one(self, part):
        self.parts.append(self.random.pick(CLASSES[part[1]]))

    def grow_many(self, part):
        self.repeat(part, CLASSES[part[1]])

    def grow_any(self, part):
        self.repeat(part, part[1])

    def repeat(self, part, parts):
        """Plans one of some parts, and the part itself again, while the tree may grow."""
        if self.room and not self.random.once_in(3):
            self.room -= 1
            self.parts += [part, self.random.pick(parts)]

    def leaf(self, name, text, before, after):
        """A node with a text that is cut so many columns after the beginning of a tab at its start
        and at its end, perhaps after bytes that belong to no text.
        """
        if self.random.once_in(5):
            self.document += self.random.pick(JUNK)
        start = len(self.document)
        # The tab whose columns are taken, whatever the byte is.
        self.document += (b"\xff" if before else b"") + text.encode()
        end = len(self.document)
        last = (end - 1, after) if after and text else (end, 0)
        self.open(name, ((start, before), last), [])

    def columns(self):
        """How many columns of a tab precede a point: mostly none."""
        return self.random.below(5) if self.random.once_in(4) else 0

    def free_places(self):
        """Points that aren't read, mostly inside the document."""
        return self.free_point(), self.free_point()

    def free_point(self):
        index = self.random.pick(FAR) if self.random.once_in(4) else len(self.document)
        return index, self.random.below(1000) if self.random.once_in(4) else 0
