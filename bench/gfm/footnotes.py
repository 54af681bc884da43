"""The calls of footnotes: which footnotes are shown, and how often each is called.

A footnote is its number in the document. One that nothing calls is dropped, and so is one that only
dropped ones call; a call in a dropped one is text. Of two with the same label the one is shown that
ends first.
"""

from typing import NamedTuple, Optional


class Call(NamedTuple):
    """A call: the footnote that contains it, if one does, and the footnote that it calls."""

    caller: Optional[int]
    footnote: int


class Note(NamedTuple):
    """A footnote that is shown: the form of its label, its HTML, and how often it is called."""

    form: str
    html: bytes
    calls: int


class Footnotes:
    """The footnotes and calls of a document, as they are printed one after another."""

    def __init__(self, forms, dropped=frozenset()):
        """With the forms of all labels, and the footnotes that are dropped."""
        self.first = {}
        for number, form in enumerate(forms):
            self.first.setdefault(form, number)
        self.count = len(forms)
        self.dropped = dropped
        self.begun = 0
        self.open = []
        self.calls = []
        self.counts = {}
        self.html = {}

    def enter(self, form):
        """Enters the next footnote; inside the first one with its label it stands for that."""
        first = self.first[form]
        self.open.append(first if first in self.open else self.begun)
        self.begun += 1

    def exit(self, form, html):
        """Exits the innermost footnote, whose HTML is known now."""
        self.open.pop()
        self.html.setdefault(form, html)

    def is_dropped(self):
        """Whether what is printed belongs to a dropped footnote."""
        return bool(self.open) and self.open[-1] in self.dropped

    def called(self, form):
        """Records a call; the number of its footnote among those called, and of the call."""
        self.calls.append(Call(self.open[-1] if self.open else None, self.first[form]))
        self.counts[form] = self.counts.get(form, 0) + 1
        return list(self.counts).index(form) + 1, self.counts[form]

    def uncalled(self):
        """The footnotes that nothing calls, or only such footnotes."""
        dropped, last = frozenset(), None
        while dropped != last:
            called = {call.footnote for call in self.calls if call.caller not in dropped}
            dropped, last = frozenset(range(self.count)) - called, dropped
        return dropped

    def shown(self):
        """The footnotes that are called, in the order of their first calls."""
        return [Note(form, self.html[form], calls) for form, calls in self.counts.items()]
