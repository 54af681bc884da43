"""Every list of a few events of four names, judged by a walk of its own."""

import itertools
import re
from collections import Counter

from asking import answers, is_refusal, is_told_otherwise, script, told

# The events in the lists, and the maximum length of a list.
NAMES = ["Paragraph", "Emphasis", "BlockQuote", "ThematicBreak"]
CHOICES = [(sign, name, 0, 0) for name in NAMES for sign in "+-"]
GREATEST = 4
# The counted lists, and how many have a text.
LISTS, WITH_TEXT = "lists of few events", "of these with a text"
TEXTS = 27
# The maximum length of a list that `mdevents` compiles too, in a process for each.
SERVED = 3
# The names that each name, and the document, may contain.
INSIDE = {None: NAMES, "BlockQuote": NAMES, "Paragraph": ["Emphasis"], "Emphasis": ["Emphasis"],
          "ThematicBreak": []}


def lists(length):
    """Each list of so many events."""
    return itertools.product(CHOICES, repeat=length)


def fault(events):
    """The index of the first event that is out of order, or the number of events if nodes are open
    at the end; None if there is no fault.
    """
    open_names = []
    for index, (sign, name, _, _) in enumerate(events):
        around = open_names[-1] if open_names else None
        if sign == "+" and name in INSIDE[around]:
            open_names.append(name)
        elif sign == "-" and name == around:
            open_names.pop()
        else:
            return index
    return len(events) if open_names else None


def is_right(answer, first):
    """Whether a list with this first fault may have this result: it has a text exactly if it has no
    fault.
    """
    refused = re.fullmatch(rb"! event (\d+): Order", answer)
    if first is None:
        return not is_refusal(answer) and not is_told_otherwise(answer)
    return refused is not None and first <= int(refused[1])


def titled(events):
    return "list " + " ".join(sign + name for sign, name, _, _ in events)


def ask(programs, length):
    """How many lists of a length were tested, how many have a text, and the faults."""
    asked = [(titled(events), events) for events in lists(length)]
    scripts = [(title, script([], events, b"")) for title, events in asked]
    said = answers(programs.cases, scripts)
    wrong = [f"{title}: {answer!r}" for (title, events), answer in zip(asked, said)
             if not is_right(answer, fault(events))]
    if length <= SERVED:
        wrong += [f"{title}: mdevents answers otherwise"
                  for (title, given), answer in zip(scripts, said)
                  if told(given, programs.mdevents) != answer]
    texts = sum(not is_refusal(answer) for answer in said)
    return Counter({LISTS: len(asked), WITH_TEXT: texts}), wrong
