"""Documents that are broken at one event: that their results are possible ones, and that the
repaired documents have the same results as before.
"""

import re
from collections import Counter

from asking import answers, common_answer, is_refusal, questions, script
from growing import Random, Tree
from trees import OTHER_NAMES

# How many times each tree is broken in each way.
TIMES = 5
# An event is removed; doubled; moved after the next one; has another name; another point.
BREAKS = ["Remove", "Double", "Swap", "Rename", "Move"]
GREATEST = 2**64 - 1
# Points to which events are moved: an index and columns.
PLACES = [(0, 0), (3, 0), (20, 0), (20, 5), (9, 1), (GREATEST, 0), (GREATEST, 1), (999_999_999, 0)]
# The names whose points are read, and one that reads only the point of its entry.
READ = set("""
    HeadingAtxSequence Data CharacterEscapeValue CharacterReferenceValue CodeTextData MathTextData
    CodeFlowChunk MathFlowChunk HtmlFlowData HtmlTextData AutolinkEmail AutolinkProtocol
    GfmAutolinkLiteralEmail GfmAutolinkLiteralMailto GfmAutolinkLiteralProtocol
    GfmAutolinkLiteralWww GfmAutolinkLiteralXmpp LineEnding BlankLineEnding ListItemValue
    DefinitionLabelString GfmFootnoteDefinitionLabelString LabelText ReferenceString""".split())
READ_AT_ENTRY = "HeadingSetextUnderlineSequence"
SAME, OPEN, REFUSED = "the same text", "a text or a refusal", "a refusal alone"


def renamed(event):
    """An event with another name."""
    sign, name, *point = event
    return (sign, "MdxEsm" if name == "Data" else "Data", *point)


def moved(event, to):
    return (*event[:2], *to)


def broken(events, change, place, to):
    """The events with the one at a place broken, which the next one follows."""
    first, second = events[place:place + 2]
    pieces = {"Remove": [second], "Double": [first, first, second], "Swap": [second, first],
              "Rename": [renamed(first), second], "Move": [moved(first, to), second]}
    return events[:place] + pieces[change] + events[place + 2:]


def judged(events, change, place, to, length):
    """The possible results of the list, over a document of a length: only a refusal if the number
    of events is odd, or if a node would end with another name.
    """
    (sign, name, *_), (_, following, *_) = events[place:place + 2]
    if change == "Swap":
        return OPEN if name == following else REFUSED
    if change != "Move":
        return REFUSED
    if name not in READ and (name, sign) != (READ_AT_ENTRY, "+"):
        return SAME
    return REFUSED if to[0] > length else OPEN


def may_refuse(change, place, index, rule):
    """Whether a list that is broken at a place may be refused at this event by this rule.

    The events before the place are unchanged. A definition or a footnote is missed only if the
    order is right.
    """
    if rule in ("Definition", "Footnote"):
        return change in ("Move", "Swap")
    if rule == "Mdx":
        return place <= index and change == "Rename"
    if rule in ("Order", "Target"):
        return place <= index and change != "Move"
    return place <= index


def is_right(answer, verdict, whole, change, place):
    """Whether a list that is broken at a place may have this result, by its verdict."""
    if not is_refusal(answer):
        return verdict == OPEN or (verdict == SAME and answer == whole)
    refused = re.fullmatch(r"! event (\d+): (\w+)", answer.decode())
    return (verdict != SAME and refused is not None
            and may_refuse(change, place, int(refused[1]), refused[2]))


def asked_of(seed):
    """The lists to test for the tree of a seed: the tree itself, then each broken one and the tree
    again. Each has its title, its script, its number of events, how it is broken and where, and its
    possible results.
    """
    tree, random = Tree(seed, [name for name, _ in OTHER_NAMES]), Random(seed ^ 7)
    events, document = tree.events, bytes(tree.document)

    def row(title, some, change=None, place=None, verdict=SAME):
        given = questions(OTHER_NAMES, script([], some, document))
        return f"tree {seed}, {title}", given, len(some), change, place, verdict

    rows = [row("whole", events)]
    for number, change in enumerate(BREAKS * TIMES):
        place, to = random.below(len(events) - 1), random.pick(PLACES)
        verdict = judged(events, change, place, to, len(document))
        end = f" to {to[0]}.{to[1]}" if change == "Move" else ""
        some = broken(events, change, place, to)
        rows.append(row(f"{number} {change} event {place}{end}", some, change, place, verdict))
        rows.append(row(f"{number} mended", events))
    return rows


def faults(rows, said):
    """The faults in the results of the lists of a tree, the first of which is the tree."""
    whole, wrong = common_answer(said[0], rows[0][2]), []
    if whole is None or is_refusal(whole):
        return [f"{rows[0][0]}: {said[0]!r}"]
    for (title, _, events, change, place, verdict), answer in zip(rows, said):
        common = common_answer(answer, events)
        if common is None:
            wrong.append(f"{title}: calls answer otherwise: {answer!r}")
        elif not is_right(common, verdict, whole, change, place):
            wrong.append(f"{title}: wanted {verdict}, answered {common!r}")
    return wrong


def ask(programs, seeds):
    """How many broken lists were tested, how many have a text, and the faults."""
    asked = [asked_of(seed) for seed in seeds]
    said = answers(programs.cases, [row[:2] for rows in asked for row in rows])
    texts, wrong, begun = 0, [], 0
    for rows in asked:
        answered = said[begun:begun + len(rows)]
        wrong += faults(rows, answered)
        texts += sum(row[3] is not None and b"! event" not in answer
                     for row, answer in zip(rows, answered))
        begun += len(rows)
    lists = sum(row[3] is not None for rows in asked for row in rows)
    return Counter({"broken lists": lists, "of those with a text": texts}), wrong
