"""Random trees: each is a document, and its text under the safe options is HTML whose links have
permitted protocols.
"""

from collections import Counter

from asking import (SCRIPT_NAMES, answers, common_answer, is_refusal, is_told_otherwise, questions,
                    script)
from growing import Random, Tree
from reading import has_distinct_ids, is_html

# A table with repeated names, of which the first counts, and with an empty one.
OTHER_NAMES = [("", "javascript:"), ("x", "<"), ("amp", "\0"), ("x", "2"), ("", ""),
               ("quot", '"'), ("colon", ":"), ("amp", "&")]
# Texts of options; none is chosen as often as any of them together.
TEXTS = ["", "a", '<"&>', "\0", "javascript:x", "' id='"]
NUMBER_IDS = "!gfm_footnote_number_ids"
SAFE_FLAGS = ["!gfm_task_list_item_checkable", "!gfm_tagfilter", NUMBER_IDS]
SAFE_TEXTS = ["!gfm_footnote_back_label", "!gfm_footnote_clobber_prefix", "!gfm_footnote_label"]
UNSAFE_FLAGS = ["!allow_any_img_src", "!allow_dangerous_html", "!allow_dangerous_protocol"]
UNSAFE_TEXTS = ["!gfm_footnote_label_attributes", "!gfm_footnote_label_tag_name"]


def chosen(random, flags, texts):
    """The lines of some of these options, each set half of the time."""
    return ([flag for flag in flags if random.once_in(2)]
            + [f"{option}={random.pick(TEXTS)}" for option in texts if random.once_in(2)])


def choices(seed):
    """The options for compiling a tree, and whether they are safe: the default ones, safe ones, and
    the same with some that aren't.
    """
    random = Random(seed)
    ending = f"!default_line_ending={random.pick(['lf', 'cr', 'crlf'])}"
    safe = [ending, *chosen(random, SAFE_FLAGS, SAFE_TEXTS)]
    return [([], True), (safe, True), (safe + chosen(random, UNSAFE_FLAGS, UNSAFE_TEXTS), False)]


def fault(text, options, is_safe):
    """The faults of a text under these options."""
    if text is None or is_told_otherwise(text):
        return "calls answer otherwise"
    if is_refusal(text):
        return f"refused: {text.decode()}"
    try:
        html = text.decode()
    except UnicodeDecodeError:
        return "no UTF-8"
    if is_safe and not is_html(html):
        return f"not read: {html!r}"
    if is_safe and NUMBER_IDS in options and not has_distinct_ids(html):
        return f"two ids are equal: {html!r}"
    return None


def ask(programs, seeds):
    """How many trees and texts were tested, and the faults."""
    rows = []
    for seed in seeds:
        for names in (None, OTHER_NAMES):
            tree = Tree(seed, SCRIPT_NAMES if names is None else [name for name, _ in names])
            for options, is_safe in choices(seed):
                title = f"tree {seed}{' with other names' if names else ''}; {' '.join(options)!a}"
                given = script(options, tree.events, bytes(tree.document))
                rows.append((title, names, given, options, is_safe, len(tree.events)))
    said = answers(programs.cases, [(title, given if names is None else questions(names, given))
                                    for title, names, given, *_ in rows])
    wrong = []
    for (title, names, _, options, is_safe, events), answer in zip(rows, said):
        text = answer if names is None else common_answer(answer, events)
        found = fault(text, options, is_safe)
        wrong += [f"{title}: {found}"] if found else []
    return Counter({"trees": 2 * len(seeds), "texts of these": len(rows)}), wrong
