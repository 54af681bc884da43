#!/usr/bin/env python3
"""Compares the documents that construction.py builds with html5lib's, or with those of
published tests.

    /usr/bin/python3 bench/standard/documents.py COUNT SEED
    /usr/bin/python3 bench/standard/documents.py --browser COUNT SEED
    /usr/bin/python3 bench/standard/documents.py --prove COUNT SEED
    /usr/bin/python3 bench/standard/documents.py --tests FOLDER [--prove]

COUNT random documents: each second one is a page as `md_page` writes it with a text of the content
model of crates/md_safe/specs/Contents.antt without a link in a link, and must be built as its own
document; the others are such pages with any elements anywhere, pages with a few characters
changed, and joined pieces of documents. With --browser they are compared with the results of
chromium's `DOMParser`, and forests of the content model with those of `innerHTML` of a div, a td, a
list's item and a section. FOLDER has tests of tree construction in the format of html5lib's
(`*.dat`). With --prove the definitions themselves are tested: each document under 300 characters,
or each test that tokenizer.py and construction.py aren't stuck on, becomes an equation of a copy of
crates/md_safe, which the prover closes by computing: the tree that is built, or that they are
stuck. Status 1 if a result differs, or if they are stuck on a page of the content model.
"""

import collections
import random
import sys

import tokenizer
import trees
from built import by_browser, by_html5lib, constructed, read, read_own
from pages import made
from proved import answered, equation
from published import CONTEXTS, dumped, tests


def compare(count, seed, is_browser):
    random.seed(seed)
    counts, given = collections.Counter(), []
    for index in range(count):
        kind, text, own = made(index, is_browser)
        ran = tokenizer.run(text.encode())
        built = ran and constructed(ran[0])
        if built is None:
            counts[kind, "stuck"] += 1
        else:
            own = own and (own[0], read_own(own[1]))
            given.append((kind, text, (built[0], read(built[1])), own))
        if len(given) == 5000 or index == count - 1:
            texts_given = [text for _, text, _, _ in given]
            answers = by_browser(texts_given) if is_browser else map(by_html5lib, texts_given)
            for (kind, text, built, own), theirs in zip(given, answers, strict=True):
                theirs = (theirs[0], read_own(theirs[1])) if is_browser else theirs
                is_same = built == theirs and own in (None, built)
                counts[kind, "same" if is_same else "different"] += 1
                if not is_same:
                    print(f"{kind}: {text!r}\n  {built}\n  {theirs}\n  {own}")
            given = []
    if is_browser:
        names = random.choices(["div", "td", "li", "section"], k=count)
        forests = [trees.forest("flow", random.randint(1, 6), 0) for _ in names]
        answers = by_browser([(name, trees.written(nodes))
                              for name, nodes in zip(names, forests, strict=True)])
        for name, nodes, theirs in zip(names, forests, answers, strict=True):
            is_same = trees.own_tree(nodes) == read_own(("", [], theirs))[2]
            counts["inside a " + name, "same" if is_same else "different"] += 1
            if not is_same:
                print(f"inside a {name}: {trees.written(nodes)!r}\n  {theirs}")
    for (kind, told), number in sorted(counts.items()):
        print(f"{kind}: {number} {told}")
    faults = counts["page", "stuck"] + sum(number for (_, told), number in counts.items()
                                           if told == "different")
    print(f"{count} documents of seed {seed}: {faults} faults")
    return 1 if faults else 0


def prove(count, seed):
    """Proves that the definitions have the results of construction.py, for random documents."""
    random.seed(seed)
    made_so, counts = [], collections.Counter()
    while len(made_so) < count:
        kind, text, _ = made(len(made_so), True)
        if len(text) < 300:
            ran = tokenizer.run(text.encode())
            built = (ran and constructed(ran[0])) or None
            counts[kind, "stuck" if built is None else "built"] += 1
            made_so.append(equation(text, None, built))
    for (kind, told), number in sorted(counts.items()):
        print(f"{kind}: {number} {told}", flush=True)
    return 1 if counts["page", "stuck"] else answered(made_so)


def run_tests(folder, is_proved):
    counts, proved = collections.Counter(), []
    for file, text, context, wanted in tests(folder):
        if context is not None and context not in CONTEXTS:
            counts["fragments in other contexts"] += 1
            continue
        try:
            ran = tokenizer.run(text.encode())
        except UnicodeEncodeError:
            ran = None
        built = ran and constructed(ran[0], context is not None)
        if built is None:
            counts["stuck tokenizers" if ran is None else "stuck parsers"] += 1
            continue
        lines = dumped(read(built[1])[2] if context is not None else [read(built[1])], 0)
        if context is None and built[0] is not None:
            lines.insert(0, f"| <!DOCTYPE {built[0]}>")
        while wanted and not wanted[-1]:
            wanted.pop()
        is_same = lines == wanted
        counts["the same" if is_same else "different"] += 1
        if is_same:
            proved.append((text, context, built))
        else:
            print(f"{file}: {text!r}", *lines, "wanted", *wanted, sep="\n  ")
    for told, number in sorted(counts.items()):
        print(f"{number} {told}")
    if counts["different"]:
        return 1
    return answered([equation(*one) for one in proved]) if is_proved else 0


if __name__ == "__main__":
    if sys.argv[1] == "--tests":
        sys.exit(run_tests(sys.argv[2], "--prove" in sys.argv))
    if sys.argv[1] == "--prove":
        sys.exit(prove(int(sys.argv[2]), int(sys.argv[3])))
    sys.exit(compare(int(sys.argv[-2]), int(sys.argv[-1]), "--browser" in sys.argv))
