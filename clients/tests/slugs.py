#!/usr/bin/env python3
"""Compares the ids that the library makes from headings' texts with an implementation of GitHub's
rule by Python's tables of Unicode: for each character, and for many texts with equal slugs.

    BIVDRAZO_LIBRARY=.. PYTHONPATH=clients/python slugs.py
"""

import random
import sys
import unicodedata

from bivdrazo import markdown_with_headings
from bivdrazo.markdown import quoted

SEED = 20261128
KEPT = {"L", "M", "N"}


def slug(text):
    """A text in lower case, with only letters, marks, numbers, connectors, spaces and hyphens."""
    lower = "".join(each.lower() for each in text)
    kept = (each for each in lower if each in " -" or unicodedata.category(each) == "Pc"
            or unicodedata.category(each)[0] in KEPT)
    return "".join(kept).replace(" ", "-")


def ids_of(texts, prefix):
    """An id for each text: where it is taken, with the next free number behind it."""
    taken, tried, found = set(), {}, []
    for text in texts:
        base = made = prefix + slug(text) or "section"
        while made in taken:
            tried[base] = tried.get(base, 0) + 1
            made = f"{base}-{tried[base]}"
        taken.add(made)
        found.append(made)
    return found


def check(texts, prefix=""):
    """Whether the library makes the same ids."""
    document = "".join(f"# {quoted(text)}\n" for text in texts)
    html, headings = markdown_with_headings(document, prefix, heading_slugs=True,
                                            bare_links=False, footnotes=False)
    made, wanted = [heading.id for heading in headings], ids_of(texts, prefix)
    for text, one, other in zip(texts, made, wanted):
        assert one == other, f"{text!r}: {one!r}, not {other!r}"
    assert len(made) == len(wanted) == len(set(made)), (len(made), len(wanted))
    return len(made)


def main():
    """Each character that Python's tables have, and random texts of few words."""
    known = [chr(code) for code in range(0x20, 0x110000)
             if unicodedata.category(chr(code)) not in ("Cn", "Cs", "Cc")]
    count = 0
    for start in range(0, len(known), 5000):
        count += check([f"x{each}y" for each in known[start:start + 5000]])
    rng = random.Random(SEED)
    words = ["a", "A", "a-1", "a-1-1", "1", "b c", "?", "É", "e\u0301", "&amp;", "<b>", "_", "-"]
    for turn in range(300):
        texts = ["".join(rng.choices(words, k=rng.randint(1, 3))).strip() or "a"
                 for _ in range(rng.randint(1, 80))]
        count += check([text.strip("# ") or "a" for text in texts], rng.choice(["", "p-", "a"]))
    print(f"slugs: {count} ids as by Python's Unicode {unicodedata.unidata_version}")


if __name__ == "__main__":
    sys.exit(main())
