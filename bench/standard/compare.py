#!/usr/bin/env python3
"""Compares tokenizer.py with html5lib's tokenizer and with node's `URL`, over texts and
URLs of texts.py.

    /usr/bin/python3 bench/standard/compare.py [TEXTS] [URLS] [SEED]

It fails, with status 1, if a result differs and tokenizer.py isn't stuck, or if it is stuck on a
text of the grammar or a page.
"""

import collections
import random
import sys

import outside
import texts
import tokenizer


def compare_texts(count, made_by):
    """How many texts of each kind have the same result, are stuck, or have different results."""
    counts = collections.Counter()
    for _ in range(count):
        kind, text = texts.text(made_by, 3)
        ours = tokenizer.run(text.encode())
        if ours is None:
            counts[kind, "stuck"] += 1
            continue
        is_fragment = "page" not in kind and made_by.random() < 0.5
        is_same = ours[0] == outside.tokens(text, is_fragment)
        counts[kind, "same" if is_same else "different"] += 1
        if not is_same:
            print(f"different: {text!r}\n  {ours[0]}\n  {outside.tokens(text, is_fragment)}")
    return counts


def compare_urls(count, made_by):
    """How many URLs of each kind have the same scheme by both, or none by both, or are
    refused, or differ.
    """
    made = [texts.url(made_by) for _ in range(count)]
    counts = collections.Counter()
    for (kind, url), theirs in zip(made, outside.schemes([url for _, url in made]), strict=True):
        ours = (tokenizer.scheme_of(url.encode()) or b"").decode()
        told = ("refused by node" if theirs == "?" else "different" if ours != theirs
                else "a scheme" if ours else "none")
        counts[kind, told] += 1
        if told == "different":
            print(f"different: {url!r}: {ours!r}, {theirs!r}")
    return counts


def main():
    count, urls, seed = (int(given)
                         for given in [*sys.argv[1:],
                                       *["100000", "100000", "1"][len(sys.argv) - 1 :]])
    made_by = random.Random(seed)
    of_texts, of_urls = compare_texts(count, made_by), compare_urls(urls, made_by)
    for name, counts in ("texts", of_texts), ("URLs", of_urls):
        for (kind, told), number in sorted(counts.items()):
            print(f"{name}, {kind}: {number} {told}")
    faults = sum(number for (_, told), number in (of_texts + of_urls).items()
                 if told == "different")
    faults += of_texts["grammar", "stuck"] + of_texts["page", "stuck"]
    print(f"{count} texts and {urls} URLs of seed {seed}: {faults} faults")
    sys.exit(1 if faults else 0)


if __name__ == "__main__":
    main()
