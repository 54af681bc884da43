#!/usr/bin/env python3
"""Tests which HTML of authors is kept in Markdown, by the program `mdhtml`.

    bench/tests/kept.py PROGRAM [FILE..]

PROGRAM is crates/mdhtml/out/mdhtml, or another build of it. Requires html5lib. The documents of
kept_cases.py have the texts that cmark-gfm 0.29.0.gfm.6 prints with `--unsafe`. html5lib reads
these, and they are cut down to the list of bench/tests/clean.py: the program's texts must have
these trees, and the texts in which all other HTML is printed as text must have their elements.
Trees are compared without white space, without empty paragraphs, and with a `code` in each `pre`.

With files it compares these instead, by the cmark-gfm of the machine: how many have HTML, how many
trees are equal, and which aren't. The status is 1 only if a document of kept_cases.py differs.
"""

import subprocess
import sys

import clean
import kept_cases

CMARK = ["cmark-gfm", "--unsafe"] + [word for name in
         ("table", "strikethrough", "autolink", "footnotes", "tasklist") for word in ("-e", name)]


def output(command, given):
    """What a command writes."""
    return subprocess.run(command, input=given, capture_output=True, check=True).stdout


def kept(program, document, others=""):
    """The program's text of a document with its kept HTML."""
    return output([program, "--html=kept" + others], document)


def tree(text):
    """The tree of a text, cut down to the list."""
    return settled(clean.without_white(clean.cut(clean.body_of(text))))


def settled(nodes):
    """Nodes without empty paragraphs, and with `code` in `pre`."""
    out = []
    for node in nodes:
        if isinstance(node, str):
            out.append(node)
            continue
        name, attributes, inner = node
        inner = settled(inner)
        if name == "p" and not inner:
            continue
        names = [child[0] for child in inner if not isinstance(child, str)]
        if name == "pre" and names != ["code"]:
            inner = [("code", frozenset(), inner)]
        out.append((name, attributes, inner))
    return out


def elements(nodes):
    """The names of all elements, in order."""
    for node in nodes:
        if not isinstance(node, str):
            yield node[0]
            yield from elements(node[2])


def wrong(program, document, printed):
    """What is wrong with a document's texts, or None."""
    expected = tree(printed)
    text = kept(program, document)
    if tree(text) != expected:
        return f"{text!r} has another tree than {printed!r}"
    shown = kept(program, document, "-or-text")
    if list(elements(tree(shown))) != list(elements(expected)):
        return f"{shown!r} has other elements than {printed!r}"
    return None


def compare(program, files):
    """Prints how many of these files have equal trees."""
    count, different = 0, []
    for path in files:
        with open(path, "rb") as file:
            document = file.read()
        printed = output(CMARK, document)
        if printed == output([word for word in CMARK if word != "--unsafe"], document):
            continue
        count += 1
        if tree(kept(program, document)) != tree(printed):
            different.append(path)
    print(f"{count} files with HTML, {count - len(different)} with equal trees; not:", *different)


def main():
    program, *files = sys.argv[1:]
    if files:
        return compare(program, files)
    failures = 0
    for document, printed in kept_cases.CASES:
        why = wrong(program, document.encode(), printed.encode())
        if why:
            failures += 1
            print(f"kept.py: {document!r}: {why}")
    print(f"kept.py: {len(kept_cases.CASES)} documents, {failures} wrong")
    return failures > 0


if __name__ == "__main__":
    sys.exit(main())
