#!/usr/bin/env python3
"""Finds the examples of the pages, and the marks that say how to run them.

    pages.py FOLDER

Writes each example that is run into FOLDER, as NUMBER.c, NUMBER.rs, NUMBER.py or NUMBER.mjs, and
its output as NUMBER.txt. Prints a line for each: its number, its language, and its place. Ends with
status 1 if a block of C, Rust, Python or JavaScript has no mark.

A mark is the line before a block, a comment of HTML:

    <!-- run: LANGUAGE; it prints: TEXT -->
    <!-- not run: WHY -->

LANGUAGE is c, rust, python or js.
"""

import pathlib
import re
import sys
from typing import NamedTuple

ROOT = pathlib.Path(__file__).resolve().parents[2]
SUFFIXES = {"c": "c", "rust": "rs", "python": "py", "js": "mjs"}
MARK = re.compile(r"<!-- run: (\w+); it prints: (.*) -->")
NOT_RUN = re.compile(r"<!-- not run: .+ -->")


class Example(NamedTuple):
    """An example: its place, its language, its output without the last line feed, and its code."""

    place: str
    language: str
    wanted: str
    code: str


class Unmarked(Exception):
    """A block has no mark, or one for another language."""


def pages():
    """All pages: those at the top, in docs and its folders, and of the crates; each once."""
    found = [*sorted(ROOT.glob("*.md")), *sorted(ROOT.glob("docs/**/*.md")),
             *sorted(ROOT.glob("crates/*/README.md"))]
    return [page for page in found if not page.is_symlink()]


def example_of(place, mark, language, code):
    """The example under a mark, or None if the mark says that it isn't run."""
    found = MARK.fullmatch(mark)
    if found is None or found[1] != language:
        if NOT_RUN.fullmatch(mark):
            return None
        raise Unmarked(f"{place}: no mark says how this is run")
    return Example(place, language, found[2], "".join(code))


def examples_of(text, page):
    """The examples of a page that are run."""
    lines = text.splitlines(keepends=True)
    starts = [at for at, line in enumerate(lines)
              if (fence := re.fullmatch(r" *```(\w+)\n", line)) and fence[1] in SUFFIXES]
    for at in starts:
        fence = lines[at]
        indent = len(fence) - len(fence.lstrip(" "))
        end = next(end for end in range(at + 1, len(lines)) if lines[end].strip() == "```")
        code = [line[indent:] if line.strip() else "\n" for line in lines[at + 1 : end]]
        mark = lines[at - 1].strip() if at else ""
        found = example_of(f"{page}:{at + 1}", mark, fence.strip()[3:], code)
        if found is not None:
            yield found
    marks = sum(bool(MARK.fullmatch(line.strip())) for line in lines)
    if marks > len(starts):
        raise Unmarked(f"{page}: a mark without a block")


def examples():
    """The examples of all pages that are run."""
    return [example for page in pages()
            for example in examples_of(page.read_text("utf-8"), page.relative_to(ROOT))]


def main(arguments):
    """Writes the examples; returns the exit status."""
    folder = pathlib.Path(arguments[0])
    try:
        found = examples()
    except Unmarked as error:
        print(f"pages: {error}", file=sys.stderr)
        return 1
    for number, example in enumerate(found, 1):
        (folder / f"{number}.{SUFFIXES[example.language]}").write_text(example.code, "utf-8")
        (folder / f"{number}.txt").write_text(f"{example.wanted}\n", "utf-8")
        print(number, example.language, example.place)
    return 0


if __name__ == "__main__":
    sys.exit(main(sys.argv[1:]))
