#!/usr/bin/env python3
"""Runs the scripts of docs/use/EVENTS.md and README.md: each must have the HTML below it.

    events_test.py            prints the examples that don't
    events_test.py --write    writes the HTML of each
"""

import pathlib
import re
import sys

HERE = pathlib.Path(__file__).resolve().parent
ROOT = HERE.parent.parent
PAGES = [ROOT / "docs" / "use" / "EVENTS.md", ROOT / "README.md"]
sys.path.insert(0, str(HERE.parent / "python"))

from bivdrazo import run  # noqa: E402

SCRIPT = r"(?<=\n\n)(```\n(?P<script>(?:(?!```).)*?)\n```\n\n```html\n)"
EXAMPLE = re.compile(SCRIPT + r"(?P<html>.*?)(```\n)", re.DOTALL)


def corrected(match):
    """An example with its actual HTML."""
    return f"{match[1]}{run(match['script'].encode('utf-8'))}\n{match[4]}"


def is_right(page):
    """Prints the examples of a page with other HTML below them; returns whether there are none."""
    text = page.read_text(encoding="utf-8")
    examples = list(EXAMPLE.finditer(text))
    wrong = [match for match in examples if corrected(match) != match[0]]
    for match in wrong:
        print(f"{page.name}: {match['script']!r}\n  has {run(match['script'].encode('utf-8'))!r}")
    if len(examples) != text.count("```html\n"):
        print(f"{page.name}: HTML without a script before it")
        return False
    print(f"{page.name}: {len(examples)} run" if not wrong else f"{page.name}: failed")
    return not wrong


def main(arguments):
    """Runs each example; returns the exit status."""
    if arguments == ["--write"]:
        for page in PAGES:
            text = page.read_text(encoding="utf-8")
            page.write_text(EXAMPLE.sub(corrected, text), encoding="utf-8")
        return 0
    return 0 if all([is_right(page) for page in PAGES]) else 1


if __name__ == "__main__":
    sys.exit(main(sys.argv[1:]))
