#!/usr/bin/env python3
"""Finds words in prose that docs/maintain/words.md replaces.

    bench/pages/words.py [--count] [PATH..]

Prose is what a person reads: pages without their code, comments and docstrings in sources, manual
pages. It reads the table "Old words" of that page, and every file that git has (or those at or
below the paths that are named). Each use of an old word is printed with its place, and so is each
sentence that begins with "Of a", "Of the" or "Of each"; then the status is 1. With --count it
prints how many there are in each folder. It skips that page itself, the releases before the newest
in CHANGELOG.md, and crates/md_bench, which stays as it is to the byte.
"""

import argparse
import collections
import io
import pathlib
import re
import subprocess
import sys
import tokenize

ROOT = pathlib.Path(__file__).resolve().parents[2]
PAGE = "docs/maintain/words.md"
# The benchmark stays as it is to the byte, so that commits can be compared by it.
FIXED = "crates/md_bench/"
BEGINNING = r"(?:\A|\n\n|\n- |[.!?:]\s+)Of (?:a|an|the|each|every)\b"

FENCED = re.compile(r"^ *```.*?^ *```$", re.MULTILINE | re.DOTALL)
INDENTED = re.compile(r"(?<=\n\n)(?: {4}[^\n]*\n)+")
SPAN = re.compile(r"(`+)(.+?)\1", re.DOTALL)
TARGET = re.compile(r"\]\([^)\s]+\)")
LINE_COMMENTS = {".rt": "//", ".rs": "//", ".antt": "--", ".c": "//", ".h": "//", ".sh": "#",
                 ".toml": "#", ".edit": "#"}


def patterns():
    """The old words of the page, each as an expression over text in one line."""
    text = (ROOT / PAGE).read_text(encoding="utf-8").partition("## Old words")[2]
    cells = re.findall(r"^\| (`[^|]*) \|", text, re.MULTILINE)
    words = [word for cell in cells for word in re.findall(r"`([^`]+)`", cell)]
    each = (r"\s+".join(r"\S+" if part == "*" else re.escape(part) for part in word.split())
            for word in sorted(words, key=len, reverse=True))
    return re.compile(BEGINNING + r"|(?i:\b(?:" + "|".join(each) + r")\b)")


def blank(match):
    """The same number of empty lines."""
    return "\n" * match[0].count("\n")


def of_page(text):
    """The prose of a page, line by line where it stands."""
    for code in (FENCED, INDENTED):
        text = code.sub(blank, text)
    return SPAN.sub(lambda span: "X" + blank(span), TARGET.sub("]", text))


def of_changelog(text):
    """The newest release of the list of changes."""
    return of_page("\n## ".join(text.split("\n## ")[:2]))


def of_lines(text, mark):
    """The comments that begin with a mark, line by line."""
    found = re.compile(r"(?:^|\s)" + re.escape(mark) + r"+!? ?(.*)$")
    lines = (found.search(re.sub(r'"(?:[^"\\]|\\.)*"', '""', line)) for line in text.split("\n"))
    return SPAN.sub(lambda span: "X" + blank(span),
                    "\n".join(line[1] if line else "" for line in lines))


def of_c(text):
    """The comments of C."""
    text = re.sub(r"/\*(.*?)\*/", lambda found: found[0].replace("\n", "\n// ")
                  .replace("/*", "//").replace("*/", ""), text, flags=re.DOTALL)
    return of_lines(text, "//")


def of_python(text):
    """The comments and docstrings of Python."""
    lines = [""] * (text.count("\n") + 2)
    before = tokenize.NEWLINE
    for token in tokenize.generate_tokens(io.StringIO(text).readline):
        is_text = token.type == tokenize.STRING and before in (
            tokenize.NEWLINE, tokenize.INDENT, tokenize.DEDENT)
        if token.type == tokenize.COMMENT or is_text:
            for at, line in enumerate(token.string.strip("#\"").split("\n"), token.start[0] - 1):
                lines[at] = line.strip()
        if token.type not in (tokenize.COMMENT, tokenize.NL, tokenize.ENCODING):
            before = token.type
    return SPAN.sub(lambda span: "X" + blank(span), "\n".join(lines))


def prose(path):
    """The prose in a file, with line endings at their places."""
    file = ROOT / path
    ending = file.suffix
    try:
        text = file.read_text(encoding="utf-8")
    except UnicodeDecodeError:
        return ""
    if path == "CHANGELOG.md":
        return of_changelog(text)
    if ending == ".md":
        return of_page(text)
    if ending == ".py" or text.startswith("#!/usr/bin/env python3"):
        return of_python(text)
    if ending in (".c", ".h"):
        return of_c(text)
    if ending == ".1":
        return text
    mark = LINE_COMMENTS.get(ending) or ("#" if text.startswith("#!/bin/") else None)
    return of_lines(text, mark) if mark else ""


def uses(path, pattern):
    """The old words in a file, each with its line."""
    text = prose(path)
    for found in pattern.finditer(text):
        start = found.end() - len(found[0].lstrip(".!?:- \n"))
        yield text.count("\n", 0, start) + 1, " ".join(text[start:found.end()].split())


def listed(paths):
    """The files that git has, at or below the paths."""
    done = subprocess.run(["git", "ls-files", "-z", "--", *paths], cwd=ROOT, check=True,
                          capture_output=True, text=True)
    return [path for path in done.stdout.split("\0")
            if path and path != PAGE and not path.startswith(FIXED)]


def main():
    parser = argparse.ArgumentParser(description=__doc__.split("\n", 1)[0])
    parser.add_argument("--count", action="store_true")
    parser.add_argument("paths", nargs="*")
    args = parser.parse_args()
    pattern = patterns()
    counts = collections.Counter()
    for path in listed(args.paths):
        for line, word in uses(path, pattern):
            counts["/".join(path.split("/")[:2])] += 1
            if not args.count:
                print(f"{path}:{line}: {word}")
    if args.count:
        print("\n".join(f"{count:6} {folder}" for folder, count in counts.most_common()))
    print(f"words: {sum(counts.values())} old ones")
    return bool(counts)


if __name__ == "__main__":
    sys.exit(main())
