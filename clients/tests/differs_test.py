#!/usr/bin/env python3
"""Runs the cases of docs/use/GFM.md here and by cmark-gfm.

    differs_test.py [--own]

A case reads "`INPUT` gives `TEXT`, and GFM `TEXT`", or "as GFM" if it is the same; `\\n`, `\\r` and
`\\x01` are control characters, and `..` is any text. With --own cmark-gfm isn't run. Ends with
status 1 if a text differs.
"""

import functools
import pathlib
import re
import subprocess
import sys

CLIENTS = pathlib.Path(__file__).resolve().parent.parent
sys.path.insert(0, str(CLIENTS / "python"))
sys.dont_write_bytecode = True

from bivdrazo import markdown_to_html  # noqa: E402  (after the path of the module is set)

CASE = re.compile(r"`([^`]+)`\s+gives\s+`([^`]+)`,(?:\s+and\s+GFM\s+`([^`]+)`|\s+as\s+GFM)")
EXTENSIONS = ("footnotes", "table", "strikethrough", "autolink", "tasklist")
WANTED = 25
CONTROLS = (("\\n", "\n"), ("\\r", "\r"), ("\\x01", "\x01"))


def meant(written):
    """The text that a case writes with escapes."""
    return functools.reduce(lambda text, each: text.replace(*each), CONTROLS, written)


def gfm(text):
    """The HTML of cmark-gfm for a text."""
    words = [word for name in EXTENSIONS for word in ("-e", name)]
    return subprocess.run(["cmark-gfm", "--unsafe", *words], input=text.encode("utf-8"),
                          capture_output=True, check=True).stdout.decode("utf-8")


def is_like(pattern, text):
    """Whether a text matches that of a case."""
    parts = meant(pattern).split("..")
    pattern = ".*".join(map(re.escape, parts))
    return re.fullmatch(pattern, text.rstrip("\r\n"), re.DOTALL) is not None


def main(arguments):
    """Runs the cases; returns the exit status."""
    page = (CLIENTS.parent / "docs" / "use" / "GFM.md").read_text("utf-8")
    cases = CASE.findall(page)
    wrong = 0
    for given, own, other in cases:
        text = meant(given) + "\n"
        found = [("bivdrazo", own, markdown_to_html(text))]
        if arguments != ["--own"]:
            found.append(("cmark-gfm", other or own, gfm(text)))
        for name, pattern, html in found:
            if not is_like(pattern, html):
                wrong += 1
                print(f"differs: {given}: {name} gives {html!r}")
    print(f"differs: {len(cases)} cases, {wrong} faults")
    return 1 if wrong or len(cases) != WANTED else 0


if __name__ == "__main__":
    sys.exit(main(sys.argv[1:]))
