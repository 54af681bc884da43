#!/usr/bin/env python3
"""Makes a page with the comments of untrusted users.

    comments.py < COMMENTS > PAGE

COMMENTS is JSON, a list of objects with the texts `author` and `text`. Each comment has limits, and
its own prefixes, so that no two comments share an id of a footnote or of a heading; no search
engine follows its links. The heading of the footnotes has the id `footnote-label` in each comment
with footnotes; only the first one keeps it. A comment is reported and left out if it exceeds a
limit, if a text is missing or another value of JSON, or if it has a lone surrogate, which UTF-8
can't encode.
"""

import html
import json
import sys

from bivdrazo import markdown_to_html

# Only the id is written like this in a text: quotation marks are escaped, except in tags, where
# they delimit values.
LABEL = ' id="footnote-label"'


def text_of(each, name):
    """A text of a comment; raises ValueError if UTF-8 can't encode it, or if it isn't a text."""
    text = each.get(name) if isinstance(each, dict) else None
    if not isinstance(text, str):
        raise ValueError(f"{name}: expected a text")
    text.encode()
    return text


def comment(number, each):
    """One comment as HTML."""
    try:
        author = html.escape(text_of(each, "author"))
        body = markdown_to_html(
            text_of(each, "text"),
            footnote_prefix=f"comment-{number}-",
            number_ids=True,
            rel="nofollow ugc",
            heading_ids=f"comment-{number}-part-",
            hard_breaks=True,
            html="left-out",
            max_input=10_000,
            max_output=100_000,
            max_work=50_000,
        )
    except ValueError as error:
        print(f"comment {number}: {error}", file=sys.stderr)
        return ""
    return f'<article id="comment-{number}"><h1>{author}</h1>\n{body}</article>\n'


def main():
    """Prints the page."""
    comments = json.load(sys.stdin)
    print('<!doctype html>\n<html lang="en"><head><meta charset="utf-8" />'
          '<title>Comments</title></head><body>')
    has_label = False
    for number, each in enumerate(comments, 1):
        made = comment(number, each)
        print(made.replace(LABEL, "") if has_label else made, end="")
        has_label = has_label or LABEL in made
    print("</body></html>")


if __name__ == "__main__":
    main()
