#!/usr/bin/env python3
"""Comments in Flask: the template inserts the HTML without escaping it again.

    FLASK_APP=flask_comments.py flask run

Shows the comments in the list COMMENTS, which replaces a database. They come from JSON, so a name
or a text can be any value: null, a number, or a text with a lone surrogate, which UTF-8 can't
encode. A comment that can't be rendered is shown as a message, and doesn't stop the page. Requires
Flask (Debian: python3-flask).
"""

import json

from flask import Flask, render_template_string

from bivdrazo import markdown_to_html

COMMENTS = [
    ("<Ada>", "**a** <script>alert(1)</script> [b](javascript:alert(1))"),
    ("Bob", "c" * 10_001),
    *json.loads(r'[["Cy\ud800", "half a character: \ud800"], [null, 7]]'),
]

# Jinja escapes the names. It inserts the texts unchanged, since they have `__html__`; a template in
# a file needs a name that ends with `.html` for that.
PAGE = """<!doctype html>
<title>Comments</title>
{% for name, text in comments %}<article><h2>{{ name }}</h2>
{{ text }}</article>
{% endfor %}"""

app = Flask(__name__)


def name_of(value):
    """The name as a text that UTF-8 can encode."""
    return value.encode(errors="replace").decode() if isinstance(value, str) else "?"


def rendered(number, text):
    """The HTML of a comment, or a message. Comments share only the id `footnote-label`."""
    if not isinstance(text, str):
        return "This comment can't be shown: it isn't a text"
    try:
        return markdown_to_html(
            text, footnote_prefix=f"comment-{number}-", number_ids=True, rel="nofollow ugc",
            max_input=10_000, max_output=100_000, max_work=50_000)
    except ValueError as error:  # a limit, or a lone surrogate
        return f"This comment can't be shown: {error}"


@app.route("/")
def comments():
    """The page with all comments."""
    shown = [(name_of(name), rendered(number, text))
             for number, (name, text) in enumerate(COMMENTS)]
    return render_template_string(PAGE, comments=shown)
