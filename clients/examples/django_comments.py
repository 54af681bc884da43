#!/usr/bin/env python3
"""Comments in Django's templates: `{{ comment|markdown }}` inserts safe HTML.

    django_comments.py

Prints a page of the comments in the list COMMENTS. They come from JSON, so a name or a text can be
any value: null, a number, or a text with a lone surrogate, which UTF-8 can't encode. In a project
the functions `markdown` and `name` below are filters in `templatetags/markdown.py` of an
application, and a template loads them by `{% load markdown %}`. Requires Django (Debian:
python3-django).
"""

import json

import django
from django.conf import settings
from django.template import Context, Engine, Library

from bivdrazo import markdown_to_html

COMMENTS = [
    {"name": "<Ada>", "text": "**a** <script>alert(1)</script> [b](javascript:alert(1))"},
    {"name": "Bob", "text": "c" * 10_001},
    *json.loads(r'[{"name": "Cy\ud800", "text": "half a character: \ud800"},'
                r' {"name": null, "text": 7}]'),
]

# Django escapes the names. It inserts the texts unchanged, since they have `__html__`.
PAGE = """<!doctype html>
<title>Comments</title>
{% for comment in comments %}<article><h2>{{ comment.name|name }}</h2>
{{ comment.text|markdown }}</article>
{% endfor %}"""

register = Library()


@register.filter
def name(value):
    """The name as a text that UTF-8 can encode."""
    return value.encode(errors="replace").decode() if isinstance(value, str) else "?"


@register.filter
def markdown(text):
    """The HTML of a comment, which Django doesn't escape; or a message, which it escapes."""
    if not isinstance(text, str):
        return "This comment can't be shown: it isn't a text"
    try:
        return markdown_to_html(text, rel="nofollow ugc", footnotes=False,
                                max_input=10_000, max_output=100_000, max_work=50_000)
    except ValueError as error:  # a limit, or a lone surrogate
        return f"This comment can't be shown: {error}"


def main():
    """Prints the page."""
    settings.configure()
    django.setup()
    engine = Engine()
    engine.template_builtins.append(register)
    print(engine.from_string(PAGE).render(Context({"comments": COMMENTS})), end="")


if __name__ == "__main__":
    main()
