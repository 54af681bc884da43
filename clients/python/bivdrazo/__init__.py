"""Markdown to safe HTML. It is proved that the HTML is safe, and that the parser ends for every
document and refuses none. That it reads Markdown as GFM says is only tested.

>>> from bivdrazo import markdown_to_html
>>> markdown_to_html("**a** <b>")
'<p><strong>a</strong> &lt;b&gt;</p>\\n'

The compiler also takes the events of any other parser, which reports a document as a list of
them: a paragraph begins at byte 0, a text runs from there to byte 6, the paragraph ends. `compile`
makes HTML from such a list:

>>> from bivdrazo import Event, Name, compile
>>> events = [
...     Event.enter(Name.PARAGRAPH, 0),
...     Event.enter(Name.DATA, 0),
...     Event.exit(Name.DATA, 6),
...     Event.exit(Name.PARAGRAPH, 6),
... ]
>>> compile(events, b"Hi <b>")
'<p>Hi &lt;b&gt;</p>'

Nothing is assumed about the events: they are refused, or give a text that, under the default
options, has one reading as HTML, in which links and images have no protocol or a permitted one.

>>> compile(events[:3], b"Hi <b>")
Traceback (most recent call last):
    ...
bivdrazo.errors.Refused: event 3: ORDER

Any number of threads can call at the same time; the calls run in parallel.
"""

from .calls import Event, compile, compile_unnested, compile_within, has_nested_link, run
from .cleaning import PROTOCOLS, TAGS, clean
from .errors import Error, Invalid, Nested, Refused, TooDeep, TooLong
from .errors import TooMuchWork, Unreadable, UnsafeHtml
from .markdown import Heading, contents, front_matter_of, markdown_to_html
from .markdown import markdown_with_headings
from .numbers import VERSION, Kind, LineEnding, Name, Rule
from .numbers import VERSION_TEXT as __version__
from .references import REFERENCES
from .safe import SafeHtml, is_safe_html

__all__ = [
    "PROTOCOLS",
    "REFERENCES",
    "TAGS",
    "VERSION",
    "Error",
    "Event",
    "Heading",
    "Invalid",
    "Kind",
    "LineEnding",
    "Name",
    "Nested",
    "Refused",
    "Rule",
    "SafeHtml",
    "TooDeep",
    "TooLong",
    "TooMuchWork",
    "Unreadable",
    "UnsafeHtml",
    "__version__",
    "clean",
    "compile",
    "compile_unnested",
    "compile_within",
    "contents",
    "front_matter_of",
    "has_nested_link",
    "is_safe_html",
    "markdown_to_html",
    "markdown_with_headings",
    "run",
]
