"""Safe HTML from any HTML."""

from __future__ import annotations

import ctypes
from collections.abc import Iterable

from .calls import UNSET, text_of
from .errors import TooLong, error_of
from .library import LIBRARY, CAnswer, CCleanOptions
from .markdown import OK, TOO_SHORT, first_size
from .numbers import MARKDOWN_VERSION, MarkdownStatus
from .safe import SafeHtml
from .values import bound_of, coded, text_in, typed

TAGS = frozenset(
    "a abbr b blockquote br cite code del details dfn div em figcaption figure h1 h2 h3 h4 h5 h6 "
    "hr i img ins kbd li mark ol p pre q s samp small span strong sub summary sup table tbody td "
    "tfoot th thead tr u ul".split())
"""The names of the elements that clean may keep."""

PROTOCOLS = frozenset({"http", "https", "irc", "ircs", "mailto", "xmpp"})
"""The protocols that clean may leave in URLs."""


def clean(
    html: str,
    *,
    tags: Iterable[str] | None = None,
    protocols: Iterable[str] | None = None,
    max_input: int | None = None,
    max_output: int | None = None,
) -> SafeHtml:
    """Makes safe HTML of any HTML: what is listed of its elements and attributes stays, the rest is
    left out, and text stays, except for that of script, style and others.

    >>> from bivdrazo import clean
    >>> clean("<p onclick=f()>one<script>f()</script><p>two")
    '<p>one</p><p>two</p>'

    The HTML is a SafeHtml: a str that Jinja and Django insert into a page without escaping it.
    is_safe_html is true of it, whatever `html` is.

    tags: the names of the elements that stay, some of TAGS; by default all of them. `table` brings
    the elements that a table needs, `ul` and `ol` bring `li`, and `pre` brings `code`. The text of
    an element that doesn't stay does. With no name all elements are left out.
    protocols: the protocols that URLs may have, some of PROTOCOLS; by default all of them. Images
    have http and https at most. A URL without a protocol stays.
    max_input, max_output: the limits on the length of `html` and of the result, in bytes of UTF-8;
    by default none.

    >>> clean("<b>a</b> <a href='http://b.c'>d</a>", tags=["p", "a"], protocols=["https"])
    'a <a>d</a>'

    Raises ValueError for a name that isn't in TAGS or PROTOCOLS, TooLong if a length exceeds its
    limit, MemoryError if the library runs out of memory, UnicodeEncodeError for a lone surrogate,
    and TypeError for a value of another type. Other threads run during the call.
    """
    given = coded("html", html)
    options = CCleanOptions(
        MARKDOWN_VERSION,
        (0, 0, 0, 0),
        UNSET if tags is None else text_of("tags", names_in("tags", tags, TAGS)),
        UNSET if protocols is None
        else text_of("protocols", names_in("protocols", protocols, PROTOCOLS)),
        bound_of("max_input", max_input),
        bound_of("max_output", max_output),
    )
    buffer = ctypes.create_string_buffer(first_size(len(given)))
    answer = LIBRARY.bivdrazo_clean_into(given, len(given), options, buffer, len(buffer))
    if answer.status == TOO_SHORT:
        buffer = ctypes.create_string_buffer(answer.length)
        answer = LIBRARY.bivdrazo_clean_into(given, len(given), options, buffer, len(buffer))
    if answer.status != OK:
        raise clean_error_of(answer, options)
    return SafeHtml(text_in(buffer, 0, answer.length))


def names_in(option: str, names: Iterable[str], known: frozenset[str]) -> str:
    """Names as C reads them."""
    if isinstance(names, (str, bytes)):
        raise TypeError(f"{option}: expected names, not {type(names).__name__}")
    listed = [typed(option, name, str) for name in names]
    unknown = sorted(set(listed) - known)
    if unknown:
        raise ValueError(f"{option}: can't keep {', '.join(map(repr, unknown))}")
    return " ".join(map(str.__str__, listed))


def clean_error_of(answer: CAnswer, options: CCleanOptions) -> Exception:
    """The error for an answer."""
    if answer.status == MarkdownStatus.INPUT_TOO_LONG:
        return TooLong("input", options.max_input)
    if answer.status == MarkdownStatus.OUTPUT_TOO_LONG:
        return TooLong("output", options.max_output)
    return error_of(answer.status, answer.index, answer.rule)
