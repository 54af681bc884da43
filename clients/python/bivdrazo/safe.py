"""HTML that templates don't escape again."""

from __future__ import annotations

from .errors import UnsafeHtml
from .library import LIBRARY
from .values import coded


class SafeHtml(str):
    """HTML that the library made under safe options or checked: a `str` that templates don't
    escape.

    Jinja and Django escape a text when they insert it, unless it has the method `__html__`:

    >>> from bivdrazo import markdown_to_html
    >>> html = markdown_to_html("a *b*")
    >>> html.__html__()
    '<p>a <em>b</em></p>\\n'

    It is safe as the content of an element such as `div`; no HTML is safe in an attribute's value,
    a script or a style. It compares, hashes and pickles like any `str`, and unpickles as a
    SafeHtml; a database or JSON returns a plain `str`, of which from_checked makes one again. Any
    other text made from it, such as a slice or a sum, is a plain `str`, since it may not be safe
    HTML:

    >>> [type(made).__name__ for made in (html, html[3:], html + "<b>", f"{html}", html.strip())]
    ['SafeHtml', 'str', 'str', 'str', 'str']

    Only the library's calls and from_checked should make one: the class itself checks nothing.
    """

    __slots__ = ()

    def __html__(self) -> SafeHtml:
        """The HTML itself. MarkupSafe formats a plain `str` only escaped."""
        return self

    @classmethod
    def from_checked(cls, text: str) -> SafeHtml:
        """A text that is safe HTML, whoever wrote it, as is_safe_html says: so a text that comes
        back from a database can be inserted into a page again.

        >>> from bivdrazo import SafeHtml
        >>> SafeHtml.from_checked("<p>a</p>").__html__()
        '<p>a</p>'
        >>> SafeHtml.from_checked("<script>")
        Traceback (most recent call last):
            ...
        bivdrazo.errors.UnsafeHtml: the text isn't safe HTML

        Raises UnsafeHtml, a ValueError, if it isn't safe.
        """
        if not is_safe_html(text):
            raise UnsafeHtml()
        return cls(str.__str__(text))


def is_safe_html(text: str) -> bool:
    """Whether a text is safe HTML, whoever wrote it. A text with a lone surrogate isn't.

    It is safe exactly if it has a reading as HTML with the elements and attributes of a short
    list, in which no link stands in a link, links and images have no protocol or a permitted one,
    and elements nest at most 485 deep. Then it has no other reading.

    >>> from bivdrazo import is_safe_html
    >>> is_safe_html("<p>a &amp; <em>b</em></p>")
    True
    >>> is_safe_html('<p onclick="f()">a</p>')
    False
    """
    try:
        given = coded("text", text)
    except UnicodeEncodeError:
        return False
    return bool(LIBRARY.bivdrazo_is_safe_html(given, len(given)) == 1)
