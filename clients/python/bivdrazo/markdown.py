"""The calls that read Markdown."""

from __future__ import annotations

import ctypes
import functools
import operator
import string
import threading
from collections.abc import Iterable
from typing import Any, Literal, NamedTuple

from .calls import UNSET, text_of
from .errors import TooLong, TooMuchWork, error_of
from .library import LIBRARY, CAnswer, CMarkdownOptions
from .numbers import MARKDOWN_OPTIONS, MARKDOWN_VERSION, DocumentHtml, MarkdownStatus, Status
from .safe import SafeHtml
from .values import MOST, bound_of, coded, text_in, typed

# The value of `max_work` in C for a limit that depends on the document's length.
WORK_BY_LENGTH = MOST - 1
LEAST_WORK = 1 << 20
WORK_OF_A_BYTE = 64

HTML = {"text": DocumentHtml.TEXT, "left-out": DocumentHtml.LEFT_OUT,
        "without-comments": DocumentHtml.WITHOUT_COMMENTS, "kept": DocumentHtml.KEPT,
        "kept-or-text": DocumentHtml.KEPT_OR_TEXT}

TEXTS = "footnote_prefix", "footnote_label", "footnote_back_label", "base", "rel", "heading_ids"

# Equal values of these types are the same; a subclass may define equality differently.
PLAIN = frozenset({bool, int, str, type(None)})
OK = int(Status.OK)
TOO_SHORT = int(Status.TOO_SHORT)


class Heading(NamedTuple):
    """A heading that got an id: its level, its number from 1, its text, without tags and escaped,
    and its id, not escaped.
    """

    level: int
    number: int
    text: SafeHtml
    id: str


class Kept(threading.local):
    """A buffer that a thread keeps between its calls; none while a call uses it."""

    buffer: ctypes.Array[ctypes.c_char] | None = None


KEPT = Kept()
KEPT_SIZE = 1 << 16


def markdown_to_html(
    text: str,
    *,
    footnote_prefix: str | None = None,
    number_ids: bool = False,
    footnote_label: str | None = None,
    footnote_back_label: str | None = None,
    hard_breaks: bool = False,
    bare_links: bool = True,
    html: Literal["text", "left-out", "without-comments", "kept", "kept-or-text"] = "text",
    math: bool = False,
    front_matter: bool = False,
    footnotes: bool = True,
    tables: bool = True,
    base: str | None = None,
    rel: str | None = None,
    heading_ids: str | None = None,
    heading_slugs: bool = False,
    max_input: int | None = None,
    max_output: int | None = None,
    max_work: int | None = None,
    max_depth: int | None = None,
) -> SafeHtml:
    """Renders a Markdown document, with tables, strikethrough, tasks, footnotes and bare links.

    >>> from bivdrazo import markdown_to_html
    >>> markdown_to_html("**a** <b> [c](javascript:d)")
    '<p><strong>a</strong> &lt;b&gt; <a href="">c</a></p>\\n'

    The HTML is safe with all options. It is a SafeHtml: a str that Jinja and Django insert into a
    page without escaping it.

    footnote_prefix: the prefix of the ids of footnotes, by default `user-content-`; each document
    of a page needs a different one.
    number_ids: use numbers in the ids of footnotes; then no two ids of the HTML are equal.
    footnote_label, footnote_back_label: the heading of the footnotes, and the label of the link
    back.
    hard_breaks: write `<br />` for a soft break.
    bare_links: make links of bare URLs and addresses.
    html: how to treat HTML in the document: "text" prints it as text, "left-out" leaves it out, and
    "without-comments" leaves out comments and prints the rest as text; "kept" keeps the tags that
    authors may write and leaves out the rest, and "kept-or-text" prints the rest as text.
    math: read `$a$`, and blocks between lines of `$$`, as math.
    front_matter: leave out text between lines of `---` at the beginning; front_matter_of returns
    it.
    footnotes, tables: read these.
    base: the base URL of relative URLs in links and images.
    rel: the `rel` of each link whose URL isn't empty and doesn't begin with `#`.
    heading_ids: the prefix of the ids of headings; their numbers follow. These ids are distinct
    from one another, and from all others if no other begins with this prefix. The others are those
    of footnotes: `footnote-label`, and those that begin with the prefix of footnotes and `fn`. On a
    page with several documents let it end with a separator that isn't a digit.
    heading_slugs: make the id of each heading from its text, nearly as GitHub does, after
    heading_ids if that is set; these ids are distinct from one another and from all others, if the
    others are distinct, as with number_ids.

    max_input, max_output: the limits on the length of the document and of the HTML, in bytes of
    UTF-8; by default none.
    max_work: the limit on how much there is to read and to print in the parser's events, as
    compile_within counts it; by default 2^20, and 64 for each byte of the document. A number of
    2^64 or more is no limit. Set these three limits when you render untrusted documents.
    max_depth: the limit on the number of open nodes: a document that nests deeper is shown as it is
    written, as one paragraph; None or 0 is no limit.

    >>> markdown_to_html("a <b>c</b>\\nd", html="left-out", hard_breaks=True)
    '<p>a c<br />\\nd</p>\\n'

    Raises TooLong if a length exceeds its limit, TooMuchWork if the work exceeds its limit, also
    the default one, MemoryError if the library runs out of memory, UnicodeEncodeError for a lone
    surrogate, and TypeError for a value of another type. Other threads run during the call.
    """
    document = coded("text", text)
    given = options_of(number_ids, hard_breaks, bare_links, html, math, front_matter, footnotes,
                       tables, footnote_prefix, footnote_label, footnote_back_label, base, rel,
                       heading_ids, max_input, max_output, max_work, max_depth)
    return SafeHtml(rendered(document, given, typed("heading_slugs", heading_slugs, bool))[0])


def markdown_with_headings(
    text: str, heading_ids: str = "", *, heading_slugs: bool = False, **options: Any,
) -> tuple[SafeHtml, list[Heading]]:
    """Renders a document as markdown_to_html does, whose other options it takes, and returns also
    the headings that got an id, for a table of contents.

    >>> from bivdrazo import markdown_with_headings
    >>> markdown_with_headings("## a *b*", "part-")
    ('<h2 id="part-1">a <em>b</em></h2>\\n', [Heading(level=2, number=1, text='a b', id='part-1')])
    >>> markdown_with_headings("# A\\n# a", heading_slugs=True)[1][1].id
    'a-1'

    A heading's text has a space for each line feed.
    """
    document = coded("text", text)
    html, listed = rendered(
        document, options_of(heading_ids=typed("heading_ids", heading_ids, str), **options),
        typed("heading_slugs", heading_slugs, bool))
    lines = listed.split("\0")[1:]
    ids = [unescaped(line[1:]) for line in lines if line.startswith("#")]
    lines = [line for line in lines if not line.startswith("#")]
    ids = ids or [heading_ids + line.split(" ", 2)[1] for line in lines]
    return SafeHtml(html), [heading_of(line, name) for line, name in zip(lines, ids)]


def contents(headings: Iterable[Heading]) -> SafeHtml:
    """A table of contents: a list of links to headings, nested by their levels. It is made by
    markdown_to_html, so it is as safe. Without headings it is empty.

    >>> from bivdrazo import contents, markdown_with_headings
    >>> contents(markdown_with_headings("# a", heading_slugs=True)[1])
    '<ul>\\n<li><a href="#a">a</a></li>\\n</ul>\\n'
    """
    document, levels = "", list[int]()
    for heading in headings:
        while levels and levels[-1] >= heading.level:
            levels.pop()
        shown = quoted(unescaped(heading.text).strip() or heading.id)
        document += f"{'  ' * len(levels)}- [{shown}](<#{quoted(heading.id)}>)\n"
        levels.append(heading.level)
    return markdown_to_html(document, bare_links=False, footnotes=False, tables=False,
                            max_work=MOST)


def quoted(text: str) -> str:
    """A text as Markdown: punctuation is escaped, and a line ending becomes a space."""
    marks = {ord(mark): "\\" + mark for mark in string.punctuation}
    return text.translate(marks | {10: " ", 13: " "})


def heading_of(line: str, name: str) -> Heading:
    """The heading of a line (level, space, number, space, text), with its id."""
    level, number, text = line.split(" ", 2)
    return Heading(int(level), int(number), SafeHtml(text.replace("\n", " ")), name)


def unescaped(text: str) -> str:
    """A text without the library's escapes."""
    text = text.replace("&lt;", "<").replace("&gt;", ">")
    return text.replace("&quot;", '"').replace("&amp;", "&")


def front_matter_of(text: str) -> str | None:
    """The text between lines of `---` at the beginning of a document, without these lines; None if
    the document has no front matter.

    >>> from bivdrazo import front_matter_of
    >>> front_matter_of("---\\ntitle: a\\n---\\n# b\\n")
    'title: a\\n'
    >>> front_matter_of("# b\\n") is None
    True
    """
    document = coded("text", text)
    answer = LIBRARY.bivdrazo_front_matter(document, len(document))
    if answer.status != OK:
        raise error_of(answer.status, answer.index, answer.rule)
    end = answer.index + answer.length
    return document[answer.index:end].decode() if answer.index else None


def options_of(
    number_ids: bool = False,
    hard_breaks: bool = False,
    bare_links: bool = True,
    html: str = "text",
    math: bool = False,
    front_matter: bool = False,
    footnotes: bool = True,
    tables: bool = True,
    footnote_prefix: str | None = None,
    footnote_label: str | None = None,
    footnote_back_label: str | None = None,
    base: str | None = None,
    rel: str | None = None,
    heading_ids: str | None = None,
    max_input: int | None = None,
    max_output: int | None = None,
    max_work: int | None = None,
    max_depth: int | None = None,
) -> CMarkdownOptions:
    """The options in C, which are shared between calls: texts are set in a copy."""
    choices = (number_ids, hard_breaks, bare_links, html, math, front_matter, footnotes, tables,
               max_input, max_output, max_work, max_depth)
    latest, made = LATEST[0]
    if not all(map(operator.is_, choices, latest)):
        made = choices_of(choices)
    if (footnote_prefix is None and footnote_label is None and footnote_back_label is None
            and base is None and rel is None and heading_ids is None):
        return made
    made = CMarkdownOptions.from_buffer_copy(made)
    texts = footnote_prefix, footnote_label, footnote_back_label, base, rel, heading_ids
    for name, text in zip(TEXTS, texts):
        if text is not None:
            setattr(made, name, text_of(name, text))
    return made


def choices_of(choices: tuple[Any, ...]) -> CMarkdownOptions:
    """The options in C, with no text set, which the next call with the same objects takes."""
    if not PLAIN.issuperset(map(type, choices)):
        return made_choices(*choices)
    made = known_choices(*choices)
    LATEST[0] = choices, made
    return made


def made_choices(
    number_ids: bool,
    hard_breaks: bool,
    bare_links: bool,
    html: str,
    math: bool,
    front_matter: bool,
    footnotes: bool,
    tables: bool,
    max_input: int | None,
    max_output: int | None,
    max_work: int | None,
    max_depth: int | None,
) -> CMarkdownOptions:
    """The options in C, with no text set."""
    return CMarkdownOptions(
        MARKDOWN_VERSION,
        typed("number_ids", number_ids, bool),
        typed("hard_breaks", hard_breaks, bool),
        typed("bare_links", bare_links, bool),
        html_of(html),
        typed("math", math, bool),
        typed("front_matter", front_matter, bool),
        typed("footnotes", footnotes, bool),
        typed("tables", tables, bool),
        (0, 0, 0, 0),
        *(UNSET for _ in TEXTS),
        bound_of("max_input", max_input),
        bound_of("max_output", max_output),
        WORK_BY_LENGTH if max_work is None else bound_of("max_work", max_work, "work"),
        0 if max_depth is None else bound_of("max_depth", max_depth, "nodes"),
    )


# The options of the latest calls, made once for equal values of the same types.
known_choices = functools.lru_cache(maxsize=16, typed=True)(made_choices)
# The latest plain values with their options: mostly the next call passes the same objects. At first
# an object that no call passes.
LATEST: list[tuple[tuple[Any, ...], CMarkdownOptions]] = [((object(),), CMarkdownOptions())]


def rendered(document: bytes, options: CMarkdownOptions, slugs: bool = False) -> tuple[str, str]:
    """The HTML of a document, and the list of its headings that got an id."""
    buffer = taken(first_size(len(document)))
    try:
        return rendered_into(buffer, document, options, slugs)
    finally:
        if len(buffer) == KEPT_SIZE:
            KEPT.buffer = buffer


def first_size(length: int) -> int:
    """A first size of the buffer for a document of this length. Of 20,242 documents and paragraphs
    it was too short for none, and with a `rel` for one.
    """
    return 2 * length + 1024


def rendered_into(buffer: ctypes.Array[ctypes.c_char], document: bytes, options: CMarkdownOptions,
                  slugs: bool) -> tuple[str, str]:
    """The same with a buffer, or with a longer one if that is too short."""
    into = LIBRARY.bivdrazo_markdown_slugs_into if slugs else LIBRARY.bivdrazo_markdown_into
    answer = into(document, len(document), options, buffer, len(buffer))
    if answer.status == TOO_SHORT:
        buffer = ctypes.create_string_buffer(answer.length)
        answer = into(document, len(document), options, buffer, len(buffer))
    if answer.status != OK:
        raise markdown_error_of(answer, options, len(document))
    end = answer.index
    listed = text_in(buffer, end, answer.length) if answer.length > end else ""
    return text_in(buffer, 0, end), listed


def taken(room: int) -> ctypes.Array[ctypes.c_char]:
    """A buffer of at least that size: the one that this thread keeps, if that is long enough and
    not in use, as it is for a call from a signal handler.
    """
    if room > KEPT_SIZE:
        return ctypes.create_string_buffer(room)
    buffer, KEPT.buffer = KEPT.buffer, None
    return ctypes.create_string_buffer(KEPT_SIZE) if buffer is None else buffer


def html_of(html: str) -> int:
    """The number of a choice of HTML."""
    number = HTML.get(typed("html", html, str))
    if number is None:
        raise ValueError(f"html: expected one of {', '.join(HTML)}, not {html!r}")
    return number


def markdown_error_of(answer: CAnswer, options: CMarkdownOptions, length: int) -> Exception:
    """The error for an answer, for a document of this length."""
    if answer.status == MarkdownStatus.INPUT_TOO_LONG:
        return TooLong("input", options.max_input)
    if answer.status == MarkdownStatus.OUTPUT_TOO_LONG:
        return TooLong("output", options.max_output)
    if answer.status == MarkdownStatus.TOO_MUCH_WORK:
        is_given = options.max_work != WORK_BY_LENGTH
        return TooMuchWork(options.max_work if is_given else LEAST_WORK + WORK_OF_A_BYTE * length)
    if answer.status == Status.NO_OPTION:
        return ValueError(f"{MARKDOWN_OPTIONS[answer.index]}: no such value")
    return error_of(answer.status, answer.index, answer.rule)
