"""The calls that take events."""

from __future__ import annotations

import ctypes
import functools
import struct
from collections.abc import Callable, Iterable, Mapping
from typing import Any, NamedTuple

from .errors import Invalid, TooDeep, TooLong, TooMuchWork, error_of
from .library import LIBRARY, CAnswer, CEvent, CLimits, COptions, CReference, CText
from .numbers import Kind, LineEnding, Name, Status
from .references import REFERENCES
from .safe import SafeHtml
from .values import Bytes, bound_of, bytes_of, coded, text_in

EVENT = struct.Struct("@NHHBB2x")
UNSET = CText(b"", 0, False)


class Event(NamedTuple):
    """An event: the node `name` begins or ends at the byte `index` of the document."""

    kind: int
    name: int
    index: int
    columns: int = 0  # how many columns of a tab at `index`, 0 to 4, are already used
    other: int = 0  # the own number of a name that is Name.OTHER

    @classmethod
    def enter(cls, name: int, index: int) -> Event:
        """An event: the node begins before the byte `index`."""
        return cls(Kind.ENTER, name, index)

    @classmethod
    def exit(cls, name: int, index: int) -> Event:
        """An event: the node ends before the byte `index`."""
        return cls(Kind.EXIT, name, index)


def compile(
    events: Iterable[Event],
    data: Bytes,
    *,
    names: Mapping[str, str] | Iterable[tuple[str, str]] = (),
    allow_any_img_src: bool = False,
    allow_dangerous_html: bool = False,
    allow_dangerous_protocol: bool = False,
    gfm_task_list_item_checkable: bool = False,
    gfm_tagfilter: bool = False,
    default_line_ending: LineEnding = LineEnding.LINE_FEED,
    gfm_footnote_back_label: str | None = None,
    gfm_footnote_clobber_prefix: str | None = None,
    gfm_footnote_label: str | None = None,
    gfm_footnote_label_attributes: str | None = None,
    gfm_footnote_label_tag_name: str | None = None,
    gfm_footnote_number_ids: bool = False,
) -> str:
    """Compiles a list of events over a document's bytes to HTML.

    `names` are the named character references that a document may use, as `{"amp": "&"}`; of two
    with the same name the first counts. HTML's are REFERENCES. The text is safe if
    allow_any_img_src, allow_dangerous_html and allow_dangerous_protocol are off, and
    gfm_footnote_label_attributes and gfm_footnote_label_tag_name unset, as by default: then it is a
    SafeHtml, which templates don't escape, and otherwise a plain str.

    Raises Refused if the events are refused, Invalid for an invalid event or option, and
    MemoryError.
    """
    options = options_of(
        allow_any_img_src=allow_any_img_src,
        allow_dangerous_html=allow_dangerous_html,
        allow_dangerous_protocol=allow_dangerous_protocol,
        gfm_task_list_item_checkable=gfm_task_list_item_checkable,
        gfm_tagfilter=gfm_tagfilter,
        default_line_ending=default_line_ending,
        gfm_footnote_back_label=gfm_footnote_back_label,
        gfm_footnote_clobber_prefix=gfm_footnote_clobber_prefix,
        gfm_footnote_label=gfm_footnote_label,
        gfm_footnote_label_attributes=gfm_footnote_label_attributes,
        gfm_footnote_label_tag_name=gfm_footnote_label_tag_name,
        gfm_footnote_number_ids=gfm_footnote_number_ids,
    )
    made, length = events_of(events)
    references = references_of(names)
    document = bytes_of("data", data)
    text = answered(
        first_size(length, len(document)),
        lambda buffer, room: LIBRARY.bivdrazo_compile(
            made, length, document, len(document), options, references, len(references) - 1, buffer,
            room
        ),
    )
    return SafeHtml(text) if are_safe(options) else text


def compile_within(
    events: Iterable[Event],
    data: Bytes,
    *,
    max_output: int | None = None,
    max_work: int | None = None,
    max_depth: int | None = None,
    names: Mapping[str, str] | Iterable[tuple[str, str]] = (),
    **options: Any,
) -> str:
    """Compiles events as compile does, whose other options it takes, within limits.

    >>> from bivdrazo import Event, Name, compile_within
    >>> events = [Event.enter(Name.DATA, 0), Event.exit(Name.DATA, 6)]
    >>> compile_within(events, b"Hi <b>", max_output=12, max_work=6)
    'Hi &lt;b&gt;'
    >>> compile_within(events, b"Hi <b>", max_output=11)
    Traceback (most recent call last):
        ...
    bivdrazo.errors.TooLong: the output has more than 11 bytes

    max_output: the limit on the length of the text, in bytes of UTF-8.
    max_work: a limit on two sums, each by itself. The first is how much there is to read and to
    print: the lengths of texts and labels, by the places of the events, and for each row of a
    table's body five for each of its columns. The second is how much is used again: for each link
    and image that refers to a definition, the length of what is read in the definition, and one for
    each of its events; for each footnote call, five times its length, four times that of the prefix
    of ids, and that of the label of the link back.
    max_depth: the limit on the number of open nodes; None or 0: no limit.

    Raises the same errors as compile. It raises TooDeep if the events nest too deep, and otherwise
    TooMuchWork if there is too much work; both even if the events aren't a document. For a document
    it raises TooMuchWork also if too much is used again, and TooLong if the text is too long.
    """
    given = options_of(**options)
    limits = CLimits(bound_of("max_output", max_output), bound_of("max_work", max_work, "work"),
                     bound_of("max_depth", max_depth or 0, "nodes"))
    made, length = events_of(events)
    references = references_of(names)
    document = bytes_of("data", data)
    text = answered(
        min(first_size(length, len(document)), limits.text),
        lambda buffer, room: LIBRARY.bivdrazo_compile_within(
            made, length, document, len(document), given, references, len(references) - 1, limits,
            buffer, room
        ),
        limits,
    )
    return SafeHtml(text) if are_safe(given) else text


def compile_unnested(
    events: Iterable[Event],
    data: Bytes,
    *,
    names: Mapping[str, str] | Iterable[tuple[str, str]] = (),
    **options: Any,
) -> SafeHtml:
    """Compiles events as compile does, whose other options it takes if they are safe, without a
    link in a link: then a browser builds the tree of the text's reading.

    >>> from bivdrazo import Event, Name, compile_unnested
    >>> compile_unnested([Event.enter(Name.DATA, 0), Event.exit(Name.DATA, 6)], b"Hi <b>")
    'Hi &lt;b&gt;'

    Autolinks, except literal ones, and calls of footnotes are links too; a link in an image doesn't
    count.

    Raises the same errors as compile, Nested for a link in a link, and ValueError if the options
    aren't safe.
    """
    given = options_of(**options)
    if not are_safe(given):
        raise ValueError("the options aren't safe")
    made, length = events_of(events)
    references = references_of(names)
    document = bytes_of("data", data)
    return SafeHtml(answered(
        first_size(length, len(document)),
        lambda buffer, room: LIBRARY.bivdrazo_compile_unnested(
            made, length, document, len(document), given, references, len(references) - 1, buffer,
            room
        ),
    ))


def has_nested_link(events: Iterable[Event]) -> bool:
    """Whether the events of a document have a link in a link; nothing is compiled. Links are those
    that compile_unnested counts.

    >>> from bivdrazo import Event, Name, has_nested_link
    >>> has_nested_link([Event.enter(Name.LINK, 0), Event.exit(Name.LINK, 0)])
    False

    Raises Invalid for an invalid event, and MemoryError.
    """
    made, length = events_of(events)
    answer = LIBRARY.bivdrazo_has_nested_link(made, length)
    if answer.status not in (Status.OK, Status.NESTED):
        raise error_of(answer.status, answer.index, answer.rule)
    return bool(answer.status == Status.NESTED)


def run(script: Bytes) -> str:
    """Compiles an event script: lines of options and events, a line `--`, the document. The HTML is
    a plain str, since a script may set options that aren't safe.

    Raises Unreadable if a line can't be read, Refused if the events are refused, and MemoryError.
    """
    given = bytes_of("script", script)
    return answered(
        first_size(0, len(given)),
        lambda buffer, room: LIBRARY.bivdrazo_run(given, len(given), buffer, room),
    )


def first_size(events: int, length: int) -> int:
    """A first size of the buffer that most texts fit into."""
    return 8 * events + 2 * length + 64


def answered(
    room: int, call: Callable[[ctypes.Array[ctypes.c_char], int], CAnswer],
    limits: CLimits | None = None
) -> str:
    """The text that a call writes into a buffer; a longer one if the first is too short."""
    buffer = ctypes.create_string_buffer(max(room, 1))
    answer = call(buffer, room)
    if answer.status == Status.TOO_SHORT:
        room = answer.length
        buffer = ctypes.create_string_buffer(room)
        answer = call(buffer, room)
    if limits is not None and answer.status == Status.TOO_LONG:
        raise TooLong("output", limits.text)
    if limits is not None and answer.status == Status.TOO_MUCH:
        raise TooMuchWork(limits.work)
    if limits is not None and answer.status == Status.TOO_DEEP:
        raise TooDeep(limits.depth)
    if answer.status != Status.OK:
        raise error_of(answer.status, answer.index, answer.rule)
    return text_in(buffer, 0, answer.length)


def options_of(
    *,
    allow_any_img_src: bool = False,
    allow_dangerous_html: bool = False,
    allow_dangerous_protocol: bool = False,
    gfm_task_list_item_checkable: bool = False,
    gfm_tagfilter: bool = False,
    default_line_ending: LineEnding = LineEnding.LINE_FEED,
    gfm_footnote_back_label: str | None = None,
    gfm_footnote_clobber_prefix: str | None = None,
    gfm_footnote_label: str | None = None,
    gfm_footnote_label_attributes: str | None = None,
    gfm_footnote_label_tag_name: str | None = None,
    gfm_footnote_number_ids: bool = False,
) -> COptions:
    """The options in C."""
    return COptions(
        bool(allow_any_img_src),
        bool(allow_dangerous_html),
        bool(allow_dangerous_protocol),
        bool(gfm_task_list_item_checkable),
        bool(gfm_tagfilter),
        line_ending_of(default_line_ending),
        bool(gfm_footnote_number_ids),
        text_of("gfm_footnote_back_label", gfm_footnote_back_label),
        text_of("gfm_footnote_clobber_prefix", gfm_footnote_clobber_prefix),
        text_of("gfm_footnote_label", gfm_footnote_label),
        text_of("gfm_footnote_label_attributes", gfm_footnote_label_attributes),
        text_of("gfm_footnote_label_tag_name", gfm_footnote_label_tag_name),
    )


def are_safe(options: COptions) -> bool:
    """Whether a text under these options is safe."""
    return not (options.allow_any_img_src or options.allow_dangerous_html
                or options.allow_dangerous_protocol
                or options.gfm_footnote_label_attributes.is_set
                or options.gfm_footnote_label_tag_name.is_set)


def events_of(events: Iterable[Event]) -> tuple[ctypes.Array[CEvent], int]:
    """The events in C, with one more after them, and their number."""
    packed = bytearray()
    for at, event in enumerate(events):
        try:
            packed += EVENT.pack(event.index, event.name, event.other, event.kind, event.columns)
        except struct.error as error:
            raise Invalid("event", at) from error
    length = len(packed) // EVENT.size
    packed += bytes(EVENT.size)
    return (CEvent * (length + 1)).from_buffer_copy(packed), length


def references_of(names: Mapping[str, str] | Iterable[tuple[str, str]]) -> ctypes.Array[CReference]:
    """The character references in C, with one more after them."""
    return html_references() if names is REFERENCES else made_references(names)


@functools.lru_cache(maxsize=None)
def html_references() -> ctypes.Array[CReference]:
    """HTML's names in C, made once."""
    return made_references(REFERENCES)


def made_references(names: Mapping[str, str]
                    | Iterable[tuple[str, str]]) -> ctypes.Array[CReference]:
    """The character references in C, with one more after them."""
    pairs = [*(names.items() if isinstance(names, Mapping) else names), ("", "")]
    made = [(coded("names", name), coded("names", text)) for name, text in pairs]
    return (CReference * len(made))(*[CReference(name, len(name), text, len(text))
                                      for name, text in made])


def line_ending_of(ending: LineEnding) -> int:
    """The number of a line ending."""
    return LineEnding(ending).value


def text_of(name: str, text: str | None) -> CText:
    """A text in C, set or unset; all unset texts are the same object."""
    if text is None:
        return UNSET
    made = coded(name, text)
    return CText(made, len(made), True)
