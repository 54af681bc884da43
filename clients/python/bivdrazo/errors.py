"""The exceptions of calls. Out of memory is Python's own MemoryError."""

from __future__ import annotations

from .numbers import OPTIONS, MarkdownStatus, Rule, Status

# The meaning of each status, as C's functions return it.
TEXTS = {
    Status.OK: "there is a text",
    Status.TOO_SHORT: "the buffer is too short",
    Status.REFUSED: "an event is refused",
    Status.NO_EVENT: "an event has no such kind or name",
    Status.NO_NAME: "a character reference isn't UTF-8",
    Status.NO_OPTION: "an option has no such value",
    Status.NO_LINE: "a line of the script can't be read",
    Status.MEMORY: "out of memory",
    Status.UNSAFE: "the options aren't safe",
    Status.NO_ATTRIBUTE: "an attribute has no such value",
    Status.TOO_LONG: "the text is too long",
    Status.TOO_MUCH: "there is too much work",
    Status.NESTED: "a link is in a link",
    Status.TOO_DEEP: "the events nest too deep",
    MarkdownStatus.INPUT_TOO_LONG: "the input is too long",
    MarkdownStatus.OUTPUT_TOO_LONG: "the text is too long",
    MarkdownStatus.NOT_UTF8: "the input isn't UTF-8",
    MarkdownStatus.NO_VERSION: "the options are of an unknown version",
    MarkdownStatus.TOO_MUCH_WORK: "there is too much work",
}


class Error(ValueError):
    """The arguments of a call have no HTML."""


class Refused(Error):
    """The events are refused, by `rule`, at `index` (the number of events if a node is open at the
    end).
    """

    def __init__(self, index: int, rule: Rule) -> None:
        super().__init__(f"event {index}: {rule.name}")
        self.index = index
        self.rule = rule

    def __reduce__(self) -> tuple[type, tuple[int, Rule]]:
        """How it is pickled."""
        return type(self), (self.index, self.rule)


class Invalid(Error):
    """An event, a name or an option is invalid: `what` says which of these, `index` which one."""

    def __init__(self, what: str, index: int) -> None:
        name = OPTIONS[index][0] if what == "option" else str(index)
        super().__init__(f"{what} {name}: no such value")
        self.what = what
        self.index = index

    def __reduce__(self) -> tuple[type, tuple[str, int]]:
        """How it is pickled."""
        return type(self), (self.what, self.index)


class Unreadable(Error):
    """The line of a script with the number `line`, from 1, can't be read."""

    def __init__(self, line: int) -> None:
        super().__init__(f"line {line}: unreadable")
        self.line = line

    def __reduce__(self) -> tuple[type, tuple[int]]:
        """How it is pickled."""
        return type(self), (self.line,)


class TooLong(Error):
    """The input or its HTML exceeds a limit of `limit` bytes; `what` is "input" or "output"."""

    def __init__(self, what: str, limit: int) -> None:
        super().__init__(f"the {what} has more than {limit} bytes")
        self.what = what
        self.limit = limit

    def __reduce__(self) -> tuple[type, tuple[str, int]]:
        """How it is pickled."""
        return type(self), (self.what, self.limit)


class TooMuchWork(Error):
    """The work exceeds `limit`: that of the call, or the default one."""

    def __init__(self, limit: int) -> None:
        super().__init__(f"there is more work than {limit}")
        self.limit = limit

    def __reduce__(self) -> tuple[type, tuple[int]]:
        """How it is pickled."""
        return type(self), (self.limit,)


class TooDeep(Error):
    """The events nest deeper than `limit`."""

    def __init__(self, limit: int) -> None:
        super().__init__(f"the events nest deeper than {limit}")
        self.limit = limit

    def __reduce__(self) -> tuple[type, tuple[int]]:
        """How it is pickled."""
        return type(self), (self.limit,)


class Nested(Error):
    """The events' document has a link in a link."""

    def __init__(self) -> None:
        super().__init__("a link is in a link")

    def __reduce__(self) -> tuple[type, tuple[()]]:
        """How it is pickled."""
        return type(self), ()


class UnsafeHtml(Error):
    """The text isn't safe HTML."""

    def __init__(self) -> None:
        super().__init__("the text isn't safe HTML")

    def __reduce__(self) -> tuple[type, tuple[()]]:
        """How it is pickled."""
        return type(self), ()


def error_of(status: int, index: int, rule: int) -> Exception:
    """The error for an answer."""
    if status == Status.REFUSED:
        return Refused(index, Rule(rule))
    if status == Status.NO_EVENT:
        return Invalid("event", index)
    if status == Status.NO_NAME:
        return Invalid("name", index)
    if status == Status.NO_OPTION:
        return Invalid("option", index)
    if status == Status.NO_LINE:
        return Unreadable(index)
    if status == Status.NESTED:
        return Nested()
    if status == Status.MEMORY:
        return MemoryError(text_of_status(status))
    return RuntimeError(text_of_status(status))


def text_of_status(status: int) -> str:
    """The meaning of a status, in English."""
    return TEXTS.get(status, f"the library returned the unknown status {status}")
