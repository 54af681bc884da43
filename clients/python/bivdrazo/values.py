"""Conversions of arguments for C."""

from __future__ import annotations

import ctypes
from typing import TypeVar, Union

Bytes = Union[bytes, bytearray, memoryview]
MOST = ctypes.c_size_t(-1).value
T = TypeVar("T")


def typed(name: str, value: object, type_: type[T]) -> T:
    """The value; raises TypeError if it has another type."""
    if not isinstance(value, type_):
        raise TypeError(f"{name}: expected {type_.__name__}, not {type(value).__name__}")
    return value


def bound_of(name: str, bound: int | None, counted: str = "bytes") -> int:
    """A limit in C; None is the greatest number."""
    if bound is None:
        return MOST
    if isinstance(bound, bool) or typed(name, bound, int) < 0:
        error = TypeError if isinstance(bound, bool) else ValueError
        raise error(f"{name}: expected a number of {counted}, not {bound}")
    return min(bound, MOST)


def coded(name: str, text: str) -> bytes:
    """The bytes of a text. A subclass of `str` can't change them."""
    return str.encode(typed(name, text, str), "utf-8")


def text_in(buffer: ctypes.Array[ctypes.c_char], start: int, end: int) -> str:
    """The text between two indices of a buffer. `ctypes.string_at` would copy it once more."""
    return str(memoryview(buffer)[start:end], "utf-8")


def bytes_of(name: str, data: Bytes) -> bytes:
    """A copy of the bytes of a buffer. A subclass can't change their number."""
    try:
        return memoryview(data).tobytes()
    except TypeError as error:
        raise TypeError(f"{name}: expected bytes, not {type(data).__name__}") from error
