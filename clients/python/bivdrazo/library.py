"""The shared object, and its structs as ctypes sees them."""

from __future__ import annotations

import ctypes
import os
import pathlib

from .numbers import MARKDOWN_VERSION, OPTIONS, VERSION


class CAnswer(ctypes.Structure):
    """What a call answers."""

    _fields_ = [
        ("status", ctypes.c_uint32),
        ("rule", ctypes.c_uint32),
        ("index", ctypes.c_size_t),
        ("length", ctypes.c_size_t),
    ]


class CEvent(ctypes.Structure):
    """An event."""

    _fields_ = [
        ("index", ctypes.c_size_t),
        ("name", ctypes.c_uint16),
        ("other", ctypes.c_uint16),
        ("kind", ctypes.c_uint8),
        ("columns", ctypes.c_uint8),
    ]


class CText(ctypes.Structure):
    """A text that may be unset; its pointer is never null."""

    _fields_ = [("bytes", ctypes.c_char_p), ("length", ctypes.c_size_t), ("is_set", ctypes.c_uint8)]


class CReference(ctypes.Structure):
    """A named character reference."""

    _fields_ = [
        ("name", ctypes.c_char_p),
        ("name_length", ctypes.c_size_t),
        ("text", ctypes.c_char_p),
        ("text_length", ctypes.c_size_t),
    ]


class COptions(ctypes.Structure):
    """The options: the numbers, and then the texts."""

    _fields_ = [
        *((name, ctypes.c_uint8) for name, kind in OPTIONS if kind != "text"),
        *((name, CText) for name, kind in OPTIONS if kind == "text"),
    ]


class CLimits(ctypes.Structure):
    """How long a text may be, how much work it may take, and how deep its events may nest."""

    _fields_ = [("text", ctypes.c_size_t), ("work", ctypes.c_size_t), ("depth", ctypes.c_size_t)]


class CMarkdownOptions(ctypes.Structure):
    """The options for Markdown."""

    _fields_ = [
        ("version", ctypes.c_uint32),
        ("number_ids", ctypes.c_uint8),
        ("hard_breaks", ctypes.c_uint8),
        ("bare_links", ctypes.c_uint8),
        ("html", ctypes.c_uint8),
        ("math", ctypes.c_uint8),
        ("front_matter", ctypes.c_uint8),
        ("footnotes", ctypes.c_uint8),
        ("tables", ctypes.c_uint8),
        ("unused", ctypes.c_uint8 * 4),
        ("footnote_prefix", CText),
        ("footnote_label", CText),
        ("footnote_back_label", CText),
        ("base", CText),
        ("rel", CText),
        ("heading_ids", CText),
        ("max_input", ctypes.c_size_t),
        ("max_output", ctypes.c_size_t),
        ("max_work", ctypes.c_size_t),
        ("max_depth", ctypes.c_size_t),
    ]


class CCleanOptions(ctypes.Structure):
    """The options for cleaning HTML."""

    _fields_ = [
        ("version", ctypes.c_uint32),
        ("unused", ctypes.c_uint8 * 4),
        ("tags", CText),
        ("protocols", CText),
        ("max_input", ctypes.c_size_t),
        ("max_output", ctypes.c_size_t),
    ]


def load() -> ctypes.CDLL:
    """The shared object that BIVDRAZO_LIBRARY names, or else the one in this package."""
    path = (os.environ.get("BIVDRAZO_LIBRARY")
            or pathlib.Path(__file__).with_name("out") / "libbivdrazo.so")
    try:
        library = ctypes.CDLL(str(path))
    except OSError as error:
        raise ImportError(f"{error}; clients/build makes it") from error
    size, text = ctypes.c_size_t, ctypes.c_char_p
    events, options = ctypes.POINTER(CEvent), ctypes.POINTER(COptions)
    names = ctypes.POINTER(CReference)
    library.bivdrazo_compile.argtypes = [events, size, text, size, options, names, size, text, size]
    library.bivdrazo_compile.restype = CAnswer
    limits = ctypes.POINTER(CLimits)
    library.bivdrazo_compile_within.argtypes = [events, size, text, size, options, names, size,
                                                limits, text, size]
    library.bivdrazo_compile_within.restype = CAnswer
    library.bivdrazo_compile_unnested.argtypes = library.bivdrazo_compile.argtypes
    library.bivdrazo_compile_unnested.restype = CAnswer
    library.bivdrazo_has_nested_link.argtypes = [events, size]
    library.bivdrazo_has_nested_link.restype = CAnswer
    library.bivdrazo_is_safe_html.argtypes = [text, size]
    library.bivdrazo_is_safe_html.restype = ctypes.c_uint32
    library.bivdrazo_run.argtypes = [text, size, text, size]
    library.bivdrazo_run.restype = CAnswer
    for into in library.bivdrazo_markdown_into, library.bivdrazo_markdown_slugs_into:
        into.argtypes = [text, size, ctypes.POINTER(CMarkdownOptions), text, size]
        into.restype = CAnswer
    library.bivdrazo_clean_into.argtypes = [text, size, ctypes.POINTER(CCleanOptions), text, size]
    library.bivdrazo_clean_into.restype = CAnswer
    library.bivdrazo_front_matter.argtypes = [text, size]
    library.bivdrazo_front_matter.restype = CAnswer
    for call, wanted in ((library.bivdrazo_version, VERSION),
                         (library.bivdrazo_markdown_version, MARKDOWN_VERSION)):
        call.argtypes = []
        call.restype = ctypes.c_uint32
        if call() != wanted:
            raise ImportError(f"{path} has the interface {call()}, not {wanted}")
    return library


LIBRARY = load()
