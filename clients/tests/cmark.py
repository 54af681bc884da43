"""cmark-gfm's own parser, tree and renderer, by its library."""

import ctypes

EXTENSIONS = (b"table", b"strikethrough", b"autolink", b"tasklist")
FOOTNOTES = 1 << 13
VALIDATE_UTF8 = 1 << 9
OPTIONS = FOOTNOTES | VALIDATE_UTF8
ENTER, DONE = 2, 1
TEXT, HTML_INLINE, LINK, IMAGE, FOOTNOTE_REFERENCE = 0xC001, 0xC005, 0xC009, 0xC00A, 0xC00B
HTML_BLOCK, CUSTOM_BLOCK, FOOTNOTE_DEFINITION = 0x8006, 0x8007, 0x800B


def load():
    """cmark-gfm's library, with the types of its calls."""
    library = ctypes.CDLL("libcmark-gfm.so")
    extensions = ctypes.CDLL("libcmark-gfm-extensions.so")
    extensions.cmark_gfm_core_extensions_ensure_registered()
    pointer, text, number = ctypes.c_void_p, ctypes.c_char_p, ctypes.c_int
    signatures = {
        "cmark_parser_new": (pointer, number),
        "cmark_find_syntax_extension": (pointer, text),
        "cmark_parser_attach_syntax_extension": (number, pointer, pointer),
        "cmark_parser_feed": (None, pointer, text, ctypes.c_size_t),
        "cmark_parser_finish": (pointer, pointer),
        "cmark_parser_free": (None, pointer),
        "cmark_render_html": (pointer, pointer, number, pointer),
        "cmark_iter_new": (pointer, pointer),
        "cmark_iter_next": (number, pointer),
        "cmark_iter_get_node": (pointer, pointer),
        "cmark_iter_free": (None, pointer),
        "cmark_node_get_type": (number, pointer),
        "cmark_node_get_start_line": (number, pointer),
        "cmark_node_get_literal": (text, pointer),
        "cmark_node_set_literal": (number, pointer, text),
        "cmark_node_get_url": (text, pointer),
        "cmark_node_set_url": (number, pointer, text),
        "cmark_node_new": (pointer, number),
        "cmark_node_set_on_enter": (number, pointer, text),
        "cmark_node_replace": (number, pointer, pointer),
        "cmark_node_free": (None, pointer),
    }
    for name, (result, *arguments) in signatures.items():
        function = getattr(library, name)
        function.restype, function.argtypes = result, arguments
    return library


CMARK = load()
FREE = ctypes.CDLL(None).free
FREE.argtypes = [ctypes.c_void_p]


def parse(document):
    """The tree of a document."""
    parser = CMARK.cmark_parser_new(OPTIONS)
    for name in EXTENSIONS:
        CMARK.cmark_parser_attach_syntax_extension(parser, CMARK.cmark_find_syntax_extension(name))
    CMARK.cmark_parser_feed(parser, document, len(document))
    root = CMARK.cmark_parser_finish(parser)
    CMARK.cmark_parser_free(parser)
    return root


def render(root):
    """The HTML of a tree."""
    pointer = CMARK.cmark_render_html(root, OPTIONS, None)
    text = ctypes.string_at(pointer)
    FREE(pointer)
    return text


def nodes(root, types):
    """The nodes of some types, in the order of the document."""
    walker = CMARK.cmark_iter_new(root)
    found = []
    turn = CMARK.cmark_iter_next(walker)
    while turn != DONE:
        node = CMARK.cmark_iter_get_node(walker)
        type_ = CMARK.cmark_node_get_type(node)
        if turn == ENTER and type_ in types:
            found.append((node, type_))
        turn = CMARK.cmark_iter_next(walker)
    CMARK.cmark_iter_free(walker)
    return found
