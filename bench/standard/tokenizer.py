"""crates/md_safe/specs/Tokenizer.antt and Scheme.antt once more in Python, state by state,
written by hand.

equations.py compares this with the definitions: they compute to its result for a text.
"""

SPACE = {9, 10, 12, 32}
REFERENCES = [(b"amp;", 38), (b"lt;", 60), (b"gt;", 62), (b"quot;", 34)]


def letter(b):
    return 65 <= b <= 90 or 97 <= b <= 122


def lower(b):
    return b + 32 if 65 <= b <= 90 else b


def with_line_feeds(text):
    out = []
    for i, b in enumerate(text):
        if b == 13:
            if not (i + 1 < len(text) and text[i + 1] == 10):
                out.append(10)
        else:
            out.append(b)
    return bytes(out)


def in_value(b):
    return b"\xef\xbf\xbd" if b == 0 else bytes([b])


def in_name(b):
    return in_value(lower(b))


def kept(attributes):  # newest first
    if not attributes:
        return []
    (name, value), earlier = attributes[0], attributes[1:]
    if any(n == name for n, _ in earlier):
        return kept(earlier)
    return kept(earlier) + [(name, value)]


def token_of(tag, flag):
    end, name, attributes = tag
    return ("end", name) if end else ("start", name, kept(attributes), flag)


SWITCHING = set(b"title textarea style xmp iframe noembed noframes script plaintext noscript svg "
                b"math select frameset template".split())


def emitted(tag, flag, rest):
    if not tag[0] and tag[1] == b"title":
        return [token_of(tag, flag)], ("rcdata",), rest
    if not tag[0] and tag[1] in SWITCHING:
        return STUCK
    return [token_of(tag, flag)], ("data",), rest


def with_attribute(tag, name):
    return (tag[0], tag[1], [(name, b"")] + tag[2])


def with_name(tag, more):
    a = tag[2]
    return (tag[0], tag[1], [(a[0][0] + more, a[0][1])] + a[1:] if a else [])


def with_value(tag, more):
    a = tag[2]
    return (tag[0], tag[1], [(a[0][0], a[0][1] + more)] + a[1:] if a else [])


STUCK = "stuck"


def flushed(state, out, rest):
    if state[0] == "value":
        return [], ("value", with_value(state[1], out)), rest
    return [("char", b) for b in out], state, rest


def step(state, text):
    """(tokens, state, rest), or (tokens,) if it stops, or STUCK"""
    s = state[0]
    tag = state[1] if len(state) > 1 else None
    if not text:
        if s == "data":
            return ([("eof",)],)
        if s == "tag open":
            return ([("char", 60), ("eof",)],)
        if s == "end tag open":
            return ([("char", 60), ("char", 47), ("eof",)],)
        if s in ("before name", "name"):
            return [], ("after name", tag), text
        if s in ("tag name", "after name", "value", "after value", "self closing"):
            return ([("eof",)],)
        if s == "reference":
            return flushed(state[1], b"&", text)
        if s == "rcdata":
            return ([("eof",)],)
        if s == "rcdata less than":
            return [("char", 60)], ("rcdata",), text
        if s == "rcdata end tag open":
            return [("char", 60), ("char", 47)], ("rcdata",), text
        if s == "rcdata end tag name":
            return [("char", 60), ("char", 47)] + [("char", c) for c in state[2]], ("rcdata",), text
        return STUCK
    b, rest = text[0], text[1:]
    if s == "data":
        if b == 38:
            return [], ("reference", ("data",)), rest
        if b == 60:
            return [], ("tag open",), rest
        return [("char", b)], ("data",), rest
    if s == "tag open":
        if b == 33:
            return [], ("markup declaration open",), rest
        if b == 47:
            return [], ("end tag open",), rest
        if letter(b):
            return [], ("tag name", (False, b"", [])), text
        if b == 63:
            return STUCK
        return [("char", 60)], ("data",), text
    if s == "end tag open":
        if letter(b):
            return [], ("tag name", (True, b"", [])), text
        if b == 62:
            return [], ("data",), rest
        return STUCK
    if s == "tag name":
        if b in SPACE:
            return [], ("before name", tag), rest
        if b == 47:
            return [], ("self closing", tag), rest
        if b == 62:
            return emitted(tag, False, rest)
        return [], ("tag name", (tag[0], tag[1] + in_name(b), tag[2])), rest
    if s == "before name":
        if b in SPACE:
            return [], state, rest
        if b in (47, 62):
            return [], ("after name", tag), text
        if b == 61:
            return [], ("name", with_attribute(tag, bytes([b]))), rest
        return [], ("name", with_attribute(tag, b"")), text
    if s == "name":
        if b in SPACE or b in (47, 62):
            return [], ("after name", tag), text
        if b == 61:
            return [], ("before value", tag), rest
        return [], ("name", with_name(tag, in_name(b))), rest
    if s == "after name":
        if b in SPACE:
            return [], state, rest
        if b == 47:
            return [], ("self closing", tag), rest
        if b == 61:
            return [], ("before value", tag), rest
        if b == 62:
            return emitted(tag, False, rest)
        return [], ("name", with_attribute(tag, b"")), text
    if s == "before value":
        if b in SPACE:
            return [], state, rest
        if b == 34:
            return [], ("value", tag), rest
        if b == 62:
            return emitted(tag, False, rest)
        return STUCK
    if s == "value":
        if b == 34:
            return [], ("after value", tag), rest
        if b == 38:
            return [], ("reference", state), rest
        return [], ("value", with_value(tag, in_value(b))), rest
    if s == "after value":
        if b in SPACE:
            return [], ("before name", tag), rest
        if b == 47:
            return [], ("self closing", tag), rest
        if b == 62:
            return emitted(tag, False, rest)
        return [], ("before name", tag), text
    if s == "self closing":
        if b == 62:
            return emitted(tag, True, rest)
        return [], ("before name", tag), text
    if s == "reference":
        if letter(b) or 48 <= b <= 57:
            return [], ("named", state[1]), text
        if b == 35:
            return STUCK
        return flushed(state[1], b"&", text)
    if s == "named":
        for name, c in REFERENCES:
            if text.startswith(name):
                return flushed(state[1], bytes([c]), text[len(name):])
        return STUCK
    if s == "markup declaration open":
        return ([], ("doctype",), text[7:]) if text[:7].lower() == b"doctype" else STUCK
    if s == "doctype":
        return [], ("before doctype name",), rest if b in SPACE else text
    if s == "before doctype name":
        if b in SPACE:
            return [], state, rest
        if b == 62:
            return STUCK
        return [], ("doctype name", in_name(b)), rest
    if s == "doctype name":
        if b in SPACE:
            return STUCK
        if b == 62:
            return [("doctype", state[1])], ("data",), rest
        return [], ("doctype name", state[1] + in_name(b)), rest
    if s == "rcdata":
        if b == 38:
            return [], ("reference", state), rest
        if b == 60:
            return [], ("rcdata less than",), rest
        return [("char", c) for c in in_value(b)], state, rest
    if s == "rcdata less than":
        return ([], ("rcdata end tag open",), rest) if b == 47 else ([("char", 60)], ("rcdata",),
                                                                     text)
    if s == "rcdata end tag open":
        if letter(b):
            return [], ("rcdata end tag name", (True, b"", []), b""), text
        return [("char", 60), ("char", 47)], ("rcdata",), text
    if s == "rcdata end tag name":
        right = tag[1] == b"title"
        if right and b in SPACE:
            return [], ("before name", tag), rest
        if right and b == 47:
            return [], ("self closing", tag), rest
        if right and b == 62:
            return emitted(tag, False, rest)
        if letter(b):
            return [], (s, (tag[0], tag[1] + bytes([lower(b)]), tag[2]),
                        state[2] + bytes([b])), rest
        return [("char", 60), ("char", 47)] + [("char", c) for c in state[2]], ("rcdata",), text
    raise AssertionError(s)


def run(text):
    """(tokens, steps), or None"""
    state, rest, out, n = ("data",), with_line_feeds(text), [], 0
    while True:
        n += 1
        s = step(state, rest)
        if s == STUCK:
            return None
        if len(s) == 1:
            return out + s[0], n
        out += s[0]
        state, rest = s[1], s[2]


def scheme_of(url):
    """A URL's own scheme, or None."""
    start, end = 0, len(url)
    while start < end and url[start] <= 32:
        start += 1
    while end > start and url[end - 1] <= 32:
        end -= 1
    url = bytes(b for b in url[start:end] if b not in (9, 10, 13))
    if not url or not letter(url[0]):
        return None
    buffer = [lower(url[0])]
    for b in url[1:]:
        if letter(b) or 48 <= b <= 57 or b in b"+-.":
            buffer.append(lower(b))
        else:
            return bytes(buffer) if b == 58 else None
    return None
