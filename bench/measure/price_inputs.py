"""Event scripts for which an optimization may cost time: one function for each kind, and
their list, `INPUTS`.

Each entry of `INPUTS` is a name and the script's bytes, generated on request. They are kinds that
the six jobs of `bench/run` have few of, and some that they have many of.
"""

TEXTS = {
    "ASCII": "The quick brown fox jumps over the lazy dog. ",
    "Cyrillic": "Привет, мир. Это длинный текст на русском языке. ",
    "CJK": "漢字假名交じり文例示你好世界这是一个很长的文本",
    "emoji": "🦀🎉🚀🌍😀😃😄😁",
    "accents": "une forêt à l'été, où le garçon naïf rêvait. ",
}


def script(events, document):
    """The script of these events over this document."""
    return "\n".join([*events, "--\n"]).encode("ascii") + document


def node(name, start, end, inside=()):
    """The events of a node from one index to another."""
    return [f"+{name} {start}", *inside, f"-{name} {end}"]


def leaf(name, start, end):
    """The events of a node without children."""
    return node(name, start, end)


def repeated(part, size, head=b""):
    """A part repeated up to so many bytes, and at least once."""
    return head + part * max(1, (size - len(head)) // len(part))


def characters(text, size):
    """A text repeated up to so many bytes, cut after a whole character."""
    unit = text.encode()
    return (unit * (size // len(unit) + 1))[:size].decode("utf-8", errors="ignore").encode()


# Texts that are printed.


def paragraph(text):
    """A paragraph of one text."""
    return script(node("Paragraph", 0, len(text), leaf("Data", 0, len(text))), text)


def lines(line, count):
    """A paragraph of so many lines, each a text of its own."""
    events, at = [], 0
    for _ in range(count):
        events += leaf("Data", at, at + len(line)) + leaf("LineEnding", at + len(line),
                                                          at + len(line) + 1)
        at += len(line) + 1
    return script(node("Paragraph", 0, at - 1, events[:-2]), (line + b"\n") * (count - 1) + line)


def code(chunk, count):
    """Indented code of so many lines."""
    events, at = [], 0
    for _ in range(count):
        events += leaf("CodeFlowChunk", at, at + len(chunk)) + leaf("LineEnding", at + len(chunk),
                                                                    at + len(chunk) + 1)
        at += len(chunk) + 1
    return script(node("CodeIndented", 0, at - 1, events[:-2]),
                  (chunk + b"\n") * (count - 1) + chunk)


def html(tag, count):
    """HTML in a document, printed unchanged except for the tags that the tag filter escapes."""
    text = tag * count
    events = ["!allow_dangerous_html", "!gfm_tagfilter"]
    return script([*events, *node("HtmlFlow", 0, len(text), leaf("HtmlFlowData", 0, len(text)))],
                  text)


# Invalid bytes.


def bad_at(text, where):
    """A document with one bad byte at this fraction of its characters, from 0 to 1."""
    whole = text.decode()
    cut = int(len(whole) * where)
    return script([], whole[:cut].encode() + b"\xff" + whole[cut:].encode())


def bad_every(text, size):
    """A document of so many bytes with a bad byte after each text."""
    return script([], repeated(text + b"\xff", size))


def labels_among_bad(count):
    """Definitions with labels among bad bytes."""
    events = []
    for start in range(0, 5 * count, 5):
        events += definition(start, start + 4, None, None)
    return script(events, b"abcd\xff" * count)


# Lines of scripts.


def tab_lines(count, columns):
    """Lines with columns of a tab."""
    events = [f"+CodeFlowChunk 0.{columns}", "-CodeFlowChunk 2"] * count
    return script(["+CodeIndented 0", *events, "-CodeIndented 2"], b"\ta")


def both_tab_lines(count):
    """Lines that all have columns of a tab."""
    events = ["+Data 0.1", "-Data 0.3"] * count
    return script(["+Paragraph 0.1", *events, "-Paragraph 0.3"], b"\ta")


def long_names(count):
    """Names of more than thirty-one bytes, among others."""
    marks = [*leaf("CharacterReferenceMarker", 0, 1),
             *leaf("CharacterReferenceMarkerNumeric", 1, 2)]
    marks += [*leaf("CharacterReferenceMarkerHexadecimal", 2, 3),
              *leaf("CharacterReferenceValue", 3, 5)]
    return script(node("Paragraph", 0, 6, marks * count), b"&#x41;")


def other_names(count):
    """Names of nodes that aren't known."""
    return script(node("Paragraph", 0, 1, [*leaf("Other12345", 0, 1), *leaf("Other7", 0, 1)]
                       * count), b"a")


def plain_lines(count):
    """Common lines."""
    return script(node("Paragraph", 0, 2, leaf("Data", 0, 1) * count), b"ab")


# Links, definitions, footnotes and cells.


def links(url, count):
    """So many links with this URL, each in a paragraph."""
    document, events = bytearray(), []
    for _ in range(count):
        at = len(document)
        document += b"[a](" + url + b")\n"
        start, end = at + 4, at + 4 + len(url)
        label = node("Label", at, at + 3,
                     node("LabelText", at + 1, at + 2, leaf("Data", at + 1, at + 2)))
        destination = node("ResourceDestinationString", start, end, leaf("Data", start, end))
        link = node("Link", at, end + 1, label + node("Resource", at + 3, end + 1, destination))
        events += node("Paragraph", at, end + 1, link) + leaf("LineEnding", end + 1, end + 2)
    return script(events, bytes(document))


def encoded(text):
    """A text with each byte outside ASCII as a percent triple."""
    return "".join(c if ord(c) < 128 else "".join(f"%{byte:02X}" for byte in c.encode())
                   for c in text).encode()


def definition(label, end, destination, title):
    """The events of a definition: its label between two indices; destination and title are pairs
    of such, or None.
    """
    inside = node("DefinitionLabelString", label, end, leaf("Data", label, end))
    last = end
    for name, place in (("DefinitionDestinationString", destination),
                        ("DefinitionTitleString", title)):
        if place is not None:
            inside += node(name, *place, leaf("Data", *place))
            last = place[1]
    return node("Definition", label, last, inside)


def definitions(count, size, label=b"key %06d"):
    """So many definitions, each with a label, a destination and a title of its own
    of so many bytes.
    """
    document, events = bytearray(), []
    for number in range(count):
        name = (label.replace(b"%06d", b"%06d" % number))[:200]
        at = len(document)
        document += name + b"d" * size + b"t" * size + b"\n"
        end = at + len(name)
        events += definition(at, end, (end, end + size), (end + size, end + 2 * size))
        events += leaf("LineEnding", end + 2 * size, end + 2 * size + 1)
    return script(events, bytes(document))


def references(count, label):
    """A definition with this label, and so many links to it by reference."""
    size = len(label)
    text = node("Label", 0, size, node("LabelText", 0, size, leaf("Data", 0, size)))
    reference = node("ReferenceString", 0, size, leaf("Data", 0, size))
    events = definition(0, size, (size, size + 1), None) + leaf("LineEnding", size + 1, size + 2)
    events += node("Paragraph", 0, size, node("Link", 0, size, text + reference) * count)
    return script(events, label + b"d\n")


def images(count, label):
    """So many nested images, with this label in the innermost."""
    size = len(label)
    events = leaf("Data", 0, size)
    resource = node("Resource", 0, 1, node("ResourceDestinationString", 0, 1, leaf("Data", 0, 1)))
    head = ["+Image 0", "+Label 0", "+LabelText 0"] * count
    tail = [f"-LabelText {size}", f"-Label {size}", *resource, f"-Image {size}"] * count
    return script(["+Paragraph 0", *head, *events, *tail, f"-Paragraph {size}"], label)


def cells(columns, rows, text):
    """A table with a text in each cell; cells without one are empty."""
    size = len(text)
    inside = leaf("Data", 0, size) if text else []
    cell = node("GfmTableCell", 0, size, inside)
    row = node("GfmTableRow", 0, size, cell * columns)
    delimiter = node("GfmTableDelimiterRow", 0, size,
                     node("GfmTableDelimiterCellValue", 0, size) * columns)
    head = node("GfmTableHead", 0, size, node("GfmTableRow", 0, size, cell * columns) + delimiter)
    return script(node("GfmTable", 0, size, head + node("GfmTableBody", 0, size, row * rows)), text)


ENCODED = encoded(TEXTS["Cyrillic"].replace(" ", "_").replace(",", "").replace(".", ""))

INPUTS = {
    **{f"200 kB of {kind}": lambda text=text: paragraph(characters(text, 200_000))
       for kind, text in TEXTS.items()},
    **{f"2,000 lines of {kind}": lambda text=text: lines(characters(text, 75), 2_000)
       for kind, text in TEXTS.items()},
    "5,000 lines of six bytes, Cyrillic": lambda: lines("три".encode(), 5_000),
    "5,000 lines of three bytes": lambda: lines(b"abc", 5_000),
    "every byte escaped": lambda: paragraph(b"&" * 50_000),
    "every byte escaped by turns": lambda: paragraph(b'<>"&' * 12_500),
    "every second byte escaped": lambda: paragraph(b"a<" * 25_000),
    "every fourth byte escaped": lambda: paragraph(b"abc>" * 12_500),
    "every sixteenth byte escaped": lambda: paragraph(b"abcdefghijklmno&" * 3_000),
    "code with escaped bytes": lambda: code(b'    if (a < b && c > d) { print("x"); }', 1_000),
    "HTML, tags": lambda: html(b"<b>bold</b> <i>x</i>\n", 2_000),
    "HTML, filtered tags": lambda: html(b"<script>x</script>\n", 2_000),
    "Cyrillic, one bad byte first": lambda: bad_at(characters(TEXTS["Cyrillic"], 200_000), 0),
    "Cyrillic, one bad byte in the middle": lambda: bad_at(characters(TEXTS["Cyrillic"], 200_000),
                                                           0.5),
    "Cyrillic, one bad byte near the end": lambda: bad_at(characters(TEXTS["Cyrillic"], 200_000),
                                                          0.99),
    "a megabyte of ASCII, one bad byte first": lambda: bad_at(characters(TEXTS["ASCII"], 1_000_000),
                                                              0),
    "CJK, a bad byte in each kilobyte": lambda: bad_every(characters(TEXTS["CJK"], 1_000), 200_000),
    "ASCII, a bad byte in each hundred": lambda: bad_every(characters(TEXTS["ASCII"], 100),
                                                           200_000),
    "every second byte bad": lambda: bad_every(b"a", 1_000_000),
    "all bytes bad": lambda: script([], b"\xff" * 500_000),
    "a last character cut": lambda: script([], characters(TEXTS["CJK"], 200_000) + b"\xd0"),
    "labels among bad bytes": lambda: labels_among_bad(2_000),
    "lines with a tab's columns at one end": lambda: tab_lines(10_000, 1),
    "lines with a tab's columns": lambda: both_tab_lines(10_000),
    "lines with long names": lambda: long_names(2_000),
    "lines with unknown names": lambda: other_names(5_000),
    "lines as most are": lambda: plain_lines(20_000),
    **{
        f"200 links, Cyrillic encoded, {size:,} bytes": lambda size=size: links(
            repeated(ENCODED, size, b"/wiki/")[:size], 200)
        for size in (54, 200, 630, 1_830, 10_000)
    },
    **{
        f"a URL of 50 kB of {part.decode()!r}": lambda part=part: links(repeated(part, 50_000), 1)
        for part in (b"%41", b"a%41", b"a&", b"a ", b"a%", b"aa&", b"[a]", b"&", b" ", b"%zz",
                     b"%%41", b"&key=value")
    },
    **{
        f"a path of 50 kB of {part.decode()!r}": lambda part=part: links(repeated(part, 50_000,
                                                                                  b"/w/"), 1)
        for part in (b"%41", b"a&", b"a ", b"a%", b"aa&", b"[a]", b"&", b" ")
    },
    **{f"200 links, {kind}, 200 bytes": lambda text=text: links(characters(text.replace(" ", "-"),
                                                                           200), 200)
       for kind, text in TEXTS.items()},
    "2,000 links of 10 bytes": lambda: links(b"/a/b?c=d#e", 2_000),
    "2,000 definitions of 20 bytes": lambda: definitions(2_000, 20),
    "2,000 definitions of 65 bytes": lambda: definitions(2_000, 65),
    "2,000 definitions, labels in capitals past ASCII": lambda: definitions(
        2_000, 20, "ПРИВЕТ МИР %06d".encode()),
    "1,000 references, a short label": lambda: references(1_000, b"label"),
    "1,000 references, a label with spaces": lambda: references(1_000,
                                                                b"  a   label  of many   words "),
    "1,000 references, a label past ASCII": lambda: references(1_000, "Метка ПРИМЕР".encode()),
    "1,000 references, a label of 500 bytes": lambda: references(1_000, b"l" * 500),
    "1,000 images in one another, a label of 10 bytes": lambda: images(1_000, b"l" * 10),
    "1,000 images in one another, a label of 500 bytes": lambda: images(1_000, b"l" * 500),
    "a table of empty cells": lambda: cells(100, 50, b""),
    "a table of cells": lambda: cells(20, 200, b"a cell"),
}
