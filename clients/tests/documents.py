"""Documents to render: the examples of the GFM specification, and mutations of these and of our
own.

    documents.py COUNT SEED    writes the examples and COUNT mutated documents, each after its
                               length and a line feed
"""

import gzip
import pathlib
import random
import sys

SPECIFICATION = pathlib.Path("/usr/share/doc/cmark-gfm/spec.txt.gz")
FENCE = "`" * 32
ARROW = "\u2192"  # a tab in the specification

# Syntax that is rare in the specification: footnotes, tasks, tables, nesting.
OWN = (
    "a[^b] c[^d] e[^b]\n\n[^b]: one\n\n    two\n\n[^d]: > three[^b]\n",
    "- [ ] a\n- [x] b\n  - [x] c\n\n    d\n- e\n",
    "| a | b | c |\n|:--|:-:|--:|\n| `x\\|y` | **z** | ![i](j 'k') |\n| l |\n",
    "> - a\n>   ```rust x\n>   b\n>   ```\n>   c\n>\n> 7. d\n",
    "[a](javascript:b) <irc://c> ![d](data:image/png;x) [e](it's%zz) www.f.org/g?h=i&j\n",
    "- a\n  | b |\n  |---|\n  | c |\n  d\n- e\n",
    "<div>\n<script>alert(1)</script>\n</div>\n\na <b onclick='c'>d</b> <!-- e -->\n",
    "1. a\n\n   b\n2. - c\n     # d\n     e\n",
    "~~a *b ~c~ d*~~ ![e *f* `g`\n h\\\ni](j) `` k ` l ``\n",
    "[^\u00c9]: a\n\nb[^\u00e9] c[^\u00c9]\n\n&#0; &copy; &lt; \\< \u00a0 \u2029\n",
    "[^b]: one[^c]\n\na[^d] e[^b]\n\n[^d]: | f |\n    |---|\n    | g[^b] |\n\n"
    "[^c]: ```\n    h\n    ```\n\n[^i]: j[^d]\n",
    "> [^a]: b[^c]\n>\n> d[^a] ![e[^a]](f)\n\n- g[^c]\n\n  [^c]: h\n- [x] [^i]: j\n\nk[^i]\n",
    "a[^ ![b *c*\n \u00dcd\\\u00e9]&\u00fc(e) [^f\u00fc\n \u00ebg]\n\n[^f]: h\n",
    "| a |\n|---|\n| `b\\\\|c` `` \\\\\\| ` `` `|\n\n`d\\|e`\n",
    "a\r- b\r- c\r\r  ```\r  d\r\n  ```\r\n<i>\rj\r\r| k |\r|---|\r",
)

# Pieces to insert into a document: marks of the syntax, and characters that parsers treat
# specially.
PIECES = (
    "*", "_", "**", "`", "```\n", "~~", "[", "]", "(", ")", "![", "<", ">", "> ", "- ", "1. ", "\n",
    "\n\n",
    "    ", "\t",
    "# ", "|", "|-|\n", "\\", "&", "&amp;", "&#10;", "[^a]", "[^a]: ", "[a]: b\n", "- [x] ",
    "- [ ]\n",
    "http://a.b", "www.a.b",
    "a@b.c", "javascript:", "data:", "%", "'", '"', "<b>", "<!--", "-->", "<a href='x'>", "\r",
    "\r\n", "\u00e9",
    "\U0001fa90",
    "\ufffd", "\0", "---\n", "===\n", "<javascript:x>", "[x](y 'z')", "&quot;", "\u2028",
)


def examples():
    """The Markdown of each example of the specification, in order."""
    text = gzip.decompress(SPECIFICATION.read_bytes()).decode("utf-8")
    found = []
    for part in text.split(f"\n{FENCE} example")[1:]:
        markdown = part.split("\n", 1)[1].split(f"\n{FENCE}", 1)[0]
        markdown = ("\n" + markdown).split("\n.\n", 1)[0][1:]
        found.append((markdown.replace(ARROW, "\t") + "\n").encode("utf-8"))
    return found


def mutate_once(text, other, generator):
    """A text with one change: a piece is inserted, or a part is removed, repeated, or taken from
    the other text.
    """
    start = generator.randrange(len(text) + 1)
    end = min(len(text), start + generator.randrange(1, 12))
    choice = generator.randrange(5)
    if choice == 0:
        return text[:start] + text[end:]
    if choice == 1:
        return text[:end] + text[start:]
    if choice == 2:
        at = generator.randrange(len(other) + 1)
        return text[:start] + other[at : at + generator.randrange(40)] + text[start:]
    return text[:start] + generator.choice(PIECES) + text[start:]


def mutate(bases, generator):
    """A document that is made of one of the others by some changes; now and then a byte
    is none of UTF-8.
    """
    text = generator.choice(bases)
    for _ in range(generator.randrange(1, 9)):
        text = mutate_once(text, generator.choice(bases), generator)
    document = text.encode("utf-8")
    if generator.randrange(20) == 0:
        at = generator.randrange(len(document) + 1)
        document = document[:at] + bytes([generator.randrange(128, 256)]) + document[at:]
    return document


def mutated(count, seed):
    """So many mutated documents; the same ones for the same seed."""
    generator = random.Random(seed)
    bases = [document.decode("utf-8") for document in examples()] + list(OWN) * 30
    return [mutate(bases, generator) for _ in range(count)]


def main(arguments):
    """Writes the documents as frames."""
    count, seed = map(int, arguments)
    for document in (*examples(), *mutated(count, seed)):
        sys.stdout.buffer.write(b"%d\n%s" % (len(document), document))


if __name__ == "__main__":
    main(sys.argv[1:])
