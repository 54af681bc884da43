#!/usr/bin/env python3
"""Compares the executable model of GFM (bench/gfm) with the program `mdhtml`.

    bench/tests/model.py PROGRAM [COUNT [SEED]]

PROGRAM is crates/mdhtml/out/mdhtml, which `rt ci` builds. Both read the same documents, and must
print the same HTML; in a document with several kinds of line endings all are compared as one, since
the model prints only the first kind:
- the examples of the GFM specification and of CommonMark 0.30, as bench/tests/markdown.py has them;
- its own cases (bench/tests/markdown_cases.py, docs/use/MARKDOWN.md, clients/tests/documents.py)
  under the options that the model has;
- COUNT random documents (10,000), the same ones for the same SEED (1): examples and own cases that
  are changed, and short texts of marks. Some are read under other options.
Before that it compares the names of the definitions of blocks with the model's functions
(bench/gfm/names.py). The specifications are those of Debian's cmark-gfm and of its crate of
pulldown-cmark: a set whose file is missing is left out, which is reported. The status is 1 if
something differs.
"""

import glob
import os
import pathlib
import random
import re
import sys

import markdown
import markdown_cases

ROOT = pathlib.Path(__file__).resolve().parents[2]
sys.path[:0] = [str(ROOT / "bench"), str(ROOT / "clients" / "tests")]
sys.dont_write_bytecode = True

import documents
from gfm import names
from gfm.model import html_of
from gfm.options import options_of

COUNT, SEED = 10_000, 1
SHOWN = 10
LONGEST = 1500
OTHER_OPTIONS = (
    ("--math", "--front-matter"),
    ("--math", "--hard-breaks", "--no-tables"),
    ("--no-footnotes", "--no-tables", "--no-bare-links"),
)
# Two faults of the parser, in random documents alone. In a bracket that ends nowhere it finds no
# link in such a line of a quote, and finds it with a space after the mark: `> [a\n>www.b.c`. It
# prints an empty line for a footnote between paragraphs of an item:
# `- a\n\n  [^1]: b\n\n  c[^1]`.
LINK_AT_MARK = re.compile(rb">www\.", re.IGNORECASE)
EMPTY_LINE = re.compile(rb"</p>(\r\n|\n|\r)\1<p>")
BLOCK_MARKS = (
    "> ", ">", "- ", "-", "1. ", "2) ", "+ ", "\t", " ", "  ", "    ", "\n", "\n", "\n\n", "a", "b",
    "# ", "```", "~~~", "    c", "[x] ", "[ ] ", "[x]\t", "| a |", "|-|", "---", "===", "***",
    "<div>", "</b>", "<!--", "-->", "[^a]: ", "[^b]: ", "[^a]", "[a]: ", "/u", "'t", "'", "\r\n",
    "1", "- - ", "* ", "|", ":-", "<pre>", "</pre>", "<b", "$$", "---\n", "<p/>",
)
INLINE_MARKS = (
    "*", "**", "_", "__", "~", "~~", "`", "``", "[", "]", "![", "](", ")", "(", "](/u)", "[^a]",
    "[a]", "[]", "<", ">", "<http://a.b>", "<a@b.c>", "<b>", "</b>", "<b c='", "'", '"', "&amp;",
    "&#35;", "\\", "a", "b ", " ", "  \n", "\n", "www.a.b", "http://a.b", "@b.c", "mailto:", ".",
    "\u00e9", "\u00a0", "!", "_a", ";", "/", "<!--", "-->", "<?", "?>", "\\\n", "xmpp:", "://a.b",
    "www.", "$", "$$", "\0", "|", "@", ":",
)
AFTER_INLINES = "\n\n[a]: /v 't'\n\n[^a]: n\n"


def with_endings(text, ending):
    """A text with this line ending for each."""
    return re.sub(rb"\r\n?|\n", ending, text)


def is_same(document, meant, text):
    """Whether the model's text and the parser's are the same HTML of a document."""
    if text is None:
        return False
    text = EMPTY_LINE.sub(rb"</p>\1<p>", text)
    if len(set(re.findall(rb"\r\n?|\n", document))) < 2:
        return meant == text
    return with_endings(meant, b"\n") == with_endings(text, b"\n")


def differing(program, given, words):
    """The documents whose HTML differs under options: each with the model's and the parser's."""
    options = options_of(words)
    found = []
    for document, text in zip(given, markdown.framed(program, given, *words)):
        meant = html_of(document, options)
        if not is_same(document, meant, text):
            found.append((document, meant, text))
    return found


def report(name, program, cases):
    """Prints how many documents of a set agree; returns how many don't. A case is the options and
    documents.
    """
    count, different = 0, []
    for words, given in cases:
        count += len(given)
        different += [(words, *found) for found in differing(program, given, words)]
    print(f"model: of {count} {name} {count - len(different)} give the model's HTML", flush=True)
    for words, document, meant, text in sorted(different, key=lambda one: len(one[1]))[:SHOWN]:
        print(f"model: {' '.join(words)} {document!r}\n    model  {meant!r}\n    mdhtml {text!r}")
    return len(different)


def by_name():
    """Prints how many definitions of blocks there are; returns how many only one side has."""
    count, found = names.differences()
    print(f"model: {count} definitions of blocks, each also in the model")
    for fault in found:
        print(f"model: {fault}")
    return len(found)


def commonmark():
    """The examples of CommonMark; none if they are missing."""
    files = glob.glob(markdown.COMMONMARK)
    source = pathlib.Path(files[0]).read_text("utf-8") if files else ""
    return [given.encode("utf-8") for given, _ in markdown.EXAMPLE.findall(source)]


def page_cases():
    """The cases of docs/use/MARKDOWN.md with their options."""
    page = (ROOT / "docs" / "use" / "MARKDOWN.md").read_text("utf-8")
    cases = []
    for section in re.split(r"^## ", page, flags=re.MULTILINE):
        found = re.search(r"Options of these cases: `([^`]+)`", section)
        words = tuple(found[1].split()) if found else ()
        for code, _, _ in markdown.CASE.findall(section):
            text = code[3:-3] if code.startswith("``") else code[1:-1]
            for name, character in markdown.CHARACTERS:
                text = text.replace(name, character)
            cases.append((words, [text.encode("utf-8") + b"\n"]))
    return cases


def limits():
    """Documents at each limit of the parser and beyond it, and what is rare in random documents."""
    texts = ["> - <div>\n>\ta\n>\t b\n", ">\t\t- a\n>\n>\t\tb\n",
             "[a](b\x7fc) [a](<b\x7fc>)\n", "[a]: b\x7fc\n\n[a]\n", "[a](b (c(d))\n",
             "[a]: b (c(d)\n\n[a]\n", "|a" * 1024 + "\n" + "|-" * 1024 + "\n" + "|a\n" * 520]
    for count in (1, 2):
        texts += [f"[a]({'(' * 31}{'(' * count}{')' * 31}{')' * count})\n",
                  f"<a{'b' * 30}{'c' * count}:d> <a@{'b' * 62}{'c' * count}.d>\n"]
        for label in ("a" * 998, "a\n" * 499):
            label += "b" * count
            texts.append(f"[{label}]\n[c][{label}]\n\n[{label}]: d\n")
        label = "a" * 997 + "b" * count
        texts.append(f"[^{label}]\n\n[^{label}]: d\n")
    for depth in range(93, 98):
        texts += [">" * depth + "- a\n", ">" * depth + "[^a]: b c\n", "- " * (depth // 2) + "> a\n"]
    return texts


def encoded(texts):
    """Texts as documents."""
    return [text.encode("utf-8") for text in texts]


def own_cases():
    """Our own documents with their options, where the model has these."""
    texts = [*markdown_cases.AS_GFM, *documents.OWN, markdown_cases.references()[0],
             markdown_cases.deep(200, markdown.MOST_DEPTH)[0], *limits()]
    most = markdown.MOST_NESTED
    for depth in (most, most + 1, 3 * most):
        texts += [text for text, _ in markdown_cases.nested(depth, most)]
    marked = [markdown_cases.behind(count) + text for text in markdown_cases.MARKED
              for count in range(4, markdown.OFFSETS + 4)]
    cases = [((), encoded(texts)), (("--math",), encoded(marked))]
    cases += [(words, encoded(text for text, _ in given))
              for words, given in markdown_cases.BY_OPTIONS]
    return [(words, given) for words, given in cases + page_cases()
            if options_of(words) is not None]


def short(generator):
    """A short text of marks: of blocks, of inlines, or of both."""
    words, after = generator.choice((
        (BLOCK_MARKS, "\n"), (INLINE_MARKS, AFTER_INLINES), (BLOCK_MARKS + INLINE_MARKS, "\n")))
    count = generator.randint(2, 14)
    return ("".join(generator.choice(words) for _ in range(count)) + after).encode("utf-8")


def changed(bases, generator):
    """A document that is made of one or two others by some changes."""
    text = documents.mutate(bases, generator)
    if generator.random() < .3:
        text += generator.choice(bases).encode("utf-8")
    return text[:LONGEST].decode("utf-8", "ignore").encode("utf-8")


def one_random(bases, generator):
    """A random document, whose line endings are like its first."""
    while True:
        text = short(generator) if generator.random() < .5 else changed(bases, generator)
        if not LINK_AT_MARK.search(text):
            first = re.search(rb"\r\n?|\n", text)
            return with_endings(text, first[0]) if first else text


def random_cases(count, seed, bases):
    """So many random documents, of which a tenth is read under each of the other options."""
    generator = random.Random(seed)
    given = [one_random(bases, generator) for _ in range(count)]
    part = count // 10
    cases = [(words, given[number * part:(number + 1) * part])
             for number, words in enumerate(OTHER_OPTIONS)]
    return cases + [((), given[len(OTHER_OPTIONS) * part:])]


def main(arguments):
    """Compares the sets; the status to end with."""
    program = os.path.abspath(arguments[0])
    count, seed = map(int, (arguments[1:] + [COUNT, SEED][len(arguments) - 1:])[:2])
    bases, wrong = list(documents.OWN) * 30 + list(markdown_cases.AS_GFM), by_name()
    has_gfm = documents.SPECIFICATION.exists()
    sets = (("GFM", documents.examples() if has_gfm else [], "cmark-gfm"),
            ("CommonMark", commonmark(), "librust-pulldown-cmark-dev"))
    for name, given, package in sets:
        if given:
            wrong += report(f"examples of {name}", program, [((), given)])
            bases += [document.decode("utf-8") for document in given]
        else:
            markdown.left_out(f"the examples of {name} by the model", package)
    wrong += report("documents of our own", program, own_cases())
    wrong += report("random documents", program, random_cases(count, seed, bases))
    return 1 if wrong else 0


if __name__ == "__main__":
    if not sys.argv[1:]:
        sys.exit(__doc__)
    sys.exit(main(sys.argv[1:]))
