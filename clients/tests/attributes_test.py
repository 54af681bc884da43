"""Adds a `rel` to links and ids to headings, and reads each text as browsers do.

    attributes_test.py

Goes over the examples of the GFM specification, where they are there, documents of our own, attacks
and mutated documents. Beside a text without attributes the one with them must have the same
elements and texts, and exactly these attributes more; its ids must be distinct, and the headings
those that are returned. Where the bytes of the id of the footnotes' heading are taken out of the
text, that id is gone, and nothing else. Then a hundred thousand links, and as many headings. Wants
html5lib, and the module for Python.
"""

import html
import pathlib
import random
import sys

import html5lib

HERE = pathlib.Path(__file__).resolve().parent
sys.path.insert(0, str(HERE.parent / "python"))
from attacks import ATTACKS, MORE  # noqa: E402  (beside this file)
from bivdrazo import markdown_to_html, markdown_with_headings  # noqa: E402
from documents import OWN, SPECIFICATION, examples, mutate  # noqa: E402

HEADINGS = ("h1", "h2", "h3", "h4", "h5", "h6")
MANY = 100_000
MUTATED = 2_000
NESTED = (
    "[a [b](c) ![d [e](f)](g)](h '\" rel=\"')\n",
    "# [a](b) *c* `<d>`\n> e\n> f\n> ===\n\n- ## g[^h]\n\n[^h]: ### i [j](k)\n",
    "<http://a.b> <c@d.e> www.f.g [h](#i) [j]() [k](javascript:l) [m](%23n) [o](\\#p)\n",
    "a\n===\n\nb\n---\n\n###### c\n####### d\n\n| [e](f) |\n|---|\n| # g |\n",
)
LABEL = ' id="footnote-label"'
RELS = ("nofollow ugc", "", "\"'<&>\0\u00e9\r\nb", "a\" href=\"javascript:c")


def elements(text):
    """The elements of a text, as a browser has them in a page's body."""
    tree = html5lib.parseFragment(text, treebuilder="etree", namespaceHTMLElements=False)
    return list(tree.iter())[1:]


def read(text):
    """A text as the value of an attribute that is read back."""
    return text.replace("\0", "\ufffd").replace("\r\n", "\n").replace("\r", "\n")


def fault_of(before, after, rel, number):
    """What is wrong with an element that may have got an attribute; `number` is that of
    the next heading.
    """
    wanted = dict(before.attrib)
    href = wanted.get("href", "")
    if before.tag == "a" and href and not href.startswith("#"):
        wanted["rel"] = read(rel)
    if before.tag in HEADINGS and "id" not in wanted:
        wanted["id"] = f"part-{number}"
    same = (before.tag, before.text, before.tail) == (after.tag, after.text, after.tail)
    return (None if same and wanted == dict(after.attrib)
            else f"{after.tag}: {dict(after.attrib)}, not {wanted}")


def listing(heading):
    """A heading as it is returned: its level, and its text."""
    return int(heading.tag[1]), " ".join("".join(heading.itertext()).split("\n"))


def faults(markdown, rel):
    """What is wrong with the attributes of a document."""
    plain = elements(markdown_to_html(markdown, number_ids=True))
    text, headings = markdown_with_headings(markdown, "part-", rel=rel, number_ids=True)
    made = elements(text)
    if len(plain) != len(made):
        return ["other elements"]
    found, numbered = [], []
    for before, after in zip(plain, made):
        found.append(fault_of(before, after, rel, len(numbered) + 1))
        if before.tag in HEADINGS and "id" not in before.attrib:
            numbered.append(after)
    ids = [element.attrib["id"] for element in made if "id" in element.attrib]
    if len(set(ids)) != len(ids):
        found.append("an id is there twice")
    listed = [(heading.level, html.unescape(heading.text)) for heading in headings]
    if listed != [listing(heading) for heading in numbered]:
        found.append(f"the headings are listed as {listed}")
    if [heading.number for heading in headings] != list(range(1, len(headings) + 1)):
        found.append("the headings have other numbers")
    if not is_without_label(made, elements(text.replace(LABEL, ""))):
        found.append("the id of the label can't be taken out")
    return [fault for fault in found if fault is not None]


def is_without_label(made, without):
    """Whether the others are the same elements without the id of the footnotes' heading."""
    for element in made:
        if element.attrib.get("id") == "footnote-label":
            del element.attrib["id"]
    shown = [[(it.tag, it.text, it.tail, dict(it.attrib)) for it in each]
             for each in (made, without)]
    return shown[0] == shown[1]


def documents():
    """The documents as texts."""
    given = [*NESTED, *OWN, *(markdown for _, markdown in ATTACKS), *MORE]
    if SPECIFICATION.exists():
        given += [example.decode("utf-8") for example in examples()]
    generator = random.Random(1)
    mutated = [mutate(given, generator).decode("utf-8", errors="replace") for _ in range(MUTATED)]
    return given + mutated


def many_faults():
    """What is wrong with very many links, and with very many headings."""
    found = []
    text = markdown_to_html("[a](b)\n" * MANY, rel="x")
    if text.count('<a href="b" rel="x">a</a>') != MANY:
        found.append("of many links one has no rel")
    text, headings = markdown_with_headings("# a\n" * MANY, "x")
    if len(headings) != MANY or not text.endswith(f'<h1 id="x{MANY}">a</h1>\n'):
        found.append("of many headings one has no id")
    return found


def main():
    """Tries all documents; returns the exit status."""
    given = documents()
    found = [(text, fault) for at, text in enumerate(given)
             for fault in faults(text, RELS[at % len(RELS)])]
    found += [("many", fault) for fault in many_faults()]
    for text, fault in found[:20]:
        print(f"{text!r}: {fault}")
    print(f"attributes: {len(given)} documents, {MANY} links, {MANY} headings, {len(found)} faults")
    return 1 if found else 0


if __name__ == "__main__":
    sys.exit(main())
