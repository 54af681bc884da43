"""Adds a `rel` to links and ids to headings, and has chromium read each text.

    BIVDRAZO_LIBRARY=clients/out/libbivdrazo.so.3 attributes.py

Tests the documents of clients/tests/attributes_test.py. The tree that chromium builds of a text
with attributes, inserted by `innerHTML` of an element, must have the same elements and texts as the
tree of the text without them in a `div`, and exactly these attributes in addition. Each document is
inserted into EACH of the elements that trees.py lists, one after another. Requires chromium,
html5lib and what `clients/build` made.
"""
import pathlib
import sys

from built import by_browser
from trees import CONTEXTS

ROOT = pathlib.Path(__file__).resolve().parents[2]
EACH = 8
sys.path.insert(0, str(ROOT / "clients" / "tests"))
import attributes_test  # noqa: E402
from bivdrazo import markdown_to_html, markdown_with_headings  # noqa: E402


def parts(nodes):
    """The texts of some nodes, and their elements with their attributes, in the order in
    which they begin.
    """
    for node in nodes:
        if isinstance(node, str):
            yield node, None
        else:
            yield node[0], dict(node[1])
            yield from parts(node[2])


def wanted(plain, rel):
    """The same with the requested attributes."""
    number = 0
    for name, attributes in plain:
        attributes = attributes and dict(attributes)
        href = attributes.get("href", "") if attributes else ""
        if name == "a" and href and not href.startswith("#"):
            attributes["rel"] = attributes_test.read(rel)
        if attributes is not None and name in attributes_test.HEADINGS and "id" not in attributes:
            number += 1
            attributes["id"] = f"part-{number}"
        yield name, attributes


def main():
    """Tries all documents; the status to end with."""
    given = attributes_test.documents()
    rels = [attributes_test.RELS[at % len(attributes_test.RELS)] for at in range(len(given))]
    plain = [markdown_to_html(text, number_ids=True) for text in given]
    made = [markdown_with_headings(text, "part-", rel=rel, number_ids=True)[0]
            for text, rel in zip(given, rels)]
    alone = by_browser([["div", text] for text in plain])
    faults = 0
    for turn in range(EACH):
        around = [CONTEXTS[(at + turn) % len(CONTEXTS)] for at in range(len(given))]
        read = by_browser([[name, text] for name, text in zip(around, made)])
        for text, rel, name, before, after in zip(given, rels, around, alone, read):
            if list(wanted(parts(before), rel)) != list(parts(after)):
                faults += 1
                print(f"{text!r} in {name}: {before} {after}")
    print(f"chromium: {len(given)} documents, each in {EACH} of {len(CONTEXTS)} elements, "
          f"{faults} faults")
    return 1 if faults else 0


if __name__ == "__main__":
    sys.exit(main())
