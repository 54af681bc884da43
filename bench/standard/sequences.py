"""Compares construction.py with html5lib on all short sequences of tags, in a div.

sequences.py LENGTH: each sequence of at most LENGTH start and end tags of the grammar's elements
and void tags, with a letter after each; whether an element may be there or is open makes no
difference. construction.py must build the same tree, or be stuck, also in a table whose text waits.
"""

import itertools
import sys

import construction
import html5lib
from trees import MODEL, NAMESPACE, PLACES, VOIDS, built_tree, parsed_tree

NAMES = sorted({name for content in MODEL.values() for name in content})
TAGS = [kind for name in NAMES for kind in ((name, "start"), (name, "end"))]
TAGS += [(name, "start") for name in VOIDS["flow"]]


def differs(sequence):
    """None if both build the same tree, "stuck", or the two trees."""
    before, names, mode = PLACES["div"]
    tokens, text = [], ""
    for name, kind in sequence:
        if kind == "start":
            tokens += [("start", name, []), ("character", "x")]
            text += f"<{name}>x"
        else:
            tokens += [("end", name), ("character", "x")]
            text += f"</{name}>x"
    parser = construction.built(mode, names, tokens)
    if parser is None or parser.pending:
        return "stuck"
    document = html5lib.parse(before + text)
    while len(parser.stack) > 1:
        parser.pop()
    ours = built_tree(parser.stack[0].children)[0][2]
    theirs = parsed_tree(document.find(NAMESPACE + "body"))
    return None if ours == theirs else f"{text}: {ours} and {theirs}"


def main(length):
    same = stuck = 0
    for count in range(1, length + 1):
        for sequence in itertools.product(TAGS, repeat=count):
            found = differs(sequence)
            if found is None:
                same += 1
            elif found == "stuck":
                stuck += 1
            else:
                print(found)
                return 1
    print(f"sequences of at most {length} of {len(TAGS)} tags: {same} the same, {stuck} stuck")
    return 0


if __name__ == "__main__":
    sys.exit(main(int(sys.argv[1])))
