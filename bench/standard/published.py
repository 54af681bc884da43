"""Published tests of tree construction, in the format of html5lib's."""

import collections
import pathlib

# Contexts of fragments in which the insertion mode is "in body", and the tokenizer begins
# in the data state.
CONTEXTS = {"div", "td", "th", "p", "span", "li", "section", "body", "button", "a", "b",
            "blockquote"}
HEADS = {"errors", "new-errors", "document-fragment", "script-on", "script-off", "document"}


def tests(folder):
    """Each test of a folder: its text, the fragment's context, if it is one, and the expected
    tree.
    """
    for file in sorted(pathlib.Path(folder).glob("**/*.dat")):
        for block in ("\n" + file.read_text(encoding="utf-8",
                                            errors="surrogateescape")).split("\n#data\n")[1:]:
            parts, name = collections.defaultdict(list), "data"
            for line in block.split("\n"):
                if name != "document" and line.startswith("#") and line[1:] in HEADS:
                    name = line[1:]
                else:
                    parts[name].append(line)
            yield (file.name, "\n".join(parts["data"]), (parts["document-fragment"] or [None])[0],
                   parts["document"])


def dumped(nodes, depth):
    """Nodes in the tests' own form."""
    lines = []
    for node in nodes:
        indent = "| " + "  " * depth
        if isinstance(node, str):
            lines += (indent + '"' + node.encode("latin-1").decode() + '"').split("\n")
            continue
        lines.append(f"{indent}<{node[0]}>")
        lines += [f'{indent}  {name}="{value}"'.encode("latin-1").decode()
                  for name, value in node[1]]
        lines += dumped(node[2], depth + 1)
    return lines
