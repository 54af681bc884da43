"""The cases that are written by hand: `cases/rules/code.txt` has the group `rules::code`.

A case is a line `%%%% NAME`, its script, a line `%%%%` and its answer. In a script a node may stand
in one line, `NAME START END`, with its children in the lines below it, each one space further in;
every other line is taken as it is.
"""
import pathlib
import re
import sys

from trees import Case

FOLDER = pathlib.Path(__file__).parents[1] / "cases"
NODE = re.compile(rb"( *)(\w+) ([\d.]+) ([\d.]+)")


def unfolded(script):
    """The script in which each node is the two lines of its events."""
    lines, exits = [], []
    head, mark, document = script.partition(b"\n--\n")
    for line in head.split(b"\n") if mark else []:
        found = NODE.fullmatch(line)
        while exits and (found is None or len(found.group(1)) < len(exits)):
            lines.append(exits.pop())
        if found:
            _, name, start, end = found.groups()
            lines.append(b"+%s %s" % (name, start))
            exits.append(b"-%s %s" % (name, end))
        else:
            lines.append(line)
    return b"\n".join([*lines, *reversed(exits)]) + mark + document if mark else script


def cases_of(group, path):
    """The cases of a group."""
    parts = re.split(rb"(?m)^%%%%(?: ([^\n]*))?\n", path.read_bytes())
    names, scripts, answers = parts[1::4], parts[2::4], parts[4::4]
    if parts[0] or None in names or any(parts[3::4]) or len(names) != len(answers):
        sys.exit(f"{path}: a case is a line `%%%% NAME`, its script, a line `%%%%` and its answer")
    return [Case(f"{group}: {name.decode()}", unfolded(script.removesuffix(b"\n")),
                 answer.removesuffix(b"\n"))
            for name, script, answer in zip(names, scripts, answers)]


def sections():
    """The cases of each group, in the order of their files."""
    paths = {"::".join(path.relative_to(FOLDER).with_suffix("").parts): path
             for path in FOLDER.rglob("*.txt")}
    return {group: cases_of(group, paths[group]) for group in sorted(paths)}
