#!/usr/bin/env python3
"""Generates the tables by which the check reads a spine, or compares the existing ones.

    bench/lists/tables.py            compares; the status is 1 if a table differs
    bench/lists/tables.py --write    writes them

The rows of `md_pattern/src/spine_state/table.rt`, and the list of places in its `specs/Places.antt`, are
generated from the patterns in `specs/Pattern.antt`, in the order of the roles and symbols in
`src/kinds.rt`. They are proved to be right: this says how they are generated. Numbers of rows that
proofs name (`PlaceLemmas.antt`) are changed by hand. `bench/lists/names.py` generates the lists of
event names.
"""
import argparse
import os
import pathlib
import re
import sys

ROOT = str(pathlib.Path(__file__).resolve().parents[2])
PATTERN = os.path.join(ROOT, "crates", "md_pattern")
STAGES = ["Whole", "Marker", "Numeric", "Hexadecimal", "Setext"]
GROUPS = {
    ("Marker", "ReferenceNumeric"): "Numeric",
    ("Marker", "ReferenceValue"): "Whole",
    ("Numeric", "ReferenceHexadecimal"): "Hexadecimal",
    ("Numeric", "ReferenceValue"): "Whole",
    ("Hexadecimal", "ReferenceValue"): "Whole",
    ("Setext", "LineEnding"): "Setext",
    ("Setext", "SetextUnderline"): "Whole",
}
BEGUN = {"ReferenceMarker": "Marker", "SetextText": "Setext"}


def read(*path):
    with open(os.path.join(*path), encoding="utf-8") as file:
        return file.read()


def variants(source, enum):
    """The variants of an enum, in their order."""
    body = re.search(r"pub enum " + enum + r" \{\n(.*?)\n\}", source, re.S).group(1)
    return re.findall(r"^    (\w+),$", body, re.M)


def patterns(source):
    """The items of each role's pattern, each with the symbols that it takes."""
    text = re.sub(r"\n    ", " ", source)
    members = {name: words.split() for name, words in re.findall(
        r"^members (\w+) = ((?:\w+ ∷ )+)\[\]$", text, re.M)}
    classes = {name: [word for word in words if word != "∷"] for name, words in members.items()}

    def taken(word):
        parts = word.strip("()").split()
        if parts[0] in classes:
            return classes[parts[0]]
        if parts[0] == "OrLine":
            return [parts[1], "LineEnding", "BlankLineEnding"]
        return parts[1:]

    made = {}
    for role, items in re.findall(r"^pattern_of role\.(\w+) = (.*)$", text, re.M):
        made[role] = [(kind, taken(word))
                      for kind, word in re.findall(r"(Once|Maybe|Many) (\([^)]*\)|\w+)", items)]
    return made


def moved(items, place, symbol):
    """The place after a symbol, or None."""
    position, stage = place
    if stage != "Whole":
        following = GROUPS.get((stage, symbol))
        return None if following is None else (position, following)
    for at in range(position, len(items)):
        kind, symbols = items[at]
        if symbol in symbols:
            return (at if kind == "Many" else at + 1, BEGUN.get(symbol, "Whole"))
        if kind == "Once":
            return None
    return None


def may_end(items, place):
    return place[1] == "Whole" and all(kind != "Once" for kind, _ in items[place[0]:])


def places_of(items, symbols):
    """The places that a spine reaches: first those outside groups, each kind by
    position and stage.
    """
    found, new = {(0, "Whole")}, [(0, "Whole")]
    while new:
        place = new.pop()
        for symbol in symbols:
            after = moved(items, place, symbol)
            if after is not None and after not in found:
                found.add(after)
                new.append(after)
    return sorted(found, key=lambda place: (place[1] != "Whole", place[0], STAGES.index(place[1])))


def wrapped(words, indent, limit):
    """Words in lines, each word followed by a space."""
    lines, line = [], ""
    for word in words:
        if line and len(indent) + len(line) + len(word) > limit:
            lines.append(indent + line.rstrip())
            line = ""
        line += word + " "
    return lines + [indent + line.rstrip()]


def place_tables():
    """The new texts of `spine_state.rt`, `table.rt` and `Places.antt`."""
    kinds = read(PATTERN, "src", "kinds.rt")
    symbols, roles = variants(kinds, "Symbol"), variants(kinds, "Role")
    made = patterns(read(PATTERN, "specs", "Pattern.antt"))
    every, starts = [], []
    for role in roles:
        starts.append(len(every))
        every += [(role, place) for place in places_of(made.get(role, []), symbols)]
    numbers = {place: number for number, place in enumerate(every)}
    ends, rows = "", []
    for number, (role, place) in enumerate(every):
        items = made.get(role, [])
        ends += "e" if may_end(items, place) else "-"
        row = ""
        for symbol in symbols:
            after = moved(items, place, symbol)
            row += "." if after is None else chr(ord("m") + numbers[role, after] - number)
        rows.append(row)
    source = read(PATTERN, "src", "spine_state", "table.rt")
    listed = "\n".join(wrapped([f"{start}," for start in starts], "    ", 99))
    source = replaced(source, r"static STARTS: \[u8; \d+\] = \[\n.*?\n\];",
                      f"static STARTS: [u8; {len(roles)}] = [\n{listed}\n];")
    listed = "\\\n    ".join(ends[at:at + 64] for at in range(0, len(ends), 64))
    source = replaced(source, r'static ENDS: \[u8; \d+\] = \*b"[^"]*";',
                      f'static ENDS: [u8; {len(every)}] = *b"\\\n    {listed}";')
    source = replaced(source, r"static ROLES: \[Role; \d+\] = \[\n.*?\n\];",
                      f"static ROLES: [Role; {len(every)}] = [\n"
                      + "".join(f"    Role::{role},\n" for role, _ in every) + "];")
    source = replaced(source, r"static ROWS: \[\[u8; \d+\]; \d+\] = \[\n.*?\n\];",
                      f"static ROWS: [[u8; {len(symbols)}]; {len(every)}] = [\n"
                      + "".join(f'    *b"{row}",\n' for row in rows) + "];")
    source = numbered(source, ("fn starts\\(\\) -> &'static \\[u8; ", len(roles)),
                      ("fn rows\\(\\) -> &'static \\[\\[u8; ", len(symbols)))
    place = numbered(read(PATTERN, "src", "spine_state.rt"),
                     ("self\\.number < ", len(every) - 1), ("row < ", len(every)),
                     ("fn column\\(.{0,150}?result < ", len(symbols)),
                     ("fn number_of_role\\(.{0,150}?result < ", len(roles)))
    spec = read(PATTERN, "specs", "Places.antt")
    spec = replaced(spec, r"(?<=\nplaces =\n).*?(?=\n\n)",
                    list_of([f"at role.{role} {place[0]} {place[1]}" for role, place in every]))
    spec = replaced(spec, r"(?<=\nsymbols =\n).*?(?=\n\n)",
                    list_of([f"symbol.{symbol}" for symbol in symbols]))
    spec = replaced(spec, r"(?<=\nall_roles =\n).*?(?=\n\n)",
                    list_of([f"role.{role}" for role in roles]))
    return [(os.path.join(PATTERN, "src", "spine_state", "table.rt"), source),
            (os.path.join(PATTERN, "src", "spine_state.rt"), place),
            (os.path.join(PATTERN, "specs", "Places.antt"), spec)]


def numbered(source, *places):
    """A source with these numbers, each after the first match of its pattern."""
    for before, number in places:
        words = re.search(before, source, re.S)
        source = source[:words.end()] + re.sub(r"^\d+", str(number), source[words.end():])
    return source


def list_of(words):
    return "\n".join(wrapped([word + " ∷" for word in words] + ["[]"], "    ", 100))


def replaced(source, pattern, new):
    found = re.findall(pattern, source, re.S)
    if len(found) != 1:
        sys.exit(f"bench/lists/tables.py: {pattern!r} stands {len(found)} times")
    return re.sub(pattern, lambda match: new, source, flags=re.S)


def main():
    parser = argparse.ArgumentParser(description=__doc__,
                                     formatter_class=argparse.RawDescriptionHelpFormatter)
    parser.add_argument("--write", action="store_true", help="write the tables")
    given = parser.parse_args()
    different = 0
    for path, made in place_tables():
        with open(path, encoding="utf-8") as file:
            if file.read() == made:
                continue
        different += 1
        what = "is written anew" if given.write else "is not as bench/lists/tables.py makes it"
        print(f"{os.path.relpath(path, ROOT)} {what}")
        if given.write:
            with open(path, "w", encoding="utf-8") as file:
                file.write(made)
    if not different:
        print("tables: as they are made")
    return 1 if different and not given.write else 0


if __name__ == "__main__":
    sys.exit(main())
