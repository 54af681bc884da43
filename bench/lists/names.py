#!/usr/bin/env python3
"""Generates all lists of event names from the one list of them, or compares the existing ones.

    bench/lists/names.py            compares; the status is 1 if a text differs
    bench/lists/names.py --write    writes them

The list is the group `name` in `clients/numbers/numbers.txt`. A new name is a line there, in the
part where it belongs, with the next number. This generates the files that consist of lists of
names, whole (`WHOLE`), the variants of the enum, between the marks `bench/lists/names.py: begin`
and `bench/lists/names.py: end`, the imports of all names, and how many names there are, where a
test or a page says so, and has `clients/numbers/generate` write the clients' tables. What a name
means, prints and is in the grammar is by hand (docs/maintain/PROVING.md, "A new name of events").
"""
import argparse
import pathlib
import re
import subprocess
import sys

sys.dont_write_bytecode = True
import name_texts  # noqa: E402  (without bytecode in this folder)
from name_texts import LENGTHS, Name, replaced, with_imports  # noqa: E402

ROOT = pathlib.Path(__file__).resolve().parents[2]
CRATES = ROOT / "crates"
NUMBERS = ROOT / "clients" / "numbers"
SPELLED = CRATES / "md_base" / "specs" / "EventNames.antt"
TABLES = CRATES / "md_base" / "src" / "name_tables.rt"
ROWS = CRATES / "md_script" / "src" / "name_rows.rt"
VARIANTS = CRATES / "md_base" / "src" / "event.rt"
STANDING = CRATES / "md_pattern" / "specs" / "Standing.antt"
BEGIN, END = (rf"^ *// bench/lists/names\.py: {word}$" for word in ("begin", "end"))
# A line of the list that begins so continues the previous one.
CONTINUED = "\n    "
# The places that state the number of names, and by how much each is greater.
COUNTS = [
    ("crates/md_ffi/README.md", r"Names: 1 to (\d+) in the order", 0),
    ("docs/review/DEFINITIONS.md", r"Names 1 to (\d+) are those", 0),
    ("clients/rust/src/tests/names.rs", r"in_order: Vec<u16> = \(1\.\.=(\d+)\)", 0),
    ("clients/tests/batch.c", r"to = \(uint16_t\)\(1 \+ next_under\(state, (\d+)\)\)", 0),
    ("clients/tests/batch.c", r"event->name = \(uint16_t\)next_under\(state, (\d+)\)", 2),
    ("clients/c/tests/compiling.c", r"events\[1\]\.name = (\d+);", 1),
    ("clients/python/tests/test_bivdrazo.py", r"\(1, 0, 0\), \(1, (\d+), 0\)", 1),
]


def read(path):
    return path.read_text(encoding="utf-8")


def listed():
    """The names of the list except `Other`, in its order."""
    part, names = "", []
    for line in read(NUMBERS / "numbers.txt").replace(CONTINUED, " ").splitlines():
        if line.startswith("## "):
            part = line[3:]
        elif line.startswith("name ") and not line.endswith(" Other"):
            match = re.fullmatch(r"name (\d+) (\w+): (.+)", line)
            if match is None:
                sys.exit(f"clients/numbers/numbers.txt: no name with what it is: {line}")
            names.append(Name(int(match[1]), match[2], match[3], part))
            part = ""
    return names


def faults_of(names):
    """The faults of the list."""
    numbers, texts = sorted(name.number for name in names), [name.text for name in names]
    if numbers != list(range(1, len(names) + 1)):
        yield "the numbers of the names aren't 1, 2, 3 and so on"
    if len(set(texts)) < len(texts):
        yield "a name stands twice"
    for text in texts:
        if not re.fullmatch(r"(?!Other)[A-Z][A-Za-z]*", text):
            yield f"{text} isn't in letters, or begins with `Other`"
        if LENGTHS <= len(text):
            yield (f"{text} is too long: change {LENGTHS} in bench/lists/name_texts.py, in"
                   " md_base/src/event_names.rt and in md_script/proofs/NameLemmas.antt")


def with_variants(source, names):
    """The source of the enum with these variants between the marks."""
    lines = name_texts.text_of(name_texts.variants(names))
    return replaced(source, rf"(?ms){BEGIN}\n(.*?)(?={END})", lines)


def rows(names):
    """The rows of the reader, by the current factors if they still separate the names."""
    standing = tuple(map(int, re.findall(r"(?:MIDDLE|LAST): usize = (\d+);", read(ROWS))))
    return name_texts.name_rows(names, standing)


def made_of(names):
    """The new texts of the crates' files."""
    texts = [name.text for name in names]
    mdx = texts.index("MdxEsm")
    standing = [*texts[:mdx], "Other", *texts[mdx:]]
    return {
        **{path: make(names) for path, make in WHOLE.items()},
        VARIANTS: with_variants(read(VARIANTS), names),
        STANDING: with_imports(read(STANDING), standing),
    }


# The files that this generates whole, each with its generator.
WHOLE = {SPELLED: name_texts.spelled_names, TABLES: name_texts.name_tables, ROWS: rows}


def count_texts(names):
    """The new texts of the files that state the number of names."""
    made = {}
    for place, pattern, more in COUNTS:
        path = ROOT / place
        made[path] = replaced(made.get(path) or read(path), pattern, str(len(names) + more))
    return made


def of_clients(write):
    """Whether the clients' tables are up to date, or whether they could be written."""
    words = [NUMBERS / "generate", *([] if write else ["--check"])]
    return subprocess.run(words, check=False).returncode == 0


def main():
    parser = argparse.ArgumentParser(
        description=__doc__, formatter_class=argparse.RawDescriptionHelpFormatter)
    parser.add_argument("--write", action="store_true", help="write what is made")
    write = parser.parse_args().write
    names = listed()
    if faults := list(faults_of(names)):
        sys.exit("\n".join(f"clients/numbers/numbers.txt: {fault}" for fault in faults))
    made = {**made_of(names), **count_texts(names)}
    different = [path for path, text in made.items() if read(path) != text]
    for path in different:
        said = "is written anew" if write else "is not as bench/lists/names.py makes it"
        print(f"{path.relative_to(ROOT)} {said}")
        if write:
            path.write_text(made[path], encoding="utf-8")
    if not of_clients(write) or different and not write:
        return 1
    print(f"names: {len(names)}, each list as it is made")
    return 0


if __name__ == "__main__":
    sys.exit(main())
