#!/usr/bin/env python3
"""Compares the clients' list of numbers with the tables in the crates md_base, md_abi and md_ffi.

    numbers_test.py CRATES

Reads the crates' tables as text, in the folder of the crates: the names' array, the constants of
statuses, and the matches of rules, kinds, line endings and options. Ends with status 1 where one
isn't the list's.
"""

import pathlib
import re
import sys

LIST = pathlib.Path(__file__).resolve().parent.parent / "numbers" / "numbers.txt"


def listed(group):
    """The list's pairs of a name and a number in one group, by their numbers."""
    lines = re.findall(rf"^{group} (\d+) (\w+)", LIST.read_text(), re.MULTILINE)
    return sorted(((name, int(number)) for number, name in lines), key=lambda pair: pair[1])


def camel(name):
    """A constant's name as the list has it."""
    return "".join(word.capitalize() for word in name.split("_"))


def names(tables, numbers):
    """The names of the crates' array, numbered from 1, and the number of the others."""
    table = re.search(r"static BY_NUMBER: \[Name; \d+\] = \[(.*?)\];", tables, re.DOTALL)
    other = re.search(r"const OTHER: u16 = (\d+);", numbers)
    found = re.findall(r"Name::(\w+)", table[1]) if table else []
    return [(name, at) for at, name in enumerate(found, 1)] + ([("Other", int(other[1]))] if other
                                                               else [])


def tables(crates):
    """The crates' pairs of a name and a number, by the list's groups."""
    source = {path.stem: path.read_text()
              for crate in ("md_abi", "md_ffi") for path in (crates / crate / "src").glob("*.rt")}
    name_tables = (crates / "md_base" / "src" / "name_tables.rt").read_text()
    statuses = re.findall(r"^(?:pub\(crate\) )?const (\w+): u32 = (\d+);", source["answer"],
                          re.MULTILINE)
    rules = re.findall(r"Rule::(\w+) => (\d+),", source["answer"])
    kinds = re.findall(r"(\d+) => Some\(Kind::(\w+)\)", source["event"])
    endings = re.findall(r"(\d+) => Ok\(LineEnding::(\w+)\)", source["option"])
    options = re.findall(r"^ +(\w+): read_\w+\(.*, (\d+)\)\?,", source["option"], re.MULTILINE)
    attributes = re.findall(r"read_attribute\(&attributes\.(\w+), (\d+)\)\?", source["attributed"])
    version = re.findall(r"const (VERSION): u32 = (\d+);", source["export"])
    return {
        "version": [(name, int(number)) for name, number in version],
        "status": [(camel(name), int(number)) for name, number in statuses],
        "rule": [(name, int(number)) for name, number in rules],
        "kind": [(name, int(number)) for number, name in kinds],
        "line_ending": [(name, int(number)) for number, name in endings],
        "option": [(name, int(number)) for name, number in options],
        "attribute": [(name, int(number)) for name, number in attributes],
        "name": names(name_tables, source["names"]),
    }


def main(arguments):
    """Compares each group; returns the exit status."""
    found = tables(pathlib.Path(arguments[0]))
    wrong = [group for group, pairs in found.items() if pairs != listed(group) or not pairs]
    for group in wrong:
        print(f"numbers: {group}: the crate has {found[group]}, the list {listed(group)}")
    print(f"numbers: {sum(map(len, found.values()))} of the crate are the list's" if not wrong
          else "numbers: failed")
    return 1 if wrong else 0


if __name__ == "__main__":
    sys.exit(main(sys.argv[1:]))
