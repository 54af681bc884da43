#!/usr/bin/env python3
"""Compares the edits that must be refused with those of the last release.

    bench/pages/edits.py            compares; the status is 1 if an edit was removed or changed, and
                              nothing says why
    bench/pages/edits.py --write    writes the list again, at a release

`bench/pages/edits.txt` has a line for each edit of the last release: its crate, its name, and a
checksum of what `rt` reads of it (comments don't count). An edit that is gone since, or has another
text, is an item of "Edits that changed" in docs/maintain/GATE.md, which begins with the edit's name
and says what took its place: `md_tree/definition_turned`. An item of an edit that is as it was is
refused too, so the list there is made anew with this one.
"""
import argparse
import hashlib
import pathlib
import re
import sys

ROOT = pathlib.Path(__file__).resolve().parents[2]
LIST = pathlib.Path(__file__).with_name("edits.txt")
PAGE = ROOT / "docs" / "maintain" / "GATE.md"
HEADING = "Edits that changed"
READ = ("file: ", "old: ", "new:")
ITEM = re.compile(r"^- ((?:`\w+/\w+`(?:,\s+)?)+):\s", re.MULTILINE)


def checksum(text):
    """The checksum of the lines of an edit that are read."""
    lines = [line for line in text.split("\n") if line.startswith(READ)]
    return hashlib.sha256("\n".join(lines).encode()).hexdigest()[:16]


def standing():
    """The checksum of each existing edit, by `crate/name`."""
    return {f"{path.parents[1].name}/{path.stem}": checksum(path.read_text(encoding="utf-8"))
            for path in sorted(ROOT.glob("crates/*/must-fail/*.edit"))}


def released():
    """The same for the last release."""
    rows = [line.split() for line in LIST.read_text(encoding="utf-8").splitlines()]
    return {f"{crate}/{name}": known for crate, name, known in rows}


def told():
    """The edits whose replacements the page names."""
    parts = PAGE.read_text(encoding="utf-8").split(f"\n## {HEADING}\n")
    part = parts[1].split("\n## ")[0] if len(parts) > 1 else ""
    return {edit for names in ITEM.findall(part) for edit in re.findall(r"`(\w+/\w+)`", names)}


def main():
    parser = argparse.ArgumentParser(
        description=__doc__, formatter_class=argparse.RawDescriptionHelpFormatter)
    parser.add_argument("--write", action="store_true", help="make the list of a release")
    now = standing()
    if parser.parse_args().write:
        LIST.write_text("".join(f"{edit.replace('/', ' ')} {known}\n"
                                for edit, known in now.items()), encoding="utf-8")
        print(f"edits: {len(now)} listed")
        return 0
    then, page = released(), told()
    changed = {edit: "is gone" if edit not in now else "has another text"
               for edit, known in then.items() if now.get(edit) != known}
    faults = [f"{edit} {how}, and docs/maintain/GATE.md ({HEADING!r}) doesn't name it"
              for edit, how in changed.items() if edit not in page]
    faults += [f"docs/maintain/GATE.md ({HEADING!r}) names {edit}, which is as it was, or was none"
               for edit in sorted(page - set(changed))]
    for fault in faults:
        print(fault)
    if faults:
        return 1
    new = len(set(now) - set(then))
    print(f"edits: {len(now)}, {new} of them new since the release, {len(changed)} changed or gone")
    return 0


if __name__ == "__main__":
    sys.exit(main())
