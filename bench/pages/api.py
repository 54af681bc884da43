#!/usr/bin/env python3
"""Compares docs/use/API.md with what the code exports.

    bench/pages/api.py

For md_base, md_text, md_tree, md_html, md_script, md_page, md_slugs, md_reader, md_clean and
md_markdown: the names at the root and the methods of the types among them are exactly those of the
crate's list and of the table at the end. md_html re-exports exactly the names of the lists of md_base, md_text and md_tree.
The C headers have each name of their list, and declare no function except these and those that
their own functions call. Each other crate's README says that it is internal. It prints each
difference, and the status is 1 if there is one.
"""

import pathlib
import re
import sys

ROOT = pathlib.Path(__file__).resolve().parents[2]
CRATES = ["md_base", "md_text", "md_tree", "md_html", "md_script", "md_page", "md_slugs",
          "md_reader", "md_clean", "md_markdown"]
BELOW_HTML = ["md_base", "md_text", "md_tree"]
# Crates whose own list has what they re-export from lower crates.
HANDED_ON = {"md_script": {"md_html"}, "md_markdown": {"md_html", "md_blocks"}}
# The C interface, the programs and the benchmark, whose folder stays as it is; what the README of
# each other crate says.
OTHERS = ["md_ffi", "mdevents", "mdhtml", "mdclean", "md_bench"]
INTERNAL = "Internal: users call nothing of it ([docs/use/API.md](../../docs/use/API.md))."
# What the inline functions of the headers call.
HELPERS = {"bivdrazo_answer_memory", "bivdrazo_is_too_long", "bivdrazo_first_size", "bivdrazo_grow",
           "bivdrazo_settle", "bivdrazo_markdown_alloc", "bivdrazo_markdown_alloc_by",
           "bivdrazo_markdown_first_size", "bivdrazo_markdown_lines", "bivdrazo_markdown_texts"}


# An item of a list that begins with names, up to the colon before their description.
ITEM = re.compile(r"^- (`[^`]*`(?:,\s+`[^`]*`)*):\s", re.MULTILINE)


def named(cell):
    """The names at the beginning of an item or in a cell, without their arguments."""
    return {re.sub(r"\(.*", "", name) for name in re.findall(r"`([^`]*)`", cell)}


def listed(page):
    """For each heading of the page its items with names, and the rows of its table, as cells."""
    found = {}
    for part in re.split(r"^## ", page, flags=re.MULTILINE)[1:]:
        heading, text = part.split("\n", 1)
        rows = re.findall(r"^\| (?!crate \|)(.*) \|$", text, re.MULTILINE)
        found[heading.strip("`")] = [[names] for names in ITEM.findall(text)] + [
            row.split(" | ") for row in rows]
    return found


def sources(crate):
    """The texts of a crate's sources, without comments."""
    for path in sorted((ROOT / "crates" / crate / "src").rglob("*.rt")):
        yield path, re.sub(r"//.*", "", path.read_text())


def exported(crate):
    """The names that a crate's root makes public itself, and those that it re-exports from lower
    crates, by crate.
    """
    root = re.sub(r"//.*", "", (ROOT / "crates" / crate / "src" / "lib.rt").read_text())
    own, handed = set(), {}
    for path, names in re.findall(r"^pub use ([\w:]+)::(\{[^}]*\}|\w+);", root, re.MULTILINE):
        below = path.split("::")[0]
        into = handed.setdefault(below, set()) if below.startswith("md_") else own
        into.update(re.findall(r"\w+", names))
    own.update(re.findall(r"^pub (?:const fn|fn|struct|enum|trait|type|const|static|mod) (\w+)",
                          root, re.MULTILINE))
    return own, handed


def methods(crate, types):
    """The public methods of these types that a crate defines."""
    blocks = re.compile(r"^impl(?:<[^{]*?>)? (\w+)(?:<[^{]*?>)? \{\n(.*?)^\}",
                        re.MULTILINE | re.DOTALL)
    found = set()
    for _, text in sources(crate):
        for kind, body in blocks.findall(text):
            if kind in types:
                found |= {f"{kind}::{name}" for name in re.findall(r"^    pub (?:const )?fn (\w+)",
                                                                   body, re.MULTILINE)}
    return found


def told(what, expected, found):
    """A fault for each name that is only on one side."""
    return [f"{what}: {name} isn't in docs/use/API.md" for name in sorted(found - expected)] + [
        f"{what}: docs/use/API.md has {name}, which isn't there"
        for name in sorted(expected - found)]


def crates_faults(found):
    """The differences in the seven crates."""
    public = {crate: {name for row in found[crate] for name in named(row[0])} for crate in CRATES}
    inner = [(named(row[0]), named(row[1])) for row in found["Exported, and not for users"]]
    faults = []
    for crate in CRATES:
        others = {name for crates, names in inner if crate in crates for name in names}
        own, handed = exported(crate)
        for below in HANDED_ON.get(crate, ()):
            own |= handed.pop(below, set())
        faults += told(crate, public[crate] | others, own | methods(crate, own))
        if crate == "md_html":
            for below in BELOW_HTML:
                roots = {name for name in public[below] if "::" not in name}
                faults += told(f"md_html, of {below}", roots, handed.get(below, set()))
        if set(handed) - (set(BELOW_HTML) if crate == "md_html" else set()):
            faults.append(f"{crate} hands on names of {', '.join(sorted(handed))}")
    return faults


def header_faults(found):
    """The differences in the C headers, and in the functions that the library exports to them."""
    headers = [(ROOT / "clients" / "c" / name).read_text()
               for name in ("bivdrazo.h", "bivdrazo_types.h", "bivdrazo_alloc.h",
                            "bivdrazo_numbers.h", "bivdrazo_markdown.h")]
    header = re.sub(r"/\*.*?\*/", "", "\n".join(headers), flags=re.DOTALL)
    expected = {name for row in found["The C interface"] for name in named(row[0])}
    types = set(re.findall(r"^\} (bivdrazo_\w+);", header, re.MULTILINE))
    functions = set(re.findall(r"^(?:static inline )?[\w ]+?[ *](bivdrazo_\w+)\(", header,
                               re.MULTILINE))
    faults = told("C headers", expected, types | functions - HELPERS)
    made = "".join(text for _, text in sources("md_ffi"))
    given = set(re.findall(r'extern "C" fn (\w+)', made))
    declared = set(re.findall(r"^(?!static)\w[\w ]*?[ *](bivdrazo_\w+)\(", header, re.MULTILINE))
    return faults + [f"md_ffi and the C headers differ in {name}" for name in sorted(given ^ declared)]


def readme_faults():
    """The READMEs of internal crates that don't say that they are."""
    for folder in sorted((ROOT / "crates").iterdir()):
        if folder.name not in [*CRATES,
                               *OTHERS] and INTERNAL not in (folder / "README.md").read_text():
            yield f"crates/{folder.name}/README.md lacks: {INTERNAL}"


def main():
    """Says what differs."""
    found = listed((ROOT / "docs" / "use" / "API.md").read_text())
    faults = [*crates_faults(found), *header_faults(found), *readme_faults()]
    print("\n".join(faults) if faults else "the public interface is as docs/use/API.md says")
    sys.exit(1 if faults else 0)


if __name__ == "__main__":
    main()
