#!/usr/bin/env python3
"""Finds definitions, lemmas and code that stand word for word in two places.

    bench/twins.py

It reads each file .antt below crates/*/specs and crates/*/proofs that git has, and compares its
definitions and lemmas: their statements and their clauses, without comments, line breaks, `pub` and
`abbrev`. It prints each one that stands in more than one file, with the files, and then its status
is 1.

Two with the same words aren't the same if a name in them is that of another definition of this
repository: names are looked up in the file and in what it imports. Goals aren't compared, since the
prover names them and each function needs its own answer. They stand in the files Answers.antt,
Invariants.antt and Proof.antt, beside lemmas, which are compared.

It compares the code (crates/*/src) too: the functions' bodies, without comments and layout: two are
twins if their bodies are equal and have sixty characters or more, or if ten lines of the one are in
the other. `ALLOWED` has those that stay, each with the reason.
"""

import collections
import pathlib
import re
import subprocess
import sys

ROOT = pathlib.Path(__file__).resolve().parents[1]
ANSWERS = {"Answers.antt", "Invariants.antt", "Proof.antt"}
GOAL = re.compile(r"returns|decreases-|invariant|loop-|overflow_|.*-requires|.*-(preserved|init)\b")
WORDS = r"(?:(?:pub|abbrev|unfoldable) )*"
BEGINNING = re.compile(WORDS + r"(?:(?:record|data|ruleset) (\S+)|(\S+) :(?: |$))")
IMPORT = re.compile(r"(pub )?use (\S+)\.\{(.*)\}$")
OTHER = re.compile(r"(pub )?(use|mod) |infix|unfolding ")
NAME = re.compile(r"[^\s(){};,.\[\]]+")
FUNCTION = re.compile(r"( *)(?:pub(?:\([^)]*\))? )?(?:const )?(?:extern \"C\" )?fn (\w+)")
LEAST_BODY = 60
LINES = 10
# The functions whose code is twice there, and why it stays.
ALLOWED = {
    ("md_marks::is_of_protocol", "md_urls::is_in_scheme"):
        "neither crate uses the other, and no crate below both is about URLs",
    ("md_pattern::push_node", "md_tree::push_open"):
        "it is private to each, and inlined; a shared one would be exported",
    ("md_clean_abi::check_version", "md_markdown_abi::check_version"):
        "each reads the version in the options of its own layout",
    ("md_html::render", "md_html::render_within"):
        "the context borrows the definitions, which the caller must own",
    ("md_buffer::put_sanitized", "md_buffer::put_sanitized_with_protocols"):
        "what is emptied are five fields, which a method can't borrow apart from its own",
    ("md_cases::is_written", "md_cases::is_written"): "two types of errors without a common trait",
    ("md_cases::run_says", "md_cases::serve_says"): "two types of errors without a common trait",
}


class File:
    """The definitions of a file, and what it imports."""

    def __init__(self, path):
        self.definitions = []
        self.imports = {}
        sections = []
        text = None
        for line in path.read_text(encoding="utf-8").splitlines():
            code = line.strip()
            if not code or code.startswith("--"):
                continue
            depth = len(line) - len(line.lstrip())
            imported = IMPORT.match(line)
            if imported:
                for item in imported[3].split(","):
                    name, _, alias = item.strip().partition(" as ")
                    self.imports[alias or name] = (imported[2], name)
            while sections and depth <= sections[-1][0]:
                sections.pop()
            # A section's definitions are indented by two columns more than its first line.
            first = sections[-1][0] + 2 if sections else 0
            if depth == first and code.startswith("module _"):
                text = []
                sections.append((depth, text))
            elif depth == first and not OTHER.match(code) and BEGINNING.match(code):
                begins = BEGINNING.match(code)
                text = []
                self.definitions.append((begins[1] or begins[2], [head for _, head in sections],
                                         text))
            if text is not None and not imported:
                text.append(re.sub("^" + WORDS, "", code) if depth == first else code)
        self.definitions = [(name, " ".join(" ".join(lines) for lines in [*heads, text]))
                            for name, heads, text in self.definitions]
        self.texts = dict(self.definitions)


def module(file):
    """The name by which other files import a file."""
    return "Rattle." + file.removeprefix("crates/").removesuffix(".antt").replace("/", ".")


def meant(files, name, where):
    """The text of the definition that a name stands for in a file, if it's in this repository."""
    for _ in range(9):
        file = files.get(where)
        if file is None:
            return None
        if name in file.texts:
            return file.texts[name]
        if name not in file.imports:
            return None
        where, name = file.imports[name]
    return None


def are_same(files, text, one, other):
    """Whether no name in a text stands for two definitions."""
    for name in set(NAME.findall(text)):
        here, there = meant(files, name, one), meant(files, name, other)
        if here is not None and there is not None and here != there:
            return False
    return True


def listed(pattern):
    """The files that git has, of those that exist."""
    names = subprocess.run(["git", "-C", ROOT, "ls-files", pattern], check=True,
                           capture_output=True, text=True).stdout.split()
    return [name for name in names if (ROOT / name).exists()]


def functions(path):
    """The functions of a file of code: the name of each, and the lines of its body."""
    name = end = None
    body = []
    for line in path.read_text(encoding="utf-8").splitlines():
        begins = FUNCTION.match(line)
        if begins and name is None:
            name, end, is_open, body = begins[2], begins[1], False, []
        if name is None:
            continue
        is_outermost = line.startswith(end) and line[len(end):len(end) + 1] not in ("", " ")
        if not is_open:
            is_open = is_outermost and line.endswith("{")
            if is_outermost and line.endswith((";", "}")):
                name = None
        elif line == end + "}":
            yield name, body
            name = None
        elif line.strip() and not line.strip().startswith("//"):
            body.append(line.strip())


def twice():
    """The pairs of functions that share code, by crate and name, each with its files."""
    wholes, parts = collections.defaultdict(list), collections.defaultdict(list)
    for file in listed("crates/*.rt"):
        crate = file.split("/")[1]
        for name, body in functions(ROOT / file):
            place = f"{crate}::{name}", file
            if len(" ".join(body)) >= LEAST_BODY:
                wholes[" ".join(body)].append(place)
            for at in range(len(body) - LINES + 1):
                parts[" ".join(body[at:at + LINES])].append(place)
    found = {}
    for places in [*wholes.values(), *parts.values()]:
        for one in places:
            for other in places:
                if one < other:
                    found[tuple(sorted((one[0], other[0])))] = one[1], other[1]
    return found


def compared_code():
    """Prints the functions that share code and may not, and what is allowed in vain; returns how
    many these are.
    """
    found = twice()
    faults = [f"{one} and {other} share code: {' '.join(sorted(set(found[one, other])))}"
              for one, other in found if (one, other) not in ALLOWED]
    faults += [f"{one} and {other} may share code, and don't"
               for one, other in ALLOWED if (one, other) not in found]
    for fault in faults:
        print(f"twins: {fault}")
    return len(faults)


def main():
    """Compares all definitions, and the code."""
    paths = {module(file): file for file in listed("crates/*.antt")}
    files = {where: File(ROOT / file) for where, file in paths.items()}
    places = collections.defaultdict(list)
    count = 0
    for where, file in files.items():
        for name, text in file.definitions:
            if pathlib.Path(paths[where]).name in ANSWERS and GOAL.match(name):
                continue
            count += 1
            places[text].append((name, where))
    twins = 0
    for text, found in places.items():
        name, first = found[0]
        same = [where for _, where in found[1:]
                if where != first and are_same(files, text, first, where)]
        if same:
            twins += 1
            print(f"twins: {name} stands in", *(paths[where] for where in [first, *same]))
    faults = compared_code()
    if twins:
        print(f"twins: {twins} among {count} definitions stand in more than one file")
    if twins or faults:
        return 1
    print(f"twins: none among {count} definitions, and no code but what is allowed")
    return 0


if __name__ == "__main__":
    sys.exit(main())
