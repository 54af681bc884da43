#!/usr/bin/env python3
"""Finds definitions and lemmas that nothing cites.

    bench/uncited.py

It reads each file .antt below crates/*/specs and crates/*/proofs that git has. A definition or a
lemma is cited if the code of a crate names it (in a contract, or in what a proof is to use), if the
answer to a goal of the prover does, or if one that is cited does so. Names are looked up in the
file and in what it imports (bench/twins.py). It prints each one that isn't cited, and then its
status is 1.

A record, a datatype and an operator count as cited, since they are used by their fields, their
constructors and their symbols.
"""

import pathlib
import re
import sys

import twins

ROOT = pathlib.Path(__file__).resolve().parents[1]
COMMENT = re.compile(r"^\s*//.*$", re.MULTILINE)
WORD = re.compile(r"[^\s(){};,.\[\]:&*!<>=\"']+")
ROOT_TEXT = re.compile(r"(?:record|data) |\S+ : goal\.")
ALIAS = re.compile(r"use (\S+) as \S+$", re.MULTILINE)


def defined(files, where, name):
    """The file and the name of the definition that a name stands for in a file."""
    for _ in range(9):
        file = files.get(where)
        if file is None:
            return None
        if name in file.texts:
            return where, name
        if name not in file.imports:
            return None
        where, name = file.imports[name]
    return None


def is_root(path, name, text, of_code):
    """Whether a definition is cited by what isn't a definition."""
    is_goal = pathlib.Path(path).name in twins.ANSWERS and twins.GOAL.match(name)
    return is_goal or name in of_code or ROOT_TEXT.match(text) or "◌" in name


def main():
    """Prints what isn't cited."""
    paths = {twins.module(file): file for file in twins.listed("crates/*.antt")}
    files = {where: twins.File(ROOT / file) for where, file in paths.items()}
    named = {where: [whole for whole in ALIAS.findall((ROOT / file).read_text(encoding="utf-8"))
                     if whole in files] for where, file in paths.items()}
    of_code = set()
    for file in twins.listed("crates/*.rt"):
        text = (ROOT / file).read_text(encoding="utf-8")
        of_code.update(WORD.findall(COMMENT.sub("", text)))
    left, cited = [], set()
    for where, file in files.items():
        left += [(where, name) for name, text in file.definitions
                 if is_root(paths[where], name, text, of_code)]
    while left:
        at = left.pop()
        if at in cited:
            continue
        cited.add(at)
        texts = [text for name, text in files[at[0]].definitions if name == at[1]]
        names = {name for text in texts for name in twins.NAME.findall(text)}
        places = [at[0], *named[at[0]]]
        found = (defined(files, where, name) for where in places for name in names)
        left += [each for each in found if each]
    uncited = sorted((paths[where], name) for where, file in files.items() for name in file.texts
                     if (where, name) not in cited)
    for path, name in uncited:
        print(f"uncited: {name} in {path}")
    if uncited:
        print(f"uncited: {len(uncited)} definitions and lemmas")
        return 1
    print(f"uncited: none among {sum(len(file.texts) for file in files.values())} definitions")
    return 0


if __name__ == "__main__":
    sys.exit(main())
